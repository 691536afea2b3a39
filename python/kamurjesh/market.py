"""A market of bonds, and one of equities: opened, given messages, asked for its depth, written out and read back."""

import os
from decimal import Decimal
from typing import List, Mapping, NamedTuple, Optional, Sequence, Tuple, Type, TypeVar, Union

from . import calls, settings
from ._answers import BadImage, LoadStopped, Rejected, Taken, accept
from .reports import Report, split_reports
from .settings import MODES
from .words import reason_of

SIDES = {"buy": 1, "sell": 2}

# Room for the reports of one call; a Run that needs more goes on in it.
_AREA_BYTES = 65536
_NO_BUDGET = 2**64 - 1


class Level(NamedTuple):
    """A level of the depth: its yield or price, the quantity that is open there, and how many orders that is."""

    quote: Decimal
    quantity: int
    orders: int


class Ran(NamedTuple):
    """What a run came to: its reports in turn, and the steps of matching that were taken."""

    reports: List[Report]
    steps: int


class Loaded(NamedTuple):
    """What a load came to: how many messages were taken or rejected, and all reports in turn."""

    finished: int
    reports: List[Report]


Side = Union[int, str]
Answer = Union[Taken, Rejected]
Self = TypeVar("Self", bound="Market")


def _text(value: object, name: str) -> bytes:
    if not isinstance(value, str):
        raise TypeError(f"{name} must be a str, not {type(value).__name__}")
    try:
        return value.encode("ascii")
    except UnicodeEncodeError:
        raise ValueError(f"{name} has ASCII characters alone, not {value!r}") from None


def _side(side: Side) -> int:
    if isinstance(side, str):
        if side not in SIDES:
            raise ValueError(f"side must be 'buy' or 'sell', 1 or 2, not {side!r}")
        return SIDES[side]
    return side


def _modes(mpids: Mapping[int, str]) -> Tuple[Sequence[int], Sequence[int]]:
    if not isinstance(mpids, Mapping):
        raise TypeError(f"mpids must be a mapping of MPIDs to modes, not {type(mpids).__name__}")
    for mpid, mode in mpids.items():
        if mode not in MODES:
            raise ValueError(f"the mode of MPID {mpid} must be one of {', '.join(MODES)}, not {mode!r}")
    return list(mpids), [MODES[mode] for mode in mpids.values()]


class Market:
    """A market of bonds: one bond, one FIX port, up to 255 open orders. Quotes are yields.

    venue, port: 1 to 8 characters. code: the bond code, 1 to 9 digits. mpids: the MPIDs that may trade, 1 to 8 of them, each with what
    happens when its own orders meet: 'cancel-newest', 'cancel-oldest' or 'decrement'. first: the number of the first report.

    Raises Refused (9) for a setting out of its range, ValueError for a mode that is none, TypeError for values of another type.

    >>> market = Market("V", "P", "350", {10: "cancel-oldest", 11: "cancel-newest"})
    >>> market.depth("buy")
    []
    """

    #: Whose calls are made, and how many steps a quote of 1 has.
    equities = False
    _unit = Decimal(1000)

    def __init__(self, venue: str, port: str, code: str, mpids: Mapping[int, str], first: int = 1) -> None:
        self._lend()
        numbers, modes = _modes(mpids)
        accept(
            calls.open_market(
                self._table, _text(venue, "venue"), _text(port, "port"), _text(code, "code"), first, numbers, modes, self.equities
            )
        )

    def _lend(self) -> None:
        self._table = calls.Lent(bytearray(calls.TABLE_BYTES))
        self._area = calls.Lent(bytearray(_AREA_BYTES))

    @classmethod
    def from_image(cls: Type[Self], image: bytes) -> Self:
        """The market that an image holds, as `save` gave it.

        Raises Refused: 12 for an image of another length, 13 (BadImage, with the block) for one that was changed, 2 for one that holds no
        market of this kind."""
        market = cls.__new__(cls)
        market._lend()
        market.restore(image)
        return market

    @classmethod
    def from_settings(cls: Type[Self], path: settings.Path, issue: Optional[str] = None) -> Self:
        """A market of a settings file, that of `rehearse --market`: the first of this kind, or the one whose code or symbol is `issue`.

        Raises SettingsError (a ValueError with line and reason) where the file is wrong, ValueError where it has no such market, OSError where it
        cannot be read."""
        for opening in settings.read(path):
            if opening.equities == cls.equities and issue in (None, opening.code):
                return cls(opening.venue, opening.port, opening.code, opening.mpids, opening.first)
        kind = "equities" if cls.equities else "bonds"
        raise ValueError(f"{os.fspath(path)} has no market of {kind}" + (f" with the code {issue}" if issue else ""))

    @property
    def table(self) -> bytes:
        """The market's table: 32,768 bytes, a copy of them."""
        return bytes(self._table.buffer)

    def _written(self, length: int) -> List[Report]:
        return split_reports(bytes(self._area.buffer[:length]), self.equities)

    def submit(self, message: bytes) -> Answer:
        """Takes one message. A new order or a replacement that is taken is then in work: `run` matches it, and `take` does both.

        Returns Taken with the first report, or Rejected (6, 7 or 8) with the reject and its reason in words. Raises Refused: 3 while an
        order is in work, 4 when the numbers are spent, 5 for a garbled message; nothing is then changed."""
        answer = calls.submit(self._table, message, self._area, self.equities)
        if answer.number in (6, 7, 8):
            (report,) = self._written(answer.length)
            return Rejected(answer.number, report, reason_of(report))
        accept(answer.number)
        return Taken(self._written(answer.length))

    def run(self, budget: Optional[int] = None) -> Ran:
        """Matches the order in work, at most `budget` steps, or to its end where none is given. With nothing in work nothing happens."""
        reports: List[Report] = []
        steps = 0
        while True:
            left = _NO_BUDGET if budget is None else budget - steps
            answer = calls.run(self._table, self._area, left, self.equities)
            accept(answer.number)
            reports += self._written(answer.length)
            steps += answer.steps
            if answer.steps == 0 or steps == budget:
                return Ran(reports, steps)

    def take(self, message: bytes) -> Answer:
        """Takes one message and runs it to its end.

        Returns Taken with all reports in turn and the steps taken, or Rejected. Raises Refused as `submit` does."""
        answer = self.submit(message)
        if isinstance(answer, Rejected):
            return answer
        ran = self.run()
        return Taken(answer.reports + ran.reports, ran.steps)

    def load(self, buffer: bytes) -> Loaded:
        """Takes the messages that lie one behind another in the buffer, each submitted and run to its end. Garbled ones are passed over.

        Returns how many were finished, and all reports. Raises Refused (3) while an order is in work, and LoadStopped at bytes whose length
        cannot be read (5) or when the numbers are spent (4): what went before stands."""
        data = bytes(buffer) if isinstance(buffer, (bytearray, memoryview)) else buffer
        reports: List[Report] = []
        finished = place = 0
        while True:
            answer = calls.load(self._table, data[place:], self._area, self.equities)
            if answer.number in (2, 3):
                accept(answer.number)
            reports += self._written(answer.length)
            place += answer.place
            finished += answer.finished
            if answer.number == 1:
                ran = self.run()
                reports += ran.reports
                finished += bool(ran.steps)
            elif answer.number:
                raise LoadStopped(answer.number, place, finished, reports)
            else:
                return Loaded(finished, reports)

    def _asked(self, answer: calls.Found) -> Optional[Level]:
        accept(answer.number)
        return Level(Decimal(answer.quote) / self._unit, answer.total, answer.orders) if answer.found else None

    def depth(self, side: Side) -> List[Level]:
        """The levels of a side ('buy' or 'sell', 1 or 2), best first. Raises Refused: 3 while an order is in work, 10 for another side."""
        levels: List[Level] = []
        while True:
            level = self._asked(calls.depth(self._table, _side(side), len(levels), self.equities))
            if level is None:
                return levels
            levels.append(level)

    def top(self, side: Side) -> Optional[Level]:
        """The best level of a side, or None if nothing is open there. Raises Refused as `depth` does."""
        return self._asked(calls.top(self._table, _side(side), self.equities))

    def save(self) -> bytes:
        """The market written out with checks: 33,280 bytes, for a file."""
        image = bytearray(calls.IMAGE_BYTES)
        accept(calls.save(self._table, image, self.equities))
        return bytes(image)

    def restore(self, image: bytes) -> None:
        """Goes on with the market in an image instead of this one. Raises Refused as `from_image` does; this market is then what it was."""
        answer = calls.restore(self._table, image, self.equities)
        if answer.number == 13:
            raise BadImage(answer.value)
        accept(answer.number)


class Equities(Market):
    """A market of equities: one share. Quotes are prices, of which the higher is better for a buy; `code` is the symbol, 1 to 9
    characters. All else as in Market.

    >>> Equities("V", "P", "7203", {10: "decrement"}).top("sell") is None
    True
    """

    equities = True
    _unit = Decimal(10)
