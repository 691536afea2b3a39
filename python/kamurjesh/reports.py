"""Reports and drop copies, read from bytes by the library; feeds; and messages."""

from typing import Iterator, List, Optional, Tuple

from . import calls
from ._answers import Refused, accept

SOH = "\x01"

# enum kamurjesh_kind
KINDS = {
    1: "Accepted",
    2: "Replaced",
    3: "Canceled",
    4: "Trade",
    5: "Rejected",
    6: "Cancel reject",
    7: "Session Reject",
}

_SUBSCRIPTIONS = {"reconciliation": 1, "full": 2}


class _Read:
    """What reports and copies have in common: bytes that the library has read, with their kind and their fields."""

    def __init__(self, data: bytes, answer: calls.Told) -> None:
        accept(answer.number)
        self.bytes = bytes(data)
        self.kind = KINDS[answer.value]

    @property
    def fields(self) -> List[Tuple[int, str]]:
        """All fields in the order of the bytes, 8, 9 and 10 among them: tag and value."""
        pairs = (field.partition("=") for field in self.bytes.decode("ascii").split(SOH)[:-1])
        return [(int(tag), value) for tag, _, value in pairs]

    def get(self, tag: int) -> Optional[str]:
        """The value of a tag, or None if no field has it."""
        place = calls.field(self.bytes, tag)
        return self.bytes[place.start : place.start + place.length].decode("ascii") if place.found else None

    def __getitem__(self, tag: int) -> str:
        """The value of a tag. Raises KeyError if no field has it."""
        value = self.get(tag)
        if value is None:
            raise KeyError(tag)
        return value

    def __contains__(self, tag: object) -> bool:
        return isinstance(tag, int) and 0 <= tag < 2**64 and self.get(tag) is not None

    def __iter__(self) -> Iterator[int]:
        return (tag for tag, _ in self.fields)

    def __eq__(self, other: object) -> bool:
        return type(other) is type(self) and isinstance(other, _Read) and other.bytes == self.bytes

    def __hash__(self) -> int:
        return hash(self.bytes)

    def __str__(self) -> str:
        """The bytes as text, with | for SOH."""
        return self.bytes.decode("ascii").replace(SOH, "|")

    def __repr__(self) -> str:
        return f"<{type(self).__name__} {self.kind} {self}>"


class Report(_Read):
    """A report of the market, one of the seven kinds.

    kind: 'Accepted', 'Replaced', 'Canceled', 'Trade', 'Rejected', 'Cancel reject' or 'Session Reject'. bytes: as it was written.

    Raises Refused (11) if the bytes are no report of the market, and TypeError if they are no bytes.

    >>> from kamurjesh import Market, message
    >>> market = Market("V", "P", "350", {10: "cancel-newest"})
    >>> taken = market.take(message("35=D|34=1|49=P|52=20261116-09:00:00|56=V|11=a|21=1|38=100|40=2|44=0.1|47=A|54=1|55=350|59=0|60=20261116-09:00:00|8060=1"))
    >>> report = taken.reports[0]
    >>> report.kind, report[37], report[44]
    ('Accepted', '1', '0.100')
    >>> report.fields[:3]
    [(8, 'FIX.4.2'), (9, '181'), (35, '8')]
    """

    def __init__(self, data: bytes, equities: bool = False) -> None:
        super().__init__(data, calls.read(data, equities))
        self.equities = equities


class Copy(_Read):
    """A drop copy that a feed wrote; its kind is 'Accepted', 'Replaced', 'Canceled' or 'Trade'.

    Raises Refused (11) if the bytes are no drop copy, and TypeError if they are no bytes."""

    def __init__(self, data: bytes, equities: bool = False) -> None:
        super().__init__(data, calls.copy_read(data, equities))
        self.equities = equities


def _identifier(value: Optional[str], name: str) -> bytes:
    if value is None:
        return b""
    if not isinstance(value, str):
        raise TypeError(f"{name} must be a str, not {type(value).__name__}")
    return value.encode("latin-1", "replace")


class Feed:
    """A back office's feed of drop copies. It keeps its next number.

    subscription: 'reconciliation' (trades alone) or 'full'. port, group: the identifiers that 109 shows, one or both; next_number: of
    the next copy.

    Raises ValueError for another subscription and where neither identifier is given, TypeError for values of another type.

    >>> feed = Feed("reconciliation", group="G7")
    >>> feed.next_number
    1
    """

    def __init__(
        self, subscription: str, *, port: Optional[str] = None, group: Optional[str] = None, next_number: int = 1, equities: bool = False
    ) -> None:
        if subscription not in _SUBSCRIPTIONS:
            raise ValueError(f"subscription must be 'reconciliation' or 'full', not {subscription!r}")
        if port is None and group is None:
            raise ValueError("a feed shows a port, a group, or both in 109: give port, group or both")
        self._subscription = _SUBSCRIPTIONS[subscription]
        self._port, self._group = _identifier(port, "port"), _identifier(group, "group")
        self._shows = (port is not None) + 2 * (group is not None)
        self._area = calls.Lent(bytearray(calls.LEAST_AREA))
        self.next_number = next_number
        self.equities = equities

    def copy(self, report: Report) -> Optional[Copy]:
        """Hands the feed a report, and returns the copy, or None if the feed has no reports of that kind.

        Raises Refused: 11 for a report of the other market, 17 for an identifier that cannot be shown, 4 when the feed's numbers are
        spent; nothing is then changed. Raises TypeError for anything but a Report."""
        if not isinstance(report, Report):
            raise TypeError(f"report must be a Report, not {type(report).__name__}")
        answer = calls.copy(
            report.bytes, self._subscription, self._shows, self._port, self._group, self.next_number, self._area, self.equities
        )
        accept(answer.number)
        self.next_number = answer.next_after
        return Copy(bytes(self._area.buffer[: answer.length]), self.equities) if answer.length else None


def split_reports(data: bytes, equities: bool) -> List[Report]:
    """The reports that lie one behind another, each found by its own BodyLength."""
    found, at = [], 0
    while at < len(data):
        length = calls.field(data[at:], 9)
        behind = at + length.start + length.length + 1
        end = behind + int(data[at + length.start : behind - 1]) + 7
        found.append(Report(data[at:end], equities))
        at = end
    return found


def message(text: str) -> bytes:
    """The bytes of a message: `text` has its fields, from 35 on, with | for SOH; 8, 9 and 10 are set here.

    Raises TypeError for anything but a str, and ValueError for a character that is not ASCII and for a field 8, 9 or 10.

    >>> message("35=F|34=2|49=P")
    b'8=FIX.4.2\\x019=15\\x0135=F\\x0134=2\\x0149=P\\x0110=186\\x01'
    """
    if not isinstance(text, str):
        raise TypeError(f"a message is made from a str, not {type(text).__name__}")
    if not text.isascii():
        raise ValueError("a message has ASCII characters alone")
    fields = text.strip("|").split("|") if text.strip("|") else []
    for one in fields:
        if one.partition("=")[0] in ("8", "9", "10"):
            raise ValueError(f"8, 9 and 10 are worked out; leave {one!r} away")
    body = "".join(one + SOH for one in fields)
    head = f"8=FIX.4.2{SOH}9={len(body)}{SOH}{body}".encode("ascii")
    return head + f"10={sum(head) % 256:03d}{SOH}".encode("ascii")


__all__ = ["Report", "Copy", "Feed", "message", "Refused"]
