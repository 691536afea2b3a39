"""The calls of the library, one function each, as include/kamurjesh.h tells them: what is lent goes in, and the number of the answer
comes out with the values that go with it. Nothing here raises for what a market refuses; `Market` is the comfortable form.

`equities` says whose call it is. What a call writes is a bytearray (or one that was lent before, `Lent`); what is only read is any bytes-like
object. TypeError and ValueError are raised before the library is called: for an argument of another type, for a number that has no
room in 64 bits, and for one buffer lent twice where the call writes into it."""

import ctypes
from typing import Any, List, NamedTuple, Sequence, Union

from ._library import library

TABLE_BYTES = 32768
IMAGE_BYTES = 33280
LEAST_AREA = 1024
LONGEST_REPORT = 512


class Submitted(NamedTuple):
    """What Submit gives: the number of its answer, and the length of the report at the start of the area."""

    number: int
    length: int


class Ran(NamedTuple):
    """What Run gives: the number of its answer, the bytes and reports written, and the steps taken."""

    number: int
    length: int
    reports: int
    steps: int


class Loaded(NamedTuple):
    """What Load gives: the number of its answer, the place of the first message not submitted, how many messages were finished, and the
    bytes and reports written."""

    number: int
    place: int
    finished: int
    length: int
    reports: int


class Found(NamedTuple):
    """What Depth and the top of book give: the number of the answer, 1 if there is such a level, its yield in thousandths or its price in
    tenths, its total and its number of orders."""

    number: int
    found: int
    quote: int
    total: int
    orders: int


class Copied(NamedTuple):
    """What a feed gives: the number of its answer, the length of the copy, and the feed's next number."""

    number: int
    length: int
    next_after: int


class Told(NamedTuple):
    """An answer with one number beside it: the kind of a report or a copy, or the bad block of an image."""

    number: int
    value: int


class Place(NamedTuple):
    """Where the value of a tag stands: 1 and its first byte and its length, or three zeros."""

    found: int
    start: int
    length: int


class Lent:
    """A bytearray that is lent to many calls. It cannot change its length while this is alive."""

    def __init__(self, buffer: bytearray) -> None:
        if not isinstance(buffer, bytearray):
            raise TypeError(f"what a call writes must be a bytearray, not {type(buffer).__name__}")
        self.buffer = buffer
        self.length = len(buffer)
        self._held = (ctypes.c_char * self.length).from_buffer(buffer)
        self.pointer = ctypes.addressof(self._held)


Readable = Union[bytes, bytearray, memoryview, Lent]
Writable = Union[bytearray, Lent]


class _Whole:
    """Bytes that a call reads."""

    def __init__(self, value: bytes) -> None:
        self.length = len(value)
        self._held = value
        self.pointer = ctypes.cast(ctypes.c_char_p(value), ctypes.c_void_p).value


class _Numbers:
    """A list of numbers that a call reads."""

    def __init__(self, values: Sequence[int], name: str) -> None:
        self.length = len(values)
        self._held = (ctypes.c_uint64 * self.length)(*(_number(value, name) for value in values))
        self.pointer = ctypes.addressof(self._held)


def _written(value: Writable) -> Lent:
    return value if isinstance(value, Lent) else Lent(value)


def _read(value: Readable, name: str) -> Union[Lent, _Whole]:
    if isinstance(value, Lent):
        return value
    if not isinstance(value, (bytes, bytearray, memoryview)):
        raise TypeError(f"{name} must be bytes, a bytearray or a memoryview, not {type(value).__name__}")
    return _Whole(value if isinstance(value, bytes) else bytes(value))


def _number(value: int, name: str) -> int:
    if not isinstance(value, int) or isinstance(value, bool):
        raise TypeError(f"{name} must be an int, not {type(value).__name__}")
    if not 0 <= value < 2**64:
        raise ValueError(f"{name} must be 0 to 2**64 - 1, not {value}")
    return value


def _apart(*written: Lent) -> None:
    if len({id(lent.buffer) for lent in written}) < len(written):
        raise ValueError("one buffer is lent twice to a call that writes into it")


def _call(equities: bool, name: str, *given: Any) -> int:
    """Calls the function of that name: what is lent goes as pointer and length, an out value by its address."""
    words: List[Any] = []
    for one in given:
        if isinstance(one, (Lent, _Whole, _Numbers)):
            words += (one.pointer, one.length)
        else:
            words.append(one if isinstance(one, int) else ctypes.byref(one))
    function = getattr(library, ("kamurjesh_equities_" if equities else "kamurjesh_") + name)
    return int(function(*words))


def _outs(count: int) -> List[ctypes.c_uint64]:
    return [ctypes.c_uint64(0) for _ in range(count)]


def _level(equities: bool, name: str, *given: Any) -> Found:
    found, total, orders = _outs(3)
    quote = ctypes.c_int64(0)
    number = _call(equities, name, *given, found, quote, total, orders)
    return Found(number, found.value, quote.value, total.value, orders.value)


def open_market(
    table: Writable,
    venue: Readable,
    port: Readable,
    code: Readable,
    first: int,
    mpids: Sequence[int],
    modes: Sequence[int],
    equities: bool = False,
) -> int:
    """Opens a market in the table and returns the number of the answer: 0, or 9 with the table as it was."""
    return _call(
        equities,
        "open",
        _written(table),
        _read(venue, "venue"),
        _read(port, "port"),
        _read(code, "code"),
        _number(first, "first"),
        _Numbers(mpids, "an MPID"),
        _Numbers(modes, "a mode"),
    )


def submit(table: Writable, message: Readable, area: Writable, equities: bool = False) -> Submitted:
    """Takes one message; its first report stands at the start of the area."""
    lent, into = _written(table), _written(area)
    _apart(lent, into)
    (length,) = _outs(1)
    number = _call(equities, "submit", lent, _read(_aside(message, lent, into), "message"), into, length)
    return Submitted(number, length.value)


def run(table: Writable, area: Writable, budget: int, equities: bool = False) -> Ran:
    """Matches the order in work, at most budget steps; the reports stand one behind the other from the start of the area."""
    lent, into = _written(table), _written(area)
    _apart(lent, into)
    length, reports, steps = _outs(3)
    number = _call(equities, "run", lent, into, _number(budget, "budget"), length, reports, steps)
    return Ran(number, length.value, reports.value, steps.value)


def load(table: Writable, buffer: Readable, area: Writable, equities: bool = False) -> Loaded:
    """Takes the messages that lie one behind another in the buffer, each submitted and run to its end."""
    lent, into = _written(table), _written(area)
    _apart(lent, into)
    outs = _outs(4)
    number = _call(equities, "load", lent, _read(_aside(buffer, lent, into), "buffer"), into, *outs)
    return Loaded(number, *(out.value for out in outs))


def depth(table: Readable, side: int, k: int, equities: bool = False) -> Found:
    """The k-th level of a side from the best, k from 0."""
    return _level(equities, "depth", _read(table, "table"), _number(side, "side"), _number(k, "k"))


def top(table: Readable, side: int, equities: bool = False) -> Found:
    """The best level of a side, as the heading of the table keeps it."""
    return _level(equities, "top", _read(table, "table"), _number(side, "side"))


def read(report: Readable, equities: bool = False) -> Told:
    """Whether the bytes are one report, and its kind."""
    (kind,) = _outs(1)
    return Told(_call(equities, "read", _read(report, "report"), kind), kind.value)


def field(report: Readable, tag: int) -> Place:
    """Where the value of a tag stands in a report or a copy, of either market."""
    start, length = _outs(2)
    found = _call(False, "field", _read(report, "report"), _number(tag, "tag"), start, length)
    return Place(found, start.value, length.value)


def copy(
    report: Readable,
    subscription: int,
    shows: int,
    port: Readable,
    group: Readable,
    next_number: int,
    area: Writable,
    equities: bool = False,
) -> Copied:
    """Hands a feed one report; the copy, where there is one, stands at the start of the area."""
    into = _written(area)
    length, next_after = _outs(2)
    number = _call(
        equities,
        "copy",
        _read(_aside(report, into), "report"),
        _number(subscription, "subscription"),
        _number(shows, "shows"),
        _read(_aside(port, into), "port"),
        _read(_aside(group, into), "group"),
        _number(next_number, "next_number"),
        into,
        length,
        next_after,
    )
    return Copied(number, length.value, next_after.value)


def copy_read(drop_copy: Readable, equities: bool = False) -> Told:
    """Whether the bytes are one drop copy, and its kind."""
    (kind,) = _outs(1)
    return Told(_call(equities, "copy_read", _read(drop_copy, "drop_copy"), kind), kind.value)


def save(table: Readable, image: Writable, equities: bool = False) -> int:
    """Writes the market into the image and returns the number of the answer."""
    into = _written(image)
    return _call(equities, "save", _read(_aside(table, into), "table"), into)


def restore(table: Writable, image: Readable, equities: bool = False) -> Told:
    """Reads the market in the image back into the table; of 13 the first bad block is told."""
    into = _written(table)
    (block,) = _outs(1)
    return Told(_call(equities, "restore", into, _read(_aside(image, into), "image"), block), block.value)


def _aside(value: Readable, *written: Lent) -> Readable:
    """What is read, copied first where it is a buffer that the same call writes."""
    if isinstance(value, Lent) and any(value.buffer is lent.buffer for lent in written):
        return bytes(value.buffer)
    return value
