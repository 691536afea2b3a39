"""Whatever is handed in, the interpreter goes on: random bytes, lengths, numbers and types on every call, for as many seconds as
KAMURJESH_RANDOM_SECONDS says (10 where it says nothing)."""

import os
import random
import time
from typing import Any, Callable, List

from conftest import order

from kamurjesh import Copy, Equities, Feed, Market, Refused, Report, calls, message

SECONDS = float(os.environ.get("KAMURJESH_RANDOM_SECONDS", "10"))
EXPECTED = (Refused, TypeError, ValueError, KeyError)


class Source:
    """Random arguments: mostly of the right type, with bytes that are nearly a message, a report, a table or an image."""

    def __init__(self, seed: int) -> None:
        self.random = random.Random(seed)
        market = Market("V", "P", "350", {10: "cancel-newest", 11: "decrement"})
        told = [market.take(order(f"o{n}", 1 + n, 1 + n % 2, f"0.{100 + n % 3}", 10 + n % 2)) for n in range(40)]
        reports = [report.bytes for answer in told for report in getattr(answer, "reports", [])]
        self.seeds: List[bytes] = [order("x", 5, 1, "0.1", 10), message("35=F|34=1"), *reports[:20], market.table, market.save(), b""]

    def data(self) -> bytes:
        whole = bytearray(self.random.choice(self.seeds))
        for _ in range(self.random.choice([0, 0, 1, 2, 50])):
            if whole:
                whole[self.random.randrange(len(whole))] = self.random.randrange(256)
        cut = self.random.choice([0, 0, 0, 1, 7, len(whole) // 2])
        return bytes(whole[: len(whole) - cut]) + self.random.choice([b"", b"", b"\x00", self.random.randbytes(self.random.randrange(2000))])

    def buffer(self) -> bytearray:
        return bytearray(self.data()) if self.random.random() < 0.7 else bytearray(self.random.choice([0, 1, 1023, 1024, 4096, 32767, 32768, 33280]))

    def number(self) -> int:
        return self.random.choice([0, 1, 2, 3, 7, 255, 2**31, 2**63, 2**64 - 1, 2**64, -1, self.random.randrange(2**64)])

    def any(self) -> Any:
        return self.random.choice([None, 1.5, "text", b"x", [1], {}, object(), True, self.data(), self.buffer(), self.number()])

    def pick(self, make: Callable[[], Any]) -> Any:
        return make() if self.random.random() < 0.97 else self.any()


def lower_calls(one: Source) -> List[Callable[[], Any]]:
    data, buffer, number = (lambda: one.pick(one.data)), (lambda: one.pick(one.buffer)), (lambda: one.pick(one.number))
    equities = one.random.random() < 0.3
    numbers = [number() for _ in range(one.random.randrange(10))]
    return [
        lambda: calls.open_market(buffer(), data(), data(), data(), number(), numbers, numbers, equities),
        lambda: calls.submit(buffer(), data(), buffer(), equities),
        lambda: calls.run(buffer(), buffer(), number(), equities),
        lambda: calls.load(buffer(), data(), buffer(), equities),
        lambda: calls.depth(data(), number(), number(), equities),
        lambda: calls.top(data(), number(), equities),
        lambda: calls.read(data(), equities),
        lambda: calls.field(data(), number()),
        lambda: calls.copy(data(), number(), number(), data(), data(), number(), buffer(), equities),
        lambda: calls.copy_read(data(), equities),
        lambda: calls.save(data(), buffer(), equities),
        lambda: calls.restore(buffer(), data(), equities),
    ]


def upper_calls(one: Source, market: Market) -> List[Callable[[], Any]]:
    data, number = (lambda: one.pick(one.data)), (lambda: one.pick(one.number))
    return [
        lambda: market.submit(data()),
        lambda: market.take(data()),
        lambda: market.run(number()),
        lambda: market.load(data()),
        lambda: market.depth(number()),
        lambda: market.top(number()),
        lambda: market.restore(data()),
        lambda: type(market).from_image(data()),
        lambda: Report(data()).fields,
        lambda: Copy(data()),
        lambda: Feed("full", port="P").copy(Report(data())),
        lambda: message(one.any()),
        lambda: type(market)("V", "P", "350", one.any(), number()),
    ]


def test_nothing_crashes() -> None:
    one = Source(20261116)
    markets = [Market("V", "P", "350", {10: "cancel-newest"}), Equities("V", "P", "7203", {10: "decrement"})]
    ends = time.monotonic() + SECONDS
    tried = 0
    while time.monotonic() < ends:
        for call in lower_calls(one) + upper_calls(one, one.random.choice(markets)):
            tried += 1
            try:
                call()
            except EXPECTED:
                pass
    assert tried > 1000


def test_one_buffer_twice_is_told() -> None:
    table = bytearray(calls.TABLE_BYTES)
    for wrong in (lambda: calls.submit(table, b"", table), lambda: calls.run(table, table, 1)):
        try:
            wrong()
        except ValueError:
            continue
        raise AssertionError("one buffer was lent twice")
