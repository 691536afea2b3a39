"""A router's test, with the market in place of the venue. Run it with pytest where the package is installed:

    pytest examples/python/test_router.py

`send` stands for your router: it gives a message to the market and gets back what the venue would send."""

from decimal import Decimal

import pytest

from kamurjesh import Market, Rejected, Taken, message

HEAD = "34=1|49=P|52=20261116-09:00:00|56=V"
TAIL = "60=20261116-09:00:00"


def new(name: str, side: int, quantity: int, quote: str, mpid: int, tif: int = 0) -> bytes:
    return message(
        f"35=D|{HEAD}|11={name}|21=1|38={quantity}|40=2|44={quote}|47=A|54={side}|55=350|59={tif}|{TAIL}|109={mpid}|8060=1"
    )


@pytest.fixture
def market() -> Market:
    """10 is the desk, under Cancel Newest; 11 under Cancel Oldest; 12 under Decrement; 13 somebody else."""
    return Market("V", "P", "350", {10: "cancel-newest", 11: "cancel-oldest", 12: "decrement", 13: "cancel-newest"})


def test_a_deep_book(market: Market) -> None:
    """Eight sells of 999,999,999 at one yield: more than 32 bits can say."""
    for number in range(8):
        market.take(new(f"deep{number}", 2, 999_999_999, "0.100", 13))
    best = market.top("sell")
    assert best is not None and (best.quote, best.quantity, best.orders) == (Decimal("0.1"), 7_999_999_992, 8)
    answer = market.take(new("sweep", 1, 999_999_999, "0.100", 10, tif=3))
    assert isinstance(answer, Taken)
    assert [(report[11], report[32]) for report in answer.reports if report.kind == "Trade"] == [
        ("deep0", "999999999"),
        ("sweep", "999999999"),
    ]


def test_a_reject(market: Market) -> None:
    """A yield with four decimals is no yield."""
    answer = market.take(new("a", 1, 100, "0.1005", 10))
    assert isinstance(answer, Rejected)
    assert (answer.report[371], answer.report[373]) == ("44", "6")
    print(answer.reason)


@pytest.mark.parametrize(
    "mpid, canceled, bought, rests",
    [
        (10, ["mine"], 300, 0),  # Cancel Newest: the order in work goes, and never meets the 500 behind its own
        (11, ["own"], 800, 400),  # Cancel Oldest: the resting one goes, and the order trades on
        (12, ["own"], 800, 200),  # Decrement: the smaller goes, and the larger loses as much
    ],
)
def test_self_trades(market: Market, mpid: int, canceled: list, bought: int, rests: int) -> None:
    for name, quantity, quote, owner in (("a", 100, "0.101", 13), ("b", 200, "0.100", 13), ("own", 200, "0.100", mpid), ("c", 500, "0.100", 13)):
        market.take(new(name, 2, quantity, quote, owner))
    answer = market.take(new("mine", 1, 1200, "0.100", mpid))
    assert isinstance(answer, Taken)
    assert [report[11] for report in answer.reports if report.kind == "Canceled"] == canceled
    assert sum(int(report[32]) for report in answer.reports if report.kind == "Trade" and report[11] == "mine") == bought
    assert sum(level.quantity for level in market.depth("buy")) == rests
