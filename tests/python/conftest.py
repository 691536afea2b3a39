"""What the tests share: the tree's folder, a message, a market with three owners."""

from pathlib import Path

import pytest

from kamurjesh import Market, message

ROOT = Path(__file__).resolve().parents[2]


def order(name: str, quantity: int, side: int, quote: str, mpid: int, more: str = "59=0") -> bytes:
    """A new order for code 350."""
    return message(
        f"35=D|34=1|49=P|52=20261116-09:00:00|56=V|11={name}|21=1|38={quantity}|40=2|44={quote}|47=A|54={side}|55=350|{more}"
        f"|60=20261116-09:00:00|109={mpid}|8060=1"
    )


@pytest.fixture
def market() -> Market:
    return Market("V", "P", "350", {10: "cancel-newest", 11: "cancel-oldest", 12: "decrement"})
