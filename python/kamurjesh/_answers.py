"""What a market answers, and what is raised where it refuses."""

from typing import TYPE_CHECKING, Dict, List, NamedTuple, Optional

if TYPE_CHECKING:
    from .reports import Report

# The header's names of the refusals (enum kamurjesh_refusal).
NAMES: Dict[int, str] = {
    0: "KAMURJESH_TAKEN",
    1: "KAMURJESH_NO_ROOM",
    2: "KAMURJESH_NO_MARKET",
    3: "KAMURJESH_IN_WORK",
    4: "KAMURJESH_NUMBERS_SPENT",
    5: "KAMURJESH_GARBLED",
    6: "KAMURJESH_SESSION_REJECT",
    7: "KAMURJESH_ORDER_REJECT",
    8: "KAMURJESH_CHANGE_REJECT",
    9: "KAMURJESH_BAD_SETTING",
    10: "KAMURJESH_BAD_SIDE",
    11: "KAMURJESH_NO_REPORT",
    12: "KAMURJESH_BAD_LENGTH",
    13: "KAMURJESH_BAD_BLOCK",
    17: "KAMURJESH_BAD_FEED",
}


class Taken(NamedTuple):
    """A message that the market took.

    reports: what it wrote, in turn; the first is the Accepted, Replaced or Canceled of the message itself.
    steps: of matching, that were taken; 0 after `submit`."""

    reports: "List[Report]"
    steps: int = 0

    @property
    def number(self) -> int:
        """0, as of every message that is taken."""
        return 0


class Rejected(NamedTuple):
    """A message that the market rejected.

    number: 6 for a Session Reject, 7 for a rejected order, 8 for a rejected cancel or replacement.
    report: the reject that it wrote. reason: why, in words."""

    number: int
    report: "Report"
    reason: str


class Refused(Exception):
    """A call that the market refused: nothing was changed.

    number: the refusal's. name: what the header calls it, as 'KAMURJESH_GARBLED'."""

    def __init__(self, number: int, detail: str = "") -> None:
        self.number = number
        self.name = NAMES.get(number, "unknown")
        super().__init__(f"refused with {number} ({self.name})" + (f": {detail}" if detail else ""))


class LoadStopped(Refused):
    """A load that stopped in front of a message (4 or 5). What went before stands.

    place: of the first message not submitted, in bytes. finished: how many messages were. reports: what was written of them."""

    def __init__(self, number: int, place: int, finished: int, reports: "List[Report]") -> None:
        super().__init__(number, f"in front of the message at byte {place}, after {finished} messages")
        self.place = place
        self.finished = finished
        self.reports = reports


class BadImage(Refused):
    """An image that was changed since it was written (13). block: the first bad one, from 0."""

    def __init__(self, block: int) -> None:
        super().__init__(13, f"block {block} was changed")
        self.block = block


def accept(number: int, detail: Optional[str] = None) -> None:
    """Raises Refused unless the number is 0."""
    if number:
        raise Refused(number, detail or "")
