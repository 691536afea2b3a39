"""The rehearsal market for those who test order routers: bonds and equities, self-trade prevention, drop copies, depth.

    >>> from kamurjesh import Market, message
    >>> market = Market("V", "P", "350", {10: "cancel-newest", 11: "cancel-newest"})
    >>> order = "35=D|34=1|49=P|52=20261116-09:00:00|56=V|11=%s|21=1|38=%d|40=2|44=0.100|47=A|54=%d|55=350|59=0|60=20261116-09:00:00|109=%d|8060=1"
    >>> [report.kind for report in market.take(message(order % ("a", 999999999, 2, 11))).reports]
    ['Accepted']
    >>> answer = market.take(message(order % ("b", 300, 1, 10)))
    >>> [(report.kind, report[37], report.get(32)) for report in answer.reports]
    [('Accepted', '2', None), ('Trade', '1', '300'), ('Trade', '2', '300')]
    >>> market.depth("sell")
    [Level(quote=Decimal('0.1'), quantity=999999699, orders=1)]

Every answer is the library's, which is proved to do what the papers say; this package lends it buffers and makes objects of what comes
back. Yields and prices are decimals, quantities ints: there is no float anywhere."""

from ._answers import BadImage, LoadStopped, Refused, Rejected, Taken
from .market import Equities, Level, Loaded, Market, Ran
from .reports import Copy, Feed, Report, message
from .settings import SettingsError

__all__ = [
    "Market",
    "Equities",
    "Taken",
    "Rejected",
    "Refused",
    "LoadStopped",
    "BadImage",
    "SettingsError",
    "Level",
    "Ran",
    "Loaded",
    "Report",
    "Copy",
    "Feed",
    "message",
]
