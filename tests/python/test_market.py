"""A market through the package: what comes back, and what is raised."""

from decimal import Decimal

import pytest
from conftest import order

from kamurjesh import BadImage, Copy, Equities, Feed, Level, LoadStopped, Market, Refused, Rejected, Report, Taken, message


def test_a_trade_and_the_depth(market: Market) -> None:
    assert isinstance(market.take(order("a", 500, 2, "0.105", 10)), Taken)
    answer = market.take(order("b", 200, 1, "0.1", 11))
    assert [(report.kind, report[11]) for report in answer.reports] == [("Accepted", "b"), ("Trade", "a"), ("Trade", "b")]
    assert answer.steps == 2
    assert market.depth("sell") == [Level(Decimal("0.105"), 300, 1)]
    assert market.depth(1) == [] and market.top("buy") is None
    assert market.top("sell") == market.depth(2)[0]


def test_a_deep_level_is_not_cut_to_32_bits(market: Market) -> None:
    for number in range(5):
        market.take(order(f"s{number}", 999_999_999, 2, "0.1", 10))
    assert market.top("sell") == Level(Decimal("0.1"), 4_999_999_995, 5)


@pytest.mark.parametrize("mpid, open_after", [(10, 100), (11, 0), (12, 50)])
def test_each_mode(market: Market, mpid: int, open_after: int) -> None:
    market.take(order("own", 100, 2, "0.1", mpid))
    market.take(order("new", 50, 1, "0.1", mpid, "59=3"))
    assert sum(level.quantity for level in market.depth("sell")) == open_after


def test_rejects_say_why(market: Market) -> None:
    answer = market.take(order("a", 0, 1, "0.1", 10))
    assert isinstance(answer, Rejected) and answer.number == 6
    assert answer.reason == "373=5, value outside the range of tag 38 (OrderQty: 1 to 9 digits, not 0)"
    answer = market.take(order("a", 1, 1, "0.1", 77))
    assert isinstance(answer, Rejected) and answer.number == 7 and answer.report[103] == "99"
    answer = market.take(message("35=F|34=1|49=P|52=20261116-09:00:00|56=V|11=c|41=nobody|54=1|55=350|60=20261116-09:00:00"))
    assert isinstance(answer, Rejected) and answer.number == 8
    assert answer.reason == "102=1, unknown order: none has the ClOrdID of tag 41"


def test_refusals_are_raised_and_change_nothing(market: Market) -> None:
    market.submit(order("a", 1, 1, "0.1", 10))
    before = market.table
    for wrong, number in ((lambda: market.submit(order("b", 1, 1, "0.1", 10)), 3), (lambda: market.depth("buy"), 3)):
        with pytest.raises(Refused) as told:
            wrong()
        assert told.value.number == number and told.value.name == "KAMURJESH_IN_WORK"
    assert market.table == before
    market.run()
    with pytest.raises(Refused, match="KAMURJESH_GARBLED"):
        market.take(b"nonsense")
    with pytest.raises(Refused, match="KAMURJESH_BAD_SIDE"):
        market.depth(3)
    with pytest.raises(Refused, match="KAMURJESH_BAD_SETTING"):
        Market("V", "P", "350", {})


def test_kept_overnight(market: Market) -> None:
    market.take(order("a", 500, 2, "0.105", 10))
    image = market.save()
    again = Market.from_image(image)
    assert again.table == market.table
    changed = bytearray(image)
    changed[700] ^= 1
    with pytest.raises(BadImage) as told:
        again.restore(bytes(changed))
    assert told.value.block == 1 and again.table == market.table
    with pytest.raises(Refused, match="KAMURJESH_NO_MARKET"):
        Equities.from_image(image)
    with pytest.raises(Refused, match="KAMURJESH_BAD_LENGTH"):
        again.restore(image[:-1])


def test_a_load_equals_its_messages_one_by_one(market: Market) -> None:
    messages = [order(f"m{number}", 1 + number, 1 + number % 2, f"0.{100 + number % 7}", 10 + number % 3) for number in range(400)]
    loaded = market.load(b"".join(messages))
    other = Market("V", "P", "350", {10: "cancel-newest", 11: "cancel-oldest", 12: "decrement"})
    one_by_one = [other.take(one) for one in messages]
    assert market.table == other.table and loaded.finished == len(messages)
    told = [report for answer in one_by_one for report in (answer.reports if isinstance(answer, Taken) else [answer.report])]
    assert loaded.reports == told


def test_a_load_stops_at_bytes_without_a_length(market: Market) -> None:
    first = order("a", 1, 1, "0.1", 10)
    with pytest.raises(LoadStopped) as told:
        market.load(first + b"nonsense")
    assert (told.value.number, told.value.place, told.value.finished) == (5, len(first), 1)
    assert [report.kind for report in told.value.reports] == ["Accepted"]
    assert market.top("buy") is not None


def test_feeds(market: Market) -> None:
    market.take(order("a", 500, 2, "0.1", 10))
    reports = market.take(order("b", 200, 1, "0.1", 11)).reports
    feed = Feed("reconciliation", port="P1", group="G7")
    copies = [feed.copy(report) for report in reports]
    assert copies[0] is None and [copy[109] for copy in copies if copy] == ["P1-G7", "P1-G7"]
    assert feed.next_number == 3 and Copy(copies[1].bytes) == copies[1]
    with pytest.raises(Refused, match="KAMURJESH_BAD_FEED"):
        Feed("full", port="").copy(reports[0])
    with pytest.raises(Refused, match="KAMURJESH_NO_REPORT"):
        Copy(reports[0].bytes)


def test_fields_of_a_report(market: Market) -> None:
    (report,) = market.submit(order("a", 500, 2, "0.1", 10)).reports
    assert report[11] == "a" and 378 not in report and report.get(378) is None
    with pytest.raises(KeyError):
        report[378]
    assert str(report).startswith("8=FIX.4.2|9=") and Report(report.bytes) == report
    assert [tag for tag in report][:8] == [8, 9, 35, 34, 49, 50, 52, 56]


def test_equities() -> None:
    market = Equities("V", "P", "7203", {10: "decrement"})
    text = "35=D|34=1|49=P|52=20261116-09:00:00|56=V|11=a|21=1|38=100|40=2|44=2500.5|47=A|54=5|55=7203|59=0|60=20261116-09:00:00|544=1|8060=1"
    assert isinstance(market.take(message(text)), Taken)
    assert market.top("sell") == Level(Decimal("2500.5"), 100, 1)


@pytest.mark.parametrize(
    "wrong",
    [
        lambda market: market.submit("text"),
        lambda market: market.submit(None),
        lambda market: market.run(1.0),
        lambda market: market.depth(1.0),
        lambda market: market.load(7),
        lambda market: market.restore("image"),
        lambda market: Market(b"V", "P", "350", {10: "decrement"}),
        lambda market: Market("V", "P", "350", {"10": "decrement"}),
        lambda market: Market("V", "P", "350", {10: "decrement"}, "1"),
        lambda market: Feed("full", port=1),
        lambda market: Feed("full", port="P").copy(b"8="),
        lambda market: message(b"35=D"),
        lambda market: Report("8="),
    ],
)
def test_other_types(market: Market, wrong) -> None:
    with pytest.raises(TypeError):
        wrong(market)


@pytest.mark.parametrize(
    "wrong",
    [
        lambda market: market.run(-1),
        lambda market: market.run(2**64),
        lambda market: market.depth("both"),
        lambda market: Market("V", "P", "350", {10: "newest"}),
        lambda market: Market("V", "P", "350", {-1: "decrement"}),
        lambda market: Market("V", "ü", "350", {10: "decrement"}),
        lambda market: Feed("some", port="P"),
        lambda market: Feed("full"),
        lambda market: message("35=D|10=000"),
        lambda market: message("35=ü"),
    ],
)
def test_other_values(market: Market, wrong) -> None:
    with pytest.raises(ValueError):
        wrong(market)
