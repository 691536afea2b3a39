//! Drop copies written: which reports a feed copies, what it changes in them, and when it refuses. The reports are put
//! together here field by field; none comes from the market.

use super::reading::{
    accepted, cancel_reject, canceled_by_request, canceled_unrequested, decremented, one_of_each, rejected, replaced,
    session_reject, trade,
};
use crate::compose::{new_order, Draft};
use crate::copy::Feed;
use crate::script::Script;

const RECONCILIATION: u64 = 1;
const FULL: u64 = 2;
const PORT: u64 = 1;
const GROUP: u64 = 2;
const BOTH: u64 = 3;

/// A full feed that shows this of two identifiers, with a next number of 1.
fn showing(shows: u64, port: &[u8], group: &[u8]) -> Feed {
    Feed { subscription: FULL, shows, port: port.to_vec(), group: group.to_vec(), next: 1 }
}

/// A full feed of port PORT1 and group DESK.
fn feed(shows: u64, next: u64) -> Feed {
    Feed { next, ..showing(shows, b"PORT1", b"DESK") }
}

/// The reports about an order, one of every form.
fn about_orders() -> [Draft; 7] {
    [
        accepted(),
        replaced(),
        decremented(),
        canceled_by_request(),
        canceled_unrequested("100"),
        canceled_unrequested("99"),
        trade(),
    ]
}

/// The reports that no feed copies.
fn rejects() -> [Draft; 3] {
    [rejected(), cancel_reject(), session_reject()]
}

/// An identifier of so many characters.
fn identifier(length: usize) -> Vec<u8> {
    b"an-identifier-of-many-characters-and-more"[..length].to_vec()
}

pub fn whole_bytes_of_each_copy(script: &mut Script) {
    script.say("Feed: the whole bytes of every form of copy, with 9 and 10 worked out apart from this program");
    script.copied_whole(&feed(PORT, 1), &accepted(), "8=FIX.4.2|9=204|35=8|34=1|49=V|50=DJGB|52=20261116-09:00:00|56=P|1=acct|6=0.000000|11=a|14=0|17=1|20=0|37=3|38=100|39=0|40=2|44=0.100|47=A|54=1|55=350|59=0|60=20261116-09:00:00|109=PORT1|150=0|151=100|423=9|797=Y|8060=1|10=135|");
    script.copied_whole(&feed(GROUP, 2), &replaced(), "8=FIX.4.2|9=201|35=8|34=2|49=V|50=DJGB|52=20261116-09:00:00|56=P|6=0.000000|11=b|14=0|17=2|20=0|37=3|38=100|39=5|40=2|41=a|44=0.100|47=A|54=1|55=350|59=0|60=20261116-09:00:00|109=DESK|150=5|151=100|423=9|797=Y|8060=1|10=060|");
    script.copied_whole(&feed(BOTH, 3), &decremented(), "8=FIX.4.2|9=215|35=8|34=3|49=V|50=DJGB|52=20261116-09:00:00|56=P|6=0.000000|11=a|14=0|17=3|20=0|37=3|38=100|39=5|40=2|41=a|44=0.100|47=A|54=1|55=350|59=0|60=20261116-09:00:00|109=PORT1-DESK|150=5|151=100|378=100|423=9|797=Y|8060=1|10=086|");
    script.copied_whole(&feed(PORT, 10), &canceled_by_request(), "8=FIX.4.2|9=204|35=8|34=10|49=V|50=DJGB|52=20261116-09:00:00|56=P|6=0.000000|11=a|14=0|17=10|20=0|37=3|38=100|39=4|40=2|41=old|44=0.100|47=A|54=1|55=350|59=0|60=20261116-09:00:00|109=PORT1|150=4|151=0|423=9|797=Y|8060=1|10=102|");
    script.copied_whole(&feed(GROUP, 100), &canceled_unrequested("100"), "8=FIX.4.2|9=206|35=8|34=100|49=V|50=DJGB|52=20261116-09:00:00|56=P|6=0.000000|11=a|14=0|17=100|20=0|37=3|38=100|39=4|40=2|44=0.100|47=A|54=1|55=350|59=0|60=20261116-09:00:00|109=DESK|150=4|151=0|378=100|423=9|797=Y|8060=1|10=008|");
    script.copied_whole(&feed(BOTH, 1000), &canceled_unrequested("99"), "8=FIX.4.2|9=213|35=8|34=1000|49=V|50=DJGB|52=20261116-09:00:00|56=P|6=0.000000|11=a|14=0|17=1000|20=0|37=3|38=100|39=4|40=2|44=0.100|47=A|54=1|55=350|59=0|60=20261116-09:00:00|109=PORT1-DESK|150=4|151=0|378=99|423=9|797=Y|8060=1|10=234|");
    script.copied_whole(&feed(BOTH, 999_999_999), &trade(), "8=FIX.4.2|9=265|35=8|34=999999999|49=V|50=DJGB|52=20261116-09:00:00|56=P|1=acct|6=0.100000|11=a|14=60|17=999999999|20=0|31=0.100|32=60|37=3|38=100|39=1|40=2|44=0.100|47=P|54=2|55=350|59=3|60=20261116-09:00:00|109=PORT1-DESK|150=1|151=40|375=11|382=1|423=9|797=Y|851=1|880=7|8060=6|10=173|");
}

pub fn a_full_feed_copies_all_that_happens_to_an_order(script: &mut Script) {
    script.say("Feed: full copies Accepted, Replaced, Canceled and Trade");
    for report in about_orders() {
        script.copied(&feed(PORT, 5), &report, &["34=5", "17=5", "109=PORT1", "797=Y", "35=8"]);
    }
    script.say("Feed: order rejects, cancel rejects and Session Rejects are not copied: no bytes and the same number");
    for report in rejects() {
        script.not_copied(&feed(PORT, 5), &report);
    }
}

pub fn a_reconciliation_feed_copies_trades_alone(script: &mut Script) {
    script.say("Feed: reconciliation copies Trades, filled or not, and nothing else");
    let reconciliation = Feed { subscription: RECONCILIATION, ..feed(BOTH, 5) };
    for report in about_orders().iter().take(6).chain(&rejects()) {
        script.not_copied(&reconciliation, report);
    }
    script.copied(&reconciliation, &trade(), &["150=1", "34=5", "17=5", "109=PORT1-DESK", "797=Y"]);
    script.copied(&reconciliation, &trade().with("39", "2").with("150", "2"), &["150=2", "39=2"]);
}

pub fn a_feed_counts_its_copies(script: &mut Script) {
    script.say("Feed: numbers go up by one with a copy and stay without: 1, 2, 2, 2, 3, 3, 4");
    let reports = [accepted(), trade(), rejected(), session_reject(), trade(), cancel_reject(), replaced()];
    let mut next = 1;
    for report in reports {
        if rejects().contains(&report) {
            script.not_copied(&feed(GROUP, next), &report);
        } else {
            let numbers = [format!("34={next}"), format!("17={next}")];
            script.copied(&feed(GROUP, next), &report, &[&numbers[0], &numbers[1]]);
            next += 1;
        }
    }
}

pub fn first_and_last_number_of_a_feed(script: &mut Script) {
    script.say("Feed: next numbers 1 and 999,999,999 are used, 0 and those above are refusal 4");
    for subscription in [RECONCILIATION, FULL] {
        for next in [1, 2, 999_999_998, 999_999_999] {
            let number = [format!("34={next}"), format!("17={next}")];
            script.copied(&Feed { subscription, ..feed(PORT, next) }, &trade(), &[&number[0], &number[1]]);
        }
        for next in [0, 1_000_000_000, 4_294_967_295, 4_294_967_297, u64::MAX] {
            script.copy_refused(&Feed { subscription, ..feed(PORT, next) }, &trade(), 4);
        }
    }
    script.say("Feed: also where nothing would be copied");
    for report in rejects() {
        script.not_copied(&feed(PORT, 999_999_999), &report);
        script.copy_refused(&feed(PORT, 0), &report, 4);
        script.copy_refused(&feed(PORT, 1_000_000_000), &report, 4);
    }
    let reconciliation = |next| Feed { subscription: RECONCILIATION, ..feed(PORT, next) };
    script.not_copied(&reconciliation(1), &accepted());
    script.copy_refused(&reconciliation(0), &accepted(), 4);
    script.copy_refused(&reconciliation(1_000_000_000), &accepted(), 4);
}

pub fn lengths_of_one_identifier(script: &mut Script) {
    script.say("Feed: an identifier of 1 to 30 characters, shown alone; none and 31 are refusal 17");
    for length in [0, 1, 2, 14, 15, 29, 30, 31, 40] {
        let id = identifier(length);
        let shown = format!("109={}", String::from_utf8_lossy(&id));
        for feed in [showing(PORT, &id, b"DESK"), showing(GROUP, b"PORT1", &id)] {
            if (1..=30).contains(&length) {
                script.copied(&feed, &accepted(), &[&shown]);
            } else {
                script.copy_refused(&feed, &accepted(), 17);
            }
        }
    }
}

pub fn lengths_of_two_identifiers(script: &mut Script) {
    script.say("Feed: both identifiers with a hyphen between, together at most 30 characters, the hyphen counted");
    for (port, group) in [(1, 1), (14, 14), (14, 15), (15, 14), (1, 28), (28, 1), (7, 20)] {
        let (port, group) = (identifier(port), identifier(group));
        let shown = format!("109={}-{}", String::from_utf8_lossy(&port), String::from_utf8_lossy(&group));
        script.copied(&showing(BOTH, &port, &group), &trade(), &[&shown]);
    }
    script.say("Feed: 31 with the hyphen, and either one empty, are refusal 17");
    for (port, group) in [(15, 15), (1, 29), (29, 1), (14, 16), (30, 1), (1, 30), (30, 30), (31, 1), (1, 31), (31, 31)]
    {
        script.copy_refused(&showing(BOTH, &identifier(port), &identifier(group)), &trade(), 17);
    }
    for (port, group) in [(0, 0), (0, 1), (1, 0), (0, 29), (29, 0), (30, 0), (0, 30)] {
        script.copy_refused(&showing(BOTH, &identifier(port), &identifier(group)), &trade(), 17);
    }
    script.say("Feed: a hyphen inside an identifier, or alone, is fine");
    script.copied(&showing(BOTH, b"-", b"-"), &trade(), &["109=---"]);
    script.copied(&showing(BOTH, b"a-", b"-b"), &trade(), &["109=a---b"]);
    script.copied(&showing(PORT, b"-", b""), &trade(), &["109=-"]);
}

pub fn bytes_of_identifiers(script: &mut Script) {
    script.say("Feed: a shown identifier holds bytes from 21 to 7E hex, wherever they stand");
    for byte in [0x00, 0x01, 0x1f, 0x20, 0x7f, 0xff] {
        for id in [&[byte][..], &[byte, b'b'], &[b'a', byte, b'b']] {
            script.copy_refused(&showing(PORT, id, b"DESK"), &accepted(), 17);
        }
        let id = [b'a', byte];
        script.copy_refused(&showing(GROUP, b"PORT1", &id), &accepted(), 17);
        script.copy_refused(&showing(BOTH, &id, b"DESK"), &accepted(), 17);
        script.copy_refused(&showing(BOTH, b"PORT1", &id), &accepted(), 17);
    }
    script.say("Feed: 21 and 7E hex, and the marks of this file and of FIX, are characters like others");
    for id in ["!", "~", "!~", "|;\\", "109=x", "=", "10"] {
        let shown = [format!("109={id}"), format!("109={id}-{id}")];
        script.copied(&showing(PORT, id.as_bytes(), b""), &accepted(), &[&shown[0]]);
        script.copied(&showing(GROUP, b"", id.as_bytes()), &accepted(), &[&shown[0]]);
        script.copied(&showing(BOTH, id.as_bytes(), id.as_bytes()), &accepted(), &[&shown[1]]);
    }
}

pub fn an_identifier_that_is_not_shown_is_not_looked_at(script: &mut Script) {
    script.say("Feed: what 109 does not show may hold anything");
    for rubbish in [&b""[..], b" ", b"\x01", b"a\x7f", b"\x00", b"\xff\xfe", &identifier(31), b"10=000\x01"] {
        script.copied(&showing(PORT, b"PORT1", rubbish), &accepted(), &["109=PORT1"]);
        script.copied(&showing(GROUP, rubbish, b"DESK"), &accepted(), &["109=DESK"]);
        script.copy_refused(&showing(BOTH, b"PORT1", rubbish), &accepted(), 17);
        script.copy_refused(&showing(BOTH, rubbish, b"DESK"), &accepted(), 17);
    }
}

pub fn settings_that_mean_nothing(script: &mut Script) {
    script.say("Feed: another subscription than 1 and 2, or another setting of 109 than 1 to 3, is refusal 17");
    for number in [0, 3, 257, 4_294_967_298, u64::MAX] {
        script.copy_refused(&Feed { subscription: number, ..feed(PORT, 1) }, &trade(), 17);
    }
    for number in [0, 4, 259, 4_294_967_297, u64::MAX] {
        script.copy_refused(&feed(number, 1), &trade(), 17);
    }
    script.copy_refused(&Feed { subscription: 0, ..feed(0, 1) }, &trade(), 17);
    script.say("Feed: also for a report that no feed copies");
    script.copy_refused(&Feed { subscription: 3, ..feed(PORT, 1) }, &session_reject(), 17);
    script.copy_refused(&feed(4, 1), &session_reject(), 17);
    script.copy_refused(&showing(PORT, b"", b"DESK"), &rejected(), 17);
    script.copy_refused(&showing(GROUP, b"PORT1", b"a b"), &cancel_reject(), 17);
}

pub fn areas_of_a_feed(script: &mut Script) {
    script.say("Feed: an area of 1,023 bytes is refusal 1, one of 1,024 is enough");
    for area in [0, 1, 512, 1023] {
        script.copy_refused_in(area, &feed(PORT, 1), &accepted().bytes(), 1);
        script.copy_refused_in(area, &feed(PORT, 1), &session_reject().bytes(), 1);
    }
    for area in [1024, 1025, 65_536] {
        script.copied_in(area, &feed(PORT, 1), &accepted(), &["34=1"]);
    }
}

pub fn refusals_of_a_feed_come_in_their_order(script: &mut Script) {
    script.say("Feed: 1 before 11, 11 before 17, 17 before 4, whether or not the report would be copied");
    let spent = |feed: Feed| Feed { next: 0, ..feed };
    let damaged = trade().with_check_sum("000").bytes();
    let bad_settings = [
        showing(PORT, b"", b"DESK"),
        showing(BOTH, &identifier(15), &identifier(15)),
        showing(GROUP, b"PORT1", b"a b"),
        feed(0, 1),
        Feed { subscription: 3, ..feed(PORT, 1) },
    ];
    for bad in bad_settings {
        for report in [trade(), accepted(), rejected(), session_reject()] {
            script.copy_refused(&spent(bad.clone()), &report, 17);
        }
        script.copy_refused_in(1024, &spent(bad.clone()), &damaged, 11);
        script.copy_refused_in(1024, &bad, &damaged, 11);
        script.copy_refused_in(1023, &spent(bad.clone()), &damaged, 1);
        script.copy_refused_in(1023, &bad, &trade().bytes(), 1);
    }
    script.copy_refused_in(1024, &feed(PORT, 0), &damaged, 11);
    script.copy_refused_in(1023, &feed(PORT, 0), &trade().bytes(), 1);
    script.copy_refused_in(1023, &feed(PORT, 1), &damaged, 1);
    script.copy_refused(&feed(PORT, 0), &trade(), 4);
}

pub fn what_is_no_report_is_not_copied(script: &mut Script) {
    script
        .say("Feed: refusal 11 as for Read: no bytes, a byte more or less, two reports, a message, an untrue 9 or 10");
    let bytes = trade().bytes();
    for part in [&b""[..], b"\x01", &bytes[1..], &bytes[..bytes.len() - 1], &[&bytes[..], b" "].concat()] {
        script.copy_refused_in(1024, &feed(PORT, 1), part, 11);
    }
    script.copy_refused_in(1024, &feed(PORT, 1), &[&bytes[..], &bytes].concat(), 11);
    script.copy_refused(&feed(PORT, 1), &new_order("a"), 11);
    for (report, _) in one_of_each() {
        script.copy_refused(&feed(PORT, 1), &report.clone().with_check_sum("999"), 11);
        script.copy_refused(&feed(PORT, 1), &report.clone().with_length("1"), 11);
        script.copy_refused(&feed(PORT, 1), &report.clone().with("34", "0"), 11);
        script.copy_refused(&feed(PORT, 1), &report.clone().adding("9999", "x"), 11);
        script.copy_refused(&feed(PORT, 1), &report.clone().without("50"), 11);
    }
    script.say("Feed: neither 41 nor 378 on Canceled, a field out of its range, two in each other's place");
    script.copy_refused(&feed(PORT, 1), &canceled_by_request().without("41"), 11);
    script.copy_refused(&feed(PORT, 1), &trade().with("37", "0"), 11);
    script.copy_refused(&feed(PORT, 1), &trade().with("109", "x"), 11);
    script.copy_refused(&feed(PORT, 1), &trade().swapping("851", "880"), 11);
    script.say("Feed: a copy is no report");
    script.copy_refused(&feed(PORT, 1), &trade().with("109", "PORT1").inserting("851", "797", "Y"), 11);
    script.copy_refused(&feed(PORT, 1), &trade().inserting("851", "797", "Y"), 11);
}

pub fn a_copy_is_the_report_but_for_six_fields(script: &mut Script) {
    script.say("Feed: 109 stands on every copy, also where the report has none; 1 only where it has it");
    for report in about_orders() {
        let without = report.clone().without("109").without("1");
        script.copied(&feed(BOTH, 1), &without, &["60=20261116-09:00:00|109=PORT1-DESK", "797=Y", "no 1"]);
    }
    script.say("Feed: 797 stands behind 423, before 851 on a Trade and before 8060 on the others");
    script.copied(&feed(PORT, 1), &trade(), &["423=9|797=Y|851=1|880=7|8060=6"]);
    for report in about_orders().iter().take(6) {
        script.copied(&feed(PORT, 1), report, &["423=9|797=Y|8060=1"]);
    }
    script.say("Feed: 880, 375, 52, 56 and 60 stay; 17 and 34 are the feed's whatever they were");
    script.copied(
        &feed(PORT, 12),
        &trade().with("34", "999999999").with("17", "3").with("880", "77").with("60", "20201231-00:00:00.123"),
        &["34=12", "17=12", "880=77", "375=11", "52=20261116-09:00:00", "60=20201231-00:00:00.123", "56=P", "49=V"],
    );
}

pub fn a_fill_or_kill_is_copied_as_an_ioc_with_a_minimum(script: &mut Script) {
    script.say("Feed: 59=4 is copied as 59=3 with a 110 that is 38, on every form of copy");
    for report in about_orders() {
        let fill_or_kill = report.with("59", "4").with("38", "250");
        script.copied(&feed(PORT, 5), &fill_or_kill, &["59=3", "38=250", "109=PORT1|110=250"]);
    }
    script.copied_whole(&feed(PORT, 5), &accepted().with("59", "4"), "8=FIX.4.2|9=212|35=8|34=5|49=V|50=DJGB|52=20261116-09:00:00|56=P|1=acct|6=0.000000|11=a|14=0|17=5|20=0|37=3|38=100|39=0|40=2|44=0.100|47=A|54=1|55=350|59=3|60=20261116-09:00:00|109=PORT1|110=100|150=0|151=100|423=9|797=Y|8060=1|10=242|");
    script.say("Feed: also where the report has another 110, and where 38 is 0 or has nine digits");
    for (order_qty, min_qty) in [("250", "7"), ("0", "7"), ("999999999", "1"), ("100", "100")] {
        let report = accepted().with("59", "4").with("38", order_qty).inserting("150", "110", min_qty);
        let shown = format!("110={order_qty}");
        script.copied(&feed(GROUP, 5), &report, &["59=3", &shown]);
    }
    script.say("Feed: what is not 59=4 keeps its 59 and its 110, or has none");
    for report in about_orders() {
        for time_in_force in ["0", "3"] {
            let plain = report.clone().with("59", time_in_force);
            let shown = format!("59={time_in_force}");
            script.copied(&feed(PORT, 5), &plain, &[&shown, "no 110"]);
            script.copied(&feed(PORT, 5), &plain.inserting("150", "110", "7"), &[&shown, "110=7"]);
        }
    }
    script.say("Feed: a report that is not copied is none with 59=4 either");
    let reconciliation = Feed { subscription: RECONCILIATION, ..feed(BOTH, 5) };
    script.not_copied(&reconciliation, &accepted().with("59", "4"));
    script.copied(&reconciliation, &trade().with("59", "4"), &["59=3", "110=100"]);
}

pub fn fields_that_look_like_others_are_not_touched(script: &mut Script) {
    script.say("Feed: fields that look like those that change are not touched");
    script.copied(
        &feed(PORT, 12),
        &decremented().with("11", "17=7").with("41", "109=x").inserting("6", "1", "34=7"),
        &["1=34=7", "11=17=7", "41=109=x", "34=12", "17=12"],
    );
    script.say("Feed: 9 is worked out anew where numbers get shorter or longer");
    for next in [9, 10, 99_999_999, 100_000_000] {
        let number = format!("34={next}");
        script.copied(&feed(GROUP, next), &accepted().with("34", "100000").with("17", "100000"), &[&number]);
    }
}

pub fn the_longest_copies(script: &mut Script) {
    script.say("Feed: the longest Trade and the longest Replaced");
    let id = "x".repeat(32);
    let long = |report: Draft| {
        report
            .without("1")
            .inserting("6", "1", "0123456789")
            .with("34", "1")
            .with("17", "1")
            .with("49", "12345678")
            .with("52", "20261116-09:00:00.123")
            .with("56", "12345678")
            .with("6", "-999999.999999")
            .with("11", &id)
            .with("14", "999999999")
            .with("37", "999999999")
            .with("38", "999999999")
            .with("44", "-999999.999")
            .with("55", "123456789")
            .with("60", "20261116-09:00:00.123")
            .with("151", "999999999")
            .inserting("150", "110", "999999999")
    };
    let longest_trade = long(trade()).with("31", "-999999.999").with("32", "999999999").with("375", "999999");
    let longest = Feed { next: 999_999_999, ..showing(BOTH, &identifier(15), &identifier(14)) };
    script.copied(&longest, &longest_trade.with("880", "999999999"), &["34=999999999", "17=999999999"]);
    script.copied(&longest, &long(decremented()).with("41", &id), &["34=999999999", "17=999999999"]);
}
