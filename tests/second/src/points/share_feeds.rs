//! Drop copies of an equities market's reports, written and read back. The reports are put together field by field; none
//! comes from the market.

use super::share_reading::{
    accepted, cancel_reject, canceled_by_request, canceled_unrequested, decremented, rejected, replaced,
    session_reject, trade,
};
use crate::compose::Draft;
use crate::copy::Feed;
use crate::script::Script;

const RECONCILIATION: u64 = 1;
const FULL: u64 = 2;
const PORT: u64 = 1;
const GROUP: u64 = 2;
const BOTH: u64 = 3;

/// A full feed that shows this of two identifiers, with a next number of 1.
fn showing(shows: u64, port: &[u8], group: &[u8]) -> Feed {
    Feed { subscription: FULL, shows, port: port.to_vec(), group: group.to_vec(), next: 1 }
}

/// A full feed of port PORT1 and group DESK.
fn feed(shows: u64, next: u64) -> Feed {
    Feed { next, ..showing(shows, b"PORT1", b"DESK") }
}

/// The reports about an order, one of every form, each with the kind that Read gives.
fn about_orders() -> [(Draft, u64); 7] {
    [
        (accepted(), 1),
        (replaced(), 2),
        (decremented(), 2),
        (canceled_by_request(), 3),
        (canceled_unrequested("100"), 3),
        (canceled_unrequested("99"), 3),
        (trade(), 4),
    ]
}

fn rejects() -> [Draft; 3] {
    [rejected(), cancel_reject(), session_reject()]
}

/// An identifier of so many characters.
fn identifier(length: usize) -> Vec<u8> {
    b"an-identifier-of-many-characters"[..length].to_vec()
}

/// The copy of a report about an order, with an identifier in 109.
fn copy_of(report: Draft) -> Draft {
    let behind = if report.position("851").is_some() { "851" } else { "8060" };
    report.without("109").inserting("150", "109", "PORT1-DESK").inserting(behind, "797", "Y")
}

pub fn whole_bytes_of_share_copies(script: &mut Script) {
    script.say(
        "Feed of shares: the whole bytes of copies, with 9 and 10 worked out apart from this program; 797 behind 544",
    );
    script.copied_whole(&feed(PORT, 1), &accepted(), "8=FIX.4.2|9=202|35=8|34=1|49=V|50=DAY|52=20261116-09:00:00|56=P|1=acct|6=0.0000|11=a|14=0|17=1|20=0|37=3|38=100|39=0|40=2|44=100.0|47=A|54=1|55=7203|59=0|60=20261116-09:00:00|109=PORT1|150=0|151=100|544=1|797=Y|8060=1|10=028|");
    script.copied_whole(&feed(GROUP, 2), &replaced(), "8=FIX.4.2|9=199|35=8|34=2|49=V|50=DAY|52=20261116-09:00:00|56=P|6=0.0000|11=b|14=0|17=2|20=0|37=3|38=100|39=5|40=2|41=a|44=100.0|47=A|54=1|55=7203|59=0|60=20261116-09:00:00|109=DESK|150=5|151=100|544=1|797=Y|8060=1|10=227|");
    script.copied_whole(&feed(BOTH, 3), &decremented(), "8=FIX.4.2|9=213|35=8|34=3|49=V|50=DAY|52=20261116-09:00:00|56=P|6=0.0000|11=a|14=0|17=3|20=0|37=3|38=100|39=5|40=2|41=a|44=100.0|47=A|54=1|55=7203|59=0|60=20261116-09:00:00|109=PORT1-DESK|150=5|151=100|378=100|544=1|797=Y|8060=1|10=235|");
    script.copied_whole(&feed(PORT, 10), &canceled_by_request(), "8=FIX.4.2|9=202|35=8|34=10|49=V|50=DAY|52=20261116-09:00:00|56=P|6=0.0000|11=a|14=0|17=10|20=0|37=3|38=100|39=4|40=2|41=old|44=100.0|47=A|54=1|55=7203|59=0|60=20261116-09:00:00|109=PORT1|150=4|151=0|544=1|797=Y|8060=1|10=251|");
    script.copied_whole(&feed(BOTH, 999_999_999), &trade(), "8=FIX.4.2|9=258|35=8|34=999999999|49=V|50=DAY|52=20261116-09:00:00|56=P|1=acct|6=100.0000|11=a|14=60|17=999999999|20=0|31=100.0|32=60|37=3|38=100|39=1|40=2|44=99.9|47=P|54=5|55=7203|59=3|60=20261116-09:00:00|109=PORT1-DESK|150=1|151=40|544=2|797=Y|851=1|880=7|8060=6|8214=1|10=135|");
    script.copied_whole(&feed(PORT, 5), &accepted().with("59", "4"), "8=FIX.4.2|9=210|35=8|34=5|49=V|50=DAY|52=20261116-09:00:00|56=P|1=acct|6=0.0000|11=a|14=0|17=5|20=0|37=3|38=100|39=0|40=2|44=100.0|47=A|54=1|55=7203|59=3|60=20261116-09:00:00|109=PORT1|110=100|150=0|151=100|544=1|797=Y|8060=1|10=135|");
}

pub fn share_feeds_copy_what_bond_feeds_copy(script: &mut Script) {
    script.say(
        "Feed of shares: full copies what happens to an order, reconciliation Trades alone; rejects are not copied",
    );
    let reconciliation = Feed { subscription: RECONCILIATION, ..feed(BOTH, 5) };
    for (report, kind) in about_orders() {
        let without = report.clone().without("109").without("1");
        script.copied(&feed(GROUP, 5), &without, &["34=5", "17=5", "109=DESK", "797=Y", "50=DAY", "no 1", "no 423"]);
        if kind == 4 {
            script.copied(&reconciliation, &report, &["34=5", "544=2|797=Y|851=1|880=7|8060=6|8214=1"]);
        } else {
            script.not_copied(&reconciliation, &report);
        }
    }
    for report in rejects() {
        script.not_copied(&feed(PORT, 5), &report);
        script.not_copied(&reconciliation, &report);
    }
}

pub fn lengths_of_identifiers_of_a_share_feed(script: &mut Script) {
    script.say("Feed of shares: 109 has 1 to 20 characters; 21 are refusal 17");
    for length in [0, 1, 19, 20, 21, 30] {
        let id = identifier(length);
        let shown = format!("109={}", String::from_utf8_lossy(&id));
        for feed in [showing(PORT, &id, b"DESK"), showing(GROUP, b"PORT1", &id)] {
            if (1..=20).contains(&length) {
                script.copied(&feed, &accepted(), &[&shown]);
            } else {
                script.copy_refused(&feed, &accepted(), 17);
            }
        }
    }
    script.say("Feed of shares: so has 109 with both, the hyphen counted");
    for (port, group) in [(1, 1), (10, 9), (9, 10), (1, 18), (18, 1)] {
        let (port, group) = (identifier(port), identifier(group));
        let shown = format!("109={}-{}", String::from_utf8_lossy(&port), String::from_utf8_lossy(&group));
        script.copied(&showing(BOTH, &port, &group), &trade(), &[&shown]);
    }
    for (port, group) in [(10, 10), (1, 19), (19, 1), (20, 1), (0, 5), (5, 0), (0, 0), (21, 21)] {
        script.copy_refused(&showing(BOTH, &identifier(port), &identifier(group)), &trade(), 17);
    }
    script.say("Feed of shares: an identifier that is shown holds bytes from 21 to 7E hex; another is not looked at");
    for rubbish in [&b" "[..], b"a b", b"\x7f", b"\x01", b"\xff", &identifier(21)] {
        script.copy_refused(&showing(PORT, rubbish, b"DESK"), &accepted(), 17);
        script.copied(&showing(GROUP, rubbish, b"!~|;\\"), &accepted(), &[]);
    }
}

pub fn refusals_of_a_share_feed_come_in_their_order(script: &mut Script) {
    script.say("Feed of shares: 1, 11, 17, 4 in this order");
    let damaged = trade().with_check_sum("000").bytes();
    let long = Feed { next: 0, ..showing(PORT, &identifier(21), b"") };
    script.copy_refused_in(1023, &long, &damaged, 1);
    script.copy_refused_in(1024, &long, &damaged, 11);
    script.copy_refused(&long, &trade(), 17);
    script.copy_refused(&long, &session_reject(), 17);
    script.copy_refused(&feed(4, 0), &trade(), 17);
    script.copy_refused(&Feed { subscription: 3, ..feed(PORT, 0) }, &trade(), 17);
    for next in [0, 1_000_000_000, u64::MAX] {
        script.copy_refused(&feed(PORT, next), &trade(), 4);
        script.copy_refused(&feed(PORT, next), &rejected(), 4);
    }
    script.copied(&feed(PORT, 999_999_999), &trade(), &["34=999999999"]);
    script.say("Feed of shares: what is no report of shares is 11: another 50, a minus, a 423, no 544");
    for wrong in [
        trade().with("50", "DJGB"),
        trade().with("44", "-1.0"),
        trade().inserting("544", "423", "9"),
        trade().without("544"),
        trade().with("54", "3"),
        copy_of(trade()),
    ] {
        script.copy_refused(&feed(PORT, 1), &wrong, 11);
    }
}

pub fn a_share_fill_or_kill_is_copied_as_an_ioc(script: &mut Script) {
    script.say("Feed of shares: 59=4 is copied as 59=3 with a 110 that is 38; other orders keep their 59 and 110");
    for (report, _) in about_orders() {
        script.copied(&feed(PORT, 5), &report.with("59", "4").with("38", "250"), &["59=3", "109=PORT1|110=250"]);
    }
    script.copied(&feed(PORT, 5), &trade().with("59", "3").inserting("150", "110", "7"), &["59=3", "110=7"]);
    script.copied(&feed(PORT, 5), &accepted(), &["59=0", "no 110"]);
}

pub fn copies_of_shares_are_read(script: &mut Script) {
    script.say("Copies of shares read: all forms of four kinds, with 8214 or without; a report is no copy");
    for (report, kind) in about_orders() {
        let copy = copy_of(report.clone());
        script.copy_read_as(&copy, kind);
        script.copy_read_as(&copy.clone().with("544", "3").without("8214").adding("8214", "2"), kind);
        script.copy_read_as(&copy.clone().without("8214").with("54", "6").with("55", "A B"), kind);
        script.copy_not_read(&report);
    }
    script.say("Copies of shares read: 109 of 1 to 20 characters, 21 to 7E hex");
    let copy = copy_of(trade());
    for id in ["x", "a-b", "20-characters-20-cha", "!~"] {
        script.copy_read_as(&copy.clone().with("109", id), 4);
    }
    for id in ["", "21-characters-21-char", "thirty-characters-30-thirty-ch", "a b", " "] {
        script.copy_not_read(&copy.clone().with("109", id));
    }
}

pub fn damaged_copies_of_shares(script: &mut Script) {
    script.say("Copies of shares read: 59=4, another 797, 797 out of its place, fields of bonds, an untrue 9 or 10");
    let copy = copy_of(trade());
    for wrong in [
        copy.clone().with("59", "4"),
        copy.clone().with("797", "N"),
        copy.clone().without("797"),
        copy.clone().swapping("797", "544"),
        copy.clone().swapping("797", "851"),
        copy.clone().without("109"),
        copy.clone().inserting("544", "423", "9"),
        copy.clone().inserting("544", "375", "0").inserting("544", "382", "1"),
        copy.clone().with("50", "DJGB"),
        copy.clone().without("544"),
        copy.clone().with("544", "4"),
        copy.clone().with("8214", "3"),
        copy.clone().swapping("8060", "8214"),
        copy.clone().with("6", "100.000000"),
        copy.clone().with("6", "-0.0001"),
        copy.clone().with("31", "100.000"),
        copy.clone().with("44", "-0.1"),
        copy.clone().with("54", "4"),
        copy.clone().with("55", "ABCDEFGHIJ"),
        copy.clone().with("34", "0"),
        copy.clone().with_length("1"),
        copy.clone().with_check_sum("999"),
    ] {
        script.copy_not_read(&wrong);
    }
    for report in rejects() {
        script.copy_not_read(&report.adding("797", "Y"));
    }
    let bytes = copy.bytes();
    for part in [&bytes[1..], &bytes[..bytes.len() - 1], &[&bytes[..], b" "].concat(), &[&bytes[..], &bytes].concat()] {
        script.copy_bytes_not_read(part);
    }
}
