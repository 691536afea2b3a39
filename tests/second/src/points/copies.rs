//! Drop copies read back: which bytes are a copy. The copies are put together here field by field; none comes from a
//! feed.

use super::reading::{
    accepted, cancel_reject, canceled_by_request, canceled_unrequested, decremented, rejected, replaced,
    session_reject, trade, ACCEPTED, CANCELED, REPLACED, TRADE,
};
use crate::compose::Draft;
use crate::script::Script;

/// The copy of a report about an order, with an identifier in 109.
fn copy_of(report: Draft) -> Draft {
    let behind = if report.position("851").is_some() { "851" } else { "8060" };
    report.without("109").inserting("150", "109", "PORT1-DESK").inserting(behind, "797", "Y")
}

/// One copy of every form, with the number of its kind.
fn one_of_each() -> [(Draft, u64); 7] {
    [
        (copy_of(accepted()), ACCEPTED),
        (copy_of(replaced()), REPLACED),
        (copy_of(decremented()), REPLACED),
        (copy_of(canceled_by_request()), CANCELED),
        (copy_of(canceled_unrequested("100")), CANCELED),
        (copy_of(canceled_unrequested("99")), CANCELED),
        (copy_of(trade()), TRADE),
    ]
}

/// The copy with each of these values in one tag is read as this kind.
fn all_read(script: &mut Script, copy: &Draft, kind: u64, tag: &str, values: &[&str]) {
    for value in values {
        script.copy_read_as(&copy.clone().with(tag, value), kind);
    }
}

/// The copy with each of these values in one tag is refused.
fn none_read(script: &mut Script, copy: &Draft, tag: &str, values: &[&str]) {
    for value in values {
        script.copy_not_read(&copy.clone().with(tag, value));
    }
}

pub fn copies_of_four_kinds_are_read(script: &mut Script) {
    script.say("Copy read: Accepted, Replaced, Canceled and Trade in all their forms, with an account or without");
    for (copy, kind) in one_of_each() {
        script.copy_read_as(&copy, kind);
        script.copy_read_as(&copy.clone().without("1"), kind);
        script.copy_read_as(&copy.clone().without("1").inserting("6", "1", "acct"), kind);
    }
    script.say("Copy read: there is no copy of an order reject, a cancel reject or a Session Reject");
    script.copy_not_read(&rejected());
    script.copy_not_read(&rejected().inserting("150", "109", "PORT1").adding("797", "Y"));
    script.copy_not_read(&rejected().adding("797", "Y"));
    script.copy_not_read(&cancel_reject());
    script.copy_not_read(&cancel_reject().inserting("434", "109", "PORT1").adding("797", "Y"));
    script.copy_not_read(&session_reject());
    script.copy_not_read(&session_reject().inserting("371", "109", "PORT1").adding("797", "Y"));
}

pub fn a_report_is_no_copy(script: &mut Script) {
    script.say("Copy read: 797=Y and 109 stand on every copy");
    for report in [accepted(), replaced(), canceled_by_request(), trade()] {
        script.copy_not_read(&report);
        script.copy_not_read(&copy_of(report.clone()).without("797"));
        script.copy_not_read(&copy_of(report.clone()).without("109"));
    }
    script.say("Copy read: and a copy is no report");
    for (copy, _) in one_of_each() {
        script.not_read(&copy);
    }
    script.not_read(&copy_of(trade()).with("109", "10"));
}

pub fn copy_indicator_is_y_in_its_place(script: &mut Script) {
    script.say("Copy read: 797 is Y and nothing else, behind 423 and before 851 or 8060");
    for (copy, _) in one_of_each() {
        none_read(script, &copy, "797", &["N", "y"]);
        script.copy_not_read(&copy.clone().swapping("423", "797"));
        script.copy_not_read(&copy.clone().swapping("797", "8060"));
        script.copy_not_read(&copy.clone().adding("797", "Y"));
    }
    none_read(script, &copy_of(trade()), "797", &["", "YY", " ", "1"]);
    script.copy_not_read(&copy_of(trade()).swapping("797", "851"));
    script.copy_not_read(&copy_of(trade()).without("797").inserting("8060", "797", "Y"));
    script.copy_not_read(&copy_of(accepted()).without("797").adding("797", "Y"));
}

pub fn identifiers_of_a_copy(script: &mut Script) {
    script.say("Copy read: 109 is 1 to 30 characters, 21 to 7E hex");
    let most = "an-identifier-of-30-characters";
    for (copy, kind) in [(copy_of(accepted()), ACCEPTED), (copy_of(trade()), TRADE)] {
        all_read(script, &copy, kind, "109", &["x", "10", "010", "0", "-", "a-b-c", "!~", "109=1", most]);
        let too_long = format!("{most}x");
        none_read(script, &copy, "109", &["", " ", "a b", "a ", " a", "\x7f", "a\x7fb", "a\tb", &too_long]);
    }
    let mut high = copy_of(trade());
    let at = high.position("109").expect("a copy has 109");
    high.fields[at].1 = vec![b'a', 0xff];
    script.copy_not_read(&high);
}

pub fn numbers_of_a_copy(script: &mut Script) {
    script.say("Copy read: 34, 17 and 880 are 1 to 999,999,999 and not compared");
    for tag in ["34", "17", "880"] {
        all_read(script, &copy_of(trade()), TRADE, tag, &["1", "999999999"]);
        none_read(script, &copy_of(trade()), tag, &["0", "1000000000", "01", ""]);
    }
}

pub fn ranges_and_sets_of_a_copy_are_those_of_a_report(script: &mut Script) {
    script.say("Copy read: the other fields have the ranges and sets that Read has");
    let copy = copy_of(trade());
    for (tag, good, bad) in [
        ("6", "999999.999999", "1000000.000000"),
        ("14", "0", "00"),
        ("31", "-999999.999", "-0.000"),
        ("32", "999999999", "1000000000"),
        ("37", "999999999", "1000000000"),
        ("39", "2", "0"),
        ("44", "-0.001", "0.1"),
        ("47", "A", "a"),
        ("50", "DJGB", "DAY"),
        ("54", "1", "5"),
        ("55", "000000000", "JGB"),
        ("59", "0", "4"),
        ("150", "2", "8"),
        ("375", "0", "1000000"),
        ("382", "1", "2"),
        ("423", "9", "1"),
        ("851", "2", "3"),
        ("8060", "3", "2"),
        ("49", "12345678", "123456789"),
        ("56", "~", "a b"),
        ("11", " ", ""),
        ("1", "0123456789", "0123456789a"),
        ("52", "20261116-09:00:00.000", "20261116-09:00:00.00"),
        ("60", "20261116-09:00:00.999", "20261116-09:00:60"),
    ] {
        script.copy_read_as(&copy.clone().with(tag, good), TRADE);
        script.copy_not_read(&copy.clone().with(tag, bad));
    }
}

pub fn minimums_of_a_copy(script: &mut Script) {
    script.say("Copy read: 59 is 0 or 3, with a 110 or without; a Fill or Kill never stands on a copy");
    for (copy, kind) in one_of_each().into_iter().step_by(2) {
        let with_minimum = copy.clone().inserting("150", "110", "100");
        for copy in [copy, with_minimum.clone()] {
            all_read(script, &copy, kind, "59", &["0", "3"]);
            none_read(script, &copy, "59", &["4"]);
        }
        all_read(script, &with_minimum, kind, "110", &["0", "101", "999999999"]);
        none_read(script, &with_minimum, "110", &["1000000000", "0100", ""]);
        script.copy_not_read(&with_minimum.clone().swapping("109", "110"));
        script.copy_not_read(&with_minimum.clone().swapping("110", "150"));
    }
}

pub fn forms_of_a_copy_are_those_of_a_report(script: &mut Script) {
    script.say("Copy read: Canceled has 41 or 378, not both and not neither; Replaced has 378=100 or none");
    script.copy_not_read(&copy_of(canceled_by_request()).without("41"));
    script.copy_not_read(&copy_of(canceled_by_request()).inserting("423", "378", "99"));
    none_read(script, &copy_of(decremented()), "378", &["99", ""]);
    none_read(script, &copy_of(replaced()), "39", &["0", "2"]);
    none_read(script, &copy_of(accepted()), "150", &["1", "4", "5"]);
}

pub fn one_copy_and_nothing_beside_it(script: &mut Script) {
    script.say("Copy read: bytes before or after, two copies, none, and a copy cut off");
    let bytes = copy_of(trade()).bytes();
    for part in [
        &b""[..],
        b"\x01",
        &bytes[1..],
        &bytes[..bytes.len() - 1],
        &[&bytes[..], b" "].concat(),
        &[&bytes[..], b"\x01"].concat(),
        &[b"\x01", &bytes[..]].concat(),
        &[&bytes[..], &bytes].concat(),
    ] {
        script.copy_bytes_not_read(part);
    }
    script.say("Copy read: an untrue 9 or 10, a needless zero, another 8");
    for (copy, _) in one_of_each() {
        let length = copy.body_length();
        script.copy_not_read(&copy.clone().with_length(&format!("0{length}")));
        script.copy_not_read(&copy.clone().with_length(&(length + 1).to_string()));
        script.copy_not_read(&copy.clone().with_check_sum("256"));
        script.copy_not_read(&copy.clone().beginning("FIX.4.4"));
    }
}

pub fn tags_of_a_copy_stand_in_their_order(script: &mut Script) {
    script.say("Copy read: every field of a Trade's copy but 1 must be there, once and in its place");
    let copy = copy_of(trade());
    let tags: Vec<String> = copy.fields.iter().map(|field| String::from_utf8_lossy(&field.0).into_owned()).collect();
    for pair in tags.windows(2).step_by(2) {
        script.copy_not_read(&copy.clone().swapping(&pair[0], &pair[1]));
    }
    for tag in tags.iter().filter(|&tag| tag != "1") {
        script.copy_not_read(&copy.clone().without(tag));
    }
    script.copy_not_read(&copy.clone().inserting("109", "109", "PORT1"));
    script.copy_not_read(&copy.clone().inserting("151", "110", "5"));
    script.copy_not_read(&copy.clone().adding("9999", "x"));
}
