//! Read: which bytes are a report of an equities market. The reports are put together here field by field; none comes from
//! the writer.

use crate::compose::{Draft, SYMBOL, TIME};
use crate::instrument::Instrument;
use crate::points::reading;
use crate::script::Script;

/// The kinds by the numbers that Read gives.
const ACCEPTED: u64 = 1;
const REPLACED: u64 = 2;
const CANCELED: u64 = 3;
const TRADE: u64 = 4;
const REJECTED: u64 = 5;

/// A report of one 35 with these body fields, `|` for SOH.
fn report(msg_type: &str, body: &str) -> Draft {
    let body = body.replace("60=|", &format!("60={TIME}|")).replace("55=|", &format!("55={SYMBOL}|"));
    Draft::of_text(&format!("35={msg_type}|34=7|49=V|50=DAY|52={TIME}|56=P|{body}"))
}

pub(super) fn accepted() -> Draft {
    report(
        "8",
        "1=acct|6=0.0000|11=a|14=0|17=7|20=0|37=3|38=100|39=0|40=2|44=100.0|47=A|54=1|55=|59=0|60=|109=10|150=0|\
         151=100|544=1|8060=1|",
    )
}

pub(super) fn replaced() -> Draft {
    report(
        "8",
        "6=0.0000|11=b|14=0|17=7|20=0|37=3|38=100|39=5|40=2|41=a|44=100.0|47=A|54=1|55=|59=0|60=|150=5|151=100|544=1|\
         8060=1|",
    )
}

/// Replaced by a decrement.
pub(super) fn decremented() -> Draft {
    replaced().with("11", "a").inserting("544", "378", "100")
}

/// Canceled with neither 41 nor 378, which is no report yet.
fn canceled() -> Draft {
    report(
        "8",
        "6=0.0000|11=a|14=0|17=7|20=0|37=3|38=100|39=4|40=2|44=100.0|47=A|54=1|55=|59=0|60=|150=4|151=0|544=1|8060=1|",
    )
}

pub(super) fn canceled_by_request() -> Draft {
    canceled().inserting("44", "41", "old")
}

pub(super) fn canceled_unrequested(reason: &str) -> Draft {
    canceled().inserting("544", "378", reason)
}

pub(super) fn trade() -> Draft {
    report(
        "8",
        "1=acct|6=100.0000|11=a|14=60|17=7|20=0|31=100.0|32=60|37=3|38=100|39=1|40=2|44=99.9|47=P|54=5|55=|59=3|60=|\
         109=10|150=1|151=40|544=2|851=1|880=7|8060=6|8214=1|",
    )
}

pub(super) fn rejected() -> Draft {
    report("8", "6=0.0000|11=a|14=0|17=7|20=0|37=NONE|38=100|39=8|54=6|55=|103=1|150=8|151=0|")
}

pub(super) fn cancel_reject() -> Draft {
    report("9", "11=a|37=NONE|39=8|41=x|102=1|434=1|")
}

pub(super) fn session_reject() -> Draft {
    report("3", "45=1|371=8214|372=D|373=5|")
}

/// One report of every form, with the number of its kind.
fn one_of_each() -> [(Draft, u64); 10] {
    [
        (accepted(), ACCEPTED),
        (replaced(), REPLACED),
        (decremented(), REPLACED),
        (canceled_by_request(), CANCELED),
        (canceled_unrequested("100"), CANCELED),
        (canceled_unrequested("99"), CANCELED),
        (trade(), TRADE),
        (rejected(), REJECTED),
        (cancel_reject(), 6),
        (session_reject(), 7),
    ]
}

/// The report with each of these values in one tag is read as this kind.
fn all_read(script: &mut Script, report: &Draft, kind: u64, tag: &str, values: &[&str]) {
    for value in values {
        script.read_as(&report.clone().with(tag, value), kind);
    }
}

/// The report with each of these values in one tag is refused.
fn none_read(script: &mut Script, report: &Draft, tag: &str, values: &[&str]) {
    for value in values {
        script.not_read(&report.clone().with(tag, value));
    }
}

pub fn read_seven_kinds_of_share_reports(script: &mut Script) {
    script.say("Read of shares: seven kinds in all their forms; 50 is DAY and nothing else");
    for (report, kind) in one_of_each() {
        script.read_as(&report, kind);
        script.not_read(&report.clone().with("50", "DJGB"));
    }
    none_read(script, &accepted(), "50", &["NGHT", "DAYX", "DAYU", "day", "DA", "DAYY", ""]);
    script.say("Read of shares: neither 41 nor 378 on Canceled, or both, are refused");
    script.not_read(&canceled());
    script.not_read(&canceled_by_request().inserting("544", "378", "100"));
}

pub fn read_prices_and_averages(script: &mut Script) {
    script.say("Read of shares: 44 and 31 have 1 to 8 whole digits and one decimal, and no minus");
    let good: &[&str] = &["0.0", "0.1", "1.0", "99999999.9", "10000000.0"];
    let bad: &[&str] = &[
        "-0.0", "-0.1", "-100.0", "100000000.0", "00.1", "0100.0", "100", "100.", "100.00", ".1", "+1.0", " 1.0",
        "1.x", "1,0", "", ".", "-",
    ];
    all_read(script, &accepted(), ACCEPTED, "44", good);
    none_read(script, &accepted(), "44", bad);
    all_read(script, &trade(), TRADE, "31", good);
    none_read(script, &trade(), "31", bad);
    none_read(script, &replaced(), "44", &["-1.0", "0.100"]);
    script.say("Read of shares: 6 is at most 99999999.9999, with four decimals and no minus");
    all_read(script, &trade(), TRADE, "6", &["0.0000", "0.0001", "99999999.9999", "100.0063"]);
    none_read(
        script,
        &trade(),
        "6",
        &[
            "-0.0000", "-0.0001", "100000000.0000", "0.000", "0.00000", "0.000000", "00.0000", "0", ".0000", "1.000x",
            "",
        ],
    );
    all_read(script, &rejected(), REJECTED, "6", &["0.0000", "7.5000"]);
    none_read(script, &rejected(), "6", &["0.000000", "-0.0001", "0"]);
}

pub fn read_sides_and_symbols_of_shares(script: &mut Script) {
    script.say("Read of shares: 54 in {1, 2, 5, 6}, 55 of 1 to 9 characters, 20 to 7E hex");
    for (report, kind) in [(trade(), TRADE), (rejected(), REJECTED)] {
        all_read(script, &report, kind, "54", &["1", "2", "5", "6"]);
        none_read(script, &report, "54", &["0", "3", "4", "7", "8", "55", "5 ", ""]);
        all_read(script, &report, kind, "55", &["7", "A B", " ", "ABCDEFGHI", "=;|\\~"]);
        none_read(script, &report, "55", &["", "ABCDEFGHIJ", "A\x7f", "\x1f"]);
    }
}

pub fn read_share_marks(script: &mut Script) {
    script.say("Read of shares: 544 in {1, 2, 3} on the four kinds about orders; 8214 in {1, 2}, optional, not compared with it");
    for (report, kind) in [one_of_each()[0].clone(), one_of_each()[6].clone()] {
        let plain = report.without("8214");
        all_read(script, &plain, kind, "544", &["1", "2", "3"]);
        none_read(script, &plain, "544", &["0", "4", "", "11", "A"]);
        script.not_read(&plain.clone().without("544"));
        script.read_as(&plain.clone().with("544", "1").adding("8214", "1"), kind);
        script.read_as(&plain.clone().with("544", "3").adding("8214", "2"), kind);
        none_read(script, &plain, "8214", &["0", "3", "", "12", "N"]);
        script.not_read(&plain.clone().without("544").inserting("8060", "8214", "1"));
        script.not_read(&plain.adding("8214", "1").swapping("8060", "8214"));
    }
    for (report, kind) in one_of_each().into_iter().take(6).skip(1) {
        script.read_as(&report.clone().with("544", "3").adding("8214", "2"), kind);
        script.not_read(&report.clone().with("544", "4"));
        script.not_read(&report.clone().without("544"));
        script.not_read(&report.adding("8214", "3"));
    }
    script.say("Read of shares: rejects have neither");
    for report in [rejected(), cancel_reject(), session_reject()] {
        script.not_read(&report.clone().adding("544", "1"));
        script.not_read(&report.clone().adding("8214", "1"));
        script.not_read(&report.adding("544", "2").adding("8214", "1"));
    }
}

pub fn read_no_field_of_bonds(script: &mut Script) {
    script.say("Read of shares: no 423, no 375 and no 382");
    for (report, _) in one_of_each().into_iter().take(7) {
        script.not_read(&report.inserting("544", "423", "9"));
    }
    script.not_read(&trade().inserting("544", "375", "11"));
    script.not_read(&trade().inserting("544", "382", "1"));
    script.not_read(&trade().inserting("544", "375", "0").inserting("544", "382", "1"));
    script.not_read(&trade().without("544").inserting("851", "423", "9"));
}

pub fn read_share_numbers_and_texts(script: &mut Script) {
    script.say("Read of shares: numbers, sets, texts and times as for bonds");
    for tag in ["34", "17", "880", "37"] {
        all_read(script, &trade(), TRADE, tag, &["1", "999999999"]);
        none_read(script, &trade(), tag, &["0", "1000000000", "01"]);
    }
    for tag in ["14", "32", "38", "151"] {
        all_read(script, &trade(), TRADE, tag, &["0", "999999999"]);
        none_read(script, &trade(), tag, &["1000000000", "00"]);
    }
    for (tag, good, bad) in [
        ("59", &["0", "4"][..], &["1", "2"][..]),
        ("47", &["A"], &["a"]),
        ("8060", &["1", "5"], &["2", "7"]),
        ("851", &["2"], &["3"]),
        ("39", &["2"], &["0", "5"]),
        ("109", &["1", "999999"], &["0", "1000000", "010", "x"]),
        ("1", &["0123456789"], &["", "0123456789a"]),
        ("11", &["0123456789abcdef0123456789ABCDEF"], &["", "0123456789abcdef0123456789ABCDEFx"]),
        ("49", &["12345678"], &["123456789", "a b"]),
        ("52", &["20261116-09:00:00.123"], &["20261116-09:00:60", "20261116-09:00:00.1"]),
        ("60", &["20261116-09:00:00.123"], &["20261116-24:00:00", ""]),
        ("40", &[], &["1"]),
        ("20", &[], &["1"]),
    ] {
        all_read(script, &trade(), TRADE, tag, good);
        none_read(script, &trade(), tag, bad);
    }
    script.read_as(&trade().inserting("150", "110", "0"), TRADE);
    script.not_read(&trade().inserting("150", "110", "07"));
    all_read(script, &session_reject(), 7, "371", &["544", "8214", "9999"]);
    none_read(script, &session_reject(), "371", &["0", "10000"]);
}

pub fn read_damaged_share_reports(script: &mut Script) {
    script.say("Read of shares: a field too many, too few, twice or out of its order, an untrue 9 or 10, bytes before or behind");
    for (report, _) in one_of_each() {
        script.not_read(&report.clone().with_check_sum("999"));
        script.not_read(&report.clone().adding("9999", "x"));
        script.not_read(&report.clone().without("52"));
    }
    script.not_read(&trade().with_length("1"));
    script.not_read(&trade().swapping("34", "49"));
    for tag in ["6", "31", "44", "54", "55", "544", "851", "8060"] {
        script.not_read(&trade().without(tag));
        script.not_read(&trade().inserting(tag, tag, "1"));
    }
    for (one, other) in [("544", "151"), ("544", "851"), ("851", "880"), ("6", "11"), ("8060", "8214")] {
        script.not_read(&trade().swapping(one, other));
    }
    let bytes = trade().bytes();
    for part in
        [&bytes[1..], &bytes[..bytes.len() - 1], &[&bytes[..], b"\x01"].concat(), &[&bytes[..], &bytes].concat()]
    {
        script.bytes_not_read(part);
    }
    script.bytes_not_read(b"");
}

pub fn each_market_reads_its_own(script: &mut Script) {
    script.say("Read: a report of bonds is none of shares, and the other way round, for copies too");
    for (report, kind) in reading::one_of_each() {
        script.not_read(&report);
        script.calls(Instrument::Bonds);
        script.read_as(&report, kind);
        script.calls(Instrument::Equities);
    }
    script.calls(Instrument::Bonds);
    for (report, _) in one_of_each() {
        script.not_read(&report);
    }
    let copy = |report: Draft, id: &str| report.with("109", id).inserting("851", "797", "Y");
    script.copy_read_as(&copy(reading::trade(), "twenty-one-characters"), TRADE);
    script.copy_not_read(&copy(trade(), "PORT1"));
    script.calls(Instrument::Equities);
    script.copy_not_read(&copy(reading::trade(), "PORT1"));
    script.copy_read_as(&copy(trade(), "PORT1"), TRADE);
}
