//! Read: which bytes are a report, kind by kind and field by field. The reports are put together here field by field;
//! none comes from the writer.

use crate::compose::{Draft, TIME};
use crate::script::Script;

/// The kinds by the numbers that Read gives.
pub(super) const ACCEPTED: u64 = 1;
pub(super) const REPLACED: u64 = 2;
pub(super) const CANCELED: u64 = 3;
pub(super) const TRADE: u64 = 4;
const REJECTED: u64 = 5;
const CANCEL_REJECT: u64 = 6;
const SESSION_REJECT: u64 = 7;

/// A report of one 35 with these body fields, `|` for SOH.
fn report(msg_type: &str, body: &str) -> Draft {
    Draft::of_text(&format!(
        "35={msg_type}|34=7|49=V|50=DJGB|52={TIME}|56=P|{}",
        body.replace("60=|", &format!("60={TIME}|"))
    ))
}

pub(super) fn accepted() -> Draft {
    report(
        "8",
        "1=acct|6=0.000000|11=a|14=0|17=7|20=0|37=3|38=100|39=0|40=2|44=0.100|47=A|54=1|55=350|59=0|60=|109=10|150=0|\
         151=100|423=9|8060=1|",
    )
}

pub(super) fn replaced() -> Draft {
    report(
        "8",
        "6=0.000000|11=b|14=0|17=7|20=0|37=3|38=100|39=5|40=2|41=a|44=0.100|47=A|54=1|55=350|59=0|60=|150=5|151=100|\
         423=9|8060=1|",
    )
}

/// Replaced by a decrement.
pub(super) fn decremented() -> Draft {
    replaced().with("11", "a").inserting("423", "378", "100")
}

/// Canceled with neither 41 nor 378, which is no report yet.
pub(super) fn canceled() -> Draft {
    report(
        "8",
        "6=0.000000|11=a|14=0|17=7|20=0|37=3|38=100|39=4|40=2|44=0.100|47=A|54=1|55=350|59=0|60=|150=4|151=0|423=9|\
         8060=1|",
    )
}

pub(super) fn canceled_by_request() -> Draft {
    canceled().inserting("44", "41", "old")
}

pub(super) fn canceled_unrequested(reason: &str) -> Draft {
    canceled().inserting("423", "378", reason)
}

pub(super) fn trade() -> Draft {
    report(
        "8",
        "1=acct|6=0.100000|11=a|14=60|17=7|20=0|31=0.100|32=60|37=3|38=100|39=1|40=2|44=0.100|47=P|54=2|55=350|59=3|\
         60=|109=10|150=1|151=40|375=11|382=1|423=9|851=1|880=7|8060=6|",
    )
}

pub(super) fn rejected() -> Draft {
    report("8", "6=0.000000|11=a|14=0|17=7|20=0|37=NONE|38=100|39=8|54=1|55=351|103=1|150=8|151=0|")
}

pub(super) fn cancel_reject() -> Draft {
    report("9", "11=a|37=NONE|39=8|41=x|102=1|434=1|")
}

pub(super) fn session_reject() -> Draft {
    report("3", "45=1|371=54|372=D|373=5|")
}

/// One report of each kind, with the number of its kind.
pub(super) fn one_of_each() -> [(Draft, u64); 7] {
    [
        (accepted(), ACCEPTED),
        (replaced(), REPLACED),
        (canceled_by_request(), CANCELED),
        (trade(), TRADE),
        (rejected(), REJECTED),
        (cancel_reject(), CANCEL_REJECT),
        (session_reject(), SESSION_REJECT),
    ]
}

/// The report with each of these values in one tag is read as this kind.
fn all_read(script: &mut Script, report: &Draft, kind: u64, tag: &str, values: &[&str]) {
    for value in values {
        script.read_as(&report.clone().with(tag, value), kind);
    }
}

/// The report with each of these values in one tag is refused.
fn none_read(script: &mut Script, report: &Draft, tag: &str, values: &[&str]) {
    for value in values {
        script.not_read(&report.clone().with(tag, value));
    }
}

pub fn read_fields_with_one_written_value(script: &mut Script) {
    script.say("Read: 6 and 14 of Accepted, 151 of Canceled and 6 of Rejected are free within their ranges");
    all_read(script, &accepted(), ACCEPTED, "6", &["-1.500000", "999999.999999"]);
    all_read(script, &accepted(), ACCEPTED, "14", &["5", "999999999"]);
    all_read(script, &canceled_by_request(), CANCELED, "151", &["5"]);
    all_read(script, &rejected(), REJECTED, "6", &["0.000001"]);
    script.say("Read: 14 and 151 of Rejected are 0 and nothing else");
    none_read(script, &rejected(), "14", &["1", "00", ""]);
    none_read(script, &rejected(), "151", &["1", "100", "00"]);
    script.say("Read: 20=0, 40=2, 423=9, 382=1, 50=DJGB are single values");
    none_read(script, &accepted(), "20", &["1", "00"]);
    none_read(script, &accepted(), "40", &["1", "2 "]);
    none_read(script, &accepted(), "423", &["1", "09"]);
    none_read(script, &accepted(), "50", &["DJG", "djgb", "DJGBX"]);
    none_read(script, &trade(), "382", &["0", "2", "01"]);
    none_read(script, &rejected(), "20", &["1"]);
}

pub fn read_three_forms_of_canceled(script: &mut Script) {
    script.say("Read: Canceled has 41 alone, 378=100 alone or 378=99 alone");
    script.read_as(&canceled_by_request(), CANCELED);
    script.read_as(&canceled_unrequested("100"), CANCELED);
    script.read_as(&canceled_unrequested("99"), CANCELED);
    script.say("Read: neither or both are refused");
    script.not_read(&canceled());
    script.not_read(&canceled_by_request().inserting("423", "378", "100"));
    script.not_read(&canceled_by_request().inserting("423", "378", "99"));
}

pub fn read_compares_no_field_with_another(script: &mut Script) {
    script.say("Read: 39 and 150 of a Trade are each 1 or 2");
    script.read_as(&trade().with("39", "2"), TRADE);
    script.read_as(&trade().with("150", "2"), TRADE);
    script.read_as(&trade().with("39", "2").with("150", "2"), TRADE);
    script.say("Read: 34 and 17, 41 and 11, 38 and 151, 880, 52 and 60, 37 and 39 may say different things");
    script.read_as(&accepted().with("34", "1").with("17", "999999999"), ACCEPTED);
    script.read_as(&decremented().with("41", "other"), REPLACED);
    script.read_as(&decremented(), REPLACED);
    script.read_as(&accepted().with("38", "1").with("151", "2"), ACCEPTED);
    script.read_as(&trade().with("880", "123"), TRADE);
    script.read_as(&trade().with("60", "20201231-00:00:00"), TRADE);
    script.read_as(&cancel_reject().with("39", "0"), CANCEL_REJECT);
    script.read_as(&cancel_reject().with("37", "3"), CANCEL_REJECT);
}

pub fn read_ranges_of_report_numbers(script: &mut Script) {
    script.say("Read: 34, 17, 880 and 45 are 1 to 999,999,999");
    let bad: &[&str] = &["0", "1000000000", "01", "", "-1", "1.0"];
    for (report, kind, tag) in [
        (accepted(), ACCEPTED, "34"),
        (session_reject(), SESSION_REJECT, "34"),
        (accepted(), ACCEPTED, "17"),
        (rejected(), REJECTED, "17"),
        (trade(), TRADE, "880"),
        (session_reject(), SESSION_REJECT, "45"),
    ] {
        all_read(script, &report, kind, tag, &["1", "999999999"]);
        none_read(script, &report, tag, bad);
    }
}

pub fn read_371_has_the_shape_of_a_tag(script: &mut Script) {
    script.say("Read: 371 is 1 to 9999");
    all_read(script, &session_reject(), SESSION_REJECT, "371", &["1", "9999", "797"]);
    none_read(script, &session_reject(), "371", &["0", "10000", "054", "", "x"]);
}

pub fn read_372_is_one_or_two_characters(script: &mut Script) {
    script.say("Read: 372 is 1 or 2 characters, 20 to 7E hex");
    all_read(script, &session_reject(), SESSION_REJECT, "372", &["A", " ", "~~", "==", "AB", "\\", ";|"]);
    none_read(script, &session_reject(), "372", &["", "ABC", "A\x7f", "\x1f"]);
}

pub fn read_sets_of_values(script: &mut Script) {
    script.say("Read: 373 in {1, 2, 3, 4, 5, 6, 9, 11}");
    all_read(script, &session_reject(), SESSION_REJECT, "373", &["1", "2", "3", "4", "5", "6", "9", "11"]);
    none_read(script, &session_reject(), "373", &["0", "7", "8", "10", "12", "05", ""]);
    script.say("Read: 103 in {0, 1, 6, 99}");
    all_read(script, &rejected(), REJECTED, "103", &["0", "1", "6", "99"]);
    none_read(script, &rejected(), "103", &["2", "5", "9", "100", "06", ""]);
    script.say("Read: 102 in {0, 1, 2}, 434 in {1, 2}, 39 of Cancel reject in {0, 1, 2, 4, 8}");
    all_read(script, &cancel_reject(), CANCEL_REJECT, "102", &["0", "1", "2"]);
    none_read(script, &cancel_reject(), "102", &["3", "99", "00"]);
    all_read(script, &cancel_reject(), CANCEL_REJECT, "434", &["1", "2"]);
    none_read(script, &cancel_reject(), "434", &["0", "3", "11"]);
    all_read(script, &cancel_reject(), CANCEL_REJECT, "39", &["0", "1", "2", "4", "8"]);
    none_read(script, &cancel_reject(), "39", &["3", "5", "6", "9", "A"]);
    script.say("Read: 378 in {99, 100} on Canceled, 100 on Replaced; 851 in {1, 2}");
    none_read(script, &canceled_unrequested("100"), "378", &["2", "98", "101", "0100", ""]);
    script.read_as(&decremented(), REPLACED);
    none_read(script, &decremented(), "378", &["99", "2"]);
    all_read(script, &trade(), TRADE, "851", &["1", "2"]);
    none_read(script, &trade(), "851", &["0", "3", ""]);
    script.say("Read: 47, 54, 59 and 8060 as in messages");
    all_read(script, &trade(), TRADE, "47", &["A", "P"]);
    none_read(script, &trade(), "47", &["a", "I", "AA", ""]);
    none_read(script, &trade(), "54", &["0", "3", "12"]);
    none_read(script, &rejected(), "54", &["3"]);
    all_read(script, &trade(), TRADE, "59", &["0", "3", "4"]);
    none_read(script, &trade(), "59", &["1", "2", "5", "04", ""]);
    all_read(script, &trade(), TRADE, "8060", &["1", "3", "4", "5", "6"]);
    none_read(script, &trade(), "8060", &["0", "2", "7", ""]);
}

pub fn read_ranges_of_mpids(script: &mut Script) {
    script.say("Read: 109 is 1 to 999,999, 375 is 0 to 999,999");
    all_read(script, &trade(), TRADE, "109", &["1", "999999"]);
    none_read(script, &trade(), "109", &["0", "1000000", "010", "", "x"]);
    all_read(script, &trade(), TRADE, "375", &["0", "1", "999999"]);
    none_read(script, &trade(), "375", &["1000000", "00", "011", "", "NONE"]);
}

pub fn read_quantities_of_zero(script: &mut Script) {
    script.say("Read: quantities are 0 to 999,999,999, without needless zeros");
    for tag in ["14", "32", "38", "151"] {
        all_read(script, &trade(), TRADE, tag, &["0", "999999999"]);
        none_read(script, &trade(), tag, &["1000000000", "00", "007", "", "-1", "1.5"]);
    }
    all_read(script, &rejected(), REJECTED, "38", &["0", "999999999"]);
}

pub fn read_order_ids(script: &mut Script) {
    script.say("Read: 37 is 1 to 999,999,999; NONE alone on Rejected, either on Cancel reject, never elsewhere");
    all_read(script, &trade(), TRADE, "37", &["1", "255", "256", "999999999"]);
    none_read(script, &trade(), "37", &["0", "1000000000", "01", "NONE", "", "1000000000000000000000"]);
    none_read(script, &accepted(), "37", &["NONE"]);
    none_read(script, &replaced(), "37", &["NONE"]);
    none_read(script, &canceled_by_request(), "37", &["NONE"]);
    none_read(script, &rejected(), "37", &["1", "none", "NON", "NONE "]);
    all_read(script, &cancel_reject(), CANCEL_REJECT, "37", &["NONE", "1", "256", "999999999"]);
    none_read(script, &cancel_reject(), "37", &["0", "1000000000", "none"]);
}

pub fn read_39_on_replaced(script: &mut Script) {
    script.say("Read: 39 on Replaced is 1 or 5; 150 and 39 of the others are single");
    all_read(script, &replaced(), REPLACED, "39", &["1", "5"]);
    none_read(script, &replaced(), "39", &["0", "2", "4"]);
    none_read(script, &accepted(), "39", &["1", "5", "8"]);
    none_read(script, &accepted(), "150", &["1", "4", "5", "8", "3", ""]);
    none_read(script, &canceled_by_request(), "39", &["0", "2", "8"]);
    none_read(script, &trade(), "39", &["0", "4", "5"]);
    none_read(script, &rejected(), "39", &["0", "4"]);
}

pub fn read_yields_and_averages(script: &mut Script) {
    script.say("Read: yields at most 999999.999 in size, three decimals, no needless zero, no -0.000");
    let good: &[&str] = &["0.000", "-0.001", "999999.999", "-999999.999", "10.000"];
    let bad: &[&str] = &[
        "-0.000", "00.100", "0.1", "0.10", "0.1000", ".100", "1000000.000", "-1000000.000", "1", "1.", "+0.100",
        "-00.100", "--0.100", " 0.100", "0,100", "0.10x", "", "-", ".", "-.100", "0.-10",
    ];
    all_read(script, &accepted(), ACCEPTED, "44", good);
    none_read(script, &accepted(), "44", bad);
    all_read(script, &trade(), TRADE, "31", good);
    none_read(script, &trade(), "31", &["-0.000", "0.1", "1000000.000", "00.100", ""]);
    script.say("Read: 6 is at most 999999.999999 in size, six decimals");
    all_read(script, &trade(), TRADE, "6", &["0.000000", "-0.000001", "999999.999999", "-999999.999999"]);
    none_read(
        script,
        &trade(),
        "6",
        &["-0.000000", "0.100", "0.00000", "0.0000000", "1000000.000000", "00.000000", "0", ""],
    );
    none_read(script, &rejected(), "6", &["0", "0.000", "-0.000000"]);
}

pub fn read_restatement_reasons_stand_alone(script: &mut Script) {
    script.say("Read: 378=99 on a Day order, 100 on an IOC, 851 with anything: taken");
    script.read_as(&canceled_unrequested("99").with("59", "0"), CANCELED);
    script.read_as(&canceled_unrequested("99").with("59", "3"), CANCELED);
    script.read_as(&canceled_unrequested("100").with("59", "3"), CANCELED);
    script.read_as(&trade().with("851", "1").with("59", "3"), TRADE);
}

pub fn read_texts_and_times(script: &mut Script) {
    script.say("Read: 49 and 56 are 1 to 8 characters, 21 to 7E hex");
    for tag in ["49", "56"] {
        all_read(script, &accepted(), ACCEPTED, tag, &["x", "12345678", "!~=|;\\#"]);
        none_read(script, &accepted(), tag, &["", "123456789", "a b", " ", "a\x7f"]);
    }
    script.say("Read: 55 is 1 to 9 digits, zeros kept");
    all_read(script, &accepted(), ACCEPTED, "55", &["0", "000000000", "123456789"]);
    none_read(script, &accepted(), "55", &["", "1234567890", "35a", "-35"]);
    all_read(script, &rejected(), REJECTED, "55", &["007"]);
    script.say("Read: 1 up to 10 characters, 11 and 41 up to 32, 20 to 7E hex");
    all_read(script, &accepted(), ACCEPTED, "1", &[" ", "0123456789", "a=b"]);
    none_read(script, &accepted(), "1", &["", "0123456789a", "a\x1fb"]);
    let longest = "0123456789abcdef0123456789ABCDEF";
    all_read(script, &accepted(), ACCEPTED, "11", &[" ", longest, "11=", "|;\\"]);
    none_read(script, &accepted(), "11", &["", "0123456789abcdef0123456789ABCDEFx", "a\x7f", "a\tb"]);
    all_read(script, &replaced(), REPLACED, "41", &[" ", longest]);
    none_read(script, &replaced(), "41", &["", "0123456789abcdef0123456789ABCDEFx"]);
    all_read(script, &cancel_reject(), CANCEL_REJECT, "41", &["~", longest]);
    none_read(script, &cancel_reject(), "11", &["", "0123456789abcdef0123456789ABCDEFx"]);
    script.say("Read: 52 and 60 are times");
    for tag in ["52", "60"] {
        all_read(script, &accepted(), ACCEPTED, tag, &["00000101-00:00:00", "99991231-23:59:59", "20260231-09:00:00"]);
        none_read(
            script,
            &accepted(),
            tag,
            &["20261301-09:00:00", "20261116-24:00:00", "20261116-09:00:60", "20261116-09:00:000", ""],
        );
    }
}

pub fn read_takes_both_lengths_of_time(script: &mut Script) {
    let (short, long) = (TIME, "20261116-09:00:00.123");
    script.say("Read: 52 and 60 with milliseconds or without, the two not compared, on every kind");
    for (report, kind) in one_of_each() {
        script.read_as(&report.clone().with("52", long), kind);
        if report.position("60").is_some() {
            script.read_as(&report.clone().with("60", long), kind);
            script.read_as(&report.clone().with("52", long).with("60", long), kind);
            script.read_as(&report.clone().with("52", "20261116-09:00:00.000").with("60", short), kind);
        }
    }
    script.say("Read: other lengths, a point without three digits, another mark, and ranges as ever");
    for tag in ["52", "60"] {
        all_read(script, &accepted(), ACCEPTED, tag, &["00000101-00:00:00.000", "99991231-23:59:59.999"]);
        let bad: &[&str] = &[
            "20261116-09:00:0", "20261116-09:00:00.", "20261116-09:00:00.1", "20261116-09:00:00.12",
            "20261116-09:00:00.1234", "20261116-09:00:00,123", "20261116-09:00:000123", "20261116-09:00:00.12x",
            "20261116-09:00:00.-12", "20261116-09:00:0.0123", "20261301-09:00:00.123", "20261116-09:00:60.000",
            "20261116-24:00:00.123",
        ];
        none_read(script, &accepted(), tag, bad);
    }
}

pub fn read_one_report_and_nothing_after_it(script: &mut Script) {
    script.say("Read: bytes before or after the report, or missing, are refused; so are two reports, and none");
    let bytes = cancel_reject().bytes();
    script.bytes_not_read(b"");
    script.bytes_not_read(b"\x01");
    script.bytes_not_read(&bytes[..bytes.len() - 1]);
    script.bytes_not_read(&bytes[1..]);
    for extra in [&b" "[..], b"\x01", b"\n", b"58=x\x01", &bytes] {
        script.bytes_not_read(&[&bytes, extra].concat());
    }
    script.bytes_not_read(&[&b"\x01"[..], &bytes].concat());
    script.say("Read: the longest Replaced: every field as long as it can be");
    let longest = "x".repeat(32);
    let draft = decremented()
        .inserting("6", "1", "0123456789")
        .with("34", "999999999")
        .with("17", "999999999")
        .with("49", "12345678")
        .with("56", "12345678")
        .with("11", &longest)
        .with("41", &longest)
        .with("6", "-999999.999999")
        .with("14", "999999999")
        .with("38", "999999999")
        .with("151", "999999999")
        .with("44", "-999999.999")
        .with("55", "123456789")
        .with("37", "999999999")
        .with("52", "20261116-09:00:00.123")
        .with("60", "20261116-09:00:00.123")
        .inserting("150", "109", "999999")
        .inserting("150", "110", "999999999");
    script.read_as(&draft, REPLACED);
    script.say("Read: the longest Trade");
    let draft = trade()
        .with("1", "0123456789")
        .with("34", "999999999")
        .with("17", "999999999")
        .with("49", "12345678")
        .with("56", "12345678")
        .with("11", &longest)
        .with("6", "-999999.999999")
        .with("14", "999999999")
        .with("31", "-999999.999")
        .with("32", "999999999")
        .with("38", "999999999")
        .with("151", "999999999")
        .with("44", "-999999.999")
        .with("55", "123456789")
        .with("37", "999999999")
        .with("52", "20261116-09:00:00.123")
        .with("60", "20261116-09:00:00.123")
        .with("109", "999999")
        .inserting("150", "110", "999999999")
        .with("375", "999999")
        .with("880", "999999999");
    script.read_as(&draft, TRADE);
}

pub fn read_seven_kinds(script: &mut Script) {
    script.say("Read: seven kinds; both Replaced are one kind, and the three Canceled are one");
    for (report, kind) in one_of_each() {
        script.read_as(&report, kind);
    }
    script.read_as(&decremented(), REPLACED);
    script.read_as(&canceled_unrequested("100"), CANCELED);
    script.read_as(&canceled_unrequested("99"), CANCELED);
    script.say("Read: another 35 is no report");
    for (report, _) in one_of_each() {
        none_read(script, &report, "35", &["D", ""]);
    }
    none_read(script, &accepted(), "35", &["9", "3", "88"]);
    none_read(script, &cancel_reject(), "35", &["8", "3"]);
    none_read(script, &session_reject(), "35", &["8", "9"]);
}

pub fn read_body_length_is_canonical_and_true(script: &mut Script) {
    script.say("Read: 8, 9 and 10 as written: 9 canonical and true, 10 three digits and true");
    for (report, _) in one_of_each() {
        let length = report.body_length();
        script.not_read(&report.clone().with_length(&format!("0{length}")));
        script.not_read(&report.clone().with_length(&(length + 1).to_string()));
        script.not_read(&report.clone().with_check_sum("000"));
    }
    let report = accepted();
    let length = report.body_length();
    for bad in [format!("{}", length - 1), format!(" {length}"), format!("+{length}"), String::new()] {
        script.not_read(&report.clone().with_length(&bad));
    }
    for bad in ["", "0", "256", "1000"] {
        script.not_read(&report.clone().with_check_sum(bad));
    }
    for begin in ["FIX.4.1", "FIX.4.4", "", "fix.4.2"] {
        script.not_read(&report.clone().beginning(begin));
    }
}

pub fn read_account_and_mpid_on_the_execution_kinds_only(script: &mut Script) {
    script.say("Read: 1 and 109 are optional on the four execution kinds");
    for (report, kind) in [
        (accepted(), ACCEPTED),
        (replaced().inserting("6", "1", "x").inserting("150", "109", "10"), REPLACED),
        (canceled_by_request().inserting("6", "1", "x").inserting("150", "109", "10"), CANCELED),
        (trade(), TRADE),
    ] {
        script.read_as(&report, kind);
        script.read_as(&report.clone().without("1"), kind);
        script.read_as(&report.clone().without("109"), kind);
        script.read_as(&report.clone().without("1").without("109"), kind);
    }
    script.say("Read: and refused on the other three");
    script.not_read(&rejected().inserting("6", "1", "x"));
    script.not_read(&rejected().inserting("150", "109", "10"));
    script.not_read(&cancel_reject().inserting("11", "1", "x"));
    script.not_read(&cancel_reject().inserting("434", "109", "10"));
    script.not_read(&session_reject().inserting("45", "1", "x"));
    script.not_read(&session_reject().inserting("371", "109", "10"));
}

pub fn read_minimums(script: &mut Script) {
    script.say("Read: 110 is a quantity, optional on the four execution kinds, and compared with nothing");
    for (report, kind) in
        [(accepted(), ACCEPTED), (decremented(), REPLACED), (canceled_by_request(), CANCELED), (trade(), TRADE)]
    {
        for time_in_force in ["0", "3", "4"] {
            script.read_as(&report.clone().with("59", time_in_force), kind);
            script.read_as(&report.clone().with("59", time_in_force).inserting("150", "110", "101"), kind);
        }
        let with_minimum = report.inserting("150", "110", "7");
        all_read(script, &with_minimum, kind, "110", &["0", "1", "999999999"]);
        none_read(script, &with_minimum, "110", &["1000000000", "007", "", "x"]);
        script.read_as(&with_minimum.clone().without("109"), kind);
        script.not_read(&with_minimum.clone().swapping("60", "110"));
        script.not_read(&with_minimum.clone().swapping("110", "150"));
    }
    let with_minimum = trade().inserting("150", "110", "7");
    none_read(script, &with_minimum, "110", &["00", "-1", "+1", "1.0", " 1", "1 ", "NONE"]);
    script.not_read(&with_minimum.clone().swapping("109", "110"));
    script.not_read(&with_minimum.inserting("150", "110", "7"));
    script.say("Read: and on no other kind");
    script.not_read(&rejected().inserting("150", "110", "7"));
    script.not_read(&rejected().inserting("103", "59", "4"));
    script.not_read(&cancel_reject().inserting("434", "110", "7"));
    script.not_read(&session_reject().inserting("371", "110", "7"));
}

pub fn read_wants_tags_in_their_order(script: &mut Script) {
    script.say("Read: two fields that change places, one that is missing, doubled or added, are refused");
    for (report, _) in one_of_each() {
        let tags: Vec<String> =
            report.fields.iter().map(|(tag, _)| String::from_utf8_lossy(tag).into_owned()).collect();
        let last = tags.len() - 1;
        script.not_read(&report.clone().swapping(&tags[last - 1], &tags[last]));
        script.not_read(&report.clone().swapping("34", "49"));
        script.not_read(&report.clone().swapping("56", &tags[6]));
        script.not_read(&report.clone().without(&tags[last]));
        script.not_read(&report.clone().without("50"));
        script.not_read(&report.clone().without("34"));
        script.not_read(&report.clone().adding(&tags[last], "1"));
        script.not_read(&report.clone().adding("58", "x"));
        script.not_read(&report.clone().adding("9999", "x"));
    }
    script.say("Read: every tag of a Trade but 1 and 109 must be there");
    for (tag, _) in trade().fields.iter().skip(6) {
        let tag = String::from_utf8_lossy(tag).into_owned();
        if tag != "1" && tag != "109" {
            script.not_read(&trade().without(&tag));
        }
    }
    script.say("Read: 41 and 378 stand on no Accepted and no Trade, 31 on no Canceled, 797 nowhere");
    script.not_read(&accepted().inserting("44", "41", "x"));
    script.not_read(&accepted().inserting("423", "378", "100"));
    script.not_read(&trade().inserting("44", "41", "x"));
    script.not_read(&trade().inserting("382", "378", "100"));
    script.not_read(&canceled_by_request().inserting("37", "31", "0.100"));
    script.not_read(&accepted().inserting("8060", "797", "Y"));
    script.not_read(&replaced().without("41"));
}
