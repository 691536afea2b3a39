//! Damage: messages and reports that were good, and now are not, or are only just.
//!
//! Damage to fields leaves 9 and 10 true unless they are what is damaged, so that the market has to look at the
//! fields; damage to bytes mostly does not. Some of it does no harm (a leading zero, a field elsewhere in the body):
//! that too must be told apart.

use crate::compose::{summed_again, Draft};
use crate::instrument::Instrument;
use crate::message::SOH;
use crate::random::Random;

/// A message made from a good one by one kind of damage, or two.
pub fn damaged(random: &mut Random, instrument: Instrument, draft: &Draft) -> Vec<u8> {
    if instrument == Instrument::Equities && random.percent(30) {
        return odd_share_field(random, draft.clone()).bytes();
    }
    match random.below(10) {
        0 => damaged_bytes(random, &draft.bytes()),
        1 => {
            let once = damaged_draft(random, draft.clone());
            damaged_draft(random, once).bytes()
        }
        2 => {
            let once = damaged_draft(random, draft.clone());
            damaged_bytes(random, &once.bytes())
        }
        _ => damaged_draft(random, draft.clone()).bytes(),
    }
}

/// A field that only an equities market has, or has in another shape, with a value at its limits; there already or not.
fn odd_share_field(random: &mut Random, draft: Draft) -> Draft {
    let (tag, values): (&str, &[&str]) = random.pick(&[
        (
            "44",
            &[
                "0", "0.0", "-0", "-1", "-0.1", "00000000", "00000000.0", "99999999.9", "100000000", "000000001", "1.",
                ".5", "1.23", "0.10", "+1", " 1", "1.x", "12345678.9", "123456789.0", "1.2.3", ".",
            ][..],
        ),
        ("54", &["1", "2", "5", "6", "3", "4", "7", "8", "0", "55", "S"]),
        ("55", &["A", "A B", " ", "123456789", "1234567890", "a=b|;", "0", "~~~~~~~~~"]),
        ("544", &["1", "2", "3", "0", "4", "11", "C", "", " "]),
        ("544", &["1", "1", "2"]),
        ("8214", &["1", "2", "0", "3", "12", "", "N"]),
        ("8214", &["1", "2"]),
    ]);
    let value = random.pick(values);
    if random.percent(15) {
        return draft.without(tag);
    }
    if draft.position(tag).is_some() {
        draft.with(tag, value)
    } else {
        with_field(random, draft, tag.as_bytes(), value.as_bytes())
    }
}

/// Damage to a field, its place, its tag or the frame.
fn damaged_draft(random: &mut Random, draft: Draft) -> Draft {
    const KINDS: &[fn(&mut Random, Draft) -> Draft] = &[
        odd_body_value, odd_body_value, odd_body_value, odd_body_value, odd_header_value, odd_header_value,
        empty_value, missing_field, missing_field, missing_fields, repeated_tag, foreign_tag, foreign_tag,
        unlisted_tag, unlisted_tag, odd_tag, swapped_fields, swapped_header, moved_field, odd_byte, odd_check_sum,
        odd_length, odd_begin, long_message, other_msg_type, odd_comp_ids,
    ];
    random.pick(KINDS)(random, draft)
}

/// The number of header fields in a draft, 35 to 56: of a message, and of a report, which has 50 besides.
pub const HEADER: usize = 5;
const REPORT_HEADER: usize = 6;

fn any_field(random: &mut Random, draft: &Draft) -> Option<usize> {
    (!draft.fields.is_empty()).then(|| random.below(draft.fields.len()))
}

fn any_body_field(random: &mut Random, draft: &Draft) -> Option<usize> {
    (draft.fields.len() > HEADER).then(|| HEADER + random.below(draft.fields.len() - HEADER))
}

fn any_place_in_body(random: &mut Random, draft: &Draft) -> usize {
    let first = HEADER.min(draft.fields.len());
    first + random.below(draft.fields.len() - first + 1)
}

fn odd_body_value(random: &mut Random, mut draft: Draft) -> Draft {
    if let Some(at) = any_body_field(random, &draft) {
        draft.fields[at].1 = odd_value(random, &draft.fields[at].0.clone());
    }
    draft
}

fn odd_header_value(random: &mut Random, mut draft: Draft) -> Draft {
    let at = random.below(HEADER.min(draft.fields.len()).max(1));
    if let Some(field) = draft.fields.get_mut(at) {
        field.1 = odd_value(random, &field.0.clone());
    }
    draft
}

fn empty_value(random: &mut Random, mut draft: Draft) -> Draft {
    let at = if random.percent(80) { any_body_field(random, &draft) } else { any_field(random, &draft) };
    if let Some(at) = at {
        draft.fields[at].1.clear();
    }
    draft
}

fn missing_field(random: &mut Random, mut draft: Draft) -> Draft {
    let at = if random.percent(85) { any_body_field(random, &draft) } else { any_field(random, &draft) };
    if let Some(at) = at {
        draft.fields.remove(at);
    }
    draft
}

fn missing_fields(random: &mut Random, mut draft: Draft) -> Draft {
    for _ in 0..random.between(2, 4) {
        draft = missing_field(random, draft);
    }
    draft
}

fn repeated_tag(random: &mut Random, mut draft: Draft) -> Draft {
    let again = match any_field(random, &draft) {
        Some(at) if random.percent(80) => draft.fields[at].clone(),
        _ => (random.pick(&["8", "9", "10"]).as_bytes().to_vec(), b"FIX.4.2".to_vec()),
    };
    let value = if random.percent(50) { again.1 } else { odd_value(random, &again.0) };
    let at = any_place_in_body(random, &draft);
    draft.fields.insert(at, (again.0, value));
    draft
}

/// A tag of the three lists, whether or not it belongs to this type or is there already.
fn foreign_tag(random: &mut Random, draft: Draft) -> Draft {
    let tag = random.pick(&[
        "1", "1", "11", "21", "38", "40", "41", "44", "47", "54", "55", "59", "60", "109", "110", "110", "110", "8060",
    ]);
    if draft.position(tag).is_some() && random.percent(80) {
        return draft;
    }
    let value = match random.below(4) {
        0 => Vec::new(),
        1 => odd_value(random, tag.as_bytes()),
        _ => plain_value(tag).to_vec(),
    };
    with_field(random, draft, tag.as_bytes(), &value)
}

fn unlisted_tag(random: &mut Random, draft: Draft) -> Draft {
    let tag = random.pick(&[
        "2", "6", "7", "12", "14", "17", "20", "31", "32", "37", "39", "43", "45", "50", "57", "58", "97", "102",
        "103", "111", "115", "122", "128", "150", "151", "371", "375", "378", "382", "423", "434", "797", "851", "880",
        "8059", "8061", "9999",
    ]);
    let value = random.pick(&["x", "1", "Y", "", "DJGB", "0.100", "20261116-09:00:00"]);
    with_field(random, draft, tag.as_bytes(), value.as_bytes())
}

fn with_field(random: &mut Random, mut draft: Draft, tag: &[u8], value: &[u8]) -> Draft {
    let at = any_place_in_body(random, &draft);
    draft.fields.insert(at, (tag.to_vec(), value.to_vec()));
    draft
}

/// A tag of another shape: with a zero before it, too long, with a letter or a sign, or none.
fn odd_tag(random: &mut Random, mut draft: Draft) -> Draft {
    if let Some(at) = any_field(random, &draft) {
        let tag = String::from_utf8_lossy(&draft.fields[at].0).into_owned();
        let odd = match random.below(8) {
            0 => format!("0{tag}"),
            1 => format!("{tag:0<5}"),
            2 => String::new(),
            3 => format!("{tag}x"),
            4 => format!("-{tag}"),
            5 => format!(" {tag}"),
            6 => "0".to_string(),
            _ => format!("{tag}0"),
        };
        draft.fields[at].0 = odd.into_bytes();
    }
    draft
}

fn swapped_fields(random: &mut Random, mut draft: Draft) -> Draft {
    if let (Some(one), Some(other)) = (any_field(random, &draft), any_field(random, &draft)) {
        draft.fields.swap(one, other);
    }
    draft
}

fn swapped_header(random: &mut Random, mut draft: Draft) -> Draft {
    if draft.fields.len() > HEADER {
        draft.fields.swap(random.below(HEADER), random.below(HEADER + 1));
    }
    draft
}

/// A body field elsewhere in the body: no damage at all.
fn moved_field(random: &mut Random, mut draft: Draft) -> Draft {
    if let Some(from) = any_body_field(random, &draft) {
        let field = draft.fields.remove(from);
        let to = any_place_in_body(random, &draft);
        draft.fields.insert(to, field);
    }
    draft
}

/// A byte in a value that no message may hold, or one at the limits of those that it may.
fn odd_byte(random: &mut Random, mut draft: Draft) -> Draft {
    if let Some(at) = any_field(random, &draft) {
        let value = &mut draft.fields[at].1;
        let byte = random.pick(&[0x00, 0x01, 0x02, 0x09, 0x0a, 0x0d, 0x1f, 0x20, 0x3d, 0x7e, 0x7f, 0x80, 0xa0, 0xff]);
        let place = random.below(value.len() + 1);
        value.insert(place, byte);
    }
    draft
}

fn odd_check_sum(random: &mut Random, mut draft: Draft) -> Draft {
    let bytes = draft.bytes();
    let truth = String::from_utf8_lossy(&bytes[bytes.len() - 4..bytes.len() - 1]).into_owned();
    let value: u32 = truth.parse().unwrap_or(0);
    let odd = match random.below(8) {
        0 => format!("{:03}", (value + 1) % 256),
        1 => format!("{:03}", (value + 255) % 256),
        2 => value.to_string(),
        3 => format!("0{truth}"),
        4 => format!("{:03}", value + 256),
        5 => String::new(),
        6 => format!("{truth} "),
        _ => format!("{:03}", random.below(1000)),
    };
    draft.check_sum = Some(odd.into_bytes());
    draft
}

/// Another 9, the CheckSum agreeing with it. Leading zeros up to four digits do no harm.
fn odd_length(random: &mut Random, mut draft: Draft) -> Draft {
    let truth = draft.body_length();
    let odd = match random.below(10) {
        0 => (truth + 1).to_string(),
        1 => truth.saturating_sub(1).to_string(),
        2 => format!("{truth:04}"),
        3 => format!("{truth:05}"),
        4 => String::new(),
        5 => "0".to_string(),
        6 => format!("{truth}x"),
        7 => format!("-{truth}"),
        8 => (truth + 10).to_string(),
        _ => random.below(10_000).to_string(),
    };
    draft.length = Some(odd.into_bytes());
    draft
}

fn odd_begin(random: &mut Random, draft: Draft) -> Draft {
    draft.beginning(random.pick(&["FIX.4.1", "FIX.4.3", "FIX.4.4", "FIXT.1.1", "fix.4.2", "FIX.4.2 ", "", "FIX.4.20"]))
}

/// Filled up to about 1,024 bytes, by an unlisted field or by an overlong one.
fn long_message(random: &mut Random, mut draft: Draft) -> Draft {
    let length = random.between(1020, 1030) as usize;
    let missing = length.saturating_sub(draft.bytes().len());
    if random.percent(60) {
        let filler = vec![b'x'; missing.saturating_sub("58=|".len())];
        return with_field(random, draft, b"58", &filler);
    }
    if let Some(at) = any_body_field(random, &draft) {
        draft.fields[at].1.extend(vec![b'7'; missing]);
    }
    draft
}

fn other_msg_type(random: &mut Random, draft: Draft) -> Draft {
    draft.with("35", random.pick(&["D", "F", "G", "8", "9", "A", "0", "DD", "d", " ", "AB", "DFG"]))
}

/// Another 49, another 56, or both.
fn odd_comp_ids(random: &mut Random, mut draft: Draft) -> Draft {
    let which = random.below(3);
    for (tag, is_odd) in [("49", which != 0), ("56", which != 1)] {
        if let Some(at) = draft.position(tag).filter(|_| is_odd) {
            draft.fields[at].1 = odd_value(random, tag.as_bytes());
        }
    }
    draft
}

/// A value of the right shape for a tag of the three lists.
fn plain_value(tag: &str) -> &'static [u8] {
    match tag {
        "38" => b"7",
        "40" => b"2",
        "44" => b"0.1",
        "47" => b"A",
        "55" => b"350",
        "59" => b"0",
        "60" => b"20261116-09:00:00",
        "109" => b"10",
        _ => b"1",
    }
}

/// A value at the limits of a message's tag, mostly just outside.
fn odd_value(random: &mut Random, tag: &[u8]) -> Vec<u8> {
    const TIMES: &[&str] = &[
        "20261116-09:00:60", "20261116-09:60:00", "20261116-24:00:00", "20261132-09:00:00", "20261100-09:00:00",
        "20261316-09:00:00", "20260016-09:00:00", "00000231-23:59:59", "99991231-00:00:00", "20261116 09:00:00",
        "20261116-09:00:0", "20261116-09:00:00.000", "2026111-609:00:00", "20261116-0900:00:", "2026x116-09:00:00",
        "20261116-09:00:00.", "20261116-09:00:00.1", "20261116-09:00:00.12", "20261116-09:00:00.1234",
        "20261116-09:00:00,123", "20261116-09:00:00.12x", "20261116-09:00:60.000", "20261116-09:00:00.999",
        "20261116-24:00:00.500",
    ];
    const IDS: &[&str] = &[
        " ", "=", "a b", "0123456789abcdef0123456789abcdef", "0123456789abcdef0123456789abcdef0", "|", ";", "\\", "~",
    ];
    let choices: &[&str] = match tag {
        b"1" => &["0123456789", "0123456789a", "0123456789 ", "an account", " ", ";"],
        b"11" | b"41" => IDS,
        b"21" => &["2", "3", "11", " ", "x", "0"],
        b"38" | b"110" => &[
            "0", "00", "000000000", "0000000000", "000000001", "0000000001", "999999999", "1000000000", "4294967296",
            "1.0", "-1", "+1", " 1", "1 ", "x", "1e3",
        ],
        b"40" => &["1", "3", "22", "P", " 2"],
        b"44" => &[
            "0", "-0", "-0.0", "-0.001", "000000", "000001.5", "999999.999", "-999999.999", "1000000", "0000001", "1.",
            ".5", "-.5", "+1", "1.2345", "0.1000", "-0.0001", "1.2.3", "-", ".", "--1", "1,5", " 1", "1e3", "0.100 ",
        ],
        b"47" => &["A", "P", "a", "p", "I", "AP", " "],
        b"54" => &["0", "3", "5", "12", "B", " "],
        b"55" => &["0", "0350", "351", "000000000", "999999999", "1234567890", "JGB", "35O", "-350", " 350"],
        b"59" => &["1", "4", "4", "6", "00", "33", "44", " "],
        b"60" | b"52" => TIMES,
        b"109" => &["0", "000000", "000010", "0000010", "1", "999999", "1000000", "15", "x", "-1", " 10"],
        b"8060" => &["0", "2", "7", "3", "6", "11", "H"],
        b"34" => &["0", "000000000", "000000007", "0000000007", "999999999", "1000000000", "-1", "1.0", "x", " 1"],
        b"35" => &["DD", "d", "8", " ", "D ", "DDD", "A", "~~"],
        b"49" | b"56" => &["v", "VV", " ", "V ", "venue-with-a-long-name", "=", "0", ""],
        _ => &["x", "0", "1", " "],
    };
    random.pick(choices).as_bytes().to_vec()
}

/// Damage to bytes: one changed, cut off, put in or put at an end.
fn damaged_bytes(random: &mut Random, bytes: &[u8]) -> Vec<u8> {
    let mut bytes = bytes.to_vec();
    let at = random.below(bytes.len().max(1));
    match random.below(9) {
        0 => bytes.truncate(at),
        1 => bytes = bytes.split_off(at),
        2 => bytes.push(random.pick(&[SOH, b' ', b'\n', b'8', 0x00])),
        3 => bytes.insert(0, random.pick(&[SOH, b' ', b'8', 0x00])),
        4 => bytes.insert(at, random.bits() as u8),
        5 => drop(bytes.drain(at..=at)),
        6 => bytes.extend(bytes.clone()),
        7 => bytes[at] = random.bits() as u8,
        _ => bytes = changed_and_summed(random, bytes),
    }
    bytes
}

/// One byte before 10 changed, and the CheckSum made true again.
fn changed_and_summed(random: &mut Random, mut bytes: Vec<u8>) -> Vec<u8> {
    let Some(before_10) = bytes.len().checked_sub("10=xxx|".len()).filter(|&length| length > 0) else {
        return bytes;
    };
    let at = random.below(before_10);
    bytes[at] = if random.percent(50) { random.between(0x20, 0x7e) as u8 } else { random.bits() as u8 };
    summed_again(&bytes)
}

/// A report made from a good one by one kind of damage.
pub fn damaged_report(random: &mut Random, instrument: Instrument, report: &[u8]) -> Vec<u8> {
    let Some(draft) = Draft::from_bytes(report) else {
        return damaged_bytes(random, report);
    };
    if instrument == Instrument::Equities && random.percent(40) {
        return odd_share_report(random, draft).bytes();
    }
    match random.below(12) {
        0 => damaged_bytes(random, report),
        1 => changed_and_summed(random, report.to_vec()),
        2 => reordered_report(random, draft).bytes(),
        3 => with_field_ascending(random, draft).bytes(),
        4 if draft.position("41").or(draft.position("378")).is_some() => draft.without("41").without("378").bytes(),
        4 => odd_check_sum(random, draft).bytes(),
        5 => odd_length(random, draft).bytes(),
        _ => odd_report_field(random, draft).bytes(),
    }
}

/// Two fields in each other's place, neighbours mostly; one doubled or left out.
fn reordered_report(random: &mut Random, mut draft: Draft) -> Draft {
    let at = random.below(draft.fields.len());
    match random.below(3) {
        0 => {
            let other =
                if random.percent(60) { (at + 1) % draft.fields.len() } else { random.below(draft.fields.len()) };
            draft.fields.swap(at, other);
        }
        1 => draft.fields.insert(at, draft.fields[at].clone()),
        _ => drop(draft.fields.remove(at)),
    }
    draft
}

/// A field more that such a report may or may not have, where its tag belongs.
fn with_field_ascending(random: &mut Random, draft: Draft) -> Draft {
    let (tag, value) = random.pick(&[
        ("1", "acct"),
        ("31", "0.100"),
        ("41", "old"),
        ("41", "old"),
        ("58", "x"),
        ("109", "10"),
        ("110", "5"),
        ("110", "0"),
        ("378", "100"),
        ("378", "99"),
        ("797", "Y"),
    ]);
    with_ascending(draft, tag, value)
}

/// A field more, where its tag belongs.
fn with_ascending(mut draft: Draft, tag: &str, value: &str) -> Draft {
    let number = |text: &[u8]| String::from_utf8_lossy(text).parse::<u32>().unwrap_or(0);
    let body = draft.fields.iter().skip(REPORT_HEADER);
    let at = REPORT_HEADER + body.take_while(|field| number(&field.0) < number(tag.as_bytes())).count();
    draft.fields.insert(at.min(draft.fields.len()), (tag.as_bytes().to_vec(), value.as_bytes().to_vec()));
    draft
}

/// A field that only a report of an equities market has, or has in another shape, with a value at its limits; or a field
/// that only a bond market's report has.
fn odd_share_report(random: &mut Random, draft: Draft) -> Draft {
    const PRICES: &[&str] = &[
        "0.0", "-0.0", "-0.1", "99999999.9", "100000000.0", "0.10", "00.1", ".1", "1", "1.", "12345678.9", "0.100",
        "-0.005",
    ];
    let (tag, values): (&str, &[&str]) = random.pick(&[
        ("44", PRICES),
        ("31", PRICES),
        (
            "6",
            &[
                "0.0000", "-0.0000", "-0.0001", "99999999.9999", "100000000.0000", "0.000000", "0.000", "00.0000",
                "1.00000", "0", "7.1234",
            ],
        ),
        ("50", &["DAY", "DJGB", "NGHT", "DAYX", "day", "DA", "DAYY"]),
        ("54", &["1", "2", "5", "6", "3", "4", "7", "55"]),
        ("55", &["A", "A B", " ", "ABCDEFGHI", "ABCDEFGHIJ", "=;|~"]),
        ("544", &["1", "2", "3", "0", "4", "01"]),
        ("8214", &["1", "2", "0", "3", "01"]),
        ("109", &["20-characters-20-cha", "21-characters-21-char", "a b"]),
        ("423", &["9", "9", "2"]),
        ("375", &["0", "10"]),
        ("382", &["1"]),
    ]);
    let value = random.pick(values);
    match draft.position(tag) {
        Some(_) if random.percent(12) => draft.without(tag),
        Some(_) => draft.with(tag, value),
        None => with_ascending(draft, tag, value),
    }
}

/// A field with a value at the limits of what a report may say, or empty.
fn odd_report_field(random: &mut Random, mut draft: Draft) -> Draft {
    let at = random.below(draft.fields.len());
    let (tag, _) = draft.fields[at].clone();
    draft.fields[at].1 = if random.percent(8) { Vec::new() } else { odd_report_value(random, &tag) };
    draft
}

fn odd_report_value(random: &mut Random, tag: &[u8]) -> Vec<u8> {
    let choices: &[&str] = match tag {
        b"34" | b"17" | b"880" | b"45" => &["0", "1", "01", "999999999", "1000000000", "-1", "x"],
        b"14" | b"32" | b"38" | b"110" | b"151" => &["0", "1", "00", "07", "999999999", "1000000000", "-1", "1.0"],
        b"37" => &["0", "1", "256", "999999999", "1000000000", "NONE", "01", "none"],
        b"31" | b"44" => &[
            "0.000", "-0.000", "-0.001", "999999.999", "-999999.999", "1000000.000", "0.1", "00.100", ".100", "1",
            "0.1000",
        ],
        b"6" => &[
            "0.000000", "-0.000000", "-0.000001", "999999.999999", "-999999.999999", "1000000.000000", "0.1", "0.100",
            "00.000000", "0",
        ],
        b"109" => &[
            "0", "1", "999999", "1000000", "010", "x", "a-b", "a b", "thirty-characters-30-thirty-ch",
            "31-characters-31-characters-31!",
        ],
        b"375" => &["0", "1", "999999", "1000000", "010", "x"],
        b"797" => &["Y", "N", "y", "YY", " "],
        b"371" => &["0", "1", "9999", "10000", "035"],
        b"372" => &["D", "DD", "DDD", " ", "~"],
        b"373" => &["0", "1", "2", "3", "4", "5", "6", "7", "9", "10", "11", "12"],
        b"378" => &["2", "99", "100", "0100"],
        b"102" | b"103" | b"434" | b"851" | b"382" => &["0", "1", "2", "3", "6", "99", "01"],
        b"1" => &["0123456789", "0123456789a", " "],
        b"11" | b"41" => &["0123456789abcdef0123456789abcdef", "0123456789abcdef0123456789abcdef0", " ", "=", "|;\\"],
        b"49" | b"56" => &["x", "12345678", "123456789", "a b", " "],
        b"52" | b"60" => return odd_value(random, b"52"),
        b"55" => &["0", "000000000", "1234567890", "35a"],
        b"50" => &["DJGB", "djgb", "DJG", "DJGBX"],
        b"59" => &["0", "3", "4", "4", "1", "44"],
        _ => &["0", "1", "2", "3", "4", "5", "6", "8", "9", "A", "P", "11", " "],
    };
    random.pick(choices).as_bytes().to_vec()
}
