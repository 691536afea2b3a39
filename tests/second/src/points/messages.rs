//! Reading a message: which are garbled and which are not.

use crate::compose::{cancel, new_order, Draft, TIME};
use crate::message::{sum, SOH};
use crate::script::Script;

/// `draft` with a ClOrdID that brings its CheckSum to `wanted`.
fn summing_to(draft: &Draft, wanted: u8) -> Draft {
    let characters = || (b'0'..=b'z').filter(u8::is_ascii_alphanumeric).map(char::from);
    let ids = (0..32).flat_map(|zs| characters().map(move |last| format!("{}{last}", "z".repeat(zs))));
    let sums_up = |candidate: &Draft| {
        let bytes = candidate.bytes();
        sum(&bytes[..bytes.len() - "10=xxx|".len()]) == wanted
    };
    ids.map(|id| draft.clone().with("11", &id)).find(sums_up).expect("some id gives every sum")
}

/// `draft` with a last field 58 that brings it to `length` bytes.
fn padded_to(draft: &Draft, length: usize) -> Draft {
    let paddings = (0..=length).rev().map(|n| draft.clone().with("58", &"x".repeat(n)));
    paddings.into_iter().find(|padded| padded.bytes().len() == length).expect("some padding gives the length")
}

pub fn leading_zeros_in_34_are_taken(script: &mut Script) {
    script.say("Message: leading zeros in 34 are taken, and 45 has none");
    script.open(1);
    script.submit(&new_order("a").with("34", "000000007").with("54", "9"), 6, &["45=7", "373=5", "371=54"]);
    script.taken(&new_order("a").with("34", "000000007"), &["34=2"]);
    script.run(1, &[]);
    script.say("Message: but 1 to 9 digits, with value at least 1");
    for bad in ["0", "000000000", "0000000001", "1000000000", "1.0", "-1", "+1", " 1", "1 ", "x"] {
        script.refused(&new_order("b").with("34", bad), 5);
    }
    script.submit(&new_order("b").with("34", "999999999").with("35", "A"), 6, &["45=999999999", "373=11"]);
}

pub fn leading_zeros_in_9_are_taken_up_to_four_digits(script: &mut Script) {
    script.say("Message: leading zeros in 9 are taken up to four digits; five are garbled whatever they say");
    script.open(1);
    let draft = new_order("a");
    let length = draft.body_length();
    script.taken(&draft.clone().with_length(&format!("{length:04}")), &[]);
    script.run(1, &[]);
    let draft = new_order("b");
    script.refused(&draft.clone().with_length(&format!("{length:05}")), 5);
    script.refused(&draft.clone().with_length(&(length + 1).to_string()), 5);
    script.refused(&draft.clone().with_length(&(length - 1).to_string()), 5);
    script.refused(&draft.clone().with_length(&format!(" {length}")), 5);
    script.refused(&draft.clone().with_length(&format!("+{length}")), 5);
    script.refused(&draft.clone().with_length("x"), 5);
    script.say("Message: a body length of two digits may have two zeros before it");
    let short = Draft::of(&[("35", "0"), ("34", "1"), ("49", "P"), ("52", TIME), ("56", "V")]);
    let length = short.body_length();
    script.session_reject(&short, 11, 35);
    script.session_reject(&short.clone().with_length(&format!("{length:03}")), 11, 35);
    script.session_reject(&short.clone().with_length(&format!("{length:04}")), 11, 35);
    script.refused(&short.clone().with_length(&format!("{length:05}")), 5);
}

pub fn equals_sign_in_a_value_is_a_character(script: &mut Script) {
    script.say("Message: the first = ends the tag, a value may hold more");
    script.open(1);
    script.taken(&new_order("a=b"), &["11=a=b"]);
    script.run(1, &[]);
    script.taken(&new_order("="), &["11=="]);
    script.run(1, &[]);
    script.taken(&new_order("11=x").inserting("11", "1", "1=1"), &["1=1=1", "11=11=x"]);
    script.run(1, &[]);
}

pub fn spaces_are_characters(script: &mut Script) {
    script.say("Message: a ClOrdID of one space is good; nothing is trimmed");
    script.open(1);
    script.taken(&new_order(" "), &["11= "]);
    script.run(1, &[]);
    script.taken(&new_order("  "), &["11=  "]);
    script.run(1, &[]);
    script.rejected(&new_order(" "), 6);
    script.say("Message: a space in 49 or 56 is never right");
    script.session_reject(&new_order("a").with("49", "P "), 9, 49);
    script.session_reject(&new_order("a").with("49", " P"), 9, 49);
    script.session_reject(&new_order("a").with("56", "V "), 9, 56);
    script.say("Message: every character from 20 to 7E hex may stand in an id");
    script.taken(&new_order("|;\\~!\"#$%&'()*+,-./:<>?@[]^_`{}"), &["11=|;\\~!\"#$%&'()*+,-./:<>?@[]^_`{}"]);
    script.run(1, &[]);
}

pub fn empty_header_values_are_garbled_and_empty_body_values_are_not(script: &mut Script) {
    script.say("Message: an empty header value is garbled, and an empty 10");
    script.open(1);
    for tag in ["35", "34", "49", "52", "56"] {
        script.refused(&new_order("a").with(tag, ""), 5);
    }
    script.refused(&new_order("a").beginning(""), 5);
    script.refused(&new_order("a").with_length(""), 5);
    script.refused(&new_order("a").with_check_sum(""), 5);
    script.say("Message: an empty body value is 373=4");
    script.session_reject(&new_order("a").with("11", ""), 4, 11);
}

pub fn header_tags_and_10_in_the_body_are_garbled(script: &mut Script) {
    script.say("Message: a header tag or 10 among the body fields is a repeated tag");
    script.open(1);
    for (tag, value) in [("8", "FIX.4.2"), ("9", "5"), ("35", "D"), ("34", "1"), ("49", "P"), ("52", TIME), ("56", "V")]
    {
        script.refused(&new_order("a").adding(tag, value), 5);
    }
    script.refused(&new_order("a").adding("10", "000"), 5);
    script.say("Message: a 10 before the end leaves fields after it");
    let mut early = new_order("a").bytes();
    early.extend(b"58=x\x01");
    script.refused_in(1024, &early, 5);
    script.say("Message: two messages in one are garbled");
    let twice = [new_order("a").bytes(), new_order("b").bytes()].concat();
    script.refused_in(1024, &twice, 5);
}

pub fn tags_of_another_shape_are_garbled(script: &mut Script) {
    script.say("Message: a tag is 1 to 4 digits, the first not 0");
    script.open(1);
    for tag in ["058", "0", "00", "12345", "", " 58", "58 ", "-1", "+58", "5x", "x", "5.8"] {
        script.refused(&new_order("a").adding(tag, "x"), 5);
    }
    script.say("Message: 9999 and 1 are tags");
    script.session_reject(&new_order("a").adding("9999", "x"), 3, 9999);
    script.session_reject(&new_order("a").adding("2", "x"), 3, 2);
    script.say("Message: a field without = is none, and nothing between two SOH is none");
    let draft = new_order("a");
    let counted = String::from_utf8(draft.counted()).expect("the message is text");
    script.refused_in(1024, &draft.framing(counted.replace("21=1", "21-1").as_bytes()), 5);
    script.refused_in(1024, &draft.framing(counted.replace("21=1", "21").as_bytes()), 5);
    script.refused_in(1024, &draft.framing(counted.replace("21=1\x01", "21=1\x01\x01").as_bytes()), 5);
    script.refused_in(1024, &draft.framing(counted.replace("8060=1\x01", "8060=1").as_bytes()), 5);
}

pub fn times_of_any_year_and_31_days_but_no_second_60(script: &mut Script) {
    script.say("Message: any year, day 31 in any month, hour 23, minute and second 59");
    script.open(1);
    let good = ["00000101-00:00:00", "99991231-23:59:59", "20260231-09:00:00", "20260430-12:30:30"];
    for (id, time) in ["a", "b", "c", "d"].iter().zip(good) {
        let fields = [format!("52={time}"), format!("60={time}")];
        script.taken(&new_order(id).with("52", time), &[&fields[0], &fields[1]]);
        script.run(1, &[]);
    }
    script.say("Message: month 0 and 13, day 0 and 32, hour 24, minute 60, second 60; other lengths and marks");
    for time in [
        "20260001-09:00:00", "20261301-09:00:00", "20261100-09:00:00", "20261132-09:00:00", "20261116-24:00:00",
        "20261116-09:60:00", "20261116-09:00:60", "20261116-09:00:0", "20261116-09:00:000", "20261116 09:00:00",
        "20261116-09.00:00", "20261116-09:00-00", "2026111609:00:00", "2026111a-09:00:00", " 0261116-09:00:00",
    ] {
        script.refused(&new_order("e").with("52", time), 5);
    }
}

pub fn other_header_fields_between_are_garbled_and_after_56_undefined(script: &mut Script) {
    script.say("Message: other FIX header fields between the seven are garbled (order)");
    script.open(1);
    script.refused(&new_order("a").inserting("49", "43", "N"), 5);
    script.refused(&new_order("a").inserting("52", "50", "DJGB"), 5);
    script.refused(&new_order("a").inserting("56", "122", TIME), 5);
    script.refused(&new_order("a").inserting("35", "57", "x"), 5);
    script.say("Message: after 56 they are undefined tags");
    script.session_reject(&new_order("a").inserting("11", "43", "N"), 3, 43);
    script.session_reject(&new_order("a").inserting("11", "50", "DJGB"), 3, 50);
    script.session_reject(&new_order("a").inserting("11", "57", "x"), 3, 57);
    script.session_reject(&new_order("a").adding("122", TIME), 3, 122);
    script.say("Message: the seven in another order are garbled");
    for (one, other) in [("35", "34"), ("34", "49"), ("49", "52"), ("52", "56"), ("49", "56"), ("56", "11")] {
        script.refused(&new_order("a").swapping(one, other), 5);
    }
    for tag in ["35", "34", "49", "52", "56"] {
        script.refused(&new_order("a").without(tag), 5);
    }
}

pub fn lengths_0_1024_and_1025(script: &mut Script) {
    script.say("Message: 0 bytes are garbled; 1,022, 1,023 (9=0999) and 1,024 are read; 1,025 are garbled");
    script.open(1);
    script.refused_in(1024, b"", 5);
    script.session_reject(&padded_to(&new_order("a"), 1022), 3, 58);
    script.session_reject(&padded_to(&new_order("a"), 1022).with_length("0999"), 3, 58);
    script.session_reject(&padded_to(&new_order("a"), 1024), 3, 58);
    script.refused(&padded_to(&new_order("a"), 1025), 5);
    script.refused(&padded_to(&new_order("a"), 1500), 5);
    script.say("Message: too long with an undefined tag first, and one byte alone");
    script.refused_in(1024, &[SOH], 5);
    script.refused_in(1024, b"8", 5);
    script.refused_in(1024, &[b'8'; 1024], 5);
}

pub fn body_field_without_value_has_the_shape_of_a_field(script: &mut Script) {
    script.say("Message: an empty body value is 4 for a tag of the type, 3 for one of no list, 2 for another type's");
    script.open(1);
    for tag in [11, 21, 38, 40, 44, 47, 54, 55, 59, 60, 8060, 1, 109] {
        script.session_reject(&new_order("a").with(&tag.to_string(), ""), 4, tag);
    }
    script.session_reject(&cancel("x", "a", "1").with("41", ""), 4, 41);
    script.session_reject(&cancel("x", "a", "1").with("38", ""), 4, 38);
    script.session_reject(&new_order("a").with("58", ""), 3, 58);
    script.session_reject(&new_order("a").with("41", ""), 2, 41);
}

pub fn checksum_is_exactly_three_digits(script: &mut Script) {
    script.say("Message: 10 is exactly three digits: 007, not 7, 07 or 0007");
    script.open(1);
    let draft = summing_to(&new_order("a"), 7);
    for bad in ["7", "07", "0007", "00 7", " 07", "07 ", "+07", "263"] {
        script.refused(&draft.clone().with_check_sum(bad), 5);
    }
    script.taken(&draft.clone().with_check_sum("007"), &[]);
    script.run(1, &[]);
    script.say("Message: the sum wraps at 256: 255 and 000 are sums, 256 is none");
    script.taken(&summing_to(&new_order("a").with("47", "P"), 255).with_check_sum("255"), &[]);
    script.run(1, &[]);
    script.refused(&summing_to(&new_order("a").with("54", "2"), 0).with_check_sum("256"), 5);
    script.rests(&summing_to(&new_order("a").with("44", "9"), 0).with_check_sum("000"));
}

pub fn another_begin_string_is_garbled(script: &mut Script) {
    script.say("Message: 8 is FIX.4.2");
    script.open(1);
    for begin in ["FIX.4.1", "FIX.4.4", "FIXT.1.1", "fix.4.2", "FIX.4.2 ", "FIX.4.20", "FIX4.2", "FIX.4"] {
        script.refused(&new_order("a").beginning(begin), 5);
    }
}

pub fn other_types_of_one_or_two_characters(script: &mut Script) {
    script.say("Message: another 35 of one or two characters is 373=11 with 372 as sent; three are garbled");
    script.open(1);
    for msg_type in ["DD", " ", "d", "8", "A", "D ", " D", "=", "~~", "FG"] {
        let said_back = format!("372={msg_type}");
        script.submit(&new_order("a").with("35", msg_type), 6, &["373=11", "371=35", &said_back]);
    }
    script.refused(&new_order("a").with("35", "DDD"), 5);
    script.refused(&new_order("a").with("35", "D  "), 5);
}

pub fn garbled_comes_before_any_session_reject(script: &mut Script) {
    script.say("Message: a repeated tag is garbled even behind a field that would get a session reject");
    script.open(1);
    script.refused(&new_order("a").with("54", "9").adding("54", "1"), 5);
    script.refused(&new_order("a").with("35", "A").adding("11", "b"), 5);
    script.refused(&new_order("a").with("49", "Q").adding("55", "350"), 5);
    script.refused(&new_order("a").adding("58", "x").adding("58", "y"), 5);
    script.refused(&new_order("a").adding("58", "").adding("58", ""), 5);
    script.say("Message: without the repetition it is the session reject");
    script.session_reject(&new_order("a").with("54", "9"), 5, 54);
}

pub fn garbled_bytes_order_and_truth(script: &mut Script) {
    script.say("Garbled: a byte outside 20 to 7E hex and SOH, anywhere");
    script.open(1);
    for byte in [0x00, 0x02, 0x09, 0x0a, 0x0d, 0x1f, 0x7f, 0x80, 0xff] {
        let mut draft = new_order("a?c");
        let at = draft.position("11").unwrap();
        draft.fields[at].1[1] = byte;
        script.refused(&draft, 5);
    }
    script.say("Garbled: 20 and 7E hex are good");
    script.rests(&new_order("a c").with("44", "3"));
    script.rests(&new_order("a~c").with("44", "4"));
    script.say("Garbled: the last byte is SOH, and nothing stands after it");
    let good = new_order("a").bytes();
    script.refused_in(1024, &good[..good.len() - 1], 5);
    script.refused_in(1024, &[&good[..], b" "].concat(), 5);
    script.refused_in(1024, &[&good[..], b"\x01"].concat(), 5);
    script.refused_in(1024, &[&good[..], b"\n"].concat(), 5);
    script.refused_in(1024, &[b" ", &good[..]].concat(), 5);
    script.refused_in(1024, &[b"\x01", &good[..]].concat(), 5);
    script.say("Garbled: 10 untrue, and 10 missing");
    script.refused(&new_order("a").with_check_sum("000"), 5);
    script.refused_in(1024, &good[..good.len() - "10=xxx|".len()], 5);
    script.say("The message itself is good");
    script.submit_in(1024, &new_order("a"), 0, &["11=a"]);
    script.run(1, &[]);
}
