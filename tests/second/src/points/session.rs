//! The Session Reject: its reasons, and which comes first.

use crate::compose::{cancel, new_order, order, replace, Draft, TIME};
use crate::script::Script;

pub fn fields_are_asked_one_by_one_from_the_left(script: &mut Script) {
    script.say("Session Reject: the first field that fails decides, whatever its reason");
    script.open(1);
    script.session_reject(&new_order("a").with("54", "9").adding("58", "x"), 5, 54);
    script.session_reject(&new_order("a").with("54", "9").inserting("11", "58", "x"), 3, 58);
    script.session_reject(&new_order("a").with("40", "").with("54", "9").adding("41", "x"), 4, 40);
    script.session_reject(&new_order("a").with("38", "x").with("21", "7"), 5, 21);
    script.session_reject(&new_order("a").swapping("38", "21").with("38", "x").with("21", "7"), 6, 38);
    script.session_reject(&new_order("a").inserting("11", "41", "x").with("38", "x"), 2, 41);
    script.say("Session Reject: body fields in any order are good");
    script.rests(&new_order("a").swapping("11", "8060").swapping("38", "60").swapping("21", "55"));
    script.say("Session Reject: one field is asked 3, 2, 4, 6, 5 in this order");
    script.session_reject(&new_order("b").adding("58", ""), 3, 58);
    script.session_reject(&new_order("b").adding("41", ""), 2, 41);
    script.session_reject(&replace("a", "b", "1", "1", "1").adding("47", "xx"), 2, 47);
    script.session_reject(&new_order("b").with("38", ""), 4, 38);
    script.session_reject(&new_order("b").with("38", "0000000000"), 6, 38);
    script.session_reject(&new_order("b").with("38", "0"), 5, 38);
}

pub fn tags_of_no_list_are_undefined(script: &mut Script) {
    script.say("Session Reject: tags in none of the three lists are 3, also those that reports have");
    script.open(1);
    for tag in [2, 6, 14, 15, 37, 39, 45, 58, 102, 103, 111, 150, 151, 371, 378, 423, 797, 8061, 9999] {
        script.session_reject(&new_order("a").adding(&tag.to_string(), "1"), 3, tag);
    }
}

pub fn tags_of_another_type(script: &mut Script) {
    script.say("Session Reject: in another type's list, but neither needed nor allowed here: 2, also when empty");
    script.open(1);
    script.session_reject(&new_order("a").adding("41", "x"), 2, 41);
    for (tag, value) in [(1, "x"), (47, "A"), (59, "0"), (109, "10"), (110, "1"), (8060, "1")] {
        let tag_text = tag.to_string();
        script.session_reject(&replace("x", "a", "1", "1", "1").adding(&tag_text, value), 2, tag);
        script.session_reject(&cancel("x", "a", "1").adding(&tag_text, value), 2, tag);
    }
    for (tag, value) in [(21, "1"), (40, "2"), (44, "1")] {
        script.session_reject(&cancel("x", "a", "1").adding(&tag.to_string(), value), 2, tag);
    }
    script.session_reject(&cancel("x", "a", "1").adding("44", ""), 2, 44);
}

pub fn session_reject_says_tag_type_and_number(script: &mut Script) {
    script.say("Session Reject: 371 always stands, 372 is the 35 as sent, 45 the 34 as a number");
    script.open(1);
    script.submit(&new_order("a").with("35", "AB").with("34", "0042"), 6, &["45=42", "371=35", "372=AB", "373=11"]);
    script.submit(&new_order("a").with("49", "Q"), 6, &["45=1", "371=49", "372=D", "373=9", "49=V", "56=P"]);
    script.submit(&cancel("x", "a", "1").with("56", "W"), 6, &["371=56", "372=F", "373=9", "49=V", "56=P"]);
    script.submit(&replace("x", "a", "1", "1", "1").without("60"), 6, &["371=60", "372=G", "373=1", "no 58"]);
    script.submit(
        &new_order("a").with("52", "19991231-23:59:59").with("54", "x"),
        6,
        &["52=19991231-23:59:59", "no 60"],
    );
}

pub fn type_then_sender_then_target(script: &mut Script) {
    script.say("Session Reject: 11 before 9, 49 before 56, and both before the body; bytes are compared");
    script.open(1);
    script.session_reject(&new_order("a").with("35", "E").with("49", "Q").with("56", "W"), 11, 35);
    script.session_reject(&new_order("a").with("49", "Q").with("56", "W"), 9, 49);
    script.session_reject(&new_order("a").with("56", "W").with("11", ""), 9, 56);
    script.session_reject(&new_order("a").with("49", "p"), 9, 49);
    script.session_reject(&new_order("a").with("49", "PP"), 9, 49);
    script.session_reject(&new_order("a").with("49", "V").with("56", "P"), 9, 49);
    script.session_reject(&new_order("a").with("56", "v"), 9, 56);
    script.session_reject(&new_order("a").with("56", "Venue-of-many-characters"), 9, 56);
}

pub fn one_character_is_shape_and_the_set_is_values(script: &mut Script) {
    script.say("Session Reject: two characters are 6, a character outside the set is 5");
    script.open(1);
    for (tag, known, unknown) in
        [(21, "1", "2"), (40, "2", "1"), (47, "A", "I"), (54, "1", "3"), (59, "0", "6"), (8060, "1", "2")]
    {
        let tag_text = tag.to_string();
        script.session_reject(&new_order("a").with(&tag_text, unknown), 5, tag);
        script.session_reject(&new_order("a").with(&tag_text, &known.repeat(2)), 6, tag);
        script.session_reject(&new_order("a").with(&tag_text, &format!("{known} ")), 6, tag);
        script.session_reject(&new_order("a").with(&tag_text, " "), 5, tag);
    }
    for (tag, value) in [(21, "3"), (47, "Q"), (54, "0"), (59, "1"), (59, "2"), (59, "5"), (8060, "0"), (8060, "7")] {
        script.session_reject(&new_order("a").with(&tag.to_string(), value), 5, tag);
    }
    script.say("Session Reject: every value of the sets is taken and said back");
    for (id, tag, value) in [
        ("a", "47", "P"),
        ("b", "59", "3"),
        ("g", "59", "4"),
        ("c", "8060", "3"),
        ("d", "8060", "4"),
        ("e", "8060", "5"),
        ("f", "8060", "6"),
    ] {
        script.taken(&new_order(id).with(tag, value), &[&format!("{tag}={value}")]);
        let rest: &[&[&str]] = if tag == "59" { &[&["378=99"]] } else { &[] };
        script.run(1, rest);
    }
}

pub fn zeros_in_38_and_109(script: &mut Script) {
    script
        .say("Session Reject: the value counts: all zeros are 5, too many digits are 6, leading zeros within the digits are taken");
    script.open(1);
    for (tag, value, reason) in [
        (38, "0", 5),
        (38, "000", 5),
        (38, "000000000", 5),
        (38, "0000000001", 6),
        (38, "-1", 6),
        (38, "1.0", 6),
        (38, " 1", 6),
        (38, "1e3", 6),
        (109, "0", 5),
        (109, "000000", 5),
        (109, "0000010", 6),
        (109, "x", 6),
        (109, "1000000", 6),
    ] {
        script.session_reject(&new_order("a").with(&tag.to_string(), value), reason, tag);
    }
    script.taken(&new_order("a").with("38", "000000001").with("109", "000010"), &["38=1", "151=1", "109=10"]);
    script.run(1, &[]);
}

pub fn yields_have_a_shape_only(script: &mut Script) {
    script.say("Session Reject: yields: leading zeros are taken, -0 is 0, every value of the shape is in range");
    script.open(1);
    let good = [
        ("1", "1.000"),
        ("000001.5", "1.500"),
        ("-0", "0.000"),
        ("-0.0", "0.000"),
        ("-0.000", "0.000"),
        ("0.1", "0.100"),
        ("0.01", "0.010"),
        ("0.001", "0.001"),
        ("-0.001", "-0.001"),
        ("999999.999", "999999.999"),
        ("-999999.999", "-999999.999"),
        ("-1", "-1.000"),
        ("000000.000", "0.000"),
        ("-000123.45", "-123.450"),
    ];
    for (at, (sent, written)) in good.iter().enumerate() {
        script.taken(&order(&format!("a{at}"), "2", "1", sent), &[&format!("44={written}")]);
        script.run(1, &[]);
    }
    script.say("Session Reject: anything else is 6");
    for bad in [
        "1.", ".5", "+1", "-", ".", "-.5", "1.2345", "1234567", "0000001", "1,5", "1.5.0", "--1", "1-", " 1", "1 ",
        "1e1", "1.-5", "-1.", "1. 5", "0x1",
    ] {
        script.session_reject(&new_order("b").with("44", bad), 6, 44);
    }
}

pub fn transact_time_shape_before_ranges(script: &mut Script) {
    script.say("Session Reject: 60: length, digits and marks first (6), then ranges (5)");
    script.open(1);
    for (time, reason) in [
        ("20201301-09:00:0x", 6),
        ("20201301-09:00:00", 5),
        ("20201200-09:00:00", 5),
        ("20201232-09:00:00", 5),
        ("20201201-24:00:00", 5),
        ("20201201-09:60:00", 5),
        ("20201201-09:00:60", 5),
        ("20201201-09:00:0", 6),
        ("20201201-09:00:000", 6),
        ("20201201-09:00:00.1", 6),
        ("20201201 09:00:00", 6),
        ("20200001-09:00:00", 5),
        ("2020-201-09:00:00", 6),
        ("20201201-09-00:00", 6),
        ("20201201-09:00.00", 6),
    ] {
        script.session_reject(&new_order("a").with("60", time), reason, 60);
    }
    script.session_reject(&cancel("x", "a", "1").with("60", "20201301-09:00:0x"), 6, 60);
    script.session_reject(&cancel("x", "a", "1").with("60", "20201301-09:00:00"), 5, 60);
    script.rests(&new_order("a").with("60", "00000231-23:59:59"));
}

pub fn ids_and_account_have_a_longest_length(script: &mut Script) {
    script.say("Session Reject: 1 up to 10 characters, 11 and 41 up to 32; longer is 6");
    script.open(1);
    let (ten, thirty_two) = ("acct-56789", "an-identifier-of-32-characters-!");
    script.taken(&new_order(thirty_two).adding("1", ten), &["1=acct-56789", "11=an-identifier-of-32-characters-!"]);
    script.run(1, &[]);
    script.session_reject(&new_order(&format!("{thirty_two}x")), 6, 11);
    script.session_reject(&new_order("a").adding("1", &format!("{ten}x")), 6, 1);
    script.session_reject(&cancel(&format!("{thirty_two}x"), "a", "1"), 6, 41);
    let new_id = thirty_two.replace('!', "?");
    script.taken(&cancel(thirty_two, &new_id, "1"), &[&format!("11={new_id}"), &format!("41={thirty_two}")]);
}

pub fn symbol_has_a_shape_only(script: &mut Script) {
    script.say("Session Reject: 55 is 1 to 9 digits, else 6; another code is 103=1 or 102=1");
    script.open(1);
    for bad in ["0123456789", "35O", "JGB", "350 ", "-350", "3.5"] {
        script.session_reject(&new_order("a").with("55", bad), 6, 55);
    }
    script.rejected(&new_order("a").with("55", "351"), 1);
    script.rejected(&new_order("a").with("55", "000000000"), 1);
    script.cancel_reject(&cancel("x", "a", "1").with("55", "999999999"), 1, &["37=NONE", "39=8"]);
}

pub fn order_qty_of_a_cancel_is_looked_at_and_not_used(script: &mut Script) {
    script.say("Session Reject: 38 in F is looked at like any field, and then not used");
    script.open(1);
    script.rests(&new_order("a"));
    script.session_reject(&cancel("a", "b", "1").with("38", "0"), 5, 38);
    script.session_reject(&cancel("a", "b", "1").with("38", "1000000000"), 6, 38);
    script.taken(&cancel("a", "b", "1").with("38", "7"), &["38=100", "39=4", "151=0", "41=a"]);
    script.no_level(1, 0);
}

pub fn smallest_missing_tag(script: &mut Script) {
    script.say("Session Reject: the smallest missing tag, asked only when every field that is there is right");
    script.open(1);
    for tag in [11, 21, 38, 40, 44, 47, 54, 55, 59, 60, 8060] {
        script.session_reject(&new_order("a").without(&tag.to_string()), 1, tag);
    }
    for tag in [11, 21, 38, 40, 41, 44, 54, 55, 60] {
        script.session_reject(&replace("x", "a", "1", "1", "1").without(&tag.to_string()), 1, tag);
    }
    for tag in [11, 41, 54, 55, 60] {
        script.session_reject(&cancel("x", "a", "1").without(&tag.to_string()), 1, tag);
    }
    script.session_reject(&new_order("a").without("8060").without("59").without("60"), 1, 59);
    script.session_reject(&new_order("a").without("8060").without("11"), 1, 11);
    script.session_reject(&new_order("a").without("11").with("8060", "2"), 5, 8060);
    let empty = |msg_type| Draft::of(&[("35", msg_type), ("34", "1"), ("49", "P"), ("52", TIME), ("56", "V")]);
    for msg_type in ["D", "F", "G"] {
        script.session_reject(&empty(msg_type), 1, 11);
    }
}

pub fn values_are_compared_in_their_case(script: &mut Script) {
    script.say("Session Reject: 47=a is 5");
    script.open(1);
    script.session_reject(&new_order("a").with("47", "a"), 5, 47);
    script.session_reject(&new_order("a").with("47", "p"), 5, 47);
    script.say("Session Reject: ClOrdIDs too: a and A are two ids");
    script.rests(&new_order("a"));
    script.rests(&new_order("A"));
    script.rejected(&new_order("a"), 6);
}

pub fn sequence_numbers_and_times_are_not_compared(script: &mut Script) {
    script.say("Session Reject: 34 may repeat or fall, 60 need not agree with 52, 52 may go back");
    script.open(1);
    script.rests(&new_order("a").with("34", "900"));
    script.rests(&new_order("b").with("34", "900").with("60", "19700101-00:00:00"));
    script.rests(&new_order("c").with("34", "3").with("52", "19700101-00:00:00"));
}
