//! Depth and Open: levels, settings, and the numbers that calls give back.

use crate::compose::{cancel, new_order, order, order_of};
use crate::script::Script;

pub fn levels_past_the_last(script: &mut Script) {
    script.say("Depth: k past the last level is no such level, for any k");
    script.open(1);
    script.no_level(1, 0);
    script.rests(&order("a", "1", "5", "0.1"));
    script.level(1, 0, 100, 5, 1);
    for k in [1, 2, 255, 256, 4_294_967_295, 4_294_967_296, u64::MAX] {
        script.no_level(1, k);
    }
    script.no_level(2, 0);
}

pub fn in_work_comes_before_a_wrong_side(script: &mut Script) {
    script.say("Depth: a wrong side while an order is in work is 3");
    script.open(1);
    script.taken(&new_order("a"), &[]);
    script.depth_refused(3, 0, 3);
    script.depth_refused(1, 0, 3);
    script.run(1, &[]);
    script.depth_refused(3, 0, 10);
    script.depth_refused(0, 0, 10);
    script.depth_refused(49, 0, 10);
    script.depth_refused(257, 0, 10);
}

pub fn only_open_orders_make_a_level(script: &mut Script) {
    script.say("Depth: dead orders make no level and are not counted");
    script.open(1);
    script.rests(&order("a", "2", "5", "0.3"));
    script.rests(&order("b", "2", "5", "0.2"));
    script.rests(&order("c", "2", "7", "0.2"));
    script.level(2, 0, 300, 5, 1);
    script.level(2, 1, 200, 12, 2);
    script.taken(&cancel("a", "a1", "2"), &[]);
    script.level(2, 0, 200, 12, 2);
    script.taken(&cancel("b", "b1", "2"), &[]);
    script.level(2, 0, 200, 7, 1);
    script.no_level(2, 1);
}

pub fn first_number_up_to_its_limit(script: &mut Script) {
    script.say("Open: first number 999,999,999 is good although each Submit is refused");
    script.open_from(999_999_999, 1);
    script.refused(&new_order("a"), 4);
    script.run_in(1024, 9, 0, &[]);
    script.no_level(1, 0);
    script.say("Open: 999,998,976 is the last number that Submit takes");
    script.open_from(999_998_976, 1);
    script.session_reject(&new_order("a").with("54", "3"), 5, 54);
    script.refused(&new_order("a"), 4);
    script.say("Open: 0 and 1,000,000,000 are no first numbers");
    for first in [0, 1_000_000_000, 4_294_967_297, u64::MAX] {
        script.open_with(["V", "P", "350"], first, &[(10, 1)], 9);
    }
}

pub fn settings_that_look_odd_and_are_good(script: &mut Script) {
    script.say("Open: venue and port may be equal, and the code all zeros");
    script.open_with(["X", "X", "000000000"], 1, &[(10, 1)], 0);
    let draft = new_order("a").with("49", "X").with("56", "X").with("55", "000000000");
    script.taken(&draft, &["49=X", "56=X", "55=000000000"]);
    script.run(1, &[]);
    script.say("Open: MPIDs must differ whatever their modes");
    script.open_with(["V", "P", "350"], 1, &[(10, 1), (10, 2)], 9);
    script.open_with(["V", "P", "350"], 1, &[(10, 1), (11, 1), (10, 1)], 9);
    script.say("Open: every character from 21 to 7E hex may stand in a venue or port");
    script.open_with(["!~|;\\=#\"", "~", "1"], 1, &[(1, 3), (999_999, 1)], 0);
    let draft = new_order("a").with("49", "~").with("56", "!~|;\\=#\"").with("55", "1");
    script.taken(&draft, &["49=!~|;\\=#\"", "56=~", "55=1"]);
    script.run(1, &[]);
}

pub fn open_starts_anew(script: &mut Script) {
    script.say("Open: what was there before is not looked at, in work or not");
    script.open(1);
    script.rests(&order("a", "1", "5", "0.1"));
    script.taken(&order("b", "1", "5", "0.1"), &[]);
    script.open(1);
    script.no_level(1, 0);
    script.taken(&order("a", "1", "5", "0.1"), &["34=1", "37=1"]);
    script.run(1, &[]);
}

pub fn numbers_given_back(script: &mut Script) {
    script.say("Submit: taken gives 0 and its length, refusals 1 to 5 give length 0, 6 to 8 their report's");
    script.open(1);
    script.submit_in(1024, &new_order("a"), 0, &["35=8"]);
    script.refused(&new_order("b"), 3);
    script.run_in(1024, 9, 1, &[]);
    script.submit_in(1024, &new_order("b").without("11"), 6, &["35=3", "34=2"]);
    script.submit_in(1024, &new_order("a"), 7, &["35=8", "34=3"]);
    script.submit_in(1024, &cancel("x", "b", "1"), 8, &["35=9", "34=4"]);
    script.refused_in(1024, b"x", 5);
    script.submit_in(65_536, &new_order("b"), 0, &["34=5"]);
    script.run(1, &[]);
}

pub fn spent_numbers_stop_submit_only(script: &mut Script) {
    script.say("Submit: refusal 4 does not stop Run, nor Depth");
    script.open_from(999_998_975, 2);
    script.rests(&order_of("10", "s", "2", "5", "0.1"));
    script.taken(&order_of("11", "b", "1", "9", "0.1"), &["34=999998976"]);
    script.run(
        2,
        &[&["34=999998977", "17=999998977", "880=999998977"], &["34=999998978", "17=999998978", "880=999998977"]],
    );
    script.refused(&new_order("c"), 4);
    script.refused_in(1024, b"", 4);
    script.level(1, 0, 100, 4, 1);
    script.depth_refused(9, 0, 10);
}

pub fn limits_of_open(script: &mut Script) {
    script.say("Open: ids of 1 to 8 characters from 21 to 7E hex");
    let list: &[(u64, u64)] = &[(10, 1)];
    for (name, number) in [
        ("", 9),
        ("V", 0),
        ("12345678", 0),
        ("123456789", 9),
        ("a b", 9),
        (" ", 9),
        ("a\x7f", 9),
        ("a\x01", 9),
        ("~", 0),
        ("\u{0}", 9),
    ] {
        script.open_with([name, "P", "350"], 1, list, number);
        script.open_with(["V", name, "350"], 1, list, number);
    }
    script.say("Open: codes of 1 to 9 digits");
    for (code, number) in [("", 9), ("0", 0), ("123456789", 0), ("1234567890", 9), ("35a", 9), ("-35", 9), ("35 ", 9)] {
        script.open_with(["V", "P", code], 1, list, number);
    }
    script.say("Open: first numbers 1 to 999,999,999");
    for (first, number) in [(0, 9), (1, 0), (999_999_999, 0), (1_000_000_000, 9), (u64::MAX, 9)] {
        script.open_with(["V", "P", "350"], first, list, number);
    }
    script.say("Open: 1 to 8 entries, MPIDs 1 to 999,999, modes 1 to 3");
    let entries: Vec<(u64, u64)> = (1..=9).map(|mpid| (mpid, 1 + mpid % 3)).collect();
    script.open_with(["V", "P", "350"], 1, &[], 9);
    script.open_with(["V", "P", "350"], 1, &entries[..8], 0);
    script.open_with(["V", "P", "350"], 1, &entries, 9);
    for (entry, number) in [
        ((0, 1), 9),
        ((1, 1), 0),
        ((999_999, 3), 0),
        ((1_000_000, 1), 9),
        ((u64::MAX, 1), 9),
        ((4_294_967_306, 1), 9),
        ((5, 0), 9),
        ((5, 2), 0),
        ((5, 4), 9),
        ((5, 257), 9),
        ((5, u64::MAX), 9),
    ] {
        script.open_with(["V", "P", "350"], 1, &[entry], number);
        script.open_with(["V", "P", "350"], 1, &[(77, 1), entry], number);
    }
}

pub fn a_refused_open_changes_nothing(script: &mut Script) {
    script.say("Open refused: the market in use stays as it was");
    script.open(1);
    script.rests(&order("a", "1", "5", "0.1"));
    script.taken(&order("b", "1", "5", "0.1"), &["34=2"]);
    script.open_with(["V", "P", "350"], 0, &[(10, 1)], 9);
    script.depth_refused(1, 0, 3);
    script.run(1, &[]);
    script.level(1, 0, 100, 10, 2);
    script.taken(&order("c", "1", "5", "0.1"), &["34=3", "37=3"]);
    script.run(1, &[]);
}
