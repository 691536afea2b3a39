//! Tables in which a byte was changed: what stands where, which tables are no market, and what comes of those that still
//! are one. Places are those of docs/TABLE.md.

use super::cases::book_r;
use crate::compose::{new_order, order, order_of, replace, Draft};
use crate::script::Script;

const RECORD: usize = 128;

/// The place of a byte of a record.
fn place(record: usize, at: usize) -> usize {
    record * RECORD + at
}

/// Four bytes, low byte first.
fn four(number: u32) -> [u8; 4] {
    number.to_le_bytes()
}

/// With these bytes in place of those the table is no market; they are put back.
fn no_market(script: &mut Script, at: usize, bytes: &[u8], before: &[u8]) {
    script.put(at, bytes, before);
    script.depth_refused(1, 0, 2);
    script.put(at, before, bytes);
}

/// With these bytes it is no market, and no heading either, by which the best levels could be told.
fn no_heading(script: &mut Script, at: usize, bytes: &[u8], before: &[u8]) {
    script.put(at, bytes, before);
    script.depth_refused(1, 0, 2);
    script.top_refused(2, 2);
    script.put(at, before, bytes);
}

/// A's IOC of 1,200 into book R, OrderID 5, with a minimum.
fn ioc_of_a(minimum: &str) -> Draft {
    order_of("10", "b", "1", "1200", "0.100").with("59", "3").with("110", minimum)
}

/// A sell of 6 at 0.100 (record 1), buys of 7 and 8 at 0.200 (records 2 and 3).
fn two_levels(script: &mut Script) {
    script.open(1);
    script.rests(&order("s", "2", "6", "0.1"));
    script.rests(&order("b", "1", "7", "0.2").inserting("11", "1", "acct"));
    script.rests(&order("c", "1", "8", "0.2"));
}

pub fn bytes_stand_at_their_places(script: &mut Script) {
    script.say("Table: the heading, bytes put as they are");
    book_r(script, 2);
    let heading: [(usize, &[u8]); 10] = [
        (0, b"\x01V\x00"),
        (9, b"\x01P\x00"),
        (18, b"\x03350\x00"),
        (28, &[5, 0, 0, 0, 0, 0]),
        (54, &[0, 0, 10, 0, 0, 0, 11, 0, 0, 0]),
        (72, &[14, 0, 0, 0, 0]),
        (88, &[2, 2, 2, 2, 2, 0]),
        (96, &[0, 0, 1, 0, 0]),
        (104, &four(1_000_000_101)),
        (120, &[100, 0]),
    ];
    for (at, bytes) in heading {
        script.put(at, bytes, bytes);
    }
    script.say("Table: an order in work that has traded, decided, with the time of its message");
    script.taken(&ioc_of_a("800").inserting("11", "1", "acct").with("52", "20261116-10:11:12.345"), &["34=5"]);
    script.run_in(1024, 1, 1, &[&["37=1"], &["37=5"]]);
    script.put(28, &[8, 0, 0, 0, 5], &[8, 0, 0, 0, 5]);
    script.put(33, b"\x1520261116-10:11:12.345", b"\x1520261116-10:11:12.345");
    script.put(96, &[1, 0, 0, 0], &[1, 0, 0, 0]);
    script.put(104, &[0, 0, 0, 0], &[0, 0, 0, 0]);
    script.put(120, &[0], &[0]);
    let sum = 100_000_010_100_u64.to_le_bytes();
    let record: [(usize, &[u8]); 13] = [
        (0, b"\x01b\x00"),
        (33, b"\x04acct\x00"),
        (44, &[1, 3, b'A', 1]),
        (48, &four(1_000_000_100)),
        (52, &four(1_200)),
        (56, &four(5)),
        (60, &four(10)),
        (64, &sum),
        (72, &four(100)),
        (76, &four(0)),
        (80, &four(0)),
        (84, &four(5)),
        (88, &four(800)),
    ];
    for (at, bytes) in record {
        script.put(place(5, at), bytes, bytes);
    }
    script.run(4, &[&["37=2"], &["37=5"], &["37=3"], &["37=4"], &["37=5", "14=800"], &["37=5", "378=99"]]);
}

pub fn no_market_whatever_the_call(script: &mut Script) {
    script.say(
        "Table: on a table that is no market Submit, Run and Depth are refused with 2, after 1 and before the rest",
    );
    two_levels(script);
    script.put(place(4, 127), &[1], &[0]);
    script.refused(&new_order("d"), 2);
    script.refused_in(1024, b"", 2);
    script.refused_in(1023, b"", 1);
    script.run_refused(1024, 0, 2);
    script.run_refused(1023, 0, 1);
    script.depth_refused(1, 0, 2);
    script.depth_refused(3, 0, 2);
    script.say("Table: the best levels are told from the heading, which is as it was");
    script.top(1, 200, 15, 2);
    script.top(2, 100, 6, 1);
    script.top_refused(3, 10);
    script.put(place(4, 127), &[0], &[1]);
    script.level(1, 0, 200, 15, 2);
    script.say("Table: Open does not look at what was there");
    script.put(0, &[0], &[1]);
    script.depth_refused(1, 0, 2);
    script.open(1);
    script.no_level(1, 0);
}

pub fn headings_that_are_none(script: &mut Script) {
    script.say("Table: settings, next number, time, and bytes that nothing uses");
    two_levels(script);
    for (at, bytes, before) in [
        (0, 0, 1),
        (0, 9, 1),
        (1, 32, b'V'),
        (2, 65, 0),
        (9, 2, 1),
        (17, 65, 0),
        (18, 10, 3),
        (19, 58, b'3'),
        (27, 48, 0),
        (28, 0, 4),
        (31, 60, 0),
        (33, 17, 0),
        (55, 1, 0),
        (55, 2, 0),
        (56, 11, 10),
        (56, 0, 10),
        (88, 0, 1),
        (88, 4, 1),
        (93, 1, 0),
        (76, 15, 0),
        (32, 1, 0),
        (96, 1, 0),
        (99, 1, 0),
        (108, 1, 0),
    ] {
        no_heading(script, at, &[bytes], &[before]);
    }
    script.say("Table: an MPID and a mode more are settings; the next number may be higher");
    script.put(93, &[3], &[0]);
    script.depth_refused(1, 0, 2);
    script.put(76, &[15], &[0]);
    script.level(1, 0, 200, 15, 2);
    script.put(28, &four(999_998_976), &four(4));
    script.taken(&order_of("15", "d", "1", "1", "0.3"), &["34=999998976", "109=15"]);
    script.run(1, &[]);
}

pub fn best_levels_that_are_not_the_books(script: &mut Script) {
    script.say(
        "Table: best levels that do not agree with the orders are no market; asked for alone, the heading decides",
    );
    two_levels(script);
    let eight = |number: u64| number.to_le_bytes();
    script.put(97, &[3], &[2]);
    script.depth_refused(1, 0, 2);
    script.top(1, 200, 15, 3);
    script.top(2, 100, 6, 1);
    script.put(97, &[2], &[3]);
    for (level, says) in [(1, -999_999_999), (1_999_999_999, 999_999_999), (1_000_000_000, 0)] {
        script.put(100, &four(level), &four(1_000_000_200));
        script.depth_refused(1, 0, 2);
        script.top(1, says, 15, 2);
        script.put(100, &four(1_000_000_200), &four(level));
    }
    for total in [2, 16, 1_999_999_998] {
        script.put(112, &eight(total), &eight(15));
        script.depth_refused(1, 0, 2);
        script.top(1, 200, total, 2);
        script.put(112, &eight(15), &eight(total));
    }
    script.say("Table: a side told as empty, and an empty side told as none");
    for (at, before) in [(98, vec![1]), (104, four(1_000_000_100).to_vec()), (120, vec![6])] {
        script.put(at, &vec![0; before.len()], &before);
    }
    script.depth_refused(1, 0, 2);
    script.no_top(2);
    script.top(1, 200, 15, 2);
    script.say("Table: levels out of their range are no heading: orders, level, total, or one without the others");
    script.open(1);
    script.rests(&order("s", "2", "6", "0.1"));
    no_heading(script, 98, &[0], &[1]);
    no_heading(script, 98, &[7], &[1]);
    no_heading(script, 97, &[1], &[0]);
    no_heading(script, 100, &four(1_000_000_200), &four(0));
    no_heading(script, 104, &four(0), &four(1_000_000_100));
    no_heading(script, 104, &four(2_000_000_000), &four(1_000_000_100));
    no_heading(script, 112, &[1], &[0]);
    no_heading(script, 120, &[0], &[6]);
    no_heading(script, 120, &eight(1_000_000_000), &eight(6));
    no_heading(script, 120, &eight(u64::MAX), &eight(6));
    script.say("Table: 255 orders of 999,999,999 are the most that a level can have");
    script.put(98, &[255], &[1]);
    script.put(120, &eight(254_999_999_745), &eight(6));
    script.top(2, 100, 254_999_999_745, 255);
    no_heading(script, 120, &eight(254_999_999_746), &eight(254_999_999_745));
    script.say("Table: while an order is in work they are zero");
    two_levels(script);
    script.taken(&order("d", "1", "1", "0.3"), &[]);
    no_heading(script, 97, &[1], &[0]);
    no_heading(script, 120, &[6], &[0]);
    script.put(98, &[1], &[0]);
    script.put(104, &four(1_000_000_100), &four(0));
    script.put(120, &[6], &[0]);
    script.run_refused(1024, 1, 2);
    script.top_refused(2, 2);
}

pub fn decisions_without_cause(script: &mut Script) {
    script.say(
        "Table: a decision with a Day order in work, or with an IOC that has no minimum, is no market; the heading alone \
         can't tell",
    );
    two_levels(script);
    script.taken(&order("d", "1", "1", "0.3"), &[]);
    for decided in [1, 2] {
        script.put(96, &[decided], &[0]);
        script.run_refused(1024, 1, 2);
        script.top_refused(1, if decided == 1 { 3 } else { 2 });
        script.put(96, &[0], &[decided]);
    }
    script.run(1, &[]);
    script.taken(&order("e", "1", "1", "0.3").with("59", "3"), &[]);
    script.put(96, &[1], &[0]);
    script.run_refused(1024, 1, 2);
    script.put(96, &[0], &[1]);
    script.run(1, &[&["378=99"]]);
    script.say("Table: with a minimum it is a market, and the decision is taken at its word: the steps run");
    book_r(script, 2);
    script.taken(&ioc_of_a("801"), &[]);
    script.put(96, &[2], &[0]);
    script.run_refused(1024, 1, 2);
    script.put(96, &[1], &[2]);
    script
        .run(5, &[&["37=1"], &["37=5"], &["37=2"], &["37=5"], &["37=3"], &["37=4"], &["37=5", "14=800"], &["378=99"]]);
    script.put(96, &[0], &[0]);
    script.say("Table: a decision struck out is made again, over what is left to trade");
    book_r(script, 2);
    script.taken(&ioc_of_a("800"), &[]);
    script.run_in(4096, 2, 2, &[&["37=1"], &["37=5"], &["37=2"], &["37=5", "14=300"]]);
    script.put(96, &[0], &[1]);
    script.run(1, &[&["37=5", "34=10", "39=4", "378=99", "14=300", "151=0"]]);
    script.level(2, 0, 100, 700, 2);
    script.say("Table: an order in work with nothing open is neither decided nor killed");
    book_r(script, 1);
    script.taken(&order_of("14", "b", "1", "1200", "0.100").with("59", "4"), &[]);
    script.put(place(5, 80), &four(1_200), &four(0));
    script.run(1, &[]);
    script.level(2, 0, 101, 100, 1);
    script.put(96, &[0], &[0]);
}

pub fn minimums_out_of_their_rules(script: &mut Script) {
    script.say("Table: a minimum above OrderQty, on a Day order, or with 59=4 is no market");
    book_r(script, 1);
    script.taken(&ioc_of_a("301"), &[]);
    let in_work_no_market = |script: &mut Script, at: usize, bytes: &[u8], before: &[u8]| {
        script.put(at, bytes, before);
        script.run_refused(1024, 1, 2);
        script.put(at, before, bytes);
    };
    in_work_no_market(script, place(5, 88), &four(1_201), &four(301));
    in_work_no_market(script, place(5, 91), &[1], &[0]);
    for time_in_force in [0, 1, 4, 5, 51] {
        in_work_no_market(script, place(5, 45), &[time_in_force], &[3]);
    }
    in_work_no_market(script, place(1, 88), &[1], &[0]);
    script.say("Table: bytes 94 to 127 of a record are not used");
    for at in [94, 127] {
        in_work_no_market(script, place(5, at), &[1], &[0]);
    }
    script.say("Table: all of OrderQty is the highest minimum; none is good; and so is 59=4 without one");
    script.put(place(5, 88), &four(1_200), &four(301));
    script.run_in(1024, 0, 0, &[]);
    script.put(place(5, 88), &four(0), &four(1_200));
    script.put(place(5, 45), &[4], &[3]);
    script.run(1, &[&["59=4", "no 110", "378=99", "14=0"]]);
    script.say("Table: an order that does not stay is open only while it is in work");
    no_market(script, place(1, 45), &[3], &[0]);
    no_market(script, place(1, 45), &[4], &[0]);
}

pub fn records_that_are_none(script: &mut Script) {
    script.say("Table: each field of a record in its range, and what happened to an order within its OrderQty");
    two_levels(script);
    script.taken(&order("d", "2", "4", "0.2"), &["37=4"]);
    script.run(2, &[&["37=2", "32=4"], &["37=4"]]);
    for (at, byte, before) in [
        (place(2, 0), 0, 1),
        (place(1, 0), 33, 1),
        (place(1, 1), b'c', b's'),
        (place(1, 1), 31, b's'),
        (place(1, 2), 1, 0),
        (place(2, 33), 11, 4),
        (place(2, 34), 0, b'a'),
        (place(1, 44), 5, 2),
        (place(1, 44), 3, 2),
        (place(1, 46), b'a', b'A'),
        (place(1, 47), 2, 1),
        (place(1, 51), 120, 59),
        (place(1, 52), 0, 6),
        (place(1, 55), 60, 0),
        (place(2, 52), 3, 7),
        (place(1, 56), 0, 1),
        (place(1, 56), 2, 1),
        (place(1, 60), 15, 0),
        (place(2, 71), 1, 0),
        (place(2, 72), 0, 4),
        (place(2, 76), 4, 0),
        (place(2, 80), 1, 0),
        (place(1, 84), 0, 1),
        (place(1, 84), 2, 1),
        (place(5, 100), 1, 0),
        (place(255, 127), 1, 0),
    ] {
        no_market(script, at, &[byte], &[before]);
    }
    script.say("Table: a sell at the yield of an open buy, with or without the best level that it would make");
    no_market(script, place(1, 48), &four(1_000_000_200), &four(1_000_000_100));
    script.put(104, &four(1_000_000_200), &four(1_000_000_100));
    no_market(script, place(1, 48), &four(1_000_000_200), &four(1_000_000_100));
    script.put(104, &four(1_000_000_100), &four(1_000_000_200));
    script.level(2, 0, 100, 6, 1);
}

pub fn changed_tables_that_are_a_market(script: &mut Script) {
    script.say("Table: another OrderID, below the next number and nobody's, shows on the reports");
    two_levels(script);
    script.session_reject(&new_order("d").with("54", "3"), 5, 54);
    script.put(place(1, 84), &[4], &[1]);
    script.taken(&order("d", "1", "2", "0.1"), &["34=5", "37=5"]);
    script.run(2, &[&["37=4", "11=s"], &["37=5"]]);
    script.say("Table: another place changes the turn, another account and MPID are shown");
    script.put(place(2, 56), &[4], &[2]);
    script.put(place(2, 34), b"ACCT", b"acct");
    script.put(place(2, 60), &[14], &[0]);
    script.taken(&order("e", "2", "9", "0.2"), &["37=8"]);
    script.run(3, &[&["37=3", "32=8"], &["37=8"], &["37=2", "32=1", "1=ACCT", "109=14"], &["37=8"]]);
    script.say("Table: a time and an order put in work by hand are run like any");
    script.put(
        97,
        &[0; 31],
        &[
            &[1, 1, 0][..],
            &four(1_000_000_200),
            &four(1_000_000_100),
            &[0; 4],
            &[6, 0, 0, 0, 0, 0, 0, 0],
            &[4, 0, 0, 0, 0, 0, 0, 0],
        ]
        .concat(),
    );
    script.put(32, b"\x02\x1120261116-12:00:00", &[0; 19]);
    script.top_refused(1, 3);
    script.run(1, &[]);
    script.level(1, 0, 200, 6, 1);
    script.top(2, 100, 4, 1);
}

pub fn numbers_that_do_not_suffice(script: &mut Script) {
    script.say("Table: while the order in work has something open, next number + 2 x open opposite orders + 1 is at most 1,000,000,000");
    two_levels(script);
    script.rests(&order("d", "2", "5", "0.05"));
    script.taken(&replace("b", "b1", "1", "9", "0.15"), &["34=5"]);
    script.put(28, &four(999_999_996), &four(6));
    script.run_refused(1024, 1, 2);
    script.put(28, &four(999_999_995), &four(999_999_996));
    script.run_in(1024, 0, 0, &[]);
    script.say("Table: with nothing open any next number up to 1,000,000,000 will do");
    script.put(28, &four(1_000_000_000), &four(999_999_995));
    script.run_refused(1024, 1, 2);
    script.put(place(2, 76), &[9], &[0]);
    script.run_in(1024, 9, 1, &[]);
    script.refused(&new_order("e"), 4);
    script.level(1, 0, 200, 8, 1);
}
