//! Tables of an equities market: what stands where, which tables are none of it, and whose calls are refused on which.
//! Places are those of docs/TABLE.md.

use super::share_examples::sells;
use crate::compose::{new_order, new_share_order, order, share_cancel, share_order, share_order_of, SYMBOL};
use crate::instrument::Instrument::{Bonds, Equities};
use crate::script::Script;

const RECORD: usize = 128;
const KIND: usize = 55;
const SIDE: usize = 44;
const LEVEL: usize = 48;
const SUM: usize = 64;
const CASH: usize = 92;
const MARGIN: usize = 93;

/// The place of a byte of a record.
fn place(record: usize, at: usize) -> usize {
    record * RECORD + at
}

/// Four bytes, low byte first.
fn four(number: u32) -> [u8; 4] {
    number.to_le_bytes()
}

fn eight(number: u64) -> [u8; 8] {
    number.to_le_bytes()
}

/// With these bytes in place of those the table is no market; they are put back.
fn no_market(script: &mut Script, at: usize, bytes: &[u8], before: &[u8]) {
    script.put(at, bytes, before);
    script.depth_refused(1, 0, 2);
    script.put(at, before, bytes);
}

/// With these bytes it is no market, and no heading either.
fn no_heading(script: &mut Script, at: usize, bytes: &[u8], before: &[u8]) {
    script.put(at, bytes, before);
    script.depth_refused(1, 0, 2);
    script.top_refused(2, 2);
    script.put(at, before, bytes);
}

/// With these bytes it is a market all the same; they are put back.
fn a_market(script: &mut Script, at: usize, bytes: &[u8], before: &[u8]) {
    script.put(at, bytes, before);
    script.no_level(1, 99);
    script.put(at, before, bytes);
}

/// A sell short of 6 at 100.1 on margin (record 1), buys of 7 and 8 at 100.0 (records 2 and 3).
fn two_levels(script: &mut Script) {
    script.open_shares(1);
    script.rests(&share_order("s", "5", "6", "100.1").with("544", "2").adding("8214", "1"));
    script.rests(&share_order("b", "1", "7", "100"));
    script.rests(&share_order("c", "1", "8", "100").with("544", "3"));
}

pub fn share_bytes_stand_at_their_places(script: &mut Script) {
    script.say("Table of shares: kind, symbol, best levels; a level is 1,000,000,000 less the tenths");
    two_levels(script);
    let heading: [(usize, &[u8]); 7] = [
        (18, b"\x047203\x00"),
        (28, &[4, 0, 0, 0, 0]),
        (54, &[0, 1, 10, 0, 0, 0]),
        (96, &[0, 2, 1, 0]),
        (100, &four(999_999_000)),
        (104, &four(999_998_999)),
        (112, &[15, 0]),
    ];
    for (at, bytes) in heading {
        script.put(at, bytes, bytes);
    }
    script.say("Table of shares: sides, levels, 544 and 8214 of the records, and the sum of levels");
    for (record, side, level, marks) in
        [(1, 5, 999_998_999, [2, 1]), (2, 1, 999_999_000, [1, 0]), (3, 1, 999_999_000, [3, 0])]
    {
        script.put(place(record, SIDE), &[side], &[side]);
        script.put(place(record, LEVEL), &four(level), &four(level));
        script.put(place(record, CASH), &[marks[0], marks[1], 0], &[marks[0], marks[1], 0]);
    }
    script.taken(&share_order("d", "6", "4", "99"), &["37=4"]);
    script.run(2, &[&["37=2", "31=100.0"], &["37=4"]]);
    let sum = eight(4 * 999_999_000);
    for record in [2, 4] {
        script.put(place(record, SUM), &sum, &sum);
        script.put(place(record, 72), &[4], &[4]);
    }
    script.level(1, 0, 1000, 11, 2);
}

pub fn each_market_refuses_the_others_calls(script: &mut Script) {
    script.say("Bond calls on a table of shares are refused with 2, after 1 and before the rest; nothing changes");
    two_levels(script);
    script.calls(Bonds);
    script.refused(&new_order("d"), 2);
    script.refused(&new_share_order("d"), 2);
    script.refused_in(1024, b"", 2);
    script.refused_in(1023, b"", 1);
    script.run_refused(1024, 9, 2);
    script.run_refused(1023, 9, 1);
    for side in [1, 2, 5] {
        script.depth_refused(side, 0, 2);
        script.top_refused(side, 2);
    }
    script.calls(Equities);
    script.level(1, 0, 1000, 15, 2);
    script.say("So are they while an order is in work");
    script.taken(&share_order("d", "1", "4", "101"), &[]);
    script.calls(Bonds);
    script.refused(&new_order("e"), 2);
    script.run_refused(1024, 9, 2);
    script.depth_refused(1, 0, 2);
    script.top_refused(1, 2);
    script.say(
        "A bond market opened in its place: its calls are good, and those of the equities market are refused with 2",
    );
    script.open(1);
    script.rests(&order("s", "2", "6", "0.1"));
    script.calls(Equities);
    script.refused(&new_share_order("d"), 2);
    script.refused_in(1023, b"", 1);
    script.run_refused(1024, 9, 2);
    script.depth_refused(2, 0, 2);
    script.top_refused(2, 2);
    script.say("A refused Open of shares leaves the bond market");
    script.open_with(["V", "P", "A B"], 1, &[(10, 1)], 9);
    script.depth_refused(2, 0, 2);
    script.calls(Bonds);
    script.top(2, 100, 6, 1);
    script.say("On a bond market 544 and 8214 are in no list, and sides 5 and 6 are none");
    script.session_reject(&new_order("d").adding("544", "1"), 3, 544);
    script.session_reject(&new_order("d").adding("8214", "1"), 3, 8214);
    script.session_reject(&new_order("d").with("54", "5"), 5, 54);
    script.session_reject(&new_order("d").with("54", "6"), 5, 54);
    script.session_reject(&new_order("d").with("55", "A"), 6, 55);
    script.session_reject(&new_order("d").with("44", "1234567.8"), 6, 44);
    script.calls(Equities);
}

pub fn kinds_of_table(script: &mut Script) {
    script.say("The kind of a table is 0 or 1: any other is no market, and no heading, for either");
    two_levels(script);
    for kind in [2, 49, 255] {
        script.put(KIND, &[kind], &[1]);
        for calls in [Bonds, Equities] {
            script.calls(calls);
            script.depth_refused(1, 0, 2);
            script.top_refused(1, 2);
        }
        script.put(KIND, &[1], &[kind]);
    }
    script.say("A table with orders of shares is none of bonds: it has 544, and sides that no bond has");
    script.put(KIND, &[0], &[1]);
    for calls in [Bonds, Equities] {
        script.calls(calls);
        script.depth_refused(1, 0, 2);
    }
    script.say("Its heading is one of bonds, though, the symbol being digits: so the best levels are told as yields");
    script.calls(Bonds);
    script.top(1, -1000, 15, 2);
    script.top(2, -1001, 6, 1);
    script.calls(Equities);
    script.put(KIND, &[1], &[0]);
    script.level(2, 0, 1001, 6, 1);
    script.say("Without orders it is a market of bonds once the kind says so, and of shares again");
    script.open_shares(1);
    script.put(KIND, &[0], &[1]);
    script.depth_refused(1, 0, 2);
    script.calls(Bonds);
    script.no_level(1, 0);
    script.rests(&order("s", "2", "6", "0.1").with("55", SYMBOL));
    script.put(KIND, &[1], &[0]);
    script.calls(Equities);
    script.depth_refused(1, 0, 2);
    script.top_refused(2, 2);
    script.say("A symbol that is no bond's code is none in a bond market's heading");
    script.open_with(["V", "P", "285A"], 1, &[(10, 1)], 0);
    script.put(KIND, &[0], &[1]);
    script.calls(Bonds);
    script.depth_refused(1, 0, 2);
    script.top_refused(1, 2);
    script.calls(Equities);
}

pub fn share_headings_that_are_none(script: &mut Script) {
    script.say("Table of shares: symbols, unused bytes and best levels out of their range are no heading");
    two_levels(script);
    for (at, byte, before) in [
        (18, 0, 4),
        (18, 10, 4),
        (18, 5, 4),
        (18, 3, 4),
        (19, 32, b'7'),
        (19, 127, b'7'),
        (23, 65, 0),
        (27, 65, 0),
        (0, 0, 1),
        (31, 60, 0),
        (33, 17, 0),
        (56, 0, 10),
        (88, 4, 1),
        (96, 1, 0),
        (97, 0, 2),
        (97, 16, 2),
        (99, 1, 0),
        (108, 1, 0),
    ] {
        no_heading(script, at, &[byte], &[before]);
    }
    script.say("Table of shares: a level is 1 to 1,000,000,000");
    for level in [0, 1_000_000_001] {
        no_heading(script, 100, &four(level), &four(999_999_000));
        no_heading(script, 104, &four(level), &four(999_998_999));
    }
    for (level, price) in [(1, 999_999_999), (1_000_000_000, 0), (999_999_999, 1)] {
        script.put(104, &four(level), &four(999_998_999));
        script.depth_refused(2, 0, 2);
        script.top(2, price, 6, 1);
        script.put(104, &four(999_998_999), &four(level));
    }
    script.say("Table of shares: another symbol of other characters is a market, and told by 103=1");
    script.put(19, b"x~!", b"720");
    script.level(1, 0, 1000, 15, 2);
    script.rejected(&new_share_order("d"), 1);
    script.taken(&new_share_order("d").with("55", "x~!3"), &["55=x~!3"]);
    script.run(1, &[]);
}

pub fn share_records_that_are_none(script: &mut Script) {
    script.say("Table of shares: sides 1, 2, 5 and 6");
    two_levels(script);
    for side in [0, 3, 4, 7, 8, 53, 255] {
        no_market(script, place(1, SIDE), &[side], &[5]);
    }
    for side in [2, 6] {
        a_market(script, place(1, SIDE), &[side], &[5]);
    }
    no_market(script, place(1, SIDE), &[1], &[5]);
    no_market(script, place(2, SIDE), &[5], &[1]);
    script.say("Table of shares: 544 is 1 to 3, 8214 0 to 2, and 0 with 544=1");
    for cash in [0, 1, 4, 49, 255] {
        no_market(script, place(1, CASH), &[cash], &[2]);
    }
    a_market(script, place(1, CASH), &[3], &[2]);
    for margin in [3, 49, 255] {
        no_market(script, place(1, MARGIN), &[margin], &[1]);
    }
    for margin in [0, 2] {
        a_market(script, place(1, MARGIN), &[margin], &[1]);
    }
    for margin in [1, 2] {
        no_market(script, place(2, MARGIN), &[margin], &[0]);
        a_market(script, place(3, MARGIN), &[margin], &[0]);
    }
    no_market(script, place(2, CASH), &[0], &[1]);
    for at in [94, 95, 127] {
        no_market(script, place(1, at), &[1], &[0]);
    }
    script.say("Table of shares: a level above 1,000,000,000, or 0, or one at which a buy meets a sell");
    script.taken(&share_cancel("c", "c1", "1"), &[]);
    script.rests(&share_order("far", "1", "1", "0.1"));
    for level in [0, 1_000_000_001, 1_000_000_100, u32::MAX] {
        no_market(script, place(3, LEVEL), &four(level), &four(999_999_000));
    }
    for level in [1, 1_000_000_000, 999_998_999] {
        a_market(script, place(3, LEVEL), &four(level), &four(999_999_000));
    }
    no_market(script, place(2, LEVEL), &four(999_998_999), &four(999_999_000));
    no_market(script, place(2, LEVEL), &four(1), &four(999_999_000));
    script.say("Table of shares: the other fields of a record as in a bond market's");
    for (at, byte, before) in [
        (place(1, 0), 33, 1),
        (place(1, 1), b'b', b's'),
        (place(1, 33), 11, 0),
        (place(1, 45), 1, 0),
        (place(1, 45), 3, 0),
        (place(1, 46), b'a', b'A'),
        (place(1, 47), 2, 1),
        (place(1, 52), 0, 6),
        (place(1, 56), 2, 1),
        (place(1, 60), 15, 0),
        (place(1, 80), 1, 0),
        (place(1, 84), 0, 1),
        (place(1, 88), 1, 0),
        (place(6, 92), 1, 0),
        (place(255, 127), 1, 0),
    ] {
        no_market(script, at, &[byte], &[before]);
    }
}

pub fn bond_records_with_shares_fields(script: &mut Script) {
    script.say("Table of bonds: sides 5 and 6, a 544 or an 8214 make it no market");
    script.calls(Bonds);
    script.open(1);
    script.rests(&order("s", "2", "6", "0.1"));
    script.rests(&order("b", "1", "7", "0.2"));
    for side in [5, 6, 0, 3] {
        no_market(script, place(1, SIDE), &[side], &[2]);
    }
    for value in [1, 2, 3, 255] {
        no_market(script, place(1, CASH), &[value], &[0]);
        no_market(script, place(2, MARGIN), &[value], &[0]);
    }
    script.say("Table of bonds: levels above 1,000,000,000 are its own");
    a_market(script, place(1, 94), &[0], &[0]);
    script.level(2, 0, 100, 6, 1);
    script.calls(Equities);
}

pub fn sums_at_both_ends_of_their_range(script: &mut Script) {
    script.say("Table of shares: the sum of quantity times level is executed to executed x 1,000,000,000");
    script.open_shares(1);
    script.rests(&share_order("s", "2", "9", "100"));
    script.taken(&share_order("b", "1", "4", "100"), &[]);
    script.run(2, &[&["37=1"], &["37=2"]]);
    let sum = 4 * 999_999_000_u64;
    for wrong in [0, 3, 4_000_000_001, 4_000_000_004, u64::MAX] {
        no_market(script, place(1, SUM), &eight(wrong), &eight(sum));
    }
    script.say("Table of shares: at the ends AvgPx is 99999999.9 and 0, and between it is rounded as a price");
    let mut before = sum;
    for (at, average) in [
        (4, "6=99999999.9000"),
        (4_000_000_000, "6=0.0000"),
        (3_999_999_999, "6=0.0250"),
        (5, "6=99999999.8750"),
        (2_000_000_001, "6=49999999.9750"),
    ] {
        script.put(place(1, SUM), &eight(at), &eight(before));
        let (old, new) = (if before == sum { "s".to_string() } else { format!("s{before}") }, format!("s{at}"));
        let replace = crate::compose::share_replace(&old, &new, "2", "9", "100");
        script.taken(&replace, &[average, "14=4"]);
        script.run(1, &[]);
        before = at;
    }
    script.say("Table of shares: where nothing has executed the sum is 0");
    script.rests(&share_order("c", "1", "4", "1"));
    no_market(script, place(3, SUM), &[1], &[0]);
    no_market(script, place(3, SUM + 7), &[1], &[0]);
}

pub fn changed_share_tables_that_are_a_market(script: &mut Script) {
    script.say("Table of shares: another side, 544 and 8214 are shown, and another level trades at its price");
    sells(script, 1);
    script.put(place(1, SIDE), &[6], &[2]);
    script.put(place(1, CASH), &[3, 2], &[1, 0]);
    script.taken(&share_order_of("14", "b", "1", "30", "100"), &[]);
    script.run(2, &[&["37=1", "54=6", "544=3", "8214=2"], &["37=5", "544=1", "no 8214"]]);
    script.put(place(1, LEVEL), &four(999_999_001), &four(999_999_000));
    script.depth_refused(2, 0, 2);
    script.put(104, &four(999_999_001), &four(999_999_000));
    script.level(2, 0, 999, 70, 1);
    script.taken(&share_order_of("14", "c", "1", "70", "100"), &[]);
    script.run(2, &[&["37=1", "31=99.9", "44=99.9", "6=99.9300", "39=2"], &["37=8", "31=99.9"]]);
    script.cancel_reject(&share_cancel("s1", "x", "2"), 2, &["37=1"]);
    script.cancel_reject(&share_cancel("s1", "x", "6"), 0, &["37=1", "39=2"]);
}
