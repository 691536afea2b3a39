//! Top of book: the best level of each side from the heading, which is what Depth gives for k = 0.

use super::cases::book_r;
use crate::compose::{cancel, new_order, order, order_of, replace};
use crate::script::Script;

const BUY: u64 = 1;
const SELL: u64 = 2;

/// The best level of a side, by the heading and by Depth.
fn best(script: &mut Script, side: u64, at: i64, total: u64, orders: u64) {
    script.top(side, at, total, orders);
    script.level(side, 0, at, total, orders);
}

/// An empty side, by the heading and by Depth.
fn none(script: &mut Script, side: u64) {
    script.no_top(side);
    script.no_level(side, 0);
}

pub fn refusals_of_top_come_in_the_order_of_their_numbers(script: &mut Script) {
    script.say("Top: a side that is neither 1 nor 2 is 10");
    script.open(1);
    none(script, BUY);
    none(script, SELL);
    for side in [0, 3, 49, 50, 257, 258, 4_294_967_297, u64::MAX] {
        script.top_refused(side, 10);
    }
    script.say("Top: while an order is in work it is 3, for any side");
    script.rests(&order("s", "2", "5", "0.1"));
    script.taken(&order("b", "1", "2", "0.1"), &[]);
    for side in [BUY, SELL, 0, 3] {
        script.top_refused(side, 3);
    }
    script.run_in(4096, 1, 1, &[&["37=1"], &["37=2"]]);
    script.say("Top: so too where nothing of it is open any more, until the step that ends the work");
    script.top_refused(SELL, 3);
    script.top_refused(3, 3);
    script.run_in(4096, 1, 1, &[]);
    best(script, SELL, 100, 3, 1);
    none(script, BUY);
}

pub fn top_is_the_lowest_buy_and_the_highest_sell(script: &mut Script) {
    script.say("Top: the lowest yield of the buys and the highest of the sells, with all that is open there");
    script.open(1);
    for (id, at, quantity, best_at, total, orders) in [
        ("a", "0.3", "5", 300, 5, 1),
        ("b", "0.1", "7", 100, 7, 1),
        ("c", "0.100", "2", 100, 9, 2),
        ("d", "0.2", "1", 100, 9, 2),
        ("e", "-0.001", "4", -1, 4, 1),
        ("f", "-0.001", "5", -1, 9, 2),
    ] {
        script.rests(&order(id, "1", quantity, at));
        best(script, BUY, best_at, total, orders);
        none(script, SELL);
    }
    for (id, at, best_at, total, orders) in
        [("g", "-5", -5000, 10, 1), ("h", "-2", -2000, 10, 1), ("i", "-3", -2000, 10, 1), ("j", "-2", -2000, 20, 2)]
    {
        script.rests(&order(id, "2", "10", at));
        best(script, SELL, best_at, total, orders);
    }
    best(script, BUY, -1, 9, 2);
}

pub fn top_after_each_thing_that_happens(script: &mut Script) {
    script.say("Top: after trades, with the level used up in part and whole");
    book_r(script, 3);
    best(script, SELL, 101, 100, 1);
    script.taken(&order_of("14", "b1", "1", "40", "0.101"), &[]);
    script.run(2, &[&["37=1"], &["37=5"]]);
    best(script, SELL, 101, 60, 1);
    script.taken(&order_of("14", "b2", "1", "60", "0.101"), &[]);
    script.run(2, &[&["37=1", "39=2"], &["37=8"]]);
    best(script, SELL, 100, 900, 3);
    none(script, BUY);
    script.say("Top: after a decrement, a cancel and a kill");
    script.taken(&order_of("10", "b3", "1", "250", "0.1").with("59", "3"), &[]);
    script.run(3, &[&["37=2"], &["37=11"], &["37=11", "39=4"], &["37=3", "150=5", "151=150"]]);
    best(script, SELL, 100, 650, 2);
    script.taken(&order_of("14", "b4", "1", "651", "0.1").with("59", "4"), &[]);
    script.run(1, &[&["37=16", "378=99"]]);
    best(script, SELL, 100, 650, 2);
    script.taken(&cancel("s3", "c3", "2"), &["37=3"]);
    best(script, SELL, 100, 500, 1);
    script.say("Top: after replacements: reduced, raised, moved; and while they are in work it is 3");
    script.taken(&replace("s4", "r1", "2", "300", "0.1"), &[]);
    script.top_refused(SELL, 3);
    script.run(1, &[]);
    best(script, SELL, 100, 300, 1);
    script.rests(&replace("r1", "r2", "2", "999999999", "0.1"));
    best(script, SELL, 100, 999_999_999, 1);
    script.rests(&replace("r2", "r3", "2", "7", "0.099"));
    best(script, SELL, 99, 7, 1);
    script.say("Top: a buy that is filled in part rests and is the best");
    script.taken(&order("b5", "1", "10", "0.09"), &[]);
    script.run(2, &[&["37=4", "39=2"], &["37=22", "151=3"]]);
    best(script, BUY, 90, 3, 1);
    none(script, SELL);
    script.taken(&cancel("b5", "c5", "1"), &[]);
    none(script, BUY);
}

pub fn top_after_what_changes_nothing(script: &mut Script) {
    script.say("Top: messages that are refused or rejected change no level, nor does a refused Open");
    script.open(1);
    script.rests(&order("s", "2", "5", "0.1"));
    script.rests(&order("b", "1", "6", "0.2"));
    script.refused_in(1023, &new_order("c").bytes(), 1);
    script.refused_in(1024, b"", 5);
    script.session_reject(&new_order("c").with("54", "3"), 5, 54);
    script.rejected(&new_order("s"), 6);
    script.cancel_reject(&cancel("s", "b", "2"), 2, &[]);
    script.run_in(1024, 9, 0, &[]);
    script.open_with(["V", "P", "350"], 0, &[(10, 1)], 9);
    best(script, SELL, 100, 5, 1);
    best(script, BUY, 200, 6, 1);
    script.say("Top: a new market has none");
    script.open(1);
    none(script, SELL);
    none(script, BUY);
}

pub fn top_of_large_levels_and_far_yields(script: &mut Script) {
    script.say("Top: totals above 32 bits, and the yields at the limits");
    script.open(2);
    for id in ["a", "b", "c", "d", "e"] {
        script.rests(&order(id, "1", "999999999", "999999.999"));
    }
    best(script, BUY, 999_999_999, 4_999_999_995, 5);
    script.rests(&order("f", "2", "999999999", "-999999.999"));
    best(script, SELL, -999_999_999, 999_999_999, 1);
    best(script, BUY, 999_999_999, 4_999_999_995, 5);
}
