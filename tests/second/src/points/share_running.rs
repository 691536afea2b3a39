//! Matching, levels and calls of an equities market.

use super::morning::laid;
use super::share_examples::sells;
use crate::compose::{new_share_order, share_cancel, share_order, share_order_of, share_replace, Draft};
use crate::script::Script;

const BUY: u64 = 1;
const SELL: u64 = 2;

/// The best level of a side, by the heading and by Depth.
fn best(script: &mut Script, side: u64, at: i64, total: u64, orders: u64) {
    script.top(side, at, total, orders);
    script.level(side, 0, at, total, orders);
}

/// An empty side, by the heading and by Depth.
fn none(script: &mut Script, side: u64) {
    script.no_top(side);
    script.no_level(side, 0);
}

pub fn a_higher_price_is_the_better_buy(script: &mut Script) {
    script.say("Prices: a buy below a sell does not meet it; at the same price they trade at the resting one");
    script.open_shares(1);
    script.rests(&share_order("s", "2", "10", "100.1"));
    script.rests(&share_order("b", "1", "10", "100"));
    best(script, BUY, 1000, 10, 1);
    best(script, SELL, 1001, 10, 1);
    script.taken(&share_order("c", "1", "4", "100.1"), &[]);
    script.run(2, &[&["37=1", "31=100.1", "32=4"], &["37=3", "31=100.1", "44=100.1"]]);
    script.say("Prices: a buy above and a sell below trade at the resting price");
    script.taken(&share_order("d", "1", "3", "5000"), &[]);
    script.run(2, &[&["37=1", "31=100.1", "32=3"], &["37=6", "31=100.1", "44=5000.0", "6=100.1000"]]);
    script.taken(&share_order("e", "2", "3", "0"), &[]);
    script.run(2, &[&["37=2", "31=100.0", "32=3"], &["37=9", "31=100.0", "44=0.0", "6=100.0000"]]);
    script.say("Prices: the best is the highest buy and the lowest sell, then the smaller place");
    script.open_shares(1);
    for (id, side, at) in
        [("b1", "1", "99"), ("b2", "1", "99.5"), ("b3", "1", "9.9"), ("b4", "1", "99.5"), ("b5", "1", "99.4")]
    {
        script.rests(&share_order(id, side, "5", at));
    }
    for (k, at, total, orders) in [(0, 995, 10, 2), (1, 994, 5, 1), (2, 990, 5, 1), (3, 99, 5, 1)] {
        script.level(BUY, k, at, total, orders);
    }
    script.no_level(BUY, 4);
    script.taken(&share_order("s", "2", "22", "9.9"), &[]);
    script.run(
        6,
        &[
            &["37=2", "31=99.5"],
            &["37=6"],
            &["37=4", "31=99.5"],
            &["37=6"],
            &["37=5", "31=99.4"],
            &["37=6"],
            &["37=1", "31=99.0"],
            &["37=6", "14=20", "6=99.3500"],
            &["37=3", "31=9.9", "32=2", "151=3"],
            &["37=6", "39=2", "6=91.2182"],
        ],
    );
    best(script, BUY, 99, 3, 1);
    none(script, SELL);
}

pub fn every_sell_stands_on_side_2(script: &mut Script) {
    script.say("Depth of shares: side 2 takes in sells of every kind, level by level");
    script.open_shares(1);
    for (id, side, quantity, at) in
        [("a", "2", "1", "110"), ("b", "5", "20", "110"), ("c", "6", "300", "110"), ("d", "5", "4000", "109.9")]
    {
        script.rests(&share_order(id, side, quantity, at));
    }
    best(script, SELL, 1099, 4000, 1);
    script.level(SELL, 1, 1100, 321, 3);
    script.no_level(SELL, 2);
    none(script, BUY);
    script.say("Depth of shares: sides 5 and 6 are asked for by nobody: 10");
    for side in [0, 3, 5, 6, 50, 53, 258, u64::MAX] {
        script.depth_refused(side, 0, 10);
        script.top_refused(side, 10);
    }
    for k in [2, 255, 4_294_967_296, u64::MAX] {
        script.no_level(SELL, k);
    }
}

pub fn best_prices_after_each_thing_that_happens(script: &mut Script) {
    script.say("Top of shares: after trades, a decrement, a cancel, a kill and replacements");
    sells(script, 3);
    best(script, SELL, 1000, 100, 1);
    script.taken(&share_order_of("14", "b1", "1", "40", "100"), &[]);
    script.run(2, &[&["37=1"], &["37=5"]]);
    best(script, SELL, 1000, 60, 1);
    script.taken(&share_order_of("14", "b2", "1", "60", "100"), &[]);
    script.run(2, &[&["37=1", "39=2"], &["37=8"]]);
    best(script, SELL, 1001, 900, 3);
    none(script, BUY);
    script.taken(&share_order_of("10", "b3", "1", "250", "100.1").with("59", "3"), &[]);
    script.run(3, &[&["37=2"], &["37=11"], &["37=11", "39=4"], &["37=3", "150=5", "151=150"]]);
    best(script, SELL, 1001, 650, 2);
    script.taken(&share_order_of("14", "b4", "1", "651", "100.1").with("59", "4"), &[]);
    script.run(1, &[&["37=16", "378=99"]]);
    best(script, SELL, 1001, 650, 2);
    script.taken(&share_cancel("s3", "c3", "2"), &["37=3"]);
    best(script, SELL, 1001, 500, 1);
    script.rests(&share_replace("s4", "r1", "2", "300", "100.1"));
    best(script, SELL, 1001, 300, 1);
    script.rests(&share_replace("r1", "r2", "2", "7", "100.2"));
    best(script, SELL, 1002, 7, 1);
    script.taken(&share_order("b5", "1", "10", "100.3"), &[]);
    script.run(2, &[&["37=4", "39=2", "31=100.2"], &["37=21", "151=3"]]);
    best(script, BUY, 1003, 3, 1);
    none(script, SELL);
    script.say("Top of shares: what is refused or rejected changes no level");
    script.session_reject(&new_share_order("x").with("544", "9"), 5, 544);
    script.rejected(&share_order("b5", "2", "1", "1"), 6);
    script.refused_in(1024, b"", 5);
    best(script, BUY, 1003, 3, 1);
}

pub fn refusals_of_share_calls_come_in_their_order(script: &mut Script) {
    script.say("Refusals of the equities market: 1, 3, 4, 5 of Submit, 1 of Run, 3 and 10 of Depth and top of book");
    script.open_shares(1);
    script.taken(&new_share_order("a"), &[]);
    script.refused_in(1023, &new_share_order("b").bytes(), 1);
    script.refused(&new_share_order("b"), 3);
    script.refused_in(1024, b"", 3);
    for side in [BUY, SELL, 5] {
        script.depth_refused(side, 0, 3);
        script.top_refused(side, 3);
    }
    script.run_refused(1023, 9, 1);
    script.run_in(1024, 0, 0, &[]);
    script.run_in(1024, 9, 1, &[]);
    script.run_in(1024, 9, 0, &[]);
    script.refused_in(1023, b"", 1);
    script.open_with(["V", "P", "7203"], 999_998_977, &[(10, 1)], 0);
    script.refused_in(1024, b"", 4);
    script.refused(&new_share_order("a"), 4);
    script.refused_in(1023, b"", 1);
    script.run_in(1024, 1, 0, &[]);
    none(script, BUY);
}

pub fn shares_that_do_not_stay(script: &mut Script) {
    script.say("IOC of shares: its rest is canceled with 378=99; an order that meets none at once");
    sells(script, 1);
    script.taken(&share_order_of("14", "b", "1", "1200", "100.1").with("59", "3"), &["59=3"]);
    let rest: &[&str] = &["37=5", "39=4", "378=99", "14=1000", "151=0", "6=100.0900", "no 41"];
    script.run(
        5,
        &[&["37=1"], &["37=5"], &["37=2"], &["37=5"], &["37=3"], &["37=5"], &["37=4"], &["37=5", "14=1000"], rest],
    );
    script.taken(&share_order("c", "6", "5", "0.1").with("59", "3").with("544", "2"), &[]);
    script.run(1, &[&["37=15", "54=6", "544=2", "378=99", "14=0", "6=0.0000"]]);
    script.cancel_reject(&share_cancel("c", "d", "6"), 0, &["39=4"]);
}

pub fn share_minimums(script: &mut Script) {
    script.say("Minimums of shares: what meets at the price decides, under the mode of the MPID");
    for (mode, reached, missed) in [(1, "300", "301"), (2, "800", "801"), (3, "800", "801")] {
        sells(script, mode);
        let ioc =
            |minimum: &str| share_order_of("10", minimum, "1", "1000", "100.1").with("59", "3").with("110", minimum);
        script.taken(&ioc(missed), &[&format!("110={missed}")]);
        script.run(1, &[&["37=5", "39=4", "378=99", "14=0", "151=0"]]);
        script.level(SELL, 0, 1000, 100, 1);
        script.taken(&ioc(reached), &[&format!("110={reached}")]);
        script.run_in(4096, 1, 1, &[&["37=1", "32=100"], &["37=7"]]);
    }
    script.say("Fill or Kill of shares: all or nothing, for a sell short as well");
    script.open_shares(1);
    script.rests(&share_order("b1", "1", "30", "100.1"));
    script.rests(&share_order("b2", "1", "20", "100"));
    let kill = |id: &str, side: &str, quantity: &str, at: &str| share_order(id, side, quantity, at).with("59", "4");
    script.taken(&kill("k1", "5", "51", "100"), &["59=4", "no 110"]);
    script.run(1, &[&["37=3", "378=99", "54=5"]]);
    script.taken(&kill("k2", "6", "31", "100.1"), &[]);
    script.run(1, &[&["37=5", "378=99", "54=6"]]);
    script.taken(&kill("k3", "5", "50", "100"), &[]);
    script.run(3, &[&["37=1", "31=100.1"], &["37=7"], &["37=2"], &["37=7", "39=2", "6=100.0600", "59=4"]]);
    script.say("Minimums of shares: 110 as for bonds");
    script.session_reject(&new_share_order("x").with("110", "1"), 5, 110);
    script.session_reject(&new_share_order("x").with("59", "4").with("110", "1"), 5, 110);
    script.session_reject(&new_share_order("x").with("59", "3").with("110", "0"), 5, 110);
    script.session_reject(&share_cancel("b1", "x", "1").adding("110", "1"), 2, 110);
}

pub fn share_turns(script: &mut Script) {
    script.say("Turns of shares: a reduction at the same price keeps its place, any other replacement takes a new one");
    script.open_shares(1);
    for id in ["a", "b", "c", "d"] {
        script.rests(&share_order(id, "2", "10", "100"));
    }
    script.rests(&share_replace("a", "a1", "2", "9", "100.0"));
    script.rests(&share_replace("b", "b1", "2", "11", "100"));
    script.rests(&share_replace("c", "c1", "2", "10", "00100"));
    script.rests(&share_replace("d", "d1", "2", "9", "100.1"));
    script.rests(&share_replace("d1", "d2", "2", "9", "100"));
    script.taken(&share_order("x", "1", "39", "100"), &[]);
    script.run(
        5,
        &[
            &["37=1", "32=9"],
            &["37=10"],
            &["37=3", "32=10"],
            &["37=10"],
            &["37=2", "32=11"],
            &["37=10"],
            &["37=4"],
            &["37=10"],
        ],
    );
}

pub fn prevention_between_kinds_of_sells(script: &mut Script) {
    script.say("Self-trade prevention of shares: a sell short of the same MPID is one's own");
    for (mode, canceled) in [(1, "37=2"), (2, "37=1")] {
        script.open_shares(mode);
        script.rests(&share_order_of("10", "s", "5", "200", "100"));
        script.taken(&share_order_of("10", "b", "1", "200", "100"), &[]);
        script.run(2, &[&[canceled, "39=4", "378=100"]]);
    }
    script.open_shares(3);
    script.rests(&share_order_of("10", "s", "6", "200", "100"));
    script.taken(&share_order_of("10", "b", "1", "200", "100"), &[]);
    script.run(2, &[&["37=1", "54=6", "378=100"], &["37=2", "54=1", "378=100"]]);
    script.rests(&share_order_of("10", "t", "1", "200", "100"));
    script.taken(&share_order_of("10", "u", "5", "50", "99"), &[]);
    script.run(2, &[&["37=6", "39=4", "378=100"], &["37=5", "150=5", "378=100", "38=200", "151=150"]]);
    script.say("Self-trade prevention of shares: without an MPID, or with two, they trade; nothing names the other");
    script.taken(&share_order("v", "5", "50", "99"), &[]);
    script.run(2, &[&["37=5", "109=10", "no 375", "no 382", "no 423"], &["37=9", "no 109", "no 375"]]);
    script.taken(&share_order_of("11", "w", "6", "50", "99"), &[]);
    script.run(2, &[&["37=5", "109=10", "851=1"], &["37=12", "109=11", "851=2", "no 375"]]);
}

pub fn rooms_and_budgets_of_shares(script: &mut Script) {
    script.say("Run of shares: room is asked before each step, a budget ends it, and it goes on from there");
    sells(script, 2);
    script.taken(&share_order_of("10", "b", "1", "1200", "100.1").with("52", "20261116-10:11:12.345"), &[]);
    script.run_in(1024, 9, 1, &[&["34=6", "52=20261116-10:11:12.345"], &["34=7"]]);
    script.run_in(1024, 0, 0, &[]);
    script.run_refused(1023, 9, 1);
    script.run_in(2048, 2, 2, &[&["34=8"], &["34=9"], &["34=10", "37=3", "60=20261116-10:11:12.345"]]);
    script.run_in(65_536, u64::MAX, 2, &[&["34=11"], &["34=12", "52=20261116-10:11:12.345"]]);
    script.run_in(1024, 1, 0, &[]);
}

pub fn prices_at_their_limits(script: &mut Script) {
    script.say("Prices at their limits: totals above 32 bits, the highest price and none");
    script.open_shares(2);
    for (id, side) in [("a", "2"), ("b", "5"), ("c", "6"), ("d", "2"), ("e", "5")] {
        script.rests(&share_order(id, side, "999999999", "99999999.9"));
    }
    best(script, SELL, 999_999_999, 4_999_999_995, 5);
    script.rests(&share_order("f", "1", "999999999", "0"));
    best(script, BUY, 0, 999_999_999, 1);
    best(script, SELL, 999_999_999, 4_999_999_995, 5);
    script.taken(&share_order("g", "1", "999999999", "99999999.9"), &[]);
    script.run(2, &[&["37=1", "31=99999999.9", "6=99999999.9000"], &["37=7", "6=99999999.9000", "39=2"]]);
    script.taken(&share_order("h", "2", "999999998", "0.0"), &[]);
    script.run(2, &[&["37=6", "31=0.0", "6=0.0000", "14=999999998"], &["37=10", "6=0.0000", "39=2"]]);
    best(script, BUY, 0, 1, 1);
    best(script, SELL, 999_999_999, 3_999_999_996, 4);
}

pub fn numbers_of_shares_run_out(script: &mut Script) {
    script.say("Numbers of shares: the last Submit, the reports behind it, then 4");
    script.open_with(["V", "P", "7203"], 999_998_974, &[(10, 1)], 0);
    script.rests(&share_order("a", "2", "5", "100"));
    script.rests(&share_order("b", "5", "5", "100"));
    script.taken(&share_order("c", "1", "9", "100"), &["34=999998976", "37=999998976"]);
    script.run(
        3,
        &[&["34=999998977", "880=999998977"], &["34=999998978"], &["34=999998979"], &["34=999998980", "880=999998979"]],
    );
    script.refused(&new_share_order("d"), 4);
    best(script, SELL, 1000, 1, 1);
}

pub fn a_table_full_of_shares(script: &mut Script) {
    script.say("A full table of shares: the 255th order is taken, the next is 103=0 until one is dead");
    script.open_with(["V", "P", "7"], 1, &[(10, 2)], 0);
    let sides = ["1", "2", "5", "6"];
    let orders: Vec<Draft> = (1..=255)
        .map(|record| {
            let side = sides[record % 4];
            share_order(&record.to_string(), side, "9", if side == "1" { "1" } else { "2" }).with("55", "7")
        })
        .collect();
    for part in orders.chunks(38) {
        let reports: Vec<&[&str]> = vec![&["39=0"]; part.len()];
        script.loaded(&laid(part), part.len() as u64, &reports);
    }
    best(script, BUY, 10, 63 * 9, 63);
    best(script, SELL, 20, 192 * 9, 192);
    let late = share_order("late", "5", "9", "2").with("55", "7");
    script.rejected(&late, 0);
    script.rejected(&late.clone().with("11", "255"), 6);
    script.rejected(&late.clone().with("55", "8"), 1);
    script.taken(&share_cancel("100", "gone", "1").with("55", "7"), &["37=100"]);
    script.rejected(&late.clone().with("11", "gone"), 6);
    script.taken(&late.clone().with("544", "2").with("8214", "1"), &["37=261", "544=2", "8214=1"]);
    script.run(1, &[]);
    script.rejected(&late.clone().with("11", "later"), 0);
    script.cancel_reject(&share_cancel("gone", "x", "1").with("55", "7"), 1, &["37=NONE"]);
    best(script, BUY, 10, 62 * 9, 62);
    best(script, SELL, 20, 193 * 9, 193);
    script
        .say("A full table of shares: a buy that trades in part leaves an order dead, whose record is the next one's");
    script.taken(&share_cancel("late", "gone2", "5").with("55", "7"), &["37=261"]);
    script.taken(&share_order("buy", "1", "10", "2").with("55", "7"), &["37=265"]);
    script.run(3, &[&["37=1", "54=2", "39=2"], &["37=265"], &["37=2", "54=5", "32=1"], &["37=265", "39=2"]]);
    script.taken(&late.with("11", "next"), &["37=270"]);
    script.run(1, &[]);
    script.cancel_reject(&share_cancel("1", "x", "2").with("55", "7"), 1, &["37=NONE"]);
    script.cancel_reject(&share_cancel("buy", "x", "1").with("55", "7"), 0, &["37=265", "39=2"]);
}
