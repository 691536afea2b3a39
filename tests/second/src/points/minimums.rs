//! Fill or Kill and minimum quantity: what is taken, when an order is killed, and what its reports say.

use super::cases::book_r;
use crate::compose::{cancel, new_order, order, order_of, replace, Draft};
use crate::script::Script;

/// A Fill or Kill.
fn fill_or_kill(draft: Draft) -> Draft {
    draft.with("59", "4")
}

/// An IOC with a minimum.
fn at_least(minimum: &str, draft: Draft) -> Draft {
    draft.with("59", "3").with("110", minimum)
}

/// A's buy into book R, OrderID 5.
fn buy_of_a(quantity: &str) -> Draft {
    order_of("10", "b", "1", quantity, "0.100")
}

/// Book R is as it was.
fn is_book_r(script: &mut Script) {
    script.level(2, 0, 101, 100, 1);
    script.level(2, 1, 100, 900, 3);
    script.no_level(2, 2);
    script.no_level(1, 0);
}

/// These orders come to book R one after the other and are killed: one step, one Canceled, and the book is as it was.
fn killed_in_book_r(script: &mut Script, mode: u64, drafts: &[Draft]) {
    book_r(script, mode);
    for (at, draft) in drafts.iter().enumerate() {
        let fields = [format!("37={}", 5 + 2 * at), format!("34={}", 5 + 2 * at), format!("34={}", 6 + 2 * at)];
        let [order_id, accepted, canceled] = fields.each_ref().map(String::as_str);
        script.taken(&draft.clone().with("11", &format!("k{at}")), &[order_id, accepted, "14=0"]);
        script.run(1, &[&[order_id, canceled, "39=4", "150=4", "378=99", "14=0", "151=0", "no 41", "no 32"]]);
    }
    is_book_r(script);
}

/// Both sides of a trade in book R, by the resting order's OrderID.
fn trade_with(order_id: &'static str, quantity: &'static str) -> [Vec<&'static str>; 2] {
    [vec![order_id, quantity, "851=1"], vec!["37=5", quantity, "851=2"]]
}

/// The order is taken into book R and runs: so many steps, and these reports.
fn runs_in_book_r(script: &mut Script, mode: u64, draft: &Draft, steps: u64, reports: &[Vec<&str>]) {
    book_r(script, mode);
    script.taken(draft, &["34=5", "37=5"]);
    let reports: Vec<&[&str]> = reports.iter().map(Vec::as_slice).collect();
    script.run(steps, &reports);
}

/// The trades of 100 at 0.101 and 200 at 0.100 that stand before A's sell.
fn before_own() -> Vec<Vec<&'static str>> {
    [trade_with("37=1", "32=100"), trade_with("37=2", "32=200")].concat()
}

pub fn a_fill_or_kill_trades_all_or_nothing(script: &mut Script) {
    script.say("Minimum: book R, MPID 14 buys 1,200 Fill or Kill: 1,000 could trade, so it is canceled whole; 1 step");
    let of_14 = |quantity| fill_or_kill(order_of("14", "b", "1", quantity, "0.100"));
    killed_in_book_r(script, 1, &[of_14("1200"), of_14("1001"), of_14("999999999")]);
    script.say("Minimum: of 1,000 it trades all; 5 steps");
    let all = [trade_with("37=3", "32=200"), trade_with("37=4", "32=500")].concat();
    runs_in_book_r(script, 2, &of_14("1000"), 5, &[before_own(), all].concat());
    script.no_level(2, 0);
    script.no_level(1, 0);
    script.say("Minimum: of 100 at 0.101 it takes the best level; of 101 there it is canceled whole");
    runs_in_book_r(script, 1, &of_14("100").with("44", "0.101"), 2, &trade_with("37=1", "32=100"));
    script.say("Minimum: one that meets nothing is canceled whole, on an empty book too");
    killed_in_book_r(script, 1, &[of_14("101").with("44", "0.101"), of_14("1").with("44", "0.102")]);
    script.open(1);
    script.taken(&fill_or_kill(new_order("a")), &["59=4", "39=0", "151=100"]);
    script.run(1, &[&["34=2", "37=1", "39=4", "378=99", "59=4", "14=0", "151=0"]]);
}

pub fn a_minimum_in_mode_1_ends_at_the_first_order_of_ones_own(script: &mut Script) {
    script.say("Minimum: book R, A in mode 1 buys 1,200 IOC: 300 stand before A's own sell");
    let ioc = |minimum| at_least(minimum, buy_of_a("1200"));
    killed_in_book_r(script, 1, &[ioc("301"), ioc("1200"), fill_or_kill(buy_of_a("301"))]);
    let canceled = vec!["37=5", "39=4", "378=100", "14=300", "151=0", "110=300"];
    let reports = [before_own(), vec![canceled]].concat();
    runs_in_book_r(script, 1, &ioc("300"), 4, &reports);
    script.level(2, 0, 100, 700, 2);
    script.say("Minimum: a Fill or Kill of 300 never comes to it");
    runs_in_book_r(script, 1, &fill_or_kill(buy_of_a("300")), 3, &before_own());
    script.say("Minimum: an own order that is the best one leaves nothing to trade");
    script.open(1);
    script.rests(&order_of("10", "s1", "2", "5", "0.2"));
    script.rests(&order_of("11", "s2", "2", "5", "0.1"));
    script.taken(&at_least("1", order_of("10", "b", "1", "5", "0.1")), &[]);
    script.run(1, &[&["37=3", "39=4", "378=99", "14=0"]]);
    script.level(2, 0, 200, 5, 1);
    script.say("Minimum: without an MPID nothing is one's own");
    script.rests(&order("s3", "2", "5", "0.2"));
    script.taken(&fill_or_kill(order("c", "1", "15", "0.1")), &[]);
    script.run(4, &[&["37=1"], &["37=6"], &["37=5"], &["37=6"], &["37=2"], &["37=6", "39=2", "14=15"]]);
}

pub fn a_minimum_in_mode_2_passes_over_ones_own(script: &mut Script) {
    script.say("Minimum: book R, A in mode 2 buys 1,200 IOC: 800 can trade");
    killed_in_book_r(script, 2, &[at_least("801", buy_of_a("1200")), fill_or_kill(buy_of_a("801"))]);
    let own = vec!["37=3", "39=4", "378=100", "no 110"];
    let rest = vec!["37=5", "39=4", "378=99", "14=800", "151=0", "110=800"];
    let trades = [before_own(), vec![own.clone()], trade_with("37=4", "32=500").to_vec()].concat();
    let reports = [trades, vec![rest]].concat();
    runs_in_book_r(script, 2, &at_least("800", buy_of_a("1200")), 5, &reports);
    script.no_level(2, 0);
    script.say("Minimum: a Fill or Kill of 800 trades all");
    let all = [before_own(), vec![own.clone()], trade_with("37=4", "32=500").to_vec()].concat();
    runs_in_book_r(script, 2, &fill_or_kill(buy_of_a("800")), 5, &all);
    script.say("Minimum: of 300 it is done before A's sell, which stays");
    runs_in_book_r(script, 2, &fill_or_kill(buy_of_a("300")), 3, &before_own());
    script.level(2, 0, 100, 700, 2);
}

pub fn a_minimum_in_mode_3_is_used_up_by_ones_own(script: &mut Script) {
    script.say("Minimum: book R, A in mode 3 buys 1,200 IOC: 800 can trade, with 200 taken off by A's own sell");
    let missed = [("801", "1200"), ("501", "700"), ("301", "500"), ("301", "400")];
    let missed = missed.map(|(minimum, quantity)| at_least(minimum, buy_of_a(quantity)));
    killed_in_book_r(script, 3, &missed);
    let own = vec!["37=3", "39=4", "378=100", "no 110"];
    let decremented = vec!["37=5", "150=5", "378=100", "110=800", "14=300", "151=700"];
    let rest = vec!["37=5", "39=4", "378=99", "14=800", "151=0", "110=800"];
    let last = trade_with("37=4", "32=500").to_vec();
    let reports = [before_own(), vec![own.clone(), decremented], last, vec![rest]].concat();
    runs_in_book_r(script, 3, &at_least("800", buy_of_a("1200")), 5, &reports);
    script.say("Minimum: A buys 700: 300, then 200 off, then 200 of the 500: 500 in all");
    let last = vec![vec!["37=4", "32=200", "151=300"], vec!["37=5", "32=200", "14=500", "151=0", "39=2", "110=500"]];
    let reports = [before_own(), vec![own.clone(), vec!["37=5", "150=5", "151=200"]], last].concat();
    runs_in_book_r(script, 3, &at_least("500", buy_of_a("700")), 5, &reports);
    script.say("Minimum: A buys 500 or 400: what is left after 300 is used up by A's own sell, whole or in part");
    let both = vec![own, vec!["37=5", "39=4", "378=100", "110=300", "14=300"]];
    runs_in_book_r(script, 3, &at_least("300", buy_of_a("500")), 4, &[before_own(), both].concat());
    script.level(2, 0, 100, 500, 1);
    let smaller = vec![vec!["37=5", "39=4", "378=100", "110=300", "14=300"], vec!["37=3", "150=5", "151=100"]];
    runs_in_book_r(script, 3, &at_least("300", buy_of_a("400")), 4, &[before_own(), smaller].concat());
    script.level(2, 0, 100, 600, 2);
    script.say("Minimum: so a Fill or Kill past one's own order is canceled whole, one of 300 is not");
    killed_in_book_r(script, 3, &["301", "500", "800", "1000"].map(|quantity| fill_or_kill(buy_of_a(quantity))));
    runs_in_book_r(script, 3, &fill_or_kill(buy_of_a("300")), 3, &before_own());
}

/// Book R mirrored: four buys, OrderIDs 1 to 4, A's being 3.
fn mirrored_book(script: &mut Script, mode: u64) {
    script.open(mode);
    script.rests(&order_of("11", "b1", "1", "100", "-0.101"));
    script.rests(&order_of("12", "b2", "1", "200", "-0.100"));
    script.rests(&order_of("10", "b3", "1", "200", "-0.100"));
    script.rests(&order_of("13", "b4", "1", "500", "-0.100"));
}

pub fn a_sell_has_a_minimum_like_a_buy(script: &mut Script) {
    script.say("Minimum: book R mirrored, A sells 1,200 IOC: 300 in mode 1, 800 in modes 2 and 3");
    let sell = order_of("10", "s", "2", "1200", "-0.100");
    for (mode, reached, missed) in [(1, "300", "301"), (2, "800", "801"), (3, "800", "801")] {
        mirrored_book(script, mode);
        script.taken(&at_least(missed, sell.clone()), &[]);
        script.run(1, &[&["34=6", "37=5", "39=4", "378=99", "14=0"]]);
        script.level(1, 0, -101, 100, 1);
        script.level(1, 1, -100, 900, 3);
        script.taken(&at_least(reached, sell.clone().with("11", "t")), &["34=7", "37=7"]);
        script.run_in(4096, 2, 2, &[&["37=1"], &["37=7"], &["37=2"], &["37=7", "14=300"]]);
        match mode {
            1 => script.run(2, &[&["37=7", "378=100", "39=4"]]),
            2 => script.run(3, &[&["37=3", "378=100"], &["37=4"], &["37=7", "14=800"], &["37=7", "378=99"]]),
            _ => {
                let own: [&[&str]; 2] = [&["37=3", "378=100", "39=4"], &["37=7", "378=100", "150=5"]];
                script.run(3, &[own[0], own[1], &["37=4"], &["37=7", "14=800"], &["37=7", "378=99"]]);
            }
        }
    }
    script.say("Minimum: a sell meets buys at its yield or below");
    mirrored_book(script, 1);
    script.taken(&fill_or_kill(order_of("14", "s", "2", "100", "-0.101")), &[]);
    script.run(2, &[&["37=1", "39=2"], &["37=5", "39=2", "31=-0.101"]]);
    script.taken(&fill_or_kill(order_of("14", "t", "2", "1", "-0.101")), &[]);
    script.run(1, &[&["37=8", "39=4", "378=99"]]);
}

pub fn deciding_is_part_of_the_first_step(script: &mut Script) {
    script.say("Minimum: a budget of 0 decides nothing, one of 1 kills");
    book_r(script, 1);
    script.taken(&fill_or_kill(order_of("14", "b", "1", "1200", "0.100")), &["34=5"]);
    script.run_in(4096, 0, 0, &[]);
    script.depth_refused(2, 0, 3);
    script.refused(&new_order("c"), 3);
    script.run_refused(1023, 1, 1);
    script.run_in(1024, 1, 1, &[&["34=6", "378=99", "14=0"]]);
    is_book_r(script);
    script.run_in(1024, 1, 0, &[]);
    script.say("Minimum: once it is decided the minimum is not looked at again, though what is left is below it");
    book_r(script, 2);
    script.taken(&at_least("800", buy_of_a("1200")), &["34=5"]);
    script.run_in(4096, 0, 0, &[]);
    script.run_in(4096, 1, 1, &[&["37=1"], &["37=5", "14=100"]]);
    script.run_in(4096, 0, 0, &[]);
    script.run_in(4096, 1, 1, &[&["37=2"], &["37=5", "14=300"]]);
    script.run_in(4096, 1, 1, &[&["37=3", "378=100"]]);
    script.run_in(4096, 1, 1, &[&["37=4"], &["37=5", "14=800"]]);
    script.depth_refused(1, 0, 3);
    script.run_in(4096, 1, 1, &[&["37=5", "378=99", "151=0"]]);
    script.run_in(4096, 1, 0, &[]);
    script.say("Minimum: so too where Run stops for want of room, and for a Fill or Kill");
    book_r(script, 1);
    script.taken(&fill_or_kill(order_of("14", "b", "1", "1000", "0.100")), &[]);
    for resting in ["37=1", "37=2", "37=3", "37=4"] {
        script.run_in(1024, 9, 1, &[&[resting], &["37=5", "59=4"]]);
    }
    script.depth_refused(2, 0, 3);
    script.run_in(1024, 9, 1, &[]);
    script.no_level(2, 0);
    script.say("Minimum: the next order is decided anew");
    script.rests(&order("s", "2", "5", "0.1"));
    script.taken(&fill_or_kill(order("c", "1", "6", "0.1")), &[]);
    script.run(1, &[&["37=15", "378=99", "14=0"]]);
    script.taken(&order("d", "1", "6", "0.1").with("59", "3"), &[]);
    script.run(2, &[&["37=14", "39=2"], &["37=17", "14=5"], &["37=17", "378=99"]]);
}

pub fn a_killed_order_is_canceled_like_any_other(script: &mut Script) {
    script.say("Minimum: a killed order keeps its ClOrdID and has nothing open: 102=0 with 39=4; the id is 103=6");
    script.open(2);
    script.taken(&fill_or_kill(new_order("a")), &[]);
    script.run(1, &[&["34=2", "378=99"]]);
    script.cancel_reject(&cancel("a", "b", "1"), 0, &["37=1", "39=4"]);
    script.cancel_reject(&replace("a", "b", "1", "5", "0.1"), 0, &["37=1", "39=4"]);
    script.rejected(&new_order("a"), 6);
    script.say("Minimum: a filled Fill or Kill is 39=2; an IOC that reached its minimum and expired is 39=4");
    script.rests(&order("s", "2", "10", "0.1"));
    script.taken(&fill_or_kill(order("c", "1", "4", "0.1")), &[]);
    script.run(2, &[&["37=6", "32=4"], &["37=7", "39=2"]]);
    script.cancel_reject(&cancel("c", "d", "1"), 0, &["37=7", "39=2"]);
    script.taken(&at_least("6", order("e", "1", "9", "0.1")), &[]);
    script.run(2, &[&["37=6", "39=2"], &["37=11", "14=6"], &["37=11", "378=99"]]);
    script.cancel_reject(&cancel("e", "d", "1"), 0, &["37=11", "39=4"]);
}

pub fn shape_and_values_of_a_minimum(script: &mut Script) {
    script.say("Minimum: 110 is 1 to 9 digits (else 6), not 0 (else 5), and not empty (else 4)");
    script.open(1);
    for (value, reason) in [
        ("0", 5),
        ("000", 5),
        ("000000000", 5),
        ("0000000001", 6),
        ("1000000000", 6),
        ("x", 6),
        ("1x", 6),
        ("-1", 6),
        ("1.0", 6),
        (" 1", 6),
        ("1 ", 6),
        ("+1", 6),
        ("", 4),
    ] {
        script.session_reject(&at_least(value, new_order("a")), reason, 110);
    }
    script.say("Minimum: those come first on a Day order and a Fill or Kill too, in the place where 110 stands");
    script.session_reject(&new_order("a").with("110", "0"), 5, 110);
    script.session_reject(&fill_or_kill(new_order("a")).with("110", "x"), 6, 110);
    script.session_reject(&at_least("x", new_order("a")).with("54", "3"), 5, 54);
    script.session_reject(&new_order("a").with("54", "3").inserting("11", "110", "x"), 6, 110);
    script.say("Minimum: 0007 is 7 and shown as 7; 1 and all of 38 are taken, at most 999,999,999");
    for (id, quantity, sent, shown) in [
        ("a", "100", "0007", "110=7"),
        ("b", "100", "1", "110=1"),
        ("c", "100", "100", "110=100"),
        ("d", "000000100", "000000100", "110=100"),
        ("e", "999999999", "999999999", "110=999999999"),
        ("f", "1", "1", "110=1"),
    ] {
        script.taken(&at_least(sent, order(id, "1", quantity, "0.1")), &[shown, "59=3", "39=0"]);
        script.run(1, &[&[shown, "378=99", "14=0", "151=0"]]);
    }
}

pub fn a_minimum_beside_other_fields(script: &mut Script) {
    script.say("Minimum: 110 on a Day order, beside 59=4 or above 38 is 373=5 with 371=110");
    script.open(1);
    script.session_reject(&new_order("a").with("110", "1"), 5, 110);
    script.session_reject(&new_order("a").with("110", "100"), 5, 110);
    script.session_reject(&fill_or_kill(new_order("a")).with("110", "1"), 5, 110);
    script.session_reject(&fill_or_kill(new_order("a")).with("110", "100"), 5, 110);
    script.session_reject(&at_least("101", new_order("a")), 5, 110);
    script.session_reject(&at_least("999999999", new_order("a")), 5, 110);
    script.session_reject(&at_least("000000101", new_order("a")), 5, 110);
    script.session_reject(&new_order("a").with("110", "101"), 5, 110);
    script.say("Minimum: wherever the fields stand");
    script.session_reject(&new_order("a").inserting("11", "110", "1"), 5, 110);
    script.session_reject(&new_order("a").with("59", "3").inserting("11", "110", "101"), 5, 110);
    script.taken(&new_order("a").with("59", "3").inserting("11", "110", "100"), &["110=100"]);
    script.run(1, &[&["378=99"]]);
    script.say("Minimum: this is asked when every field by itself has passed: a later one that fails comes first");
    script.session_reject(&new_order("b").with("8060", "2").inserting("11", "110", "1"), 5, 8060);
    script.session_reject(&new_order("b").with("110", "1").adding("58", "x"), 3, 58);
    script.session_reject(&at_least("101", new_order("b")).with("38", "x"), 6, 38);
    script.session_reject(&at_least("101", new_order("b")).with("38", "0"), 5, 38);
    script.session_reject(&new_order("b").with("59", "5").with("110", "1"), 5, 59);
    script.say("Minimum: and before missing tags");
    script.session_reject(&new_order("b").with("110", "1").without("11"), 5, 110);
    script.session_reject(&at_least("101", new_order("b")).without("11").without("60"), 5, 110);
    script.session_reject(&at_least("100", new_order("b")).without("11").without("60"), 1, 11);
    script.say("Minimum: only where the tag compared with is there");
    script.session_reject(&at_least("999999999", new_order("b")).without("38"), 1, 38);
    script.session_reject(&new_order("b").with("110", "1").without("38"), 5, 110);
    script.session_reject(&fill_or_kill(new_order("b")).with("110", "1").without("38"), 5, 110);
    script.session_reject(&at_least("100", new_order("b")).without("59"), 1, 59);
    script.session_reject(&at_least("101", new_order("b")).without("59"), 5, 110);
    script.session_reject(&at_least("101", new_order("b")).without("59").without("38"), 1, 38);
    script.say("Minimum: a Session Reject comes before a Rejected");
    script.session_reject(&new_order("b").with("110", "1").with("55", "351"), 5, 110);
    script.submit(&at_least("7", new_order("b")).with("55", "351"), 7, &["103=1", "no 110", "no 59"]);
    script.submit(&at_least("7", new_order("a")), 7, &["103=6", "no 110", "no 59"]);
    script.submit(&fill_or_kill(new_order("b")).with("109", "15"), 7, &["103=99", "no 110", "no 59"]);
}

pub fn a_minimum_belongs_to_a_new_order_alone(script: &mut Script) {
    script.say("Minimum: 110 on F or G is 373=2, whatever it says and wherever it stands");
    script.open(1);
    script.rests(&new_order("a"));
    for value in ["1", "100", "0", "x", ""] {
        script.session_reject(&cancel("a", "b", "1").adding("110", value), 2, 110);
        script.session_reject(&replace("a", "b", "1", "9", "0.1").adding("110", value), 2, 110);
    }
    script.session_reject(&replace("a", "b", "1", "9", "0.1").inserting("38", "110", "10"), 2, 110);
    script.session_reject(&cancel("a", "b", "1").with("38", "5").adding("110", "10"), 2, 110);
    script.session_reject(&cancel("a", "b", "1").adding("59", "4"), 2, 59);
    script.session_reject(&replace("a", "b", "1", "9", "0.1").adding("59", "4"), 2, 59);
    script.level(1, 0, 100, 100, 1);
}

pub fn reports_show_the_minimum_that_was_sent(script: &mut Script) {
    script.say("Minimum: the four kinds about an order show its 110, resting orders have none");
    script.open(3);
    script.rests(&order_of("11", "s1", "2", "10", "0.2"));
    script.rests(&order_of("10", "s2", "2", "5", "0.1"));
    script.taken(&at_least("3", order_of("10", "b", "1", "20", "0.1")), &["150=0", "109=10|110=3|150=0", "59=3"]);
    script.run(
        3,
        &[
            &["37=1", "no 110", "59=0"],
            &["37=3", "150=1", "109=10|110=3|150=1"],
            &["37=2", "150=4", "378=100", "no 110"],
            &["37=3", "150=5", "378=100", "109=10|110=3|150=5", "38=20", "151=5"],
            &["37=3", "150=4", "378=99", "109=10|110=3|150=4", "14=10"],
        ],
    );
    script.say("Minimum: without an MPID 110 stands behind 60");
    script.rests(&order("s3", "2", "9", "0.1"));
    script.taken(&at_least("9", order("c", "1", "9", "0.1")), &["60=20261116-09:00:00|110=9|150=0"]);
    script.run(2, &[&["no 110"], &["60=20261116-09:00:00|110=9|150=2"]]);
    script.say("Minimum: a Fill or Kill shows 59=4 and no 110");
    script.rests(&order("s4", "2", "9", "0.1"));
    script.taken(&fill_or_kill(order("d", "1", "9", "0.1")), &["59=4", "no 110", "150=0"]);
    script.run(2, &[&["59=0"], &["59=4", "no 110", "150=2"]]);
    script.taken(&fill_or_kill(order("e", "1", "9", "0.1")), &["59=4", "no 110"]);
    script.run(1, &[&["59=4", "no 110", "150=4", "378=99"]]);
}

pub fn whole_bytes_with_minimums(script: &mut Script) {
    script.say("Minimum: the whole bytes of reports, with 9 and 10 worked out apart from this program");
    book_r(script, 1);
    script.submit_whole(
        &at_least("301", buy_of_a("1200")),
        0,
        "8=FIX.4.2|9=198|35=8|34=5|49=V|50=DJGB|52=20261116-09:00:00|56=P|6=0.000000|11=b|14=0|17=5|20=0|37=5|38=1200|39=0|40=2|44=0.100|47=A|54=1|55=350|59=3|60=20261116-09:00:00|109=10|110=301|150=0|151=1200|423=9|8060=1|10=012|",
    );
    script.run_whole(1, &["8=FIX.4.2|9=202|35=8|34=6|49=V|50=DJGB|52=20261116-09:00:00|56=P|6=0.000000|11=b|14=0|17=6|20=0|37=5|38=1200|39=4|40=2|44=0.100|47=A|54=1|55=350|59=3|60=20261116-09:00:00|109=10|110=301|150=4|151=0|378=99|423=9|8060=1|10=199|"]);
    script.submit_whole(
        &fill_or_kill(order_of("14", "f", "1", "100", "0.101")),
        0,
        "8=FIX.4.2|9=188|35=8|34=7|49=V|50=DJGB|52=20261116-09:00:00|56=P|6=0.000000|11=f|14=0|17=7|20=0|37=7|38=100|39=0|40=2|44=0.101|47=A|54=1|55=350|59=4|60=20261116-09:00:00|109=14|150=0|151=100|423=9|8060=1|10=083|",
    );
    script.run_whole(2, &["8=FIX.4.2|9=230|35=8|34=8|49=V|50=DJGB|52=20261116-09:00:00|56=P|6=0.101000|11=s1|14=100|17=8|20=0|31=0.101|32=100|37=1|38=100|39=2|40=2|44=0.101|47=A|54=2|55=350|59=0|60=20261116-09:00:00|109=11|150=2|151=0|375=14|382=1|423=9|851=1|880=8|8060=1|10=184|", "8=FIX.4.2|9=229|35=8|34=9|49=V|50=DJGB|52=20261116-09:00:00|56=P|6=0.101000|11=f|14=100|17=9|20=0|31=0.101|32=100|37=7|38=100|39=2|40=2|44=0.101|47=A|54=1|55=350|59=4|60=20261116-09:00:00|109=14|150=2|151=0|375=11|382=1|423=9|851=2|880=8|8060=1|10=142|"]);
    script.submit_whole(
        &new_order("g").with("110", "1"),
        6,
        "8=FIX.4.2|9=75|35=3|34=10|49=V|50=DJGB|52=20261116-09:00:00|56=P|45=1|371=110|372=D|373=5|10=008|",
    );
}
