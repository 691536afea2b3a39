//! Who keeps his place: a replacement with the same yield and a 38 not above the one in force does, every other goes
//! behind those that stand there.

use crate::compose::{cancel, order, order_of, replace};
use crate::script::Script;

/// Venue V with these sells at 0.500 in this order, each of 10; `a` is OrderID 1.
fn sells_of_10(script: &mut Script, ids: &[&str]) {
    script.open(3);
    for id in ids {
        script.rests(&order(id, "2", "10", "0.5"));
    }
}

/// An IOC of the other side that takes what rests: these OrderIDs in this order, each with what it trades.
fn swept(script: &mut Script, side: &str, at: &str, turns: &[(&str, &str)]) {
    let quantity: u64 = turns.iter().map(|turn| turn.1.parse::<u64>().expect("a quantity")).sum();
    script.taken(&order("sweep", side, &quantity.to_string(), at).with("59", "3"), &[]);
    let fields: Vec<[String; 3]> = turns
        .iter()
        .map(|(order_id, traded)| [format!("37={order_id}"), format!("32={traded}"), "851=1".to_string()])
        .collect();
    let resting: Vec<Vec<&str>> = fields.iter().map(|turn| turn.iter().map(String::as_str).collect()).collect();
    let in_work: &[&str] = &["851=2"];
    let reports: Vec<&[&str]> = resting.iter().flat_map(|turn| [turn.as_slice(), in_work]).collect();
    script.run(turns.len() as u64 + 1, &reports);
}

pub fn a_reduced_order_trades_before_the_one_that_came_after_it(script: &mut Script) {
    script.say("Turns: a sell reduced at its yield trades before the one that came after it");
    sells_of_10(script, &["a", "b"]);
    script.taken(&replace("a", "a1", "2", "4", "0.5"), &["150=5", "34=3", "38=4", "151=4"]);
    script.say("Turns: it is in work like any replaced order");
    script.depth_refused(2, 0, 3);
    script.refused(&order("c", "1", "1", "0.5"), 3);
    script.run(1, &[]);
    script.level(2, 0, 500, 14, 2);
    swept(script, "1", "0.5", &[("1", "4"), ("2", "10")]);
    script.say("Turns: a buy too, reduced twice");
    script.open(1);
    script.rests(&order("a", "1", "10", "-0.5"));
    script.rests(&order("b", "1", "10", "-0.5"));
    script.rests(&replace("a", "a1", "1", "9", "-0.5"));
    script.rests(&replace("a1", "a2", "1", "1", "-0.5"));
    swept(script, "2", "-0.5", &[("1", "1"), ("2", "10")]);
}

pub fn a_raised_order_trades_behind_the_one_that_came_after_it(script: &mut Script) {
    script.say("Turns: an order whose 38 is raised, by 1 even, trades behind the one that came after it");
    for quantity in ["11", "999999980"] {
        sells_of_10(script, &["a", "b"]);
        script.rests(&replace("a", "a1", "2", quantity, "0.5"));
        swept(script, "1", "0.5", &[("2", "10"), ("1", quantity)]);
    }
    script.say("Turns: and in front of the one that comes after the raise");
    sells_of_10(script, &["a", "b"]);
    script.rests(&replace("a", "a1", "2", "11", "0.5"));
    script.rests(&order("c", "2", "10", "0.5"));
    swept(script, "1", "0.5", &[("2", "10"), ("1", "11"), ("4", "10")]);
}

pub fn a_replacement_that_changes_nothing_keeps_its_place(script: &mut Script) {
    script.say("Turns: a G that changes nothing but the id is taken, keeps its place and is in work");
    sells_of_10(script, &["a", "b"]);
    script.taken(&replace("a", "a1", "2", "10", "0.5"), &["150=5", "34=3", "11=a1", "41=a"]);
    script.depth_refused(2, 0, 3);
    script.run(1, &[]);
    swept(script, "1", "0.5", &[("1", "10"), ("2", "10")]);
}

pub fn a_reduction_at_another_yield_takes_a_new_place(script: &mut Script) {
    script.say("Turns: a reduction at another yield goes behind those that stand there");
    script.open(1);
    script.rests(&order("a", "2", "10", "0.5"));
    script.rests(&order("b", "2", "10", "0.4"));
    script.rests(&replace("a", "a1", "2", "4", "0.4"));
    script.level(2, 0, 400, 14, 2);
    swept(script, "1", "0.4", &[("2", "10"), ("1", "4")]);
    script.say("Turns: another yield with the same 38, and back again, loses the place for good");
    sells_of_10(script, &["a", "b"]);
    script.rests(&replace("a", "a1", "2", "10", "0.499"));
    script.rests(&replace("a1", "a2", "2", "10", "0.5"));
    swept(script, "1", "0.5", &[("2", "10"), ("1", "10")]);
}

pub fn a_reduction_raised_back_takes_a_new_place(script: &mut Script) {
    script.say("Turns: 38 in force is the last one: reduced and raised back to the first 38 is a raise");
    sells_of_10(script, &["a", "b"]);
    script.rests(&replace("a", "a1", "2", "4", "0.5"));
    script.rests(&replace("a1", "a2", "2", "10", "0.5"));
    swept(script, "1", "0.5", &[("2", "10"), ("1", "10")]);
    script.say("Turns: raised and reduced back stays behind: the place given up does not come back");
    sells_of_10(script, &["a", "b"]);
    script.rests(&replace("a", "a1", "2", "20", "0.5"));
    script.rests(&replace("a1", "a2", "2", "10", "0.5"));
    swept(script, "1", "0.5", &[("2", "10"), ("1", "10")]);
}

pub fn quantity_is_compared_with_the_one_in_force_not_with_what_is_open(script: &mut Script) {
    script.say("Turns: 4 of 10 executed: 38=8 is above the 6 open but not above 10, and keeps the place");
    sells_of_10(script, &["a", "b"]);
    swept(script, "1", "0.5", &[("1", "4")]);
    script.taken(&replace("a", "a1", "2", "8", "0.5"), &["38=8", "14=4", "151=4", "39=1"]);
    script.run(1, &[]);
    script.taken(&order("x", "1", "5", "0.5"), &[]);
    script.run(3, &[&["37=1", "32=4", "39=2"], &["37=7"], &["37=2", "32=1"], &["37=7"]]);
    script.say("Turns: 38=5 leaves 1 open in its old place; 38=11 would go behind");
    sells_of_10(script, &["a", "b"]);
    swept(script, "1", "0.5", &[("1", "4")]);
    script.rests(&replace("a", "a1", "2", "5", "0.5"));
    script.taken(&order("x", "1", "2", "0.5"), &[]);
    script.run(3, &[&["37=1", "32=1", "39=2"], &["37=7"], &["37=2", "32=1"], &["37=7"]]);
    sells_of_10(script, &["a", "b"]);
    swept(script, "1", "0.5", &[("1", "4")]);
    script.rests(&replace("a", "a1", "2", "11", "0.5"));
    script.taken(&order("x", "1", "11", "0.5"), &[]);
    script.run(3, &[&["37=2", "32=10", "39=2"], &["37=7"], &["37=1", "32=1"], &["37=7"]]);
}

pub fn quantity_in_force_is_not_lowered_by_a_decrement(script: &mut Script) {
    script.say("Turns: 50 of 200 decremented: 38=200 is the one in force and keeps the place, 201 does not");
    for (quantity, turns) in [("200", [("1", "150"), ("2", "100")]), ("201", [("2", "100"), ("1", "151")])] {
        script.open(3);
        script.rests(&order_of("10", "a", "2", "200", "0.1"));
        script.rests(&order_of("11", "b", "2", "100", "0.1"));
        script.taken(&order_of("10", "x", "1", "50", "0.1"), &[]);
        script.run(2, &[&["37=3", "39=4"], &["37=1", "150=5", "151=150", "38=200"]]);
        script.rests(&replace("a", "a1", "2", quantity, "0.1"));
        swept(script, "1", "0.1", &turns);
    }
}

pub fn yields_are_compared_as_numbers(script: &mut Script) {
    script.say("Turns: 0.5, 0.500 and 000.50 are one yield, and so are 0 and -0.000");
    for at in ["0.500", "000.50"] {
        sells_of_10(script, &["a", "b"]);
        script.rests(&replace("a", "a1", "2", "0009", at));
        swept(script, "1", "0.5", &[("1", "9"), ("2", "10")]);
    }
    script.open(1);
    script.rests(&order("a", "1", "10", "0"));
    script.rests(&order("b", "1", "10", "-0"));
    script.rests(&replace("a", "a1", "1", "9", "-0.000"));
    swept(script, "2", "0", &[("1", "9"), ("2", "10")]);
    script.say("Turns: 0.001 and -0.001 are two");
    script.open(1);
    script.rests(&order("a", "1", "10", "0.001"));
    script.rests(&order("b", "1", "10", "-0.001"));
    script.rests(&replace("a", "a1", "1", "9", "-0.001"));
    swept(script, "2", "-0.001", &[("2", "10"), ("1", "9")]);
}

pub fn a_rejected_replacement_leaves_the_place(script: &mut Script) {
    script.say("Turns: a replacement that is rejected changes no place, whatever it asked");
    sells_of_10(script, &["a", "b"]);
    script.cancel_reject(&replace("a", "b", "2", "20", "0.4"), 2, &["37=1"]);
    script.cancel_reject(&replace("a", "a1", "1", "20", "0.5"), 2, &["37=1"]);
    script.session_reject(&replace("a", "a1", "2", "0", "0.5"), 5, 38);
    swept(script, "1", "0.5", &[("1", "10"), ("2", "10")]);
}

pub fn places_kept_and_taken_among_many(script: &mut Script) {
    script
        .say("Turns: five sells; the first raised, the second reduced, the third canceled, the fourth the same again");
    sells_of_10(script, &["a", "b", "c", "d", "e"]);
    script.rests(&replace("d", "d1", "2", "10", "0.5"));
    script.rests(&replace("a", "a1", "2", "12", "0.5"));
    script.rests(&replace("b", "b1", "2", "3", "0.5"));
    script.taken(&cancel("c", "c1", "2"), &["34=9"]);
    script.rests(&order("f", "2", "1", "0.5"));
    script.rests(&replace("a1", "a2", "2", "2", "0.5"));
    script.level(2, 0, 500, 26, 5);
    swept(script, "1", "0.5", &[("2", "3"), ("4", "10"), ("5", "10"), ("1", "2"), ("10", "1")]);
    script.no_level(2, 0);
}
