//! A table that fills up and goes on: case 12, and dead orders that make room (T-09 of 02).

use crate::compose::{cancel, new_order, order, order_of, replace};
use crate::script::Script;

/// No order has this ClOrdID any more: 102=1.
fn is_gone(script: &mut Script, id: &str, side: &str) {
    script.cancel_reject(&cancel(id, "x", side), 1, &["37=NONE", "39=8"]);
}

/// A dead order still has this ClOrdID: 102=0.
fn is_there(script: &mut Script, id: &str, side: &str, order_id: &str, status: &str) {
    script.cancel_reject(&cancel(id, "x", side), 0, &[order_id, status]);
}

/// The level, in tenths, of the sell with this record number.
fn tenths(record: usize) -> usize {
    record % 7 + 1
}

/// 255 sells of 1 bond by MPID 10, on seven levels from 0.1 to 0.7. Record number, OrderID and ClOrdID are the same.
fn fill(script: &mut Script) {
    script.open(2);
    for record in 1..=255 {
        script.rests(&order_of("10", &record.to_string(), "2", "1", &format!("0.{}", tenths(record))));
    }
    for k in 0..7 {
        let level = 7 - k as usize;
        let orders = (1..=255).filter(|&record| tenths(record) == level).count() as u64;
        script.level(2, k, level as i64 * 100, orders, orders);
    }
    script.no_level(2, 7);
    script.top(2, 700, 36, 36);
}

/// Runs the buy, OrderID 262, against the 254 sells other than 100, 25 steps at a time: each is canceled, from the
/// highest yield down and by place within a yield; the last run ends the work and cancels the IOC's rest.
fn sweep(script: &mut Script) {
    let mut met: Vec<usize> = (1..=255).filter(|&record| record != 100).collect();
    met.sort_by_key(|&record| (7 - tenths(record), record));
    let ids: Vec<String> = met.iter().map(|record| format!("37={record}")).collect();
    let mut reports: Vec<[&str; 3]> = ids.iter().map(|id| [id.as_str(), "39=4", "378=100"]).collect();
    reports.push(["37=262", "39=4", "378=99"]);
    for chunk in reports.chunks(25) {
        let fields: Vec<&[&str]> = chunk.iter().map(|fields| &fields[..]).collect();
        script.run_in(65_536, 25, chunk.len() as u64, &fields);
    }
}

pub fn case_12_the_table_fills_up_and_goes_on(script: &mut Script) {
    script.say("Case 12: the 255th order is taken, the 256th is 103=0 while 255 are open; a known id is 6 even now");
    fill(script);
    script.rejected(&new_order("late"), 0);
    script.rejected(&order_of("10", "late", "1", "7", "0").with("59", "4"), 0);
    script.rejected(&new_order("255"), 6);
    script.rejected(&new_order("late").with("109", "15"), 99);
    script.rejected(&new_order("late").with("55", "35"), 1);
    script.say("Day: one is canceled, and the next order has its record, whose ClOrdID is in the table until then");
    script.taken(&cancel("100", "gone", "2"), &["37=100", "34=261"]);
    script.taken(&order_of("10", "buy", "1", "7", "0").with("59", "3"), &["37=262", "34=262"]);
    script.say("Case 12: in mode 2 it meets 254 orders of its own, so 255 steps");
    sweep(script);
    is_gone(script, "gone", "2");
    is_there(script, "255", "2", "37=255", "39=4");
    is_there(script, "buy", "1", "37=262", "39=4");
    all_are_dead(script);
    turns_go_by_place(script);
    orders_that_die_at_once(script);
}

/// 255 dead orders: new ones take the records from the lowest on. The next number is 521.
fn all_are_dead(script: &mut Script) {
    script.say("Day: all 255 are dead: the next order takes record 1, whose ClOrdID is in the table until then");
    script.no_level(1, 0);
    script.no_level(2, 0);
    script.rejected(&new_order("1"), 6);
    is_there(script, "1", "2", "37=1", "39=4");
    script.taken(&order("n1", "2", "10", "0.5"), &["34=523", "37=523"]);
    script.run(1, &[]);
    is_gone(script, "1", "2");
    is_there(script, "2", "2", "37=2", "39=4");
    script.say("Day: the ClOrdID that went is free again");
    script.taken(&order("1", "2", "10", "0.5"), &["34=526", "37=526"]);
    script.run(1, &[]);
    is_gone(script, "2", "2");
    script.say("Day: the lowest record with nothing open goes, whichever order died first");
    script.taken(&cancel("n1", "c1", "2"), &["34=528", "37=523"]);
    script.taken(&order("n2", "2", "10", "0.5"), &["34=529", "37=529"]);
    script.run(1, &[]);
    is_gone(script, "c1", "2");
    is_there(script, "3", "2", "37=3", "39=4");
}

/// Record 1 has n2, record 2 the older order with ClOrdID 1. The next number is 532.
fn turns_go_by_place(script: &mut Script) {
    script.say("Day: turns go by place and not by record");
    script.level(2, 0, 500, 20, 2);
    script.taken(&order("b1", "1", "15", "0.5").with("59", "3"), &["34=532", "37=532"]);
    script.run(
        3,
        &[&["37=526", "32=10", "39=2"], &["37=532"], &["37=529", "32=5", "39=1"], &["37=532", "39=2", "14=15"]],
    );
    is_gone(script, "3", "2");
    script.say("Day: a replaced order keeps its record and its OrderID");
    script.taken(&replace("n2", "n3", "2", "20", "0.4"), &["34=538", "37=529", "14=5", "151=15"]);
    script.run(1, &[]);
    script.level(2, 0, 400, 15, 1);
}

/// Record 1 has n3 with 15 open at 0.400, record 2 is dead. The next number is 539.
fn orders_that_die_at_once(script: &mut Script) {
    script.say("Day: an order that dies at once leaves its record to the next");
    script.taken(&order("k1", "1", "16", "0.4").with("59", "4"), &["34=539", "37=539"]);
    script.run(1, &[&["34=540", "37=539", "378=99", "14=0"]]);
    is_gone(script, "1", "2");
    is_there(script, "k1", "1", "37=539", "39=4");
    script.taken(&order("k2", "1", "16", "0.4").with("59", "3"), &["34=543", "37=543"]);
    script.run(2, &[&["37=529", "32=15", "39=2", "14=20"], &["37=543", "14=15"], &["37=543", "378=99"]]);
    is_gone(script, "k1", "1");
    is_there(script, "k2", "1", "37=543", "39=4");
    is_there(script, "n3", "2", "37=529", "39=2");
    script.say("Day: a rejected order takes no record");
    script.rejected(&new_order("n3"), 6);
    script.rejected(&new_order("z").with("55", "35"), 1);
    is_there(script, "n3", "2", "37=529", "39=2");
    is_there(script, "4", "2", "37=4", "39=4");
}

pub fn an_order_id_is_the_number_of_its_accepted_report(script: &mut Script) {
    script.say(
        "Day: 37 is the number of the Accepted report, on every report about the order, and on its Cancel rejects",
    );
    script.open_from(1_000, 3);
    script.session_reject(&new_order("a").with("54", "3"), 5, 54);
    script.taken(&order_of("10", "a", "2", "10", "0.1"), &["34=1001", "37=1001"]);
    script.run(1, &[]);
    script.rejected(&new_order("a"), 6);
    script.taken(&order_of("11", "b", "1", "4", "0.1"), &["34=1003", "37=1003"]);
    script.run(2, &[&["34=1004", "37=1001", "880=1004"], &["34=1005", "37=1003", "880=1004"]]);
    script.taken(&order_of("10", "c", "1", "2", "0.1"), &["34=1006", "37=1006"]);
    script.run(2, &[&["34=1007", "37=1006", "39=4"], &["34=1008", "37=1001", "150=5"]]);
    script.taken(&replace("a", "a1", "2", "11", "0.1"), &["34=1009", "37=1001", "150=5"]);
    script.run(1, &[]);
    script.cancel_reject(&cancel("a1", "b", "2"), 2, &["34=1010", "37=1001"]);
    script.cancel_reject(&cancel("a1", "d", "2").with("55", "351"), 1, &["34=1011", "37=1001"]);
    script.cancel_reject(&cancel("b", "d", "1"), 0, &["34=1012", "37=1003"]);
    script.taken(&cancel("a1", "a2", "2"), &["34=1013", "37=1001", "39=4"]);
    script.cancel_reject(&cancel("a1", "d", "2"), 1, &["34=1014", "37=NONE"]);
}
