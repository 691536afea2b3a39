//! Steps and Run.

use crate::compose::{cancel, new_order, order, order_of, replace, Draft, TIME};
use crate::script::Script;

pub fn a_step_of_its_own_ends_the_work(script: &mut Script) {
    script.say("Run: the step that leaves nothing open does not end the work; the next one does");
    script.open(1);
    script.rests(&order("s", "2", "5", "0.1"));
    script.taken(&order("b", "1", "5", "0.1"), &[]);
    script.run_in(4096, 1, 1, &[&["37=1", "39=2"], &["37=2", "39=2"]]);
    script.depth_refused(1, 0, 3);
    script.refused(&new_order("c"), 3);
    script.run_in(4096, 1, 1, &[]);
    script.no_level(1, 0);
    script.say("Run: one step for an order that meets nothing");
    script.taken(&order("d", "1", "5", "0.1"), &[]);
    script.run_in(4096, 1, 1, &[]);
    script.run_in(4096, 1, 0, &[]);
    script.level(1, 0, 100, 5, 1);
}

pub fn done_within_m_plus_1_steps(script: &mut Script) {
    script.say("Run: m counts what is met at the yield just accepted; orders out of reach are not met");
    script.open(1);
    script.rests(&order("s1", "2", "5", "0.3"));
    script.rests(&order("s2", "2", "5", "0.2"));
    script.rests(&order("s3", "2", "5", "0.1"));
    script.taken(&order("b", "1", "20", "0.2"), &[]);
    script.run(3, &[&["37=1"], &["37=4"], &["37=2"], &["37=4", "151=10"]]);
    script.say("Run: a replacement meets at its new yield");
    script.taken(&replace("b", "b1", "1", "20", "0.1"), &["150=5", "39=1", "151=10"]);
    script.run(2, &[&["37=3", "31=0.100"], &["37=4", "151=5", "44=0.100"]]);
    script.level(1, 0, 100, 5, 1);
    script.no_level(2, 0);
}

pub fn prevention_of_an_ioc_leaves_no_rest(script: &mut Script) {
    script.say("Run: mode 1 on an IOC: 378=100, and no 99 after it");
    script.open(1);
    script.rests(&order_of("10", "s", "2", "5", "0.1"));
    script.taken(&order_of("10", "b", "1", "9", "0.1").with("59", "3"), &[]);
    script.run(2, &[&["37=2", "39=4", "378=100", "59=3"]]);
    script.level(2, 0, 100, 5, 1);
    script.say("Run: mode 3 with equal sizes on an IOC: both 378=100");
    script.open(3);
    script.rests(&order_of("10", "s", "2", "5", "0.1"));
    script.taken(&order_of("10", "b", "1", "5", "0.1").with("59", "3"), &[]);
    script.run(2, &[&["37=1", "378=100"], &["37=2", "378=100"]]);
    script.say("Run: mode 3, the IOC smaller: canceled with 378=100");
    script.open(3);
    script.rests(&order_of("10", "s", "2", "5", "0.1"));
    script.taken(&order_of("10", "b", "1", "3", "0.1").with("59", "3"), &[]);
    script.run(2, &[&["37=2", "39=4", "378=100"], &["37=1", "150=5", "378=100", "151=2"]]);
}

pub fn decremented_ioc_goes_on_and_its_rest_is_canceled(script: &mut Script) {
    script.say("Run: mode 3, the IOC larger: decremented, goes on, and its rest is canceled with 378=99");
    script.open(3);
    script.rests(&order_of("10", "s1", "2", "5", "0.2"));
    script.rests(&order_of("11", "s2", "2", "3", "0.1"));
    script.taken(&order_of("10", "b", "1", "20", "0.1").with("59", "3"), &[]);
    script.run(
        3,
        &[
            &["37=1", "39=4", "378=100"],
            &["37=3", "150=5", "39=5", "378=100", "38=20", "151=15"],
            &["37=2", "32=3", "39=2"],
            &["37=3", "32=3", "39=1", "151=12"],
            &["37=3", "39=4", "378=99", "14=3", "151=0", "38=20"],
        ],
    );
}

pub fn a_decrement_keeps_the_place(script: &mut Script) {
    script.say("Run: a decrement keeps the place: the decremented sell is still first");
    script.open(3);
    script.rests(&order_of("10", "s1", "2", "200", "0.1"));
    script.rests(&order_of("11", "s2", "2", "100", "0.1"));
    script.taken(&order_of("10", "b", "1", "50", "0.1"), &[]);
    script.run(2, &[&["37=3", "39=4"], &["37=1", "150=5", "151=150"]]);
    script.taken(&order_of("12", "c", "1", "150", "0.1"), &[]);
    script.run(2, &[&["37=1", "32=150", "39=2"], &["37=6"]]);
    script.level(2, 0, 100, 100, 1);
}

pub fn run_with_nothing_to_do(script: &mut Script) {
    script.say("Run: nothing in work, budget 0, and a small area");
    script.open(1);
    script.run_in(1024, 5, 0, &[]);
    script.run_in(1024, 0, 0, &[]);
    script.run_in(65_536, u64::MAX, 0, &[]);
    script.run_refused(1023, 5, 1);
    script.run_refused(1023, 0, 1);
    script.taken(&new_order("a"), &[]);
    script.run_in(4096, 0, 0, &[]);
    script.refused(&new_order("b"), 3);
    script.run_refused(1023, 0, 1);
    script.run_in(4096, u64::MAX, 1, &[]);
    script.run_in(4096, u64::MAX, 0, &[]);
}

/// The two reports of a trade of 5 at 0.100 without MPIDs, between a sell of 5 (s1) and a buy of 15 (b).
fn trade_of_5() -> [Draft; 2] {
    let header = |number: u64| format!("35=8|34={number}|49=V|50=DJGB|52={TIME}|56=P|6=0.100000|");
    let tail = |number: u64| format!("40=2|44=0.100|47=A|54={number}|55=350|59=0|60={TIME}|");
    let resting = format!(
        "{}11=s1|14=5|17=4|20=0|31=0.100|32=5|37=1|38=5|39=2|{}150=2|151=0|375=0|382=1|423=9|851=1|880=4|8060=1|",
        header(4),
        tail(2)
    );
    let in_work = format!(
        "{}11=b|14=5|17=5|20=0|31=0.100|32=5|37=3|38=15|39=1|{}150=1|151=10|375=0|382=1|423=9|851=2|880=4|8060=1|",
        header(5),
        tail(1)
    );
    [Draft::of_text(&resting), Draft::of_text(&in_work)]
}

pub fn room_is_asked_before_each_step(script: &mut Script) {
    script.say("Run: room for 1,024 bytes is asked before each step: at exactly 1,024 left the next step is taken");
    let written: usize = trade_of_5().iter().map(|report| report.bytes().len()).sum();
    let book = |script: &mut Script| {
        script.open(1);
        script.rests(&order("s1", "2", "5", "0.1"));
        script.rests(&order("s2", "2", "5", "0.1"));
        script.taken(&order("b", "1", "15", "0.1"), &[]);
    };
    book(script);
    script.run_in(1024 + written - 1, 9, 1, &[&["37=1", "880=4"], &["37=3", "880=4", "151=10"]]);
    script.run_in(1024, 9, 1, &[&["37=2"], &["37=3", "151=5"]]);
    script.say("Run: the ending step too, although it writes nothing");
    script.depth_refused(1, 0, 3);
    script.run_in(1024, 9, 1, &[]);
    script.level(1, 0, 100, 5, 1);
    script.say("Run: one byte more and both trades are done");
    book(script);
    script.run_in(1024 + written, 9, 2, &[&["37=1"], &["37=3"], &["37=2"], &["37=3"]]);
    script.depth_refused(1, 0, 3);
    script.run_in(1024, 9, 1, &[]);
    script.say("Run: 1,023 bytes free after the last trade leave the order in work");
    script.open(1);
    script.rests(&order("s1", "2", "5", "0.1"));
    script.taken(&order("b", "1", "5", "0.1"), &[]);
    script.run_in(1024, 9, 1, &[&["37=1"], &["37=2"]]);
    script.refused(&new_order("c"), 3);
    script.run_in(1024, 9, 1, &[]);
}

pub fn sending_time_stays_while_run_stops(script: &mut Script) {
    script.say("Run: all reports of Run bear the 52 of the message in work; a refused Submit leaves it");
    script.open(1);
    script.rests(&order("s1", "2", "5", "0.1").with("52", "20261116-09:00:01"));
    script.rests(&order("s2", "2", "5", "0.1").with("52", "20261116-09:00:02"));
    script.taken(
        &order("b", "1", "15", "0.1").with("52", "20261116-09:00:03").with("59", "3"),
        &["52=20261116-09:00:03"],
    );
    let time: &[&str] = &["52=20261116-09:00:03", "60=20261116-09:00:03"];
    script.run_in(4096, 1, 1, &[time, time]);
    script.refused(&new_order("c").with("52", "20261116-09:00:04"), 3);
    script.run_in(1024, 9, 1, &[time, time]);
    script.run_refused(1000, 9, 1);
    script.run_in(1024, 9, 1, &[&["52=20261116-09:00:03", "60=20261116-09:00:03", "378=99"]]);
}

pub fn a_cancel_is_done_in_submit(script: &mut Script) {
    script.say("Run: F is done in Submit; nothing is in work after it");
    script.open(1);
    script.rests(&order("a", "1", "10", "0.5"));
    script.taken(&cancel("a", "b", "1"), &["150=4", "39=4", "151=0", "11=b", "41=a", "no 378", "38=10"]);
    script.no_level(1, 0);
    script.run_in(4096, 9, 0, &[]);
    script.rests(&order("a", "1", "10", "0.5"));
}

pub fn a_refused_run_gives_zeros(script: &mut Script) {
    script.say("Run: a refused Run gives 0 bytes, reports and steps");
    script.open(1);
    script.rests(&order("s", "2", "5", "0.1"));
    script.taken(&order("b", "1", "5", "0.1"), &[]);
    script.run_refused(1023, 9, 1);
    script.run(2, &[&["34=3"], &["34=4"]]);
}

pub fn one_mpid_alone_does_not_prevent(script: &mut Script) {
    script.say("Run: only one carries an MPID: they trade; 375 is that MPID on the other's report and 0 on its own");
    script.open(1);
    script.rests(&order_of("10", "s", "2", "5", "0.1"));
    script.taken(&order("b", "1", "5", "0.1"), &[]);
    script.run(2, &[&["37=1", "375=0", "109=10"], &["37=2", "375=10", "no 109"]]);
    script.say("Run: and two different ones trade");
    script.rests(&order_of("10", "s2", "2", "5", "0.1"));
    script.taken(&order_of("11", "b2", "1", "5", "0.1"), &[]);
    script.run(2, &[&["37=5", "375=11", "109=10"], &["37=6", "375=10", "109=11"]]);
}

pub fn cancel_oldest_goes_on_to_the_next(script: &mut Script) {
    script.say("Run: mode 2 cancels the resting orders of its own, one a step, and goes on");
    script.open(2);
    script.rests(&order_of("10", "s1", "2", "5", "0.3"));
    script.rests(&order_of("10", "s2", "2", "5", "0.2"));
    script.rests(&order_of("11", "s3", "2", "5", "0.1"));
    script.taken(&order_of("10", "b", "1", "5", "0.1"), &[]);
    script.run(
        4,
        &[&["37=1", "39=4", "378=100"], &["37=2", "39=4", "378=100"], &["37=3", "39=2"], &["37=4", "39=2", "14=5"]],
    );
}

pub fn the_mode_is_that_of_the_mpid(script: &mut Script) {
    script.say("Run: one market, three MPIDs with three modes");
    script.open_with(["V", "P", "350"], 1, &[(3, 3), (999_999, 2), (1, 1)], 0);
    for mpid in ["1", "999999", "3"] {
        script.rests(&order_of(mpid, &format!("s{mpid}"), "2", "10", "0.1"));
    }
    script.taken(&order_of("1", "b1", "1", "4", "0.1"), &["37=4"]);
    script.run(2, &[&["37=4", "39=4", "378=100"]]);
    script.taken(&order_of("999999", "b2", "1", "14", "0.1"), &["37=6"]);
    script.run(
        4,
        &[
            &["37=1", "32=10"],
            &["37=6", "151=4"],
            &["37=2", "39=4", "378=100", "109=999999"],
            &["37=3", "32=4", "375=999999"],
            &["37=6", "39=2"],
        ],
    );
    script.taken(&order_of("3", "b3", "1", "5", "0.1"), &["37=12"]);
    script.run(2, &[&["37=12", "39=4", "378=100"], &["37=3", "150=5", "39=1", "151=1", "14=4"]]);
}

pub fn best_is_by_yield_then_by_place(script: &mut Script) {
    script.say("Best: a lower yield for a buy, a higher one for a sell; the smaller place among equals");
    script.open(1);
    for (id, at) in [("b1", "0.3"), ("b2", "0.1"), ("b3", "0.2"), ("b4", "0.1"), ("b5", "-0.1")] {
        script.rests(&order(id, "1", "5", at));
    }
    script.level(1, 0, -100, 5, 1);
    script.level(1, 1, 100, 10, 2);
    script.level(1, 3, 300, 5, 1);
    script.taken(&order("s", "2", "22", "0.2"), &["37=6"]);
    script.run(
        5,
        &[
            &["37=5", "31=-0.100"],
            &["37=6"],
            &["37=2", "31=0.100"],
            &["37=6"],
            &["37=4", "31=0.100"],
            &["37=6"],
            &["37=3", "31=0.200"],
            &["37=6", "14=20", "151=2", "6=0.075000"],
        ],
    );
    script.level(1, 0, 300, 5, 1);
    script.level(2, 0, 200, 2, 1);
}
