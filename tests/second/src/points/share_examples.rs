//! The worked examples of document 004 on an equities market, with the figures that it prints. MPID A is 10, B to D are
//! 11 to 13.

use crate::compose::share_order_of;
use crate::script::Script;

/// The sells of the examples, OrderIDs 1 to 4, A's being 3.
pub(super) fn sells(script: &mut Script, mode: u64) {
    script.open_shares(mode);
    script.rests(&share_order_of("11", "s1", "2", "100", "100"));
    script.rests(&share_order_of("12", "s2", "2", "200", "100.1"));
    script.rests(&share_order_of("10", "s3", "2", "200", "100.1"));
    script.rests(&share_order_of("13", "s4", "2", "500", "100.1"));
    script.level(2, 0, 1000, 100, 1);
    script.level(2, 1, 1001, 900, 3);
}

/// A buys 1,200 at 100.1, OrderID 5.
fn buy_of_a(script: &mut Script) {
    script.taken(
        &share_order_of("10", "b", "1", "1200", "100.1"),
        &["34=5", "37=5", "38=1200", "44=100.1", "39=0", "151=1200", "109=10", "6=0.0000", "14=0", "544=1", "50=DAY"],
    );
}

/// Match steps 1 and 2 of every example: 100 executed at 100, 200 at 100.1.
const STEP_1: [&[&str]; 2] = [
    &["34=6", "880=6", "37=1", "31=100.0", "32=100", "14=100", "151=0", "39=2", "851=1", "44=100.0", "6=100.0000"],
    &["34=7", "880=6", "37=5", "31=100.0", "32=100", "14=100", "151=1100", "39=1", "851=2", "44=100.1", "6=100.0000"],
];
const STEP_2: [&[&str]; 2] = [
    &["34=8", "880=8", "37=2", "31=100.1", "32=200", "14=200", "151=0", "39=2", "851=1", "6=100.1000"],
    &["34=9", "880=8", "37=5", "31=100.1", "32=200", "14=300", "151=900", "39=1", "851=2", "6=100.0667"],
];

pub fn cancel_newest_as_printed(script: &mut Script) {
    script.say(
        "Example Cancel newest: 100 and 200 executed, 900 canceled back, 200 and 500 remain on the sell side; 4 steps",
    );
    sells(script, 1);
    buy_of_a(script);
    let canceled: &[&str] = &["34=10", "37=5", "39=4", "378=100", "14=300", "151=0", "38=1200", "no 41"];
    script.run(4, &[STEP_1[0], STEP_1[1], STEP_2[0], STEP_2[1], canceled]);
    script.level(2, 0, 1001, 700, 2);
    script.no_level(2, 1);
    script.no_level(1, 0);
}

pub fn cancel_oldest_as_printed(script: &mut Script) {
    script
        .say("Example Cancel oldest: 200 of A's sell canceled back, 500 executed, 400 posted on the buy side; 5 steps");
    sells(script, 2);
    buy_of_a(script);
    let canceled: &[&str] = &["34=10", "37=3", "39=4", "378=100", "14=0", "151=0", "38=200", "no 41"];
    let resting: &[&str] = &["34=11", "880=11", "37=4", "31=100.1", "32=500", "151=0", "39=2"];
    let in_work: &[&str] = &["34=12", "880=11", "37=5", "32=500", "14=800", "151=400", "39=1", "6=100.0875"];
    script.run(5, &[STEP_1[0], STEP_1[1], STEP_2[0], STEP_2[1], canceled, resting, in_work]);
    script.level(1, 0, 1001, 400, 1);
    script.no_level(2, 0);
}

pub fn decrement_as_printed(script: &mut Script) {
    script.say("Example Decrement: 200 of A's sell canceled back, the buy decremented by 200, 500 executed, 200 posted; 5 steps");
    sells(script, 3);
    buy_of_a(script);
    let canceled: &[&str] = &["34=10", "37=3", "39=4", "378=100", "14=0", "151=0", "no 41"];
    let decremented: &[&str] =
        &["34=11", "37=5", "39=1", "150=5", "378=100", "11=b", "41=b", "38=1200", "14=300", "151=700"];
    let resting: &[&str] = &["34=12", "880=12", "37=4", "32=500", "151=0"];
    let in_work: &[&str] = &["34=13", "880=12", "37=5", "32=500", "38=1200", "14=800", "151=200", "39=1"];
    script.run(5, &[STEP_1[0], STEP_1[1], STEP_2[0], STEP_2[1], canceled, decremented, resting, in_work]);
    script.level(1, 0, 1001, 200, 1);
    script.no_level(2, 0);
}
