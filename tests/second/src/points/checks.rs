//! Checks of a D, F or G that can be read: why it is not taken, and what a replacement keeps.

use crate::compose::{cancel, new_order, order, order_of, replace};
use crate::script::Script;

pub fn mpids_are_compared_as_numbers(script: &mut Script) {
    script.say("Order checks: MPIDs are compared as numbers, and 109 on reports has no needless zero");
    script.open(1);
    script.taken(&order_of("000010", "a", "2", "5", "0.1"), &["109=10"]);
    script.run(1, &[]);
    script.rejected(&order_of("15", "b", "1", "5", "0.1"), 99);
    script.rejected(&order_of("000001", "b", "1", "5", "0.1"), 99);
    script.rejected(&order_of("999999", "b", "1", "5", "0.1"), 99);
    script.taken(&order_of("10", "b", "1", "5", "0.1"), &["109=10"]);
    script.run(2, &[&["37=5", "378=100"]]);
}

pub fn codes_are_compared_as_text(script: &mut Script) {
    script.say("Order checks: codes are compared as text: 0350 is not 350, in F and G too");
    script.open(1);
    script.rests(&new_order("a"));
    script.rejected(&new_order("b").with("55", "0350"), 1);
    script.cancel_reject(&cancel("a", "b", "1").with("55", "0350"), 1, &["37=1", "39=0", "434=1"]);
    script.cancel_reject(&replace("a", "b", "1", "5", "1").with("55", "0350"), 1, &["37=1", "39=0", "434=2"]);
    script.say("Order checks: a market with code 0350 takes that and not 350");
    script.open_with(["V", "P", "0350"], 1, &[(10, 1)], 0);
    script.rejected(&new_order("a"), 1);
    script.taken(&new_order("a").with("55", "0350"), &["55=0350"]);
    script.run(1, &[]);
}

pub fn reasons_103_in_their_order(script: &mut Script) {
    script.say("Order checks: 103 in the order 1, 99, 6, 0 (a full table stands in case 12)");
    script.open(1);
    script.rests(&new_order("a"));
    script.rejected(&order_of("15", "a", "1", "5", "0.1").with("55", "351"), 1);
    script.rejected(&order_of("15", "a", "1", "5", "0.1"), 99);
    script.rejected(&order_of("10", "a", "1", "5", "0.1"), 6);
}

pub fn an_id_given_up_is_free_again(script: &mut Script) {
    script.say("Order checks: an order has one ClOrdID; the one before it is free again and names nobody");
    script.open(1);
    script.rests(&order("a", "1", "10", "0.5"));
    script.rests(&replace("a", "b", "1", "10", "0.5"));
    script.cancel_reject(&cancel("a", "c", "1"), 1, &["37=NONE", "39=8", "41=a"]);
    script.taken(&order("a", "1", "20", "0.6"), &["37=4"]);
    script.run(1, &[]);
    script.rejected(&new_order("b"), 6);
    script.say("Order checks: after F the order keeps the id that F gave it, for good");
    script.taken(&cancel("b", "c", "1"), &["37=1", "11=c", "41=b"]);
    script.rejected(&new_order("c"), 6);
    script.taken(&order("b", "1", "30", "0.7"), &["37=8"]);
    script.run(1, &[]);
    script.cancel_reject(&cancel("c", "d", "1"), 0, &["37=1", "39=4"]);
}

pub fn new_id_equal_to_the_old_one(script: &mut Script) {
    script.say("Order checks: 11 equal to 41 is known, after the check that something is open");
    script.open(1);
    script.rests(&order("a", "1", "10", "0.5"));
    script.cancel_reject(&cancel("a", "a", "1"), 2, &["37=1", "39=0", "11=a", "41=a", "434=1"]);
    script.cancel_reject(&replace("a", "a", "1", "20", "0.5"), 2, &["37=1", "39=0", "434=2"]);
    script.taken(&cancel("a", "b", "1"), &[]);
    script.cancel_reject(&cancel("b", "b", "1"), 0, &["37=1", "39=4"]);
}

pub fn reasons_102_in_their_order(script: &mut Script) {
    script.say("Order checks: unknown 41 (1), side (2), nothing open (0), 11 known (2), G's quantity (2)");
    script.open(1);
    script.rests(&order("a", "1", "10", "0.5"));
    script.rests(&order("z", "1", "10", "0.6"));
    script.taken(&order("s", "2", "4", "0.5"), &[]);
    script.run(2, &[&["37=1", "32=4"], &["37=3", "32=4"]]);
    script.cancel_reject(&cancel("x", "z", "2"), 1, &["37=NONE", "39=8"]);
    script.cancel_reject(&replace("x", "z", "2", "1", "1"), 1, &["37=NONE", "39=8", "434=2"]);
    script.cancel_reject(&cancel("s", "z", "1"), 2, &["37=3", "39=2"]);
    script.cancel_reject(&cancel("s", "z", "2"), 0, &["37=3", "39=2"]);
    script.cancel_reject(&replace("s", "t", "2", "9", "1"), 0, &["37=3", "39=2"]);
    script.cancel_reject(&cancel("a", "z", "1"), 2, &["37=1", "39=1"]);
    script.cancel_reject(&replace("a", "z", "1", "100", "1"), 2, &["37=1", "39=1"]);
    script.cancel_reject(&replace("a", "b", "1", "4", "1"), 2, &["37=1", "39=1"]);
    script.cancel_reject(&replace("a", "b", "2", "4", "1"), 2, &["37=1", "39=1"]);
    script.taken(&replace("a", "b", "1", "5", "0.5"), &["37=1", "38=5", "14=4", "151=1"]);
    script.run(1, &[]);
}

pub fn another_code_still_names_the_order(script: &mut Script) {
    script.say("Order checks: the code differs but an order has 41: 102=1, 37 and 39 are that order's");
    script.open(1);
    script.rests(&order("a", "1", "10", "0.5"));
    script.taken(&order("s", "2", "4", "0.5"), &[]);
    script.run(2, &[&["37=1"], &["37=2"]]);
    script.cancel_reject(&cancel("a", "b", "1").with("55", "1"), 1, &["37=1", "39=1"]);
    script.cancel_reject(&cancel("a", "b", "2").with("55", "1"), 1, &["37=1", "39=1"]);
    script.cancel_reject(&cancel("s", "b", "2").with("55", "1"), 1, &["37=2", "39=2"]);
    script.cancel_reject(&cancel("x", "b", "2").with("55", "1"), 1, &["37=NONE", "39=8"]);
}

pub fn status_of_a_cancel_reject(script: &mut Script) {
    script.say(
        "Order checks: 39 of a Cancel reject: 0 open and untouched, 5 never, 1 partly executed, 2 filled, 4 canceled, 8 nobody",
    );
    script.open(3);
    script.rests(&order_of("10", "a", "2", "200", "0.5"));
    script.cancel_reject(&cancel("a", "a", "2"), 2, &["37=1", "39=0"]);
    script.rests(&replace("a", "a1", "2", "200", "0.5"));
    script.cancel_reject(&cancel("a1", "a1", "2"), 2, &["37=1", "39=0"]);
    script.say("Order checks: decremented and not executed is 0");
    script.taken(&order_of("10", "b", "1", "50", "0.5"), &["37=5"]);
    script.run(2, &[&["37=5", "39=4"], &["37=1", "150=5", "151=150"]]);
    script.cancel_reject(&cancel("a1", "a1", "2"), 2, &["37=1", "39=0"]);
    script.cancel_reject(&cancel("b", "x", "1"), 0, &["37=5", "39=4"]);
    script.say("Order checks: partly executed is 1");
    script.taken(&order("c", "1", "100", "0.5"), &["37=10"]);
    script.run(2, &[&["37=1", "151=50"], &["37=10", "39=2"]]);
    script.cancel_reject(&cancel("a1", "a1", "2"), 2, &["37=1", "39=1"]);
    script.say("Order checks: nothing open without a cancel is 2, also after a decrement");
    script.taken(&order("d", "1", "60", "0.5"), &["37=14"]);
    script.run(2, &[&["37=1", "39=2", "14=150", "38=200"], &["37=14", "39=1", "151=10"]]);
    script.cancel_reject(&cancel("a1", "x", "2"), 0, &["37=1", "39=2"]);
    script.say("Order checks: canceled after a partial fill is 4");
    script.taken(&cancel("d", "e", "1"), &["37=14", "14=50", "151=0"]);
    script.cancel_reject(&cancel("e", "x", "1"), 0, &["37=14", "39=4"]);
    script.cancel_reject(&cancel("nobody", "x", "1"), 1, &["37=NONE", "39=8"]);
}

pub fn quantity_of_rejected_is_written_as_a_number(script: &mut Script) {
    script.say("Order checks: 38 of Rejected is the message's, written as a number; 55 keeps its zeros");
    script.open(1);
    script.submit(
        &order("a", "2", "00042", "0.1").with("55", "000007"),
        7,
        &["38=42", "55=000007", "54=2", "11=a", "103=1", "37=NONE"],
    );
}

pub fn replace_keeps_everything_else(script: &mut Script) {
    script.say("Order checks: G changes ClOrdID, yield and OrderQty; account, MPID, 47, 59, 8060 stay");
    script.open(1);
    script.rests(&order_of("12", "a", "2", "100", "0.5").adding("1", "acct").with("47", "P").with("8060", "4"));
    script.taken(
        &replace("a", "b", "2", "150", "0.4").with("52", "20261116-10:00:00"),
        &[
            "150=5", "39=5", "11=b", "41=a", "38=150", "44=0.400", "151=150", "14=0", "1=acct", "109=12", "47=P",
            "59=0", "8060=4", "37=1", "34=2", "52=20261116-10:00:00", "60=20261116-10:00:00", "no 378",
        ],
    );
    script.run(1, &[]);
    script.level(2, 0, 400, 150, 1);
}

pub fn an_ioc_has_nothing_open_afterwards(script: &mut Script) {
    script.say("Order checks: F or G on an IOC finds nothing open");
    script.open(1);
    script.taken(&order("a", "1", "10", "0.5").with("59", "3"), &["59=3"]);
    script.refused(&cancel("a", "b", "1"), 3);
    script.run(1, &[&["37=1", "39=4", "378=99"]]);
    script.cancel_reject(&cancel("a", "b", "1"), 0, &["37=1", "39=4"]);
    script.cancel_reject(&replace("a", "b", "1", "20", "0.5"), 0, &["37=1", "39=4"]);
}

pub fn replace_quantity_against_executed_and_decremented(script: &mut Script) {
    script.say("Order checks: with nothing executed or decremented any 38 from 1 is good");
    script.open(3);
    script.rests(&order_of("10", "a", "2", "100", "0.5"));
    script.taken(&replace("a", "a1", "2", "1", "0.5"), &["38=1", "151=1"]);
    script.run(1, &[]);
    script.taken(&replace("a1", "a2", "2", "999999999", "0.5"), &["38=999999999", "151=999999999"]);
    script.run(1, &[]);
    script.say("Order checks: 30 executed and 20 decremented: 50 is not above, 51 leaves 1 open");
    script.taken(&order("b", "1", "30", "0.5"), &[]);
    script.run(2, &[&["37=1", "14=30"], &["37=4"]]);
    script.taken(&order_of("10", "c", "1", "20", "0.5"), &[]);
    script.run(2, &[&["37=7", "39=4"], &["37=1", "150=5", "39=1", "38=999999999", "14=30", "151=999999949"]]);
    script.cancel_reject(&replace("a2", "a3", "2", "50", "0.5"), 2, &["37=1", "39=1"]);
    script.cancel_reject(&replace("a2", "a3", "2", "1", "0.5"), 2, &["37=1", "39=1"]);
    script.taken(&replace("a2", "a3", "2", "51", "0.5"), &["38=51", "14=30", "151=1", "39=1"]);
    script.run(1, &[]);
    script.level(2, 0, 500, 1, 1);
}

pub fn rejected_and_cancel_reject_have_their_tags_alone(script: &mut Script) {
    script.say("Order checks: Rejected and Cancel reject have exactly the tags listed");
    script.open(1);
    script.submit(
        &order_of("15", "a", "1", "5", "0.1").adding("1", "acct"),
        7,
        &[
            "6=0.000000", "17=1", "34=1", "20=0", "103=99", "no 1", "no 109", "no 44", "no 60", "no 40", "no 47",
            "no 59", "no 423", "no 8060",
        ],
    );
    script.submit(
        &cancel("x", "a", "1"),
        8,
        &["34=2", "35=9", "no 17", "no 54", "no 55", "no 60", "no 1", "no 6", "no 150", "no 58"],
    );
}
