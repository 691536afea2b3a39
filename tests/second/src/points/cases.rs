//! The twelve rehearsed cases, with the figures that the paper prints.

use crate::compose::{new_order, order, order_of};
use crate::script::Script;

/// Book R: four sells, OrderIDs 1 to 4, A's being 3.
pub(super) fn book_r(script: &mut Script, mode: u64) {
    script.open(mode);
    script.rests(&order_of("11", "s1", "2", "100", "0.101"));
    script.rests(&order_of("12", "s2", "2", "200", "0.100"));
    script.rests(&order_of("10", "s3", "2", "200", "0.100"));
    script.rests(&order_of("13", "s4", "2", "500", "0.100"));
    script.level(2, 0, 101, 100, 1);
    script.level(2, 1, 100, 900, 3);
}

/// A's buy of 1,200, OrderID 5.
fn buy_of_a(script: &mut Script) {
    script.taken(
        &order_of("10", "b", "1", "1200", "0.100"),
        &["34=5", "17=5", "37=5", "38=1200", "39=0", "150=0", "151=1200", "109=10", "6=0.000000", "14=0"],
    );
}

/// The first two trades of the cases with book R: 100 at 0.101 and 200 at 0.100.
const TRADE_100: [&[&str]; 2] = [
    &["34=6", "880=6", "37=1", "31=0.101", "32=100", "14=100", "151=0", "39=2", "150=2", "375=10", "851=1", "44=0.101"],
    &[
        "34=7", "880=6", "37=5", "31=0.101", "32=100", "14=100", "151=1100", "39=1", "150=1", "375=11", "851=2",
        "44=0.100",
    ],
];
const TRADE_200: [&[&str]; 2] = [
    &["34=8", "880=8", "37=2", "31=0.100", "32=200", "14=200", "151=0", "39=2", "375=10", "851=1", "6=0.100000"],
    &["34=9", "880=8", "37=5", "31=0.100", "32=200", "14=300", "151=900", "39=1", "375=12", "851=2", "6=0.100333"],
];

pub fn case_1_cancel_newest_leaves_what_stands_behind(script: &mut Script) {
    script.say("Case 1: book R, A in mode 1 buys 1,200: trades 100 and 200, 900 canceled, 200 and 500 stay; 4 steps");
    book_r(script, 1);
    buy_of_a(script);
    let canceled: &[&str] =
        &["34=10", "37=5", "39=4", "150=4", "378=100", "14=300", "151=0", "38=1200", "no 41", "no 31"];
    script.run(4, &[TRADE_100[0], TRADE_100[1], TRADE_200[0], TRADE_200[1], canceled]);
    script.level(2, 0, 100, 700, 2);
    script.no_level(2, 1);
    script.no_level(1, 0);
    script.say("The book that the paper prints after MPID 14 has bought 300 at 0.105");
    script.rests(&order_of("14", "c", "1", "300", "0.105"));
    script.level(1, 0, 105, 300, 1);
    script.level(2, 0, 100, 700, 2);
}

pub fn case_2_cancel_oldest_goes_on(script: &mut Script) {
    script.say("Case 2: mode 2: trades 100 and 200, A's sell canceled, trade 500; 400 rests; 5 steps");
    book_r(script, 2);
    buy_of_a(script);
    let canceled: &[&str] = &["34=10", "37=3", "39=4", "378=100", "14=0", "151=0", "38=200", "no 41"];
    let resting: &[&str] = &["34=11", "880=11", "37=4", "32=500", "151=0", "39=2", "375=10"];
    let in_work: &[&str] = &["34=12", "880=11", "37=5", "32=500", "14=800", "151=400", "39=1", "375=13"];
    script.run(5, &[TRADE_100[0], TRADE_100[1], TRADE_200[0], TRADE_200[1], canceled, resting, in_work]);
    script.level(1, 0, 100, 400, 1);
    script.no_level(2, 0);
}

pub fn case_3_decrement_takes_200_off_the_buy(script: &mut Script) {
    script
        .say("Case 3: mode 3: as case 2, the buy decremented by 200; 200 rests: 1,200 = 800 + 200 + 0 + 200; 5 steps");
    book_r(script, 3);
    buy_of_a(script);
    let canceled: &[&str] = &["34=10", "37=3", "39=4", "378=100", "14=0", "151=0", "no 41"];
    let decremented: &[&str] =
        &["34=11", "37=5", "39=1", "150=5", "378=100", "11=b", "41=b", "38=1200", "14=300", "151=700"];
    let resting: &[&str] = &["34=12", "880=12", "37=4", "32=500", "151=0"];
    let in_work: &[&str] = &["34=13", "880=12", "37=5", "32=500", "38=1200", "14=800", "151=200", "39=1"];
    script.run(5, &[TRADE_100[0], TRADE_100[1], TRADE_200[0], TRADE_200[1], canceled, decremented, resting, in_work]);
    script.level(1, 0, 100, 200, 1);
    script.no_level(2, 0);
}

pub fn case_4_decrement_of_equal_sizes_cancels_both(script: &mut Script) {
    script.say("Case 4: mode 3, A's sell of 200 alone, A buys 200: both canceled, the resting one first");
    script.open(3);
    script.rests(&order_of("10", "s", "2", "200", "0.100"));
    script.taken(&order_of("10", "b", "1", "200", "0.100"), &["34=2"]);
    script.run(
        2,
        &[
            &["34=3", "37=1", "39=4", "150=4", "378=100", "151=0", "14=0"],
            &["34=4", "37=2", "39=4", "150=4", "378=100", "151=0", "14=0"],
        ],
    );
    script.no_level(1, 0);
    script.no_level(2, 0);
}

pub fn case_5_decrement_of_a_larger_resting_order(script: &mut Script) {
    script.say("Case 5: the same, A buys 50: buy canceled, sell open 150, decremented 50");
    script.open(3);
    script.rests(&order_of("10", "s", "2", "200", "0.100"));
    script.taken(&order_of("10", "b", "1", "50", "0.100"), &["34=2"]);
    script.run(
        2,
        &[
            &["34=3", "37=2", "39=4", "150=4", "378=100", "38=50", "151=0"],
            &["34=4", "37=1", "39=5", "150=5", "378=100", "11=s", "41=s", "38=200", "14=0", "151=150"],
        ],
    );
    script.no_level(1, 0);
    script.level(2, 0, 100, 150, 1);
}

pub fn case_6_orders_without_mpid_trade(script: &mut Script) {
    script.say("Case 6: two orders with no MPID that meet: they trade");
    script.open(1);
    script.rests(&order("s", "2", "100", "0.100"));
    script.taken(&order("b", "1", "100", "0.100"), &["no 109"]);
    script.run(
        2,
        &[
            &["37=1", "32=100", "31=0.100", "39=2", "375=0", "382=1", "851=1", "no 109", "no 1"],
            &["37=2", "32=100", "31=0.100", "39=2", "375=0", "382=1", "851=2", "no 109", "no 1"],
        ],
    );
    script.no_level(1, 0);
    script.no_level(2, 0);
}

pub fn case_7_rest_of_an_ioc_is_canceled(script: &mut Script) {
    script.say("Case 7: book R, MPID 14 buys 1,200 IOC: trades 1,000; 200 canceled, 378=99; 5 steps");
    book_r(script, 1);
    script.taken(&order_of("14", "b", "1", "1200", "0.100").with("59", "3"), &["59=3", "37=5"]);
    script.run(
        5,
        &[
            &["37=1", "32=100", "31=0.101"],
            &["37=5", "32=100", "151=1100"],
            &["37=2", "32=200", "31=0.100"],
            &["37=5", "32=200", "151=900"],
            &["37=3", "32=200", "375=14"],
            &["37=5", "32=200", "151=700", "375=10"],
            &["37=4", "32=500", "39=2"],
            &["37=5", "32=500", "14=1000", "151=200", "39=1", "6=0.100100"],
            &["37=5", "39=4", "150=4", "378=99", "14=1000", "151=0", "no 41", "34=14"],
        ],
    );
    script.no_level(1, 0);
    script.no_level(2, 0);
}

pub fn case_8_buy_above_sell_is_no_trade(script: &mut Script) {
    script.say("Case 8: sell 0.101, buy 0.102: no trade; 1 step");
    script.open(1);
    script.rests(&order("s", "2", "100", "0.101"));
    script.rests(&order("b", "1", "100", "0.102"));
    script.level(1, 0, 102, 100, 1);
    script.level(2, 0, 101, 100, 1);
}

pub fn case_9_negative_yields_trade(script: &mut Script) {
    script.say("Case 9: sell -0.005, buy -0.005: trade at -0.005");
    script.open(1);
    script.rests(&order("s", "2", "100", "-0.005"));
    script.level(2, 0, -5, 100, 1);
    script.taken(&order("b", "1", "100", "-0.005"), &["44=-0.005"]);
    script.run(
        2,
        &[
            &["37=1", "31=-0.005", "44=-0.005", "6=-0.005000", "39=2"],
            &["37=2", "31=-0.005", "44=-0.005", "6=-0.005000", "39=2"],
        ],
    );
}

pub fn case_10_level_total_above_32_bits(script: &mut Script) {
    script.say("Case 10: five sells of 999,999,999 at 0.100: level total 4,999,999,995, 5 orders");
    script.open(1);
    for id in ["a", "b", "c", "d", "e"] {
        script.rests(&order(id, "2", "999999999", "0.100"));
    }
    script.level(2, 0, 100, 4_999_999_995, 5);
    script.no_level(2, 1);
}

pub fn case_11_average_is_rounded(script: &mut Script) {
    script.say("Case 11: 1 at 0.100 and 2 at 0.101: AvgPx 0.100667");
    script.open(1);
    script.rests(&order("s1", "2", "1", "0.100"));
    script.rests(&order("s2", "2", "2", "0.101"));
    script.taken(&order("b", "1", "3", "0.100"), &[]);
    script.run(
        3,
        &[
            &["37=2", "32=2", "31=0.101", "6=0.101000"],
            &["37=3", "32=2", "6=0.101000", "151=1"],
            &["37=1", "32=1", "31=0.100", "6=0.100000"],
            &["37=3", "32=1", "6=0.100667", "14=3", "151=0", "39=2"],
        ],
    );
}

pub fn mirror_of_case_11_is_rounded_away_from_zero(script: &mut Script) {
    script.say("Case 11, mirrored: 1 at -0.100 and 2 at -0.101: AvgPx -0.100667");
    script.open(1);
    script.rests(&order("s1", "2", "1", "-0.100"));
    script.rests(&order("s2", "2", "2", "-0.101"));
    script.taken(&order("b", "1", "3", "-0.101"), &[]);
    script.run(
        3,
        &[
            &["37=1", "32=1", "31=-0.100", "6=-0.100000"],
            &["37=3", "32=1", "6=-0.100000", "151=2"],
            &["37=2", "32=2", "31=-0.101", "6=-0.101000"],
            &["37=3", "32=2", "6=-0.100667", "14=3", "151=0", "39=2"],
        ],
    );
}

pub fn case_12_limits_of_quantity_and_area(script: &mut Script) {
    script.say("Case 12: 38=0 is 373=5, 999999999 is taken, ten digits are 373=6");
    script.open(2);
    script.session_reject(&new_order("a").with("38", "0"), 5, 38);
    script.taken(&new_order("a").with("38", "999999999"), &["38=999999999", "151=999999999"]);
    script.run(1, &[]);
    script.session_reject(&new_order("b").with("38", "1000000000"), 6, 38);
    script.say("Case 12: an area of 1,023 is refusal 1, one of 1,024 is taken");
    script.open(2);
    script.refused_in(1023, &new_order("a").bytes(), 1);
    script.submit_in(1024, &new_order("a"), 0, &["34=1"]);
    script.run_refused(1023, 9, 1);
    script.run_in(1024, 9, 1, &[]);
}
