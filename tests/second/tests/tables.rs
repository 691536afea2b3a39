//! The bytes of a table: what stands where, and which forged tables are a market.

use second::compose::{new_order, order, order_of, replace, Draft};
use second::generate::generate;
use second::instrument::Instrument::{Bonds, Equities};
use second::market::{Level, Market, Participant, Refusal};
use second::table::{bytes, market, top, RECORD, TABLE};
use second::transcript::{Command, Desk};

/// Venue V, port P, code 350 from number 1, with MPIDs 10 to 14 all in one mode.
fn opened(mode: u64) -> Market {
    let list: Vec<Participant> = (10..=14).map(|mpid| Participant { mpid, mode }).collect();
    Market::open(Bonds, b"V", b"P", b"350", 1, &list).expect("the settings are good")
}

/// Submits a message that is taken, and runs it to its end.
fn play(market: &mut Market, draft: &Draft) {
    submit(market, draft);
    market.run(65_536, 1_000);
}

/// Submits a message that is taken.
fn submit(market: &mut Market, draft: &Draft) {
    assert_eq!(market.submit(&draft.bytes(), 1024).number, 0);
}

/// Book R with A's buy in work: record 5, an IOC of 1,200 with a minimum, or a Fill or Kill.
fn buy_in_work(mode: u64, draft: Draft) -> Market {
    let mut market = opened(mode);
    for (mpid, id, quantity, at) in [
        ("11", "s1", "100", "0.101"),
        ("12", "s2", "200", "0.1"),
        ("10", "s3", "200", "0.1"),
        ("13", "s4", "500", "0.1"),
    ] {
        play(&mut market, &order_of(mpid, id, "2", quantity, at));
    }
    submit(&mut market, &draft);
    market
}

fn ioc_of_a(minimum: &str) -> Draft {
    order_of("10", "b", "1", "1200", "0.100").with("59", "3").with("110", minimum)
}

fn fill_or_kill_of_14(quantity: &str) -> Draft {
    order_of("14", "b", "1", quantity, "0.100").with("59", "4")
}

/// The table with these bytes at a place.
fn forged(table: &[u8], at: usize, with: &[u8]) -> Vec<u8> {
    let mut table = table.to_vec();
    table[at..at + with.len()].copy_from_slice(with);
    table
}

/// The place of a byte of a record.
fn place(record: usize, at: usize) -> usize {
    record * RECORD + at
}

fn is_market(table: &[u8]) -> bool {
    market(table).is_some()
}

#[test]
fn every_market_of_generated_histories_is_its_table() {
    for (instrument, seed, count) in [(Bonds, 11, 500), (Bonds, 12, 500), (Equities, 13, 500)] {
        let mut desk = Desk::new();
        for line in generate(instrument, seed, count).iter().filter(|line| !line.starts_with('#')) {
            let command = Command::parse(line).expect("a generated line is a command");
            desk.answer(&command);
            if let Some(known) = desk.market().filter(|_| !matches!(command, Command::Read { .. })) {
                assert_eq!(market(&bytes(known)).as_ref(), Some(known), "after {line}");
            }
        }
    }
}

#[test]
fn fields_stand_at_their_places() {
    let mut known = buy_in_work(2, ioc_of_a("800").inserting("11", "1", "acct").with("52", "20261116-09:00:00.123"));
    known.run(1024, 1);
    let table = bytes(&known);
    assert_eq!(table.len(), TABLE);
    assert_eq!(&table[..3], b"\x01V\x00");
    assert_eq!(&table[9..12], b"\x01P\x00");
    assert_eq!(&table[18..23], b"\x03350\x00");
    assert_eq!(&table[28..33], [8, 0, 0, 0, 5]);
    assert_eq!(&table[33..55], b"\x1520261116-09:00:00.123");
    assert_eq!(&table[56..64], [10, 0, 0, 0, 11, 0, 0, 0]);
    assert_eq!(&table[88..97], [2, 2, 2, 2, 2, 0, 0, 0, 1]);
    assert!(table[97..RECORD].iter().all(|&byte| byte == 0));
    let buy = &table[place(5, 0)..place(6, 0)];
    assert_eq!(&buy[..3], b"\x01b\x00");
    assert_eq!(&buy[33..39], b"\x04acct\x00");
    assert_eq!(&buy[44..48], [1, 3, b'A', 1]);
    let numbers = |at: usize, count: usize| -> Vec<u32> {
        let four = |at: usize| u32::from_le_bytes(buy[at..at + 4].try_into().unwrap());
        (0..count).map(|k| four(at + 4 * k)).collect()
    };
    assert_eq!(numbers(48, 4), [1_000_000_100, 1_200, 5, 10]);
    assert_eq!(u64::from_le_bytes(buy[64..72].try_into().unwrap()), 100 * 1_000_000_101);
    assert_eq!(numbers(72, 3), [100, 0, 0]);
    assert_eq!(numbers(84, 11), [5, 800, 0, 0, 0, 0, 0, 0, 0, 0, 0]);
}

#[test]
fn the_decision_is_noted_only_while_an_order_with_a_minimum_is_in_work() {
    let byte = |known: &Market| bytes(known)[96];
    let mut known = buy_in_work(1, fill_or_kill_of_14("1000"));
    assert_eq!(byte(&known), 0);
    known.run(1024, 0);
    assert_eq!(byte(&known), 0);
    for _ in 0..4 {
        known.run(1024, 1);
        assert_eq!(byte(&known), 1);
    }
    known.run(1024, 1);
    assert_eq!((byte(&known), known.in_work()), (0, None));
    let mut killed = buy_in_work(1, fill_or_kill_of_14("1200"));
    killed.run(1024, 1);
    assert_eq!((byte(&killed), killed.in_work()), (0, None));
    let mut plain = buy_in_work(1, order_of("14", "b", "1", "1200", "0.100").with("59", "3"));
    plain.run(1024, 1);
    assert_eq!((byte(&plain), plain.in_work()), (0, Some(5)));
}

#[test]
fn a_decision_without_cause_is_no_market() {
    let mut idle = opened(1);
    play(&mut idle, &new_order("a"));
    let mut day = idle.clone();
    submit(&mut day, &new_order("b"));
    let mut ioc = idle.clone();
    submit(&mut ioc, &new_order("b").with("59", "3"));
    for known in [opened(1), idle, day, ioc] {
        assert!(is_market(&bytes(&known)));
        for value in [1, 2, 255] {
            assert!(!is_market(&forged(&bytes(&known), 96, &[value])));
        }
    }
    for draft in [ioc_of_a("300"), ioc_of_a("301"), fill_or_kill_of_14("1000"), fill_or_kill_of_14("1001")] {
        let table = bytes(&buy_in_work(1, draft));
        assert!(is_market(&forged(&table, 96, &[1])), "an order with a minimum is in work");
        assert!(!is_market(&forged(&table, 96, &[2])));
    }
}

#[test]
fn a_minimum_out_of_its_rules_is_no_market() {
    let table = bytes(&buy_in_work(1, ioc_of_a("301")));
    let minimum = |value: u32| forged(&table, place(5, 88), &value.to_le_bytes());
    for (value, good) in [(0, true), (1, true), (1_200, true), (1_201, false), (u32::MAX, false), (1 << 24, false)] {
        assert_eq!(is_market(&minimum(value)), good, "{value}");
    }
    for (time_in_force, good) in [(0, false), (1, false), (3, true), (4, false), (5, false), (51, false), (255, false)]
    {
        assert_eq!(is_market(&forged(&table, place(5, 45), &[time_in_force])), good, "110 with {time_in_force}");
        let without = forged(&minimum(0), place(5, 45), &[time_in_force]);
        assert_eq!(is_market(&without), [0, 3, 4].contains(&time_in_force), "{time_in_force}");
    }
    assert!(!is_market(&forged(&table, place(1, 88), &[1])), "a Day order with a minimum");
    for at in 92..RECORD {
        assert!(!is_market(&forged(&table, place(5, at), &[1])), "byte {at} is unused");
    }
    for at in (97..RECORD).chain([55]) {
        assert!(!is_market(&forged(&table, at, &[1])), "byte {at} of the heading is zero while an order is in work");
    }
}

#[test]
fn orders_that_do_not_stay_are_open_only_in_work() {
    let mut known = opened(1);
    play(&mut known, &new_order("a"));
    let table = bytes(&known);
    for time_in_force in [3, 4] {
        assert!(!is_market(&forged(&table, place(1, 45), &[time_in_force])));
        let dead = forged(&forged(&table, place(1, 45), &[time_in_force]), place(1, 80), &[100]);
        assert!(!is_market(&dead) && is_market(&forged(&dead, 97, &[0; RECORD - 97])), "no level is left");
    }
    submit(&mut known, &replace("a", "b", "1", "100", "0.1"));
    for time_in_force in [3, 4] {
        assert!(is_market(&forged(&bytes(&known), place(1, 45), &[time_in_force])));
    }
}

/// Runs a forged table that is a market; gives steps and reports.
fn run_forged(table: &[u8], budget: u64) -> (u64, u64, Market) {
    let mut known = market(table).expect("it is a market");
    let ran = known.run(65_536, budget);
    (ran.steps, ran.reports, known)
}

#[test]
fn a_forged_decision_is_taken_at_its_word() {
    let table = bytes(&buy_in_work(2, ioc_of_a("801")));
    let (steps, reports, known) = run_forged(&table, 1_000);
    assert_eq!((steps, reports, known.orders()[4].executed), (1, 1, 0));
    let (steps, reports, known) = run_forged(&forged(&table, 96, &[1]), 1_000);
    assert_eq!((steps, reports, known.orders()[4].executed), (5, 8, 800));
}

#[test]
fn a_decision_that_was_struck_out_is_made_again_over_what_is_left() {
    let mut known = buy_in_work(2, ioc_of_a("800"));
    known.run(65_536, 2);
    let struck = forged(&bytes(&known), 96, &[0]);
    let (steps, reports, after) = run_forged(&struck, 1_000);
    let buy = &after.orders()[4];
    assert_eq!((steps, reports, buy.executed, buy.canceled, after.in_work()), (1, 1, 300, 900, None));
    assert_eq!(after.next_number(), known.next_number() + 1);
    assert_eq!(after.orders()[..4], known.orders()[..4]);
    let lower = forged(&struck, place(5, 88), &500_u32.to_le_bytes());
    let (steps, reports, after) = run_forged(&lower, 1_000);
    assert_eq!((steps, reports, after.orders()[4].executed), (3, 4, 800));
}

#[test]
fn an_order_in_work_with_nothing_open_is_neither_decided_nor_killed() {
    for draft in [ioc_of_a("301"), fill_or_kill_of_14("1200")] {
        let table = bytes(&buy_in_work(1, draft));
        let gone = forged(&table, place(5, 80), &1_200_u32.to_le_bytes());
        let (steps, reports, after) = run_forged(&gone, 1_000);
        assert_eq!((steps, reports, after.in_work(), after.is_decided()), (1, 0, None, false));
        assert_eq!(after.next_number(), 6);
    }
}

#[test]
fn rules_of_a_market_one_by_one() {
    let mut known = opened(1);
    play(&mut known, &order("s", "2", "10", "0.1"));
    play(&mut known, &order("b", "1", "4", "0.1").inserting("11", "1", "acct"));
    play(&mut known, &order("c", "1", "7", "0.2"));
    let idle = bytes(&known);
    submit(&mut known, &order_of("10", "d", "1", "5", "0.1"));
    let in_work = bytes(&known);
    let four = |number: u32| number.to_le_bytes().to_vec();
    let no_market: &[(&[u8], usize, Vec<u8>, &str)] = &[
        (&idle, 0, vec![0], "a venue of no character"),
        (&idle, 0, vec![9], "a venue of 9"),
        (&idle, 1, vec![32], "a space in the venue"),
        (&idle, 2, vec![65], "a byte behind the venue"),
        (&idle, 10, vec![127], "7F hex in the port"),
        (&idle, 19, vec![58], "no digit in the code"),
        (&idle, 28, four(0), "next number 0"),
        (&idle, 28, four(1_000_000_001), "next number too high"),
        (&idle, 28, four(5), "a place that is not below the next number"),
        (&idle, 32, vec![1], "in work without a time"),
        (&idle, 33, vec![17], "a time with nothing in work"),
        (&in_work, 32, vec![0], "a time with nothing in work"),
        (&in_work, 32, vec![5], "in work and not filled"),
        (&in_work, 34, vec![47], "no time"),
        (&idle, 56, four(11), "an MPID twice"),
        (&idle, 56, four(0), "a gap in the MPIDs"),
        (&idle, 56, four(1_000_000), "an MPID too high"),
        (&idle, 88, vec![0], "mode 0"),
        (&idle, 88, vec![4], "mode 4"),
        (&idle, 93, vec![1], "a mode without an MPID"),
        (&idle, place(2, 0), vec![0], "a gap in the records"),
        (&idle, place(1, 0), vec![33], "a ClOrdID of 33"),
        (&idle, place(1, 1), vec![b'c'], "a ClOrdID twice"),
        (&idle, place(1, 1), vec![31], "1F hex in a ClOrdID"),
        (&idle, place(2, 33), vec![11], "an account of 11"),
        (&idle, place(2, 33), vec![3], "a byte behind the account"),
        (&idle, place(1, 44), vec![0], "no side"),
        (&idle, place(1, 44), vec![3], "side 3"),
        (&idle, place(1, 46), vec![b'a'], "capacity a"),
        (&idle, place(1, 47), vec![2], "classification 2"),
        (&idle, place(1, 47), vec![255], "classification 255"),
        (&idle, place(1, 48), four(0), "level 0"),
        (&idle, place(1, 48), four(2_000_000_000), "a level too high"),
        (&idle, place(1, 48), four(1_000_000_200), "a sell at the yield of a buy"),
        (&idle, place(1, 52), four(0), "OrderQty 0"),
        (&idle, place(1, 52), four(1_000_000_000), "OrderQty too high"),
        (&idle, place(1, 52), four(3), "more executed than OrderQty"),
        (&idle, place(1, 56), four(0), "place 0"),
        (&idle, place(1, 56), four(2), "a place twice"),
        (&idle, place(1, 60), four(15), "an MPID that is not listed"),
        (&idle, place(1, 64), four(3), "a sum below the executed"),
        (&idle, place(1, 68), four(2), "a sum too high"),
        (&idle, place(1, 80), four(1), "canceled and still open"),
        (&idle, place(1, 80), four(7), "canceled more than was open"),
        (&idle, place(1, 84), four(0), "OrderID 0"),
        (&idle, place(1, 84), four(2), "an OrderID twice"),
        (&idle, place(1, 84), four(6), "an OrderID that is not below the next number"),
        (&idle, place(4, 100), vec![1], "a byte in an empty record"),
        (&idle, TABLE - 1, vec![1], "the last byte"),
        (&in_work, 28, four(999_999_998), "too few numbers left"),
    ];
    for (table, at, with, what) in no_market {
        assert!(is_market(table));
        assert!(!is_market(&forged(table, *at, with)), "{what}");
    }
    for (table, at, with, what) in [
        (&idle, 28, four(1_000_000_000), "the last next number"),
        (&in_work, 28, four(999_999_997), "numbers that suffice"),
        (&in_work, place(1, 80), four(6), "all that was open canceled"),
        (&in_work, place(1, 76), four(6), "all that was open decremented"),
        (&idle, place(1, 60), four(14), "another MPID that is listed"),
        (&idle, place(1, 84), four(3), "another OrderID, of no Accepted report"),
        (&idle, place(1, 56), four(4), "a place that is not the OrderID"),
        (&in_work, 32, vec![1], "another order in work"),
    ] {
        assert!(is_market(&forged(table, at, &with)), "{what}");
    }
    assert!(!is_market(&idle[..TABLE - 1]) && !is_market(&[&idle[..], b"\x00"].concat()) && !is_market(&[0; TABLE]));
}

/// A sell of 6 at 0.100 and two buys of 7 and 8 at 0.200.
fn two_levels() -> Market {
    let mut known = opened(1);
    for (id, side, quantity, at) in [("s", "2", "6", "0.1"), ("b", "1", "7", "0.2"), ("c", "1", "8", "0.2")] {
        play(&mut known, &order(id, side, quantity, at));
    }
    known
}

#[test]
fn best_levels_stand_in_the_heading_while_nothing_is_in_work() {
    let mut known = two_levels();
    let table = bytes(&known);
    assert_eq!(&table[96..100], [0, 2, 1, 0]);
    assert_eq!(
        &table[100..112],
        [&1_000_000_200_u32.to_le_bytes()[..], &1_000_000_100_u32.to_le_bytes(), &[0; 4]].concat()
    );
    assert_eq!(&table[112..128], [15_u64.to_le_bytes(), 6_u64.to_le_bytes()].concat());
    submit(&mut known, &order("d", "1", "7", "0.3"));
    assert!(bytes(&known)[96..128].iter().all(|&byte| byte == 0));
    known.run(1024, 1);
    assert_eq!(&bytes(&known)[97..RECORD], &table[97..RECORD]);
}

#[test]
fn best_levels_that_do_not_agree_are_no_market_and_are_answered() {
    let table = bytes(&two_levels());
    let level = |at, total, orders| Ok(Some(Level { quote: at, total, orders }));
    let four = |number: u32| number.to_le_bytes().to_vec();
    let eight = |number: u64| number.to_le_bytes().to_vec();
    assert_eq!((top(Bonds, &table, 1), top(Bonds, &table, 2)), (level(200, 15, 2), level(100, 6, 1)));
    for (at, with, side, says) in [
        (97, vec![1], 1, level(200, 15, 1)),
        (97, vec![15], 1, level(200, 15, 15)),
        (98, vec![6], 2, level(100, 6, 6)),
        (100, four(1), 1, level(-999_999_999, 15, 2)),
        (100, four(1_999_999_999), 1, level(999_999_999, 15, 2)),
        (104, four(1_000_000_000), 2, level(0, 6, 1)),
        (112, eight(2), 1, level(200, 2, 2)),
        (112, eight(1_999_999_998), 1, level(200, 1_999_999_998, 2)),
        (120, eight(1), 2, level(100, 1, 1)),
        (120, eight(999_999_999), 2, level(100, 999_999_999, 1)),
        (98, [vec![0, 0], four(1_000_000_200), four(0)].concat(), 2, Err(Refusal::NotAMarket)),
    ] {
        let table = forged(&table, at, &with);
        assert!(!is_market(&table));
        assert_eq!(top(Bonds, &table, side), says, "{at}: {with:?}");
    }
    let no_buys =
        [(97, 0), (112, 0)].iter().fold(forged(&table, 100, &[0; 4]), |t, &(at, with)| forged(&t, at, &[with]));
    assert!(!is_market(&no_buys));
    assert_eq!((top(Bonds, &no_buys, 1), top(Bonds, &no_buys, 2)), (Ok(None), level(100, 6, 1)));
    let empty = bytes(&opened(1));
    let orders = [(97, vec![255]), (100, four(1)), (112, eight(254_999_999_745))];
    let full = orders.iter().fold(empty, |table, (at, with)| forged(&table, *at, with));
    assert_eq!(top(Bonds, &full, 1), level(-999_999_999, 254_999_999_745, 255));
}

#[test]
fn a_heading_out_of_range_has_no_top() {
    let table = bytes(&two_levels());
    let four = |number: u32| number.to_le_bytes().to_vec();
    let eight = |number: u64| number.to_le_bytes().to_vec();
    for (at, with, what) in [
        (0, vec![0], "a venue of no character"),
        (0, vec![9], "a venue of 9"),
        (0, vec![255], "a venue of 255"),
        (1, vec![32], "a space in the venue"),
        (8, vec![65], "a byte behind the venue"),
        (9, vec![2], "a port with a zero byte"),
        (17, vec![65], "a byte behind the port"),
        (18, vec![10], "a code of 10"),
        (19, vec![58], "no digit in the code"),
        (27, vec![48], "a byte behind the code"),
        (28, four(0), "next number 0"),
        (28, four(1_000_000_001), "next number too high"),
        (33, vec![17], "a time with nothing in work"),
        (54, vec![48], "a byte of a time"),
        (32, vec![1], "in work without a time, with best levels"),
        (55, vec![1], "byte 55"),
        (56, four(0), "no MPID first"),
        (56, four(1_000_000), "an MPID too high"),
        (60, four(10), "an MPID twice"),
        (80, four(5), "an MPID behind a gap"),
        (88, vec![0], "no mode"),
        (88, vec![4], "mode 4"),
        (93, vec![1], "a mode without an MPID"),
        (96, vec![1], "a decision with nothing in work"),
        (96, vec![2], "decision 2"),
        (97, vec![0], "no orders on a level"),
        (97, vec![16], "more orders than the total"),
        (99, vec![1], "byte 99"),
        (100, four(0), "level 0 with orders"),
        (100, four(2_000_000_000), "a level too high"),
        (104, four(u32::MAX), "a level far too high"),
        (108, vec![1], "byte 108"),
        (111, vec![1], "byte 111"),
        (112, eight(1), "less than one a order"),
        (112, eight(1_999_999_999), "more than two orders can have open"),
        (112, eight(u64::MAX), "a total far too high"),
        (120, eight(0), "a total of 0"),
        (120, eight(1_000_000_000), "more than one order can have open"),
    ] {
        for side in [1, 2, 3] {
            assert_eq!(top(Bonds, &forged(&table, at, &with), side), Err(Refusal::NotAMarket), "{what}");
        }
        assert!(!is_market(&forged(&table, at, &with)), "{what}");
    }
    for length in [0, 1, RECORD - 1, RECORD, TABLE - 1, TABLE + 1] {
        let other: Vec<u8> = table.iter().copied().chain([0]).take(length).collect();
        assert_eq!(top(Bonds, &other, 1), Err(Refusal::NotAMarket));
    }
    assert_eq!(top(Bonds, &[0; TABLE], 1), Err(Refusal::NotAMarket));
}

#[test]
fn top_looks_at_the_heading_alone() {
    let table = bytes(&two_levels());
    for (at, with) in [(place(1, 0), 0), (place(1, 44), 7), (place(1, 80), 3), (place(4, 0), 1), (TABLE - 1, 255)] {
        let table = forged(&table, at, &[with]);
        assert!(!is_market(&table));
        assert_eq!(top(Bonds, &table, 2), Ok(Some(Level { quote: 100, total: 6, orders: 1 })));
        assert_eq!(top(Bonds, &table, 3), Err(Refusal::SideWrong));
    }
    let mut known = two_levels();
    submit(&mut known, &order("d", "1", "7", "0.3"));
    let in_work = bytes(&known);
    for record in [1, 3, 4, 5, 255] {
        let table = forged(&in_work, 32, &[record]);
        assert_eq!(is_market(&table), record <= 4);
        assert_eq!(top(Bonds, &table, 1), Err(Refusal::OrderInWork));
        assert_eq!(top(Bonds, &table, 3), Err(Refusal::OrderInWork));
        assert_eq!(
            top(Bonds, &forged(&table, 96, &[1]), 1),
            Err(Refusal::OrderInWork),
            "no minimum can be seen in a heading"
        );
        assert_eq!(top(Bonds, &forged(&table, 96, &[2]), 1), Err(Refusal::NotAMarket));
        let best = [(97, vec![1]), (100, vec![1]), (112, vec![1])];
        let best = best.iter().fold(table.clone(), |table, (at, with)| forged(&table, *at, with));
        assert_eq!(top(Bonds, &best, 1), Err(Refusal::NotAMarket), "a best level while an order is in work");
    }
    let late = forged(&in_work, 34, b"20261116-09:00:60");
    assert_eq!((top(Bonds, &late, 1), is_market(&late)), (Err(Refusal::NotAMarket), false));
}
