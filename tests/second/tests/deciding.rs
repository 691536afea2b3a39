//! What an order would trade, against the steps themselves on random books.

use second::instrument::Instrument;
use second::matching::{next_outcome, would_trade, Mode, Outcome};
use second::order::{Order, Side, TimeInForce};
use second::random::Random;

/// An order of some side at one of four quotes, of 1 to 20, without an MPID or with 10 or 11.
fn some_order(random: &mut Random, instrument: Instrument, side: Side, place: u64) -> Order {
    Order {
        instrument,
        order_id: place,
        cl_ord_id: place.to_string().into_bytes(),
        account: None,
        mpid: random.pick(&[None, Some(10), Some(10), Some(11)]),
        side,
        time_in_force: TimeInForce::ImmediateOrCancel,
        capacity: b'A',
        classification: b'1',
        cash: None,
        margin: None,
        quote: random.between(0, 3) as i64 - 1,
        order_qty: random.between(1, 20),
        min_qty: None,
        executed: 0,
        decremented: 0,
        canceled: 0,
        sum: 0,
        place,
    }
}

/// Up to nine orders of the other side, some of them dead or partly executed, and the order in work somewhere among them.
fn some_book(random: &mut Random, instrument: Instrument) -> (Vec<Order>, usize) {
    let side = random.pick(&[Side::Buy, Side::Sell]);
    let mut orders: Vec<Order> =
        (0..random.between(0, 9)).map(|at| some_order(random, instrument, side.opposite(), 100 - at)).collect();
    for order in &mut orders {
        if random.percent(20) {
            order.cancel();
        } else if random.percent(20) {
            order.execute(order.order_qty / 2, 0);
        }
    }
    let in_work = random.below(orders.len() + 1);
    let mut working = some_order(random, instrument, side, 1000);
    working.order_qty = random.between(1, 60);
    orders.insert(in_work, working);
    (orders, in_work)
}

/// What the order in work has executed when its steps have run to their end.
fn executed(mut orders: Vec<Order>, in_work: usize, mode: Mode) -> u64 {
    loop {
        match next_outcome(&orders, in_work, |_| mode) {
            Outcome::Trade { resting, quantity, at } => {
                orders[resting].execute(quantity, at);
                orders[in_work].execute(quantity, at);
            }
            Outcome::Cancel { order } => orders[order].cancel(),
            Outcome::CancelBoth { resting } => {
                orders[resting].cancel();
                orders[in_work].cancel();
            }
            Outcome::Decrement { smaller, larger } => {
                let quantity = orders[smaller].open();
                orders[smaller].cancel();
                orders[larger].decrement(quantity);
            }
            Outcome::End { .. } => return orders[in_work].executed,
        }
    }
}

#[test]
fn what_would_trade_is_what_the_steps_trade() {
    let mut random = Random::new(110);
    let mut differ = [0; 3];
    for turn in 0..20_000 {
        let instrument = if turn % 2 == 0 { Instrument::Bonds } else { Instrument::Equities };
        let (orders, in_work) = some_book(&mut random, instrument);
        let modes = [Mode::CancelNewest, Mode::CancelOldest, Mode::Decrement];
        let traded = modes.map(|mode| would_trade(&orders, in_work, |_| mode));
        assert_eq!(traded, modes.map(|mode| executed(orders.clone(), in_work, mode)));
        for (mode, at) in [(0, 1), (1, 2), (2, 0)].iter().enumerate() {
            differ[mode] += u64::from(traded[at.0] != traded[at.1]);
        }
    }
    assert!(differ.iter().all(|&count| count > 1_000), "the modes are told apart: {differ:?}");
}
