//! One step of matching: what happens next to the order in work ("Matching, step by step" of 01).

use crate::order::{Order, TimeInForce};

/// How orders of one MPID are kept from trading with each other.
#[derive(Clone, Copy, Debug, PartialEq, Eq)]
pub enum Mode {
    CancelNewest,
    CancelOldest,
    Decrement,
}

impl Mode {
    /// The mode that Open's number stands for.
    pub fn from_number(number: u64) -> Option<Mode> {
        match number {
            1 => Some(Mode::CancelNewest),
            2 => Some(Mode::CancelOldest),
            3 => Some(Mode::Decrement),
            _ => None,
        }
    }

    /// Open's number for the mode.
    pub fn number(self) -> u64 {
        match self {
            Mode::CancelNewest => 1,
            Mode::CancelOldest => 2,
            Mode::Decrement => 3,
        }
    }
}

/// What one step does. Orders are named by their place in the list of orders.
#[derive(Clone, Copy, Debug, PartialEq, Eq)]
pub enum Outcome {
    /// The order in work and the resting one trade.
    Trade { resting: usize, quantity: u64, at: i64 },
    /// An order is canceled to prevent a trade: the one in work (Cancel Newest) or the resting one (Cancel Oldest).
    Cancel { order: usize },
    /// Decrement, both of the same size: the resting one is canceled, then the one in work.
    CancelBoth { resting: usize },
    /// Decrement, sizes differ: the smaller is canceled and the larger loses its size.
    Decrement { smaller: usize, larger: usize },
    /// The work ends; what an order that doesn't stay has open is canceled.
    End { cancels_rest: bool },
}

/// The outcome of the next step for the order in work; `mode_of` gives the mode of a listed MPID.
pub fn next_outcome(orders: &[Order], in_work: usize, mode_of: impl Fn(u64) -> Mode) -> Outcome {
    let working = &orders[in_work];
    if working.open() > 0 {
        if let Some(resting) = best_met(orders, in_work) {
            return match shared_mpid(working, &orders[resting]) {
                Some(mpid) => prevention(orders, in_work, resting, mode_of(mpid)),
                None => trade(orders, in_work, resting),
            };
        }
    }
    Outcome::End { cancels_rest: working.open() > 0 && working.time_in_force != TimeInForce::Day }
}

/// Whether the order in work can't reach its minimum: what it has open, it must then give up whole. An order without a
/// minimum, or with nothing open, is not asked.
pub fn falls_short(orders: &[Order], in_work: usize, mode_of: impl Fn(u64) -> Mode) -> bool {
    let working = &orders[in_work];
    working.open() > 0 && would_trade(orders, in_work, mode_of) < working.minimum()
}

/// The quantity that the order in work would trade with the open orders that it meets, taken from the best on. Of its
/// own orders, the first one ends it in mode 1, mode 2 passes over them, and in mode 3 they use up what it has open.
pub fn would_trade(orders: &[Order], in_work: usize, mode_of: impl Fn(u64) -> Mode) -> u64 {
    let working = &orders[in_work];
    let (mut left, mut traded) = (working.open(), 0);
    for resting in all_met(orders, in_work) {
        let quantity = left.min(orders[resting].open());
        match shared_mpid(working, &orders[resting]).map(&mode_of) {
            None => (left, traded) = (left - quantity, traded + quantity),
            Some(Mode::CancelNewest) => break,
            Some(Mode::CancelOldest) => {}
            Some(Mode::Decrement) => left -= quantity,
        }
    }
    traded
}

/// The open opposite orders that the order in work meets, best first.
fn all_met(orders: &[Order], in_work: usize) -> Vec<usize> {
    let working = &orders[in_work];
    let is_met = |order: &Order| order.side.stands_against(working.side) && order.open() > 0 && working.meets(order);
    let mut met: Vec<usize> = (0..orders.len()).filter(|&index| is_met(&orders[index])).collect();
    met.sort_by_key(|&index| orders[index].rank());
    met
}

/// The best open opposite order that the order in work meets.
fn best_met(orders: &[Order], in_work: usize) -> Option<usize> {
    all_met(orders, in_work).first().copied()
}

/// The MPID that both orders carry, if it is one and the same.
fn shared_mpid(one: &Order, other: &Order) -> Option<u64> {
    one.mpid.filter(|_| one.mpid == other.mpid)
}

/// The smaller open quantity, at the resting quote.
fn trade(orders: &[Order], in_work: usize, resting: usize) -> Outcome {
    let quantity = orders[in_work].open().min(orders[resting].open());
    Outcome::Trade { resting, quantity, at: orders[resting].quote }
}

/// What the mode does where an MPID would trade with itself.
fn prevention(orders: &[Order], in_work: usize, resting: usize, mode: Mode) -> Outcome {
    match mode {
        Mode::CancelNewest => Outcome::Cancel { order: in_work },
        Mode::CancelOldest => Outcome::Cancel { order: resting },
        Mode::Decrement => {
            let (working_open, resting_open) = (orders[in_work].open(), orders[resting].open());
            if working_open == resting_open {
                Outcome::CancelBoth { resting }
            } else if working_open < resting_open {
                Outcome::Decrement { smaller: in_work, larger: resting }
            } else {
                Outcome::Decrement { smaller: resting, larger: in_work }
            }
        }
    }
}
