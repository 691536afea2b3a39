//! An order as the market keeps it.

use crate::instrument::Instrument;

/// The whole number nearest to `dividend / divisor`, the one farther from zero where two are. `divisor` is positive.
fn nearest(dividend: i128, divisor: i128) -> i128 {
    let size = (2 * dividend.abs() + divisor) / (2 * divisor);
    if dividend < 0 {
        -size
    } else {
        size
    }
}

/// Buy, or sell in one of three ways; a bond is only sold in the first.
#[derive(Clone, Copy, Debug, PartialEq, Eq)]
pub enum Side {
    Buy,
    Sell,
    SellShort,
    SellShortExempt,
}

impl Side {
    /// The side that a 54 says.
    pub fn from_code(code: u8) -> Option<Side> {
        [Side::Buy, Side::Sell, Side::SellShort, Side::SellShortExempt].into_iter().find(|side| side.code() == code)
    }

    /// The value of tag 54.
    pub fn code(self) -> u8 {
        match self {
            Side::Buy => b'1',
            Side::Sell => b'2',
            Side::SellShort => b'5',
            Side::SellShortExempt => b'6',
        }
    }

    pub fn is_buy(self) -> bool {
        self == Side::Buy
    }

    /// Whether both buy, or both sell.
    pub fn stands_with(self, other: Side) -> bool {
        self.is_buy() == other.is_buy()
    }

    /// Whether one buys and the other sells.
    pub fn stands_against(self, other: Side) -> bool {
        !self.stands_with(other)
    }

    /// A side that stands against this one.
    pub fn opposite(self) -> Side {
        if self.is_buy() {
            Side::Sell
        } else {
            Side::Buy
        }
    }
}

/// How long an order stays.
#[derive(Clone, Copy, Debug, PartialEq, Eq)]
pub enum TimeInForce {
    Day,
    ImmediateOrCancel,
    FillOrKill,
}

impl TimeInForce {
    /// The value of tag 59.
    pub fn code(self) -> u8 {
        match self {
            TimeInForce::Day => b'0',
            TimeInForce::ImmediateOrCancel => b'3',
            TimeInForce::FillOrKill => b'4',
        }
    }
}

/// One order, alive or dead. `order_id` is the number of its Accepted report; so is `place`, unless a requested Replaced
/// did not keep it: then it is the number of the last such. `sum` is the sum of quantity times quote over its executions.
/// `min_qty` is its 110, `cash` its 544 and `margin` its 8214, if it was sent with one.
#[derive(Clone, Debug, PartialEq, Eq)]
pub struct Order {
    pub instrument: Instrument,
    pub order_id: u64,
    pub cl_ord_id: Vec<u8>,
    pub account: Option<Vec<u8>>,
    pub mpid: Option<u64>,
    pub side: Side,
    pub time_in_force: TimeInForce,
    pub capacity: u8,
    pub classification: u8,
    pub cash: Option<u8>,
    pub margin: Option<u8>,
    pub quote: i64,
    pub order_qty: u64,
    pub min_qty: Option<u64>,
    pub executed: u64,
    pub decremented: u64,
    pub canceled: u64,
    pub sum: i128,
    pub place: u64,
}

impl Order {
    /// What is open: OrderQty less what has executed, was decremented or canceled.
    pub fn open(&self) -> u64 {
        self.order_qty - self.executed - self.decremented - self.canceled
    }

    /// What the order must be able to trade at once, or it is canceled whole: its 110, all of it for a Fill or Kill, 0
    /// for an order without a minimum.
    pub fn minimum(&self) -> u64 {
        match self.time_in_force {
            TimeInForce::FillOrKill => self.order_qty,
            _ => self.min_qty.unwrap_or(0),
        }
    }

    /// The average of all executions in thousandths of a quote's unit, millionths of a yield and ten-thousandths of a
    /// price: the nearest, halves away from zero; 0 before any.
    pub fn average(&self) -> i128 {
        match self.executed {
            0 => 0,
            executed => nearest(self.sum * 1000, i128::from(executed)),
        }
    }

    /// The order's rank among those that it stands with, the best having the smallest: by better quote, then by smaller
    /// place.
    pub fn rank(&self) -> (i64, u64) {
        let lower_is_better = self.instrument.is_better(self.side, 0, 1);
        (if lower_is_better { self.quote } else { -self.quote }, self.place)
    }

    /// Whether this order meets `other`, which it stands against.
    pub fn meets(&self, other: &Order) -> bool {
        let (buy, sell) = if self.side.is_buy() { (self, other) } else { (other, self) };
        self.instrument.meets(buy.quote, sell.quote)
    }

    /// Executes `quantity` at a quote.
    pub fn execute(&mut self, quantity: u64, at: i64) {
        self.executed += quantity;
        self.sum += i128::from(quantity) * i128::from(at);
    }

    /// Cancels what is open.
    pub fn cancel(&mut self) {
        self.canceled += self.open();
    }

    /// Takes `quantity` off what is open, to prevent a trade with itself.
    pub fn decrement(&mut self, quantity: u64) {
        self.decremented += quantity;
    }
}
