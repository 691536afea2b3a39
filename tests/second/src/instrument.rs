//! What a market trades: bonds, quoted by yield (document 01), or equities, quoted by price (T-08 of document 02 and
//! document 003). Everything in which the two markets differ and that is not a table of fields stands here.

use crate::order::Side;
use crate::shape::{is_digits, is_id_character, price_tenths, yield_thousandths};

/// A quote is a yield in thousandths for bonds and a price in tenths for equities.
#[derive(Clone, Copy, Debug, PartialEq, Eq, PartialOrd, Ord)]
pub enum Instrument {
    Bonds,
    Equities,
}

impl Instrument {
    /// The number that a table's heading has for it.
    pub fn number(self) -> u8 {
        match self {
            Instrument::Bonds => 0,
            Instrument::Equities => 1,
        }
    }

    pub fn from_number(number: u64) -> Option<Instrument> {
        match number {
            0 => Some(Instrument::Bonds),
            1 => Some(Instrument::Equities),
            _ => None,
        }
    }

    pub fn other(self) -> Instrument {
        match self {
            Instrument::Bonds => Instrument::Equities,
            Instrument::Equities => Instrument::Bonds,
        }
    }

    /// SenderSubID (50) of its reports.
    pub fn group(self) -> &'static str {
        match self {
            Instrument::Bonds => "DJGB",
            Instrument::Equities => "DAY",
        }
    }

    /// Decimals of a quote; an average has three more.
    pub fn decimals(self) -> usize {
        match self {
            Instrument::Bonds => 3,
            Instrument::Equities => 1,
        }
    }

    /// The most digits that a quote has before its point.
    pub fn whole_digits(self) -> usize {
        match self {
            Instrument::Bonds => 6,
            Instrument::Equities => 8,
        }
    }

    /// The quote that a message's 44 says, if it has the shape of one.
    pub fn quote(self, text: &[u8]) -> Option<i64> {
        match self {
            Instrument::Bonds => yield_thousandths(text),
            Instrument::Equities => price_tenths(text),
        }
    }

    /// Whether a number is a quote: a yield may be below zero, a price may not.
    pub fn is_quote(self, quote: i64) -> bool {
        match self {
            Instrument::Bonds => (-999_999_999..=999_999_999).contains(&quote),
            Instrument::Equities => (0..=999_999_999).contains(&quote),
        }
    }

    /// Whether `one` is better than `other` for an order of a side: for a buy the lower yield or the higher price, for a
    /// sell the higher yield or the lower price.
    pub fn is_better(self, side: Side, one: i64, other: i64) -> bool {
        match (self, side.is_buy()) {
            (Instrument::Bonds, true) | (Instrument::Equities, false) => one < other,
            (Instrument::Bonds, false) | (Instrument::Equities, true) => one > other,
        }
    }

    /// Whether a buy at one quote and a sell at another meet: the yields when the sell's is at least the buy's, the
    /// prices when the buy's is at least the sell's.
    pub fn meets(self, buy: i64, sell: i64) -> bool {
        match self {
            Instrument::Bonds => sell >= buy,
            Instrument::Equities => buy >= sell,
        }
    }

    /// The sides (54) that its messages may have.
    pub fn sides(self) -> &'static [u8] {
        match self {
            Instrument::Bonds => b"12",
            Instrument::Equities => b"1256",
        }
    }

    /// Whether Open takes a text as what the market trades: a bond's code, or a symbol.
    pub fn is_code(self, code: &[u8]) -> bool {
        match self {
            Instrument::Bonds => is_digits(code, 9),
            Instrument::Equities => (1..=9).contains(&code.len()) && code.iter().all(|&byte| is_id_character(byte)),
        }
    }

    /// The longest 109 of a drop copy.
    pub fn longest_client_id(self) -> usize {
        match self {
            Instrument::Bonds => 30,
            Instrument::Equities => 20,
        }
    }
}
