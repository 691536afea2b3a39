//! The bytes of a table: a market laid out as docs/TABLE.md says, and the market that such bytes are, if they are one
//! ("A table is a market exactly if" of 01, with what requests of 02 add to it). Top of book stands here too, because it
//! is answered from the bytes of the heading (T-06 of 02).
//!
//! Numbers are little endian. A text is one byte of length, its characters, and zeros up to its room. What nothing uses
//! is zero.

use crate::instrument::Instrument;
use crate::market::{is_comp_id, known_modes, Level, Market, Participant, Refusal, Work, MOST_ORDERS};
use crate::matching::Mode;
use crate::order::{Order, Side, TimeInForce};
use crate::shape::{is_character, is_time};

/// A table is 256 records: the heading, then the orders.
pub const RECORD: usize = 128;
pub const TABLE: usize = RECORD * (1 + MOST_ORDERS);

/// A quote of 0 in a table.
const ZERO_LEVEL: i128 = 1_000_000_000;

/// What a table holds for so many times a quote: a yield is above that many zero levels if it is positive, a price below,
/// so that a lower level is better for a buy in both markets.
fn level_of(instrument: Instrument, times: u64, quotes: i128) -> i128 {
    let zeros = i128::from(times) * ZERO_LEVEL;
    match instrument {
        Instrument::Bonds => zeros + quotes,
        Instrument::Equities => zeros - quotes,
    }
}

/// The quotes that such a number stands for.
fn quotes_of(instrument: Instrument, times: u64, level: u64) -> i128 {
    let zeros = i128::from(times) * ZERO_LEVEL;
    match instrument {
        Instrument::Bonds => i128::from(level) - zeros,
        Instrument::Equities => zeros - i128::from(level),
    }
}

/// Where the heading has its fields.
mod heading {
    pub const VENUE: usize = 0;
    pub const PORT: usize = 9;
    pub const CODE: usize = 18;
    pub const NEXT_NUMBER: usize = 28;
    pub const IN_WORK: usize = 32;
    pub const SENDING_TIME: usize = 33;
    pub const KIND: usize = 55;
    pub const MPIDS: usize = 56;
    pub const MODES: usize = 88;
    pub const DECIDED: usize = 96;
    /// Of the best buy level and the best sell level: number of orders, level, total.
    pub const BEST_ORDERS: [usize; 2] = [97, 98];
    pub const BEST_LEVEL: [usize; 2] = [100, 104];
    pub const BEST_TOTAL: [usize; 2] = [112, 120];
    /// What nothing uses.
    pub const UNUSED: [usize; 5] = [99, 108, 109, 110, 111];
}

/// Where a record has its fields.
mod record {
    pub const CL_ORD_ID: usize = 0;
    pub const ACCOUNT: usize = 33;
    pub const SIDE: usize = 44;
    pub const TIME_IN_FORCE: usize = 45;
    pub const CAPACITY: usize = 46;
    pub const CLASSIFICATION: usize = 47;
    pub const LEVEL: usize = 48;
    pub const ORDER_QTY: usize = 52;
    pub const PLACE: usize = 56;
    pub const MPID: usize = 60;
    pub const SUM: usize = 64;
    pub const EXECUTED: usize = 72;
    pub const DECREMENTED: usize = 76;
    pub const CANCELED: usize = 80;
    pub const ORDER_ID: usize = 84;
    pub const MIN_QTY: usize = 88;
    pub const CASH: usize = 92;
    pub const MARGIN: usize = 93;
}

/// The table of a market.
pub fn bytes(market: &Market) -> Vec<u8> {
    let mut table = vec![0; TABLE];
    put_heading(&mut table[..RECORD], market);
    for (order, record) in market.orders.iter().zip(table.chunks_exact_mut(RECORD).skip(1)) {
        put_order(record, order);
    }
    table
}

/// Top of book, asked of the bond market or of the equities market: the best level of a side as the heading says it.
/// Nothing but the table's length and its heading is looked at, so a table that is no market is answered as well. On a
/// market this is Depth's level 0.
pub fn top(instrument: Instrument, table: &[u8], side: u64) -> Result<Option<Level>, Refusal> {
    let head = table.get(..RECORD).filter(|_| table.len() == TABLE).ok_or(Refusal::NotAMarket)?;
    if !is_heading(instrument, head) {
        return Err(Refusal::NotAMarket);
    }
    if head[heading::IN_WORK] != 0 {
        return Err(Refusal::OrderInWork);
    }
    match side {
        1 => Ok(best(instrument, head, 0)),
        2 => Ok(best(instrument, head, 1)),
        _ => Err(Refusal::SideWrong),
    }
}

/// The best level of a side, 0 for buys and 1 for sells, as the heading says it; none where it has no orders.
fn best(instrument: Instrument, head: &[u8], side: usize) -> Option<Level> {
    let level = Level {
        quote: quotes_of(instrument, 1, number(head, heading::BEST_LEVEL[side], 4)) as i64,
        total: number(head, heading::BEST_TOTAL[side], 8),
        orders: u64::from(head[heading::BEST_ORDERS[side]]),
    };
    Some(level).filter(|level| level.orders != 0)
}

/// Whether a heading is one of this market and everything in it is in its range, as far as it can be seen there alone.
fn is_heading(instrument: Instrument, head: &[u8]) -> bool {
    let is_in_work = head[heading::IN_WORK] != 0;
    let has_time = text(head, heading::SENDING_TIME, 21).is_some_and(|time| is_time(&time));
    let has_no_time = head[heading::SENDING_TIME..heading::SENDING_TIME + 22].iter().all(|&byte| byte == 0);
    head[heading::KIND] == instrument.number()
        && has_settings(instrument, head)
        && (1..=1_000_000_000).contains(&number(head, heading::NEXT_NUMBER, 4))
        && (if is_in_work { has_time && has_zeros_behind(head, heading::SENDING_TIME, 21) } else { has_no_time })
        && head[heading::DECIDED] <= u8::from(is_in_work)
        && heading::UNUSED.iter().all(|&at| head[at] == 0)
        && [0, 1].iter().all(|&side| has_no_best(head, side) || !is_in_work && has_good_best(instrument, head, side))
}

/// The names and the list of MPIDs as Open takes them, with zeros behind what they fill.
fn has_settings(instrument: Instrument, head: &[u8]) -> bool {
    let names = [(heading::VENUE, 8), (heading::PORT, 8), (heading::CODE, 9)];
    let [venue, port, code] = names.map(|(at, room)| text(head, at, room).unwrap_or_default());
    let listed = parsed_participants(head).map_or(0, |list| list.len());
    is_comp_id(&venue)
        && is_comp_id(&port)
        && instrument.is_code(&code)
        && names.iter().all(|&(at, room)| has_zeros_behind(head, at, room))
        && listed > 0
        && head[heading::MPIDS + 4 * listed..heading::MODES].iter().all(|&byte| byte == 0)
        && head[heading::MODES + listed..heading::DECIDED].iter().all(|&byte| byte == 0)
}

/// Whether the bytes between a text's end and its room's are zero.
fn has_zeros_behind(record: &[u8], at: usize, room: usize) -> bool {
    let end = at + 1 + usize::from(record[at]);
    record[end.min(at + 1 + room)..=at + room].iter().all(|&byte| byte == 0)
}

fn has_no_best(head: &[u8], side: usize) -> bool {
    head[heading::BEST_ORDERS[side]] == 0
        && number(head, heading::BEST_LEVEL[side], 4) == 0
        && number(head, heading::BEST_TOTAL[side], 8) == 0
}

/// A level in the market's range, of 1 to 255 orders that have between 1 and 999,999,999 open each.
fn has_good_best(instrument: Instrument, head: &[u8], side: usize) -> bool {
    best(instrument, head, side).is_some_and(|level| {
        instrument.is_quote(level.quote) && (level.orders..=level.orders * 999_999_999).contains(&level.total)
    })
}

/// The market that a table is, if it is one.
pub fn market(table: &[u8]) -> Option<Market> {
    if table.len() != TABLE {
        return None;
    }
    let market = parsed(table)?;
    (is_market(&market) && bytes(&market) == table).then_some(market)
}

fn put_text(record: &mut [u8], at: usize, text: &[u8]) {
    record[at] = text.len() as u8;
    record[at + 1..=at + text.len()].copy_from_slice(text);
}

fn put_number(record: &mut [u8], at: usize, width: usize, number: u64) {
    record[at..at + width].copy_from_slice(&number.to_le_bytes()[..width]);
}

fn put_heading(record: &mut [u8], market: &Market) {
    put_text(record, heading::VENUE, &market.venue);
    put_text(record, heading::PORT, &market.port);
    put_text(record, heading::CODE, &market.code);
    record[heading::KIND] = market.instrument.number();
    put_number(record, heading::NEXT_NUMBER, 4, market.next_number);
    for (at, &(mpid, mode)) in market.participants.iter().enumerate() {
        put_number(record, heading::MPIDS + 4 * at, 4, mpid);
        record[heading::MODES + at] = mode.number() as u8;
    }
    if let Some(work) = &market.work {
        record[heading::IN_WORK] = work.order as u8 + 1;
        put_text(record, heading::SENDING_TIME, &work.sending_time);
        record[heading::DECIDED] = u8::from(work.is_decided);
    } else {
        put_best(record, market.instrument, 0, market.levels(Side::Buy).first());
        put_best(record, market.instrument, 1, market.levels(Side::Sell).first());
    }
}

/// The best level of a side, 0 for buys and 1 for sells.
fn put_best(record: &mut [u8], instrument: Instrument, side: usize, level: Option<&Level>) {
    if let Some(level) = level {
        record[heading::BEST_ORDERS[side]] = level.orders as u8;
        put_level(record, heading::BEST_LEVEL[side], instrument, level.quote);
        put_number(record, heading::BEST_TOTAL[side], 8, level.total);
    }
}

/// A quote as a level.
fn put_level(record: &mut [u8], at: usize, instrument: Instrument, quote: i64) {
    put_number(record, at, 4, level_of(instrument, 1, i128::from(quote)) as u64);
}

fn put_order(record: &mut [u8], order: &Order) {
    put_text(record, record::CL_ORD_ID, &order.cl_ord_id);
    put_text(record, record::ACCOUNT, order.account.as_deref().unwrap_or(b""));
    record[record::SIDE] = order.side.code() - b'0';
    record[record::TIME_IN_FORCE] = order.time_in_force.code() - b'0';
    record[record::CAPACITY] = order.capacity;
    record[record::CLASSIFICATION] = order.classification - b'0';
    for (at, mark) in [(record::CASH, order.cash), (record::MARGIN, order.margin)] {
        record[at] = mark.map_or(0, |code| code - b'0');
    }
    let sum_of_levels = level_of(order.instrument, order.executed, order.sum);
    put_level(record, record::LEVEL, order.instrument, order.quote);
    put_number(record, record::SUM, 8, sum_of_levels as u64);
    for (at, number) in [
        (record::ORDER_QTY, order.order_qty),
        (record::PLACE, order.place),
        (record::MPID, order.mpid.unwrap_or(0)),
        (record::EXECUTED, order.executed),
        (record::DECREMENTED, order.decremented),
        (record::CANCELED, order.canceled),
        (record::ORDER_ID, order.order_id),
        (record::MIN_QTY, order.min_qty.unwrap_or(0)),
    ] {
        put_number(record, at, 4, number);
    }
}

fn number(record: &[u8], at: usize, width: usize) -> u64 {
    record[at..at + width].iter().rev().fold(0, |number, &byte| number << 8 | u64::from(byte))
}

/// The text at a place; its length may not be more than its room.
fn text(record: &[u8], at: usize, room: usize) -> Option<Vec<u8>> {
    let length = usize::from(record[at]);
    (length <= room).then(|| record[at + 1..=at + length].to_vec())
}

/// What a table says, with no rule looked at that does not stand in the way of saying it.
fn parsed(table: &[u8]) -> Option<Market> {
    let (head, records) = table.split_at(RECORD);
    let instrument = Instrument::from_number(u64::from(head[heading::KIND]))?;
    let filled = records.chunks_exact(RECORD).take_while(|record| record[record::CL_ORD_ID] != 0);
    let orders: Vec<Order> = filled.map(|record| parsed_order(instrument, record)).collect::<Option<_>>()?;
    let is_decided = match head[heading::DECIDED] {
        0 => false,
        1 => true,
        _ => return None,
    };
    let sending_time = text(head, heading::SENDING_TIME, 21)?;
    let work = match usize::from(head[heading::IN_WORK]) {
        0 => None,
        record => Some(Work { order: record - 1, sending_time, is_decided }),
    };
    Some(Market {
        instrument,
        venue: text(head, heading::VENUE, 8)?,
        port: text(head, heading::PORT, 8)?,
        code: text(head, heading::CODE, 9)?,
        participants: parsed_participants(head)?,
        next_number: number(head, heading::NEXT_NUMBER, 4),
        orders,
        work,
    })
}

/// The MPIDs and modes up to the first that is none, if they are as Open takes them.
fn parsed_participants(head: &[u8]) -> Option<Vec<(u64, Mode)>> {
    let entries = (0..8).map(|at| Participant {
        mpid: number(head, heading::MPIDS + 4 * at, 4),
        mode: u64::from(head[heading::MODES + at]),
    });
    known_modes(&entries.take_while(|entry| entry.mpid != 0).collect::<Vec<_>>())
}

fn parsed_order(instrument: Instrument, record: &[u8]) -> Option<Order> {
    let four = |at| number(record, at, 4);
    let digit = |at: usize| record[at].checked_add(b'0');
    let executed = four(record::EXECUTED);
    Some(Order {
        instrument,
        order_id: four(record::ORDER_ID),
        cl_ord_id: text(record, record::CL_ORD_ID, 32)?,
        account: text(record, record::ACCOUNT, 10).map(|account| Some(account).filter(|text| !text.is_empty()))?,
        mpid: Some(four(record::MPID)).filter(|&mpid| mpid != 0),
        side: Side::from_code(digit(record::SIDE)?)?,
        time_in_force: match record[record::TIME_IN_FORCE] {
            0 => TimeInForce::Day,
            3 => TimeInForce::ImmediateOrCancel,
            4 => TimeInForce::FillOrKill,
            _ => return None,
        },
        capacity: record[record::CAPACITY],
        classification: digit(record::CLASSIFICATION)?,
        cash: Some(digit(record::CASH)?).filter(|&code| code != b'0'),
        margin: Some(digit(record::MARGIN)?).filter(|&code| code != b'0'),
        quote: quotes_of(instrument, 1, four(record::LEVEL)) as i64,
        order_qty: four(record::ORDER_QTY),
        min_qty: Some(four(record::MIN_QTY)).filter(|&minimum| minimum != 0),
        executed,
        decremented: four(record::DECREMENTED),
        canceled: four(record::CANCELED),
        sum: quotes_of(instrument, executed, number(record, record::SUM, 8)),
        place: four(record::PLACE),
    })
}

/// The rules of a market, but for the bytes that must be zero.
fn is_market(market: &Market) -> bool {
    is_comp_id(&market.venue)
        && is_comp_id(&market.port)
        && market.instrument.is_code(&market.code)
        && (1..=1_000_000_000).contains(&market.next_number)
        && market.orders.iter().all(|order| is_order(market, order))
        && are_distinct(market.orders.iter().map(|order| order.cl_ord_id.as_slice()))
        && are_distinct(market.orders.iter().map(|order| order.place))
        && are_distinct(market.orders.iter().map(|order| order.order_id))
        && market.work.as_ref().is_none_or(|work| is_work(market, work))
        && is_settled(market)
}

fn are_distinct<T: Ord>(values: impl Iterator<Item = T>) -> bool {
    let mut values: Vec<T> = values.collect();
    let count = values.len();
    values.sort_unstable();
    values.dedup();
    values.len() == count
}

/// An order by itself: each field in its range, and what happened to it within its OrderQty.
fn is_order(market: &Market, order: &Order) -> bool {
    let is_text = |text: &[u8]| text.iter().all(|&byte| is_character(byte));
    let gone = order.executed + order.decremented + order.canceled;
    is_text(&order.cl_ord_id)
        && order.account.as_deref().is_none_or(is_text)
        && order.mpid.is_none_or(|mpid| market.mpids().contains(&mpid))
        && b"AP".contains(&order.capacity)
        && b"13456".contains(&order.classification)
        && order.instrument.sides().contains(&order.side.code())
        && has_good_marks(order)
        && order.instrument.is_quote(order.quote)
        && (1..=999_999_999).contains(&order.order_qty)
        && gone <= order.order_qty
        && (order.canceled == 0 || gone == order.order_qty)
        && has_good_sum(order)
        && (1..market.next_number).contains(&order.place)
        && (1..market.next_number).contains(&order.order_id)
        && has_good_minimum(order)
}

/// A bond's order has neither 544 nor 8214; a share's is a cash order, or a margin order of either type or none.
fn has_good_marks(order: &Order) -> bool {
    match (order.instrument, order.cash) {
        (Instrument::Bonds, cash) => cash.is_none() && order.margin.is_none(),
        (Instrument::Equities, Some(b'1')) => order.margin.is_none(),
        (Instrument::Equities, Some(b'2' | b'3')) => order.margin.is_none_or(|margin| b"12".contains(&margin)),
        (Instrument::Equities, _) => false,
    }
}

/// The sum of quantity times quote is one that executions at quotes can make.
fn has_good_sum(order: &Order) -> bool {
    let most = i128::from(order.executed) * 999_999_999;
    match order.instrument {
        Instrument::Bonds => (-most..=most).contains(&order.sum),
        Instrument::Equities => (0..=most).contains(&order.sum),
    }
}

/// A 110 stands on an IOC alone and is at most OrderQty.
fn has_good_minimum(order: &Order) -> bool {
    order
        .min_qty
        .is_none_or(|minimum| order.time_in_force == TimeInForce::ImmediateOrCancel && minimum <= order.order_qty)
}

/// The order in work is there, its message's 52 is a time, only a minimum is decided on, and while it has something
/// open there are numbers for all that may still be reported.
fn is_work(market: &Market, work: &Work) -> bool {
    let Some(order) = market.orders.get(work.order) else {
        return false;
    };
    let is_opposite = |other: &&Order| other.side.stands_against(order.side) && other.open() > 0;
    let opposite = market.orders.iter().filter(is_opposite).count() as u64;
    is_time(&work.sending_time)
        && (!work.is_decided || order.minimum() > 0)
        && (order.open() == 0 || market.next_number + 2 * opposite < 1_000_000_000)
}

/// Apart from the order in work, only Day orders are open, and no open buy meets an open sell.
fn is_settled(market: &Market) -> bool {
    let in_work = market.work.as_ref().map(|work| work.order);
    let open = market.orders.iter().enumerate().filter(|&(at, order)| Some(at) != in_work && order.open() > 0);
    let resting: Vec<&Order> = open.map(|(_, order)| order).collect();
    let (buys, sells): (Vec<&Order>, Vec<&Order>) = resting.iter().partition(|order| order.side.is_buy());
    let is_apart = buys.iter().all(|buy| !sells.iter().any(|sell| buy.meets(sell)));
    is_apart && resting.iter().all(|order| order.time_in_force == TimeInForce::Day)
}
