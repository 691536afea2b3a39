//! What a message that is not garbled asks for, or why it gets a Session Reject.

use crate::instrument::Instrument;
use crate::message::{Field, Message};
use crate::order::{Side, TimeInForce};
use crate::shape::{has_time_ranges, has_time_shape, is_digits, number};

/// The three types of message that the market takes.
#[derive(Clone, Copy, Debug, PartialEq, Eq)]
pub enum MsgType {
    NewOrder,
    Cancel,
    Replace,
}

/// A Session Reject: RefTagID (371) and SessionRejectReason (373).
#[derive(Clone, Copy, Debug, PartialEq, Eq)]
pub struct SessionReject {
    pub tag: u32,
    pub reason: u32,
}

/// What a D asks.
#[derive(Clone, Debug)]
pub struct NewOrder<'a> {
    pub account: Option<&'a [u8]>,
    pub cl_ord_id: &'a [u8],
    pub order_qty: u64,
    pub quote: i64,
    pub capacity: u8,
    pub side: Side,
    pub symbol: &'a [u8],
    pub time_in_force: TimeInForce,
    pub mpid: Option<u64>,
    pub min_qty: Option<u64>,
    pub classification: u8,
    pub cash: Option<u8>,
    pub margin: Option<u8>,
}

/// What an F or a G asks; `replacement` is there for a G.
#[derive(Clone, Debug)]
pub struct Change<'a> {
    pub cl_ord_id: &'a [u8],
    pub orig_cl_ord_id: &'a [u8],
    pub side: Side,
    pub symbol: &'a [u8],
    pub replacement: Option<Replacement>,
}

/// The new terms that a G asks for.
#[derive(Clone, Copy, Debug, PartialEq, Eq)]
pub struct Replacement {
    pub order_qty: u64,
    pub quote: i64,
}

/// What a good message asks.
#[derive(Clone, Debug)]
pub enum Request<'a> {
    New(NewOrder<'a>),
    Change(Change<'a>),
}

/// The reasons of 373 that this market gives.
mod reason {
    pub const REQUIRED_TAG_MISSING: u32 = 1;
    pub const NOT_OF_THIS_TYPE: u32 = 2;
    pub const UNDEFINED_TAG: u32 = 3;
    pub const NO_VALUE: u32 = 4;
    pub const VALUE_INCORRECT: u32 = 5;
    pub const FORMAT_INCORRECT: u32 = 6;
    pub const COMP_ID: u32 = 9;
    pub const MSG_TYPE: u32 = 11;
}

/// The tags that a type needs, ascending.
fn needed(instrument: Instrument, msg_type: MsgType) -> &'static [u32] {
    match (msg_type, instrument) {
        (MsgType::NewOrder, Instrument::Bonds) => &[11, 21, 38, 40, 44, 47, 54, 55, 59, 60, 8060],
        (MsgType::NewOrder, Instrument::Equities) => &[11, 21, 38, 40, 44, 47, 54, 55, 59, 60, 544, 8060],
        (MsgType::Replace, _) => &[11, 21, 38, 40, 41, 44, 54, 55, 60],
        (MsgType::Cancel, _) => &[11, 41, 54, 55, 60],
    }
}

/// The tags that a type may have besides.
fn allowed(instrument: Instrument, msg_type: MsgType) -> &'static [u32] {
    match (msg_type, instrument) {
        (MsgType::NewOrder, Instrument::Bonds) => &[1, 109, 110],
        (MsgType::NewOrder, Instrument::Equities) => &[1, 109, 110, 8214],
        (MsgType::Replace, _) => &[],
        (MsgType::Cancel, _) => &[38],
    }
}

fn is_of_type(instrument: Instrument, tag: u32, msg_type: MsgType) -> bool {
    needed(instrument, msg_type).contains(&tag) || allowed(instrument, msg_type).contains(&tag)
}

fn is_listed(instrument: Instrument, tag: u32) -> bool {
    let types = [MsgType::NewOrder, MsgType::Replace, MsgType::Cancel];
    types.iter().any(|&msg_type| is_of_type(instrument, tag, msg_type))
}

/// What `message` asks of a market with this port and venue, or the first reason for a Session Reject.
pub fn request<'a>(
    instrument: Instrument,
    message: &Message<'a>,
    port: &[u8],
    venue: &[u8],
) -> Result<Request<'a>, SessionReject> {
    let msg_type = msg_type(message.msg_type)?;
    check_comp_ids(message, port, venue)?;
    for field in &message.body {
        check_field(instrument, field, msg_type)?;
    }
    check_minimum(message)?;
    check_margin(message)?;
    check_nothing_is_missing(instrument, message, msg_type)?;
    Ok(match msg_type {
        MsgType::NewOrder => Request::New(new_order(instrument, message)),
        MsgType::Cancel | MsgType::Replace => Request::Change(change(instrument, message, msg_type)),
    })
}

fn msg_type(value: &[u8]) -> Result<MsgType, SessionReject> {
    match value {
        b"D" => Ok(MsgType::NewOrder),
        b"F" => Ok(MsgType::Cancel),
        b"G" => Ok(MsgType::Replace),
        _ => Err(SessionReject { tag: 35, reason: reason::MSG_TYPE }),
    }
}

fn check_comp_ids(message: &Message, port: &[u8], venue: &[u8]) -> Result<(), SessionReject> {
    if message.sender_comp_id != port {
        return Err(SessionReject { tag: 49, reason: reason::COMP_ID });
    }
    if message.target_comp_id != venue {
        return Err(SessionReject { tag: 56, reason: reason::COMP_ID });
    }
    Ok(())
}

/// Asks one body field everything, in the order of the paper: 3, 2, 4, 6, 5.
fn check_field(instrument: Instrument, field: &Field, msg_type: MsgType) -> Result<(), SessionReject> {
    let reason = if !is_listed(instrument, field.tag) {
        reason::UNDEFINED_TAG
    } else if !is_of_type(instrument, field.tag, msg_type) {
        reason::NOT_OF_THIS_TYPE
    } else if field.value.is_empty() {
        reason::NO_VALUE
    } else if !has_shape(instrument, field) {
        reason::FORMAT_INCORRECT
    } else if !has_known_value(instrument, field) {
        reason::VALUE_INCORRECT
    } else {
        return Ok(());
    };
    Err(SessionReject { tag: field.tag, reason })
}

/// Whether a listed field that is not empty has its tag's shape.
fn has_shape(instrument: Instrument, field: &Field) -> bool {
    let value = field.value;
    match field.tag {
        1 => value.len() <= 10,
        11 | 41 => value.len() <= 32,
        38 | 110 => is_digits(value, 9),
        55 if instrument == Instrument::Equities => value.len() <= 9,
        55 => is_digits(value, 9),
        109 => is_digits(value, 6),
        60 => has_time_shape(value),
        44 => instrument.quote(value).is_some(),
        _ => value.len() == 1,
    }
}

/// Whether a field of the right shape has one of its tag's values.
fn has_known_value(instrument: Instrument, field: &Field) -> bool {
    let value = field.value;
    match field.tag {
        38 | 109 | 110 => value.iter().any(|&digit| digit != b'0'),
        60 => has_time_ranges(value),
        21 => value == b"1",
        40 => value == b"2",
        47 => b"AP".contains(&value[0]),
        54 => instrument.sides().contains(&value[0]),
        59 => b"034".contains(&value[0]),
        544 => b"123".contains(&value[0]),
        8060 => b"13456".contains(&value[0]),
        8214 => b"12".contains(&value[0]),
        _ => true,
    }
}

/// A minimum belongs to an IOC and is at most OrderQty. What it would be compared with may be missing: then nothing is
/// said here. Only a D has come so far with a 110.
fn check_minimum(message: &Message) -> Result<(), SessionReject> {
    let Some(minimum) = number_of(message, 110) else {
        return Ok(());
    };
    let is_ioc = value_of(message, 59).is_none_or(|value| value == b"3");
    let is_reachable = number_of(message, 38).is_none_or(|order_qty| minimum <= order_qty);
    if is_ioc && is_reachable {
        Ok(())
    } else {
        Err(SessionReject { tag: 110, reason: reason::VALUE_INCORRECT })
    }
}

/// A margin transaction type belongs to a margin order, and a 544 of 1 says cash. Where 544 is missing nothing is said
/// here. Only a D of an equities market has come so far with an 8214.
fn check_margin(message: &Message) -> Result<(), SessionReject> {
    if value_of(message, 8214).is_some() && value_of(message, 544) == Some(b"1") {
        Err(SessionReject { tag: 8214, reason: reason::VALUE_INCORRECT })
    } else {
        Ok(())
    }
}

fn check_nothing_is_missing(instrument: Instrument, message: &Message, msg_type: MsgType) -> Result<(), SessionReject> {
    match needed(instrument, msg_type).iter().find(|&&tag| value_of(message, tag).is_none()) {
        Some(&tag) => Err(SessionReject { tag, reason: reason::REQUIRED_TAG_MISSING }),
        None => Ok(()),
    }
}

/// The value of a body tag, as that part of the message.
fn value_of<'a>(message: &Message<'a>, tag: u32) -> Option<&'a [u8]> {
    message.body.iter().find(|field| field.tag == tag).map(|field| field.value)
}

/// The value of a tag that has been found there.
fn needed_value<'a>(message: &Message<'a>, tag: u32) -> &'a [u8] {
    value_of(message, tag).expect("a needed tag is there once nothing is missing")
}

/// The number of a tag, if it is there; its shape has been looked at.
fn number_of(message: &Message, tag: u32) -> Option<u64> {
    value_of(message, tag).map(|value| number(value, 9).expect("the shape has been looked at"))
}

fn needed_number(message: &Message, tag: u32) -> u64 {
    number_of(message, tag).expect("a needed tag is there once nothing is missing")
}

fn needed_quote(instrument: Instrument, message: &Message) -> i64 {
    instrument.quote(needed_value(message, 44)).expect("the shape has been looked at")
}

fn side(message: &Message) -> Side {
    Side::from_code(needed_value(message, 54)[0]).expect("the value has been looked at")
}

fn time_in_force(message: &Message) -> TimeInForce {
    match needed_value(message, 59) {
        b"0" => TimeInForce::Day,
        b"3" => TimeInForce::ImmediateOrCancel,
        _ => TimeInForce::FillOrKill,
    }
}

/// The values of a D that has passed every check above.
fn new_order<'a>(instrument: Instrument, message: &Message<'a>) -> NewOrder<'a> {
    let mark = |tag| value_of(message, tag).map(|value| value[0]);
    NewOrder {
        account: value_of(message, 1),
        cl_ord_id: needed_value(message, 11),
        order_qty: needed_number(message, 38),
        quote: needed_quote(instrument, message),
        capacity: needed_value(message, 47)[0],
        side: side(message),
        symbol: needed_value(message, 55),
        time_in_force: time_in_force(message),
        mpid: number_of(message, 109),
        min_qty: number_of(message, 110),
        classification: needed_value(message, 8060)[0],
        cash: mark(544),
        margin: mark(8214),
    }
}

/// The values of an F or a G that has passed every check above. An F's 38 is not used.
fn change<'a>(instrument: Instrument, message: &Message<'a>, msg_type: MsgType) -> Change<'a> {
    let replacement = (msg_type == MsgType::Replace)
        .then(|| Replacement { order_qty: needed_number(message, 38), quote: needed_quote(instrument, message) });
    Change {
        cl_ord_id: needed_value(message, 11),
        orig_cl_ord_id: needed_value(message, 41),
        side: side(message),
        symbol: needed_value(message, 55),
        replacement,
    }
}
