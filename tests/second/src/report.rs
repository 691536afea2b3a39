//! The seven kinds of report and their bytes ("The reports" of 01; fields as in document 000, 7.5.1 to 7.5.4, and those
//! of an equities market as in document 003).

use std::collections::BTreeMap;

use crate::instrument::Instrument;
use crate::message::{sum, three_digits, SOH};
use crate::order::Order;

/// No report is longer than this.
pub const LONGEST_REPORT: usize = 512;

/// What stands on every report: the market's names, the report's number and the causing message's 52.
#[derive(Clone, Copy, Debug)]
pub struct Heading<'a> {
    pub instrument: Instrument,
    pub venue: &'a [u8],
    pub port: &'a [u8],
    pub code: &'a [u8],
    pub number: u64,
    pub time: &'a [u8],
}

/// Why an order was canceled or changed without a request (378).
#[derive(Clone, Copy, Debug, PartialEq, Eq)]
pub enum Restatement {
    TradePrevention,
    /// What is left of an order that doesn't stay, or all of one that can't reach its minimum.
    NotStaying,
}

impl Restatement {
    fn code(self) -> u64 {
        match self {
            Restatement::TradePrevention => 100,
            Restatement::NotStaying => 99,
        }
    }
}

/// Why an order is canceled.
#[derive(Clone, Copy, Debug)]
pub enum CancelCause<'a> {
    /// An F asked for it; the ClOrdID before it is 41.
    Requested {
        orig_cl_ord_id: &'a [u8],
    },
    Unrequested(Restatement),
}

/// One side of a trade.
#[derive(Clone, Copy, Debug)]
pub struct Execution {
    pub quantity: u64,
    pub at: i64,
    pub contra_mpid: Option<u64>,
    pub is_resting: bool,
    pub match_number: u64,
}

/// The fields of a message that Rejected says back.
#[derive(Clone, Copy, Debug)]
pub struct RejectedOrder<'a> {
    pub cl_ord_id: &'a [u8],
    pub order_qty: u64,
    pub side: u8,
    pub symbol: &'a [u8],
    pub reason: u64,
}

/// What Cancel reject says; `order` is the one that has ClOrdID 41.
#[derive(Clone, Copy, Debug)]
pub struct CancelReject<'a> {
    pub cl_ord_id: &'a [u8],
    pub orig_cl_ord_id: &'a [u8],
    pub order: Option<&'a Order>,
    pub reason: u64,
    pub response_to: u8,
}

/// What Session Reject says of the message it answers.
#[derive(Clone, Copy, Debug)]
pub struct Refused<'a> {
    pub msg_seq_num: u64,
    pub msg_type: &'a [u8],
    pub tag: u32,
    pub reason: u32,
}

/// Body fields by tag, so that they come out ascending.
struct Body(BTreeMap<u32, Vec<u8>>);

impl Body {
    fn new() -> Body {
        Body(BTreeMap::new())
    }

    fn text(&mut self, tag: u32, value: &[u8]) -> &mut Body {
        self.0.insert(tag, value.to_vec());
        self
    }

    fn char(&mut self, tag: u32, value: u8) -> &mut Body {
        self.text(tag, &[value])
    }

    fn number(&mut self, tag: u32, value: u64) -> &mut Body {
        self.text(tag, value.to_string().as_bytes())
    }
}

/// A number with `decimals` decimals, at least one whole digit, and a minus only below zero.
pub fn fixed_point(value: i128, decimals: usize) -> String {
    let scale = 10_u128.pow(decimals as u32);
    let size = value.unsigned_abs();
    let minus = if value < 0 { "-" } else { "" };
    format!("{minus}{}.{:0decimals$}", size / scale, size % scale)
}

/// A quote as reports write it: a yield with three decimals, a price with one.
pub fn quote_text(instrument: Instrument, quote: i64) -> String {
    fixed_point(i128::from(quote), instrument.decimals())
}

/// An average as reports write it: of yields with six decimals, of prices with four.
fn average_text(instrument: Instrument, average: i128) -> String {
    fixed_point(average, instrument.decimals() + 3)
}

/// Accepted (7.5.1).
pub fn accepted(heading: Heading, order: &Order) -> Vec<u8> {
    let mut body = of_order(heading, order);
    body.char(39, b'0').char(150, b'0');
    framed(heading, b"8", body)
}

/// Replaced (7.5.2), requested by a G (`orig_cl_ord_id` is its 41) or a decrement.
pub fn replaced(heading: Heading, order: &Order, orig_cl_ord_id: &[u8], restatement: Option<Restatement>) -> Vec<u8> {
    let mut body = of_order(heading, order);
    body.char(39, if order.executed > 0 { b'1' } else { b'5' }).char(150, b'5').text(41, orig_cl_ord_id);
    if let Some(restatement) = restatement {
        body.number(378, restatement.code());
    }
    framed(heading, b"8", body)
}

/// Canceled (7.5.3).
pub fn canceled(heading: Heading, order: &Order, cause: CancelCause) -> Vec<u8> {
    let mut body = of_order(heading, order);
    body.char(39, b'4').char(150, b'4');
    match cause {
        CancelCause::Requested { orig_cl_ord_id } => body.text(41, orig_cl_ord_id),
        CancelCause::Unrequested(restatement) => body.number(378, restatement.code()),
    };
    framed(heading, b"8", body)
}

/// Trade (7.5.4), one side of it, the order being as it is after the trade.
pub fn trade(heading: Heading, order: &Order, execution: Execution) -> Vec<u8> {
    let status = if order.open() == 0 { b'2' } else { b'1' };
    let mut body = of_order(heading, order);
    if heading.instrument == Instrument::Bonds {
        body.number(375, execution.contra_mpid.unwrap_or(0)).number(382, 1);
    }
    body.text(31, quote_text(heading.instrument, execution.at).as_bytes())
        .number(32, execution.quantity)
        .char(39, status)
        .char(150, status)
        .char(851, if execution.is_resting { b'1' } else { b'2' })
        .number(880, execution.match_number);
    framed(heading, b"8", body)
}

/// Rejected: an order that was not taken.
pub fn rejected(heading: Heading, order: RejectedOrder) -> Vec<u8> {
    let mut body = Body::new();
    body.text(6, average_text(heading.instrument, 0).as_bytes())
        .text(11, order.cl_ord_id)
        .number(14, 0)
        .number(17, heading.number)
        .char(20, b'0')
        .text(37, b"NONE")
        .number(38, order.order_qty)
        .char(39, b'8')
        .char(54, order.side)
        .text(55, order.symbol)
        .number(103, order.reason)
        .char(150, b'8')
        .number(151, 0);
    framed(heading, b"8", body)
}

/// Cancel reject: an F or a G that was not taken.
pub fn cancel_reject(heading: Heading, reject: CancelReject) -> Vec<u8> {
    let mut body = Body::new();
    body.text(11, reject.cl_ord_id)
        .text(41, reject.orig_cl_ord_id)
        .char(39, reject.order.map_or(b'8', status_now))
        .number(102, reject.reason)
        .char(434, reject.response_to);
    match reject.order {
        Some(order) => body.number(37, order.order_id),
        None => body.text(37, b"NONE"),
    };
    framed(heading, b"9", body)
}

/// The 39 of a Cancel reject for an order of the table.
fn status_now(order: &Order) -> u8 {
    if order.canceled > 0 {
        b'4'
    } else if order.open() == 0 {
        b'2'
    } else if order.executed > 0 {
        b'1'
    } else {
        b'0'
    }
}

/// Session Reject.
pub fn session_reject(heading: Heading, refused: Refused) -> Vec<u8> {
    let mut body = Body::new();
    body.number(45, refused.msg_seq_num)
        .number(371, u64::from(refused.tag))
        .text(372, refused.msg_type)
        .number(373, u64::from(refused.reason));
    framed(heading, b"3", body)
}

/// The fields that the four kinds about an order share, from the order as it is after the event.
fn of_order(heading: Heading, order: &Order) -> Body {
    let mut body = Body::new();
    body.text(6, average_text(heading.instrument, order.average()).as_bytes())
        .text(11, &order.cl_ord_id)
        .number(14, order.executed)
        .number(17, heading.number)
        .char(20, b'0')
        .number(37, order.order_id)
        .number(38, order.order_qty)
        .char(40, b'2')
        .text(44, quote_text(heading.instrument, order.quote).as_bytes())
        .char(47, order.capacity)
        .char(54, order.side.code())
        .text(55, heading.code)
        .char(59, order.time_in_force.code())
        .text(60, heading.time)
        .number(151, order.open())
        .char(8060, order.classification);
    if heading.instrument == Instrument::Bonds {
        body.char(423, b'9');
    }
    for (tag, mark) in [(544, order.cash), (8214, order.margin)] {
        if let Some(mark) = mark {
            body.char(tag, mark);
        }
    }
    if let Some(account) = &order.account {
        body.text(1, account);
    }
    if let Some(mpid) = order.mpid {
        body.number(109, mpid);
    }
    if let Some(min_qty) = order.min_qty {
        body.number(110, min_qty);
    }
    body
}

/// A report with this header and body.
fn framed(heading: Heading, msg_type: &[u8], body: Body) -> Vec<u8> {
    let mut counted = Vec::new();
    push(&mut counted, 35, msg_type);
    push(&mut counted, 34, heading.number.to_string().as_bytes());
    push(&mut counted, 49, heading.venue);
    push(&mut counted, 50, heading.instrument.group().as_bytes());
    push(&mut counted, 52, heading.time);
    push(&mut counted, 56, heading.port);
    for (tag, value) in &body.0 {
        push(&mut counted, *tag, value);
    }
    enclosed(&counted)
}

/// 8 and 9, the bytes that 9 counts, and 10.
pub fn enclosed(counted: &[u8]) -> Vec<u8> {
    let mut report = Vec::new();
    push(&mut report, 8, b"FIX.4.2");
    push(&mut report, 9, counted.len().to_string().as_bytes());
    report.extend(counted);
    let check_sum = three_digits(sum(&report));
    push(&mut report, 10, &check_sum);
    report
}

/// Adds one field.
pub fn push(bytes: &mut Vec<u8>, tag: u32, value: &[u8]) {
    bytes.extend(tag.to_string().as_bytes());
    bytes.push(b'=');
    bytes.extend(value);
    bytes.push(SOH);
}

/// Cuts the bytes that a Run wrote into its reports: each begins with field 8, which stands nowhere else.
pub fn split_reports(bytes: &[u8]) -> Vec<&[u8]> {
    const BEGIN: &[u8] = b"8=FIX.4.2\x01";
    let starts = (0..bytes.len()).filter(|&at| bytes[at..].starts_with(BEGIN) && (at == 0 || bytes[at - 1] == SOH));
    let starts: Vec<usize> = starts.chain([bytes.len()]).collect();
    starts.windows(2).map(|pair| &bytes[pair[0]..pair[1]]).collect()
}
