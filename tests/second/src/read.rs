//! Read: the bytes of one report, taken apart strictly ("The reports" of 01), and those of one drop copy (T-01 of 02).
//!
//! Nothing here asks the writer. A kind is a row of slots: the tags in the order in which they stand, which of them
//! may be absent, and the shape and range of each value. But for 9 and 10, no field is compared with another.

use crate::instrument::Instrument;
use crate::message::{split_fields, sum, three_digits, Field};
use crate::report::LONGEST_REPORT;
use crate::shape::{is_character, is_digits, is_id_character, is_time};

/// The kinds of report, by the numbers that Read gives.
#[derive(Clone, Copy, Debug, PartialEq, Eq)]
pub enum Kind {
    Accepted = 1,
    Replaced = 2,
    Canceled = 3,
    Trade = 4,
    Rejected = 5,
    CancelReject = 6,
    SessionReject = 7,
}

/// A report or a drop copy that was read: its kind and all its fields in the order of the bytes.
#[derive(Debug)]
pub struct Report<'a> {
    pub kind: Kind,
    pub fields: Vec<Field<'a>>,
}

impl<'a> Report<'a> {
    /// The value of a tag, if the report has it.
    pub fn value(&self, tag: u32) -> Option<&'a [u8]> {
        self.fields.iter().find(|field| field.tag == tag).map(|field| field.value)
    }
}

/// What a slot's value must be.
#[derive(Clone, Copy)]
enum Shape {
    /// One of these texts.
    OneOf(&'static [&'static str]),
    /// A number without needless zeros, from the first to the second.
    Number(u64, u64),
    /// A quote of this market: a yield or a price.
    Quote(Instrument),
    /// An average of them, with three decimals more.
    Average(Instrument),
    /// 1 to so many characters, 20 to 7E hex.
    Text(usize),
    /// 1 to so many characters, 21 to 7E hex.
    Id(usize),
    /// 1 to 9 digits, leading zeros kept.
    Code,
    Time,
    /// The number of a report, or NONE.
    NumberOrNone,
}

/// One place in a kind's row.
#[derive(Clone, Copy)]
struct Slot {
    tag: u32,
    shape: Shape,
    is_optional: bool,
}

const fn needs(tag: u32, shape: Shape) -> Slot {
    Slot { tag, shape, is_optional: false }
}

const fn may_have(tag: u32, shape: Shape) -> Slot {
    Slot { tag, shape, is_optional: true }
}

const QUANTITY: Shape = Shape::Number(0, 999_999_999);
const REPORT_NUMBER: Shape = Shape::Number(1, 999_999_999);
const CL_ORD_ID: Shape = Shape::Text(32);
const COMP_ID: Shape = Shape::Id(8);

const ID: Slot = needs(11, CL_ORD_ID);
const EXEC_ID: Slot = needs(17, REPORT_NUMBER);
const EXEC_TRANS_TYPE: Slot = needs(20, Shape::OneOf(&["0"]));
const ORDER_QTY: Slot = needs(38, QUANTITY);
const COPY_MSG_INDICATOR: Slot = needs(797, Shape::OneOf(&["Y"]));

const fn status(values: &'static [&'static str]) -> Slot {
    needs(39, Shape::OneOf(values))
}

const fn exec_type(values: &'static [&'static str]) -> Slot {
    needs(150, Shape::OneOf(values))
}

/// 54 and 55, which stand on every report about an order or its rejection.
fn side_and_symbol(instrument: Instrument) -> [Slot; 2] {
    match instrument {
        Instrument::Bonds => [needs(54, Shape::OneOf(&["1", "2"])), needs(55, Shape::Code)],
        Instrument::Equities => [needs(54, Shape::OneOf(&["1", "2", "5", "6"])), needs(55, Shape::Text(9))],
    }
}

/// Between 9 and the body.
fn header(instrument: Instrument) -> [Slot; 6] {
    let group: &[&str] = match instrument {
        Instrument::Bonds => &["DJGB"],
        Instrument::Equities => &["DAY"],
    };
    [
        needs(35, Shape::OneOf(&["3", "8", "9"])),
        needs(34, REPORT_NUMBER),
        needs(49, COMP_ID),
        needs(50, Shape::OneOf(group)),
        needs(52, Shape::Time),
        needs(56, COMP_ID),
    ]
}

/// What all reports about an order have, but for 39 and 150: sections 7.5.1 to 7.5.4 of documents 000 and 003.
fn of_order(instrument: Instrument) -> Vec<Slot> {
    let common = [
        may_have(1, Shape::Text(10)),
        needs(6, Shape::Average(instrument)),
        ID,
        needs(14, QUANTITY),
        EXEC_ID,
        EXEC_TRANS_TYPE,
        needs(37, REPORT_NUMBER),
        ORDER_QTY,
        needs(40, Shape::OneOf(&["2"])),
        needs(44, Shape::Quote(instrument)),
        needs(47, Shape::OneOf(&["A", "P"])),
        needs(59, Shape::OneOf(&["0", "3", "4"])),
        needs(60, Shape::Time),
        may_have(109, Shape::Number(1, 999_999)),
        may_have(110, QUANTITY),
        needs(151, QUANTITY),
        needs(8060, Shape::OneOf(&["1", "3", "4", "5", "6"])),
    ];
    let own: &[Slot] = match instrument {
        Instrument::Bonds => &[needs(423, Shape::OneOf(&["9"]))],
        Instrument::Equities => {
            &[needs(544, Shape::OneOf(&["1", "2", "3"])), may_have(8214, Shape::OneOf(&["1", "2"]))]
        }
    };
    [&common[..], own, &side_and_symbol(instrument)].concat()
}

/// What a Trade has besides.
fn of_trade(instrument: Instrument) -> Vec<Slot> {
    let common = [
        needs(31, Shape::Quote(instrument)),
        needs(32, QUANTITY),
        needs(851, Shape::OneOf(&["1", "2"])),
        needs(880, REPORT_NUMBER),
    ];
    let own: &[Slot] = match instrument {
        Instrument::Bonds => &[needs(375, Shape::Number(0, 999_999)), needs(382, Shape::OneOf(&["1"]))],
        Instrument::Equities => &[],
    };
    [&common[..], own].concat()
}

/// What Rejected has.
fn of_rejected(instrument: Instrument) -> Vec<Slot> {
    let common = [
        needs(6, Shape::Average(instrument)),
        ID,
        needs(14, Shape::OneOf(&["0"])),
        EXEC_ID,
        EXEC_TRANS_TYPE,
        needs(37, Shape::OneOf(&["NONE"])),
        ORDER_QTY,
        status(&["8"]),
        needs(103, Shape::OneOf(&["0", "1", "6", "99"])),
        exec_type(&["8"]),
        needs(151, Shape::OneOf(&["0"])),
    ];
    [&common[..], &side_and_symbol(instrument)].concat()
}

/// What Cancel reject has.
fn of_cancel_reject() -> Vec<Slot> {
    vec![
        ID,
        needs(37, Shape::NumberOrNone),
        status(&["0", "1", "2", "4", "8"]),
        needs(41, CL_ORD_ID),
        needs(102, Shape::OneOf(&["0", "1", "2"])),
        needs(434, Shape::OneOf(&["1", "2"])),
    ]
}

/// What Session Reject has.
fn of_session_reject() -> Vec<Slot> {
    vec![
        needs(45, REPORT_NUMBER),
        needs(371, Shape::Number(1, 9999)),
        needs(372, Shape::Text(2)),
        needs(373, Shape::OneOf(&["1", "2", "3", "4", "5", "6", "9", "11"])),
    ]
}

/// The body of a kind of report, tags ascending. Of 41 and 378, one stands on a Canceled, not both: `has_one_cause` asks
/// that.
fn row_of(instrument: Instrument, kind: Kind) -> Vec<Slot> {
    let own = match kind {
        Kind::Accepted => vec![status(&["0"]), exec_type(&["0"])],
        Kind::Replaced => {
            vec![status(&["1", "5"]), needs(41, CL_ORD_ID), exec_type(&["5"]), may_have(378, Shape::OneOf(&["100"]))]
        }
        Kind::Canceled => vec![
            status(&["4"]),
            may_have(41, CL_ORD_ID),
            exec_type(&["4"]),
            may_have(378, Shape::OneOf(&["99", "100"])),
        ],
        Kind::Trade => [&[status(&["1", "2"]), exec_type(&["1", "2"])], &of_trade(instrument)[..]].concat(),
        Kind::Rejected => return ascending(of_rejected(instrument)),
        Kind::CancelReject => return of_cancel_reject(),
        Kind::SessionReject => return of_session_reject(),
    };
    ascending([of_order(instrument), own].concat())
}

fn ascending(mut row: Vec<Slot>) -> Vec<Slot> {
    row.sort_by_key(|slot| slot.tag);
    row
}

/// Reads `bytes` as one report of a market; `None` is refusal 11.
pub fn read(instrument: Instrument, bytes: &[u8]) -> Option<Report<'_>> {
    read_by(instrument, bytes, |kind| Some(row_of(instrument, kind)))
}

/// Reads `bytes` as one drop copy of such a report; `None` is refusal 11.
pub fn read_copy(instrument: Instrument, bytes: &[u8]) -> Option<Report<'_>> {
    read_by(instrument, bytes, |kind| row_of_copy(instrument, kind))
}

/// The number of fields between 9 and the body.
const HEADER: usize = 6;

/// Reads `bytes` by the rows of the kinds that there may be.
fn read_by(instrument: Instrument, bytes: &[u8], row_of: impl Fn(Kind) -> Option<Vec<Slot>>) -> Option<Report<'_>> {
    if bytes.len() > LONGEST_REPORT {
        return None;
    }
    let fields = split_fields(bytes)?;
    let (head, body) = unframed(bytes, &fields)?.split_at_checked(HEADER)?;
    let kind = kind_of(head, body)?;
    let good = fits(head, &header(instrument))
        && fits(body, &row_of(kind)?)
        && (kind != Kind::Canceled || has_one_cause(body));
    good.then_some(Report { kind, fields })
}

/// The fields between 9 and 10, if 8, 9 and 10 stand in their places and are true.
fn unframed<'a, 'b>(bytes: &[u8], fields: &'b [Field<'a>]) -> Option<&'b [Field<'a>]> {
    let [begin, length, inner @ .., check_sum] = fields else {
        return None;
    };
    let before_10 = bytes.len().checked_sub("10=xxx|".len())?;
    let before_35 = "8=FIX.4.2|9=".len() + length.value.len() + "|".len();
    let good = (begin.tag, begin.value) == (8, b"FIX.4.2")
        && length.tag == 9
        && length.value == before_10.checked_sub(before_35)?.to_string().as_bytes()
        && check_sum.tag == 10
        && check_sum.value == three_digits(sum(&bytes[..before_10]));
    good.then_some(inner)
}

/// The only kind that these fields can be of: told by 35, and for execution reports by 150.
fn kind_of(header: &[Field], body: &[Field]) -> Option<Kind> {
    let exec_type = body.iter().find(|field| field.tag == 150).map(|field| field.value);
    match (header.first()?.value, exec_type) {
        (b"8", Some(b"0")) => Some(Kind::Accepted),
        (b"8", Some(b"5")) => Some(Kind::Replaced),
        (b"8", Some(b"4")) => Some(Kind::Canceled),
        (b"8", Some(b"1" | b"2")) => Some(Kind::Trade),
        (b"8", Some(b"8")) => Some(Kind::Rejected),
        (b"9", _) => Some(Kind::CancelReject),
        (b"3", _) => Some(Kind::SessionReject),
        _ => None,
    }
}

/// The row of a copy: 59 is not 4, 109 always stands and shows identifiers, and 797=Y stands where ascending tags put
/// it. Rejects of any sort have no copy.
fn row_of_copy(instrument: Instrument, kind: Kind) -> Option<Vec<Slot>> {
    if matches!(kind, Kind::Rejected | Kind::CancelReject | Kind::SessionReject) {
        return None;
    }
    let of_copy = [
        needs(59, Shape::OneOf(&["0", "3"])),
        needs(109, Shape::Id(instrument.longest_client_id())),
        COPY_MSG_INDICATOR,
    ];
    let mut row = row_of(instrument, kind);
    row.retain(|slot| of_copy.iter().all(|own| own.tag != slot.tag));
    row.extend(of_copy);
    Some(ascending(row))
}

/// Whether `fields` are those of `row`, in its order, each with a value of its slot.
fn fits(fields: &[Field], row: &[Slot]) -> bool {
    let mut rest = fields;
    for slot in row {
        match rest.split_first() {
            Some((field, others)) if field.tag == slot.tag => {
                if !has_shape(field.value, slot.shape) {
                    return false;
                }
                rest = others;
            }
            _ if slot.is_optional => {}
            _ => return false,
        }
    }
    rest.is_empty()
}

/// A Canceled was requested (41) or not (378).
fn has_one_cause(body: &[Field]) -> bool {
    body.iter().filter(|field| field.tag == 41 || field.tag == 378).count() == 1
}

fn has_shape(value: &[u8], shape: Shape) -> bool {
    match shape {
        Shape::OneOf(values) => values.iter().any(|known| known.as_bytes() == value),
        Shape::Number(least, most) => plain_number(value).is_some_and(|number| (least..=most).contains(&number)),
        Shape::Quote(instrument) => is_fixed(instrument, value, instrument.decimals()),
        Shape::Average(instrument) => is_fixed(instrument, value, instrument.decimals() + 3),
        Shape::Text(most) => (1..=most).contains(&value.len()) && value.iter().all(|&byte| is_character(byte)),
        Shape::Id(most) => (1..=most).contains(&value.len()) && value.iter().all(|&byte| is_id_character(byte)),
        Shape::Code => is_digits(value, 9),
        Shape::Time => is_time(value),
        Shape::NumberOrNone => value == b"NONE" || has_shape(value, REPORT_NUMBER),
    }
}

/// A number of up to 9 digits without needless zeros.
fn plain_number(text: &[u8]) -> Option<u64> {
    let is_plain = is_digits(text, 9) && (text[0] != b'0' || text.len() == 1);
    if is_plain {
        std::str::from_utf8(text).ok()?.parse().ok()
    } else {
        None
    }
}

/// A minus if need be, which no price has, whole digits without needless zeros, a point, and exactly `decimals` digits.
fn is_fixed(instrument: Instrument, text: &[u8], decimals: usize) -> bool {
    let size = text.strip_prefix(b"-").unwrap_or(text);
    let is_negative = size.len() < text.len();
    let Some(whole) = size.len().checked_sub(decimals + 1).map(|length| &size[..length]) else {
        return false;
    };
    let tail = &size[whole.len()..];
    let is_zero = size.iter().all(|&byte| byte == b'0' || byte == b'.');
    whole.len() <= instrument.whole_digits()
        && plain_number(whole).is_some()
        && tail[0] == b'.'
        && is_digits(&tail[1..], decimals)
        && !(is_negative && (is_zero || instrument == Instrument::Equities))
}
