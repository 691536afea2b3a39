//! The fields of a message, and whether it is garbled ("Reading a message" of 01).

use crate::shape::{is_character, is_time, number};

/// The byte that ends a field.
pub const SOH: u8 = 0x01;

/// The longest message that is read at all.
pub const LONGEST_MESSAGE: usize = 1024;

/// One field: its tag as a number and its value as that part of the message.
#[derive(Clone, Copy, Debug, PartialEq, Eq)]
pub struct Field<'a> {
    pub tag: u32,
    pub value: &'a [u8],
}

/// A message that is not garbled: the header's values and the body's fields in their order.
#[derive(Debug)]
pub struct Message<'a> {
    pub msg_type: &'a [u8],
    pub msg_seq_num: u64,
    pub sender_comp_id: &'a [u8],
    pub sending_time: &'a [u8],
    pub target_comp_id: &'a [u8],
    pub body: Vec<Field<'a>>,
}

/// Reads `bytes` as a message; `None` says garbled.
pub fn parse(bytes: &[u8]) -> Option<Message<'_>> {
    if bytes.is_empty() || bytes.len() > LONGEST_MESSAGE {
        return None;
    }
    let fields = split_fields(bytes)?;
    if !are_in_order(&fields) || has_repeated_tag(&fields) || !is_framed_truly(bytes, &fields) {
        return None;
    }
    header_and_body(&fields)
}

/// Cuts `bytes` into fields: tag, `=`, value, SOH, with nothing left over. The first `=` ends the tag.
pub fn split_fields(bytes: &[u8]) -> Option<Vec<Field<'_>>> {
    let inside = bytes.strip_suffix(&[SOH])?;
    inside.split(|&byte| byte == SOH).map(split_field).collect()
}

/// Cuts one field, its SOH taken off, into tag and value.
fn split_field(text: &[u8]) -> Option<Field<'_>> {
    let equals = text.iter().position(|&byte| byte == b'=')?;
    let (tag, value) = (&text[..equals], &text[equals + 1..]);
    if tag.first() == Some(&b'0') || !value.iter().all(|&byte| is_character(byte)) {
        return None;
    }
    Some(Field { tag: number(tag, 4)? as u32, value })
}

/// The seven header fields stand first, in the order of the paper, and 10 stands last.
fn are_in_order(fields: &[Field]) -> bool {
    const HEADER: [u32; 7] = [8, 9, 35, 34, 49, 52, 56];
    fields.len() > HEADER.len()
        && fields.iter().zip(HEADER).all(|(field, tag)| field.tag == tag)
        && fields.last().is_some_and(|field| field.tag == 10)
}

fn has_repeated_tag(fields: &[Field]) -> bool {
    let mut tags: Vec<u32> = fields.iter().map(|field| field.tag).collect();
    tags.sort_unstable();
    tags.windows(2).any(|pair| pair[0] == pair[1])
}

/// 8 is FIX.4.2, and 9 and 10 are true. Assumes the fields in order.
fn is_framed_truly(bytes: &[u8], fields: &[Field]) -> bool {
    let check_sum = fields[fields.len() - 1].value;
    let before_10 = bytes.len() - "10=".len() - check_sum.len() - 1;
    let before_35 = "8=".len() + fields[0].value.len() + 1 + "9=".len() + fields[1].value.len() + 1;
    fields[0].value == b"FIX.4.2"
        && number(fields[1].value, 4) == Some((before_10 - before_35) as u64)
        && check_sum == three_digits(sum(&bytes[..before_10]))
}

/// The CheckSum of `bytes`: their sum, modulo 256.
pub fn sum(bytes: &[u8]) -> u8 {
    bytes.iter().fold(0, |total, &byte| total.wrapping_add(byte))
}

/// A CheckSum as it is written.
pub fn three_digits(sum: u8) -> [u8; 3] {
    [b'0' + sum / 100, b'0' + sum / 10 % 10, b'0' + sum % 10]
}

/// Takes the fields apart, if the header's values are what they must be. Assumes the fields in order.
fn header_and_body<'a>(fields: &[Field<'a>]) -> Option<Message<'a>> {
    let message = Message {
        msg_type: fields[2].value,
        msg_seq_num: number(fields[3].value, 9)?,
        sender_comp_id: fields[4].value,
        sending_time: fields[5].value,
        target_comp_id: fields[6].value,
        body: fields[7..fields.len() - 1].to_vec(),
    };
    let good = (1..=2).contains(&message.msg_type.len())
        && message.msg_seq_num >= 1
        && !message.sender_comp_id.is_empty()
        && is_time(message.sending_time)
        && !message.target_comp_id.is_empty();
    good.then_some(message)
}
