//! Shapes of values: characters, numbers, yields, prices and times, as a message may write them.
//! Reports are stricter (no needless zeros); their shapes stand in `read`.

/// A character that a value may hold: 20 to 7E hex.
pub fn is_character(byte: u8) -> bool {
    (0x20..=0x7e).contains(&byte)
}

/// A character that a venue or port id may hold: 21 to 7E hex.
pub fn is_id_character(byte: u8) -> bool {
    (0x21..=0x7e).contains(&byte)
}

/// Whether `text` is 1 to `most` digits and nothing else.
pub fn is_digits(text: &[u8], most: usize) -> bool {
    (1..=most).contains(&text.len()) && text.iter().all(u8::is_ascii_digit)
}

/// The number that 1 to `most` digits say; leading zeros are taken. `most` is at most 19, so that it fits.
pub fn number(text: &[u8], most: usize) -> Option<u64> {
    if !is_digits(text, most) {
        return None;
    }
    Some(text.iter().fold(0, |value, digit| value * 10 + u64::from(digit - b'0')))
}

/// The thousandths that a yield says: an optional minus, 1 to 6 digits, optionally a point and 1 to 3 digits.
pub fn yield_thousandths(text: &[u8]) -> Option<i64> {
    let (negative, size) = match text.split_first() {
        Some((b'-', rest)) => (true, rest),
        _ => (false, text),
    };
    let thousandths = match size.iter().position(|&byte| byte == b'.') {
        None => number(size, 6)? * 1000,
        Some(point) => number(&size[..point], 6)? * 1000 + decimals(&size[point + 1..])?,
    };
    let thousandths = i64::try_from(thousandths).ok()?;
    Some(if negative { -thousandths } else { thousandths })
}

/// The thousandths that 1 to 3 digits after the point say.
fn decimals(digits: &[u8]) -> Option<u64> {
    let value = number(digits, 3)?;
    Some(match digits.len() {
        1 => value * 100,
        2 => value * 10,
        _ => value,
    })
}

/// The tenths that a price says: 1 to 8 digits, optionally a point and 1 digit. There is no minus.
pub fn price_tenths(text: &[u8]) -> Option<i64> {
    let tenths = match text.iter().position(|&byte| byte == b'.') {
        None => number(text, 8)? * 10,
        Some(point) => number(&text[..point], 8)? * 10 + number(&text[point + 1..], 1)?,
    };
    i64::try_from(tenths).ok()
}

/// The digits and marks of a time, YYYYMMDD-HH:MM:SS or YYYYMMDD-HH:MM:SS.sss, whatever the digits say.
pub fn has_time_shape(text: &[u8]) -> bool {
    (text.len() == 17 || text.len() == 21)
        && text.iter().enumerate().all(|(place, &byte)| match place {
            8 => byte == b'-',
            11 | 14 => byte == b':',
            17 => byte == b'.',
            _ => byte.is_ascii_digit(),
        })
}

/// Whether the digits of a text with the shape of a time are in their ranges. Any year is; any month has 31 days; any
/// three digits are milliseconds.
pub fn has_time_ranges(text: &[u8]) -> bool {
    let two = |at: usize| u32::from(text[at] - b'0') * 10 + u32::from(text[at + 1] - b'0');
    (1..=12).contains(&two(4)) && (1..=31).contains(&two(6)) && two(9) <= 23 && two(12) <= 59 && two(15) <= 59
}

/// A time: shape and ranges.
pub fn is_time(text: &[u8]) -> bool {
    has_time_shape(text) && has_time_ranges(text)
}
