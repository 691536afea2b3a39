//! Bytes as text of one line: `|` for SOH, `\xHH` for any other byte that is not printable ASCII and for `|`, `;`
//! and `\` themselves.

use crate::message::SOH;
use crate::shape::is_character;

/// Writes `bytes` as text.
pub fn escaped(bytes: &[u8]) -> String {
    let mut text = String::new();
    for &byte in bytes {
        match byte {
            SOH => text.push('|'),
            b'|' | b';' | b'\\' => text.push_str(&format!("\\x{byte:02x}")),
            _ if is_character(byte) => text.push(char::from(byte)),
            _ => text.push_str(&format!("\\x{byte:02x}")),
        }
    }
    text
}

/// Reads the bytes back; `None` if `text` has a loose `;` or `\` or a character that is not printable ASCII.
pub fn unescaped(text: &str) -> Option<Vec<u8>> {
    let mut bytes = Vec::new();
    let mut rest = text.as_bytes();
    while let Some((&first, others)) = rest.split_first() {
        rest = others;
        bytes.push(match first {
            b'|' => SOH,
            b'\\' => {
                let (byte, after) = hex_byte(others)?;
                rest = after;
                byte
            }
            b';' => return None,
            _ if is_character(first) => first,
            _ => return None,
        });
    }
    Some(bytes)
}

/// The byte after a backslash, `xHH` in lower case, and what follows it.
fn hex_byte(text: &[u8]) -> Option<(u8, &[u8])> {
    match text {
        [b'x', high, low, rest @ ..] => Some((hex_digit(*high)? * 16 + hex_digit(*low)?, rest)),
        _ => None,
    }
}

fn hex_digit(digit: u8) -> Option<u8> {
    match digit {
        b'0'..=b'9' => Some(digit - b'0'),
        b'a'..=b'f' => Some(digit - b'a' + 10),
        _ => None,
    }
}
