//! A morning's orders in one call (T-07 of document 02): messages that lie one behind another in a buffer, each found by its
//! own BodyLength, submitted and run to their end one by one.

use crate::market::{Market, Refusal, FREE, LAST_SUBMIT_NUMBER};
use crate::message::SOH;
use crate::shape::number;

/// What was done: 0 or why it stopped, the place of the first message not submitted, how many messages were finished, and
/// the reports, one behind another, and how many they are.
#[derive(Clone, Debug, Default, PartialEq, Eq)]
pub struct Loaded {
    pub number: u64,
    pub place: usize,
    pub finished: u64,
    pub bytes: Vec<u8>,
    pub reports: u64,
}

/// Loads a buffer into a market with a report area of so many bytes.
pub fn load(market: &mut Market, buffer: &[u8], area: usize) -> Loaded {
    let mut loaded = Loaded::default();
    if area < FREE {
        loaded.number = Refusal::AreaTooSmall.number();
    } else if market.in_work().is_some() {
        loaded.number = Refusal::OrderInWork.number();
    } else {
        while loaded.number == 0 && loaded.place < buffer.len() {
            load_next(market, buffer, area, &mut loaded);
        }
    }
    loaded
}

/// The next message: it is submitted and run, or the number says why not, or why it is not finished.
fn load_next(market: &mut Market, buffer: &[u8], area: usize, loaded: &mut Loaded) {
    let rest = &buffer[loaded.place..];
    let room = area - loaded.bytes.len();
    if room < FREE {
        loaded.number = Refusal::AreaTooSmall.number();
        return;
    }
    let Some(length) = message_length(rest) else {
        loaded.number = Refusal::Garbled.number();
        return;
    };
    if market.next_number() > LAST_SUBMIT_NUMBER {
        loaded.number = Refusal::NumbersSpent.number();
        return;
    }
    loaded.place += length;
    let report = market.submit(&rest[..length], room).report;
    loaded.reports += u64::from(!report.is_empty());
    loaded.bytes.extend(report);
    if market.in_work().is_some() {
        let ran = market.run(area - loaded.bytes.len(), u64::MAX);
        loaded.reports += ran.reports;
        loaded.bytes.extend(ran.bytes);
    }
    if market.in_work().is_some() {
        loaded.number = Refusal::AreaTooSmall.number();
    } else {
        loaded.finished += 1;
    }
}

/// The length of the message at the front of some bytes: 8=FIX.4.2, a field 9 of 1 to 4 digits, as many bytes as these
/// say, and seven for field 10. `None` if they do not begin so, or are too few.
fn message_length(bytes: &[u8]) -> Option<usize> {
    let behind_8 = bytes.strip_prefix(b"8=FIX.4.2\x01")?;
    let behind_9 = behind_8.strip_prefix(b"9=")?;
    let digits = behind_9.iter().position(|&byte| byte == SOH)?;
    let body_length = number(&behind_9[..digits], 4)? as usize;
    let front = bytes.len() - behind_9.len() + digits + 1;
    let length = front + body_length + "10=xxx|".len();
    (length <= bytes.len()).then_some(length)
}
