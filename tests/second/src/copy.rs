//! Drop copies: a feed is handed one written report at a time and writes a copy of it for a back office (T-01 of
//! document 02; documents 000 and 003, sections 3, 4.2, 5.1, 7.2 and 7.5.1 to 7.5.4). Nothing is kept between calls: the feed's next
//! number goes in and comes out.

use std::collections::BTreeMap;

use crate::instrument::Instrument;
use crate::market::{Refusal, FREE};
use crate::read::{read, Kind, Report};
use crate::report::{enclosed, push};
use crate::shape::is_id_character;

/// The number that a feed may write last.
pub const LAST_COPY_NUMBER: u64 = 999_999_999;

/// The fields of a report between 9 and its body: 35, 34, 49, 50, 52, 56.
const HEADER: usize = 6;

/// How a feed is set up, by the numbers that a caller gives, and its next number.
#[derive(Clone, Debug, PartialEq, Eq)]
pub struct Feed {
    /// 1 reconciliation, 2 full.
    pub subscription: u64,
    /// What 109 shows: 1 the port, 2 the group, 3 both.
    pub shows: u64,
    pub port: Vec<u8>,
    pub group: Vec<u8>,
    pub next: u64,
}

/// The answer: 0 or a refusal's number, the copy, which is empty if none was written, and the feed's next number.
#[derive(Clone, Debug, Default, PartialEq, Eq)]
pub struct Copied {
    pub number: u64,
    pub copy: Vec<u8>,
    pub next_after: u64,
}

/// Hands `report`, of a bond market or of an equities market, to a feed with an area of so many bytes.
pub fn copy(instrument: Instrument, feed: &Feed, area: usize, report: &[u8]) -> Copied {
    match copy_checked(instrument, feed, area, report) {
        Ok(copied) => copied,
        Err(refusal) => Copied { number: refusal.number(), ..Copied::default() },
    }
}

/// The same, with the refusals, in their order, given as errors.
fn copy_checked(instrument: Instrument, feed: &Feed, area: usize, report: &[u8]) -> Result<Copied, Refusal> {
    if area < FREE {
        return Err(Refusal::AreaTooSmall);
    }
    let report = read(instrument, report).ok_or(Refusal::NotAReport)?;
    let is_wanted = is_wanted(feed.subscription, report.kind).ok_or(Refusal::FeedSettingWrong)?;
    let client_id = client_id(instrument, feed).ok_or(Refusal::FeedSettingWrong)?;
    if !(1..=LAST_COPY_NUMBER).contains(&feed.next) {
        return Err(Refusal::NumbersSpent);
    }
    Ok(if is_wanted {
        Copied { number: 0, copy: written(&report, feed.next, &client_id), next_after: feed.next + 1 }
    } else {
        Copied { number: 0, copy: Vec::new(), next_after: feed.next }
    })
}

/// Whether a subscription takes reports of a kind: reconciliation trades alone, full all that happens to an order.
fn is_wanted(subscription: u64, kind: Kind) -> Option<bool> {
    match subscription {
        1 => Some(kind == Kind::Trade),
        2 => Some(matches!(kind, Kind::Accepted | Kind::Replaced | Kind::Canceled | Kind::Trade)),
        _ => None,
    }
}

/// The text of 109: the identifiers that the feed shows, if they are good. What is not shown is not looked at.
fn client_id(instrument: Instrument, feed: &Feed) -> Option<Vec<u8>> {
    let shown: Vec<&[u8]> = match feed.shows {
        1 => vec![&feed.port],
        2 => vec![&feed.group],
        3 => vec![&feed.port, &feed.group],
        _ => return None,
    };
    let is_identifier = |id: &&[u8]| !id.is_empty() && id.iter().all(|&byte| is_id_character(byte));
    let text = shown.join(&b'-');
    (shown.iter().all(is_identifier) && text.len() <= instrument.longest_client_id()).then_some(text)
}

/// The copy: 17 and 34 are the feed's number, 109 its identifiers, 797 is Y; a Fill or Kill shows as an IOC whose 110
/// is its 38; 9 and 10 are worked out anew; everything else is the report's.
fn written(report: &Report, number: u64, client_id: &[u8]) -> Vec<u8> {
    let number = number.to_string().into_bytes();
    let inner = &report.fields[2..report.fields.len() - 1];
    let (header, body) = inner.split_at(HEADER);
    let mut body: BTreeMap<u32, &[u8]> = body.iter().map(|field| (field.tag, field.value)).collect();
    body.insert(17, &number);
    body.insert(109, client_id);
    body.insert(797, b"Y");
    if body[&59] == b"4" {
        body.insert(59, b"3");
        body.insert(110, body[&38]);
    }
    let header = header.iter().map(|field| (field.tag, if field.tag == 34 { number.as_slice() } else { field.value }));
    let mut counted = Vec::new();
    for (tag, value) in header.chain(body) {
        push(&mut counted, tag, value);
    }
    enclosed(&counted)
}
