//! A table written out overnight and read back (T-12 of document 02): 65 blocks of 512 bytes. A block has 508 bytes of the
//! table, the last one 256 and zeros behind them, and a check of 4 bytes, low byte first.

use crate::instrument::Instrument;
use crate::market::{Market, Refusal};
use crate::table::{market, TABLE};

pub const BLOCKS: usize = 65;
pub const BLOCK: usize = 512;
pub const IMAGE: usize = BLOCKS * BLOCK;

/// Bytes of the table in a block.
pub const DATA: usize = 508;

/// Why an image is not read back: a refusal, and the first block that is wrong where it is one.
#[derive(Clone, Copy, Debug, PartialEq, Eq)]
pub struct NotRestored {
    pub refusal: Refusal,
    pub block: u64,
}

/// The check of a block with this number and these bytes before it: each byte times its position, counted from 1, and the
/// block's number times 33,554,432, which is more than the bytes of a block can sum up to.
pub fn check(block: usize, data: &[u8]) -> u32 {
    let sum: usize = data.iter().enumerate().map(|(at, &byte)| (at + 1) * usize::from(byte)).sum();
    u32::try_from(sum + block * 33_554_432).expect("65 blocks are within 32 bits")
}

/// The image of a table, if a market that these calls are for stands in it, and both buffers are as long as they must be.
pub fn save(calls: Instrument, table: &[u8], image_length: usize) -> Result<Vec<u8>, Refusal> {
    if table.len() != TABLE || image_length != IMAGE {
        return Err(Refusal::LengthWrong);
    }
    market(table).filter(|market| market.instrument() == calls).ok_or(Refusal::NotAMarket)?;
    Ok(image(table))
}

/// The image of any table.
pub fn image(table: &[u8]) -> Vec<u8> {
    let mut image = Vec::with_capacity(IMAGE);
    for (block, part) in table.chunks(DATA).enumerate() {
        let mut data = part.to_vec();
        data.resize(DATA, 0);
        image.extend(&data);
        image.extend(check(block, &data).to_le_bytes());
    }
    image
}

/// The market that an image was written of, for a table of so many bytes; or why not.
pub fn restore(calls: Instrument, table_length: usize, image: &[u8]) -> Result<Market, NotRestored> {
    let refused = |refusal| NotRestored { refusal, block: 0 };
    if table_length != TABLE || image.len() != IMAGE {
        return Err(refused(Refusal::LengthWrong));
    }
    if let Some(block) = first_wrong(image) {
        return Err(NotRestored { refusal: Refusal::BlockWrong, block: block as u64 });
    }
    let data: Vec<u8> = image.chunks(BLOCK).flat_map(|block| block[..DATA].to_vec()).collect();
    let table = &data[..TABLE];
    market(table).filter(|market| market.instrument() == calls).ok_or(refused(Refusal::NotAMarket))
}

/// The first block whose check is wrong; or the last, if its filling is not zero.
fn first_wrong(image: &[u8]) -> Option<usize> {
    let is_wrong = |&(block, bytes): &(usize, &[u8])| {
        let (data, said) = bytes.split_at(DATA);
        let is_filled = block == BLOCKS - 1 && data[TABLE % DATA..].iter().any(|&byte| byte != 0);
        check(block, data).to_le_bytes() != said || is_filled
    };
    image.chunks(BLOCK).enumerate().find(is_wrong).map(|(block, _)| block)
}
