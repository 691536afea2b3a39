//! Images of whole tables: what is written is read back, changed bytes and every two blocks exchanged are noticed.

use second::compose::{order_of, share_order_of, Draft};
use second::image::{check, image, restore, save, NotRestored, BLOCK, BLOCKS, DATA, IMAGE};
use second::instrument::Instrument::{self, Bonds, Equities};
use second::market::{Market, Participant, Refusal};
use second::random::Random;
use second::table::{bytes, TABLE};

/// A market of each kind with 255 open orders, and the same with one of them in work again.
fn full_markets() -> Vec<Market> {
    let mut markets = Vec::new();
    for (instrument, code) in [(Bonds, "350"), (Equities, "7203")] {
        let list = [Participant { mpid: 10, mode: 3 }, Participant { mpid: 999_999, mode: 1 }];
        let mut market =
            Market::open(instrument, b"JNX", b"PORT-1", code.as_bytes(), 1, &list).expect("the settings are good");
        for id in 1..=255 {
            play(&mut market, &some_order(instrument, id));
        }
        assert!(market.orders().iter().all(|order| order.open() > 0) && market.orders().len() == 255);
        markets.push(market.clone());
        let first = market.orders()[0].clone();
        let replace = Draft::of_text(&format!(
            "35=G|34=1|49=PORT-1|52=20261116-09:00:00.123|56=JNX|11=new|21=1|38=7|40=2|41=1|44=1|54={}|55={code}|\
             60=20261116-09:00:00|",
            char::from(first.side.code())
        ));
        assert_eq!(market.submit(&replace.bytes(), 1024).number, 0);
        markets.push(market);
    }
    markets
}

/// An order that rests: buys and sells stay apart.
fn some_order(instrument: Instrument, id: u64) -> Draft {
    let side = ["1", "2"][id as usize % 2];
    let draft = match instrument {
        Bonds => order_of(
            "10",
            &id.to_string(),
            side,
            &(id * 1_000_003).to_string(),
            if side == "1" { "9.125" } else { "-3" },
        ),
        Equities => {
            let price = if side == "1" { "1.5" } else { "12345678.9" };
            share_order_of("999999", &id.to_string(), side, &(id * 1_000_003).to_string(), price)
        }
    };
    draft.with("49", "PORT-1").with("56", "JNX").inserting("11", "1", "an account")
}

fn play(market: &mut Market, draft: &Draft) {
    assert_eq!(market.submit(&draft.bytes(), 1024).number, 0);
    market.run(65_536, 1_000);
}

#[test]
fn an_image_is_read_back_to_the_same_market() {
    for market in full_markets() {
        let image = save(market.instrument(), &bytes(&market), IMAGE).expect("it is a market");
        assert_eq!(image.len(), 33_280);
        assert_eq!(restore(market.instrument(), TABLE, &image), Ok(market.clone()));
        let other = restore(market.instrument().other(), TABLE, &image);
        assert_eq!(other, Err(NotRestored { refusal: Refusal::NotAMarket, block: 0 }));
    }
}

#[test]
fn changed_bytes_are_noticed_with_their_block() {
    let mut random = Random::new(12);
    for (turn, market) in full_markets().iter().enumerate() {
        let mut image = image(&bytes(market));
        // Every byte of the last two blocks, and some of each other block; tests/c/images.c changes them all.
        for at in (0..IMAGE).filter(|at| at % 32 == 8 * turn || at / BLOCK >= 63 && at % 4 == turn) {
            let before = image[at];
            image[at] = before.wrapping_add(random.between(1, 255) as u8);
            let noticed = NotRestored { refusal: Refusal::BlockWrong, block: (at / BLOCK) as u64 };
            assert_eq!(restore(market.instrument(), TABLE, &image), Err(noticed), "byte {at}");
            image[at] = before;
        }
    }
}

#[test]
fn every_two_blocks_exchanged_are_noticed_with_the_first() {
    let empty = vec![0; TABLE];
    for table in [bytes(&full_markets()[3]), empty] {
        let image = image(&table);
        for one in 0..BLOCKS {
            for other in 0..one {
                let mut exchanged = image.clone();
                exchanged[one * BLOCK..(one + 1) * BLOCK].copy_from_slice(&image[other * BLOCK..(other + 1) * BLOCK]);
                exchanged[other * BLOCK..(other + 1) * BLOCK].copy_from_slice(&image[one * BLOCK..(one + 1) * BLOCK]);
                assert_ne!(exchanged, image);
                let noticed = NotRestored { refusal: Refusal::BlockWrong, block: other as u64 };
                assert_eq!(restore(Equities, TABLE, &exchanged), Err(noticed), "blocks {other} and {one}");
            }
        }
    }
}

#[test]
fn checks_never_wrap() {
    assert_eq!(check(0, &[255; DATA]), 255 * 508 * 509 / 2);
    assert!(check(0, &[255; DATA]) < 33_554_432);
    assert_eq!(check(64, &[255; DATA]), 64 * 33_554_432 + 32_967_930);
    assert_eq!(check(7, &[0; DATA]), 7 * 33_554_432);
}

#[test]
fn lengths_come_first_then_blocks_then_the_market() {
    let refused = |refusal, block| Err(NotRestored { refusal, block });
    let table = bytes(&full_markets()[0]);
    let good = image(&table);
    for length in [0, 1, TABLE - 1, TABLE + 1, IMAGE] {
        assert_eq!(restore(Bonds, length, &good), refused(Refusal::LengthWrong, 0));
    }
    for length in [0, 1, BLOCK, IMAGE - 1] {
        assert_eq!(restore(Bonds, TABLE, &good[..length]), refused(Refusal::LengthWrong, 0));
        assert_eq!(save(Bonds, &table, length), Err(Refusal::LengthWrong));
    }
    assert_eq!(restore(Bonds, TABLE, &[&good[..], &[0]].concat()), refused(Refusal::LengthWrong, 0));
    assert_eq!(save(Bonds, &table, IMAGE + 1), Err(Refusal::LengthWrong));
    assert_eq!(save(Bonds, &table[1..], IMAGE), Err(Refusal::LengthWrong));
    assert_eq!(save(Bonds, &[&table[..], &[0]].concat(), IMAGE), Err(Refusal::LengthWrong));
    assert_eq!(save(Equities, &table, IMAGE), Err(Refusal::NotAMarket));
    let mut forged = table.clone();
    forged[TABLE - 1] = 1;
    assert_eq!(save(Bonds, &forged, IMAGE), Err(Refusal::NotAMarket));
    assert_eq!(restore(Bonds, TABLE, &image(&forged)), refused(Refusal::NotAMarket, 0));
    let mut damaged = image(&forged);
    damaged[64 * BLOCK] ^= 1;
    assert_eq!(restore(Bonds, TABLE, &damaged), refused(Refusal::BlockWrong, 64));
    let mut filled = good;
    let last = &mut filled[64 * BLOCK..];
    last[300] = 9;
    let sum = check(64, &last[..DATA]).to_le_bytes();
    last[DATA..].copy_from_slice(&sum);
    assert_eq!(restore(Bonds, TABLE, &filled), refused(Refusal::BlockWrong, 64));
}
