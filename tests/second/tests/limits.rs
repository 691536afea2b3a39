//! Limits that are looked at through the library rather than through commands.

use second::compose::{cancel, new_order, order, Draft};
use second::copy::{copy, Feed};
use second::instrument::Instrument::{Bonds, Equities};
use second::market::{Market, Participant, Refusal};
use second::read::{read, read_copy};

/// Venue V, port P, code 350 with one MPID.
fn market_from(first_number: u64) -> Market {
    Market::open(Bonds, b"V", b"P", b"350", first_number, &[Participant { mpid: 10, mode: 1 }])
        .expect("the settings are good")
}

/// Submits a message and runs it to its end; gives Submit's number.
fn play(market: &mut Market, draft: &Draft) -> u64 {
    let number = market.submit(&draft.bytes(), 1024).number;
    while market.in_work().is_some() {
        market.run(1024, 1);
    }
    number
}

/// The 103 that a message gets.
fn reason(market: &mut Market, draft: &Draft) -> Vec<u8> {
    let submitted = market.submit(&draft.bytes(), 1024);
    assert_eq!(submitted.number, Refusal::OrderRejected.number());
    read(Bonds, &submitted.report).expect("Rejected can be read").value(103).expect("Rejected has 103").to_vec()
}

#[test]
fn a_day_has_any_number_of_orders() {
    let mut market = market_from(1);
    for id in 1..=1_000 {
        assert_eq!(play(&mut market, &new_order(&format!("a{id}"))), 0);
        assert_eq!(play(&mut market, &cancel(&format!("a{id}"), &format!("b{id}"), "1")), 0);
    }
    assert_eq!(market.orders().len(), 255);
    let ids: Vec<&[u8]> = market.orders().iter().map(|order| order.cl_ord_id.as_slice()).collect();
    assert_eq!(
        (ids[0], ids[1], ids[254]),
        (&b"b1000"[..], &b"b2"[..], &b"b255"[..]),
        "the lowest record goes each time"
    );
}

#[test]
fn there_is_no_room_exactly_while_255_orders_are_open() {
    let mut market = market_from(1);
    for id in 1..=255 {
        assert_eq!(play(&mut market, &new_order(&format!("a{id}"))), 0);
    }
    assert_eq!(reason(&mut market, &new_order("late")), b"0");
    assert_eq!(reason(&mut market, &new_order("a7")), b"6");
    for id in [255, 1, 128] {
        let (old, new) = (format!("a{id}"), format!("b{id}"));
        assert_eq!(play(&mut market, &cancel(&old, &new, "1")), 0);
        assert_eq!(reason(&mut market, &new_order(&new)), b"6", "a dead order's ClOrdID counts until it goes");
        assert_eq!(play(&mut market, &new_order(&old)), 0);
        assert_eq!(market.orders()[id - 1].order_id, market.next_number() - 1);
        assert_eq!(reason(&mut market, &new_order("late")), b"0");
    }
}

#[test]
fn the_last_submit_has_numbers_for_all_that_it_meets() {
    let mut market = market_from(999_998_976 - 254);
    for record in 1..=254 {
        assert_eq!(play(&mut market, &order(&format!("s{record}"), "2", "1", "0.1")), 0);
    }
    assert_eq!(market.next_number(), 999_998_976);
    assert_eq!(market.submit(&order("b", "1", "254", "0.1").bytes(), 1024).number, 0);
    let ran = market.run(1_000_000, 1_000);
    assert_eq!((ran.reports, ran.steps, market.next_number()), (508, 255, 999_999_485));
    assert_eq!(market.submit(&new_order("c").bytes(), 1024).number, Refusal::NumbersSpent.number());
}

#[test]
fn open_needs_1_to_8_entries() {
    let list: Vec<Participant> = (1..=9).map(|mpid| Participant { mpid, mode: 1 }).collect();
    for count in 0..=9 {
        let opened = Market::open(Bonds, b"V", b"P", b"350", 1, &list[..count]);
        assert_eq!(opened.is_ok(), (1..=8).contains(&count));
        assert!(opened.is_ok() || opened == Err(Refusal::SettingWrong));
    }
}

#[test]
fn refusals_have_the_papers_numbers() {
    let in_order = [
        Refusal::AreaTooSmall,
        Refusal::NotAMarket,
        Refusal::OrderInWork,
        Refusal::NumbersSpent,
        Refusal::Garbled,
        Refusal::SessionRejected,
        Refusal::OrderRejected,
        Refusal::ChangeRejected,
        Refusal::SettingWrong,
        Refusal::SideWrong,
        Refusal::NotAReport,
        Refusal::LengthWrong,
        Refusal::BlockWrong,
        Refusal::FeedSettingWrong,
    ];
    assert_eq!(in_order.map(Refusal::number), [1, 2, 3, 4, 5, 6, 7, 8, 9, 10, 11, 12, 13, 17]);
}

/// The longest Trade and the longest Replaced.
fn longest_reports() -> [Vec<u8>; 2] {
    let id = "x".repeat(32);
    let head =
        "35=8|34=999999999|49=12345678|50=DJGB|52=20261116-09:00:00.000|56=12345678|1=0123456789|6=-999999.999999|";
    let tail = "47=A|54=1|55=123456789|59=0|60=20261116-09:00:00.000|109=999999|110=999999999|";
    let trade = format!(
        "{head}11={id}|14=999999999|17=999999999|20=0|31=-999999.999|32=999999999|37=999999999|38=999999999|39=1|40=2|\
         44=-999999.999|{tail}150=1|151=999999999|375=999999|382=1|423=9|851=1|880=999999999|8060=1|"
    );
    let replaced = format!(
        "{head}11={id}|14=999999999|17=999999999|20=0|37=999999999|38=999999999|39=1|40=2|41={id}|44=-999999.999|{tail}\
         150=5|151=999999999|378=100|423=9|8060=1|"
    );
    [trade, replaced].map(|text| Draft::of_text(&text).bytes())
}

#[test]
fn the_longest_reports_are_422_bytes() {
    let reports = longest_reports();
    assert!(reports.iter().all(|report| read(Bonds, report).is_some()));
    assert_eq!(reports.map(|report| report.len()).into_iter().max(), Some(422));
}

#[test]
fn the_longest_copies_are_452_bytes() {
    let feed = Feed { subscription: 2, shows: 3, port: vec![b'p'; 15], group: vec![b'g'; 14], next: 999_999_999 };
    let copies = longest_reports().map(|report| copy(Bonds, &feed, 1024, &report).copy);
    assert!(copies.iter().all(|copy| read_copy(Bonds, copy).is_some()));
    assert_eq!(copies.map(|copy| copy.len()).into_iter().max(), Some(452));
}

/// The longest Trade and the longest Replaced of an equities market.
fn longest_share_reports() -> [Vec<u8>; 2] {
    let id = "x".repeat(32);
    let head =
        "35=8|34=999999999|49=12345678|50=DAY|52=20261116-09:00:00.000|56=12345678|1=0123456789|6=99999999.9999|";
    let tail = "47=A|54=1|55=ABCDEFGHI|59=0|60=20261116-09:00:00.000|109=999999|110=999999999|";
    let trade = format!(
        "{head}11={id}|14=999999999|17=999999999|20=0|31=99999999.9|32=999999999|37=999999999|38=999999999|39=1|40=2|\
         44=99999999.9|{tail}150=1|151=999999999|544=2|851=1|880=999999999|8060=1|8214=1|"
    );
    let replaced = format!(
        "{head}11={id}|14=999999999|17=999999999|20=0|37=999999999|38=999999999|39=1|40=2|41={id}|44=99999999.9|{tail}\
         150=5|151=999999999|378=100|544=2|8060=1|8214=1|"
    );
    [trade, replaced].map(|text| Draft::of_text(&text).bytes())
}

#[test]
fn no_report_of_an_equities_market_is_longer_than_a_bond_markets() {
    let reports = longest_share_reports();
    assert!(reports.iter().all(|report| read(Equities, report).is_some() && read(Bonds, report).is_none()));
    let feed = Feed { subscription: 2, shows: 3, port: vec![b'p'; 10], group: vec![b'g'; 9], next: 999_999_999 };
    let copies = reports.each_ref().map(|report| copy(Equities, &feed, 1024, report).copy);
    assert!(copies.iter().all(|copy| read_copy(Equities, copy).is_some() && read_copy(Bonds, copy).is_none()));
    assert_eq!(reports.map(|report| report.len()).into_iter().max(), Some(408));
    assert_eq!(copies.map(|copy| copy.len()).into_iter().max(), Some(428));
}
