//! Generated histories, looked at after every call: demand 3 from the bytes of the reports, what a market must be,
//! and what refusals leave alone.
//!
//! The tallies are taken from the reports as Read gives them, by tag 37, as the paper's paragraph on demand 3 says;
//! what is open is the market's own. Two feeds are handed the same reports, and their copies tallied in the same way.

use std::collections::{BTreeMap, BTreeSet};
use std::sync::OnceLock;

use second::copy::{copy, Feed};
use second::generate::generate;
use second::instrument::Instrument::{self, Bonds, Equities};
use second::market::Market;
use second::order::{Order, Side, TimeInForce};
use second::read::{read, read_copy, Kind, Report};
use second::report::{split_reports, LONGEST_REPORT};
use second::table::{bytes, top};
use second::transcript::{Command, Desk};

/// What is traded in the histories, their seeds and sizes; the second and the last are long enough for full tables.
const HISTORIES: [(Instrument, u64, u64); 5] =
    [(Bonds, 1, 900), (Bonds, 2, 2_700), (Bonds, 3, 900), (Equities, 4, 900), (Equities, 5, 2_700)];

/// What the reports have said about one order.
#[derive(Clone, Debug, Default, PartialEq, Eq)]
struct Tally {
    accepted: u64,
    executed: u64,
    decremented: u64,
    canceled: u64,
    leaves: u64,
}

/// What the reports of one market have said.
#[derive(Clone, Debug, Default, PartialEq, Eq)]
struct Book {
    tallies: BTreeMap<u64, Tally>,
    bought: u64,
    sold: u64,
}

fn number(report: &Report, tag: u32) -> u64 {
    let value = report.value(tag).unwrap_or_else(|| panic!("{tag} stands"));
    std::str::from_utf8(value).unwrap().parse().unwrap_or_else(|_| panic!("{tag} is a number"))
}

/// The place among the orders of the one with this OrderID.
fn record_of(market: &Market, order_id: u64) -> Option<usize> {
    market.orders().iter().position(|order| order.order_id == order_id)
}

impl Book {
    /// Takes one report into the tallies.
    fn tell(&mut self, report: &Report) {
        match report.kind {
            Kind::Rejected | Kind::CancelReject | Kind::SessionReject => {}
            _ => self.tell_of_order(report),
        }
    }

    fn tell_of_order(&mut self, report: &Report) {
        let leaves = number(report, 151);
        let tally = self.tallies.entry(number(report, 37)).or_default();
        match report.kind {
            Kind::Accepted => tally.accepted = number(report, 38),
            Kind::Replaced if report.value(378).is_none() => tally.accepted = number(report, 38),
            Kind::Replaced => tally.decremented += tally.leaves - leaves,
            Kind::Canceled => tally.canceled += tally.leaves,
            _ => {
                let quantity = number(report, 32);
                tally.executed += quantity;
                match report.value(54) {
                    Some(b"1") => self.bought += quantity,
                    _ => self.sold += quantity,
                }
            }
        }
        tally.leaves = leaves;
    }

    /// Accepted = executions + decrements + cancels + open for every order, gone ones included, which have nothing
    /// open, and bought = sold.
    fn assert_conserved(&self, market: &Market) {
        assert!(market.orders().iter().all(|order| self.tallies.contains_key(&order.order_id)));
        for (&order_id, tally) in &self.tallies {
            let open = record_of(market, order_id).map_or(0, |record| market.orders()[record].open());
            assert_eq!(tally.accepted, tally.executed + tally.decremented + tally.canceled + open, "order {order_id}");
            assert_eq!(tally.leaves, open, "order {order_id}");
        }
        assert_eq!(self.bought, self.sold);
    }
}

/// A back office: a feed from number 1 that is handed every report of a market, and what its copies have said.
#[derive(Clone)]
struct BackOffice {
    feed: Feed,
    book: Book,
}

impl BackOffice {
    fn new(subscription: u64) -> BackOffice {
        let feed = Feed { subscription, shows: 3, port: b"PORT1".to_vec(), group: b"DESK".to_vec(), next: 1 };
        BackOffice { feed, book: Book::default() }
    }

    /// Hands over one report; its copy, if there is one, has the feed's number and is taken into the tallies.
    fn hear(&mut self, instrument: Instrument, text: &[u8], report: &Report) {
        let copied = copy(instrument, &self.feed, 1024, text);
        let is_wanted = match self.feed.subscription {
            1 => report.kind == Kind::Trade,
            _ => (report.kind as u64) <= Kind::Trade as u64,
        };
        assert_eq!((copied.number, copied.copy.is_empty()), (0, !is_wanted));
        assert_eq!(copied.next_after, self.feed.next + u64::from(is_wanted));
        if is_wanted {
            assert!(copied.copy.len() <= LONGEST_REPORT);
            let read = read_copy(instrument, &copied.copy).expect("what is written can be read");
            assert_eq!((number(&read, 34), number(&read, 17)), (self.feed.next, self.feed.next));
            assert_same_but_for_six_fields(&read, report);
            self.book.tell(&read);
        }
        self.feed.next = copied.next_after;
    }
}

/// A copy has the report's kind and fields, but for 9, 10, 17, 34, 109 and 797, and for 59 and 110 of a Fill or Kill.
fn assert_same_but_for_six_fields(copy: &Report, report: &Report) {
    let is_fill_or_kill = report.value(59) == Some(b"4");
    let changes = if is_fill_or_kill { &[9, 10, 17, 34, 59, 109, 110, 797][..] } else { &[9, 10, 17, 34, 109, 797] };
    let others = |of: &Report| -> Vec<(u32, Vec<u8>)> {
        let fields = of.fields.iter().filter(|field| !changes.contains(&field.tag));
        fields.map(|field| (field.tag, field.value.to_vec())).collect()
    };
    if is_fill_or_kill {
        assert_eq!((copy.value(59), copy.value(110), report.value(110)), (Some(&b"3"[..]), report.value(38), None));
    }
    assert_eq!((copy.kind, others(copy)), (report.kind, others(report)));
    assert_eq!((copy.value(109), copy.value(797)), (Some(&b"PORT1-DESK"[..]), Some(&b"Y"[..])));
}

/// The two reports of a trade follow each other, say the same of it, and are not of one MPID. A bond market's each name
/// the other's MPID.
fn assert_no_self_trade(instrument: Instrument, reports: &[Report]) {
    let trades: Vec<&Report> = reports.iter().filter(|report| report.kind == Kind::Trade).collect();
    for pair in trades.chunks(2) {
        let [resting, in_work] = pair else { panic!("a trade has two reports") };
        for tag in [31, 32, 880, 52] {
            assert_eq!(resting.value(tag), in_work.value(tag));
        }
        assert_eq!(number(resting, 880), number(resting, 34));
        assert_eq!((resting.value(851), in_work.value(851)), (Some(&b"1"[..]), Some(&b"2"[..])));
        let named = |other: &Report| (instrument == Bonds).then(|| other.value(109).unwrap_or(b"0").to_vec());
        assert_eq!(resting.value(375).map(<[u8]>::to_vec), named(in_work));
        assert_eq!(in_work.value(375).map(<[u8]>::to_vec), named(resting));
        assert!(resting.value(109).is_none() || resting.value(109) != in_work.value(109), "a trade inside one MPID");
    }
}

/// An order that was replaced as requested has kept its place if the yield stayed and 38 did not rise; else its place
/// is the report's number.
fn assert_place_follows(before: &Market, after: &Market, report: &Report) {
    let record = record_of(after, number(report, 37)).expect("the order has a record");
    let (old, new) = (&before.orders()[record], &after.orders()[record]);
    let keeps = old.quote == new.quote && number(report, 38) <= old.order_qty;
    assert_eq!(new.place, if keeps { old.place } else { number(report, 34) });
}

/// A new order has the number of its Accepted report as OrderID and as place. It stands behind all others, or where the
/// table was full in the lowest record that had nothing open; the others are as they were.
fn assert_record_follows(before: &Market, after: &Market, report: &Report) {
    let dead = before.orders().iter().position(|order| order.open() == 0);
    let free = if before.orders().len() < 255 { before.orders().len() } else { dead.expect("there is room") };
    let new = &after.orders()[free];
    assert_eq!((new.order_id, new.place, number(report, 37)), [number(report, 34); 3].into());
    assert_eq!(after.in_work(), Some(free + 1));
    assert_eq!(after.orders()[..free], before.orders()[..free]);
    assert_eq!(after.orders()[free + 1..], before.orders()[(free + 1).min(before.orders().len())..]);
}

fn open_orders(market: &Market, side: Side) -> Vec<&Order> {
    market.orders().iter().filter(|order| order.side.stands_with(side) && order.open() > 0).collect()
}

/// Depth's levels hold what is open, level by level from the best, and nothing else; the first is that of the heading.
fn assert_depth_adds_up(market: &Market) {
    let table = bytes(market);
    for (number, side) in [(1, Side::Buy), (2, Side::Sell)] {
        assert_eq!(top(market.instrument(), &table, number), market.depth(number, 0));
        let mut open = open_orders(market, side);
        let mut last: Option<i64> = None;
        for k in 0.. {
            let Some(level) = market.depth(number, k).expect("nothing is in work") else { break };
            assert!(last.is_none_or(|last| market.instrument().is_better(side, last, level.quote)));
            let (here, elsewhere): (Vec<&Order>, Vec<&Order>) =
                open.into_iter().partition(|order| order.quote == level.quote);
            assert_eq!(level.orders, here.len() as u64);
            assert_eq!(level.total, here.iter().map(|order| order.open()).sum::<u64>());
            (open, last) = (elsewhere, Some(level.quote));
        }
        assert!(open.is_empty(), "open orders stand on no level");
    }
}

/// What 01 asks of a market, as far as it is not plain from the types.
fn assert_is_market(market: &Market) {
    let orders = market.orders();
    assert!(orders.len() <= 255);
    assert!((1..=1_000_000_000).contains(&market.next_number()));
    for order in orders {
        assert!((1..=999_999_999).contains(&order.order_qty));
        assert_eq!(order.instrument, market.instrument());
        assert!(order.instrument.is_quote(order.quote));
        assert_marks(order);
        assert!(order.executed + order.decremented + order.canceled <= order.order_qty);
        assert!(order.canceled == 0 || order.open() == 0);
        assert!(order.sum.abs() <= i128::from(order.executed) * 999_999_999);
        assert!(order.instrument == Bonds || order.sum >= 0);
        assert!(order.mpid.is_none_or(|mpid| market.mpids().contains(&mpid)));
        assert!((1..market.next_number()).contains(&order.place));
        assert!((1..market.next_number()).contains(&order.order_id));
        assert!(order.min_qty.is_none_or(|minimum| (1..=order.order_qty).contains(&minimum)));
        assert!(order.min_qty.is_none() || order.time_in_force == TimeInForce::ImmediateOrCancel);
    }
    let in_work = market.in_work().map(|record| &orders[record - 1]);
    assert!(!market.is_decided() || in_work.is_some_and(|order| order.minimum() > 0));
    assert_eq!(orders.iter().map(|order| &order.cl_ord_id).collect::<BTreeSet<_>>().len(), orders.len());
    assert_eq!(orders.iter().map(|order| order.place).collect::<BTreeSet<_>>().len(), orders.len());
    assert_eq!(orders.iter().map(|order| order.order_id).collect::<BTreeSet<_>>().len(), orders.len());
    assert_uncrossed(market);
    assert_numbers_suffice(market);
}

/// A bond's order has neither 544 nor 8214; a share's has a 544, and an 8214 only if it is a margin order.
fn assert_marks(order: &Order) {
    match order.instrument {
        Bonds => assert_eq!((order.cash, order.margin), (None, None)),
        Equities => assert!(order.cash.is_some() && (order.cash != Some(b'1') || order.margin.is_none())),
    }
}

/// Apart from the order in work, no IOC is open, every open buy yield is above every open sell yield, and every open buy
/// price below every open sell price.
fn assert_uncrossed(market: &Market) {
    let in_work = market.in_work().map(|record| &market.orders()[record - 1]);
    let resting = |side| open_orders(market, side).into_iter().filter(|&order| Some(order) != in_work);
    for buy in resting(Side::Buy) {
        let is_apart = |sell: &Order| match market.instrument() {
            Bonds => buy.quote > sell.quote,
            Equities => buy.quote < sell.quote,
        };
        assert!(resting(Side::Sell).all(is_apart), "buys and sells are apart");
    }
    assert!(resting(Side::Buy).chain(resting(Side::Sell)).all(|order| order.time_in_force == TimeInForce::Day));
}

/// While the order in work has something open, there are numbers for all that may still be reported.
fn assert_numbers_suffice(market: &Market) {
    if let Some(record) = market.in_work() {
        let order = &market.orders()[record - 1];
        let opposite = open_orders(market, order.side.opposite()).len() as u64;
        assert!(order.open() == 0 || market.next_number() + 2 * opposite < 1_000_000_000);
    }
}

/// An order with a minimum whose work has ended has executed at least that, or it was canceled whole and the other
/// orders are as they were before it came.
fn assert_minimum_kept(before: &Market, after: &Market, record: usize) {
    let (orders, order) = (after.orders(), &after.orders()[record - 1]);
    if order.executed >= order.minimum() {
        return;
    }
    assert_eq!((order.executed, order.decremented, order.canceled), (0, 0, order.order_qty));
    let others = |orders: &[Order]| -> Vec<Order> { [&orders[..record - 1], &orders[record..]].concat() };
    assert_eq!(others(orders), others(before.orders()));
}

/// How many open opposite orders the order in work meets.
fn met(market: &Market) -> u64 {
    let order = &market.orders()[market.in_work().expect("an order is in work") - 1];
    open_orders(market, order.side.opposite()).iter().filter(|other| order.meets(other)).count() as u64
}

/// What is remembered from call to call about a market; reading an image back brings back what was remembered at its
/// writing, because its history is then the one up to there.
#[derive(Clone)]
struct Memory {
    market: Option<Market>,
    book: Book,
    reconciliation: BackOffice,
    full: BackOffice,
    steps_left: u64,
    taken: Option<Market>,
}

/// The length of the message at the front of some bytes, by its 9.
fn length_of(bytes: &[u8]) -> usize {
    let text = String::from_utf8_lossy(bytes);
    let body_length = text.split('\x01').nth(1).and_then(|field| field.strip_prefix("9=")).expect("9 stands second");
    let front = "8=FIX.4.2|9=|".len() + body_length.len();
    front + body_length.parse::<usize>().expect("9 is a number") + "10=xxx|".len()
}

/// A history being played.
struct History {
    desk: Desk,
    memory: Memory,
    saved: Option<Memory>,
    is_forged: bool,
}

impl History {
    fn new() -> History {
        let memory = Memory {
            market: None,
            book: Book::default(),
            reconciliation: BackOffice::new(1),
            full: BackOffice::new(2),
            steps_left: 0,
            taken: None,
        };
        History { desk: Desk::new(), memory, saved: None, is_forged: false }
    }

    fn market(&self) -> &Market {
        self.desk.market().expect("a market is open")
    }

    /// Plays one call and looks at everything.
    fn play(&mut self, command: &Command) {
        let before = self.desk.market().cloned();
        match command {
            Command::PutByte { .. } => self.play_forged(command),
            _ if self.is_forged => self.play_forged(command),
            Command::Open { .. } => {
                if self.desk.answer(command) == "o 0" {
                    *self = History { desk: self.desk.clone(), saved: self.saved.take(), ..History::new() };
                } else {
                    assert_eq!(self.desk.market(), before.as_ref());
                }
            }
            Command::Submit { area, message } => self.play_submit(before.as_ref(), message, *area),
            Command::Run { area, budget } => self.play_run(before.as_ref(), *area, *budget),
            Command::Load { area, buffer } => self.play_load(before.as_ref(), buffer, *area),
            Command::Calls { .. }
            | Command::Depth { .. }
            | Command::Top { .. }
            | Command::Read { .. }
            | Command::Copy { .. }
            | Command::ReadCopy { .. }
            | Command::PutImageByte { .. } => {
                self.desk.answer(command);
                assert_eq!(self.desk.market(), before.as_ref());
            }
            Command::Save { .. } => {
                if self.desk.answer(command).starts_with("w 0 ") {
                    self.saved = Some(Memory { market: before.clone(), ..self.memory.clone() });
                }
                assert_eq!(self.desk.market(), before.as_ref());
            }
            Command::Restore { .. } => {
                if self.desk.answer(command) == "u 0 0" {
                    self.memory = self.saved.clone().expect("what is read back was written");
                    assert_eq!(self.desk.market(), self.memory.market.as_ref());
                } else {
                    assert_eq!(self.desk.market(), before.as_ref());
                }
            }
        }
        if self.desk.market().is_some() && !self.is_forged {
            self.look();
        }
    }

    /// Plays a call on a table in which a byte was changed. Nothing comes of it: the next byte put is the one before.
    fn play_forged(&mut self, command: &Command) {
        let table = self.desk.table();
        self.desk.answer(command);
        if matches!(command, Command::PutByte { .. }) {
            self.is_forged = !self.is_forged;
        } else {
            assert_eq!(self.desk.table(), table);
        }
    }

    fn play_submit(&mut self, before: Option<&Market>, message: &[u8], area: usize) {
        let submitted = self.desk.submit(message, area);
        match submitted.number {
            0 | 6..=8 => self.hear(before, &submitted.report, 1),
            _ => {
                assert!(submitted.report.is_empty());
                assert_eq!(self.desk.market(), before);
            }
        }
        if submitted.number == 0 && self.market().in_work().is_some() {
            self.memory.steps_left = met(self.market()) + 1;
            self.memory.taken = self.desk.market().cloned();
            let report = read(self.market().instrument(), &submitted.report).expect("what is written can be read");
            if report.kind == Kind::Replaced {
                assert_place_follows(before.expect("a market is open"), self.market(), &report);
            } else {
                assert_record_follows(before.expect("a market is open"), self.market(), &report);
            }
        }
    }

    fn play_run(&mut self, before: Option<&Market>, area: usize, budget: u64) {
        let ran = self.desk.run(area, budget);
        assert!(ran.bytes.len() <= area);
        assert!(ran.steps <= budget);
        if ran.steps == 0 {
            assert_eq!((ran.reports, ran.bytes.len()), (0, 0));
            assert_eq!(self.desk.market(), before);
            return;
        }
        self.hear(before, &ran.bytes, ran.reports);
        assert!(ran.steps <= self.memory.steps_left, "done within m + 1 steps");
        self.memory.steps_left -= ran.steps;
        assert_eq!(self.market().in_work().is_none(), self.is_stepwise_end(before, ran.steps));
        if self.market().in_work().is_none() {
            let taken = self.memory.taken.as_ref().expect("what was in work was taken");
            assert_minimum_kept(taken, self.market(), taken.in_work().expect("it was in work"));
        }
    }

    /// A buffer in one call: market, reports and place are those of its messages one by one.
    fn play_load(&mut self, before: Option<&Market>, buffer: &[u8], area: usize) {
        let loaded = self.desk.load(buffer, area);
        assert!(loaded.bytes.len() <= area && loaded.place <= buffer.len());
        let mut one_by_one = before.expect("a market is open").clone();
        let (mut written, mut finished, mut rest) = (Vec::new(), 0, &buffer[..loaded.place]);
        while !rest.is_empty() {
            let (message, behind) = rest.split_at(length_of(rest));
            assert!(area - written.len() >= 1024, "there is room in front of each message");
            written.extend(one_by_one.submit(message, area - written.len()).report);
            written.extend(one_by_one.run(area - written.len(), u64::MAX).bytes);
            finished += u64::from(one_by_one.in_work().is_none());
            rest = behind;
        }
        assert_eq!((&loaded.bytes, loaded.finished, self.market()), (&written, finished, &one_by_one));
        match loaded.number {
            0 => assert!(rest.is_empty() && loaded.place == buffer.len() && one_by_one.in_work().is_none()),
            1 => assert!(area - written.len() < 1024),
            3 => assert!(one_by_one.in_work().is_some() && written.is_empty()),
            _ => assert!(area - written.len() >= 1024 && loaded.place < buffer.len()),
        }
        self.hear(before, &loaded.bytes, loaded.reports);
        if self.market().in_work().is_some() && loaded.number != 3 {
            self.memory.steps_left = met(self.market()) + 1;
            self.memory.taken = self.desk.market().cloned();
        }
    }

    /// Whether so many single steps, each with room of its own, end the work that stood before.
    fn is_stepwise_end(&self, before: Option<&Market>, steps: u64) -> bool {
        let mut market = before.expect("a market is open").clone();
        for _ in 0..steps {
            market.run(1024, 1);
        }
        assert_eq!(&market, self.market(), "one run or many, the market is the same");
        market.in_work().is_none()
    }

    /// Reads the reports of one call and takes them into the tallies.
    fn hear(&mut self, before: Option<&Market>, bytes: &[u8], count: u64) {
        let texts = split_reports(bytes);
        assert_eq!(texts.len() as u64, count);
        assert_eq!(texts.concat(), bytes);
        let instrument = self.market().instrument();
        let mut number_before = before.expect("a market is open").next_number();
        let reports: Vec<Report> =
            texts.iter().map(|text| read(instrument, text).expect("what is written can be read")).collect();
        for (report, text) in reports.iter().zip(texts) {
            assert!(text.len() <= LONGEST_REPORT);
            assert_eq!(number(report, 34), number_before);
            assert!(report.value(17).is_none() || number(report, 17) == number_before);
            number_before += 1;
            self.memory.book.tell(report);
            self.memory.reconciliation.hear(instrument, text, report);
            self.memory.full.hear(instrument, text, report);
        }
        assert_eq!(self.market().next_number(), number_before);
        assert_no_self_trade(instrument, &reports);
    }

    /// Looks at the market and the tallies.
    fn look(&self) {
        assert_is_market(self.market());
        self.memory.book.assert_conserved(self.market());
        assert_eq!(self.memory.full.book, self.memory.book, "a full feed's copies say what the reports say");
        assert_eq!(self.memory.reconciliation.book.bought, self.memory.reconciliation.book.sold);
        assert_eq!(self.memory.reconciliation.book.bought, self.memory.book.bought);
        if self.market().in_work().is_none() {
            assert_depth_adds_up(self.market());
        }
    }
}

/// The commands of the histories, made once.
fn histories() -> &'static [Vec<Command>] {
    static MADE: OnceLock<Vec<Vec<Command>>> = OnceLock::new();
    MADE.get_or_init(|| HISTORIES.iter().map(|&(instrument, seed, count)| commands(instrument, seed, count)).collect())
}

fn commands(instrument: Instrument, seed: u64, count: u64) -> Vec<Command> {
    let lines = generate(instrument, seed, count);
    lines.iter().filter(|line| !line.starts_with('#')).map(|line| Command::parse(line).unwrap()).collect()
}

#[test]
fn demand_3_and_the_feeds_accounts_hold_after_every_call_of_generated_histories() {
    for commands in histories() {
        let mut history = History::new();
        for command in commands {
            history.play(command);
        }
    }
}

#[test]
fn a_generated_history_meets_every_outcome() {
    let mut desk = Desk::new();
    let mut answers: BTreeMap<String, u64> = BTreeMap::new();
    for commands in histories() {
        for command in commands {
            let answer = desk.answer(command);
            let is_read = answer.starts_with("x 0") || answer.starts_with("y 0");
            let words: Vec<&str> = answer.split(' ').take(if is_read { 3 } else { 2 }).collect();
            *answers.entry(words.join(" ")).or_default() += 1;
            let fields = answer.split('|').filter(|field| {
                ["103=", "102=", "371=110", "371=544", "371=8214", "373=", "378="]
                    .iter()
                    .any(|tag| field.starts_with(tag))
            });
            for field in fields {
                *answers.entry(field.to_string()).or_default() += 1;
            }
        }
    }
    for outcome in [
        "o 0", "o 9", "s 0", "s 1", "s 2", "s 3", "s 4", "s 5", "s 6", "s 7", "s 8", "r 0", "r 1", "r 2", "d 0", "d 2",
        "d 3", "d 10", "t 0", "t 2", "t 3", "t 10", "x 11", "x 0 1", "x 0 2", "x 0 3", "x 0 4", "x 0 5", "x 0 6",
        "x 0 7", "103=0", "103=1", "103=6", "103=99", "102=0", "102=1", "102=2", "373=1", "373=2", "373=3", "373=4",
        "373=5", "373=6", "373=9", "373=11", "378=99", "371=110", "371=544", "371=8214", "378=100", "c 0", "c 1",
        "c 4", "c 11", "c 17", "y 11", "y 0 1", "y 0 2", "y 0 3", "y 0 4", "w 0", "w 12", "u 0", "u 13", "l 0", "l 1",
        "l 3", "l 4", "l 5",
    ] {
        assert!(answers.contains_key(outcome), "{outcome} never came up");
    }
    let taken = answers["s 0"];
    let all: u64 = (0..=8).filter_map(|number| answers.get(&format!("s {number}"))).sum();
    assert!((35..=65).contains(&(taken * 100 / all)), "about half of the messages are good: {taken} of {all}");
}

#[test]
fn generated_messages_have_both_lengths_of_time_in_52_and_60() {
    let mut desk = Desk::new();
    let mut lengths = BTreeSet::new();
    for command in commands(Bonds, 1, 300) {
        let is_taken = desk.answer(&command).starts_with("s 0 ");
        if let Command::Submit { message, .. } = &command {
            let length = |tag: &[u8]| {
                let mut fields = message.split(|&byte| byte == 1);
                fields.find_map(|field| field.strip_prefix(tag)).map_or(0, <[u8]>::len)
            };
            lengths.extend(is_taken.then(|| (length(b"52="), length(b"60="))));
        }
    }
    assert_eq!(lengths, BTreeSet::from([(17, 17), (17, 21), (21, 17), (21, 21)]));
}

/// The orders with a minimum that ended in a history: how many traded and how many were killed, by the mode of their
/// MPID, if they meet orders of their own.
fn ends_of_minimums(commands: &[Command]) -> BTreeMap<(u64, bool), u64> {
    let mut desk = Desk::new();
    let mut ends = BTreeMap::new();
    let mut modes = BTreeMap::new();
    let mut waiting: Option<(usize, u64)> = None;
    for command in commands {
        let answer = desk.answer(command);
        if let (Command::Open { participants, .. }, "o 0") = (command, answer.as_str()) {
            modes = participants.iter().map(|entry| (entry.mpid, entry.mode)).collect();
            waiting = None;
        }
        if answer == "u 0 0" {
            waiting = None;
        }
        let Some(market) = desk.market() else { continue };
        match (market.in_work(), waiting) {
            (Some(record), None) => {
                let order = &market.orders()[record - 1];
                let opposite = open_orders(market, order.side.opposite());
                let meets_own = opposite.iter().any(|other| order.meets(other) && other.mpid == order.mpid);
                let mode = order.mpid.filter(|_| meets_own).map_or(0, |mpid| modes[&mpid]);
                waiting = (order.minimum() > 0).then_some((record, mode));
            }
            (None, Some((record, mode))) => {
                let is_killed = market.orders()[record - 1].executed == 0;
                *ends.entry((mode, is_killed)).or_default() += 1;
                waiting = None;
            }
            _ => {}
        }
    }
    ends
}

#[test]
fn generated_minimums_are_reached_and_missed_in_all_three_modes() {
    let ends = ends_of_minimums(&histories().concat());
    for mode in 0..=3 {
        for is_killed in [false, true] {
            let count = ends.get(&(mode, is_killed)).copied().unwrap_or(0);
            assert!(count >= 5, "mode {mode}, killed {is_killed}: {count}");
        }
    }
}

#[test]
fn generated_days_have_more_orders_than_a_table_has_room_for() {
    let (mut taken_over, mut gone_before) = (0, BTreeSet::new());
    let mut desk = Desk::new();
    for command in histories()[1].iter().chain(&histories()[4]) {
        let before = desk.market().map_or(Vec::new(), |market| market.orders().to_vec());
        let is_new = desk.answer(command).starts_with("s 0") && before.len() == 255;
        let after = desk.market().map_or(&[][..], Market::orders);
        for (old, new) in before.iter().zip(after).filter(|(old, new)| is_new && old.order_id != new.order_id) {
            taken_over += 1;
            gone_before.insert((old.executed > 0, old.canceled > 0, old.decremented > 0));
            assert_eq!((old.open(), new.open()), (0, new.order_qty));
        }
    }
    assert!(taken_over >= 50 && gone_before.len() >= 3, "{taken_over} taken over: {gone_before:?}");
}

/// Whether an open order of the same side and yield stands behind this one.
fn has_one_behind(market: &Market, order: &Order) -> bool {
    let same_side = open_orders(market, order.side);
    same_side.iter().any(|other| other.quote == order.quote && other.place > order.place)
}

#[test]
fn generated_histories_reduce_and_raise_orders_that_others_stand_behind() {
    let (mut kept, mut lost) = (0, 0);
    let mut desk = Desk::new();
    for command in histories().iter().flatten() {
        let before = desk.market().cloned();
        let answer = desk.answer(command);
        let (Some(before), Some(after), true) = (before, desk.market(), answer.contains("|150=5|")) else { continue };
        for (old, new) in before.orders().iter().zip(after.orders()) {
            if old.cl_ord_id != new.cl_ord_id && has_one_behind(&before, old) {
                *(if old.place == new.place { &mut kept } else { &mut lost }) += 1;
            }
        }
    }
    assert!(kept >= 50 && lost >= 50, "{kept} kept, {lost} lost");
}

#[test]
fn a_seed_gives_the_same_commands_and_another_seed_others() {
    assert_eq!(generate(Bonds, 5, 50), generate(Bonds, 5, 50));
    assert_ne!(generate(Bonds, 5, 50), generate(Bonds, 6, 50));
}
