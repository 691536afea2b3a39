//! Command files made from a seed: several markets, messages good and damaged, alone and in buffers, runs that stop and
//! go on, depths, reports handed to feeds, reports and drop copies read back whole and damaged, and tables written out
//! and read back. The same seed and count give the same commands everywhere.
//!
//! The generator plays its own commands on a desk, so that it knows which orders are open and what was reported.

use std::collections::VecDeque;

use crate::compose::Draft;
use crate::copy::{copy, Feed};
use crate::damage::{damaged, damaged_report, HEADER};
use crate::image::{BLOCK, DATA, IMAGE};
use crate::instrument::Instrument;
use crate::market::{Market, Participant, LAST_SUBMIT_NUMBER};
use crate::order::{Order, Side};
use crate::random::Random;
use crate::report::{quote_text, split_reports};
use crate::table::{RECORD, TABLE};
use crate::transcript::{Command, Desk, LONGEST_LINE};

/// The command lines for a seed, with `count` messages submitted to bond markets and as many to equities markets.
pub fn generate_both(seed: u64, count: u64) -> Vec<String> {
    [Instrument::Bonds, Instrument::Equities].map(|instrument| generate(instrument, seed, count)).concat()
}

/// The command lines for a seed, with `count` messages submitted to markets of one kind.
pub fn generate(instrument: Instrument, seed: u64, count: u64) -> Vec<String> {
    let mut generator = Generator::new(instrument, seed);
    while generator.messages < count {
        generator.open_market(count - generator.messages);
        let last = (generator.messages + generator.profile.messages).min(count);
        while generator.messages < last {
            generator.turn();
            generator.keep_overnight();
            generator.load_at_times();
        }
        generator.finish_market();
    }
    generator.lines
}

/// What one market is like.
#[derive(Clone, Debug)]
struct Profile {
    name: &'static str,
    yields: &'static [&'static str],
    prices: &'static [&'static str],
    quantities: &'static [&'static str],
    /// Messages that are submitted to it.
    messages: u64,
    /// Of a hundred messages, those that are damaged.
    damage: u64,
    /// Of a hundred messages before any damage, those that are a D.
    new_orders: u64,
    /// Of a hundred D, those that sell, those that are IOC, and those that carry an MPID.
    sells: u64,
    ioc: u64,
    with_mpid: u64,
    /// The least first number, and by how much it may be more.
    first_number: (u64, u64),
}

const TIGHT: &[&str] = &["0.099", "0.100", "0.1", "000.100", "0.101", "0.102", "0.10", "0.100", "0.101"];
const AROUND_ZERO: &[&str] = &["-0.002", "-0.001", "0", "-0", "0.001", "0.002", "-0.000", "00", "-0.005"];
const WIDE: &[&str] =
    &["-999999.999", "999999.999", "-1", "1", "0", "12.5", "-12.5", "100000", "-0.001", "0.001", "3.14", "-2.718"];
const APART: &[&str] = &["0.5", "0.6", "0.7", "0.8", "0.50", "0.75"];
const DEEP: &[&str] = &["0.100", "0.1", "0.100", "0.101"];
const TIGHT_PRICES: &[&str] = &["99.9", "100", "100.0", "00100.0", "100.1", "100.2", "100", "100.1"];
const LOW_PRICES: &[&str] = &["0", "0.0", "0.1", "0.2", "00", "0.3", "1", "0.1"];
const WIDE_PRICES: &[&str] =
    &["99999999.9", "0", "0.1", "1", "12.5", "100000", "12345678.9", "99999999", "3.1", "00000001", "2718.2"];
const APART_PRICES: &[&str] = &["0.5", "0.6", "0.7", "0.8", "0.5", "5"];
const DEEP_PRICES: &[&str] = &["100", "100.0", "0100", "99.9"];
const SMALL: &[&str] = &["1", "2", "3", "5", "7", "10", "10", "20", "0005"];
const ROUND: &[&str] = &["100", "200", "500", "1200", "200", "100", "50", "000000100"];
const LARGE: &[&str] = &["999999999", "999999999", "999999998", "500000000", "1", "2", "499999999"];

const PROFILES: &[Profile] = &[
    Profile {
        name: "close yields, round quantities",
        yields: TIGHT,
        prices: TIGHT_PRICES,
        quantities: ROUND,
        messages: 120,
        damage: 42,
        new_orders: 66,
        sells: 50,
        ioc: 20,
        with_mpid: 75,
        first_number: (1, 0),
    },
    Profile {
        name: "yields around zero, small quantities",
        yields: AROUND_ZERO,
        prices: LOW_PRICES,
        quantities: SMALL,
        messages: 120,
        damage: 42,
        new_orders: 66,
        sells: 50,
        ioc: 25,
        with_mpid: 60,
        first_number: (9_990, 20),
    },
    Profile {
        name: "wide yields, large quantities",
        yields: WIDE,
        prices: WIDE_PRICES,
        quantities: LARGE,
        messages: 100,
        damage: 42,
        new_orders: 66,
        sells: 50,
        ioc: 15,
        with_mpid: 50,
        first_number: (99_999_900, 200),
    },
    Profile {
        name: "deep levels",
        yields: DEEP,
        prices: DEEP_PRICES,
        quantities: LARGE,
        messages: 90,
        damage: 30,
        new_orders: 66,
        sells: 85,
        ioc: 10,
        with_mpid: 50,
        first_number: (1, 1_000_000),
    },
    Profile {
        name: "turns within a level",
        yields: DEEP,
        prices: DEEP_PRICES,
        quantities: ROUND,
        messages: 100,
        damage: 15,
        new_orders: 50,
        sells: 75,
        ioc: 25,
        with_mpid: 40,
        first_number: (1, 1_000),
    },
    Profile {
        name: "minimums",
        yields: DEEP,
        prices: DEEP_PRICES,
        quantities: ROUND,
        messages: 100,
        damage: 15,
        new_orders: 90,
        sells: 80,
        ioc: 40,
        with_mpid: 75,
        first_number: (1, 0),
    },
    Profile {
        name: "numbers that run out",
        yields: TIGHT,
        prices: TIGHT_PRICES,
        quantities: SMALL,
        messages: 40,
        damage: 35,
        new_orders: 66,
        sells: 50,
        ioc: 25,
        with_mpid: 70,
        first_number: (999_998_930, 50),
    },
    Profile {
        name: "numbers that have run out",
        yields: TIGHT,
        prices: TIGHT_PRICES,
        quantities: SMALL,
        messages: 6,
        damage: 40,
        new_orders: 66,
        sells: 50,
        ioc: 25,
        with_mpid: 70,
        first_number: (999_999_990, 9),
    },
];

/// A market whose table fills up with open orders, and one with more orders in its day than a table has room for; only
/// for long histories, because they take many messages.
const FULL: Profile = Profile {
    name: "a full table",
    yields: APART,
    prices: APART_PRICES,
    quantities: SMALL,
    messages: 560,
    damage: 8,
    new_orders: 96,
    sells: 50,
    ioc: 3,
    with_mpid: 80,
    first_number: (1, 0),
};
const DAY: Profile = Profile {
    name: "a whole day",
    yields: TIGHT,
    prices: TIGHT_PRICES,
    quantities: ROUND,
    messages: 600,
    damage: 10,
    new_orders: 80,
    sells: 50,
    ioc: 25,
    with_mpid: 75,
    first_number: (900, 200),
};

/// How many messages must be left to be made for a table to be filled.
const LONG: u64 = 1_200;

/// Reports, and copies, that are kept for reading.
const KEPT: usize = 16;

/// Adds texts to those that are kept, and lets go of the oldest.
fn keep_last(kept: &mut VecDeque<Vec<u8>>, more: impl IntoIterator<Item = Vec<u8>>) {
    kept.extend(more);
    while kept.len() > KEPT {
        kept.pop_front();
    }
}

struct Generator {
    instrument: Instrument,
    random: Random,
    desk: Desk,
    lines: Vec<String>,
    messages: u64,
    markets: u64,
    profile: Profile,
    reports: VecDeque<Vec<u8>>,
    copies: VecDeque<Vec<u8>>,
    feeds: Vec<Feed>,
    used_ids: Vec<Vec<u8>>,
    ids: u64,
    seconds: u64,
    /// The number of messages at which this market's table was written out, until it is read back.
    saved: Option<u64>,
    /// Until so many messages it is not written out again.
    rested: u64,
}

impl Generator {
    fn new(instrument: Instrument, seed: u64) -> Generator {
        let mut generator = Generator {
            instrument,
            random: Random::new(seed),
            desk: Desk::new(),
            lines: vec![format!("# generated from seed {seed}")],
            messages: 0,
            markets: 0,
            profile: PROFILES[0].clone(),
            reports: VecDeque::new(),
            copies: VecDeque::new(),
            feeds: Vec::new(),
            used_ids: Vec::new(),
            ids: 0,
            seconds: 0,
            saved: None,
            rested: 0,
        };
        generator.say(&Command::Calls { of: instrument });
        generator
    }

    fn market(&self) -> &Market {
        self.desk.market().expect("a market is open before any message is made")
    }

    fn is_in_work(&self) -> bool {
        self.market().in_work().is_some()
    }

    /// Writes a command and plays it.
    fn say(&mut self, command: &Command) {
        self.lines.push(command.to_string());
        self.keep_reports(command);
    }

    /// Plays a command and keeps the reports that it wrote.
    fn keep_reports(&mut self, command: &Command) {
        let written = match command {
            Command::Submit { area, message } => self.desk.submit(message, *area).report,
            Command::Run { area, budget } => self.desk.run(*area, *budget).bytes,
            Command::Load { area, buffer } => self.desk.load(buffer, *area).bytes,
            other => {
                self.desk.answer(other);
                Vec::new()
            }
        };
        let reports = split_reports(&written).into_iter().map(<[u8]>::to_vec);
        keep_last(&mut self.reports, reports);
    }

    /// Opens the next market; before that, sometimes one with a wrong setting.
    fn open_market(&mut self, left: u64) {
        self.markets += 1;
        self.profile = match self.markets % 13 {
            3 if left >= LONG => DAY,
            7 if left >= LONG => FULL,
            _ => PROFILES[(self.markets as usize - 1) % PROFILES.len()].clone(),
        };
        self.saved = None;
        self.used_ids.clear();
        self.ids = 0;
        self.feeds = vec![self.feed(1), self.feed(2)];
        self.lines.push(format!("# market {}: {}", self.markets, self.profile.name));
        if self.random.percent(50) {
            let wrong = self.wrong_open();
            self.say(&wrong);
        }
        let open = self.good_open();
        self.say(&open);
    }

    fn good_open(&mut self) -> Command {
        let (least, more) = self.profile.first_number;
        let first_number = self.random.between(least, least + more);
        let (venue, port) =
            self.random.pick(&[("V", "P"), ("JNX", "PORT1"), ("12345678", "87654321"), ("X", "X"), ("a=b", "|;\\~")]);
        let codes = match self.instrument {
            Instrument::Bonds => ["350", "000000000", "7", "123456789", "0350"],
            Instrument::Equities => ["7203", "285A", "ABCDEFGHI", "=;|~", "00001"],
        };
        let code = self.random.pick(&codes);
        let participants = self.participants();
        Command::Open {
            venue: venue.as_bytes().to_vec(),
            port: port.as_bytes().to_vec(),
            code: code.as_bytes().to_vec(),
            first_number,
            participants,
        }
    }

    /// 1 to 8 MPIDs, few being more likely, so that they meet their own.
    fn participants(&mut self) -> Vec<Participant> {
        const MPIDS: [u64; 8] = [10, 11, 999_999, 1, 77, 12345, 4096, 65_536];
        let many = self.random.pick(&[1, 2, 2, 3, 3, 3, 4, 8]);
        let first_mode = self.random.between(1, 3);
        let modes = (0..many as u64).map(|at| 1 + (first_mode + at) % 3);
        MPIDS.iter().zip(modes).map(|(&mpid, mode)| Participant { mpid, mode }).collect()
    }

    /// An Open with one setting wrong.
    fn wrong_open(&mut self) -> Command {
        let mut open = self.good_open();
        if let Command::Open { venue, port, code, first_number, participants } = &mut open {
            match self.random.below(9) {
                0 => venue.clear(),
                1 => port.extend(b"12345678"),
                2 => venue[0] = self.random.pick(&[0x20, 0x7f, 0x01, 0x00, 0xff]),
                3 => code.clear(),
                4 => *code = b"1234567890".to_vec(),
                5 => code[0] = if self.instrument == Instrument::Bonds { b'x' } else { b' ' },
                6 => *first_number = self.random.pick(&[0, 1_000_000_000, u64::MAX]),
                7 => participants.push(participants[0]),
                _ => {
                    let (mpid, mode) = self.random.pick(&[(0, 1), (1_000_000, 1), (5, 0), (5, 4)]);
                    *participants = vec![Participant { mpid, mode }];
                }
            }
        }
        open
    }

    /// Brings the work to its end, looks at the whole book, and makes the other market's calls on this one.
    fn finish_market(&mut self) {
        while self.is_in_work() {
            self.run();
        }
        for side in [1, 2] {
            for k in 0..=self.random.between(1, 4) {
                self.say(&Command::Depth { side, k });
            }
            self.say(&Command::Top { side });
        }
        self.say(&Command::Calls { of: self.instrument.other() });
        self.say(&Command::Submit { area: 1024, message: Vec::new() });
        self.say(&Command::Run { area: 1024, budget: 1 });
        self.say(&Command::Depth { side: 1, k: 0 });
        self.say(&Command::Top { side: 2 });
        self.say(&Command::Calls { of: self.instrument });
    }

    /// One call, or a few that belong together.
    fn turn(&mut self) {
        let draw = self.random.below(100);
        if self.is_in_work() {
            match draw {
                0..=39 if self.market().next_number() > LAST_SUBMIT_NUMBER => self.submit(),
                0..=71 => self.run(),
                72..=81 => self.submit(),
                82..=84 => self.depth(),
                85..=86 => self.top(),
                87 => self.forge(),
                88..=93 => self.idle_run(),
                94..=96 => self.read(),
                97..=98 => self.copy(),
                _ => self.read_copy(),
            }
        } else {
            match draw {
                0..=70 => self.submit(),
                71..=75 => self.depth(),
                76..=77 => self.top(),
                78 => self.forge(),
                79..=81 => self.idle_run(),
                82 => {
                    let wrong = self.wrong_open();
                    self.say(&wrong);
                }
                83..=90 => self.read(),
                91..=96 => self.copy(),
                _ => self.read_copy(),
            }
        }
    }

    /// Now and then, mostly where nothing is in work, a buffer of messages: good ones and damaged ones, sometimes cut off. A
    /// command or an answer that would be longer than a line is not said.
    fn load_at_times(&mut self) {
        if self.messages % 30 < 22 || self.is_in_work() && self.random.percent(90) {
            return;
        }
        let mut buffer = Vec::new();
        for _ in 0..self.random.between(2, 6) {
            let draft = self.good_message();
            self.messages += 1;
            buffer.extend(if self.random.percent(self.profile.damage / 2) {
                damaged(&mut self.random, self.instrument, &draft)
            } else {
                draft.bytes()
            });
        }
        if self.random.percent(10) {
            buffer.truncate(self.random.below(buffer.len().max(1)));
        }
        let area = self.random.pick(&[0, 1024, 1250, 1500, 2048, 3000, 4096, 6144, 7000, 7000]);
        let command = Command::Load { area, buffer };
        let answer = self.desk.clone().answer(&command);
        if command.to_string().len() <= LONGEST_LINE && answer.len() <= LONGEST_LINE {
            self.say(&command);
        }
    }

    /// Writes the table out now and then, and reads it back 10 messages later, after a look at a changed image: the
    /// market is then what it was.
    fn keep_overnight(&mut self) {
        match self.saved {
            None if self.messages % 40 >= 20 && self.messages >= self.rested => self.save(),
            Some(before) if self.messages >= before + 10 => {
                self.restore_damaged();
                self.say(&Command::Restore { table: TABLE, image: IMAGE });
                self.saved = None;
                self.rested = self.messages + 65;
            }
            _ => {}
        }
    }

    fn save(&mut self) {
        self.say(&Command::Save { table: TABLE, image: IMAGE + 1 });
        self.say(&Command::Save { table: TABLE, image: IMAGE });
        self.saved = Some(self.messages);
    }

    /// A byte of the image changed and put back, with a look at what Restore says of it.
    fn restore_damaged(&mut self) {
        let at = self.random.below(IMAGE);
        let at = if self.random.percent(30) { at / BLOCK * BLOCK + DATA + self.random.below(4) } else { at };
        let before = self.desk.image()[at];
        let byte = before.wrapping_add(self.random.between(1, 255) as u8);
        self.say(&Command::PutImageByte { at, byte });
        self.say(&Command::Restore { table: TABLE, image: IMAGE });
        self.say(&Command::PutImageByte { at, byte: before });
    }

    /// Run with some budget and area. An answer that would be longer than a line is not asked for.
    fn run(&mut self) {
        let area = self.random.pick(&[1024, 1025, 1100, 1280, 1500, 2048, 3000, 4096, 6144, 7000]);
        let budget = self.random.pick(&[1, 1, 2, 3, 5, 8, 300, 300, 300, u64::MAX]);
        let command = Command::Run { area, budget };
        let is_short = self.desk.clone().answer(&command).len() <= LONGEST_LINE;
        self.say(&if is_short { command } else { Command::Run { area: 1024, budget } });
    }

    /// Run that does nothing: too small an area, no budget, or nothing in work.
    fn idle_run(&mut self) {
        let (area, budget) = match self.random.below(3) {
            0 => (self.random.pick(&[0, 1, 512, 1023]), self.random.between(0, 5)),
            1 => (1024, 0),
            _ if self.is_in_work() => (4096, 0),
            _ => (4096, self.random.between(0, 5)),
        };
        self.say(&Command::Run { area, budget });
    }

    fn depth(&mut self) {
        let side = self.random.pick(&[1, 1, 1, 1, 2, 2, 2, 2, 0, 3, u64::MAX]);
        let k = self.random.pick(&[0, 0, 0, 1, 1, 2, 3, 4, 300, 4_294_967_296, u64::MAX]);
        self.say(&Command::Depth { side, k });
    }

    fn top(&mut self) {
        let side = self.random.pick(&[1, 1, 1, 1, 1, 2, 2, 2, 2, 2, 0, 3, u64::MAX]);
        self.say(&Command::Top { side });
    }

    /// A byte of the table changed, looked at, and put back. Submit and Run are called only if it is no market then, so
    /// that they change nothing.
    fn forge(&mut self) {
        let table = self.desk.table();
        let records = self.market().orders().len();
        let at = match self.random.below(10) {
            0..=3 => self.random.below(RECORD),
            4..=8 if records > 0 => {
                RECORD * self.random.between(1, records as u64) as usize + self.random.below(RECORD)
            }
            _ => self.random.below(TABLE),
        };
        let before = table[at];
        let byte = match self.random.below(6) {
            0 => before.wrapping_add(1),
            1 => before.wrapping_sub(1),
            2 => before ^ 1 << self.random.below(8),
            3 => 0,
            4 => self.random.between(1, 5) as u8,
            _ => self.random.bits() as u8,
        };
        let message = self.good_message().bytes();
        self.say(&Command::PutByte { at, byte });
        for side in [1, 2] {
            self.say(&Command::Top { side });
        }
        self.say(&Command::Depth { side: 1, k: 0 });
        if self.desk.market().is_none() {
            self.say(&Command::Submit { area: 1024, message });
            self.say(&Command::Run { area: 1024, budget: 1 });
        }
        self.say(&Command::PutByte { at, byte: before });
    }

    /// Read of a report that was written, whole or damaged, or of something else.
    fn read(&mut self) {
        let report = self.report_to_read(27);
        self.say(&Command::Read { report });
    }

    /// A report that was written, so many of a hundred whole and the others damaged, or a message.
    fn report_to_read(&mut self, whole: u64) -> Vec<u8> {
        let kept = self.reports.len();
        if kept == 0 || self.random.percent(4) {
            return self.good_message().bytes();
        }
        let report = self.reports[self.random.below(kept)].clone();
        if self.random.percent(whole) {
            report
        } else {
            damaged_report(&mut self.random, self.instrument, &report)
        }
    }

    /// A feed of one subscription, set up well; sometimes its numbers are about to run out.
    fn feed(&mut self, subscription: u64) -> Feed {
        const IDS: [&str; 8] =
            ["P", "PORT1", "port-with-14-c", "a-port-of-15-ch", "|;\\=#", "x-29-characters-x-29-charact!", "~", "10"];
        let most = self.instrument.longest_client_id();
        let short = |id: &'static str| &id[..id.len().min(most - 1)];
        let (port, group) = (short(self.random.pick(&IDS)), short(self.random.pick(&IDS)));
        let shows = if port.len() + group.len() < most { self.random.between(1, 3) } else { self.random.between(1, 2) };
        let next = self.random.pick(&[1, 1, 1, 98, 999_999_990]);
        Feed { subscription, shows, port: port.as_bytes().to_vec(), group: group.as_bytes().to_vec(), next }
    }

    /// A report handed to one of the market's feeds, which counts on if it copies; sometimes with a setting, an area or
    /// a report that is odd.
    fn copy(&mut self) {
        let which = self.random.below(self.feeds.len());
        let mut feed = self.feeds[which].clone();
        let is_odd = self.random.percent(20);
        if is_odd {
            self.make_odd(&mut feed);
        }
        let area = if self.random.percent(95) { 1024 } else { self.random.pick(&[0, 1023, 1025, 65_536]) };
        let report = self.report_to_read(80);
        let copied = copy(self.instrument, &feed, area, &report);
        if copied.number == 0 && !is_odd {
            self.feeds[which].next = copied.next_after;
        }
        if !copied.copy.is_empty() {
            keep_last(&mut self.copies, [copied.copy]);
        }
        self.say(&Command::Copy { feed, area, report });
    }

    /// One setting at its limits, mostly just outside.
    fn make_odd(&mut self, feed: &mut Feed) {
        let most = self.instrument.longest_client_id();
        let long = b"31-characters-31-characters-31!";
        let ids: [&[u8]; 8] = [b"", b" ", b"a b", b"\x7f", b"x\x01", b"\xff", &long[..most], &long[..=most]];
        match self.random.below(5) {
            0 => feed.subscription = self.random.pick(&[0, 3, 258, u64::MAX]),
            1 => feed.shows = self.random.pick(&[0, 4, 1, 2, 3, 257, u64::MAX]),
            2 => feed.port = self.random.pick(&ids).to_vec(),
            3 => feed.group = self.random.pick(&ids).to_vec(),
            _ => feed.next = self.random.pick(&[0, 1, 999_999_999, 1_000_000_000, u64::MAX]),
        }
    }

    /// Read of a drop copy that was written, whole or damaged, or of a report.
    fn read_copy(&mut self) {
        let kept = self.copies.len();
        let copy = if kept == 0 || self.random.percent(8) {
            self.report_to_read(90)
        } else {
            let copy = self.copies[self.random.below(kept)].clone();
            if self.random.percent(35) {
                copy
            } else {
                damaged_report(&mut self.random, self.instrument, &copy)
            }
        };
        self.say(&Command::ReadCopy { copy });
    }

    /// Submit of a message, good or damaged.
    fn submit(&mut self) {
        let draft = self.good_message();
        let message = if self.random.percent(self.profile.damage) {
            damaged(&mut self.random, self.instrument, &draft)
        } else {
            draft.bytes()
        };
        let area = match self.random.below(100) {
            0..=89 => 1024,
            90..=94 => self.random.between(1025, 5000) as usize,
            95..=97 => 65_536,
            _ => self.random.pick(&[0, 1, 1000, 1023]),
        };
        self.messages += 1;
        self.say(&Command::Submit { area, message });
    }

    /// A message without damage; it may still be rejected for what it asks.
    fn good_message(&mut self) -> Draft {
        if self.market().orders().is_empty() || self.random.percent(self.profile.new_orders) {
            self.new_order()
        } else if self.random.percent(62) {
            self.replace()
        } else {
            self.cancel()
        }
    }

    /// The time of the next message, a little later than the last, with the date turning over; about as often with
    /// milliseconds as without.
    fn time(&mut self) -> String {
        self.seconds += self.random.between(0, 700);
        let (seconds, minutes, hours) = (self.seconds % 60, self.seconds / 60 % 60, self.seconds / 3600 % 24);
        let time = format!("202611{:02}-{hours:02}:{minutes:02}:{seconds:02}", 1 + self.seconds / 86_400 % 30);
        if self.random.percent(50) {
            time
        } else {
            format!("{time}.{:03}", self.random.below(1000))
        }
    }

    fn header(&mut self, msg_type: &str) -> Draft {
        let sequence =
            if self.random.percent(90) { (self.messages + 1).to_string() } else { format!("{:09}", self.messages + 1) };
        let time = self.time();
        let mut draft = Draft::of(&[("35", msg_type), ("34", &sequence), ("49", ""), ("52", &time), ("56", "")]);
        draft.fields[2].1 = self.market().port().to_vec();
        draft.fields[4].1 = self.market().venue().to_vec();
        draft
    }

    fn add(draft: &mut Draft, tag: &str, value: &[u8]) {
        draft.fields.push((tag.as_bytes().to_vec(), value.to_vec()));
    }

    fn new_order(&mut self) -> Draft {
        let mut draft = self.header("D");
        let id = self.new_id();
        let side = if self.random.percent(self.profile.sells) { self.sell() } else { "1" };
        let (quantity, at) = (self.random.pick(self.profile.quantities), self.quote_for(side));
        if self.random.percent(20) {
            Self::add(&mut draft, "1", self.random.pick(&["A", "acct", "0123456789", "a b"]).as_bytes());
        }
        Self::add(&mut draft, "11", &id);
        Self::add(&mut draft, "21", b"1");
        Self::add(&mut draft, "38", quantity.as_bytes());
        Self::add(&mut draft, "40", b"2");
        Self::add(&mut draft, "44", at.as_bytes());
        Self::add(&mut draft, "47", self.random.pick(&["A", "P"]).as_bytes());
        Self::add(&mut draft, "54", side.as_bytes());
        let code = self.code();
        Self::add(&mut draft, "55", &code);
        let is_ioc = self.random.percent(self.profile.ioc);
        Self::add(&mut draft, "59", if is_ioc { b"3" } else { b"0" });
        let time = self.time();
        Self::add(&mut draft, "60", time.as_bytes());
        if self.random.percent(self.profile.with_mpid) {
            let mpid = self.mpid();
            Self::add(&mut draft, "109", mpid.as_bytes());
        }
        Self::add(&mut draft, "8060", self.random.pick(&["1", "3", "4", "5", "6"]).as_bytes());
        let draft = if self.instrument == Instrument::Equities { self.with_margin(draft) } else { draft };
        if is_ioc && self.random.percent(60) {
            let draft = if self.random.percent(60) { self.sweeping(draft) } else { draft };
            self.with_minimum(draft)
        } else {
            draft
        }
    }

    /// A side that sells: bonds have one, equities three.
    fn sell(&mut self) -> &'static str {
        match self.instrument {
            Instrument::Bonds => "2",
            Instrument::Equities => self.random.pick(&["2", "2", "5", "6"]),
        }
    }

    /// The order with its 544, and with an 8214 where it may have one; seldom with one that it may not have.
    fn with_margin(&mut self, draft: Draft) -> Draft {
        let (cash, margin) = self.random.pick(&[
            ("1", ""),
            ("1", ""),
            ("2", ""),
            ("3", ""),
            ("2", "1"),
            ("2", "2"),
            ("3", "1"),
            ("3", "2"),
        ]);
        let margin = if self.random.percent(2) { "1" } else { margin };
        let draft = draft.with("544", cash);
        if margin.is_empty() {
            draft
        } else {
            draft.with("8214", margin)
        }
    }

    /// The order turned against the side that has more open orders: at the quote of one of them, of about as much as
    /// they have open, and mostly of an MPID that is among the later half of them.
    fn sweeping(&mut self, draft: Draft) -> Draft {
        let open = |side| -> Vec<Order> {
            let orders = self.market().orders().iter();
            orders.filter(|order| order.side.stands_with(side) && order.open() > 0).cloned().collect()
        };
        let (buys, sells) = (open(Side::Buy), open(Side::Sell));
        let mut met = if buys.len() > sells.len() { buys } else { sells };
        met.sort_by_key(Order::rank);
        let Some(first) = met.first() else { return draft };
        let total: u64 = met.iter().map(Order::open).sum();
        let quantity = (total * self.random.between(20, 130) / 100).clamp(1, 999_999_999);
        let at = quote_text(self.instrument, self.random.pick(&met).quote);
        let side = if first.side.is_buy() { self.sell() } else { "1" };
        let mpid = self.random.pick(&met[met.len() / 2..]).mpid;
        let draft = draft.with("54", side).with("38", &quantity.to_string()).with("44", &at);
        match mpid {
            Some(mpid) => draft.with("109", &mpid.to_string()),
            None => draft.without("109"),
        }
    }

    /// The IOC with a minimum close to what it would trade, or as a Fill or Kill; seldom with a minimum that it may not
    /// have.
    fn with_minimum(&mut self, draft: Draft) -> Draft {
        let can = self.would_execute(&draft);
        let close = [can, can + 1, can.saturating_sub(1)].map(|quantity| quantity.clamp(1, 999_999_999).to_string());
        match self.random.below(100) {
            0..=19 => draft.with("59", "4"),
            20..=44 => draft.with("59", "4").with("38", &self.random.pick(&close)),
            45..=79 => {
                let minimum = self.random.pick(&close);
                self.inserting_minimum(draft, &minimum)
            }
            80..=91 => {
                let minimum = self.random.pick(&["1", "2", "10", "100", "0100", "000000200", "500", "999999999"]);
                self.inserting_minimum(draft, minimum)
            }
            92..=95 => self.inserting_minimum(draft.with("59", "0"), "1"),
            _ => self.inserting_minimum(draft.with("59", "4"), "1"),
        }
    }

    /// A 110 anywhere in the body.
    fn inserting_minimum(&mut self, mut draft: Draft, minimum: &str) -> Draft {
        let at = self.random.between(HEADER as u64, draft.fields.len() as u64) as usize;
        draft.fields.insert(at, (b"110".to_vec(), minimum.as_bytes().to_vec()));
        draft
    }

    /// What an IOC without a minimum would execute if it were submitted here and run to its end.
    fn would_execute(&self, draft: &Draft) -> u64 {
        let mut market = self.market().clone();
        if market.submit(&draft.bytes(), 1024).number != 0 {
            return 0;
        }
        let record = market.in_work().expect("a new order that is taken is in work");
        while market.in_work().is_some() {
            market.run(1024, 1);
        }
        market.orders()[record - 1].executed
    }

    /// A quote of the profile. In a market that is to fill up, buys and sells mostly stay apart.
    fn quote_for(&mut self, side: &str) -> String {
        let (quotes, is_far) = match self.instrument {
            Instrument::Bonds => (self.profile.yields, side == "1"),
            Instrument::Equities => (self.profile.prices, side != "1"),
        };
        let at = self.random.pick(quotes);
        if self.profile.name == FULL.name && is_far && self.random.percent(98) {
            return format!("1{at}");
        }
        at.to_string()
    }

    /// The market's code, seldom another.
    fn code(&mut self) -> Vec<u8> {
        if self.random.percent(98) {
            self.market().code().to_vec()
        } else {
            b"99".to_vec()
        }
    }

    /// A listed MPID, the first being more likely, sometimes with zeros before it, seldom one that is not listed.
    fn mpid(&mut self) -> String {
        let mpids = self.market().mpids();
        let mpid = if self.random.percent(40) { mpids[0] } else { self.random.pick(&mpids) };
        match self.random.below(100) {
            0..=2 => "998877".to_string(),
            3..=7 => format!("{mpid:06}"),
            _ => mpid.to_string(),
        }
    }

    /// A ClOrdID that was not used before, mostly; sometimes a used one, seldom a strange one.
    fn new_id(&mut self) -> Vec<u8> {
        if !self.used_ids.is_empty() && self.random.percent(6) {
            let used = self.used_ids.len();
            return self.used_ids[self.random.below(used)].clone();
        }
        self.ids += 1;
        let id = match self.random.below(40) {
            0 => format!("{:032}", self.ids),
            1 => format!("a b{}", self.ids),
            2 => format!("=|;\\{}", self.ids),
            _ => format!("c{}", self.ids),
        };
        self.used_ids.push(id.clone().into_bytes());
        id.into_bytes()
    }

    /// An order for an F or a G: open mostly, else any.
    fn some_order(&mut self) -> Order {
        let orders = self.market().orders();
        let open: Vec<Order> = orders.iter().filter(|order| order.open() > 0).cloned().collect();
        let all = orders.to_vec();
        if !open.is_empty() && self.random.percent(85) {
            self.random.pick(&open)
        } else {
            self.random.pick(&all)
        }
    }

    /// The 41 for an order: its ClOrdID mostly, else one that was used or never was.
    fn orig_id(&mut self, order: &Order) -> Vec<u8> {
        match self.random.below(100) {
            0..=3 => b"nobody".to_vec(),
            4..=8 if !self.used_ids.is_empty() => {
                let used = self.used_ids.len();
                self.used_ids[self.random.below(used)].clone()
            }
            _ => order.cl_ord_id.clone(),
        }
    }

    /// The order's side, seldom another.
    fn side_of(&mut self, order: &Order) -> Side {
        if self.random.percent(96) {
            order.side
        } else if self.instrument == Instrument::Bonds {
            order.side.opposite()
        } else {
            self.random.pick(&[Side::Buy, Side::Sell, Side::SellShort, Side::SellShortExempt])
        }
    }

    /// What an F and a G have in common, up to 41: the new id and the old one.
    fn ids_of_change(&mut self, order: &Order) -> (Vec<u8>, Vec<u8>) {
        let orig = self.orig_id(order);
        let id = if self.random.percent(2) { orig.clone() } else { self.new_id() };
        (id, orig)
    }

    /// An order for a G: often one that shares its level with another.
    fn order_to_replace(&mut self) -> Order {
        let orders = self.market().orders();
        let open: Vec<&Order> = orders.iter().filter(|order| order.open() > 0).collect();
        let level = |order: &Order| (order.side.is_buy(), order.quote);
        let shares = |order: &Order| open.iter().filter(|other| level(other) == level(order)).count() > 1;
        let crowded: Vec<Order> = open.iter().filter(|order| shares(order)).map(|&order| order.clone()).collect();
        if !crowded.is_empty() && self.random.percent(60) {
            self.random.pick(&crowded)
        } else {
            self.some_order()
        }
    }

    fn replace(&mut self) -> Draft {
        let order = self.order_to_replace();
        let (id, orig) = self.ids_of_change(&order);
        let side = [self.side_of(&order).code()];
        let mut draft = self.header("G");
        Self::add(&mut draft, "11", &id);
        Self::add(&mut draft, "21", b"1");
        let (quantity, at) = self.new_terms(&order);
        Self::add(&mut draft, "38", quantity.as_bytes());
        Self::add(&mut draft, "40", b"2");
        Self::add(&mut draft, "41", &orig);
        Self::add(&mut draft, "44", at.as_bytes());
        Self::add(&mut draft, "54", &side);
        let code = self.code();
        Self::add(&mut draft, "55", &code);
        let time = self.time();
        Self::add(&mut draft, "60", time.as_bytes());
        draft
    }

    /// New OrderQty and quote: often the same quote with a quantity that keeps the place, sometimes with one just above
    /// the one in force, else any.
    fn new_terms(&mut self, order: &Order) -> (String, String) {
        let same_quote = quote_text(self.instrument, order.quote);
        match self.random.below(100) {
            0..=44 => {
                let least = (order.executed + order.decremented + 1).min(order.order_qty);
                (self.random.between(least, order.order_qty).to_string(), same_quote)
            }
            45..=57 => ((order.order_qty + 1).min(999_999_999).to_string(), same_quote),
            _ => {
                let at = self.quote_for(if order.side.is_buy() { "1" } else { "2" });
                (self.new_quantity(order), at)
            }
        }
    }

    /// A new OrderQty: one of the profile's, the old one, or just at what has executed and was decremented.
    fn new_quantity(&mut self, order: &Order) -> String {
        let done = order.executed + order.decremented;
        match self.random.below(10) {
            0 => done.max(1).to_string(),
            1 => (done + 1).min(999_999_999).to_string(),
            2 => order.order_qty.to_string(),
            3 => (order.order_qty / 2).max(1).to_string(),
            4 => (order.order_qty + 10).min(999_999_999).to_string(),
            _ => self.random.pick(self.profile.quantities).to_string(),
        }
    }

    fn cancel(&mut self) -> Draft {
        let order = self.some_order();
        let (id, orig) = self.ids_of_change(&order);
        let side = [self.side_of(&order).code()];
        let mut draft = self.header("F");
        Self::add(&mut draft, "11", &id);
        if self.random.percent(30) {
            Self::add(&mut draft, "38", order.order_qty.to_string().as_bytes());
        }
        Self::add(&mut draft, "41", &orig);
        Self::add(&mut draft, "54", &side);
        let code = self.code();
        Self::add(&mut draft, "55", &code);
        let time = self.time();
        Self::add(&mut draft, "60", time.as_bytes());
        draft
    }
}
