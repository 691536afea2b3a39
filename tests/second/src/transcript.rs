//! Command files and their transcripts; the format is written down in tests/vectors/README.md.

use std::fmt;
use std::num::TryFromIntError;

use crate::batch::{load, Loaded};
use crate::copy::{copy, Copied, Feed};
use crate::escape::{escaped, unescaped};
use crate::image::{restore, save, NotRestored, BLOCK, DATA, IMAGE};
use crate::instrument::Instrument;
use crate::market::{Level, Market, Participant, Ran, Refusal, Submitted, FREE};
use crate::read::{read, read_copy, Report};
use crate::table::{bytes as bytes_of, market as market_of, top, TABLE};

/// The longest line of a command file, in characters.
pub const LONGEST_LINE: usize = 8192;

/// The largest report area that a command may lend.
pub const LARGEST_AREA: usize = 65_536;

/// The bytes of the image that is kept: one more than an image has, so that one can be lent that is too long.
pub const KEPT_IMAGE: usize = IMAGE + 1;

/// One call, with what is lent to it; `Calls` says whose calls those from there on are. Save and Restore are lent the first
/// bytes of the table in use and of the image that is kept, so many of each.
#[derive(Clone, Debug, PartialEq, Eq)]
pub enum Command {
    Calls { of: Instrument },
    Open { venue: Vec<u8>, port: Vec<u8>, code: Vec<u8>, first_number: u64, participants: Vec<Participant> },
    Submit { area: usize, message: Vec<u8> },
    Run { area: usize, budget: u64 },
    Load { area: usize, buffer: Vec<u8> },
    Depth { side: u64, k: u64 },
    Top { side: u64 },
    PutByte { at: usize, byte: u8 },
    Read { report: Vec<u8> },
    Copy { feed: Feed, area: usize, report: Vec<u8> },
    ReadCopy { copy: Vec<u8> },
    Save { table: usize, image: usize },
    Restore { table: usize, image: usize },
    PutImageByte { at: usize, byte: u8 },
}

impl Command {
    /// Reads one line; an error says what is wrong with it.
    pub fn parse(line: &str) -> Result<Command, String> {
        if line.len() > LONGEST_LINE {
            return Err("the line is too long".to_string());
        }
        let (letter, rest) = line.split_once(' ').ok_or("no command")?;
        let parts: Vec<&str> = rest.split(';').collect();
        match (letter, parts.as_slice()) {
            ("q", [kind]) => Ok(Command::Calls { of: instrument(kind)? }),
            ("o", [venue, port, code, first, participants @ ..]) => Ok(Command::Open {
                venue: bytes(venue)?,
                port: bytes(port)?,
                code: bytes(code)?,
                first_number: decimal(first)?,
                participants: participants.iter().map(|text| participant(text)).collect::<Result<_, _>>()?,
            }),
            ("s", [size, message]) => Ok(Command::Submit { area: area(size)?, message: bytes(message)? }),
            ("r", [size, budget]) => Ok(Command::Run { area: area(size)?, budget: decimal(budget)? }),
            ("l", [size, buffer]) => Ok(Command::Load { area: area(size)?, buffer: bytes(buffer)? }),
            ("b", [at, byte]) => {
                Ok(Command::PutByte { at: place(at)?, byte: decimal(byte)?.try_into().map_err(no_byte)? })
            }
            ("t", [side]) => Ok(Command::Top { side: decimal(side)? }),
            ("d", [side, k]) => Ok(Command::Depth { side: decimal(side)?, k: decimal(k)? }),
            ("x", [report]) => Ok(Command::Read { report: bytes(report)? }),
            ("c", [setting @ .., size, report]) => {
                Ok(Command::Copy { feed: feed(setting)?, area: area(size)?, report: bytes(report)? })
            }
            ("y", [copy]) => Ok(Command::ReadCopy { copy: bytes(copy)? }),
            ("w", [table, image]) => {
                Ok(Command::Save { table: up_to(TABLE, table)?, image: up_to(KEPT_IMAGE, image)? })
            }
            ("u", [table, image]) => {
                Ok(Command::Restore { table: up_to(TABLE, table)?, image: up_to(KEPT_IMAGE, image)? })
            }
            ("i", [at, byte]) => Ok(Command::PutImageByte {
                at: up_to(KEPT_IMAGE - 1, at)?,
                byte: decimal(byte)?.try_into().map_err(no_byte)?,
            }),
            _ => Err("not a command".to_string()),
        }
    }
}

impl fmt::Display for Command {
    /// Writes the command as its line, without the LF.
    fn fmt(&self, out: &mut fmt::Formatter) -> fmt::Result {
        match self {
            Command::Calls { of } => write!(out, "q {}", of.number()),
            Command::Open { venue, port, code, first_number, participants } => {
                write!(out, "o {};{};{};{first_number}", escaped(venue), escaped(port), escaped(code))?;
                participants.iter().try_for_each(|entry| write!(out, ";{}:{}", entry.mpid, entry.mode))
            }
            Command::Submit { area, message } => write!(out, "s {area};{}", escaped(message)),
            Command::Run { area, budget } => write!(out, "r {area};{budget}"),
            Command::Load { area, buffer } => write!(out, "l {area};{}", escaped(buffer)),
            Command::Depth { side, k } => write!(out, "d {side};{k}"),
            Command::Top { side } => write!(out, "t {side}"),
            Command::PutByte { at, byte } => write!(out, "b {at};{byte}"),
            Command::Read { report } => write!(out, "x {}", escaped(report)),
            Command::Copy { feed: Feed { subscription, shows, port, group, next }, area, report } => {
                write!(out, "c {subscription};{shows};{};{};", escaped(port), escaped(group))?;
                write!(out, "{next};{area};{}", escaped(report))
            }
            Command::ReadCopy { copy } => write!(out, "y {}", escaped(copy)),
            Command::Save { table, image } => write!(out, "w {table};{image}"),
            Command::Restore { table, image } => write!(out, "u {table};{image}"),
            Command::PutImageByte { at, byte } => write!(out, "i {at};{byte}"),
        }
    }
}

fn bytes(text: &str) -> Result<Vec<u8>, String> {
    unescaped(text).ok_or_else(|| format!("not a text: {text}"))
}

fn decimal(text: &str) -> Result<u64, String> {
    let is_decimal = !text.is_empty() && text.bytes().all(|byte| byte.is_ascii_digit());
    text.parse().ok().filter(|_| is_decimal).ok_or_else(|| format!("not a number: {text}"))
}

fn instrument(text: &str) -> Result<Instrument, String> {
    Instrument::from_number(decimal(text)?).ok_or_else(|| format!("not a kind of market: {text}"))
}

/// A length or a place that is not above the largest.
fn up_to(largest: usize, text: &str) -> Result<usize, String> {
    let number = decimal(text)?;
    usize::try_from(number).ok().filter(|&number| number <= largest).ok_or_else(|| format!("above {largest}: {text}"))
}

fn area(text: &str) -> Result<usize, String> {
    up_to(LARGEST_AREA, text)
}

fn place(text: &str) -> Result<usize, String> {
    up_to(TABLE - 1, text)
}

fn no_byte(_: TryFromIntError) -> String {
    "not a byte".to_string()
}

fn participant(text: &str) -> Result<Participant, String> {
    let (mpid, mode) = text.split_once(':').ok_or_else(|| format!("not an MPID and its mode: {text}"))?;
    Ok(Participant { mpid: decimal(mpid)?, mode: decimal(mode)? })
}

fn feed(setting: &[&str]) -> Result<Feed, String> {
    let [subscription, shows, port, group, next] = setting else {
        return Err("not a feed".to_string());
    };
    Ok(Feed {
        subscription: decimal(subscription)?,
        shows: decimal(shows)?,
        port: bytes(port)?,
        group: bytes(group)?,
        next: decimal(next)?,
    })
}

/// The market in use, or the table in use that is none: zeros before the first accepted Open, or what a byte changed;
/// whose calls are made on it, the bond market's or the equities market's; and the image that is kept, zeros at first.
#[derive(Clone, Debug)]
pub struct Desk {
    calls: Instrument,
    market: Option<Market>,
    no_market: Vec<u8>,
    image: Vec<u8>,
}

impl Default for Desk {
    fn default() -> Desk {
        Desk::new()
    }
}

impl Desk {
    pub fn new() -> Desk {
        Desk { calls: Instrument::Bonds, market: None, no_market: vec![0; TABLE], image: vec![0; KEPT_IMAGE] }
    }

    pub fn market(&self) -> Option<&Market> {
        self.market.as_ref()
    }

    /// Does one command and gives its line of the transcript, without the LF.
    pub fn answer(&mut self, command: &Command) -> String {
        match command {
            Command::Calls { of } => {
                self.calls = *of;
                command.to_string()
            }
            Command::Open { venue, port, code, first_number, participants } => {
                let opened = Market::open(self.calls, venue, port, code, *first_number, participants);
                self.open(opened)
            }
            Command::Submit { area, message } => submit_line(&self.submit(message, *area)),
            Command::Run { area, budget } => run_line(&self.run(*area, *budget)),
            Command::Load { area, buffer } => load_line(&self.load(buffer, *area)),
            Command::Depth { side, k } => level_line("d", self.depth(*side, *k)),
            Command::Top { side } => level_line("t", top(self.calls, &self.table(), *side)),
            Command::PutByte { at, byte } => format!("b {}", self.put_byte(*at, *byte)),
            Command::Read { report } => read_line("x", read(self.calls, report)),
            Command::Copy { feed, area, report } => copy_line(&copy(self.calls, feed, *area, report)),
            Command::ReadCopy { copy } => read_line("y", read_copy(self.calls, copy)),
            Command::Save { table, image } => self.save(*table, *image),
            Command::Restore { table, image } => restore_line(self.restore(*table, *image)),
            Command::PutImageByte { at, byte } => format!("i {}", std::mem::replace(&mut self.image[*at], *byte)),
        }
    }

    /// The market in use, if the calls are its own: those of another are refused as on a table that is no market.
    fn called(&mut self) -> Option<&mut Market> {
        let calls = self.calls;
        self.market.as_mut().filter(|market| market.instrument() == calls)
    }

    /// Whose calls are made.
    pub fn calls(&self) -> Instrument {
        self.calls
    }

    /// Puts a newly opened market into use; a refused one changes nothing.
    fn open(&mut self, opened: Result<Market, Refusal>) -> String {
        match opened {
            Ok(market) => {
                self.market = Some(market);
                "o 0".to_string()
            }
            Err(refusal) => format!("o {}", refusal.number()),
        }
    }

    pub fn submit(&mut self, message: &[u8], area: usize) -> Submitted {
        match self.called() {
            Some(market) => market.submit(message, area),
            None => Submitted { number: refusal_without_market(area), report: Vec::new() },
        }
    }

    pub fn run(&mut self, area: usize, budget: u64) -> Ran {
        match self.called() {
            Some(market) => market.run(area, budget),
            None => Ran { number: refusal_without_market(area), ..Ran::default() },
        }
    }

    pub fn load(&mut self, buffer: &[u8], area: usize) -> Loaded {
        match self.called() {
            Some(market) => load(market, buffer, area),
            None => Loaded { number: refusal_without_market(area), ..Loaded::default() },
        }
    }

    fn depth(&mut self, side: u64, k: u64) -> Result<Option<Level>, Refusal> {
        self.called().ok_or(Refusal::NotAMarket)?.depth(side, k)
    }

    /// Writes the table out, and gives the line with its checks.
    fn save(&mut self, table: usize, image: usize) -> String {
        match save(self.calls, &self.table()[..table], image) {
            Err(refusal) => format!("w {}", refusal.number()),
            Ok(written) => {
                self.image[..IMAGE].copy_from_slice(&written);
                let checks = written.chunks(BLOCK).map(|block| format!(" {}", number(&block[DATA..])));
                format!("w 0{}", checks.collect::<String>())
            }
        }
    }

    /// Reads the image back in place of the table.
    fn restore(&mut self, table: usize, image: usize) -> Result<(), NotRestored> {
        self.market = Some(restore(self.calls, table, &self.image[..image])?);
        Ok(())
    }

    /// The image that is kept.
    pub fn image(&self) -> &[u8] {
        &self.image[..IMAGE]
    }

    /// The table in use.
    pub fn table(&self) -> Vec<u8> {
        self.market.as_ref().map_or_else(|| self.no_market.clone(), bytes_of)
    }

    /// Puts a byte into the table, whatever comes of it, and gives the one that was there.
    pub fn put_byte(&mut self, at: usize, byte: u8) -> u8 {
        let mut table = self.table();
        let before = std::mem::replace(&mut table[at], byte);
        self.market = market_of(&table);
        self.no_market = table;
        before
    }
}

/// The line of a level asked for by Depth (`d`) or as the best one (`t`).
fn level_line(letter: &str, level: Result<Option<Level>, Refusal>) -> String {
    match level {
        Ok(Some(level)) => format!("{letter} 0 1 {} {} {}", level.quote, level.total, level.orders),
        Ok(None) => format!("{letter} 0 0 0 0 0"),
        Err(refusal) => format!("{letter} {} 0 0 0 0", refusal.number()),
    }
}

fn restore_line(restored: Result<(), NotRestored>) -> String {
    match restored {
        Ok(()) => "u 0 0".to_string(),
        Err(NotRestored { refusal, block }) => format!("u {} {block}", refusal.number()),
    }
}

/// The number in some bytes, low byte first.
fn number(bytes: &[u8]) -> u64 {
    bytes.iter().rev().fold(0, |number, &byte| number << 8 | u64::from(byte))
}

fn refusal_without_market(area: usize) -> u64 {
    if area < FREE {
        Refusal::AreaTooSmall.number()
    } else {
        Refusal::NotAMarket.number()
    }
}

fn submit_line(submitted: &Submitted) -> String {
    with_bytes(format!("s {} {}", submitted.number, submitted.report.len()), &submitted.report)
}

fn run_line(ran: &Ran) -> String {
    with_bytes(format!("r {} {} {} {}", ran.number, ran.bytes.len(), ran.reports, ran.steps), &ran.bytes)
}

fn load_line(loaded: &Loaded) -> String {
    let Loaded { number, place, finished, bytes, reports } = loaded;
    with_bytes(format!("l {number} {place} {finished} {} {reports}", bytes.len()), bytes)
}

fn with_bytes(line: String, bytes: &[u8]) -> String {
    if bytes.is_empty() {
        line
    } else {
        format!("{line} {}", escaped(bytes))
    }
}

fn copy_line(copied: &Copied) -> String {
    with_bytes(format!("c {} {} {}", copied.number, copied.copy.len(), copied.next_after), &copied.copy)
}

/// The line of a report (`x`) or a drop copy (`y`) that was read, or was none.
fn read_line(letter: &str, report: Option<Report>) -> String {
    match report {
        None => format!("{letter} {} 0", Refusal::NotAReport.number()),
        Some(report) => {
            let fields = report.fields.iter().map(|field| format!("{}={};", field.tag, escaped(field.value)));
            format!("{letter} 0 {} {}", report.kind as u64, fields.collect::<String>())
        }
    }
}

/// The transcript of a whole command file. Comment lines are said back as they are. A last line without LF is taken.
pub fn transcript(commands: &str) -> Result<String, String> {
    let mut desk = Desk::new();
    let mut answers = String::new();
    for (at, line) in commands.split_terminator('\n').enumerate() {
        let answer = if line.starts_with('#') {
            line.to_string()
        } else {
            desk.answer(&Command::parse(line).map_err(|error| format!("line {}: {error}", at + 1))?)
        };
        answers.push_str(&answer);
        answers.push('\n');
    }
    Ok(answers)
}
