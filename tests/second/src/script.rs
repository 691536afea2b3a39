//! Hand-written commands with what must be answered to them, as the paper says it.
//!
//! A script is used twice: its lines are the opening part of tests/vectors/commands, and the tests run it and hold
//! every answer against what was expected.

use crate::compose::{Draft, SYMBOL};
use crate::copy::Feed;
use crate::escape::unescaped;
use crate::image::IMAGE;
use crate::instrument::Instrument;
use crate::market::Participant;
use crate::table::TABLE;
use crate::transcript::{Command, Desk, LARGEST_AREA};

/// What must be answered to a line.
#[derive(Clone, Debug)]
enum Expected {
    /// The whole answer.
    Whole(String),
    /// `s NUMBER LENGTH REPORT`, the report having these fields.
    Submitted { number: u64, fields: Vec<String> },
    /// `r 0 BYTES REPORTS STEPS ..`, each report having its fields.
    Ran { steps: u64, reports: Vec<Vec<String>> },
    /// `l NUMBER PLACE FINISHED BYTES REPORTS ..`, each report having its fields.
    Loaded { number: u64, place: usize, finished: u64, reports: Vec<Vec<String>> },
    /// `c 0 LENGTH NEXT_AFTER COPY`, the copy having these fields.
    Copied { next_after: u64, fields: Vec<String> },
    /// `w 0` and 65 checks.
    Saved,
    /// A report (`x`) or a drop copy (`y`) of this kind.
    ReadAs { letter: &'static str, kind: u64 },
}

/// Commands and comments in their order.
#[derive(Clone, Debug, Default)]
pub struct Script {
    lines: Vec<(String, Option<Expected>)>,
}

/// The area that scripts lend if nothing else is asked.
const AREA: usize = 4096;

/// A budget that no order in work can spend.
const ENOUGH: u64 = 1000;

impl Script {
    pub fn new() -> Script {
        Script::default()
    }

    /// The lines, each without its LF.
    pub fn lines(&self) -> impl Iterator<Item = &str> {
        self.lines.iter().map(|(line, _)| line.as_str())
    }

    /// A comment line.
    pub fn say(&mut self, text: &str) {
        self.lines.push((format!("# {text}"), None));
    }

    fn push(&mut self, command: Command, expected: Expected) {
        self.lines.push((command.to_string(), Some(expected)));
    }

    /// The calls from here on are those of this market.
    pub fn calls(&mut self, of: Instrument) {
        self.push(Command::Calls { of }, Expected::Whole(format!("q {}", of.number())));
    }

    /// Open with any settings, answered by a number.
    pub fn open_with(&mut self, names: [&str; 3], first_number: u64, list: &[(u64, u64)], number: u64) {
        let [venue, port, code] = names.map(|name| name.as_bytes().to_vec());
        let participants = list.iter().map(|&(mpid, mode)| Participant { mpid, mode }).collect();
        let command = Command::Open { venue, port, code, first_number, participants };
        self.push(command, Expected::Whole(format!("o {number}")));
    }

    /// Opens venue V, port P, code 350 from number 1, with MPIDs 10 to 14 all in one mode.
    pub fn open(&mut self, mode: u64) {
        self.open_from(1, mode);
    }

    /// The same from another first number.
    pub fn open_from(&mut self, first_number: u64, mode: u64) {
        let list: Vec<(u64, u64)> = (10..=14).map(|mpid| (mpid, mode)).collect();
        self.open_with(["V", "P", "350"], first_number, &list, 0);
    }

    /// Opens venue V, port P, symbol 7203 from number 1, with MPIDs 10 to 14 all in one mode.
    pub fn open_shares(&mut self, mode: u64) {
        let list: Vec<(u64, u64)> = (10..=14).map(|mpid| (mpid, mode)).collect();
        self.open_with(["V", "P", SYMBOL], 1, &list, 0);
    }

    /// Submit of any bytes with any area, answered by a refusal without a report.
    pub fn refused_in(&mut self, area: usize, message: &[u8], number: u64) {
        let command = Command::Submit { area, message: message.to_vec() };
        self.push(command, Expected::Whole(format!("s {number} 0")));
    }

    /// Submit answered by a refusal without a report.
    pub fn refused(&mut self, draft: &Draft, number: u64) {
        self.refused_in(AREA, &draft.bytes(), number);
    }

    /// Submit answered by a number and a report that has these fields; `no 378` says that 378 is absent.
    pub fn submit(&mut self, draft: &Draft, number: u64, fields: &[&str]) {
        self.submit_in(AREA, draft, number, fields);
    }

    /// The same with any area.
    pub fn submit_in(&mut self, area: usize, draft: &Draft, number: u64, fields: &[&str]) {
        let command = Command::Submit { area, message: draft.bytes() };
        self.push(command, Expected::Submitted { number, fields: owned(fields) });
    }

    /// Submit answered by a number and exactly these bytes.
    pub fn submit_whole(&mut self, draft: &Draft, number: u64, report: &str) {
        let command = Command::Submit { area: AREA, message: draft.bytes() };
        self.push(command, Expected::Whole(format!("s {number} {} {report}", report.len())));
    }

    /// Submit of a message that is taken.
    pub fn taken(&mut self, draft: &Draft, fields: &[&str]) {
        self.submit(draft, 0, fields);
    }

    /// Submit answered by a Session Reject of this reason and tag.
    pub fn session_reject(&mut self, draft: &Draft, reason: u32, tag: u32) {
        let (reason, tag) = (format!("373={reason}"), format!("371={tag}"));
        self.submit(draft, 6, &["35=3", &reason, &tag, "no 17", "no 58"]);
    }

    /// Submit answered by Rejected with this 103.
    pub fn rejected(&mut self, draft: &Draft, reason: u64) {
        let reason = format!("103={reason}");
        self.submit(draft, 7, &["35=8", "39=8", "150=8", "37=NONE", "14=0", "151=0", &reason]);
    }

    /// Submit answered by Cancel reject with this 102, and these fields besides.
    pub fn cancel_reject(&mut self, draft: &Draft, reason: u64, fields: &[&str]) {
        let reason = format!("102={reason}");
        self.submit(draft, 8, &[&["35=9", reason.as_str()], fields].concat());
    }

    /// Run to the end of the work: so many steps, and these reports.
    pub fn run(&mut self, steps: u64, reports: &[&[&str]]) {
        self.run_in(AREA, ENOUGH, steps, reports);
    }

    /// Run with any area and budget.
    pub fn run_in(&mut self, area: usize, budget: u64, steps: u64, reports: &[&[&str]]) {
        let reports = reports.iter().map(|fields| owned(fields)).collect();
        self.push(Command::Run { area, budget }, Expected::Ran { steps, reports });
    }

    /// Load of a buffer with any area, answered by a number, a place, how many messages were finished, and these reports.
    pub fn load_in(&mut self, area: usize, buffer: &[u8], answer: (u64, usize, u64), reports: &[&[&str]]) {
        let (number, place, finished) = answer;
        let reports = reports.iter().map(|fields| owned(fields)).collect();
        let command = Command::Load { area, buffer: buffer.to_vec() };
        self.push(command, Expected::Loaded { number, place, finished, reports });
    }

    /// Load of a buffer that is loaded whole: so many messages, and these reports.
    pub fn loaded(&mut self, buffer: &[u8], finished: u64, reports: &[&[&str]]) {
        self.load_in(LARGEST_AREA, buffer, (0, buffer.len(), finished), reports);
    }

    /// Load answered by a refusal of the whole call.
    pub fn load_refused(&mut self, area: usize, buffer: &[u8], number: u64) {
        let command = Command::Load { area, buffer: buffer.to_vec() };
        self.push(command, Expected::Whole(format!("l {number} 0 0 0 0")));
    }

    /// Run answered by exactly these bytes.
    pub fn run_whole(&mut self, steps: u64, reports: &[&str]) {
        let bytes = reports.concat();
        let answer = format!("r 0 {} {} {steps} {bytes}", bytes.len(), reports.len());
        self.push(Command::Run { area: AREA, budget: ENOUGH }, Expected::Whole(answer));
    }

    /// Run answered by a refusal.
    pub fn run_refused(&mut self, area: usize, budget: u64, number: u64) {
        self.push(Command::Run { area, budget }, Expected::Whole(format!("r {number} 0 0 0")));
    }

    /// A message that is taken and rests without meeting anything.
    pub fn rests(&mut self, draft: &Draft) {
        self.taken(draft, &[]);
        self.run(1, &[]);
    }

    /// Depth answered by a level: yield in thousandths or price in tenths, total, orders.
    pub fn level(&mut self, side: u64, k: u64, at: i64, total: u64, orders: u64) {
        self.push(Command::Depth { side, k }, Expected::Whole(format!("d 0 1 {at} {total} {orders}")));
    }

    /// The best level of a side, asked of the heading: yield in thousandths or price in tenths, total, orders.
    pub fn top(&mut self, side: u64, at: i64, total: u64, orders: u64) {
        self.push(Command::Top { side }, Expected::Whole(format!("t 0 1 {at} {total} {orders}")));
    }

    /// The same where the side is empty.
    pub fn no_top(&mut self, side: u64) {
        self.push(Command::Top { side }, Expected::Whole("t 0 0 0 0 0".to_string()));
    }

    /// The same, answered by a refusal.
    pub fn top_refused(&mut self, side: u64, number: u64) {
        self.push(Command::Top { side }, Expected::Whole(format!("t {number} 0 0 0 0")));
    }

    /// Depth answered by "no such level".
    pub fn no_level(&mut self, side: u64, k: u64) {
        self.push(Command::Depth { side, k }, Expected::Whole("d 0 0 0 0 0".to_string()));
    }

    /// Depth answered by a refusal.
    pub fn depth_refused(&mut self, side: u64, k: u64, number: u64) {
        self.push(Command::Depth { side, k }, Expected::Whole(format!("d {number} 0 0 0 0")));
    }

    /// Puts bytes into the table in place of these, where they differ; the same bytes are all put, to see that they stand
    /// there.
    pub fn put(&mut self, at: usize, bytes: &[u8], before: &[u8]) {
        let is_look = bytes == before;
        let pairs = bytes.iter().zip(before).enumerate();
        for (offset, (&byte, before)) in pairs.filter(|(_, (byte, before))| is_look || byte != before) {
            self.push(Command::PutByte { at: at + offset, byte }, Expected::Whole(format!("b {before}")));
        }
    }

    /// Save of the whole table into a whole image, answered by its 65 checks.
    pub fn saved_whole(&mut self, checks: &[u64]) {
        let checks: String = checks.iter().map(|check| format!(" {check}")).collect();
        self.push(Command::Save { table: TABLE, image: IMAGE }, Expected::Whole(format!("w 0{checks}")));
    }

    /// Save answered by some checks.
    pub fn saved(&mut self) {
        self.push(Command::Save { table: TABLE, image: IMAGE }, Expected::Saved);
    }

    /// Save with so many bytes of table and image, answered by a refusal.
    pub fn save_refused(&mut self, table: usize, image: usize, number: u64) {
        self.push(Command::Save { table, image }, Expected::Whole(format!("w {number}")));
    }

    /// Restore of the image.
    pub fn restored(&mut self) {
        self.restore_in(TABLE, IMAGE, 0, 0);
    }

    /// Restore of the image answered by a refusal, and by a block where it is 13.
    pub fn restore_refused(&mut self, number: u64, block: u64) {
        self.restore_in(TABLE, IMAGE, number, block);
    }

    /// Restore with so many bytes of table and image.
    pub fn restore_in(&mut self, table: usize, image: usize, number: u64, block: u64) {
        self.push(Command::Restore { table, image }, Expected::Whole(format!("u {number} {block}")));
    }

    /// Puts a byte into the image in place of another.
    pub fn put_image(&mut self, at: usize, byte: u8, before: u8) {
        self.push(Command::PutImageByte { at, byte }, Expected::Whole(format!("i {before}")));
    }

    /// Read answered by a kind.
    pub fn read_as(&mut self, report: &Draft, kind: u64) {
        self.push(Command::Read { report: report.bytes() }, Expected::ReadAs { letter: "x", kind });
    }

    /// Read answered by refusal 11.
    pub fn not_read(&mut self, report: &Draft) {
        self.bytes_not_read(&report.bytes());
    }

    /// Read of any bytes answered by refusal 11.
    pub fn bytes_not_read(&mut self, report: &[u8]) {
        self.push(Command::Read { report: report.to_vec() }, Expected::Whole("x 11 0".to_string()));
    }

    /// A report handed to a feed with any area.
    fn push_copy(&mut self, feed: &Feed, area: usize, report: &[u8], expected: Expected) {
        self.push(Command::Copy { feed: feed.clone(), area, report: report.to_vec() }, expected);
    }

    /// A report that a feed copies: a copy that has these fields, and the number after the feed's.
    pub fn copied(&mut self, feed: &Feed, report: &Draft, fields: &[&str]) {
        self.copied_in(AREA, feed, report, fields);
    }

    /// The same with any area.
    pub fn copied_in(&mut self, area: usize, feed: &Feed, report: &Draft, fields: &[&str]) {
        let expected = Expected::Copied { next_after: feed.next + 1, fields: owned(fields) };
        self.push_copy(feed, area, &report.bytes(), expected);
    }

    /// A report that a feed copies into exactly these bytes.
    pub fn copied_whole(&mut self, feed: &Feed, report: &Draft, copy: &str) {
        let answer = format!("c 0 {} {} {copy}", copy.len(), feed.next + 1);
        self.push_copy(feed, AREA, &report.bytes(), Expected::Whole(answer));
    }

    /// A report that a feed doesn't copy.
    pub fn not_copied(&mut self, feed: &Feed, report: &Draft) {
        self.push_copy(feed, AREA, &report.bytes(), Expected::Whole(format!("c 0 0 {}", feed.next)));
    }

    /// Any bytes handed to a feed with any area, answered by a refusal.
    pub fn copy_refused_in(&mut self, area: usize, feed: &Feed, report: &[u8], number: u64) {
        self.push_copy(feed, area, report, Expected::Whole(format!("c {number} 0 0")));
    }

    /// A report handed to a feed, answered by a refusal.
    pub fn copy_refused(&mut self, feed: &Feed, report: &Draft, number: u64) {
        self.copy_refused_in(AREA, feed, &report.bytes(), number);
    }

    /// A drop copy read, answered by a kind.
    pub fn copy_read_as(&mut self, copy: &Draft, kind: u64) {
        self.push(Command::ReadCopy { copy: copy.bytes() }, Expected::ReadAs { letter: "y", kind });
    }

    /// Something read as a drop copy, answered by refusal 11.
    pub fn copy_not_read(&mut self, copy: &Draft) {
        self.copy_bytes_not_read(&copy.bytes());
    }

    /// Any bytes read as a drop copy, answered by refusal 11.
    pub fn copy_bytes_not_read(&mut self, copy: &[u8]) {
        self.push(Command::ReadCopy { copy: copy.to_vec() }, Expected::Whole("y 11 0".to_string()));
    }

    /// Runs the whole script and gives the first answer that is not what was expected.
    pub fn check(&self) -> Result<(), String> {
        let mut desk = Desk::new();
        for (line, expected) in &self.lines {
            if let Some(expected) = expected {
                let answer = desk.answer(&Command::parse(line)?);
                expected.hold(&answer).map_err(|why| format!("{why}\n to: {line}\nwas: {answer}"))?;
            }
        }
        Ok(())
    }
}

fn owned(fields: &[&str]) -> Vec<String> {
    fields.iter().map(|field| field.to_string()).collect()
}

impl Expected {
    /// Whether an answer is what was expected; an error says what is not.
    fn hold(&self, answer: &str) -> Result<(), String> {
        match self {
            Expected::Whole(whole) => require(answer == whole, format!("expected: {whole}")),
            Expected::Submitted { number, fields } => {
                let (head, report) = cut_words(answer, 3);
                let length = report.len();
                require(head == format!("s {number} {length}"), format!("expected number {number}"))?;
                hold_fields(&report, fields)
            }
            Expected::Ran { steps, reports } => {
                let (head, bytes) = cut_words(answer, 5);
                let wanted = format!("r 0 {} {} {steps}", bytes.len(), reports.len());
                require(head == wanted, format!("expected: {wanted}"))?;
                hold_reports(&bytes, reports)
            }
            Expected::Loaded { number, place, finished, reports } => {
                let (head, bytes) = cut_words(answer, 6);
                let wanted = format!("l {number} {place} {finished} {} {}", bytes.len(), reports.len());
                require(head == wanted, format!("expected: {wanted}"))?;
                hold_reports(&bytes, reports)
            }
            Expected::Copied { next_after, fields } => {
                let (head, copy) = cut_words(answer, 4);
                let wanted = format!("c 0 {} {next_after}", copy.len());
                require(head == wanted && !copy.is_empty(), format!("expected a copy, then {next_after}"))?;
                hold_fields(&copy, fields)
            }
            Expected::Saved => {
                require(answer.starts_with("w 0 ") && answer.split(' ').count() == 67, "expected 65 checks".to_string())
            }
            Expected::ReadAs { letter, kind } => {
                require(answer.starts_with(&format!("{letter} 0 {kind} ")), format!("expected kind {kind}"))
            }
        }
    }
}

fn require(holds: bool, message: String) -> Result<(), String> {
    if holds {
        Ok(())
    } else {
        Err(message)
    }
}

/// The first words of an answer, and the bytes after them. Scripts use no byte that takes more than one character,
/// but for those that stand in values as they are.
fn cut_words(answer: &str, words: usize) -> (String, String) {
    let mut parts = answer.splitn(words + 1, ' ');
    let head: Vec<&str> = parts.by_ref().take(words).collect();
    let bytes = unescaped(parts.next().unwrap_or("")).unwrap_or_default();
    (head.join(" "), String::from_utf8_lossy(&bytes).replace('\x01', "|"))
}

/// Whether reports that stand one behind another, `|` for SOH, each have their fields.
fn hold_reports(bytes: &str, reports: &[Vec<String>]) -> Result<(), String> {
    let written = bytes.split_inclusive('|').collect::<Vec<_>>();
    let written = written.split(|field| field.starts_with("8=")).skip(1);
    written.zip(reports).try_for_each(|(report, fields)| hold_fields(&report.concat(), fields))
}

/// Whether a report, `|` for SOH, has each of these fields; `no 378` says that 378 is absent.
fn hold_fields(report: &str, fields: &[String]) -> Result<(), String> {
    let written = format!("|{report}");
    for field in fields {
        let holds = match field.strip_prefix("no ") {
            Some(tag) => !written.contains(&format!("|{tag}=")),
            None => written.contains(&format!("|{field}|")),
        };
        require(holds, format!("expected: {field}"))?;
    }
    Ok(())
}
