//! Messages that others have published, each with the outcome that 01 gives it.
//!
//! The files in samples/ have a line for each message: where it comes from, the message (`|` for SOH, `\xHH` for other
//! bytes), and the outcome, in three columns divided by tabs. The outcomes were derived from the paper, apart from
//! this program. The sources are the FIX 4.2 acceptance tests and the unit tests of QuickFIX 1.15.1 and a capture of
//! real FIX 4.1 traffic from the tests of nDPI; the messages are copied as facts.

use crate::escape::unescaped;
use crate::market::Participant;
use crate::transcript::Command;

const FILES: [&str; 3] = [
    include_str!("../samples/quickfix-acceptance.txt"),
    include_str!("../samples/quickfix-literals.txt"),
    include_str!("../samples/capture-fix41.txt"),
];

/// One published message.
#[derive(Clone, Debug)]
pub struct Sample {
    /// The project, file and line it was taken from.
    pub source: &'static str,
    pub message: Vec<u8>,
    /// `Session Reject 373=R 371=T`, or `garbled: ` and why.
    pub outcome: &'static str,
}

impl Sample {
    /// The file that the message was taken from, without the line.
    fn file(&self) -> &'static str {
        match self.source.rsplit_once(':') {
            Some((file, line)) if line.bytes().all(|byte| byte.is_ascii_digit()) => file,
            _ => self.source,
        }
    }

    fn submit(&self) -> Command {
        Command::Submit { area: 1024, message: self.message.clone() }
    }
}

/// All samples in the order of the files.
pub fn all() -> Vec<Sample> {
    FILES.iter().flat_map(|file| file.lines()).map(sample).collect()
}

fn sample(line: &'static str) -> Sample {
    let columns: Vec<&str> = line.split('\t').collect();
    let [source, message, outcome] = columns[..] else {
        panic!("a sample has three columns: {line}");
    };
    // A `;` may stand as it is in these files.
    let message = unescaped(&message.replace(';', "\\x3b")).expect("a sample's message is text");
    Sample { source, message, outcome }
}

/// A market that gets past the CompIDs of the samples.
fn open() -> Command {
    Command::Open {
        venue: b"ISLD".to_vec(),
        port: b"TW".to_vec(),
        code: b"350".to_vec(),
        first_number: 1,
        participants: vec![Participant { mpid: 10, mode: 1 }],
    }
}

/// The samples as lines of a command file: a new market for each file that they were taken from, and before each
/// message a comment with its source and outcome.
pub fn lines() -> Vec<String> {
    let mut lines = Vec::new();
    let mut file = "";
    for sample in all() {
        if sample.file() != file {
            file = sample.file();
            lines.push(open().to_string());
        }
        lines.push(format!("# {}: {}", sample.source, sample.outcome));
        lines.push(sample.submit().to_string());
    }
    lines
}

#[cfg(test)]
mod tests {
    use super::*;
    use crate::instrument::Instrument;
    use crate::read::read;
    use crate::transcript::Desk;

    /// The outcome that this program gives, in the words of the sample files; why a message is garbled is not said.
    fn outcome(desk: &mut Desk, sample: &Sample) -> String {
        let submitted = desk.submit(&sample.message, 1024);
        match submitted.number {
            5 => "garbled".to_string(),
            6 => {
                let report = read(Instrument::Bonds, &submitted.report).expect("a Session Reject can be read");
                let value = |tag| String::from_utf8_lossy(report.value(tag).unwrap_or_default()).into_owned();
                format!("Session Reject 373={} 371={}", value(373), value(371))
            }
            other => other.to_string(),
        }
    }

    #[test]
    fn published_samples_have_the_outcomes_derived_from_the_paper() {
        let mut desk = Desk::new();
        desk.answer(&open());
        for sample in all() {
            let expected = if sample.outcome.starts_with("garbled: ") { "garbled" } else { sample.outcome };
            assert_eq!(outcome(&mut desk, &sample), expected, "{}", sample.source);
        }
    }

    #[test]
    fn there_are_340_published_samples() {
        assert_eq!(all().len(), 340);
    }
}
