//! The whole of tests/vectors/commands: for the bond market the hand-written points, the published samples and generated
//! commands, then points and generated commands for the equities market.

use crate::instrument::Instrument;
use crate::transcript::Command;
use crate::{generate, points, samples};

/// The seed and the numbers of messages of the generated parts.
pub const SEED: u64 = 20_261_116;
pub const GENERATED_FOR_BONDS: u64 = 120;
pub const GENERATED_FOR_EQUITIES: u64 = 100;

/// The command file, each line with its LF.
pub fn commands() -> String {
    let calls = Command::Calls { of: Instrument::Equities };
    let parts = [
        ("# Part 1: the rehearsed cases, and points that are easy to read another way", points::lines_of_bonds()),
        ("# Part 2: published messages, each with its source and the outcome that 01 gives it", samples::lines()),
        ("# Part 3: generated commands", generate::generate(Instrument::Bonds, SEED, GENERATED_FOR_BONDS)),
        (
            "# Part 4: the equities market: the examples of document 004, and points that are easy to read another way",
            [vec![calls.to_string()], points::lines_of_equities()].concat(),
        ),
        (
            "# Part 5: generated commands for the equities market",
            generate::generate(Instrument::Equities, SEED, GENERATED_FOR_EQUITIES),
        ),
    ];
    let title =
        "# The rehearsal bond market: commands for comparison. The format is told in README.md beside this file.";
    let mut text = format!("{title}\n");
    for (heading, lines) in parts {
        for line in [heading.to_string()].iter().chain(&lines) {
            text.push_str(line);
            text.push('\n');
        }
    }
    text
}
