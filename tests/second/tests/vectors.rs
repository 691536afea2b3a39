//! The files in tests/vectors: what the program writes today, within their limits.

use std::fs;
use std::path::PathBuf;

use second::transcript::{transcript, LONGEST_LINE};
use second::vectors::commands;

fn vector(name: &str) -> String {
    let path = PathBuf::from(env!("CARGO_MANIFEST_DIR")).join("../vectors").join(name);
    fs::read_to_string(path).expect("the file is there")
}

#[test]
fn commands_are_what_the_program_writes() {
    assert!(vector("commands") == commands(), "write them anew with `second commands`");
}

#[test]
fn transcript_is_what_the_program_answers() {
    assert!(vector("transcript") == transcript(&vector("commands")).unwrap(), "write it anew with `second transcript`");
}

#[test]
fn files_are_within_their_limits() {
    let (commands, transcript) = (vector("commands"), vector("transcript"));
    assert!(commands.len() + transcript.len() < 2_200_000);
    assert!(commands.lines().count() < 10_000);
    assert!(commands.lines().chain(transcript.lines()).all(|line| line.len() <= LONGEST_LINE));
    assert!(commands.lines().filter(|line| line.starts_with("s ")).count() >= 2_000);
}
