//! The format of command files and transcripts.

use second::compose::Draft;
use second::escape::{escaped, unescaped};
use second::transcript::{transcript, Command};

#[test]
fn every_byte_comes_back_from_its_escape() {
    let bytes: Vec<u8> = (0..=255).collect();
    let text = escaped(&bytes);
    assert_eq!(unescaped(&text), Some(bytes));
    assert!(text.bytes().all(|byte| (0x20..=0x7e).contains(&byte) && byte != b';'));
}

#[test]
fn soh_is_a_bar_and_the_three_marks_are_escaped() {
    assert_eq!(escaped(b"8=a\x01|;\\\x00\x7f\xff ~"), "8=a|\\x7c\\x3b\\x5c\\x00\\x7f\\xff ~");
}

#[test]
fn loose_marks_and_other_escapes_are_no_text() {
    for text in ["a;b", "\\", "\\x4", "\\x4G", "\\xAB", "\\n", "a\tb", "\u{e9}"] {
        assert_eq!(unescaped(text), None, "{text}");
    }
}

#[test]
fn lines_that_are_no_command_are_errors() {
    for line in [
        "", "s", "s 1024", "s 65537;x", "s x;y", "s 1024;a;b", "r 1024", "r 1024;", "r 1024;18446744073709551616",
        "d 1", "d 1;-1", "t", "t ", "t 1;0", "t -1", "b 1", "b 32768;0", "b 0;256", "b -1;0", "b 1;2;3",
        "c 1;1;P;G;1;1024", "c 1;1;P;G;1;65537;x", "c 1;1;P;G;-1;1024;x", "c 2;1;P;G;1;1024;x;y", "y a;b", "o V;P",
        "o V;P;350;1;10", "o V;P;350;1;10:", "l 1", "l 65537;x", "l 1;2;3", "w 32769;0", "w 0;33282", "w 1", "u 32768",
        "u 32768;33280;0", "i 33281;0", "i 0;256", "i 0", "q", "q ", "q 2", "q 1;0", "q -1", " s 1;x", "x",
    ] {
        assert!(Command::parse(line).is_err(), "{line}");
    }
    assert!(Command::parse(&format!("x {}", "8".repeat(8191))).is_err());
    assert!(Command::parse(&format!("x {}", "8".repeat(8190))).is_ok());
}

#[test]
fn a_command_is_its_line() {
    for line in [
        "o V;P;350;1;10:1;11:2",
        "o ;;;0",
        "o a b;\\x7c;1;18446744073709551615;0:0",
        "s 65536;8=|\\x00",
        "s 0;",
        "r 1024;18446744073709551615",
        "d 0;0",
        "t 18446744073709551615",
        "b 0;255",
        "l 1024;",
        "l 65536;8=|\\x00",
        "w 32768;33281",
        "u 0;0",
        "i 33280;255",
        "q 0",
        "q 1",
        "b 32767;0",
        "x 8=FIX.4.2|",
        "x ",
        "c 2;3;P1;\\x7c;18446744073709551615;1024;8=|",
        "c 0;0;;;0;0;",
        "y 8=FIX.4.2|",
        "y ",
    ] {
        assert_eq!(Command::parse(line).unwrap().to_string(), line);
    }
}

#[test]
fn a_transcript_says_comments_back_and_answers_in_order() {
    let commands = "# one\nd 1;0\no V;P;350;1;10:1\nd 1;0\n#\nr 1023;1\nx 8=FIX.4.2|\n";
    let answers = "# one\nd 2 0 0 0 0\no 0\nd 0 0 0 0 0\n#\nr 1 0 0 0\nx 11 0\n";
    assert_eq!(transcript(commands).unwrap(), answers);
    assert_eq!(transcript(commands.trim_end()).unwrap(), answers, "a last line without LF is taken");
    assert!(transcript("# one\nwhat\n").unwrap_err().starts_with("line 2"));
}

#[test]
fn what_was_read_is_said_field_by_field() {
    let report = Draft::of_text("35=9|34=7|49=V|50=DJGB|52=20261116-09:00:00|56=P|11=a|37=NONE|39=8|41=x|102=1|434=1|")
        .with("41", ";|\\");
    let command = Command::Read { report: report.bytes() };
    let answer = transcript(&command.to_string()).unwrap();
    assert!(
        answer.starts_with("x 0 6 8=FIX.4.2;9=86;35=9;34=7;49=V;50=DJGB;52=20261116-09:00:00;56=P;11=a;37=NONE;39=8;")
    );
    assert!(answer.contains(";41=\\x3b\\x7c\\x5c;102=1;434=1;10="));
    assert!(answer.ends_with(";\n"));
}
