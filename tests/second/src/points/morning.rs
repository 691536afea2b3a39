//! A morning's orders in one call: a buffer of messages, each found by its own BodyLength (T-07 of 02).

use super::cases::book_r;
use crate::compose::{cancel, new_order, order, order_of, replace, share_order, Draft};
use crate::instrument::Instrument::{Bonds, Equities};
use crate::script::Script;

/// Messages one behind another.
pub(super) fn laid(drafts: &[Draft]) -> Vec<u8> {
    drafts.iter().flat_map(Draft::bytes).collect()
}

/// A message that gets a Session Reject: its type is unknown.
fn unknown_type() -> Draft {
    Draft::of(&[("35", "E"), ("34", "1"), ("49", "P"), ("52", "20261116-09:00:00"), ("56", "V")])
}

/// A message of so many bytes, undefined for the field that fills it up.
fn of_length(length: usize) -> Draft {
    let draft = new_order("long").adding("58", "");
    let missing = length - draft.bytes().len();
    draft.with("58", &"x".repeat(missing - 1))
}

pub fn messages_lie_one_behind_another(script: &mut Script) {
    script.say(
        "Load: no message, one, and some that trade, are replaced, canceled and rejected; reports one behind another",
    );
    script.open(1);
    script.loaded(b"", 0, &[]);
    script.loaded(&new_order("a").bytes(), 1, &[&["34=1", "37=1", "39=0"]]);
    script.level(1, 0, 100, 100, 1);
    let buffer = laid(&[
        order("s", "2", "30", "0.2"),
        replace("a", "a1", "1", "60", "0.1"),
        unknown_type(),
        new_order("a1"),
        cancel("nobody", "x", "1"),
        cancel("a1", "a2", "1"),
        new_order("b").with("59", "4"),
        new_order("c"),
    ]);
    script.loaded(
        &buffer,
        8,
        &[
            &["34=2", "37=2", "11=s"],
            &["34=3", "37=1", "880=3", "32=30", "851=1"],
            &["34=4", "37=2", "880=3", "39=2", "851=2"],
            &["34=5", "37=1", "150=5", "38=60", "151=30"],
            &["34=6", "35=3", "373=11"],
            &["34=7", "39=8", "103=6"],
            &["34=8", "35=9", "102=1"],
            &["34=9", "37=1", "39=4", "41=a1"],
            &["34=10", "37=10", "59=4"],
            &["34=11", "37=10", "378=99"],
            &["34=12", "37=12", "11=c"],
        ],
    );
    script.level(1, 0, 100, 100, 1);
    script.no_level(2, 0);
    script.say("Load: the same messages one by one");
    script.open(1);
    script.rests(&new_order("a"));
    script.taken(&order("s", "2", "30", "0.2"), &["34=2"]);
    script.run(2, &[&["34=3"], &["34=4"]]);
    script.rests(&replace("a", "a1", "1", "60", "0.1"));
    script.session_reject(&unknown_type(), 11, 35);
    script.rejected(&new_order("a1"), 6);
    script.cancel_reject(&cancel("nobody", "x", "1"), 1, &["34=8"]);
    script.taken(&cancel("a1", "a2", "1"), &["34=9"]);
    script.taken(&new_order("b").with("59", "4"), &["34=10"]);
    script.run(1, &[&["34=11"]]);
    script.rests(&new_order("c"));
    script.level(1, 0, 100, 100, 1);
}

pub fn book_r_in_one_call(script: &mut Script) {
    script.say("Load: book R and A's buy of case 3 in one buffer");
    script.open(3);
    let buffer = laid(&[
        order_of("11", "s1", "2", "100", "0.101"),
        order_of("12", "s2", "2", "200", "0.100"),
        order_of("10", "s3", "2", "200", "0.100"),
        order_of("13", "s4", "2", "500", "0.100"),
        order_of("10", "b", "1", "1200", "0.100"),
    ]);
    let ids = ["37=1", "37=2", "37=3", "37=4", "37=5", "37=1", "37=5", "37=2", "37=5", "37=3", "37=5", "37=4", "37=5"];
    let reports: Vec<[&str; 1]> = ids.iter().map(|&id| [id]).collect();
    script.loaded(&buffer, 5, &reports.iter().map(|fields| &fields[..]).collect::<Vec<_>>());
    script.level(1, 0, 100, 200, 1);
    script.no_level(2, 0);
}

pub fn buffers_cut_at_every_byte(script: &mut Script) {
    script.say("Load: a buffer that ends in the middle of a message is 5 at its place, wherever it ends");
    script.open(1);
    let bytes = new_order("a").bytes();
    for length in 1..bytes.len() {
        script.load_in(1024, &bytes[..length], (5, 0, 0), &[]);
    }
    script.say("Load: so is one behind a message that stands; and one byte too many");
    let first = unknown_type().bytes();
    for length in (1..bytes.len()).step_by(14) {
        let buffer = [&first[..], &bytes[..length]].concat();
        script.load_in(2048, &buffer, (5, first.len(), 1), &[&["35=3"]]);
    }
    for more in [&b"8"[..], b"\x01", b"\n", b" "] {
        script.load_in(2048, &[&first[..], more].concat(), (5, first.len(), 1), &[&["35=3"]]);
    }
    script.no_level(1, 0);
}

pub fn lengths_that_cannot_be_read(script: &mut Script) {
    script.say("Load: 5 where the bytes don't begin with 8=FIX.4.2 and a field 9 of 1 to 4 digits, or 9 says more than there is");
    script.open(1);
    let good = new_order("a");
    let first = unknown_type().bytes();
    let length = good.body_length();
    let longer = format!("{}", length + 1);
    let wrong = [
        good.clone().with_length("00128"),
        good.clone().with_length("99999"),
        good.clone().with_length("9999"),
        good.clone().with_length(&longer),
        good.clone().with_length(""),
        good.clone().with_length("x"),
        good.clone().with_length("-1"),
        good.clone().with_length(" 128"),
        good.clone().with_length("12 "),
        good.clone().beginning("FIX.4.4"),
        good.clone().beginning("FIX.4.20"),
        good.clone().beginning("fix.4.2"),
        good.clone().beginning(""),
    ];
    for draft in &wrong {
        script.load_in(1024, &draft.bytes(), (5, 0, 0), &[]);
    }
    for draft in wrong.iter().step_by(3) {
        let buffer = [&first[..], &draft.bytes(), &first].concat();
        let reads_on = draft.length == Some(longer.clone().into_bytes());
        if !reads_on {
            script.load_in(4096, &buffer, (5, first.len(), 1), &[&["35=3"]]);
        }
    }
    let bytes = good.bytes();
    for odd in [&bytes[1..], &bytes[10..], &[b" ", &bytes[..]].concat(), &[b"\x01", &bytes[..]].concat(), b"9=5\x01"] {
        script.load_in(1024, odd, (5, 0, 0), &[]);
    }
    script.say("Load: leading zeros up to four digits are read");
    script.loaded(&good.clone().with_length(&format!("{length:04}")).bytes(), 1, &[&["37=5", "11=a"]]);
    script.say("Load: where 9 is too small a message is found that is garbled, and what is behind it has no length");
    let short = new_order("b").with_length(&(length - 1).to_string()).bytes();
    script.load_in(2048, &short, (5, short.len() - 1, 1), &[]);
    let none = new_order("b").with_length("0").bytes();
    script.load_in(2048, &none, (5, "8=FIX.4.2|9=0|".len() + 7, 1), &[]);
    script.say("Load: where it is too large the message takes in what is behind it, and is garbled");
    let over = new_order("b").with_length(&(length + 1).to_string()).bytes();
    let buffer = [&over[..], b"\x01", &new_order("c").bytes()].concat();
    script.loaded(&buffer, 2, &[&["11=c"]]);
}

pub fn garbled_messages_between_good_ones(script: &mut Script) {
    script.say("Load: a garbled message whose length can be read is passed over; it is finished and has no report");
    script.open(1);
    let garbled = [
        new_order("x").with_check_sum("000"),
        new_order("x").adding("11", "y"),
        new_order("x").with("11", "a\x7f"),
        new_order("x").with("52", "20261116-09:00:60"),
        new_order("x").swapping("49", "56"),
        new_order("x").with("34", "0"),
        new_order("x").inserting("11", "011", "y"),
        of_length(1025),
        of_length(1500),
    ];
    for (at, draft) in garbled.iter().enumerate() {
        let (before, after) = (format!("a{at}"), format!("b{at}"));
        let buffer = laid(&[new_order(&before), draft.clone(), new_order(&after)]);
        script.loaded(&buffer, 3, &[&[&format!("11={before}")], &[&format!("11={after}")]]);
    }
    script.loaded(&laid(&garbled[..6]), 6, &[]);
    script.say("Load: a message of 1,024 bytes is none of these");
    script.loaded(&laid(&[of_length(1024), of_length(1025), new_order("z")]), 3, &[&["373=3", "371=58"], &["11=z"]]);
}

pub fn areas_that_end_at_each_place_of_a_sweep(script: &mut Script) {
    script.say("Load: an IOC of 5 meets three sells of 1: 200 bytes of Accepted, trades of 477, 477 and 479, a cancel; each step asks for room");
    script.open(1);
    script.loaded(
        &laid(&["s1", "s2", "s3"].map(|id| order(id, "2", "1", "0.1"))),
        3,
        &[&["37=1"], &["37=2"], &["37=3"]],
    );
    script.saved();
    let buy = order("b", "1", "5", "0.1").with("59", "3").bytes();
    let all: [&[&str]; 8] = [
        &["34=4", "37=4", "39=0"],
        &["34=5", "37=1"],
        &["34=6", "37=4"],
        &["34=7", "37=2"],
        &["34=8", "37=4"],
        &["34=9", "37=3"],
        &["34=10", "37=4"],
        &["34=11", "37=4", "378=99"],
    ];
    for (area, reports, steps_left) in [
        (1024, 1, 4),
        (1223, 1, 4),
        (1224, 3, 3),
        (1700, 3, 3),
        (1701, 5, 2),
        (2177, 5, 2),
        (2178, 7, 1),
        (2656, 7, 1),
        (2657, 8, 0),
    ] {
        let number = u64::from(steps_left > 0);
        script.load_in(area, &buy, (number, buy.len(), 1 - number), &all[..reports]);
        if steps_left > 0 {
            script.load_refused(1024, &buy, 3);
            script.run(steps_left, &all[reports..]);
        }
        script.no_level(2, 0);
        script.restored();
    }
    script.say("Load: stopped inside a message, the place is that of the next one");
    let buffer = [&buy[..], &new_order("c").bytes()].concat();
    script.load_in(1701, &buffer, (1, buy.len(), 0), &all[..5]);
    script.run(2, &all[5..]);
    script.loaded(&buffer[buy.len()..], 1, &[&["34=12", "11=c"]]);
}

pub fn room_in_front_of_a_message(script: &mut Script) {
    script.say("Load: under 1,024 bytes free in front of a message is 1; a reject has 96 bytes, and is finished whatever is left");
    script.open(1);
    let reject = unknown_type();
    let length = reject.bytes().len();
    for (area, finished) in [(1024, 1), (1119, 1), (1120, 2), (1216, 3)] {
        let taken = (finished as usize).min(3);
        let reports: Vec<&[&str]> = vec![&["35=3"]; taken];
        let number = u64::from(finished < 3);
        script.load_in(
            area,
            &laid(&[reject.clone(), reject.clone(), reject.clone()]),
            (number, taken * length, finished),
            &reports,
        );
    }
    script.say("Load: at the end of the buffer no room is asked for");
    script.load_in(1024, &reject.bytes(), (0, length, 1), &[&["35=3"]]);
    script.load_in(1024, b"", (0, 0, 0), &[]);
    script.say("Load: a cancel, which is never in work, and a garbled message, which has no report");
    script.rests(&new_order("a"));
    let buffer = laid(&[cancel("a", "b", "1"), new_order("c")]);
    script.load_in(1024, &buffer, (1, cancel("a", "b", "1").bytes().len(), 1), &[&["39=4", "41=a"]]);
    let garbled = new_order("x").with_check_sum("000");
    let buffer = laid(&[garbled.clone(), garbled, reject]);
    script.load_in(1024, &buffer, (0, buffer.len(), 3), &[&["35=3"]]);
}

pub fn refusals_of_load_come_in_their_order(script: &mut Script) {
    script.say("Load: 1, 2, 3 for the whole call, whatever the buffer holds");
    book_r(script, 1);
    let buffer = laid(&[order_of("14", "b", "1", "100", "0.101"), new_order("c")]);
    script.load_refused(1023, &buffer, 1);
    script.load_refused(0, b"", 1);
    script.put(127, &[1], &[0]);
    script.load_refused(1024, &buffer, 2);
    script.load_refused(1023, &buffer, 1);
    script.load_refused(1024, b"rubbish", 2);
    script.put(127, &[0], &[1]);
    script.calls(Equities);
    script.load_refused(1024, &buffer, 2);
    script.calls(Bonds);
    script.taken(&order_of("14", "a", "1", "100", "0.101"), &[]);
    script.load_refused(1024, &buffer, 3);
    script.load_refused(1024, b"", 3);
    script.load_refused(1024, b"rubbish", 3);
    script.load_refused(1023, b"", 1);
    script.put(127, &[1], &[0]);
    script.load_refused(1024, b"", 2);
    script.put(127, &[0], &[1]);
    script.run(2, &[&["37=1"], &["37=5"]]);
    script.say("Load: at a message want of room, then a length that cannot be read, then numbers that are used up");
    let first = unknown_type().bytes();
    script.load_in(1024, &[&first[..], b"rubbish"].concat(), (1, first.len(), 1), &[&["35=3"]]);
    script.load_in(1200, &[&first[..], b"rubbish"].concat(), (5, first.len(), 1), &[&["35=3"]]);
    script.open_from(999_998_976, 1);
    script.load_in(1024, &[&first[..], b"rubbish"].concat(), (1, first.len(), 1), &[&["34=999998976"]]);
    script.load_in(1024, b"rubbish", (5, 0, 0), &[]);
    script.load_in(1024, &first, (4, 0, 0), &[]);
    script.load_in(1024, &new_order("a").with_check_sum("000").bytes(), (4, 0, 0), &[]);
    script.load_in(1024, b"", (0, 0, 0), &[]);
}

pub fn the_last_numbers_of_a_load(script: &mut Script) {
    script.say("Load: 4 in front of the first message that Submit would refuse so; what went before stands");
    script.open_from(999_998_973, 1);
    let buffer = laid(&[
        order("s", "2", "5", "0.1"),
        unknown_type(),
        order("b", "1", "3", "0.1"),
        new_order("c"),
        new_order("d"),
    ]);
    let place = laid(&[order("s", "2", "5", "0.1"), unknown_type(), order("b", "1", "3", "0.1")]).len();
    script.load_in(
        4096,
        &buffer,
        (4, place, 3),
        &[&["34=999998973"], &["34=999998974"], &["34=999998975"], &["34=999998976"], &["34=999998977"]],
    );
    script.level(2, 0, 100, 2, 1);
    script.load_in(4096, &buffer[place..], (4, 0, 0), &[]);
}

pub fn shares_in_one_call(script: &mut Script) {
    script.say("Load of shares: sells of every kind, a buy, a minus in 44, a missing 544, a garbled message");
    script.open_shares(1);
    let buffer = laid(&[
        share_order("a", "2", "10", "100"),
        share_order("b", "5", "20", "100.1").with("544", "2").adding("8214", "1"),
        share_order("c", "6", "30", "99.9"),
        share_order("x", "1", "30", "-99.9"),
        share_order("x", "1", "30", "99.9").without("544"),
        share_order("x", "1", "30", "99.9").with_check_sum("000"),
        share_order("d", "1", "50", "100.1"),
    ]);
    script.loaded(
        &buffer,
        7,
        &[
            &["37=1", "54=2"],
            &["37=2", "54=5", "8214=1"],
            &["37=3", "54=6"],
            &["373=6", "371=44"],
            &["373=1", "371=544"],
            &["37=6", "54=1"],
            &["37=3", "31=99.9", "32=30"],
            &["37=6"],
            &["37=1", "31=100.0", "32=10"],
            &["37=6"],
            &["37=2", "31=100.1", "32=10", "8214=1"],
            &["37=6", "39=2", "6=99.9600"],
        ],
    );
    script.top(2, 1001, 10, 1);
    script.calls(Bonds);
    script.load_refused(1024, &buffer, 2);
    script.load_refused(1023, &buffer, 1);
    script.calls(Equities);
    script.taken(&share_order("e", "1", "1", "1"), &[]);
    script.load_refused(1024, b"", 3);
    script.run(1, &[]);
}
