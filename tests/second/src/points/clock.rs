//! Times with milliseconds: both lengths in 52 and 60, and reports with the length that came in.

use crate::compose::{cancel, new_order, order, order_of, replace};
use crate::script::Script;

/// 22 characters that begin like a time with milliseconds; 17 and 21 of them are a time.
const TOO_LONG: &str = "20261116-10:11:12.1234";

/// The same without a point; only 17 of them are a time.
const WITHOUT_POINT: &str = "20261116-10:11:1212345";

/// Texts of 21 characters that are no time: the point elsewhere or doubled, another mark, a digit missing.
const NO_MILLISECONDS: [&str; 18] = [
    "20261116-10:11:1.1234", "20261116-10:11:121.23", "20261116-10:11:12123.", "20261116.10:11:12.123",
    "20261116-10.11:12.123", "20261116-10:11.12.123", ".0261116-10:11:12.123", "2026.116-10:11:12.123",
    "20261116-10:11:12,123", "20261116-10:11:12:123", "20261116-10:11:12-123", "20261116-10:11:12 123",
    "20261116-10:11:12.12x", "20261116-10:11:12.1 3", "20261116-10:11:12. 23", "20261116-10:11:12.-23",
    "20261116-10:11:12..23", "20261116-10:11:1x.123",
];

/// Both fields of a report that say the time.
fn said(time: &str) -> [String; 2] {
    [format!("52={time}"), format!("60={time}")]
}

pub fn sending_time_has_17_or_21_characters(script: &mut Script) {
    script.say("Clock: 52 of 16 to 22 characters: 17 and 21 are taken and said back, the others are garbled");
    script.open(1);
    for length in 16..=22 {
        let (time, id) = (&TOO_LONG[..length], format!("a{length}"));
        let draft = new_order(&id).with("52", time);
        if length == 17 || length == 21 {
            let [sending, transact] = said(time);
            script.taken(&draft, &[&sending, &transact]);
            script.run(1, &[]);
        } else {
            script.refused(&draft, 5);
        }
    }
    for length in 18..=22 {
        script.refused(&new_order("b").with("52", &WITHOUT_POINT[..length]), 5);
    }
}

pub fn transact_time_has_17_or_21_characters(script: &mut Script) {
    script.say("Clock: 60 of 16 to 22 characters: 17 and 21 are taken, the others are 373=6");
    script.open(1);
    for length in 16..=22 {
        let (time, id) = (&TOO_LONG[..length], format!("a{length}"));
        if length == 17 || length == 21 {
            script.rests(&new_order(&id).with("60", time));
        } else {
            script.session_reject(&new_order(&id).with("60", time), 6, 60);
            script.session_reject(&replace("a17", &id, "1", "5", "1").with("60", time), 6, 60);
            script.session_reject(&cancel("a17", &id, "1").with("60", time), 6, 60);
        }
    }
    for length in 18..=22 {
        script.session_reject(&new_order("b").with("60", &WITHOUT_POINT[..length]), 6, 60);
    }
    script.rests(&replace("a17", "b", "1", "5", "1").with("60", &TOO_LONG[..21]));
    script.taken(&cancel("b", "c", "1").with("60", &TOO_LONG[..21]), &["60=20261116-09:00:00"]);
}

pub fn milliseconds_are_a_point_and_three_digits(script: &mut Script) {
    script
        .say("Clock: 21 characters with the point elsewhere, another mark or a digit missing: garbled in 52, 6 in 60");
    script.open(1);
    for time in NO_MILLISECONDS {
        script.refused(&new_order("a").with("52", time), 5);
        script.session_reject(&new_order("a").with("60", time), 6, 60);
    }
}

pub fn ranges_of_a_time_with_milliseconds(script: &mut Script) {
    script.say("Clock: 000 to 999 are milliseconds");
    script.open(1);
    for (id, time) in ["00000101-00:00:00.000", "99991231-23:59:59.999", "20260231-09:00:00.001"].iter().enumerate() {
        let [sending, transact] = said(time);
        script.taken(&new_order(&format!("a{id}")).with("52", time).with("60", time), &[&sending, &transact]);
        script.run(1, &[]);
    }
    script.say("Clock: month, day, hour, minute and second have their ranges: garbled in 52, 5 in 60");
    for time in [
        "20260001-09:00:00.500", "20261301-09:00:00.500", "20261100-09:00:00.500", "20261132-09:00:00.500",
        "20261116-24:00:00.000", "20261116-09:60:00.000", "20261116-09:00:60.000",
    ] {
        script.refused(&new_order("b").with("52", time), 5);
        script.session_reject(&new_order("b").with("60", time), 5, 60);
    }
    script.say("Clock: shape (6) before ranges (5)");
    for time in ["20261301-09:00:60.", "20261301-09:00:60.12", "20261301-24:00:60.12x"] {
        script.session_reject(&new_order("b").with("60", time), 6, 60);
    }
}

pub fn reports_have_the_length_of_the_sending_time(script: &mut Script) {
    script.say("Clock: 52 with milliseconds and 60 without, and the other way round: reports show the 52 in both");
    script.open(1);
    let (short, long) = ("20261116-10:11:12", "20261116-10:11:12.345");
    script.taken(&new_order("a").with("52", long).with("60", short), &[&said(long)[0], &said(long)[1]]);
    script.run(1, &[]);
    script.taken(&new_order("b").with("52", short).with("60", long), &[&said(short)[0], &said(short)[1]]);
    script.run(1, &[]);
    script.taken(&new_order("c").with("52", long).with("60", long), &[&said(long)[0], &said(long)[1]]);
    script.run(1, &[]);
    script.taken(&cancel("c", "d", "1").with("52", long).with("60", short), &[&said(long)[0], &said(long)[1]]);
    script.taken(&cancel("b", "e", "1").with("52", short).with("60", long), &[&said(short)[0], &said(short)[1]]);
}

pub fn every_kind_of_report_says_the_milliseconds(script: &mut Script) {
    script.say("Clock: all seven kinds bear the 21 characters that came in");
    let at = |number: u64| format!("20261116-10:11:12.{number:03}");
    script.open(3);
    let [sending, transact] = said(&at(7));
    script.taken(&order_of("10", "s", "2", "9", "0.1").with("52", &at(7)), &["150=0", &sending, &transact]);
    script.run(1, &[]);
    let [sending, transact] = said(&at(70));
    script.taken(&replace("s", "s1", "2", "10", "0.1").with("52", &at(70)), &["150=5", &sending, &transact]);
    script.run(1, &[]);
    let [sending, transact] = said(&at(700));
    let time: [&str; 2] = [&sending, &transact];
    script.taken(&order_of("11", "b", "1", "3", "0.1").with("52", &at(700)), &time);
    script.run(2, &[&["150=1", time[0], time[1]], &["150=2", time[0], time[1]]]);
    let [sending, transact] = said(&at(0));
    let time: [&str; 2] = [&sending, &transact];
    script.taken(&order_of("10", "c", "1", "2", "0.1").with("52", &at(0)), &time);
    script.run(2, &[&["150=4", "378=100", time[0], time[1]], &["150=5", "378=100", time[0], time[1]]]);
    let [sending, transact] = said(&at(999));
    script.taken(&cancel("s1", "s2", "2").with("52", &at(999)), &["150=4", "41=s1", &sending, &transact]);
    let sending = &said(&at(1))[0];
    script.submit(&new_order("d").with("55", "351").with("52", &at(1)), 7, &["150=8", sending, "no 60"]);
    script.submit(&cancel("x", "d", "1").with("52", &at(1)), 8, &["35=9", sending, "no 60"]);
    script.submit(&new_order("d").with("54", "3").with("52", &at(1)), 6, &["35=3", sending, "no 60"]);
}

pub fn stored_time_keeps_its_milliseconds(script: &mut Script) {
    script.say(
        "Clock: while Run stops and goes on, its reports bear the 52 of the message in work, milliseconds and all",
    );
    script.open(1);
    script.rests(&order("s1", "2", "5", "0.1"));
    script.rests(&order("s2", "2", "5", "0.1").with("52", "20261116-09:00:02.222"));
    let [sending, transact] = said("20261116-09:00:03.333");
    let time: &[&str] = &[&sending, &transact];
    script.taken(&order("b", "1", "15", "0.1").with("52", "20261116-09:00:03.333").with("59", "3"), time);
    script.run_in(4096, 1, 1, &[time, time]);
    script.refused(&new_order("c").with("52", "20261116-09:00:04.444"), 3);
    script.refused(&new_order("c").with("52", "20261116-09:00:04"), 3);
    script.run_in(1024, 9, 1, &[time, time]);
    script.run_in(1024, 9, 1, &[&[time[0], time[1], "378=99"]]);
    script.say("Clock: the next message has its own length again, shorter or longer");
    script.rests(&order("s3", "2", "5", "0.1").with("52", "20261116-09:00:05.555"));
    let [sending, transact] = said("20261116-09:00:06");
    let time: &[&str] = &[&sending, &transact];
    script.taken(&order("d", "1", "3", "0.1").with("52", "20261116-09:00:06"), time);
    script.run(2, &[time, time]);
    let [sending, transact] = said("20261116-09:00:06.000");
    let time: &[&str] = &[&sending, &transact];
    script.taken(&order("e", "1", "2", "0.1").with("52", "20261116-09:00:06.000"), time);
    script.run(2, &[time, time]);
}

pub fn whole_bytes_with_milliseconds(script: &mut Script) {
    script.say("Clock: the whole bytes of reports with milliseconds, with 9 and 10 worked out apart from this program");
    script.open(1);
    script.submit_whole(
        &order("s", "2", "5", "0.1").with("52", "20261116-10:11:12.345"),
        0,
        "8=FIX.4.2|9=185|35=8|34=1|49=V|50=DJGB|52=20261116-10:11:12.345|56=P|6=0.000000|11=s|14=0|17=1|20=0|37=1|38=5|39=0|40=2|44=0.100|47=A|54=2|55=350|59=0|60=20261116-10:11:12.345|150=0|151=5|423=9|8060=1|10=224|",
    );
    script.run(1, &[]);
    script.taken(&order("b", "1", "5", "0.1").with("52", "20261116-10:11:12.999"), &[]);
    script.run_whole(2, &["8=FIX.4.2|9=223|35=8|34=3|49=V|50=DJGB|52=20261116-10:11:12.999|56=P|6=0.100000|11=s|14=5|17=3|20=0|31=0.100|32=5|37=1|38=5|39=2|40=2|44=0.100|47=A|54=2|55=350|59=0|60=20261116-10:11:12.999|150=2|151=0|375=0|382=1|423=9|851=1|880=3|8060=1|10=160|", "8=FIX.4.2|9=223|35=8|34=4|49=V|50=DJGB|52=20261116-10:11:12.999|56=P|6=0.100000|11=b|14=5|17=4|20=0|31=0.100|32=5|37=2|38=5|39=2|40=2|44=0.100|47=A|54=1|55=350|59=0|60=20261116-10:11:12.999|150=2|151=0|375=0|382=1|423=9|851=2|880=3|8060=1|10=146|"]);
    script.submit_whole(
        &new_order("c").with("38", "0").with("52", "20261116-10:11:13.000"),
        6,
        "8=FIX.4.2|9=77|35=3|34=5|49=V|50=DJGB|52=20261116-10:11:13.000|56=P|45=1|371=38|372=D|373=5|10=115|",
    );
}
