//! What the reports of an equities market say.

use crate::compose::{new_share_order, share_cancel, share_order, share_order_of, share_replace};
use crate::script::Script;

pub fn whole_bytes_of_each_share_report(script: &mut Script) {
    script
        .say("The whole bytes of every kind of report about shares, with 9 and 10 worked out apart from this program");
    script.open_shares(3);
    let short = share_order_of("10", "s-1", "5", "200", "100.1").inserting("11", "1", "ACC").with("47", "P");
    script.submit_whole(&short.with("8060", "3").with("544", "2").adding("8214", "1"), 0, "8=FIX.4.2|9=201|35=8|34=1|49=V|50=DAY|52=20261116-09:00:00|56=P|1=ACC|6=0.0000|11=s-1|14=0|17=1|20=0|37=1|38=200|39=0|40=2|44=100.1|47=P|54=5|55=7203|59=0|60=20261116-09:00:00|109=10|150=0|151=200|544=2|8060=3|8214=1|10=185|");
    script.run(1, &[]);
    script.submit_whole(&share_replace("s-1", "s-2", "5", "250", "100"), 0, "8=FIX.4.2|9=208|35=8|34=2|49=V|50=DAY|52=20261116-09:00:00|56=P|1=ACC|6=0.0000|11=s-2|14=0|17=2|20=0|37=1|38=250|39=5|40=2|41=s-1|44=100.0|47=P|54=5|55=7203|59=0|60=20261116-09:00:00|109=10|150=5|151=250|544=2|8060=3|8214=1|10=074|");
    script.run(1, &[]);
    script.taken(&share_order_of("11", "b-1", "1", "60", "100.5"), &[]);
    script.run_whole(2, &["8=FIX.4.2|9=231|35=8|34=4|49=V|50=DAY|52=20261116-09:00:00|56=P|1=ACC|6=100.0000|11=s-2|14=60|17=4|20=0|31=100.0|32=60|37=1|38=250|39=1|40=2|44=100.0|47=P|54=5|55=7203|59=0|60=20261116-09:00:00|109=10|150=1|151=190|544=2|851=1|880=4|8060=3|8214=1|10=033|", "8=FIX.4.2|9=215|35=8|34=5|49=V|50=DAY|52=20261116-09:00:00|56=P|6=100.0000|11=b-1|14=60|17=5|20=0|31=100.0|32=60|37=3|38=60|39=2|40=2|44=100.5|47=A|54=1|55=7203|59=0|60=20261116-09:00:00|109=11|150=2|151=0|544=1|851=2|880=4|8060=1|10=249|"]);
    script.taken(&share_order_of("10", "b-2", "1", "40", "100").with("59", "3"), &[]);
    script.run_whole(2, &["8=FIX.4.2|9=193|35=8|34=7|49=V|50=DAY|52=20261116-09:00:00|56=P|6=0.0000|11=b-2|14=0|17=7|20=0|37=6|38=40|39=4|40=2|44=100.0|47=A|54=1|55=7203|59=3|60=20261116-09:00:00|109=10|150=4|151=0|378=100|544=1|8060=1|10=037|", "8=FIX.4.2|9=219|35=8|34=8|49=V|50=DAY|52=20261116-09:00:00|56=P|1=ACC|6=100.0000|11=s-2|14=60|17=8|20=0|37=1|38=250|39=1|40=2|41=s-2|44=100.0|47=P|54=5|55=7203|59=0|60=20261116-09:00:00|109=10|150=5|151=150|378=100|544=2|8060=3|8214=1|10=092|"]);
    script.taken(&share_order("b-3", "1", "10", "0.5").with("59", "3"), &[]);
    script.run_whole(1, &["8=FIX.4.2|9=185|35=8|34=10|49=V|50=DAY|52=20261116-09:00:00|56=P|6=0.0000|11=b-3|14=0|17=10|20=0|37=9|38=10|39=4|40=2|44=0.5|47=A|54=1|55=7203|59=3|60=20261116-09:00:00|150=4|151=0|378=99|544=1|8060=1|10=199|"]);
    script.submit_whole(&share_cancel("s-2", "s-3", "5"), 0, "8=FIX.4.2|9=211|35=8|34=11|49=V|50=DAY|52=20261116-09:00:00|56=P|1=ACC|6=100.0000|11=s-3|14=60|17=11|20=0|37=1|38=250|39=4|40=2|41=s-2|44=100.0|47=P|54=5|55=7203|59=0|60=20261116-09:00:00|109=10|150=4|151=0|544=2|8060=3|8214=1|10=212|");
    script.submit_whole(&new_share_order("c").with("55", "7204"), 7, "8=FIX.4.2|9=130|35=8|34=12|49=V|50=DAY|52=20261116-09:00:00|56=P|6=0.0000|11=c|14=0|17=12|20=0|37=NONE|38=100|39=8|54=1|55=7204|103=1|150=8|151=0|10=035|");
    script.submit_whole(
        &share_cancel("s-3", "c", "5"),
        8,
        "8=FIX.4.2|9=83|35=9|34=13|49=V|50=DAY|52=20261116-09:00:00|56=P|11=c|37=1|39=4|41=s-3|102=0|434=1|10=161|",
    );
    script.submit_whole(
        &new_share_order("c").with("544", "4"),
        6,
        "8=FIX.4.2|9=74|35=3|34=14|49=V|50=DAY|52=20261116-09:00:00|56=P|45=1|371=544|372=D|373=5|10=221|",
    );
}

pub fn share_marks_on_reports(script: &mut Script) {
    script.say(
        "Reports of shares: 544 stands behind 151 and 378, 8214 last where the order has it, on all four kinds; no 423",
    );
    for (cash, margin, end) in [("1", "", "8060=1|10"), ("2", "", "8060=1|10"), ("3", "2", "8060=1|8214=2|10")] {
        script.open_shares(3);
        let marked = |draft: crate::compose::Draft| {
            let draft = draft.with("544", cash);
            if margin.is_empty() {
                draft
            } else {
                draft.adding("8214", margin)
            }
        };
        let own = format!("544={cash}");
        let last = end.trim_end_matches("|10");
        let quiet = format!("544={cash}|{last}");
        let has = if margin.is_empty() { "no 8214" } else { "8214=2" };
        script.taken(
            &marked(share_order_of("10", "a", "6", "100", "100")),
            &[&format!("151=100|{quiet}"), has, "no 423"],
        );
        script.run(1, &[]);
        script.taken(&share_replace("a", "b", "6", "90", "100"), &[&format!("151=90|{quiet}"), has, "54=6"]);
        script.run(1, &[]);
        script.taken(&marked(share_order_of("10", "c", "1", "30", "100")), &[]);
        let prevented = format!("378=100|{quiet}");
        script.run(2, &[&["37=3", &prevented, has], &["37=1", &prevented, has, "151=60"]]);
        script.taken(&share_order_of("11", "d", "1", "20", "100"), &["544=1"]);
        let traded = format!("544={cash}|851=1|880=7|{last}");
        script.run(2, &[&["37=1", &traded, has], &["37=6", "544=1|851=2|880=7|8060=1", "no 8214"]]);
        script.taken(&share_cancel("b", "e", "6"), &[&format!("151=0|{quiet}"), has, &own]);
    }
}

pub fn average_price_is_the_nearest_ten_thousandth(script: &mut Script) {
    script.say("AvgPx of shares: 15 at 100.0 and 1 at 100.1 are 100.0063, and halves go up");
    for (first, second, at, then, average) in [
        ("15", "1", "100", "100.1", "100.0063"),
        ("1", "15", "100", "100.1", "100.0938"),
        ("1", "2", "100", "100.1", "100.0667"),
        ("1", "1", "0", "0.1", "0.0500"),
        ("1999", "1", "0", "0.1", "0.0001"),
        ("31", "1", "99999999.8", "99999999.9", "99999999.8031"),
        ("1", "999999998", "99999999.8", "99999999.9", "99999999.9000"),
    ] {
        script.open_shares(1);
        script.rests(&share_order("s", "2", first, at));
        script.rests(&share_order("t", "5", second, then));
        let total = first.parse::<u64>().unwrap_or(0) + second.parse::<u64>().unwrap_or(0);
        script.taken(&share_order("b", "1", &total.to_string(), then), &["6=0.0000"]);
        let average = format!("6={average}");
        script.run(3, &[&["37=1"], &["37=3"], &["37=2"], &["37=3", &average, "39=2"]]);
    }
    script.say("AvgPx of shares: it covers all executions, and a replacement keeps it");
    script.open_shares(1);
    script.rests(&share_order("s", "6", "10", "100"));
    script.taken(&share_order("b", "1", "3", "100"), &[]);
    script.run(2, &[&["37=1"], &["37=2"]]);
    script.taken(&share_replace("s", "s1", "6", "10", "102"), &["6=100.0000", "14=3", "44=102.0"]);
    script.run(1, &[]);
    script.taken(&share_order("c", "1", "4", "102.5"), &[]);
    script.run(2, &[&["37=1", "6=101.1429", "14=7"], &["37=6", "6=102.0000"]]);
    script.taken(&share_cancel("s1", "s2", "6"), &["6=101.1429", "14=7", "151=0"]);
}

pub fn milliseconds_of_shares(script: &mut Script) {
    script.say("Times of shares: with milliseconds or without, as the message's 52 says");
    script.open_shares(1);
    script.taken(
        &new_share_order("a").with("52", "20261116-09:00:00.007"),
        &["52=20261116-09:00:00.007", "60=20261116-09:00:00.007"],
    );
    script.run(1, &[]);
    script.session_reject(&new_share_order("b").with("60", "20261116-09:00:00.1"), 6, 60);
    script.refused(&new_share_order("b").with("52", "20261116-09:00:00.1"), 5);
    script.taken(&share_cancel("a", "b", "1"), &["52=20261116-09:00:00", "60=20261116-09:00:00"]);
}
