//! What the reports say.

use crate::compose::{cancel, new_order, order, order_of, replace, Draft, TIME};
use crate::script::Script;

pub fn whole_bytes_of_each_kind(script: &mut Script) {
    script.say("The whole bytes of every kind of report, with 9 and 10 worked out apart from this program");
    script.open(3);
    script.submit_whole(
        &order_of("10", "s-1", "2", "200", "0.1").inserting("11", "1", "ACC").with("47", "P").with("8060", "3"),
        0,
        "8=FIX.4.2|9=196|35=8|34=1|49=V|50=DJGB|52=20261116-09:00:00|56=P|1=ACC|6=0.000000|11=s-1|14=0|17=1|20=0|37=1|38=200|39=0|40=2|44=0.100|47=P|54=2|55=350|59=0|60=20261116-09:00:00|109=10|150=0|151=200|423=9|8060=3|10=236|",
    );
    script.run(1, &[]);
    script.submit_whole(
        &replace("s-1", "s-2", "2", "250", "0.2"),
        0,
        "8=FIX.4.2|9=203|35=8|34=2|49=V|50=DJGB|52=20261116-09:00:00|56=P|1=ACC|6=0.000000|11=s-2|14=0|17=2|20=0|37=1|38=250|39=5|40=2|41=s-1|44=0.200|47=P|54=2|55=350|59=0|60=20261116-09:00:00|109=10|150=5|151=250|423=9|8060=3|10=109|",
    );
    script.run(1, &[]);
    script.taken(&order_of("11", "b-1", "1", "60", "0.15"), &[]);
    script.run_whole(2, &[
        "8=FIX.4.2|9=237|35=8|34=4|49=V|50=DJGB|52=20261116-09:00:00|56=P|1=ACC|6=0.200000|11=s-2|14=60|17=4|20=0|31=0.200|32=60|37=1|38=250|39=1|40=2|44=0.200|47=P|54=2|55=350|59=0|60=20261116-09:00:00|109=10|150=1|151=190|375=11|382=1|423=9|851=1|880=4|8060=3|10=060|",
        "8=FIX.4.2|9=228|35=8|34=5|49=V|50=DJGB|52=20261116-09:00:00|56=P|6=0.200000|11=b-1|14=60|17=5|20=0|31=0.200|32=60|37=3|38=60|39=2|40=2|44=0.150|47=A|54=1|55=350|59=0|60=20261116-09:00:00|109=11|150=2|151=0|375=10|382=1|423=9|851=2|880=4|8060=1|10=082|",
    ]);
    script.taken(&order_of("10", "b-2", "1", "40", "0.2").with("59", "3"), &[]);
    script.run_whole(2, &[
        "8=FIX.4.2|9=195|35=8|34=7|49=V|50=DJGB|52=20261116-09:00:00|56=P|6=0.000000|11=b-2|14=0|17=7|20=0|37=6|38=40|39=4|40=2|44=0.200|47=A|54=1|55=350|59=3|60=20261116-09:00:00|109=10|150=4|151=0|378=100|423=9|8060=1|10=145|",
        "8=FIX.4.2|9=212|35=8|34=8|49=V|50=DJGB|52=20261116-09:00:00|56=P|1=ACC|6=0.200000|11=s-2|14=60|17=8|20=0|37=1|38=250|39=1|40=2|41=s-2|44=0.200|47=P|54=2|55=350|59=0|60=20261116-09:00:00|109=10|150=5|151=150|378=100|423=9|8060=3|10=030|",
    ]);
    script.taken(&order("b-3", "1", "10", "0.9").with("59", "3"), &[]);
    script.run_whole(1, &[
        "8=FIX.4.2|9=189|35=8|34=10|49=V|50=DJGB|52=20261116-09:00:00|56=P|6=0.000000|11=b-3|14=0|17=10|20=0|37=9|38=10|39=4|40=2|44=0.900|47=A|54=1|55=350|59=3|60=20261116-09:00:00|150=4|151=0|378=99|423=9|8060=1|10=152|",
    ]);
    script.submit_whole(
        &cancel("s-2", "s-3", "2"),
        0,
        "8=FIX.4.2|9=204|35=8|34=11|49=V|50=DJGB|52=20261116-09:00:00|56=P|1=ACC|6=0.200000|11=s-3|14=60|17=11|20=0|37=1|38=250|39=4|40=2|41=s-2|44=0.200|47=P|54=2|55=350|59=0|60=20261116-09:00:00|109=10|150=4|151=0|423=9|8060=3|10=159|",
    );
    script.submit_whole(
        &new_order("c").with("55", "351"),
        7,
        "8=FIX.4.2|9=132|35=8|34=12|49=V|50=DJGB|52=20261116-09:00:00|56=P|6=0.000000|11=c|14=0|17=12|20=0|37=NONE|38=100|39=8|54=1|55=351|103=1|150=8|151=0|10=138|",
    );
    script.submit_whole(
        &cancel("s-3", "c", "2"),
        8,
        "8=FIX.4.2|9=84|35=9|34=13|49=V|50=DJGB|52=20261116-09:00:00|56=P|11=c|37=1|39=4|41=s-3|102=0|434=1|10=219|",
    );
    script.submit_whole(
        &new_order("c").with("38", "0"),
        6,
        "8=FIX.4.2|9=74|35=3|34=14|49=V|50=DJGB|52=20261116-09:00:00|56=P|45=1|371=38|372=D|373=5|10=228|",
    );
}

pub fn tag_375_stands_before_382(script: &mut Script) {
    script.say("Reports: body tags ascend, so 375 stands before 382");
    script.open(1);
    script.rests(&order_of("10", "s", "2", "5", "0.1"));
    script.taken(&order_of("11", "b", "1", "5", "0.1"), &[]);
    script.run(2, &[&["375=11|382=1|423=9|851=1|880=3|8060=1"], &["375=10|382=1|423=9|851=2|880=3|8060=1"]]);
}

pub fn tag_378_is_absent_on_a_requested_replaced(script: &mut Script) {
    script.say("Reports: no 378 on a requested Replaced nor on a requested Canceled");
    script.open(1);
    script.rests(&order("a", "1", "5", "0.1"));
    script.taken(&replace("a", "b", "1", "6", "0.1"), &["150=5", "41=a", "no 378"]);
    script.run(1, &[]);
    script.taken(&cancel("b", "c", "1"), &["150=4", "41=b", "no 378"]);
}

pub fn tag_41_on_requested_cancels_and_replaced(script: &mut Script) {
    script.say(
        "Reports: 41 is the ClOrdID before; on a decrement it equals 11; absent on prevention cancels and an IOC's rest",
    );
    script.open(3);
    script.rests(&order_of("10", "a", "2", "9", "0.1"));
    script.rests(&replace("a", "b", "2", "8", "0.1"));
    script.taken(&replace("b", "c", "2", "7", "0.1"), &["11=c", "41=b"]);
    script.run(1, &[]);
    script.taken(&order_of("10", "x", "1", "2", "0.1"), &[]);
    script.run(2, &[&["11=x", "39=4", "378=100", "no 41"], &["11=c", "41=c", "150=5", "378=100"]]);
    script.taken(&order("y", "1", "2", "9").with("59", "3"), &["no 41"]);
    script.run(1, &[&["11=y", "378=99", "no 41"]]);
    script.taken(&cancel("c", "d", "2"), &["11=d", "41=c"]);
}

pub fn tag_39_is_2_when_nothing_is_open(script: &mut Script) {
    script
        .say("Reports: 39 is 2 on a Trade that leaves nothing open, also where a decrement means that 14 is below 38");
    script.open(3);
    script.rests(&order_of("10", "s", "2", "200", "0.1"));
    script.taken(&order_of("10", "b", "1", "50", "0.1"), &[]);
    script.run(2, &[&["37=2"], &["37=1", "151=150"]]);
    script.taken(&order_of("11", "c", "1", "150", "0.1"), &[]);
    script.run(
        2,
        &[&["37=1", "39=2", "150=2", "14=150", "38=200", "151=0"], &["37=5", "39=2", "150=2", "14=150", "38=150"]],
    );
}

pub fn tag_39_on_replaced_is_1_or_5(script: &mut Script) {
    script.say("Reports: 39 on Replaced is 5, or 1 once anything has executed; 150 is 5");
    script.open(1);
    script.rests(&order("a", "2", "10", "0.1"));
    script.taken(&replace("a", "b", "2", "10", "0.1"), &["39=5", "150=5"]);
    script.run(1, &[]);
    script.taken(&order("x", "1", "9", "0.1"), &[]);
    script.run(2, &[&["37=1", "39=1", "150=1"], &["37=3", "39=2", "150=2"]]);
    script.taken(&replace("b", "c", "2", "10", "0.1"), &["39=1", "150=5", "14=9", "151=1"]);
    script.run(1, &[]);
}

pub fn account_and_mpid_only_where_the_order_has_them(script: &mut Script) {
    script.say("Reports: 1 and 109 stand on all four execution kinds of an order that has them, and on no other's");
    script.open(1);
    script.taken(&order_of("10", "a", "2", "9", "0.1").adding("1", "x y"), &["1=x y", "109=10"]);
    script.run(1, &[]);
    script.taken(&order("b", "1", "2", "0.1").adding("1", "z"), &["1=z", "no 109"]);
    script.run(2, &[&["1=x y", "109=10"], &["1=z", "no 109"]]);
    script.taken(&order_of("11", "c", "1", "2", "0.1"), &["no 1", "109=11"]);
    script.run(2, &[&["1=x y", "109=10"], &["no 1", "109=11"]]);
    script.taken(&replace("a", "a1", "2", "8", "0.1"), &["1=x y", "109=10"]);
    script.run(1, &[]);
    script.taken(&cancel("a1", "a2", "2"), &["1=x y", "109=10"]);
    script.submit(&order_of("10", "a2", "2", "9", "0.1").adding("1", "x y"), 7, &["no 1", "no 109", "103=6"]);
}

pub fn tags_11_and_44_always_stand_on_replaced(script: &mut Script) {
    script.say("Reports: 11 and 44 stand on Replaced, requested or by a decrement");
    script.open(3);
    script.rests(&order_of("10", "a", "2", "9", "-0.5"));
    script.taken(&replace("a", "b", "2", "9", "-0.25"), &["150=5", "11=b", "44=-0.250"]);
    script.run(1, &[]);
    script.taken(&order_of("10", "c", "1", "4", "-1"), &[]);
    script.run(2, &[&["11=c", "44=-1.000", "39=4"], &["150=5", "11=b", "44=-0.250", "151=5"]]);
}

/// A market in which an order of one side executes these two quantities at these yields, the better first, with the
/// average that its last Trade must show.
fn averaged(script: &mut Script, side: &str, executions: [(u64, &str); 2], average: &str) {
    script.open(1);
    let other = if side == "1" { "2" } else { "1" };
    for (id, (quantity, at)) in ["r1", "r2"].iter().zip(executions) {
        script.rests(&order(id, other, &quantity.to_string(), at));
    }
    let [(first, _), (second, at)] = executions;
    let (executed, average) = (format!("14={}", first + second), format!("6={average}"));
    script.taken(&order("x", side, &(first + second).to_string(), at), &["6=0.000000"]);
    script.run(3, &[&["37=1"], &["37=3"], &["37=2"], &["37=3", &average, &executed, "39=2"]]);
}

pub fn average_is_the_nearest_millionth(script: &mut Script) {
    script.say("Reports: AvgPx is the nearest millionth of the whole mean: thirds on both sides of zero");
    averaged(script, "1", [(1, "0.001"), (2, "0")], "0.000333");
    averaged(script, "1", [(2, "0.001"), (1, "0")], "0.000667");
    averaged(script, "1", [(2, "0"), (1, "-0.001")], "-0.000333");
    averaged(script, "1", [(1, "0"), (2, "-0.001")], "-0.000667");
    averaged(script, "2", [(2, "-0.001"), (1, "0")], "-0.000667");
    averaged(script, "2", [(1, "0"), (2, "0.001")], "0.000667");
    script.say("Reports: just over half a millionth is one, just under it is 0.000000, without a minus");
    averaged(script, "1", [(1, "0.001"), (1998, "0")], "0.000001");
    averaged(script, "1", [(1, "0.001"), (2000, "0")], "0.000000");
    averaged(script, "1", [(1998, "0"), (1, "-0.001")], "-0.000001");
    averaged(script, "1", [(2000, "0"), (1, "-0.001")], "0.000000");
    script.say("Reports: rounding carries through every digit");
    averaged(script, "1", [(2000, "1"), (1, "0.999")], "1.000000");
    averaged(script, "1", [(1998, "1"), (1, "0.999")], "0.999999");
    averaged(script, "2", [(2000, "-1"), (1, "-0.999")], "-1.000000");
    averaged(script, "2", [(1998, "-1"), (1, "-0.999")], "-0.999999");
    script.say("Reports: each Trade rounds the sum anew, not the average shown before");
    script.open(1);
    for (id, at) in [("s1", "0.002"), ("s2", "0.001"), ("s3", "0.001")] {
        script.rests(&order(id, "2", if id == "s1" { "1" } else { "2" }, at));
    }
    script.taken(&order("b", "1", "5", "0"), &[]);
    script.run(
        4,
        &[&["37=1"], &["37=4", "6=0.002000"], &["37=2"], &["37=4", "6=0.001333"], &["37=3"], &["37=4", "6=0.001200"]],
    );
}

pub fn halves_of_a_millionth_go_away_from_zero(script: &mut Script) {
    script.say("Reports: halves of a millionth go away from zero: 0.0000625 and 0.0000005 among those above it");
    averaged(script, "1", [(1, "0.001"), (15, "0")], "0.000063");
    averaged(script, "2", [(15, "0"), (1, "0.001")], "0.000063");
    averaged(script, "1", [(1, "0.001"), (1999, "0")], "0.000001");
    averaged(script, "1", [(1, "0.101"), (1999, "0.100")], "0.100001");
    averaged(script, "1", [(1999, "0.101"), (1, "0.100")], "0.101000");
    script.say("Reports: and below it");
    averaged(script, "1", [(15, "0"), (1, "-0.001")], "-0.000063");
    averaged(script, "2", [(1, "-0.001"), (15, "0")], "-0.000063");
    averaged(script, "1", [(1999, "0"), (1, "-0.001")], "-0.000001");
    averaged(script, "1", [(1999, "-0.100"), (1, "-0.101")], "-0.100001");
    averaged(script, "1", [(1, "-0.100"), (1999, "-0.101")], "-0.101000");
    script.say("Reports: yields on both sides of zero in one mean");
    averaged(script, "1", [(1000, "0.001"), (1000, "-0.001")], "0.000000");
    averaged(script, "1", [(9, "0.001"), (7, "-0.001")], "0.000125");
    averaged(script, "1", [(1, "0.006"), (15, "-0.001")], "-0.000563");
}

pub fn average_of_the_largest_sums(script: &mut Script) {
    script
        .say("Reports: AvgPx of the largest sums: all but 1 of 999,999,999 at 999999.999, the rest 0.001 nearer zero");
    averaged(script, "1", [(999_999_998, "999999.999"), (1, "999999.998")], "999999.999000");
    averaged(script, "2", [(999_999_998, "-999999.999"), (1, "-999999.998")], "-999999.999000");
    script.say("Reports: the same with a part large enough to be seen");
    averaged(script, "1", [(999_500_000, "999999.999"), (499_999, "999999.998")], "999999.999000");
    averaged(script, "1", [(999_499_998, "999999.999"), (500_001, "999999.998")], "999999.998999");
    averaged(script, "2", [(999_499_998, "-999999.999"), (500_001, "-999999.998")], "-999999.998999");
    averaged(script, "1", [(500_000_000, "999999.999"), (499_999_999, "-999999.999")], "0.001000");
}

pub fn replace_keeps_average_and_executed(script: &mut Script) {
    script.say("Reports: G does not touch 6 or 14: they cover all executions");
    script.open(1);
    script.rests(&order("s1", "2", "1", "0.3"));
    script.taken(&order("b", "1", "3", "0.2"), &[]);
    script.run(2, &[&["37=1"], &["37=2", "14=1", "6=0.300000"]]);
    script.taken(&replace("b", "b1", "1", "3", "0.1"), &["14=1", "6=0.300000", "44=0.100", "151=2", "39=1"]);
    script.run(1, &[]);
    script.taken(&order("s2", "2", "2", "0.1"), &[]);
    script.run(2, &[&["37=2", "14=3", "6=0.166667", "31=0.100", "39=2"], &["37=6"]]);
}

pub fn own_yield_and_resting_yield(script: &mut Script) {
    script.say("Reports: 44 on a Trade is the order's own yield, 31 the resting one's");
    script.open(1);
    script.rests(&order("b", "1", "5", "0.1"));
    script.taken(&order("s", "2", "5", "0.25"), &[]);
    script.run(2, &[&["37=1", "44=0.100", "31=0.100"], &["37=2", "44=0.250", "31=0.100", "6=0.100000"]]);
}

pub fn transact_time_is_the_sending_time(script: &mut Script) {
    script.say("Reports: 60 of a report is the message's 52, not its 60");
    script.open(1);
    let at = "60=20261116-10:11:12";
    script.taken(
        &new_order("a").with("52", "20261116-10:11:12").with("60", "20201231-00:00:00"),
        &["52=20261116-10:11:12", at],
    );
    script.run(1, &[]);
    script.taken(
        &cancel("a", "b", "1").with("52", "20261116-10:11:12").with("60", "20201231-00:00:00"),
        &["52=20261116-10:11:12", at],
    );
}

pub fn numbers_go_up_by_one(script: &mut Script) {
    script.say("Reports: every report takes one number, refusals 6 to 8 too, 1 to 5 none; 34 and 17 are the same");
    script.open_from(98, 1);
    script.taken(&order("a", "2", "5", "0.1"), &["34=98", "17=98", "37=98"]);
    script.refused(&new_order("b"), 3);
    script.run(1, &[]);
    script.session_reject(&new_order("b").with("21", "2"), 5, 21);
    script.submit(&new_order("b").with("55", "9"), 7, &["34=100", "17=100"]);
    script.submit(&cancel("x", "b", "1"), 8, &["34=101", "no 17"]);
    script.refused_in(1024, b"8=FIX.4.2|", 5);
    script.taken(&order("b", "1", "3", "0.1"), &["34=102", "17=102", "37=102"]);
    script.run(2, &[&["34=103", "17=103", "880=103"], &["34=104", "17=104", "880=103"]]);
    script.taken(&cancel("a", "a1", "2"), &["34=105", "17=105"]);
    script.say("Reports: 37 is the number of the Accepted report, and stays; numbers have up to nine digits");
    script.open_from(99_999_999, 1);
    script.taken(&new_order("a"), &["34=99999999", "17=99999999", "37=99999999"]);
    script.run(1, &[]);
    script.taken(&new_order("b"), &["34=100000000", "17=100000000", "37=100000000"]);
    script.run(1, &[]);
    script.taken(&replace("a", "a1", "1", "7", "0.2"), &["34=100000001", "17=100000001", "37=99999999"]);
    script.run(1, &[]);
    script.cancel_reject(&cancel("a1", "b", "1"), 2, &["34=100000002", "37=99999999"]);
    script.taken(&cancel("a1", "a2", "1"), &["34=100000003", "17=100000003", "37=99999999"]);
}

pub fn contra_is_the_other_mpid(script: &mut Script) {
    script.say("Reports: 375 is the other's MPID, or 0");
    script.open_with(["V", "P", "350"], 1, &[(1, 1), (999_999, 1)], 0);
    script.rests(&order_of("1", "s", "2", "5", "0.1"));
    script.taken(&order_of("999999", "b", "1", "4", "0.1"), &[]);
    script.run(2, &[&["375=999999", "109=1"], &["375=1", "109=999999"]]);
    script.taken(&order("c", "1", "1", "0.1"), &[]);
    script.run(2, &[&["375=0", "109=1"], &["375=1", "no 109"]]);
}

pub fn symbol_of_rejected_is_the_messages(script: &mut Script) {
    script.say("Reports: 55 on execution kinds is the market's code, on Rejected the message's");
    script.open(1);
    script.submit(&new_order("a").with("55", "000"), 7, &["55=000", "103=1"]);
    script.taken(&new_order("a"), &["55=350"]);
    script.run(1, &[]);
    script.submit(&new_order("a"), 7, &["55=350", "103=6"]);
}

pub fn short_body_length_has_two_digits(script: &mut Script) {
    script.say("Reports: 9 has no needless zero: two digits when under 100, three from there");
    script.open(1);
    let short = Draft::of(&[("35", "A"), ("34", "1"), ("49", "P"), ("52", TIME), ("56", "V")]);
    script.submit_whole(
        &short,
        6,
        "8=FIX.4.2|9=74|35=3|34=1|49=V|50=DJGB|52=20261116-09:00:00|56=P|45=1|371=35|372=A|373=11|10=215|",
    );
    let id = "an-id-of-some-length";
    script.submit_whole(
        &cancel("x", id, "1"),
        8,
        "8=FIX.4.2|9=103|35=9|34=2|49=V|50=DJGB|52=20261116-09:00:00|56=P|11=an-id-of-some-length|37=NONE|39=8|41=x|102=1|434=1|10=114|",
    );
    script.submit_whole(
        &cancel("x", &id[..16], "1"),
        8,
        "8=FIX.4.2|9=99|35=9|34=3|49=V|50=DJGB|52=20261116-09:00:00|56=P|11=an-id-of-some-le|37=NONE|39=8|41=x|102=1|434=1|10=160|",
    );
    script.submit_whole(
        &cancel("x", &id[..17], "1"),
        8,
        "8=FIX.4.2|9=100|35=9|34=4|49=V|50=DJGB|52=20261116-09:00:00|56=P|11=an-id-of-some-len|37=NONE|39=8|41=x|102=1|434=1|10=046|",
    );
}

pub fn leaves_before_matching(script: &mut Script) {
    script.say("Reports: 151 on Accepted and Replaced is what is open right then, before any matching");
    script.open(1);
    script.rests(&order("s", "2", "5", "0.1"));
    script.taken(&order("b", "1", "5", "0.1"), &["38=5", "14=0", "151=5", "39=0"]);
    script.run(2, &[&["37=1"], &["37=2"]]);
    script.rests(&order("s2", "2", "5", "0.1"));
    script.rests(&order("b2", "1", "5", "0.2"));
    script.taken(&replace("b2", "b3", "1", "3", "0.1"), &["38=3", "14=0", "151=3", "39=5", "150=5"]);
    script.run(2, &[&["37=5", "32=3"], &["37=6", "39=2"]]);
}
