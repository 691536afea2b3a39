//! Messages to an equities market: what its fields may say, and what is rejected.

use crate::compose::{
    new_share_order, share_cancel, share_order, share_order_of, share_replace, summed_again, Draft, SYMBOL,
};
use crate::script::Script;

/// A margin order with a type of margin transaction, behind the fields of a plain one.
fn margin_order(id: &str, cash: &str, margin: &str) -> Draft {
    new_share_order(id).with("544", cash).adding("8214", margin)
}

pub fn share_settings_of_open(script: &mut Script) {
    script.say("Open of an equities market: symbols of 1 to 9 characters, 21 to 7E hex");
    let list = &[(10, 1)][..];
    for symbol in ["7", "285A", "ABCDEFGHI", "!~", "=;|\\", "000000000"] {
        script.open_with(["V", "P", symbol], 1, list, 0);
    }
    for symbol in ["", "ABCDEFGHIJ", "A B", " ", "A\x7f", "\x01", "7203 "] {
        script.open_with(["V", "P", symbol], 1, list, 9);
    }
    script.say("Open of an equities market: the other settings are those of a bond market");
    for (names, first, list) in [
        (["", "P", SYMBOL], 1, list),
        (["V", "123456789", SYMBOL], 1, list),
        (["V V", "P", SYMBOL], 1, list),
        (["V", "P", SYMBOL], 0, list),
        (["V", "P", SYMBOL], 1_000_000_000, list),
        (["V", "P", SYMBOL], 1, &[]),
        (["V", "P", SYMBOL], 1, &[(10, 4)]),
        (["V", "P", SYMBOL], 1, &[(10, 1), (10, 2)]),
    ] {
        script.open_with(names, first, list, 9);
    }
    script.open_with(["12345678", "87654321", SYMBOL], 999_999_999, &[(1, 1), (999_999, 3)], 0);
    script.refused(&new_share_order("a"), 4);
}

pub fn prices_have_a_shape_only(script: &mut Script) {
    script.say("44 of shares: 1 to 8 digits, optionally a point and one digit; zero is a price");
    script.open_shares(1);
    for (id, at, shown) in [
        ("a", "0", "0.0"),
        ("b", "0.0", "0.0"),
        ("c", "00000000.0", "0.0"),
        ("d", "0.1", "0.1"),
        ("e", "1", "1.0"),
        ("f", "00000001", "1.0"),
        ("g", "000100.5", "100.5"),
        ("h", "12345678", "12345678.0"),
        ("i", "99999999.9", "99999999.9"),
    ] {
        script.taken(&share_order(id, "1", "7", at), &[&format!("44={shown}")]);
        script.run(1, &[]);
    }
    script.level(1, 0, 999_999_999, 7, 1);
    script.level(1, 5, 0, 21, 3);
    script.say("44 of shares: a minus is 6, also before a zero; so are another shape, two decimals and nine digits");
    for at in [
        "-1", "-0", "-0.0", "-100.1", "-", "1.", ".5", ".", "1.00", "100.12", "0.05", "123456789", "000000001",
        "100000000", "999999999.9", "+1", " 1", "1 ", "1e3", "1,5", "1.x", "x", "1.2.3", "1.-1",
    ] {
        script.session_reject(&share_order("x", "1", "7", at), 6, 44);
    }
    script.session_reject(&share_order("x", "1", "7", ""), 4, 44);
    script.say("44 of shares: the same on a replacement");
    for at in ["-1", "-0", "1.25", "123456789", "1."] {
        script.session_reject(&share_replace("e", "x", "1", "7", at), 6, 44);
    }
    script.taken(&share_replace("e", "x", "1", "7", "99999999.9"), &["44=99999999.9"]);
    script.run(1, &[]);
    script.taken(&share_replace("x", "y", "1", "7", "0"), &["44=0.0"]);
    script.run(1, &[]);
}

pub fn sides_of_shares(script: &mut Script) {
    script.say("54 of shares: 1, 2, 5 and 6 are taken and said back");
    script.open_shares(1);
    script.taken(&share_order("a", "1", "7", "90"), &["54=1"]);
    script.run(1, &[]);
    for (id, side) in [("b", "2"), ("c", "5"), ("d", "6")] {
        script.taken(&share_order(id, side, "7", "110"), &[&format!("54={side}")]);
        script.run(1, &[]);
    }
    script.say("54 of shares: another character is 5, two are 6");
    for side in ["0", "3", "4", "7", "8", "9", "A", "B", " "] {
        script.session_reject(&share_order("x", side, "7", "100"), 5, 54);
    }
    for side in ["11", "22", "55", "56", "5 ", "05"] {
        script.session_reject(&share_order("x", side, "7", "100"), 6, 54);
    }
    script.session_reject(&share_order("x", "", "7", "100"), 4, 54);
    script.session_reject(&share_replace("c", "x", "3", "7", "100"), 5, 54);
    script.session_reject(&share_cancel("c", "x", "56"), 6, 54);
    script.say("54 of shares: a buy meets sells of every kind, the best price first, then by place");
    script.taken(&share_order("e", "1", "20", "110"), &[]);
    script.run(
        4,
        &[
            &["37=2", "54=2", "39=2"],
            &["37=23", "54=1"],
            &["37=3", "54=5", "39=2"],
            &["37=23"],
            &["37=4", "54=6", "32=6", "151=1"],
            &["37=23", "39=2"],
        ],
    );
    script.say("54 of shares: every kind of sell meets a buy");
    for (id, side, order_id) in [("f", "2", "37=30"), ("g", "5", "37=33"), ("h", "6", "37=36")] {
        script.taken(&share_order(id, side, "2", "90"), &[order_id]);
        script.run(2, &[&["37=1", "54=1", "31=90.0"], &[order_id, &format!("54={side}")]]);
    }
    script.rejected(&share_order("a", "5", "7", "100"), 6);
    script.submit(&share_order("x", "6", "7", "100").with("55", "7204"), 7, &["54=6", "55=7204", "103=1", "6=0.0000"]);
}

pub fn a_change_names_the_side_exactly(script: &mut Script) {
    script.say("Cancel reject of shares: 102=2 where 54 is another side, sells of other kinds among them");
    script.open_shares(1);
    let orders = [("1", "37=1"), ("2", "37=2"), ("5", "37=3"), ("6", "37=4")];
    for (side, _) in orders {
        script.rests(&share_order(&format!("o{side}"), side, "7", if side == "1" { "90" } else { "110" }));
    }
    for (own, order_id) in orders {
        for (other, _) in orders {
            if own != other {
                let id = format!("o{own}");
                script.cancel_reject(&share_cancel(&id, "x", other), 2, &[order_id, "39=0", "434=1"]);
                script.cancel_reject(&share_replace(&id, "x", other, "8", "100"), 2, &[order_id, "39=0", "434=2"]);
            }
        }
    }
    script.say("Cancel reject of shares: with its own side each is replaced and canceled, and keeps it");
    for (side, order_id) in orders {
        let at = if side == "1" { "91" } else { "109" };
        let shown = format!("54={side}");
        script.taken(&share_replace(&format!("o{side}"), &format!("r{side}"), side, "8", at), &[order_id, &shown]);
        script.run(1, &[]);
        script.taken(&share_cancel(&format!("r{side}"), &format!("c{side}"), side), &[order_id, &shown, "39=4"]);
    }
}

pub fn symbols_of_shares(script: &mut Script) {
    script.say(
        "55 of shares: 1 to 9 characters of any kind, compared as text; another one is 103=1, ten characters are 6",
    );
    script.open_shares(1);
    for symbol in ["7", "72", "720", "7203A", "07203", "7203 ", " 7203", "A B C", "AbCdEfGhI", "1234567890"] {
        let draft = new_share_order("x").with("55", symbol);
        if symbol.len() < 10 {
            script.submit(&draft, 7, &["103=1", &format!("55={symbol}")]);
        } else {
            script.session_reject(&draft, 6, 55);
        }
    }
    for symbol in ["12345678", "123456 89", "~~~~~~~~~", "|;\\", "=", " "] {
        script.submit(&new_share_order("x").with("55", symbol), 7, &["103=1"]);
    }
    script.session_reject(&new_share_order("x").with("55", ""), 4, 55);
    script.session_reject(&share_cancel("a", "x", "1").with("55", "ABCDEFGHIJ"), 6, 55);
    script.session_reject(&share_replace("a", "x", "1", "7", "1").with("55", "ABCDEFGHI "), 6, 55);
    script.say("55 of shares: in F and G another symbol is 102=1");
    script.rests(&new_share_order("a"));
    for symbol in ["7203A", "7203 ", "x"] {
        script.cancel_reject(&share_cancel("a", "x", "1").with("55", symbol), 1, &["39=0"]);
        script.cancel_reject(&share_replace("a", "x", "1", "7", "1").with("55", symbol), 1, &["39=0"]);
    }
    script.say("55 of shares: a symbol of letters, of nine characters, and of marks");
    for symbol in ["285A", "ABCDEFGHI", "a=b|;\\"] {
        script.open_with(["V", "P", symbol], 1, &[(10, 1)], 0);
        script.taken(&new_share_order("a").with("55", symbol), &[&format!("55={symbol}")]);
        script.run(1, &[]);
        script.rejected(&new_share_order("b").with("55", &symbol.to_lowercase().replace('a', "b")), 1);
    }
}

pub fn cash_or_margin_is_needed_on_a_new_order(script: &mut Script) {
    script.say("544: 1, 2 and 3 are taken and said back; a D without it is 373=1");
    script.open_shares(1);
    for (id, cash) in [("a", "1"), ("b", "2"), ("c", "3")] {
        script.taken(&new_share_order(id).with("544", cash), &[&format!("544={cash}"), "no 8214"]);
        script.run(1, &[]);
    }
    script.session_reject(&new_share_order("x").without("544"), 1, 544);
    script.session_reject(&new_share_order("x").without("544").without("8060"), 1, 544);
    script.session_reject(&new_share_order("x").without("544").without("60"), 1, 60);
    script.session_reject(&new_share_order("x").without("8060"), 1, 8060);
    script.say("544: empty is 4, two characters are 6, another character is 5");
    script.session_reject(&new_share_order("x").with("544", ""), 4, 544);
    for cash in ["11", "1 ", "02", "123"] {
        script.session_reject(&new_share_order("x").with("544", cash), 6, 544);
    }
    for cash in ["0", "4", "5", "9", "A", "C", " "] {
        script.session_reject(&new_share_order("x").with("544", cash), 5, 544);
    }
    script.say("544: on F and G it is 2, whatever it says");
    for cash in ["1", "4", "", "11"] {
        script.session_reject(&share_cancel("a", "x", "1").adding("544", cash), 2, 544);
        script.session_reject(&share_replace("a", "x", "1", "7", "1").adding("544", cash), 2, 544);
    }
    script.say("544: anywhere in the body");
    script.rests(&new_share_order("d").without("544").inserting("11", "544", "2"));
    script.rests(&new_share_order("e").without("544").adding("544", "3"));
}

pub fn margin_types_belong_to_margin_orders(script: &mut Script) {
    script.say("8214: 1 and 2 are taken and said back on margin orders, and may be left out");
    script.open_shares(1);
    for (id, cash, margin) in [("a", "2", "1"), ("b", "2", "2"), ("c", "3", "1"), ("d", "3", "2")] {
        let shown = [format!("544={cash}"), format!("8060=1|8214={margin}|10")];
        let draft = margin_order(id, cash, margin);
        script.taken(&draft, &[&shown[0]]);
        script.run(1, &[]);
    }
    script.say("8214: empty is 4, two characters are 6, another character is 5, each before it is compared with 544");
    for (margin, reason) in [("", 4), ("11", 6), ("1 ", 6), ("0", 5), ("3", 5), ("N", 5), (" ", 5)] {
        script.session_reject(&margin_order("x", "2", margin), reason, 8214);
        script.session_reject(&margin_order("x", "1", margin), reason, 8214);
    }
    script.say("8214: with 544=1 it is 5, wherever the two stand");
    for margin in ["1", "2"] {
        script.session_reject(&margin_order("x", "1", margin), 5, 8214);
        script.session_reject(&new_share_order("x").inserting("11", "8214", margin), 5, 8214);
    }
    script.say("8214: with no 544 nothing is compared, and 544 is missing");
    script.session_reject(&new_share_order("x").without("544").adding("8214", "1"), 1, 544);
    script.session_reject(&new_share_order("x").without("544").inserting("11", "8214", "2"), 1, 544);
    script.say("8214: on F and G it is 2, whatever it says");
    for margin in ["1", "3", ""] {
        script.session_reject(&share_cancel("a", "x", "1").adding("8214", margin), 2, 8214);
        script.session_reject(&share_replace("a", "x", "1", "7", "1").adding("8214", margin), 2, 8214);
    }
}

pub fn the_last_checks_before_missing_tags(script: &mut Script) {
    script.say("Session Reject of shares: fields from the left, then 110, then 8214, then what is missing");
    script.open_shares(1);
    let both = margin_order("x", "1", "1").with("59", "3").with("110", "101");
    script.session_reject(&both, 5, 110);
    script.session_reject(&both.clone().with("110", "100"), 5, 8214);
    script.session_reject(&both.clone().with("59", "0").with("110", "1"), 5, 110);
    script.session_reject(&both.clone().without("38").without("60"), 5, 8214);
    script.session_reject(&both.clone().without("59").with("110", "100"), 5, 8214);
    script.session_reject(&margin_order("x", "1", "1").without("11"), 5, 8214);
    script.session_reject(&margin_order("x", "1", "1").without("8060").without("59"), 5, 8214);
    script.session_reject(&margin_order("x", "1", "1").with("38", "0"), 5, 38);
    script.session_reject(&margin_order("x", "1", "1").adding("58", "x"), 3, 58);
    script.session_reject(&both.clone().with("544", "2"), 5, 110);
    script.session_reject(&both.with("544", "2").without("59").without("38").without("11"), 1, 11);
    script.say("Session Reject of shares: fields of reports, and those that only bonds' reports have, are 3");
    for tag in [6, 14, 31, 37, 39, 150, 375, 382, 423, 797, 851, 880, 8215] {
        script.session_reject(&new_share_order("x").adding(&tag.to_string(), "1"), 3, tag);
    }
    script.say("Session Reject of shares: type and names before the body");
    script.session_reject(&new_share_order("x").with("35", "E").with("49", "Q"), 11, 35);
    script.session_reject(&new_share_order("x").with("49", "Q").with("544", "9"), 9, 49);
    script.session_reject(&new_share_order("x").with("56", "W").with("544", "9"), 9, 56);
}

pub fn reasons_of_share_rejects_in_their_order(script: &mut Script) {
    script.say("Rejected of shares: 1, 99, 6, 0 in this order; it has neither 544 nor 8214");
    script.open_shares(2);
    script.rests(&share_order_of("10", "a", "5", "100", "100"));
    script.rejected(&share_order_of("15", "a", "5", "100", "100").with("55", "x"), 1);
    script.rejected(&share_order_of("15", "a", "5", "100", "100"), 99);
    script.rejected(&share_order_of("000010", "a", "5", "100", "100"), 6);
    let margin = share_order_of("15", "b", "6", "00042", "100").with("544", "3").adding("8214", "2");
    script.submit(&margin, 7, &["103=99", "38=42", "54=6", "no 544", "no 8214", "no 44", "no 109"]);
    script.say("Cancel reject of shares: 1, 2, 0, 2 and 2 in this order");
    script.taken(&share_order("b", "1", "40", "100"), &["37=6"]);
    script.run(2, &[&["37=1", "151=60"], &["37=6", "39=2"]]);
    script.cancel_reject(&share_cancel("nobody", "a", "2"), 1, &["37=NONE", "39=8"]);
    script.cancel_reject(&share_cancel("b", "a", "2").with("55", "x"), 1, &["37=6", "39=2"]);
    script.cancel_reject(&share_cancel("b", "a", "6"), 2, &["37=6", "39=2"]);
    script.cancel_reject(&share_cancel("b", "a", "1"), 0, &["37=6", "39=2", "434=1"]);
    script.cancel_reject(&share_cancel("a", "b", "5"), 2, &["37=1", "39=1"]);
    script.cancel_reject(&share_cancel("a", "a", "5"), 2, &["37=1", "39=1"]);
    script.cancel_reject(&share_replace("a", "c", "5", "40", "100"), 2, &["37=1", "39=1", "434=2", "no 544"]);
    script.taken(&share_replace("a", "c", "5", "41", "100"), &["39=1", "14=40", "151=1", "544=1", "54=5"]);
    script.run(1, &[]);
    script.taken(&share_cancel("c", "d", "5"), &["39=4", "14=40", "151=0", "6=100.0000"]);
    script.cancel_reject(&share_cancel("d", "e", "5"), 0, &["39=4"]);
}

pub fn messages_of_shares_are_garbled_like_any(script: &mut Script) {
    script.say("Garbled messages of shares: lengths, bytes, a repeated tag, an untrue 9 or 10");
    script.open_shares(1);
    let good = new_share_order("a");
    let long = |length: usize| {
        let draft = new_share_order("a").adding("58", "");
        let missing = length - draft.bytes().len();
        draft.with("58", &"x".repeat(missing - 1))
    };
    script.refused_in(1024, b"", 5);
    script.session_reject(&long(1024), 3, 58);
    script.refused(&long(1025), 5);
    script.refused(&good.clone().adding("544", "1"), 5);
    script.refused(&good.clone().adding("49", "P"), 5);
    script.refused(&good.clone().with("55", "a\x7f"), 5);
    script.refused(&good.clone().with("544", "\x02"), 5);
    script.refused(&good.clone().with_check_sum("000"), 5);
    script.refused(&good.clone().with_length("1"), 5);
    script.refused(&good.clone().with_length("00142"), 5);
    script.refused(&good.clone().beginning("FIX.4.4"), 5);
    let bytes = good.bytes();
    script.refused_in(1024, &bytes[1..], 5);
    script.refused_in(1024, &bytes[..bytes.len() - 1], 5);
    script.refused_in(1024, &[&bytes[..], b"\x01"].concat(), 5);
    script.refused_in(1024, &summed_again(&bytes[2..]), 5);
    script.rests(&good);
}
