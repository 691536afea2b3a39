//! A market kept overnight: its table written out in 65 blocks with a check each, and read back (T-12 of 02).

use super::cases::book_r;
use crate::compose::{new_order, order, order_of, share_order};
use crate::image::{BLOCK, DATA, IMAGE};
use crate::instrument::Instrument::{Bonds, Equities};
use crate::script::Script;
use crate::table::TABLE;

/// Of the number of a block, so many are in its check.
const PER_BLOCK: u64 = 33_554_432;

/// The place in the image of a byte of the table.
fn in_image(place: usize) -> usize {
    place / DATA * BLOCK + place % DATA
}

/// The place of the check of a block.
fn check_of(block: usize) -> usize {
    block * BLOCK + DATA
}

/// An empty bond market from number 1 in mode 2, written out. The check of its first block is 9188: 1 x 1, `V` x 2, 1 x 10,
/// `P` x 11, 3 x 19, `350` x 20 to 22, 1 x 29, MPIDs 10 to 14 x 57, 61 .. 73, and 2 x 89 to 93.
fn empty_market(script: &mut Script) {
    script.open(2);
    let checks: Vec<u64> = (0..65).map(|block| block * PER_BLOCK + if block == 0 { 9188 } else { 0 }).collect();
    script.saved_whole(&checks);
}

pub fn an_image_is_65_blocks_with_a_check_each(script: &mut Script) {
    script.say("Save: a block's check is the sum of each byte times its position, and its number times 33,554,432");
    empty_market(script);
    script.say("Save: 508 bytes of the table in a block, then 4 bytes of check, low byte first");
    for (at, byte) in [(0, 1), (1, b'V'), (88, 2), (507, 0), (508, 0xe4), (509, 0x23), (510, 0), (511, 0)] {
        script.put_image(at, byte, byte);
    }
    for (at, byte) in [(check_of(1) + 3, 2), (check_of(64) + 3, 128), (check_of(64) - 1, 0), (IMAGE, 0)] {
        script.put_image(at, byte, byte);
    }
    script
        .say("Restore: what came after the writing is gone, numbers go on from there, and an image can be read again");
    script.rests(&order("a", "1", "5", "0.1"));
    script.level(1, 0, 100, 5, 1);
    script.restored();
    script.no_level(1, 0);
    script.taken(&order("b", "2", "7", "0.2"), &["34=1", "37=1"]);
    script.restored();
    script.taken(&order("b", "2", "7", "0.2"), &["34=1", "37=1"]);
}

pub fn an_order_in_work_is_kept_overnight(script: &mut Script) {
    script.say("Save: while an order is in work, decided, with the 52 of its message; read back it runs on from there");
    book_r(script, 2);
    let ioc = order_of("10", "b", "1", "1200", "0.100").with("59", "3").with("110", "800");
    script.taken(&ioc.with("52", "20261116-10:11:12.345"), &["37=5"]);
    script.run_in(1024, 1, 1, &[&["34=6", "37=1"], &["34=7", "37=5"]]);
    script.saved();
    for _ in 0..2 {
        script.run_in(2048, 2, 2, &[&["34=8", "37=2"], &["34=9", "52=20261116-10:11:12.345"], &["34=10", "37=3"]]);
        script.refused(&new_order("c"), 3);
        script.restored();
    }
    script.refused(&new_order("c"), 3);
    script.restored();
    script.run(4, &[&["34=8"], &["34=9"], &["34=10"], &["34=11"], &["34=12", "14=800"], &["34=13", "378=99"]]);
}

pub fn refusals_of_save_and_restore_come_in_their_order(script: &mut Script) {
    script.say("Save and Restore: 12 where the table has not 32,768 bytes or the image not 33,280; the image stays");
    empty_market(script);
    script.rests(&new_order("a"));
    for (table, image) in [(TABLE - 1, IMAGE), (0, IMAGE), (TABLE, IMAGE - 1), (TABLE, IMAGE + 1), (TABLE, 0), (0, 0)] {
        script.save_refused(table, image, 12);
        script.restore_in(table, image, 12, 0);
    }
    script.say("Save: 2 where it is no market, or not one of these calls, after 12");
    script.put(55, &[2], &[0]);
    script.save_refused(TABLE, IMAGE, 2);
    script.save_refused(TABLE, IMAGE + 1, 12);
    script.put(55, &[0], &[2]);
    script.calls(Equities);
    script.save_refused(TABLE, IMAGE, 2);
    script.put_image(508, 0xe5, 0xe4);
    script.say("Restore: 12 before 13, and 13 before 2; nothing has changed");
    script.restore_in(TABLE, IMAGE - 1, 12, 0);
    script.restore_refused(13, 0);
    script.put_image(508, 0xe4, 0xe5);
    script.restore_refused(2, 0);
    script.calls(Bonds);
    script.level(1, 0, 100, 100, 1);
    script.say("Restore: in place of a table that is no market");
    script.put(0, &[9], &[1]);
    script.depth_refused(1, 0, 2);
    script.restored();
    script.no_level(1, 0);
}

pub fn a_changed_image_is_noticed(script: &mut Script) {
    script.say("Restore: 13 with the block in which a byte of the table, of the check or of the filling was changed");
    empty_market(script);
    for (at, byte, before, block) in [
        (0, 2, 1, 0),
        (507, 1, 0, 0),
        (512, 255, 0, 1),
        (in_image(TABLE - 1), 1, 0, 64),
        (509, 0x24, 0x23, 0),
        (check_of(1) + 3, 3, 2, 1),
        (check_of(64), 1, 0, 64),
        (check_of(64) - 1, 1, 0, 64),
    ] {
        script.put_image(at, byte, before);
        script.restore_refused(13, block);
        script.put_image(at, before, byte);
    }
    script.say(
        "Restore: the first of two blocks; a filling that is not zero though the check is right; then all is well",
    );
    script.put_image(check_of(64) - 252, 1, 0);
    script.restore_refused(13, 64);
    // The first byte of the filling has position 257.
    script.put_image(check_of(64), 1, 0);
    script.put_image(check_of(64) + 1, 1, 0);
    script.restore_refused(13, 64);
    script.put_image(512 * 7, 1, 0);
    script.restore_refused(13, 7);
    for (at, before) in [(512 * 7, 1), (check_of(64) - 252, 1), (check_of(64), 1), (check_of(64) + 1, 1)] {
        script.put_image(at, 0, before);
    }
    script.restored();
}

pub fn an_image_that_is_no_market(script: &mut Script) {
    script.say("Restore: with a right check, another next number is a market, and 0 is none");
    empty_market(script);
    // The low byte of the next number has position 29: with 3 the check is 9246, 241E hex, and with 0 it is 9159, 23C7 hex.
    script.put_image(28, 3, 1);
    script.put_image(508, 0x1e, 0xe4);
    script.restore_refused(13, 0);
    script.put_image(509, 0x24, 0x23);
    script.restored();
    script.taken(&new_order("a"), &["34=3"]);
    script.put_image(28, 0, 3);
    script.put_image(508, 0xc7, 0x1e);
    script.put_image(509, 0x23, 0x24);
    script.restore_refused(2, 0);
    script.run(1, &[]);
}

pub fn shares_are_kept_overnight(script: &mut Script) {
    script.say("Save and Restore of shares: an image is read back by the calls of its own market");
    script.open_shares(1);
    script.rests(&share_order("s", "5", "6", "100.1").with("544", "2").adding("8214", "1"));
    script.saved();
    script.taken(&share_order("b", "1", "6", "101"), &[]);
    script.calls(Bonds);
    script.restore_refused(2, 0);
    script.save_refused(TABLE, IMAGE, 2);
    script.open(1);
    script.restore_refused(2, 0);
    script.no_level(2, 0);
    script.calls(Equities);
    script.depth_refused(2, 0, 2);
    script.restored();
    script.top(2, 1001, 6, 1);
    script.taken(&share_order("b", "1", "6", "101"), &["34=2"]);
    script.run(2, &[&["37=1", "54=5", "544=2", "8214=1"], &["37=2", "31=100.1"]]);
}
