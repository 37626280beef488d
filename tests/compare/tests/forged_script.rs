//! Records made by hand that have something of a split rewind: the sound ones are taken, whatever order they might come from, and the others
//! get 3.

use compare::{compare_text, places, sample, sample_record, set_line, Record, MOST_BYTES};
use model::lsh::{opening_chain, Chain};

/// The words 16 to 31.
const OTHER: Chain = [16, 17, 18, 19, 20, 21, 22, 23, 24, 25, 26, 27, 28, 29, 30, 31];

/// The chain with another word.
fn with_word(mut chain: Chain, place: usize, word: u64) -> Chain {
    chain[place] = word;
    chain
}

/// The record with another word in the second chain.
fn with_second(r: Record, place: usize, word: u64) -> Record {
    Record { second: with_word(r.second, place, word), ..r }
}

/// The record with 1 at a place of the bytes handed back last.
fn with_back(mut r: Record, place: usize) -> Record {
    r.back[place] = 1;
    r
}

/// An order of two blocks and 44 bytes, with none begun, with one begun, and with the second block handed back.
fn order() -> [Record; 3] {
    let order = sample_record(32, 256, 300);
    let handed_back = Record { second: OTHER, back: places(&sample(128..256)), blocks: 1, ..order.begun() };
    [order, order.begun(), handed_back]
}

/// Compares what these lines print with each of the records.
fn compare_on(records: &[Record], lines: &str) {
    for r in records {
        compare_text(&format!("{}\n{lines}", set_line(r)));
    }
}

/// A word of the second chain, the first or the last byte handed back last, or a number.
#[test]
fn none_begun() {
    let [r, ..] = order();
    let numbers = [1, 1 << 32].map(|blocks| Record { blocks, ..r });
    let forged = [&[with_second(r, 15, 1), with_back(r, 0), with_back(r, 255)], &numbers[..]].concat();
    compare_on(&forged, "abandon => 3 0\nbegin [256..300] => 3 0\n");
}

/// What the record would be sound with is zeros with 0, and the chain with 1.
#[test]
fn no_such_mark() {
    let [r, begun, _] = order();
    let with_zeros = [2, 1 << 32].map(|mark| Record { mark, ..r });
    let with_chain = [2, (1 << 32) + 1, u64::MAX].map(|mark| Record { mark, ..begun });
    compare_on(&[&with_zeros[..], &with_chain].concat(), "abandon => 3 0\nclose 00 0 76 => 3 [a5*76]\n");
}

/// Zeros or one other word in the second chain, the first or the last byte of the block, one behind it; then as it has to be.
#[test]
fn no_block() {
    let [_, r, _] = order();
    let bytes = [0, 127, 255].map(|place| with_back(r, place));
    let forged = [&[Record { second: [0; 16], ..r }, with_second(r, 15, 16)], &bytes[..]].concat();
    compare_on(&forged, "abandon => 3 0\n");
    compare_on(&[r], "abandon => 0 0\n");
}

/// Words of 2^32 and more, bytes behind the block; then as it has to be, and what follows is that of the fields.
#[test]
fn one_block() {
    let [.., r] = order();
    let behind = with_back(Record { back: [0; 256], ..r }, 255);
    let forged = [with_second(r, 0, 1 << 32), with_second(r, 15, u64::MAX), with_back(r, 128), behind];
    compare_on(&forged, "abandon => 3 0\nappend - => 3 0\n");
    let sound = with_second(r, 0, (1 << 32) - 1);
    compare_on(&[sound], "append - => 17 0\nclose 00 0 76\nend 127 => 0 1\nrecord\n");
    let lines = "handback [0..128] => 0 0\nrecord\nend 0 => 9 0\nabandon => 0 0\nrecord\n";
    compare_on(&[sound], lines);
}

/// More than the two of the order, up to a number whose bytes pass 2^64; then two, with another chain than the opening one (9) and with it.
#[test]
fn numbers_of_blocks() {
    let [.., r] = order();
    let forged = [3, 1 << 57, (1 << 57) + 1, u64::MAX].map(|blocks| Record { blocks, ..r });
    compare_on(&forged, "handback [0..128] => 3 0\nend 0 => 3 0\n");
    let two = Record { blocks: 2, ..r };
    compare_on(&[two], "handback [0..128] => 6 0\nend 0 => 9 0\nend 128 => 7 0\n");
    compare_on(&[Record { second: opening_chain(32, 256), ..two }], "end 10 => 0 2\nrecord\n");
}

/// With one begun: w, n, the total, a word of the chain, a held byte.
#[test]
fn the_order_itself() {
    let [.., r] = order();
    let mut held = r.held;
    held[44] = 1;
    let forged = [
        Record { w: 33, ..r },
        Record { n: 257, ..r },
        Record { total: MOST_BYTES + 1, held: [0; 256], ..r },
        Record { chain: with_word(r.chain, 0, 1 << 32), ..r },
        Record { held, ..r },
    ];
    compare_on(&forged, "end 0 => 3 0\n");
}

/// A block is left, and then none. With the opening chain the end counts all its blocks.
#[test]
fn longest_order() {
    let [.., r] = order();
    let all = MOST_BYTES / 128;
    let longest = Record { total: MOST_BYTES, held: [0; 256], blocks: all - 1, ..r };
    compare_on(&[longest], "handback [0..128] => 0 0\nhandback [0..128] => 6 0\nend 0 => 9 0\n");
    let opening = Record { second: opening_chain(32, 256), blocks: all, ..longest };
    compare_on(&[opening], "end 3 => 0 8589934592\nrecord\n");
}

/// Two checkpoints, the first in slot 2: the second is unlinked, and then both. 9 comes after 15 and 7, and leaves the roll.
#[test]
fn with_a_roll() {
    let [.., r] = order();
    let long = Record { total: 16394, held: sample_record(32, 256, 16394).held, ..r };
    let [second, both, all] = [64, 65, 128].map(|blocks| Record { blocks, ..long });
    let rollset = "rollset 02000000[11*64]0100[22*64]";
    compare_on(&[second], &format!("{rollset}\nendroll 3 => 0 64\nshowroll => 02000000[11*64]0000[22*64]\nrecord\n"));
    compare_on(&[both], &format!("{rollset}\nendroll 3 => 0 65\nshowroll => 00000000[11*64]0100[22*64]\n"));
    compare_on(&[all], "roll 134\nendroll 0 => 15 0\n");
    let stays = "showroll => 02000000[11*64]0100[22*64]";
    compare_on(&[all], &format!("{rollset}\nendroll 128 => 7 0\nendroll 0 => 9 0\n{stays}\n"));
}

/// A byte with no block, another second chain with none, three blocks; then words and bytes that word size 32 does not take.
#[test]
fn word_size_64() {
    let r = sample_record(64, 512, 600).begun();
    let back = places(&sample(256..512));
    let forged = [with_back(r, 255), Record { second: OTHER, ..r }, Record { second: OTHER, back, blocks: 3, ..r }];
    compare_on(&forged, "abandon => 3 0\n");
    compare_on(&[Record { second: [u64::MAX; 16], back, blocks: 1, ..r }], "end 200 => 0 1\nrecord\n");
}
