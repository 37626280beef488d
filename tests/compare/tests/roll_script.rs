//! Append and Rewind with a roll, of document 02, in scripts that show what each refusal is for. A roll has two bytes and slots of 66 bytes at
//! word size 32, of 130 at 64.

use compare::{compare_text, hex, sample, sample_record, set_line};

/// A roll with these indexes, of the head and of each slot. The chains are some bytes.
fn roll(w: u64, indexes: &[u16]) -> String {
    let slot = |(slot, index): (usize, &u16)| {
        let chain = if slot == 0 { Vec::new() } else { sample(500 * slot as u64..500 * slot as u64 + 2 * w) };
        [index.to_le_bytes().to_vec(), chain].concat()
    };
    hex(&indexes.iter().enumerate().flat_map(slot).collect::<Vec<u8>>())
}

/// The line that makes the record one of so many bytes of the sample order, which no order leads to.
fn set(w: u64, n: u64, total: u64) -> String {
    set_line(&sample_record(w, n, total))
}

/// Both calls with nothing to do for them but to test the record and the roll.
fn both(answer: &str) -> String {
    format!("appendroll - => {answer}\nrewindroll 0 - => {answer}\n")
}

/// No bytes at first, zero bytes, and the bytes that a line says.
#[test]
fn lines_of_the_roll() {
    compare_text(
        "\
showroll => -
roll 68
showroll => [00*68]
rollset 0102ff
showroll => 0102ff
roll 0000
showroll => -
rollset 03
rollset -
showroll => -
roll 5
showroll => 0000000000
",
    );
}

/// 3 comes before 15: the record of zeros, and one with another digest length.
#[test]
fn unsound_before_bad_roll() {
    let both = both("3 0");
    let set = set(32, 257, 0);
    compare_text(&format!("{both}{set}\n{both}roll 68\n{both}"));
}

/// 15: only two bytes and 1 to 255 slots are taken.
#[test]
fn lengths() {
    let tried = |lengths: &[u64], answer| -> String {
        lengths.iter().map(|length| format!("roll {length}\n{}", both(answer))).collect()
    };
    let refused_32 = tried(&[0, 1, 2, 3, 66, 67, 69, 16898, 65536], "15 0");
    let taken_32 = tried(&[68, 134, 16832, 4292], "0 0");
    let refused_64 = tried(&[0, 2, 68, 131, 133, 134, 33282, 65536], "15 0");
    let taken_64 = tried(&[132, 262, 33152, 4292], "0 0");
    compare_text(&format!("open 32 256\n{refused_32}{taken_32}open 64 512\n{refused_64}{taken_64}"));
}

#[test]
fn one_slot() {
    compare_text(
        "\
# nothing is inserted before the end of block 64
open 32 256
roll 68
appendroll [0..8164] => 0 63
showroll => [00*68]
appendroll [8164..8192] => 0 1
showroll
record
# the roll is full: what ends before block 128 is taken, and the byte that ends it is not (16)
appendroll [8192..16383] => 0 63
appendroll 11 => 16 0
appendroll [16383..16512] => 16 0
showroll
appendroll - => 0 0
# 6, 7 and 8 leave the roll
rewindroll 0 [16257..16383] => 6 0
rewindroll 128 [16128..16383] => 7 0
rewindroll 0 [16256..16382]ff => 8 0
showroll
# back to the end of block 64: the checkpoint there stays
rewindroll 0 [8192..16383] => 0 63
showroll
rewindroll 1 - => 7 0
rewindroll 0 - => 0 0
# one byte less, and it is unlinked; its slot keeps its bytes
rewindroll 127 [8064..8192] => 0 1
showroll
record
# another byte ends the block: the slot serves again, with another chain
appendroll ff => 0 1
showroll
record
# 9: the whole order is handed back with a wrong byte; and then with the right ones
rewindroll 0 ff[1..8191]ff => 9 0
showroll
rewindroll 10 [0..8191]ff => 0 64
showroll
record
",
    );
}

#[test]
fn two_slots() {
    let set = set(32, 224, 8114);
    compare_text(&format!(
        "\
# two checkpoints inserted by one call
{set}
roll 134
appendroll [8114..16387] => 0 65
showroll
# from block 128 on some bytes come and go, and the roll stays
appendroll - => 0 0
rewindroll 0 [16384..16387] => 0 0
showroll
# the second is unlinked, inserted again and unlinked with the first. Only the index that led to the first slot unlinked is written
rewindroll 100 [16256..16384] => 0 1
showroll
appendroll [0..28] => 0 1
showroll
rewindroll 5 [8064..16356][0..28] => 0 65
showroll
appendroll [0..123] => 0 1
showroll
record
"
    ));
}

/// What is not linked may hold anything: the lowest of those slots is taken.
#[test]
fn slots_linked_in_any_order() {
    let two_linked = set(32, 1, 24575);
    let two_roll = roll(32, &[3, 0, 65535, 1, 2]);
    let one_linked = set(32, 1, 16256);
    let one_roll = roll(32, &[2, 1, 0]);
    compare_text(&format!(
        "\
{two_linked}
rollset {two_roll}
showroll => {two_roll}
appendroll 87 => 0 1
showroll
rewindroll 0 [24448..24575]87 => 0 1
showroll
# one slot is left and two checkpoints are due: 16, and nothing is inserted. Where one is due it is
{one_linked}
rollset {one_roll}
appendroll [0..8320] => 16 0
showroll => {one_roll}
appendroll [0..128] => 0 1
showroll
"
    ));
}

#[test]
fn bad_rolls() {
    let refused = both("15 0");
    let tried = |indexes| format!("rollset {}\n{refused}", roll(32, indexes));
    let (one, two, none, almost_two) =
        (set(32, 256, 8192), set(32, 256, 16385), set(32, 256, 8191), set(32, 256, 16383));
    let at_once = tried(&[1, 1, 0]);
    let through_two = tried(&[1, 2, 1]);
    let beyond: String = [[3, 0, 0], [256, 0, 0], [65535, 0, 0], [1, 3, 0]].iter().map(|way| tried(way)).collect();
    let too_few = tried(&[0, 0, 0]);
    let too_many = tried(&[2, 0, 0]);
    let one_behind = tried(&[2, 0, 1]);
    compare_text(&format!(
        "\
# the roll leads in a circle, at once and through two slots
{one}
{at_once}appendroll [0..128] => 15 0
{two}
{through_two}# an index beyond the slots: of the head, 3, 256 and 65535, and of the slot that it leads to, 3
{one}
{beyond}showroll
# too few links, one too many, and a second one behind the right number
{too_few}{none}
{too_many}{almost_two}
{one_behind}# 15 comes before 6, 7 and 8, and before 16
appendroll 00 => 15 0
rewindroll 0 [00*129] => 15 0
rewindroll 200 - => 15 0
rewindroll 0 [00*127] => 15 0
"
    ));
}

#[test]
fn calls_without_the_roll() {
    let longest = set(32, 256, (1 << 40) - 1);
    let before_checkpoint = set(32, 256, 8191);
    compare_text(&format!(
        "\
# a record near the limit has more whole blocks than any roll has slots: 15, where Append alone is 5
{longest}
roll 16832
appendroll 0000 => 15 0
append 0000 => 5 0
# a record that went on without the roll: 15, until it is back
{before_checkpoint}
roll 68
append 99 => 0 1
appendroll - => 15 0
rewindroll 0 - => 15 0
rewind 127 [8064..8191]99 => 0 1
appendroll - => 0 0
rewindroll 127 [8064..8191] => 0 0
showroll => [00*68]
"
    ));
}

/// 255 slots: the last that is free, and then none.
#[test]
fn most_slots() {
    let one_left = set(32, 256, 255 * 8192 - 1);
    let none_left = set(32, 256, 256 * 8192 - 1);
    // Slot 255 comes first and slot 2 last, and slot 1 is free.
    let indexes: Vec<u16> = [255, 0, 0].into_iter().chain(2..255).collect();
    let roll = roll(32, &indexes);
    compare_text(&format!(
        "\
{one_left}
rollset {roll}
appendroll 01 => 0 1
showroll
{none_left}
appendroll 01 => 16 0
appendroll - => 0 0
rewindroll 0 [2097024..2097151] => 0 0
"
    ));
}

/// A slot has 130 bytes.
#[test]
fn word_size_64() {
    let two_linked = set(64, 300, 32767);
    let (circle, full, room) = (roll(64, &[1, 1]), roll(64, &[1, 0]), roll(64, &[2, 7, 0]));
    compare_text(&format!(
        "\
open 64 512
roll 132
appendroll [0..16384] => 0 64
showroll
record
rewindroll 0 - => 0 0
showroll
rewindroll 255 [16128..16384] => 0 1
showroll
appendroll a9 => 0 1
showroll
record
# 15, which leads in a circle; 16; and the same with a slot more
rollset {circle}
appendroll - => 15 0
rewindroll 0 - => 15 0
rollset {full}
{two_linked}
appendroll 02 => 16 0
rollset {room}
appendroll 02 => 0 1
showroll
rewindroll 1 [32512..32767]02 => 0 1
showroll
record
"
    ));
}
