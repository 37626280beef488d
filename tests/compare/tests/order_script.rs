//! Open, Append, Rewind and Close at the limits of what they take, in scripts that show what each refusal is for.

use compare::{compare_text, sample_record, set_line, Record, MOST_BYTES};

/// Document 01's checks of Open, Append and Rewind, and what can be seen of other bytes.
#[test]
fn document_01() {
    compare_text(
        "\
# a digest has 1 bit at least and 8w at most, and w is 32 or 64
open 32 0 => 2
open 32 257 => 2
open 33 256 => 1
open 32 256 => 0
# 300 bytes, none of them 0: two blocks are run, and 44 bytes are held
append [01*300] => 0 2
record
# an empty piece changes nothing
append - => 0 0
record
# back to byte 138, by the bytes from 128 on
rewind 10 [01*172] => 0 1
record
# once more to 300 bytes
append [01*162] => 0 1
# bytes that do not begin with a block
rewind 0 [01*171] => 6 0
# the bytes held, all of which remain: nothing changes
rewind 44 [01*44] => 0 0
record
# more remain than were handed back, and a whole block remains
rewind 45 [01*44] => 7 0
rewind 128 [01*172] => 7 0
# a held byte that is another
rewind 0 [01*171]02 => 8 0
# 6, 7, 8 and 9 are tested in this order: each with what is refused after it
rewind 172 [01*171] => 6 0
rewind 128 [01*171] => 6 0
rewind 301 [01*301] => 6 0
rewind 173 [01*171]02 => 7 0
rewind 128 [01*171]02 => 7 0
rewind 128 02[01*299] => 7 0
rewind 0 02[01*298]02 => 8 0
# a byte of a whole block that is another shows only where the whole order is handed back, so that the opening chain is known
rewind 0 [01*200]02[01*99] => 9 0
record
# one less than a block remains
rewind 127 [01*172] => 0 1
append [01*45] => 0 1
# the whole order is handed back, and the record is a new one
rewind 0 [01*300] => 0 2
record
open 32 256
record
# such a byte of an order that is not handed back whole is not seen: the chain is another than that of the 128 bytes that remain
append [01*300] => 0 2
rewind 0 [01*72]02[01*99] => 0 1
record
open 32 256
append [01*128] => 0 1
record
",
    );
}

/// Numbers are never cut: 2^32 + 32 is no word size, 2^64 is no number, and leading zeros count for nothing.
#[test]
fn large_numbers() {
    compare_text(
        "\
open 4294967328 256 => 1
open 32 4294967552 => 2
open 32 18446744073709551615 => 2
open 18446744073709551616 256 => 4: not a call
open [0*30]32 [0*34]256 => 0
whole 32 256 - 00 4294967296 76 => 10 [a5*76]
whole 32 256 - 00 18446744073709551616 76 => 7: not a call
close 00 256 76 => 10 [a5*76]
close 00 0 4096
close 00 0 4097 => 10: not a call
",
    );
}

/// A record is taken as the line says, sound or not, and shown so.
#[test]
fn records_by_hand() {
    let most = u64::MAX;
    let fields = format!("{most} {most} {most} [ff*128] [ff*256] {most} [ff*128] [ff*256] {most}");
    compare_text(&format!("set {fields}\nrecord => {fields}\nappend - => 3 0\n"));

    let r = sample_record(32, 256, 300);
    compare_text(&format!("{}\nrecord\nappend - => 0 0\nappend 22 => 0 0\n", set_line(&r)));
    let held_after = |mut r: Record, place: usize| {
        r.held[place] = 1;
        r
    };
    let with_word = |mut r: Record| {
        r.chain[15] = 1 << 32;
        r
    };
    // A chain word of 2^32, a held byte past the total, the same above place 127, n out of range, a total above 2^40, w = 2^32 + 32 and 0.
    let unsound = [
        with_word(r),
        Record { total: 299, ..r },
        held_after(sample_record(32, 256, 0), 255),
        Record { n: 257, ..r },
        Record { total: MOST_BYTES + 1, held: [0; 256], ..r },
        Record { w: (1 << 32) + 32, ..r },
        Record { w: 0, n: 256, total: 0, chain: [0; 16], held: [0; 256], ..r },
    ];
    for r in unsound {
        compare_text(&format!("{}\nappend - => 3 0\nappend 01 => 3 0\nrewind 0 - => 3 0\nrecord\n", set_line(&r)));
    }
    // Word size 64 takes the same chain word, and held bytes above place 127.
    compare_text(&format!("{}\nappend - => 0 0\n", set_line(&with_word(sample_record(64, 512, 300)))));
    compare_text(&format!("{}\nappend 77 => 0 1\nrecord\n", set_line(&with_word(sample_record(64, 512, 255)))));
    // A record that is no order's: 9 even where no block is run.
    compare_text(&format!("{}\nrewind 0 - => 9 0\n", set_line(&sample_record(32, 256, 0))));
}

/// A record one byte below the limit takes one byte and no more (5), and stays. The receipt of the longest message has a length of 8 * 2^40 + 7
/// bits.
#[test]
fn longest_orders() {
    for (w, n) in [(32, 256), (64, 512)] {
        let set = set_line(&sample_record(w, n, MOST_BYTES - 1));
        compare_text(&format!(
            "{set}\nappend 0102 => 5 0\nrecord\nappend 01 => 0 1\nappend 01 => 5 0\nclose fe 7 76\nrecord\n"
        ));
    }
}

/// A line that sets a record with a word that is wrong, missing or too many changes nothing.
#[test]
fn faulty_records() {
    const WORDS: [&str; 9] = ["32", "256", "0", "[00*128]", "[00*256]", "0", "[00*128]", "[00*256]", "0"];
    let too_large = "18446744073709551616";
    let wrong = [
        (3, "[00*127]"),
        (3, "-"),
        (4, "[00*257]"),
        (5, "-"),
        (5, too_large),
        (6, "[00*127]"),
        (6, "[00*129]"),
        (6, "-"),
        (7, "[00*255]"),
        (7, "[00*257]"),
        (7, "-"),
        (8, "-"),
        (8, too_large),
    ];
    let with_wrong = wrong.map(|(place, word)| {
        let mut words = WORDS;
        words[place] = word;
        words.join(" ")
    });
    let shorter = [4, 5, 8].map(|count| WORDS[..count].join(" "));
    let longer = [WORDS.join(" ") + " 0"];
    let lines = with_wrong.iter().chain(&shorter).chain(&longer).enumerate();
    let lines: String = lines.map(|(place, words)| format!("set {words} => {}: not a call\n", place + 1)).collect();
    compare_text(&format!("{lines}record => 0 0 0 [00*128] [00*256] 0 [00*128] [00*256] 0\n"));
}
