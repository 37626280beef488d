//! A rewind in steps, of document 02, in scripts that show what each refusal is for.

use compare::{compare_text, sample_record, set_line};

/// 3 with the record of zeros, and 17 with none begun. It comes before 15 and before 6 and 7.
#[test]
fn none_begun() {
    compare_text(
        "\
begin - => 3 0
handback - => 3 0
end 0 => 3 0
endroll 0 => 3 0
abandon => 3 0
open 32 256
append [0..300] => 0 2
handback [128..256] => 17 0
handback - => 17 0
end 0 => 17 0
end 18446744073709551615 => 17 0
endroll 0 => 17 0
abandon => 17 0
",
    );
}

/// Begin, and an end without a block handed back.
#[test]
fn held_bytes() {
    compare_text(
        "\
open 32 256
append [0..300] => 0 2
# 44 bytes are held. 6: none, one less, one more, with the block before; 8: another first byte, another last one
begin - => 6 0
begin [256..299] => 6 0
begin [256..300]00 => 6 0
begin [128..300] => 6 0
begin 25[257..300] => 8 0
begin [256..299]57 => 8 0
begin 25[257..299] => 6 0
record
begin [256..300] => 0 0
record
# 17 while it is not ended, before 5 to 8 and, with no roll here, before 15
begin [256..300] => 17 0
begin - => 17 0
append - => 17 0
append 00 => 17 0
rewind 44 [256..300] => 17 0
rewind 200 - => 17 0
appendroll 00 => 17 0
rewindroll 44 [256..300] => 17 0
record
# the receipt is that of the 300 bytes, now and as a whole
close 00 0 76
whole 32 256 [0..300] 00 0 76
close 00 8 76 => 10 [a5*76]
# at most 44 bytes can be kept; as many leave the record as it was, as one Rewind does. 15 comes before 7
end 45 => 7 0
end 128 => 7 0
end 4294967296 => 7 0
end 18446744073709551615 => 7 0
endroll 45 => 15 0
endroll 44 => 15 0
record
end 44 => 0 0
record
rewind 44 [256..300] => 0 0
record
# fewer are kept, by an end and by a Rewind
begin [256..300] => 0 0
end 10 => 0 0
record
append [266..300] => 0 0
rewind 10 [256..300] => 0 0
record
append [266..300] => 0 0
# begun and abandoned
begin [256..300] => 0 0
abandon => 0 0
record
abandon => 17 0
",
    );
}

/// An order of two blocks and more at each word size.
const ORDERS: [(u64, u64, u64); 2] = [(32, 256, 300), (64, 512, 600)];

/// 6 for no bytes, one less than a block, one more, two blocks, a block of the other word size, and the held bytes. A block cannot be kept, and
/// what is kept leaves the record and the count of one Rewind; 10 is the figure of document 01.
#[test]
fn one_block() {
    for (w, n, total) in ORDERS {
        let (block, two, other) = (4 * w, 8 * w, 4 * (96 - w));
        let (most, less) = (block - 1, two - 1);
        let kept = block + 10;
        compare_text(&format!(
            "\
open {w} {n}
append [0..{total}] => 0 2
begin [{two}..{total}] => 0 0
handback - => 6 0
handback [{block}..{less}] => 6 0
handback [{block}..{two}]00 => 6 0
handback [0..{two}] => 6 0
handback [0..{other}] => 6 0
handback [{two}..{total}] => 6 0
record
handback [{block}..{two}] => 0 0
record
close 00 0 76
append 00 => 17 0
end {block} => 7 0
end 4294967296 => 7 0
end 10 => 0 1
record
append [{kept}..{total}] => 0 1
rewind 10 [{block}..{total}] => 0 1
record
append [{kept}..{total}] => 0 1
# all but a byte of the block are kept
begin [{two}..{total}] => 0 0
handback [{block}..{two}] => 0 0
end {most} => 0 1
record
append [{less}..{total}] => 0 1
rewind {most} [{block}..{total}] => 0 1
record
append [{less}..{total}] => 0 1
# abandoned
begin [{two}..{total}] => 0 0
handback [{block}..{two}] => 0 0
abandon => 0 0
record
"
        ));
    }
}

/// All blocks are handed back, and none is left (6). All but one byte of a block are kept, then none: the record is a new one, and that of one
/// Rewind.
#[test]
fn all_blocks() {
    for (w, n, total) in ORDERS {
        let (block, two) = (4 * w, 8 * w);
        let most = block - 1;
        compare_text(&format!(
            "\
open {w} {n}
append [0..{total}] => 0 2
begin [{two}..{total}] => 0 0
handback [{block}..{two}] => 0 0
handback [0..{block}] => 0 0
handback [0..{block}] => 6 0
record
end {block} => 7 0
end {most} => 0 2
record
append [{most}..{total}] => 0 2
begin [{two}..{total}] => 0 0
handback [{block}..{two}] => 0 0
handback [0..{block}] => 0 0
end 0 => 0 2
record
append [0..{total}] => 0 2
rewind 0 [0..{total}] => 0 2
record
"
        ));
    }
}

/// 9: another byte in a block shows where all was handed back, after 7. The steps so far stay, and the order is as it was.
#[test]
fn other_byte() {
    for (w, n, total) in ORDERS {
        let (block, two) = (4 * w, 8 * w);
        compare_text(&format!(
            "\
open {w} {n}
append [0..{total}] => 0 2
begin [{two}..{total}] => 0 0
handback [{block}..{two}] => 0 0
handback [0..77]27[78..{block}] => 0 0
end {block} => 7 0
end 0 => 9 0
record
close 00 0 76
abandon => 0 0
record
rewind 0 [0..77]27[78..{total}] => 9 0
"
        ));
    }
}

#[test]
fn other_blocks() {
    compare_text(
        "\
open 32 256
append [0..300] => 0 2
# the blocks in the wrong order
begin [256..300] => 0 0
handback [0..128] => 0 0
handback [128..256] => 0 0
end 5 => 9 0
abandon => 0 0
# such a byte is not seen where a block is left: the record is that of one Rewind over the same bytes, and not of the order. Open begins anew
begin [256..300] => 0 0
handback 91[129..256] => 0 0
end 1 => 0 1
record
begin 90 => 8 0
begin 91 => 0 0
open 32 256
append [0..300] => 0 2
rewind 1 91[129..300] => 0 1
record
",
    );
}

#[test]
fn short_orders() {
    compare_text(
        "\
# an order of two blocks holds no bytes
open 32 256
append [0..256] => 0 2
begin 00 => 6 0
begin - => 0 0
end 1 => 7 0
end 0 => 0 0
record
begin - => 0 0
handback [128..256] => 0 0
end 127 => 0 1
record
# an order without bytes, and one of less than a block: no block can be handed back
open 32 1
begin 00 => 6 0
begin - => 0 0
handback [0..128] => 6 0
end 1 => 7 0
end 0 => 0 0
record
append [0..5] => 0 0
begin [0..5] => 0 0
handback [0..128] => 6 0
end 6 => 7 0
end 2 => 0 0
record
",
    );
}

#[test]
fn with_a_roll() {
    let set = set_line(&sample_record(32, 256, 8191));
    compare_text(&format!(
        "\
# block 64 ends and its checkpoint is inserted; begin and hand-back leave the roll
{set}
roll 68
appendroll [8191..8242] => 0 1
showroll
begin [8192..8242] => 0 0
handback [8064..8192] => 0 0
showroll
# 15: another length, no link where there is one, before 7; then 7, and a Rewind out of turn
roll 67
endroll 0 => 15 0
roll 68
endroll 0 => 15 0
endroll 128 => 15 0
rollset 01000000[0..64]
endroll 128 => 7 0
endroll 4294967296 => 7 0
rewindroll 0 [8064..8242] => 17 0
showroll => 01000000[0..64]
# abandoned, and ended with the checkpoint still in the order: it stays
abandon => 0 0
begin [8192..8242] => 0 0
endroll 51 => 7 0
endroll 50 => 0 0
begin [8192..8242] => 0 0
endroll 0 => 0 0
showroll => 01000000[0..64]
record
# one byte less: it is unlinked, and its slot keeps its bytes; so does one Rewind
begin - => 0 0
handback [8064..8192] => 0 0
endroll 127 => 0 1
showroll => 00000000[0..64]
record
appendroll [8191..8192] => 0 1
rewindroll 127 [8064..8192] => 0 1
showroll
record
# the end without the roll leaves it, and the record is then not that of the roll (15)
appendroll [8191..8192] => 0 1
begin - => 0 0
handback [8064..8192] => 0 0
end 127 => 0 1
appendroll - => 15 0
begin [8064..8191] => 0 0
endroll 0 => 15 0
end 0 => 0 0
"
    ));
}

/// 600 bytes are two blocks and 88 bytes.
#[test]
fn word_size_64() {
    compare_text(
        "\
open 64 512
append [0..600] => 0 2
begin [556..600] => 6 0
begin [512..599]b3 => 8 0
begin [512..600] => 0 0
",
    );
    let set = set_line(&sample_record(64, 300, 16383));
    compare_text(&format!(
        "\
{set}
roll 132
appendroll [16383..16384] => 0 1
begin - => 0 0
endroll 1 => 7 0
endroll 0 => 0 0
begin - => 0 0
handback [16128..16384] => 0 0
endroll 256 => 7 0
showroll
endroll 255 => 0 1
showroll
record
"
    ));
}
