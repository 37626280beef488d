//! Tags with a key, of document 02, in scripts that show what each refusal is for. tags.rs has the tags that Crypto++ made.

use compare::{compare_text, hex, sample, sample_record, set_line, Record};
use model::lsh::digest;
use model::tags::{hmac, inner_block, outer_block};

/// The key of most scripts, 20 bytes.
fn key() -> Vec<u8> {
    sample(1000..1020)
}

/// A function by w and n, with a key that is short and one that is longer than a block.
const FUNCTIONS: [(u64, u64); 2] = [(32, 256), (64, 512)];

/// The shortest digest lengths, and the longest but one.
#[test]
fn digest_lengths() {
    let key = hex(b"the key of the shop");
    for (w, n) in [(32, 8), (64, 8), (32, 248), (64, 504)] {
        let tag = hex(&hmac(w, n, b"the key of the shop", b"abc"));
        let size = n / 8;
        compare_text(&format!(
            "tag {w} {n} {key} 616263 {size} => 0 {tag}\ntagcheck {w} {n} {key} 616263 {tag} => 0 yes\n"
        ));
    }
}

/// A tag takes the first n / 8 bytes of the output. Those after it stay as they are.
#[test]
fn room_after_a_tag() {
    let key = hex(b"the key of the shop");
    for (w, n, size) in [(32, 224, 28), (32, 224, 29), (64, 512, 70), (32, 8, 4096)] {
        let tag = hex(&hmac(w, n, b"the key of the shop", b"abc"));
        let after = size - n / 8;
        compare_text(&format!("tag {w} {n} {key} 616263 {size} => 0 {tag}[a5*{after}]\n"));
    }
}

/// A key is filled with zeros up to a block, so one with zeros after it is the same key, and one with zeros before it is another. With one zero
/// more than fit in a block its digest stands for it.
#[test]
fn keys_and_zeros() {
    for (w, n) in FUNCTIONS {
        let size = n / 8;
        let zeros = 4 * w - 3;
        let filled = [b"key".to_vec(), vec![0; zeros as usize + 1]].concat();
        let key_digest = hex(&digest(w, n, &filled));
        let [tag, other, of_digest] =
            [b"key", &b"\0key"[..], &digest(w, n, &filled)].map(|key| hex(&hmac(w, n, key, b"abc")));
        compare_text(&format!(
            "\
tag {w} {n} 6b6579 616263 {size} => 0 {tag}
tag {w} {n} 6b657900 616263 {size} => 0 {tag}
tag {w} {n} 6b6579[00*{zeros}] 616263 {size} => 0 {tag}
tag {w} {n} 006b6579 616263 {size} => 0 {other}
tag {w} {n} 6b6579[00*{zeros}]00 616263 {size} => 0 {of_digest}
tag {w} {n} {key_digest} 616263 {size} => 0 {of_digest}
"
        ));
    }
}

#[test]
fn key_of_several_blocks() {
    let key_digest = hex(&digest(32, 256, &sample(0..1000)));
    let tag = hex(&hmac(32, 256, &sample(0..1000), &sample(0..200)));
    compare_text(&format!(
        "\
tag 32 256 [0..1000] [0..200] 32 => 0 {tag}
tag 32 256 {key_digest} [0..200] 32 => 0 {tag}
tag 64 384 [0..1000] [0..200] 48
"
    ));
}

/// Over pieces: the record of a start is that of the key's inner block appended to a new one. The record of a finish stays, and may go on.
#[test]
fn pieces() {
    let key = hex(&key());
    let inner = hex(&inner_block(32, 256, &self::key()));
    let [none, some, block, all] =
        [0, 127, 128, 300].map(|length| hex(&hmac(32, 256, &self::key(), &sample(0..length))));
    compare_text(&format!(
        "\
tagstart 32 256 {key} => 0
record
open 32 256
append {inner} => 0 1
record
# without a piece, after no bytes, and after 300 bytes in pieces
tagstart 32 256 {key} => 0
tagfinish {key} 32 => 0 {none}
tag 32 256 {key} - 32 => 0 {none}
append - => 0 0
tagfinish {key} 32 => 0 {none}
append [0..127] => 0 0
tagfinish {key} 32 => 0 {some}
tag 32 256 {key} [0..127] 32 => 0 {some}
append [127..128] => 0 1
tagfinish {key} 32 => 0 {block}
tag 32 256 {key} [0..128] 32 => 0 {block}
append [128..300] => 0 1
tagfinish {key} 40 => 0 {all}[a5*8]
tag 32 256 {key} [0..300] 40 => 0 {all}[a5*8]
record
# another key at the finish, or none: another tag
tagfinish {key}01 32
tagfinish - 32
# the key with zeros after it is the same key
tagfinish {key}[00*108] 32 => 0 {all}
"
    ));
}

/// Word size 64, with a key that is longer than a block. Close goes by the record too: its message begins with the key's inner block.
#[test]
fn pieces_with_a_long_key() {
    let long = sample(1000..1257);
    let inner = hex(&inner_block(64, 512, &long));
    let key_digest = hex(&digest(64, 512, &long));
    let tag = hex(&hmac(64, 512, &long, &sample(0..600)));
    compare_text(&format!(
        "\
tagstart 64 512 [1000..1257] => 0
record
open 64 512
append {inner} => 0 1
record
append [0..255] => 0 0
append [255..256] => 0 1
append [256..600] => 0 1
tagfinish [1000..1257] 66 => 0 {tag}a5a5
tag 64 512 [1000..1257] [0..600] 66 => 0 {tag}a5a5
tagfinish {key_digest} 64 => 0 {tag}
record
close 00 0 76
whole 64 512 {inner}[0..600] 00 0 76
"
    ));
}

/// Finish takes any sound record. The digest that Close gives stands as the inner one; where no start made the record, the answer is not the tag
/// of its bytes.
#[test]
fn finish_of_any_record() {
    let key = hex(&key());
    let inner = hex(&inner_block(32, 256, &self::key()));
    let tag = hex(&hmac(32, 256, &self::key(), &sample(0..200)));
    let outer = hex(&outer_block(32, 256, &self::key()));
    let order_digest = hex(&digest(32, 256, &sample(0..200)));
    let by_hand = set_line(&sample_record(32, 224, 300));
    compare_text(&format!(
        "\
open 32 256
append [0..200] => 0 1
close 00 0 76
tagfinish {key} 32
tag 32 256 {key} [0..200] 32 => 0 {tag}
# it is the digest of the key's outer block and of the digest that Close gave
whole 32 256 {outer}{order_digest} 00 0 76
# where the key's inner block was appended first, it is that tag
open 32 256
append {inner} => 0 1
append [0..200] => 0 1
tagfinish {key} 32 => 0 {tag}
# a new order without bytes, and a record made by hand
open 64 384
tagfinish {key} 48
{by_hand}
tagfinish {key} 28
"
    ));
}

/// The limit counts the key's block: the longest message has 2^40 - B bytes. Finish takes the record of it.
#[test]
fn the_limit() {
    let key = hex(&key());
    let one_left = set_line(&sample_record(32, 256, (1 << 40) - 1));
    let block_left = set_line(&sample_record(64, 512, (1 << 40) - 256));
    compare_text(&format!(
        "\
{one_left}
append 0108 => 5 0
append 01 => 0 1
append 01 => 5 0
tagfinish {key} 32
{block_left}
append [0..257] => 5 0
append [0..256] => 0 1
tagfinish {key} 64
"
    ));
}

#[test]
fn corrections() {
    let key = hex(&key());
    let inner = hex(&inner_block(32, 256, &self::key()));
    let outer = hex(&outer_block(32, 256, &self::key()));
    let kept_digest = hex(&digest(32, 256, &inner_block(32, 256, &self::key())[..5]));
    let kept = &inner[..10];
    let other = &inner[2..];
    let tag = hex(&hmac(32, 256, &self::key(), &sample(0..200)));
    compare_text(&format!(
        "\
# the last piece is dropped, and the tag is that of the others
tagstart 32 256 {key} => 0
append [0..200] => 0 1
append [200..300] => 0 1
rewind 72 [128..300] => 0 1
tagfinish {key} 32 => 0 {tag}
tag 32 256 {key} [0..200] 32 => 0 {tag}
# all pieces are dropped: the record is that of a start
rewind 0 [0..200] => 0 1
record
tagstart 32 256 {key} => 0
record
# the key's block too, of which another is refused (9), and 5 bytes are kept: the digest of these is the inner one
append [0..10] => 0 0
rewind 5 ff{other}[0..10] => 9 0
rewind 5 {inner}[0..10] => 0 1
tagfinish {key} 32
whole 32 256 {outer}{kept_digest} 00 0 76
# none is kept: the record is a new one
rewind 0 {kept} => 0 0
record
open 32 256
record
"
    ));
}

/// There is no 17 at a finish. Until the end the tag is that of all pieces, and after it of those that remain.
#[test]
fn in_steps() {
    let key = hex(&key());
    let [all, remaining] = [300, 138].map(|length| hex(&hmac(32, 256, &self::key(), &sample(0..length))));
    compare_text(&format!(
        "\
tagstart 32 256 {key} => 0
append [0..300] => 0 2
tagfinish {key} 32 => 0 {all}
begin [256..300] => 0 0
tagfinish {key} 32 => 0 {all}
append - => 17 0
handback [128..256] => 0 0
tagfinish {key} 32 => 0 {all}
handback [0..128] => 0 0
record
tagfinish {key} 32 => 0 {all}
# abandoned
abandon => 0 0
tagfinish {key} 32 => 0 {all}
# ended
begin [256..300] => 0 0
handback [128..256] => 0 0
end 10 => 0 1
tagfinish {key} 32 => 0 {remaining}
tag 32 256 {key} [0..138] 32 => 0 {remaining}
# a start while one is begun gives its own record
begin [128..138] => 0 0
tagstart 64 384 {key} => 0
record
"
    ));
}

#[test]
fn checks() {
    for (w, n) in FUNCTIONS {
        let key = hex(&key());
        let (length, bytes, less) = (3 * w, n / 8, n - 8);
        let tag = hmac(w, n, &self::key(), &sample(0..length));
        let last = tag.len() - 1;
        let changed = |place: usize, bits: u8| {
            let mut tag = tag.clone();
            tag[place] ^= bits;
            hex(&tag)
        };
        let (first_byte, last_byte, one_bit) = (changed(0, 0xff), changed(last, 0xff), changed(last / 2, 1));
        let shorter = hex(&tag[..last]);
        let tag = hex(&tag);
        let front = &tag[..64];
        let (other_w, other_n) = if w == 32 { (64, 256) } else { (32, 256) };
        compare_text(&format!(
            "\
tagcheck {w} {n} {key} [0..{length}] {tag} => 0 yes
# another first byte, another last one, one bit, a byte less, a byte more, no bytes, zeros
tagcheck {w} {n} {key} [0..{length}] {first_byte} => 0 no
tagcheck {w} {n} {key} [0..{length}] {last_byte} => 0 no
tagcheck {w} {n} {key} [0..{length}] {one_bit} => 0 no
tagcheck {w} {n} {key} [0..{length}] {shorter} => 0 no
tagcheck {w} {n} {key} [0..{length}] {tag}00 => 0 no
tagcheck {w} {n} {key} [0..{length}] - => 0 no
tagcheck {w} {n} {key} [0..{length}] [00*{bytes}] => 0 no
# another key, another message, no message, the key and the message exchanged
tagcheck {w} {n} {key}01 [0..{length}] {tag} => 0 no
tagcheck {w} {n} {key} [0..{length}]00 {tag} => 0 no
tagcheck {w} {n} {key} - {tag} => 0 no
tagcheck {w} {n} [0..{length}] {key} {tag} => 0 no
# another function: a tag is not the front of a longer one
tagcheck {w} {less} {key} [0..{length}] {shorter} => 0 no
tagcheck {other_w} {other_n} {key} [0..{length}] {front} => 0 no
"
        ));
    }
}

/// A message of no bytes, and no key; and the tag of another digest length.
#[test]
fn checks_of_nothing() {
    let [tag256, tag224, tag512] = [(32, 256), (32, 224), (64, 512)].map(|(w, n)| hex(&hmac(w, n, &[], &[])));
    compare_text(&format!(
        "\
tagcheck 32 256 - - {tag256} => 0 yes
tagcheck 32 256 - - {tag224} => 0 no
tagcheck 64 512 - - {tag512} => 0 yes
"
    ));
}

/// 1, 2, 18 and 12 in this order. The output is not touched, and the record has nothing to do with a tag or a check.
#[test]
fn refusals() {
    let key = hex(&key());
    let tag = hex(&hmac(32, 256, &self::key(), b"abc"));
    compare_text(&format!(
        "\
tagstart 64 384 {key} => 0
tag 33 257 {key} 616263 0 => 1 -
tag 0 0 {key} 616263 3 => 1 a5a5a5
tag 63 513 {key} 616263 3 => 1 a5a5a5
tag 32 0 {key} 616263 3 => 2 a5a5a5
tag 32 257 {key} 616263 3 => 2 a5a5a5
tag 32 264 {key} 616263 3 => 2 a5a5a5
tag 64 513 {key} 616263 3 => 2 a5a5a5
tag 64 520 {key} 616263 3 => 2 a5a5a5
tag 32 255 {key} 616263 3 => 18 a5a5a5
tag 32 1 {key} 616263 3 => 18 a5a5a5
tag 64 511 {key} 616263 3 => 18 a5a5a5
tag 64 257 {key} 616263 3 => 18 a5a5a5
tag 32 9 {key} 616263 0 => 18 -
tag 32 256 {key} 616263 31 => 12 [a5*31]
tag 32 256 {key} 616263 0 => 12 -
tag 64 512 {key} 616263 63 => 12 [a5*63]
tag 32 8 {key} 616263 0 => 12 -
# of a check: 1, 2, 18, whatever the length of the tag
tagcheck 33 257 {key} 616263 - => 1
tagcheck 16 256 {key} 616263 {tag} => 1
tagcheck 32 0 {key} 616263 - => 2
tagcheck 32 257 {key} 616263 {tag} => 2
tagcheck 64 520 {key} 616263 00 => 2
tagcheck 32 255 {key} 616263 {tag} => 18
tagcheck 64 1 {key} 616263 80 => 18
record
"
    ));
}

/// 1, 2 and 18. The record is one of zeros, which Append and the finish refuse.
#[test]
fn refused_starts() {
    let key = hex(&key());
    for (w, n, number) in [(31, 257, 1), (32, 0, 2), (32, 257, 2), (64, 513, 2), (64, 257, 18), (32, 1, 18)] {
        compare_text(&format!(
            "\
tagstart 32 256 {key} => 0
tagstart {w} {n} {key} => {number}
record => 0 0 0 [00*128] [00*256] 0 [00*128] [00*256] 0
append 616263 => 3 0
tagfinish {key} 32 => 3 [a5*32]
"
        ));
    }
}

/// 3, 18 and 12 in this order.
#[test]
fn refused_finishes() {
    let key = hex(&key());
    let r = sample_record(32, 256, 300);
    let mut past = r;
    past.held[44] = 1;
    let mut word = r;
    word.chain[0] = 1 << 32;
    let too_long = set_line(&Record { n: 255, total: (1 << 40) + 1, held: [0; 256], ..r });
    let [past, word, mark, second, begun] =
        [past, word, Record { mark: 2, ..r }, Record { mark: 0, ..r.begun() }, r.begun()].map(|r| set_line(&r));
    compare_text(&format!(
        "\
open 32 255
append 616263
tagfinish {key} 0 => 18 -
tagfinish {key} 32 => 18 [a5*32]
open 64 1
tagfinish {key} 0 => 18 -
tagfinish {key} 76 => 18 [a5*76]
# the total above 2^40, a held byte past it, a chain word of 2^32, no such mark, a second chain with none begun; and one begun, which is sound
{too_long}
tagfinish {key} 0 => 3 -
{past}
tagfinish {key} 0 => 3 -
tagfinish {key} 32 => 3 [a5*32]
{word}
tagfinish {key} 32 => 3 [a5*32]
{mark}
tagfinish {key} 32 => 3 [a5*32]
{second}
tagfinish {key} 32 => 3 [a5*32]
{begun}
tagfinish {key} 32
# 12 up to a byte less than the tag
tagstart 32 256 {key} => 0
tagfinish {key} 0 => 12 -
tagfinish {key} 31 => 12 [a5*31]
tagfinish {key} 32
tagstart 64 8 {key} => 0
tagfinish {key} 0 => 12 -
tagfinish {key} 1
tagfinish {key} 2
"
    ));
}

/// Numbers are never cut: 2^32 + 32 is no word size, 2^32 + 256 no digest length, and leading zeros count for nothing.
#[test]
fn large_numbers() {
    let key = hex(&key());
    let tag = hex(&hmac(32, 256, &self::key(), b"abc"));
    let (wide, widest, most) = (1 << 32, 1 << 63, u64::MAX);
    for (w, n, number) in [
        (wide + 32, 256, 1),
        (widest + 64, 512, 1),
        (most, most, 1),
        (32, wide + 256, 2),
        (64, wide + 512, 2),
        (64, widest + 8, 2),
        (32, most, 2),
        (64, most - 7, 2),
    ] {
        compare_text(&format!(
            "\
tag {w} {n} {key} 616263 32 => {number} [a5*32]
tagstart {w} {n} {key} => {number}
tagcheck {w} {n} {key} 616263 {tag} => {number}
"
        ));
    }
    let r = sample_record(32, 256, 300);
    let [w, n] = [Record { w: wide + 32, ..r }, Record { n: wide + 256, ..r }].map(|r| set_line(&r));
    compare_text(&format!(
        "\
tag [0*30]32 [0*25]256 {key} 616263 32 => 0 {tag}
tagstart [0*30]32 [0*25]256 {key} => 0
tagcheck [0*30]32 [0*25]256 {key} 616263 {tag} => 0 yes
tagfinish {key} [0*26]32
{w}
tagfinish {key} 32 => 3 [a5*32]
{n}
tagfinish {key} 32 => 3 [a5*32]
"
    ));
}
