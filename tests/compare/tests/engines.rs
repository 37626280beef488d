//! Numbers of engines: every call that takes one gives the answer of the model with 1 and 2 and with any other number, and so does replay with
//! 1 and 2, which are all that its line takes.

use compare::roll::{self, CHECKPOINT_BLOCKS};
use compare::{at_both_word_sizes, compare_text, Random, Record, Sameness, ACCEPTED, RECEIPT_BYTES};
use lsh_ref::Word;
use model::{blocks, lsh, order, receipts, split, tags, Answer};
use std::fmt::Debug;

/// The two engines, and numbers of none. Cut to 32 bits one of those would be that of the groups.
const NUMBERS: [u64; 6] = [1, 2, 0, 3, (1 << 32) + 2, u64::MAX];

/// A byte of an output before a call.
const UNTOUCHED: u8 = 0xa5;

at_both_word_sizes! { every_call }

/// The call gives what is right with each number of an engine.
fn alike<T: PartialEq + Debug>(what: &str, right: T, call: impl Fn(u64) -> T) {
    for engine in NUMBERS {
        assert_eq!(call(engine), right, "{what} with engine {engine}");
    }
}

/// The same for a call that is lent bytes, which have to be those on the right after it.
fn alike_lent<T: PartialEq + Debug>(what: &str, lent: &[u8], right: (T, Vec<u8>), call: impl Fn(u64, &mut [u8]) -> T) {
    alike(what, right, |engine| {
        let mut lent = lent.to_vec();
        (call(engine, &mut lent), lent)
    });
}

/// The answer of a call that writes bytes to the front of what it is lent, and what it leaves.
fn written(answer: Answer<Vec<u8>>, lent: &[u8]) -> (u32, Vec<u8>) {
    match answer {
        Ok(bytes) => (ACCEPTED, [&bytes, &lent[bytes.len()..]].concat()),
        Err(number) => (number, lent.to_vec()),
    }
}

/// Taken and, by a word size or a record that is none, refused.
fn every_call<W: Word>() {
    let w = W::BITS as u64;
    let mut random = Random::new(73 * w);
    for _ in 0..20 {
        for w in [w, 33] {
            calls_on_numbers::<W>(w, &mut random);
        }
        let r = random.record(w, (CHECKPOINT_BLOCKS * W::BLOCK_BYTES) as u64 + 7);
        for r in [r, Record { n: 0, ..r }] {
            calls_on_a_record::<W>(&r, &mut random);
            calls_of_a_split_rewind::<W>(&r.begun(), &mut random);
        }
    }
}

/// The calls that are given w, with bytes of a few blocks.
fn calls_on_numbers<W: Word>(w: u64, random: &mut Random) {
    let (chain, block) = (random.bytes(W::CHAIN_BYTES), random.bytes(W::BLOCK_BYTES));
    let right = written(blocks::block_run(lsh::forward, w, &chain, &block), &chain);
    alike_lent("forward", &chain, right, |engine, chain| compare::block_forward(engine, w, chain, &block));
    let right = written(blocks::block_run(lsh::backward, w, &chain, &block), &chain);
    alike_lent("backward", &chain, right, |engine, chain| compare::block_backward(engine, w, chain, &block));

    let n = 8 * (1 + random.below(W::BITS as u64));
    alike("open", order::open(w, n), |engine| compare::open(engine, w, n));

    let [message, key] = [500, 300].map(|limit| {
        let size = random.below(limit) as usize;
        random.bytes(size)
    });
    let output = [UNTOUCHED; RECEIPT_BYTES];
    let right = written(receipts::whole(w, n, &message, 0x80, 1, output.len()), &output);
    alike_lent("whole", &output, right, |engine, output| compare::whole(engine, w, n, &message, 0x80, 1, output));
    let tag = tags::tag(w, n, &key, &message, output.len());
    let right = written(tag.clone(), &output);
    alike_lent("tag", &output, right, |engine, output| compare::tag(engine, w, n, &key, &message, output));
    alike("tag_start", tags::tag_start(w, n, &key), |engine| compare::tag_start(engine, w, n, &key));
    for tag in [tag.unwrap_or_default(), Vec::new()] {
        let right = tags::tag_check(w, n, &key, &message, &tag);
        let right = Sameness { number: right.err().unwrap_or(ACCEPTED), same: right == Ok(true) };
        alike("tag_check", right, |engine| compare::tag_check(engine, w, n, &key, &message, &tag));
    }
}

/// The calls on an order with one checkpoint: a piece up to behind the next one, and a Rewind to before it.
fn calls_on_a_record<W: Word>(r: &Record, random: &mut Random) {
    let piece = random.bytes(CHECKPOINT_BLOCKS * W::BLOCK_BYTES);
    alike("append", order::append(r, &piece), |engine| compare::append(engine, *r, &piece));
    let h = [&random.bytes(3 * W::BLOCK_BYTES), r.held_bytes()].concat();
    alike("rewind", order::rewind(r, 5, &h), |engine| compare::rewind(engine, *r, 5, &h));

    // The second slot is linked, and the first one is taken.
    let mut before = roll::new_roll(r.w, 2);
    roll::set_index(r.w, &mut before, 0, 2);
    let (outcome, due) = roll::append_roll(r, &piece, &before);
    let right = match outcome.number {
        ACCEPTED => (outcome, roll::inserted(r.w, &before, &[1], &due)),
        _ => (outcome, before.clone()),
    };
    alike_lent("append_roll", &before, right, |engine, roll| compare::append_roll(engine, *r, &piece, roll));
    let right = roll::rewind_roll(r, 5, &h, &before);
    alike_lent("rewind_roll", &before, right, |engine, roll| compare::rewind_roll(engine, *r, 5, &h, roll));

    let output = [UNTOUCHED; RECEIPT_BYTES];
    let right = written(receipts::close(r, 0x40, 2, output.len()), &output);
    alike_lent("close", &output, right, |engine, output| compare::close(engine, *r, 0x40, 2, output));
    let r = Record { n: r.n.next_multiple_of(8), ..*r };
    let right = written(tags::tag_finish(&r, &h, output.len()), &output);
    alike_lent("tag_finish", &output, right, |engine, output| compare::tag_finish(engine, r, &h, output));
}

/// A hand-back, and the ends after it.
fn calls_of_a_split_rewind<W: Word>(begun: &Record, random: &mut Random) {
    let block = random.bytes(W::BLOCK_BYTES);
    let right = split::hand_back(begun, &block);
    alike("hand_back", right, |engine| compare::hand_back(engine, *begun, &block));
    let r = right.next;
    alike("end", split::end(&r, 5), |engine| compare::end(engine, r, 5));
    let before = random.roll(r.w, 3, 1);
    let right = roll::end_roll(&r, 5, &before);
    alike_lent("end_roll", &before, right, |engine, roll| compare::end_roll(engine, r, 5, roll));
}

/// The line takes 1 and 2, with leading zeros too, and no other number. The record and the roll stay.
#[test]
fn lines() {
    compare_text(
        "\
engine 2
record => 0 0 0 [00*128] [00*256] 0 [00*128] [00*256] 0
roll 3
open 64 512 => 0
engine 1
append [0..600] => 0 2
engine 0002
showroll => 000000
rewind 10 [256..600] => 0 1
record
engine 0 => 11: not a call
engine 3 => 12: not a call
engine 4294967298 => 13: not a call
engine 18446744073709551615 => 14: not a call
engine 18446744073709551618 => 15: not a call
engine => 16: not a call
engine 1 2 => 17: not a call
append [266..600] => 0 1
close 00 0 76
whole 64 512 [0..600] 00 0 76
",
    );
}
