//! The receipts of lsh_whole against the digests of lsh_ref, and the lengths on them.

mod receipts;

use compare::{at_both_word_sizes, bit_length, last_byte, whole, Random, ACCEPTED, RECEIPT_BYTES};
use lsh_ref::Word;
use receipts::{assert_receipt, Arguments};

const MIB: usize = 1 << 20;

at_both_word_sizes! { digest_lengths_and_extra_bits last_bytes message_lengths long_messages lengths_read_back }

/// Compares on a random message of the given length, followed by the top e bits of `last`.
fn compare_message<W: Word>(n: u64, message_len: usize, last: u8, e: u64, random: &mut Random) {
    let message = random.bytes(message_len);
    let digest = lsh_ref::hash_bits::<W>(n, &message, last, e as u32);
    assert_receipt(&Arguments { w: W::BITS as u64, n, message: &message, last, e }, &digest, random);
}

fn longest_digest<W: Word>() -> u64 {
    8 * W::BITS as u64
}

fn random_digest_length<W: Word>(random: &mut Random) -> u64 {
    1 + random.below(longest_digest::<W>())
}

/// Message lengths next to the ends of blocks, where the padding takes one block more.
fn edge_lengths<W: Word>() -> Vec<usize> {
    let block = W::BLOCK_BYTES;
    (0..=1).chain(block - 2..=block + 2).chain(2 * block - 1..=2 * block + 1).collect()
}

fn digest_lengths_and_extra_bits<W: Word>() {
    let mut random = Random::new(W::BITS as u64);
    for n in 1..=longest_digest::<W>() {
        for e in 0..=7 {
            for message_len in edge_lengths::<W>() {
                let last = random.last_byte(e);
                compare_message::<W>(n, message_len, last, e, &mut random);
            }
        }
    }
}

/// Every last byte that goes with each e.
fn last_bytes<W: Word>() {
    let mut random = Random::new(W::BITS as u64);
    for e in 0..=7 {
        for bits in 0..1 << e {
            for message_len in edge_lengths::<W>() {
                let n = random_digest_length::<W>(&mut random);
                compare_message::<W>(n, message_len, last_byte(bits, e), e, &mut random);
            }
        }
    }
}

fn compare_random_bits<W: Word>(message_len: usize, random: &mut Random) {
    let n = random_digest_length::<W>(random);
    let e = random.below(8);
    let last = random.last_byte(e);
    compare_message::<W>(n, message_len, last, e, random);
}

/// Every length up to eight blocks.
fn message_lengths<W: Word>() {
    let mut random = Random::new(W::BITS as u64);
    for message_len in 0..=8 * W::BLOCK_BYTES {
        compare_random_bits::<W>(message_len, &mut random);
    }
}

fn long_messages<W: Word>() {
    let mut random = Random::new(W::BITS as u64);
    for message_len in [MIB - 1, MIB, MIB + 3, 16 * MIB + 100] {
        compare_message::<W>(longest_digest::<W>(), message_len, 0, 0, &mut random);
        compare_random_bits::<W>(message_len, &mut random);
    }
}

/// The length is read back from the receipts of random messages, of one byte of length and of more.
fn lengths_read_back<W: Word>() {
    let mut random = Random::new(W::BITS as u64);
    for e in 0..=7 {
        for most in [16, 256, 4096, 1 << 16] {
            for _ in 0..25 {
                let message_len = random.below(most);
                let message = random.bytes(message_len as usize);
                let n = random_digest_length::<W>(&mut random);
                let mut output = [0xa5; RECEIPT_BYTES];
                let (engine, last) = (random.engine(), random.last_byte(e));
                assert_eq!(whole(engine, W::BITS as u64, n, &message, last, e, &mut output), ACCEPTED);
                assert_eq!(bit_length(&output), 8 * message_len + e);
            }
        }
    }
}
