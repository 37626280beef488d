//! Whole messages of several lengths, hashed with the longest digest of the word size.

use crate::peers::{digest_bits, digest_part, hash_peers, Hash, HashPeer, CRYPTOPP, REFERENCE};
use crate::table::Column::{self, OfPeer, OfWords, Rate};
use crate::timing::{Task, Timing};
use compare::RECEIPT_BYTES;
use lsh_ref::Word;
use std::hint::black_box;

pub const WHOLE_1_MIB: &str = "1 MiB";
pub const WHOLE_4_KIB: &str = "4 KiB";
pub const WHOLE_64_BYTES: &str = "64 bytes";

const LENGTHS: [(&str, usize); 3] = [(WHOLE_1_MIB, 1 << 20), (WHOLE_4_KIB, 1 << 12), (WHOLE_64_BYTES, 1 << 6)];

/// A timing covers at least so much input, cut into messages, so that the clock's resolution does not matter.
const LEAST_INPUT_BYTES: usize = 1 << 16;

pub const COLUMNS: [Column; 12] = [
    Rate(WHOLE_1_MIB),
    OfWords(WHOLE_1_MIB),
    OfPeer(WHOLE_1_MIB, REFERENCE),
    OfPeer(WHOLE_1_MIB, CRYPTOPP),
    Rate(WHOLE_4_KIB),
    OfWords(WHOLE_4_KIB),
    OfPeer(WHOLE_4_KIB, REFERENCE),
    OfPeer(WHOLE_4_KIB, CRYPTOPP),
    Rate(WHOLE_64_BYTES),
    OfWords(WHOLE_64_BYTES),
    OfPeer(WHOLE_64_BYTES, REFERENCE),
    OfPeer(WHOLE_64_BYTES, CRYPTOPP),
];

/// Every peer gives the digest of lsh_ref for each length.
pub fn check_peers<W: Word>(input: &[u8]) {
    let right = |message: &[u8]| lsh_ref::hash_stream::<W>(digest_bits::<W>(), message);
    check_lengths::<W>(input, &LENGTHS, hash_peers::<W>(), right);
}

pub fn timings<W: Word>(input: &[u8]) -> Vec<Timing<'_>> {
    length_timings::<W>(input, &LENGTHS, hash_peers::<W>())
}

/// The names of kinds of work, and the length of the messages of each.
type Lengths = [(&'static str, usize)];

/// Every peer gives what is right for a message of each length.
pub fn check_lengths<W: Word>(input: &[u8], lengths: &Lengths, peers: Vec<HashPeer>, right: impl Fn(&[u8]) -> Vec<u8>) {
    for &(work, length) in lengths {
        let message = &input[..length];
        let right = right(message);
        for HashPeer { name, hash } in &peers {
            let mut receipt = [0; RECEIPT_BYTES];
            hash(message, &mut receipt);
            assert_eq!(digest_part::<W>(&mut receipt), right, "{name}, {work}, w = {}", W::BITS);
        }
    }
}

pub fn length_timings<'a, W: Word>(input: &'a [u8], lengths: &Lengths, peers: Vec<HashPeer>) -> Vec<Timing<'a>> {
    let mut timings = Vec::new();
    for &(work, length) in lengths {
        let input = &input[..length.max(LEAST_INPUT_BYTES)];
        for &HashPeer { name: peer, hash } in &peers {
            timings.push(hash_timing::<W>(Task { peer, work }, input, length, hash));
        }
    }
    timings
}

/// The input is cut into messages of a length, and each is hashed by itself.
pub fn hash_timing<W: Word>(task: Task, input: &[u8], length: usize, hash: Hash) -> Timing<'_> {
    let mut receipt = [0; RECEIPT_BYTES];
    Timing::new::<W>(task, input, move |input| {
        for message in input.chunks_exact(length) {
            hash(black_box(message), black_box(&mut receipt));
        }
    })
}
