//! Tags of messages, with the longest digest of the word size and a key as long as the tag.

use crate::messages::{check_lengths, length_timings};
use crate::peers::{digest_bits, key, tag_peers, CRYPTOPP};
use crate::table::Column::{self, OfPeer, OfWords, Rate};
use crate::timing::Timing;
use lsh_ref::Word;

const TAG_1_MIB: &str = "tag of 1 MiB";
const TAG_64_BYTES: &str = "tag of 64 bytes";

const LENGTHS: [(&str, usize); 2] = [(TAG_1_MIB, 1 << 20), (TAG_64_BYTES, 1 << 6)];

pub const COLUMNS: [Column; 6] = [
    Rate(TAG_1_MIB),
    OfWords(TAG_1_MIB),
    OfPeer(TAG_1_MIB, CRYPTOPP),
    Rate(TAG_64_BYTES),
    OfWords(TAG_64_BYTES),
    OfPeer(TAG_64_BYTES, CRYPTOPP),
];

/// Every peer gives the tag of RFC 2104 over lsh_ref for each length.
pub fn check_peers<W: Word>(input: &[u8]) {
    check_lengths::<W>(input, &LENGTHS, tag_peers::<W>(), right_tag::<W>);
}

fn right_tag<W: Word>(message: &[u8]) -> Vec<u8> {
    hash_after_key::<W>(0x5c, &hash_after_key::<W>(0x36, message))
}

/// The digest of the key's block, each byte of it exclusive or the pad, and bytes after it.
fn hash_after_key<W: Word>(pad: u8, bytes: &[u8]) -> Vec<u8> {
    let mut joined = vec![pad; W::BLOCK_BYTES];
    joined.iter_mut().zip(key::<W>()).for_each(|(byte, key)| *byte ^= key);
    joined.extend(bytes);
    lsh_ref::hash_stream::<W>(digest_bits::<W>(), &joined)
}

pub fn timings<W: Word>(input: &[u8]) -> Vec<Timing<'_>> {
    length_timings::<W>(input, &LENGTHS, tag_peers::<W>())
}
