//! The implementations that are timed against each other.

use compare::roll::{roll_bytes, MOST_SLOTS};
use compare::{
    append, append_roll, begin, block_backward, block_forward, end, hand_back, open, rewind, tag, tally, whole,
    Outcome, Record, ACCEPTED, DIGEST_PLACE, ENGINES, RECEIPT_BYTES,
};
use lsh_ref::Word;

pub const WORDS: &str = "this module, words";
pub const GROUPS: &str = "this module, groups";
const WORDS_BY_BLOCK: &str = "this module, words, a call for each block";
const GROUPS_BY_BLOCK: &str = "this module, groups, a call for each block";
pub const REFERENCE: &str = "lsh_ref";
pub const CRYPTOPP: &str = "Crypto++";

const BY_WORDS: u64 = ENGINES[0];
const IN_GROUPS: u64 = ENGINES[1];

/// The module on each of its engines, with the number of the engine.
pub const MODULE: [(&str, u64); 2] = [(WORDS, BY_WORDS), (GROUPS, IN_GROUPS)];

/// The same calls of the module on the words.
pub fn on_words(peer: &'static str) -> Option<&'static str> {
    match peer {
        WORDS | GROUPS => Some(WORDS),
        WORDS_BY_BLOCK | GROUPS_BY_BLOCK => Some(WORDS_BY_BLOCK),
        _ => None,
    }
}

/// Runs all blocks of the input on a chain: forward in order, or backward from the last.
pub type Run = fn(chain: &mut [u8], input: &[u8]);

pub struct BlockPeer {
    pub name: &'static str,
    pub forward: Run,
    pub backward: Run,
}

pub fn block_peers<W: Word>() -> [BlockPeer; 5] {
    [
        at_one_go::<W, BY_WORDS>(WORDS),
        at_one_go::<W, IN_GROUPS>(GROUPS),
        block_by_block::<W, BY_WORDS>(WORDS_BY_BLOCK),
        block_by_block::<W, IN_GROUPS>(GROUPS_BY_BLOCK),
        BlockPeer { name: REFERENCE, forward: reference_forward::<W>, backward: reference_backward::<W> },
    ]
}

fn at_one_go<W: Word, const ENGINE: u64>(name: &'static str) -> BlockPeer {
    BlockPeer { name, forward: module_forward::<W, ENGINE>, backward: module_backward::<W, ENGINE> }
}

fn block_by_block<W: Word, const ENGINE: u64>(name: &'static str) -> BlockPeer {
    BlockPeer { name, forward: calls_forward::<W, ENGINE>, backward: calls_backward::<W, ENGINE> }
}

/// One Append of the input to a record with this chain.
fn module_forward<W: Word, const ENGINE: u64>(chain: &mut [u8], input: &[u8]) {
    module_run::<W>(chain, 0, |record| append(ENGINE, record, input));
}

/// One Rewind of the input. One more block lies before it, so that any chain reached is taken.
fn module_backward<W: Word, const ENGINE: u64>(chain: &mut [u8], input: &[u8]) {
    module_run::<W>(chain, W::BLOCK_BYTES + input.len(), |record| rewind(ENGINE, record, 0, input));
}

fn module_run<W: Word>(chain: &mut [u8], total: usize, call: impl Fn(Record) -> Outcome) {
    let outcome = call(record::<W>(total, lsh_ref::load_chain::<W>(chain).map(Word::to_u64)));
    assert_eq!(outcome.number, ACCEPTED);
    lsh_ref::store_chain(&outcome.next.chain.map(W::from_u64), chain);
}

fn calls_forward<W: Word, const ENGINE: u64>(chain: &mut [u8], input: &[u8]) {
    for block in input.chunks_exact(W::BLOCK_BYTES) {
        assert_eq!(block_forward(ENGINE, W::BITS as u64, chain, block), ACCEPTED);
    }
}

fn calls_backward<W: Word, const ENGINE: u64>(chain: &mut [u8], input: &[u8]) {
    for block in input.chunks_exact(W::BLOCK_BYTES).rev() {
        assert_eq!(block_backward(ENGINE, W::BITS as u64, chain, block), ACCEPTED);
    }
}

// As in the module's own run of blocks, the chain is kept in words from the first block to the last.

pub fn reference_forward<W: Word>(chain: &mut [u8], input: &[u8]) {
    let mut words = lsh_ref::load_chain::<W>(chain);
    for block in input.chunks_exact(W::BLOCK_BYTES) {
        words = lsh_ref::forward(&words, block);
    }
    lsh_ref::store_chain(&words, chain);
}

pub fn reference_backward<W: Word>(chain: &mut [u8], input: &[u8]) {
    let mut words = lsh_ref::load_chain::<W>(chain);
    for block in input.chunks_exact(W::BLOCK_BYTES).rev() {
        words = lsh_ref::backward(&words, block);
    }
    lsh_ref::store_chain(&words, chain);
}

/// Bytes of a roll with the most slots.
pub fn largest_roll<W: Word>() -> usize {
    roll_bytes(W::BITS as u64, MOST_SLOTS)
}

/// Word 0 of the chain of a new record after an Append of the input, with a new roll.
pub fn module_append_roll<W: Word>(engine: u64, input: &[u8], roll: &mut [u8]) -> u64 {
    let opened = open(engine, W::BITS as u64, digest_bits::<W>()).next;
    append_roll(engine, opened, input, roll).next.chain[0]
}

/// Word 0 of the chain of a new record after an Append of the input in pieces of 64 bytes.
pub fn module_append_pieces<W: Word>(engine: u64, input: &[u8]) -> u64 {
    let mut outcome = open(engine, W::BITS as u64, digest_bits::<W>());
    for piece in input.chunks_exact(64) {
        outcome = append(engine, outcome.next, piece);
    }
    outcome.next.chain[0]
}

/// Word 0 of the chain of a record after a Rewind of the input by a hand-back for each block, as a driver makes them. It
/// begins with a chain of zeros and one block before the input.
pub fn module_rewind_steps<W: Word>(engine: u64, input: &[u8]) -> u64 {
    let mut outcome = begin(record::<W>(W::BLOCK_BYTES + input.len(), [0; 16]), &[]);
    for block in input.chunks_exact(W::BLOCK_BYTES).rev() {
        outcome = hand_back(engine, outcome.next, block);
    }
    end(engine, outcome.next, 0).next.chain[0]
}

/// A record of whole blocks.
fn record<W: Word>(total: usize, chain: [u64; 16]) -> Record {
    Record::none_begun(W::BITS as u64, digest_bits::<W>(), total as u64, chain, [0; 256])
}

/// How many of the receipts are firsts, and how many blanks.
pub fn module_tally(receipts: &[u8]) -> (u64, u64) {
    let counts = tally(receipts);
    (counts.firsts, counts.blanks)
}

/// Writes the digest of a whole message where a receipt has it, or its tag there. A buffer is lent because the module and
/// Crypto++ need no other, and making one would count at short messages.
pub type Hash = fn(message: &[u8], receipt: &mut [u8; RECEIPT_BYTES]);

pub struct HashPeer {
    pub name: &'static str,
    pub hash: Hash,
}

pub fn hash_peers<W: Word>() -> Vec<HashPeer> {
    let mut peers = vec![
        HashPeer { name: WORDS, hash: module_hash::<W, BY_WORDS> },
        HashPeer { name: GROUPS, hash: module_hash::<W, IN_GROUPS> },
        HashPeer { name: REFERENCE, hash: reference_hash::<W> },
    ];
    peers.extend(cryptopp::<W>().map(|hash| HashPeer { name: CRYPTOPP, hash }));
    peers
}

/// lsh_ref has no tags.
pub fn tag_peers<W: Word>() -> Vec<HashPeer> {
    let mut peers = vec![
        HashPeer { name: WORDS, hash: module_tag::<W, BY_WORDS> },
        HashPeer { name: GROUPS, hash: module_tag::<W, IN_GROUPS> },
    ];
    peers.extend(cryptopp_tag::<W>().map(|hash| HashPeer { name: CRYPTOPP, hash }));
    peers
}

/// The longest digest of the word size.
pub fn digest_bits<W: Word>() -> u64 {
    8 * W::BITS as u64
}

/// The bytes of a receipt that have the longest digest, as many as w.
pub fn digest_part<W: Word>(receipt: &mut [u8; RECEIPT_BYTES]) -> &mut [u8] {
    &mut receipt[DIGEST_PLACE..][..W::BITS]
}

fn module_hash<W: Word, const ENGINE: u64>(message: &[u8], receipt: &mut [u8; RECEIPT_BYTES]) {
    assert_eq!(whole(ENGINE, W::BITS as u64, digest_bits::<W>(), message, 0, 0, receipt), ACCEPTED);
}

fn reference_hash<W: Word>(message: &[u8], receipt: &mut [u8; RECEIPT_BYTES]) {
    digest_part::<W>(receipt).copy_from_slice(&lsh_ref::hash_stream::<W>(digest_bits::<W>(), message));
}

/// The key of the tags, as long as they are.
pub fn key<W: Word>() -> &'static [u8] {
    &[0xa7; 64][..W::BITS]
}

fn module_tag<W: Word, const ENGINE: u64>(message: &[u8], receipt: &mut [u8; RECEIPT_BYTES]) {
    let room = digest_part::<W>(receipt);
    assert_eq!(tag(ENGINE, W::BITS as u64, digest_bits::<W>(), key::<W>(), message, room), ACCEPTED);
}

#[cfg(not(feature = "cryptopp"))]
pub fn cryptopp<W: Word>() -> Option<Hash> {
    None
}

#[cfg(not(feature = "cryptopp"))]
fn cryptopp_tag<W: Word>() -> Option<Hash> {
    None
}

#[cfg(feature = "cryptopp")]
pub fn cryptopp<W: Word>() -> Option<Hash> {
    extern "C" {
        fn cryptopp_lsh256(message: *const u8, length: usize, digest: *mut u8);
        fn cryptopp_lsh512(message: *const u8, length: usize, digest: *mut u8);
    }
    Some(|message, receipt| {
        let hash = if W::BITS == 32 { cryptopp_lsh256 } else { cryptopp_lsh512 };
        // SAFETY: the message comes with its length, and the digest has the 32 or 64 bytes that are written.
        unsafe { hash(message.as_ptr(), message.len(), digest_part::<W>(receipt).as_mut_ptr()) };
    })
}

#[cfg(feature = "cryptopp")]
fn cryptopp_tag<W: Word>() -> Option<Hash> {
    type Tag = unsafe extern "C" fn(key: *const u8, key_len: usize, message: *const u8, length: usize, tag: *mut u8);
    extern "C" {
        fn cryptopp_hmac256(key: *const u8, key_len: usize, message: *const u8, length: usize, tag: *mut u8);
        fn cryptopp_hmac512(key: *const u8, key_len: usize, message: *const u8, length: usize, tag: *mut u8);
    }
    Some(|message, receipt| {
        let tag: Tag = if W::BITS == 32 { cryptopp_hmac256 } else { cryptopp_hmac512 };
        let (key, room) = (key::<W>(), digest_part::<W>(receipt));
        // SAFETY: the key and the message come with their lengths, and there is room for the 32 or 64 bytes of the tag.
        unsafe { tag(key.as_ptr(), key.len(), message.as_ptr(), message.len(), room.as_mut_ptr()) };
    })
}
