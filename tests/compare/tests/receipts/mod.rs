//! Calls of lsh_whole, with the output between guard bytes.

use compare::{receipt, whole, Random, ACCEPTED, ENGINES, RECEIPT_BYTES};

const GUARD: usize = 64;

/// What a call is given, except for the engine and the output.
pub struct Arguments<'a> {
    pub w: u64,
    pub n: u64,
    pub message: &'a [u8],
    pub last: u8,
    pub e: u64,
}

/// Asserts that the call accepts on each engine and writes the receipt with this digest and the message's length, and no
/// byte before or after it. The output lent has the length of a receipt or up to GUARD bytes more.
pub fn assert_receipt(given: &Arguments, digest: &[u8], random: &mut Random) {
    for engine in ENGINES {
        assert_receipt_on(engine, given, digest, random);
    }
}

fn assert_receipt_on(engine: u64, given: &Arguments, digest: &[u8], random: &mut Random) {
    let mut memory = random.bytes(GUARD + RECEIPT_BYTES + GUARD);
    let mut expected = memory.clone();
    let bits = 8 * given.message.len() as u64 + given.e;
    expected[GUARD..GUARD + RECEIPT_BYTES].copy_from_slice(&receipt(given.w, given.n, digest, bits));

    let lent = RECEIPT_BYTES + random.below(GUARD as u64 + 1) as usize;
    let output = &mut memory[GUARD..GUARD + lent];
    let answer = whole(engine, given.w, given.n, given.message, given.last, given.e, output);
    assert!(
        answer == ACCEPTED && memory == expected,
        "engine {engine}, w = {}, n = {}, message of {} bytes, last = {:#04x}, e = {}, output of {lent} bytes: answer {answer}\n\
         {GUARD} bytes, output and bytes after it {memory:02x?}\nexpected {expected:02x?}",
        given.w,
        given.n,
        given.message.len(),
        given.last,
        given.e
    );
}
