//! The record of an order, when it is sound, and what a call on it gives.

use crate::lsh::{self, block_bytes, is_digest_length, is_word_size, Chain};
use crate::{needs, Answer, MOST_BYTES};

/// The record of an order, and how far a split rewind of it is. It is laid out as include/lsh_kiosk.h has it.
#[repr(C)]
#[derive(Clone, Copy, PartialEq, Eq, Debug)]
pub struct Record {
    pub w: u64,
    pub n: u64,
    pub total: u64,
    pub chain: Chain,
    pub held: [u8; 256],
    pub mark: u64,
    pub second: Chain,
    pub back: [u8; 256],
    pub blocks: u64,
}

/// The answer to a call on an order. It is laid out as include/lsh_kiosk.h has it.
#[repr(C)]
#[derive(Clone, Copy, PartialEq, Eq, Debug)]
pub struct Outcome {
    pub number: u32,
    pub count: u64,
    pub next: Record,
}

/// These bytes at the front of 256 places, the others zero.
pub fn places(bytes: &[u8]) -> [u8; 256] {
    let mut places = [0; 256];
    places[..bytes.len()].copy_from_slice(bytes);
    places
}

impl Record {
    pub const ZEROS: Record = Record::none_begun(0, 0, 0, [0; 16], [0; 256]);

    /// A record with no split rewind begun.
    pub const fn none_begun(w: u64, n: u64, total: u64, chain: Chain, held: [u8; 256]) -> Record {
        Record { w, n, total, chain, held, mark: 0, second: [0; 16], back: [0; 256], blocks: 0 }
    }

    /// The record of the order's bytes.
    pub fn of(w: u64, n: u64, bytes: &[u8]) -> Record {
        Record::after(w, n, 0, lsh::opening_chain(w, n), bytes)
    }

    /// The record of an order of `done` bytes, whole blocks, which lead to a chain, and of these bytes after them.
    pub fn after(w: u64, n: u64, done: u64, chain: Chain, bytes: &[u8]) -> Record {
        let blocks = bytes.chunks_exact(block_bytes(w));
        let held = places(blocks.remainder());
        let chain = blocks.fold(chain, |chain, block| lsh::forward(w, &chain, block));
        Record::none_begun(w, n, done + bytes.len() as u64, chain, held)
    }

    /// The record with a split rewind begun and no block handed back.
    pub fn begun(&self) -> Record {
        Record { mark: 1, second: self.chain, ..*self }
    }

    pub fn block(&self) -> u64 {
        block_bytes(self.w) as u64
    }

    pub fn whole_blocks(&self) -> u64 {
        self.total / self.block()
    }

    /// The bytes since the last whole block.
    pub fn held_bytes(&self) -> &[u8] {
        &self.held[..(self.total % self.block()) as usize]
    }

    pub fn is_sound(&self) -> bool {
        let are_words = |chain: &Chain| self.w == 64 || chain.iter().all(|&word| word < 1 << 32);
        let zeros_from = |bytes: &[u8], place: usize| bytes[place..].iter().all(|&byte| byte == 0);
        is_word_size(self.w)
            && is_digest_length(self.w, self.n)
            && self.total <= MOST_BYTES
            && are_words(&self.chain)
            && zeros_from(&self.held, self.held_bytes().len())
            && match (self.mark, self.blocks) {
                (0, 0) => self.second == [0; 16] && self.back == [0; 256],
                (1, 0) => self.second == self.chain && self.back == [0; 256],
                (1, blocks) => {
                    blocks <= self.whole_blocks()
                        && are_words(&self.second)
                        && zeros_from(&self.back, block_bytes(self.w))
                }
                _ => false,
            }
    }

    /// 3, and then 17 if the record has another mark.
    pub fn in_turn(&self, mark: u64) -> Answer<()> {
        needs(self.is_sound(), 3)?;
        needs(self.mark == mark, 17)
    }
}

impl Outcome {
    pub fn refused(number: u32, r: &Record) -> Outcome {
        Outcome { number, count: 0, next: *r }
    }

    /// The outcome of a call on a record that gives a count and the next record, or refuses.
    pub fn of(r: &Record, answer: Answer<(u64, Record)>) -> Outcome {
        match answer {
            Ok((count, next)) => Outcome { number: 0, count, next },
            Err(number) => Outcome::refused(number, r),
        }
    }
}
