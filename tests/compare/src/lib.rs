//! The module's calls for C as safe Rust functions, the program replay, and random bytes to try them on.
//!
//! Each call is declared and wrapped here alone. Nothing checks the declarations against the module: they repeat those
//! of `include/lsh_kiosk.h`. No answer depends on the engine, so a test takes one at random for each call, or both in turn.

mod replay;

pub use model::engine::ENGINES;
pub use model::receipts::{receipt, DIGEST_PLACE, LENGTH_PLACE, RECEIPT_BYTES};
pub use model::record::{places, Outcome, Record};
pub use model::rolls as roll;
pub use model::script::hex;
pub use model::till::{bit_length, MOST_BITS, MOST_RECEIPTS};
pub use model::MOST_BYTES;
pub use replay::{compare_on_engines, compare_text, program, record_line, sample, sample_record, set_line, Script};

use std::mem::offset_of;

/// What a call answers.
pub const ACCEPTED: u32 = 0;
pub const BAD_WORD_SIZE: u32 = 1;
pub const BAD_LENGTH: u32 = 4;
pub const NO_RECEIPTS: u32 = 13;
pub const MALFORMED: u32 = 14;
pub const BAD_ROLL: u32 = 15;
pub const FULL_ROLL: u32 = 16;
pub const OUT_OF_TURN: u32 = 17;
pub const NO_WHOLE_BYTES: u32 = 18;

// The header asserts these too.
const _: () = assert!(offset_of!(Record, mark) == 408 && offset_of!(Record, second) == 416);
const _: () = assert!(offset_of!(Record, back) == 544 && offset_of!(Record, blocks) == 800);
const _: () = assert!(size_of::<Record>() == 808 && size_of::<Outcome>() == 824);

/// The answer to Same, and to the check of a tag.
#[repr(C)]
#[derive(Clone, Copy, PartialEq, Eq, Debug)]
pub struct Sameness {
    pub number: u32,
    pub same: bool,
}

/// The answer to Tally.
#[repr(C)]
#[derive(Clone, Copy, PartialEq, Eq, Debug)]
pub struct Counts {
    pub number: u32,
    pub place: u64,
    pub firsts: u64,
    pub reprints: u64,
    pub blanks: u64,
}

mod c {
    use super::{Counts, Outcome, Record, Sameness};

    extern "C" {
        pub fn lsh_block_forward(
            engine: u64,
            w: u64,
            chain: *mut u8,
            chain_len: usize,
            block: *const u8,
            block_len: usize,
        ) -> u32;
        pub fn lsh_block_backward(
            engine: u64,
            w: u64,
            chain: *mut u8,
            chain_len: usize,
            block: *const u8,
            block_len: usize,
        ) -> u32;
        pub fn lsh_open(engine: u64, w: u64, n: u64) -> Outcome;
        pub fn lsh_append(engine: u64, r: Record, piece: *const u8, piece_len: usize) -> Outcome;
        pub fn lsh_rewind(engine: u64, r: Record, keep: u64, h: *const u8, h_len: usize) -> Outcome;
        pub fn lsh_append_roll(
            engine: u64,
            r: Record,
            piece: *const u8,
            piece_len: usize,
            roll: *mut u8,
            roll_len: usize,
        ) -> Outcome;
        pub fn lsh_rewind_roll(
            engine: u64,
            r: Record,
            keep: u64,
            h: *const u8,
            h_len: usize,
            roll: *mut u8,
            roll_len: usize,
        ) -> Outcome;
        pub fn lsh_begin(r: Record, bytes: *const u8, bytes_len: usize) -> Outcome;
        pub fn lsh_hand_back(engine: u64, r: Record, block: *const u8, block_len: usize) -> Outcome;
        pub fn lsh_end(engine: u64, r: Record, keep: u64) -> Outcome;
        pub fn lsh_end_roll(engine: u64, r: Record, keep: u64, roll: *mut u8, roll_len: usize) -> Outcome;
        pub fn lsh_abandon(r: Record) -> Outcome;
        pub fn lsh_close(engine: u64, r: Record, last: u8, e: u64, output: *mut u8, output_len: usize) -> u32;
        pub fn lsh_whole(
            engine: u64,
            w: u64,
            n: u64,
            message: *const u8,
            message_len: usize,
            last: u8,
            e: u64,
            output: *mut u8,
            output_len: usize,
        ) -> u32;
        pub fn lsh_same(a: *const u8, a_len: usize, b: *const u8, b_len: usize) -> Sameness;
        pub fn lsh_tally(list: *const u8, list_len: usize) -> Counts;
        pub fn lsh_tag(
            engine: u64,
            w: u64,
            n: u64,
            key: *const u8,
            key_len: usize,
            message: *const u8,
            message_len: usize,
            output: *mut u8,
            output_len: usize,
        ) -> u32;
        pub fn lsh_tag_start(engine: u64, w: u64, n: u64, key: *const u8, key_len: usize) -> Outcome;
        pub fn lsh_tag_finish(
            engine: u64,
            r: Record,
            key: *const u8,
            key_len: usize,
            output: *mut u8,
            output_len: usize,
        ) -> u32;
        pub fn lsh_tag_check(
            engine: u64,
            w: u64,
            n: u64,
            key: *const u8,
            key_len: usize,
            message: *const u8,
            message_len: usize,
            tag: *const u8,
            tag_len: usize,
        ) -> Sameness;
    }
}

/// Runs one block forward on a chain.
pub fn block_forward(engine: u64, w: u64, chain: &mut [u8], block: &[u8]) -> u32 {
    // SAFETY: each pointer comes with the length of its slice, and the slices cannot overlap. The call asks nothing
    // more, and keeps no pointer.
    unsafe { c::lsh_block_forward(engine, w, chain.as_mut_ptr(), chain.len(), block.as_ptr(), block.len()) }
}

/// Runs one block backward on a chain.
pub fn block_backward(engine: u64, w: u64, chain: &mut [u8], block: &[u8]) -> u32 {
    // SAFETY: as in `block_forward`.
    unsafe { c::lsh_block_backward(engine, w, chain.as_mut_ptr(), chain.len(), block.as_ptr(), block.len()) }
}

/// Begins an order.
pub fn open(engine: u64, w: u64, n: u64) -> Outcome {
    // SAFETY: the call takes three numbers and asks nothing of them.
    unsafe { c::lsh_open(engine, w, n) }
}

/// Adds a piece to the end of an order.
pub fn append(engine: u64, r: Record, piece: &[u8]) -> Outcome {
    // SAFETY: as in `block_forward`; the record passes by value.
    unsafe { c::lsh_append(engine, r, piece.as_ptr(), piece.len()) }
}

/// Takes the bytes h off the end of an order, but for the first keep of them.
pub fn rewind(engine: u64, r: Record, keep: u64, h: &[u8]) -> Outcome {
    // SAFETY: as in `append`.
    unsafe { c::lsh_rewind(engine, r, keep, h.as_ptr(), h.len()) }
}

/// Adds a piece to the end of an order with a roll.
pub fn append_roll(engine: u64, r: Record, piece: &[u8], roll: &mut [u8]) -> Outcome {
    // SAFETY: as in `append`.
    unsafe { c::lsh_append_roll(engine, r, piece.as_ptr(), piece.len(), roll.as_mut_ptr(), roll.len()) }
}

/// Takes the bytes h off the end of an order with a roll, but for the first keep of them.
pub fn rewind_roll(engine: u64, r: Record, keep: u64, h: &[u8], roll: &mut [u8]) -> Outcome {
    // SAFETY: as in `append`.
    unsafe { c::lsh_rewind_roll(engine, r, keep, h.as_ptr(), h.len(), roll.as_mut_ptr(), roll.len()) }
}

/// Begins a split rewind with the held bytes.
pub fn begin(r: Record, bytes: &[u8]) -> Outcome {
    // SAFETY: as in `append`.
    unsafe { c::lsh_begin(r, bytes.as_ptr(), bytes.len()) }
}

/// Hands back one block in a split rewind.
pub fn hand_back(engine: u64, r: Record, block: &[u8]) -> Outcome {
    // SAFETY: as in `append`.
    unsafe { c::lsh_hand_back(engine, r, block.as_ptr(), block.len()) }
}

/// Ends a split rewind; the first keep of the bytes handed back remain.
pub fn end(engine: u64, r: Record, keep: u64) -> Outcome {
    // SAFETY: the record and the numbers pass by value.
    unsafe { c::lsh_end(engine, r, keep) }
}

/// Ends a split rewind of an order with a roll; the first keep of the bytes handed back remain.
pub fn end_roll(engine: u64, r: Record, keep: u64, roll: &mut [u8]) -> Outcome {
    // SAFETY: as in `append`.
    unsafe { c::lsh_end_roll(engine, r, keep, roll.as_mut_ptr(), roll.len()) }
}

/// Abandons a split rewind.
pub fn abandon(r: Record) -> Outcome {
    // SAFETY: the record passes by value.
    unsafe { c::lsh_abandon(r) }
}

/// Begins a split rewind with the held bytes at the end of h, and hands back its blocks from the last one on, each on some engine. All of it
/// has to be taken.
pub fn hand_back_all(r: Record, h: &[u8], random: &mut Random) -> Record {
    let blocks = h.chunks_exact(4 * r.w as usize);
    let taken = |outcome: Outcome| {
        assert_eq!((outcome.number, outcome.count), (ACCEPTED, 0));
        outcome.next
    };
    let begun = taken(begin(r, blocks.remainder()));
    blocks.rev().fold(begun, |r, block| taken(hand_back(random.engine(), r, block)))
}

/// Writes the receipt of an order: its bytes, and then the top e bits of `last`.
pub fn close(engine: u64, r: Record, last: u8, e: u64, output: &mut [u8]) -> u32 {
    // SAFETY: as in `append`.
    unsafe { c::lsh_close(engine, r, last, e, output.as_mut_ptr(), output.len()) }
}

/// Writes the receipt of a message: its bytes, and then the top e bits of `last`.
pub fn whole(engine: u64, w: u64, n: u64, message: &[u8], last: u8, e: u64, output: &mut [u8]) -> u32 {
    // SAFETY: as in `block_forward`.
    unsafe { c::lsh_whole(engine, w, n, message.as_ptr(), message.len(), last, e, output.as_mut_ptr(), output.len()) }
}

/// Tells whether two receipts are the same.
pub fn same(a: &[u8], b: &[u8]) -> Sameness {
    // SAFETY: as in `block_forward`.
    unsafe { c::lsh_same(a.as_ptr(), a.len(), b.as_ptr(), b.len()) }
}

/// Counts a list of receipts.
pub fn tally(list: &[u8]) -> Counts {
    // SAFETY: as in `block_forward`.
    unsafe { c::lsh_tally(list.as_ptr(), list.len()) }
}

/// Writes the tag of a message.
pub fn tag(engine: u64, w: u64, n: u64, key: &[u8], message: &[u8], output: &mut [u8]) -> u32 {
    let (key, key_len) = (key.as_ptr(), key.len());
    // SAFETY: as in `block_forward`.
    unsafe {
        c::lsh_tag(engine, w, n, key, key_len, message.as_ptr(), message.len(), output.as_mut_ptr(), output.len())
    }
}

/// Begins a tag over pieces: the record to append them to.
pub fn tag_start(engine: u64, w: u64, n: u64, key: &[u8]) -> Outcome {
    // SAFETY: as in `block_forward`.
    unsafe { c::lsh_tag_start(engine, w, n, key.as_ptr(), key.len()) }
}

/// Writes the tag of the pieces that were appended.
pub fn tag_finish(engine: u64, r: Record, key: &[u8], output: &mut [u8]) -> u32 {
    // SAFETY: as in `append`.
    unsafe { c::lsh_tag_finish(engine, r, key.as_ptr(), key.len(), output.as_mut_ptr(), output.len()) }
}

/// Tells whether a tag is that of a message.
pub fn tag_check(engine: u64, w: u64, n: u64, key: &[u8], message: &[u8], tag: &[u8]) -> Sameness {
    let (key, key_len) = (key.as_ptr(), key.len());
    // SAFETY: as in `block_forward`.
    unsafe { c::lsh_tag_check(engine, w, n, key, key_len, message.as_ptr(), message.len(), tag.as_ptr(), tag.len()) }
}

/// A test at each word size.
#[macro_export]
macro_rules! at_both_word_sizes {
    ($($test:ident)*) => {
        $(mod $test {
            #[test]
            fn w32() {
                super::$test::<u32>();
            }
            #[test]
            fn w64() {
                super::$test::<u64>();
            }
        })*
    };
}

/// The byte whose top e bits are the number `bits`; its other bits are 0.
pub fn last_byte(bits: u64, e: u64) -> u8 {
    (bits << (8 - e)) as u8
}

/// Random bytes (splitmix64), the same in every run, so that a failure can be repeated.
pub struct Random {
    state: u64,
}

impl Random {
    pub fn new(seed: u64) -> Random {
        Random { state: seed }
    }

    /// A number from 0 to below the limit.
    pub fn below(&mut self, limit: u64) -> u64 {
        self.next() % limit
    }

    pub fn one_of<T: Copy, const N: usize>(&mut self, choices: [T; N]) -> T {
        choices[self.below(N as u64) as usize]
    }

    pub fn engine(&mut self) -> u64 {
        self.one_of(ENGINES)
    }

    /// A last byte that goes with e: its low 8 - e bits are 0.
    pub fn last_byte(&mut self, e: u64) -> u8 {
        last_byte(self.below(1 << e), e)
    }

    /// The words of a chain.
    pub fn chain(&mut self, w: u64) -> [u64; 16] {
        [(); 16].map(|()| self.next() >> (64 - w))
    }

    /// A roll with so many links, in slots at random. All other bytes are random, as in slots that were taken before.
    pub fn roll(&mut self, w: u64, slots: usize, links: usize) -> Vec<u8> {
        let mut roll = self.bytes(roll::roll_bytes(w, slots));
        let mut left: Vec<usize> = (1..=slots).collect();
        let mut last = 0;
        for _ in 0..links {
            let slot = left.swap_remove(self.below(left.len() as u64) as usize);
            roll::set_index(w, &mut roll, last, slot);
            last = slot;
        }
        roll::set_index(w, &mut roll, last, 0);
        roll
    }

    /// A sound record with this total, of no order most likely, and with no split rewind begun.
    pub fn record(&mut self, w: u64, total: u64) -> Record {
        let held = self.bytes((total % (4 * w)) as usize);
        Record::none_begun(w, 1 + self.below(8 * w), total, self.chain(w), places(&held))
    }

    fn next(&mut self) -> u64 {
        self.state = self.state.wrapping_add(0x9e37_79b9_7f4a_7c15);
        let mut z = self.state;
        z = (z ^ (z >> 30)).wrapping_mul(0xbf58_476d_1ce4_e5b9);
        z = (z ^ (z >> 27)).wrapping_mul(0x94d0_49bb_1331_11eb);
        z ^ (z >> 31)
    }

    pub fn bytes(&mut self, count: usize) -> Vec<u8> {
        let mut bytes = Vec::with_capacity(count + 8);
        while bytes.len() < count {
            bytes.extend(self.next().to_le_bytes());
        }
        bytes.truncate(count);
        bytes
    }
}
