//! Open, Append and Rewind (document 01).

use crate::lsh::{self, is_digest_length, is_word_size};
use crate::record::{Outcome, Record};
use crate::script::{fields, Line, Program, Words};
use crate::{needs, Answer, MOST_BYTES};

/// The number of the first of 1 and 2 that refuses.
pub fn known(w: u64, n: u64) -> Answer<()> {
    needs(is_word_size(w), 1)?;
    needs(is_digest_length(w, n), 2)
}

pub fn open(w: u64, n: u64) -> Outcome {
    Outcome::of(&Record::ZEROS, known(w, n).map(|()| (0, Record::of(w, n, &[]))))
}

pub fn append(r: &Record, piece: &[u8]) -> Outcome {
    Outcome::of(r, r.in_turn(0).and_then(|()| appended(r, piece)))
}

/// An Append to a sound record with no split rewind begun.
pub fn appended(r: &Record, piece: &[u8]) -> Answer<(u64, Record)> {
    needs(piece.len() as u64 <= MOST_BYTES - r.total, 5)?;
    let bytes = [r.held_bytes(), piece].concat();
    let next = Record::after(r.w, r.n, r.whole_blocks() * r.block(), r.chain, &bytes);
    Ok((next.whole_blocks() - r.whole_blocks(), next))
}

pub fn rewind(r: &Record, keep: u64, h: &[u8]) -> Outcome {
    Outcome::of(r, r.in_turn(0).and_then(|()| rewound(r, keep, h)))
}

/// A Rewind of a sound record with no split rewind begun.
pub fn rewound(r: &Record, keep: u64, h: &[u8]) -> Answer<(u64, Record)> {
    let size = h.len() as u64;
    needs(size <= r.total && (r.total - size).is_multiple_of(r.block()), 6)?;
    needs(keep <= size && keep < r.block(), 7)?;
    let blocks = h.chunks_exact(r.block() as usize);
    needs(blocks.remainder() == r.held_bytes(), 8)?;
    let count = blocks.len() as u64;
    let reached = blocks.rev().fold(r.chain, |chain, block| lsh::backward(r.w, &chain, block));
    needs(size < r.total || reached == lsh::opening_chain(r.w, r.n), 9)?;
    Ok((count, Record::after(r.w, r.n, r.total - size, reached, &h[..keep as usize])))
}

fn open_line(program: &mut Program, words: &mut Words) -> Option<String> {
    let outcome = open(words.number()?, words.number()?);
    program.record = outcome.next;
    Some(outcome.number.to_string())
}

fn append_line(program: &mut Program, words: &mut Words) -> Option<String> {
    let outcome = append(&program.record, &words.bytes()?);
    Some(program.keep(outcome))
}

fn rewind_line(program: &mut Program, words: &mut Words) -> Option<String> {
    let outcome = rewind(&program.record, words.number()?, &words.bytes()?);
    Some(program.keep(outcome))
}

fn record_line(program: &mut Program, _: &mut Words) -> Option<String> {
    Some(fields(&program.record))
}

fn set_line(program: &mut Program, words: &mut Words) -> Option<String> {
    program.record = Record {
        w: words.number()?,
        n: words.number()?,
        total: words.number()?,
        chain: words.chain()?,
        held: words.array()?,
        mark: words.number()?,
        second: words.chain()?,
        back: words.array()?,
        blocks: words.number()?,
    };
    Some(String::new())
}

pub const LINES: &[Line] = &[
    ("open", open_line),
    ("append", append_line),
    ("rewind", rewind_line),
    ("record", record_line),
    ("set", set_line),
];
