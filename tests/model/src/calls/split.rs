//! The steps of a split rewind (document 02, W6).

use crate::lsh;
use crate::record::{places, Outcome, Record};
use crate::script::{Line, Program, Words};
use crate::{needs, Answer};

pub fn begin(r: &Record, bytes: &[u8]) -> Outcome {
    let begun = || {
        r.in_turn(0)?;
        needs(bytes.len() == r.held_bytes().len(), 6)?;
        needs(bytes == r.held_bytes(), 8)?;
        Ok((0, r.begun()))
    };
    Outcome::of(r, begun())
}

pub fn hand_back(r: &Record, block: &[u8]) -> Outcome {
    let handed_back = || {
        r.in_turn(1)?;
        needs(block.len() as u64 == r.block() && r.blocks < r.whole_blocks(), 6)?;
        let second = lsh::backward(r.w, &r.second, block);
        Ok((0, Record { second, back: places(block), blocks: r.blocks + 1, ..*r }))
    };
    Outcome::of(r, handed_back())
}

pub fn end(r: &Record, keep: u64) -> Outcome {
    Outcome::of(r, r.in_turn(1).and_then(|()| ended(r, keep)))
}

/// The end on a sound record with a split rewind begun.
pub fn ended(r: &Record, keep: u64) -> Answer<(u64, Record)> {
    let handed_back = r.blocks * r.block() + r.held_bytes().len() as u64;
    needs(keep <= handed_back && keep < r.block(), 7)?;
    needs(handed_back < r.total || r.second == lsh::opening_chain(r.w, r.n), 9)?;
    let last = if r.blocks == 0 { &r.held } else { &r.back };
    Ok((r.blocks, Record::after(r.w, r.n, r.total - handed_back, r.second, &last[..keep as usize])))
}

pub fn abandon(r: &Record) -> Outcome {
    let before = Record::none_begun(r.w, r.n, r.total, r.chain, r.held);
    Outcome::of(r, r.in_turn(1).map(|()| (0, before)))
}

fn begin_line(program: &mut Program, words: &mut Words) -> Option<String> {
    let outcome = begin(&program.record, &words.bytes()?);
    Some(program.keep(outcome))
}

fn hand_back_line(program: &mut Program, words: &mut Words) -> Option<String> {
    let outcome = hand_back(&program.record, &words.bytes()?);
    Some(program.keep(outcome))
}

fn end_line(program: &mut Program, words: &mut Words) -> Option<String> {
    let outcome = end(&program.record, words.number()?);
    Some(program.keep(outcome))
}

fn abandon_line(program: &mut Program, _: &mut Words) -> Option<String> {
    let outcome = abandon(&program.record);
    Some(program.keep(outcome))
}

pub const LINES: &[Line] =
    &[("begin", begin_line), ("handback", hand_back_line), ("end", end_line), ("abandon", abandon_line)];
