//! The roll of checkpoints, and Append, Rewind and the end of a split rewind with it (document 02, W1 and W6).

use crate::lsh::{bytes_of, chain_bytes};
use crate::order::{appended, rewound};
use crate::record::{Outcome, Record};
use crate::script::{hex, Line, Program, Words};
use crate::split::ended;
use crate::{needs, Answer};
use std::collections::HashSet;

/// A checkpoint is inserted at every block whose number is a multiple of this.
pub const CHECKPOINT_BLOCKS: usize = 64;

/// The most slots of a roll.
pub const MOST_SLOTS: usize = 255;

/// The most bytes of the roll that the program keeps.
const MOST_ROLL: u64 = 65536;

/// Bytes of an index.
const INDEX_BYTES: usize = 2;

/// The bytes of chains, as a roll has them.
pub type Chains = Vec<Vec<u8>>;

/// The slot that stands for the head, which has an index and no chain.
const HEAD: usize = 0;

// ---- what stands where ----

/// Bytes of a slot.
fn slot_bytes(w: u64) -> usize {
    INDEX_BYTES + chain_bytes(w)
}

/// Bytes of a roll.
pub fn roll_bytes(w: u64, slots: usize) -> usize {
    INDEX_BYTES + slots * slot_bytes(w)
}

pub fn new_roll(w: u64, slots: usize) -> Vec<u8> {
    vec![0; roll_bytes(w, slots)]
}

/// How many slots a roll of this length has, if a roll can have it.
pub fn slot_count(w: u64, length: usize) -> Option<usize> {
    (1..=MOST_SLOTS).find(|&slots| roll_bytes(w, slots) == length)
}

fn index_place(w: u64, slot: usize) -> usize {
    if slot == HEAD {
        0
    } else {
        roll_bytes(w, slot - 1)
    }
}

/// The slot that follows a slot or the head, 0 for none.
pub fn index(w: u64, roll: &[u8], slot: usize) -> usize {
    let place = index_place(w, slot);
    usize::from(roll[place]) + 256 * usize::from(roll[place + 1])
}

pub fn set_index(w: u64, roll: &mut [u8], slot: usize, next: usize) {
    let place = index_place(w, slot);
    roll[place] = (next % 256) as u8;
    roll[place + 1] = (next / 256) as u8;
}

/// The bytes of a slot's chain.
pub fn chain(w: u64, roll: &[u8], slot: usize) -> &[u8] {
    &roll[index_place(w, slot) + INDEX_BYTES..][..chain_bytes(w)]
}

/// The slots met on the way from the head; nothing if the length is that of no roll, or an index beyond the slots or a slot twice is met.
pub fn links(w: u64, roll: &[u8]) -> Option<Vec<usize>> {
    let slots = slot_count(w, roll.len())?;
    let mut met = HashSet::new();
    let mut links = Vec::new();
    let mut slot = index(w, roll, HEAD);
    while slot != 0 {
        if slot > slots || !met.insert(slot) {
            return None;
        }
        links.push(slot);
        slot = index(w, roll, slot);
    }
    Some(links)
}

/// Whether the buffer is a roll of a record with this total: as many slots are linked as there are checkpoints.
pub fn is_roll_of(w: u64, total: u64, roll: &[u8]) -> bool {
    let checkpoints = total / (4 * w) / CHECKPOINT_BLOCKS as u64;
    links(w, roll).is_some_and(|links| links.len() as u64 == checkpoints)
}

/// The chains of a roll, from the head on.
pub fn shown(w: u64, roll: &[u8]) -> Chains {
    let links = links(w, roll).expect("a roll");
    links.into_iter().map(|slot| chain(w, roll, slot).to_vec()).collect()
}

// ---- what is written ----

/// The slot, or the head, whose index leads to the link with this place, counted from 0.
fn leading_to(links: &[usize], place: usize) -> usize {
    if place == 0 {
        HEAD
    } else {
        links[place - 1]
    }
}

/// The roll after these chains are inserted, in these slots, which are different ones that were not linked.
pub fn inserted(w: u64, before: &[u8], slots: &[usize], due: &[Vec<u8>]) -> Vec<u8> {
    let mut links = links(w, before).expect("a roll before the call");
    assert_eq!(slots.len(), due.len(), "slots taken");
    let mut roll = before.to_vec();
    for (&slot, bytes) in slots.iter().zip(due) {
        assert!(!links.contains(&slot), "slot {slot} is linked");
        set_index(w, &mut roll, leading_to(&links, links.len()), slot);
        set_index(w, &mut roll, slot, 0);
        let chain_place = index_place(w, slot) + INDEX_BYTES;
        roll[chain_place..chain_place + chain_bytes(w)].copy_from_slice(bytes);
        links.push(slot);
    }
    roll
}

/// The slots that an Append took, which left the roll `after`: which ones it takes is left open. The old links are asserted to stay.
pub fn taken(w: u64, before: &[u8], after: &[u8]) -> Vec<usize> {
    let old = links(w, before).expect("a roll before the call");
    let now = links(w, after).expect("a roll after the call");
    now.strip_prefix(&old[..]).expect("the old links after an Append").to_vec()
}

/// The slots that the module takes: the lowest that are not linked.
fn lowest(w: u64, roll: &[u8]) -> impl Iterator<Item = usize> {
    let links = links(w, roll).expect("a roll");
    (1..=MOST_SLOTS).filter(move |slot| !links.contains(slot))
}

/// The roll that an accepted Rewind has to leave where so many links remain: one index is written, or none.
pub fn unlinked(w: u64, before: &[u8], remaining: usize) -> Vec<u8> {
    let links = links(w, before).expect("a roll before the call");
    let mut roll = before.to_vec();
    if remaining < links.len() {
        set_index(w, &mut roll, leading_to(&links, remaining), 0);
    }
    roll
}

// ---- the calls ----

/// The outcome of an Append, and the chains of the checkpoints that it inserts.
pub fn append_roll(r: &Record, piece: &[u8], roll: &[u8]) -> (Outcome, Chains) {
    match appended_roll(r, piece, roll) {
        Ok((next, due)) => (Outcome { number: 0, count: next.whole_blocks() - r.whole_blocks(), next }, due),
        Err(number) => (Outcome::refused(number, r), Vec::new()),
    }
}

fn appended_roll(r: &Record, piece: &[u8], roll: &[u8]) -> Answer<(Record, Chains)> {
    r.in_turn(0)?;
    needs(is_roll_of(r.w, r.total, roll), 15)?;
    let (mut next, mut rest, mut due) = (*r, piece, Vec::new());
    while rest.len() as u64 >= to_checkpoint(&next) {
        let (part, after) = rest.split_at(to_checkpoint(&next) as usize);
        (_, next) = appended(&next, part)?;
        due.push(bytes_of(r.w, &next.chain));
        rest = after;
    }
    (_, next) = appended(&next, rest)?;
    let links = links(r.w, roll).unwrap().len();
    needs(links + due.len() <= slot_count(r.w, roll.len()).unwrap(), 16)?;
    Ok((next, due))
}

/// Bytes up to the next checkpoint.
fn to_checkpoint(r: &Record) -> u64 {
    let interval = CHECKPOINT_BLOCKS as u64 * r.block();
    interval - r.total % interval
}

/// The outcome of a Rewind, and the roll after it.
pub fn rewind_roll(r: &Record, keep: u64, h: &[u8], roll: &[u8]) -> (Outcome, Vec<u8>) {
    cut(r, roll, r.in_turn(0), || rewound(r, keep, h))
}

/// The outcome of an end, and the roll after it.
pub fn end_roll(r: &Record, keep: u64, roll: &[u8]) -> (Outcome, Vec<u8>) {
    cut(r, roll, r.in_turn(1), || ended(r, keep))
}

fn cut(r: &Record, roll: &[u8], turn: Answer<()>, call: impl FnOnce() -> Answer<(u64, Record)>) -> (Outcome, Vec<u8>) {
    let answer = turn.and_then(|()| {
        needs(is_roll_of(r.w, r.total, roll), 15)?;
        call()
    });
    let remaining = |next: &Record| next.whole_blocks() as usize / CHECKPOINT_BLOCKS;
    let after = match &answer {
        Ok((_, next)) => unlinked(r.w, roll, remaining(next)),
        Err(_) => roll.to_vec(),
    };
    (Outcome::of(r, answer), after)
}

// ---- lines ----

fn roll_line(program: &mut Program, words: &mut Words) -> Option<String> {
    program.roll = vec![0; words.size(MOST_ROLL)?];
    Some(String::new())
}

fn roll_set_line(program: &mut Program, words: &mut Words) -> Option<String> {
    program.roll = words.bytes().filter(|bytes| bytes.len() as u64 <= MOST_ROLL)?;
    Some(String::new())
}

fn show_roll_line(program: &mut Program, _: &mut Words) -> Option<String> {
    Some(hex(&program.roll))
}

fn append_roll_line(program: &mut Program, words: &mut Words) -> Option<String> {
    let (outcome, due) = append_roll(&program.record, &words.bytes()?, &program.roll);
    if !due.is_empty() {
        let slots: Vec<usize> = lowest(outcome.next.w, &program.roll).take(due.len()).collect();
        program.roll = inserted(outcome.next.w, &program.roll, &slots, &due);
    }
    Some(program.keep(outcome))
}

fn rewind_roll_line(program: &mut Program, words: &mut Words) -> Option<String> {
    let (outcome, after) = rewind_roll(&program.record, words.number()?, &words.bytes()?, &program.roll);
    program.roll = after;
    Some(program.keep(outcome))
}

fn end_roll_line(program: &mut Program, words: &mut Words) -> Option<String> {
    let (outcome, after) = end_roll(&program.record, words.number()?, &program.roll);
    program.roll = after;
    Some(program.keep(outcome))
}

pub const LINES: &[Line] = &[
    ("roll", roll_line),
    ("rollset", roll_set_line),
    ("showroll", show_roll_line),
    ("appendroll", append_roll_line),
    ("rewindroll", rewind_roll_line),
    ("endroll", end_roll_line),
];
