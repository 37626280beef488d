//! Whole blocks: at one go, which is an Append or a Rewind for the module, and Append and Rewind in other ways.

use crate::messages::hash_timing;
use crate::peers::{
    block_peers, cryptopp, digest_bits, largest_roll, module_append_pieces, module_append_roll, module_rewind_steps,
    reference_backward, reference_forward, BlockPeer, Run,
};
use crate::peers::{CRYPTOPP, MODULE, REFERENCE};
use crate::table::Column::{self, OfPeer, OfWords, OfWork, Rate};
use crate::timing::{Task, Timing};
use compare::roll::shown;
use lsh_ref::Word;
use std::hint::black_box;

pub const FORWARD: &str = "forward";
pub const BACKWARD: &str = "backward";
pub const APPEND_ROLL: &str = "Append with a roll";
pub const APPEND_PIECES: &str = "Append of 64 bytes each";
pub const REWIND_STEPS: &str = "Rewind in steps";

pub const COLUMNS: [Column; 8] = [
    Rate(FORWARD),
    OfWords(FORWARD),
    OfPeer(FORWARD, REFERENCE),
    OfPeer(FORWARD, CRYPTOPP),
    Rate(BACKWARD),
    OfWords(BACKWARD),
    OfPeer(BACKWARD, REFERENCE),
    OfWork(BACKWARD, FORWARD),
];

pub const RECORD_COLUMNS: [Column; 8] = [
    Rate(APPEND_ROLL),
    OfWords(APPEND_ROLL),
    OfWork(APPEND_ROLL, FORWARD),
    Rate(APPEND_PIECES),
    OfWords(APPEND_PIECES),
    Rate(REWIND_STEPS),
    OfWords(REWIND_STEPS),
    OfWork(REWIND_STEPS, BACKWARD),
];

/// Every peer reaches the chain of lsh_ref forward and comes back from it, and word 0 after an Append with a roll or in
/// pieces and after a Rewind in steps is that of the chain reached. A checkpoint is at the end of the input, so that the last one has that chain.
pub fn check_peers<W: Word>(input: &[u8]) {
    let w = W::BITS;
    let mut opening = vec![0; W::CHAIN_BYTES];
    lsh_ref::store_chain(&lsh_ref::opening_chain::<W>(digest_bits::<W>()), &mut opening);
    let reached = chain_after(reference_forward::<W>, &opening, input);

    for BlockPeer { name, forward, backward } in block_peers::<W>() {
        assert_eq!(chain_after(forward, &opening, input), reached, "{name}, forward, w = {w}");
        assert_eq!(chain_after(backward, &reached, input), opening, "{name}, backward, w = {w}");
    }
    let back = chain_after(reference_backward::<W>, &vec![0; W::CHAIN_BYTES], input);
    let (reached_word, back_word) = (first_word::<W>(&reached), first_word::<W>(&back));
    for (name, engine) in MODULE {
        assert_eq!(module_append_pieces::<W>(engine, input), reached_word, "{name}, Append in pieces, w = {w}");
        let mut roll = vec![0; largest_roll::<W>()];
        assert_eq!(module_append_roll::<W>(engine, input, &mut roll), reached_word, "{name}, with a roll, w = {w}");
        assert_eq!(shown(w as u64, &roll).last(), Some(&reached), "{name}, the last checkpoint, w = {w}");
        assert_eq!(module_rewind_steps::<W>(engine, input), back_word, "{name}, Rewind in steps, w = {w}");
    }
}

fn first_word<W: Word>(chain: &[u8]) -> u64 {
    lsh_ref::load_word::<W>(chain, 0).to_u64()
}

fn chain_after(run: Run, start: &[u8], input: &[u8]) -> Vec<u8> {
    let mut chain = start.to_vec();
    run(&mut chain, input);
    chain
}

pub fn timings<W: Word>(input: &[u8]) -> Vec<Timing<'_>> {
    let mut timings = Vec::new();
    for BlockPeer { name: peer, forward, backward } in block_peers::<W>() {
        timings.push(run_timing::<W>(Task { peer, work: FORWARD }, input, forward));
        timings.push(run_timing::<W>(Task { peer, work: BACKWARD }, input, backward));
    }
    // Crypto++ has no block run to call, so it hashes the input.
    if let Some(hash) = cryptopp::<W>() {
        timings.push(hash_timing::<W>(Task { peer: CRYPTOPP, work: FORWARD }, input, input.len(), hash));
    }
    for (peer, engine) in MODULE {
        let pieces = move |input: &[u8]| _ = black_box(module_append_pieces::<W>(engine, input));
        timings.push(Timing::new::<W>(Task { peer, work: APPEND_PIECES }, input, pieces));
        let with_roll =
            move |input: &[u8], roll: &mut [u8]| _ = black_box(module_append_roll::<W>(engine, input, roll));
        let task = Task { peer, work: APPEND_ROLL };
        timings.push(Timing::with_memory::<W>(task, input, largest_roll::<W>(), with_roll));
        let steps = move |input: &[u8]| _ = black_box(module_rewind_steps::<W>(engine, input));
        timings.push(Timing::new::<W>(Task { peer, work: REWIND_STEPS }, input, steps));
    }
    timings
}

fn run_timing<W: Word>(task: Task, input: &[u8], run: Run) -> Timing<'_> {
    let mut chain = vec![0; W::CHAIN_BYTES];
    Timing::new::<W>(task, input, move |input| run(black_box(&mut chain), input))
}
