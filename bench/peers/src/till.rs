//! Tally over as many receipts as it takes.

use crate::peers::module_tally;
use compare::{receipt, Random, MOST_RECEIPTS};
use std::hint::black_box;
use std::time::{Duration, Instant};

const ROUNDS: usize = 300;

/// The length of a picture of 1 MiB, in bits.
const PICTURE: u64 = 8 << 20;

struct List {
    what: &'static str,
    receipts: Vec<u8>,
    firsts: usize,
    blanks: usize,
}

/// Receipts of LSH-512-512 with the given digests and lengths in bits, of which so many are firsts.
fn list(what: &'static str, firsts: usize, parts: impl FnMut(usize) -> (Vec<u8>, u64)) -> List {
    let parts: Vec<_> = (0..MOST_RECEIPTS).map(parts).collect();
    let receipts = parts.iter().flat_map(|(digest, bits)| receipt(64, 512, digest, *bits)).collect();
    let blanks = parts.iter().filter(|(_, bits)| *bits == 0).count();
    List { what, receipts, firsts, blanks }
}

fn lists() -> [List; 6] {
    let mut random = Random::new(2);
    let base = random.bytes(64);
    let ending_in = |number: usize| {
        let mut digest = base.clone();
        digest[62..].copy_from_slice(&(number as u16).to_be_bytes());
        digest
    };
    [
        list("all different", MOST_RECEIPTS, |_| (random.bytes(64), PICTURE)),
        list("all different, by the digests' ends", MOST_RECEIPTS, |place| (ending_in(place), PICTURE)),
        list("all different, by the lengths", MOST_RECEIPTS, |place| (base.clone(), PICTURE + place as u64)),
        list("each twice", MOST_RECEIPTS / 2, |place| (ending_in(place / 2), PICTURE)),
        list("all the same", 1, |_| (base.clone(), PICTURE)),
        list("all blanks, with different digests", 0, |place| (ending_in(place), 0)),
    ]
}

/// Counts each list, checks the firsts and the blanks, and prints the best time.
pub fn print() {
    println!("\nTally of {MOST_RECEIPTS} receipts, best of {ROUNDS} rounds:\n");
    println!("| receipts                               |   ms |");
    println!("|:---------------------------------------|-----:|");
    for List { what, receipts, firsts, blanks } in lists() {
        let mut best = Duration::MAX;
        for _ in 0..ROUNDS {
            let start = Instant::now();
            let counted = module_tally(black_box(&receipts));
            best = best.min(start.elapsed());
            assert_eq!(counted, (firsts as u64, blanks as u64), "{what}");
        }
        println!("| {what:38} | {:.2} |", best.as_secs_f64() * 1e3);
    }
}
