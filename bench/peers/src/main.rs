//! Times whole blocks, Append with a roll and in pieces, Rewind in steps, whole messages, tags and Tally by the module on
//! each of its engines, through its calls for C, and by lsh_ref and Crypto++. `bench/run` builds and starts it.

mod bars;
mod blocks;
mod messages;
mod peers;
mod table;
mod tags;
mod till;
mod timing;

use compare::roll::MOST_SLOTS;
use compare::Random;
use lsh_ref::Word;
use timing::{run_moved, Rates, Timing};

const INPUT_BYTES: usize = 1 << 20;
const ROUNDS: usize = 300;

fn main() {
    let input = Random::new(1).bytes(INPUT_BYTES);
    // The checks also touch the input and run all the code once before the timing.
    check_peers::<u32>(&input);
    check_peers::<u64>(&input);

    let mut timings = timings_of::<u32>(&input);
    timings.extend(timings_of::<u64>(&input));
    // Each round runs every peer once, so that other work on the machine slows all alike.
    for round in 0..ROUNDS {
        run_moved(round, &mut || timings.iter_mut().for_each(Timing::time));
    }
    print_report(&Rates::of(&timings));
}

fn check_peers<W: Word>(input: &[u8]) {
    blocks::check_peers::<W>(input);
    messages::check_peers::<W>(input);
    tags::check_peers::<W>(input);
}

fn timings_of<W: Word>(input: &[u8]) -> Vec<Timing<'_>> {
    let mut timings = blocks::timings::<W>(input);
    timings.extend(messages::timings::<W>(input));
    timings.extend(tags::timings::<W>(input));
    timings
}

fn print_report(rates: &Rates) {
    println!("Best of {ROUNDS} rounds, in MB/s (10^6 bytes). Before the timing, both engines and all peers computed the same chains,");
    println!("digests and tags, and all buffers were touched.");
    table::print("Whole blocks over 1 MiB, by the module in one Append and in one Rewind", &blocks::COLUMNS, rates);
    let title =
        format!("Append of 1 MiB with a new roll of {MOST_SLOTS} slots, and in pieces; Rewind of 1 MiB in steps");
    table::print(&title, &blocks::RECORD_COLUMNS, rates);
    table::print("Whole messages, LSH-256-256 and LSH-512-512", &messages::COLUMNS, rates);
    table::print("Tags (HMAC), with a key as long as the tag, LSH-256-256 and LSH-512-512", &tags::COLUMNS, rates);
    till::print();
    bars::print(rates);
}
