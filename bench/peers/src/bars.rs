//! The ratios that are wanted of the module. They are printed and decide nothing.

use crate::blocks::{APPEND_ROLL, BACKWARD, FORWARD, REWIND_STEPS};
use crate::messages::{WHOLE_1_MIB, WHOLE_64_BYTES};
use crate::peers::{CRYPTOPP, GROUPS, REFERENCE, WORDS};
use crate::timing::{Rates, Task};

/// A peer, by word size.
type Peer = fn(w: usize) -> &'static str;

/// The module on the engine that its programs use.
fn used(w: usize) -> &'static str {
    if w == 32 {
        GROUPS
    } else {
        WORDS
    }
}

struct Bar {
    what: &'static str,
    peer: Peer,
    work: &'static str,
    to: (Peer, &'static str),
    /// By word size.
    at_least: [(usize, f64); 2],
}

const BARS: [Bar; 8] = [
    Bar {
        what: "forward (Append), as a multiple of the words",
        peer: |_| GROUPS,
        work: FORWARD,
        to: (|_| WORDS, FORWARD),
        at_least: [(32, 1.2), (64, 0.97)],
    },
    Bar {
        what: "backward (Rewind), as a multiple of the words",
        peer: |_| GROUPS,
        work: BACKWARD,
        to: (|_| WORDS, BACKWARD),
        at_least: [(32, 1.2), (64, 0.97)],
    },
    Bar {
        what: "forward (Append), as a multiple of lsh_ref",
        peer: used,
        work: FORWARD,
        to: (|_| REFERENCE, FORWARD),
        at_least: [(32, 1.15), (64, 1.25)],
    },
    Bar {
        what: "backward (Rewind), as a part of forward",
        peer: used,
        work: BACKWARD,
        to: (used, FORWARD),
        at_least: [(32, 0.9), (64, 0.9)],
    },
    Bar {
        what: "Append with a roll, as a part of Append",
        peer: used,
        work: APPEND_ROLL,
        to: (used, FORWARD),
        at_least: [(32, 0.97), (64, 0.97)],
    },
    Bar {
        what: "Rewind in steps (an aim), as a part of Rewind",
        peer: used,
        work: REWIND_STEPS,
        to: (used, BACKWARD),
        at_least: [(32, 0.7), (64, 0.7)],
    },
    Bar {
        what: "a whole message of 1 MiB, as a multiple of Crypto++",
        peer: used,
        work: WHOLE_1_MIB,
        to: (|_| CRYPTOPP, WHOLE_1_MIB),
        at_least: [(32, 1.2), (64, 1.7)],
    },
    Bar {
        what: "a whole message of 64 bytes (an aim), as a multiple of Crypto++",
        peer: used,
        work: WHOLE_64_BYTES,
        to: (|_| CRYPTOPP, WHOLE_64_BYTES),
        at_least: [(32, 0.9), (64, 0.9)],
    },
];

pub fn print(rates: &Rates) {
    println!(
        "\nThe bars. Those that are not to the words are for the engine that the programs use at the word size:\n"
    );
    for Bar { what, peer, work, to: (other, other_work), at_least } in &BARS {
        for &(w, at_least) in at_least {
            let task = Task { peer: peer(w), work };
            let ratio = rates.ratio(w, task, Task { peer: other(w), work: other_work });
            println!("w = {w}, {}: {what}: {}", task.peer, verdict(ratio, at_least));
        }
    }
}

fn verdict(ratio: Option<f64>, at_least: f64) -> String {
    let Some(ratio) = ratio else {
        // Only Crypto++ can be missing.
        return "left out, as Crypto++ is".to_string();
    };
    let reached = if ratio >= at_least { "reached" } else { "NOT REACHED" };
    // Cut and not rounded, so that a bar just missed does not look reached.
    let shown = (ratio * 1000.0).floor() / 1000.0;
    format!("{shown:.3}, at least {at_least:.2} wanted: {reached}")
}
