//! Lists of Append and Rewind calls on an order without a roll (list/mod.rs says what is compared).

mod list;
mod tape;

use compare::{at_both_word_sizes, Random};
use list::{Kind, List};
use lsh_ref::Word;

const KIND: Kind = Kind { slots: None, blocks: 16, steps: false };

at_both_word_sizes! { short_lists long_lists }

fn short_lists<W: Word>() {
    let mut random = Random::new(3 * W::BITS as u64);
    for _ in 0..200 {
        let calls = random.below(60);
        List::<W>::compare(KIND, calls, &mut random);
    }
}

/// Lists of thousands of calls.
fn long_lists<W: Word>() {
    let mut random = Random::new(5 * W::BITS as u64);
    for _ in 0..3 {
        List::<W>::compare(KIND, 4000, &mut random);
    }
}
