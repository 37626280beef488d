//! Lists of Append and Rewind calls on an order with a roll (list/mod.rs says what is compared).

mod list;
mod tape;

use compare::roll::{CHECKPOINT_BLOCKS, MOST_SLOTS};
use compare::{at_both_word_sizes, Random};
use list::{Kind, List, LONGEST};
use lsh_ref::Word;

/// Some lengths are too long for the roll.
fn with_roll(slots: usize) -> Kind {
    Kind { slots: Some(slots), blocks: (slots + 2) * CHECKPOINT_BLOCKS, steps: false }
}

at_both_word_sizes! { lists most_slots slots_that_serve_again }

fn lists<W: Word>() {
    let mut random = Random::new(7 * W::BITS as u64);
    for slots in [1, 2, 3] {
        for _ in 0..60 {
            let calls = random.below(60);
            List::<W>::compare(with_roll(slots), calls, &mut random);
        }
        List::<W>::compare(with_roll(slots), 600, &mut random);
    }
}

/// The most slots: all of them are taken, and calls are made about there, about the middle, and with an empty roll again.
fn most_slots<W: Word>() {
    let mut random = Random::new(11 * W::BITS as u64);
    let mut list = List::<W>::new(with_roll(MOST_SLOTS), &mut random);
    for goal in [MOST_SLOTS, MOST_SLOTS / 2, 0, 10] {
        while list.checkpoints() != goal {
            let total = list.tape.bytes.len();
            list.go_to((goal * List::<W>::INTERVAL).clamp(total.saturating_sub(LONGEST), total + LONGEST));
        }
        for _ in 0..50 {
            list.random_call();
        }
    }
    list.finish();
}

/// A roll of two slots through an order that is cut and appended to many times: more checkpoints are inserted than there are slots.
fn slots_that_serve_again<W: Word>() {
    let interval = List::<W>::INTERVAL;
    let mut random = Random::new(13 * W::BITS as u64);
    let mut list = List::<W>::new(with_roll(2), &mut random);
    for _ in 0..20 {
        list.go_to(2 * interval);
        assert_eq!(list.checkpoints(), 2);
        // One more is refused, and one byte less is taken.
        list.go_to(3 * interval);
        list.go_to(3 * interval - 1);
        // Exactly to a checkpoint, which stays, and one byte before it.
        list.go_to(2 * interval);
        assert_eq!(list.checkpoints(), 2);
        list.go_to(2 * interval - 1);
        assert_eq!(list.checkpoints(), 1);
        let length = list.below(2 * interval);
        list.go_to(length);
    }
    list.finish();
}
