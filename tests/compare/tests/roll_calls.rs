//! Single calls with a roll, on any record with no split rewind begun and with any buffer, against the model: through the archive, and those
//! with small rolls once more through the program replay, each call on an engine at random. Each Rewind is also made in steps.

use compare::roll::{self, CHECKPOINT_BLOCKS, MOST_SLOTS};
use compare::{
    at_both_word_sizes, hand_back_all, hex, record_line, set_line, Outcome, Random, Record, Script, ACCEPTED, BAD_ROLL,
    FULL_ROLL, MOST_BYTES,
};
use lsh_ref::Word;

/// Zeros before and after a roll, so that a slot beyond its slots would end the way.
const AROUND: usize = 600;

/// A longer roll is not tried through replay.
const LONG_ROLL: usize = 1000;

/// Bytes from one checkpoint to the next.
fn interval<W: Word>() -> usize {
    CHECKPOINT_BLOCKS * W::BLOCK_BYTES
}

// ---- calls ----

/// The calls of a test at one word size.
struct Calls {
    random: Random,
    script: Script,
}

/// A roll between zeros.
struct Lent {
    memory: Vec<u8>,
}

impl Lent {
    fn new(roll: &[u8]) -> Lent {
        Lent { memory: [&[0; AROUND], roll, &[0; AROUND]].concat() }
    }

    fn roll(&mut self) -> &mut [u8] {
        let end = self.memory.len() - AROUND;
        &mut self.memory[AROUND..end]
    }

    /// Asserts that the roll is this one, and that the zeros are still there.
    fn assert_is(&self, roll: &[u8], what: &str) {
        assert!(self.memory == Lent::new(roll).memory, "the roll after {what}");
    }
}

/// Whether a begin with the last of these bytes and hand-backs of the others are taken.
fn goes_in_steps(r: &Record, h: &[u8]) -> bool {
    r.is_sound() && h.len() as u64 <= r.total && h.chunks_exact(r.block() as usize).remainder() == r.held_bytes()
}

impl Calls {
    fn new<W: Word>(seed: u64) -> Calls {
        Calls { random: Random::new(seed * W::BITS as u64), script: Script::default() }
    }

    /// Makes the call and compares all of it; gives the number of its answer.
    fn append(&mut self, r: &Record, piece: &[u8], roll: &[u8]) -> u32 {
        let (right, due) = roll::append_roll(r, piece, roll);
        let mut lent = Lent::new(roll);
        let outcome = compare::append_roll(self.random.engine(), *r, piece, lent.roll());
        assert_eq!(outcome, right);
        let after = match right.number {
            ACCEPTED => roll::inserted(r.w, roll, &roll::taken(r.w, roll, lent.roll()), &due),
            _ => roll.to_vec(),
        };
        lent.assert_is(&after, "an Append");
        self.script(r, roll, format!("appendroll {}", hex(piece)), "appendroll", &right, &after);
        right.number
    }

    fn rewind(&mut self, r: &Record, keep: u64, h: &[u8], roll: &[u8]) -> u32 {
        let (right, after) = roll::rewind_roll(r, keep, h, roll);
        let mut lent = Lent::new(roll);
        let outcome = compare::rewind_roll(self.random.engine(), *r, keep, h, lent.roll());
        assert_eq!(outcome, right);
        lent.assert_is(&after, "a Rewind");
        self.script(r, roll, format!("rewindroll {keep} {}", hex(h)), "rewindroll", &right, &after);
        if goes_in_steps(r, h) {
            self.rewind_in_steps(r, keep, h, roll, right, &after);
        }
        right.number
    }

    /// The end gives what one Rewind over the same bytes gives.
    fn rewind_in_steps(&mut self, r: &Record, keep: u64, h: &[u8], roll: &[u8], one: Outcome, after: &[u8]) {
        let begun = hand_back_all(*r, h, &mut self.random);
        let right = if one.number == ACCEPTED { one } else { Outcome::refused(one.number, &begun) };
        let mut lent = Lent::new(roll);
        assert_eq!(compare::end_roll(self.random.engine(), begun, keep, lent.roll()), right);
        lent.assert_is(after, "an end");
        self.script(&begun, roll, format!("endroll {keep}"), "endroll", &right, after);
    }

    /// Both calls with nothing to do for them but to test the roll: an empty piece, and the held bytes handed back and kept.
    fn both(&mut self, r: &Record, roll: &[u8]) -> u32 {
        let number = self.append(r, &[], roll);
        assert_eq!(self.rewind(r, r.held_bytes().len() as u64, r.held_bytes(), roll), number);
        number
    }

    fn script(&mut self, r: &Record, roll: &[u8], line: String, name: &str, right: &Outcome, after: &[u8]) {
        if roll.len() <= LONG_ROLL {
            self.script.call(set_line(r), "set");
            self.script.call(format!("rollset {}", hex(roll)), "rollset");
            self.script.engine(&mut self.random);
            self.script.call(line, format!("{name} {} {}", right.number, right.count));
            self.script.call("record", record_line(&right.next));
            self.script.call("showroll", format!("showroll {}", hex(after)));
        }
    }

    fn end(self, what: &str) {
        self.script.compare(what);
    }

    fn below(&mut self, limit: usize) -> usize {
        self.random.below(limit as u64) as usize
    }

    fn record<W: Word>(&mut self, total: usize) -> Record {
        self.random.record(W::BITS as u64, total as u64)
    }

    /// A record with so many checkpoints, and held bytes mostly.
    fn record_of_checkpoints<W: Word>(&mut self, checkpoints: usize) -> Record {
        let past = self.below(interval::<W>());
        self.record::<W>(checkpoints * interval::<W>() + past)
    }

    fn roll<W: Word>(&mut self, slots: usize, links: usize) -> Vec<u8> {
        self.random.roll(W::BITS as u64, slots, links)
    }
}

at_both_word_sizes! { lengths cycles indexes_beyond numbers_of_links full_rolls rolls_of_any_kind cuts damaged_rolls refusals }

// ---- what is tried ----

/// Only two bytes and 1 to 255 whole slots are taken, whatever the bytes are.
fn lengths<W: Word>() {
    let w = W::BITS as u64;
    let mut calls = Calls::new::<W>(17);
    let opened = Record::of(w, 8 * w, &[]);
    let long = roll::roll_bytes(w, MOST_SLOTS - 1)..=roll::roll_bytes(w, MOST_SLOTS + 1) + 1;
    // Those that are right at the other word size.
    let other = (1..=MOST_SLOTS).map(|slots| roll::roll_bytes(96 - w, slots));
    for length in (0..=roll::roll_bytes(w, 4) + 1).chain(long).chain(other) {
        let number = if roll::slot_count(w, length).is_some() { ACCEPTED } else { BAD_ROLL };
        assert_eq!(calls.both(&opened, &vec![0; length]), number, "{length} zeros");
        // No slot is linked, and nothing else is known of the bytes.
        let mut stale = calls.random.bytes(length);
        let head = length.min(2);
        stale[..head].fill(0);
        assert_eq!(calls.both(&opened, &stale), number, "{length} bytes");
    }
    calls.end("lengths of rolls");
}

/// A roll whose last link leads back to one of its links, with each number of links before the cycle and in it.
fn cycles<W: Word>() {
    let w = W::BITS as u64;
    let mut calls = Calls::new::<W>(19);
    for slots in (1..=6).chain([MOST_SLOTS]) {
        for links in if slots == MOST_SLOTS { slots - 1..=slots } else { 1..=slots } {
            let right = calls.roll::<W>(slots, links);
            let way = roll::links(w, &right).unwrap();
            for &back in &way {
                let mut roll = right.clone();
                roll::set_index(w, &mut roll, way[links - 1], back);
                for checkpoints in [links, links + 1, slots] {
                    let r = calls.record_of_checkpoints::<W>(checkpoints);
                    assert_eq!(calls.both(&r, &roll), BAD_ROLL);
                }
            }
        }
    }
    calls.end("cycles");
}

/// An index beyond the slots at each place of the way. Cut to 8 bits some would be right.
fn indexes_beyond<W: Word>() {
    let w = W::BITS as u64;
    let mut calls = Calls::new::<W>(23);
    for slots in [1, 2, 3, 5, MOST_SLOTS] {
        let links = slots.min(5);
        let right = calls.roll::<W>(slots, links);
        let way = roll::links(w, &right).unwrap();
        for place in 0..=links {
            let from = if place == 0 { 0 } else { way[place - 1] };
            let next = roll::index(w, &right, from);
            for index in [slots + 1, slots + 2, 256, 256 + next, 512, 0x8000, 0xff00 + next, 0xffff] {
                let mut roll = right.clone();
                roll::set_index(w, &mut roll, from, index);
                for checkpoints in [place, place + 1, links] {
                    let r = calls.record_of_checkpoints::<W>(checkpoints);
                    assert_eq!(calls.both(&r, &roll), BAD_ROLL);
                }
            }
        }
    }
    calls.end("indexes beyond the slots");
}

/// As many links as the record has checkpoints, and no other number of them; nor one that is the same if it is cut to 8 or 16 bits.
fn numbers_of_links<W: Word>() {
    let mut calls = Calls::new::<W>(29);
    let interval = interval::<W>();
    for slots in [1, 2, 3, 4, 100, MOST_SLOTS] {
        for links in [0, 1, 2, 3, 4, 99, 100, MOST_SLOTS] {
            if links > slots {
                continue;
            }
            let roll = calls.roll::<W>(slots, links);
            let first = links * interval;
            for (total, number) in [
                (first, ACCEPTED),
                (first + 1, ACCEPTED),
                (first + interval - 1, ACCEPTED),
                (first + interval, BAD_ROLL),
            ] {
                let r = calls.record::<W>(total);
                // Of an order without a block, only the opening chain is taken back.
                let r = if total < W::BLOCK_BYTES { Record::of(r.w, r.n, &r.held[..total]) } else { r };
                assert_eq!(calls.both(&r, &roll), number, "{slots} slots, {links} links, {total} bytes");
            }
            for checkpoints in [0, links.saturating_sub(1), links + 1, slots, slots + 1, links + 256, links + 65536] {
                if checkpoints != links {
                    let r = calls.record_of_checkpoints::<W>(checkpoints);
                    assert_eq!(
                        calls.both(&r, &roll),
                        BAD_ROLL,
                        "{slots} slots, {links} links, {checkpoints} checkpoints"
                    );
                }
            }
        }
    }
    calls.end("numbers of links");
}

/// 16 exactly when the links and the checkpoints due are more than the slots.
fn full_rolls<W: Word>() {
    let mut calls = Calls::new::<W>(31);
    for slots in [1, 2, 3, MOST_SLOTS] {
        for links in slots.saturating_sub(3)..=slots {
            let roll = calls.roll::<W>(slots, links);
            let r = calls.record_of_checkpoints::<W>(links);
            // The length of a piece that brings the order to one byte before the first checkpoint that has no slot.
            let most = (slots + 1) * interval::<W>() - 1 - r.total as usize;
            let any = calls.below(most + 1);
            for (length, number) in
                [(0, 0), (any, 0), (most - 1, 0), (most, 0), (most + 1, FULL_ROLL), (most + 2, FULL_ROLL)]
            {
                let piece = calls.random.bytes(length);
                assert_eq!(calls.append(&r, &piece, &roll), number, "{slots} slots, {links} links, {length} bytes");
            }
            let piece = calls.random.bytes(most + 1 + interval::<W>());
            assert_eq!(calls.append(&r, &piece, &roll), FULL_ROLL);
        }
    }
    calls.end("full rolls");
}

/// Records and rolls of them at random: with any number of slots, any of them linked, and stale bytes in the others. The bytes handed back
/// are those of no order, and lead to some chain.
fn rolls_of_any_kind<W: Word>() {
    let mut calls = Calls::new::<W>(37);
    for round in 0..300 {
        let slots = if round % 10 == 0 { 1 + calls.below(MOST_SLOTS) } else { 1 + calls.below(6) };
        let links = calls.below(slots + 1);
        let roll = calls.roll::<W>(slots, links);
        let r = calls.record_of_checkpoints::<W>(links);

        let size = calls.below(3 * interval::<W>());
        let piece = calls.random.bytes(size);
        calls.append(&r, &piece, &roll);

        let held = r.total as usize % W::BLOCK_BYTES;
        let blocks = calls.below((r.total as usize / W::BLOCK_BYTES).min(3 * CHECKPOINT_BLOCKS) + 1);
        let h = [calls.random.bytes(blocks * W::BLOCK_BYTES), r.held[..held].to_vec()].concat();
        let keep = calls.below(h.len().min(W::BLOCK_BYTES - 1) + 1);
        calls.rewind(&r, keep as u64, &h, &roll);
    }
    calls.end("rolls of any kind");
}

/// An order of four checkpoints, cut to each of them, to one byte before and one after, and to a block before and after.
fn cuts<W: Word>() {
    let mut calls = Calls::new::<W>(41);
    let n = 8 * W::BITS as u64;
    let bytes = calls.random.bytes(4 * interval::<W>() + 44);
    for slots in 4..=5 {
        for total in [4 * interval::<W>(), bytes.len()] {
            let r = Record::of(W::BITS as u64, n, &bytes[..total]);
            let roll = calls.roll::<W>(slots, 4);
            for checkpoint in 0..=4 {
                let place = checkpoint * interval::<W>();
                for cut in [
                    place.wrapping_sub(W::BLOCK_BYTES),
                    place.wrapping_sub(1),
                    place,
                    place + 1,
                    place + W::BLOCK_BYTES,
                ] {
                    if cut <= total {
                        let keep = cut % W::BLOCK_BYTES;
                        assert_eq!(calls.rewind(&r, keep as u64, &bytes[cut - keep..total], &roll), ACCEPTED);
                    }
                }
            }
        }
    }
    calls.end("cuts");
}

/// Rolls with some indexes or bytes changed at random: the number says whether the buffer is still a roll of the record.
fn damaged_rolls<W: Word>() {
    let w = W::BITS as u64;
    let mut calls = Calls::new::<W>(43);
    let mut numbers = Vec::new();
    for _ in 0..1500 {
        let slots = 1 + calls.below(7);
        let links = calls.below(slots + 1);
        let mut roll = calls.roll::<W>(slots, links);
        for _ in 0..1 + calls.below(3) {
            let slot = calls.below(slots + 1);
            match calls.below(8) {
                0 => {
                    let place = calls.below(roll.len());
                    roll[place] ^= 1 << calls.below(8);
                }
                1 => roll::set_index(w, &mut roll, slot, 256 * calls.below(256)),
                _ => roll::set_index(w, &mut roll, slot, calls.below(slots + 2)),
            }
        }
        // As many checkpoints as links, if the buffer is still a roll; or as many as it had.
        let found = roll::links(w, &roll).map_or(links, |links| links.len());
        let checkpoints = [found, found, links][calls.below(3)];
        let past = W::BLOCK_BYTES + calls.below(interval::<W>() - W::BLOCK_BYTES);
        let r = calls.record::<W>(checkpoints * interval::<W>() + past);
        numbers.push(calls.both(&r, &roll));

        let size = [calls.below(W::BLOCK_BYTES), interval::<W>()][calls.below(2)];
        let piece = calls.random.bytes(size);
        numbers.push(calls.append(&r, &piece, &roll));
    }
    for number in [ACCEPTED, BAD_ROLL] {
        assert!(numbers.iter().filter(|&&given| given == number).count() > 500, "{number} is given too rarely");
    }
    calls.end("damaged rolls");
}

/// Each refusal together with those that are tested after it.
fn refusals<W: Word>() {
    let w = W::BITS as u64;
    let mut calls = Calls::new::<W>(47);
    for links in 0..=2 {
        let sound = calls.record::<W>(links * interval::<W>() + W::BLOCK_BYTES + 1);
        let mut unsound = vec![sound; 5];
        unsound[0].w = 33;
        unsound[1].n = 0;
        unsound[2].total += MOST_BYTES;
        unsound[3].held[1] = 1;
        unsound[4].n = 8 * w + 1;
        let full = links.max(1);
        let right = calls.roll::<W>(full, links);
        let other_number = calls.roll::<W>(full, if links == 0 { 1 } else { links - 1 });
        let mut beyond = right.clone();
        roll::set_index(w, &mut beyond, 0, full + 1);
        let short = right[..right.len() - 1].to_vec();

        let piece = calls.random.bytes(2 * interval::<W>());
        let longer = calls.random.bytes(sound.total as usize + 1);
        let from_block = calls.random.bytes(W::BLOCK_BYTES + 1);
        let keep = W::BLOCK_BYTES as u64;
        for roll in [&right, &other_number, &beyond, &short] {
            for r in &unsound {
                assert_eq!(calls.append(r, &piece, roll), 3);
                assert_eq!(calls.rewind(r, keep, &longer, roll), 3);
            }
        }
        for roll in [&other_number, &beyond, &short] {
            assert_eq!(calls.append(&sound, &piece, roll), BAD_ROLL);
            assert_eq!(calls.rewind(&sound, keep, &longer, roll), BAD_ROLL);
            assert_eq!(calls.rewind(&sound, keep, &from_block, roll), BAD_ROLL);
            assert_eq!(calls.rewind(&sound, 0, &from_block, roll), BAD_ROLL);
        }
        assert_eq!(calls.append(&sound, &piece, &right), FULL_ROLL);
        assert_eq!(calls.rewind(&sound, keep, &longer, &right), 6);
        assert_eq!(calls.rewind(&sound, keep, &from_block[1..], &right), 6);
        assert_eq!(calls.rewind(&sound, keep, &from_block, &right), 7);
        let mut h = from_block.clone();
        h[W::BLOCK_BYTES] = sound.held[0] ^ 0x80;
        assert_eq!(calls.rewind(&sound, 0, &h, &right), 8);
        h[W::BLOCK_BYTES] = sound.held[0];
        let all = calls.random.bytes(sound.total as usize - 1);
        let all = [all, vec![sound.held[0]]].concat();
        assert_eq!(calls.rewind(&sound, 0, &all, &right), 9);
        assert_eq!(calls.rewind(&sound, 0, &h, &right), if links == 0 { 9 } else { ACCEPTED });
    }
    calls.end("refusals");
}
