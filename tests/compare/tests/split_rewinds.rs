//! Split rewinds: lists that mix their steps with the other calls, ends against one Rewind over the same bytes, and single steps on forged
//! records against the model. Lists and forged records go through the archive and once more through the program replay. Each call is made on
//! an engine at random.

mod forged;
mod list;
mod tape;

use compare::roll::{self, CHECKPOINT_BLOCKS};
use compare::{
    at_both_word_sizes, hex, record_line, set_line, Outcome, Random, Record, Script, ACCEPTED, BAD_ROLL, MOST_BYTES,
    OUT_OF_TURN, RECEIPT_BYTES,
};
use forged::{forged_record, sound_records, unsound};
use list::{Kind, List};
use lsh_ref::Word;
use model::receipts;
use model::{order, split};

at_both_word_sizes! { lists lists_with_a_roll ends_and_one_rewind unsound_records records_of_no_order }

// ---- lists ----

fn lists<W: Word>() {
    let mut random = Random::new(17 * W::BITS as u64);
    let kind = Kind { slots: None, blocks: 16, steps: true };
    for _ in 0..100 {
        let calls = random.below(80);
        List::<W>::compare(kind, calls, &mut random);
    }
    List::<W>::compare(kind, 800, &mut random);
    // Orders of some hundred blocks.
    List::<W>::compare(Kind { blocks: 300, ..kind }, 400, &mut random);
}

fn lists_with_a_roll<W: Word>() {
    let mut random = Random::new(19 * W::BITS as u64);
    for slots in [1, 3] {
        let kind = Kind { slots: Some(slots), blocks: (slots + 2) * CHECKPOINT_BLOCKS, steps: true };
        for _ in 0..20 {
            let calls = random.below(60);
            List::<W>::compare(kind, calls, &mut random);
        }
        List::<W>::compare(kind, 400, &mut random);
    }
}

// ---- ends and one Rewind ----

/// Orders of up to some hundred blocks, handed back block by block: the right blocks, and with one bit changed.
fn ends_and_one_rewind<W: Word>() {
    let block = W::BLOCK_BYTES;
    let mut random = Random::new(23 * W::BITS as u64);
    for blocks in [0, 1, 2, 63, 64, 65, 300] {
        for held in [0, 1, block - 1] {
            let bytes = random.bytes(blocks * block + held);
            let mut other = bytes.clone();
            if blocks > 0 {
                other[random.below((blocks * block) as u64) as usize] ^= 1 << random.below(8);
            }
            let n = 1 + random.below(8 * W::BITS as u64);
            compare_ends::<W>(n, &bytes, &bytes, &mut random);
            compare_ends::<W>(n, &bytes, &other, &mut random);
        }
    }
}

/// An order, of which other bytes may be handed back; the end is tried after some of the hand-backs.
fn compare_ends<W: Word>(n: u64, bytes: &[u8], handed_back: &[u8], random: &mut Random) {
    let w = W::BITS as u64;
    let whole = bytes.len() / W::BLOCK_BYTES;
    let mut roll = roll::new_roll(w, 1 + whole / CHECKPOINT_BLOCKS);
    let opened = compare::open(random.engine(), w, n).next;
    let order = compare::append_roll(random.engine(), opened, bytes, &mut roll).next;
    let mut begun = compare::begin(order, &handed_back[whole * W::BLOCK_BYTES..]).next;
    for number in 0..=whole {
        let h = &handed_back[(whole - number) * W::BLOCK_BYTES..];
        if number > 0 {
            begun = compare::hand_back(random.engine(), begun, &h[..W::BLOCK_BYTES]).next;
        }
        if number < 3 || number % 32 < 2 || number + 1 >= whole {
            compare_end::<W>(bytes, &order, &begun, h, &roll, random);
        }
    }
}

/// The end against one Rewind over the bytes handed back, for each number of bytes to keep at which something changes.
fn compare_end<W: Word>(bytes: &[u8], order: &Record, begun: &Record, h: &[u8], roll: &[u8], random: &mut Random) {
    let block = W::BLOCK_BYTES;
    let start = bytes.len() - h.len();
    let held = h.len() % block;
    let short = &roll[..roll.len() - 1];
    for keep in [0, 1, held.saturating_sub(1), held, held + 1, block - 1, block, h.len(), h.len() + 1, usize::MAX] {
        let number = if keep > h.len() || keep >= block {
            7
        } else if start == 0 && h != bytes {
            9
        } else {
            ACCEPTED
        };
        let one = compare::rewind(random.engine(), *order, keep as u64, h);
        assert_eq!(one.number, number, "{} bytes, {keep} of {} kept", bytes.len(), h.len());
        if number == ACCEPTED && *h == bytes[start..] {
            assert_eq!(one.next, Record::of(order.w, order.n, &bytes[..start + keep]));
        }
        // A refused step leaves the state before it.
        let as_end = |one: Outcome| if one.number == ACCEPTED { one } else { Outcome::refused(one.number, begun) };
        assert_eq!(compare::end(random.engine(), *begun, keep as u64), as_end(one));
        for (roll, right) in [(roll, one), (short, Outcome::refused(BAD_ROLL, order))] {
            let (mut of_rewind, mut of_end) = (roll.to_vec(), roll.to_vec());
            assert_eq!(compare::rewind_roll(random.engine(), *order, keep as u64, h, &mut of_rewind), right);
            assert_eq!(compare::end_roll(random.engine(), *begun, keep as u64, &mut of_end), as_end(right));
            assert!(of_end == of_rewind, "the roll after an end");
        }
    }
}

// ---- forged records ----

/// An output before a Close.
const UNTOUCHED: [u8; RECEIPT_BYTES] = [0xa5; RECEIPT_BYTES];

/// The calls that return a record, by their names in a script.
const OLD_CALLS: [&str; 4] = ["append", "rewind", "appendroll", "rewindroll"];
const STEPS: [&str; 5] = ["begin", "handback", "end", "endroll", "abandon"];

/// What a call is given besides the record; each takes some of it.
struct Given<'a> {
    keep: u64,
    bytes: &'a [u8],
    roll: &'a [u8],
}

/// Makes a call, and gives the rest of its line in a script too.
fn make(name: &str, engine: u64, r: Record, given: &Given, roll: &mut [u8]) -> (String, Outcome) {
    let Given { keep, bytes, .. } = *given;
    let digits = hex(bytes);
    match name {
        "append" => (format!(" {digits}"), compare::append(engine, r, bytes)),
        "rewind" => (format!(" {keep} {digits}"), compare::rewind(engine, r, keep, bytes)),
        "appendroll" => (format!(" {digits}"), compare::append_roll(engine, r, bytes, roll)),
        "rewindroll" => (format!(" {keep} {digits}"), compare::rewind_roll(engine, r, keep, bytes, roll)),
        "begin" => (format!(" {digits}"), compare::begin(r, bytes)),
        "handback" => (format!(" {digits}"), compare::hand_back(engine, r, bytes)),
        "end" => (format!(" {keep}"), compare::end(engine, r, keep)),
        "endroll" => (format!(" {keep}"), compare::end_roll(engine, r, keep, roll)),
        "abandon" => (String::new(), compare::abandon(r)),
        _ => panic!("a call {name}"),
    }
}

/// What the model answers, and the roll after it.
fn right(name: &str, r: &Record, given: &Given) -> (Outcome, Vec<u8>) {
    let Given { keep, bytes, roll } = *given;
    let alone = |outcome| (outcome, roll.to_vec());
    match name {
        "append" => alone(order::append(r, bytes)),
        "rewind" => alone(order::rewind(r, keep, bytes)),
        // None is taken here.
        "appendroll" => alone(roll::append_roll(r, bytes, roll).0),
        "rewindroll" => roll::rewind_roll(r, keep, bytes, roll),
        "begin" => alone(split::begin(r, bytes)),
        "handback" => alone(split::hand_back(r, bytes)),
        "end" => alone(split::end(r, keep)),
        "endroll" => roll::end_roll(r, keep, roll),
        "abandon" => alone(split::abandon(r)),
        _ => panic!("a call {name}"),
    }
}

/// The calls on forged records as they are made, and the record and the roll that the program has.
struct Calls {
    engines: Random,
    script: Script,
    program: Option<(Record, Vec<u8>)>,
}

impl Calls {
    fn new(seed: u64) -> Calls {
        Calls { engines: Random::new(seed), script: Script::default(), program: None }
    }

    /// Makes the call and compares all of it; gives the number of its answer.
    fn call(&mut self, name: &str, r: &Record, given: &Given) -> u32 {
        let (right, after) = right(name, r, given);
        let mut roll = given.roll.to_vec();
        let (rest, outcome) = make(name, self.engines.engine(), *r, given, &mut roll);
        assert_eq!(outcome, right, "{name} on {r:?}");
        assert!(roll == after, "the roll after {name}");

        self.set(r, given.roll);
        self.script.engine(&mut self.engines);
        self.script.call(format!("{name}{rest}"), format!("{name} {} {}", right.number, right.count));
        self.program = Some((right.next, after));
        right.number
    }

    /// Close without more bits.
    fn close(&mut self, r: &Record, roll: &[u8]) -> u32 {
        let (number, output) = match receipts::close(r, 0, 0, UNTOUCHED.len()) {
            Ok(receipt) => (ACCEPTED, receipt),
            Err(number) => (number, UNTOUCHED.to_vec()),
        };
        let mut written = UNTOUCHED;
        assert_eq!(compare::close(self.engines.engine(), *r, 0, 0, &mut written), number, "close on {r:?}");
        assert_eq!(written[..], output);
        self.set(r, roll);
        self.script.engine(&mut self.engines);
        self.script.call(format!("close 00 0 {}", UNTOUCHED.len()), format!("close {number} {}", hex(&output)));
        number
    }

    /// Gives the program a record and a roll, if it has others.
    fn set(&mut self, r: &Record, roll: &[u8]) {
        if self.program.as_ref().is_none_or(|(its_record, its_roll)| its_record != r || its_roll != roll) {
            self.show();
            self.script.call(set_line(r), "set");
            self.script.call(format!("rollset {}", hex(roll)), "rollset");
            self.program = Some((*r, roll.to_vec()));
        }
    }

    /// Shows what the program has.
    fn show(&mut self) {
        if let Some((record, roll)) = &self.program {
            self.script.call("record", record_line(record));
            self.script.call("showroll", format!("showroll {}", hex(roll)));
        }
    }

    fn end(mut self, what: &str) {
        self.show();
        self.script.compare(what);
    }
}

/// Every call answers 3 and changes nothing if one clause of soundness is broken.
fn unsound_records<W: Word>() {
    let w = W::BITS as u64;
    let mut random = Random::new(29 * w);
    let mut calls = Calls::new(w);
    let roll = roll::new_roll(w, 1);
    for total in [0, 5, 2 * W::BLOCK_BYTES + 5, MOST_BYTES as usize] {
        let block = random.bytes(W::BLOCK_BYTES);
        for r in sound_records(w, total as u64, &mut random) {
            let held = &r.held[..total % W::BLOCK_BYTES];
            let inputs = [
                Given { keep: 0, bytes: held, roll: &roll },
                Given { keep: u64::MAX, bytes: &block, roll: &roll[1..] },
            ];
            assert_eq!(calls.call("abandon", &r, &inputs[0]), if r.mark == 1 { ACCEPTED } else { OUT_OF_TURN });
            for forged in unsound(&r) {
                for given in &inputs {
                    for name in OLD_CALLS.into_iter().chain(STEPS) {
                        assert_eq!(calls.call(name, &forged, given), 3);
                    }
                }
                assert_eq!(calls.close(&forged, &roll), 3);
            }
        }
    }
    calls.end("unsound records");
}

/// Each call on sound records that come from no order, and on those that hand-backs of any blocks lead to.
fn records_of_no_order<W: Word>() {
    let w = W::BITS as u64;
    let mut random = Random::new(31 * w);
    let mut calls = Calls::new(w);
    let mut numbers = Vec::new();
    for _ in 0..80 {
        let mut r = forged_record::<W>(&mut random);
        // No roll is that of the longest orders.
        let links = (r.total as usize / List::<W>::INTERVAL).min(3);
        let roll = random.roll(w, links.max(1), links);
        for _ in 0..3 {
            let block = random.bytes(W::BLOCK_BYTES);
            numbers.extend(try_calls::<W>(&mut calls, &r, &block, &roll));
            r = split::hand_back(&r, &block).next;
        }
    }
    for number in [ACCEPTED, 6, 7, 8, 9, BAD_ROLL, OUT_OF_TURN] {
        assert!(numbers.iter().filter(|&&given| given == number).count() > 50, "{number} is given too rarely");
    }
    calls.end("records of no order");
}

/// Makes each call on the record, and gives the numbers of their answers.
fn try_calls<W: Word>(calls: &mut Calls, r: &Record, block: &[u8], roll: &[u8]) -> Vec<u32> {
    let held = r.held_bytes();
    let longer = [held, &[0]].concat();
    let other: Vec<u8> = held.iter().map(|byte| byte ^ 1).collect();
    let mut numbers = Vec::new();
    let mut call = |name, keep, bytes, roll| numbers.push(calls.call(name, r, &Given { keep, bytes, roll }));
    for roll in [roll, &roll[1..]] {
        for bytes in [held, &longer, &other, block, &block[1..], &r.back[..W::BLOCK_BYTES]] {
            call("begin", 0, bytes, roll);
            call("handback", 0, bytes, roll);
            // What they answer with none begun is tried elsewhere.
            OLD_CALLS.into_iter().filter(|_| r.mark == 1).for_each(|name| call(name, 0, bytes, roll));
        }
        let edge = held.len() as u64;
        for keep in [0, edge.saturating_sub(1), edge, edge + 1, block.len() as u64 - 1, block.len() as u64, u64::MAX] {
            call("end", keep, &[], roll);
            call("endroll", keep, &[], roll);
        }
        call("abandon", 0, &[], roll);
    }
    assert_eq!(calls.close(r, roll), ACCEPTED);
    numbers
}
