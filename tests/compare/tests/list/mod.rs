//! Lists of calls on an order, with a roll or without, against the plain tape and lsh_ref: each list through the archive's calls, and once
//! more through the program replay, each call on an engine at random. After every call the record is that of the tape, Close gives the receipt of its bytes, the roll shows the
//! chains of its checkpoints and differs from the roll before the call only where document 02 says so, and the blocks run forward are those
//! run backward and the whole blocks of the tape.

use crate::tape::{Answer, Tape};
use compare::roll::{self, CHECKPOINT_BLOCKS};
use compare::{
    bit_length, hand_back_all, hex, places, receipt, record_line, set_line, Outcome, Random, Record, Script, ACCEPTED,
    BAD_ROLL, OUT_OF_TURN, RECEIPT_BYTES,
};
use lsh_ref::Word;
use model::lsh::words;

/// About the most bytes of a piece or to hand back, so that a line of a script has room for their digits.
pub const LONGEST: usize = 110_000;

/// A roll of more bytes is not shown after every call of a script.
const LONG_ROLL: usize = 1000;

/// Two bytes more than a receipt, of which a Close leaves the last two.
const UNTOUCHED: [u8; RECEIPT_BYTES + 2] = [0xa5; RECEIPT_BYTES + 2];

/// What a list is made of.
#[derive(Clone, Copy)]
pub struct Kind {
    /// The slots of the roll, if the order has one.
    pub slots: Option<usize>,
    /// The most blocks that a length is chosen from.
    pub blocks: usize,
    /// Whether steps of split rewinds are among the calls.
    pub steps: bool,
}

/// A list of calls as it is made: the tape, the record and the roll that the archive's calls keep, and the script for replay with the answers
/// that the tape gives.
pub struct List<'a, W: Word> {
    kind: Kind,
    n: u64,
    pub tape: Tape,
    record: Record,
    roll: Option<Vec<u8>>,
    /// The opening chain, and the one after each whole block of the tape, by lsh_ref.
    chains: Vec<[W; 16]>,
    forward: usize,
    backward: usize,
    script: Script,
    random: &'a mut Random,
}

impl<'a, W: Word> List<'a, W> {
    const W: u64 = W::BITS as u64;
    const BLOCK: usize = W::BLOCK_BYTES;
    /// Bytes from one checkpoint to the next.
    pub const INTERVAL: usize = CHECKPOINT_BLOCKS * W::BLOCK_BYTES;

    pub fn new(kind: Kind, random: &'a mut Random) -> List<'a, W> {
        let n = 1 + random.below(8 * Self::W);
        let opened = compare::open(random.engine(), Self::W, n);
        let mut list = List {
            kind,
            n,
            tape: Tape::new::<W>(kind.slots),
            record: opened.next,
            roll: kind.slots.map(|slots| roll::new_roll(Self::W, slots)),
            chains: vec![lsh_ref::opening_chain(n)],
            forward: 0,
            backward: 0,
            script: Script::default(),
            random,
        };
        assert_eq!(opened, Outcome { number: ACCEPTED, count: 0, next: Record::of(Self::W, n, &[]) });
        list.script.call(format!("open {} {n}", Self::W), "open 0");
        if let Some(roll) = &list.roll {
            list.script.call(format!("roll {}", roll.len()), "roll");
        }
        list
    }

    /// Makes a list of so many random calls.
    pub fn compare(kind: Kind, calls: u64, random: &'a mut Random) {
        let mut list = List::<W>::new(kind, random);
        for _ in 0..calls {
            list.random_call();
        }
        list.finish();
    }

    // ---- calls ----

    fn append(&mut self, piece: &[u8]) {
        let answer = self.tape.append(piece);
        self.forward += answer.count;
        self.append_call(piece, answer);
    }

    fn append_call(&mut self, piece: &[u8], answer: Answer) {
        self.call(format!("append{} {}", self.suffix(), hex(piece)), answer, |engine, r, roll| match roll {
            Some(roll) => compare::append_roll(engine, r, piece, roll),
            None => compare::append(engine, r, piece),
        });
    }

    /// Hands back the last bytes of the tape, as many as `size`.
    fn rewind(&mut self, keep: u64, size: usize) {
        let h = self.tape.last(size);
        let answer = self.tape.rewind(keep, size);
        self.backward += answer.count;
        self.rewind_call(keep, &h, answer);
    }

    fn rewind_call(&mut self, keep: u64, h: &[u8], answer: Answer) {
        self.call(format!("rewind{} {keep} {}", self.suffix(), hex(h)), answer, |engine, r, roll| match roll {
            Some(roll) => compare::rewind_roll(engine, r, keep, h, roll),
            None => compare::rewind(engine, r, keep, h),
        });
    }

    /// Begins with the last bytes of the tape, as many as `size`.
    fn begin(&mut self, size: usize) {
        let bytes = self.tape.last(size);
        let answer = self.tape.begin(size);
        self.begin_call(&bytes, answer);
    }

    fn begin_call(&mut self, bytes: &[u8], answer: Answer) {
        self.call(format!("begin {}", hex(bytes)), answer, |_, r, _| compare::begin(r, bytes));
    }

    /// Hands back the last whole block that is left, or some block if none is.
    fn hand_back(&mut self) {
        let end = self.tape.left() * Self::BLOCK;
        let block = if end == 0 { vec![0; Self::BLOCK] } else { self.tape.bytes[end - Self::BLOCK..end].to_vec() };
        self.hand_back_call(&block);
    }

    fn hand_back_call(&mut self, block: &[u8]) {
        let answer = self.tape.hand_back(block.len());
        self.call(format!("handback {}", hex(block)), answer, |engine, r, _| compare::hand_back(engine, r, block));
    }

    fn end(&mut self, keep: u64) {
        let answer = self.tape.end(keep);
        self.backward += answer.count;
        self.end_call(keep, answer);
    }

    fn end_call(&mut self, keep: u64, answer: Answer) {
        self.call(format!("end{} {keep}", self.suffix()), answer, |engine, r, roll| match roll {
            Some(roll) => compare::end_roll(engine, r, keep, roll),
            None => compare::end(engine, r, keep),
        });
    }

    fn abandon(&mut self) {
        let answer = self.tape.abandon();
        self.abandon_call(answer);
    }

    fn abandon_call(&mut self, answer: Answer) {
        self.call("abandon".to_string(), answer, |_, r, _| compare::abandon(r));
    }

    /// What the names of the lines with a roll end in.
    fn suffix(&self) -> &'static str {
        if self.roll.is_some() {
            "roll"
        } else {
            ""
        }
    }

    /// Makes a call, which has this answer, and compares all that it leaves with the tape after it.
    fn call(&mut self, line: String, answer: Answer, make: impl FnOnce(u64, Record, Option<&mut [u8]>) -> Outcome) {
        let name = line.split(' ').next().unwrap().to_string();
        let before = self.roll.clone();
        let outcome = make(self.random.engine(), self.record, self.roll.as_deref_mut());
        assert_eq!(Answer { number: outcome.number, count: outcome.count as usize }, answer, "{name}");
        self.follow_tape();
        assert!(outcome.next == self.tape_record(), "the record after {name}, {answer:?}");
        self.record = outcome.next;
        if let (Some(before), Some(after)) = (before, &self.roll) {
            let accepted = answer.number == ACCEPTED;
            let right = if accepted { self.right_roll(&before, after) } else { before };
            assert!(*after == right, "the roll after {name}, {answer:?}");
        }
        assert_eq!(self.forward, self.backward + self.tape.whole_blocks());
        self.script.engine(self.random);
        self.script.call(line, format!("{name} {} {}", answer.number, answer.count));
        self.compare_receipt();
        if self.roll.as_ref().is_some_and(|roll| roll.len() <= LONG_ROLL) || self.below(16) == 0 {
            self.show_roll();
        }
    }

    // ---- what the tape shows ----

    /// Works out the chains that the tape has now.
    fn follow_tape(&mut self) {
        self.chains.truncate(1 + self.tape.whole_blocks());
        for block in self.tape.bytes.chunks_exact(Self::BLOCK).skip(self.chains.len() - 1) {
            self.chains.push(lsh_ref::forward(self.chains.last().unwrap(), block));
        }
    }

    fn tape_record(&self) -> Record {
        let done = self.tape.whole_blocks() * Self::BLOCK;
        let chain = self.chains[self.tape.whole_blocks()];
        let record = Record::after(Self::W, self.n, done as u64, words(&chain), &self.tape.bytes[done..]);
        let Some(number) = self.tape.begun else {
            return record;
        };
        let left = self.tape.left();
        let back = if number == 0 { &[] } else { &self.tape.bytes[left * Self::BLOCK..][..Self::BLOCK] };
        Record { mark: 1, second: words(&self.chains[left]), back: places(back), blocks: number as u64, ..record }
    }

    pub fn checkpoints(&self) -> usize {
        self.tape.whole_blocks() / CHECKPOINT_BLOCKS
    }

    /// The chains of the checkpoints after the first so many.
    fn checkpoints_after(&self, first: usize) -> Vec<Vec<u8>> {
        let store = |chain| {
            let mut bytes = vec![0; W::CHAIN_BYTES];
            lsh_ref::store_chain(chain, &mut bytes);
            bytes
        };
        self.chains.iter().step_by(CHECKPOINT_BLOCKS).skip(1 + first).map(store).collect()
    }

    /// The roll that an accepted call has to leave.
    fn right_roll(&self, before: &[u8], after: &[u8]) -> Vec<u8> {
        let had = roll::links(Self::W, before).expect("a roll before the call").len();
        if self.checkpoints() < had {
            roll::unlinked(Self::W, before, self.checkpoints())
        } else {
            roll::inserted(Self::W, before, &roll::taken(Self::W, before, after), &self.checkpoints_after(had))
        }
    }

    /// Close gives the receipt of the tape's bytes: by lsh_ref, and that of lsh_whole in a list with split rewinds.
    fn compare_receipt(&mut self) {
        let e = self.random.below(8);
        let last = self.random.last_byte(e);
        let whole = self.tape.whole_blocks();
        let padded = lsh_ref::pad::<W>(&self.tape.bytes[whole * Self::BLOCK..], last, e as u32);
        let digest = lsh_ref::finalise(&lsh_ref::forward(&self.chains[whole], &padded), self.n);
        let output = self.compare_close(last, e, &digest);
        if self.kind.steps {
            let mut written = UNTOUCHED;
            let engine = self.random.engine();
            assert_eq!(compare::whole(engine, Self::W, self.n, &self.tape.bytes, last, e, &mut written), ACCEPTED);
            assert_eq!(output, written);
        }
        if self.kind.steps && self.below(4) == 0 {
            self.script_close(last, e, &output);
            self.show_record();
        }
    }

    /// Close leaves the receipt of the tape's bytes and e bits more, which have this digest, and gives the output after it.
    fn compare_close(&mut self, last: u8, e: u64, digest: &[u8]) -> Vec<u8> {
        let bits = 8 * self.tape.bytes.len() as u64 + e;
        let right = [receipt(Self::W, self.n, digest, bits), UNTOUCHED[RECEIPT_BYTES..].to_vec()].concat();
        let mut output = UNTOUCHED;
        assert_eq!(compare::close(self.random.engine(), self.record, last, e, &mut output), ACCEPTED);
        assert_eq!(output[..], right);
        assert_eq!(bit_length(&output), bits);
        right
    }

    fn script_close(&mut self, last: u8, e: u64, output: &[u8]) {
        self.script.engine(self.random);
        self.script.call(format!("close {last:02x} {e} {}", UNTOUCHED.len()), format!("close 0 {}", hex(output)));
    }

    fn show_record(&mut self) {
        self.script.call("record", record_line(&self.record));
    }

    /// The program is one of the same module, so it takes the same slots as the archive.
    fn show_roll(&mut self) {
        if let Some(roll) = &self.roll {
            self.script.call("showroll", format!("showroll {}", hex(roll)));
        }
    }

    /// Holds the record, the roll and the receipts to the definition once more, from the first byte on, and makes the calls through replay.
    pub fn finish(mut self) {
        self.chains.truncate(1);
        self.follow_tape();
        assert_eq!(self.record, self.tape_record());
        if let Some(roll) = &self.roll {
            assert!(roll::shown(Self::W, roll) == self.checkpoints_after(0), "the chains that the roll shows");
        }
        for e in 0..=7 {
            let last = self.random.last_byte(e);
            let digest = lsh_ref::hash_bits::<W>(self.n, &self.tape.bytes, last, e as u32);
            let output = self.compare_close(last, e, &digest);
            self.script_close(last, e, &output);
        }
        self.show_roll();
        self.show_record();
        self.script.compare(&format!("a list of calls with {:?} slots, w = {}", self.kind.slots, W::BITS));
    }

    // ---- random calls ----

    pub fn below(&mut self, limit: usize) -> usize {
        self.random.below(limit as u64) as usize
    }

    pub fn random_call(&mut self) {
        match (self.kind.steps, self.tape.begun, self.below(8)) {
            // Which is out of turn if one is begun.
            (false, ..) | (_, None, 0..=3) | (_, _, 0) => self.random_old_call(),
            (_, None, 4..=5) => self.begin(self.tape.held()),
            _ => self.random_step(),
        }
    }

    /// An Append or a Rewind.
    fn random_old_call(&mut self) {
        match self.below(16) {
            0..=3 => {
                let piece = self.random_piece(3 * Self::BLOCK + 1);
                self.append(&piece);
            }
            4..=9 => {
                let length = self.random_length();
                self.go_to(length);
            }
            10..=11 => {
                let size = self.size_from_block();
                let keep = self.below(size.min(Self::BLOCK - 1) + 1);
                self.rewind(keep as u64, size);
            }
            12 => self.refused_by_lengths(),
            13 => self.refused_by_held_bytes(),
            14 => self.refused_by_opening_chain(),
            _ => self.refused_by_roll(),
        }
    }

    /// A step of a split rewind.
    fn random_step(&mut self) {
        let handed_back = self.tape.handed_back();
        let held = self.tape.held();
        match self.below(15) {
            0..=2 => self.hand_back(),
            3..=4 => {
                let count = if self.tape.begun.is_some() { self.below(self.tape.left() + 1) } else { 0 };
                (0..count).for_each(|_| self.hand_back());
            }
            5..=7 => {
                let keep = self.below(handed_back.min(Self::BLOCK - 1) + 1);
                self.end(keep as u64);
            }
            // More than was handed back, or a block or more.
            8 => {
                let keep = self.random.one_of([handed_back as u64 + 1, Self::BLOCK as u64, 1 << 32, u64::MAX]);
                self.end(keep);
            }
            9 => self.abandon(),
            // Of another length than a block.
            10 => {
                let size = self.random.one_of([0, 1, Self::BLOCK - 1, Self::BLOCK + 1, 2 * Self::BLOCK]);
                let block = self.random.bytes(size);
                self.hand_back_call(&block);
            }
            // Of another length than the held bytes, mostly.
            11 => {
                let size = self.random.one_of([0, held.saturating_sub(1), held + 1, held + Self::BLOCK]);
                self.begin(size.min(self.tape.bytes.len()));
            }
            12 => self.refused_begin(),
            13 => self.refused_end(),
            _ => self.refused_by_roll(),
        }
    }

    fn random_piece(&mut self, most: usize) -> Vec<u8> {
        let size = self.below(most + 1);
        self.random.bytes(size)
    }

    /// Appends to the order, or cuts it, so that it has this length. Some are too long for the roll.
    pub fn go_to(&mut self, length: usize) {
        let total = self.tape.bytes.len();
        if length > total {
            let piece = self.random.bytes(length - total);
            self.append(&piece);
        } else {
            let keep = length % Self::BLOCK;
            self.rewind(keep as u64, total - (length - keep));
        }
    }

    /// A length that is not too far: any, one at a checkpoint (or at a block, without a roll), or one byte beside it.
    fn random_length(&mut self) -> usize {
        let total = self.tape.bytes.len();
        let least = total.saturating_sub(LONGEST);
        let most = (total + LONGEST).min(self.kind.blocks * Self::BLOCK).max(total);
        let any = least + self.below(most - least + 1);
        let unit = if self.roll.is_some() { Self::INTERVAL } else { Self::BLOCK };
        let edge = any / unit * unit;
        match self.below(5) {
            0 | 1 => any,
            2 => edge,
            3 => edge + 1,
            _ => edge.saturating_sub(1),
        }
    }

    /// The size of the last bytes from a random block on, at most 16 blocks.
    fn size_from_block(&mut self) -> usize {
        let blocks = self.tape.whole_blocks();
        let back = self.below(blocks.min(16) + 1);
        self.tape.bytes.len() - (blocks - back) * Self::BLOCK
    }

    /// A refusal that the tape does not know, by a call that is in turn with one begun or with none: 17 comes before it.
    fn refused(&self, number: u32, begun: bool) -> Answer {
        Answer::refused(if self.tape.begun.is_some() == begun { number } else { OUT_OF_TURN })
    }

    /// 6 or 7, mostly.
    fn refused_by_lengths(&mut self) {
        let any = self.below(self.tape.bytes.len().min(LONGEST) + 1);
        let from_block = self.size_from_block();
        match self.below(4) {
            0 => self.rewind(0, any),
            1 => self.rewind(Self::BLOCK as u64, from_block),
            2 => self.rewind(u64::MAX, from_block),
            // Longer than the order.
            _ => {
                let h = self.random.bytes((self.tape.bytes.len() + 1).min(LONGEST));
                if h.len() > self.tape.bytes.len() {
                    let answer = self.tape.rewind(0, h.len());
                    self.rewind_call(0, &h, answer);
                }
            }
        }
    }

    fn flip_bit(&mut self, bytes: &mut [u8]) {
        let place = self.below(bytes.len());
        bytes[place] ^= 1 << self.below(8);
    }

    /// 8: one of the held bytes is another. The tape knows nothing of it and is not asked.
    fn refused_by_held_bytes(&mut self) {
        let held = self.tape.held();
        if held > 0 {
            let size = self.size_from_block();
            let mut h = self.tape.last(size);
            self.flip_bit(&mut h[size - held..]);
            self.rewind_call(0, &h, self.refused(8, false));
        }
    }

    /// 8: a begin with another held byte.
    fn refused_begin(&mut self) {
        let held = self.tape.held();
        if held > 0 {
            let mut bytes = self.tape.last(held);
            self.flip_bit(&mut bytes);
            self.begin_call(&bytes, self.refused(8, false));
        }
    }

    /// The whole order with another bit in one of its whole blocks, if it has some and is not too long.
    fn other_order(&mut self) -> Option<Vec<u8>> {
        let whole = self.tape.whole_blocks() * Self::BLOCK;
        let mut h = self.tape.bytes.clone();
        (1..=LONGEST).contains(&whole).then(|| {
            self.flip_bit(&mut h[..whole]);
            h
        })
    }

    /// 9: another order is handed back as a whole.
    fn refused_by_opening_chain(&mut self) {
        if let Some(h) = self.other_order() {
            self.rewind_call(0, &h, self.refused(9, false));
        }
    }

    /// 9 at the end, where another order was handed back in steps. Abandoning it leads back to the tape.
    fn refused_end(&mut self) {
        let Some(h) = self.other_order().filter(|_| self.tape.begun.is_none()) else {
            return;
        };
        self.record = hand_back_all(self.record, &h, self.random);
        self.script.call(set_line(&self.record), "set");
        let mut roll = self.roll.clone();
        let engine = self.random.engine();
        let outcome = match &mut roll {
            Some(roll) => compare::end_roll(engine, self.record, 0, roll),
            None => compare::end(engine, self.record, 0),
        };
        assert!(outcome == Outcome::refused(9, &self.record) && roll == self.roll, "{}", outcome.number);
        let name = format!("end{}", self.suffix());
        self.script.engine(self.random);
        self.script.call(format!("{name} 0"), format!("{name} 9 0"));
        self.abandon_call(Answer::accepted(0));
    }

    /// 15: a call gets a damaged roll. The order goes on with the right one.
    fn refused_by_roll(&mut self) {
        let (Some(right), Some(mut damaged)) = (self.roll.clone(), self.roll.clone()) else {
            return;
        };
        self.damage(&mut damaged);
        if roll::is_roll_of(Self::W, self.record.total, &damaged) {
            return;
        }
        self.set_roll(damaged);
        match self.below(3) {
            0 => {
                let piece = self.random_piece(2 * Self::INTERVAL);
                self.append_call(&piece, self.refused(BAD_ROLL, false));
            }
            1 => {
                let h = self.random_piece(2 * Self::BLOCK);
                self.rewind_call(0, &h, self.refused(BAD_ROLL, false));
            }
            _ => self.end_call(0, self.refused(BAD_ROLL, true)),
        }
        self.set_roll(right);
    }

    fn set_roll(&mut self, roll: Vec<u8>) {
        self.script.call(format!("rollset {}", hex(&roll)), "rollset");
        self.roll = Some(roll);
    }

    /// Changes an index, or the length. What is left may be a roll of the record.
    fn damage(&mut self, roll: &mut Vec<u8>) {
        let slots = roll::slot_count(Self::W, roll.len()).unwrap();
        let slot = self.below(slots + 1);
        let next = [self.below(slots + 2), 256, 256 + slot, 0xffff][self.below(4)];
        match self.below(8) {
            0 => _ = roll.pop(),
            1 => roll.push(0),
            _ => roll::set_index(Self::W, roll, slot, next),
        }
    }
}
