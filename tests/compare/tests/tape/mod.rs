//! Document 01's plain tape, with the slots of a roll and the mark and the number of a split rewind that document 02 (W1, W6) adds to it.

use compare::roll::CHECKPOINT_BLOCKS;
use compare::{MOST_BYTES, OUT_OF_TURN};
use lsh_ref::Word;

/// The answer to a call: its number, and the count of blocks.
#[derive(Clone, Copy, PartialEq, Eq, Debug)]
pub struct Answer {
    pub number: u32,
    pub count: usize,
}

impl Answer {
    pub fn accepted(count: usize) -> Answer {
        Answer { number: 0, count }
    }

    pub fn refused(number: u32) -> Answer {
        Answer { number, count: 0 }
    }
}

/// The tape: the bytes of the order, the slots of its roll if it has one, and how many blocks were handed back if a split rewind is begun. It
/// refuses by lengths and by these alone.
pub struct Tape {
    pub block: usize,
    pub slots: Option<usize>,
    pub bytes: Vec<u8>,
    pub begun: Option<usize>,
}

impl Tape {
    pub fn new<W: Word>(slots: Option<usize>) -> Tape {
        Tape { block: W::BLOCK_BYTES, slots, bytes: Vec::new(), begun: None }
    }

    pub fn whole_blocks(&self) -> usize {
        self.bytes.len() / self.block
    }

    /// How many bytes there are since the last whole block.
    pub fn held(&self) -> usize {
        self.bytes.len() % self.block
    }

    /// How many whole blocks are not yet handed back.
    pub fn left(&self) -> usize {
        self.whole_blocks() - self.begun.unwrap_or(0)
    }

    /// The size of the bytes handed back so far, with the held ones.
    pub fn handed_back(&self) -> usize {
        self.bytes.len() - self.left() * self.block
    }

    pub fn append(&mut self, piece: &[u8]) -> Answer {
        if self.begun.is_some() {
            return Answer::refused(OUT_OF_TURN);
        }
        let length = self.bytes.len() + piece.len();
        if length as u64 > MOST_BYTES {
            return Answer::refused(5);
        }
        if self.slots.is_some_and(|slots| length / self.block / CHECKPOINT_BLOCKS > slots) {
            return Answer::refused(16);
        }
        let before = self.whole_blocks();
        self.bytes.extend(piece);
        Answer::accepted(self.whole_blocks() - before)
    }

    pub fn rewind(&mut self, keep: u64, size: usize) -> Answer {
        if self.begun.is_some() {
            return Answer::refused(OUT_OF_TURN);
        }
        if size > self.bytes.len() || !(self.bytes.len() - size).is_multiple_of(self.block) {
            return Answer::refused(6);
        }
        self.cut(keep, size)
    }

    pub fn begin(&mut self, size: usize) -> Answer {
        if self.begun.is_some() {
            return Answer::refused(OUT_OF_TURN);
        }
        if size != self.held() {
            return Answer::refused(6);
        }
        self.begun = Some(0);
        Answer::accepted(0)
    }

    pub fn hand_back(&mut self, size: usize) -> Answer {
        let Some(number) = self.begun else {
            return Answer::refused(OUT_OF_TURN);
        };
        if size != self.block || self.left() == 0 {
            return Answer::refused(6);
        }
        self.begun = Some(number + 1);
        Answer::accepted(0)
    }

    pub fn end(&mut self, keep: u64) -> Answer {
        if self.begun.is_none() {
            return Answer::refused(OUT_OF_TURN);
        }
        self.cut(keep, self.handed_back())
    }

    pub fn abandon(&mut self) -> Answer {
        if self.begun.take().is_none() {
            return Answer::refused(OUT_OF_TURN);
        }
        Answer::accepted(0)
    }

    /// Takes off the last bytes, as many as `size`, but for the first keep of them. No split rewind is begun then.
    fn cut(&mut self, keep: u64, size: usize) -> Answer {
        if keep > size as u64 || keep >= self.block as u64 {
            return Answer::refused(7);
        }
        self.bytes.truncate(self.bytes.len() - size + keep as usize);
        self.begun = None;
        Answer::accepted(size / self.block)
    }

    /// The last bytes, as many as `size`.
    pub fn last(&self, size: usize) -> Vec<u8> {
        self.bytes[self.bytes.len() - size..].to_vec()
    }
}
