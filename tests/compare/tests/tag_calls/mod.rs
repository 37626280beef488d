//! The calls for tags: what they have to answer, by the model, and each call through the archive with the script that makes it once more
//! through the program replay, both on an engine at random.

use compare::{hex, record_line, set_line, Outcome, Random, Record, Sameness, Script, ACCEPTED};
use model::script::verdict;
use model::{order, tags, Answer};

/// Guard bytes before and after an output.
const GUARD: usize = 64;

/// A byte of an output before the call, as replay has it.
const UNTOUCHED: u8 = 0xa5;

/// What a call is given, except for an output or a tag.
#[derive(Clone, Copy)]
pub struct Given<'a> {
    pub w: u64,
    pub n: u64,
    pub key: &'a [u8],
    pub message: &'a [u8],
}

// ---- what has to be answered ----

/// The size of an output with room for every tag.
pub const ROOM: usize = 64;

/// The tag, for an output that has room for it.
pub fn right_tag(given: &Given) -> Answer<Vec<u8>> {
    tags::tag(given.w, given.n, given.key, given.message, ROOM)
}

/// The tag, for an output that has room for it.
pub fn right_finish(r: &Record, key: &[u8]) -> Answer<Vec<u8>> {
    tags::tag_finish(r, key, ROOM)
}

// ---- calls ----

/// The calls of a test as they are made.
pub struct Calls {
    pub random: Random,
    /// The record that the archive's calls and the program have.
    pub record: Record,
    script: Script,
}

impl Calls {
    pub fn new(seed: u64) -> Calls {
        Calls { random: Random::new(seed), record: Record::ZEROS, script: Script::default() }
    }

    /// A key or a message of a few blocks at most.
    pub fn some_bytes(&mut self) -> Vec<u8> {
        let limit = self.random.one_of([2, 140, 600]);
        let size = self.random.below(limit);
        self.random.bytes(size as usize)
    }

    /// A digest length that is whole bytes.
    pub fn tag_length(&mut self, w: u64) -> u64 {
        8 * (1 + self.random.below(w))
    }

    /// The tag of one message, with an output of so many bytes.
    pub fn tag(&mut self, given: &Given, room: usize, right: &Answer<Vec<u8>>) {
        let Given { w, n, key, message } = *given;
        let line = format!("tag {w} {n} {} {}", hex(key), hex(message));
        self.write(line, room, right, |engine, output| compare::tag(engine, w, n, key, message, output));
    }

    pub fn finish(&mut self, key: &[u8], room: usize, right: &Answer<Vec<u8>>) {
        let r = self.record;
        let line = format!("tagfinish {}", hex(key));
        self.write(line, room, right, |engine, output| compare::tag_finish(engine, r, key, output));
    }

    pub fn check(&mut self, given: &Given, tag: &[u8], right: Answer<bool>) {
        let Given { w, n, key, message } = *given;
        let line = format!("tagcheck {w} {n} {} {} {}", hex(key), hex(message), hex(tag));
        assert_eq!(tags::tag_check(w, n, key, message, tag), right, "{line}");
        let same = Sameness { number: right.err().unwrap_or(ACCEPTED), same: right == Ok(true) };
        assert_eq!(compare::tag_check(self.random.engine(), w, n, key, message, tag), same, "{line}");
        self.script_call(line, format!("tagcheck {}", verdict(right)));
    }

    pub fn start(&mut self, given: &Given) {
        let Given { w, n, key, .. } = *given;
        let right = tags::tag_start(w, n, key);
        let line = format!("tagstart {w} {n} {}", hex(key));
        let outcome = compare::tag_start(self.random.engine(), w, n, key);
        self.follow(line, outcome, right, format!("tagstart {}", right.number));
    }

    /// Gives the number of the answer.
    pub fn append(&mut self, piece: &[u8]) -> u32 {
        let right = order::append(&self.record, piece);
        let outcome = compare::append(self.random.engine(), self.record, piece);
        let printed = format!("append {} {}", right.number, right.count);
        self.follow(format!("append {}", hex(piece)), outcome, right, printed);
        right.number
    }

    /// A Rewind that has to leave this record.
    pub fn rewind(&mut self, keep: u64, h: &[u8], next: Record) {
        let right = Outcome { number: ACCEPTED, count: h.len() as u64 / (4 * next.w), next };
        let line = format!("rewind {keep} {}", hex(h));
        let outcome = compare::rewind(self.random.engine(), self.record, keep, h);
        self.follow(line, outcome, right, format!("rewind 0 {}", right.count));
    }

    /// Makes the record another one.
    pub fn set(&mut self, r: Record) {
        self.script.call(set_line(&r), "set");
        self.record = r;
    }

    /// Shows the record that the program has.
    pub fn show(&mut self) {
        self.script.call("record", record_line(&self.record));
    }

    /// A line that replay takes for no call.
    pub fn no_call(&mut self, line: &str) {
        self.script.no_call(line);
    }

    /// Makes all calls once more through replay.
    pub fn end(mut self, what: &str) {
        self.show();
        self.script.compare(what);
    }

    /// A call that writes a tag: its answer, and every byte of the output and around it.
    fn write(&mut self, line: String, room: usize, right: &Answer<Vec<u8>>, call: impl FnOnce(u64, &mut [u8]) -> u32) {
        let mut memory = vec![UNTOUCHED; GUARD + room + GUARD];
        let mut expected = memory.clone();
        let number = match right {
            Ok(tag) if tag.len() > room => 12,
            Ok(tag) => {
                expected[GUARD..][..tag.len()].copy_from_slice(tag);
                ACCEPTED
            }
            Err(number) => *number,
        };
        let answer = call(self.random.engine(), &mut memory[GUARD..GUARD + room]);
        assert_eq!(answer, number, "{line}, output of {room} bytes");
        assert!(
            memory == expected,
            "{line}: {GUARD} bytes, output and bytes after it\n{memory:02x?}\nexpected\n{expected:02x?}"
        );
        let name = line.split(' ').next().unwrap();
        let printed = format!("{name} {number} {}", hex(&expected[GUARD..GUARD + room]));
        self.script_call(format!("{line} {room}"), printed);
    }

    /// A call that returns a record, which is kept.
    fn follow(&mut self, line: String, outcome: Outcome, right: Outcome, printed: String) {
        assert_eq!(outcome, right, "{line}");
        self.script_call(line, printed);
        self.record = right.next;
    }

    fn script_call(&mut self, line: String, printed: String) {
        self.script.engine(&mut self.random);
        self.script.call(line, printed);
    }
}
