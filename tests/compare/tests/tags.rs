//! Tags with a key against the vectors of Crypto++ and the HMAC of the model: of one message, of pieces, as they are checked, and of any
//! record. Each call goes through the archive and once more through the program replay.

mod forged;
mod tag_calls;
mod vector_file;

use compare::{at_both_word_sizes, hand_back_all, places, Random, Record, ACCEPTED, MOST_BYTES, NO_WHOLE_BYTES};
use forged::{forged_record, sound_records, unsound};
use lsh_ref::Word;
use model::tags::{hmac, inner_block, tag_of_digest};
use model::{lsh, Answer};
use tag_calls::{right_finish, right_tag, Calls, Given, ROOM};
use vector_file::hexadecimal;

at_both_word_sizes! {
    digest_lengths bits_of_a_tag numbers_refused other_digest_lengths the_limit unsound_records
    records_of_no_order corrections
}

/// The largest size of an output that replay takes.
const MOST_ROOM: usize = 4096;

// ---- all ways to a tag ----

const VECTORS: usize = 120;

#[test]
fn vectors() {
    let mut calls = Calls::new(1);
    let text = vector_file::read("hmac.txt");
    assert_eq!(text.lines().count(), VECTORS);
    for line in text.lines() {
        let [numbers, key, message, tag] =
            line.split(' ').collect::<Vec<_>>().try_into().expect("four words in a line");
        let (w, n) = numbers.split_once('-').expect("w and n");
        let [w, n] = [w, n].map(|number| number.parse().expect("a number"));
        let [key, message, tag] = [key, message, tag].map(bytes);
        let given = Given { w, n, key: &key, message: &message };
        assert_eq!(right_tag(&given).as_ref(), Ok(&tag), "the HMAC of the model");
        try_all_ways(&mut calls, &given, &tag);
    }
    calls.end("vectors");
}

/// Hexadecimal digits, or a dash for no bytes.
fn bytes(text: &str) -> Vec<u8> {
    match text {
        "-" => Vec::new(),
        digits => hexadecimal(digits),
    }
}

/// The tag of one message, of pieces, and as it is checked.
fn try_all_ways(calls: &mut Calls, given: &Given, tag: &[u8]) {
    let right = Ok(tag.to_vec());
    try_tag(calls, given, &right);
    calls.start(given);
    for piece in pieces(given.message, &mut calls.random) {
        assert_eq!(calls.append(piece), ACCEPTED);
    }
    try_finish(calls, given.key, &right);
    try_check(calls, given, &right);
}

fn try_tag(calls: &mut Calls, given: &Given, right: &Answer<Vec<u8>>) {
    for room in rooms(right, &mut calls.random) {
        calls.tag(given, room, right);
    }
}

fn try_finish(calls: &mut Calls, key: &[u8], right: &Answer<Vec<u8>>) {
    for room in rooms(right, &mut calls.random) {
        calls.finish(key, room, right);
    }
}

/// The size of an output that has room for the tag, and a shorter one.
fn rooms(right: &Answer<Vec<u8>>, random: &mut Random) -> [usize; 2] {
    let Ok(tag) = right else {
        return [ROOM, 0];
    };
    let more = tag.len() + random.below(100) as usize;
    let less = random.below(tag.len() as u64) as usize;
    [random.one_of([tag.len(), more]), random.one_of([tag.len() - 1, less])]
}

/// With the tag if there is one, and with other bytes.
fn try_check(calls: &mut Calls, given: &Given, right: &Answer<Vec<u8>>) {
    let verdict = |same| right.clone().map(|_| same);
    let tag = right.clone().unwrap_or_else(|_| calls.random.bytes(ROOM));
    calls.check(given, &tag, verdict(true));
    for other in other_tags(&tag, &mut calls.random) {
        calls.check(given, &other, verdict(false));
    }
}

/// The message in pieces, some of them empty.
fn pieces<'a>(message: &'a [u8], random: &mut Random) -> Vec<&'a [u8]> {
    let mut pieces = Vec::new();
    let mut rest = message;
    while !rest.is_empty() || random.below(2) == 0 {
        let any = random.below(rest.len() as u64 + 1) as usize;
        let (piece, after) = rest.split_at(random.one_of([0, 1, any, any, any]).min(rest.len()));
        pieces.push(piece);
        rest = after;
    }
    pieces
}

/// The tag with a bit changed, shortened, and with a byte more.
fn other_tags(tag: &[u8], random: &mut Random) -> [Vec<u8>; 3] {
    let place = random.below(tag.len() as u64) as usize;
    let mut changed = tag.to_vec();
    changed[place] ^= 1 << random.below(8);
    [changed, tag[..place].to_vec(), [tag, &random.bytes(1)].concat()]
}

/// Every n that is a multiple of 8, with keys about a block and messages about the ends of blocks.
fn digest_lengths<W: Word>() {
    let w = W::BITS as u64;
    let block = W::BLOCK_BYTES;
    let mut calls = Calls::new(37 * w);
    for n in (8..=8 * w).step_by(8) {
        for key_len in [0, 1, n as usize / 8, block - 1, block, block + 1, 2 * block, 3 * block + 5] {
            for message_len in [0, 1, block - 1, block, block + 1, 2 * block - 1, 2 * block] {
                let key = calls.random.bytes(key_len);
                let message = calls.random.bytes(message_len);
                let given = Given { w, n, key: &key, message: &message };
                try_all_ways(&mut calls, &given, &right_tag(&given).unwrap());
            }
        }
    }
    calls.end("digest lengths");
}

/// Checks of a tag with each of its bits changed, and of all shorter and many longer ones.
fn bits_of_a_tag<W: Word>() {
    let w = W::BITS as u64;
    let mut calls = Calls::new(41 * w);
    for n in [8, 16, 4 * w, 8 * w] {
        let (key, message) = (calls.random.bytes(20), calls.random.bytes(30));
        let given = Given { w, n, key: &key, message: &message };
        let tag = right_tag(&given).unwrap();
        for bit in 0..n as usize {
            let mut other = tag.clone();
            other[bit / 8] ^= 1 << (bit % 8);
            calls.check(&given, &other, Ok(false));
        }
        let longer = [&tag[..], &[0; 256], &tag].concat();
        for length in 0..longer.len() {
            calls.check(&given, &longer[..length], Ok(length == tag.len()));
        }
    }
    calls.end("bits of a tag");
}

// ---- refusals ----

/// 1, 2 and 18, each with what is tested after it.
fn numbers_refused<W: Word>() {
    let w = W::BITS as u64;
    let mut calls = Calls::new(43 * w);
    for n in (0..=8 * w).chain(wrong_digest_lengths(w)) {
        try_numbers(&mut calls, w, n);
    }
    for wrong in wrong_word_sizes(w) {
        for n in wrong_digest_lengths(w).into_iter().chain([1, 7, 8, 9, 8 * w]) {
            try_numbers(&mut calls, wrong, n);
        }
    }
    calls.end("numbers refused");
}

/// Some would be right if they were cut to fewer bits.
fn wrong_word_sizes(w: u64) -> [u64; 10] {
    [0, 1, 8, w - 1, w + 1, 96, 128, (1 << 32) + w, (1 << 63) + w, u64::MAX]
}

fn wrong_digest_lengths(w: u64) -> [u64; 9] {
    [0, 8 * w + 1, 8 * w + 8, 16 * w, (1 << 16) + 8, (1 << 32) + 8 * w, (1 << 63) + 8, u64::MAX - 7, u64::MAX]
}

/// The calls with these numbers, and those on the record that a start returns.
fn try_numbers(calls: &mut Calls, w: u64, n: u64) {
    let (key, message) = (calls.some_bytes(), calls.some_bytes());
    let given = Given { w, n, key: &key, message: &message };
    let right = right_tag(&given);
    try_tag(calls, &given, &right);
    try_check(calls, &given, &right);
    calls.start(&given);
    calls.append(&message);
    let right = right_finish(&calls.record, &key);
    try_finish(calls, &key, &right);
}

/// 18 at the finish of an order with such an n, before 12.
fn other_digest_lengths<W: Word>() {
    let w = W::BITS as u64;
    let mut calls = Calls::new(47 * w);
    for n in (1..=8 * w).filter(|n| !n.is_multiple_of(8)) {
        let (key, message) = (calls.some_bytes(), calls.some_bytes());
        let opened = compare::open(calls.random.engine(), w, n);
        calls.set(opened.next);
        assert_eq!(calls.append(&message), ACCEPTED);
        try_finish(&mut calls, &key, &Err(NO_WHOLE_BYTES));
    }
    calls.end("other digest lengths");
}

/// 5 for a piece that would pass the limit; the tag is then still that of the pieces that were taken.
fn the_limit<W: Word>() {
    let w = W::BITS as u64;
    let block = W::BLOCK_BYTES;
    let mut calls = Calls::new(53 * w);
    for left in [0, 1, 2, block - 1, block, block + 1, 3 * block] {
        let key = calls.some_bytes();
        let n = calls.tag_length(w);
        calls.start(&Given { w, n, key: &key, message: &[] });
        // No test can append so many bytes, so the record is made one of a longer message with the same chain.
        let chain = calls.record.chain.map(W::from_u64);
        let total = MOST_BYTES - left as u64;
        let mut since = calls.random.bytes(total as usize % block);
        calls.set(Record { total, held: places(&since), ..calls.record });
        for (size, number) in [(left + 1, 5), (left / 2, ACCEPTED), (left + 1, 5), (left - left / 2, ACCEPTED), (1, 5)]
        {
            let piece = calls.random.bytes(size);
            assert_eq!(calls.append(&piece), number);
            if number == ACCEPTED {
                since.extend(piece);
            }
            let tag = tag_of_digest(w, n, &key, &lsh_ref::hash_from(chain, n, &since));
            try_finish(&mut calls, &key, &Ok(tag));
        }
    }
    calls.end("the limit");
}

/// 3 at the finish, before 18 and 12.
fn unsound_records<W: Word>() {
    let w = W::BITS as u64;
    let mut calls = Calls::new(59 * w);
    for total in [0, 5, 2 * W::BLOCK_BYTES as u64 + 5, MOST_BYTES] {
        let key = calls.some_bytes();
        for r in sound_records(w, total, &mut calls.random) {
            let n = calls.tag_length(w);
            for forged in unsound(&Record { n: calls.random.one_of([n, r.n]), ..r }) {
                calls.set(forged);
                let room = calls.random.one_of([0, ROOM]);
                calls.finish(&key, room, &Err(3));
            }
        }
    }
    calls.end("unsound records");
}

// ---- the finish of any record ----

/// Sound records, with a split rewind begun too. A finish leaves them.
fn records_of_no_order<W: Word>() {
    let w = W::BITS as u64;
    let mut calls = Calls::new(61 * w);
    for _ in 0..400 {
        let r = forged_record::<W>(&mut calls.random);
        let tag_length = calls.tag_length(w);
        let n = calls.random.one_of([tag_length, tag_length, tag_length, r.n]);
        calls.set(Record { n, ..r });
        let key = calls.some_bytes();
        let right = right_finish(&calls.record, &key);
        try_finish(&mut calls, &key, &right);
        calls.show();
    }
    calls.end("records of no order");
}

/// Tags of messages that were cut and appended to. At last the key's block is cut, which no finish sees.
fn corrections<W: Word>() {
    let w = W::BITS as u64;
    let block = W::BLOCK_BYTES;
    let mut calls = Calls::new(67 * w);
    for _ in 0..60 {
        let key = calls.some_bytes();
        let n = calls.tag_length(w);
        calls.start(&Given { w, n, key: &key, message: &[] });
        let mut hashed = inner_block(w, n, &key);
        for _ in 0..15 {
            let length = block + calls.random.below(4 * block as u64) as usize;
            go_to::<W>(&mut calls, n, &mut hashed, length);
            let right = Ok(hmac(w, n, &key, &hashed[block..]));
            try_finish(&mut calls, &key, &right);
            finish_begun::<W>(&mut calls, &hashed, &key, &right);
        }
        let length = calls.random.below(block as u64) as usize;
        go_to::<W>(&mut calls, n, &mut hashed, length);
        let right = Ok(tag_of_digest(w, n, &key, &lsh::digest(w, n, &hashed)));
        try_finish(&mut calls, &key, &right);
    }
    calls.end("corrections");
}

/// Appends to what is hashed, or cuts it, so that it has this length.
fn go_to<W: Word>(calls: &mut Calls, n: u64, hashed: &mut Vec<u8>, length: usize) {
    if length > hashed.len() {
        let piece = calls.random.bytes(length - hashed.len());
        assert_eq!(calls.append(&piece), ACCEPTED);
        hashed.extend(piece);
    } else {
        let keep = length % W::BLOCK_BYTES;
        calls.rewind(keep as u64, &hashed[length - keep..], Record::of(W::BITS as u64, n, &hashed[..length]));
        hashed.truncate(length);
    }
}

/// The tag is the same while a split rewind is begun.
fn finish_begun<W: Word>(calls: &mut Calls, hashed: &[u8], key: &[u8], right: &Answer<Vec<u8>>) {
    let r = calls.record;
    let left = calls.random.below((hashed.len() / W::BLOCK_BYTES) as u64 + 1) as usize;
    let begun = hand_back_all(r, &hashed[left * W::BLOCK_BYTES..], &mut calls.random);
    calls.set(begun);
    calls.finish(key, ROOM, right);
    calls.set(r);
}

// ---- scripts ----

/// Calls in any order, right and wrong ones, and lines that are none.
#[test]
fn random_calls() {
    let mut calls = Calls::new(71);
    for round in 0..150 {
        let key = calls.some_bytes();
        for _ in 0..10 {
            random_call(&mut calls, &key);
        }
        calls.no_call(NO_CALLS[round % NO_CALLS.len()]);
    }
    calls.end("random calls");
}

fn random_call(calls: &mut Calls, key: &[u8]) {
    let (w, n) = random_numbers(calls);
    let (other_key, message) = (calls.some_bytes(), calls.some_bytes());
    let given = Given { w, n, key, message: &message };
    let room = calls.random.one_of([0, (n / 8).min(MOST_ROOM as u64) as usize, ROOM, MOST_ROOM]);
    match calls.random.below(8) {
        0 => calls.tag(&given, room, &right_tag(&given)),
        1 => try_check(calls, &given, &right_tag(&given)),
        2 => calls.start(&given),
        3 => calls.finish(&other_key, room, &right_finish(&calls.record, &other_key)),
        4 => calls.finish(key, room, &right_finish(&calls.record, key)),
        _ => _ = calls.append(&message),
    }
}

/// w and n, of which one is wrong in a quarter of the cases.
fn random_numbers(calls: &mut Calls) -> (u64, u64) {
    let w = calls.random.one_of([32, 64]);
    let n = calls.tag_length(w);
    match calls.random.below(12) {
        0 => (calls.random.one_of(wrong_word_sizes(w)), n),
        1 => (w, calls.random.one_of(wrong_digest_lengths(w))),
        2 => (w, n - 1 - calls.random.below(7)),
        _ => (w, n),
    }
}

/// Lines with a number or an output too large, a word missing or too many, and digits that are none.
const NO_CALLS: [&str; 15] = [
    "tag 18446744073709551616 256 - - 32",
    "tag 32 18446744073709551616 - - 32",
    "tag 32 256 - - 4097",
    "tag 32 256 - -",
    "tag 32 256 - - 32 -",
    "tag 32 256 0 - 32",
    "tagstart 18446744073709551648 256 -",
    "tagstart 32 18446744073709551872 -",
    "tagstart 32 256",
    "tagfinish - 4097",
    "tagfinish -",
    "tagfinish 32",
    "tagcheck 32 256 - - 0A",
    "tagcheck 32 256 - -",
    "tagcheck 18446744073709551648 256 - - -",
];
