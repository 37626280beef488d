//! Same and Tally against a model written here: a receipt's form by its fields, blanks by the length, and firsts by a set. Each call is made
//! through the archive and once more through the program replay.

use compare::{
    bit_length, hex, Counts, Random, Sameness, Script, ACCEPTED, DIGEST_PLACE, LENGTH_PLACE, MALFORMED, MOST_BITS,
    MOST_RECEIPTS, NO_RECEIPTS, RECEIPT_BYTES,
};
use lsh_ref::Word;
use std::collections::HashSet;

/// The answer of an accepted tally of no receipts.
const NO_COUNTS: Counts = Counts { number: ACCEPTED, place: 0, firsts: 0, reprints: 0, blanks: 0 };

type Receipt = [u8; RECEIPT_BYTES];

/// A well-formed receipt with a random digest.
fn receipt(w: u64, n: u64, bits: u64, random: &mut Random) -> Receipt {
    let mut digest = random.bytes(n.div_ceil(8) as usize);
    if !n.is_multiple_of(8) {
        *digest.last_mut().unwrap() &= 0xff << (8 - n % 8);
    }
    compare::receipt(w, n, &digest, bits).try_into().unwrap()
}

/// The receipt with another length.
fn with_length(mut receipt: Receipt, bits: u64) -> Receipt {
    receipt[LENGTH_PLACE..].copy_from_slice(&bits.to_le_bytes());
    receipt
}

/// A length that a message can have: none, few bits, any, or the most.
fn random_length(random: &mut Random) -> u64 {
    match random.below(4) {
        0 => 0,
        1 => random.below(1000),
        2 => random.below(MOST_BITS + 1),
        _ => MOST_BITS,
    }
}

fn random_receipt(random: &mut Random) -> Receipt {
    let w = if random.below(2) == 0 { 32 } else { 64 };
    let n = 1 + random.below(8 * w);
    let bits = random_length(random);
    receipt(w, n, bits, random)
}

/// What makes two receipts the same if they agree in it: the word size, the digest length, the digest and the length of
/// the message in bits.
fn fields(receipt: &Receipt) -> (u8, u16, &[u8], u64) {
    let n = digest_length(receipt);
    (receipt[0], n, &receipt[DIGEST_PLACE..digest_end(n)], bit_length(receipt))
}

fn digest_length(receipt: &Receipt) -> u16 {
    u16::from_le_bytes([receipt[2], receipt[3]])
}

/// Where a digest of n bits ends.
fn digest_end(n: u16) -> usize {
    DIGEST_PLACE + usize::from(n.div_ceil(8))
}

/// Every way in which the bytes of a receipt can be wrong.
#[derive(Clone, Copy, Debug)]
enum Damage {
    WordSize,
    ByteOne,
    NoDigest,
    LongDigest,
    UnusedBit,
    TrailingByte,
    LongMessage,
}

const DAMAGES: [Damage; 7] = [
    Damage::WordSize,
    Damage::ByteOne,
    Damage::NoDigest,
    Damage::LongDigest,
    Damage::UnusedBit,
    Damage::TrailingByte,
    Damage::LongMessage,
];

fn damaged(damage: Damage, random: &mut Random) -> Receipt {
    // A digest with unused bits and room after it.
    let n = 1 + 8 * random.below(31);
    let bits = random_length(random);
    let mut bytes = receipt(32, n, bits, random);
    let end = digest_end(n as u16);
    match damage {
        Damage::WordSize => bytes[0] ^= 1 << random.below(8),
        Damage::ByteOne => bytes[1] ^= 1 << random.below(8),
        Damage::NoDigest => bytes[2..LENGTH_PLACE].fill(0),
        Damage::LongDigest => bytes[2..DIGEST_PLACE].copy_from_slice(&257_u16.to_le_bytes()),
        Damage::UnusedBit => bytes[end - 1] ^= 1 << random.below(7),
        Damage::TrailingByte => {
            let place = end + random.below((LENGTH_PLACE - end) as u64) as usize;
            bytes[place] ^= 1 << random.below(8);
        }
        // By one bit, or by any number of them.
        Damage::LongMessage => {
            let above = if random.below(2) == 0 { 0 } else { random.below(u64::MAX - MOST_BITS) };
            bytes = with_length(bytes, MOST_BITS + 1 + above);
        }
    }
    bytes
}

/// What Tally answers to a list of receipts, of which the one at a place may be malformed.
fn right_counts(receipts: &[Receipt], malformed: Option<usize>) -> Counts {
    if receipts.len() > MOST_RECEIPTS {
        return Counts { number: NO_RECEIPTS, ..NO_COUNTS };
    }
    if let Some(place) = malformed {
        return Counts { number: MALFORMED, place: place as u64, ..NO_COUNTS };
    }
    let prints: Vec<_> = receipts.iter().map(fields).filter(|&(.., bits)| bits != 0).collect();
    let firsts = prints.iter().collect::<HashSet<_>>().len();
    Counts {
        firsts: firsts as u64,
        reprints: (prints.len() - firsts) as u64,
        blanks: (receipts.len() - prints.len()) as u64,
        ..NO_COUNTS
    }
}

/// Calls of the archive as they are made, and the script that makes them once more with the answers that replay has to print.
#[derive(Default)]
struct Calls {
    script: Script,
}

impl Calls {
    fn tally(&mut self, receipts: &[Receipt], malformed: Option<usize>) {
        self.tally_bytes(&receipts.concat(), right_counts(receipts, malformed));
    }

    fn tally_bytes(&mut self, list: &[u8], right: Counts) {
        assert_eq!(compare::tally(list), right);
        let Counts { number, place, firsts, reprints, blanks } = right;
        let place = if number == MALFORMED { format!(" {place}") } else { String::new() };
        self.script.call(format!("tally {}", hex(list)), format!("tally {number}{place} {firsts} {reprints} {blanks}"));
    }

    fn same(&mut self, a: &[u8], b: &[u8], number: u32, same: bool) {
        assert_eq!(compare::same(a, b), Sameness { number, same });
        let verdict = match (number, same) {
            (ACCEPTED, true) => " yes",
            (ACCEPTED, false) => " no",
            _ => "",
        };
        self.script.call(format!("same {} {}", hex(a), hex(b)), format!("same {number}{verdict}"));
    }

    fn replay(self, what: &str) {
        self.script.compare(what);
    }
}

/// Lists in which some receipts come again, and some with another length.
fn random_list(count: usize, random: &mut Random) -> Vec<Receipt> {
    let mut receipts: Vec<Receipt> = Vec::new();
    for place in 0..count {
        if place == 0 || random.below(3) != 0 {
            receipts.push(random_receipt(random));
            continue;
        }
        let earlier = receipts[random.below(place as u64) as usize];
        let again = random.below(2) == 0;
        receipts.push(if again { earlier } else { with_length(earlier, random_length(random)) });
    }
    receipts
}

#[test]
fn random_lists() {
    let mut random = Random::new(11);
    let mut calls = Calls::default();
    for count in (0..40).chain([100, 500]) {
        calls.tally(&random_list(count, &mut random), None);
    }
    calls.replay("random lists");
}

fn shuffle(receipts: &mut [Receipt], random: &mut Random) {
    for last in (1..receipts.len()).rev() {
        receipts.swap(last, random.below(last as u64 + 1) as usize);
    }
}

/// One of each of the receipts that are no blanks.
fn different(receipts: &[Receipt]) -> Vec<Receipt> {
    let mut choice: Vec<Receipt> = receipts.iter().copied().filter(|receipt| bit_length(receipt) != 0).collect();
    choice.sort_unstable();
    choice.dedup();
    choice
}

/// The same receipts in another order have the counts of the first order: shuffled, and with the same ones side by side.
#[test]
fn receipts_in_any_order() {
    let mut random = Random::new(18);
    let mut calls = Calls::default();
    for count in (0..40).chain([100, 500, MOST_RECEIPTS]) {
        let mut list = random_list(count, &mut random);
        let first = compare::tally(&list.concat());
        for _ in 0..8 {
            shuffle(&mut list, &mut random);
            calls.tally_bytes(&list.concat(), first);
        }
        list.sort_unstable();
        calls.tally_bytes(&list.concat(), first);

        // One of each is a first in a list of these alone, and there are as many of them as firsts in the whole list.
        let choice = different(&list);
        assert_eq!(first.firsts, choice.len() as u64);
        calls.tally_bytes(&choice.concat(), Counts { firsts: first.firsts, ..NO_COUNTS });
    }
    calls.replay("receipts in any order");
}

/// Every list of up to five of these: three prints, of which two differ in the length alone, and two blanks. The counts are worked out from how often
/// each stands in the list, and from nothing else.
#[test]
fn every_order_of_a_few_receipts() {
    let mut random = Random::new(19);
    let mut calls = Calls::default();
    let print = receipt(64, 512, 1, &mut random);
    let prints = [print, with_length(print, 2), receipt(32, 255, 1, &mut random)];
    let blanks = [with_length(print, 0), receipt(32, 256, 0, &mut random)];
    let kinds = [&prints[..], &blanks].concat();
    for length in 0..=5 {
        for number in 0..kinds.len().pow(length) {
            let places: Vec<usize> = (0..length).map(|place| number / kinds.len().pow(place) % kinds.len()).collect();
            let mut how_often = vec![0; kinds.len()];
            for &kind in &places {
                how_often[kind] += 1;
            }
            let (prints_often, blanks_often) = how_often.split_at(prints.len());
            let firsts = prints_often.iter().filter(|&&often| often > 0).count() as u64;
            let right = Counts {
                firsts,
                reprints: prints_often.iter().sum::<u64>() - firsts,
                blanks: blanks_often.iter().sum(),
                ..NO_COUNTS
            };
            let list: Vec<Receipt> = places.iter().map(|&kind| kinds[kind]).collect();
            calls.tally_bytes(&list.concat(), right);
        }
    }
    calls.replay("every order of a few receipts");
}

#[test]
fn the_most_receipts_and_one_more() {
    let mut random = Random::new(12);
    let mut calls = Calls::default();
    for count in [MOST_RECEIPTS - 1, MOST_RECEIPTS, MOST_RECEIPTS + 1] {
        let different: Vec<Receipt> = (0..count).map(|_| receipt(64, 512, MOST_BITS, &mut random)).collect();
        calls.tally(&different, None);
        calls.tally(&vec![different[0]; count], None);
        calls.tally(&vec![with_length(different[0], 0); count], None);
        let by_length: Vec<Receipt> = (0..count).map(|place| with_length(different[0], place as u64)).collect();
        calls.tally(&by_length, None);
        calls.tally(&random_list(count, &mut random), None);
    }
    calls.replay("the most receipts and one more");
}

/// A blank is known by its length: the receipt of no bits is one, as Whole writes it and with any other digest, and the digest of no bits with
/// another length is none.
fn try_blanks<W: Word>(calls: &mut Calls, random: &mut Random) {
    let w = W::BITS as u64;
    for n in 1..=8 * w {
        let digest = lsh_ref::hash_bits::<W>(n, &[], 0, 0);
        let blank: Receipt = compare::receipt(w, n, &digest, 0).try_into().unwrap();
        let mut written = [0; RECEIPT_BYTES];
        let answer = compare::whole(random.engine(), w, n, &[], 0, 0, &mut written);
        assert_eq!((answer, written), (ACCEPTED, blank), "w = {w}, n = {n}");

        let other = receipt(w, n, 0, random);
        calls.tally_bytes(&[blank, other, blank].concat(), Counts { blanks: 3, ..NO_COUNTS });
        let print = with_length(blank, 1 + random.below(MOST_BITS));
        calls.tally_bytes(&[print, blank, print].concat(), Counts { firsts: 1, reprints: 1, blanks: 1, ..NO_COUNTS });
    }
}

#[test]
fn blanks() {
    let mut random = Random::new(17);
    let mut calls = Calls::default();
    try_blanks::<u32>(&mut calls, &mut random);
    try_blanks::<u64>(&mut calls, &mut random);
    calls.replay("blanks");
}

/// Receipts that differ in one bit alone: of the digest, of n, or of the word size.
#[test]
fn receipts_that_differ_in_one_bit() {
    let mut random = Random::new(13);
    let mut calls = Calls::default();
    let one = receipt(64, 512, 1, &mut random);
    let mut list = vec![one];
    for place in DIGEST_PLACE..LENGTH_PLACE {
        let mut other = one;
        other[place] ^= 1 << random.below(8);
        calls.same(&one, &other, ACCEPTED, false);
        list.push(other);
    }
    calls.tally(&list, None);

    // The digest's bits are all 0, so that another n and another w leave the receipt well formed.
    let mut zeros = with_length([0; RECEIPT_BYTES], 1);
    zeros[..DIGEST_PLACE].copy_from_slice(&[32, 0, 8, 0]);
    let mut longer = zeros;
    longer[2] = 9;
    let mut wider = zeros;
    wider[0] = 64;
    for other in [&longer, &wider] {
        calls.same(&zeros, other, ACCEPTED, false);
    }
    calls.tally(&[zeros, longer, wider, zeros], None);
    calls.replay("receipts that differ in one bit");
}

/// Receipts that differ in the length alone, in each bit of its eight bytes: they are not the same and are counted apart, or the length is
/// above the limit.
#[test]
fn receipts_that_differ_in_the_length() {
    let mut random = Random::new(16);
    let mut calls = Calls::default();
    let one = receipt(64, 512, 0, &mut random);
    let mut list = vec![one];
    for bits in (0..u64::BITS).map(|place| 1 << place) {
        let other = with_length(one, bits);
        if bits <= MOST_BITS {
            calls.same(&one, &other, ACCEPTED, false);
            list.push(other);
        } else {
            calls.same(&one, &other, MALFORMED, false);
            calls.tally(&[one, other], Some(1));
        }
    }
    // The one of length 0 is a blank.
    let count = list.len() as u64 - 1;
    let list = list.concat();
    calls.tally_bytes(&list, Counts { firsts: count, blanks: 1, ..NO_COUNTS });
    calls.tally_bytes(&list.repeat(2), Counts { firsts: count, reprints: count, blanks: 2, ..NO_COUNTS });

    // At the limit.
    let most = with_length(one, MOST_BITS);
    let more = with_length(one, MOST_BITS + 1);
    calls.same(&most, &most, ACCEPTED, true);
    calls.same(&most, &with_length(one, MOST_BITS - 1), ACCEPTED, false);
    calls.same(&most, &more, MALFORMED, false);
    calls.tally(&[most, one, most], None);
    calls.tally(&[most, more, most], Some(1));
    calls.replay("receipts that differ in the length");
}

#[test]
fn damaged_receipts() {
    let mut random = Random::new(14);
    let mut calls = Calls::default();
    for damage in DAMAGES {
        for _ in 0..20 {
            let bad = damaged(damage, &mut random);
            let good = random_receipt(&mut random);
            calls.same(&bad, &good, MALFORMED, false);
            calls.same(&good, &bad, MALFORMED, false);
            calls.same(&bad, &bad, MALFORMED, false);

            let mut list = random_list(30, &mut random);
            let place = random.below(30) as usize;
            list[place] = bad;
            // A later one does not count.
            list.push(damaged(damage, &mut random));
            calls.tally(&list, Some(place));
        }
    }
    calls.replay("damaged receipts");
}

#[test]
fn lengths_of_no_receipt() {
    let mut random = Random::new(15);
    let mut calls = Calls::default();
    let good = random_receipt(&mut random);
    let long = [&good[..], &good].concat();
    for length in 0..=long.len() {
        if length != RECEIPT_BYTES {
            // 13 is tested on both before 14 on either.
            calls.same(&long[..length], &good, NO_RECEIPTS, false);
            calls.same(&damaged(Damage::ByteOne, &mut random), &long[..length], NO_RECEIPTS, false);
        }
        if !length.is_multiple_of(RECEIPT_BYTES) {
            calls.tally_bytes(&long[..length], Counts { number: NO_RECEIPTS, ..NO_COUNTS });
        }
    }
    calls.same(&good, &good, ACCEPTED, true);
    calls.tally_bytes(&[], NO_COUNTS);
    calls.replay("lengths of no receipt");
}
