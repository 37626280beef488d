//! Same and Tally (document 01, and W3 and W4 of document 02).

use crate::lsh::{is_digest_length, is_word_size};
use crate::receipts::{DIGEST_PLACE, LENGTH_PLACE, RECEIPT_BYTES};
use crate::script::{verdict, Line, Program, Words};
use crate::{needs, Answer, MOST_BYTES};
use std::collections::HashSet;

/// The most receipts of a list, and the most bits of a message.
pub const MOST_RECEIPTS: usize = 960;
pub const MOST_BITS: u64 = 8 * MOST_BYTES + 7;

/// The firsts, the reprints and the blanks of a list.
#[derive(Clone, Copy, PartialEq, Eq, Debug, Default)]
pub struct Prints {
    pub firsts: u64,
    pub reprints: u64,
    pub blanks: u64,
}

/// The number of a refused tally, with the place of a malformed receipt.
pub type Refusal = (u32, Option<usize>);

/// The length of the message in bits, as its receipt has it.
pub fn bit_length(receipt: &[u8]) -> u64 {
    u64::from_le_bytes(receipt[LENGTH_PLACE..RECEIPT_BYTES].try_into().unwrap())
}

/// Whether the bytes, as many as a receipt has, are one.
fn is_receipt(bytes: &[u8]) -> bool {
    let w = u64::from(bytes[0]);
    let n = u64::from(u16::from_le_bytes([bytes[2], bytes[3]]));
    // The bits after the digest, the highest bit of a byte first.
    let is_unused = |place: u64| bytes[DIGEST_PLACE + place as usize / 8] & 0x80 >> (place % 8) == 0;
    let places = 8 * (LENGTH_PLACE - DIGEST_PLACE) as u64;
    is_word_size(w)
        && bytes[1] == 0
        && is_digest_length(w, n)
        && (n..places).all(is_unused)
        && bit_length(bytes) <= MOST_BITS
}

pub fn same(a: &[u8], b: &[u8]) -> Answer<bool> {
    needs(a.len() == RECEIPT_BYTES && b.len() == RECEIPT_BYTES, 13)?;
    needs(is_receipt(a) && is_receipt(b), 14)?;
    Ok(a == b)
}

pub fn tally(list: &[u8]) -> Result<Prints, Refusal> {
    let receipts: Vec<&[u8]> = list.chunks(RECEIPT_BYTES).collect();
    if !list.len().is_multiple_of(RECEIPT_BYTES) || receipts.len() > MOST_RECEIPTS {
        return Err((13, None));
    }
    if let Some(place) = receipts.iter().position(|receipt| !is_receipt(receipt)) {
        return Err((14, Some(place)));
    }
    let prints = receipts.iter().filter(|receipt| bit_length(receipt) != 0);
    let count = prints.clone().count();
    let firsts = prints.collect::<HashSet<_>>().len();
    Ok(Prints { firsts: firsts as u64, reprints: (count - firsts) as u64, blanks: (receipts.len() - count) as u64 })
}

fn same_line(_: &mut Program, words: &mut Words) -> Option<String> {
    Some(verdict(same(&words.bytes()?, &words.bytes()?)))
}

fn tally_line(_: &mut Program, words: &mut Words) -> Option<String> {
    Some(match tally(&words.bytes()?) {
        Ok(Prints { firsts, reprints, blanks }) => format!("0 {firsts} {reprints} {blanks}"),
        Err((number, Some(place))) => format!("{number} {place} 0 0 0"),
        Err((number, None)) => format!("{number} 0 0 0"),
    })
}

pub const LINES: &[Line] = &[("same", same_line), ("tally", tally_line)];
