//! Close and Whole (document 01, and W3 of document 02).

use crate::lsh::digest_after;
use crate::order::{appended, known};
use crate::record::Record;
use crate::script::{output, Line, Program, Words, MOST_OUTPUT};
use crate::{needs, Answer};

/// Bytes of a receipt.
pub const RECEIPT_BYTES: usize = 76;

/// Where the digest stands in a receipt, and where the length of the message in bits.
pub const DIGEST_PLACE: usize = 4;
pub const LENGTH_PLACE: usize = 68;

/// The receipt of a digest of n bits, of a message of so many bits: w, 0, the two bytes of n, the digest, zeros and the
/// length.
pub fn receipt(w: u64, n: u64, digest: &[u8], bits: u64) -> Vec<u8> {
    assert_eq!(digest.len() as u64, n.div_ceil(8), "bytes of a digest of {n} bits");
    let mut receipt = vec![w as u8, 0];
    receipt.extend((n as u16).to_le_bytes());
    receipt.extend(digest);
    receipt.resize(LENGTH_PLACE, 0);
    receipt.extend(bits.to_le_bytes());
    receipt
}

/// The receipt, for an output of this size.
pub fn close(r: &Record, last: u8, e: u64, size: usize) -> Answer<Vec<u8>> {
    needs(r.is_sound(), 3)?;
    closed(r, last, e, size)
}

/// A Close on a sound record.
fn closed(r: &Record, last: u8, e: u64, size: usize) -> Answer<Vec<u8>> {
    needs(e <= 7, 10)?;
    needs(last & 0xff >> e == 0, 11)?;
    needs(size >= RECEIPT_BYTES, 12)?;
    let digest = digest_after(r.w, r.n, &r.chain, r.held_bytes(), last, e);
    Ok(receipt(r.w, r.n, &digest, 8 * r.total + e))
}

pub fn whole(w: u64, n: u64, message: &[u8], last: u8, e: u64, size: usize) -> Answer<Vec<u8>> {
    known(w, n)?;
    let (_, r) = appended(&Record::of(w, n, &[]), message)?;
    closed(&r, last, e, size)
}

fn close_line(program: &mut Program, words: &mut Words) -> Option<String> {
    let (last, e, size) = (words.byte()?, words.number()?, words.size(MOST_OUTPUT)?);
    Some(output(close(&program.record, last, e, size), size))
}

fn whole_line(_: &mut Program, words: &mut Words) -> Option<String> {
    let (w, n, message) = (words.number()?, words.number()?, words.bytes()?);
    let (last, e, size) = (words.byte()?, words.number()?, words.size(MOST_OUTPUT)?);
    Some(output(whole(w, n, &message, last, e, size), size))
}

pub const LINES: &[Line] = &[("close", close_line), ("whole", whole_line)];
