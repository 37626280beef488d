//! Tags with a key: HMAC of RFC 2104 over LSH (document 02, W7).

use crate::lsh::{block_bytes, digest, digest_after};
use crate::order::{appended, known};
use crate::record::{Outcome, Record};
use crate::script::{output, verdict, Line, Program, Words, MOST_OUTPUT};
use crate::{needs, Answer, MOST_BYTES};

/// The bytes that the key's block is taken with, before the message and before the inner digest.
const INNER: u8 = 0x36;
const OUTER: u8 = 0x5c;

/// The tag of a message by the definition.
pub fn hmac(w: u64, n: u64, key: &[u8], message: &[u8]) -> Vec<u8> {
    let inner = digest(w, n, &[&inner_block(w, n, key), message].concat());
    tag_of_digest(w, n, key, &inner)
}

/// The tag with this inner digest.
pub fn tag_of_digest(w: u64, n: u64, key: &[u8], inner: &[u8]) -> Vec<u8> {
    digest(w, n, &[&outer_block(w, n, key), inner].concat())
}

/// What is hashed before the message.
pub fn inner_block(w: u64, n: u64, key: &[u8]) -> Vec<u8> {
    key_block(w, n, key, INNER)
}

/// What is hashed before the inner digest.
pub fn outer_block(w: u64, n: u64, key: &[u8]) -> Vec<u8> {
    key_block(w, n, key, OUTER)
}

/// The key, or its digest if it is longer than a block, with zeros up to a block; each byte exclusive or `with`.
fn key_block(w: u64, n: u64, key: &[u8], with: u8) -> Vec<u8> {
    let size = block_bytes(w);
    let mut block = if key.len() > size { digest(w, n, key) } else { key.to_vec() };
    block.resize(size, 0);
    block.iter().map(|byte| byte ^ with).collect()
}

/// The tests of w, n, the key and the message before the output is looked at.
fn accepted(w: u64, n: u64, key: &[u8], message: &[u8]) -> Answer<()> {
    known(w, n)?;
    needs(n.is_multiple_of(8), 18)?;
    needs(key.len().max(block_bytes(w) + message.len()) as u64 <= MOST_BYTES, 5)
}

/// The tag, for an output of this size.
pub fn tag(w: u64, n: u64, key: &[u8], message: &[u8], size: usize) -> Answer<Vec<u8>> {
    accepted(w, n, key, message)?;
    needs(size as u64 >= n / 8, 12)?;
    Ok(hmac(w, n, key, message))
}

pub fn tag_start(w: u64, n: u64, key: &[u8]) -> Outcome {
    let started = || {
        accepted(w, n, key, &[])?;
        appended(&Record::of(w, n, &[]), &inner_block(w, n, key))
    };
    Outcome::of(&Record::ZEROS, started())
}

/// The tag of what was appended, for an output of this size.
pub fn tag_finish(r: &Record, key: &[u8], size: usize) -> Answer<Vec<u8>> {
    needs(r.is_sound(), 3)?;
    needs(r.n.is_multiple_of(8), 18)?;
    needs(key.len() as u64 <= MOST_BYTES, 5)?;
    needs(size as u64 >= r.n / 8, 12)?;
    let inner = digest_after(r.w, r.n, &r.chain, r.held_bytes(), 0, 0);
    Ok(tag_of_digest(r.w, r.n, key, &inner))
}

pub fn tag_check(w: u64, n: u64, key: &[u8], message: &[u8], tag: &[u8]) -> Answer<bool> {
    accepted(w, n, key, message)?;
    Ok(hmac(w, n, key, message) == tag)
}

fn tag_line(_: &mut Program, words: &mut Words) -> Option<String> {
    let (w, n, key, message) = (words.number()?, words.number()?, words.bytes()?, words.bytes()?);
    let size = words.size(MOST_OUTPUT)?;
    Some(output(tag(w, n, &key, &message, size), size))
}

fn start_line(program: &mut Program, words: &mut Words) -> Option<String> {
    let outcome = tag_start(words.number()?, words.number()?, &words.bytes()?);
    program.record = outcome.next;
    Some(outcome.number.to_string())
}

fn finish_line(program: &mut Program, words: &mut Words) -> Option<String> {
    let (key, size) = (words.bytes()?, words.size(MOST_OUTPUT)?);
    Some(output(tag_finish(&program.record, &key, size), size))
}

fn check_line(_: &mut Program, words: &mut Words) -> Option<String> {
    let (w, n, key, message) = (words.number()?, words.number()?, words.bytes()?, words.bytes()?);
    Some(verdict(tag_check(w, n, &key, &message, &words.bytes()?)))
}

pub const LINES: &[Line] =
    &[("tag", tag_line), ("tagstart", start_line), ("tagfinish", finish_line), ("tagcheck", check_line)];
