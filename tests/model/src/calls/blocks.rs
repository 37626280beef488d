//! Block forward and Block backward (document 01).

use crate::lsh::{self, block_bytes, bytes_of, chain_bytes, chain_of, is_word_size, Chain};
use crate::script::{hex, Line, Program, Words};
use crate::{needs, Answer};

/// The chain's bytes after a run.
pub fn block_run(run: fn(u64, &Chain, &[u8]) -> Chain, w: u64, chain: &[u8], block: &[u8]) -> Answer<Vec<u8>> {
    needs(is_word_size(w), 1)?;
    needs(chain.len() == chain_bytes(w) && block.len() == block_bytes(w), 4)?;
    Ok(bytes_of(w, &run(w, &chain_of(w, chain), block)))
}

fn line(run: fn(u64, &Chain, &[u8]) -> Chain, words: &mut Words) -> Option<String> {
    let (w, chain, block) = (words.number()?, words.bytes()?, words.bytes()?);
    Some(match block_run(run, w, &chain, &block) {
        Ok(reached) => format!("0 {}", hex(&reached)),
        Err(number) => format!("{number} {}", hex(&chain)),
    })
}

fn forward(_: &mut Program, words: &mut Words) -> Option<String> {
    line(lsh::forward, words)
}

fn backward(_: &mut Program, words: &mut Words) -> Option<String> {
    line(lsh::backward, words)
}

pub const LINES: &[Line] = &[("forward", forward), ("backward", backward)];
