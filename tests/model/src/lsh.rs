//! LSH by lsh_ref, with the word size as a number.

use lsh_ref::Word;

/// The words of a chain.
pub type Chain = [u64; 16];

pub fn is_word_size(w: u64) -> bool {
    w == 32 || w == 64
}

pub fn is_digest_length(w: u64, n: u64) -> bool {
    (1..=8 * w).contains(&n)
}

/// Bytes of a block.
pub fn block_bytes(w: u64) -> usize {
    4 * w as usize
}

/// Bytes of a chain.
pub fn chain_bytes(w: u64) -> usize {
    2 * w as usize
}

fn run<W: Word>(chain: &Chain, run: impl Fn(&[W; 16]) -> [W; 16]) -> Chain {
    words(&run(&chain.map(W::from_u64)))
}

/// The words of a chain of lsh_ref.
pub fn words<W: Word>(chain: &[W; 16]) -> Chain {
    chain.map(W::to_u64)
}

pub fn forward(w: u64, chain: &Chain, block: &[u8]) -> Chain {
    match w {
        32 => run::<u32>(chain, |chain| lsh_ref::forward(chain, block)),
        _ => run::<u64>(chain, |chain| lsh_ref::forward(chain, block)),
    }
}

pub fn backward(w: u64, chain: &Chain, block: &[u8]) -> Chain {
    match w {
        32 => run::<u32>(chain, |chain| lsh_ref::backward(chain, block)),
        _ => run::<u64>(chain, |chain| lsh_ref::backward(chain, block)),
    }
}

pub fn opening_chain(w: u64, n: u64) -> Chain {
    match w {
        32 => words(&lsh_ref::opening_chain::<u32>(n)),
        _ => words(&lsh_ref::opening_chain::<u64>(n)),
    }
}

/// The digest of a message whose whole blocks lead to the chain and are followed by `rest`, less than a block, and the top e bits of `last`.
pub fn digest_after(w: u64, n: u64, chain: &Chain, rest: &[u8], last: u8, e: u64) -> Vec<u8> {
    fn finish<W: Word>(n: u64, chain: &Chain, rest: &[u8], last: u8, e: u64) -> Vec<u8> {
        let padded = lsh_ref::pad::<W>(rest, last, e as u32);
        lsh_ref::finalise(&lsh_ref::forward(&chain.map(W::from_u64), &padded), n)
    }
    match w {
        32 => finish::<u32>(n, chain, rest, last, e),
        _ => finish::<u64>(n, chain, rest, last, e),
    }
}

/// The digest of a message of whole bytes.
pub fn digest(w: u64, n: u64, message: &[u8]) -> Vec<u8> {
    lsh_ref::hash_w(w as u32, n, message, 0, 0).expect("w and n of a digest")
}

/// The bytes of a chain, each word with its lowest byte first.
pub fn bytes_of(w: u64, chain: &Chain) -> Vec<u8> {
    chain.iter().flat_map(|word| word.to_le_bytes().into_iter().take(w as usize / 8)).collect()
}

/// The chain that has these bytes.
pub fn chain_of(w: u64, bytes: &[u8]) -> Chain {
    let word = |bytes: &[u8]| bytes.iter().rev().fold(0, |word, &byte| word << 8 | u64::from(byte));
    let words: Vec<u64> = bytes.chunks_exact(w as usize / 8).map(word).collect();
    words.try_into().expect("the bytes of a chain")
}
