//! The block runs of each engine of the module against those of lsh_ref, and their refusals: through the archive, and some through the
//! program replay.

use compare::{
    at_both_word_sizes, block_backward, block_forward, hex, Random, Script, ACCEPTED, BAD_LENGTH, BAD_WORD_SIZE,
    ENGINES,
};
use lsh_ref::Word;

const RANDOM_BLOCKS: usize = 50_000;

at_both_word_sizes! { random_blocks patterns }

/// One direction: the module's call and the run of lsh_ref.
struct Direction<W: Word> {
    name: &'static str,
    call: fn(u64, u64, &mut [u8], &[u8]) -> u32,
    reference: fn(&[W; 16], &[u8]) -> [W; 16],
}

fn directions<W: Word>() -> [Direction<W>; 2] {
    [
        Direction { name: "forward", call: block_forward, reference: lsh_ref::forward },
        Direction { name: "backward", call: block_backward, reference: lsh_ref::backward },
    ]
}

/// Runs a block on a chain in both directions, with each engine of the module and with lsh_ref.
fn compare_runs<W: Word>(chain: &[u8], block: &[u8]) {
    for direction in directions::<W>() {
        let mut expected = vec![0; W::CHAIN_BYTES];
        lsh_ref::store_chain(&(direction.reference)(&lsh_ref::load_chain(chain), block), &mut expected);

        for engine in ENGINES {
            let mut lent = chain.to_vec();
            let answer = (direction.call)(engine, W::BITS as u64, &mut lent, block);
            assert!(
                answer == ACCEPTED && lent == expected,
                "engine {engine}, {}, w = {}: answer {answer}\n\
                 chain {chain:02x?}\nblock {block:02x?}\nreached {lent:02x?}\nlsh_ref {expected:02x?}",
                direction.name,
                W::BITS
            );
        }
    }
}

fn random_blocks<W: Word>() {
    let mut random = Random::new(W::BITS as u64);
    for _ in 0..RANDOM_BLOCKS {
        compare_runs::<W>(&random.bytes(W::CHAIN_BYTES), &random.bytes(W::BLOCK_BYTES));
    }
}

/// The byte repeated, and each string that differs from that in one bit.
fn one_bit_off(byte: u8, count: usize) -> Vec<Vec<u8>> {
    let plain = vec![byte; count];
    let flipped = (0..8 * count).map(|bit| {
        let mut bytes = plain.clone();
        bytes[bit / 8] ^= 1 << (bit % 8);
        bytes
    });
    flipped.chain([plain.clone()]).collect()
}

fn patterns<W: Word>() {
    for (chain_byte, block_byte) in [(0, 0), (0, 0xff), (0xff, 0), (0xff, 0xff)] {
        for chain in one_bit_off(chain_byte, W::CHAIN_BYTES) {
            compare_runs::<W>(&chain, &vec![block_byte; W::BLOCK_BYTES]);
        }
        for block in one_bit_off(block_byte, W::BLOCK_BYTES) {
            compare_runs::<W>(&vec![chain_byte; W::CHAIN_BYTES], &block);
        }
    }
}

/// Every refusal gives its number and leaves the chain as it is.
#[test]
fn refusals() {
    let (wide, widest) = (1u64 << 32, 1u64 << 63);
    let mut random = Random::new(1);
    for w in (0..=130).chain([wide + 32, wide + 64, widest + 32, widest + 64, u64::MAX]) {
        for chain_len in [0, 1, 63, 64, 65, 127, 128, 129, 256] {
            for block_len in [0, 1, 127, 128, 129, 255, 256, 257, 512] {
                let right = match (w, chain_len, block_len) {
                    (32, 64, 128) | (64, 128, 256) => continue,
                    (32 | 64, _, _) => BAD_LENGTH,
                    _ => BAD_WORD_SIZE,
                };
                let chain = random.bytes(chain_len);
                let block = random.bytes(block_len);
                for call in [block_forward, block_backward] {
                    let mut lent = chain.clone();
                    let answer = call(random.engine(), w, &mut lent, &block);
                    assert_eq!(answer, right, "w = {w}, chain of {chain_len} bytes, block of {block_len}");
                    assert_eq!(lent, chain, "w = {w}, chain of {chain_len} bytes, block of {block_len}");
                }
            }
        }
    }
}

/// Right and wrong numbers and lengths through replay.
#[test]
fn lines() {
    let mut random = Random::new(2);
    let mut script = Script::default();
    for w in [0, 31, 32, 33, 64, 65, (1 << 32) + 32, u64::MAX] {
        for chain_len in [0, 63, 64, 65, 127, 128, 129] {
            for block_len in [0, 127, 128, 129, 255, 256, 257] {
                let (chain, block) = (hex(&random.bytes(chain_len)), hex(&random.bytes(block_len)));
                for name in ["forward", "backward"] {
                    script.engine(&mut random);
                    script.text(&format!("{name} {w} {chain} {block}"));
                }
            }
        }
    }
    script.compare("block runs");
}
