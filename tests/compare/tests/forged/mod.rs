//! Records that come from no order: sound ones, and ones that break a clause of soundness.

use compare::roll::CHECKPOINT_BLOCKS;
use compare::{places, Random, Record, MOST_BYTES};
use lsh_ref::Word;
use model::lsh::opening_chain;

/// A sound record, with a split rewind begun mostly.
pub fn forged_record<W: Word>(random: &mut Random) -> Record {
    let w = W::BITS as u64;
    let block = W::BLOCK_BYTES as u64;
    let any = random.below(3 * CHECKPOINT_BLOCKS as u64 * block);
    let total = random.one_of([any, any % block, any % (4 * block), any / block * block, MOST_BYTES, MOST_BYTES - any]);
    let mut r = random.record(w, total);
    let opening = opening_chain(w, r.n);
    r.chain = random.one_of([r.chain, opening]);
    if random.below(4) == 0 {
        return r;
    }
    let begun = r.begun();
    let whole = total / block;
    let some = random.below(whole + 1);
    let blocks = random.one_of([0, whole.min(1), some, whole.saturating_sub(1), whole]);
    if blocks == 0 {
        return begun;
    }
    let chain = random.chain(w);
    let back = places(&random.bytes(W::BLOCK_BYTES));
    Record { second: random.one_of([chain, r.chain, opening]), back: random.one_of([back, [0; 256]]), blocks, ..begun }
}

/// Sound records with this total: with none begun, and with one begun and no block handed back, one, or all.
pub fn sound_records(w: u64, total: u64, random: &mut Random) -> Vec<Record> {
    let none_begun = random.record(w, total);
    let begun = none_begun.begun();
    let mut records = vec![none_begun, begun];
    for blocks in [1, total / (4 * w)].into_iter().filter(|_| total >= 4 * w) {
        let back = places(&random.bytes(4 * w as usize));
        records.push(Record { second: random.chain(w), back, blocks, ..begun });
    }
    records
}

/// The sound record with one clause of soundness broken, in many ways.
pub fn unsound(r: &Record) -> Vec<Record> {
    let block = 4 * r.w as usize;
    let held = r.total as usize % block;
    let whole = r.total / block as u64;
    let total = MOST_BYTES + held.max(1) as u64;
    let mut forged = vec![Record { total, ..*r }, Record { mark: 1 - r.mark, ..*r }];
    forged.extend([0, 31, 33, r.w | 1 << 32].map(|w| Record { w, ..*r }));
    forged.extend([0, 8 * r.w + 1, r.n | 1 << 32].map(|n| Record { n, ..*r }));
    forged.extend([2, 3, 255, 256, 257, 1 << 32, 1 << 32 | 1, u64::MAX].map(|mark| Record { mark, ..*r }));
    forged.extend([whole + 1, r.blocks | 1 << 40, u64::MAX].map(|blocks| Record { blocks, ..*r }));
    // Any number with none begun, and none with what a block has left.
    if r.mark == 0 || r.blocks > 0 {
        forged.push(Record { blocks: u64::from(r.blocks == 0), ..*r });
    }

    let mut with = |change: &dyn Fn(&mut Record)| {
        let mut other = *r;
        change(&mut other);
        forged.push(other);
    };
    with(&|r| r.held[held] = 1);
    for word in 0..16 {
        for bit in if r.w == 32 { &[32, 63][..] } else { &[] } {
            with(&|r| r.chain[word] |= 1 << bit);
            with(&|r| r.second[word] |= 1 << bit);
        }
        // All are zero with none begun, and those of the chain with no block handed back.
        if r.blocks == 0 {
            with(&|r| r.second[word] ^= 1);
            with(&|r| r.second[word] ^= 1 << (r.w - 1));
        }
    }
    for place in if r.blocks == 0 { 0..256 } else { block..256 } {
        with(&|r| r.back[place] = 1);
    }
    forged
}
