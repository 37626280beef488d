/* Calls lsh_block_forward and lsh_block_backward as a driver written in C does, with right and with wrong arguments, on each engine alone, and
 * one run on one engine and the next on the other.
 * After each call it checks the answer, every byte of both buffers and the guard bytes on both sides of them.
 * It prints how many checks passed, or each that failed; the exit status is 0 only if all passed. */
#include <inttypes.h>
#include <stdbool.h>
#include <stdio.h>
#include <string.h>

#include "lsh_kiosk.h"

#define PROGRAM "block_calls"
#define LARGEST LSH_BLOCK_BYTES(64)
#include "checks.h"

#define ROUNDS 2500 /* random chains and blocks at each word size, for each run and each pair of engines */

/* ---- calls ---- */

struct run {
    const char *name;
    uint32_t (*call)(uint64_t engine, uint64_t w, uint8_t *chain, size_t chain_len, const uint8_t *block, size_t block_len);
};

static const struct run runs[2] = {
    {"lsh_block_forward", lsh_block_forward},
    {"lsh_block_backward", lsh_block_backward},
};

static uint32_t right_answer(uint64_t w, size_t chain_len, size_t block_len)
{
    if (w != 32 && w != 64) {
        return LSH_BAD_WORD_SIZE;
    }
    if (chain_len != LSH_CHAIN_BYTES(w) || block_len != LSH_BLOCK_BYTES(w)) {
        return LSH_BAD_LENGTH;
    }
    return LSH_ACCEPTED;
}

/* Makes one call and checks its answer, and that it writes nothing but the chain, and that only if it accepts. A wrong
 * length may pass the end of the memory: a refused call reads nothing. */
static void make_call(const struct run *run, uint64_t w, struct guarded *chain, size_t chain_len,
                      struct guarded *block, size_t block_len)
{
    uint32_t right = right_answer(w, chain_len, block_len);
    bool accepted = right == LSH_ACCEPTED;
    take_copy(chain);
    take_copy(block);
    uint32_t answer = run->call(engine(), w, buffer(chain), chain_len, buffer(block), block_len);

    char said[160];
    snprintf(said, sizeof said, "%s(w = %" PRIu64 ", chain of %zu bytes, block of %zu bytes)", run->name, w, chain_len,
             block_len);
    check(answer == right, "%s answers %" PRIu32 ", not %" PRIu32, said, answer, right);
    check(kept_except(chain, accepted ? chain_len : 0), "%s writes %s", said,
          accepted ? "outside the chain" : "to the chain or around it");
    check(kept_except(block, 0), "%s writes to the block or around it", said);
}

static void make_right_call(const struct run *run, uint64_t w, struct guarded *chain, struct guarded *block)
{
    make_call(run, w, chain, LSH_CHAIN_BYTES(w), block, LSH_BLOCK_BYTES(w));
}

/* ---- what is tried ---- */

/* Every combination of these with the word sizes of checks.h, the few right ones among them. Cut to 32 bits some of the
 * large ones would be right. */
static const size_t tried_chain_lengths[] = {
    0, 1, 32, 63, 64, 65, 127, 128, 129, 256, TWO_TO_32 + 64, TWO_TO_32 + 128, SIZE_MAX - 63, SIZE_MAX,
};
static const size_t tried_block_lengths[] = {
    0, 1, 64, 127, 128, 129, 255, 256, 257, 512, TWO_TO_32 + 128, TWO_TO_32 + 256, SIZE_MAX - 127, SIZE_MAX,
};

static void try_word_sizes_and_lengths(const struct run *run)
{
    struct guarded chain, block;
    for (size_t w = 0; w < COUNT(tried_word_sizes); w++) {
        for (size_t c = 0; c < COUNT(tried_chain_lengths); c++) {
            for (size_t b = 0; b < COUNT(tried_block_lengths); b++) {
                fill(&chain);
                fill(&block);
                make_call(run, tried_word_sizes[w], &chain, tried_chain_lengths[c], &block, tried_block_lengths[b]);
            }
        }
    }
}

/* A run on one engine changes a random chain, and the other run on the same engine or on the other gives it back. */
static void try_round_trip(uint64_t w, const struct run *there, uint64_t engine_there, const struct run *back, uint64_t engine_back,
                           struct guarded *chain, struct guarded *block, uint8_t *changed)
{
    const size_t size = LSH_CHAIN_BYTES(w);
    uint8_t first[LARGEST];
    memcpy(first, buffer(chain), size);
    only_engine = engine_there;
    make_right_call(there, w, chain, block);
    memcpy(changed, buffer(chain), size);
    check(memcmp(changed, first, size) != 0, "%s leaves a random chain as it is, w = %" PRIu64, there->name, w);
    only_engine = engine_back;
    make_right_call(back, w, chain, block);
    check(memcmp(buffer(chain), first, size) == 0, "%s does not undo %s of engine %" PRIu64 ", w = %" PRIu64, back->name, there->name,
          engine_there, w);
}

/* Every pair of engines on the same chains and blocks: the two make the same of a chain. */
static void try_round_trips(uint64_t w, const struct run *there, const struct run *back)
{
    struct guarded chain, block;
    uint8_t changed[COUNT(engines)][LARGEST];
    for (int i = 0; i < ROUNDS; i++) {
        fill(&chain);
        fill(&block);
        for (size_t t = 0; t < COUNT(engines); t++) {
            for (size_t b = 0; b < COUNT(engines); b++) {
                try_round_trip(w, there, engines[t], back, engines[b], &chain, &block, changed[t]);
            }
        }
        check(memcmp(changed[0], changed[1], LSH_CHAIN_BYTES(w)) == 0, "%s makes two chains of random chain %d, w = %" PRIu64, there->name, i,
              w);
    }
}

/* The opening chains that the LSH paper prints: (16) of LSH-256-256 and (17) of LSH-512-512. */
static const struct opening {
    uint64_t w, n, words[16];
} openings[] = {
    {32, 256, {0x46a10f1f, 0xfddce486, 0xb41443a8, 0x198e6b9d, 0x3304388d, 0xb0f5a3c7, 0xb36061c4, 0x7adbd553,
               0x105d5378, 0x2f74de54, 0x5c2f2d95, 0xf2553fbe, 0x8051357a, 0x138668c8, 0x47aa4484, 0xe01afb41}},
    {64, 512, {0xadd50f3c7f07094e, 0xe3f3cee8f9418a4f, 0xb527ecde5b3d0ae9, 0x2ef6dec68076f501,
               0x8cb994cae5aca216, 0xfbb9eae4bba48cc7, 0x650a526174725fea, 0x1f9a61a73f8d8085,
               0xb6607378173b539b, 0x1bc99853b0c0b9ed, 0xdf727fc19b182d47, 0xdbef360cf893a457,
               0x4981f5e570147e80, 0xd00c4490ca7d3e30, 0x5d73940c0e4ae1ec, 0x894085e2edb2d819}},
};

/* A chain's bytes, lowest byte of each word first. */
static void store_words(uint64_t w, const uint64_t words[16], uint8_t *bytes)
{
    for (size_t i = 0; i < LSH_CHAIN_BYTES(w); i++) {
        size_t in_word = i % (w / 8);
        bytes[i] = (uint8_t)(words[i / (w / 8)] >> 8 * in_word);
    }
}

/* Section 2.4 of the paper: the opening chain is that of a block of zeros on the chain w, n, 0, .., 0. */
static void try_opening_chain(const struct opening *opening)
{
    uint64_t w = opening->w;
    const uint64_t seed_words[16] = {w, opening->n};
    uint8_t seed[LARGEST], published[LARGEST];
    store_words(w, seed_words, seed);
    store_words(w, opening->words, published);

    struct guarded chain, block;
    fill(&chain);
    fill(&block);
    memcpy(buffer(&chain), seed, LSH_CHAIN_BYTES(w));
    memset(buffer(&block), 0, LSH_BLOCK_BYTES(w));
    make_right_call(&runs[0], w, &chain, &block);
    check(memcmp(buffer(&chain), published, LSH_CHAIN_BYTES(w)) == 0,
          "lsh_block_forward does not give the published opening chain, w = %" PRIu64, w);
    make_right_call(&runs[1], w, &chain, &block);
    check(memcmp(buffer(&chain), seed, LSH_CHAIN_BYTES(w)) == 0,
          "lsh_block_backward does not lead back from the published opening chain, w = %" PRIu64, w);
}

int main(void)
{
    for (uint64_t w = 32; w <= 64; w += 32) {
        try_round_trips(w, &runs[0], &runs[1]);
        try_round_trips(w, &runs[1], &runs[0]);
    }
    for (size_t k = 0; k < COUNT(engines); k++) {
        only_engine = engines[k];
        for (size_t i = 0; i < COUNT(openings); i++) {
            try_opening_chain(&openings[i]);
        }
        for (size_t i = 0; i < COUNT(runs); i++) {
            try_word_sizes_and_lengths(&runs[i]);
        }
    }
    return report();
}
