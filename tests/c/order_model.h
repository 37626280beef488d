/* What the calls on an order have to answer, written from document 01 in the plainest way, byte by byte, over the two block calls alone, which
 * are given the words; and from document 02 (W6), which records are sound and what is refused while a split rewind is unfinished. checks.h
 * comes before it. */
#ifndef ORDER_MODEL_H
#define ORDER_MODEL_H

#include <stdbool.h>
#include <stdint.h>
#include <string.h>

#include "lsh_kiosk.h"

static bool are_words(uint64_t w, const uint64_t *chain)
{
    for (size_t i = 0; i < 16; i++) {
        if (w == 32 && chain[i] >> 32 != 0) {
            return false;
        }
    }
    return true;
}

/* Whether the 256 bytes of a record are zero from a place on. */
static bool is_zero_from(size_t from, const uint8_t *bytes)
{
    for (size_t i = from; i < 256; i++) {
        if (bytes[i] != 0) {
            return false;
        }
    }
    return true;
}

/* What a record has of a split rewind, where none is begun, and where one is. */
static bool is_none_begun(const lsh_record *r)
{
    static const uint64_t zeros[16];
    return r->mark == 0 && memcmp(r->second, zeros, sizeof zeros) == 0 && is_zero_from(0, r->back) && r->blocks == 0;
}

static bool is_one_begun(const lsh_record *r)
{
    if (r->mark != 1 || !are_words(r->w, r->second) || !is_zero_from(LSH_BLOCK_BYTES(r->w), r->back)
        || r->blocks > r->total / LSH_BLOCK_BYTES(r->w)) {
        return false;
    }
    return r->blocks != 0 || (memcmp(r->second, r->chain, sizeof r->second) == 0 && is_zero_from(0, r->back));
}

static bool is_sound(const lsh_record *r)
{
    if ((r->w != 32 && r->w != 64) || r->n == 0 || r->n > 8 * r->w || r->total > LSH_MOST_BYTES) {
        return false;
    }
    return are_words(r->w, r->chain) && is_zero_from(r->total % LSH_BLOCK_BYTES(r->w), r->held)
        && (is_none_begun(r) || is_one_begun(r));
}

static lsh_outcome refused(uint32_t number, const lsh_record *r)
{
    lsh_outcome outcome = {number, 0, *r};
    return outcome;
}

typedef uint32_t block_call(uint64_t engine, uint64_t w, uint8_t *chain, size_t chain_len, const uint8_t *block, size_t block_len);

/* The bytes of a chain, lowest byte of each word first. */
static void store_chain(uint64_t w, const uint64_t *chain, uint8_t *bytes)
{
    size_t word = w / 8;
    for (size_t i = 0; i < 16 * word; i++) {
        bytes[i] = (uint8_t)(chain[i / word] >> 8 * (i % word));
    }
}

/* Runs one block on a chain. */
static void run_block(block_call *call, uint64_t w, uint64_t *chain, const uint8_t *block)
{
    uint8_t bytes[LSH_CHAIN_BYTES(64)];
    size_t word = w / 8;
    store_chain(w, chain, bytes);
    call(LSH_ENGINE_WORDS, w, bytes, 16 * word, block, LSH_BLOCK_BYTES(w));
    memset(chain, 0, 16 * sizeof chain[0]);
    for (size_t i = 0; i < 16 * word; i++) {
        chain[i / word] |= (uint64_t)bytes[i] << 8 * (i % word);
    }
}

APART static lsh_outcome right_open(uint64_t w, uint64_t n)
{
    static const uint8_t zeros[LSH_BLOCK_BYTES(64)];
    static const lsh_record no_record;
    if (w != 32 && w != 64) {
        return refused(LSH_BAD_WORD_SIZE, &no_record);
    }
    if (n == 0 || n > 8 * w) {
        return refused(LSH_BAD_DIGEST_LENGTH, &no_record);
    }
    lsh_outcome outcome = {LSH_ACCEPTED, 0, {.w = w, .n = n, .chain = {w, n}}};
    run_block(lsh_block_forward, w, outcome.next.chain, zeros);
    return outcome;
}

APART static lsh_outcome right_append(const lsh_record *r, const uint8_t *piece, size_t piece_len)
{
    if (!is_sound(r)) {
        return refused(LSH_UNSOUND_RECORD, r);
    }
    if (r->mark != 0) {
        return refused(LSH_OUT_OF_TURN, r);
    }
    if (piece_len > LSH_MOST_BYTES - r->total) {
        return refused(LSH_TOO_LONG, r);
    }
    lsh_outcome outcome = {LSH_ACCEPTED, 0, *r};
    lsh_record *next = &outcome.next;
    size_t block = LSH_BLOCK_BYTES(r->w);
    for (size_t i = 0; i < piece_len; i++) {
        next->held[next->total % block] = piece[i];
        next->total++;
        if (next->total % block == 0) {
            run_block(lsh_block_forward, r->w, next->chain, next->held);
            memset(next->held, 0, sizeof next->held);
            outcome.count++;
        }
    }
    return outcome;
}

APART static lsh_outcome right_rewind(const lsh_record *r, uint64_t keep, const uint8_t *h, size_t h_len)
{
    if (!is_sound(r)) {
        return refused(LSH_UNSOUND_RECORD, r);
    }
    if (r->mark != 0) {
        return refused(LSH_OUT_OF_TURN, r);
    }
    size_t block = LSH_BLOCK_BYTES(r->w);
    size_t held = r->total % block;
    if (h_len > r->total || (r->total - h_len) % block != 0) {
        return refused(LSH_BAD_START, r);
    }
    if (keep > h_len || keep >= block) {
        return refused(LSH_BAD_KEEP, r);
    }
    if (memcmp(h + h_len - held, r->held, held) != 0) {
        return refused(LSH_HELD_DIFFER, r);
    }
    lsh_outcome outcome = {LSH_ACCEPTED, 0, *r};
    lsh_record *next = &outcome.next;
    for (size_t end = h_len - held; end > 0; end -= block) {
        run_block(lsh_block_backward, r->w, next->chain, h + end - block);
        outcome.count++;
    }
    if (h_len == r->total) {
        lsh_outcome opened = right_open(r->w, r->n);
        if (memcmp(next->chain, opened.next.chain, sizeof next->chain) != 0) {
            return refused(LSH_OPENING_DIFFERS, r);
        }
    }
    next->total = r->total - h_len + keep;
    memset(next->held, 0, sizeof next->held);
    memcpy(next->held, h, keep);
    return outcome;
}

static inline uint32_t right_close_answer(const lsh_record *r, uint8_t last, uint64_t e, size_t output_len)
{
    if (!is_sound(r)) {
        return LSH_UNSOUND_RECORD;
    }
    return end_answer(last, e, output_len);
}

/* The receipt that an accepted Close writes. */
static inline void right_receipt(const lsh_record *r, uint8_t last, uint64_t e, uint8_t *receipt)
{
    lsh_record end = *r;
    end.held[r->total % LSH_BLOCK_BYTES(r->w)] = (uint8_t)(last | 0x80u >> e);
    run_block(lsh_block_forward, r->w, end.chain, end.held);

    const uint8_t first[LSH_DIGEST_PLACE] = {(uint8_t)r->w, 0, (uint8_t)r->n, (uint8_t)(r->n >> 8)};
    size_t word = r->w / 8;
    memset(receipt, 0, LSH_RECEIPT_BYTES);
    memcpy(receipt, first, sizeof first);
    for (size_t bit = 0; bit < r->n; bit++) {
        size_t i = bit / 8;
        uint64_t xor = end.chain[i / word] ^ end.chain[i / word + 8];
        receipt[LSH_DIGEST_PLACE + i] |= (uint8_t)(xor >> 8 * (i % word)) & (uint8_t)(0x80u >> bit % 8);
    }
    put_length(receipt, 8 * r->total + e);
}

#endif
