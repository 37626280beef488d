/* Calls lsh_open, lsh_append, lsh_rewind and lsh_close as a driver written in C does, with right and with wrong arguments, on records
 * of orders, on records that are sound and of no order, and on wrong ones.
 * After each call it checks the whole answer against order_model.h, that the bytes lent are as they were, and the guard bytes around the
 * buffers and around an answer that is returned in memory.
 * It prints how many checks passed, or each that failed; the exit status is 0 only if all passed. */
#include <inttypes.h>
#include <stdbool.h>
#include <stdio.h>
#include <string.h>

#include "lsh_kiosk.h"

#define PROGRAM "order_calls"
#define LARGEST (6 * LSH_BLOCK_BYTES(64))
#include "checks.h"
#include "order_checks.h"

#define ORDERS 300 /* random orders at each word size, and random records */
#define CALLS 40   /* in each order */

/* ---- what is tried: orders ---- */

/* The receipt of the order is that of its bytes as one message. */
static void close_as_whole(const lsh_record *r)
{
    uint64_t e = below(8);
    uint8_t last = random_last_byte(e);
    fill(&output);
    close_order(r, last, e, LSH_RECEIPT_BYTES + below(LARGEST - LSH_RECEIPT_BYTES));
    uint8_t receipt[LSH_RECEIPT_BYTES];
    check(lsh_whole(engine(), r->w, r->n, buffer(&lent), r->total, last, e, receipt, sizeof receipt) == LSH_ACCEPTED
              && memcmp(buffer(&output), receipt, sizeof receipt) == 0,
          "lsh_close and lsh_whole write two receipts of one order of %" PRIu64 " bytes", r->total);
}

/* Cuts an order at a place: h from the block on that the cut lies in. */
static const lsh_outcome *cut(const lsh_record *r, size_t length)
{
    size_t keep = length % LSH_BLOCK_BYTES(r->w);
    return rewind_order(r, keep, length - keep, r->total - (length - keep));
}

/* An order's bytes stand at the front of a buffer; a random piece is appended, or the order is cut anywhere. */
static void try_order(uint64_t w)
{
    fill(&lent);
    lsh_record r = open_order(w, 1 + below(8 * w))->next;
    for (int i = 0; i < CALLS; i++) {
        size_t total = r.total;
        if (below(3) != 0) {
            size_t room = LARGEST - total;
            size_t piece_len = below((room < 3 * LSH_BLOCK_BYTES(w) ? room : 3 * LSH_BLOCK_BYTES(w)) + 1);
            r = append(&r, total, piece_len)->next;
            check(r.total == total + piece_len, "an order of %zu bytes and %zu more has %" PRIu64, total, piece_len, r.total);
        } else {
            size_t length = below(total + 1);
            r = cut(&r, length)->next;
            check(r.total == length, "an order of %zu bytes cut to %zu has %" PRIu64, total, length, r.total);
        }
        close_as_whole(&r);
    }
}

/* ---- what is tried: any sound record ---- */

/* A sound record, of no order most likely, with a total of at least `least` bytes and at most the limit. */
static lsh_record random_record(uint64_t w, uint64_t least)
{
    return sound_record(w, least + next_random() % (LSH_MOST_BYTES - least + 1));
}

/* The held bytes at the end of some blocks, so that a rewind is not refused by them. */
static void try_random_record(uint64_t w)
{
    fill(&lent);
    fill(&output);
    lsh_record r = random_record(w, LARGEST);
    size_t held = r.total % LSH_BLOCK_BYTES(w);
    size_t h_len = below(4) * LSH_BLOCK_BYTES(w) + held;
    memcpy(buffer(&lent) + h_len - held, r.held, held);
    uint64_t e = below(8);
    append(&r, 0, below(LARGEST));
    rewind_order(&r, below((h_len < LSH_BLOCK_BYTES(w) ? h_len : LSH_BLOCK_BYTES(w) - 1) + 1), 0, h_len);
    close_order(&r, random_last_byte(e), e, LSH_RECEIPT_BYTES);
}

/* Nothing but the held bytes is handed back, and nothing is left before them: only the opening chain is taken. */
static void try_foreign_chain(uint64_t w)
{
    fill(&lent);
    for (size_t total = 0; total < LSH_BLOCK_BYTES(w); total++) {
        lsh_record r = right_open(w, 1 + below(8 * w)).next;
        r.total = total;
        memcpy(r.held, buffer(&lent), total);
        rewind_order(&r, 0, 0, total);
        r.chain[below(16)] ^= 1;
        rewind_order(&r, 0, 0, total);
    }
}

/* ---- what is tried: wrong records ---- */

/* All calls on a record: each refuses an unsound one before it looks at anything else. */
static void try_record(const lsh_record *r)
{
    fill(&lent);
    fill(&output);
    append(r, 0, 0);
    append(r, 0, LSH_BLOCK_BYTES(64) + 1);
    rewind_order(r, 0, 0, 0);
    rewind_order(r, UINT64_MAX, 0, 1);
    close_order(r, 0, 0, LSH_RECEIPT_BYTES);
    close_order(r, 0xff, UINT64_MAX, 0);
    if (!is_sound(r)) {
        append(r, 0, SIZE_MAX);
        rewind_order(r, 0, 0, SIZE_MAX);
    }
}

static const uint64_t tried_totals[] = {
    0, LSH_MOST_BYTES - 256, LSH_MOST_BYTES, LSH_MOST_BYTES + 256, 2 * LSH_MOST_BYTES, TWO_TO_63, UINT64_MAX - 255,
};

/* A record of zeros, totals about the limit, each chain word as large as may be, too large by one and by much, and each of the 256 held
 * places changed. Sound ones are among them. */
static void try_wrong_records(uint64_t w)
{
    const lsh_record no_record = {0};
    try_record(&no_record);
    lsh_record sound = random_record(w, LARGEST);
    try_record(&sound);
    for (size_t i = 0; i < COUNT(tried_totals); i++) {
        lsh_record r = right_open(w, 8 * w).next;
        r.total = tried_totals[i];
        try_record(&r);
    }
    for (size_t i = 0; i < 16; i++) {
        lsh_record r = sound;
        r.chain[i] = TWO_TO_32 - 1;
        try_record(&r);
        r.chain[i] = TWO_TO_32;
        try_record(&r);
        r.chain[i] = UINT64_MAX;
        try_record(&r);
    }
    for (size_t i = 0; i < sizeof sound.held; i++) {
        lsh_record r = sound;
        r.held[i] ^= (uint8_t)(1u << below(8));
        try_record(&r);
    }
}

/* At Open, and in a record. */
static void try_word_sizes_and_digest_lengths(void)
{
    for (size_t w = 0; w < COUNT(tried_word_sizes); w++) {
        for (size_t n = 0; n < COUNT(tried_digest_lengths); n++) {
            open_order(tried_word_sizes[w], tried_digest_lengths[n]);
            lsh_record r = {.w = tried_word_sizes[w], .n = tried_digest_lengths[n]};
            try_record(&r);
        }
    }
}

/* ---- what is tried: limits ---- */

/* The limit is reached and not passed, by pieces of any length. */
static void try_limit(uint64_t w)
{
    static const size_t beyond[] = {TWO_TO_32, LSH_MOST_BYTES, TWO_TO_63, SIZE_MAX - LSH_MOST_BYTES + 1, SIZE_MAX};
    fill(&lent);
    for (size_t left = 0; left < LARGEST; left += 1 + below(50)) {
        lsh_record r = random_record(w, LSH_MOST_BYTES);
        r.total = LSH_MOST_BYTES - left;
        memcpy(r.held, buffer(&lent), r.total % LSH_BLOCK_BYTES(w));
        append(&r, 0, left);
        append(&r, 0, left + 1);
        for (size_t i = 0; i < COUNT(beyond); i++) {
            append(&r, 0, beyond[i]);
        }
    }
}

/* The longest message of all: the most bytes and seven more bits. Its length is on the receipt, which lsh_same takes. */
static void try_longest_message(uint64_t w)
{
    fill(&output);
    lsh_record r = sound_record(w, LSH_MOST_BYTES);
    close_order(&r, random_last_byte(7), 7, LSH_RECEIPT_BYTES);
    const uint8_t *receipt = buffer(&output);
    check(length_on(receipt) == LSH_MOST_BITS, "lsh_close writes %" PRIu64 " bits for the longest message", length_on(receipt));
    lsh_sameness sameness = lsh_same(receipt, LSH_RECEIPT_BYTES, receipt, LSH_RECEIPT_BYTES);
    check(sameness.number == LSH_ACCEPTED && sameness.same, "lsh_same answers %" PRIu32 " to the receipt of the longest message",
          sameness.number);
}

/* ---- what is tried: the lengths of a rewind, and the end of a message ---- */

static void try_rewind_lengths(uint64_t w)
{
    static const uint64_t keeps[] = {
        0, 1, 44, 127, 128, 129, 255, 256, 257, TWO_TO_32, TWO_TO_32 + 1, TWO_TO_63, UINT64_MAX,
    };
    fill(&lent);
    const lsh_record opened = right_open(w, 8 * w).next;
    for (size_t total = 0; total <= 2 * LSH_BLOCK_BYTES(w) + 2; total += 1 + below(20)) {
        lsh_record r = append(&opened, 0, total)->next;
        for (size_t k = 0; k < COUNT(keeps); k++) {
            for (size_t h_len = 0; h_len <= total; h_len++) {
                rewind_order(&r, keeps[k], total - h_len, h_len);
            }
            rewind_order(&r, keeps[k], 0, total + 1);
            rewind_order(&r, keeps[k], 0, TWO_TO_32 + total);
            rewind_order(&r, keeps[k], 0, SIZE_MAX);
        }
    }
}

/* Each byte of an order changed: a held one is found, and one of a whole block is found where nothing is left before it. */
static void try_changed_bytes(uint64_t w)
{
    fill(&lent);
    const lsh_record opened = right_open(w, 8 * w).next;
    size_t total = 2 * LSH_BLOCK_BYTES(w) + 44;
    lsh_record r = append(&opened, 0, total)->next;
    for (size_t i = 0; i < total; i++) {
        uint8_t bit = (uint8_t)(1u << below(8));
        buffer(&lent)[i] ^= bit;
        for (size_t from = 0; from <= i; from += LSH_BLOCK_BYTES(w)) {
            rewind_order(&r, 0, from, total - from);
        }
        buffer(&lent)[i] ^= bit;
    }
}

static void try_ends(uint64_t w)
{
    static const uint64_t extra_bits[] = {
        0, 1, 2, 3, 4, 5, 6, 7, 8, 9, 256, TWO_TO_32, TWO_TO_32 + 4, TWO_TO_63, UINT64_MAX,
    };
    static const size_t output_lengths[] = {
        0, 1, LSH_RECEIPT_BYTES - 1, LSH_RECEIPT_BYTES, LSH_RECEIPT_BYTES + 1, LARGEST,
    };
    for (size_t e = 0; e < COUNT(extra_bits); e++) {
        for (unsigned last = 0; last <= 0xff; last++) {
            for (size_t o = 0; o < COUNT(output_lengths); o++) {
                lsh_record r = random_record(w, 0);
                fill(&output);
                close_order(&r, (uint8_t)last, extra_bits[e], output_lengths[o]);
            }
        }
    }
}

int main(void)
{
    fill(&place);
    try_word_sizes_and_digest_lengths();
    for (uint64_t w = 32; w <= 64; w += 32) {
        for (uint64_t n = 1; n <= 8 * w; n++) {
            open_order(w, n);
        }
        for (int i = 0; i < ORDERS; i++) {
            try_order(w);
            try_random_record(w);
        }
        try_foreign_chain(w);
        try_wrong_records(w);
        try_limit(w);
        try_longest_message(w);
        try_rewind_lengths(w);
        try_changed_bytes(w);
        try_ends(w);
    }
    return report();
}
