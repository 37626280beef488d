/* What the programs share that try the calls on an order: the buffers, checks of an outcome, calls that are made and checked, and records to
 * try. checks.h comes before it. The programs run with a small stack, so what is large is static. */
#ifndef ORDER_CHECKS_H
#define ORDER_CHECKS_H

#include <inttypes.h>
#include <stdint.h>
#include <stdio.h>
#include <string.h>

#include "lsh_kiosk.h"
#include "order_model.h"

/* ---- buffers ---- */

/* The bytes of an order, from which pieces are lent and bytes handed back; where a receipt is written; and where a call writes its outcome if
 * it is given the address by hand. */
static struct guarded lent, output, place;

/* ---- outcomes ---- */

static void check_outcome(const lsh_outcome *outcome, const lsh_outcome *right, const char *said)
{
    check(outcome->number == right->number, "%s answers %" PRIu32 ", not %" PRIu32, said, outcome->number, right->number);
    check(outcome->count == right->count, "%s counts %" PRIu64 " blocks, not %" PRIu64, said, outcome->count, right->count);
    check(memcmp(&outcome->next, &right->next, sizeof right->next) == 0, "%s returns another record", said);
}

/* The outcome of the last call that was checked. */
static lsh_outcome made;

/* The outcome at the place, and the bytes around it. */
static void check_place(const lsh_outcome *right, const char *said)
{
    memcpy(&made, buffer(&place), sizeof made);
    check_outcome(&made, right, said);
    check(kept_except(&place, sizeof made), "%s writes outside its answer", said);
}

/* The bytes lent, after a call. */
static void check_lent(const char *said)
{
    check(kept_except(&lent, 0), "%s writes to the bytes lent or around them", said);
}

/* Says what is tried on a record. */
#define SAY(said, call, r, format, ...)                                                                                             \
    snprintf(said, sizeof said, call "(w = %" PRIu64 ", n = %" PRIu64 ", total = %" PRIu64 ", " format ")", (r)->w, (r)->n, (r)->total, \
             __VA_ARGS__)

/* ---- calls ---- */

/* Each of the functions below makes a call twice, each time on an engine of its own, and checks all of it. The outcome that it returns stays
 * until the next call: a record out of it is copied before it is tried. */

/* The calls once more, as the archive has them: with the address of their answer. */
void *open_to(void *answer, uint64_t engine, uint64_t w, uint64_t n) __asm__("lsh_open");
void *append_to(void *answer, uint64_t engine, lsh_record r, const uint8_t *piece, size_t piece_len) __asm__("lsh_append");
void *rewind_to(void *answer, uint64_t engine, lsh_record r, uint64_t keep, const uint8_t *h, size_t h_len) __asm__("lsh_rewind");

APART static const lsh_outcome *open_order(uint64_t w, uint64_t n)
{
    char said[80];
    snprintf(said, sizeof said, "lsh_open(w = %" PRIu64 ", n = %" PRIu64 ")", w, n);
    lsh_outcome right = right_open(w, n);
    lsh_outcome outcome = lsh_open(engine(), w, n);
    check_outcome(&outcome, &right, said);
    open_to(place_for_answer(&place), engine(), w, n);
    check_place(&right, said);
    return &made;
}

/* A piece may be said to be longer than its memory if the call has to be refused: a refused call reads nothing of it. */
APART static const lsh_outcome *append(const lsh_record *r, size_t from, size_t piece_len)
{
    char said[200];
    SAY(said, "lsh_append", r, "%zu bytes", piece_len);
    const uint8_t *piece = buffer(&lent) + from;
    lsh_outcome right = right_append(r, piece, piece_len);
    take_copy(&lent);
    lsh_outcome outcome = lsh_append(engine(), *r, piece, piece_len);
    check_outcome(&outcome, &right, said);
    check_lent(said);
    append_to(place_for_answer(&place), engine(), *r, piece, piece_len);
    check_place(&right, said);
    check_lent(said);
    return &made;
}

APART static const lsh_outcome *rewind_order(const lsh_record *r, uint64_t keep, size_t from, size_t h_len)
{
    char said[200];
    SAY(said, "lsh_rewind", r, "keep = %" PRIu64 ", %zu bytes", keep, h_len);
    const uint8_t *h = buffer(&lent) + from;
    lsh_outcome right = right_rewind(r, keep, h, h_len);
    take_copy(&lent);
    lsh_outcome outcome = lsh_rewind(engine(), *r, keep, h, h_len);
    check_outcome(&outcome, &right, said);
    check_lent(said);
    rewind_to(place_for_answer(&place), engine(), *r, keep, h, h_len);
    check_place(&right, said);
    check_lent(said);
    return &made;
}

APART static void close_order(const lsh_record *r, uint8_t last, uint64_t e, size_t output_len)
{
    char said[200];
    SAY(said, "lsh_close", r, "last = %u, e = %" PRIu64 ", output of %zu bytes", last, e, output_len);
    uint32_t right = right_close_answer(r, last, e, output_len);
    take_copy(&output);
    uint32_t answer = lsh_close(engine(), *r, last, e, buffer(&output), output_len);
    check(answer == right, "%s answers %" PRIu32 ", not %" PRIu32, said, answer, right);
    check(kept_except(&output, right == LSH_ACCEPTED ? LSH_RECEIPT_BYTES : 0), "%s writes %s", said,
          right == LSH_ACCEPTED ? "outside the receipt" : "to the output or around it");
    if (right == LSH_ACCEPTED) {
        uint8_t receipt[LSH_RECEIPT_BYTES];
        right_receipt(r, last, e, receipt);
        check(memcmp(buffer(&output), receipt, sizeof receipt) == 0, "%s writes another receipt", said);
    }
}

/* ---- records ---- */

static void put_random_chain(uint64_t w, uint64_t *chain)
{
    for (size_t i = 0; i < 16; i++) {
        chain[i] = w == 32 ? next_random() >> 32 : next_random();
    }
}

static void put_random_bytes(uint8_t *bytes, size_t count)
{
    for (size_t i = 0; i < count; i++) {
        bytes[i] = (uint8_t)next_random();
    }
}

/* A sound record with this total, of no order most likely, and no split rewind begun. */
static lsh_record sound_record(uint64_t w, uint64_t total)
{
    lsh_record r = {.w = w, .n = 1 + below(8 * w), .total = total};
    put_random_chain(w, r.chain);
    put_random_bytes(r.held, r.total % LSH_BLOCK_BYTES(w));
    return r;
}

/* The same with a split rewind begun and so many blocks handed back. */
static inline lsh_record begun_record(uint64_t w, uint64_t total, uint64_t blocks)
{
    lsh_record r = sound_record(w, total);
    r.mark = 1;
    r.blocks = blocks;
    memcpy(r.second, r.chain, sizeof r.second);
    if (blocks != 0) {
        put_random_chain(w, r.second);
        put_random_bytes(r.back, LSH_BLOCK_BYTES(w));
    }
    return r;
}

#endif
