/* What the programs share that try the calls with a roll: its buffer, calls that are made and checked, and rolls to try. checks.h and
 * order_checks.h come before it. */
#ifndef ROLL_CHECKS_H
#define ROLL_CHECKS_H

#include <inttypes.h>
#include <stdbool.h>
#include <stdint.h>
#include <stdio.h>
#include <string.h>

#include "lsh_kiosk.h"
#include "roll_model.h"

static struct guarded roll;

/* ---- calls ---- */

/* The calls once more, as the archive has them: with the address of their answer. */
void *append_roll_to(void *answer, uint64_t engine, lsh_record r, const uint8_t *piece, size_t piece_len, uint8_t *roll, size_t roll_len)
    __asm__("lsh_append_roll");
void *rewind_roll_to(void *answer, uint64_t engine, lsh_record r, uint64_t keep, const uint8_t *h, size_t h_len, uint8_t *roll,
                     size_t roll_len) __asm__("lsh_rewind_roll");

/* The roll as it was before the last call, which is in its copy. */
static const uint8_t *roll_before(void)
{
    return roll.copy + roll.start;
}

/* The roll after a call, against the right one; and the bytes around it. */
static void check_roll(const uint8_t *right, size_t roll_len, const char *said)
{
    check(memcmp(buffer(&roll), right, roll_len) == 0, "%s leaves another roll", said);
    check(kept_except(&roll, roll_len), "%s writes around the roll", said);
}

static void check_appended(const lsh_record *r, const uint8_t *piece, size_t piece_len, size_t roll_len, uint32_t number, const char *said)
{
    if (number != LSH_ACCEPTED) {
        check(kept_except(&roll, 0), "%s writes to the roll or around it", said);
        return;
    }
    static uint8_t right[LARGEST];
    memcpy(right, roll_before(), roll_len);
    bool inserted = insert_due(r, piece, piece_len, right, buffer(&roll), roll_len);
    check(inserted, "%s leaves a roll with other links", said);
    if (inserted) {
        check_roll(right, roll_len, said);
    }
}

static void check_rewound(const lsh_outcome *outcome, size_t roll_len, const char *said)
{
    if (outcome->number != LSH_ACCEPTED) {
        check(kept_except(&roll, 0), "%s writes to the roll or around it", said);
        return;
    }
    static uint8_t right[LARGEST];
    memcpy(right, roll_before(), roll_len);
    unlink_past(&outcome->next, right, roll_len);
    check_roll(right, roll_len, said);
}

/* A piece or a roll may be said to be longer than its memory if the call has to be refused for that: a refused call reads nothing of it. */
APART static const lsh_outcome *append_roll(const lsh_record *r, size_t from, size_t piece_len, size_t roll_len)
{
    char said[200];
    SAY(said, "lsh_append_roll", r, "%zu bytes, roll of %zu bytes", piece_len, roll_len);
    const uint8_t *piece = buffer(&lent) + from;
    take_copy(&lent);
    take_copy(&roll);
    lsh_outcome right = right_append_roll(r, piece, piece_len, buffer(&roll), roll_len);
    lsh_outcome outcome = lsh_append_roll(engine(), *r, piece, piece_len, buffer(&roll), roll_len);
    check_outcome(&outcome, &right, said);
    check_appended(r, piece, piece_len, roll_len, right.number, said);
    check_lent(said);
    put_back(&roll);
    append_roll_to(place_for_answer(&place), engine(), *r, piece, piece_len, buffer(&roll), roll_len);
    check_place(&right, said);
    check_appended(r, piece, piece_len, roll_len, right.number, said);
    check_lent(said);
    return &made;
}

APART static const lsh_outcome *rewind_roll(const lsh_record *r, uint64_t keep, size_t from, size_t h_len, size_t roll_len)
{
    char said[200];
    SAY(said, "lsh_rewind_roll", r, "keep = %" PRIu64 ", %zu bytes, roll of %zu bytes", keep, h_len, roll_len);
    const uint8_t *h = buffer(&lent) + from;
    take_copy(&lent);
    take_copy(&roll);
    lsh_outcome right = right_rewind_roll(r, keep, h, h_len, buffer(&roll), roll_len);
    lsh_outcome outcome = lsh_rewind_roll(engine(), *r, keep, h, h_len, buffer(&roll), roll_len);
    check_outcome(&outcome, &right, said);
    check_rewound(&right, roll_len, said);
    check_lent(said);
    put_back(&roll);
    rewind_roll_to(place_for_answer(&place), engine(), *r, keep, h, h_len, buffer(&roll), roll_len);
    check_place(&right, said);
    check_rewound(&right, roll_len, said);
    check_lent(said);
    return &made;
}

/* ---- rolls ---- */

static void make_new_roll(size_t roll_len)
{
    fill(&roll);
    memset(buffer(&roll), 0, roll_len);
}

/* A roll with so many slots linked, in any order; all other bytes are random, those of the other slots too. */
static void make_linked_roll(uint64_t w, size_t slots, size_t links)
{
    fill(&roll);
    uint16_t left[LSH_MOST_SLOTS];
    for (size_t i = 0; i < slots; i++) {
        left[i] = (uint16_t)(i + 1);
    }
    size_t last = 0;
    for (size_t i = 0; i < links; i++) {
        size_t chosen = i + below(slots - i), slot = left[chosen];
        left[chosen] = left[i];
        put_index(w, buffer(&roll), last, slot);
        last = slot;
    }
    put_index(w, buffer(&roll), last, 0);
}

#endif
