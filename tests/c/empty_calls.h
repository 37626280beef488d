/* Each call that takes a buffer, with no bytes in one of its buffers or in several: what the programs share that try which pointer may stand
 * there. Each call is made twice, and the second has to answer and write what the first does: the first with a pointer that is not null, the
 * second with the one that the program tries. checks.h comes before it. It is C and C++. */
#ifndef EMPTY_CALLS_H
#define EMPTY_CALLS_H

#include <inttypes.h>
#include <stdbool.h>
#include <stdint.h>
#include <string.h>

#include "lsh_kiosk.h"

#define DIGEST_BITS 256 /* both word sizes have it, and so have tags */

/* ---- buffers ---- */

/* The pointer that is lent with a length of 0: of the two below one after the other. */
static uint8_t *empty;
static uint8_t *not_null, *tried;

/* The buffers that are lent with other lengths: as they are lent, and as the first of two calls left them. */
struct buffers {
    uint8_t chain[LSH_CHAIN_BYTES(64)], block[LSH_BLOCK_BYTES(64)], roll[LSH_ROLL_BYTES(64, 1)], output[LSH_RECEIPT_BYTES];
};
static struct buffers before, lent, left_first;

static void prepare(uint8_t *pointer)
{
    empty = pointer;
    lent = before;
}

/* ---- calls ---- */

static void check_number(const char *call, uint32_t first, uint32_t second, uint32_t right)
{
    check(first == right, "%s answers %" PRIu32 ", not %" PRIu32, call, first, right);
    check(second == right, "%s answers %" PRIu32 ", not %" PRIu32 ", with the pointer that is tried", call, second, right);
    check(memcmp(&lent, &left_first, sizeof lent) == 0, "%s leaves other bytes with the pointer that is tried", call);
}

/* The outcomes of the two calls. They are large, and the programs run with a small stack. */
static lsh_outcome first_outcome, second_outcome;

static void check_outcomes(const char *call, uint32_t right)
{
    check_number(call, first_outcome.number, second_outcome.number, right);
    check(first_outcome.count == second_outcome.count, "%s counts other blocks with the pointer that is tried", call);
    check(memcmp(&first_outcome.next, &second_outcome.next, sizeof(lsh_record)) == 0, "%s returns another record with the pointer that is tried",
          call);
}

static void check_samenesses(const char *call, lsh_sameness first, lsh_sameness second, uint32_t right, bool right_same)
{
    check_number(call, first.number, second.number, right);
    check(first.same == right_same && second.same == right_same, "%s takes for the same what is not, or the other way round", call);
}

/* Makes a call with each of the two pointers, and keeps both answers. */
#define TWICE(first, second, ...) \
    prepare(not_null);            \
    first = __VA_ARGS__;          \
    left_first = lent;            \
    prepare(tried);               \
    second = __VA_ARGS__

/* Tries a call, by what it answers. The first argument is the right number. */
#define TRY_NUMBER(right, ...)                            \
    do {                                                  \
        uint32_t first, second;                           \
        TWICE(first, second, __VA_ARGS__);                \
        check_number(#__VA_ARGS__, first, second, right); \
    } while (false)
#define TRY_OUTCOME(right, ...)                            \
    do {                                                   \
        TWICE(first_outcome, second_outcome, __VA_ARGS__); \
        check_outcomes(#__VA_ARGS__, right);               \
    } while (false)
#define TRY_SAMENESS(right, right_same, ...)                              \
    do {                                                                  \
        lsh_sameness first, second;                                       \
        TWICE(first, second, __VA_ARGS__);                                \
        check_samenesses(#__VA_ARGS__, first, second, right, right_same); \
    } while (false)

/* ---- what is tried ---- */

static void try_block_calls(uint64_t w)
{
    size_t chain_len = LSH_CHAIN_BYTES(w), block_len = LSH_BLOCK_BYTES(w);
    TRY_NUMBER(LSH_BAD_LENGTH, lsh_block_forward(engine(), w, empty, 0, lent.block, block_len));
    TRY_NUMBER(LSH_BAD_LENGTH, lsh_block_forward(engine(), w, lent.chain, chain_len, empty, 0));
    TRY_NUMBER(LSH_BAD_LENGTH, lsh_block_forward(engine(), w, empty, 0, empty, 0));
    TRY_NUMBER(LSH_BAD_WORD_SIZE, lsh_block_forward(engine(), 0, empty, 0, empty, 0));
    TRY_NUMBER(LSH_BAD_LENGTH, lsh_block_backward(engine(), w, empty, 0, lent.block, block_len));
    TRY_NUMBER(LSH_BAD_LENGTH, lsh_block_backward(engine(), w, lent.chain, chain_len, empty, 0));
    TRY_NUMBER(LSH_BAD_LENGTH, lsh_block_backward(engine(), w, empty, 0, empty, 0));
    TRY_NUMBER(LSH_BAD_WORD_SIZE, lsh_block_backward(engine(), 0, empty, 0, empty, 0));
}

static uint32_t first_refusal(uint32_t earlier, uint32_t later)
{
    return earlier != LSH_ACCEPTED ? earlier : later;
}

/* What the first tests of a call answer: whether the record is sound, which it is unless it is zeros; whether a call is in turn that waits for
 * the end of a split rewind, and a step of one; and whether no bytes handed back begin where a block begins. */
static uint32_t sound_answer(const lsh_record *r)
{
    return r->w == 0 ? LSH_UNSOUND_RECORD : LSH_ACCEPTED;
}

static uint32_t turn_answer(const lsh_record *r)
{
    return first_refusal(sound_answer(r), r->mark == 0 ? LSH_ACCEPTED : LSH_OUT_OF_TURN);
}

static uint32_t step_answer(const lsh_record *r)
{
    return first_refusal(sound_answer(r), r->mark == 0 ? LSH_OUT_OF_TURN : LSH_ACCEPTED);
}

static uint32_t start_answer(uint64_t w, const lsh_record *r)
{
    return first_refusal(turn_answer(r), r->total % LSH_BLOCK_BYTES(w) == 0 ? LSH_ACCEPTED : LSH_BAD_START);
}

APART static void try_order_calls(uint64_t w, const lsh_record *r)
{
    TRY_OUTCOME(turn_answer(r), lsh_append(engine(), *r, empty, 0));
    TRY_OUTCOME(start_answer(w, r), lsh_rewind(engine(), *r, 0, empty, 0));
    TRY_OUTCOME(first_refusal(start_answer(w, r), LSH_BAD_KEEP), lsh_rewind(engine(), *r, 1, empty, 0));
    TRY_NUMBER(first_refusal(sound_answer(r), LSH_SHORT_OUTPUT), lsh_close(engine(), *r, 0, 0, empty, 0));
    TRY_OUTCOME(start_answer(w, r), lsh_begin(*r, empty, 0));
    TRY_OUTCOME(first_refusal(step_answer(r), LSH_BAD_START), lsh_hand_back(engine(), *r, empty, 0));
}

/* The orders have fewer blocks than have a checkpoint, so a new roll is the right one. */
APART static void try_roll_calls(uint64_t w, const lsh_record *r)
{
    size_t block_len = LSH_BLOCK_BYTES(w), roll_len = LSH_ROLL_BYTES(w, 1);
    uint32_t no_roll = first_refusal(turn_answer(r), LSH_BAD_ROLL);
    TRY_OUTCOME(turn_answer(r), lsh_append_roll(engine(), *r, empty, 0, lent.roll, roll_len));
    TRY_OUTCOME(no_roll, lsh_append_roll(engine(), *r, lent.block, block_len, empty, 0));
    TRY_OUTCOME(no_roll, lsh_append_roll(engine(), *r, empty, 0, empty, 0));
    TRY_OUTCOME(start_answer(w, r), lsh_rewind_roll(engine(), *r, 0, empty, 0, lent.roll, roll_len));
    TRY_OUTCOME(no_roll, lsh_rewind_roll(engine(), *r, 0, lent.block, block_len, empty, 0));
    TRY_OUTCOME(no_roll, lsh_rewind_roll(engine(), *r, 0, empty, 0, empty, 0));
    TRY_OUTCOME(first_refusal(step_answer(r), LSH_BAD_ROLL), lsh_end_roll(engine(), *r, 0, empty, 0));
}

APART static void try_tag_finish(uint64_t w, const lsh_record *r)
{
    uint32_t no_output = first_refusal(sound_answer(r), LSH_SHORT_OUTPUT);
    TRY_NUMBER(sound_answer(r), lsh_tag_finish(engine(), *r, empty, 0, lent.output, sizeof lent.output));
    TRY_NUMBER(no_output, lsh_tag_finish(engine(), *r, lent.block, LSH_BLOCK_BYTES(w), empty, 0));
    TRY_NUMBER(no_output, lsh_tag_finish(engine(), *r, empty, 0, empty, 0));
}

static void try_calls_on_record(uint64_t w, const lsh_record *r)
{
    try_order_calls(w, r);
    try_roll_calls(w, r);
    try_tag_finish(w, r);
}

/* An order of no bytes, one with held bytes, one of a whole block, with a split rewind begun, and no order. */
APART static void try_records(uint64_t w)
{
    static lsh_record opened, held, whole, begun, zeros;
    opened = lsh_open(engine(), w, DIGEST_BITS).next;
    held = lsh_append(engine(), opened, before.block, 1).next;
    whole = lsh_append(engine(), opened, before.block, LSH_BLOCK_BYTES(w)).next;
    begun = lsh_begin(whole, before.block, 0).next;
    check(held.total == 1 && whole.total == LSH_BLOCK_BYTES(w) && begun.mark == 1, "the records are not those to try, w = %" PRIu64, w);
    try_calls_on_record(w, &opened);
    try_calls_on_record(w, &held);
    try_calls_on_record(w, &whole);
    try_calls_on_record(w, &begun);
    try_calls_on_record(w, &zeros);
}

static void try_whole(uint64_t w)
{
    uint64_t n = DIGEST_BITS;
    size_t output_len = sizeof lent.output;
    TRY_NUMBER(LSH_ACCEPTED, lsh_whole(engine(), w, n, empty, 0, 0, 0, lent.output, output_len));
    TRY_NUMBER(LSH_ACCEPTED, lsh_whole(engine(), w, n, empty, 0, 0x80, 1, lent.output, output_len));
    TRY_NUMBER(LSH_SHORT_OUTPUT, lsh_whole(engine(), w, n, lent.block, sizeof lent.block, 0, 0, empty, 0));
    TRY_NUMBER(LSH_SHORT_OUTPUT, lsh_whole(engine(), w, n, empty, 0, 0, 0, empty, 0));
}

/* The chain and the block are lent as a key and a message. */
APART static void try_tags(uint64_t w)
{
    uint64_t n = DIGEST_BITS;
    uint8_t *key = lent.chain, *message = lent.block;
    size_t key_len = sizeof lent.chain, message_len = sizeof lent.block, output_len = sizeof lent.output;
    TRY_NUMBER(LSH_ACCEPTED, lsh_tag(engine(), w, n, empty, 0, message, message_len, lent.output, output_len));
    TRY_NUMBER(LSH_ACCEPTED, lsh_tag(engine(), w, n, key, key_len, empty, 0, lent.output, output_len));
    TRY_NUMBER(LSH_ACCEPTED, lsh_tag(engine(), w, n, empty, 0, empty, 0, lent.output, output_len));
    TRY_NUMBER(LSH_SHORT_OUTPUT, lsh_tag(engine(), w, n, key, key_len, message, message_len, empty, 0));
    TRY_NUMBER(LSH_SHORT_OUTPUT, lsh_tag(engine(), w, n, empty, 0, empty, 0, empty, 0));
    TRY_OUTCOME(LSH_ACCEPTED, lsh_tag_start(engine(), w, n, empty, 0));

    /* A tag that is right for a message of no bytes with this key, and for no other. */
    uint8_t tag[LSH_TAG_BYTES(DIGEST_BITS)];
    check(lsh_tag(engine(), w, n, before.chain, key_len, before.block, 0, tag, sizeof tag) == LSH_ACCEPTED, "lsh_tag refuses, w = %" PRIu64, w);
    TRY_SAMENESS(LSH_ACCEPTED, true, lsh_tag_check(engine(), w, n, key, key_len, empty, 0, tag, sizeof tag));
    TRY_SAMENESS(LSH_ACCEPTED, false, lsh_tag_check(engine(), w, n, empty, 0, empty, 0, tag, sizeof tag));
    TRY_SAMENESS(LSH_ACCEPTED, false, lsh_tag_check(engine(), w, n, key, key_len, message, message_len, empty, 0));
    TRY_SAMENESS(LSH_ACCEPTED, false, lsh_tag_check(engine(), w, n, empty, 0, empty, 0, empty, 0));
}

static void try_receipts(void)
{
    uint8_t receipt[LSH_RECEIPT_BYTES];
    check(lsh_whole(engine(), 32, DIGEST_BITS, before.block, 1, 0, 0, receipt, sizeof receipt) == LSH_ACCEPTED, "lsh_whole refuses");
    TRY_SAMENESS(LSH_NO_RECEIPTS, false, lsh_same(empty, 0, receipt, sizeof receipt));
    TRY_SAMENESS(LSH_NO_RECEIPTS, false, lsh_same(receipt, sizeof receipt, empty, 0));
    TRY_SAMENESS(LSH_NO_RECEIPTS, false, lsh_same(empty, 0, empty, 0));

    lsh_counts first, second;
    TWICE(first, second, lsh_tally(empty, 0));
    check_number("lsh_tally", first.number, second.number, LSH_ACCEPTED);
    check(second.place == 0 && second.firsts == 0 && second.reprints == 0 && second.blanks == 0, "lsh_tally counts receipts in an empty list");
}

/* Tries all of these with a pointer. */
static void try_pointer(uint8_t *pointer)
{
    static struct guarded around;
    fill(&around);
    take_copy(&around);
    not_null = buffer(&around);
    tried = pointer;
    memset(&before, 0xa5, sizeof before);
    memset(before.roll, 0, sizeof before.roll);
    for (uint64_t w = 32; w <= 64; w += 32) {
        try_block_calls(w);
        try_records(w);
        try_whole(w);
        try_tags(w);
    }
    try_receipts();
    check(kept_except(&around, 0), "a call writes to a buffer of no bytes");
}

#endif
