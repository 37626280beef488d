/* Makes each call that takes an engine with several numbers as its engine: those of the two engines, and others, which are the words too.
 * With each of them the call has to answer what it answers with the first, and to leave every byte of the memory that its buffers lie in as it
 * is left with the first. That the first is right is tried by the other programs.
 * It prints how many checks passed, or each that failed; the exit status is 0 only if all passed. */
#include <inttypes.h>
#include <stdbool.h>
#include <stdio.h>
#include <string.h>

#include "lsh_kiosk.h"

#define PROGRAM "engine_calls"
#define LARGEST 0
#include "checks.h"

#define ROUNDS 40 /* of random arguments at each word size */

/* Cut to 32 bits one of them would be the groups. */
static const uint64_t numbers[] = {LSH_ENGINE_WORDS, LSH_ENGINE_GROUPS, 0, 3, TWO_TO_32 + 2, UINT64_MAX};

/* The one that a call is given. */
static uint64_t tried;

/* ---- memory and answers ---- */

/* The buffers, with guard bytes between them; as they are before each call, as they are lent, and as the first call left them. */
struct buffers {
    uint8_t front[GUARD], chain[LSH_CHAIN_BYTES(64)], after_chain[GUARD], roll[LSH_ROLL_BYTES(64, 2)], after_roll[GUARD],
        output[LSH_RECEIPT_BYTES], after_output[GUARD], order[INTERVAL(64) + 3 * LSH_BLOCK_BYTES(64)], key[2 * LSH_BLOCK_BYTES(64)],
        tag[LSH_TAG_BYTES(512)];
};
static struct buffers before, lent, left_first;

static void fill_buffers(void)
{
    uint8_t *bytes = (uint8_t *)&before;
    for (size_t i = 0; i < sizeof before; i++) {
        bytes[i] = (uint8_t)next_random();
    }
    memset(before.roll, 0, sizeof before.roll);
}

/* What the calls answer, by its kind: with the first number, and with the one that is tried. Answers are large, and the program runs with a small
 * stack, so they are not passed on by value. */
struct answer {
    uint32_t number;
    lsh_outcome outcome;
    lsh_sameness sameness;
};
static struct answer first, made;

static bool is_same_answer(void)
{
    return made.number == first.number && made.outcome.number == first.outcome.number && made.outcome.count == first.outcome.count
        && memcmp(&made.outcome.next, &first.outcome.next, sizeof first.outcome.next) == 0
        && made.sameness.number == first.sameness.number && made.sameness.same == first.sameness.same;
}

static void check_answer(const char *call, uint32_t number, uint32_t right)
{
    if (tried == numbers[0]) {
        first = made;
        left_first = lent;
    }
    check(number == right, "%s answers %" PRIu32 ", not %" PRIu32 ", tried = %" PRIu64, call, number, right, tried);
    check(is_same_answer(), "%s does not answer the same, tried = %" PRIu64, call, tried);
    check(memcmp(&lent, &left_first, sizeof lent) == 0, "%s does not leave the same bytes, tried = %" PRIu64, call, tried);
}

/* Makes a call with each of the numbers, and keeps what it answers in a field. */
#define TRY_EACH(right, field, number_field, ...)             \
    for (size_t i = 0; i < COUNT(numbers); i++) {             \
        tried = numbers[i];                                   \
        lent = before;                                        \
        made.field = __VA_ARGS__;                             \
        check_answer(#__VA_ARGS__, made.number_field, right); \
    }

/* Tries a call, by what it answers. The first argument is the right number. */
#define TRY_NUMBER(right, ...) TRY_EACH(right, number, number, __VA_ARGS__)
#define TRY_OUTCOME(right, ...) TRY_EACH(right, outcome, outcome.number, __VA_ARGS__)
#define TRY_SAMENESS(right, ...) TRY_EACH(right, sameness, sameness.number, __VA_ARGS__)

/* ---- what is tried ---- */

/* An order of `total` bytes, which is cut to `length`; h is from the block on that the cut lies in. */
struct order {
    uint64_t w, n;
    size_t block, total, length, keep, from;
    lsh_record opened, r, begun;
};
static struct order o;

/* Few blocks or many, about a checkpoint or none; often all of it is handed back. n is a multiple of 8, for the tags. */
static void choose_order(uint64_t w)
{
    o.w = w;
    o.n = 8 * (1 + below(w));
    o.block = LSH_BLOCK_BYTES(w);
    o.total = below((below(2) == 0 ? 3 * o.block : INTERVAL(w) + 3 * o.block) + 1);
    o.length = below(2) == 0 ? below(o.total + 1) : below(o.total < o.block ? o.total + 1 : o.block);
    o.keep = o.length % o.block;
    o.from = o.length - o.keep;
}

APART static void try_blocks(void)
{
    TRY_NUMBER(LSH_ACCEPTED, lsh_block_forward(tried, o.w, lent.chain, LSH_CHAIN_BYTES(o.w), lent.order, o.block));
    TRY_NUMBER(LSH_ACCEPTED, lsh_block_backward(tried, o.w, lent.chain, LSH_CHAIN_BYTES(o.w), lent.order, o.block));
}

/* The records that the calls return are those that the next calls get. */
APART static void try_order(void)
{
    uint64_t e = below(8);
    uint8_t last = random_last_byte(e);
    TRY_OUTCOME(LSH_ACCEPTED, lsh_open(tried, o.w, o.n));
    o.opened = first.outcome.next;
    TRY_OUTCOME(LSH_ACCEPTED, lsh_append(tried, o.opened, lent.order, o.total));
    o.r = first.outcome.next;
    TRY_OUTCOME(LSH_ACCEPTED, lsh_rewind(tried, o.r, o.keep, lent.order + o.from, o.total - o.from));
    TRY_NUMBER(LSH_ACCEPTED, lsh_close(tried, o.r, last, e, lent.output, sizeof lent.output));
    TRY_NUMBER(LSH_ACCEPTED, lsh_whole(tried, o.w, o.n, lent.order, o.total, last, e, lent.output, sizeof lent.output));
}

APART static void try_steps(void)
{
    size_t left = o.total - o.total % o.block;
    o.begun = lsh_begin(o.r, before.order + left, o.total - left).next;
    while (left > o.from) {
        left -= o.block;
        TRY_OUTCOME(LSH_ACCEPTED, lsh_hand_back(tried, o.begun, lent.order + left, o.block));
        o.begun = first.outcome.next;
    }
    TRY_OUTCOME(LSH_ACCEPTED, lsh_end(tried, o.begun, o.keep));
}

/* A roll of two slots, which is kept as Append leaves it. */
APART static void try_roll(void)
{
    size_t roll_len = LSH_ROLL_BYTES(o.w, 2);
    TRY_OUTCOME(LSH_ACCEPTED, lsh_append_roll(tried, o.opened, lent.order, o.total, lent.roll, roll_len));
    before = left_first;
    TRY_OUTCOME(LSH_ACCEPTED, lsh_rewind_roll(tried, o.r, o.keep, lent.order + o.from, o.total - o.from, lent.roll, roll_len));
    TRY_OUTCOME(LSH_ACCEPTED, lsh_end_roll(tried, o.begun, o.keep, lent.roll, roll_len));
}

/* The tag that is written is checked, as it is and with a bit changed. */
APART static void try_tags(void)
{
    size_t key_len = below(sizeof lent.key + 1), tag_len = LSH_TAG_BYTES(o.n);
    TRY_OUTCOME(LSH_ACCEPTED, lsh_tag_start(tried, o.w, o.n, lent.key, key_len));
    TRY_NUMBER(LSH_ACCEPTED, lsh_tag_finish(tried, o.r, lent.key, key_len, lent.output, sizeof lent.output));
    TRY_NUMBER(LSH_ACCEPTED, lsh_tag(tried, o.w, o.n, lent.key, key_len, lent.order, o.total, lent.output, sizeof lent.output));
    memcpy(before.tag, left_first.output, tag_len);
    TRY_SAMENESS(LSH_ACCEPTED, lsh_tag_check(tried, o.w, o.n, lent.key, key_len, lent.order, o.total, lent.tag, tag_len));
    check(first.sameness.same, "lsh_tag_check says no to a right tag");
    before.tag[below(tag_len)] ^= 1;
    TRY_SAMENESS(LSH_ACCEPTED, lsh_tag_check(tried, o.w, o.n, lent.key, key_len, lent.order, o.total, lent.tag, tag_len));
    check(!first.sameness.same, "lsh_tag_check says yes to a wrong tag");
}

/* A word size that there is not, or a record of zeros. The last ones are refused for the bytes of the order, one of which is changed: blocks
 * are run before that shows. */
APART static void try_refusals(void)
{
    static const lsh_record zeros;
    size_t roll_len = LSH_ROLL_BYTES(o.w, 2);
    TRY_NUMBER(LSH_BAD_WORD_SIZE, lsh_block_forward(tried, 0, lent.chain, LSH_CHAIN_BYTES(o.w), lent.order, o.block));
    TRY_NUMBER(LSH_BAD_WORD_SIZE, lsh_block_backward(tried, 0, lent.chain, LSH_CHAIN_BYTES(o.w), lent.order, o.block));
    TRY_OUTCOME(LSH_BAD_WORD_SIZE, lsh_open(tried, 0, o.n));
    TRY_OUTCOME(LSH_UNSOUND_RECORD, lsh_append(tried, zeros, lent.order, o.total));
    TRY_OUTCOME(LSH_UNSOUND_RECORD, lsh_rewind(tried, zeros, o.keep, lent.order, o.total));
    TRY_NUMBER(LSH_UNSOUND_RECORD, lsh_close(tried, zeros, 0, 0, lent.output, sizeof lent.output));
    TRY_OUTCOME(LSH_UNSOUND_RECORD, lsh_hand_back(tried, zeros, lent.order, o.block));
    TRY_OUTCOME(LSH_UNSOUND_RECORD, lsh_end(tried, zeros, o.keep));
    TRY_OUTCOME(LSH_UNSOUND_RECORD, lsh_append_roll(tried, zeros, lent.order, o.total, lent.roll, roll_len));
    TRY_OUTCOME(LSH_UNSOUND_RECORD, lsh_rewind_roll(tried, zeros, o.keep, lent.order, o.total, lent.roll, roll_len));
    TRY_OUTCOME(LSH_UNSOUND_RECORD, lsh_end_roll(tried, zeros, o.keep, lent.roll, roll_len));
    TRY_NUMBER(LSH_BAD_WORD_SIZE, lsh_whole(tried, 0, o.n, lent.order, o.total, 0, 0, lent.output, sizeof lent.output));
    TRY_NUMBER(LSH_BAD_WORD_SIZE, lsh_tag(tried, 0, o.n, lent.key, sizeof lent.key, lent.order, o.total, lent.output, sizeof lent.output));
    TRY_OUTCOME(LSH_BAD_WORD_SIZE, lsh_tag_start(tried, 0, o.n, lent.key, sizeof lent.key));
    TRY_NUMBER(LSH_UNSOUND_RECORD, lsh_tag_finish(tried, zeros, lent.key, sizeof lent.key, lent.output, sizeof lent.output));
    TRY_SAMENESS(LSH_BAD_WORD_SIZE, lsh_tag_check(tried, 0, o.n, lent.key, sizeof lent.key, lent.order, o.total, lent.tag, sizeof lent.tag));
    if (o.total >= o.block) {
        before.order[below(o.block)] ^= 1;
        TRY_OUTCOME(LSH_OPENING_DIFFERS, lsh_rewind(tried, o.r, 0, lent.order, o.total));
        TRY_OUTCOME(LSH_OPENING_DIFFERS, lsh_rewind_roll(tried, o.r, 0, lent.order, o.total, lent.roll, roll_len));
    }
}

int main(void)
{
    for (uint64_t w = 32; w <= 64; w += 32) {
        for (int i = 0; i < ROUNDS; i++) {
            fill_buffers();
            choose_order(w);
            try_blocks();
            try_order();
            try_steps();
            try_roll();
            try_tags();
            try_refusals();
        }
    }
    return report();
}
