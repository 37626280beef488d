/* Calls lsh_begin, lsh_hand_back, lsh_end, lsh_end_roll and lsh_abandon as a driver written in C does, with right and with wrong arguments, on
 * orders with and without a roll, on records that are sound and of no order, and on wrong ones; and the other calls on an order while a
 * split rewind is unfinished.
 * After each call it checks the whole answer against split_model.h, every byte of the roll, that the bytes lent are as they were, and the
 * guard bytes around the buffers and around an answer that is returned in memory.
 * It prints how many checks passed, or each that failed; the exit status is 0 only if all passed. */
#include <inttypes.h>
#include <stdbool.h>
#include <stdio.h>
#include <string.h>

#include "lsh_kiosk.h"

#define PROGRAM "split_calls"
#define LARGEST (2 * INTERVAL(64) + 3 * LSH_BLOCK_BYTES(64))
#include "checks.h"
#include "order_checks.h"
#include "roll_checks.h"
#include "split_model.h"

static_assert(LARGEST > LSH_ROLL_BYTES(64, LSH_MOST_SLOTS), "the largest roll can be lent");

#define ORDERS 4     /* random orders at each word size and number of slots */
#define CHANGES 30   /* in each order */
#define RECORDS 1000 /* random records at each word size, without a roll and with one */
#define ROUNDS 4     /* of each set of refusals that apply at once */

/* ---- calls ---- */

/* The calls once more, as the archive has them: with the address of their answer. */
void *begin_to(void *answer, lsh_record r, const uint8_t *bytes, size_t bytes_len) __asm__("lsh_begin");
void *hand_back_to(void *answer, uint64_t engine, lsh_record r, const uint8_t *block, size_t block_len) __asm__("lsh_hand_back");
void *end_to(void *answer, uint64_t engine, lsh_record r, uint64_t keep) __asm__("lsh_end");
void *end_roll_to(void *answer, uint64_t engine, lsh_record r, uint64_t keep, uint8_t *roll, size_t roll_len) __asm__("lsh_end_roll");
void *abandon_to(void *answer, lsh_record r) __asm__("lsh_abandon");

/* How far the split rewind is on which a step is tried. */
#define PROGRESS "mark = %" PRIu64 ", blocks = %" PRIu64

/* Bytes, a block or a roll may be said to be longer than their memory if the call has to be refused for that: a refused call reads nothing of
 * them. */
APART static const lsh_outcome *begin(const lsh_record *r, size_t from, size_t bytes_len)
{
    char said[200];
    SAY(said, "lsh_begin", r, PROGRESS ", %zu bytes", r->mark, r->blocks, bytes_len);
    const uint8_t *bytes = buffer(&lent) + from;
    lsh_outcome right = right_begin(r, bytes, bytes_len);
    take_copy(&lent);
    lsh_outcome outcome = lsh_begin(*r, bytes, bytes_len);
    check_outcome(&outcome, &right, said);
    check_lent(said);
    begin_to(place_for_answer(&place), *r, bytes, bytes_len);
    check_place(&right, said);
    check_lent(said);
    return &made;
}

APART static const lsh_outcome *hand_back(const lsh_record *r, size_t from, size_t block_len)
{
    char said[200];
    SAY(said, "lsh_hand_back", r, PROGRESS ", %zu bytes", r->mark, r->blocks, block_len);
    const uint8_t *block = buffer(&lent) + from;
    lsh_outcome right = right_hand_back(r, block, block_len);
    take_copy(&lent);
    lsh_outcome outcome = lsh_hand_back(engine(), *r, block, block_len);
    check_outcome(&outcome, &right, said);
    check_lent(said);
    hand_back_to(place_for_answer(&place), engine(), *r, block, block_len);
    check_place(&right, said);
    check_lent(said);
    return &made;
}

APART static const lsh_outcome *end(const lsh_record *r, uint64_t keep)
{
    char said[200];
    SAY(said, "lsh_end", r, PROGRESS ", keep = %" PRIu64, r->mark, r->blocks, keep);
    lsh_outcome right = right_end(r, keep);
    lsh_outcome outcome = lsh_end(engine(), *r, keep);
    check_outcome(&outcome, &right, said);
    end_to(place_for_answer(&place), engine(), *r, keep);
    check_place(&right, said);
    return &made;
}

APART static const lsh_outcome *end_roll(const lsh_record *r, uint64_t keep, size_t roll_len)
{
    char said[200];
    SAY(said, "lsh_end_roll", r, PROGRESS ", keep = %" PRIu64 ", roll of %zu bytes", r->mark, r->blocks, keep, roll_len);
    take_copy(&roll);
    lsh_outcome right = right_end_roll(r, keep, buffer(&roll), roll_len);
    lsh_outcome outcome = lsh_end_roll(engine(), *r, keep, buffer(&roll), roll_len);
    check_outcome(&outcome, &right, said);
    check_rewound(&right, roll_len, said);
    put_back(&roll);
    end_roll_to(place_for_answer(&place), engine(), *r, keep, buffer(&roll), roll_len);
    check_place(&right, said);
    check_rewound(&right, roll_len, said);
    return &made;
}

APART static const lsh_outcome *abandon(const lsh_record *r)
{
    char said[200];
    SAY(said, "lsh_abandon", r, PROGRESS, r->mark, r->blocks);
    lsh_outcome right = right_abandon(r);
    lsh_outcome outcome = lsh_abandon(*r);
    check_outcome(&outcome, &right, said);
    abandon_to(place_for_answer(&place), *r);
    check_place(&right, said);
    return &made;
}

/* ---- what is tried: orders ---- */

/* The order of the first bytes of the buffer. */
APART static const lsh_outcome *order_of(uint64_t w, uint64_t n, size_t total)
{
    const lsh_record opened = open_order(w, n)->next;
    return append(&opened, 0, total);
}

static const lsh_outcome *begin_order(const lsh_record *r)
{
    size_t held = r->total % LSH_BLOCK_BYTES(r->w);
    return begin(r, r->total - held, held);
}

/* Hands back a block of the order, counted from 0. */
static const lsh_outcome *hand_back_block(const lsh_record *r, size_t i)
{
    return hand_back(r, i * LSH_BLOCK_BYTES(r->w), LSH_BLOCK_BYTES(r->w));
}

/* While the split rewind is unfinished, the receipt is that of the order before it, an abandon gives the record before it, byte for byte, and
 * the order cannot be changed in another way, not even by no bytes. */
static void check_unfinished(const lsh_record *before, const lsh_record *r)
{
    uint64_t e = below(8);
    uint8_t last = random_last_byte(e);
    close_order(r, last, e, LSH_RECEIPT_BYTES);
    uint8_t receipt[LSH_RECEIPT_BYTES];
    check(lsh_close(engine(), *before, last, e, receipt, sizeof receipt) == LSH_ACCEPTED && memcmp(buffer(&output), receipt, sizeof receipt) == 0,
          "the receipt of an order of %" PRIu64 " bytes is another one after %" PRIu64 " blocks", before->total, r->blocks);

    check(abandon(r)->number == LSH_ACCEPTED && memcmp(&made.next, before, sizeof *before) == 0,
          "an order of %" PRIu64 " bytes is not restored after %" PRIu64 " blocks", before->total, r->blocks);

    check(append(r, 0, 0)->number == LSH_OUT_OF_TURN && rewind_order(r, 0, 0, before->total)->number == LSH_OUT_OF_TURN
              && begin(r, 0, before->total % LSH_BLOCK_BYTES(before->w))->number == LSH_OUT_OF_TURN,
          "an order of %" PRIu64 " bytes is changed after %" PRIu64 " blocks", before->total, r->blocks);
}

/* The end of a split rewind, made just before, gives what one rewind over the same bytes does; with a roll, whose copy is that before the end,
 * if its length is not 0. */
APART static void check_as_one_rewind(const lsh_record *before, uint64_t keep, size_t from, size_t roll_len)
{
    const uint8_t *h = buffer(&lent) + from;
    size_t h_len = before->total - from;
    lsh_outcome one;
    if (roll_len == 0) {
        one = lsh_rewind(engine(), *before, keep, h, h_len);
    } else {
        static uint8_t after[LARGEST];
        memcpy(after, buffer(&roll), roll_len);
        put_back(&roll);
        one = lsh_rewind_roll(engine(), *before, keep, h, h_len, buffer(&roll), roll_len);
        check(memcmp(buffer(&roll), after, roll_len) == 0, "a split rewind of %zu bytes leaves another roll than one rewind", h_len);
    }
    check(made.number == one.number && made.count == one.count,
          "a split rewind of %zu bytes answers %" PRIu32 " %" PRIu64 ", and one rewind %" PRIu32 " %" PRIu64, h_len, made.number, made.count,
          one.number, one.count);
    check(one.number != LSH_ACCEPTED || memcmp(&made.next, &one.next, sizeof one.next) == 0,
          "a split rewind of %zu bytes gives another record than one rewind", h_len);
}

/* Cuts an order in steps, with a roll if its length is not 0. Some of the records in between are tried, the first ones always. */
static const lsh_outcome *cut_in_steps(const lsh_record *before, size_t length, size_t roll_len)
{
    static lsh_record r;
    size_t block = LSH_BLOCK_BYTES(before->w), keep = length % block, whole = before->total / block;
    r = begin_order(before)->next;
    check_unfinished(before, &r);
    for (size_t i = whole; i > length / block; i--) {
        r = hand_back_block(&r, i - 1)->next;
        if (whole - i < 3 || below(16) == 0) {
            check_unfinished(before, &r);
        }
    }
    const lsh_outcome *ended = roll_len == 0 ? end(&r, keep) : end_roll(&r, keep, roll_len);
    check_as_one_rewind(before, keep, length - keep, roll_len);
    return ended;
}

/* The record is that of the first bytes of the buffer, with no split rewind begun. */
static bool check_order(const lsh_record *r, size_t length)
{
    bool is_right = memcmp(r, &order_of(r->w, r->n, length)->next, sizeof *r) == 0;
    check(is_right, "a record is not that of the order of %zu bytes, w = %" PRIu64, length, r->w);
    return is_right;
}

/* With the bytes that the buffer has. */
static void try_every_cut(uint64_t w)
{
    const size_t block = LSH_BLOCK_BYTES(w), totals[] = {0, 1, block - 1, block, block + 1, 2 * block, 3 * block + 44};
    for (size_t i = 0; i < COUNT(totals); i++) {
        lsh_record r = order_of(w, 1 + below(8 * w), totals[i])->next;
        for (size_t length = 0; length <= totals[i]; length++) {
            lsh_record cut = cut_in_steps(&r, length, 0)->next;
            check_order(&cut, length);
        }
    }
}

/* A roll of two slots, and cuts about its checkpoints; then the slots serve again. */
static void try_cuts_about_checkpoints(uint64_t w)
{
    const size_t interval = INTERVAL(w), total = 2 * interval + 44, roll_len = LSH_ROLL_BYTES(w, 2);
    const size_t lengths[] = {total, 2 * interval + 1, 2 * interval, 2 * interval - 1, interval + 1, interval, interval - 1, 1, 0};
    fill(&lent);
    make_new_roll(roll_len);
    lsh_record r = open_order(w, 8 * w)->next;
    for (size_t i = 0; i < COUNT(lengths); i++) {
        r = append_roll(&r, r.total, total - r.total, roll_len)->next;
        r = cut_in_steps(&r, lengths[i], roll_len)->next;
        if (!check_order(&r, lengths[i])) {
            return;
        }
        struct way way = walk(w, buffer(&roll), roll_len);
        check(way.is_roll && way.count == lengths[i] / interval, "a cut to %zu bytes leaves %zu links", lengths[i], way.count);
    }
}

/* A split rewind is begun, some blocks are handed back, and it is abandoned. */
static const lsh_outcome *begin_and_abandon(const lsh_record *before)
{
    static lsh_record r;
    size_t whole = before->total / LSH_BLOCK_BYTES(before->w), left = below(whole + 1);
    r = begin_order(before)->next;
    for (size_t i = whole; i > left; i--) {
        r = hand_back_block(&r, i - 1)->next;
    }
    return abandon(&r);
}

/* Pieces, rewinds, split rewinds and abandoned ones in any order; with a roll if it has slots. */
static void try_order(uint64_t w, size_t slots)
{
    size_t roll_len = slots == 0 ? 0 : LSH_ROLL_BYTES(w, slots), total = 0;
    fill(&lent);
    make_new_roll(roll_len);
    lsh_record r = open_order(w, 1 + below(8 * w))->next;
    for (int i = 0; i < CHANGES; i++) {
        size_t length = below((slots == 0 ? 9 * LSH_BLOCK_BYTES(w) : LARGEST) + 1);
        size_t keep = length % LSH_BLOCK_BYTES(w), from = length - keep;
        if (length > total) {
            r = (roll_len == 0 ? append(&r, total, length - total) : append_roll(&r, total, length - total, roll_len))->next;
            total = made.number == LSH_ACCEPTED ? length : total; /* the roll may be full */
        } else if (below(4) == 0) {
            r = begin_and_abandon(&r)->next;
        } else if (below(3) == 0) {
            r = (roll_len == 0 ? rewind_order(&r, keep, from, total - from) : rewind_roll(&r, keep, from, total - from, roll_len))->next;
            total = length;
        } else {
            r = cut_in_steps(&r, length, roll_len)->next;
            total = length;
            buffer(&lent)[total] ^= 1; /* the order goes on with other bytes */
        }
        if (!check_order(&r, total)) {
            return;
        }
    }
}

/* Each byte of the whole blocks changed: where all of the order is handed back, it does not lead back to the opening chain, and the split
 * rewind is still begun; elsewhere the block is taken. Each held byte changed: it is not begun. */
static void try_changed_bytes(uint64_t w)
{
    const size_t block = LSH_BLOCK_BYTES(w), total = 3 * block + 44, roll_len = LSH_ROLL_BYTES(w, 1);
    fill(&lent);
    make_new_roll(roll_len);
    lsh_record before = order_of(w, 8 * w, total)->next;
    for (size_t i = 0; i < total; i += 1 + below(8)) {
        uint8_t bit = (uint8_t)(1u << below(8));
        buffer(&lent)[i] ^= bit;
        if (i < total - 44) {
            for (size_t length = below(block); length < total; length += block) {
                const lsh_outcome *ended = cut_in_steps(&before, length, below(2) * roll_len);
                check(ended->number == (length < block ? LSH_OPENING_DIFFERS : LSH_ACCEPTED) && ended->next.mark == (length < block),
                      "an end with byte %zu changed answers %" PRIu32 ", mark = %" PRIu64, i, ended->number, ended->next.mark);
            }
        } else {
            check(begin_order(&before)->number == LSH_HELD_DIFFER, "a split rewind is begun with byte %zu changed", i);
        }
        buffer(&lent)[i] ^= bit;
    }
}

/* ---- what is tried: any sound record ---- */

/* Makes the chain that was reached the opening chain. */
static void lead_to_opening(lsh_record *r)
{
    lsh_outcome opened = right_open(r->w, r->n);
    memcpy(r->second, opened.next.chain, sizeof r->second);
    if (r->blocks == 0) {
        memcpy(r->chain, opened.next.chain, sizeof r->chain);
    }
}

/* A record with one begun, of any total up to the limit, and any number of blocks handed back, often all; and half of them led to the
 * opening chain. */
static lsh_record random_begun(uint64_t w, uint64_t total)
{
    uint64_t whole = total / LSH_BLOCK_BYTES(w);
    uint64_t blocks = below(3) == 0 ? whole : below(3) == 0 ? 0 : next_random() % (whole + 1);
    lsh_record r = begun_record(w, total, blocks);
    if (below(2) == 0) {
        lead_to_opening(&r);
    }
    return r;
}

static void try_random_record(uint64_t w)
{
    uint64_t total = next_random() % (LSH_MOST_BYTES + 1);
    total >>= below(40);
    lsh_record r = random_begun(w, total);
    end(&r, below(LSH_BLOCK_BYTES(w)));
    end(&r, total % LSH_BLOCK_BYTES(w) + 1);
    hand_back(&r, below(LARGEST - LSH_BLOCK_BYTES(w)), LSH_BLOCK_BYTES(w));
    lsh_record before = abandon(&r)->next;
    check_unfinished(&before, &r);

    size_t slots = 1 + below(LSH_MOST_SLOTS), links = below(slots + 1);
    r = random_begun(w, links * INTERVAL(w) + below(INTERVAL(w)));
    make_linked_roll(w, slots, links);
    end_roll(&r, below(LSH_BLOCK_BYTES(w)), LSH_ROLL_BYTES(w, slots));
}

/* The limit itself, all of it handed back, and one block less. */
static void try_longest_order(uint64_t w)
{
    uint64_t whole = LSH_MOST_BYTES / LSH_BLOCK_BYTES(w);
    for (uint64_t left = 0; left <= 1; left++) {
        lsh_record r = begun_record(w, LSH_MOST_BYTES, whole - left);
        end(&r, 0);
        hand_back(&r, 0, LSH_BLOCK_BYTES(w));
        lead_to_opening(&r);
        end(&r, LSH_BLOCK_BYTES(w) - 1);
    }
}

/* ---- what is tried: lengths, and bytes to keep ---- */

static void try_lengths(uint64_t w)
{
    const size_t block = LSH_BLOCK_BYTES(w), totals[] = {0, 1, 44, block - 1, block, block + 44, 2 * block};
    const size_t huge[] = {2 * block, TWO_TO_32, TWO_TO_32 + 44, TWO_TO_32 + block, TWO_TO_63, TWO_TO_63 + block, SIZE_MAX - block + 1, SIZE_MAX};
    fill(&lent);
    for (size_t i = 0; i < COUNT(totals); i++) {
        const size_t whole = totals[i] / block;
        lsh_record r = order_of(w, 8 * w, totals[i])->next;
        for (size_t left = whole + 1;; left--) { /* at first with none begun */
            for (size_t length = 0; length <= block + 1; length++) {
                begin(&r, whole * block, length);
                hand_back(&r, 0, length);
            }
            for (size_t k = 0; k < COUNT(huge); k++) {
                begin(&r, whole * block, huge[k]);
                hand_back(&r, 0, huge[k]);
            }
            if (left == 0) {
                break;
            }
            r = left > whole ? begin_order(&r)->next : hand_back_block(&r, left - 1)->next;
        }
    }
}

/* Cut to 8 or 32 bits some of the large ones would be right. */
static void try_keeps(uint64_t w)
{
    const uint64_t block = LSH_BLOCK_BYTES(w), totals[] = {0, 1, 44, block - 1, block, block + 44, 2 * block};
    const uint64_t huge[] = {
        2 * block, 256 + 1, 512, TWO_TO_32, TWO_TO_32 + 1, TWO_TO_32 + block - 1, LSH_MOST_BYTES, TWO_TO_63, TWO_TO_63 + 1,
        UINT64_MAX - block + 1, UINT64_MAX - 1, UINT64_MAX,
    };
    const size_t roll_len = LSH_ROLL_BYTES(w, 1);
    fill(&lent);
    make_new_roll(roll_len);
    for (size_t i = 0; i < COUNT(totals); i++) {
        lsh_record r = order_of(w, 8 * w, totals[i])->next;
        r = begin_order(&r)->next;
        for (size_t left = totals[i] / block;; left--) {
            for (uint64_t keep = 0; keep <= block + 1; keep++) {
                end(&r, keep);
                end_roll(&r, keep, roll_len);
            }
            for (size_t k = 0; k < COUNT(huge); k++) {
                check(end(&r, huge[k])->number == LSH_BAD_KEEP, "%" PRIu64 " bytes are kept", huge[k]);
                check(end_roll(&r, huge[k], roll_len)->number == LSH_BAD_KEEP, "%" PRIu64 " bytes are kept", huge[k]);
            }
            if (left == 0) {
                break;
            }
            r = hand_back_block(&r, left - 1)->next;
        }
    }
}

/* Where there are no bytes, the pointer to them may be anything but null. */
static void try_no_bytes(uint64_t w)
{
    const uint8_t *anything = (const uint8_t *)(uintptr_t)1;
    lsh_record r = sound_record(w, 3 * LSH_BLOCK_BYTES(w));
    lsh_outcome right = right_begin(&r, buffer(&lent), 0);
    lsh_outcome begun = lsh_begin(r, anything, 0);
    check_outcome(&begun, &right, "lsh_begin(no bytes)");
    right = refused(LSH_BAD_START, &begun.next);
    lsh_outcome handed = lsh_hand_back(engine(), begun.next, anything, 0);
    check_outcome(&handed, &right, "lsh_hand_back(no bytes)");
}

/* ---- what is tried: buffers that are no roll ---- */

/* Ends on a record of so many checkpoints, with all blocks but one handed back. */
static void end_with_links(uint64_t w, uint64_t links, size_t roll_len)
{
    lsh_record r = begun_record(w, links * INTERVAL(w) + LSH_BLOCK_BYTES(w) + 1, links * LSH_CHECKPOINT_BLOCKS);
    end_roll(&r, 0, roll_len);
    put_back(&roll);
}

static void try_roll_lengths(uint64_t w)
{
    static const size_t huge[] = {
        TWO_TO_16 + LSH_ROLL_BYTES(32, 1), TWO_TO_32 + LSH_ROLL_BYTES(32, 1), TWO_TO_32 + LSH_ROLL_BYTES(64, 1),
        TWO_TO_63 + LSH_ROLL_BYTES(32, 1), TWO_TO_63 + LSH_ROLL_BYTES(64, 1), SIZE_MAX - 1, SIZE_MAX,
    };
    make_new_roll(LARGEST);
    for (size_t roll_len = 0; roll_len <= LSH_ROLL_BYTES(w, 3) + 1; roll_len++) {
        end_with_links(w, 0, roll_len);
    }
    for (size_t slots = LSH_MOST_SLOTS - 1; slots <= LSH_MOST_SLOTS + 1; slots++) {
        for (size_t roll_len = LSH_ROLL_BYTES(w, slots) - 1; roll_len <= LSH_ROLL_BYTES(w, slots) + 1; roll_len++) {
            end_with_links(w, 0, roll_len);
        }
    }
    for (size_t i = 0; i < COUNT(huge); i++) {
        end_with_links(w, 0, huge[i]);
    }
}

/* Each index on the way from the head changed to each slot, and to indexes beyond: the roll is shorter, another one, or none. The record has
 * as many checkpoints as there are links up to there, or one more, or as the roll had; also those that are left after the end. */
static void try_indexes(uint64_t w)
{
    const size_t slots = 3, roll_len = LSH_ROLL_BYTES(w, slots);
    for (size_t links = 0; links <= slots; links++) {
        make_linked_roll(w, slots, links);
        struct way way = walk(w, buffer(&roll), roll_len);
        const size_t beyond[] = {slots + 1, 255, 256, 256 + way.slots[links], TWO_TO_16 - 1};
        for (size_t k = 0; k <= links; k++) {
            size_t right = index_of(w, buffer(&roll), way.slots[k]);
            for (size_t i = 0; i <= slots + COUNT(beyond); i++) {
                put_index(w, buffer(&roll), way.slots[k], i <= slots ? i : beyond[i - slots - 1]);
                for (size_t checkpoints = 0; checkpoints <= slots + 1; checkpoints++) {
                    end_with_links(w, checkpoints, roll_len);
                }
            }
            put_index(w, buffer(&roll), way.slots[k], right);
        }
    }
}

/* ---- what is tried: the order of the refusals ---- */

enum call { BEGIN, HAND_BACK, END, END_ROLL, ABANDON, APPEND, REWIND, APPEND_ROLL, REWIND_ROLL, CALLS };

static const char *const names[CALLS] = {
    "lsh_begin",  "lsh_hand_back", "lsh_end",         "lsh_end_roll",    "lsh_abandon",
    "lsh_append", "lsh_rewind",    "lsh_append_roll", "lsh_rewind_roll",
};

/* What each call can be refused for, in the order in which it is tested. */
static const uint32_t refusals[CALLS][8] = {
    [BEGIN] = {LSH_UNSOUND_RECORD, LSH_OUT_OF_TURN, LSH_BAD_START, LSH_HELD_DIFFER},
    [HAND_BACK] = {LSH_UNSOUND_RECORD, LSH_OUT_OF_TURN, LSH_BAD_START},
    [END] = {LSH_UNSOUND_RECORD, LSH_OUT_OF_TURN, LSH_BAD_KEEP, LSH_OPENING_DIFFERS},
    [END_ROLL] = {LSH_UNSOUND_RECORD, LSH_OUT_OF_TURN, LSH_BAD_ROLL, LSH_BAD_KEEP, LSH_OPENING_DIFFERS},
    [ABANDON] = {LSH_UNSOUND_RECORD, LSH_OUT_OF_TURN},
    [APPEND] = {LSH_UNSOUND_RECORD, LSH_OUT_OF_TURN, LSH_TOO_LONG},
    [REWIND] = {LSH_UNSOUND_RECORD, LSH_OUT_OF_TURN, LSH_BAD_START, LSH_BAD_KEEP, LSH_HELD_DIFFER, LSH_OPENING_DIFFERS},
    [APPEND_ROLL] = {LSH_UNSOUND_RECORD, LSH_OUT_OF_TURN, LSH_BAD_ROLL, LSH_TOO_LONG, LSH_FULL_ROLL},
    [REWIND_ROLL] = {LSH_UNSOUND_RECORD, LSH_OUT_OF_TURN, LSH_BAD_ROLL, LSH_BAD_START, LSH_BAD_KEEP, LSH_HELD_DIFFER, LSH_OPENING_DIFFERS},
};

/* All that a call can be given; the bytes stand in the buffer. */
struct arguments {
    lsh_record r;
    uint64_t keep;
    size_t from, length;
    size_t roll_len;
};

static const lsh_outcome *make(enum call call, const struct arguments *given)
{
    switch (call) {
    case BEGIN: return begin(&given->r, given->from, given->length);
    case HAND_BACK: return hand_back(&given->r, given->from, given->length);
    case END: return end(&given->r, given->keep);
    case END_ROLL: return end_roll(&given->r, given->keep, given->roll_len);
    case ABANDON: return abandon(&given->r);
    case APPEND: return append(&given->r, given->from, given->length);
    case REWIND: return rewind_order(&given->r, given->keep, given->from, given->length);
    case APPEND_ROLL: return append_roll(&given->r, given->from, given->length, given->roll_len);
    default: return rewind_roll(&given->r, given->keep, given->from, given->length, given->roll_len);
    }
}

/* An order of one checkpoint, with none begun, with one begun, and with all its blocks handed back. */
static lsh_record order, begun, all_handed;

static void make_orders(uint64_t w)
{
    fill(&lent);
    order = order_of(w, 8 * w, INTERVAL(w) + 44)->next;
    begun = begin_order(&order)->next;
    all_handed = begun;
    for (size_t i = LSH_CHECKPOINT_BLOCKS; i > 0; i--) {
        all_handed = hand_back_block(&all_handed, i - 1)->next;
    }
}

static bool has(unsigned wrong, uint32_t number)
{
    return wrong >> number & 1;
}

/* A record for a call that can be refused for these numbers, one bit for each, but is sound. */
static lsh_record record_for(enum call call, unsigned wrong)
{
    bool is_begun = (call == HAND_BACK || call == END || call == END_ROLL || call == ABANDON) != has(wrong, LSH_OUT_OF_TURN);
    bool is_all_handed = call == END || call == END_ROLL || (below(2) == 0 && (call != HAND_BACK || has(wrong, LSH_BAD_START)));
    lsh_record r = !is_begun ? order : is_all_handed ? all_handed : begun;
    if (has(wrong, LSH_HELD_DIFFER)) {
        r.held[below(44)] ^= 1;
    }
    if (has(wrong, LSH_OPENING_DIFFERS)) {
        size_t i = below(16);
        r.chain[i] ^= 1;
        r.second[i] ^= r.mark;
    }
    return r;
}

static void make_unsound(lsh_record *r)
{
    switch (below(6)) {
    case 0: r->w = 0; break;
    case 1: r->n = 0; break;
    case 2: r->total += LSH_MOST_BYTES; break;
    case 3: r->held[255] = 1; break;
    case 4: r->mark += 2; break;
    case 5: r->blocks = UINT64_MAX; break;
    }
}

/* The bytes that are lent. */
static void lend_bytes(uint64_t w, enum call call, unsigned wrong, struct arguments *given)
{
    switch (call) {
    case BEGIN: given->length = 44; break;
    case HAND_BACK: given->length = LSH_BLOCK_BYTES(w); break;
    case APPEND:
    case APPEND_ROLL: given->length = has(wrong, LSH_FULL_ROLL) ? INTERVAL(w) : 1; break;
    default: given->length = order.total; break;
    }
    given->from = order.total - given->length;
    if (has(wrong, LSH_TOO_LONG)) {
        given->length = below(2) == 0 ? LSH_MOST_BYTES - order.total + 1 : SIZE_MAX;
    }
    /* Where no block is left to hand back, a length may be right. */
    if (has(wrong, LSH_BAD_START) && (call != HAND_BACK || given->r.blocks == 0 || below(2) == 0)) {
        given->length = below(2) == 0 ? given->length + 1 : given->length - 1;
    }
}

static void lend_roll(uint64_t w, unsigned wrong, struct arguments *given)
{
    make_linked_roll(w, 1, 1);
    given->roll_len = LSH_ROLL_BYTES(w, 1);
    if (has(wrong, LSH_BAD_ROLL)) {
        switch (below(3)) {
        case 0: given->roll_len++; break;
        case 1: put_index(w, buffer(&roll), 0, 0); break; /* a roll of another record */
        case 2: put_index(w, buffer(&roll), 0, 2); break;
        }
    }
}

static struct arguments arguments_for(uint64_t w, enum call call, unsigned wrong)
{
    static const uint64_t bad_keeps[] = {LSH_BLOCK_BYTES(64), TWO_TO_32, TWO_TO_63, UINT64_MAX};
    struct arguments given = {.r = record_for(call, wrong)};
    given.keep = has(wrong, LSH_BAD_KEEP) ? bad_keeps[below(COUNT(bad_keeps))] : below(LSH_BLOCK_BYTES(w));
    lend_bytes(w, call, wrong, &given);
    lend_roll(w, wrong, &given);
    if (has(wrong, LSH_UNSOUND_RECORD)) {
        make_unsound(&given.r);
    }
    return given;
}

/* Each set of refusals that can apply to a call at once: the answer is the one that is tested first, or 0 where there is none. */
static void try_refusals(uint64_t w, enum call call)
{
    size_t count = 0;
    while (refusals[call][count] != 0) {
        count++;
    }
    for (unsigned set = 0; set < (unsigned)ROUNDS << count; set++) {
        unsigned wrong = 0;
        uint32_t first = LSH_ACCEPTED;
        for (size_t i = count; i > 0; i--) {
            if (set >> (i - 1) & 1) {
                first = refusals[call][i - 1];
                wrong |= 1u << first;
            }
        }
        struct arguments given = arguments_for(w, call, wrong);
        uint32_t number = make(call, &given)->number;
        check(number == first, "%s answers %" PRIu32 ", not %" PRIu32 ", to refusals %#x", names[call], number, first, wrong);
    }
}

/* ---- what is tried: wrong records ---- */

/* All calls on a record, with arguments that are right if it is sound and its total and word size are those of the order. */
static void try_record(const lsh_record *r)
{
    static struct arguments given;
    uint64_t w = order.w;
    given = (struct arguments){.r = *r, .roll_len = LSH_ROLL_BYTES(w, 1)};
    memcpy(buffer(&lent), r->held, 44);
    for (enum call call = BEGIN; call < CALLS; call++) {
        given.length = call == HAND_BACK ? LSH_BLOCK_BYTES(w) : 44;
        make(call, &given);
        put_back(&roll);
    }
    close_order(r, 0, 0, LSH_RECEIPT_BYTES);
    close_order(r, 0xff, UINT64_MAX, 0);
}

/* A record with each of the numbers before and behind the chains changed. Some of the large ones would be right if they were cut to 8 or 32
 * bits, or multiplied by a block's bytes and cut to 64. */
static void try_numbers(const lsh_record *sound)
{
    const uint64_t whole = LSH_CHECKPOINT_BLOCKS, wrapped = UINT64_MAX / LSH_BLOCK_BYTES(sound->w) + 1;
    const uint64_t marks[] = {0, 1, 2, 3, 255, 256, 257, TWO_TO_32, TWO_TO_32 + 1, TWO_TO_63, TWO_TO_63 + 1, UINT64_MAX};
    const uint64_t blocks[] = {0, 1, whole - 1, whole, whole + 1, 256, 257, TWO_TO_32, TWO_TO_32 + 1, wrapped, wrapped + 1, TWO_TO_63, UINT64_MAX};
    const uint64_t totals[] = {44, sound->total - 1, LSH_MOST_BYTES + 44, sound->total + LSH_MOST_BYTES, TWO_TO_63 + 44};
    static lsh_record r;
    r = *sound;
    for (size_t i = 0; i < COUNT(marks); i++) {
        r.mark = marks[i];
        try_record(&r);
    }
    r = *sound;
    for (size_t i = 0; i < COUNT(blocks); i++) {
        r.blocks = blocks[i];
        try_record(&r);
    }
    r = *sound;
    for (size_t i = 0; i < COUNT(totals); i++) {
        r.total = totals[i];
        try_record(&r);
    }
    r = *sound;
    for (uint64_t w = 0; w <= 96; w += 32) {
        r.w = w;
        try_record(&r);
    }
    r = *sound;
    for (uint64_t n = 0; n <= 8 * sound->w + 1; n += 8 * sound->w + 1) {
        r.n = n;
        try_record(&r);
    }
}

/* A record with each word of both chains and each of the 256 places of both byte strings changed. */
static void try_words_and_places(const lsh_record *sound)
{
    static const uint64_t words[] = {0, TWO_TO_32 - 1, TWO_TO_32, UINT64_MAX};
    static lsh_record r;
    for (size_t i = 0; i < 16; i++) {
        r = *sound;
        r.chain[i] ^= 1;
        try_record(&r);
        r = *sound;
        r.second[i] ^= 1;
        try_record(&r);
        for (size_t k = 0; k < COUNT(words); k++) {
            r = *sound;
            r.chain[i] = words[k];
            try_record(&r);
            r.second[i] = words[k];
            try_record(&r);
            r.chain[i] = sound->chain[i];
            try_record(&r);
        }
    }
    for (size_t i = 0; i < sizeof sound->held; i++) {
        r = *sound;
        r.held[i] ^= (uint8_t)(1u << below(8));
        try_record(&r);
        r = *sound;
        r.back[i] ^= (uint8_t)(1u << below(8));
        try_record(&r);
    }
}

/* Records with none begun, with one begun, with one block handed back and with all of them. Sound ones are among those that are made of
 * them. */
static void try_wrong_records(uint64_t w)
{
    const uint64_t total = INTERVAL(w) + 44;
    const uint64_t handed[] = {0, 1, LSH_CHECKPOINT_BLOCKS};
    make_linked_roll(w, 1, 1);
    take_copy(&roll);
    static lsh_record sound;
    sound = sound_record(w, total);
    try_numbers(&sound);
    try_words_and_places(&sound);
    for (size_t i = 0; i < COUNT(handed); i++) {
        sound = begun_record(w, total, handed[i]);
        try_numbers(&sound);
        try_words_and_places(&sound);
    }
}

int main(void)
{
    static const size_t tried_slots[] = {0, 1, 2, 3, LSH_MOST_SLOTS};
    fill(&place);
    fill(&output);
    for (uint64_t w = 32; w <= 64; w += 32) {
        fill(&lent);
        try_every_cut(w);
        memset(buffer(&lent), 0xa5, LARGEST); /* all blocks are the same */
        try_every_cut(w);
        try_cuts_about_checkpoints(w);
        for (size_t i = 0; i < COUNT(tried_slots); i++) {
            for (int k = 0; k < ORDERS; k++) {
                try_order(w, tried_slots[i]);
            }
        }
        try_changed_bytes(w);
        for (int i = 0; i < RECORDS; i++) {
            try_random_record(w);
        }
        try_longest_order(w);
        try_lengths(w);
        try_keeps(w);
        try_no_bytes(w);
        try_roll_lengths(w);
        try_indexes(w);
        make_orders(w);
        for (enum call call = BEGIN; call < CALLS; call++) {
            try_refusals(w, call);
        }
        try_wrong_records(w);
    }
    return report();
}
