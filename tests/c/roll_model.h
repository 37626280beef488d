/* What the calls with a roll have to answer and to write, from document 02 (W1) in the plainest way. Which slot a call takes for a
 * checkpoint is left open there: it is read from the roll after the call, and has to be one that was not linked.
 * order_model.h comes before it. */
#ifndef ROLL_MODEL_H
#define ROLL_MODEL_H

#include <stdbool.h>
#include <stdint.h>
#include <string.h>

#include "lsh_kiosk.h"

/* ---- the bytes of a roll ---- */

/* Where the index stands that leads on from a slot; slot 0 is the head. */
static size_t index_place(uint64_t w, size_t slot)
{
    return slot == 0 ? 0 : LSH_SLOT_PLACE(w, slot);
}

static size_t index_of(uint64_t w, const uint8_t *roll, size_t slot)
{
    size_t at = index_place(w, slot);
    return roll[at] + 256u * roll[at + 1];
}

static void put_index(uint64_t w, uint8_t *roll, size_t slot, size_t next)
{
    size_t at = index_place(w, slot);
    roll[at] = (uint8_t)next;
    roll[at + 1] = (uint8_t)(next >> 8);
}

/* How many slots a roll of this length has; 0 if no roll has it. */
static size_t slot_count(uint64_t w, size_t roll_len)
{
    for (size_t slots = 1; slots <= LSH_MOST_SLOTS; slots++) {
        if (roll_len == LSH_ROLL_BYTES(w, slots)) {
            return slots;
        }
    }
    return 0;
}

/* The way from the head: the slots that are met, the first at place 1, behind the head. */
struct way {
    bool is_roll;
    size_t count;
    uint16_t slots[1 + LSH_MOST_SLOTS];
};

static struct way walk(uint64_t w, const uint8_t *roll, size_t roll_len)
{
    struct way way = {false, 0, {0}};
    bool met[1 + LSH_MOST_SLOTS] = {false};
    size_t slots = slot_count(w, roll_len);
    if (slots == 0) {
        return way;
    }
    for (size_t slot = index_of(w, roll, 0); slot != 0; slot = index_of(w, roll, slot)) {
        if (slot > slots || met[slot]) {
            return way;
        }
        met[slot] = true;
        way.slots[++way.count] = (uint16_t)slot;
    }
    way.is_roll = true;
    return way;
}

/* ---- outcomes ---- */

/* How many checkpoints an order of so many bytes has. */
static uint64_t checkpoints(uint64_t w, uint64_t total)
{
    return total / LSH_BLOCK_BYTES(w) / LSH_CHECKPOINT_BLOCKS;
}

static bool is_roll_of(const lsh_record *r, const uint8_t *roll, size_t roll_len)
{
    struct way way = walk(r->w, roll, roll_len);
    return way.is_roll && way.count == checkpoints(r->w, r->total);
}

/* 3, 17 and 15, in this order, for a call that is in turn with this mark. */
static uint32_t refusal_with_roll(const lsh_record *r, uint64_t mark, const uint8_t *roll, size_t roll_len)
{
    if (!is_sound(r)) {
        return LSH_UNSOUND_RECORD;
    }
    if (r->mark != mark) {
        return LSH_OUT_OF_TURN;
    }
    return is_roll_of(r, roll, roll_len) ? LSH_ACCEPTED : LSH_BAD_ROLL;
}

static lsh_outcome right_append_roll(const lsh_record *r, const uint8_t *piece, size_t piece_len, const uint8_t *roll, size_t roll_len)
{
    uint32_t refusal = refusal_with_roll(r, 0, roll, roll_len);
    if (refusal != LSH_ACCEPTED) {
        return refused(refusal, r);
    }
    if (piece_len > LSH_MOST_BYTES - r->total) {
        return refused(LSH_TOO_LONG, r);
    }
    if (checkpoints(r->w, r->total + piece_len) > slot_count(r->w, roll_len)) {
        return refused(LSH_FULL_ROLL, r);
    }
    return right_append(r, piece, piece_len);
}

static lsh_outcome right_rewind_roll(const lsh_record *r, uint64_t keep, const uint8_t *h, size_t h_len, const uint8_t *roll, size_t roll_len)
{
    uint32_t refusal = refusal_with_roll(r, 0, roll, roll_len);
    return refusal == LSH_ACCEPTED ? right_rewind(r, keep, h, h_len) : refused(refusal, r);
}

/* ---- the roll after an accepted call ---- */

/* Makes the roll from before an accepted Append the right one for after it, where `after` is the one that the call left. Gives false if this
 * one has not first the old links and then as many other slots as there are checkpoints due. */
static bool insert_due(const lsh_record *r, const uint8_t *piece, size_t piece_len, uint8_t *roll, const uint8_t *after, size_t roll_len)
{
    struct way old = walk(r->w, roll, roll_len), way = walk(r->w, after, roll_len);
    if (!way.is_roll || way.count != checkpoints(r->w, r->total + piece_len)
        || memcmp(way.slots, old.slots, (1 + old.count) * sizeof way.slots[0]) != 0) {
        return false;
    }
    lsh_record reached = *r;
    for (size_t k = old.count + 1; k <= way.count; k++) {
        size_t slot = way.slots[k], done = reached.total - r->total;
        size_t end = k * LSH_CHECKPOINT_BLOCKS * LSH_BLOCK_BYTES(r->w);
        reached = right_append(&reached, piece + done, end - reached.total).next;
        put_index(r->w, roll, way.slots[k - 1], slot);
        put_index(r->w, roll, slot, 0);
        store_chain(r->w, reached.chain, roll + LSH_CHAIN_PLACE(r->w, slot));
    }
    return true;
}

/* Makes the roll from before an accepted Rewind, or end of a split one, the right one for after it, where `next` is the record that
 * follows. */
static void unlink_past(const lsh_record *next, uint8_t *roll, size_t roll_len)
{
    struct way way = walk(next->w, roll, roll_len);
    uint64_t remaining = checkpoints(next->w, next->total);
    if (remaining < way.count) {
        put_index(next->w, roll, way.slots[remaining], 0);
    }
}

#endif
