/* What the steps of a split rewind have to answer, from document 02 (W6) in the plainest way. order_model.h and roll_model.h come before it. */
#ifndef SPLIT_MODEL_H
#define SPLIT_MODEL_H

#include <stdint.h>
#include <string.h>

#include "lsh_kiosk.h"

static lsh_outcome right_begin(const lsh_record *r, const uint8_t *bytes, size_t bytes_len)
{
    if (!is_sound(r)) {
        return refused(LSH_UNSOUND_RECORD, r);
    }
    if (r->mark != 0) {
        return refused(LSH_OUT_OF_TURN, r);
    }
    if (bytes_len != r->total % LSH_BLOCK_BYTES(r->w)) {
        return refused(LSH_BAD_START, r);
    }
    if (memcmp(bytes, r->held, bytes_len) != 0) {
        return refused(LSH_HELD_DIFFER, r);
    }
    lsh_outcome outcome = {LSH_ACCEPTED, 0, *r};
    outcome.next.mark = 1;
    memcpy(outcome.next.second, r->chain, sizeof r->chain);
    return outcome;
}

static lsh_outcome right_hand_back(const lsh_record *r, const uint8_t *block, size_t block_len)
{
    if (!is_sound(r)) {
        return refused(LSH_UNSOUND_RECORD, r);
    }
    if (r->mark == 0) {
        return refused(LSH_OUT_OF_TURN, r);
    }
    if (block_len != LSH_BLOCK_BYTES(r->w) || r->blocks == r->total / LSH_BLOCK_BYTES(r->w)) {
        return refused(LSH_BAD_START, r);
    }
    lsh_outcome outcome = {LSH_ACCEPTED, 0, *r};
    run_block(lsh_block_backward, r->w, outcome.next.second, block);
    memcpy(outcome.next.back, block, block_len);
    outcome.next.blocks++;
    return outcome;
}

static lsh_outcome right_end(const lsh_record *r, uint64_t keep)
{
    if (!is_sound(r)) {
        return refused(LSH_UNSOUND_RECORD, r);
    }
    if (r->mark == 0) {
        return refused(LSH_OUT_OF_TURN, r);
    }
    uint64_t block = LSH_BLOCK_BYTES(r->w);
    uint64_t handed = r->blocks * block + r->total % block;
    if (keep > handed || keep >= block) {
        return refused(LSH_BAD_KEEP, r);
    }
    lsh_outcome outcome = right_open(r->w, r->n);
    lsh_record *next = &outcome.next;
    if (handed == r->total && memcmp(r->second, next->chain, sizeof r->second) != 0) {
        return refused(LSH_OPENING_DIFFERS, r);
    }
    outcome.count = r->blocks;
    next->total = r->total - handed + keep;
    memcpy(next->chain, r->second, sizeof next->chain);
    memcpy(next->held, r->blocks == 0 ? r->held : r->back, keep);
    return outcome;
}

/* The roll after it is that of unlink_past. */
static lsh_outcome right_end_roll(const lsh_record *r, uint64_t keep, const uint8_t *roll, size_t roll_len)
{
    uint32_t refusal = refusal_with_roll(r, 1, roll, roll_len);
    return refusal == LSH_ACCEPTED ? right_end(r, keep) : refused(refusal, r);
}

static lsh_outcome right_abandon(const lsh_record *r)
{
    if (!is_sound(r)) {
        return refused(LSH_UNSOUND_RECORD, r);
    }
    if (r->mark == 0) {
        return refused(LSH_OUT_OF_TURN, r);
    }
    lsh_outcome outcome = {LSH_ACCEPTED, 0, *r};
    outcome.next.mark = 0;
    memset(outcome.next.second, 0, sizeof outcome.next.second);
    memset(outcome.next.back, 0, sizeof outcome.next.back);
    outcome.next.blocks = 0;
    return outcome;
}

#endif
