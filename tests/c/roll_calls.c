/* Calls lsh_append_roll and lsh_rewind_roll as a driver written in C does, with right and with wrong arguments, on orders, on records
 * that are sound and of no order, and on wrong ones, with rolls and with buffers that are none.
 * After each call it checks the whole answer and every byte of the roll against roll_model.h, that the bytes lent are as they were, and the
 * guard bytes around the buffers and around an answer that is returned in memory.
 * It prints how many checks passed, or each that failed; the exit status is 0 only if all passed. */
#include <inttypes.h>
#include <stdbool.h>
#include <stdio.h>
#include <string.h>

#include "lsh_kiosk.h"

#define PROGRAM "roll_calls"
#define LARGEST (3 * INTERVAL(64) + 2 * LSH_BLOCK_BYTES(64))
#include "checks.h"
#include "order_checks.h"
#include "roll_checks.h"

#define ORDERS 15   /* random orders at each word size and number of slots */
#define CALLS 30    /* in each order */
#define RECORDS 150 /* random records at each word size, each with a random roll */

/* ---- what is tried: orders ---- */

/* Cuts an order, whose bytes stand at the front of the buffer: h from the block on that the cut lies in. */
static const lsh_outcome *cut(const lsh_record *r, size_t length, size_t roll_len)
{
    size_t keep = length % LSH_BLOCK_BYTES(r->w);
    return rewind_roll(r, keep, length - keep, r->total - (length - keep), roll_len);
}

/* The roll shows so many checkpoints of the order, with the chains that lsh_append reaches without a roll. */
static void check_shown(uint64_t w, size_t roll_len, size_t links)
{
    struct way way = walk(w, buffer(&roll), roll_len);
    check(way.is_roll && way.count == links, "the roll has %zu links, not %zu, w = %" PRIu64, way.count, links, w);
    for (size_t k = 1; k <= way.count; k++) {
        lsh_outcome reached = lsh_append(engine(), lsh_open(engine(), w, 8 * w).next, buffer(&lent), k * INTERVAL(w));
        uint8_t chain[LSH_CHAIN_BYTES(64)];
        store_chain(w, reached.next.chain, chain);
        check(memcmp(buffer(&roll) + LSH_CHAIN_PLACE(w, way.slots[k]), chain, LSH_CHAIN_BYTES(w)) == 0,
              "checkpoint %zu of the roll has another chain, w = %" PRIu64, k, w);
    }
}

/* The order is appended to, or cut, until it has this length, and then its roll shows so many checkpoints. */
static void go_to(lsh_record *r, size_t length, size_t roll_len, size_t links)
{
    *r = (length > r->total ? append_roll(r, r->total, length - r->total, roll_len) : cut(r, length, roll_len))->next;
    check(r->total == length, "an order has %" PRIu64 " bytes, not %zu", r->total, length);
    check_shown(r->w, roll_len, links);
}

/* A new roll of two slots: checkpoints at blocks 64 and 128, none at 192; cuts to a checkpoint and before one; slots that serve again. */
static void try_checkpoints(uint64_t w)
{
    size_t interval = INTERVAL(w), roll_len = LSH_ROLL_BYTES(w, 2);
    fill(&lent);
    make_new_roll(roll_len);
    lsh_record r = open_order(w, 8 * w)->next;
    go_to(&r, interval - 1, roll_len, 0);
    go_to(&r, interval, roll_len, 1);
    go_to(&r, 2 * interval - 1, roll_len, 1);
    go_to(&r, 2 * interval + 44, roll_len, 2);
    go_to(&r, 3 * interval - 1, roll_len, 2);
    append_roll(&r, r.total, 1, roll_len);
    append_roll(&r, r.total, 1 + LSH_BLOCK_BYTES(w), roll_len);
    check_shown(w, roll_len, 2);
    go_to(&r, 2 * interval, roll_len, 2);
    go_to(&r, 2 * interval - 1, roll_len, 1);
    memset(buffer(&lent) + r.total, 0xa5, interval); /* the order goes on with other bytes */
    go_to(&r, 2 * interval + 1, roll_len, 2);
    go_to(&r, interval + 1, roll_len, 1);
    go_to(&r, interval - 1, roll_len, 0);
    go_to(&r, 2 * interval, roll_len, 2);
    go_to(&r, 0, roll_len, 0);
    go_to(&r, 3 * interval - 1, roll_len, 2);
}

/* A length of an order: any, or one about a checkpoint. */
static size_t random_length(uint64_t w)
{
    size_t length = below(LARGEST + 1);
    if (below(2) == 0) {
        length = length / INTERVAL(w) * INTERVAL(w) + below(3);
        length -= length == 0 ? 0 : 1;
    }
    return length;
}

static void try_order(uint64_t w, size_t slots)
{
    size_t roll_len = LSH_ROLL_BYTES(w, slots);
    fill(&lent);
    make_new_roll(roll_len);
    lsh_record r = open_order(w, 1 + below(8 * w))->next;
    for (int i = 0; i < CALLS; i++) {
        size_t length = random_length(w);
        r = (length > r.total ? append_roll(&r, r.total, length - r.total, roll_len) : cut(&r, length, roll_len))->next;
    }
}

/* ---- what is tried: any sound record ---- */

/* A roll of any number of slots, with any of them linked, and stale bytes in the others. */
static void try_linked_roll(uint64_t w)
{
    size_t slots = below(2) == 0 ? 1 + below(4) : 1 + below(LSH_MOST_SLOTS);
    size_t links = below(2) == 0 ? slots - below(slots < 4 ? slots : 4) : below(slots + 1);
    size_t roll_len = LSH_ROLL_BYTES(w, slots);
    fill(&lent);

    lsh_record r = sound_record(w, links * INTERVAL(w) + below(INTERVAL(w)));
    make_linked_roll(w, slots, links);
    append_roll(&r, 0, random_length(w), roll_len);

    size_t held = r.total % LSH_BLOCK_BYTES(w), most = r.total < LARGEST ? r.total : LARGEST;
    size_t h_len = (most - held) / LSH_BLOCK_BYTES(w) * LSH_BLOCK_BYTES(w) + held;
    h_len -= below((h_len - held) / LSH_BLOCK_BYTES(w) + 1) * LSH_BLOCK_BYTES(w);
    memcpy(buffer(&lent) + h_len - held, r.held, held);
    make_linked_roll(w, slots, links);
    rewind_roll(&r, below((h_len < LSH_BLOCK_BYTES(w) ? h_len : LSH_BLOCK_BYTES(w) - 1) + 1), 0, h_len, roll_len);
}

/* The most slots, two of them or fewer not linked, and pieces that end about the next checkpoints: a piece is taken as long as each
 * checkpoint has a slot. Longer ones than the memory are not taken. */
static void try_most_slots(uint64_t w)
{
    size_t roll_len = LSH_ROLL_BYTES(w, LSH_MOST_SLOTS);
    fill(&lent);
    for (size_t links = LSH_MOST_SLOTS - 2; links <= LSH_MOST_SLOTS; links++) {
        lsh_record r = sound_record(w, links * INTERVAL(w) + 1);
        for (size_t k = 1; k <= 4; k++) {
            for (size_t length = k * INTERVAL(w) - 2; length <= k * INTERVAL(w); length++) {
                make_linked_roll(w, LSH_MOST_SLOTS, links);
                append_roll(&r, 0, length, roll_len);
            }
        }
    }
}

/* ---- what is tried: buffers that are no roll ---- */

static const size_t huge_lengths[] = {
    TWO_TO_16 + LSH_ROLL_BYTES(32, 1), TWO_TO_32 + LSH_ROLL_BYTES(32, 1), TWO_TO_32 + LSH_ROLL_BYTES(64, 1),
    TWO_TO_63 + LSH_ROLL_BYTES(32, 1), TWO_TO_63 + LSH_ROLL_BYTES(64, 1), SIZE_MAX - 1, SIZE_MAX,
};

/* All zeros, as a new roll is, of a length. */
static void try_roll_length(uint64_t w, size_t roll_len)
{
    const lsh_record opened = right_open(w, 8 * w).next;
    append_roll(&opened, 0, 1, roll_len);
    rewind_roll(&opened, 0, 0, 0, roll_len);
}

static void try_roll_lengths(uint64_t w)
{
    fill(&lent);
    make_new_roll(LARGEST);
    for (size_t roll_len = 0; roll_len <= LSH_ROLL_BYTES(w, 4) + 1; roll_len++) {
        try_roll_length(w, roll_len);
    }
    for (size_t roll_len = LSH_ROLL_BYTES(w, LSH_MOST_SLOTS - 1) - 1; roll_len <= LSH_ROLL_BYTES(w, LSH_MOST_SLOTS + 2) + 1; roll_len++) {
        try_roll_length(w, roll_len);
    }
    for (size_t i = 0; i < COUNT(huge_lengths); i++) {
        try_roll_length(w, huge_lengths[i]);
    }
}

/* Both calls on the roll as it is, with a record of so many checkpoints. Nothing is appended, and the held bytes alone are handed back. */
static void try_record_of(uint64_t w, uint64_t links, size_t roll_len)
{
    lsh_record r = sound_record(w, links * INTERVAL(w) + 1);
    memcpy(buffer(&lent), r.held, 1);
    append_roll(&r, 0, 0, roll_len);
    rewind_roll(&r, 1, 0, 1, roll_len);
}

/* Each index on the way from the head changed to each slot, which makes the roll shorter, another one, or a cycle of each length; and to
 * indexes beyond the slots. Cut to 8 bits some of these would be right, and zeros stand where a slot beyond would have its index. The record
 * has as many checkpoints as there are links up to there, or one more, or as the roll had, or as it has slots. */
static void try_indexes(uint64_t w, size_t slots)
{
    size_t roll_len = LSH_ROLL_BYTES(w, slots);
    for (size_t links = 0; links <= slots; links++) {
        make_linked_roll(w, slots, links);
        memset(buffer(&roll) + roll_len, 0, LARGEST - roll_len);
        struct way way = walk(w, buffer(&roll), roll_len);
        const size_t beyond[] = {slots + 1, slots + 2, 255, 256, 257, 256 + way.slots[links], 512, TWO_TO_16 / 2, TWO_TO_16 - 1};
        for (size_t k = 0; k <= links; k++) {
            size_t right = index_of(w, buffer(&roll), way.slots[k]);
            for (size_t i = 0; i <= slots + COUNT(beyond); i++) {
                put_index(w, buffer(&roll), way.slots[k], i <= slots ? i : beyond[i - slots - 1]);
                try_record_of(w, k, roll_len);
                try_record_of(w, k + 1, roll_len);
                try_record_of(w, links, roll_len);
                try_record_of(w, slots, roll_len);
            }
            put_index(w, buffer(&roll), way.slots[k], right);
        }
    }
}

/* A full roll of the most slots whose last link leads back to each of its links. */
static void try_long_cycles(uint64_t w)
{
    size_t roll_len = LSH_ROLL_BYTES(w, LSH_MOST_SLOTS);
    make_linked_roll(w, LSH_MOST_SLOTS, LSH_MOST_SLOTS);
    struct way way = walk(w, buffer(&roll), roll_len);
    for (size_t k = 1; k <= way.count; k++) {
        put_index(w, buffer(&roll), way.slots[way.count], way.slots[k]);
        try_record_of(w, way.count, roll_len);
    }
}

/* A number of links and a number of checkpoints that are the same only if they are cut to 8, 16 or 24 bits, or differ by one; and both the
 * same. */
static void try_numbers_of_links(uint64_t w)
{
    const uint64_t most = LSH_MOST_BYTES / INTERVAL(w) - 1;
    for (size_t slots = 1; slots <= LSH_MOST_SLOTS; slots += 1 + below(40)) {
        for (size_t links = 0; links <= slots; links += 1 + below(20)) {
            const uint64_t tried[] = {
                links,     links + 1,   links - 1,   0,                 1,                       slots,
                slots + 1, 256 + links, 512 + links, TWO_TO_16 + links, 256 * TWO_TO_16 + links, most,
            };
            make_linked_roll(w, slots, links);
            for (size_t i = 0; i < COUNT(tried); i++) {
                if (tried[i] <= most) {
                    try_record_of(w, tried[i], LSH_ROLL_BYTES(w, slots));
                }
            }
        }
    }
}

/* ---- what is tried: the order of the refusals ---- */

/* Pieces of every kind on a record, with the roll as it is: short ones, one that inserts a checkpoint, and those that are too long for any
 * roll, for the limit, or for both. */
static void try_pieces(const lsh_record *r, size_t roll_len)
{
    const size_t tried[] = {
        0, 1, INTERVAL(32), INTERVAL(64), TWO_TO_32, LSH_MOST_BYTES - r->total, LSH_MOST_BYTES - r->total + 1, TWO_TO_63, SIZE_MAX - r->total,
        SIZE_MAX - r->total + 1, SIZE_MAX,
    };
    for (size_t i = 0; i < COUNT(tried); i++) {
        append_roll(r, 0, tried[i], roll_len);
        put_back(&roll);
    }
}

/* Bytes handed back of every kind: too many, not from a block on, and with a wrong keep. */
static void try_hand_backs(const lsh_record *r, size_t roll_len)
{
    static const uint64_t keeps[] = {0, 1, LSH_BLOCK_BYTES(32), LSH_BLOCK_BYTES(64), TWO_TO_32, UINT64_MAX};
    const size_t tried[] = {0, 1, LSH_BLOCK_BYTES(32), LSH_BLOCK_BYTES(32) + 1, LSH_BLOCK_BYTES(64) + 1, INTERVAL(32) + 1, INTERVAL(64) + 1};
    for (size_t k = 0; k < COUNT(keeps); k++) {
        for (size_t i = 0; i < COUNT(tried); i++) {
            for (int held = 0; held <= 1; held++) { /* with random bytes, and with the held one last */
                if (held && tried[i] > 0) {
                    buffer(&lent)[tried[i] - 1] = r->held[0];
                }
                rewind_roll(r, keeps[k], 0, tried[i], roll_len);
                put_back(&roll);
            }
        }
        rewind_roll(r, keeps[k], 0, SIZE_MAX, roll_len);
    }
}

/* Records that are sound and those that are not, each with a roll of it, a damaged one, one with another number of links and one of wrong
 * length. */
static void try_refusals(uint64_t w)
{
    for (size_t links = 0; links <= 2; links++) {
        for (size_t slots = links == 0 ? 1 : links; slots <= links + 1; slots++) {
            for (int wrong = 0; wrong <= 5; wrong++) {
                lsh_record r = sound_record(w, links * INTERVAL(w) + 1);
                switch (wrong) {
                case 1: r.w = 0; break;
                case 2: r.n = 0; break;
                case 3: r.total += LSH_MOST_BYTES; break;
                case 4: r.chain[15] = UINT64_MAX; break; /* unsound at word size 32 alone */
                case 5: r.held[255] = 1; break;
                }
                for (int damage = 0; damage <= 3; damage++) {
                    fill(&lent);
                    make_linked_roll(w, slots, links);
                    size_t roll_len = LSH_ROLL_BYTES(w, slots);
                    switch (damage) {
                    case 1: put_index(w, buffer(&roll), 0, slots + 1); break;
                    case 2: make_linked_roll(w, slots, links == 0 ? 1 : links - 1); break;
                    case 3: roll_len++; break;
                    }
                    take_copy(&roll);
                    try_pieces(&r, roll_len);
                    try_hand_backs(&r, roll_len);
                }
            }
        }
    }
}

/* Each block of an order of one checkpoint changed: all of the order is handed back, and does not lead back to the opening chain. */
static void try_changed_bytes(uint64_t w)
{
    size_t roll_len = LSH_ROLL_BYTES(w, 1);
    fill(&lent);
    make_new_roll(roll_len);
    lsh_record r = open_order(w, 8 * w)->next;
    r = append_roll(&r, 0, INTERVAL(w) + 44, roll_len)->next;
    for (size_t i = 0; i < r.total; i += 1 + below(LSH_BLOCK_BYTES(w))) {
        uint8_t bit = (uint8_t)(1u << below(8));
        buffer(&lent)[i] ^= bit;
        rewind_roll(&r, 0, 0, r.total, roll_len);
        buffer(&lent)[i] ^= bit;
    }
    cut(&r, 0, roll_len);
}

int main(void)
{
    static const size_t tried_slots[] = {1, 2, 3, 7, LSH_MOST_SLOTS};
    fill(&place);
    fill(&lent);
    for (uint64_t w = 32; w <= 64; w += 32) {
        try_checkpoints(w);
        for (size_t i = 0; i < COUNT(tried_slots); i++) {
            for (int k = 0; k < ORDERS; k++) {
                try_order(w, tried_slots[i]);
            }
        }
        for (int i = 0; i < RECORDS; i++) {
            try_linked_roll(w);
        }
        try_most_slots(w);
        try_roll_lengths(w);
        for (size_t slots = 1; slots <= 5; slots++) {
            try_indexes(w, slots);
        }
        try_long_cycles(w);
        try_numbers_of_links(w);
        try_refusals(w);
        try_changed_bytes(w);
    }
    return report();
}
