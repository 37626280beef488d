/* Calls lsh_same and lsh_tally as a driver written in C does, with right and with wrong arguments.
 * After each call it checks the whole answer, that the bytes lent are as they were, and the guard bytes around them and around an answer that
 * is returned in memory. That of lsh_same is returned in a register.
 * It prints how many checks passed, or each that failed; the exit status is 0 only if all passed. */
#include <inttypes.h>
#include <stdbool.h>
#include <stdio.h>
#include <string.h>

#include "lsh_kiosk.h"

#define PROGRAM "till_calls"
#define LARGEST ((LSH_MOST_RECEIPTS + 1) * LSH_RECEIPT_BYTES)
#include "checks.h"

#define ROUNDS 2000 /* random pairs, and random lists */

/* ---- what has to be answered ---- */

/* A receipt's form, by document 01. */
static bool is_well_formed(const uint8_t *receipt)
{
    uint64_t w = receipt[0], n = receipt[2] + 256u * receipt[3];
    if ((w != 32 && w != 64) || receipt[1] != 0 || n == 0 || n > 8 * w) {
        return false;
    }
    for (size_t bit = n; bit < 8 * (LSH_LENGTH_PLACE - LSH_DIGEST_PLACE); bit++) {
        if ((receipt[LSH_DIGEST_PLACE + bit / 8] & 0x80u >> bit % 8) != 0) {
            return false;
        }
    }
    return length_on(receipt) <= LSH_MOST_BITS;
}

static bool agree(const uint8_t *a, const uint8_t *b)
{
    return memcmp(a, b, LSH_RECEIPT_BYTES) == 0;
}

static lsh_sameness right_same(const uint8_t *a, size_t a_len, const uint8_t *b, size_t b_len)
{
    if (a_len != LSH_RECEIPT_BYTES || b_len != LSH_RECEIPT_BYTES) {
        return (lsh_sameness){LSH_NO_RECEIPTS, false};
    }
    if (!is_well_formed(a) || !is_well_formed(b)) {
        return (lsh_sameness){LSH_MALFORMED, false};
    }
    return (lsh_sameness){LSH_ACCEPTED, agree(a, b)};
}

static lsh_counts right_tally(const uint8_t *list, size_t list_len)
{
    size_t count = list_len / LSH_RECEIPT_BYTES;
    if (list_len % LSH_RECEIPT_BYTES != 0 || count > LSH_MOST_RECEIPTS) {
        return (lsh_counts){LSH_NO_RECEIPTS, 0, 0, 0, 0};
    }
    for (size_t i = 0; i < count; i++) {
        if (!is_well_formed(list + i * LSH_RECEIPT_BYTES)) {
            return (lsh_counts){LSH_MALFORMED, i, 0, 0, 0};
        }
    }
    lsh_counts counts = {LSH_ACCEPTED, 0, 0, 0, 0};
    for (size_t i = 0; i < count; i++) {
        const uint8_t *receipt = list + i * LSH_RECEIPT_BYTES;
        size_t earlier = 0;
        while (earlier < i && !agree(list + earlier * LSH_RECEIPT_BYTES, receipt)) {
            earlier++;
        }
        *(length_on(receipt) == 0 ? &counts.blanks : earlier < i ? &counts.reprints : &counts.firsts) += 1;
    }
    return counts;
}

/* ---- calls ---- */

/* A length may pass the end of the memory if the call has to be refused for it: such a call reads nothing. */
static void same(struct guarded *a, size_t a_len, struct guarded *b, size_t b_len)
{
    lsh_sameness right = right_same(buffer(a), a_len, buffer(b), b_len);
    take_copy(a);
    take_copy(b);
    lsh_sameness answer = lsh_same(buffer(a), a_len, buffer(b), b_len);
    check(answer.number == right.number && answer.same == right.same,
          "lsh_same of %zu and %zu bytes answers %" PRIu32 " %d, not %" PRIu32 " %d", a_len, b_len, answer.number, answer.same,
          right.number, right.same);
    check(kept_except(a, 0) && kept_except(b, 0), "lsh_same of %zu and %zu bytes writes", a_len, b_len);
}

/* The call once more, as the archive has it: with the address of its answer. */
void *tally_to(void *answer, const uint8_t *list, size_t list_len) __asm__("lsh_tally");

/* Where this writes. */
static struct guarded place;

static void check_counts(const lsh_counts *counts, const lsh_counts *right, size_t list_len)
{
    check(counts->number == right->number && counts->place == right->place && counts->firsts == right->firsts
              && counts->reprints == right->reprints && counts->blanks == right->blanks,
          "lsh_tally of %zu bytes answers %" PRIu32 ", place %" PRIu64 ", firsts %" PRIu64 ", reprints %" PRIu64 ", blanks %" PRIu64
          ", not %" PRIu32 ", %" PRIu64 ", %" PRIu64 ", %" PRIu64 ", %" PRIu64,
          list_len, counts->number, counts->place, counts->firsts, counts->reprints, counts->blanks, right->number, right->place,
          right->firsts, right->reprints, right->blanks);
}

static void tally(struct guarded *list, size_t list_len)
{
    lsh_counts right = right_tally(buffer(list), list_len);
    take_copy(list);
    lsh_counts answer = lsh_tally(buffer(list), list_len);
    check_counts(&answer, &right, list_len);
    tally_to(place_for_answer(&place), buffer(list), list_len);
    memcpy(&answer, buffer(&place), sizeof answer);
    check_counts(&answer, &right, list_len);
    check(kept_except(&place, sizeof answer), "lsh_tally of %zu bytes writes outside its answer", list_len);
    check(kept_except(list, 0), "lsh_tally of %zu bytes writes", list_len);
}

/* ---- what is tried ---- */

/* The buffers are large, so they are not on the stack. */
static struct guarded one, other;

/* A receipt as lsh_whole writes it, of a message of at most two bytes. There are few messages, so that some receipts come again, a third of
 * them blanks, and some digests are of one bit, so that some receipts differ in the length alone. */
static void write_receipt(uint8_t *receipt)
{
    uint64_t w = below(2) == 0 ? 32 : 64;
    uint64_t n = 1 + below(8) * w;
    const uint8_t message[2] = {(uint8_t)below(2), (uint8_t)below(2)};
    size_t message_len = below(sizeof message + 1);
    check(lsh_whole(engine(), w, n, message, message_len, 0, 0, receipt, LSH_RECEIPT_BYTES) == LSH_ACCEPTED, "lsh_whole refuses n = %" PRIu64, n);
    check(is_well_formed(receipt), "lsh_whole writes a malformed receipt, n = %" PRIu64, n);
}

/* Changes one bit; the receipt may then be well formed or not. */
static void change_bit(uint8_t *receipt)
{
    receipt[below(LSH_RECEIPT_BYTES)] ^= (uint8_t)(1u << below(8));
}

static void try_pairs(void)
{
    for (int i = 0; i < ROUNDS; i++) {
        fill(&one);
        fill(&other);
        write_receipt(buffer(&one));
        memcpy(buffer(&other), buffer(&one), LSH_RECEIPT_BYTES);
        same(&one, LSH_RECEIPT_BYTES, &other, LSH_RECEIPT_BYTES);
        change_bit(buffer(&other));
        same(&one, LSH_RECEIPT_BYTES, &other, LSH_RECEIPT_BYTES);
        same(&other, LSH_RECEIPT_BYTES, &one, LSH_RECEIPT_BYTES);
        write_receipt(buffer(&other));
        same(&one, LSH_RECEIPT_BYTES, &other, LSH_RECEIPT_BYTES);
    }
}

/* Each byte of a receipt with every value. */
static void try_every_byte(void)
{
    fill(&one);
    fill(&other);
    write_receipt(buffer(&one));
    for (size_t i = 0; i < LSH_RECEIPT_BYTES; i++) {
        for (unsigned byte = 0; byte <= 0xff; byte++) {
            memcpy(buffer(&other), buffer(&one), LSH_RECEIPT_BYTES);
            buffer(&other)[i] = (uint8_t)byte;
            same(&one, LSH_RECEIPT_BYTES, &other, LSH_RECEIPT_BYTES);
            same(&other, LSH_RECEIPT_BYTES, &other, LSH_RECEIPT_BYTES);
            tally(&other, LSH_RECEIPT_BYTES);
        }
    }
}

static const uint64_t tried_bit_lengths[] = {
    0, 1, 7, 8, 0x100, TWO_TO_32 - 1, TWO_TO_32, LSH_MOST_BITS - 8, LSH_MOST_BITS - 1, LSH_MOST_BITS, LSH_MOST_BITS + 1, LSH_MOST_BITS + 8,
    2 * LSH_MOST_BITS, TWO_TO_63, UINT64_MAX,
};

/* Receipts that differ in the length alone are not the same, and each is a first in a list, or a blank if the length is 0; above the limit they
 * are malformed. */
static void try_bit_lengths(void)
{
    fill(&one);
    fill(&other);
    uint8_t *receipt = buffer(&one);
    write_receipt(receipt);
    memcpy(buffer(&other), receipt, LSH_RECEIPT_BYTES);
    for (size_t a = 0; a < COUNT(tried_bit_lengths); a++) {
        for (size_t b = 0; b < COUNT(tried_bit_lengths); b++) {
            put_length(receipt, tried_bit_lengths[a]);
            put_length(buffer(&other), tried_bit_lengths[b]);
            same(&one, LSH_RECEIPT_BYTES, &other, LSH_RECEIPT_BYTES);
            memcpy(receipt + LSH_RECEIPT_BYTES, buffer(&other), LSH_RECEIPT_BYTES);
            tally(&one, 2 * LSH_RECEIPT_BYTES);
        }
    }
    /* Each bit of a length alone, up to the highest that it can have. */
    uint8_t *end = receipt;
    for (uint64_t bits = 1; bits <= LSH_MOST_BITS; bits *= 2) {
        memcpy(end, buffer(&other), LSH_RECEIPT_BYTES);
        put_length(end, bits);
        end += LSH_RECEIPT_BYTES;
    }
    tally(&one, (size_t)(end - receipt));
}

static const size_t tried_lengths[] = {
    0, 1, LSH_LENGTH_PLACE, LSH_RECEIPT_BYTES - 1, LSH_RECEIPT_BYTES, LSH_RECEIPT_BYTES + 1, 2 * LSH_RECEIPT_BYTES,
    TWO_TO_32 + LSH_RECEIPT_BYTES, TWO_TO_63 + LSH_RECEIPT_BYTES, SIZE_MAX,
};

static void try_lengths(void)
{
    fill(&one);
    fill(&other);
    write_receipt(buffer(&one));
    write_receipt(buffer(&other));
    for (size_t a = 0; a < COUNT(tried_lengths); a++) {
        for (size_t b = 0; b < COUNT(tried_lengths); b++) {
            same(&one, tried_lengths[a], &other, tried_lengths[b]);
        }
    }
    for (size_t length = 0; length <= LARGEST; length += length < 1000 ? 1 : 1 + below(500)) {
        tally(&one, length);
    }
    static const size_t beyond[] = {
        LARGEST, LARGEST + LSH_RECEIPT_BYTES, TWO_TO_32 * LSH_RECEIPT_BYTES, TWO_TO_63, SIZE_MAX / LSH_RECEIPT_BYTES * LSH_RECEIPT_BYTES, SIZE_MAX,
    };
    for (size_t i = 0; i < COUNT(beyond); i++) {
        tally(&one, beyond[i]);
    }
}

/* Lists with some receipts that come again, then with one that is changed in a bit. */
static void try_list(size_t count)
{
    fill(&one);
    for (size_t i = 0; i < count; i++) {
        write_receipt(buffer(&one) + i * LSH_RECEIPT_BYTES);
    }
    tally(&one, count * LSH_RECEIPT_BYTES);
    if (count > 0) {
        change_bit(buffer(&one) + below(count) * LSH_RECEIPT_BYTES);
        tally(&one, count * LSH_RECEIPT_BYTES);
    }
}

int main(void)
{
    fill(&place);
    try_pairs();
    try_every_byte();
    try_bit_lengths();
    try_lengths();
    for (int i = 0; i < ROUNDS; i++) {
        try_list(below(20));
    }
    for (size_t count = LSH_MOST_RECEIPTS - 1; count <= LSH_MOST_RECEIPTS + 1; count++) {
        try_list(count);
    }
    return report();
}
