/* Calls lsh_whole as a driver written in C does, with right and with wrong arguments.
 * After each call it checks the answer, every byte of both buffers, the guard bytes on both sides of them, and the
 * layout of the receipt.
 * It prints how many checks passed, or each that failed; the exit status is 0 only if all passed. */
#include <inttypes.h>
#include <stdbool.h>
#include <stdio.h>
#include <string.h>

#include "lsh_kiosk.h"

#define PROGRAM "whole_calls"
#define LARGEST (2 * LSH_BLOCK_BYTES(64) + 2)
#include "checks.h"

/* ---- calls ---- */

/* What a call is given, except for the two buffers. */
struct arguments {
    uint64_t w, n;
    size_t message_len;
    uint8_t last;
    uint64_t e;
    size_t output_len;
};

static uint32_t right_answer(const struct arguments *given)
{
    if (given->w != 32 && given->w != 64) {
        return LSH_BAD_WORD_SIZE;
    }
    if (given->n == 0 || given->n > 8 * given->w) {
        return LSH_BAD_DIGEST_LENGTH;
    }
    if (given->message_len > LSH_MOST_BYTES) {
        return LSH_TOO_LONG;
    }
    return end_answer(given->last, given->e, given->output_len);
}

static bool all_zero(const uint8_t *bytes, size_t count)
{
    for (size_t i = 0; i < count; i++) {
        if (bytes[i] != 0) {
            return false;
        }
    }
    return true;
}

/* Checks all of a receipt but the n bits of its digest. */
static void check_layout(const struct arguments *given, const uint8_t *receipt, const char *said)
{
    const uint8_t first[LSH_DIGEST_PLACE] = {(uint8_t)given->w, 0, (uint8_t)given->n, (uint8_t)(given->n >> 8)};
    size_t digest_end = LSH_DIGEST_PLACE + (given->n + 7) / 8;
    bool whole_bytes = given->n % 8 == 0;
    uint64_t bits = 8 * given->message_len + given->e;
    check(memcmp(receipt, first, sizeof first) == 0, "%s does not write w, 0 and n to bytes 0 to 3", said);
    check(whole_bytes || (receipt[digest_end - 1] & low_bits(given->n % 8)) == 0,
          "%s sets a bit of the digest's last byte after the first n", said);
    check(all_zero(receipt + digest_end, LSH_LENGTH_PLACE - digest_end), "%s writes other than 0 after the digest",
          said);
    check(length_on(receipt) == bits, "%s writes a length of %" PRIu64 " bits, not %" PRIu64, said, length_on(receipt),
          bits);
}

/* Makes one call and checks its answer, that it writes nothing but the receipt, and that only if it accepts, and the
 * receipt's layout. A message may be said to be longer than its memory if the call has to be refused: a refused call
 * reads nothing. */
static void make_call(const struct arguments *given, struct guarded *message, struct guarded *output)
{
    uint32_t right = right_answer(given);
    bool accepted = right == LSH_ACCEPTED;
    take_copy(message);
    take_copy(output);
    uint32_t answer = lsh_whole(engine(), given->w, given->n, buffer(message), given->message_len, given->last, given->e,
                                buffer(output), given->output_len);

    char said[256];
    snprintf(said, sizeof said,
             "lsh_whole(w = %" PRIu64 ", n = %" PRIu64 ", message of %zu bytes, last = %u, e = %" PRIu64
             ", output of %zu bytes)",
             given->w, given->n, given->message_len, given->last, given->e, given->output_len);
    check(answer == right, "%s answers %" PRIu32 ", not %" PRIu32, said, answer, right);
    check(kept_except(message, 0), "%s writes to the message or around it", said);
    check(kept_except(output, accepted ? LSH_RECEIPT_BYTES : 0), "%s writes %s", said,
          accepted ? "outside the receipt" : "to the output or around it");
    if (accepted) {
        check_layout(given, buffer(output), said);
    }
}

static void make_call_on_random_bytes(const struct arguments *given)
{
    struct guarded message, output;
    fill(&message);
    fill(&output);
    make_call(given, &message, &output);
}

/* ---- what is tried: the published digests ---- */

/* The published digests of the three bytes "abc". Each engine has to give them. */
static const struct published {
    uint64_t w, n;
    const char *digest;
} published[] = {
    {32, 224, "f7c53ba4034e708e74fba42e55997ca5126bb7623688f85342f73732"},
    {32, 256, "5fbf365daea5446a7053c52b57404d77a07a5f48a1f7c1963a0898ba1b714741"},
    {64, 224, "d1683234513ec5698394571ead128a8cd5373e97661ba20dcf89e489"},
    {64, 256, "cd892310532602332b613f1ec11a6962fca61ea09ecffcd4bcf75858d802edec"},
};

static void write_hexadecimal(const uint8_t *bytes, size_t count, char *text)
{
    for (size_t i = 0; i < count; i++) {
        sprintf(text + 2 * i, "%02x", bytes[i]);
    }
}

static void try_published_digest(const struct published *known)
{
    struct arguments given = {
        .w = known->w, .n = known->n, .message_len = 3, .last = 0, .e = 0, .output_len = LSH_RECEIPT_BYTES};
    struct guarded message, output;
    fill(&message);
    fill(&output);
    memcpy(buffer(&message), "abc", given.message_len);
    make_call(&given, &message, &output);

    char digest[2 * LSH_RECEIPT_BYTES + 1];
    write_hexadecimal(buffer(&output) + LSH_DIGEST_PLACE, known->n / 8, digest);
    check(strcmp(digest, known->digest) == 0, "the digest of \"abc\", w = %" PRIu64 ", n = %" PRIu64 ", is %s, not %s",
          known->w, known->n, digest, known->digest);
}

/* ---- what is tried: right arguments ---- */

static struct arguments random_right_arguments(uint64_t w)
{
    struct arguments given = {.w = w};
    given.n = 1 + next_random() % (8 * w);
    given.message_len = next_random() % (LARGEST + 1);
    given.e = next_random() % 8;
    given.last = random_last_byte(given.e);
    given.output_len = LSH_RECEIPT_BYTES + next_random() % (LARGEST - LSH_RECEIPT_BYTES + 1);
    return given;
}

static void try_every_digest_length(uint64_t w)
{
    for (uint64_t n = 1; n <= 8 * w; n++) {
        struct arguments given = random_right_arguments(w);
        given.n = n;
        make_call_on_random_bytes(&given);
    }
}

static void try_every_small_message_length(uint64_t w)
{
    for (size_t length = 0; length <= LARGEST; length++) {
        struct arguments given = random_right_arguments(w);
        given.message_len = length;
        make_call_on_random_bytes(&given);
    }
}

/* The wrong pairs among them too. */
static void try_every_last_byte(uint64_t w)
{
    for (uint64_t e = 0; e <= 8; e++) {
        for (unsigned last = 0; last <= 0xff; last++) {
            struct arguments given = random_right_arguments(w);
            given.e = e;
            given.last = (uint8_t)last;
            make_call_on_random_bytes(&given);
        }
    }
}

/* ---- what is tried: right and wrong arguments ---- */

/* Every combination of these with the word sizes and digest lengths of checks.h, the right ones among them, so that each
 * refusal is tried together with all that come after it in order. Cut to 8 or 32 bits, or multiplied by 8 and cut to 64,
 * some of the large ones would be right.
 * No message of exactly 2^40 bytes: the call would accept it and read all of it. */
static const size_t tried_message_lengths[] = {
    0, 3, LSH_BLOCK_BYTES(32) + 1, LSH_MOST_BYTES + 1, TWO_TO_61 + 1, SIZE_MAX,
};
static const uint64_t tried_extra_bits[] = {
    0, 1, 4, 7, 8, 9, 256, TWO_TO_32, TWO_TO_32 + 4, TWO_TO_63, UINT64_MAX,
};
static const uint8_t tried_last_bytes[] = {0, 0x01, 0x10, 0x80, 0xf0, 0xff};
static const size_t tried_output_lengths[] = {
    0, 1, LSH_RECEIPT_BYTES - 1, LSH_RECEIPT_BYTES, LSH_RECEIPT_BYTES + 1, LARGEST,
};

static void try_last_bits_and_outputs(struct arguments given)
{
    for (size_t e = 0; e < COUNT(tried_extra_bits); e++) {
        given.e = tried_extra_bits[e];
        for (size_t l = 0; l < COUNT(tried_last_bytes); l++) {
            given.last = tried_last_bytes[l];
            for (size_t o = 0; o < COUNT(tried_output_lengths); o++) {
                given.output_len = tried_output_lengths[o];
                make_call_on_random_bytes(&given);
            }
        }
    }
}

static void try_combinations(void)
{
    struct arguments given = {0};
    for (size_t w = 0; w < COUNT(tried_word_sizes); w++) {
        given.w = tried_word_sizes[w];
        for (size_t n = 0; n < COUNT(tried_digest_lengths); n++) {
            given.n = tried_digest_lengths[n];
            for (size_t m = 0; m < COUNT(tried_message_lengths); m++) {
                given.message_len = tried_message_lengths[m];
                try_last_bits_and_outputs(given);
            }
        }
    }
}

int main(void)
{
    for (size_t i = 0; i < COUNT(engines); i++) {
        only_engine = engines[i];
        for (size_t k = 0; k < COUNT(published); k++) {
            try_published_digest(&published[k]);
        }
    }
    only_engine = 0;
    for (uint64_t w = 32; w <= 64; w += 32) {
        try_every_digest_length(w);
        try_every_small_message_length(w);
        try_every_last_byte(w);
    }
    try_combinations();
    return report();
}
