/* What the programs of this folder share: checks that are counted, random numbers, engines, and buffers between guard bytes.
 * A program includes lsh_kiosk.h and defines two names before it includes this file: PROGRAM, its own name as a string,
 * and LARGEST, the bytes of the largest buffer between guard bytes that it lends. It is C and C++. */
#ifndef CHECKS_H
#define CHECKS_H

#include <inttypes.h>
#include <stdalign.h>
#include <stdarg.h>
#include <stdbool.h>
#include <stdint.h>
#include <stdio.h>
#include <stdlib.h>
#include <string.h>

#define COUNT(array) (sizeof(array) / sizeof((array)[0]))

/* For a function with records of its own: the programs run with a small stack, and what is inlined makes the frames of its callers larger. Not
 * every program uses each of them. */
#define APART __attribute__((noinline, unused))

/* Bytes of an order from one checkpoint to the next. */
#define INTERVAL(w) ((size_t)LSH_CHECKPOINT_BLOCKS * LSH_BLOCK_BYTES(w))

#define SHOWN_FAILURES 20 /* further ones are only counted */

/* ---- checks ---- */

static unsigned long passed, failed;

/* The engine that was given to a call last, which is said with a failure; 0 if there was none. */
static uint64_t last_engine;

__attribute__((format(printf, 2, 3))) static void check(bool holds, const char *format, ...)
{
    if (holds) {
        passed++;
        return;
    }
    if (failed++ < SHOWN_FAILURES) {
        va_list words;
        va_start(words, format);
        fputs(PROGRAM ": FAILED: ", stdout);
        vprintf(format, words);
        if (last_engine != 0) {
            printf(" (engine %" PRIu64 ")", last_engine);
        }
        putchar('\n');
        va_end(words);
    }
}

/* Prints the verdict; the exit status of the program. */
static int report(void)
{
    if (failed != 0) {
        printf(PROGRAM ": %lu of %lu checks FAILED\n", failed, passed + failed);
        return EXIT_FAILURE;
    }
    printf(PROGRAM ": %lu checks passed\n", passed);
    return EXIT_SUCCESS;
}

/* splitmix64: the same numbers in every run, so that a failure can be repeated. */
static uint64_t next_random(void)
{
    static uint64_t state = 1;
    uint64_t z = state += 0x9e3779b97f4a7c15u;
    z = (z ^ z >> 30) * 0xbf58476d1ce4e5b9u;
    z = (z ^ z >> 27) * 0x94d049bb133111ebu;
    return z ^ z >> 31;
}

static inline size_t below(size_t limit)
{
    return (size_t)(next_random() % limit);
}

/* ---- engines ---- */

static const uint64_t engines[] = {LSH_ENGINE_WORDS, LSH_ENGINE_GROUPS};

/* The engine of all calls, or 0 where each call is given one at random. */
static uint64_t only_engine;

/* An engine for a call. What is right never depends on it: where it is worked out by calls, these are given the words. */
static inline uint64_t engine(void)
{
    last_engine = only_engine != 0 ? only_engine : engines[below(COUNT(engines))];
    return last_engine;
}

/* ---- numbers that are tried ---- */

#define TWO_TO_16 ((uint64_t)1 << 16)
#define TWO_TO_32 ((uint64_t)1 << 32)
#define TWO_TO_61 ((uint64_t)1 << 61)
#define TWO_TO_63 ((uint64_t)1 << 63)

/* Word sizes and digest lengths, the right ones among them. Cut to 8, 16 or 32 bits, or multiplied by a small number and cut to 64, some of
 * the large ones would be right. */
static const uint64_t tried_word_sizes[] = {
    0, 1, 16, 31, 32, 33, 63, 64, 65, 128, 256, 256 + 32, 512, TWO_TO_32 + 32, TWO_TO_32 + 64, TWO_TO_63 + 32,
    TWO_TO_63 + 64, UINT64_MAX - 31, UINT64_MAX,
};
static const uint64_t tried_digest_lengths[] = {
    0, 1, 7, 8, 224, 255, 256, 257, 511, 512, 513, TWO_TO_16 + 256, TWO_TO_32, TWO_TO_32 + 256, TWO_TO_63,
    TWO_TO_63 + 256, UINT64_MAX,
};

/* The low 8 - e bits of a byte, e at most 7. */
static inline uint8_t low_bits(uint64_t e)
{
    return (uint8_t)(0xffu >> e);
}

/* A last byte that goes with e. */
static inline uint8_t random_last_byte(uint64_t e)
{
    return (uint8_t)(next_random() & ~(uint64_t)low_bits(e));
}

/* What Close and Whole answer by the end of the message and the length of the output, their last three tests. */
static inline uint32_t end_answer(uint8_t last, uint64_t e, size_t output_len)
{
    if (e > 7) {
        return LSH_BAD_EXTRA_BITS;
    }
    if ((last & low_bits(e)) != 0) {
        return LSH_BAD_LAST_BYTE;
    }
    if (output_len < LSH_RECEIPT_BYTES) {
        return LSH_SHORT_OUTPUT;
    }
    return LSH_ACCEPTED;
}

/* ---- the length on a receipt ---- */

/* The length of the message in bits: the bytes of a receipt from LSH_LENGTH_PLACE on, low byte first. */
static inline uint64_t length_on(const uint8_t *receipt)
{
    uint64_t bits = 0;
    for (size_t i = LSH_LENGTH_PLACE; i < LSH_RECEIPT_BYTES; i++) {
        bits |= (uint64_t)receipt[i] << 8 * (i - LSH_LENGTH_PLACE);
    }
    return bits;
}

static inline void put_length(uint8_t *receipt, uint64_t bits)
{
    for (size_t i = LSH_LENGTH_PLACE; i < LSH_RECEIPT_BYTES; i++) {
        receipt[i] = (uint8_t)(bits >> 8 * (i - LSH_LENGTH_PLACE));
    }
}

/* ---- buffers ---- */

#define GUARD 64     /* guard bytes before and after a buffer, at least */
#define ALIGNMENT 16 /* a buffer starts at any distance from a multiple of this */
#define GUARDED (GUARD + ALIGNMENT + LARGEST + GUARD)

/* A buffer to lend, the guard bytes around it, and a copy of all of them. */
struct guarded {
    alignas(ALIGNMENT) uint8_t bytes[GUARDED];
    uint8_t copy[GUARDED];
    size_t start; /* of the buffer, in bytes */
};

static inline uint8_t *buffer(struct guarded *guarded)
{
    return guarded->bytes + guarded->start;
}

static inline void take_copy(struct guarded *guarded)
{
    memcpy(guarded->copy, guarded->bytes, GUARDED);
}

/* Makes all bytes those of the copy. */
static inline void put_back(struct guarded *guarded)
{
    memcpy(guarded->bytes, guarded->copy, GUARDED);
}

static inline void fill(struct guarded *guarded)
{
    guarded->start = GUARD + next_random() % ALIGNMENT;
    for (size_t i = 0; i < GUARDED; i++) {
        guarded->bytes[i] = (uint8_t)next_random();
    }
}

/* A place for an answer that is returned in memory: the caller passes its address before all arguments. A compiler may have the answer
 * written to a place of its own and copy it, so that guard bytes around the copy show nothing; where the address is passed by hand, they do. */
static inline void *place_for_answer(struct guarded *guarded)
{
    guarded->start = GUARD; /* aligned for every struct */
    take_copy(guarded);
    return buffer(guarded);
}

/* Whether all bytes are those of the copy, except for the first `writable` bytes of the buffer. */
static inline bool kept_except(const struct guarded *guarded, size_t writable)
{
    size_t end = guarded->start + writable;
    return memcmp(guarded->bytes, guarded->copy, guarded->start) == 0
        && memcmp(guarded->bytes + end, guarded->copy + end, GUARDED - end) == 0;
}

#endif
