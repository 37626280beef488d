/* Calls lsh_tag, lsh_tag_start, lsh_tag_finish and lsh_tag_check as a driver written in C does, with right and with wrong arguments; the
 * finish on records of tags, of orders, on records that are sound and of no order, and on wrong ones.
 * After each call it checks the whole answer, every byte of the output, that the key, the message and the tag are as they were, and the guard
 * bytes around the buffers and around an answer that is returned in memory. That of lsh_tag_check is returned in a register.
 * It prints how many checks passed, or each that failed; the exit status is 0 only if all passed. */
#include <inttypes.h>
#include <stdbool.h>
#include <stdio.h>
#include <string.h>

#include "lsh_kiosk.h"

#define PROGRAM "tag_calls"
#define LARGEST (4 * LSH_BLOCK_BYTES(64))
#include "checks.h"
#include "order_checks.h"

#define LONGEST_TAG LSH_TAG_BYTES(512)

#define MESSAGES 60  /* random messages in pieces at each word size */
#define PIECES 6     /* of each of them */
#define RECORDS 1000 /* random records at each word size */

/* ---- buffers ---- */

/* The key, and a tag to check. The message is in `lent`, and a tag is written to `output`. */
static struct guarded key, tag;

/* What the calls are given, except for the buffers. Each takes those of the lengths that it has. */
struct arguments {
    uint64_t w, n;
    size_t key_len, message_len, output_len, tag_len;
};

/* ---- HMAC, as section 2 of RFC 2104 has it ---- */

#define INNER 0x36
#define OUTER 0x5c

/* The digest of bytes, from their receipt. */
static void hash(uint64_t w, uint64_t n, const uint8_t *bytes, size_t length, uint8_t *digest)
{
    uint8_t receipt[LSH_RECEIPT_BYTES];
    check(lsh_whole(LSH_ENGINE_WORDS, w, n, bytes, length, 0, 0, receipt, sizeof receipt) == LSH_ACCEPTED, "lsh_whole refuses %zu bytes", length);
    memcpy(digest, receipt + LSH_DIGEST_PLACE, n / 8);
}

/* The key, or its digest if it is longer than a block, and zeros up to a block; each byte of it exclusive or the pad. */
static void put_key_block(uint64_t w, uint64_t n, size_t key_len, uint8_t pad, uint8_t *block)
{
    memset(block, 0, LSH_BLOCK_BYTES(w));
    if (key_len > LSH_BLOCK_BYTES(w)) {
        hash(w, n, buffer(&key), key_len, block);
    } else {
        memcpy(block, buffer(&key), key_len);
    }
    for (size_t i = 0; i < LSH_BLOCK_BYTES(w); i++) {
        block[i] ^= pad;
    }
}

/* The digest of the key's block and bytes after it. */
static void hash_after_key(uint64_t w, uint64_t n, size_t key_len, uint8_t pad, const uint8_t *bytes, size_t length, uint8_t *digest)
{
    static uint8_t joined[LSH_BLOCK_BYTES(64) + LARGEST];
    put_key_block(w, n, key_len, pad, joined);
    memcpy(joined + LSH_BLOCK_BYTES(w), bytes, length);
    hash(w, n, joined, LSH_BLOCK_BYTES(w) + length, digest);
}

static void put_right_tag(const struct arguments *given, uint8_t *right)
{
    uint8_t inner[LONGEST_TAG];
    hash_after_key(given->w, given->n, given->key_len, INNER, buffer(&lent), given->message_len, inner);
    hash_after_key(given->w, given->n, given->key_len, OUTER, inner, given->n / 8, right);
}

/* ---- what has to be answered ---- */

/* What all but the finish refuse. A start has no message. */
static uint32_t right_key_answer(const struct arguments *given, size_t message_len)
{
    if (given->w != 32 && given->w != 64) {
        return LSH_BAD_WORD_SIZE;
    }
    if (given->n == 0 || given->n > 8 * given->w) {
        return LSH_BAD_DIGEST_LENGTH;
    }
    if (given->n % 8 != 0) {
        return LSH_NO_WHOLE_BYTES;
    }
    if (given->key_len > LSH_MOST_BYTES || message_len > LSH_MOST_BYTES - LSH_BLOCK_BYTES(given->w)) {
        return LSH_TOO_LONG;
    }
    return LSH_ACCEPTED;
}

static uint32_t right_tag_answer(const struct arguments *given)
{
    uint32_t answer = right_key_answer(given, given->message_len);
    return answer == LSH_ACCEPTED && given->output_len < given->n / 8 ? LSH_SHORT_OUTPUT : answer;
}

APART static lsh_outcome right_start(const struct arguments *given)
{
    static const lsh_record no_record;
    uint32_t answer = right_key_answer(given, 0);
    if (answer != LSH_ACCEPTED) {
        return refused(answer, &no_record);
    }
    uint8_t block[LSH_BLOCK_BYTES(64)];
    put_key_block(given->w, given->n, given->key_len, INNER, block);
    lsh_outcome opened = right_open(given->w, given->n);
    return right_append(&opened.next, block, LSH_BLOCK_BYTES(given->w));
}

static uint32_t right_finish_answer(const lsh_record *r, size_t key_len, size_t output_len)
{
    if (!is_sound(r)) {
        return LSH_UNSOUND_RECORD;
    }
    if (r->n % 8 != 0) {
        return LSH_NO_WHOLE_BYTES;
    }
    if (key_len > LSH_MOST_BYTES) {
        return LSH_TOO_LONG;
    }
    return output_len < r->n / 8 ? LSH_SHORT_OUTPUT : LSH_ACCEPTED;
}

/* The digest on the receipt of the record stands as the inner one. */
static void put_right_finish(const lsh_record *r, size_t key_len, uint8_t *right)
{
    uint8_t receipt[LSH_RECEIPT_BYTES];
    check(lsh_close(LSH_ENGINE_WORDS, *r, 0, 0, receipt, sizeof receipt) == LSH_ACCEPTED, "lsh_close refuses a record of %" PRIu64 " bytes",
          r->total);
    hash_after_key(r->w, r->n, key_len, OUTER, receipt + LSH_DIGEST_PLACE, r->n / 8, right);
}

static lsh_sameness right_check(const struct arguments *given)
{
    lsh_sameness sameness = {right_key_answer(given, given->message_len), false};
    if (sameness.number == LSH_ACCEPTED && given->tag_len == given->n / 8) {
        uint8_t right[LONGEST_TAG];
        put_right_tag(given, right);
        sameness.same = memcmp(buffer(&tag), right, given->tag_len) == 0;
    }
    return sameness;
}

/* ---- calls ---- */

/* A key or a message may be said to be longer than its memory if the call has to be refused: a refused call reads nothing of them. */

static void take_copies(void)
{
    take_copy(&key);
    take_copy(&lent);
    take_copy(&tag);
}

static void check_copies(const char *said)
{
    check(kept_except(&key, 0), "%s writes to the key or around it", said);
    check(kept_except(&lent, 0), "%s writes to the message or around it", said);
    check(kept_except(&tag, 0), "%s writes to the tag or around it", said);
}

/* The output after a call, by the answer that is right. */
static void check_output(uint32_t answer, uint32_t right, uint64_t n, const uint8_t *right_tag, const char *said)
{
    bool accepted = right == LSH_ACCEPTED;
    check(answer == right, "%s answers %" PRIu32 ", not %" PRIu32, said, answer, right);
    check(kept_except(&output, accepted ? n / 8 : 0), "%s writes %s", said, accepted ? "outside the tag" : "to the output or around it");
    check(!accepted || memcmp(buffer(&output), right_tag, n / 8) == 0, "%s writes another tag", said);
}

APART static uint32_t make_tag(const struct arguments *given)
{
    char said[200];
    snprintf(said, sizeof said, "lsh_tag(w = %" PRIu64 ", n = %" PRIu64 ", key of %zu bytes, message of %zu, output of %zu)", given->w,
             given->n, given->key_len, given->message_len, given->output_len);
    uint8_t right_tag[LONGEST_TAG];
    uint32_t right = right_tag_answer(given);
    if (right == LSH_ACCEPTED) {
        put_right_tag(given, right_tag);
    }
    fill(&output);
    take_copy(&output);
    take_copies();
    uint32_t answer = lsh_tag(engine(), given->w, given->n, buffer(&key), given->key_len, buffer(&lent), given->message_len, buffer(&output),
                              given->output_len);
    check_output(answer, right, given->n, right_tag, said);
    check_copies(said);
    return answer;
}

/* The call once more, as the archive has it: with the address of its answer. */
void *start_to(void *answer, uint64_t engine, uint64_t w, uint64_t n, const uint8_t *key, size_t key_len) __asm__("lsh_tag_start");

APART static const lsh_outcome *start(const struct arguments *given)
{
    char said[120];
    snprintf(said, sizeof said, "lsh_tag_start(w = %" PRIu64 ", n = %" PRIu64 ", key of %zu bytes)", given->w, given->n, given->key_len);
    lsh_outcome right = right_start(given);
    take_copies();
    lsh_outcome outcome = lsh_tag_start(engine(), given->w, given->n, buffer(&key), given->key_len);
    check_outcome(&outcome, &right, said);
    check_copies(said);
    start_to(place_for_answer(&place), engine(), given->w, given->n, buffer(&key), given->key_len);
    check_place(&right, said);
    check_copies(said);
    check(made.count == (made.number == LSH_ACCEPTED), "%s counts %" PRIu64 " blocks", said, made.count);
    return &made;
}

APART static uint32_t finish(const lsh_record *r, size_t key_len, size_t output_len)
{
    char said[200];
    SAY(said, "lsh_tag_finish", r, "key of %zu bytes, output of %zu", key_len, output_len);
    uint8_t right_tag[LONGEST_TAG];
    uint32_t right = right_finish_answer(r, key_len, output_len);
    if (right == LSH_ACCEPTED) {
        put_right_finish(r, key_len, right_tag);
    }
    const lsh_record before = *r;
    fill(&output);
    take_copy(&output);
    take_copies();
    uint32_t answer = lsh_tag_finish(engine(), *r, buffer(&key), key_len, buffer(&output), output_len);
    check_output(answer, right, r->n, right_tag, said);
    check_copies(said);
    check(memcmp(r, &before, sizeof before) == 0, "%s changes the record", said);
    return answer;
}

APART static lsh_sameness check_tag(const struct arguments *given)
{
    char said[200];
    snprintf(said, sizeof said, "lsh_tag_check(w = %" PRIu64 ", n = %" PRIu64 ", key of %zu bytes, message of %zu, tag of %zu)", given->w,
             given->n, given->key_len, given->message_len, given->tag_len);
    lsh_sameness right = right_check(given);
    take_copies();
    lsh_sameness answer = lsh_tag_check(engine(), given->w, given->n, buffer(&key), given->key_len, buffer(&lent), given->message_len,
                                        buffer(&tag), given->tag_len);
    check(answer.number == right.number && answer.same == right.same, "%s answers %" PRIu32 " %d, not %" PRIu32 " %d", said, answer.number,
          answer.same, right.number, right.same);
    check_copies(said);
    return answer;
}

/* Checks a tag that has to get a yes or a no. */
static void expect_same(const struct arguments *given, bool same)
{
    lsh_sameness answer = check_tag(given);
    check(answer.number == LSH_ACCEPTED && answer.same == same, "a tag of %zu bytes gets %" PRIu32 " %d", given->tag_len, answer.number,
          answer.same);
}

/* ---- what is tried: tags that are known ---- */

/* Tags of one byte with a key of one byte, made with Crypto++ 8.7. Each engine has to give them. */
static const struct known {
    uint64_t w, n;
    uint8_t key, message;
    const char *tag;
} known_tags[] = {
    {32, 224, 0x68, 0x4e,
     "\x60\xeb\xfa\x69\x6b\x40\x7d\x63\xca\xe2\x49\x1a\x12\x54\xce\x48\x0c\xc7\x2f\x12\xff\x18\xc0\x2b\xa4\xfa\x5c\xba"},
    {32, 256, 0x60, 0xb4,
     "\xaa\xe2\x97\xfc\xdc\x58\x7e\x94\x9b\xa0\x4b\x9f\x49\x33\xf3\x71\x07\x38\xbf\xd3\xba\xce\x77\xaf\xf0\x47\x8e\xd1\x0a\x3d\xe7\x49"},
    {64, 256, 0x12, 0x90,
     "\xf1\xa9\xcf\xfa\x68\xc3\x28\xc7\x1c\xb9\xc5\x99\x86\x74\x20\x74\x8d\xc9\x69\x6d\xfe\x59\x6d\x26\x0f\x97\x73\x52\x33\xf4\xf5\xfd"},
    {64, 384, 0xd9, 0xd0,
     "\x0a\xf2\x81\x14\xe2\x13\xe9\x8d\x39\x2f\xab\xc4\xae\xf0\x42\xa6\x0f\xa6\x69\xde\x6e\x29\xd5\x69\x5e\x27\x8e\x74\x8b\x53\xab\x0e"
     "\xd3\xe4\x30\x10\xa0\xb5\x95\xaa\xf7\xaf\x01\x62\xf3\xaf\x72\x10"},
    {64, 512, 0x00, 0x62,
     "\x2e\x2c\x83\xfa\xf2\x1f\xbe\x78\x92\x0c\xb9\x15\x9b\x26\x5d\x54\x87\x68\x5b\xa4\xc8\x44\x93\x61\x82\x2f\xe6\x61\x6f\xb2\x89\xc5"
     "\xe0\xc1\xa7\xfd\x33\xff\x6f\x34\xad\xdd\x6f\xac\x5c\x00\xd9\xf4\x69\x93\x9b\xe5\x71\xcf\xb0\x17\xb6\xa5\xc8\xec\x13\x90\xb9\xc3"},
};

static void try_known_tag(const struct known *known)
{
    const size_t size = known->n / 8;
    struct arguments given = {known->w, known->n, 1, 1, size, size};
    buffer(&key)[0] = known->key;
    buffer(&lent)[0] = known->message;
    make_tag(&given);
    check(memcmp(buffer(&output), known->tag, size) == 0, "lsh_tag does not write a known tag, w = %" PRIu64 ", n = %" PRIu64, known->w,
          known->n);
    memcpy(buffer(&tag), known->tag, size);
    expect_same(&given, true);
}

/* ---- what is tried: right arguments ---- */

/* The tag of the message, at one go and in two pieces, is written and gets a yes. */
static void try_tag(struct arguments given)
{
    static lsh_record r;
    const size_t size = given.n / 8;
    fill(&key);
    fill(&lent);
    fill(&tag);
    given.output_len = size + below(LARGEST - size + 1);
    check(make_tag(&given) == LSH_ACCEPTED, "lsh_tag refuses n = %" PRIu64, given.n);
    memcpy(buffer(&tag), buffer(&output), size);
    given.tag_len = size;
    expect_same(&given, true);

    size_t first = below(given.message_len + 1);
    r = start(&given)->next;
    r = append(&r, 0, first)->next;
    r = append(&r, first, given.message_len - first)->next;
    check(finish(&r, given.key_len, given.output_len) == LSH_ACCEPTED && memcmp(buffer(&output), buffer(&tag), size) == 0,
          "two pieces of %zu bytes have another tag than one message", given.message_len);
}

/* Keys and messages about the ends of blocks, and digests with the shortest and the longest tags among them. */
static void try_lengths(uint64_t w)
{
    const size_t block = LSH_BLOCK_BYTES(w);
    const uint64_t digests[] = {8, 16, 120, 224, 8 * w - 8, 8 * w};
    const size_t keys[] = {0, 1, block - 1, block, block + 1, 2 * block + 3};
    const size_t messages[] = {0, 1, block - 1, block, block + 1, 2 * block - 1, 2 * block, 2 * block + 1, 4 * block};
    for (size_t n = 0; n < COUNT(digests); n++) {
        for (size_t k = 0; k < COUNT(keys); k++) {
            for (size_t m = 0; m < COUNT(messages); m++) {
                try_tag((struct arguments){.w = w, .n = digests[n], .key_len = keys[k], .message_len = messages[m]});
            }
        }
    }
}

static void try_every_digest_length(uint64_t w)
{
    for (uint64_t n = 8; n <= 8 * w; n += 8) {
        try_tag((struct arguments){.w = w, .n = n, .key_len = below(LARGEST + 1), .message_len = below(LARGEST + 1)});
    }
}

/* ---- what is tried: pieces ---- */

/* The finish writes the tag of the first bytes of the message, and the same one again. */
static void finish_as_tag(const lsh_record *r, struct arguments given, size_t length)
{
    uint8_t right[LONGEST_TAG];
    given.message_len = length;
    put_right_tag(&given, right);
    for (int i = 0; i < 2; i++) {
        check(finish(r, given.key_len, given.n / 8) == LSH_ACCEPTED && memcmp(buffer(&output), right, given.n / 8) == 0,
              "the pieces of %zu bytes have another tag than their joining", length);
    }
}

/* Pieces of any length, a tag after each of them, and refused ones, which change nothing: the key's block counts to the limit. Gives the
 * length of the message. */
static size_t append_pieces(lsh_record *r, const struct arguments *given)
{
    size_t length = 0;
    for (int i = 0; i < PIECES; i++) {
        check(append(r, 0, LSH_MOST_BYTES - r->total + 1)->number == LSH_TOO_LONG, "a message of %zu bytes passes the limit", length);
        *r = made.next;
        size_t piece_len = below(LARGEST - length + 1);
        *r = append(r, length, piece_len)->next;
        length += piece_len;
        check(r->total == LSH_BLOCK_BYTES(given->w) + length, "the record of a message of %zu bytes has %" PRIu64, length, r->total);
        finish_as_tag(r, *given, length);
    }
    return length;
}

/* Cuts a message in steps: until the end its tag is that before. */
static void cut_in_steps(lsh_record *r, const struct arguments *given, size_t length)
{
    const size_t block = LSH_BLOCK_BYTES(given->w), held = length % block;
    size_t left = length - held;
    *r = lsh_begin(*r, buffer(&lent) + left, held).next;
    check(r->mark == 1, "no split rewind is begun on a message of %zu bytes", length);
    finish_as_tag(r, *given, length);
    while (left > 0 && below(4) != 0) {
        left -= block;
        *r = lsh_hand_back(engine(), *r, buffer(&lent) + left, block).next;
        finish_as_tag(r, *given, length);
    }
    *r = lsh_end(engine(), *r, 0).next;
    check(r->mark == 0, "the split rewind of a message of %zu bytes is not ended", length);
    finish_as_tag(r, *given, left);
}

static void try_pieces(uint64_t w)
{
    static lsh_record r;
    const struct arguments given = {.w = w, .n = 8 * (1 + below(w)), .key_len = below(2 * LSH_BLOCK_BYTES(w) + 4)};
    fill(&key);
    fill(&lent);
    r = start(&given)->next;
    finish_as_tag(&r, given, 0);
    cut_in_steps(&r, &given, append_pieces(&r, &given));
}

/* Another key at the finish than at the start. */
static void try_two_keys(uint64_t w)
{
    const struct arguments given = {.w = w, .n = 8 * w, .key_len = 3};
    fill(&key);
    fill(&lent);
    static lsh_record r;
    r = start(&given)->next;
    r = append(&r, 0, 100)->next;
    finish_as_tag(&r, given, 100);
    uint8_t first[LONGEST_TAG];
    memcpy(first, buffer(&output), w);
    fill(&key);
    finish(&r, 3, w);
    check(memcmp(buffer(&output), first, w) != 0, "two keys give one tag, w = %" PRIu64, w);
}

/* ---- what is tried: checks ---- */

/* Each bit of the tag changed, and tags that are shorter or longer, with the right bytes at the front. */
static void try_wrong_tags(uint64_t w, uint64_t n)
{
    const size_t size = n / 8;
    struct arguments given = {.w = w, .n = n, .key_len = 20, .message_len = 100, .tag_len = size};
    fill(&key);
    fill(&lent);
    fill(&tag);
    put_right_tag(&given, buffer(&tag));
    expect_same(&given, true);
    for (size_t bit = 0; bit < n; bit++) {
        buffer(&tag)[bit / 8] ^= (uint8_t)(1u << bit % 8);
        expect_same(&given, false);
        buffer(&tag)[bit / 8] ^= (uint8_t)(1u << bit % 8);
    }
    for (size_t tag_len = 0; tag_len <= LARGEST; tag_len += tag_len < 2 * LONGEST_TAG ? 1 : 1 + below(100)) {
        given.tag_len = tag_len;
        expect_same(&given, tag_len == size);
    }
}

/* The tag of another key or message; and a zero more, which counts after a message or a tag, and not after a short key. */
static void try_other_keys_and_messages(uint64_t w)
{
    struct arguments given = {.w = w, .n = 8 * w, .key_len = 20, .message_len = 100, .tag_len = w};
    fill(&key);
    fill(&lent);
    fill(&tag);
    put_right_tag(&given, buffer(&tag));
    buffer(&key)[given.key_len] = buffer(&lent)[given.message_len] = buffer(&tag)[given.tag_len] = 0;
    given.message_len++;
    expect_same(&given, false);
    given.message_len--;
    given.tag_len++;
    expect_same(&given, false);
    given.tag_len--;
    given.key_len++;
    expect_same(&given, true);
    for (size_t i = 0; i < given.key_len; i++) {
        buffer(&key)[i] ^= 1;
        expect_same(&given, false);
        buffer(&key)[i] ^= 1;
    }
    for (size_t i = 0; i < given.message_len; i++) {
        buffer(&lent)[i] ^= 1;
        expect_same(&given, false);
        buffer(&lent)[i] ^= 1;
    }
    expect_same(&given, true);
}

/* ---- what is tried: right and wrong arguments ---- */

/* Every combination of these with the word sizes and digest lengths of checks.h, the right ones among them, so that each refusal is tried
 * together with all that come after it in order. A block's bytes more, cut to 64 bits, some of the large ones would be right.
 * No key of exactly 2^40 bytes and no message of a block less: the calls would accept it and read all of it. */
static const size_t tried_key_lengths[] = {0, 3, LSH_BLOCK_BYTES(32) + 1, LSH_MOST_BYTES + 1, TWO_TO_63, SIZE_MAX};
static const size_t tried_message_lengths[] = {
    0, 3, LSH_MOST_BYTES - LSH_BLOCK_BYTES(32) + 1, LSH_MOST_BYTES + 1, SIZE_MAX - LSH_BLOCK_BYTES(64) + 1, SIZE_MAX - LSH_BLOCK_BYTES(32) + 1,
    SIZE_MAX,
};
static const size_t tried_output_lengths[] = {0, 1, 27, 28, 31, 32, 63, 64, LARGEST};

static void try_key(struct arguments given)
{
    start(&given);
    for (size_t m = 0; m < COUNT(tried_message_lengths); m++) {
        given.message_len = tried_message_lengths[m];
        check_tag(&given);
        for (size_t o = 0; o < COUNT(tried_output_lengths); o++) {
            given.output_len = tried_output_lengths[o];
            make_tag(&given);
        }
    }
}

static void try_combinations(void)
{
    for (size_t w = 0; w < COUNT(tried_word_sizes); w++) {
        for (size_t n = 0; n < COUNT(tried_digest_lengths); n++) {
            for (size_t k = 0; k < COUNT(tried_key_lengths); k++) {
                try_key((struct arguments){
                    .w = tried_word_sizes[w], .n = tried_digest_lengths[n], .key_len = tried_key_lengths[k], .tag_len = LONGEST_TAG});
            }
        }
    }
}

/* Every digest length that is no multiple of 8. */
static void try_no_whole_bytes(uint64_t w)
{
    for (uint64_t n = 1; n <= 8 * w; n += n % 8 == 7 ? 2 : 1) {
        struct arguments given = {.w = w, .n = n, .output_len = LARGEST};
        lsh_record r = open_order(w, n)->next;
        check(make_tag(&given) == LSH_NO_WHOLE_BYTES && start(&given)->number == LSH_NO_WHOLE_BYTES
                  && check_tag(&given).number == LSH_NO_WHOLE_BYTES && finish(&r, 0, LARGEST) == LSH_NO_WHOLE_BYTES,
              "n = %" PRIu64 " is taken", n);
    }
}

/* The limits themselves are not refused for their length, as an output that is too short shows: that is tested after them. */
static void try_limits(uint64_t w)
{
    const size_t most_message = LSH_MOST_BYTES - LSH_BLOCK_BYTES(w);
    struct arguments given = {.w = w, .n = 8 * w, .output_len = w - 1};
    lsh_record r = sound_record(w, LSH_MOST_BYTES);
    r.n = 8 * w;
    for (size_t over = 0; over <= 1; over++) {
        uint32_t right = over == 0 ? LSH_SHORT_OUTPUT : LSH_TOO_LONG;
        given.key_len = LSH_MOST_BYTES + over;
        given.message_len = most_message;
        check(make_tag(&given) == right, "a key of %zu bytes does not get %" PRIu32, given.key_len, right);
        check(finish(&r, given.key_len, w - 1) == right, "a key of %zu bytes does not get %" PRIu32 " at a finish", given.key_len, right);
        given.key_len = LSH_MOST_BYTES;
        given.message_len = most_message + over;
        check(make_tag(&given) == right, "a message of %zu bytes does not get %" PRIu32, given.message_len, right);
    }
    check(check_tag(&given).number == LSH_TOO_LONG, "a tag of a message of %zu bytes is checked", given.message_len);
    given.key_len = LSH_MOST_BYTES + 1;
    check(start(&given)->number == LSH_TOO_LONG, "a tag with a key of %zu bytes is started", given.key_len);
    check(finish(&r, 3, w) == LSH_ACCEPTED, "the longest message gets no tag");
}

/* Where there are no bytes, the pointer to them may be anything but null. */
static void try_no_bytes(uint64_t w)
{
    const uint8_t *anything = (const uint8_t *)(uintptr_t)1;
    const struct arguments given = {.w = w, .n = 8 * w};
    uint8_t right[LONGEST_TAG];
    put_right_tag(&given, right);
    fill(&output);
    check(lsh_tag(engine(), w, 8 * w, anything, 0, anything, 0, buffer(&output), w) == LSH_ACCEPTED && memcmp(buffer(&output), right, w) == 0,
          "lsh_tag(no bytes) writes another tag");
    lsh_outcome right_started = right_start(&given);
    lsh_outcome started = lsh_tag_start(engine(), w, 8 * w, anything, 0);
    check_outcome(&started, &right_started, "lsh_tag_start(no bytes)");
    fill(&output);
    check(lsh_tag_finish(engine(), started.next, anything, 0, buffer(&output), w) == LSH_ACCEPTED && memcmp(buffer(&output), right, w) == 0,
          "lsh_tag_finish(no bytes) writes another tag");
    lsh_sameness sameness = lsh_tag_check(engine(), w, 8 * w, anything, 0, anything, 0, right, w);
    check(sameness.number == LSH_ACCEPTED && sameness.same, "lsh_tag_check(no bytes) says no");
    sameness = lsh_tag_check(engine(), w, 8 * w, anything, 0, anything, 0, anything, 0);
    check(sameness.number == LSH_ACCEPTED && !sameness.same, "lsh_tag_check(no tag) says yes");
}

/* ---- what is tried: records ---- */

/* A record with keys and outputs of all these lengths. */
static void try_record(const lsh_record *r)
{
    for (size_t k = 0; k < COUNT(tried_key_lengths); k++) {
        for (size_t o = 0; o < COUNT(tried_output_lengths); o++) {
            finish(r, tried_key_lengths[k], tried_output_lengths[o]);
        }
    }
}

/* A record that is sound, of no order most likely, with no split rewind begun or with one; half of them with an n that a tag can have. */
static lsh_record random_record(uint64_t w)
{
    uint64_t total = (next_random() % (LSH_MOST_BYTES + 1)) >> below(40), whole = total / LSH_BLOCK_BYTES(w);
    lsh_record r = below(2) == 0 ? sound_record(w, total) : begun_record(w, total, below(2) == 0 ? 0 : next_random() % (whole + 1));
    if (below(2) == 0) {
        r.n = 8 * (1 + below(w));
    }
    return r;
}

static void try_random_records(uint64_t w)
{
    for (int i = 0; i < RECORDS; i++) {
        const lsh_record r = random_record(w);
        finish(&r, below(LARGEST + 1), below(2 * w));
    }
}

/* The record of a refused start, and one from lsh_open; this with an n that no tag has, then unsound too, and then unsound alone. */
static void try_other_records(uint64_t w)
{
    const struct arguments refused_start = {.w = w};
    lsh_record r = start(&refused_start)->next;
    check(finish(&r, 3, LARGEST) == LSH_UNSOUND_RECORD, "a tag is finished that was not started");
    r = open_order(w, 8 * w)->next;
    check(finish(&r, 3, LARGEST) == LSH_ACCEPTED, "no tag for a record from lsh_open");
    try_record(&r);
    r.n -= 1;
    try_record(&r);
    r.total = LSH_MOST_BYTES + LSH_BLOCK_BYTES(w);
    try_record(&r);
    r.n += 1;
    try_record(&r);
}

/* A sound record with each of its bytes changed in a bit: some of what is made so is sound. */
static void try_changes(lsh_record r)
{
    uint8_t *bytes = (uint8_t *)&r;
    r.n = 8 * r.w;
    check(finish(&r, 3, LONGEST_TAG) == LSH_ACCEPTED, "no tag for a record with %" PRIu64 " blocks handed back", r.blocks);
    for (size_t i = 0; i < sizeof r; i++) {
        uint8_t bit = (uint8_t)(1u << below(8));
        bytes[i] ^= bit;
        finish(&r, 3, LONGEST_TAG);
        finish(&r, SIZE_MAX, 0);
        bytes[i] ^= bit;
    }
}

/* With no split rewind begun, with one begun, and with all blocks handed back. */
static void try_changed_records(uint64_t w)
{
    const uint64_t total = 5 * LSH_BLOCK_BYTES(w) + 44;
    try_changes(sound_record(w, total));
    try_changes(begun_record(w, total, 0));
    try_changes(begun_record(w, total, 5));
}

/* Word sizes and digest lengths in a record. */
static void try_figures(void)
{
    for (size_t w = 0; w < COUNT(tried_word_sizes); w++) {
        for (size_t n = 0; n < COUNT(tried_digest_lengths); n++) {
            const lsh_record r = {.w = tried_word_sizes[w], .n = tried_digest_lengths[n]};
            try_record(&r);
        }
    }
}

int main(void)
{
    fill(&place);
    fill(&key);
    fill(&lent);
    fill(&tag);
    for (size_t i = 0; i < COUNT(engines); i++) {
        only_engine = engines[i];
        for (size_t k = 0; k < COUNT(known_tags); k++) {
            try_known_tag(&known_tags[k]);
        }
    }
    only_engine = 0;
    for (uint64_t w = 32; w <= 64; w += 32) {
        try_lengths(w);
        try_every_digest_length(w);
        for (int i = 0; i < MESSAGES; i++) {
            try_pieces(w);
        }
        try_two_keys(w);
        try_wrong_tags(w, 8);
        try_wrong_tags(w, 224);
        try_wrong_tags(w, 8 * w);
        try_other_keys_and_messages(w);
        try_no_whole_bytes(w);
        try_limits(w);
        try_no_bytes(w);
        try_random_records(w);
        try_other_records(w);
        try_changed_records(w);
    }
    try_combinations();
    try_figures();
    return report();
}
