/* LSH order fingerprints for print kiosks: the calls for C.
 *
 * C11 or C++17 is needed. Link with liblsh_kiosk.a, which wants memcpy and memset of the C library and nothing else. Every call returns for
 * every argument that the declarations below allow, keeps no memory between calls, and reads and writes only the buffers that it is lent.
 * A buffer is a pointer and its length in bytes. Where the length is 0, the pointer may be anything, null too, as an empty std::vector has it.
 * The buffers of one call do not overlap if one of them is written. Records and answers pass by value: a call changes no record that it is
 * given, and the caller keeps the one that it returns. What each call answers and writes is proved for all arguments (docs/PROMISES.md).
 * examples/order.c uses the calls for an order.
 */
#ifndef LSH_KIOSK_H
#define LSH_KIOSK_H

#if defined(__cplusplus) ? __cplusplus < 201703L : !defined(__STDC_VERSION__) || __STDC_VERSION__ < 201112L
#error "lsh_kiosk.h needs C11 or later (-std=c11), or C++17 or later (-std=c++17)"
#endif

#include <assert.h>
#include <stddef.h>
#include <stdint.h>
#ifndef __cplusplus
#include <stdbool.h>
#endif

/* The version of the module: the archive, this header and the programs. */
#define LSH_VERSION "1.8.0"

/* On each function: the compiler warns where the answer is dropped, since the refusal would be dropped with it. */
#if defined(__cplusplus) || __STDC_VERSION__ >= 202311L
#define LSH_NODISCARD [[nodiscard]]
#elif defined(__GNUC__)
#define LSH_NODISCARD __attribute__((warn_unused_result))
#else
#define LSH_NODISCARD
#endif

#ifdef __cplusplus
extern "C" {
#endif

/* ---- answers ---- */

/* What a call answers: 0, or why it refuses. Each call below names the refusals that it can give, in the order in which it tests them. A
 * refused call changes nothing. */
#define LSH_ACCEPTED 0u
#define LSH_BAD_WORD_SIZE 1u
#define LSH_BAD_DIGEST_LENGTH 2u
#define LSH_UNSOUND_RECORD 3u
#define LSH_BAD_LENGTH 4u
#define LSH_TOO_LONG 5u
#define LSH_BAD_START 6u
#define LSH_BAD_KEEP 7u
#define LSH_HELD_DIFFER 8u
#define LSH_OPENING_DIFFERS 9u
#define LSH_BAD_EXTRA_BITS 10u
#define LSH_BAD_LAST_BYTE 11u
#define LSH_SHORT_OUTPUT 12u
#define LSH_NO_RECEIPTS 13u
#define LSH_MALFORMED 14u
#define LSH_BAD_ROLL 15u
#define LSH_FULL_ROLL 16u
#define LSH_OUT_OF_TURN 17u
#define LSH_NO_WHOLE_BYTES 18u

/* What an answer means, in one line to be printed. lsh_record says what a sound record is, lsh_same what a malformed receipt is, and the
 * section "an order with a roll" what a roll is. */
LSH_NODISCARD static inline const char *lsh_meaning(uint32_t number)
{
    switch (number) {
    case LSH_ACCEPTED: return "accepted";
    case LSH_BAD_WORD_SIZE: return "the word size w is neither 32 nor 64";
    case LSH_BAD_DIGEST_LENGTH: return "the digest length n is 0 or above 8w";
    case LSH_UNSOUND_RECORD: return "the record is not sound: no order was begun with it, or it was damaged";
    case LSH_BAD_LENGTH: return "the chain does not have 2w bytes, or the block does not have 4w";
    case LSH_TOO_LONG: return "the order, the message or the key would have more than 2^40 bytes, or the message and the block of its key together";
    case LSH_BAD_START: return "the bytes handed back begin inside a block, are more than the order has left, or are not as many as the step takes";
    case LSH_BAD_KEEP: return "more bytes are to be kept than were handed back, or a block or more";
    case LSH_HELD_DIFFER: return "the last bytes handed back are not those that the record holds";
    case LSH_OPENING_DIFFERS: return "the whole order was handed back, and it does not lead back to the opening chain";
    case LSH_BAD_EXTRA_BITS: return "the number e of extra bits is above 7";
    case LSH_BAD_LAST_BYTE: return "one of the low 8 - e bits of the last byte is set";
    case LSH_SHORT_OUTPUT: return "the output is too short for the receipt or the tag";
    case LSH_NO_RECEIPTS: return "not as many bytes as a receipt has; in a list, no whole number of receipts, or too many of them";
    case LSH_MALFORMED: return "a receipt is malformed: no call writes such bytes";
    case LSH_BAD_ROLL: return "the buffer is no roll, or does not have the checkpoints of an order of this length";
    case LSH_FULL_ROLL: return "the roll has fewer free slots than checkpoints are due";
    case LSH_OUT_OF_TURN: return "an append, a rewind or a begin while a split rewind is unfinished, or another step of one while none is begun";
    case LSH_NO_WHOLE_BYTES: return "the digest length n is no multiple of 8, so a digest is not the whole bytes that a tag takes";
    default: return "no call answers this number";
    }
}

/* ---- figures ---- */

/* Bytes of a chain and of a block, by word size. */
#define LSH_CHAIN_BYTES(w) (2 * (w))
#define LSH_BLOCK_BYTES(w) (4 * (w))

/* The most bytes of a message or of an order, and the most bits of a message. */
#define LSH_MOST_BYTES (UINT64_C(1) << 40)
#define LSH_MOST_BITS (8 * LSH_MOST_BYTES + 7)

/* Bytes of a receipt, and the most receipts of a list. */
#define LSH_RECEIPT_BYTES 76
#define LSH_MOST_RECEIPTS 960

/* Bytes of a tag, by digest length. */
#define LSH_TAG_BYTES(n) ((n) / 8)

/* Where the digest stands in a receipt, and where the length of the message in bits, which takes the last eight bytes. */
#define LSH_DIGEST_PLACE 4
#define LSH_LENGTH_PLACE 68

/* A checkpoint is inserted at every block whose number is a multiple of this. */
#define LSH_CHECKPOINT_BLOCKS 64

/* The most slots of a roll. Bytes of an index, of a slot and of a roll, the last two by word size. */
#define LSH_MOST_SLOTS 255
#define LSH_INDEX_BYTES 2
#define LSH_SLOT_BYTES(w) (LSH_INDEX_BYTES + LSH_CHAIN_BYTES(w))
#define LSH_ROLL_BYTES(w, slots) (LSH_INDEX_BYTES + (slots) * LSH_SLOT_BYTES(w))

/* Where slot i of a roll begins, i from 1 on, and where its chain begins. */
#define LSH_SLOT_PLACE(w, i) LSH_ROLL_BYTES(w, (i) - 1)
#define LSH_CHAIN_PLACE(w, i) (LSH_SLOT_PLACE(w, i) + LSH_INDEX_BYTES)

/* ---- records and answers with more than a number ---- */

/* What is kept of an order between calls: the word size, the digest length in bits, how many bytes the order has, the chain after its
 * whole blocks, and in `held` the bytes since the last whole block, the other places zero. Then how far a split rewind is: the mark, 0, or 1
 * once begun, the second chain, which is run back so far, in `back` the bytes handed back last, the other places zero, and how many blocks
 * were handed back; with none begun these four are zero. The record is plain data: it can be copied, kept and stored, and an old copy is
 * still the record of the order as it was then.
 * A record is sound if w is 32 or 64, n is from 1 to 8w, total is at most LSH_MOST_BYTES, each word of the chain is below 2^w, each held
 * byte from place (total mod 4w) on is zero, the mark is 0 or 1, and
 * - with mark 0, second, back and blocks are zero;
 * - with mark 1, each word of second is below 2^w, each byte of back from place 4w on is zero, blocks is at most the order's whole blocks,
 *   and if blocks is 0, second is the chain and back is zero. */
typedef struct lsh_record {
    uint64_t w, n, total;
    uint64_t chain[16];
    uint8_t held[256];
    uint64_t mark;
    uint64_t second[16];
    uint8_t back[256];
    uint64_t blocks;
} lsh_record;

/* The answer to a call on an order: its number, a count of blocks, which each call below explains (0 if it is refused), and the record that
 * follows (the one given if it is refused; zeros from a refused lsh_open or lsh_tag_start). */
typedef struct lsh_outcome {
    uint32_t number;
    uint64_t count;
    lsh_record next;
} lsh_outcome;

/* The answer to lsh_same and to lsh_tag_check: its number, and whether the receipts are the same, or the tag that was given and the right one
 * (false if it is refused). */
typedef struct lsh_sameness {
    uint32_t number;
    bool same;
} lsh_sameness;

/* The answer to lsh_tally: its number, the place of the first malformed receipt, counted from 0, if the number is LSH_MALFORMED (else 0),
 * and how many receipts are firsts, reprints and blanks (0 each if it is refused). */
typedef struct lsh_counts {
    uint32_t number;
    uint64_t place, firsts, reprints, blanks;
} lsh_counts;

/* The archive has these layouts. */
static_assert(offsetof(lsh_record, w) == 0 && offsetof(lsh_record, n) == 8 && offsetof(lsh_record, total) == 16
                  && offsetof(lsh_record, chain) == 24 && offsetof(lsh_record, held) == 152 && offsetof(lsh_record, mark) == 408
                  && offsetof(lsh_record, second) == 416 && offsetof(lsh_record, back) == 544 && offsetof(lsh_record, blocks) == 800
                  && sizeof(lsh_record) == 808,
              "lsh_record is laid out as in the archive");
static_assert(offsetof(lsh_outcome, number) == 0 && offsetof(lsh_outcome, count) == 8 && offsetof(lsh_outcome, next) == 16
                  && sizeof(lsh_outcome) == 824,
              "lsh_outcome is laid out as in the archive");
static_assert(offsetof(lsh_sameness, number) == 0 && offsetof(lsh_sameness, same) == 4 && sizeof(bool) == 1 && sizeof(lsh_sameness) == 8,
              "lsh_sameness is laid out as in the archive");
static_assert(offsetof(lsh_counts, number) == 0 && offsetof(lsh_counts, place) == 8 && offsetof(lsh_counts, firsts) == 16
                  && offsetof(lsh_counts, reprints) == 24 && offsetof(lsh_counts, blanks) == 32 && sizeof(lsh_counts) == 40,
              "lsh_counts is laid out as in the archive");

/* ---- engines ---- */

/* What the calls that run blocks take first: which code runs the blocks of this call, word by word or in groups of four words. Every number
 * but LSH_ENGINE_GROUPS is the words. No answer, no output and no record depends on it, so each call of an order may be given another one.
 * Which is faster depends on the word size, the processor and the compiler (docs/DRIVER.md says how to find out). */
#define LSH_ENGINE_WORDS UINT64_C(1)
#define LSH_ENGINE_GROUPS UINT64_C(2)

/* ---- blocks ---- */

/* Runs one block forward on a chain, or backward: each undoes the other. The chain is 16 words of w bits, lowest byte first.
 * Answers 0 and replaces the chain, or answers LSH_BAD_WORD_SIZE or LSH_BAD_LENGTH, tested in that order, and changes nothing. */
LSH_NODISCARD uint32_t lsh_block_forward(uint64_t engine, uint64_t w, uint8_t *chain, size_t chain_len, const uint8_t *block, size_t block_len);
LSH_NODISCARD uint32_t lsh_block_backward(uint64_t engine, uint64_t w, uint8_t *chain, size_t chain_len, const uint8_t *block, size_t block_len);

/* ---- an order ---- */

/* Begins an order. w is the word size, 32 or 64, and n the digest length in bits, from 1 to 8w: LSH-256-n and LSH-512-n of the published
 * definition.
 * Answers 0 with the record of an order of no bytes; or answers LSH_BAD_WORD_SIZE or LSH_BAD_DIGEST_LENGTH, tested in that order, with a
 * record of zeros, which every other call refuses. The count is 0. */
LSH_NODISCARD lsh_outcome lsh_open(uint64_t engine, uint64_t w, uint64_t n);

/* Adds a piece of any length to the end of an order.
 * Answers 0 with the record of the longer order and the number of blocks that were run forward: the whole blocks of the order after the
 * piece less those before it. Or answers LSH_UNSOUND_RECORD, LSH_OUT_OF_TURN or LSH_TOO_LONG, tested in that order. */
LSH_NODISCARD lsh_outcome lsh_append(uint64_t engine, lsh_record r, const uint8_t *piece, size_t piece_len);

/* Takes bytes off the end of an order. h are the last bytes of the order, from a place on where a block begins (a multiple of 4w); the
 * first `keep` of them remain, less than a block. To cut an order to c bytes, keep is c mod 4w and h is what the order has from place
 * c - keep on (docs/DRIVER.md has a drawing).
 * Answers 0 with the record of the shorter order and the number of blocks that were run backward: the whole blocks of h. Or answers
 * LSH_UNSOUND_RECORD, LSH_OUT_OF_TURN, LSH_BAD_START, LSH_BAD_KEEP, LSH_HELD_DIFFER or LSH_OPENING_DIFFERS, tested in that order. Hand back
 * what was appended: other bytes are taken where none of these tests shows them, and the record that follows is then not that of the order. */
LSH_NODISCARD lsh_outcome lsh_rewind(uint64_t engine, lsh_record r, uint64_t keep, const uint8_t *h, size_t h_len);

/* Writes the receipt of an order: its bytes, and then the top e bits of one more byte, `last`. Where the order is a whole number of bytes,
 * last and e are 0. The receipt is the one that lsh_whole writes for these bytes. The order may go on after it. While a split rewind is
 * unfinished, the order is that before the rewind.
 * Answers 0 and writes the first LSH_RECEIPT_BYTES bytes of the output, and no other; or answers LSH_UNSOUND_RECORD, LSH_BAD_EXTRA_BITS,
 * LSH_BAD_LAST_BYTE or LSH_SHORT_OUTPUT, tested in that order, and changes nothing. */
LSH_NODISCARD uint32_t lsh_close(uint64_t engine, lsh_record r, uint8_t last, uint64_t e, uint8_t *output, size_t output_len);

/* ---- a rewind that is split into steps ---- */

/* A rewind of a large order takes long. In steps the driver does something else in between: lsh_begin, then lsh_hand_back for each whole
 * block from the last one on, then lsh_end. Until the end the record is that of the order before the rewind, lsh_close gives its receipt, and
 * lsh_abandon goes back to it. Nothing can be appended or wound back otherwise meanwhile. A refused step returns the record as it was
 * given; the count of a step is 0, and that of the end is the number of blocks handed back. */

/* Begins a split rewind. `bytes` are those that the order has since its last whole block, as many as (total mod 4w); they may be none.
 * Answers 0; or LSH_UNSOUND_RECORD, LSH_OUT_OF_TURN, LSH_BAD_START or LSH_HELD_DIFFER, tested in that order. */
LSH_NODISCARD lsh_outcome lsh_begin(lsh_record r, const uint8_t *bytes, size_t bytes_len);

/* Hands back one block of 4w bytes: the order's last whole block that was not yet handed back.
 * Answers 0; or LSH_UNSOUND_RECORD, LSH_OUT_OF_TURN or LSH_BAD_START, tested in that order. Another block than the order has there is taken,
 * and what lsh_end gives is then not the order. */
LSH_NODISCARD lsh_outcome lsh_hand_back(uint64_t engine, lsh_record r, const uint8_t *block, size_t block_len);

/* Ends a split rewind. The first `keep` bytes of the block handed back last remain, or of the held bytes if none was: to cut an order to c
 * bytes, hand back the blocks down to the one that begins at c - keep, where keep is c mod 4w (the held bytes alone, if that is where they
 * begin).
 * Answers 0 with the record and the count that one lsh_rewind over all these bytes gives. Or answers LSH_UNSOUND_RECORD, LSH_OUT_OF_TURN,
 * LSH_BAD_KEEP or LSH_OPENING_DIFFERS, tested in that order; the split rewind is then still begun. */
LSH_NODISCARD lsh_outcome lsh_end(uint64_t engine, lsh_record r, uint64_t keep);

/* Abandons a split rewind: the record is again the one that lsh_begin was given.
 * Answers 0; or LSH_UNSOUND_RECORD or LSH_OUT_OF_TURN, tested in that order. */
LSH_NODISCARD lsh_outcome lsh_abandon(lsh_record r);

/* ---- an order with a roll ---- */

/* An order may have a roll: a buffer with the order's checkpoints, which are the chains at every LSH_CHECKPOINT_BLOCKS-th block, so that
 * the order can be taken up at its middle. An order has a roll in all its Append and Rewind calls and ends of split rewinds, or in none:
 * with one, lsh_append_roll, lsh_rewind_roll and lsh_end_roll take the place of lsh_append, lsh_rewind and lsh_end. The driver keeps the roll
 * with the record, and lends it to each of these calls as the last one left it.
 *
 * A roll has 1 to LSH_MOST_SLOTS slots, counted from 1, and each holds one checkpoint; so the order always has less than
 * (slots + 1) * LSH_CHECKPOINT_BLOCKS whole blocks, and what would make it longer gets LSH_FULL_ROLL. A new roll is
 * LSH_ROLL_BYTES(w, slots) zeros, where w is the word size of the order. What stands where:
 *
 *     0                        the index of the head: the slot of the first checkpoint
 *     LSH_SLOT_PLACE(w, i)     the index of slot i: the slot of the next checkpoint
 *     LSH_CHAIN_PLACE(w, i)    the chain of slot i: 16 words of w bits, lowest byte first, LSH_CHAIN_BYTES(w) bytes
 *
 * An index is the number of a slot, or 0 where no slot follows, in LSH_INDEX_BYTES bytes, low byte first. The slots that are met on the way
 * from the head are linked. The k-th of them has the chain after k times LSH_CHECKPOINT_BLOCKS blocks. The bytes of a slot that is not
 * linked mean nothing. A record with the order's w and n, the bytes of so many blocks as its total, this chain, and zeros in every other
 * field is the record of these blocks, and lsh_append goes on from there (record_at_checkpoint of examples/order.c).
 *
 * LSH_BAD_ROLL is answered if the buffer does not have the length of a roll, if an index beyond the slots or a slot twice is met on the way
 * from the head, or if the number of linked slots is not the record's whole blocks divided by LSH_CHECKPOINT_BLOCKS and rounded down. The
 * chains are not tested. */

/* Adds a piece of any length to the end of an order with a roll, and inserts the checkpoints due: one at each new whole block whose number,
 * counted from 1, is a multiple of LSH_CHECKPOINT_BLOCKS. For each a slot that is not linked is taken, and which one is left open. The
 * slot's index becomes 0, the chain is written to the slot, and its number becomes the index of the slot that was linked last, or of the
 * head. No other byte of the roll is written.
 * Answers 0 with the record and the count that lsh_append gives. Or answers LSH_UNSOUND_RECORD, LSH_OUT_OF_TURN, LSH_BAD_ROLL, LSH_TOO_LONG
 * or LSH_FULL_ROLL, tested in that order, and changes no byte of the roll. */
LSH_NODISCARD lsh_outcome lsh_append_roll(uint64_t engine, lsh_record r, const uint8_t *piece, size_t piece_len, uint8_t *roll, size_t roll_len);

/* Takes bytes off the end of an order with a roll, as lsh_rewind does, and unlinks the checkpoints past the new end; one at the end itself
 * stays. If there are any, the index that led to the first slot unlinked becomes 0, and the slots serve again. No other byte of the roll is
 * written.
 * Answers 0 with the record and the count that lsh_rewind gives. Or answers LSH_UNSOUND_RECORD, LSH_OUT_OF_TURN, LSH_BAD_ROLL, LSH_BAD_START,
 * LSH_BAD_KEEP, LSH_HELD_DIFFER or LSH_OPENING_DIFFERS, tested in that order, and changes no byte of the roll. */
LSH_NODISCARD lsh_outcome lsh_rewind_roll(uint64_t engine, lsh_record r, uint64_t keep, const uint8_t *h, size_t h_len, uint8_t *roll,
                                          size_t roll_len);

/* Ends a split rewind of an order with a roll, as lsh_end does, and unlinks the checkpoints past the new end, as lsh_rewind_roll does. The
 * other steps take no roll.
 * Answers 0 with the record and the count that lsh_end gives. Or answers LSH_UNSOUND_RECORD, LSH_OUT_OF_TURN, LSH_BAD_ROLL, LSH_BAD_KEEP or
 * LSH_OPENING_DIFFERS, tested in that order, and changes no byte of the roll. */
LSH_NODISCARD lsh_outcome lsh_end_roll(uint64_t engine, lsh_record r, uint64_t keep, uint8_t *roll, size_t roll_len);

/* ---- one message ---- */

/* Writes the receipt of a message: its bytes, and then the top e bits of one more byte, `last`. Where the message is a whole number of bytes,
 * last and e are 0. w and n are as for lsh_open. What stands where in the receipt:
 *
 *     0                   w
 *     1                   0
 *     2                   n, two bytes, low byte first
 *     LSH_DIGEST_PLACE    the digest: n bits, the highest bit of a byte first, and then zeros up to the next part
 *     LSH_LENGTH_PLACE    the length of the message in bits: 8 for each byte, and e; eight bytes, low byte first
 *
 * Answers 0 and writes the first LSH_RECEIPT_BYTES bytes of the output, and no other; or answers LSH_BAD_WORD_SIZE, LSH_BAD_DIGEST_LENGTH,
 * LSH_TOO_LONG, LSH_BAD_EXTRA_BITS, LSH_BAD_LAST_BYTE or LSH_SHORT_OUTPUT, tested in that order, and changes nothing. */
LSH_NODISCARD uint32_t lsh_whole(uint64_t engine, uint64_t w, uint64_t n, const uint8_t *message, size_t message_len, uint8_t last, uint64_t e,
                                 uint8_t *output, size_t output_len);

/* ---- tags with a key ---- */

/* A tag is made of a message and a key, and shows those who have the key that the message was tagged with it. It is HMAC of RFC 2104 over
 * LSH-256-n or LSH-512-n, and has LSH_TAG_BYTES(n) bytes, n / 8; w and n are as for lsh_open, but n is a multiple of 8. A key has any length
 * up to LSH_MOST_BYTES, and may be empty. It goes before the message as a block of 4w bytes (a longer one is replaced by its digest, and
 * zeros follow up to the block's end), so a message has at most LSH_MOST_BYTES less 4w bytes. The output overlaps no other buffer.
 * Nothing is promised about time: how long a call takes may depend on the key, the message and the tag. */

/* Writes the tag of one message.
 * Answers 0 and writes the first LSH_TAG_BYTES(n) bytes of the output, and no other; or answers LSH_BAD_WORD_SIZE, LSH_BAD_DIGEST_LENGTH,
 * LSH_NO_WHOLE_BYTES, LSH_TOO_LONG or LSH_SHORT_OUTPUT, tested in that order, and changes nothing. */
LSH_NODISCARD uint32_t lsh_tag(uint64_t engine, uint64_t w, uint64_t n, const uint8_t *key, size_t key_len, const uint8_t *message,
                               size_t message_len, uint8_t *output, size_t output_len);

/* Begins the tag of a message that comes in pieces: lsh_append adds each of them, and lsh_tag_finish writes the tag. With the same key at the
 * start and at the finish it is the tag of the joined pieces that were accepted. The record is that of an order which begins with the key's
 * block, so its total, which lsh_append holds to LSH_MOST_BYTES, is 4w at first.
 * Answers 0 with this record and a count of 1, for the key's block (those that are run for the digest of a long key are not counted); or
 * answers LSH_BAD_WORD_SIZE, LSH_BAD_DIGEST_LENGTH, LSH_NO_WHOLE_BYTES or LSH_TOO_LONG, tested in that order, with a record of zeros, which
 * every other call refuses, and a count of 0. */
LSH_NODISCARD lsh_outcome lsh_tag_start(uint64_t engine, uint64_t w, uint64_t n, const uint8_t *key, size_t key_len);

/* Writes the tag of the pieces appended since lsh_tag_start. The key is that of the start, which the record does not tell. The record is not
 * changed: more can be appended, and the tag written again. Every sound record is taken, also one from lsh_open and one with a split rewind
 * begun: the digest that lsh_close gives for it where last and e are 0 stands as the inner digest of HMAC.
 * Answers 0 and writes the first LSH_TAG_BYTES(r.n) bytes of the output, and no other; or answers LSH_UNSOUND_RECORD, LSH_NO_WHOLE_BYTES,
 * LSH_TOO_LONG (the key alone) or LSH_SHORT_OUTPUT, tested in that order, and changes nothing. */
LSH_NODISCARD uint32_t lsh_tag_finish(uint64_t engine, lsh_record r, const uint8_t *key, size_t key_len, uint8_t *output, size_t output_len);

/* Tells whether a tag is the one that lsh_tag writes: all of its LSH_TAG_BYTES(n) bytes agree. Each of them is compared, whatever the others
 * are. A tag of another length is not refused: it gets a no.
 * Answers 0 and yes or no; or answers LSH_BAD_WORD_SIZE, LSH_BAD_DIGEST_LENGTH, LSH_NO_WHOLE_BYTES or LSH_TOO_LONG, tested in that order. */
LSH_NODISCARD lsh_sameness lsh_tag_check(uint64_t engine, uint64_t w, uint64_t n, const uint8_t *key, size_t key_len, const uint8_t *message,
                                         size_t message_len, const uint8_t *tag, size_t tag_len);

/* ---- receipts ---- */

/* Tells whether two receipts are the same: word size, digest length, digest and the length of the message in bits all agree. Two receipts
 * that are not malformed are the same exactly if all their bytes agree.
 * Answers 0 and yes or no; or answers LSH_NO_RECEIPTS if one of the byte strings has not LSH_RECEIPT_BYTES bytes, then LSH_MALFORMED if one of
 * the receipts is malformed: a w, byte 1 or n that no receipt has, a bit after the digest's n that is set, or a length above LSH_MOST_BITS. */
LSH_NODISCARD lsh_sameness lsh_same(const uint8_t *a, size_t a_len, const uint8_t *b, size_t b_len);

/* Counts a list of receipts, which stand end to end: a receipt of a message without bits is a blank. Any other is a first if no earlier one is
 * the same, and a reprint if some earlier one is. The three counts make up the number of receipts, and do not depend on the order in which these
 * stand; an empty list is accepted.
 * Answers 0 and the three counts; or answers LSH_NO_RECEIPTS if the length is no multiple of LSH_RECEIPT_BYTES or there are more than
 * LSH_MOST_RECEIPTS, then LSH_MALFORMED with the place of the first malformed receipt. */
LSH_NODISCARD lsh_counts lsh_tally(const uint8_t *list, size_t list_len);

#ifdef __cplusplus
}
#endif

#endif
