// Includes the header and makes each call from C++: an order of two pieces, the second of which is dropped again, at once and in steps, one with a
// roll, and a tag. The engine changes from call to call.
#include "lsh_kiosk.h"

#include <cstdio>
#include <cstring>

int main()
{
    const uint64_t words = LSH_ENGINE_WORDS, groups = LSH_ENGINE_GROUPS;
    const uint8_t bytes[3] = {'a', 'b', 'c'};
    const lsh_outcome opened = lsh_open(words, 32, 256);
    const lsh_outcome first = lsh_append(groups, opened.next, bytes, 1);
    const lsh_outcome both = lsh_append(words, first.next, bytes + 1, 2);
    const lsh_outcome dropped = lsh_rewind(groups, both.next, 1, bytes, 3);

    uint8_t receipts[2 * LSH_RECEIPT_BYTES];
    uint8_t *const second = receipts + LSH_RECEIPT_BYTES;
    bool good = lsh_close(words, dropped.next, 0, 0, receipts, LSH_RECEIPT_BYTES) == LSH_ACCEPTED
        && lsh_whole(groups, 32, 256, bytes, 1, 0, 0, second, LSH_RECEIPT_BYTES) == LSH_ACCEPTED;
    const lsh_sameness sameness = lsh_same(receipts, LSH_RECEIPT_BYTES, second, LSH_RECEIPT_BYTES);
    const lsh_counts counts = lsh_tally(receipts, sizeof receipts);

    uint8_t chain[LSH_CHAIN_BYTES(32)] = {}, block[LSH_BLOCK_BYTES(32)] = {};
    const uint8_t zeros[sizeof chain] = {};
    good = good && lsh_block_forward(words, 32, chain, sizeof chain, block, sizeof block) == LSH_ACCEPTED
        && lsh_block_backward(groups, 32, chain, sizeof chain, block, sizeof block) == LSH_ACCEPTED
        && std::memcmp(chain, zeros, sizeof chain) == 0;

    good = good && dropped.number == LSH_ACCEPTED && dropped.next.total == 1
        && std::memcmp(&dropped.next, &first.next, sizeof first.next) == 0 && sameness.number == LSH_ACCEPTED && sameness.same
        && counts.number == LSH_ACCEPTED && counts.firsts == 1 && counts.reprints == 1 && counts.blanks == 0
        && receipts[LSH_LENGTH_PLACE] == 8 * dropped.next.total;

    // The second piece once more: a rewind in steps is begun and abandoned, and then begun and ended, without a whole block.
    const lsh_outcome begun = lsh_begin(both.next, bytes, 3);
    const lsh_outcome abandoned = lsh_abandon(begun.next);
    const lsh_outcome ended = lsh_end(words, begun.next, 1);
    good = good && begun.number == LSH_ACCEPTED && begun.next.mark == 1 && lsh_append(groups, begun.next, bytes, 1).number == LSH_OUT_OF_TURN
        && abandoned.number == LSH_ACCEPTED && std::memcmp(&abandoned.next, &both.next, sizeof both.next) == 0
        && ended.number == LSH_ACCEPTED && ended.count == 0 && std::memcmp(&ended.next, &first.next, sizeof first.next) == 0;

    // A piece of one checkpoint on a roll of one slot, and all of it handed back; and appended again, with only its last block handed back.
    static const uint8_t piece[LSH_CHECKPOINT_BLOCKS * LSH_BLOCK_BYTES(32)] = {};
    uint8_t roll[LSH_ROLL_BYTES(32, 1)] = {};
    const lsh_outcome appended = lsh_append_roll(words, opened.next, piece, sizeof piece, roll, sizeof roll);
    good = good && appended.number == LSH_ACCEPTED && appended.count == LSH_CHECKPOINT_BLOCKS && roll[0] == 1 && roll[1] == 0;
    const lsh_outcome back = lsh_rewind_roll(groups, appended.next, 0, piece, sizeof piece, roll, sizeof roll);
    good = good && back.number == LSH_ACCEPTED && std::memcmp(&back.next, &opened.next, sizeof opened.next) == 0 && roll[0] == 0;
    const lsh_outcome again = lsh_append_roll(groups, back.next, piece, sizeof piece, roll, sizeof roll);
    const lsh_outcome handed = lsh_hand_back(words, lsh_begin(again.next, piece, 0).next, piece, sizeof block);
    good = good && roll[0] == 1 && handed.number == LSH_ACCEPTED && handed.count == 0 && handed.next.blocks == 1;
    const lsh_outcome shorter = lsh_end_roll(groups, handed.next, 0, roll, sizeof roll);
    good = good && shorter.number == LSH_ACCEPTED && shorter.count == 1 && shorter.next.total == sizeof piece - sizeof block && roll[0] == 0;

    // The tag of both pieces with a key, as one message and one after the other; a shorter key gets a no.
    const uint8_t key[2] = {1, 2};
    uint8_t tag[LSH_TAG_BYTES(256)], finished[sizeof tag];
    const lsh_outcome started = lsh_tag_start(words, 32, 256, key, sizeof key);
    const lsh_outcome added = lsh_append(words, lsh_append(groups, started.next, bytes, 1).next, bytes + 1, 2);
    good = good && started.number == LSH_ACCEPTED && started.count == 1 && added.number == LSH_ACCEPTED
        && lsh_tag(words, 32, 256, key, sizeof key, bytes, sizeof bytes, tag, sizeof tag) == LSH_ACCEPTED
        && lsh_tag_finish(groups, added.next, key, sizeof key, finished, sizeof finished) == LSH_ACCEPTED
        && std::memcmp(finished, tag, sizeof tag) == 0;
    const lsh_sameness right = lsh_tag_check(groups, 32, 256, key, sizeof key, bytes, sizeof bytes, tag, sizeof tag);
    const lsh_sameness wrong = lsh_tag_check(words, 32, 256, key, 1, bytes, sizeof bytes, tag, sizeof tag);
    good = good && right.number == LSH_ACCEPTED && right.same && wrong.number == LSH_ACCEPTED && !wrong.same
        && lsh_tag_start(groups, 32, 255, key, sizeof key).number == LSH_NO_WHOLE_BYTES;

    std::puts(good ? "from_cpp: all calls passed" : "from_cpp: FAILED");
    return good ? 0 : 1;
}
