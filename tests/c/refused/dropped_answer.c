/* Drops the answer of each function of the header, one on a line. The compiler has to warn of each of them, in C and in C++. */
#include "lsh_kiosk.h"

void drop_each(lsh_record r, uint8_t *bytes, size_t length);

void drop_each(lsh_record r, uint8_t *bytes, size_t length)
{
    lsh_meaning(LSH_ACCEPTED);
    lsh_block_forward(LSH_ENGINE_WORDS, 32, bytes, length, bytes, length);
    lsh_block_backward(LSH_ENGINE_WORDS, 32, bytes, length, bytes, length);
    lsh_open(LSH_ENGINE_WORDS, 32, 256);
    lsh_append(LSH_ENGINE_WORDS, r, bytes, length);
    lsh_rewind(LSH_ENGINE_WORDS, r, 0, bytes, length);
    lsh_close(LSH_ENGINE_WORDS, r, 0, 0, bytes, length);
    lsh_begin(r, bytes, length);
    lsh_hand_back(LSH_ENGINE_WORDS, r, bytes, length);
    lsh_end(LSH_ENGINE_WORDS, r, 0);
    lsh_abandon(r);
    lsh_append_roll(LSH_ENGINE_WORDS, r, bytes, length, bytes, length);
    lsh_rewind_roll(LSH_ENGINE_WORDS, r, 0, bytes, length, bytes, length);
    lsh_end_roll(LSH_ENGINE_WORDS, r, 0, bytes, length);
    lsh_whole(LSH_ENGINE_WORDS, 32, 256, bytes, length, 0, 0, bytes, length);
    lsh_tag(LSH_ENGINE_WORDS, 32, 256, bytes, length, bytes, length, bytes, length);
    lsh_tag_start(LSH_ENGINE_WORDS, 32, 256, bytes, length);
    lsh_tag_finish(LSH_ENGINE_WORDS, r, bytes, length, bytes, length);
    lsh_tag_check(LSH_ENGINE_WORDS, 32, 256, bytes, length, bytes, length, bytes, length);
    lsh_same(bytes, length, bytes, length);
    lsh_tally(bytes, length);
}
