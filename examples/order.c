/* An order of pictures, as a kiosk's driver keeps it: order [-w 32|64] [-n BITS] [--key FILE] FILE...
 *
 * Prints a receipt of each picture and of the order, each with the length in bits that it has, and how many pictures are firsts, reprints
 * and blanks. An order that is long enough to have a checkpoint is also taken up at its middle, and goes on to the same receipt. With a key,
 * the bytes of a file, a tag of the order follows: a shop that has the key recognises its own orders by it. Then the shopper drops the last
 * picture: the order's record is wound back, in steps, and the same is printed of what remains.
 *
 * The calls are declared, with their answers, in lsh_kiosk.h. What a program needs besides them is in common.h. */
#define PROGRAM "order"
#define HELP \
    "usage: order [-w 32|64] [-n BITS] [--key FILE] FILE...\n" \
    "Keeps an order of the files, and prints receipts of each file and of the order,\n" \
    "with and without its last file, and their tallies; - is standard input.\n" \
    "  -w 32|64    the word size, 32 if it is not given\n" \
    "  -n BITS     the digest length, 1 to 8 times the word size, the longest if it is not given\n" \
    "  --key FILE  prints the order's tags with the key in FILE, too; -n is then a multiple of 8\n" \
    "  --          ends the options\n" \
    "  -h, --help  prints this\n" \
    "  --version   prints the version\n"

#include "common.h"

/* The engine that every call is given: one for all of them, as they all have the same word size. */
static uint64_t engine;

/* The bytes of the order: its pictures. A rewind wants the last of them back; a driver that does not keep them in memory reads these from the
 * pictures' files again. */
static struct contents pictures;

/* The shop's key, of no bytes if none is given. */
static struct contents key;

/* The roll of the order's checkpoints, a new one at first, as all static memory is zeros, and its length, which depends on the word size. An
 * order has a roll in all its calls or in none, so one that is too long for the largest roll is kept without it; the length is then 0. */
static uint8_t order_roll[LSH_ROLL_BYTES(64, LSH_MOST_SLOTS)];
static size_t roll_length;

/* Where each picture begins, and where the last one ends. */
static size_t places[LSH_MOST_RECEIPTS + 1];

/* The receipts of the pictures, end to end. */
static uint8_t receipts[LSH_MOST_RECEIPTS][LSH_RECEIPT_BYTES];

/* ---- receipts ---- */

/* The length in bits of what a receipt is of: its last bytes. */
static uint64_t bit_length(const uint8_t *receipt)
{
    return number_in(receipt + LSH_LENGTH_PLACE, LSH_RECEIPT_BYTES - LSH_LENGTH_PLACE);
}

static void print_receipt(const uint8_t *receipt, const char *name)
{
    begin_line(name);
    print_hexadecimal(receipt, LSH_RECEIPT_BYTES);
    printf(" %" PRIu64 "  ", bit_length(receipt));
    write_name(name, stdout);
    end_line();
}

/* The receipt of the order. Its record is not changed, so the order may go on. */
static void write_order(lsh_record order, uint8_t *receipt)
{
    must_be_accepted(lsh_close(engine, order, 0, 0, receipt, LSH_RECEIPT_BYTES), "lsh_close");
}

/* Ends the program if two records give different receipts. */
static void must_give_same_receipt(lsh_record order, lsh_record other)
{
    uint8_t receipt[LSH_RECEIPT_BYTES], other_receipt[LSH_RECEIPT_BYTES];
    write_order(order, receipt);
    write_order(other, other_receipt);
    lsh_sameness sameness = lsh_same(receipt, sizeof receipt, other_receipt, sizeof other_receipt);
    must_be_accepted(sameness.number, "lsh_same");
    if (!sameness.same) {
        fail("the order", "it has another receipt");
    }
}

/* The counts of the first pictures. */
static void print_tally(size_t count)
{
    lsh_counts counts = lsh_tally(receipts[0], count * LSH_RECEIPT_BYTES);
    must_be_accepted(counts.number, "lsh_tally");
    printf("firsts %" PRIu64 " reprints %" PRIu64 " blanks %" PRIu64, counts.firsts, counts.reprints, counts.blanks);
    end_line();
}

/* ---- the order taken up at its middle ---- */

/* How many checkpoints an order of so many bytes has. */
static size_t count_checkpoints(uint64_t w, uint64_t total)
{
    return total / LSH_BLOCK_BYTES(w) / LSH_CHECKPOINT_BLOCKS;
}

/* The slot of the k-th checkpoint, k from 1 on. The slots of the checkpoints are linked: the head's index leads to the first of them, and the
 * index of each slot to the next. */
static size_t slot_of_checkpoint(uint64_t w, const uint8_t *roll, size_t k)
{
    size_t slot = number_in(roll, LSH_INDEX_BYTES);
    for (size_t i = 1; i < k; i++) {
        slot = number_in(roll + LSH_SLOT_PLACE(w, slot), LSH_INDEX_BYTES);
    }
    return slot;
}

/* The record of the order's first blocks, as it stood at the k-th checkpoint on the order's roll: the slot has its chain, its total is the
 * bytes of these blocks, and no bytes are held. The bytes before the checkpoint are not read. */
static lsh_record record_at_checkpoint(lsh_record order, const uint8_t *roll, size_t k)
{
    lsh_record record = {.w = order.w, .n = order.n, .total = k * LSH_CHECKPOINT_BLOCKS * LSH_BLOCK_BYTES(order.w)};
    const uint8_t *chain = roll + LSH_CHAIN_PLACE(order.w, slot_of_checkpoint(order.w, roll, k));
    size_t word = order.w / 8;
    for (size_t i = 0; i < 16; i++) {
        record.chain[i] = number_in(chain + i * word, word);
    }
    return record;
}

/* The record of the order, from that of its first bytes on: the bytes behind these are appended. The roll has their checkpoints already, so
 * this Append is one without the roll. */
static lsh_record go_on_to_end(lsh_record first, lsh_record order)
{
    lsh_outcome outcome = lsh_append(engine, first, pictures.bytes + first.total, order.total - first.total);
    must_be_accepted(outcome.number, "lsh_append");
    return outcome.next;
}

/* Takes the order up at its middle checkpoint, and prints the receipt that it then has, which must be that of the order. So a driver reads a
 * long order from its middle on. An order without a checkpoint, or without a roll, can only be read from its start. */
static void print_from_middle(lsh_record order, const char *name)
{
    size_t checkpoints = count_checkpoints(order.w, order.total);
    if (roll_length == 0 || checkpoints == 0) {
        return;
    }
    lsh_record middle = record_at_checkpoint(order, order_roll, (checkpoints + 1) / 2);
    lsh_record end = go_on_to_end(middle, order);
    must_give_same_receipt(end, order);

    uint8_t receipt[LSH_RECEIPT_BYTES];
    write_order(end, receipt);
    char text[80];
    snprintf(text, sizeof text, "%s, taken up at byte %" PRIu64, name, middle.total);
    print_receipt(receipt, text);
}

/* ---- tags ---- */

/* An empty file is most likely not the one that was meant, and with a key of no bytes everyone could make the tags. */
static void read_key(const char *name)
{
    read_file(name, &key);
    if (key.length == 0) {
        fail(name, "the key is empty");
    }
}

/* Overwrites the stack below its caller. The calls with a key work there, and do not clear it; they take less than this. */
static void overwrite_stack(void)
{
    volatile uint8_t below[16384];
    for (size_t i = 0; i < sizeof below; i++) {
        below[i] = 0;
    }
}

/* Called through a pointer that may change, so that the compiler does not make it a part of its caller, whose stack lies above. */
static void (*volatile clear_stack)(void) = overwrite_stack;

/* Writes the tag of the first pictures. A tag has a record of its own, which begins with the key; the pictures are appended as to an order. */
static void write_tag(lsh_record order, size_t count, uint8_t *tag)
{
    lsh_outcome outcome = lsh_tag_start(engine, order.w, order.n, key.bytes, key.length);
    must_be_accepted(outcome.number, "lsh_tag_start");
    for (size_t i = 0; i < count; i++) {
        outcome = lsh_append(engine, outcome.next, pictures.bytes + places[i], places[i + 1] - places[i]);
        must_be_accepted(outcome.number, "lsh_append");
    }
    must_be_accepted(lsh_tag_finish(engine, outcome.next, key.bytes, key.length, tag, LSH_TAG_BYTES(order.n)), "lsh_tag_finish");
}

/* Ends the program if a tag is not that of the first pictures. So a shop looks at an order that comes back with its tag. */
static void must_be_tag(lsh_record order, size_t count, const uint8_t *tag)
{
    lsh_sameness sameness =
        lsh_tag_check(engine, order.w, order.n, key.bytes, key.length, pictures.bytes, places[count], tag, LSH_TAG_BYTES(order.n));
    must_be_accepted(sameness.number, "lsh_tag_check");
    if (!sameness.same) {
        fail("the tag", "it is not that of the order");
    }
}

static void print_tag(lsh_record order, size_t count, const char *name)
{
    uint8_t tag[LSH_TAG_BYTES(8 * 64)];
    write_tag(order, count, tag);
    must_be_tag(order, count, tag);
    clear_stack();
    print_hexadecimal(tag, LSH_TAG_BYTES(order.n));
    printf("  the tag of %s", name);
    end_line();
}

/* ---- the order ---- */

/* The order with the picture at a place added: the picture's receipt is made and printed, too. */
static lsh_record add_picture(lsh_record order, size_t i, const char *name)
{
    const uint8_t *picture = pictures.bytes + places[i];
    size_t length = places[i + 1] - places[i];
    must_be_accepted(lsh_whole(engine, order.w, order.n, picture, length, 0, 0, receipts[i], LSH_RECEIPT_BYTES), "lsh_whole");
    print_receipt(receipts[i], name);
    lsh_outcome outcome = roll_length != 0 ? lsh_append_roll(engine, order, picture, length, order_roll, roll_length)
                                           : lsh_append(engine, order, picture, length);
    must_be_accepted(outcome.number, "Append");
    return outcome.next;
}

/* The order cut to its first `length` bytes, in steps: a large order takes long, and the driver has its screen to draw meanwhile. (Where that
 * does not matter, one lsh_rewind or lsh_rewind_roll does the same.) */
static lsh_record cut_order(lsh_record order, size_t length)
{
    /* A block begins at each multiple of a block's bytes. The order is handed back down to where the block begins that the cut lies in, and
     * the bytes of this block before the cut are kept. */
    size_t block = LSH_BLOCK_BYTES(order.w);
    size_t keep = length % block;
    size_t from = length - keep;

    /* First the bytes since the last whole block. */
    size_t place = order.total - order.total % block;
    lsh_outcome outcome = lsh_begin(order, pictures.bytes + place, order.total % block);
    must_be_accepted(outcome.number, "lsh_begin");

    /* Then one whole block after the other, from the last one on. */
    while (place > from) {
        place -= block;
        outcome = lsh_hand_back(engine, outcome.next, pictures.bytes + place, block);
        must_be_accepted(outcome.number, "lsh_hand_back");
        /* Here a driver draws its screen. */
    }

    /* Up to here nothing is dropped: the receipt is still that of the order before, and lsh_abandon would give its record again. */
    must_give_same_receipt(outcome.next, order);

    /* The end drops the bytes. An order with a roll has it in this step, and in no other one of a rewind in steps. */
    outcome = roll_length != 0 ? lsh_end_roll(engine, outcome.next, keep, order_roll, roll_length) : lsh_end(engine, outcome.next, keep);
    must_be_accepted(outcome.number, "the end of the rewind");
    return outcome.next;
}

/* What is printed of an order of the first pictures. */
static void print_order(lsh_record order, size_t count, const char *name)
{
    uint8_t receipt[LSH_RECEIPT_BYTES];
    write_order(order, receipt);
    print_receipt(receipt, name);
    print_from_middle(order, name);
    if (key.length != 0) {
        print_tag(order, count, name);
    }
    print_tally(count);
}

/* ---- the program ---- */

/* Begins an order, with a roll if the pictures are not too long for one. */
static lsh_record open_order(uint64_t w, uint64_t n)
{
    engine = faster_engine(w);
    roll_length = count_checkpoints(w, pictures.length) <= LSH_MOST_SLOTS ? LSH_ROLL_BYTES(w, LSH_MOST_SLOTS) : 0;
    lsh_outcome outcome = lsh_open(engine, w, n);
    must_be_accepted(outcome.number, "lsh_open");
    return outcome.next;
}

/* Ends the program if no file is named, or more than one tally takes. */
static void must_be_right_count(size_t count)
{
    if (count == 0) {
        fail_usage("no file is named; --help says what there is", NULL, NULL);
    }
    if (count > LSH_MOST_RECEIPTS) {
        char what[32], why[64];
        snprintf(what, sizeof what, "%zu files", count);
        snprintf(why, sizeof why, "an order's tally takes %d at most", LSH_MOST_RECEIPTS);
        fail_usage(what, NULL, why);
    }
}

/* Ends the program if the digest length makes no tags, or if the key and a picture are both to be read from standard input. */
static void must_suit_key(const char *key_name, const char *n_text, uint64_t n, char **names, size_t count)
{
    if (n % 8 != 0) {
        fail_usage("-n", n_text, "with --key a digest has a multiple of 8 bits");
    }
    for (size_t i = 0; i < count; i++) {
        if (is_standard_input(key_name) && is_standard_input(names[i])) {
            fail_usage(names[i], NULL, "standard input is read for the key already");
        }
    }
}

/* Reads the pictures one behind the other. */
static void read_pictures(char **names, size_t count)
{
    for (size_t i = 0; i < count; i++) {
        read_file(names[i], &pictures);
        places[i + 1] = pictures.length;
    }
}

int main(int argc, char **argv)
{
    const char *w_text = "32", *n_text = NULL, *key_name = NULL;
    const struct option options[] = {
        {"-w", "a number", &w_text}, {"-n", "a number", &n_text}, {"--key", "a file", &key_name}, {NULL, NULL, NULL}};
    size_t count = take_options(argc, argv, options);
    char **names = argv + 1;
    uint64_t w = word_size(w_text);
    uint64_t n = digest_bits(n_text, w);
    must_be_right_count(count);
    if (key_name != NULL) {
        must_suit_key(key_name, n_text, n, names, count);
        read_key(key_name);
    }
    read_pictures(names, count);

    lsh_record order = open_order(w, n);
    for (size_t i = 0; i < count; i++) {
        order = add_picture(order, i, names[i]);
    }
    print_order(order, count, "the order");

    order = cut_order(order, places[count - 1]);
    print_order(order, count - 1, "the order without its last picture");
    end_well();
}
