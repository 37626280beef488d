/* Reads what the header has as text: the meaning of every answer, and the version.
 * It prints how many checks passed, or each that failed; the exit status is 0 only if all passed. */
#include <ctype.h>
#include <inttypes.h>
#include <stdbool.h>
#include <stdint.h>
#include <string.h>

#include "lsh_kiosk.h"

#define PROGRAM "meanings"
#define LARGEST 0
#include "checks.h"

#define ANSWERS (LSH_NO_WHOLE_BYTES + 1) /* the numbers from 0 on */

/* One line that can stand after other words, and in a format of printf: a small letter first, no full stop, no percent sign. */
static bool is_one_line(const char *text)
{
    size_t length = strlen(text);
    return length != 0 && islower((unsigned char)text[0]) && text[length - 1] != '.' && strpbrk(text, "\n\r\t%") == NULL;
}

static void try_meanings(void)
{
    const char *no_answer = lsh_meaning(UINT32_MAX);
    check(is_one_line(no_answer), "the meaning of a number that no call answers is \"%s\"", no_answer);
    check(strcmp(lsh_meaning(ANSWERS), no_answer) == 0, "%u, which no call answers, means \"%s\"", ANSWERS, lsh_meaning(ANSWERS));
    for (uint32_t number = 0; number < ANSWERS; number++) {
        const char *meaning = lsh_meaning(number);
        check(is_one_line(meaning), "%" PRIu32 " means \"%s\"", number, meaning);
        check(strcmp(meaning, no_answer) != 0, "%" PRIu32 " has no meaning", number);
        for (uint32_t earlier = 0; earlier < number; earlier++) {
            check(strcmp(meaning, lsh_meaning(earlier)) != 0, "%" PRIu32 " and %" PRIu32 " mean the same", earlier, number);
        }
    }
}

/* Three numbers with points between them. */
static void try_version(void)
{
    const char *rest = LSH_VERSION;
    for (int part = 0; part < 3; part++) {
        size_t digits = strspn(rest, "0123456789");
        check(digits != 0, "the version is \"%s\"", LSH_VERSION);
        rest += digits;
        check(*rest == (part < 2 ? '.' : '\0'), "the version is \"%s\"", LSH_VERSION);
        rest += *rest != '\0';
    }
}

int main(void)
{
    try_meanings();
    try_version();
    return report();
}
