/* What the programs of this folder share: messages, the output, the answers of calls, engines, files, numbers in bytes, and the command line.
 *
 * A program says who it is before it includes this: PROGRAM is its name, and HELP the text that --help prints.
 * Every program ends with one of these statuses:
 *
 *     0    all is well
 *     1    a file could not be read, a check failed, or the output could not be written
 *     2    the command line is wrong */
#ifndef COMMON_H
#define COMMON_H

#include <errno.h>
#include <inttypes.h>
#include <stdbool.h>
#include <stdio.h>
#include <stdlib.h>
#include <string.h>

#include "lsh_kiosk.h"

/* ---- messages ---- */

/* What a character of a file's name is written as behind a backslash, so that a line of text stays one line; 0 if it is written as it is. */
static inline char escape_letter(char character)
{
    switch (character) {
    case '\\': return '\\';
    case '\n': return 'n';
    case '\r': return 'r';
    default: return '\0';
    }
}

/* Writes a file's name, or another text that may have any characters. */
static inline void write_name(const char *name, FILE *to)
{
    for (; *name != '\0'; name++) {
        char letter = escape_letter(*name);
        if (letter != '\0') {
            putc('\\', to);
        }
        putc(letter != '\0' ? letter : *name, to);
    }
}

/* Says `PROGRAM: WHAT VALUE: WHY` on standard error. The value and the reason may be null, and are then left out. */
static inline void say(const char *what, const char *value, const char *why)
{
    fputs(PROGRAM ": ", stderr);
    write_name(what, stderr);
    if (value != NULL) {
        putc(' ', stderr);
        write_name(value, stderr);
    }
    if (why != NULL) {
        fprintf(stderr, ": %s", why);
    }
    putc('\n', stderr);
}

/* Ends the program because something failed. */
_Noreturn static inline void fail(const char *what, const char *why)
{
    say(what, NULL, why);
    exit(1);
}

/* Ends the program because its command line is wrong. */
_Noreturn static inline void fail_usage(const char *what, const char *value, const char *why)
{
    say(what, value, why);
    exit(2);
}

/* Ends the program if a call was refused. */
static inline void must_be_accepted(uint32_t number, const char *call)
{
    if (number != LSH_ACCEPTED) {
        fail(call, lsh_meaning(number));
    }
}

/* ---- engines ---- */

/* The engine that was the faster one of a word size on the processors where it was measured. Where the other one is faster, it can be taken
 * instead: no answer depends on it. */
static inline uint64_t faster_engine(uint64_t w)
{
    return w == 32 ? LSH_ENGINE_GROUPS : LSH_ENGINE_WORDS;
}

/* ---- the output ---- */

_Noreturn static inline void fail_output(void)
{
    fail("the output cannot be written", strerror(errno));
}

/* Begins a line that has a file's name. As sha256sum does it, the line begins with a backslash if the name is not written as it is. */
static inline void begin_line(const char *name)
{
    while (*name != '\0' && escape_letter(*name) == '\0') {
        name++;
    }
    if (*name != '\0') {
        putchar('\\');
    }
}

/* Ends a line. Each line is looked at, so that a long output does not go on in vain. */
static inline void end_line(void)
{
    putchar('\n');
    if (ferror(stdout)) {
        fail_output();
    }
}

static inline void print_hexadecimal(const uint8_t *bytes, size_t length)
{
    for (size_t i = 0; i < length; i++) {
        printf("%02x", bytes[i]);
    }
}

/* Ends the program well, if all of the output could be written. */
_Noreturn static inline void end_well(void)
{
    if (ferror(stdout) || fflush(stdout) != 0 || fclose(stdout) != 0) {
        fail_output();
    }
    exit(0);
}

/* ---- files ---- */

/* Bytes that are read from files, one file after the other. */
struct contents {
    uint8_t *bytes;
    size_t length, room;
};

/* Makes room for more bytes where there is none. */
static inline void make_room(struct contents *to, const char *name)
{
    if (to->length == to->room) {
        to->room = 2 * to->room + 65536;
        to->bytes = realloc(to->bytes, to->room);
        if (to->bytes == NULL) {
            fail(name, "there is not enough memory for it");
        }
    }
}

static inline bool is_standard_input(const char *name)
{
    return strcmp(name, "-") == 0;
}

/* Reads a file to the end of what was read before. */
static inline void read_file(const char *name, struct contents *to)
{
    bool is_input = is_standard_input(name);
    FILE *file = is_input ? stdin : fopen(name, "rb");
    if (file == NULL) {
        fail(name, strerror(errno));
    }
    size_t wanted, got;
    do {
        make_room(to, name);
        wanted = to->room - to->length;
        got = fread(to->bytes + to->length, 1, wanted, file);
        to->length += got;
    } while (got == wanted);
    if (ferror(file) || (!is_input && fclose(file) != 0)) {
        fail(name, strerror(errno));
    }
}

/* ---- numbers in bytes ---- */

/* The number that some bytes hold, at most eight of them, the low byte first. */
static inline uint64_t number_in(const uint8_t *bytes, size_t length)
{
    uint64_t number = 0;
    for (size_t i = length; i > 0; i--) {
        number = number << 8 | bytes[i - 1];
    }
    return number;
}

/* ---- the command line ---- */

/* An option with a value: -w, say, or --key; what the value is, such as "a number"; and where its text goes. The last value counts. */
struct option {
    const char *name, *kind;
    const char **value;
};

static inline bool has_two_dashes(const char *name)
{
    return name[0] == '-' && name[1] == '-';
}

/* Whether an argument is the option of a name, with a value behind it or without one: -w or -w32, --key or --key=FILE. */
static inline bool is_option(const char *argument, const char *name)
{
    size_t length = strlen(name);
    if (strncmp(argument, name, length) != 0) {
        return false;
    }
    return !has_two_dashes(name) || argument[length] == '\0' || argument[length] == '=';
}

/* Whether an argument is the option of a name that takes no value. */
static inline bool is_flag(const char *argument, const char *name)
{
    if (is_option(argument, name) && argument[strlen(name)] != '\0') {
        fail_usage(argument, NULL, "this option takes no value");
    }
    return is_option(argument, name);
}

/* Takes the value of an option: what stands behind its name, or else the next argument. Returns how many arguments more were taken. */
static inline int take_value(char **argument, const struct option *option)
{
    const char *behind = argument[0] + strlen(option->name);
    if (*behind != '\0') {
        *option->value = has_two_dashes(option->name) ? behind + 1 : behind;
        return 0;
    }
    if (argument[1] == NULL) {
        char why[64];
        snprintf(why, sizeof why, "%s is missing after it", option->kind);
        fail_usage(option->name, NULL, why);
    }
    *option->value = argument[1];
    return 1;
}

/* Takes an option, and its value if it has one. Returns how many arguments more were taken. */
static inline int take_option(char **argument, const struct option *options)
{
    if (is_flag(argument[0], "-h") || is_flag(argument[0], "--help")) {
        fputs(HELP, stdout);
        end_well();
    }
    if (is_flag(argument[0], "--version")) {
        fputs(PROGRAM " " LSH_VERSION "\n", stdout);
        end_well();
    }
    for (const struct option *option = options; option->name != NULL; option++) {
        if (is_option(argument[0], option->name)) {
            return take_value(argument, option);
        }
    }
    fail_usage(argument[0], NULL, "there is no such option; --help says what there is");
}

/* Takes the options out of the command line, and returns how many other arguments it has. These are moved to the places from argv[1] on.
 * As in GNU's programs, options may stand anywhere before an argument --, and a dash alone is none. The list of options ends with one that
 * has no name. */
static inline size_t take_options(int argc, char **argv, const struct option *options)
{
    size_t others = 0;
    int i = 1;
    for (; i < argc && strcmp(argv[i], "--") != 0; i++) {
        if (argv[i][0] == '-' && argv[i][1] != '\0') {
            i += take_option(argv + i, options);
        } else {
            argv[++others] = argv[i];
        }
    }
    for (i++; i < argc; i++) {
        argv[++others] = argv[i];
    }
    return others;
}

/* The number that a text says in decimal digits. `what` is said before the text if it says none. */
static inline uint64_t number_of(const char *what, const char *text)
{
    errno = 0;
    uint64_t number = strtoull(text, NULL, 10);
    if (text[0] == '\0' || text[strspn(text, "0123456789")] != '\0' || errno != 0) {
        fail_usage(what, text, "this is no number, or is too large");
    }
    return number;
}

/* The word size that the option -w says. */
static inline uint64_t word_size(const char *text)
{
    uint64_t w = number_of("-w", text);
    if (w != 32 && w != 64) {
        fail_usage("-w", text, "the word size is 32 or 64");
    }
    return w;
}

/* The digest length that the option -n says, or the longest of the word size where the text is null. */
static inline uint64_t digest_bits(const char *text, uint64_t w)
{
    uint64_t longest = 8 * w;
    uint64_t n = text == NULL ? longest : number_of("-n", text);
    if (n == 0 || n > longest) {
        fail_usage("-n", text, "a digest has 1 bit at least and 8 times the word size at most");
    }
    return n;
}

#endif
