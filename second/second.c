/* The programs solve, factors and again in one, written from docs/RULES.md and from nothing else:
 *
 *     second solve|factors|again [FILE]
 *
 * reads FILE, or standard input, and prints what that program prints. What depends on the format is in body.h, which is
 * included once for each format. Build with -ffp-contract=off, so that no product is fused with a difference.
 */
#include <float.h>
#include <inttypes.h>
#include <stdbool.h>
#include <stdint.h>
#include <stdio.h>
#include <stdlib.h>
#include <string.h>
#include <tgmath.h>

_Static_assert(FLT_EVAL_METHOD == 0, "every operation is rounded to the format of its operands");
_Static_assert(FLT_RADIX == 2 && DBL_MANT_DIG == 53 && FLT_MANT_DIG == 24, "the formats are binary64 and binary32");

enum { LARGEST_SIZE = 128, LONGEST_TEXT = 16777216 };

/* ---- Words ---- */

struct text {
    const unsigned char *at, *end;
};

struct word {
    const unsigned char *at, *end;
};

static bool is_separator(unsigned char c)
{
    return c == ' ' || c == '\t' || c == '\r' || c == '\n';
}

static bool is_digit(unsigned char c)
{
    return c >= '0' && c <= '9';
}

/* Takes the next word off the text, if there is one. */
static bool next_word(struct text *text, struct word *word)
{
    while (text->at < text->end && is_separator(*text->at))
        text->at++;
    word->at = text->at;
    while (text->at < text->end && !is_separator(*text->at))
        text->at++;
    word->end = text->at;
    return word->at < word->end;
}

static bool is(struct word word, const char *name)
{
    size_t length = strlen(name);
    return (size_t)(word.end - word.at) == length && memcmp(word.at, name, length) == 0;
}

/* Reads a word of decimal digits. Every number above LARGEST_SIZE counts as LARGEST_SIZE + 1. */
static bool read_whole(struct word word, unsigned *whole)
{
    *whole = 0;
    for (; word.at < word.end; word.at++) {
        if (!is_digit(*word.at))
            return false;
        *whole = *whole * 10 + (*word.at - '0');
        if (*whole > LARGEST_SIZE)
            *whole = LARGEST_SIZE + 1;
    }
    return true;
}

/* ---- Numbers ---- */

/* A number as its word has it: whole / 10^scale, or whole * 2^scale if exact. */
struct number {
    bool negative, exact;
    uint64_t whole;
    int scale;
};

static int hexadecimal_digit(unsigned char c)
{
    if (is_digit(c))
        return c - '0';
    if (c >= 'a' && c <= 'f')
        return c - 'a' + 10;
    if (c >= 'A' && c <= 'F')
        return c - 'A' + 10;
    return -1;
}

static bool parse_decimal(struct word word, struct number *number)
{
    int digits = 0;
    bool point = false;
    for (; word.at < word.end; word.at++) {
        if (*word.at == '.' && !point) {
            point = true;
            continue;
        }
        if (!is_digit(*word.at) || ++digits > 15)
            return false;
        number->whole = number->whole * 10 + (*word.at - '0');
        number->scale += point;
    }
    return digits > 0;
}

/* The word begins after `0x`. */
static bool parse_exact(struct word word, struct number *number)
{
    int digits = 0, power = 0;
    for (; word.at < word.end && hexadecimal_digit(*word.at) >= 0; word.at++) {
        if (++digits > 14)
            return false;
        number->whole = number->whole * 16 + hexadecimal_digit(*word.at);
    }
    if (digits == 0 || word.at == word.end || *word.at++ != 'p')
        return false;
    bool down = word.at < word.end && *word.at == '-';
    word.at += down;
    if (word.end - word.at < 1 || word.end - word.at > 4)
        return false;
    for (; word.at < word.end; word.at++) {
        if (!is_digit(*word.at))
            return false;
        power = power * 10 + (*word.at - '0');
    }
    number->scale = down ? -power : power;
    return true;
}

static bool parse_number(struct word word, struct number *number)
{
    *number = (struct number){ .negative = word.at < word.end && *word.at == '-' };
    word.at += number->negative;
    number->exact = word.end - word.at >= 2 && word.at[0] == '0' && word.at[1] == 'x';
    if (!number->exact)
        return parse_decimal(word, number);
    word.at += 2;
    return parse_exact(word, number);
}

/* Makes the whole number of an exact form odd, unless it is 0. */
static void reduce(uint64_t *whole, int *power)
{
    while (*whole != 0 && *whole % 2 == 0) {
        *whole /= 2;
        ++*power;
    }
}

/* The number of binary digits. */
static int width(uint64_t whole)
{
    int digits = 0;
    for (; whole != 0; whole /= 2)
        digits++;
    return digits;
}

/* 10^places, places at most 15: below 2^50. */
static uint64_t power_of_ten(int places)
{
    uint64_t power = 1;
    while (places-- > 0)
        power *= 10;
    return power;
}

/* The quotient of two whole numbers below 2^53, which binary64 holds exactly: one rounding. */
static double quotient_binary64(uint64_t whole, uint64_t divisor)
{
    return (double)whole / (double)divisor;
}

/* The quotient of two whole numbers below 2^50, rounded to binary32: the nearest whole number of 24 digits, times a
 * power of two. The quotient lies between 2^-50 and 2^50, where every such number is a normal one. */
static float quotient_binary32(uint64_t whole, uint64_t divisor)
{
    if (whole == 0)
        return 0;
    unsigned __int128 above = whole, below = divisor;
    int power = 0;
    while (above / below < (1 << 23)) {
        above *= 2;
        power--;
    }
    while (above / below >= (1 << 24)) {
        below *= 2;
        power++;
    }
    uint32_t nearest = (uint32_t)(above / below);
    unsigned __int128 twice_rest = above % below * 2;
    if (twice_rest > below || (twice_rest == below && nearest % 2 == 1))
        nearest++;
    return ldexp((float)nearest, power);
}

/* Prints a finite number. Every value of binary32 is one of binary64, so this serves both formats. */
static void print_number(double value)
{
    int power;
    uint64_t whole = (uint64_t)ldexp(frexp(fabs(value), &power), DBL_MANT_DIG);
    power = whole == 0 ? 0 : power - DBL_MANT_DIG;
    reduce(&whole, &power);
    printf("%s0x%" PRIx64 "p%d", signbit(value) ? "-" : "", whole, power);
}

/* ---- Outcomes ---- */

enum { NO_COLUMN = -1, SOLVING = -2 };

/* The number of a refusal, with its column for 5 and 6; or the number 0. */
struct outcome {
    int number, column;
};

static const struct outcome ANSWERED = { 0, NO_COLUMN };

static struct outcome refusal(int number)
{
    return (struct outcome){ number, NO_COLUMN };
}

static struct outcome refusal_at(int number, int column)
{
    return (struct outcome){ number, column };
}

static void print_refusal(struct outcome outcome)
{
    printf("no answer %d", outcome.number);
    if (outcome.column == SOLVING)
        printf(" solving");
    else if (outcome.column != NO_COLUMN)
        printf(" %d", outcome.column);
    putchar('\n');
}

/* Whether the order has each of 0 to n-1 once. */
static bool is_permutation(unsigned n, const unsigned order[])
{
    bool seen[LARGEST_SIZE] = { false };
    for (unsigned i = 0; i < n; i++) {
        if (order[i] >= n || seen[order[i]])
            return false;
        seen[order[i]] = true;
    }
    return true;
}

/* ---- The two formats ---- */

#define REAL double
#define NAME(name) name##_binary64
#define DIGITS 53
#define LEAST_POWER (-1074)
#define TOP_POWER 1024
#define LEAST_IN_RANGE 0x1p-1000
#define FACTORS "factors"
#include "body.h"

#define REAL float
#define NAME(name) name##_binary32
#define DIGITS 24
#define LEAST_POWER (-149)
#define TOP_POWER 128
#define LEAST_IN_RANGE 0x1p-110f
#define FACTORS "factors32"
#include "body.h"

/* ---- The programs ---- */

typedef struct outcome program(unsigned n, struct text rest);

/* A program: the first word of its text, and its work on the rest after the size, in each format. */
static const struct {
    const char *name, *head;
    program *binary64, *binary32;
} PROGRAMS[] = {
    { "solve", "system", solve_binary64, solve_binary32 },
    { "factors", "system", factors_binary64, factors_binary32 },
    { "again", "factors", again_binary64, again_binary32 },
};

enum { PROGRAM_COUNT = sizeof PROGRAMS / sizeof PROGRAMS[0] };

static struct outcome run(int which, struct text text)
{
    struct word head, size;
    char head32[16];
    unsigned n;
    if (text.end - text.at > LONGEST_TEXT)
        return refusal(1);
    if (!next_word(&text, &head))
        return refusal(7);
    snprintf(head32, sizeof head32, "%s32", PROGRAMS[which].head);
    if (!is(head, PROGRAMS[which].head) && !is(head, head32))
        return refusal(7);
    if (!next_word(&text, &size) || !read_whole(size, &n))
        return refusal(7);
    if (n < 1 || n > LARGEST_SIZE)
        return refusal(1);
    return is(head, head32) ? PROGRAMS[which].binary32(n, text) : PROGRAMS[which].binary64(n, text);
}

/* Reads all of the input; bytes beyond the first that is too many are not kept. */
static struct text read_text(FILE *input)
{
    static unsigned char kept[LONGEST_TEXT + 1], dropped[65536];
    size_t length = fread(kept, 1, sizeof kept, input);
    if (length == sizeof kept)
        while (fread(dropped, 1, sizeof dropped, input) > 0)
            ;
    return (struct text){ kept, kept + length };
}

static int fail(const char *what)
{
    perror(what);
    return EXIT_FAILURE;
}

int main(int argc, char **argv)
{
    int which = 0;
    while (which < PROGRAM_COUNT && (argc < 2 || strcmp(argv[1], PROGRAMS[which].name) != 0))
        which++;
    if (which == PROGRAM_COUNT || argc > 3) {
        fprintf(stderr, "usage: second solve|factors|again [FILE]\n");
        return EXIT_FAILURE;
    }
    FILE *input = argc == 3 ? fopen(argv[2], "rb") : stdin;
    if (input == NULL)
        return fail(argv[2]);
    struct text text = read_text(input);
    if (ferror(input))
        return fail("input");
    struct outcome outcome = run(which, text);
    if (outcome.number != 0)
        print_refusal(outcome);
    if (fflush(stdout) != 0 || ferror(stdout))
        return fail("output");
    return EXIT_SUCCESS;
}
