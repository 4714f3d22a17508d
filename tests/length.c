/* Calls the functions of the C interface that read command lists, on known lists and on faulty ones. */
#include "jengafir.h"

#include <float.h>
#include <math.h>
#include <stdio.h>
#include <string.h>

#define COUNT(list) (sizeof(list) / sizeof(list)[0])

/* Numbers that the limit of command lists lets pass, and the next one. */
#define LIMIT 4194304.0f
#define PAST_LIMIT 4194304.5f

#define MOST_COMMANDS 262144

/* What the place for a length holds before a call: no list here has this length. */
#define OLD_LENGTH -77.25f

/* What the place for a reply holds before a call: neither yes nor no. */
#define OLD_REPLY 77
#define YES 1
#define NO 0

#define SMALLEST_SUBNORMAL 0x1p-149f

static int compared = 0;
static int wrong = 0;

static int same_number(float x, float y)
{
    return memcmp(&x, &y, sizeof x) == 0;
}

static void expect_length(const char *call, const uint8_t *codes, size_t codes_len, const float *numbers,
                          size_t numbers_len, uint32_t refusal, float expected)
{
    float length = OLD_LENGTH;
    uint32_t got = jengafir_length(codes, codes_len, numbers, numbers_len, &length);
    compared++;
    if (got != refusal || !same_number(length, expected)) {
        printf("%s: %u with length %a, not %u with %a\n", call, (unsigned)got, length, (unsigned)refusal, expected);
        wrong++;
    }
}

static void expect_command(const char *call, const uint8_t *codes, size_t codes_len, const float *numbers,
                           size_t numbers_len, size_t k, uint32_t refusal, size_t first, size_t many)
{
    size_t start = 99, count = 99;
    uint32_t got = jengafir_command(codes, codes_len, numbers, numbers_len, k, &start, &count);
    compared++;
    if (got != refusal || start != first || count != many) {
        printf("%s, command %zu: %u with %zu numbers from %zu, not %u with %zu from %zu\n", call, k, (unsigned)got,
               count, start, (unsigned)refusal, many, first);
        wrong++;
    }
}

static void expect_reply(const char *call, const uint8_t *codes, size_t codes_len, const float *numbers,
                         size_t numbers_len, float least, uint32_t refusal, uint32_t reply, size_t read)
{
    uint32_t reached = OLD_REPLY;
    size_t commands_read = 99;
    uint32_t got = jengafir_length_reaches(codes, codes_len, numbers, numbers_len, least, &reached, &commands_read);
    compared++;
    if (got != refusal || reached != reply || commands_read != read) {
        printf("%s, at least %a: %u with reply %u after %zu, not %u with %u after %zu\n", call, least, (unsigned)got,
               (unsigned)reached, commands_read, (unsigned)refusal, (unsigned)reply, read);
        wrong++;
    }
}

/* How many numbers these commands have; a code that is not listed has none. */
static size_t count_numbers(const uint8_t *codes, size_t codes_len)
{
    static const size_t sizes[] = {2, 2, 6, 0, 4};
    size_t count = 0;
    for (size_t k = 0; k < codes_len; k++)
        count += codes[k] < COUNT(sizes) ? sizes[codes[k]] : 0;
    return count;
}

/* The length of the first n commands as a list by themselves; -1, below every length, where they are not sound. */
static float first_length(const uint8_t *codes, size_t n, const float *numbers, size_t numbers_len)
{
    float length = -1;
    size_t count = count_numbers(codes, n);
    if (count <= numbers_len)
        jengafir_length(codes, n, numbers, count, &length);
    return length;
}

/* Expects yes after the fewest commands whose length is at least so much. Where there are none it expects the list's
   refusal, or no after all commands. */
static void expect_fewest(const char *call, const uint8_t *codes, size_t codes_len, const float *numbers,
                          size_t numbers_len, float least)
{
    for (size_t n = 0; n <= codes_len; n++)
        if (first_length(codes, n, numbers, numbers_len) >= least) {
            expect_reply(call, codes, codes_len, numbers, numbers_len, least, JENGAFIR_ACCEPTED, YES, n);
            return;
        }
    float length;
    uint32_t refusal = jengafir_length(codes, codes_len, numbers, numbers_len, &length);
    if (refusal == JENGAFIR_ACCEPTED)
        expect_reply(call, codes, codes_len, numbers, numbers_len, least, refusal, NO, codes_len);
    else
        expect_reply(call, codes, codes_len, numbers, numbers_len, least, refusal, OLD_REPLY, 0);
}

/* The float so many places above a number that is not negative. */
static float above(float x, int places)
{
    uint32_t pattern;
    memcpy(&pattern, &x, sizeof x);
    pattern += (uint32_t)places;
    memcpy(&x, &pattern, sizeof x);
    return x;
}

/* Expects replies at the length after each sound command, just below it and just above it, and far above them all. */
static void replied(const char *call, const uint8_t *codes, size_t codes_len, const float *numbers, size_t numbers_len)
{
    for (size_t n = 0; n <= codes_len; n++) {
        float length = first_length(codes, n, numbers, numbers_len);
        for (int places = length > 0 ? -1 : 0; length >= 0 && places <= 1; places++)
            expect_fewest(call, codes, codes_len, numbers, numbers_len, above(length, places));
    }
    expect_fewest(call, codes, codes_len, numbers, numbers_len, FLT_MAX);
}

/* Expects what is told before any command is read: 2 of too many codes, then 3 of what is no length, and yes of 0. */
static void unread(const char *call, const uint8_t *codes, size_t codes_len, const float *numbers, size_t numbers_len)
{
    static const float no_lengths[] = {-SMALLEST_SUBNORMAL, -1, -FLT_MAX, -INFINITY, INFINITY, NAN};
    static const float zeros[] = {0.0f, -0.0f};
    int too_many = codes_len > MOST_COMMANDS;
    for (size_t i = 0; i < COUNT(no_lengths); i++)
        expect_reply(call, codes, codes_len, numbers, numbers_len, no_lengths[i],
                     too_many ? JENGAFIR_TOO_MANY : JENGAFIR_OUT_OF_RANGE, OLD_REPLY, 0);
    for (size_t i = 0; i < COUNT(zeros); i++)
        expect_reply(call, codes, codes_len, numbers, numbers_len, zeros[i],
                     too_many ? JENGAFIR_TOO_MANY : JENGAFIR_ACCEPTED, too_many ? OLD_REPLY : YES, 0);
}

/* Expects a length, the places of each command and no command past the last, and replies around each length. */
static void measured(const char *call, const uint8_t *codes, size_t codes_len, const float *numbers, float length)
{
    size_t total = count_numbers(codes, codes_len);
    expect_length(call, codes, codes_len, numbers, total, JENGAFIR_ACCEPTED, length);
    expect_command(call, codes, codes_len, numbers, total, codes_len, JENGAFIR_OUT_OF_BOUNDS, 0, 0);
    expect_command(call, codes, codes_len, numbers, total, (size_t)-1, JENGAFIR_OUT_OF_BOUNDS, 0, 0);
    for (size_t k = 0; k < codes_len; k++)
        expect_command(call, codes, codes_len, numbers, total, k, JENGAFIR_ACCEPTED, count_numbers(codes, k),
                       count_numbers(codes + k, 1));
    unread(call, codes, codes_len, numbers, total);
    replied(call, codes, codes_len, numbers, total);
}

/* Expects a refusal of all calls, also for a command before the fault, and of a reply where nothing is long enough. */
static void refused(const char *call, const uint8_t *codes, size_t codes_len, const float *numbers, size_t numbers_len,
                    uint32_t refusal)
{
    expect_length(call, codes, codes_len, numbers, numbers_len, refusal, OLD_LENGTH);
    expect_command(call, codes, codes_len, numbers, numbers_len, 0, refusal, 0, 0);
    expect_command(call, codes, codes_len, numbers, numbers_len, codes_len, refusal, 0, 0);
    expect_reply(call, codes, codes_len, numbers, numbers_len, FLT_MAX, refusal, OLD_REPLY, 0);
    unread(call, codes, codes_len, numbers, numbers_len);
}

/* The same of a few commands, and replies around each length before the fault. */
static void faulty(const char *call, const uint8_t *codes, size_t codes_len, const float *numbers, size_t numbers_len,
                   uint32_t refusal)
{
    refused(call, codes, codes_len, numbers, numbers_len, refusal);
    replied(call, codes, codes_len, numbers, numbers_len);
}

enum { M = JENGAFIR_MOVE, L = JENGAFIR_LINE, C = JENGAFIR_CUBIC, Z = JENGAFIR_CLOSE, Q = JENGAFIR_QUAD };

static void test_lengths(void)
{
    static const float none[] = {NAN};
    static const uint8_t rectangle[] = {M, L, L, L, Z};
    static const float rectangle_numbers[] = {-1.5f, -2, 1.5f, -2, 1.5f, 2, -1.5f, 2};
    static const uint8_t triangle[] = {M, L, L, L, Z};
    static const float triangle_numbers[] = {0, 0, 3, 0, 3, 4, 0, 0};
    /* No move: the first line adds nothing; the close clears the point, so the third line adds nothing. */
    static const uint8_t no_move[] = {L, L, Z, L, L};
    static const float no_move_numbers[] = {3, 4, 0, 0, 5, 5, 5, 6};
    /* A second close adds nothing, and the line after it goes on from the start. */
    static const uint8_t closes[] = {M, L, Z, Z, L};
    static const float closes_numbers[] = {1, 1, 1, 3, 4, 5};
    static const uint8_t every_kind[] = {M, Q, C, L, Z};
    static const float every_kind_numbers[] = {0, 0, 10, 20, 30, 0, 30, 10, 20, 30, 0, 0, 0, 1};
    static const uint8_t curves[] = {C, Q, Z, Z};
    static const float curves_numbers[] = {1, 2, 3, 4, 3, 4, 3, 4, 3, 5};
    /* Lines that add nothing come after one that does. */
    static const uint8_t stays[] = {M, L, L, M, L};
    static const float stays_numbers[] = {0, 0, 3, 4, 3, 4, 9, 9, 9, 9};
    /* Beside a long line three short ones are rounded away, one by one. */
    static const uint8_t rounded[] = {M, L, L, L, L};
    static const float rounded_numbers[] = {0, 0, LIMIT, 0, LIMIT, 0.25f, LIMIT, 0.5f, LIMIT, 0.75f};
    static const uint8_t limits[] = {M, L, L};
    static const float limits_numbers[] = {-LIMIT, LIMIT, LIMIT, LIMIT, LIMIT, -LIMIT};

    measured("no commands", rectangle, 0, none, 0);
    measured("rectangle 3 by 4", rectangle, 5, rectangle_numbers, 14);
    measured("closed triangle", triangle, 5, triangle_numbers, 12);
    measured("a move alone", triangle, 1, triangle_numbers, 0);
    measured("no move", no_move, COUNT(no_move), no_move_numbers, 6);
    measured("two closes", closes, COUNT(closes), closes_numbers, 9);
    measured("every kind", every_kind, COUNT(every_kind), every_kind_numbers, 0x1.59160cp+6f);
    measured("curves without a move", curves, COUNT(curves), curves_numbers, 1);
    measured("lines of no length", stays, COUNT(stays), stays_numbers, 5);
    measured("lines that are rounded away", rounded, COUNT(rounded), rounded_numbers, LIMIT);
    measured("numbers at the limit", limits, 3, limits_numbers, 4 * LIMIT);
}

static void test_faults(void)
{
    static const uint8_t line[] = {M, L};
    static const uint8_t unlisted[] = {M, 5};
    static const uint8_t far_unlisted[] = {M, 255, L};
    static const uint8_t close[] = {Z};
    static const float good[] = {0, 0, 3, 4, 1, 1};
    static const float bad[] = {0, 0, 3, NAN, 0};
    static const float beyond[] = {0, PAST_LIMIT, 3, 4};
    static const float infinite[] = {-INFINITY, 0, 3, 4};

    faulty("a code that is not listed", unlisted, 2, good, 4, JENGAFIR_UNLISTED);
    faulty("such a code before missing numbers", far_unlisted, 3, good, 2, JENGAFIR_UNLISTED);
    faulty("a missing number", line, 2, good, 3, JENGAFIR_OUT_OF_BOUNDS);
    faulty("missing numbers before one that is none", line, 2, bad + 1, 3, JENGAFIR_OUT_OF_BOUNDS);
    faulty("no number at all", line, 2, good, 0, JENGAFIR_OUT_OF_BOUNDS);
    faulty("a number left over", line, 2, good, 5, JENGAFIR_OUT_OF_BOUNDS);
    faulty("a number left over after a close", close, 1, bad + 3, 1, JENGAFIR_OUT_OF_BOUNDS);
    faulty("a number without a command", close, 0, good, 1, JENGAFIR_OUT_OF_BOUNDS);
    faulty("a NaN", line, 2, bad, 4, JENGAFIR_OUT_OF_RANGE);
    faulty("a NaN before a number left over", line, 2, bad, 5, JENGAFIR_OUT_OF_RANGE);
    faulty("a number past the limit", line, 2, beyond, 4, JENGAFIR_OUT_OF_RANGE);
    faulty("an infinity", line, 2, infinite, 4, JENGAFIR_OUT_OF_RANGE);
    faulty("an infinity before a code that is not listed", unlisted, 2, infinite, 4, JENGAFIR_OUT_OF_RANGE);
}

/* A square of side 4. */
static void test_square(void)
{
    static const uint8_t square[] = {M, L, L, L, Z};
    static const float numbers[] = {0, 0, 4, 0, 4, 4, 0, 4};
    static const struct {
        float least;
        uint32_t reply;
        size_t read;
    } cases[] = {
        {0, YES, 0}, {-0.0f, YES, 0}, {SMALLEST_SUBNORMAL, YES, 2}, {4, YES, 2},         {4.5f, YES, 3},
        {8, YES, 3}, {12, YES, 4},    {12.000001f, YES, 5},         {16, YES, 5},        {16.000002f, NO, 5},
        {17, NO, 5}, {FLT_MAX, NO, 5},
    };

    measured("square", square, 5, numbers, 16);
    for (size_t i = 0; i < COUNT(cases); i++)
        expect_reply("square", square, 5, numbers, 8, cases[i].least, JENGAFIR_ACCEPTED, cases[i].reply,
                     cases[i].read);
}

/* Expects yes for 5 and the refusal for more: the first two commands are 5 long, and the fault comes after them. */
static void stopped(const char *call, const uint8_t *codes, size_t codes_len, const float *numbers, size_t numbers_len,
                    uint32_t refusal)
{
    faulty(call, codes, codes_len, numbers, numbers_len, refusal);
    expect_reply(call, codes, codes_len, numbers, numbers_len, 5, JENGAFIR_ACCEPTED, YES, 2);
    expect_reply(call, codes, codes_len, numbers, numbers_len, 5.5f, refusal, OLD_REPLY, 0);
}

/* What lies past the stopping place goes unseen. */
static void test_stops(void)
{
    static const uint8_t unlisted[] = {M, L, 77};
    static const uint8_t line[] = {M, L, L};
    static const uint8_t cubic[] = {M, L, C, 77};
    static const float good[] = {0, 0, 3, 4, 3, 5};
    static const float bad[] = {0, 0, 3, 4, NAN, NAN, NAN};
    static const float beyond[] = {0, 0, 3, 4, 1, -PAST_LIMIT};
    static const float infinite[] = {0, 0, 3, 4, INFINITY, 1};
    static const float in_line[] = {0, 0, 3, NAN, 3, 5};

    stopped("a code that is not listed after 5", unlisted, 3, bad, 5, JENGAFIR_UNLISTED);
    stopped("such a code without numbers after 5", unlisted, 3, good, 4, JENGAFIR_UNLISTED);
    stopped("a missing number after 5", line, 3, good, 5, JENGAFIR_OUT_OF_BOUNDS);
    stopped("missing numbers after 5, before such a code", cubic, 4, bad, 7, JENGAFIR_OUT_OF_BOUNDS);
    stopped("a NaN after 5", line, 3, bad, 6, JENGAFIR_OUT_OF_RANGE);
    stopped("a NaN after 5, before a number left over", line, 3, bad, 7, JENGAFIR_OUT_OF_RANGE);
    stopped("a number past the limit after 5", line, 3, beyond, 6, JENGAFIR_OUT_OF_RANGE);
    stopped("an infinity after 5", line, 3, infinite, 6, JENGAFIR_OUT_OF_RANGE);
    stopped("a number left over after 5", line, 2, good, 5, JENGAFIR_OUT_OF_BOUNDS);
    stopped("NaNs left over after 5", line, 2, bad, 7, JENGAFIR_OUT_OF_BOUNDS);
    faulty("a NaN in the line that would reach 5", line, 3, in_line, 6, JENGAFIR_OUT_OF_RANGE);
    expect_reply("a NaN in the line that would reach 5", line, 3, in_line, 6, 5, JENGAFIR_OUT_OF_RANGE, OLD_REPLY, 0);
    expect_reply("6 after all of it", line, 3, good, 6, 6, JENGAFIR_ACCEPTED, YES, 3);
}

/* 262,144 commands pass and one more does not, whatever it is. */
static void test_most_commands(void)
{
    static uint8_t codes[MOST_COMMANDS + 1];
    static float numbers[2 * MOST_COMMANDS];

    memset(codes, Z, sizeof codes);
    expect_length("the most closes", codes, MOST_COMMANDS, numbers, 0, JENGAFIR_ACCEPTED, 0);
    expect_command("the most closes", codes, MOST_COMMANDS, numbers, 0, MOST_COMMANDS - 1, JENGAFIR_ACCEPTED, 0, 0);
    expect_reply("the most closes", codes, MOST_COMMANDS, numbers, 0, 1, JENGAFIR_ACCEPTED, NO, MOST_COMMANDS);
    unread("the most closes", codes, MOST_COMMANDS, numbers, 0);
    refused("one close too many", codes, MOST_COMMANDS + 1, numbers, 0, JENGAFIR_TOO_MANY);
    memset(codes, 9, sizeof codes);
    refused("too many codes that are not listed", codes, MOST_COMMANDS + 1, numbers, 7, JENGAFIR_TOO_MANY);
    unread("the most codes that are not listed", codes, MOST_COMMANDS, numbers, 7);
    memset(codes, L, sizeof codes);
    for (size_t i = 0; i < COUNT(numbers); i++)
        numbers[i] = i % 4 == 3 ? 1 : 0;
    expect_length("the most lines", codes, MOST_COMMANDS, numbers, COUNT(numbers), JENGAFIR_ACCEPTED,
                  MOST_COMMANDS - 1);
    expect_command("the most lines", codes, MOST_COMMANDS, numbers, COUNT(numbers), MOST_COMMANDS - 1,
                   JENGAFIR_ACCEPTED, 2 * MOST_COMMANDS - 2, 2);
    expect_reply("the most lines", codes, MOST_COMMANDS, numbers, COUNT(numbers), MOST_COMMANDS - 1, JENGAFIR_ACCEPTED,
                 YES, MOST_COMMANDS);
    expect_reply("the most lines", codes, MOST_COMMANDS, numbers, COUNT(numbers), MOST_COMMANDS, JENGAFIR_ACCEPTED, NO,
                 MOST_COMMANDS);
    expect_reply("the most lines, and numbers of two", codes, MOST_COMMANDS, numbers, 4, 1, JENGAFIR_ACCEPTED, YES, 2);
}

/* What is drawn is measured as it stands in the buffers, and the places told are those of its numbers. */
static void test_drawn(void)
{
    static const float vertices[] = {0, 0, 0, 0, 0, 0, 3, 0, 0, 0, 0, 0, 3, 4, 0, 0, 0, 0};
    static const uint32_t row[] = {JENGAFIR_RC, 0, 0, 0, 0, 0};
    static const float rectangle[] = {0, 0, 3, 4, 0};
    uint8_t codes[8];
    float numbers[20];
    size_t n, m;

    jengafir_draw_path(1, vertices, COUNT(vertices), 3, codes, COUNT(codes), numbers, COUNT(numbers), &n, &m);
    expect_length("triangle as drawn", codes, n, numbers, m, JENGAFIR_ACCEPTED, 12);
    expect_command("triangle as drawn", codes, n, numbers, m, 2, JENGAFIR_ACCEPTED, 4, 2);
    expect_reply("triangle as drawn", codes, n, numbers, m, 7, JENGAFIR_ACCEPTED, YES, 3);
    jengafir_draw_item(row, 6, rectangle, 5, codes, COUNT(codes), numbers, COUNT(numbers), &n, &m);
    expect_length("rectangle as drawn", codes, n, numbers, m, JENGAFIR_ACCEPTED, 14);
    expect_command("rectangle as drawn", codes, n, numbers, m, 4, JENGAFIR_ACCEPTED, 8, 0);
    expect_reply("rectangle as drawn", codes, n, numbers, m, 14.5f, JENGAFIR_ACCEPTED, NO, 5);
}

int main(void)
{
    test_lengths();
    test_faults();
    test_square();
    test_stops();
    test_most_commands();
    test_drawn();
    if (wrong) {
        printf("%d of %d are wrong\n", wrong, compared);
        return 1;
    }
    printf("ok %d\n", compared);
    return 0;
}
