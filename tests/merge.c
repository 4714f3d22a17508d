/* Calls the merge of the C interface on rows that join and on rows that do not, and compares all that each call leaves
   behind. */
#include "jengafir.h"

#include <math.h>
#include <stdio.h>
#include <string.h>

#define COUNT(list) (sizeof(list) / sizeof(list)[0])

/* What the buffers hold before a call. No answer here has such a code or number. */
#define OLD_CODE 0xee
#define OLD_NUMBER -77.25f

static uint8_t codes[1300];
static float numbers[2100];
static size_t codes_written, numbers_written;

static int compared = 0;
static int wrong = 0;

/* Numbers of rows: a square, a wider rectangle and a triangle, between numbers that are not finite, and a rectangle
   of which one number is past the limit. */
static const float items[] = {
    NAN, 0, 0, 2, 2, 0, INFINITY, 10, 0, 4, 2, 0, NAN,
    0, 0, 0, 0, 0, 0, 3, 0, 0, 0, 0, 0, 3, 4, 0, 0, 0, 0, NAN,
    1048576.125f, 0, 2, 2, 0,
};
#define ITEMS COUNT(items)
#define SQUARE_PLACE 1
#define WIDE_PLACE 7
#define TRIANGLE_PLACE 13
#define PAST_LIMIT_PLACE 32

/* Rows at depth 0 that are sources, and a letter for each in the expected answers. */
#define SQUARE {JENGAFIR_RC, 0, 0, 0, SQUARE_PLACE, 0}       /* S */
#define WIDE {JENGAFIR_RC, 0, 0, 0, WIDE_PLACE, 0}           /* W */
#define TRIANGLE {JENGAFIR_SH, 0, 0, 1, TRIANGLE_PLACE, 3}   /* T */
#define OPEN {JENGAFIR_SH, 0, 0, 0, TRIANGLE_PLACE, 3}       /* O */
#define ROUND {JENGAFIR_EL, 0, 0, 0, SQUARE_PLACE, 0}        /* R, the ellipse in the square */

/* Rows of a kind, which is not one of sh and mm or has mark 0, visible or hidden, at a depth. */
#define ROW(kind) {JENGAFIR_##kind, 0, 0, 0, 0, 0}
#define IN(depth, kind) {JENGAFIR_##kind, 0, depth, 0, 0, 0}
#define HIDDEN(kind) {JENGAFIR_##kind, 1, 0, 0, 0, 0}
#define HIDDEN_IN(depth, kind) {JENGAFIR_##kind, 1, depth, 0, 0, 0}
#define MERGE {JENGAFIR_MM, 0, 0, 1, 0, 0}
#define MODE(mode) {JENGAFIR_MM, 0, 0, mode, 0, 0}

/* The f32 nearest to 0.5522848. */
#define KAPPA 0.5522848f

#define MOST_ROWS 12

/* Rows until one of kind 0, and what the call answers: the letters of the joined sources, or a refusal. */
typedef struct {
    const char *call;
    uint32_t rows[MOST_ROWS][6];
    const char *joined;
    uint32_t refusal;
} Case;

/* The commands of the sources that are joined, one after the other. */
static uint8_t joined_codes[1300];
static float joined_numbers[2100];
static size_t joined_code_count, joined_number_count;

static void append(const uint8_t *cs, size_t n, const float *xs, size_t m)
{
    memcpy(joined_codes + joined_code_count, cs, n * sizeof *cs);
    memcpy(joined_numbers + joined_number_count, xs, m * sizeof *xs);
    joined_code_count += n;
    joined_number_count += m;
}

static void join(const char *letters)
{
    static const uint8_t closed[] = {JENGAFIR_MOVE, JENGAFIR_LINE, JENGAFIR_LINE, JENGAFIR_LINE, JENGAFIR_CLOSE};
    static const float square[] = {-1, -1, 1, -1, 1, 1, -1, 1};
    static const float wide[] = {8, -1, 12, -1, 12, 1, 8, 1};
    static const float triangle[] = {0, 0, 3, 0, 3, 4, 0, 0};
    static const uint8_t ellipse_codes[] = {JENGAFIR_MOVE,  JENGAFIR_CUBIC, JENGAFIR_CUBIC,
                                            JENGAFIR_CUBIC, JENGAFIR_CUBIC, JENGAFIR_CLOSE};
    static const float ellipse[] = {
        0, -1,
        KAPPA, -1, 1, -KAPPA, 1, 0,
        1, KAPPA, KAPPA, 1, 0, 1,
        -KAPPA, 1, -1, KAPPA, -1, 0,
        -1, -KAPPA, -KAPPA, -1, 0, -1,
    };
    joined_code_count = joined_number_count = 0;
    for (; *letters != '\0'; letters++)
        switch (*letters) {
        case 'S': append(closed, 5, square, 8); break;
        case 'W': append(closed, 5, wide, 8); break;
        case 'T': append(closed, 5, triangle, 8); break;
        case 'R': append(ellipse_codes, 6, ellipse, 26); break;
        default: append(closed, 3, triangle, 6); break;
        }
}

static int is_left_behind(void)
{
    if (codes_written != joined_code_count || numbers_written != joined_number_count)
        return 0;
    for (size_t i = 0; i < COUNT(codes); i++)
        if (codes[i] != (i < joined_code_count ? joined_codes[i] : OLD_CODE))
            return 0;
    for (size_t i = 0; i < COUNT(numbers); i++) {
        float x = i < joined_number_count ? joined_numbers[i] : OLD_NUMBER;
        if (memcmp(&numbers[i], &x, sizeof x) != 0)
            return 0;
    }
    return 1;
}

/* Calls with so many entries of rows and places of buffers, and expects the letters' commands or a refusal. */
static void merged(const char *call, const uint32_t *rows, size_t rows_len, size_t row_count, size_t codes_len,
                   size_t numbers_len, const char *letters, uint32_t refusal)
{
    memset(codes, OLD_CODE, sizeof codes);
    for (size_t i = 0; i < COUNT(numbers); i++)
        numbers[i] = OLD_NUMBER;
    codes_written = numbers_written = 99;
    uint32_t got = jengafir_merge(rows, rows_len, row_count, items, ITEMS, codes, codes_len, numbers, numbers_len,
                                  &codes_written, &numbers_written);
    join(letters);
    compared++;
    if (got != refusal || !is_left_behind()) {
        printf("%s: %u with %zu codes and %zu numbers; not %u with %zu and %zu, or other content\n", call,
               (unsigned)got, codes_written, numbers_written, (unsigned)refusal, joined_code_count,
               joined_number_count);
        wrong++;
    }
}

/* Joins into ample buffers, exactly full ones, and ones that are a code or a number short. */
static void joined(const char *call, const uint32_t *rows, size_t count, const char *letters)
{
    join(letters);
    size_t n = joined_code_count, m = joined_number_count;
    merged(call, rows, 6 * count, count, n + 7, m + 7, letters, JENGAFIR_ACCEPTED);
    merged(call, rows, 6 * count, count, n, m, letters, JENGAFIR_ACCEPTED);
    merged(call, rows, 6 * count, count, n - 1, m, "", JENGAFIR_BUFFER_TOO_SMALL);
    merged(call, rows, 6 * count, count, n, m - 1, "", JENGAFIR_BUFFER_TOO_SMALL);
    merged(call, rows, 6 * count, count, 0, 0, "", JENGAFIR_BUFFER_TOO_SMALL);
}

/* Expects a refusal, in ample buffers and in none. */
static void refused(const char *call, const uint32_t *rows, size_t rows_len, size_t row_count, uint32_t refusal)
{
    merged(call, rows, rows_len, row_count, COUNT(codes), COUNT(numbers), "", refusal);
    merged(call, rows, rows_len, row_count, 0, 0, "", refusal);
}

static size_t row_count_of(const Case *c)
{
    size_t count = 0;
    while (count < MOST_ROWS && c->rows[count][0] != 0)
        count++;
    return count;
}

static void run(const Case *cases, size_t count)
{
    for (size_t i = 0; i < count; i++) {
        const Case *c = &cases[i];
        size_t n = row_count_of(c);
        if (c->joined != NULL)
            joined(c->call, c->rows[0], n, c->joined);
        else
            refused(c->call, c->rows[0], 6 * n, n, c->refusal);
    }
}

static const Case joining[] = {
    {"two rectangles", {SQUARE, WIDE, MERGE}, "SW", 0},
    {"the other way round", {WIDE, SQUARE, MERGE}, "WS", 0},
    {"one source twice", {TRIANGLE, TRIANGLE, MERGE}, "TT", 0},
    {"paths and rectangles", {OPEN, SQUARE, TRIANGLE, WIDE, MERGE}, "OSTW", 0},
    {"two ellipses", {ROUND, ROUND, MERGE}, "RR", 0},
    {"ellipses among others", {ROUND, SQUARE, HIDDEN(EL), TRIANGLE, ROUND, MERGE, ROW(FL)}, "RSTR", 0},
    {"transforms between", {ROW(TR), SQUARE, ROW(TR), ROW(TR), WIDE, ROW(TR), MERGE}, "SW", 0},
    {"hidden shapes", {HIDDEN(SH), SQUARE, HIDDEN(RC), HIDDEN(EL), WIDE, HIDDEN(SR), MERGE}, "SW", 0},
    {"hidden paint", {HIDDEN(FL), SQUARE, HIDDEN(GS), HIDDEN(TM), WIDE, HIDDEN(OTHER), MERGE}, "SW", 0},
    {"a hidden merge", {SQUARE, {JENGAFIR_MM, 1, 0, 1, 0, 0}, WIDE, HIDDEN(MM), MERGE}, "SW", 0},
    {"a hidden source far off", {SQUARE, {JENGAFIR_RC, 1, 0, 0, UINT32_MAX, 0}, TRIANGLE, MERGE}, "ST", 0},
    {"a hidden path of too many vertices", {SQUARE, {JENGAFIR_SH, 1, 0, 1, 0, UINT32_MAX}, TRIANGLE, MERGE}, "ST", 0},

    {"a group of nothing", {SQUARE, ROW(GR), WIDE, MERGE}, "SW", 0},
    {"a group of transforms", {ROW(GR), IN(1, TR), IN(1, TR), SQUARE, WIDE, MERGE}, "SW", 0},
    {"a group of hidden rows", {SQUARE, WIDE, ROW(GR), HIDDEN_IN(1, RC), HIDDEN_IN(1, FL), MERGE}, "SW", 0},
    {"a group of groups", {SQUARE, ROW(GR), IN(1, GR), IN(2, GR), IN(1, GR), IN(2, TR), WIDE, MERGE}, "SW", 0},
    {"a hidden group of visible rows", {SQUARE, HIDDEN(GR), IN(1, RC), IN(1, MM), WIDE, MERGE}, "SW", 0},
    {"a hidden group of visible rows, nested",
     {SQUARE, ROW(GR), HIDDEN_IN(1, GR), IN(2, RC), IN(2, GR), IN(3, EL), IN(1, TR), WIDE, MERGE}, "SW", 0},
    {"a hidden merge in a group", {ROW(GR), {JENGAFIR_MM, 1, 1, 1, 0, 0}, SQUARE, WIDE, MERGE}, "SW", 0},
    {"the most depth",
     {ROW(GR), IN(1, GR), IN(2, GR), IN(3, GR), IN(4, GR), IN(5, GR), IN(6, GR), IN(7, GR), IN(8, TR), SQUARE, WIDE,
      MERGE}, "SW", 0},

    {"paint after it", {SQUARE, WIDE, MERGE, ROW(FL), ROW(ST), ROW(GF), ROW(GS), ROW(TR), ROW(TM), ROW(RP)}, "SW", 0},
    {"hidden rows after it",
     {SQUARE, WIDE, MERGE, HIDDEN(RC), HIDDEN(EL), HIDDEN(GR), IN(1, RC), HIDDEN(OTHER)}, "SW", 0},
    {"a merge after it", {SQUARE, WIDE, MERGE, MERGE}, "SW", 0},
    {"merges of any mode after it", {SQUARE, WIDE, MERGE, MODE(0), MODE(2), MODE(255)}, "SW", 0},
    {"a merge after a transform", {SQUARE, WIDE, MERGE, ROW(TR), MODE(2)}, "SW", 0},
    {"a merge after hidden rows",
     {SQUARE, WIDE, MERGE, HIDDEN(RC), HIDDEN(FL), HIDDEN(GR), IN(1, SH), MODE(2)}, "SW", 0},
    {"merges, then paint", {SQUARE, WIDE, MERGE, ROW(TR), MODE(3), ROW(TR), MODE(2), ROW(FL), ROW(ST)}, "SW", 0},
    {"a hidden merge after paint", {SQUARE, WIDE, MERGE, ROW(FL), HIDDEN(MM), ROW(ST)}, "SW", 0},
};

#define NO_MERGE NULL, JENGAFIR_NOT_MERGEABLE

static const Case not_joining[] = {
    {"no merge", {SQUARE, WIDE}, NO_MERGE},
    {"mode 0", {SQUARE, WIDE, MODE(0)}, NO_MERGE},
    {"mode 2", {SQUARE, WIDE, MODE(2)}, NO_MERGE},
    {"mode 255", {SQUARE, WIDE, MODE(255)}, NO_MERGE},
    {"only a hidden merge", {SQUARE, WIDE, {JENGAFIR_MM, 1, 0, 1, 0, 0}}, NO_MERGE},
    {"only a merge in a group", {SQUARE, WIDE, ROW(GR), {JENGAFIR_MM, 0, 1, 1, 0, 0}}, NO_MERGE},
    {"the merge alone", {MERGE}, NO_MERGE},
    {"one source", {SQUARE, MERGE}, NO_MERGE},
    {"one source and a hidden one", {SQUARE, HIDDEN(RC), MERGE}, NO_MERGE},
    {"one source and one after it", {SQUARE, MERGE, WIDE}, NO_MERGE},

    {"a fill before it", {SQUARE, ROW(FL), WIDE, MERGE}, NO_MERGE},
    {"a stroke before it", {ROW(ST), SQUARE, WIDE, MERGE}, NO_MERGE},
    {"a trim before it", {SQUARE, WIDE, ROW(TM), MERGE}, NO_MERGE},
    {"a repeater before it", {SQUARE, WIDE, ROW(RP), MERGE}, NO_MERGE},
    {"another item before it", {SQUARE, WIDE, ROW(OTHER), MERGE}, NO_MERGE},
    {"a merge of another mode before it", {SQUARE, MODE(2), WIDE, TRIANGLE, MERGE}, NO_MERGE},
    {"a later merge that would join", {SQUARE, MERGE, WIDE, TRIANGLE, MERGE}, NO_MERGE},

    {"a group with a source", {SQUARE, ROW(GR), IN(1, RC), WIDE, MERGE}, NO_MERGE},
    {"a group with a source after a hidden one", {SQUARE, ROW(GR), HIDDEN_IN(1, RC), IN(1, RC), WIDE, MERGE}, NO_MERGE},
    {"a group with a fill", {SQUARE, ROW(GR), IN(1, TR), IN(1, FL), WIDE, MERGE}, NO_MERGE},
    {"a group with a merge", {SQUARE, ROW(GR), IN(1, MM), WIDE, MERGE}, NO_MERGE},
    {"a group with an ellipse", {SQUARE, ROW(GR), IN(1, EL), WIDE, MERGE}, NO_MERGE},
    {"a source two deep", {SQUARE, ROW(GR), IN(1, GR), IN(2, RC), WIDE, MERGE}, NO_MERGE},
    {"a source after a group in a group", {SQUARE, ROW(GR), IN(1, GR), IN(2, TR), IN(1, RC), WIDE, MERGE}, NO_MERGE},
    {"a visible group in a group after a hidden one",
     {ROW(GR), HIDDEN_IN(1, GR), IN(2, RC), IN(1, GR), IN(2, RC), SQUARE, WIDE, MERGE}, NO_MERGE},

    {"a source after it", {SQUARE, WIDE, MERGE, TRIANGLE}, NO_MERGE},
    {"a source after it and paint", {SQUARE, WIDE, MERGE, ROW(FL), TRIANGLE}, NO_MERGE},
    {"an ellipse after it", {SQUARE, WIDE, MERGE, ROW(EL)}, NO_MERGE},
    {"a group after it", {SQUARE, WIDE, MERGE, ROW(GR)}, NO_MERGE},
    {"a group of hidden rows after it", {SQUARE, WIDE, MERGE, ROW(GR), HIDDEN_IN(1, RC)}, NO_MERGE},
    {"another item after it", {SQUARE, WIDE, MERGE, ROW(FL), ROW(OTHER)}, NO_MERGE},
    {"a merge after a fill", {SQUARE, WIDE, MERGE, ROW(FL), MODE(2)}, NO_MERGE},
    {"a merge after a trim and a transform", {SQUARE, WIDE, MERGE, ROW(TM), ROW(TR), MERGE}, NO_MERGE},
    {"a merge after a source", {SQUARE, WIDE, MERGE, TRIANGLE, MERGE}, NO_MERGE},
    {"a merge after a fill after a merge", {SQUARE, WIDE, MERGE, MODE(2), ROW(GF), HIDDEN(RC), MODE(2)}, NO_MERGE},
    {"a hidden merge between", {SQUARE, WIDE, MERGE, ROW(FL), HIDDEN(MM), MODE(2)}, NO_MERGE},
};

static const Case refusing[] = {
    {"kind 15", {SQUARE, WIDE, MERGE, {15, 0, 0, 0, 0, 0}}, NULL, JENGAFIR_UNLISTED},
    {"kind 257", {{257, 0, 0, 0, SQUARE_PLACE, 0}, WIDE, MERGE}, NULL, JENGAFIR_UNLISTED},
    {"hidden 2", {SQUARE, {JENGAFIR_TR, 2, 0, 0, 0, 0}, WIDE, MERGE}, NULL, JENGAFIR_UNLISTED},
    {"mark 2 of a path", {SQUARE, {JENGAFIR_SH, 0, 0, 2, TRIANGLE_PLACE, 3}, MERGE}, NULL, JENGAFIR_UNLISTED},
    {"mode 256", {SQUARE, WIDE, MERGE, MODE(256)}, NULL, JENGAFIR_UNLISTED},
    {"mode 257", {SQUARE, WIDE, MODE(257)}, NULL, JENGAFIR_UNLISTED},
    {"mark 1 of a rectangle", {SQUARE, {JENGAFIR_RC, 0, 0, 1, WIDE_PLACE, 0}, MERGE}, NULL, JENGAFIR_UNLISTED},
    {"mark 1 of a group", {SQUARE, WIDE, {JENGAFIR_GR, 0, 0, 1, 0, 0}, MERGE}, NULL, JENGAFIR_UNLISTED},
    {"count 1 of a rectangle", {SQUARE, {JENGAFIR_RC, 0, 0, 0, WIDE_PLACE, 1}, MERGE}, NULL, JENGAFIR_UNLISTED},
    {"count 1 of a merge", {SQUARE, WIDE, {JENGAFIR_MM, 0, 0, 1, 0, 1}}, NULL, JENGAFIR_UNLISTED},
    {"a hidden row with mark 1", {SQUARE, WIDE, {JENGAFIR_RC, 1, 0, 1, 0, 0}, MERGE}, NULL, JENGAFIR_UNLISTED},
    {"a row in a hidden group with count 1",
     {SQUARE, WIDE, HIDDEN(GR), {JENGAFIR_FL, 0, 1, 0, 0, 1}, MERGE}, NULL, JENGAFIR_UNLISTED},

    {"depth 9 of a hidden row", {SQUARE, WIDE, {JENGAFIR_TR, 1, 9, 0, 0, 0}, MERGE}, NULL, JENGAFIR_TOO_MANY},
    {"a depth far off", {SQUARE, WIDE, MERGE, {JENGAFIR_TR, 0, UINT32_MAX, 0, 0, 0}}, NULL, JENGAFIR_TOO_MANY},

    {"the first row in a group", {IN(1, RC), SQUARE, WIDE, MERGE}, NULL, JENGAFIR_BROKEN_NESTING},
    {"a hidden first row in a group", {HIDDEN_IN(1, RC), SQUARE, WIDE, MERGE}, NULL, JENGAFIR_BROKEN_NESTING},
    {"two deeper", {SQUARE, WIDE, ROW(GR), IN(2, TR), MERGE}, NULL, JENGAFIR_BROKEN_NESTING},
    {"in a rectangle", {SQUARE, IN(1, TR), WIDE, MERGE}, NULL, JENGAFIR_BROKEN_NESTING},
    {"in a merge, hidden", {SQUARE, WIDE, MERGE, HIDDEN_IN(1, FL)}, NULL, JENGAFIR_BROKEN_NESTING},
    {"in a transform in a group", {SQUARE, WIDE, ROW(GR), IN(1, TR), IN(2, TR), MERGE}, NULL, JENGAFIR_BROKEN_NESTING},

    {"one ellipse", {ROUND, MERGE}, NULL, JENGAFIR_NOT_MERGEABLE},
    {"an ellipse past the end", {SQUARE, {JENGAFIR_EL, 0, 0, 0, ITEMS - 3, 0}, MERGE}, NULL, JENGAFIR_OUT_OF_BOUNDS},
    {"an ellipse with a NaN", {SQUARE, ROW(EL), MERGE}, NULL, JENGAFIR_OUT_OF_RANGE},
    {"a polystar", {ROW(SR), SQUARE, MERGE}, NULL, JENGAFIR_UNSUPPORTED},
    {"no vertices", {SQUARE, {JENGAFIR_SH, 0, 0, 1, TRIANGLE_PLACE, 0}, MERGE}, NULL, JENGAFIR_EMPTY},
    {"1,025 vertices", {SQUARE, {JENGAFIR_SH, 0, 0, 1, 0, 1025}, MERGE}, NULL, JENGAFIR_TOO_MANY},
    {"1,024 vertices that are not there",
     {SQUARE, {JENGAFIR_SH, 0, 0, 1, 0, 1024}, MERGE}, NULL, JENGAFIR_OUT_OF_BOUNDS},
    {"past the end", {SQUARE, {JENGAFIR_RC, 0, 0, 0, ITEMS - 4, 0}, MERGE}, NULL, JENGAFIR_OUT_OF_BOUNDS},
    {"a place far off", {SQUARE, {JENGAFIR_RC, 0, 0, 0, UINT32_MAX, 0}, MERGE}, NULL, JENGAFIR_OUT_OF_BOUNDS},
    {"past the limit", {SQUARE, {JENGAFIR_RC, 0, 0, 0, PAST_LIMIT_PLACE, 0}, MERGE}, NULL, JENGAFIR_OUT_OF_RANGE},
    {"an infinity", {SQUARE, WIDE, {JENGAFIR_RC, 0, 0, 0, 2, 0}, MERGE}, NULL, JENGAFIR_OUT_OF_RANGE},
    {"a NaN", {{JENGAFIR_RC, 0, 0, 0, 0, 0}, SQUARE, MERGE}, NULL, JENGAFIR_OUT_OF_RANGE},
};

/* The sources of a fault each. */
#define NOT_DRAWN {JENGAFIR_SR, 0, 0, 0, UINT32_MAX, 0}
#define BARE {JENGAFIR_SH, 0, 0, 1, UINT32_MAX, 0}
#define LONG {JENGAFIR_SH, 0, 0, 1, UINT32_MAX, 1025}
#define FAR_OFF {JENGAFIR_RC, 0, 0, 0, UINT32_MAX, 0}
#define NO_NUMBER {JENGAFIR_RC, 0, 0, 0, 0, 0}

static const Case ordered[] = {
    {"2 before 4", {{15, 0, 0, 0, 0, 0}, SQUARE, {JENGAFIR_TR, 0, 9, 0, 0, 0}}, NULL, JENGAFIR_TOO_MANY},
    {"2 before 6", {IN(1, RC), {JENGAFIR_TR, 0, 9, 0, 0, 0}}, NULL, JENGAFIR_TOO_MANY},
    {"4 before 6", {IN(1, RC), IN(3, RC), {JENGAFIR_TR, 0, 0, 1, 0, 0}}, NULL, JENGAFIR_UNLISTED},
    {"4 before 7", {SQUARE, {JENGAFIR_TR, 0, 0, 1, 0, 0}}, NULL, JENGAFIR_UNLISTED},
    {"6 before 7", {SQUARE, IN(1, TR)}, NULL, JENGAFIR_BROKEN_NESTING},
    {"4 before a source", {NOT_DRAWN, NO_NUMBER, MERGE, {JENGAFIR_TR, 0, 0, 1, 0, 0}}, NULL, JENGAFIR_UNLISTED},
    {"6 before a source", {NOT_DRAWN, NO_NUMBER, MERGE, IN(1, TR)}, NULL, JENGAFIR_BROKEN_NESTING},
    {"7 before 5", {NOT_DRAWN, SQUARE, MERGE, ROW(OTHER)}, NULL, JENGAFIR_NOT_MERGEABLE},
    {"7 before 12", {FAR_OFF, MERGE}, NULL, JENGAFIR_NOT_MERGEABLE},
    {"7 before 3", {NO_NUMBER, NO_NUMBER, MODE(2)}, NULL, JENGAFIR_NOT_MERGEABLE},
    {"an earlier 5 before 1", {NOT_DRAWN, BARE, MERGE}, NULL, JENGAFIR_UNSUPPORTED},
    {"an earlier 1 before 5", {BARE, NOT_DRAWN, MERGE}, NULL, JENGAFIR_EMPTY},
    {"an earlier 2 before 1", {SQUARE, LONG, BARE, MERGE}, NULL, JENGAFIR_TOO_MANY},
    {"an earlier 12 before 3", {FAR_OFF, NO_NUMBER, MERGE}, NULL, JENGAFIR_OUT_OF_BOUNDS},
    {"an earlier 3 before 12", {NO_NUMBER, FAR_OFF, MERGE}, NULL, JENGAFIR_OUT_OF_RANGE},
    {"an earlier 3 before 5", {SQUARE, NO_NUMBER, NOT_DRAWN, MERGE}, NULL, JENGAFIR_OUT_OF_RANGE},
    {"an earlier 12 before 2", {FAR_OFF, LONG, MERGE}, NULL, JENGAFIR_OUT_OF_BOUNDS},
    {"a hidden fault before 3", {{JENGAFIR_EL, 1, 0, 0, 0, 0}, NO_NUMBER, SQUARE, MERGE}, NULL, JENGAFIR_OUT_OF_RANGE},
};

/* The number of rows, against what is lent. */
static void test_row_numbers(void)
{
    static const uint32_t rows[][6] = {SQUARE, WIDE, MERGE, TRIANGLE};
    static const uint32_t faulty_rest[][6] = {SQUARE, WIDE, MERGE, {15, 2, 9, 7, 0, 1}};
    static const uint32_t kind_0[][6] = {SQUARE, {0, 0, 0, 0, 0, 0}, WIDE, MERGE};
    static const uint32_t faulty[][6] = {{0, 2, 9, 7, 0, 1}};

    refused("no rows", rows[0], 24, 0, JENGAFIR_EMPTY);
    refused("no rows, and no entries", rows[0], 0, 0, JENGAFIR_EMPTY);
    refused("a short list", rows[0], 17, 3, JENGAFIR_OUT_OF_BOUNDS);
    refused("a list of nothing", rows[0], 0, 1, JENGAFIR_OUT_OF_BOUNDS);
    refused("2 before 12", rows[0], 24, 257, JENGAFIR_TOO_MANY);
    refused("a huge number of rows", rows[0], 24, SIZE_MAX / 6 + 2, JENGAFIR_TOO_MANY);
    refused("12 before 2 and 4", faulty[0], 5, 1, JENGAFIR_OUT_OF_BOUNDS);
    refused("kind 0", kind_0[0], 24, 4, JENGAFIR_UNLISTED);
    refused("all rows read", rows[0], 24, 4, JENGAFIR_NOT_MERGEABLE);
    refused("too few rows read", rows[0], 24, 2, JENGAFIR_NOT_MERGEABLE);
    merged("a rest that is not read", rows[0], 24, 3, 10, 16, "SW", JENGAFIR_ACCEPTED);
    merged("a faulty rest", faulty_rest[0], 24, 3, 10, 16, "SW", JENGAFIR_ACCEPTED);
    merged("a rest that is no row", rows[0], 19, 3, 10, 16, "SW", JENGAFIR_ACCEPTED);
}

/* 255 sources and a merge are the most rows. */
static void test_most_rows(void)
{
    static const uint32_t square[] = SQUARE, merge[] = MERGE, fill[] = ROW(FL);
    static uint32_t rows[257][6];
    static char letters[256];
    for (size_t i = 0; i < 255; i++) {
        memcpy(rows[i], square, sizeof square);
        letters[i] = 'S';
    }
    memcpy(rows[255], merge, sizeof merge);
    memcpy(rows[256], fill, sizeof fill);
    joined("256 rows", rows[0], 256, letters);
    refused("257 rows", rows[0], 6 * 257, 257, JENGAFIR_TOO_MANY);
}

/* 255 closed paths of 1,024 vertices are the longest answer, and a command list that the other calls read. */
static void test_longest(void)
{
    static const uint32_t path[] = {JENGAFIR_SH, 0, 0, 1, 0, 1024}, merge[] = MERGE;
    static uint32_t rows[256][6];
    static float vertices[6 * 1024];
    static uint8_t cs[255 * 1026];
    static float xs[255 * 2050];
    float length = OLD_NUMBER;
    for (size_t i = 0; i < 256; i++)
        memcpy(rows[i], i < 255 ? path : merge, sizeof path);
    for (size_t i = 0; i < 1024; i++) {
        vertices[6 * i] = i % 2 == 0 ? 1048576 : -1048576;
        vertices[6 * i + 1] = (float)i;
    }
    uint32_t got = jengafir_merge(rows[0], COUNT(rows) * 6, COUNT(rows), vertices, COUNT(vertices), cs, COUNT(cs), xs,
                                  COUNT(xs), &codes_written, &numbers_written);
    uint32_t read = jengafir_length(cs, codes_written, xs, numbers_written, &length);
    compared++;
    if (got != JENGAFIR_ACCEPTED || codes_written != COUNT(cs) || numbers_written != COUNT(xs) ||
        read != JENGAFIR_ACCEPTED) {
        printf("the longest answer: %u with %zu codes and %zu numbers, of length %u\n", (unsigned)got, codes_written,
               numbers_written, (unsigned)read);
        wrong++;
    }
}

int main(void)
{
    run(joining, COUNT(joining));
    run(not_joining, COUNT(not_joining));
    run(refusing, COUNT(refusing));
    run(ordered, COUNT(ordered));
    test_row_numbers();
    test_most_rows();
    test_longest();
    if (wrong != 0) {
        printf("%d of %d wrong\n", wrong, compared);
        return 1;
    }
    printf("ok %d\n", compared);
    return 0;
}
