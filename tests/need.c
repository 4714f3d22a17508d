/* Asks the C interface what drawings need of their buffers, of known inputs and of random ones. Each of them is then
   drawn into ample buffers, into ones of just that size, and into ones that are a code or a number short. */
#include "jengafir.h"

#include <math.h>
#include <stdio.h>
#include <string.h>

#define COUNT(list) (sizeof(list) / sizeof(list)[0])

/* A number that the library's limit for shapes lets pass, and the next one. */
#define LIMIT 1048576.0f
#define PAST_LIMIT 1048576.125f

#define MOST_VERTICES 1024
#define MOST_SOURCES 5

/* Buffers that are ample for every drawing here. */
static uint8_t codes[MOST_SOURCES * JENGAFIR_PATH_CODES(MOST_VERTICES)];
static float numbers[MOST_SOURCES * JENGAFIR_PATH_NUMBERS(MOST_VERTICES)];

/* What the places of the counts hold before a call, which no call says. */
#define OLD_COUNT 987654321

static int compared = 0;
static int wrong = 0;

/* So many wrong answers are printed, for there may be a million. */
#define MOST_TOLD 20

/* What is being compared, and which of the random ones it is, or 0. */
static const char *name;
static int trial = 0;

typedef struct {
    uint32_t refusal;
    size_t codes, numbers;
} Answer;

/* What one of the three drawing calls reads: a vertex list, a row, or the rows of a merge. */
typedef struct {
    enum { LIST, ROW, MERGE } kind;
    uint32_t closed;
    const uint32_t *rows;
    size_t rows_len;
    size_t count;
    const float *items;
    size_t items_len;
} Input;

static Input list(uint32_t closed, const float *vertices, size_t length, size_t count)
{
    return (Input){LIST, closed, NULL, 0, count, vertices, length};
}

static Input row(const uint32_t *entries, size_t entry_count, const float *items, size_t length)
{
    return (Input){ROW, 0, entries, entry_count, 1, items, length};
}

static Input merge(const uint32_t *rows, size_t rows_len, size_t row_count, const float *items, size_t length)
{
    return (Input){MERGE, 0, rows, rows_len, row_count, items, length};
}

/* What an input needs, as the call beside its drawing call tells. */
static Answer need_of(Input in)
{
    Answer a = {0, OLD_COUNT, OLD_COUNT};
    if (in.kind == LIST)
        a.refusal = jengafir_tray_need(in.closed, in.items, in.items_len, in.count, &a.codes, &a.numbers);
    else if (in.kind == ROW)
        a.refusal = jengafir_item_need(in.rows, in.rows_len, in.items, in.items_len, &a.codes, &a.numbers);
    else
        a.refusal =
            jengafir_merge_need(in.rows, in.rows_len, in.count, in.items, in.items_len, &a.codes, &a.numbers);
    return a;
}

static Answer drawn(Input in, size_t codes_len, size_t numbers_len)
{
    Answer a = {0, OLD_COUNT, OLD_COUNT};
    if (in.kind == LIST)
        a.refusal = jengafir_draw_path(in.closed, in.items, in.items_len, in.count, codes, codes_len, numbers,
                                       numbers_len, &a.codes, &a.numbers);
    else if (in.kind == ROW)
        a.refusal = jengafir_draw_item(in.rows, in.rows_len, in.items, in.items_len, codes, codes_len, numbers,
                                       numbers_len, &a.codes, &a.numbers);
    else
        a.refusal = jengafir_merge(in.rows, in.rows_len, in.count, in.items, in.items_len, codes, codes_len, numbers,
                                   numbers_len, &a.codes, &a.numbers);
    return a;
}

static void expect(const char *what, Answer got, Answer expected)
{
    compared++;
    if (got.refusal == expected.refusal && got.codes == expected.codes && got.numbers == expected.numbers)
        return;
    wrong++;
    if (wrong <= MOST_TOLD)
        printf("%s, %d, %s: %u with %zu codes and %zu numbers; not %u with %zu and %zu\n", name, trial, what,
               (unsigned)got.refusal, got.codes, got.numbers, (unsigned)expected.refusal, expected.codes,
               expected.numbers);
}

/* Holds the drawing of an input against its need: it is refused alike, or has just these codes and numbers. */
static void expect_drawn(Input in, Answer need)
{
    static const Answer too_small = {JENGAFIR_BUFFER_TOO_SMALL, 0, 0};
    expect("drawn", drawn(in, COUNT(codes), COUNT(numbers)), need);
    expect("drawn into its need", drawn(in, need.codes, need.numbers), need);
    if (need.refusal == JENGAFIR_ACCEPTED) {
        expect("a code short", drawn(in, need.codes - 1, COUNT(numbers)), too_small);
        expect("a number short", drawn(in, COUNT(codes), need.numbers - 1), too_small);
    } else {
        expect("refused", need, (Answer){need.refusal, 0, 0});
    }
}

/* Expects a need that is no more than what is always enough. */
static void expect_enough(Answer need, size_t n, size_t m)
{
    expect("always enough", need, (Answer){need.refusal, need.codes < n ? need.codes : n,
                                           need.numbers < m ? need.numbers : m});
}

/* Expects a need that is known. */
static void needs(const char *call, Input in, size_t n, size_t m)
{
    name = call;
    Answer need = need_of(in);
    expect("need", need, (Answer){JENGAFIR_ACCEPTED, n, m});
    expect_drawn(in, need);
}

static void refused(const char *call, Input in, uint32_t refusal)
{
    name = call;
    Answer need = need_of(in);
    expect("need", need, (Answer){refusal, 0, 0});
    expect_drawn(in, need);
}

/* A triangle, and the same with a tangent that goes out at its last vertex. */
static const float triangle[] = {0, 0, 0, 0, 0, 0, 3, 0, 0, 0, 0, 0, 3, 4, 0, 0, 0, 0};
static const float bent[] = {0, 0, 0, 0, 0, 0, 3, 0, 0, 0, 0, 0, 3, 4, 0, 0, 1, 0};

static void test_lists(void)
{
    static const float point[] = {5, -6, 1, 1, 1, 1};
    static const float short_tangent[] = {0, 0, 0, 0, 0.0001f, 0, 3, 4, 0, 0, 0, 0};
    static const float long_tangent[] = {0, 0, 0, 0, 0.0002f, 0, 3, 4, 0, 0, 0, 0};
    static const float upright_tangent[] = {0, 0, 0, 0, 0, 0, 3, 4, 0, -0.0002f, 0, 0};
    /* Beside so large a coordinate 0.01 is lost. */
    static const float lost_tangent[] = {LIMIT, 0, 0, 0, 0.01f, 0, 3, -LIMIT, 0, 0.01f, 0, 0};
    static const float with_rest[] = {LIMIT, -LIMIT, 0, 0, 0, 0, 9, 9, 9, 9, 9, NAN};

    needs("closed triangle with a tangent", list(1, bent, 18, 3), 5, 12);
    needs("open triangle with a tangent", list(0, bent, 18, 3), 3, 6);
    needs("closed triangle", list(1, triangle, 18, 3), 5, 8);
    needs("open triangle", list(0, triangle, 18, 3), 3, 6);
    needs("one vertex", list(0, point, 6, 1), 2, 4);
    needs("one vertex, closed", list(1, point, 6, 1), 2, 4);
    needs("tangent 0.0001", list(0, short_tangent, 12, 2), 2, 4);
    needs("tangent 0.0002", list(0, long_tangent, 12, 2), 2, 8);
    needs("tangent 0.0002, closed", list(1, long_tangent, 12, 2), 4, 10);
    needs("tangent -0.0002 upright", list(0, upright_tangent, 12, 2), 2, 8);
    needs("tangents that are lost", list(1, lost_tangent, 12, 2), 4, 6);
    needs("a rest that is not read", list(1, with_rest, 12, 1), 2, 4);
}

/* Vertices that are the same over and over, and one more than a list may have. */
static void repeat(float *vertices, const float vertex[6])
{
    for (size_t i = 0; i <= MOST_VERTICES; i++)
        memcpy(vertices + 6 * i, vertex, 6 * sizeof *vertex);
}

static void test_longest_lists(void)
{
    static const float curve[6] = {1, 2, -0.5f, 2, 0.25f, -3}, corner[6] = {1, 2, 0, 0, 0, 0};
    static float curves[6 * (MOST_VERTICES + 1)], lines[6 * (MOST_VERTICES + 1)];
    const size_t most = MOST_VERTICES, length = COUNT(curves);
    repeat(curves, curve);
    repeat(lines, corner);

    needs("1,024 curves, closed", list(1, curves, 6 * most, most), 1026, 6146);
    needs("as much as is ever enough", list(1, curves, length, most), JENGAFIR_PATH_CODES(most),
          JENGAFIR_PATH_NUMBERS(most));
    needs("1,024 curves, open", list(0, curves, length, most), 1024, 6140);
    needs("1,024 lines, closed", list(1, lines, length, most), 1026, 2050);
    needs("1,024 lines, open", list(0, lines, length, most), 1024, 2048);
    refused("1,025 vertices", list(1, curves, length, most + 1), JENGAFIR_TOO_MANY);
    refused("the largest count", list(0, lines, length, SIZE_MAX), JENGAFIR_TOO_MANY);
    /* Its low half is 1, and six times it is 6 for a product that wraps. */
    refused("a huge count", list(0, lines, length, SIZE_MAX / 2 + 2), JENGAFIR_TOO_MANY);
}

#define MOST_CUBICS 12
#define MOST_LINES 6

/* A list whose first segments are cubics, by one number of the tangent at either end, and whose others are lines. */
static void write_run(float *vertices, size_t cubics, size_t lines, size_t place)
{
    memset(vertices, 0, 6 * (cubics + lines + 1) * sizeof *vertices);
    for (size_t i = 0; i <= cubics + lines; i++)
        vertices[6 * i] = (float)i;
    for (size_t i = 0; i < cubics; i++)
        vertices[6 * (place < 4 ? i + 1 : i) + place] = 0.5f;
}

/* Cubics that a list begins with are passed over some at a time, so every number of them is tried. */
static void test_runs(void)
{
    static float vertices[6 * (MOST_CUBICS + MOST_LINES + 1)];
    for (size_t cubics = 0; cubics <= MOST_CUBICS; cubics++)
        for (size_t lines = cubics == 0; lines <= MOST_LINES; lines++)
            for (size_t place = 2; place < 6; place++) {
                size_t count = cubics + lines + 1, m = 2 + 6 * cubics + 2 * lines;
                write_run(vertices, cubics, lines, place);
                needs("a run of cubics, open", list(0, vertices, 6 * count, count), count, m);
                needs("a run of cubics, closed", list(1, vertices, 6 * count, count), count + 2, m + 2);
            }
}

/* A closed triangle with one number replaced. */
static void refused_number(const char *call, size_t place, float x)
{
    float vertices[COUNT(triangle)];
    memcpy(vertices, triangle, sizeof vertices);
    vertices[place] = x;
    refused(call, list(1, vertices, COUNT(vertices), 3), JENGAFIR_OUT_OF_RANGE);
}

static void test_list_refusals(void)
{
    static const float no_number[] = {NAN, 0, 0, 0, 0, 0, 3, 0, 0, 0, 0, 0};

    refused("no vertices", list(1, triangle, 18, 0), JENGAFIR_EMPTY);
    refused("closed 2", list(2, triangle, 18, 3), JENGAFIR_UNLISTED);
    refused("closed 256", list(256, triangle, 18, 3), JENGAFIR_UNLISTED);
    refused("a short list", list(1, triangle, 17, 3), JENGAFIR_OUT_OF_BOUNDS);
    refused("a list of nothing", list(1, triangle, 0, 1), JENGAFIR_OUT_OF_BOUNDS);
    refused_number("past the limit", 0, PAST_LIMIT);
    refused_number("past the limit below", 17, -PAST_LIMIT);
    refused_number("an infinity", 9, INFINITY);
    refused_number("a NaN", 16, NAN);

    refused("1 before 4 and 12", list(2, no_number, 0, 0), JENGAFIR_EMPTY);
    refused("2 before 4 and 12", list(2, no_number, 0, 1025), JENGAFIR_TOO_MANY);
    refused("4 before 12", list(2, no_number, 5, 1), JENGAFIR_UNLISTED);
    refused("4 before 3", list(2, no_number, 12, 2), JENGAFIR_UNLISTED);
    refused("12 before 3", list(1, no_number, 12, 3), JENGAFIR_OUT_OF_BOUNDS);
    refused("3 of one vertex", list(1, no_number, 12, 1), JENGAFIR_OUT_OF_RANGE);
}

/* Numbers of rows, between numbers that are not finite: a rectangle, the same with a radius, and the bent triangle. */
static const float items[] = {
    NAN, 0, 0, 8, 4, 0, INFINITY, 0, 0, 8, 4, 1, NAN,
    0, 0, 0, 0, 0, 0, 3, 0, 0, 0, 0, 0, 3, 4, 0, 0, 1, 0, NAN,
};
#define ITEMS COUNT(items)
#define PLAIN_PLACE 1
#define ROUND_PLACE 7
#define BENT_PLACE 13

/* Rows at depth 0 that are sources. */
#define PLAIN {JENGAFIR_RC, 0, 0, 0, PLAIN_PLACE, 0}
#define ROUND {JENGAFIR_RC, 0, 0, 0, ROUND_PLACE, 0}
#define OVAL {JENGAFIR_EL, 0, 0, 0, PLAIN_PLACE, 0}
#define BENT {JENGAFIR_SH, 0, 0, 1, BENT_PLACE, 3}
#define OPEN {JENGAFIR_SH, 0, 0, 0, BENT_PLACE, 3}

static void test_rows(void)
{
    static const uint32_t plain[] = PLAIN, rounded[] = ROUND, oval[] = OVAL, bent_path[] = BENT, open_path[] = OPEN;
    static const uint32_t hidden[] = {JENGAFIR_EL, 1, 4000000000, 0, PLAIN_PLACE, 0, 99};
    static const uint32_t first[] = {JENGAFIR_RC, 0, 0, 0, 0, 0};
    static const float least[] = {0, 0, 8, 4, 0x1p-23f}, above[] = {0, 0, 8, 4, 0x1.000002p-23f};
    static const float below_zero[] = {0, 0, 8, 4, -1}, flat[] = {0, 0, 8, 0, 4};

    needs("rectangle", row(plain, 6, items, ITEMS), 5, 8);
    needs("round rectangle", row(rounded, 6, items, ITEMS), 10, 34);
    needs("as much as is ever enough for it", row(rounded, 6, items, ITEMS), JENGAFIR_RECTANGLE_CODES,
          JENGAFIR_RECTANGLE_NUMBERS);
    needs("roundness 2^-23", row(first, 6, least, 5), 5, 8);
    needs("roundness above 2^-23", row(first, 6, above, 5), 10, 34);
    needs("roundness below 0", row(first, 6, below_zero, 5), 5, 8);
    needs("roundness without height", row(first, 6, flat, 5), 5, 8);
    needs("ellipse", row(oval, 6, items, ITEMS), 6, 26);
    needs("as much as is enough for it", row(oval, 6, items, ITEMS), JENGAFIR_ELLIPSE_CODES, JENGAFIR_ELLIPSE_NUMBERS);
    needs("hidden ellipse in a row of seven entries", row(hidden, 7, items, 5), 6, 26);
    needs("closed path", row(bent_path, 6, items, ITEMS), 5, 12);
    needs("open path", row(open_path, 6, items, ITEMS - 1), 3, 6);
}

typedef struct {
    const char *call;
    uint32_t row[6];
    uint32_t refusal;
} RefusedRow;

static const RefusedRow refused_rows[] = {
    {"kind 0", {0, 0, 0, 0, 1, 0}, JENGAFIR_UNLISTED},
    {"a group", {JENGAFIR_GR, 0, 0, 0, 1, 0}, JENGAFIR_UNLISTED},
    {"kind 257", {257, 0, 0, 1, BENT_PLACE, 3}, JENGAFIR_UNLISTED},
    {"hidden 2", {JENGAFIR_RC, 2, 0, 0, PLAIN_PLACE, 0}, JENGAFIR_UNLISTED},
    {"mark 2 of a path", {JENGAFIR_SH, 0, 0, 2, BENT_PLACE, 3}, JENGAFIR_UNLISTED},
    {"mark 1 of a rectangle", {JENGAFIR_RC, 0, 0, 1, PLAIN_PLACE, 0}, JENGAFIR_UNLISTED},
    {"count 1 of an ellipse", {JENGAFIR_EL, 0, 0, 0, PLAIN_PLACE, 1}, JENGAFIR_UNLISTED},
    {"polystar", {JENGAFIR_SR, 0, 0, 0, 1, 0}, JENGAFIR_UNSUPPORTED},
    {"no vertices", {JENGAFIR_SH, 0, 0, 1, BENT_PLACE, 0}, JENGAFIR_EMPTY},
    {"1,025 vertices", {JENGAFIR_SH, 0, 0, 1, BENT_PLACE, 1025}, JENGAFIR_TOO_MANY},
    {"a huge count", {JENGAFIR_SH, 0, 0, 1, BENT_PLACE, UINT32_MAX}, JENGAFIR_TOO_MANY},
    {"a path past the end", {JENGAFIR_SH, 0, 0, 1, ITEMS - 17, 3}, JENGAFIR_OUT_OF_BOUNDS},
    {"a rectangle past the end", {JENGAFIR_RC, 0, 0, 0, ITEMS - 4, 0}, JENGAFIR_OUT_OF_BOUNDS},
    {"an ellipse past the end", {JENGAFIR_EL, 0, 0, 0, ITEMS - 3, 0}, JENGAFIR_OUT_OF_BOUNDS},
    {"a place far off", {JENGAFIR_EL, 0, 0, 0, UINT32_MAX, 0}, JENGAFIR_OUT_OF_BOUNDS},
    {"a path with a NaN", {JENGAFIR_SH, 0, 0, 1, BENT_PLACE + 1, 3}, JENGAFIR_OUT_OF_RANGE},
    {"a rectangle with an infinity", {JENGAFIR_RC, 0, 0, 0, PLAIN_PLACE + 1, 0}, JENGAFIR_OUT_OF_RANGE},
    {"an ellipse with a NaN", {JENGAFIR_EL, 0, 0, 0, 0, 0}, JENGAFIR_OUT_OF_RANGE},
    {"4 before 5", {JENGAFIR_SR, 0, 0, 1, 1, 0}, JENGAFIR_UNLISTED},
    {"4 before 1", {JENGAFIR_SH, 2, 0, 1, 99, 0}, JENGAFIR_UNLISTED},
    {"4 before 2", {JENGAFIR_SH, 0, 0, 2, 99, 1025}, JENGAFIR_UNLISTED},
    {"4 before 12", {JENGAFIR_RC, 0, 0, 0, 99, 1}, JENGAFIR_UNLISTED},
    {"5 before 12", {JENGAFIR_SR, 0, 0, 0, 99, 0}, JENGAFIR_UNSUPPORTED},
    {"1 before 12", {JENGAFIR_SH, 0, 0, 1, 99, 0}, JENGAFIR_EMPTY},
    {"2 before 12", {JENGAFIR_SH, 0, 0, 1, 99, 1025}, JENGAFIR_TOO_MANY},
    {"12 before 3", {JENGAFIR_SH, 0, 0, 1, BENT_PLACE + 1, 4}, JENGAFIR_OUT_OF_BOUNDS},
};

static void test_row_refusals(void)
{
    static const uint32_t plain[] = PLAIN, unlisted[] = {0, 2, 0, 2, 0, 0};

    for (size_t i = 0; i < COUNT(refused_rows); i++)
        refused(refused_rows[i].call, row(refused_rows[i].row, 6, items, ITEMS), refused_rows[i].refusal);
    refused("a row of five entries", row(plain, 5, items, ITEMS), JENGAFIR_OUT_OF_BOUNDS);
    refused("a row of no entries", row(plain, 0, items, ITEMS), JENGAFIR_OUT_OF_BOUNDS);
    refused("a short row before 4", row(unlisted, 5, items, ITEMS), JENGAFIR_OUT_OF_BOUNDS);
}

/* Rows of a kind at a depth, with mark 0, visible or hidden. */
#define IN(depth, kind) {JENGAFIR_##kind, 0, depth, 0, 0, 0}
#define HIDDEN(depth, kind) {JENGAFIR_##kind, 1, depth, 0, UINT32_MAX, 0}
#define MERGED {JENGAFIR_MM, 0, 0, 1, 0, 0}

#define MOST_ROWS 12

/* Rows until one of kind 0, and what the call answers. */
typedef struct {
    const char *call;
    uint32_t rows[MOST_ROWS][6];
    Answer answer;
} Case;

#define NEEDS(n, m) {JENGAFIR_ACCEPTED, n, m}
#define REFUSED(refusal) {JENGAFIR_##refusal, 0, 0}

static const Case cases[] = {
    {"two rectangles", {PLAIN, ROUND, MERGED}, NEEDS(15, 42)},
    {"two ellipses", {OVAL, OVAL, MERGED}, NEEDS(12, 52)},
    {"two paths", {BENT, OPEN, MERGED}, NEEDS(8, 18)},
    {"one of each", {PLAIN, ROUND, OVAL, BENT, OPEN, MERGED}, NEEDS(29, 86)},
    {"hidden rows", {HIDDEN(0, EL), PLAIN, HIDDEN(0, FL), PLAIN, HIDDEN(0, SR), MERGED, HIDDEN(0, RC)}, NEEDS(10, 16)},
    {"empty groups", {IN(0, GR), PLAIN, IN(0, GR), IN(1, TR), HIDDEN(1, RC), PLAIN, IN(0, GR), MERGED}, NEEDS(10, 16)},
    {"a hidden group of sources", {PLAIN, HIDDEN(0, GR), IN(1, RC), IN(1, EL), BENT, MERGED}, NEEDS(10, 20)},
    {"transforms", {IN(0, TR), PLAIN, IN(0, TR), BENT, IN(0, TR), MERGED, IN(0, TR), IN(0, FL)}, NEEDS(10, 20)},

    {"depth 9", {PLAIN, PLAIN, {JENGAFIR_TR, 1, 9, 0, 0, 0}, MERGED}, REFUSED(TOO_MANY)},
    {"kind 15", {PLAIN, PLAIN, MERGED, {15, 0, 0, 0, 0, 0}}, REFUSED(UNLISTED)},
    {"mode 256", {PLAIN, PLAIN, MERGED, {JENGAFIR_MM, 0, 0, 256, 0, 0}}, REFUSED(UNLISTED)},
    {"a first row in a group", {IN(1, TR), PLAIN, PLAIN, MERGED}, REFUSED(BROKEN_NESTING)},
    {"in a rectangle", {PLAIN, IN(1, TR), PLAIN, MERGED}, REFUSED(BROKEN_NESTING)},
    {"no merge", {PLAIN, PLAIN}, REFUSED(NOT_MERGEABLE)},
    {"one source", {PLAIN, HIDDEN(0, RC), MERGED}, REFUSED(NOT_MERGEABLE)},
    {"a fill before it", {PLAIN, PLAIN, IN(0, FL), MERGED}, REFUSED(NOT_MERGEABLE)},
    {"a polystar", {PLAIN, IN(0, SR), MERGED}, REFUSED(UNSUPPORTED)},
    {"no vertices", {PLAIN, {JENGAFIR_SH, 0, 0, 1, 0, 0}, MERGED}, REFUSED(EMPTY)},
    {"1,025 vertices", {PLAIN, {JENGAFIR_SH, 0, 0, 1, 0, 1025}, MERGED}, REFUSED(TOO_MANY)},
    {"past the end", {PLAIN, {JENGAFIR_RC, 0, 0, 0, ITEMS - 4, 0}, MERGED}, REFUSED(OUT_OF_BOUNDS)},
    {"a NaN", {PLAIN, IN(0, EL), MERGED}, REFUSED(OUT_OF_RANGE)},

    {"2 before 4", {IN(0, OTHER), {15, 2, 0, 0, 0, 0}, {JENGAFIR_TR, 0, 9, 0, 0, 0}}, REFUSED(TOO_MANY)},
    {"4 before 6", {IN(1, RC), {JENGAFIR_TR, 0, 0, 1, 0, 0}}, REFUSED(UNLISTED)},
    {"6 before 7", {PLAIN, IN(1, TR)}, REFUSED(BROKEN_NESTING)},
    {"7 before a source", {IN(0, SR), IN(0, RC), MERGED, PLAIN}, REFUSED(NOT_MERGEABLE)},
    {"3 before a later 5", {PLAIN, IN(0, RC), IN(0, SR), MERGED}, REFUSED(OUT_OF_RANGE)},
    {"5 before a later 3", {PLAIN, IN(0, SR), IN(0, RC), MERGED}, REFUSED(UNSUPPORTED)},
};

static void test_merges(void)
{
    static const uint32_t rows[][6] = {PLAIN, BENT, MERGED, {15, 2, 9, 7, 0, 1}};

    for (size_t i = 0; i < COUNT(cases); i++) {
        size_t count = 0;
        while (count < MOST_ROWS && cases[i].rows[count][0] != 0)
            count++;
        Input in = merge(cases[i].rows[0], 6 * count, count, items, ITEMS);
        name = cases[i].call;
        expect("need", need_of(in), cases[i].answer);
        expect_drawn(in, cases[i].answer);
    }
    needs("a faulty rest that is not read", merge(rows[0], 24, 3, items, ITEMS), 10, 20);
    refused("no rows", merge(rows[0], 24, 0, items, ITEMS), JENGAFIR_EMPTY);
    refused("257 rows", merge(rows[0], 24, 257, items, ITEMS), JENGAFIR_TOO_MANY);
    refused("the largest number of rows", merge(rows[0], 24, SIZE_MAX, items, ITEMS), JENGAFIR_TOO_MANY);
    refused("a huge number of rows", merge(rows[0], 24, SIZE_MAX / 2 + 2, items, ITEMS), JENGAFIR_TOO_MANY);
    refused("a short list", merge(rows[0], 17, 3, items, ITEMS), JENGAFIR_OUT_OF_BOUNDS);
    refused("12 before 2", merge(rows[3], 5, 1, items, ITEMS), JENGAFIR_OUT_OF_BOUNDS);
}

/* Random numbers by xorshift, the same in every run. */
static uint64_t state = 20261117;

static uint32_t below(uint32_t n)
{
    state ^= state << 13;
    state ^= state >> 7;
    state ^= state << 17;
    return (uint32_t)(state >> 32) % n;
}

static int once_in(uint32_t n)
{
    return below(n) == 0;
}

static float of_bits(uint32_t bits)
{
    float x;
    memcpy(&x, &bits, sizeof x);
    return x;
}

static float either_sign(float x)
{
    return once_in(2) ? -x : x;
}

/* A float of a random size up to the limit, or a plain number of quarters. */
static float some_number(void)
{
    if (once_in(8))
        return either_sign(of_bits((100 + below(47)) << 23 | below(1 << 23)));
    return once_in(32) ? either_sign(LIMIT) : (float)below(8001) / 4 - 1000;
}

static float one_of(const float *choices, uint32_t count)
{
    return choices[below(count)];
}

/* Mostly around the length at which a line becomes a curve: the float nearest to 0.0001, and those beside it. */
static float some_tangent(void)
{
    switch (below(4)) {
    case 0: return 0;
    case 1: return some_number();
    default: return either_sign(of_bits(0x38d1b715 + below(5)));
    }
}

static void write_vertex(float *vertex, int has_tangents)
{
    for (size_t i = 0; i < 2; i++)
        vertex[i] = once_in(4) ? 0 : some_number();
    for (size_t i = 2; i < 6; i++)
        vertex[i] = has_tangents && !once_in(3) ? some_tangent() : 0;
}

/* Writes vertices of which none, all or a part have tangents. */
static void write_vertices(float *vertices, size_t count)
{
    uint32_t share = below(4);
    for (size_t i = 0; i < count; i++)
        write_vertex(vertices + 6 * i, below(3) < share);
}

/* How many vertices a path has: mostly few. */
static size_t some_count(void)
{
    return once_in(2000) ? 1 + below(MOST_VERTICES) : 1 + below(once_in(4) ? 8 : 4);
}

/* A number that every drawing refuses. */
static float no_number(void)
{
    static const float choices[] = {NAN, INFINITY, -INFINITY, PAST_LIMIT, -PAST_LIMIT};
    return one_of(choices, COUNT(choices));
}

/* How many lists, rows and merges are made. */
#define TRIALS 500000

/* One fault or several, so that their order shows. */
static Input faulty_list(Input in, float *vertices)
{
    static const size_t counts[] = {0, MOST_VERTICES + 1, SIZE_MAX, SIZE_MAX / 2 + 2};
    if (once_in(3))
        vertices[below((uint32_t)in.items_len)] = no_number();
    if (once_in(3))
        in.items_len -= 1 + below((uint32_t)in.items_len);
    if (once_in(3))
        in.closed = 2 + below(500);
    if (once_in(4))
        in.count = counts[below(COUNT(counts))];
    return in;
}

static void test_random_lists(void)
{
    static float vertices[6 * MOST_VERTICES + 1];
    name = "random list";
    for (trial = 1; trial <= TRIALS; trial++) {
        size_t count = some_count();
        Input in = list(below(2), vertices, 6 * count, count);
        write_vertices(vertices, count);
        vertices[6 * count] = NAN;
        if (once_in(16))
            in = faulty_list(in, vertices);
        Answer need = need_of(in);
        expect_drawn(in, need);
        if (need.refusal == JENGAFIR_ACCEPTED)
            expect_enough(need, JENGAFIR_PATH_CODES(count), JENGAFIR_PATH_NUMBERS(count));
    }
}

/* The numbers of random rows, which each have a number before theirs that is not read. */
static float some_items[MOST_SOURCES * (6 * MOST_VERTICES + 1) + 1];
static size_t some_items_len;

static void write_rectangle(float *rectangle)
{
    static const float choices[] = {0, -1, 1, 0x1p-23f, 0x1.fffffep-24f, 0x1.000002p-23f, 250, LIMIT};
    for (size_t i = 0; i < 4; i++)
        rectangle[i] = i > 1 && once_in(16) ? 0 : some_number();
    rectangle[4] = one_of(choices, COUNT(choices));
}

static void write_ellipse(float *ellipse)
{
    for (size_t i = 0; i < 4; i++)
        ellipse[i] = once_in(8) ? 0 : some_number();
}

/* Writes a row at depth 0 that can be drawn, and appends its numbers. */
static void write_source(uint32_t *entries, uint32_t hidden)
{
    uint32_t kind = JENGAFIR_SH + below(3), count = kind == JENGAFIR_SH ? (uint32_t)some_count() : 0;
    uint32_t place = (uint32_t)some_items_len + 1;
    const uint32_t written[] = {kind, hidden, 0, kind == JENGAFIR_SH ? below(2) : 0, place, count};
    float *numbers_of_row = some_items + place;
    memcpy(entries, written, sizeof written);
    some_items[some_items_len] = no_number();
    if (kind == JENGAFIR_SH)
        write_vertices(numbers_of_row, count);
    else if (kind == JENGAFIR_RC)
        write_rectangle(numbers_of_row);
    else
        write_ellipse(numbers_of_row);
    some_items_len = place + (kind == JENGAFIR_SH ? 6 * count : kind == JENGAFIR_RC ? 5 : 4);
}

/* Makes an entry another, which may be faulty. */
static void change_entry(uint32_t *entries, size_t count)
{
    static const uint32_t values[] = {0, 1, 2, 3, 4, 5, 9, 14, 15, 256, 1025, UINT32_MAX};
    entries[below((uint32_t)count)] = values[below(COUNT(values))];
}

static void expect_item_enough(const uint32_t *entries, Answer need)
{
    if (entries[0] == JENGAFIR_SH)
        expect_enough(need, JENGAFIR_PATH_CODES(entries[5]), JENGAFIR_PATH_NUMBERS(entries[5]));
    else if (entries[0] == JENGAFIR_RC)
        expect_enough(need, JENGAFIR_RECTANGLE_CODES, JENGAFIR_RECTANGLE_NUMBERS);
    else
        expect_enough(need, JENGAFIR_ELLIPSE_CODES, JENGAFIR_ELLIPSE_NUMBERS);
}

static void test_random_rows(void)
{
    name = "random row";
    for (trial = 1; trial <= TRIALS; trial++) {
        uint32_t entries[6];
        some_items_len = 0;
        write_source(entries, below(2));
        Input in = row(entries, 6, some_items, some_items_len);
        if (once_in(16))
            change_entry(entries, 6);
        if (once_in(64))
            in.rows_len = below(6);
        if (once_in(64))
            in.items_len -= 1 + below((uint32_t)some_items_len);
        if (once_in(64))
            some_items[below((uint32_t)some_items_len)] = no_number();
        Answer need = need_of(in);
        expect_drawn(in, need);
        if (need.refusal == JENGAFIR_ACCEPTED)
            expect_item_enough(entries, need);
    }
}

/* Rows that add nothing where they stand before a merge, and rows that may follow it. */
static const uint32_t before[][3][6] = {
    {IN(0, TR)}, {HIDDEN(0, RC)}, {HIDDEN(0, SR)}, {HIDDEN(0, FL)}, {HIDDEN(0, MM)}, {IN(0, GR)},
    {IN(0, GR), IN(1, TR)}, {IN(0, GR), HIDDEN(1, EL), HIDDEN(1, ST)}, {IN(0, GR), IN(1, GR), IN(2, TR)},
    {HIDDEN(0, GR), IN(1, RC), IN(1, SR)},
};
static const uint32_t after[][3][6] = {
    {IN(0, FL)}, {IN(0, TR), IN(0, ST)}, {HIDDEN(0, RC)}, {HIDDEN(0, GR), IN(1, EL)}, {IN(0, TM), IN(0, RP)},
};

/* The rows of a random merge, and which of them are its sources. Up to three rows stand before each, before the merge
   and after it. */
static uint32_t some_rows[4 * MOST_SOURCES + 7][6];
static size_t some_row_count;
static size_t sources[MOST_SOURCES], source_count;

static void append_rows(const uint32_t rows[3][6])
{
    for (size_t i = 0; i < 3 && rows[i][0] != 0; i++)
        memcpy(some_rows[some_row_count++], rows[i], sizeof rows[i]);
}

static void write_merge(void)
{
    static const uint32_t merged[6] = MERGED;
    size_t count = once_in(64) ? below(2) : 2 + below(MOST_SOURCES - 1);
    some_row_count = source_count = some_items_len = 0;
    while (source_count < count) {
        if (once_in(2))
            append_rows(before[below(COUNT(before))]);
        sources[source_count++] = some_row_count;
        write_source(some_rows[some_row_count++], 0);
    }
    if (once_in(4))
        append_rows(before[below(COUNT(before))]);
    memcpy(some_rows[some_row_count++], merged, sizeof merged);
    if (once_in(4))
        append_rows(after[below(COUNT(after))]);
    some_items[some_items_len++] = NAN;
}

/* The needs of the sources added up, or the first refusal of one. */
static Answer sum_of_needs(void)
{
    Answer sum = {JENGAFIR_ACCEPTED, 0, 0};
    for (size_t i = 0; i < source_count; i++) {
        Answer need = need_of(row(some_rows[sources[i]], 6, some_items, some_items_len));
        if (need.refusal != JENGAFIR_ACCEPTED)
            return need;
        sum.codes += need.codes;
        sum.numbers += need.numbers;
    }
    return sum;
}

/* An entry that is changed, rows that are not all there, or a number of rows that is not theirs. */
static Input faulty_merge(Input in)
{
    static const size_t counts[] = {0, 257, SIZE_MAX, SIZE_MAX / 2 + 2};
    if (once_in(2))
        change_entry(some_rows[0], in.rows_len);
    if (once_in(4))
        in.rows_len -= 1 + below(6);
    if (once_in(8))
        in.count = counts[below(COUNT(counts))];
    return in;
}

static void test_random_merges(void)
{
    name = "random merge";
    for (trial = 1; trial <= TRIALS; trial++) {
        write_merge();
        Input in = merge(some_rows[0], 6 * some_row_count, some_row_count, some_items, some_items_len);
        int has_sound_rows = !once_in(16) && source_count >= 2;
        if (once_in(32))
            some_items[below((uint32_t)some_items_len)] = no_number();
        if (!has_sound_rows)
            in = faulty_merge(in);
        Answer need = need_of(in);
        expect_drawn(in, need);
        if (has_sound_rows)
            expect("the needs of its sources", need, sum_of_needs());
    }
}

int main(void)
{
    test_lists();
    test_longest_lists();
    test_runs();
    test_list_refusals();
    test_rows();
    test_row_refusals();
    test_merges();
    test_random_lists();
    test_random_rows();
    test_random_merges();
    if (wrong != 0) {
        printf("%d of %d wrong\n", wrong, compared);
        return 1;
    }
    printf("ok %d\n", compared);
    return 0;
}
