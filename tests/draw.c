/* Calls the drawing functions of the C interface on known shapes, and compares all that each call leaves behind. */
#include "jengafir.h"

#include <math.h>
#include <stdio.h>
#include <string.h>

#define COUNT(list) (sizeof(list) / sizeof(list)[0])

/* Numbers that the library's limit for shapes lets pass, and the next one. */
#define LIMIT 1048576.0f
#define PAST_LIMIT 1048576.125f

/* The buffers, larger than what any call here is lent. */
static uint8_t codes[1040];
static float numbers[6200];
static size_t codes_written, numbers_written;

/* What the buffers hold before a call. No drawing here has such a code or number. */
#define OLD_CODE 0xee
#define OLD_NUMBER -77.25f

static int compared = 0;
static int wrong = 0;

static void prepare(void)
{
    for (size_t i = 0; i < COUNT(codes); i++)
        codes[i] = OLD_CODE;
    for (size_t i = 0; i < COUNT(numbers); i++)
        numbers[i] = OLD_NUMBER;
    codes_written = numbers_written = 99;
}

static int same_number(float x, float y)
{
    return memcmp(&x, &y, sizeof x) == 0;
}

static int is_left_behind(const uint8_t *cs, size_t n, const float *xs, size_t m)
{
    if (codes_written != n || numbers_written != m)
        return 0;
    for (size_t i = 0; i < COUNT(codes); i++)
        if (codes[i] != (i < n ? cs[i] : OLD_CODE))
            return 0;
    for (size_t i = 0; i < COUNT(numbers); i++)
        if (!same_number(numbers[i], i < m ? xs[i] : OLD_NUMBER))
            return 0;
    return 1;
}

/* Holds a call's result, its counts and every place of both buffers against n codes and m numbers. */
static void expect(const char *call, uint32_t got, uint32_t refusal, const uint8_t *cs, size_t n, const float *xs,
                   size_t m)
{
    compared++;
    if (got != refusal || !is_left_behind(cs, n, xs, m)) {
        printf("%s: %u with %zu codes and %zu numbers; not %u with %zu and %zu, or other content\n", call,
               (unsigned)got, codes_written, numbers_written, (unsigned)refusal, n, m);
        wrong++;
    }
}

static uint32_t draw_path(uint32_t closed, const float *vertices, size_t length, size_t count, size_t codes_len,
                          size_t numbers_len)
{
    prepare();
    return jengafir_draw_path(closed, vertices, length, count, codes, codes_len, numbers, numbers_len, &codes_written,
                              &numbers_written);
}

static uint32_t draw_item(const uint32_t *row, size_t row_len, const float *items, size_t length, size_t codes_len,
                          size_t numbers_len)
{
    prepare();
    return jengafir_draw_item(row, row_len, items, length, codes, codes_len, numbers, numbers_len, &codes_written,
                              &numbers_written);
}

/* Expects a refusal, which leaves no counts and alters no place. */
static void refused(const char *call, uint32_t got, uint32_t refusal)
{
    expect(call, got, refusal, NULL, 0, NULL, 0);
}

/* Draws into ample buffers, exactly full ones, and ones that are a code or a number short. */
static void path_drawn(const char *call, uint32_t closed, const float *vertices, size_t count, const uint8_t *cs,
                       size_t n, const float *xs, size_t m)
{
    size_t length = 6 * count;
    expect(call, draw_path(closed, vertices, length, count, n + 7, m + 7), JENGAFIR_ACCEPTED, cs, n, xs, m);
    expect(call, draw_path(closed, vertices, length, count, n, m), JENGAFIR_ACCEPTED, cs, n, xs, m);
    refused(call, draw_path(closed, vertices, length, count, n - 1, m), JENGAFIR_BUFFER_TOO_SMALL);
    refused(call, draw_path(closed, vertices, length, count, n, m - 1), JENGAFIR_BUFFER_TOO_SMALL);
    refused(call, draw_path(closed, vertices, length, count, 0, 0), JENGAFIR_BUFFER_TOO_SMALL);
}

static void item_drawn(const char *call, const uint32_t *row, const float *items, size_t length, const uint8_t *cs,
                       size_t n, const float *xs, size_t m)
{
    expect(call, draw_item(row, 6, items, length, n + 7, m + 7), JENGAFIR_ACCEPTED, cs, n, xs, m);
    expect(call, draw_item(row, 6, items, length, n, m), JENGAFIR_ACCEPTED, cs, n, xs, m);
    refused(call, draw_item(row, 6, items, length, n - 1, m), JENGAFIR_BUFFER_TOO_SMALL);
    refused(call, draw_item(row, 6, items, length, n, m - 1), JENGAFIR_BUFFER_TOO_SMALL);
    refused(call, draw_item(row, 6, items, length, 0, 0), JENGAFIR_BUFFER_TOO_SMALL);
}

static const float triangle[] = {0, 0, 0, 0, 0, 0, 3, 0, 0, 0, 0, 0, 3, 4, 0, 0, 0, 0};
static const uint8_t triangle_codes[] = {JENGAFIR_MOVE, JENGAFIR_LINE, JENGAFIR_LINE, JENGAFIR_LINE, JENGAFIR_CLOSE};
static const float triangle_numbers[] = {0, 0, 3, 0, 3, 4, 0, 0};

static const uint8_t line_codes[] = {JENGAFIR_MOVE, JENGAFIR_LINE};
static const uint8_t cubic_codes[] = {JENGAFIR_MOVE, JENGAFIR_CUBIC};

static void test_paths(void)
{
    static const float point[] = {5, -6, 1, 1, 1, 1};
    static const float point_numbers[] = {5, -6, 5, -6};
    static const float line[] = {0, 0, 0, 0, 0, 0, 3, 4, 0, 0, 0, 0};
    static const float line_numbers[] = {0, 0, 3, 4};
    static const float short_tangent[] = {0, 0, 0, 0, 0.0001f, 0, 3, 4, 0, 0, 0, 0};
    static const float long_tangent[] = {0, 0, 0, 0, 0.0002f, 0, 3, 4, 0, 0, 0, 0};
    static const float long_numbers[] = {0, 0, 0.0002f, 0, 3, 4, 3, 4};
    static const float upright_tangent[] = {0, 0, 0, 0, 0, 0, 3, 4, 0, 0.0002f, 0, 0};
    static const float upright_numbers[] = {0, 0, 0, 0, 3, 4.0002f, 3, 4};
    /* Control points are rounded: beside so large a coordinate 0.01 is lost. */
    static const float lost_tangent[] = {LIMIT, 0, 0, 0, 0.01f, 0, 3, -LIMIT, 0, 0.01f, 0, 0};
    static const float lost_numbers[] = {LIMIT, 0, 3, -LIMIT};
    static const float curves[] = {1, 2, -1, 0, 1, 0.5f, 4, 8, 0, -2, 0, 2};
    static const float curves_numbers[] = {1, 2, 2, 2.5f, 4, 6, 4, 8, 4, 10, 0, 2, 1, 2};
    static const uint8_t curves_codes[] = {JENGAFIR_MOVE, JENGAFIR_CUBIC, JENGAFIR_CUBIC, JENGAFIR_CLOSE};

    path_drawn("closed triangle", 1, triangle, 3, triangle_codes, 5, triangle_numbers, 8);
    path_drawn("open triangle", 0, triangle, 3, triangle_codes, 3, triangle_numbers, 6);
    path_drawn("open line", 0, line, 2, line_codes, 2, line_numbers, 4);
    path_drawn("one vertex", 0, point, 1, line_codes, 2, point_numbers, 4);
    path_drawn("one vertex, closed", 1, point, 1, line_codes, 2, point_numbers, 4);
    path_drawn("tangent 0.0001", 0, short_tangent, 2, line_codes, 2, line_numbers, 4);
    path_drawn("tangent 0.0002", 0, long_tangent, 2, cubic_codes, 2, long_numbers, 8);
    path_drawn("tangent 0.0002 upright", 0, upright_tangent, 2, cubic_codes, 2, upright_numbers, 8);
    path_drawn("tangents that are lost", 0, lost_tangent, 2, line_codes, 2, lost_numbers, 4);
    path_drawn("two curves", 1, curves, 2, curves_codes, 4, curves_numbers, 14);
}

/* 1,024 vertices pass and 1,025 do not, though all of them are there. */
static void test_most_vertices(void)
{
    static float vertices[6 * 1025];
    static uint8_t cs[1024];
    static float xs[2 * 1024];
    for (size_t i = 0; i < 1025; i++)
        vertices[6 * i] = (float)i;
    for (size_t i = 0; i < 1024; i++) {
        cs[i] = i == 0 ? JENGAFIR_MOVE : JENGAFIR_LINE;
        xs[2 * i] = (float)i;
    }
    path_drawn("1,024 vertices", 0, vertices, 1024, cs, 1024, xs, 2048);
    refused("1,025 vertices", draw_path(0, vertices, COUNT(vertices), 1025, 1030, 6200), JENGAFIR_TOO_MANY);
    refused("a huge count", draw_path(0, vertices, COUNT(vertices), SIZE_MAX / 2 + 4, 1030, 6200), JENGAFIR_TOO_MANY);
}

/* A closed triangle with one number replaced. */
static uint32_t with_number(size_t place, float x)
{
    float vertices[COUNT(triangle)];
    memcpy(vertices, triangle, sizeof vertices);
    vertices[place] = x;
    return draw_path(1, vertices, COUNT(vertices), 3, 40, 40);
}

static void test_path_refusals(void)
{
    static const float at_limit[] = {LIMIT, -LIMIT, 0, 0, 0, 0, 9, 9, 9, 9, 9, NAN};
    static const float at_limit_numbers[] = {LIMIT, -LIMIT, LIMIT, -LIMIT};

    expect("the limit, and a rest that is not read", draw_path(1, at_limit, 12, 1, 9, 9), JENGAFIR_ACCEPTED,
           line_codes, 2, at_limit_numbers, 4);
    refused("no vertices", draw_path(1, triangle, 18, 0, 9, 9), JENGAFIR_EMPTY);
    refused("closed 2", draw_path(2, triangle, 18, 3, 9, 9), JENGAFIR_UNLISTED);
    refused("closed 256", draw_path(256, triangle, 18, 3, 9, 9), JENGAFIR_UNLISTED);
    refused("a short list", draw_path(1, triangle, 17, 3, 9, 9), JENGAFIR_OUT_OF_BOUNDS);
    refused("past the limit", with_number(0, PAST_LIMIT), JENGAFIR_OUT_OF_RANGE);
    refused("past the limit below", with_number(17, -PAST_LIMIT), JENGAFIR_OUT_OF_RANGE);
    refused("an infinity", with_number(9, INFINITY), JENGAFIR_OUT_OF_RANGE);
    refused("a NaN", with_number(9, NAN), JENGAFIR_OUT_OF_RANGE);

    refused("1 before 4", draw_path(2, triangle, 18, 0, 0, 0), JENGAFIR_EMPTY);
    refused("2 before 4", draw_path(2, triangle, 18, 1025, 0, 0), JENGAFIR_TOO_MANY);
    refused("4 before 12", draw_path(2, triangle, 17, 3, 0, 0), JENGAFIR_UNLISTED);
    refused("12 before 3", draw_path(1, at_limit, 12, 3, 0, 0), JENGAFIR_OUT_OF_BOUNDS);
    refused("3 before 11", draw_path(1, at_limit, 12, 2, 0, 0), JENGAFIR_OUT_OF_RANGE);
}

/* Numbers of rows: a rectangle 3 by 4, a rounded one 8 by 4, and a triangle, between numbers that are not finite. */
static const float items[] = {NAN, 0, 0, -3, -4, 0, 0, 0, 8, 4, 1, 0, 0, 0, 0, 0,
                              0,   3, 0, 0,  0,  0, 0, 3, 4, 0, 0, 0, 0, NAN};
#define ITEMS COUNT(items)

static void test_items(void)
{
    static const uint32_t rectangle[] = {JENGAFIR_RC, 0, 0, 0, 1, 0, 4};
    static const float rectangle_numbers[] = {-1.5f, -2, 1.5f, -2, 1.5f, 2, -1.5f, 2};
    static const uint32_t rounded[] = {JENGAFIR_RC, 1, 4000000000, 0, 6, 0};
    static const uint8_t rounded_codes[] = {
        JENGAFIR_MOVE, JENGAFIR_LINE,  JENGAFIR_CUBIC, JENGAFIR_LINE,  JENGAFIR_CUBIC,
        JENGAFIR_LINE, JENGAFIR_CUBIC, JENGAFIR_LINE,  JENGAFIR_CUBIC, JENGAFIR_CLOSE,
    };
    /* 3.55228472 is 3 and 1.55228472 is 1, each with 0.5522848 added. */
    static const float rounded_numbers[] = {
        -3, -2, 3, -2, 3.55228472f, -2, 4, -1.55228472f, 4, -1,
        4, 1, 4, 1.55228472f, 3.55228472f, 2, 3, 2,
        -3, 2, -3.55228472f, 2, -4, 1.55228472f, -4, 1,
        -4, -1, -4, -1.55228472f, -3.55228472f, -2, -3, -2,
    };
    static const uint32_t path[] = {JENGAFIR_SH, 0, 9, 1, 11, 3};
    static const uint32_t open_path[] = {JENGAFIR_SH, 1, 0, 0, 11, 3};

    item_drawn("rectangle 3 by 4", rectangle, items, ITEMS, triangle_codes, 5, rectangle_numbers, 8);
    item_drawn("rounded rectangle", rounded, items, ITEMS, rounded_codes, 10, rounded_numbers, 34);
    item_drawn("closed path", path, items, 29, triangle_codes, 5, triangle_numbers, 8);
    item_drawn("open path", open_path, items, 29, triangle_codes, 3, triangle_numbers, 6);
    expect("a row of seven entries", draw_item(rectangle, 7, items, ITEMS, 9, 9), JENGAFIR_ACCEPTED, triangle_codes, 5,
           rectangle_numbers, 8);
}

/* Rectangles whose sides or roundness show how each number is worked out. */
static void test_rectangles(void)
{
    static const uint32_t row[] = {JENGAFIR_RC, 0, 0, 0, 0, 0};
    static const float plain_numbers[] = {-4, -2, 4, -2, 4, 2, -4, 2};
    static const float negative[] = {0, 0, 8, 4, -1};
    static const float least[] = {0, 0, -8, 4, 0x1p-23f};
    /* Half of the smallest size is no float: rounded with the centre it is -0, and alone it would be lost. */
    static const float smallest[] = {0, 0, 0x1p-149f, 0x1p-149f, 1};
    static const float smallest_numbers[] = {-0.0f, -0.0f, 0x1p-149f, -0.0f, 0x1p-149f, 0x1p-149f, -0.0f, 0x1p-149f};
    /* The right side is left + width, which is not the centre and half the width. */
    static const float uneven[] = {1, 1, 0x1.8p-23f, 0x1.8p-23f, 0};
    static const float uneven_numbers[] = {0x1.fffffcp-1f, 0x1.fffffcp-1f, 1, 0x1.fffffcp-1f,
                                           1,              1,              0x1.fffffcp-1f, 1};

    item_drawn("roundness -1", row, negative, 5, triangle_codes, 5, plain_numbers, 8);
    item_drawn("roundness 2^-23", row, least, 5, triangle_codes, 5, plain_numbers, 8);
    item_drawn("the smallest size", row, smallest, 5, triangle_codes, 5, smallest_numbers, 8);
    item_drawn("uneven sides", row, uneven, 5, triangle_codes, 5, uneven_numbers, 8);
}

/* The f32 nearest to 0.5522848. */
#define KAPPA 0.5522848f

static const uint8_t ellipse_codes[] = {
    JENGAFIR_MOVE, JENGAFIR_CUBIC, JENGAFIR_CUBIC, JENGAFIR_CUBIC, JENGAFIR_CUBIC, JENGAFIR_CLOSE,
};

/* Ellipses worked by hand: from the top by right, bottom and left. */
static void test_ellipses(void)
{
    static const uint32_t row[] = {JENGAFIR_EL, 0, 0, 0, 0, 0};
    static const uint32_t hidden[] = {JENGAFIR_EL, 1, 4000000000, 0, 1, 0};
    static const float two_by_four[] = {0, 0, 2, 4};
    static const float two_by_four_numbers[] = {
        0, -2,
        KAPPA, -2, 1, -2 * KAPPA, 1, 0,
        1, 2 * KAPPA, KAPPA, 2, 0, 2,
        -KAPPA, 2, -1, 2 * KAPPA, -1, 0,
        -1, -2 * KAPPA, -KAPPA, -2, 0, -2,
    };
    /* The same by sides below 0, between numbers that are not read. */
    static const float below_zero[] = {NAN, 0, 0, -2, -4, INFINITY};
    /* A side of 0 is drawn, flat: 5.4477152 and 6.5522848 are 6 less and plus 0.5522848. */
    static const float flat[] = {5, 6, 0, -2};
    static const float flat_numbers[] = {
        5, 5,
        5, 5, 5, 5.4477152f, 5, 6,
        5, 6.5522848f, 5, 7, 5, 7,
        5, 7, 5, 6.5522848f, 5, 6,
        5, 5.4477152f, 5, 5, 5, 5,
    };
    /* An end keeps the centre's own sign, where a sum with a tangent of 0 loses it. */
    static const float point[] = {-0.0f, -0.0f, 0, -0.0f};
    static const float point_numbers[] = {
        -0.0f, -0.0f,
        0, -0.0f, 0, -0.0f, 0, -0.0f,
        0, 0, 0, 0, -0.0f, 0,
        -0.0f, 0, -0.0f, 0, -0.0f, -0.0f,
        -0.0f, -0.0f, -0.0f, -0.0f, -0.0f, -0.0f,
    };
    /* 13 units of 2^-149 have the half 6 and the tangent 3, and -6 and 7 on either side of the centre. */
    static const float tiny[] = {0, 0, 0xdp-149f, 0};
    static const float tiny_numbers[] = {
        0, 0,
        0x3p-149f, 0, 0x7p-149f, 0, 0x7p-149f, 0,
        0x7p-149f, 0, 0x3p-149f, 0, 0, 0,
        -0x3p-149f, 0, -0x6p-149f, 0, -0x6p-149f, 0,
        -0x6p-149f, 0, -0x3p-149f, 0, 0, 0,
    };

    item_drawn("ellipse 2 by 4", row, two_by_four, 4, ellipse_codes, 6, two_by_four_numbers, 26);
    item_drawn("hidden ellipse -2 by -4", hidden, below_zero, 6, ellipse_codes, 6, two_by_four_numbers, 26);
    item_drawn("flat ellipse", row, flat, 4, ellipse_codes, 6, flat_numbers, 26);
    item_drawn("ellipse without size", row, point, 4, ellipse_codes, 6, point_numbers, 26);
    item_drawn("ellipse of 13 units", row, tiny, 4, ellipse_codes, 6, tiny_numbers, 26);
}

typedef struct {
    const char *call;
    uint32_t row[6];
    uint32_t refusal;
} RefusedRow;

static const RefusedRow refused_rows[] = {
    {"kind 0", {0, 0, 0, 0, 0, 0}, JENGAFIR_UNLISTED},
    {"kind 5", {5, 0, 0, 0, 0, 0}, JENGAFIR_UNLISTED},
    {"kind 14", {14, 0, 0, 0, 0, 0}, JENGAFIR_UNLISTED},
    {"kind 257", {257, 0, 0, 0, 11, 3}, JENGAFIR_UNLISTED},
    {"hidden 2", {JENGAFIR_RC, 2, 0, 0, 0, 0}, JENGAFIR_UNLISTED},
    {"mark 2 of a path", {JENGAFIR_SH, 0, 0, 2, 11, 3}, JENGAFIR_UNLISTED},
    {"mark 1 of a rectangle", {JENGAFIR_RC, 0, 0, 1, 0, 0}, JENGAFIR_UNLISTED},
    {"count 1 of a rectangle", {JENGAFIR_RC, 0, 0, 0, 0, 1}, JENGAFIR_UNLISTED},
    {"mark 1 of an ellipse", {JENGAFIR_EL, 0, 0, 1, 1, 0}, JENGAFIR_UNLISTED},
    {"count 4 of an ellipse", {JENGAFIR_EL, 0, 0, 0, 1, 4}, JENGAFIR_UNLISTED},
    {"hidden 2 of an ellipse", {JENGAFIR_EL, 2, 0, 0, 1, 0}, JENGAFIR_UNLISTED},
    {"polystar", {JENGAFIR_SR, 1, 0, 0, 99, 0}, JENGAFIR_UNSUPPORTED},
    {"no vertices", {JENGAFIR_SH, 0, 0, 1, 11, 0}, JENGAFIR_EMPTY},
    {"1,025 vertices", {JENGAFIR_SH, 0, 0, 1, 11, 1025}, JENGAFIR_TOO_MANY},
    {"path past the end", {JENGAFIR_SH, 0, 0, 1, 13, 3}, JENGAFIR_OUT_OF_BOUNDS},
    {"rectangle past the end", {JENGAFIR_RC, 0, 0, 0, ITEMS - 4, 0}, JENGAFIR_OUT_OF_BOUNDS},
    {"ellipse past the end", {JENGAFIR_EL, 0, 0, 0, ITEMS - 3, 0}, JENGAFIR_OUT_OF_BOUNDS},
    {"ellipse at the end", {JENGAFIR_EL, 0, 0, 0, ITEMS, 0}, JENGAFIR_OUT_OF_BOUNDS},
    {"ellipse far off", {JENGAFIR_EL, 0, 0, 0, UINT32_MAX, 0}, JENGAFIR_OUT_OF_BOUNDS},
    {"a place far off", {JENGAFIR_RC, 0, 0, 0, UINT32_MAX, 0}, JENGAFIR_OUT_OF_BOUNDS},
    {"a NaN", {JENGAFIR_RC, 0, 0, 0, ITEMS - 5, 0}, JENGAFIR_OUT_OF_RANGE},
    {"a NaN of an ellipse", {JENGAFIR_EL, 0, 0, 0, ITEMS - 4, 0}, JENGAFIR_OUT_OF_RANGE},
    {"4 before 12 of an ellipse", {JENGAFIR_EL, 0, 0, 1, 99, 0}, JENGAFIR_UNLISTED},
    {"4 before 5", {JENGAFIR_SR, 0, 0, 1, 0, 0}, JENGAFIR_UNLISTED},
    {"5 before 12", {JENGAFIR_SR, 0, 0, 0, 99, 0}, JENGAFIR_UNSUPPORTED},
    {"4 before 1", {JENGAFIR_SH, 2, 0, 1, 11, 0}, JENGAFIR_UNLISTED},
    {"4 before 1, by the mark", {JENGAFIR_SH, 0, 0, 2, 11, 0}, JENGAFIR_UNLISTED},
    {"1 before 12", {JENGAFIR_SH, 0, 0, 1, 99, 0}, JENGAFIR_EMPTY},
    {"4 before 2", {JENGAFIR_SH, 0, 0, 2, 11, 1025}, JENGAFIR_UNLISTED},
    {"2 before 12", {JENGAFIR_SH, 0, 0, 1, 99, 1025}, JENGAFIR_TOO_MANY},
};

static void test_row_refusals(void)
{
    static const uint32_t rectangle[] = {JENGAFIR_RC, 0, 0, 0, 0, 0};
    static const uint32_t unlisted[] = {0, 2, 0, 2, 0, 0};

    for (size_t i = 0; i < COUNT(refused_rows); i++) {
        RefusedRow r = refused_rows[i];
        refused(r.call, draw_item(r.row, 6, items, ITEMS, 40, 40), r.refusal);
        refused(r.call, draw_item(r.row, 6, items, ITEMS, 0, 0), r.refusal);
    }
    refused("a row of five entries", draw_item(rectangle, 5, items, ITEMS, 40, 40), JENGAFIR_OUT_OF_BOUNDS);
    refused("a short row before 4", draw_item(unlisted, 5, items, ITEMS, 40, 40), JENGAFIR_OUT_OF_BOUNDS);
    refused("a row of no entries", draw_item(unlisted, 0, items, ITEMS, 40, 40), JENGAFIR_OUT_OF_BOUNDS);
}

#define MOST_VERTICES 1024

/* Vertices on a line, each with a tangent that comes in and one that goes out: every segment is a cubic. */
static float curly[6 * MOST_VERTICES];
static uint8_t curly_codes[MOST_VERTICES + 2];
static float curly_numbers[6 * MOST_VERTICES + 2];

static void make_curly_vertices(void)
{
    for (size_t i = 0; i < MOST_VERTICES; i++) {
        const float vertex[6] = {(float)i, 0, -0.5f, 2, 0.25f, -3};
        memcpy(curly + 6 * i, vertex, sizeof vertex);
    }
}

/* Writes the drawing of the first vertices, two or more, and tells how many codes and numbers it has. */
static void make_curly_drawing(uint32_t closed, size_t count, size_t *n, size_t *m)
{
    size_t segments = closed ? count : count - 1;
    curly_codes[0] = JENGAFIR_MOVE;
    curly_numbers[0] = curly_numbers[1] = 0;
    for (size_t i = 0; i < segments; i++) {
        float x = (float)i, next = (float)((i + 1) % count);
        const float cubic[6] = {x + 0.25f, -3, next - 0.5f, 2, next, 0};
        curly_codes[1 + i] = JENGAFIR_CUBIC;
        memcpy(curly_numbers + 2 + 6 * i, cubic, sizeof cubic);
    }
    curly_codes[1 + segments] = JENGAFIR_CLOSE;
    *n = 1 + segments + (closed ? 1 : 0);
    *m = 2 + 6 * segments;
}

/* A closed list of cubics has the most codes and numbers that its vertices can have. */
static void test_curly_paths(void)
{
    static const size_t counts[] = {2, 3, MOST_VERTICES};
    make_curly_vertices();
    for (uint32_t closed = 0; closed <= 1; closed++)
        for (size_t i = 0; i < COUNT(counts); i++) {
            size_t n, m;
            make_curly_drawing(closed, counts[i], &n, &m);
            path_drawn("curly path", closed, curly, counts[i], curly_codes, n, curly_numbers, m);
        }
}

#define FEW_VERTICES 6

/* Writes the segment between two vertices, whose tangents are zero or long, and gives how many numbers it has. */
static size_t make_segment(const float *a, const float *b, uint8_t *code, float *xs)
{
    const float cubic[6] = {a[0] + a[4], a[1] + a[5], b[0] + b[2], b[1] + b[3], b[0], b[1]};
    int straight = a[4] == 0 && a[5] == 0 && b[2] == 0 && b[3] == 0;
    *code = straight ? JENGAFIR_LINE : JENGAFIR_CUBIC;
    memcpy(xs, straight ? b : cubic, (straight ? 2 : 6) * sizeof *xs);
    return straight ? 2 : 6;
}

/* Vertices of which segment i, to the vertex after i or from the last to the first, is a line where bit i is set. */
static void make_mixed_vertices(unsigned lines, size_t count, float *vertices)
{
    for (size_t i = 0; i < count; i++) {
        const float vertex[6] = {3 * (float)i, (float)(i * i), 0.5f, -1, -0.25f, 2};
        memcpy(vertices + 6 * i, vertex, sizeof vertex);
    }
    for (size_t i = 0; i < count; i++)
        if (lines >> i & 1) {
            float *next = vertices + 6 * ((i + 1) % count);
            vertices[6 * i + 4] = vertices[6 * i + 5] = next[2] = next[3] = 0;
        }
}

/* Every order of lines and cubics, open and closed: no place after the last number is written, whatever went before. */
static void test_mixed_paths(void)
{
    float vertices[6 * FEW_VERTICES], xs[6 * FEW_VERTICES + 2];
    uint8_t cs[FEW_VERTICES + 2];
    for (size_t count = 2; count <= FEW_VERTICES; count++)
        for (unsigned lines = 0; lines < 1u << count; lines++)
            for (uint32_t closed = 0; closed <= 1; closed++) {
                size_t segments = closed ? count : count - 1, m = 2;
                make_mixed_vertices(lines, count, vertices);
                cs[0] = JENGAFIR_MOVE;
                memcpy(xs, vertices, 2 * sizeof *xs);
                for (size_t i = 0; i < segments; i++)
                    m += make_segment(vertices + 6 * i, vertices + 6 * ((i + 1) % count), cs + 1 + i, xs + m);
                cs[1 + segments] = JENGAFIR_CLOSE;
                path_drawn("lines and cubics", closed, vertices, count, cs, 1 + segments + closed, xs, m);
            }
}

/* Holds command k of what was drawn last against the segment between two vertices: code, numbers and their count. */
static void segment_written(const char *call, uint32_t got, size_t k, const float *a, const float *b)
{
    size_t start = 0, count = 0;
    uint8_t code;
    float xs[6];
    size_t m = make_segment(a, b, &code, xs);
    uint32_t found = jengafir_command(codes, codes_written, numbers, numbers_written, k, &start, &count);
    compared++;
    if (got != JENGAFIR_ACCEPTED || found != JENGAFIR_ACCEPTED || codes[k] != code || count != m
        || memcmp(numbers + start, xs, m * sizeof *xs) != 0) {
        printf("%s: command %zu is not the segment's\n", call, k);
        wrong++;
    }
}

/* Merges a closed list of three vertices with an open one of two, whose segment is then command 6. */
static uint32_t merge_with_three(const float *three, const float *two)
{
    static const uint32_t rows[] = {
        JENGAFIR_SH, 0, 0, 1, 0,  3, /* the three */
        JENGAFIR_SH, 0, 0, 0, 18, 2, /* the two */
        JENGAFIR_MM, 0, 0, 1, 0,  0,
    };
    float both[6 * 5];
    memcpy(both, three, 18 * sizeof *both);
    memcpy(both + 18, two, 12 * sizeof *both);
    prepare();
    return jengafir_merge(rows, COUNT(rows), 3, both, COUNT(both), codes, 40, numbers, 60, &codes_written,
                          &numbers_written);
}

/* Two vertices in lists of which all else differs, flag, count and call too: their segment is the same command. */
static void test_segments_alike(void)
{
    static const uint32_t row[] = {JENGAFIR_SH, 1, 7, 0, 12, 5};
    static const float pairs[][12] = {
        {1, 2, 9, 9, 0, 0, 4, 8, 0, 0, 7, 7},
        {1, 2, 9, 9, 0.5f, 0, 4, 8, 0, 0, 7, 7},
        {1, 2, 0, 0, 0, 0, 4, 8, 0, -2, 0, 0},
        {-0.0f, LIMIT, 1, 0, -0.0f, -1, -LIMIT, -0.0f, 3, -0.0f, 0, 1},
    };
    for (size_t i = 0; i < COUNT(pairs); i++) {
        const float *a = pairs[i], *b = pairs[i] + 6;
        float within[6 * 5], around[6 * 3], item_numbers[12 + 6 * 5] = {0};
        make_mixed_vertices(5, 5, within);
        memcpy(within + 6 * 2, pairs[i], sizeof pairs[i]);
        make_mixed_vertices(2, 3, around);
        memcpy(around, b, 6 * sizeof *b);
        memcpy(around + 6 * 2, a, 6 * sizeof *a);
        memcpy(item_numbers + 12, within, sizeof within);
        segment_written("two vertices", draw_path(0, a, 12, 2, 40, 40), 1, a, b);
        segment_written("within an open list", draw_path(0, within, COUNT(within), 5, 40, 40), 3, a, b);
        segment_written("at its end", draw_path(0, within, COUNT(within), 4, 40, 40), 3, a, b);
        segment_written("from the last to the first", draw_path(1, around, COUNT(around), 3, 40, 40), 3, a, b);
        segment_written("of a row", draw_item(row, 6, item_numbers, COUNT(item_numbers), 40, 40), 3, a, b);
        segment_written("of a merge", merge_with_three(around, a), 6, a, b);
    }
}

int main(void)
{
    test_paths();
    test_most_vertices();
    test_path_refusals();
    test_items();
    test_rectangles();
    test_ellipses();
    test_row_refusals();
    test_curly_paths();
    test_mixed_paths();
    test_segments_alike();
    if (wrong != 0) {
        printf("%d of %d wrong\n", wrong, compared);
        return 1;
    }
    printf("ok %d\n", compared);
    return 0;
}
