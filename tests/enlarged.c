/* Calls every function of the C interface that the promise about sizes names on a drawing and on the same drawing
   enlarged 2 to 64 times: results, replies, counts, codes, ranges, orders and opacities are the same, and coordinates,
   lengths, cut lengths and shifts are multiplied exactly, a zero keeping its sign. */
#include "jengafir.h"

#include <math.h>
#include <stdio.h>
#include <string.h>

#define COUNT(list) (sizeof(list) / sizeof(list)[0])

#define MOST_CODES 64
#define MOST_NUMBERS 256

static int compared = 0;
static int wrong = 0;

static void expect(int same, const char *call, int factor)
{
    compared++;
    if (!same) {
        printf("%s: not the same enlarged %d times\n", call, factor);
        wrong++;
    }
}

/* Whether each number of `large` is the f32 of just that product. */
static int multiplied(const float *small, const float *large, size_t count, int factor)
{
    for (size_t i = 0; i < count; i++) {
        float product = small[i] * (float)factor;
        if (memcmp(&product, &large[i], sizeof product) != 0)
            return 0;
    }
    return 1;
}

static void enlarge(const float *small, float *large, size_t count, int factor)
{
    for (size_t i = 0; i < count; i++)
        large[i] = small[i] * (float)factor;
}

typedef struct {
    uint32_t result;
    uint8_t codes[MOST_CODES];
    float numbers[MOST_NUMBERS];
    size_t code_count, number_count;
} Drawing;

static int same_drawing(const Drawing *small, const Drawing *large, int factor)
{
    return small->result == large->result && small->code_count == large->code_count &&
           small->number_count == large->number_count && memcmp(small->codes, large->codes, small->code_count) == 0 &&
           multiplied(small->numbers, large->numbers, small->number_count, factor);
}

/* Four vertices with tangents: zeros of both signs, the grid's smallest step, and its largest number. */
static const float vertices[] = {
    0,        -0.0f,     0,       0,      1.0f / 1024, 0,
    8192,     -8192,     -12.5f,  3.75f,  0,           0,
    -100.25f, 0.125f,    0,       0,      33,          -7.5f,
    640,      480.0625f, -64,     1,      -0.0f,       0,
};

/* A rectangle, a round one, vertices as a path, and two ellipses, of which one is flat and begins at -0. */
static const float items[] = {
    -8.5f, 16, 1023.5f,        -77.25f, 0,
    12,    34, 56.0f / 1024,   78,      5.5f,
    0,     0,  8192,           0,       0,    0,
    16,    0,  0,              0,       -3,   2,
    0,     16, 1.0f / 1024,    -2,      0,    0,
    640,   480.0625f, 8192,    -12.5f,
    -0.0f, 8191.0f / 1024, 0,  5.0f / 1024,
};

static const uint32_t rows[] = {
    JENGAFIR_RC, 0, 0, 0, 0,  0,
    JENGAFIR_RC, 1, 0, 0, 99, 0,
    JENGAFIR_RC, 0, 0, 0, 5,  0,
    JENGAFIR_SH, 0, 0, 1, 10, 3,
    JENGAFIR_EL, 0, 0, 0, 28, 0,
    JENGAFIR_EL, 0, 0, 0, 32, 0,
    JENGAFIR_MM, 0, 0, 1, 0,  0,
    JENGAFIR_TM, 0, 0, 0, 0,  0,
};

static void draw_path(uint32_t closed, const float *numbers, Drawing *drawing)
{
    drawing->result = jengafir_draw_path(closed, numbers, COUNT(vertices), COUNT(vertices) / 6, drawing->codes,
                                         MOST_CODES, drawing->numbers, MOST_NUMBERS, &drawing->code_count,
                                         &drawing->number_count);
}

static void draw_item(const uint32_t *row, const float *numbers, Drawing *drawing)
{
    drawing->result = jengafir_draw_item(row, 6, numbers, COUNT(items), drawing->codes, MOST_CODES, drawing->numbers,
                                         MOST_NUMBERS, &drawing->code_count, &drawing->number_count);
}

static void merge(size_t row_count, const float *numbers, Drawing *drawing)
{
    drawing->result = jengafir_merge(rows, COUNT(rows), row_count, numbers, COUNT(items), drawing->codes, MOST_CODES,
                                     drawing->numbers, MOST_NUMBERS, &drawing->code_count, &drawing->number_count);
}

/* Whether a need is that of a drawing: the result and both counts. */
static int is_need(const Drawing *drawing, uint32_t result, size_t code_count, size_t number_count)
{
    return result == drawing->result && code_count == drawing->code_count && number_count == drawing->number_count;
}

static int is_path_need(uint32_t closed, const float *numbers, const Drawing *drawing)
{
    size_t n, m;
    uint32_t result = jengafir_tray_need(closed, numbers, COUNT(vertices), COUNT(vertices) / 6, &n, &m);
    return is_need(drawing, result, n, m);
}

static int is_item_need(const uint32_t *row, const float *numbers, const Drawing *drawing)
{
    size_t n, m;
    uint32_t result = jengafir_item_need(row, 6, numbers, COUNT(items), &n, &m);
    return is_need(drawing, result, n, m);
}

static int is_merge_need(size_t row_count, const float *numbers, const Drawing *drawing)
{
    size_t n, m;
    uint32_t result = jengafir_merge_need(rows, COUNT(rows), row_count, numbers, COUNT(items), &n, &m);
    return is_need(drawing, result, n, m);
}

typedef struct {
    uint32_t result, reached;
    size_t commands_read;
} Reply;

static Reply length_reaches(const Drawing *drawing, float least)
{
    Reply reply = {9, 9, 9};
    reply.result = jengafir_length_reaches(drawing->codes, drawing->code_count, drawing->numbers,
                                           drawing->number_count, least, &reply.reached, &reply.commands_read);
    return reply;
}

/* The float above a number that is not negative. */
static float next_above(float x)
{
    uint32_t pattern;
    memcpy(&pattern, &x, sizeof x);
    pattern++;
    memcpy(&x, &pattern, sizeof x);
    return x;
}

/* Whether each is long enough, for parts of the length, what is just and far above it, and what is no length. */
static void reach(const Drawing *small, const Drawing *large, float length, int factor)
{
    const float least[] = {
        0, -0.0f, 0x1p-20f, length / 8, length * 0.3f, length / 2, length * 0.9f, length, next_above(length),
        0x1p120f, -0x1p-20f, -length, -0x1p127f, -INFINITY, INFINITY, NAN,
    };
    for (size_t i = 0; i < COUNT(least); i++) {
        Reply reply = length_reaches(small, least[i]), large_reply = length_reaches(large, least[i] * (float)factor);
        expect(reply.result == large_reply.result && reply.reached == large_reply.reached &&
                   reply.commands_read == large_reply.commands_read,
               "jengafir_length_reaches", factor);
    }
    /* Only a length whose multiple is infinite is another matter: it is not reached, and the multiple is no length. */
    Reply reply = length_reaches(small, 0x1p127f), large_reply = length_reaches(large, 0x1p127f * (float)factor);
    expect(reply.result == JENGAFIR_ACCEPTED && reply.reached == 0 && reply.commands_read == small->code_count &&
               large_reply.result == JENGAFIR_OUT_OF_RANGE,
           "jengafir_length_reaches, a multiple that is infinite", factor);
}

/* The calls that read a command list: the length, whether it is enough, each command's numbers, and the cut lengths of
   some trims. */
static void measure(const Drawing *small, const Drawing *large, int factor)
{
    static const float trims[][3] = {{0, 100, 0}, {25, 75, 0}, {0, 62.5f, -90}, {30, 30, 0}, {10.3f, 99.9f, 300.7f}};
    float length = 0, large_length = 0;
    uint32_t result = jengafir_length(small->codes, small->code_count, small->numbers, small->number_count, &length);
    uint32_t large_result =
        jengafir_length(large->codes, large->code_count, large->numbers, large->number_count, &large_length);
    expect(result == JENGAFIR_ACCEPTED && large_result == result && multiplied(&length, &large_length, 1, factor),
           "jengafir_length", factor);
    reach(small, large, length, factor);

    for (size_t k = 0; k <= small->code_count; k++) {
        size_t start, count, large_start, large_count;
        result = jengafir_command(small->codes, small->code_count, small->numbers, small->number_count, k, &start,
                                  &count);
        large_result = jengafir_command(large->codes, large->code_count, large->numbers, large->number_count, k,
                                        &large_start, &large_count);
        expect(result == large_result && start == large_start && count == large_count &&
                   multiplied(small->numbers + start, large->numbers + large_start, count, factor),
               "jengafir_command", factor);
    }

    for (size_t i = 0; i < COUNT(trims); i++) {
        const float *trim = trims[i];
        float cuts[6] = {0}, large_cuts[6] = {0};
        size_t ranges, large_ranges;
        uint32_t whole = 9, large_whole = 9;
        result = jengafir_trim_lengths(trim[0], trim[1], trim[2], 1, small->codes, small->code_count, small->numbers,
                                       small->number_count, cuts, &ranges, &whole);
        large_result = jengafir_trim_lengths(trim[0], trim[1], trim[2], 1, large->codes, large->code_count,
                                             large->numbers, large->number_count, large_cuts, &large_ranges,
                                             &large_whole);
        expect(result == JENGAFIR_ACCEPTED && large_result == result && ranges == large_ranges &&
                   whole == large_whole && multiplied(cuts, large_cuts, 6, factor),
               "jengafir_trim_lengths", factor);
    }
}

/* A repeater without a rotation, for which alone the promise is given. */
static void repeat(int factor)
{
    static const float offsets[] = {-1.5f, 0, 2};
    for (size_t i = 0; i < COUNT(offsets); i++) {
        float repeater[11] = {3.5f, offsets[i], 7, -9.5f, 10, 1.0f / 1024, 100, 100, 0, 1, 0.25f};
        float larger[11];
        uint32_t order[8], large_order[8];
        size_t count, large_count;
        memcpy(larger, repeater, sizeof larger);
        enlarge(repeater + 2, larger + 2, 4, factor);
        uint32_t result = jengafir_copy_order(repeater, 2, order, COUNT(order), &count);
        uint32_t large_result = jengafir_copy_order(larger, 2, large_order, COUNT(order), &large_count);
        expect(result == JENGAFIR_ACCEPTED && large_result == result && count == 4 && large_count == 4 &&
                   memcmp(order, large_order, count * sizeof *order) == 0,
               "jengafir_copy_order", factor);
        for (size_t copy = 0; copy <= count; copy++) {
            float matrix[7] = {0}, large_matrix[7] = {0};
            size_t entries, large_entries;
            result = jengafir_copy_transform(repeater, 2, copy, matrix, 7, &entries);
            large_result = jengafir_copy_transform(larger, 2, copy, large_matrix, 7, &large_entries);
            expect(result == large_result && result == (copy < count ? JENGAFIR_ACCEPTED : JENGAFIR_NO_SUCH_COPY) &&
                       entries == large_entries && memcmp(matrix, large_matrix, 4 * sizeof *matrix) == 0 &&
                       multiplied(matrix + 4, large_matrix + 4, 2, factor) && matrix[6] == large_matrix[6],
                   "jengafir_copy_transform", factor);
        }
    }
}

static void compare(const char *call, Drawing *small, Drawing *large, int factor)
{
    expect(same_drawing(small, large, factor), call, factor);
    if (small->result == JENGAFIR_ACCEPTED)
        measure(small, large, factor);
}

static void test_factor(int factor)
{
    static Drawing small, large;
    float larger_vertices[COUNT(vertices)], larger_items[COUNT(items)];
    enlarge(vertices, larger_vertices, COUNT(vertices), factor);
    enlarge(items, larger_items, COUNT(items), factor);
    for (uint32_t closed = 0; closed <= 2; closed++) {
        draw_path(closed, vertices, &small);
        draw_path(closed, larger_vertices, &large);
        compare("jengafir_draw_path", &small, &large, factor);
        expect(is_path_need(closed, vertices, &small) && is_path_need(closed, larger_vertices, &small),
               "jengafir_tray_need", factor);
    }
    for (size_t row = 0; row < COUNT(rows) / 6; row++) {
        draw_item(rows + 6 * row, items, &small);
        draw_item(rows + 6 * row, larger_items, &large);
        compare("jengafir_draw_item", &small, &large, factor);
        expect(is_item_need(rows + 6 * row, items, &small) && is_item_need(rows + 6 * row, larger_items, &small),
               "jengafir_item_need", factor);
    }
    for (size_t row_count = 0; row_count <= COUNT(rows) / 6; row_count++) {
        merge(row_count, items, &small);
        merge(row_count, larger_items, &large);
        compare("jengafir_merge", &small, &large, factor);
        expect(is_merge_need(row_count, items, &small) && is_merge_need(row_count, larger_items, &small),
               "jengafir_merge_need", factor);
    }
    repeat(factor);
}

/* A path of one step of the grid is long enough to be cut at every size; one that no grid has may become so. */
static void test_too_short(void)
{
    static const uint8_t codes[] = {JENGAFIR_MOVE, JENGAFIR_LINE};
    const float numbers[] = {0, 0, 0x1p-24f, 0}, larger[] = {0, 0, 0x1p-18f, 0};
    float cuts[6];
    size_t ranges;
    uint32_t whole;
    expect(jengafir_trim_lengths(0, 50, 0, 1, codes, 2, numbers, 4, cuts, &ranges, &whole) == JENGAFIR_TOO_SHORT,
           "too short", 1);
    expect(jengafir_trim_lengths(0, 50, 0, 1, codes, 2, larger, 4, cuts, &ranges, &whole) == JENGAFIR_ACCEPTED,
           "no longer too short", 64);
}

int main(void)
{
    for (int factor = 2; factor <= 64; factor *= 2)
        test_factor(factor);
    test_too_short();
    if (wrong != 0) {
        printf("%d of %d wrong\n", wrong, compared);
        return 1;
    }
    printf("ok %d\n", compared);
    return 0;
}
