/* Calls the functions of the C interface that trim, on known trims and on faulty ones. */
#include "jengafir.h"

#include <math.h>
#include <stdio.h>
#include <string.h>

#define COUNT(list) (sizeof(list) / sizeof(list)[0])

/* What the places hold before a call. No trim here has such a number or mark. */
#define OLD_NUMBER -77.25f
#define OLD_MARK 55

static float places[8];
static size_t range_count;
static uint32_t whole;

static int compared = 0;
static int wrong = 0;

static void prepare(void)
{
    for (size_t i = 0; i < COUNT(places); i++)
        places[i] = OLD_NUMBER;
    range_count = 99;
    whole = OLD_MARK;
}

/* Holds a call's result, its count, its mark and every place against what is expected: so many numbers. */
static void expect(const char *call, uint32_t got, uint32_t refusal, size_t count, uint32_t mark, const float *xs,
                   size_t n)
{
    int same = got == refusal && range_count == count && whole == mark;
    for (size_t i = 0; i < COUNT(places); i++) {
        float x = i < n ? xs[i] : OLD_NUMBER;
        same = same && memcmp(&places[i], &x, sizeof x) == 0;
    }
    compared++;
    if (!same) {
        printf("%s: %u with %zu ranges, mark %u (%a %a %a %a %a %a); not %u with %zu, mark %u, or other numbers\n", call,
               (unsigned)got, range_count, (unsigned)whole, places[0], places[1], places[2], places[3], places[4],
               places[5], (unsigned)refusal, count, (unsigned)mark);
        wrong++;
    }
}

static uint32_t ranges(float start, float end, float offset)
{
    prepare();
    return jengafir_trim_ranges(start, end, offset, places, &range_count, &whole);
}

static void nothing(float start, float end, float offset)
{
    expect("nothing visible", ranges(start, end, offset), JENGAFIR_ACCEPTED, 0, 0, NULL, 0);
}

static void one(float start, float end, float offset, float a, float b, uint32_t mark)
{
    const float ends[] = {a, b};
    expect("one range", ranges(start, end, offset), JENGAFIR_ACCEPTED, 1, mark, ends, 2);
}

static void two(float start, float end, float offset, float a, float b)
{
    const float ends[] = {a, 1, 0, b};
    expect("two ranges", ranges(start, end, offset), JENGAFIR_ACCEPTED, 2, 0, ends, 4);
}

static void refused(float start, float end, float offset)
{
    expect("not finite", ranges(start, end, offset), JENGAFIR_OUT_OF_RANGE, 0, OLD_MARK, NULL, 0);
}

static void test_ranges(void)
{
    one(0, 100, 0, 0, 1, 1);
    one(25, 75, 0, 0.25f, 0.75f, 0);
    one(75, 25, 0, 0.25f, 0.75f, 0);
    two(0, 100, 90, 0.25f, 0.25f);
    two(0, 100, 180, 0.5f, 0.5f);
    one(25, 75, -0.0000001f, 0.25f, 0.75f, 0); /* the remainder is 360 itself */
    nothing(30, 30, 0);
    nothing(0, 0.01f, 0);
    one(0, 0.02f, 0, 0, 0x1.a36e2ep-13f, 0);
    one(0, 99.99f, 0, 0, 0x1.fff2e4p-1f, 0);
    one(0.01f, 100, 0, 0, 1, 1);
    one(50, 50.01f, 0, 0.5f, 0x1.000d1cp-1f, 0); /* one step apart is not always nothing */
    one(-0.0f, 50, -360, -0.0f, 0.5f, 0);
    one(-50, 150, 0, 0, 1, 1);
    one(-50, 150, 720, 0, 1, 1);
    two(0, 50, 270, 0.75f, 0.25f);
    two(0, 50, -90, 0.75f, 0.25f);
}

static void test_refusals(void)
{
    refused(NAN, 100, 0);
    refused(0, INFINITY, 0);
    refused(0, 100, -INFINITY);
    refused(NAN, NAN, NAN);
}

static const uint8_t rectangle[] = {JENGAFIR_MOVE, JENGAFIR_LINE, JENGAFIR_LINE, JENGAFIR_LINE, JENGAFIR_CLOSE};
static const float rectangle_numbers[] = {-1.5f, -2, 1.5f, -2, 1.5f, 2, -1.5f, 2};

static uint32_t lengths(float start, float end, float offset, uint8_t mode, const uint8_t *codes, size_t codes_len,
                        const float *numbers, size_t numbers_len)
{
    prepare();
    return jengafir_trim_lengths(start, end, offset, mode, codes, codes_len, numbers, numbers_len, places,
                                 &range_count, &whole);
}

/* Cuts the rectangle 3 by 4, whose length is 14. */
static uint32_t cut(float start, float end, float offset, uint8_t mode)
{
    return lengths(start, end, offset, mode, rectangle, 5, rectangle_numbers, 8);
}

static void test_lengths(void)
{
    static const float middle[] = {3.5f, 7, 3.5f};
    static const float all[] = {0, 14, 0};
    static const float late_and_early[] = {3.5f, 10.5f, 0, 0, 3.5f, 10.5f};
    static const float start_at_zero[] = {0, 7, 7};

    expect("middle", cut(25, 75, 0, 1), JENGAFIR_ACCEPTED, 1, 0, middle, 3);
    expect("middle, mode 2", cut(25, 75, 0, 2), JENGAFIR_ACCEPTED, 1, 0, middle, 3);
    expect("whole", cut(0, 100, 0, 1), JENGAFIR_ACCEPTED, 1, 1, all, 3);
    expect("two ranges", cut(0, 100, 90, 1), JENGAFIR_ACCEPTED, 2, 0, late_and_early, 6);
    expect("nothing visible", cut(30, 30, 0, 1), JENGAFIR_ACCEPTED, 0, 0, NULL, 0);
    /* The range starts at -0, and what lies before it is +0. */
    expect("start at -0", cut(-0.0f, 50, -360, 1), JENGAFIR_ACCEPTED, 1, 0, start_at_zero, 3);
}

static void test_length_refusals(void)
{
    static const uint8_t unlisted[] = {9};
    static const uint8_t line[] = {JENGAFIR_MOVE, JENGAFIR_LINE};
    static const float shortest[] = {0, 0, 0x1p-23f, 0};
    static const float longer[] = {0, 0, 0x1.000002p-23f, 0};
    static const float longer_cuts[] = {0, 0x1.000002p-23f, 0};

    expect("a NaN before the mode", cut(NAN, 75, 0, 0), JENGAFIR_OUT_OF_RANGE, 0, OLD_MARK, NULL, 0);
    expect("mode 0", cut(25, 75, 0, 0), JENGAFIR_UNLISTED, 0, OLD_MARK, NULL, 0);
    expect("mode 3", cut(25, 75, 0, 3), JENGAFIR_UNLISTED, 0, OLD_MARK, NULL, 0);
    expect("mode before the list", lengths(25, 75, 0, 255, rectangle, 5, rectangle_numbers, 7), JENGAFIR_UNLISTED, 0,
           OLD_MARK, NULL, 0);
    expect("a number missing", lengths(25, 75, 0, 1, rectangle, 5, rectangle_numbers, 7), JENGAFIR_OUT_OF_BOUNDS, 0,
           OLD_MARK, NULL, 0);
    expect("a code that is not listed", lengths(30, 30, 0, 1, unlisted, 1, rectangle_numbers, 0), JENGAFIR_UNLISTED, 0,
           OLD_MARK, NULL, 0);
    expect("no commands", lengths(25, 75, 0, 1, rectangle, 0, rectangle_numbers, 0), JENGAFIR_TOO_SHORT, 0, OLD_MARK,
           NULL, 0);
    expect("too short, nothing visible", lengths(30, 30, 0, 1, line, 2, shortest, 4), JENGAFIR_TOO_SHORT, 0, OLD_MARK,
           NULL, 0);
    expect("too short", lengths(0, 100, 0, 1, line, 2, shortest, 4), JENGAFIR_TOO_SHORT, 0, OLD_MARK, NULL, 0);
    expect("just long enough", lengths(0, 100, 0, 1, line, 2, longer, 4), JENGAFIR_ACCEPTED, 1, 1, longer_cuts, 3);
}

int main(void)
{
    test_ranges();
    test_refusals();
    test_lengths();
    test_length_refusals();
    if (wrong != 0) {
        printf("%d of %d wrong\n", wrong, compared);
        return 1;
    }
    printf("ok %d\n", compared);
    return 0;
}
