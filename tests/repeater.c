/* Calls the functions of the C interface about repeaters, on known ones and on faulty ones. */
#include "jengafir.h"

#include <math.h>
#include <stdio.h>
#include <string.h>

#define COUNT(list) (sizeof(list) / sizeof(list)[0])

/* What the places hold before a call. No answer here has such a number. */
#define OLD_COPY 7777
#define OLD_NUMBER -77.25f

/* The places of a repeater's numbers. */
enum { COPIES, OFFSET, ANCHOR_X, ANCHOR_Y, POSITION_X, POSITION_Y, SCALE_X, SCALE_Y, ROTATION, START, END };

static uint32_t order[4100];
static float matrix[9];
static size_t count;

static int compared = 0;
static int wrong = 0;

static void tell(const char *call, int same, uint32_t got, uint32_t refusal)
{
    compared++;
    if (!same) {
        printf("%s: %u with %zu entries; not %u, or other content\n", call, (unsigned)got, count, (unsigned)refusal);
        wrong++;
    }
}

/* Asks for the order in a buffer of this length, and expects so many copies, rising or falling. */
static void ordered(const char *call, const float *repeater, uint8_t mode, size_t length, uint32_t refusal, size_t n)
{
    for (size_t i = 0; i < COUNT(order); i++)
        order[i] = OLD_COPY;
    count = 9999;
    uint32_t got = jengafir_copy_order(repeater, mode, order, length, &count);
    int same = got == refusal && count == n;
    for (size_t i = 0; i < COUNT(order); i++) {
        size_t copy = i >= n ? OLD_COPY : mode == 1 ? i : n - 1 - i;
        same = same && order[i] == copy;
    }
    tell(call, same, got, refusal);
}

/* Asks for a copy in a buffer of this length, and expects n numbers. */
static void copied(const char *call, const float *repeater, size_t copy, size_t length, uint32_t refusal,
                   const float *numbers, size_t n)
{
    for (size_t i = 0; i < COUNT(matrix); i++)
        matrix[i] = OLD_NUMBER;
    count = 9999;
    uint32_t got = jengafir_copy_transform(repeater, 1, copy, matrix, length, &count);
    int same = got == refusal && count == n;
    for (size_t i = 0; i < COUNT(matrix); i++) {
        float x = i < n ? numbers[i] : OLD_NUMBER;
        same = same && memcmp(&matrix[i], &x, sizeof x) == 0;
    }
    tell(call, same, got, refusal);
}

static void shifted(const char *call, const float *repeater, size_t copy, float e, float f, float opacity)
{
    const float numbers[] = {1, 0, 0, 1, e, f, opacity};
    copied(call, repeater, copy, 9, JENGAFIR_ACCEPTED, numbers, 7);
}

/* Expects the numbers a, b, c and d of a copy that is turned, with no shift and opacity 1. */
static void turned(const char *call, const float *repeater, size_t copy, float a, float b, float c, float d)
{
    const float numbers[] = {a, b, c, d, 0, 0, 1};
    copied(call, repeater, copy, 9, JENGAFIR_ACCEPTED, numbers, 7);
}

static void refused(const char *call, const float *repeater, uint32_t refusal)
{
    ordered(call, repeater, 1, COUNT(order), refusal, 0);
    copied(call, repeater, 0, 9, refusal, NULL, 0);
}

/* Three copies, ten to the right each, from opacity 1 to 0. */
static const float row[] = {2.5f, 0, 0, 0, 10, 0, 100, 100, 0, 1, 0};

/* The row with one number changed. */
static const float *with(size_t place, float x)
{
    static float changed[11];
    memcpy(changed, row, sizeof changed);
    changed[place] = x;
    return changed;
}

/* Five copies that turn by so many degrees and do nothing else, with an offset. */
static const float *turning(float offset, float degrees)
{
    static float repeater[11];
    const float numbers[] = {5, offset, 0, 0, 0, 0, 100, 100, degrees, 1, 1};
    memcpy(repeater, numbers, sizeof repeater);
    return repeater;
}

static void test_orders(void)
{
    ordered("2.5 copies", row, 1, 9, JENGAFIR_ACCEPTED, 3);
    ordered("2.5 copies, reversed", row, 2, 9, JENGAFIR_ACCEPTED, 3);
    ordered("2.5 copies, mode 0", row, 0, 3, JENGAFIR_ACCEPTED, 3);
    ordered("2.5 copies, mode 255", row, 255, 3, JENGAFIR_ACCEPTED, 3);
    ordered("a buffer one short", row, 1, 2, JENGAFIR_BUFFER_TOO_SMALL, 0);
    ordered("no copies", with(COPIES, -1), 1, 0, JENGAFIR_ACCEPTED, 0);
    ordered("zero copies", with(COPIES, -0.0f), 1, 9, JENGAFIR_ACCEPTED, 0);
    ordered("a little more than 3 copies", with(COPIES, 3.0000002f), 1, 9, JENGAFIR_ACCEPTED, 4);
    ordered("the most copies", with(COPIES, 4096), 1, 4096, JENGAFIR_ACCEPTED, 4096);
    ordered("the most copies, reversed", with(COPIES, 4095.5f), 3, 4096, JENGAFIR_ACCEPTED, 4096);
}

static void test_copies(void)
{
    static const float grown[] = {2, 0, 0, 4, -10, -60, 1};
    static const float shrunk[] = {0.5f, 0, 0, 0.25f, 5, 15, 1};
    static const float doubling[] = {5, 0, 10, 20, 0, 0, 200, 400, -0.0f, 1, 1};
    static const float halving[] = {5, -1, 10, 20, 0, 0, 200, 400, 0, 1, 1};
    static const float growing[] = {200, 0, 0, 0, 0, 0, 1048576, 100, 0, 1, 1};
    const float *back = with(OFFSET, -1);

    shifted("copy 0", row, 0, 0, 0, 1);
    shifted("copy 1", row, 1, 10, 0, 0.5f);
    shifted("copy 2", row, 2, 20, 0, 0);
    shifted("offset -1, copy 0", back, 0, -10, 0, 1);
    shifted("offset -1, copy 1", back, 1, 0, 0, 0.5f);
    shifted("offset -1, copy 2", back, 2, 10, 0, 0);
    shifted("offset 0.5, copy 1", with(OFFSET, 0.5f), 1, 15, 0, 0.5f);
    shifted("offset 2^-23, copy 0", with(OFFSET, 0x1p-23f), 0, 0, 0, 1);
    copied("grown about an anchor", doubling, 1, 7, JENGAFIR_ACCEPTED, grown, 7);
    copied("shrunk about an anchor", halving, 0, 7, JENGAFIR_ACCEPTED, shrunk, 7);
    copied("a buffer one short", row, 0, 6, JENGAFIR_BUFFER_TOO_SMALL, NULL, 0);
    copied("no such copy", row, 3, 9, JENGAFIR_NO_SUCH_COPY, NULL, 0);
    copied("no such copy, before the buffer", row, (size_t)-1, 0, JENGAFIR_NO_SUCH_COPY, NULL, 0);
    copied("a burst", growing, 100, 9, JENGAFIR_NOT_FINITE, NULL, 0);
    copied("a burst before the buffer", growing, 100, 0, JENGAFIR_NOT_FINITE, NULL, 0);
}

static void test_turns(void)
{
    const float high = 0x1.bb67aep-1f; /* the f32 nearest to the sine of 60 degrees */

    turned("90 degrees, copy 0", turning(0, 90), 0, 1, 0, 0, 1);
    turned("90 degrees, copy 1", turning(0, 90), 1, 0, 1, -1, 0);
    turned("90 degrees, copy 2", turning(0, 90), 2, -1, 0, -0.0f, -1);
    turned("90 degrees, copy 4", turning(0, 90), 4, 1, -0.0f, 0, 1);
    turned("180 degrees", turning(0, 180), 1, -1, 0, -0.0f, -1);
    turned("30 degrees, copy 1", turning(0, 30), 1, 0.8660254f, 0.5f, -0.5f, 0.8660254f);
    turned("30 degrees, a step back", turning(-1, 30), 0, high, -0.5f, 0.5f, high);
    turned("-30 degrees", turning(0, -30), 1, high, -0.5f, 0.5f, high);
    turned("half a step of 60 degrees", turning(0.5f, 60), 0, high, 0.5f, -0.5f, high);
    turned("a turn and 30 degrees", turning(0, 390), 1, high, 0.5f, -0.5f, high);
    turned("the most degrees, which come to 256", turning(0, 1048576), 1, -0x1.ef74cp-3f, -0x1.f0ca9ap-1f,
           0x1.f0ca9ap-1f, -0x1.ef74cp-3f);
    ordered("90 degrees, the order", turning(0, 90), 2, 5, JENGAFIR_ACCEPTED, 5);
    copied("90 degrees, no such copy", turning(0, 90), 5, 9, JENGAFIR_NO_SUCH_COPY, NULL, 0);
    copied("90 degrees, a buffer one short", turning(0, 90), 1, 6, JENGAFIR_BUFFER_TOO_SMALL, NULL, 0);
}

/* An angle is rounded to sixteenths of a degree, half away from zero, before whole turns are taken off. */
static void test_rounded_angles(void)
{
    const float cosine = 0x1.ffffecp-1f, sine = 0x1.1df46p-10f; /* of one sixteenth */

    turned("a whole turn", turning(0, 360), 3, 1, 0, 0, 1);
    turned("a whole turn back", turning(-4, -360), 0, 1, 0, 0, 1);
    turned("359.97 degrees", turning(0, 359.97f), 3, 1, 0, 0, 1);
    turned("half a sixteenth", turning(0, 0x1p-5f), 1, cosine, sine, -sine, cosine);
    turned("half a sixteenth, a step back", turning(-1, 0x1p-5f), 0, cosine, -sine, sine, cosine);
    turned("half a step of a sixteenth", turning(0.5f, 0x1p-4f), 0, cosine, sine, -sine, cosine);
    turned("less than half a sixteenth", turning(0, 0x1.fffffep-6f), 4, 1, 0, 0, 1);
    turned("half a sixteenth less than a turn", turning(0, 359.96875f), 1, 1, 0, 0, 1);
    turned("half a sixteenth more than a turn", turning(0, 360.03125f), 1, cosine, sine, -sine, cosine);
}

/* Turned about an anchor, after a move; and a scale acts on a point before the turn. */
static void test_fans(void)
{
    static const float stack[] = {5, 0, 40, 120, 0, 0, 100, 100, 90, 1, 1};
    static const float stack_back[] = {5, -1, 40, 120, 10, 0, 100, 100, 90, 1, 1};
    static const float mirroring[] = {5, 0, 0, 0, 10, 0, -100, 200, 90, 1, 1};
    static const float growing[] = {200, 0, 0, 0, 0, 0, 1048576, 100, 90, 1, 1};
    static const float quarter[] = {0, 1, -1, 0, 160, 80, 1};
    static const float half[] = {-1, 0, -0.0f, -1, 80, 240, 1};
    static const float quarter_back[] = {0, -1, 1, 0, -90, 160, 1};
    static const float mirrored[] = {-0.0f, -1, -2, 0, 10, 0, 1};

    copied("a quarter about an anchor", stack, 1, 7, JENGAFIR_ACCEPTED, quarter, 7);
    copied("two quarters about an anchor", stack, 2, 7, JENGAFIR_ACCEPTED, half, 7);
    copied("a quarter back, and a move", stack_back, 0, 7, JENGAFIR_ACCEPTED, quarter_back, 7);
    copied("a mirror before the turn", mirroring, 1, 7, JENGAFIR_ACCEPTED, mirrored, 7);
    copied("a turned burst before the buffer", growing, 100, 0, JENGAFIR_NOT_FINITE, NULL, 0);
}

static void test_refusals(void)
{
    refused("more than the most copies", with(COPIES, 4096.0005f), JENGAFIR_TOO_MANY);
    refused("infinite copies", with(COPIES, INFINITY), JENGAFIR_TOO_MANY);
    refused("infinite copies below zero", with(COPIES, -INFINITY), JENGAFIR_OUT_OF_RANGE);
    refused("no number of copies", with(COPIES, NAN), JENGAFIR_OUT_OF_RANGE);
    refused("an offset over 4,096", with(OFFSET, -4096.0005f), JENGAFIR_TOO_MANY);
    refused("an infinite offset", with(OFFSET, -INFINITY), JENGAFIR_TOO_MANY);
    refused("an offset that is no number", with(OFFSET, NAN), JENGAFIR_OUT_OF_RANGE);
    refused("an anchor past the limit", with(ANCHOR_Y, 1048576.125f), JENGAFIR_OUT_OF_RANGE);
    refused("an opacity that is no number", with(END, NAN), JENGAFIR_OUT_OF_RANGE);
    refused("a rotation past the limit", with(ROTATION, 1048576.125f), JENGAFIR_OUT_OF_RANGE);
    refused("a rotation past the limit the other way", with(ROTATION, -1048576.125f), JENGAFIR_OUT_OF_RANGE);
    refused("an infinite rotation", with(ROTATION, INFINITY), JENGAFIR_OUT_OF_RANGE);
    refused("a rotation that is no number", with(ROTATION, NAN), JENGAFIR_OUT_OF_RANGE);
}

int main(void)
{
    test_orders();
    test_copies();
    test_turns();
    test_rounded_angles();
    test_fans();
    test_refusals();
    if (wrong != 0) {
        printf("%d of %d wrong\n", wrong, compared);
        return 1;
    }
    printf("ok %d\n", compared);
    return 0;
}
