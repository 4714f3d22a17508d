/* Calls each float function of the C interface on known bit patterns, and compares the patterns of the results. */
#include "jengafir.h"

#include <stdint.h>
#include <stdio.h>
#include <string.h>

#define COUNT(cases) (sizeof(cases) / sizeof(cases)[0])

/* The expected result for any NaN. */
#define ANY_NAN UINT32_C(0x7fc00000)

typedef struct {
    uint32_t x, result;
} One;

typedef struct {
    uint32_t x, y, result;
} Two;

typedef struct {
    uint32_t a, b, c, result;
} Three;

static int compared = 0;
static int wrong = 0;

static float of_bits(uint32_t bits)
{
    float x;
    memcpy(&x, &bits, sizeof x);
    return x;
}

static uint32_t bits_of(float x)
{
    uint32_t bits;
    memcpy(&bits, &x, sizeof bits);
    return bits;
}

static int is_nan(uint32_t bits)
{
    return (bits & UINT32_C(0x7fffffff)) > UINT32_C(0x7f800000);
}

static void compare(const char *call, uint32_t x, uint32_t y, uint32_t z, float result, uint32_t expected)
{
    uint32_t got = bits_of(result);
    compared++;
    if (got != expected && !(is_nan(got) && is_nan(expected))) {
        printf("%s %08x %08x %08x: %08x, not %08x\n", call, (unsigned)x, (unsigned)y, (unsigned)z,
               (unsigned)got, (unsigned)expected);
        wrong++;
    }
}

static void compare_one(const char *call, float (*f)(float), const One *cases, size_t count)
{
    for (size_t i = 0; i < count; i++)
        compare(call, cases[i].x, 0, 0, f(of_bits(cases[i].x)), cases[i].result);
}

static const Three mul_add_cases[] = {
    {0x40000000, 0x40400000, 0x40800000, 0x41200000}, /* 2 * 3 + 4 */
    {0x3f800001, 0x3f7ffffe, 0xbf800000, 0xa8800000}, /* (1 + u)(1 - u) - 1 = -u * u, with u = 2^-23 */
    {0x3f800000, 0x3f800000, 0x33800000, 0x3f800000}, /* 1 + 2^-24, midway: to the even 1 */
    {0x3f800001, 0x3f800000, 0x33800000, 0x3f800002}, /* midway: to the even one above */
    {0x3f800001, 0x337ffffe, 0x3f800001, 0x3f800001}, /* a hair below the middle, which binary64 rounds to it */
    {0x3f800000, 0x3f800000, 0xbf800000, 0x00000000}, /* 1 - 1 is +0 */
    {0x80000000, 0x3f800000, 0x80000000, 0x80000000}, /* -0 + -0 */
    {0x80000000, 0x3f800000, 0x00000000, 0x00000000}, /* -0 + 0 */
    {0x1a000000, 0x1a000000, 0x00000001, 0x00000002}, /* 2^-150 + 2^-149, midway: to the even 2^-148 */
    {0x00000001, 0x80000001, 0x00000000, 0x80000000}, /* too small, so a zero with the sign */
    {0x7f7fffff, 0x40000000, 0x00000000, 0x7f800000}, /* too large */
    {0x7f7fffff, 0x40000000, 0xff7fffff, 0x7f7fffff}, /* only the product is too large */
    {0x7f7fffff, 0x40000000, 0xff800000, 0xff800000},
    {0x7f800000, 0x00000000, 0x3f800000, ANY_NAN},
    {0x7f800000, 0x3f800000, 0xff800000, ANY_NAN},
    {0x3f800000, 0x3f800000, ANY_NAN, ANY_NAN},
};

static const Two hypot_cases[] = {
    {0x40400000, 0x40800000, 0x40a00000}, /* 3, 4 */
    {0xc0a00000, 0x41400000, 0x41500000}, /* -5, 12 */
    {0x3f800000, 0x3f800000, 0x3fb504f3}, /* the root of 2 */
    {0x00000000, 0x80000000, 0x00000000},
    {0x80000000, 0x80000000, 0x00000000},
    {0xbf800000, 0x00000000, 0x3f800000},
    {0x00000001, 0x00000001, 0x00000001},
    {0x00000003, 0x80000004, 0x00000005},
    {0x3f800000, 0x39b504f3, 0x3f800000}, /* just below the middle of 1 and the next */
    {0x3f800000, 0x39b504f4, 0x3f800001}, /* just above */
    {0x7f7fffff, 0x7f7fffff, 0x7f800000},
    {0x7f7fffff, 0x3f800000, 0x7f7fffff},
    {0xff800000, ANY_NAN, 0x7f800000},
    {ANY_NAN, 0x7f800000, 0x7f800000},
    {ANY_NAN, 0x00000000, ANY_NAN},
};

static const One floor_cases[] = {
    {0x00000000, 0x00000000}, {0x80000000, 0x80000000}, {0x3effffff, 0x00000000},
    {0xbe99999a, 0xbf800000}, {0x3fc00000, 0x3f800000}, {0xbfc00000, 0xc0000000},
    {0x00000001, 0x00000000}, {0x80000001, 0xbf800000}, {0x4affffff, 0x4afffffe},
    {0xcaffffff, 0xcb000000}, {0x4b000001, 0x4b000001}, {0x7f800000, 0x7f800000},
    {0xff800000, 0xff800000}, {ANY_NAN, ANY_NAN},
};

static const One ceil_cases[] = {
    {0x00000000, 0x00000000}, {0x80000000, 0x80000000}, {0x3effffff, 0x3f800000},
    {0xbe99999a, 0x80000000}, {0x3fc00000, 0x40000000}, {0xbfc00000, 0xbf800000},
    {0x00000001, 0x3f800000}, {0x80000001, 0x80000000}, {0x4affffff, 0x4b000000},
    {0xcaffffff, 0xcafffffe}, {0x4b000001, 0x4b000001}, {0x7f800000, 0x7f800000},
    {0xff800000, 0xff800000}, {ANY_NAN, ANY_NAN},
};

static const One round_cases[] = {
    {0x00000000, 0x00000000}, {0x80000000, 0x80000000}, {0x3effffff, 0x00000000},
    {0x3f000000, 0x3f800000}, {0xbf000000, 0xbf800000}, {0xbeffffff, 0x80000000},
    {0x3fc00000, 0x40000000}, {0x40200000, 0x40400000}, {0xc0200000, 0xc0400000},
    {0x4affffff, 0x4b000000}, {0x4b000001, 0x4b000001}, {0x00000001, 0x00000000},
    {0xff800000, 0xff800000}, {ANY_NAN, ANY_NAN},
};

static const One abs_cases[] = {
    {0x00000000, 0x00000000}, {0x80000000, 0x00000000}, {0x3f800000, 0x3f800000},
    {0xbf800000, 0x3f800000}, {0x00000001, 0x00000001}, {0x80000001, 0x00000001},
    {0x807fffff, 0x007fffff}, {0x80800000, 0x00800000}, {0xff7fffff, 0x7f7fffff},
    {0x7f800000, 0x7f800000}, {0xff800000, 0x7f800000}, {ANY_NAN, ANY_NAN},
};

static const One rem_euclid_360_cases[] = {
    {0x00000000, 0x00000000}, {0x80000000, 0x80000000}, /* a zero keeps its sign */
    {0x43b40000, 0x00000000}, {0xc3b40000, 0x80000000}, /* 360 and -360 */
    {0x43b38000, 0x43b38000}, {0xbf800000, 0x43b38000}, /* 359 and -1 */
    {0x43b48000, 0x3f800000}, {0xc3b48000, 0x43b38000}, /* 361 and -361 */
    {0x43b40001, 0x38000000}, {0xb3800000, 0x43b40000}, /* just above 360; a tiny negative number gives 360 */
    {0x80000001, 0x43b40000}, {0x442a0000, 0x43a00000}, /* the tiniest; 680 */
    {0x7f000000, 0x43000000}, {0xff000000, 0x43680000}, /* 2^127 */
    {0x7f7fffff, 0x00000000}, {0xff7fffff, 0x80000000}, /* the largest, a multiple of 360 */
    {0x7f800000, ANY_NAN},    {ANY_NAN, ANY_NAN},
};

int main(void)
{
    for (size_t i = 0; i < COUNT(mul_add_cases); i++) {
        Three t = mul_add_cases[i];
        compare("mul_add", t.a, t.b, t.c, jengafir_mul_add(of_bits(t.a), of_bits(t.b), of_bits(t.c)), t.result);
    }
    for (size_t i = 0; i < COUNT(hypot_cases); i++) {
        Two t = hypot_cases[i];
        compare("hypot", t.x, t.y, 0, jengafir_hypot(of_bits(t.x), of_bits(t.y)), t.result);
    }
    compare_one("floor", jengafir_floor, floor_cases, COUNT(floor_cases));
    compare_one("ceil", jengafir_ceil, ceil_cases, COUNT(ceil_cases));
    compare_one("round", jengafir_round, round_cases, COUNT(round_cases));
    compare_one("abs", jengafir_abs, abs_cases, COUNT(abs_cases));
    compare_one("rem_euclid_360", jengafir_rem_euclid_360, rem_euclid_360_cases, COUNT(rem_euclid_360_cases));
    if (wrong != 0) {
        printf("%d of %d wrong\n", wrong, compared);
        return 1;
    }
    printf("ok %d\n", compared);
    return 0;
}
