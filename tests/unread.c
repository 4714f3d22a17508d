/* Calls jengafir_length_reaches on lists that cannot be read past the command at which it stops: the next code and the
   next number lie on a page that may not be touched. A call that reads one of them ends the program. */
#define _DEFAULT_SOURCE
#include "jengafir.h"

#include <math.h>
#include <stdio.h>
#include <string.h>
#include <sys/mman.h>
#include <unistd.h>

/* How many codes and numbers a call is told of, far more than can be read. */
#define TOLD_CODES 262144
#define TOLD_NUMBERS 1000000

#define OLD_REPLY 77

enum { M = JENGAFIR_MOVE, L = JENGAFIR_LINE, C = JENGAFIR_CUBIC, Z = JENGAFIR_CLOSE, Q = JENGAFIR_QUAD };

static int compared = 0;
static int wrong = 0;

/* The end of a page that can be written, right before one that cannot be touched. */
static char *guarded_end(void)
{
    size_t page = (size_t)sysconf(_SC_PAGESIZE);
    char *pages = mmap(NULL, 2 * page, PROT_READ | PROT_WRITE, MAP_PRIVATE | MAP_ANONYMOUS, -1, 0);
    if (pages == MAP_FAILED || mprotect(pages + page, page, PROT_NONE) != 0) {
        printf("no page that cannot be touched\n");
        return NULL;
    }
    return pages + page;
}

static char *codes_end, *numbers_end;

/* Expects a reply where only these codes and numbers can be read. */
static void expect(const char *call, const uint8_t *codes, size_t codes_len, const float *numbers, size_t numbers_len,
                   size_t told_codes, float least, uint32_t refusal, uint32_t reply, size_t read)
{
    uint8_t *lent_codes = (uint8_t *)codes_end - codes_len;
    float *lent_numbers = (float *)(void *)numbers_end - numbers_len;
    memcpy(lent_codes, codes, codes_len);
    memcpy(lent_numbers, numbers, numbers_len * sizeof *numbers);
    uint32_t reached = OLD_REPLY;
    size_t commands_read = 99;
    uint32_t got = jengafir_length_reaches(lent_codes, told_codes, lent_numbers, TOLD_NUMBERS, least, &reached,
                                           &commands_read);
    compared++;
    if (got != refusal || reached != reply || commands_read != read) {
        printf("%s: %u with reply %u after %zu, not %u with %u after %zu\n", call, (unsigned)got, (unsigned)reached,
               commands_read, (unsigned)refusal, (unsigned)reply, read);
        wrong++;
    }
}

static void yes(const char *call, const uint8_t *codes, size_t codes_len, const float *numbers, size_t numbers_len,
                float least)
{
    expect(call, codes, codes_len, numbers, numbers_len, TOLD_CODES, least, JENGAFIR_ACCEPTED, 1, codes_len);
}

static void refused(const char *call, const uint8_t *codes, size_t codes_len, const float *numbers, size_t numbers_len,
                    size_t told_codes, float least, uint32_t refusal)
{
    expect(call, codes, codes_len, numbers, numbers_len, told_codes, least, refusal, OLD_REPLY, 0);
}

int main(void)
{
    static const uint8_t line[] = {M, L}, cubic[] = {M, C}, quad[] = {M, Q}, closed[] = {M, L, Z}, unlisted[] = {M, 9};
    static const float five[] = {0, 0, 3, 4}, not_finite[] = {0, 0, 3, NAN};
    static const float curve[] = {0, 0, 0, 5, 5, 0, 3, 4};

    codes_end = guarded_end();
    numbers_end = guarded_end();
    if (codes_end == NULL || numbers_end == NULL)
        return 1;
    yes("0, of a list of which nothing can be read", line, 0, five, 0, 0);
    yes("5, by a line", line, 2, five, 4, 5);
    yes("5, by a cubic", cubic, 2, curve, 8, 5);
    yes("5, by a quad", quad, 2, curve, 6, 5);
    yes("10, by a close", closed, 3, five, 4, 10);
    refused("a code that is not listed", unlisted, 2, five, 2, TOLD_CODES, 5, JENGAFIR_UNLISTED);
    refused("a NaN", line, 2, not_finite, 4, TOLD_CODES, 5, JENGAFIR_OUT_OF_RANGE);
    refused("what is no length", line, 0, five, 0, TOLD_CODES, -1, JENGAFIR_OUT_OF_RANGE);
    refused("too many commands", line, 0, five, 0, TOLD_CODES + 1, 5, JENGAFIR_TOO_MANY);
    refused("as many commands as can be told of", line, 0, five, 0, (size_t)-1, 5, JENGAFIR_TOO_MANY);
    if (wrong) {
        printf("%d of %d are wrong\n", wrong, compared);
        return 1;
    }
    printf("ok %d\n", compared);
    return 0;
}
