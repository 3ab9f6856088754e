/* Measures how much stack a run takes: runs a sheet on a stack that was filled with a pattern, and counts the bytes that are no
 * longer the pattern. Euclid's steps call themselves, so the deepest run is that of a curve for which f and its derivative take
 * the most of them, with all remainders from degree 4 down to 0. */
#include <stdio.h>
#include <string.h>
#include <ucontext.h>

#include "zafindoro.h"

#define PATTERN 0xa5
#define PROMISED (32 * 1024)

/* Pairs with t² = 3 over the residues modulo 7, such a curve, and sums of two quadratics, of equal ones, of neutral divisors and
 * of a linear one with itself and a quadratic one; Negate, and Show of each. */
static const uint8_t sheet[] = {
    1, 7, 0, 3, 3, 0, 4, 1, 0, 1, 0, 44, 0, 41, 0, 1, 0,
    5, 0, 2, 6, 0, 4, 0, 6, 0, 41, 0, 0,
    5, 1, 2, 6, 0, 7, 0, 47, 0, 22, 0, 0,
    5, 2, 1, 0, 0, 41, 0, 0, 0, 21, 0, 0,
    6, 3, 0, 1, 7, 4, 0, 7, 5, 3, 6, 6, 15, 15, 6, 7, 2, 2, 6, 8, 2, 0, 8, 9, 0, 6, 10, 0, 9,
    9, 3, 9, 4, 9, 5, 9, 6, 9, 7, 9, 8, 9, 9, 9, 10,
};

static uint8_t stack[1024 * 1024];
static uint8_t output[ZAFINDORO_OUTPUT_BYTES];
static uint32_t answered;
static ucontext_t here, there;

static void on_the_stack(void)
{
    answered = zafindoro_run(sheet, sizeof sheet, output, sizeof output);
}

int main(void)
{
    memset(stack, PATTERN, sizeof stack);
    getcontext(&there);
    there.uc_stack.ss_sp = stack;
    there.uc_stack.ss_size = sizeof stack;
    there.uc_link = &here;
    makecontext(&there, on_the_stack, 0);
    swapcontext(&here, &there);

    size_t untouched = 0;
    while (untouched < sizeof stack && stack[untouched] == PATTERN)
        untouched++;
    size_t used = sizeof stack - untouched;
    /* Eight registers shown are 96 bytes, so that nothing was refused. */
    int good = used <= PROMISED && answered == 8 * 12;
    printf("%s: a run takes %zu bytes of stack, %d promised\n", good ? "passed" : "FAILED", used, PROMISED);
    return !good;
}
