/* A host program in C: calls the run from outside, and sees that it answers, writes and leaves alone what the header says.
 * The bytes that a run writes are held against docs/RULES.md by other tests; here it is one worked sheet. */
#include <stdio.h>
#include <string.h>

#include "zafindoro.h"

/* Residues modulo 7, y² = x⁶ + 1, two divisors into registers 0 and 1, their sum into 2, Show 2, and Show 16. */
static const uint8_t worked[] = {
    0x01, 0x07, 0x00, 0x04, 0x00, 0x00, 0x00, 0x00, 0x00, 0x00, 0x00, 0x00, 0x01, 0x00, 0x05, 0x00,
    0x02, 0x06, 0x00, 0x00, 0x00, 0x02, 0x00, 0x01, 0x00, 0x00, 0x05, 0x01, 0x02, 0x02, 0x00, 0x06,
    0x00, 0x01, 0x00, 0x01, 0x00, 0x00, 0x06, 0x02, 0x00, 0x01, 0x09, 0x02, 0x09, 0x10,
};

static const uint8_t worked_output[] = {
    0x10, 0x02, 0x02, 0x00, 0x00, 0x01, 0x00, 0x00, 0x00, 0x00, 0x00, 0x00, 0x11, 0x09, 0x01,
};

static uint8_t too_long[ZAFINDORO_SHEET_BYTES + 1];

/* One byte longer than an output may be; and what it holds before each run, a pattern of which no two neighbours are equal. */
static uint8_t output[ZAFINDORO_OUTPUT_BYTES + 1];
static uint8_t before[sizeof output];

static int failures;

/* Runs a sheet, and expects this answer, these bytes and the pattern after them. */
static void expect(const char *name, const uint8_t *sheet, size_t sheet_bytes, size_t output_bytes, uint32_t answer,
                   const uint8_t *written, size_t written_bytes)
{
    memcpy(output, before, sizeof output);
    uint32_t answered = zafindoro_run(sheet, sheet_bytes, output, output_bytes);
    int good = answered == answer && memcmp(output, written, written_bytes) == 0 &&
               memcmp(output + written_bytes, before + written_bytes, sizeof output - written_bytes) == 0;
    printf("%s: %s, answered %lu\n", good ? "passed" : "FAILED", name, (unsigned long)answered);
    failures += !good;
}

/* Runs a sheet, and expects that it is refused with this number and nothing is written. */
static void expect_refusal(const char *name, size_t sheet_bytes, size_t output_bytes, uint32_t number)
{
    expect(name, too_long, sheet_bytes, output_bytes, ZAFINDORO_REFUSED + number, output, 0);
}

int main(void)
{
    for (size_t i = 0; i < sizeof before; i++)
        before[i] = (uint8_t)(i * 7 + 90);

    expect("the worked sheet", worked, sizeof worked, ZAFINDORO_OUTPUT_BYTES, sizeof worked_output, worked_output,
           sizeof worked_output);
    expect("an empty sheet", worked, 0, ZAFINDORO_OUTPUT_BYTES, 0, worked_output, 0);
    expect_refusal("an output of no bytes", 0, 0, 3);
    expect_refusal("an output one byte too short", 0, ZAFINDORO_OUTPUT_BYTES - 1, 3);
    expect_refusal("an output one byte too long", 0, ZAFINDORO_OUTPUT_BYTES + 1, 3);
    expect_refusal("a sheet one byte too long", ZAFINDORO_SHEET_BYTES + 1, ZAFINDORO_OUTPUT_BYTES, 13);
    expect_refusal("3 before 13", ZAFINDORO_SHEET_BYTES + 1, ZAFINDORO_OUTPUT_BYTES - 1, 3);
    return failures != 0;
}
