/* The run of a sheet for a host program in C.
 *
 * A sheet is a row of records as docs/RULES.md has it, under "Sheets". Link target/staticlib/librun.a, which
 * `make staticlib` writes. */
#ifndef ZAFINDORO_H
#define ZAFINDORO_H

#include <stddef.h>
#include <stdint.h>

#ifdef __cplusplus
extern "C" {
#endif

/* The most bytes of a sheet. */
#define ZAFINDORO_SHEET_BYTES 4096

/* The bytes of the output, no more and no fewer; they are enough for every sheet. */
#define ZAFINDORO_OUTPUT_BYTES 24576

/* Answers from here on are refusals: this and the number. */
#define ZAFINDORO_REFUSED 65536

/* Runs the sheet at `sheet`, `sheet_bytes` long, and writes what its records answer to `output`, `output_bytes` long.
 *
 * Answers the number of bytes written, 0 to ZAFINDORO_OUTPUT_BYTES. They begin at the start of the output, and those after them
 * stay as they were. On two conditions, looked at in this order, it writes nothing and answers a refusal:
 *
 *   ZAFINDORO_REFUSED + 3    output_bytes is not ZAFINDORO_OUTPUT_BYTES
 *   ZAFINDORO_REFUSED + 13   sheet_bytes is above ZAFINDORO_SHEET_BYTES
 *
 * Records that are refused are no refusal of the run: they are answered in the output.
 *
 * Both pointers are to memory of the stated length that nothing else writes during the call, and they are not NULL, even where a
 * length is 0. The two must not overlap. The sheet is only read.
 *
 * Nothing is allocated, nothing is kept from one call to the next, and calls with outputs of their own may go on at once in
 * several threads. The call takes less than 32 KiB of stack, 16 KiB of which are a table of inverses. */
uint32_t zafindoro_run(const uint8_t *sheet, size_t sheet_bytes, uint8_t *output, size_t output_bytes);

#ifdef __cplusplus
}
#endif

#endif
