/* Runs many sheets for fuzz.py: reads the length of each, four bytes with the low byte first, and its bytes, and writes the number
 * that the run answers, four bytes likewise, and the bytes that it wrote.
 *
 * A page that cannot be read or written stands before the output, behind the output and behind the sheet, and the bytes after those
 * written are compared with what they were, so that a run that reads or writes beyond its own ends the driver. */
#define _GNU_SOURCE
#include <stdio.h>
#include <stdlib.h>
#include <string.h>
#include <sys/mman.h>
#include <unistd.h>

#include "zafindoro.h"

#define SHEET_ROOM (2 * ZAFINDORO_SHEET_BYTES)

static void fail(const char *message)
{
    fprintf(stderr, "driver: %s\n", message);
    exit(2);
}

/* Memory of this many bytes, rounded up to whole pages, between two pages that cannot be touched; answers its end. */
static uint8_t *guarded(size_t bytes)
{
    size_t page = (size_t)sysconf(_SC_PAGESIZE);
    size_t inner = (bytes + page - 1) / page * page;
    uint8_t *all = mmap(NULL, inner + 2 * page, PROT_NONE, MAP_PRIVATE | MAP_ANONYMOUS, -1, 0);
    if (all == MAP_FAILED || mprotect(all + page, inner, PROT_READ | PROT_WRITE) != 0)
        fail("no memory");
    return all + page + inner;
}

/* Reads the length of a sheet; 0 where there is no further sheet. */
static int read_length(uint32_t *length)
{
    uint8_t bytes[4];
    size_t count = fread(bytes, 1, sizeof bytes, stdin);
    if (count == 0)
        return 0;
    if (count != sizeof bytes)
        fail("a length is cut off");
    *length = bytes[0] | (uint32_t)bytes[1] << 8 | (uint32_t)bytes[2] << 16 | (uint32_t)bytes[3] << 24;
    return 1;
}

static void write_answer(uint32_t answer, const uint8_t *output)
{
    uint8_t bytes[4] = {(uint8_t)answer, (uint8_t)(answer >> 8), (uint8_t)(answer >> 16), (uint8_t)(answer >> 24)};
    size_t written = answer < ZAFINDORO_REFUSED ? answer : 0;
    if (fwrite(bytes, 1, sizeof bytes, stdout) != sizeof bytes || fwrite(output, 1, written, stdout) != written)
        fail("cannot write");
}

int main(void)
{
    static uint8_t before[ZAFINDORO_OUTPUT_BYTES];
    uint8_t *sheet_end = guarded(SHEET_ROOM);
    uint8_t *output = guarded(sizeof before) - sizeof before;
    uint32_t length, turn = 0;
    while (read_length(&length)) {
        if (length > SHEET_ROOM)
            fail("a sheet is too long for the driver");
        uint8_t *sheet = sheet_end - length;
        if (fread(sheet, 1, length, stdin) != length)
            fail("a sheet is cut off");
        memset(before, (int)(turn++ % 256), sizeof before);
        memcpy(output, before, sizeof before);
        uint32_t answer = zafindoro_run(sheet, length, output, sizeof before);
        size_t written = answer < ZAFINDORO_REFUSED ? answer : 0;
        if (written > sizeof before || memcmp(output + written, before, sizeof before - written) != 0)
            fail("a byte after those written is altered");
        write_answer(answer, output);
    }
    return 0;
}
