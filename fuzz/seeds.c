/* Writes bodies of every form as inputs of the harness, one to a file: `seeds FOLDER`. Most are planned by Pelisafu from row
 * sets; a form that none of these comes to is an error. A few, which no planner takes, are put together here. */
#include "pelisafu.h"

#include <stdio.h>
#include <stdlib.h>
#include <string.h>

#define ROWS 4096u

static uint64_t rows[ROWS];
static uint32_t work[24 * ROWS];
static unsigned written[11], files;
static const char *folder;

static void fail(const char *why) {
    fprintf(stderr, "seeds: %s\n", why);
    exit(1);
}

static void write_input(uint8_t tag, uint32_t span, const uint8_t *body, size_t length) {
    char name[4096];
    uint8_t head[5] = {tag, span & 255, span >> 8 & 255, span >> 16 & 255, span >> 24};
    snprintf(name, sizeof name, "%s/seed-%03u-tag-%u", folder, files++, tag);
    FILE *file = fopen(name, "wb");
    if (!file) fail(name);
    if (fwrite(head, 1, 5, file) != 5 || fwrite(body, 1, length, file) != length || fclose(file)) fail(name);
    written[tag]++;
}

static void plan(uint32_t span, size_t count) {
    static uint8_t body[65535];
    pelisafu_plan plan = pelisafu_plan_rows(0, span, rows, count, NULL, 0, sizeof body, work, sizeof work / sizeof *work,
                                            body, sizeof body);
    if (plan.number) fail("a row set was refused");
    write_input(plan.tag, span, body, plan.length);
}

/* So many groups, each of so many rows with a row left out after every few (0: none), a group's start so far from the last. */
static void groups(uint32_t span, uint64_t first, unsigned many, unsigned length, unsigned holed, uint64_t apart) {
    size_t count = 0;
    for (unsigned group = 0; group < many; group++)
        for (unsigned i = 0; i < length; i++)
            if (!(holed && i % holed == holed - 1) || i == length - 1) rows[count++] = first + group * apart + i;
    plan(span, count);
}

/* A segment of a body that is put together: from start on, so many bytes of payload. */
typedef struct {
    uint16_t start, span, count;
    uint8_t tag, length;
    const char *payload;
} part;

/* Parts of every form, each beginning where the one before it ends. */
static const part every_form[] = {
    {0, 3, 3, 1, 0, ""},
    {3, 10, 2, 3, 4, "\1\0\7\0"},
    {13, 8, 7, 7, 2, "\4\0"},
    {21, 9, 4, 4, 12, "\0\0\2\0\0\0\4\0\2\0\2\0"},
    {30, 64, 32, 6, 10, "\0\0UUUUUUUU"},
};

/* Runs with starts of four bytes, and a plain list with values of four: no part has these. */
static const part wide_runs[] = {{0, 5, 2, 5, 8, "\1\0\0\0\2\0\0\0"}};
static const part wide_list[] = {{0, 5, 2, 2, 8, "\1\0\0\0\2\0\0\0"}};

static void put16(uint8_t *at, unsigned value) {
    at[0] = value & 255;
    at[1] = value >> 8 & 255;
}

/* The parts from this position on, as one body, which is accepted or not. */
static void segmented(uint32_t span, uint32_t from, const part *parts, unsigned many, int good) {
    uint8_t body[256] = {0};
    unsigned count = 0, offset = 4 + 16 * many;
    for (unsigned i = 0; i < many; i++) {
        uint8_t *entry = body + 4 + 16 * i;
        put16(entry, from + parts[i].start);
        put16(entry + 2, (from + parts[i].start) >> 16);
        put16(entry + 4, parts[i].span);
        put16(entry + 6, parts[i].count);
        put16(entry + 8, count);
        put16(entry + 10, offset);
        put16(entry + 12, parts[i].length);
        entry[14] = parts[i].tag;
        memcpy(body + offset, parts[i].payload, parts[i].length);
        count += parts[i].count;
        offset += parts[i].length;
    }
    put16(body, count);
    put16(body + 2, many);
    if ((pelisafu_validate(9, span, body, offset).number == 0) != good) fail("a body put together");
    write_input(9, span, body, offset);
}

int main(int count, char **arguments) {
    static const uint32_t spans[] = {300, 4097, 65535, 65536, 65537, 1000000, 4294967295u};
    if (count != 2) fail("usage: seeds FOLDER");
    folder = arguments[1];
    groups(1, 0, 1, 1, 0, 0);
    groups(5, 0, 1, 5, 0, 0);
    groups(300, 0, 1, 300, 0, 0);       /* dense */
    groups(64, 0, 1, 64, 2, 0);         /* bitmaps */
    groups(300, 0, 1, 300, 3, 0);
    groups(10, 0, 1, 10, 4, 0);         /* holes */
    groups(100, 0, 1, 100, 40, 0);
    groups(1000, 0, 3, 30, 0, 300);     /* runs from the start */
    for (size_t i = 0; i < sizeof spans / sizeof *spans; i++) {
        uint32_t span = spans[i];
        groups(span, span - 1, 1, 1, 0, 0);             /* one row, the last one */
        groups(span, 7, 3, 1, 0, span / 4);             /* a few rows */
        groups(span, span / 2, 1, 20, 0, 0);            /* one run, in the middle */
        groups(span, span - 200, 1, 200, 30, 0);        /* a run with holes at the end */
        groups(span, span - 128, 1, 128, 2, 0);         /* every second row at the end */
        groups(span, 1, 2, 100, 0, span / 2);           /* two runs */
        groups(span, 1, 3, 90, 7, span / 3);            /* three parts of two forms and more */
        groups(span, 3, 3, 40, 2, span / 3);
        groups(span, 0, 12, 1, 0, span / 13);
        segmented(span, span - 94, every_form, 5, 1);
        segmented(span, 0, wide_runs, 1, 0);
        segmented(span, 0, wide_list, 1, 0);
    }
    write_input(4, 65536, (const uint8_t *)"\6\0\1\0\xFA\xFF\6\0\0\0", 10);   /* two-byte runs end at 65,536 */
    write_input(4, 65540, (const uint8_t *)"\6\0\1\0\xFA\xFF\6\0\0\0", 10);
    for (unsigned tag = 1; tag <= 9; tag++) {
        if (!written[tag]) fprintf(stderr, "seeds: none of tag %u\n", tag);
        if (!written[tag]) return 1;
    }
    printf("%u seeds, of tags 1 to 9:", files);
    for (unsigned tag = 1; tag <= 9; tag++) printf(" %u", written[tag]);
    printf("\n");
    return 0;
}
