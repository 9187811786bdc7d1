/* Plans rows of three far pages and lists the directory of the segmented body, entry by entry and as a table. cc -std=c11
 * segments.c libpelisafu.a, with pelisafu.h beside it. */
#include "pelisafu.h"

#include <inttypes.h>
#include <stdio.h>

#define LENGTH(a) (sizeof(a) / sizeof(a)[0])
#define SPAN 300000

static void show(const char *name, size_t i, pelisafu_segment_record r) {
    printf("%s %d: start %" PRIu32 ", span %d, %d rows from ordinal %d on, %d bytes of tag %d at byte %d\n", name, (int)i,
           r.start, r.span, r.count, r.ordinal, r.length, r.tag, r.offset);
}

int main(void) {
    /* 12 rows each from 0, 100,000 and 200,000 on, 100 apart */
    uint64_t rows[36];
    for (unsigned i = 0; i < 36; i++) rows[i] = i / 12 * 100000 + i % 12 * 100;
    uint32_t work[24 * LENGTH(rows)]; /* there are no more windows than rows */
    uint8_t body[256];
    pelisafu_plan plan = pelisafu_plan_rows(0, SPAN, rows, LENGTH(rows), NULL, 0, sizeof body, work, LENGTH(work), body,
                                            sizeof body);
    printf("planned: refusal %d, tag %d, %d bytes, %d segments\n", plan.number, plan.tag, plan.length, plan.segments);

    pelisafu_entry entry = pelisafu_segment(plan.tag, SPAN, body, plan.length, 0);
    for (size_t i = 0; entry.found; entry = pelisafu_segment(plan.tag, SPAN, body, plan.length, ++i))
        show("entry", i, entry.record);
    printf("past the last: refusal %d, found %d, start %" PRIu32 "\n", entry.number, entry.found, entry.record.start);

    pelisafu_segment_record table[8];
    pelisafu_filled filled = pelisafu_segments(plan.tag, SPAN, body, plan.length, table, LENGTH(table));
    for (size_t i = 0; i < filled.written; i++) show("table", i, table[i]);

    entry = pelisafu_segment(plan.tag, SPAN, body, plan.length - 1, 0);
    printf("with a byte cut off: refusal %d, found %d, start %" PRIu32 "\n", entry.number, entry.found, entry.record.start);
    return 0;
}
