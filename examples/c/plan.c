/* Plans a set of rows, stores it, reads it back and asks it. cc -std=c11 plan.c libpelisafu.a, with pelisafu.h beside it. */
#include "pelisafu.h"

#include <inttypes.h>
#include <stdio.h>

#define LENGTH(a) (sizeof(a) / sizeof(a)[0])

int main(void) {
    /* rows 1010 to 1019 and 1100 to 1109 of the coverage [1000, 1200), as they arrive in two pages */
    uint64_t rows[20];
    for (unsigned i = 0; i < 10; i++) rows[i] = 1010 + i, rows[10 + i] = 1100 + i;
    uint16_t seeds[2];
    pelisafu_gatherer gathered = {0, 0, 0, 0};
    if (pelisafu_add_page(&gathered, seeds, LENGTH(seeds), rows, 10) != 0) return 1;
    if (pelisafu_add_page(&gathered, seeds, LENGTH(seeds), rows + 10, 10) != 0) return 1;

    uint32_t work[24 * LENGTH(seeds)];
    uint8_t body[64];
    pelisafu_plan plan = pelisafu_plan_rows(1000, 1200, rows, LENGTH(rows), seeds, gathered.entries, sizeof body,
                                            work, LENGTH(work), body, sizeof body);
    if (plan.number != 0) return printf("refusal %d\n", plan.number), 1;
    printf("planned: tag %d, %d bytes, %d segment, %" PRIu32 " offer\n", plan.tag, plan.length, plan.segments, plan.offers);

    FILE *file = tmpfile();
    if (!file || fwrite(body, 1, plan.length, file) != plan.length) return 1;
    rewind(file);
    uint8_t stored[64];
    size_t size = fread(stored, 1, sizeof stored, file);
    fclose(file);

    pelisafu_checked checked = pelisafu_validate(plan.tag, 200, stored, size);
    printf("stored: %zu bytes, refusal %d, %d rows\n", size, checked.number, checked.rows);
    for (uint32_t position = 99; position < 102; position++) {
        pelisafu_ranked ranked = pelisafu_rank(plan.tag, 200, stored, size, position);
        printf("position %" PRIu32 ": found %d, ordinal %d\n", position, ranked.found, ranked.ordinal);
    }
    uint32_t positions[4];
    pelisafu_filled walked = pelisafu_walk(plan.tag, 200, stored, size, 8, positions, LENGTH(positions));
    printf("from ordinal 8:");
    for (size_t i = 0; i < walked.written; i++) printf(" %" PRIu32, positions[i]);
    printf("\nwith a byte cut off: refusal %d\n", pelisafu_validate(plan.tag, 200, stored, size - 1).number);
    return 0;
}
