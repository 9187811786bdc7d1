/* Every slice of every call as a null pointer with length 0: taken as an empty slice. */
#include "pelisafu.h"

#include <stdio.h>
#include <string.h>

static int failed;

static void expect(const char *what, unsigned number, unsigned wanted) {
    if (number != wanted) {
        printf("%s: %u, not %u\n", what, number, wanted);
        failed = 1;
    }
}

static void planning(void) {
    uint64_t rows[3] = {0, 4096, 8192};
    uint16_t ordinals[3] = {3, 4, 5};
    uint32_t work[72];
    uint8_t out[16];
    expect("no rows", pelisafu_plan_rows(0, 9, NULL, 0, NULL, 0, 99, NULL, 0, NULL, 0).number, 2);
    expect("no workspace", pelisafu_plan_rows(0, 10000, rows, 3, NULL, 0, 99, NULL, 0, out, 16).number, 5);
    expect("no output", pelisafu_plan_rows(0, 10000, rows, 3, NULL, 0, 99, work, 72, NULL, 0).number, 7);
    expect("no seeds", pelisafu_plan_rows(0, 10000, rows, 3, NULL, 0, 99, work, 72, out, 16).number, 0);
    /* a dense set has an empty body */
    expect("empty body", pelisafu_plan_rows(0, 1, rows, 1, NULL, 0, 0, work, 72, NULL, 0).number, 0);
    expect("no ordinals", pelisafu_plan_ordinals(9, NULL, 0, 99, NULL, 0, NULL, 0).number, 2);
    expect("no workspace", pelisafu_plan_ordinals(9, ordinals, 3, 99, NULL, 0, out, 16).number, 5);
    expect("no output", pelisafu_plan_ordinals(9, ordinals, 3, 99, work, 72, NULL, 0).number, 7);
}

static void reading(void) {
    uint32_t positions[2] = {4, 5};
    for (unsigned tag = 0; tag < 256; tag++) {
        unsigned wanted = tag == 1 ? 0 : 8;
        expect("validate", pelisafu_validate(tag, 5, NULL, 0).number, wanted);
        expect("rank", pelisafu_rank(tag, 5, NULL, 0, 4).number, wanted);
        expect("ranks of none", pelisafu_ranks(tag, 5, NULL, 0, NULL, 0, NULL, 0).number, wanted);
        expect("ranks to none", pelisafu_ranks(tag, 5, NULL, 0, positions, 2, NULL, 0).number, tag == 1 ? 7 : 8);
        expect("select", pelisafu_select(tag, 5, NULL, 0, 4).number, wanted);
        expect("walk", pelisafu_walk(tag, 5, NULL, 0, 0, NULL, 0).number, wanted);
        expect("segments", pelisafu_segments(tag, 5, NULL, 0, NULL, 0).number, wanted);
        expect("segment", pelisafu_segment(tag, 5, NULL, 0, 0).number, wanted);
    }
    expect("rows", pelisafu_validate(1, 5, NULL, 0).rows, 5);
    expect("found", pelisafu_rank(1, 5, NULL, 0, 4).found, 1);
    expect("no entry", pelisafu_segment(1, 5, NULL, 0, 0).found, 0);
    expect("no table", pelisafu_segments(9, 10, (const uint8_t *)"\1\0\1\0\0\0\0\0\2\0\1\0\0\0\24\0\2\0\3\0\1\0", 22, NULL, 0).number, 7);
}

static void gathering(void) {
    pelisafu_gatherer none = {0, 0, 0, 0}, record = none;
    uint64_t row = 7;
    expect("row", pelisafu_gather_row(none, NULL, 0, row).number, 11);
    expect("page", pelisafu_gather_page(none, NULL, 0, &row, 1).number, 11);
    expect("empty page", pelisafu_gather_page(none, NULL, 0, NULL, 0).number, 0);
    expect("lent row", pelisafu_add_row(&record, NULL, 0, row), 11);
    expect("lent page", pelisafu_add_page(&record, NULL, 0, &row, 1), 11);
    expect("lent empty page", pelisafu_add_page(&record, NULL, 0, NULL, 0), 0);
    expect("record", memcmp(&record, &none, sizeof none) != 0, 0);
}

static void deletions(void) {
    uint16_t ordinals[2] = {3, 4};
    uint32_t work[24];
    uint8_t out[16];
    expect("no deletions", pelisafu_plan_deletions(9, 9, NULL, 0, NULL, 0, NULL, 0).number, 0);
    expect("no deletions' tag", pelisafu_plan_deletions(9, 9, NULL, 0, NULL, 0, NULL, 0).tag, 0);
    expect("no workspace", pelisafu_plan_deletions(9, 9, ordinals, 2, NULL, 0, out, 16).number, 5);
    expect("no output", pelisafu_plan_deletions(9, 9, ordinals, 2, work, 24, NULL, 0).number, 7);
    /* all rows of the block are deleted: a dense set, whose body is empty */
    expect("check", pelisafu_check_deletions(5, 5, 1, 5, 1, NULL, 0).rows, 5);
    expect("deleted", pelisafu_deleted(5, 5, 1, 5, 1, NULL, 0, 4).found, 1);
    expect("walk", pelisafu_walk_deletions(5, 5, 1, 5, 1, NULL, 0, 0, NULL, 0).number, 0);
    expect("another count", pelisafu_check_deletions(5, 5, 1, 4, 1, NULL, 0).number, 10);
    expect("another tag", pelisafu_deleted(5, 5, 1, 4, 0, NULL, 0, 4).number, 8);
    expect("count 0", pelisafu_walk_deletions(5, 5, 1, 0, 0, NULL, 0, 0, NULL, 0).number, 9);
}

/* A section that is not coded: whatever its count and tag, it is the empty set. */
static void empty_sections(void) {
    uint16_t out[2] = {7, 7};
    for (unsigned tag = 0; tag < 256; tag++) {
        expect("check", pelisafu_check_deletions(5, 5, 0, 5 * tag, tag, NULL, 0).number, 0);
        expect("rows", pelisafu_check_deletions(5, 5, 0, 5 * tag, tag, NULL, 0).rows, 0);
        expect("deleted", pelisafu_deleted(5, 5, 0, 5 * tag, tag, NULL, 0, 4).number, 0);
        expect("found", pelisafu_deleted(5, 5, 0, 5 * tag, tag, NULL, 0, 4).found, 0);
        expect("walk", pelisafu_walk_deletions(5, 5, 0, 5 * tag, tag, NULL, 0, 0, out, 2).number, 0);
        expect("written", (unsigned)pelisafu_walk_deletions(5, 5, 0, 5 * tag, tag, NULL, 0, 0, NULL, 0).written, 0);
        expect("no block", pelisafu_check_deletions(5, 4, 0, 5 * tag, tag, NULL, 0).number, 9);
    }
    expect("output", out[0] + out[1], 14);
}

int main(void) {
    planning();
    reading();
    gathering();
    deletions();
    empty_sections();
    if (!failed) puts("empty slices taken");
    return failed;
}
