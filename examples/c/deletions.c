/* Plans the deletions of two blocks, one of them without any, and asks what was planned. cc -std=c11 deletions.c
 * libpelisafu.a, with pelisafu.h beside it. */
#include "pelisafu.h"

#include <stdio.h>

#define LENGTH(a) (sizeof(a) / sizeof(a)[0])

/* The most rows that a block has. */
#define BLOCK_LIMIT 1000

/* What a block keeps of its deletions. */
typedef struct {
    uint8_t coded, tag;
    uint16_t count;
    size_t length;
    uint8_t body[64];
} section;

static int keep(uint16_t rows, const uint16_t *deleted, size_t count, section *kept) {
    uint32_t work[24];
    pelisafu_plan plan = pelisafu_plan_deletions(rows, BLOCK_LIMIT, deleted, count, work, LENGTH(work), kept->body,
                                                 sizeof kept->body);
    kept->coded = plan.tag != 0, kept->tag = plan.tag, kept->count = (uint16_t)count, kept->length = plan.length;
    return plan.number;
}

static int ask(uint16_t rows, const section *kept) {
    pelisafu_checked checked = pelisafu_check_deletions(rows, BLOCK_LIMIT, kept->coded, kept->count, kept->tag,
                                                        kept->body, kept->length);
    printf("%d bytes of tag %d: refusal %d, %d deleted:", (int)kept->length, kept->tag, checked.number, checked.rows);
    uint16_t ordinals[8];
    pelisafu_filled walked = pelisafu_walk_deletions(rows, BLOCK_LIMIT, kept->coded, kept->count, kept->tag, kept->body,
                                                     kept->length, 0, ordinals, LENGTH(ordinals));
    for (size_t i = 0; i < walked.written; i++) printf(" %d", ordinals[i]);
    pelisafu_contained fourth = pelisafu_deleted(rows, BLOCK_LIMIT, kept->coded, kept->count, kept->tag, kept->body,
                                                 kept->length, 4);
    printf("; row 4: %d\n", fourth.found);
    return checked.number;
}

int main(void) {
    const uint16_t deleted[] = {3, 4, 5};
    section some, none;
    if (keep(10, deleted, LENGTH(deleted), &some) != 0 || keep(10, NULL, 0, &none) != 0) return 1;
    if (ask(10, &some) != 0 || ask(10, &none) != 0) return 1;
    /* a body with the count of a block without deletions is refused, and so is a block of too many rows */
    some.count = 0;
    return ask(10, &some) != 9 || ask(1001, &none) != 9;
}
