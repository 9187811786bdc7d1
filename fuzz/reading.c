/* A libFuzzer harness over the reading calls: the first byte of an input is the tag, modulo 11, four bytes are the span,
 * little-endian, the rest is the body. The calls have to agree with each other and, with ORIGINAL defined, with the Rust
 * that Pelisafu is a port of. Whatever does not agree is named, and ends the run. */
#include "pelisafu.h"

#include <stddef.h>
#include <stdio.h>
#include <stdlib.h>
#include <string.h>

#define NOTHING UINT32_MAX
#define UNTOUCHED 0xA5A5A5A5u
#define MOST_ROWS 65535u
/* No offset of a directory reaches past more entries. */
#define MOST_ENTRIES 4095u
/* Rows that are asked for in one call, and rows that are asked for singly, since each call checks the whole body. */
#define MANY 512u
#define SINGLY 16u

#define HOLD(claim) ((claim) ? (void)0 : differ(#claim, __LINE__))

typedef struct {
    uint8_t tag;
    uint32_t span;
    const uint8_t *body;
    size_t length;
} set;

/* The arguments that every call begins with. */
#define SET(s) (s)->tag, (s)->span, (s)->body, (s)->length
/* Those of a body whose span is the row count of a block. */
#define TAG_AND_BODY(s) (s)->tag, (s)->body, (s)->length

static void differ(const char *claim, int line) {
    fprintf(stderr, "reading.c:%d: does not hold: %s\n", line, claim);
    abort();
}

/* All rows by one walk, with room for one more and a word behind. */
static uint32_t walked[MOST_ROWS + 2];

/* What is asked of many ranks, what is expected, and what is answered. */
static uint32_t positions[3 * (MANY + 2) + 4], expected[3 * (MANY + 2) + 4], answered[3 * (MANY + 2) + 5];

#ifdef ORIGINAL
int64_t original_validate(uint8_t tag, uint32_t span, const uint8_t *body, size_t length);
int64_t original_walk(uint8_t tag, uint32_t span, const uint8_t *body, size_t length, uint32_t *out, size_t room);
int64_t original_ranks(uint8_t tag, uint32_t span, const uint8_t *body, size_t length, const uint32_t *positions,
                       uint32_t *out, size_t asked);
int64_t original_select(uint8_t tag, uint32_t span, const uint8_t *body, size_t length, uint16_t ordinal);

static uint32_t by_original[MOST_ROWS + 1];

static void same_rows(const set *s, size_t rows) {
    HOLD(original_validate(SET(s)) == (int64_t)rows);
    HOLD(original_walk(SET(s), by_original, rows + 1) == (int64_t)rows);
    HOLD(memcmp(by_original, walked, rows * sizeof *walked) == 0);
}

static void same_ranks(const set *s, size_t asked) {
    HOLD(original_ranks(SET(s), positions, by_original, asked) == (int64_t)asked);
    HOLD(memcmp(by_original, expected, asked * sizeof *expected) == 0);
}

static void same_select(const set *s, uint16_t ordinal, int64_t position) {
    HOLD(original_select(SET(s), ordinal) == position);
}

static void same_refusal(const set *s) {
    HOLD(original_validate(SET(s)) == -1);
}
#else
static void same_rows(const set *s, size_t rows) { (void)s, (void)rows; }
static void same_ranks(const set *s, size_t asked) { (void)s, (void)asked; }
static void same_select(const set *s, uint16_t ordinal, int64_t position) { (void)s, (void)ordinal, (void)position; }
static void same_refusal(const set *s) { (void)s; }
#endif

/* The row of this position, or NOTHING: by halving, over the rows that were walked. */
static uint32_t place(size_t rows, uint32_t position) {
    size_t low = 0, high = rows;
    while (low < high) {
        size_t middle = low + (high - low) / 2;
        if (walked[middle] < position) low = middle + 1;
        else high = middle;
    }
    return low < rows && walked[low] == position ? (uint32_t)low : NOTHING;
}

static void walk_all(const set *s, size_t rows) {
    walked[rows] = walked[rows + 1] = UNTOUCHED;
    pelisafu_filled all = pelisafu_walk(SET(s), 0, walked, rows + 1);
    HOLD(all.number == 0 && all.written == rows);
    HOLD(walked[rows] == UNTOUCHED && walked[rows + 1] == UNTOUCHED);
    for (size_t i = 1; i < rows; i++) HOLD(walked[i - 1] < walked[i]);
    HOLD(walked[rows - 1] < s->span);
}

/* Part of a walk: from this ordinal on, into room for a few. */
static void walk_part(const set *s, size_t rows, uint16_t from, size_t room) {
    uint32_t part[SINGLY + 1];
    size_t remain = from < rows ? rows - from : 0, fits = remain < room ? remain : room;
    for (size_t i = 0; i <= SINGLY; i++) part[i] = UNTOUCHED;
    pelisafu_filled some = pelisafu_walk(SET(s), from, part, room);
    HOLD(some.number == 0 && some.written == fits);
    HOLD(memcmp(part, walked + (fits ? from : 0), fits * sizeof *part) == 0);
    for (size_t i = fits; i <= SINGLY; i++) HOLD(part[i] == UNTOUCHED);
}

/* Many ranks: rows and the positions beside them, the ends of the span and what is beyond. */
static size_t rank_many(const set *s, size_t rows, size_t offset) {
    size_t asked = 0, step = rows / MANY + 1;
    for (size_t i = offset % step; i < rows; i += step) {
        positions[asked++] = walked[i] - 1;
        positions[asked++] = walked[i];
        positions[asked++] = walked[i] + 1;
    }
    positions[asked++] = walked[rows - 1];
    positions[asked++] = s->span - 1;
    positions[asked++] = s->span;
    positions[asked++] = UINT32_MAX;
    for (size_t i = 0; i < asked; i++) {
        expected[i] = place(rows, positions[i]);
        answered[i] = UNTOUCHED;
    }
    answered[asked] = UNTOUCHED;
    pelisafu_filled refused = pelisafu_ranks(SET(s), positions, asked, answered, asked - 1);
    HOLD(refused.number == 7 && refused.written == 0);
    for (size_t i = 0; i < asked; i++) HOLD(answered[i] == UNTOUCHED);
    pelisafu_filled filled = pelisafu_ranks(SET(s), positions, asked, answered, asked);
    HOLD(filled.number == 0 && filled.written == asked && answered[asked] == UNTOUCHED);
    HOLD(memcmp(answered, expected, asked * sizeof *expected) == 0);
    same_ranks(s, asked);
    return asked;
}

/* Rank of one position, and select of its ordinal, which leads back. */
static void rank_one(const set *s, uint32_t position, uint32_t ordinal) {
    pelisafu_ranked ranked = pelisafu_rank(SET(s), position);
    HOLD(ranked.number == 0 && ranked.found == (ordinal != NOTHING));
    HOLD(ranked.ordinal == (ordinal == NOTHING ? 0 : ordinal));
    if (!ranked.found) return;
    pelisafu_selected back = pelisafu_select(SET(s), ranked.ordinal);
    HOLD(back.number == 0 && back.found == 1 && back.position == position);
}

/* Select of one ordinal, and rank of its position, which leads back. */
static void select_one(const set *s, size_t rows, uint16_t ordinal) {
    pelisafu_selected selected = pelisafu_select(SET(s), ordinal);
    HOLD(selected.number == 0 && selected.found == (ordinal < rows));
    HOLD(selected.position == (ordinal < rows ? walked[ordinal] : 0));
    same_select(s, ordinal, selected.found ? (int64_t)selected.position : -1);
    if (!selected.found) return;
    pelisafu_ranked back = pelisafu_rank(SET(s), selected.position);
    HOLD(back.number == 0 && back.found == 1 && back.ordinal == ordinal);
}

/* Two entries of a directory, without the padding behind their last field. */
static int same_record(const pelisafu_segment_record *a, const pelisafu_segment_record *b) {
    return memcmp(a, b, offsetof(pelisafu_segment_record, tag) + 1) == 0;
}

static const pelisafu_segment_record no_record;

/* The directory: the table has the rows of the set, single entries are those of the table, and there is none behind. */
static void same_entries(const set *s, size_t rows, size_t offset) {
    static pelisafu_segment_record table[MOST_ENTRIES];
    size_t counted = 0;
    pelisafu_filled all = pelisafu_segments(SET(s), table, MOST_ENTRIES);
    HOLD(all.number == 0 && (all.written > 0) == (s->tag == 9));
    for (size_t i = 0; i < all.written; i++) counted += table[i].count;
    HOLD(counted == (s->tag == 9 ? rows : 0));
    for (size_t i = 0; i < SINGLY && i < all.written; i++) {
        size_t one = (offset + i * (all.written / SINGLY + 1)) % all.written;
        pelisafu_entry entry = pelisafu_segment(SET(s), one);
        HOLD(entry.number == 0 && entry.found == 1 && same_record(&entry.record, &table[one]));
    }
    pelisafu_entry behind = pelisafu_segment(SET(s), all.written), last = pelisafu_segment(SET(s), SIZE_MAX);
    HOLD(behind.number == 0 && behind.found == 0 && same_record(&behind.record, &no_record));
    HOLD(last.number == 0 && last.found == 0 && same_record(&last.record, &no_record));
}

/* The longest body of deletions: a bitmap of all rows of the block, with its header. */
static size_t longest(size_t block) {
    size_t words = (block + 63) / 64;
    return 4 + 8 * words + 2 * ((words + 3) / 4);
}

/* The section that is not coded, with any count, tag and body beside it: no deletions, where there is a block. */
static void no_deletions(const set *s, uint16_t block, uint16_t count) {
    uint16_t out[2] = {7, 7};
    uint8_t number = block == 0 ? 9 : 0;
    pelisafu_checked checked = pelisafu_check_deletions(block, block, 0, count, TAG_AND_BODY(s));
    HOLD(checked.number == number && checked.rows == 0);
    pelisafu_contained contained = pelisafu_deleted(block, block, 0, count, TAG_AND_BODY(s), (uint16_t)walked[0]);
    HOLD(contained.number == number && contained.found == 0);
    pelisafu_filled walk = pelisafu_walk_deletions(block, block, 0, count, TAG_AND_BODY(s), 0, out, 2);
    HOLD(walk.number == number && walk.written == 0 && out[0] == 7 && out[1] == 7);
}

/* The set as the deletions of a block that has as many rows as the span. */
static void same_deletions(const set *s, size_t rows, size_t offset) {
    if (s->span > MOST_ROWS) return;
    uint16_t block = (uint16_t)s->span, count = (uint16_t)rows, part[SINGLY], from = (uint16_t)(offset % rows);
    uint8_t coded = (uint8_t)(1 + offset % 255), number = s->length > longest(block) ? 9 : 0;
    no_deletions(s, block, count);
    pelisafu_checked checked = pelisafu_check_deletions(block, block, coded, count, TAG_AND_BODY(s));
    HOLD(checked.number == number && checked.rows == (number ? 0 : count));
    for (uint32_t beside = 0; beside < 3; beside++) {
        uint16_t ordinal = (uint16_t)(walked[from] - 1 + beside);
        pelisafu_contained contained = pelisafu_deleted(block, block, coded, count, TAG_AND_BODY(s), ordinal);
        HOLD(contained.number == number && contained.found == (!number && place(rows, ordinal) != NOTHING));
    }
    size_t fits = number ? 0 : rows - from < SINGLY ? rows - from : SINGLY;
    pelisafu_filled walk = pelisafu_walk_deletions(block, block, coded, count, TAG_AND_BODY(s), from, part, SINGLY);
    HOLD(walk.number == number && walk.written == fits);
    for (size_t i = 0; i < fits; i++) HOLD(part[i] == walked[from + i]);
    HOLD(pelisafu_check_deletions(block, block, coded, (uint16_t)(count - 1), TAG_AND_BODY(s)).number ==
         (number || count == 1 ? 9 : 10));
}

static void accepted(const set *s, size_t rows, size_t offset) {
    HOLD(rows >= 1 && rows <= s->span);
    walk_all(s, rows);
    same_rows(s, rows);
    size_t asked = rank_many(s, rows, offset);
    for (size_t i = 0; i < SINGLY; i++) {
        size_t one = (offset + i * (asked / SINGLY + 1)) % asked;
        rank_one(s, positions[one], expected[one]);
        select_one(s, rows, (uint16_t)((offset + i * (rows / SINGLY + 1)) % rows));
    }
    rank_one(s, s->span, NOTHING);
    select_one(s, rows, (uint16_t)(rows - 1));
    select_one(s, rows, (uint16_t)rows);
    select_one(s, rows, UINT16_MAX);
    walk_part(s, rows, (uint16_t)(offset % rows), offset % (SINGLY + 1));
    walk_part(s, rows, (uint16_t)(rows - 1), SINGLY);
    walk_part(s, rows, (uint16_t)rows, SINGLY);
    same_entries(s, rows, offset);
    same_deletions(s, rows, offset);
}

/* Every call refuses by 8, answers 0 in all else and writes nothing. */
static void refused(const set *s, pelisafu_checked checked) {
    uint32_t asked[2] = {0, s->span - 1}, out[2] = {UNTOUCHED, UNTOUCHED};
    HOLD(checked.number == 8 && checked.rows == 0);
    pelisafu_ranked ranked = pelisafu_rank(SET(s), 0);
    HOLD(ranked.number == 8 && ranked.found == 0 && ranked.ordinal == 0);
    pelisafu_selected selected = pelisafu_select(SET(s), 0);
    HOLD(selected.number == 8 && selected.found == 0 && selected.position == 0);
    pelisafu_filled ranks = pelisafu_ranks(SET(s), asked, 2, out, 1);
    HOLD(ranks.number == 8 && ranks.written == 0);
    pelisafu_filled walk = pelisafu_walk(SET(s), 0, out, 2);
    HOLD(walk.number == 8 && walk.written == 0);
    HOLD(out[0] == UNTOUCHED && out[1] == UNTOUCHED);
    pelisafu_segment_record table[1] = {{1, 2, 3, 4, 5, 6, 7}}, before = table[0];
    pelisafu_filled segments = pelisafu_segments(SET(s), table, 1);
    HOLD(segments.number == 8 && segments.written == 0 && same_record(table, &before));
    pelisafu_entry entry = pelisafu_segment(SET(s), 0);
    HOLD(entry.number == 8 && entry.found == 0 && same_record(&entry.record, &no_record));
    if (s->span <= MOST_ROWS) {
        uint16_t block = (uint16_t)s->span;
        uint8_t number = block == 0 || s->length > longest(block) ? 9 : 8;
        HOLD(pelisafu_check_deletions(block, block, 1, 1, TAG_AND_BODY(s)).number == number);
        no_deletions(s, block, 1);
    }
    same_refusal(s);
}

/* How many bodies were accepted by tag, printed at the end. */
static unsigned long taken[11];

static void tell(void) {
    fprintf(stderr, "accepted by tag 1 to 9:");
    for (int tag = 1; tag <= 9; tag++) fprintf(stderr, " %lu", taken[tag]);
    fprintf(stderr, "\n");
}

int LLVMFuzzerInitialize(int *count, char ***arguments) {
    (void)count, (void)arguments;
    return atexit(tell);
}

int LLVMFuzzerTestOneInput(const uint8_t *data, size_t size) {
    if (size < 5) return 0;
    set s = {data[0] % 11, 0, data + 5, size - 5};
    for (int i = 4; i >= 1; i--) s.span = s.span << 8 | data[i];
    pelisafu_checked checked = pelisafu_validate(SET(&s));
    if (checked.number == 0) {
        taken[s.tag]++;
        accepted(&s, checked.rows, data[size - 1] + data[1] + size);
    } else {
        refused(&s, checked);
    }
    return 0;
}
