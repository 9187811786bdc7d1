/* Pelisafu: row sets in compact bytes. The C interface of libpelisafu.a, for C and C++.
 *
 * A row set is a rising list of positions below a span. A body is its bytes, in one of nine forms that a tag from 1 to 9
 * names. Tag, span and body go together; the library keeps none of them. No call asks anything of its numbers and
 * bytes: each tests what it was given, and refuses it by number. No call allocates, keeps a pointer after it has
 * returned, or has a state of its own, so calls from several threads need no lock.
 *
 * A slice is a pointer and then the number of its elements. A null pointer with length 0 is an empty slice. A pointer
 * is aligned for its element, and a slice that is written overlaps no other slice of the same call.
 *
 * Every answer has a number: 0, or that of the refusal. A value that there is not, be it that the call was refused or that
 * nothing was found, is 0. The refusals:
 *    1  end before start, span 0, or span above 4,294,967,295
 *    2  no rows, or more than 65,535
 *    3  rows that do not rise, or are outside of the coverage; in gathering: not above the last row
 *    4  seed ends that begin with 0, do not rise or do not end at the row count, or a seed whose last row is more than
 *       65,534 above its first
 *    5  a workspace of less than 24 words for each seed
 *    6  a body longer than the limit or than 65,535 bytes
 *    7  an output that is too short
 *    8  a body that is not accepted: its tag, its bytes or its span
 *    9  deletions: row count 0 or above the block limit; in reading a stored body also: a stated count of 0 or above the
 *       row count, or a body longer than 4 and the bytes of a bitmap of all rows
 *   10  deletions: a body of another count than the stated one
 *   11  a table of seed ends without room for the new ones
 *   12  a record that gathering cannot have come to
 * Where several apply, the one that comes first in the order given at the call is answered. A refused call leaves every
 * output, table and record as it was. An output past what an answer says was written stays as it was, too.
 */
#ifndef PELISAFU_H
#define PELISAFU_H

#include <stddef.h>
#include <stdint.h>

#ifdef __cplusplus
extern "C" {
#endif

/* ---- answers */

/* A plan: the tag and the bytes of its body, the segments after merging, and the offers that merging took. Of no deletions
 * the plan is all 0: number 0 with tag 0, and no body. So a plan's tag can be handed over as coded. */
typedef struct {
    uint8_t number, tag;
    uint16_t length, segments;
    uint32_t offers;
} pelisafu_plan;

/* How many rows a body has. */
typedef struct {
    uint8_t number;
    uint16_t rows;
} pelisafu_checked;

/* found: 1 where the position is a row, and then its ordinal, counted from 0; else 0. */
typedef struct {
    uint8_t number, found;
    uint16_t ordinal;
} pelisafu_ranked;

/* found: 1 where there is a row of this ordinal, and then its position; else 0. */
typedef struct {
    uint8_t number, found;
    uint32_t position;
} pelisafu_selected;

/* How many elements were written, from the front of the output on. */
typedef struct {
    uint8_t number;
    size_t written;
} pelisafu_filled;

/* found: 1 where the row is deleted; else 0. */
typedef struct {
    uint8_t number, found;
} pelisafu_contained;

/* Where gathering stands: entries of the table in use, rows gathered, first row of the last seed, last row. All 0 to
 * begin with. */
typedef struct {
    size_t entries, rows;
    uint64_t first, last;
} pelisafu_gatherer;

/* The record after the call: where the call was refused, the one that was handed over. */
typedef struct {
    uint8_t number;
    pelisafu_gatherer record;
} pelisafu_gathered;

/* An entry of the directory of a segmented body: where the segment starts, its span and rows, the rows before it, where
 * its payload begins in the body, the payload's bytes, and its form. */
typedef struct {
    uint32_t start;
    uint16_t span, count, ordinal, offset, length;
    uint8_t tag;
} pelisafu_segment_record;

/* found: 1 where there is such an entry, and then the entry; else 0. */
typedef struct {
    uint8_t number, found;
    pelisafu_segment_record record;
} pelisafu_entry;

/* ---- planning: rows to the shortest body */

/* Plans rows, strictly rising in [start, end), into the front of out: the shortest body that the rules of planning give.
 * Its span is end - start. seeds has the ends of the seeds, as gathering leaves them; without any, rows are taken in
 * 4,096-windows of absolute row number. work is the workspace, of 24 words or more for each seed. Refuses: 1, 2, 3, 4, 5, 6, 7,
 * in that order. Refusals 1 to 5 leave the workspace as it was; 6, 7 and a plan leave its first 24 words for each seed
 * zero, and the rest as it was. */
pelisafu_plan pelisafu_plan_rows(uint64_t start, uint64_t end, const uint64_t *rows, size_t rows_len,
                                 const uint16_t *seeds, size_t seeds_len, size_t limit,
                                 uint32_t *work, size_t work_len, uint8_t *out, size_t out_len);

/* The same for ordinals below a row count, which are their own positions, in windows of 4,096. Refuses: 1, 2, 3, 5, 6, 7,
 * in that order; the workspace as above. */
pelisafu_plan pelisafu_plan_ordinals(uint16_t row_count, const uint16_t *ordinals, size_t ordinals_len, size_t limit,
                                     uint32_t *work, size_t work_len, uint8_t *out, size_t out_len);

/* ---- reading: each call checks the body first */

/* The number of rows of an accepted body. Refuses: 8. */
pelisafu_checked pelisafu_validate(uint8_t tag, uint32_t span, const uint8_t *body, size_t body_len);

/* The ordinal of a position, where it is a row. Refuses: 8. */
pelisafu_ranked pelisafu_rank(uint8_t tag, uint32_t span, const uint8_t *body, size_t body_len, uint32_t position);

/* For each of the positions its ordinal, or 4,294,967,295 where it is no row, into the front of out. Answers how many. The
 * body is checked once. Refuses: 8, then 7 where out is shorter than positions. */
pelisafu_filled pelisafu_ranks(uint8_t tag, uint32_t span, const uint8_t *body, size_t body_len,
                               const uint32_t *positions, size_t positions_len, uint32_t *out, size_t out_len);

/* The position of an ordinal, where there is one. Refuses: 8. */
pelisafu_selected pelisafu_select(uint8_t tag, uint32_t span, const uint8_t *body, size_t body_len, uint16_t ordinal);

/* The positions from an ordinal on, as many as remain or fit, into the front of out. Answers how many. Refuses: 8. */
pelisafu_filled pelisafu_walk(uint8_t tag, uint32_t span, const uint8_t *body, size_t body_len, uint16_t from,
                              uint32_t *out, size_t out_len);

/* All entries of the directory, in order, into the front of table. Answers how many: 0 for another tag than 9. Of the 16
 * bytes of an entry the last one is padding. Refuses: 8, then 7 where the table is shorter than the directory. */
pelisafu_filled pelisafu_segments(uint8_t tag, uint32_t span, const uint8_t *body, size_t body_len,
                                  pelisafu_segment_record *table, size_t table_len);

/* The i-th entry of the directory, counted from 0, where there is one: none for another tag than 9. Refuses: 8. */
pelisafu_entry pelisafu_segment(uint8_t tag, uint32_t span, const uint8_t *body, size_t body_len, size_t i);

/* ---- gathering: the ends of seeds, while rows arrive */

/* One row more: it joins the last seed where it is in the 4,096-window of that seed's first row, else it is a new seed.
 * Its seed's end, which is the rows gathered so far, goes to that seed's entry of the table; no other entry is read or
 * changed. Refuses: 12, 3, 2, 11, in that order. */
pelisafu_gathered pelisafu_gather_row(pelisafu_gatherer record, uint16_t *table, size_t table_len, uint64_t row);

/* A page of rows: one new seed where its last row is at most 65,534 above its first, else row by row. An empty page
 * changes nothing. Refuses: 12, 3, 2, 11, in that order. */
pelisafu_gathered pelisafu_gather_page(pelisafu_gatherer record, uint16_t *table, size_t table_len,
                                       const uint64_t *rows, size_t rows_len);

/* The same two with the record lent to be changed: the number alone is answered, and the record after stands in *record. */
uint8_t pelisafu_add_row(pelisafu_gatherer *record, uint16_t *table, size_t table_len, uint64_t row);
uint8_t pelisafu_add_page(pelisafu_gatherer *record, uint16_t *table, size_t table_len,
                          const uint64_t *rows, size_t rows_len);

/* ---- deletions: the deleted rows of a block, as ordinals below its row count
 *
 * A block has at most block_limit rows. What is stored of its deletions is whether there are any and, where there are,
 * their count, the tag and the body. The reading calls take them again: coded is 0 for a block without deletions, and any
 * other number for a stored body. Where coded is 0, count, tag and body are not looked at, and of the refusals only 9 is
 * given, for the row count alone. Of a stored body the count 0 is refused by 9. */

/* Plans the deleted ordinals, strictly rising below the row count, into the front of out. With no ordinals nothing is
 * written, not even to the workspace. Refuses: 9, then as pelisafu_plan_ordinals, but 6 never. Refusal 9 leaves the
 * workspace as it was. */
pelisafu_plan pelisafu_plan_deletions(uint16_t row_count, size_t block_limit, const uint16_t *ordinals,
                                      size_t ordinals_len, uint32_t *work, size_t work_len,
                                      uint8_t *out, size_t out_len);

/* How many rows are deleted. Refuses: 9, 8, 10, in that order. */
pelisafu_checked pelisafu_check_deletions(uint16_t row_count, size_t block_limit, uint8_t coded, uint16_t count,
                                          uint8_t tag, const uint8_t *body, size_t body_len);

/* Whether the row of this ordinal is deleted. Refuses: 9, 8, 10, in that order. */
pelisafu_contained pelisafu_deleted(uint16_t row_count, size_t block_limit, uint8_t coded, uint16_t count,
                                    uint8_t tag, const uint8_t *body, size_t body_len, uint16_t ordinal);

/* The deleted ordinals from the from-th deletion on, as many as remain or fit, into the front of out. Answers how many.
 * Refuses: 9, 8, 10, in that order. */
pelisafu_filled pelisafu_walk_deletions(uint16_t row_count, size_t block_limit, uint8_t coded, uint16_t count,
                                        uint8_t tag, const uint8_t *body, size_t body_len, uint16_t from,
                                        uint16_t *out, size_t out_len);

#ifdef __cplusplus
}
#endif

#endif
