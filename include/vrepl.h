/* vrepl.h: the readers and judges of vrepl for other languages, on x86-64 Linux.
 *
 * What a call answers. 0, or the number of a refusal (docs/FORMATS.md, "Refusal lines"; vrepl_explain has the words); 72 is
 * want of memory. Behind a refusal nothing that the call writes is said to be there: look at the answer first.
 *
 * What is passed. Bytes are a pointer and their length, a text is bytes that are UTF-8, without a NUL. No pointer is
 * NULL, also not of no bytes, where any other address serves. Lengths are below 2^63. What a call writes overlaps
 * nothing else that it is given. Between the threads of a process calls need no order, as long as none writes
 * what another is given.
 *
 * Who owns memory. All of it is the caller's, for each call alike. What a pointer to const names is lent until the call returns,
 * and read; what any other pointer names is written, as the call's comment says. A call gives no pointer, keeps none, and what
 * it takes of malloc for itself it frees before it returns, also where it refuses. There is no handle, no global state, and
 * nothing to let go: what is asked of again, as a workflow, is given again, and read again. A text or bytes that a call
 * gives go into a room, a place of the caller's with its length: the call says how many bytes they are, and where they are
 * more than the room has nothing is written, so make a larger one and call again. What a cursor gives lies in that room.
 *
 * What a caller can break. A call reads and writes just what it is given, whatever bytes stand there; that is
 * proved. A wrong pointer or a length that is more than what lies there is read and written all the same.
 *
 * docs/LIBRARY.md has a program, and says what is proved of a call. */
#ifndef VREPL_H
#define VREPL_H

#include <stdbool.h>
#include <stddef.h>
#include <stdint.h>

#ifdef __cplusplus
extern "C" {
#endif

#define VREPL_NO_MEMORY 72u

/* ---- refusals */

/* What a number means, its usual causes and what to do next, as `vrepl explain` prints it: into the room. Gives the
 * length, 0 for a number that no refusal has. Takes no memory. */
size_t vrepl_explain(uint64_t number, uint8_t *room, size_t room_length);

/* ---- positions: GTID sets, each given as its text (docs/FORMATS.md, "Positions")
 *
 * Refused: 24 for a text that isn't UTF-8, 31 to 33, 35 and 36 for one that is no position, of two texts the first. */

/* The printed form of a set, into the room: two texts mean the same set where their printed forms are the same. */
uint32_t vrepl_gtid_set(const uint8_t *text, size_t text_length, uint8_t *room, size_t room_length, size_t *length);

/* Whether a set has a pair: a uuid, as its 16 bytes, and a number. */
uint32_t vrepl_gtid_contains(const uint8_t *text, size_t text_length, const uint8_t uuid[16], uint64_t number, bool *contains);

/* Whether each pair of one set is in the other. */
uint32_t vrepl_gtid_is_within(const uint8_t *one, size_t one_length, const uint8_t *other, size_t other_length, bool *is_within);

/* The printed form of the union of two sets, into the room. */
uint32_t vrepl_gtid_union(const uint8_t *one, size_t one_length, const uint8_t *other, size_t other_length,
                          uint8_t *room, size_t room_length, size_t *length);

/* ---- key ranges and vindexes (docs/FORMATS.md, "Key ranges, numbers and vindexes")
 *
 * Refused: 41 for a text that is no key range. */

/* The bounds of a range, without the 00 bytes at their ends, into two rooms. An end that is open has no bytes: an end that
 * is given has some. Ranges lie end to end where each start is the end before it. */
uint32_t vrepl_key_range(const uint8_t *range, size_t range_length, uint8_t *start, size_t start_room, size_t *start_length,
                         uint8_t *end, size_t end_room, size_t *end_length);

/* Whether ranges lie end to end over all keyspace ids, in this order: the first start and the last end are open, and each
 * other end is the next one's start. Then each id is in exactly one of them. The ranges are one text, parted by commas, as
 * `-80,80-`. Refused as the first that is no range. */
uint32_t vrepl_key_ranges_tile(const uint8_t *ranges, size_t ranges_length, bool *tile);

/* Whether a range has a keyspace id. */
uint32_t vrepl_key_range_holds(const uint8_t *range, size_t range_length, const uint8_t *id, size_t id_length, bool *holds);

/* The keyspace id of a value, which is NULL or bytes, into the room; under a vindex by its name, `numeric`, `reverse_bits`,
 * `binary`, `binary_md5` or `hash`. Refused: 42 for a name that no vindex has, 43 for NULL,
 * 44 for a value that is no number from 0 to 2^64 - 1 under a vindex of numbers. Takes no memory. */
uint32_t vrepl_vindex_id(const uint8_t *vindex, size_t vindex_length, bool is_null, const uint8_t *value, size_t value_length,
                         uint8_t *room, size_t room_length, size_t *length);

/* ---- feeds (docs/FORMATS.md, "Feed") */

/* Where the message at the front of some bytes stands in them: its first byte, behind its length, and how many it has. The
 * next one begins behind it. Refused: 81 for a message that is cut short or has no length, and for no bytes. Takes
 * no memory. */
uint32_t vrepl_message(const uint8_t *bytes, size_t bytes_length, size_t *start, size_t *length);

/* ---- workflows (docs/FORMATS.md, "Workflow file"), each given as its file's bytes, and read at each call
 *
 * Refused: 51 to 57 for a file that is no workflow. */

/* How many streams a workflow has. */
uint32_t vrepl_workflow(const uint8_t *workflow, size_t workflow_length, size_t *streams);

/* What is told of a workflow: the number by which it is refused, or 0, is written and not answered. Into the room, as a
 * text: of one that is refused where its fault is, as `tables[3].key: no list` for 52 and 56, `table T column C` for 53 and
 * 54, `stream S rule R` for 55, `table T` for 57, nothing for 51; of one that is read what `vrepl check` warns of it, a line
 * each (docs/FORMATS.md, "What `check` prints"), mostly nothing. */
uint32_t vrepl_workflow_check(const uint8_t *workflow, size_t workflow_length, uint32_t *refused, uint8_t *room, size_t room_length,
                              size_t *length);

/* The rows of each table that each stream passes, in words, a line each as `vrepl check` prints it, into the room. */
uint32_t vrepl_workflow_rules(const uint8_t *workflow, size_t workflow_length, uint8_t *room, size_t room_length, size_t *length);

/* The plan of a stream, by its number from 0, as bytes that are walked over by a cursor (below), into the room: the names of
 * its keyspace and its shard; the number of tables, and of each its name, the number of its columns and of each the name and
 * the type's number, then the places, from 0, of the key's columns, and those of the columns that a target keeps. Refused as
 * above, and 115 for a stream that the workflow hasn't. */
uint32_t vrepl_plan(const uint8_t *workflow, size_t workflow_length, size_t stream, uint8_t *room, size_t room_length, size_t *length);

/* Whether a row of a table, by the table's name, passes the filter of a stream, by its number from 0. The row is a Row
 * message (docs/FORMATS.md, "Messages"). Refused in this order: a workflow as above; 115 for a stream that it hasn't; 85 for a
 * table that it hasn't; 11 to 14 for a row that isn't read; 87 for one of more or fewer columns than the table has; 43 and
 * 44 where the filter has no answer. */
uint32_t vrepl_row_passes(const uint8_t *workflow, size_t workflow_length, size_t stream, const uint8_t *table, size_t table_length,
                          const uint8_t *row, size_t row_length, bool *passes);

/* The key of a row, as bytes that are walked over by a cursor (below), into the room: the number of its parts, and each of
 * them, a number as its shortest decimal text. Refused as by vrepl_row_passes, but for 43 and 44: 61 where a key column is
 * NULL, 62 where one of whole numbers has none. */
uint32_t vrepl_row_key(const uint8_t *workflow, size_t workflow_length, size_t stream, const uint8_t *table, size_t table_length,
                       const uint8_t *row, size_t row_length, uint8_t *room, size_t room_length, size_t *length);

/* ---- dumps of a workflow's tables (docs/FORMATS.md, "What `run` prints")
 *
 * Refused: 51 to 57 for a workflow as above; 121 for a text that is no dump. Then, and then alone, `bad_line` is the first
 * line, from 1, that can't stand there, or is missing where the text ends. */

/* The rows of a dump: how many they are, and into the room, as bytes that are walked over by a cursor (below), each one's
 * table, its key and itself, by rising key. */
uint32_t vrepl_dump(const uint8_t *workflow, size_t workflow_length, const uint8_t *dump, size_t dump_length, size_t *rows,
                    size_t *bad_line, uint8_t *room, size_t room_length, size_t *length);

/* How many keys of a source and of a target there are of each kind. */
typedef struct vrepl_counts {
    size_t processed;    /* in either: the sum of the others */
    size_t matching;     /* in both, with equal columns, NULL and the empty value told apart */
    size_t mismatched;   /* in both, with other columns */
    size_t extra_source; /* in the source alone */
    size_t extra_target; /* in the target alone */
} vrepl_counts;

/* Two dumps compared: the counts, and into the room, as bytes that are walked over by a cursor (below), the keys at which the
 * two differ, by rising key, and of more than `most` so many (SIZE_MAX: all): each one's table, the key, the row of the source
 * and that of the target. The first of them is the least; there is none exactly where both have the same rows, or `most` is 0.
 * For 121 `in_target` is whether the bad line is the target's; the source is read first. */
uint32_t vrepl_compare(const uint8_t *workflow, size_t workflow_length, const uint8_t *source, size_t source_length,
                       const uint8_t *target, size_t target_length, size_t most, vrepl_counts *counts, size_t *bad_line,
                       bool *in_target, uint8_t *room, size_t room_length, size_t *length);

/* ---- the groups of a feed */

/* The groups of a feed that was recorded from a shard of a keyspace, both mostly empty, as bytes that are walked over by a
 * cursor, into the room: some fifty bytes a change more than the feed has. Refused: 24 where keyspace or shard isn't
 * UTF-8; 81 to 84, 86 to 89, 92, 94 and 95, the first from the left that stands in the feed. */
uint32_t vrepl_groups(const uint8_t *feed, size_t feed_length, const uint8_t *keyspace, size_t keyspace_length, const uint8_t *shard,
                      size_t shard_length, uint8_t *room, size_t room_length, size_t *length);

/* A place in such bytes: `at` is what comes next, and `end` is behind the last. A group is
 *
 *     vrepl_number its number; vrepl_bytes its position's text; vrepl_number how many changes follow; and for each of them
 *     vrepl_bytes its table's name; the row before; the row after
 *
 * and a row is vrepl_number, UINT64_MAX where there is none, else how many columns follow, each of them vrepl_bytes. A key is
 * vrepl_number, how many parts follow, each of them vrepl_bytes; places are vrepl_number, how many follow, each of them
 * vrepl_number. What is called a name is vrepl_bytes, and what is called a number vrepl_number. Numbers have eight bytes, the
 * least first. Bytes end where the length that the call said is walked over. */
typedef struct vrepl_cursor {
    const uint8_t *at, *end;
} vrepl_cursor;

/* The number that comes next. */
static inline uint64_t vrepl_number(vrepl_cursor *cursor) {
    uint64_t number = 0;
    for (int i = 7; i >= 0; i--) number = number << 8 | cursor->at[i];
    cursor->at += 8;
    return number;
}

/* The bytes that come next, with their length; NULL where a column is NULL. */
static inline const uint8_t *vrepl_bytes(vrepl_cursor *cursor, size_t *length) {
    uint64_t count = vrepl_number(cursor);
    const uint8_t *bytes = count == UINT64_MAX ? NULL : cursor->at;
    *length = bytes ? (size_t)count : 0;
    cursor->at += *length;
    return bytes;
}

#ifdef __cplusplus
}
#endif

#endif
