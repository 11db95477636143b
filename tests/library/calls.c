// Each call of include/vrepl.h, its answers, its rooms and its refusals. Exits with the line of the first check that
// fails, modulo 256, or 0. tests/run_library.py builds it plainly, with AddressSanitizer and for valgrind.
#include "vrepl.h"

#include <stdlib.h>
#include <stdio.h>
#include <string.h>

#define CHECK(is) do { if (!(is)) { fprintf(stderr, "calls.c:%d: %s\n", __LINE__, #is); exit(1); } } while (0)
#define TEXT(text) (const uint8_t *)(text), strlen(text)

// Bytes in memory of just their size, so that a sanitizer sees a read or write outside of them.
static uint8_t *exact(const void *bytes, size_t length) {
    uint8_t *made = malloc(length ? length : 1);
    CHECK(made);
    memcpy(made, bytes, length);
    return made;
}

static void words(void) {
    uint8_t few[4] = "abc", *room;
    size_t length = vrepl_explain(41, few, 4);
    CHECK(length > 4 && memcmp(few, "abc", 4) == 0);
    room = malloc(length);
    CHECK(vrepl_explain(41, room, length) == length && memcmp(room, "41   a key range", 16) == 0 && room[length - 1] == '\n');
    free(room);
    CHECK(vrepl_explain(0, few, 4) == 0 && vrepl_explain(UINT64_MAX, few, 4) == 0 && few[0] == 'a');
}

static const char *const SET = "3E11FA47-71CA-11E1-9E33-C80AA9429562:1-3:4, 3e11fa47-71ca-11e1-9e33-c80aa9429562:9";
static const char *const PRINTED = "3e11fa47-71ca-11e1-9e33-c80aa9429562:1-4:9";
static const uint8_t UUID[16] = {0x3e, 0x11, 0xfa, 0x47, 0x71, 0xca, 0x11, 0xe1, 0x9e, 0x33, 0xc8, 0x0a, 0xa9, 0x42, 0x95, 0x62};

static void positions(void) {
    size_t length = 7, wanted = strlen(PRINTED);
    uint8_t *room = malloc(wanted), *text = exact(SET, strlen(SET)), *uuid = exact(UUID, 16);
    CHECK(vrepl_gtid_set(text, strlen(SET), room, wanted, &length) == 0);
    CHECK(length == wanted && memcmp(room, PRINTED, length) == 0);
    memset(room, '.', wanted);
    CHECK(vrepl_gtid_set(text, strlen(SET), room, wanted - 1, &length) == 0 && length == wanted && room[0] == '.');
    CHECK(vrepl_gtid_set(text, 0, room, 0, &length) == 0 && length == 0);

    bool is = false;
    CHECK(vrepl_gtid_contains(text, strlen(SET), uuid, 4, &is) == 0 && is);
    CHECK(vrepl_gtid_contains(text, strlen(SET), uuid, 5, &is) == 0 && !is);
    CHECK(vrepl_gtid_contains(text, strlen(SET), uuid, UINT64_MAX, &is) == 0 && !is);
    uuid[0] ^= 1;
    CHECK(vrepl_gtid_contains(text, strlen(SET), uuid, 4, &is) == 0 && !is);

    const char *part = "3e11fa47-71ca-11e1-9e33-c80aa9429562:2-3";
    CHECK(vrepl_gtid_is_within(TEXT(part), text, strlen(SET), &is) == 0 && is);
    CHECK(vrepl_gtid_is_within(text, strlen(SET), TEXT(part), &is) == 0 && !is);
    const char *more = "3e11fa47-71ca-11e1-9e33-c80aa9429562:5-8";
    char both[64];
    CHECK(vrepl_gtid_union(text, strlen(SET), TEXT(more), (uint8_t *)both, sizeof both, &length) == 0);
    CHECK(length == 40 && memcmp(both, "3e11fa47-71ca-11e1-9e33-c80aa9429562:1-9", 40) == 0);

    CHECK(vrepl_gtid_set(TEXT("a/b"), room, wanted, &length) == 31);
    CHECK(vrepl_gtid_set(TEXT("a"), room, wanted, &length) == 32);
    CHECK(vrepl_gtid_set(TEXT("3e11fa47-71ca-11e1-9e33-c80aa9429562:0"), room, wanted, &length) == 33);
    CHECK(vrepl_gtid_set(TEXT("3e11fa47-71ca-11e1-9e33-c80aa9429562"), room, wanted, &length) == 35);
    CHECK(vrepl_gtid_set((const uint8_t *)"\xff", 1, room, wanted, &length) == 24);
    uint8_t *long_text = malloc(1048577);
    memset(long_text, ' ', 1048577);
    CHECK(vrepl_gtid_set(long_text, 1048577, room, wanted, &length) == 36);
    CHECK(vrepl_gtid_set(long_text, 1048576, room, wanted, &length) == 0 && length == 0);
    CHECK(vrepl_gtid_is_within(TEXT("a"), TEXT("a/b"), &is) == 32 && vrepl_gtid_is_within(TEXT(""), TEXT("a/b"), &is) == 31);
    free(long_text), free(room), free(text), free(uuid);
}

static void ranges(void) {
    uint8_t start[4], end[4] = {9, 9, 9, 9};
    size_t start_length, end_length;
    CHECK(vrepl_key_range(TEXT("40-8000"), start, 4, &start_length, end, 4, &end_length) == 0);
    CHECK(start_length == 1 && start[0] == 0x40 && end_length == 1 && end[0] == 0x80 && end[1] == 9);
    CHECK(vrepl_key_range(TEXT("-"), start, 4, &start_length, end, 4, &end_length) == 0 && start_length == 0 && end_length == 0);
    CHECK(vrepl_key_range(TEXT("80-40"), start, 4, &start_length, end, 4, &end_length) == 41);
    CHECK(vrepl_key_range((const uint8_t *)"\xff-", 2, start, 4, &start_length, end, 4, &end_length) == 41);
    bool holds = false;
    uint8_t *id = exact("\x40", 1);
    CHECK(vrepl_key_range_holds(TEXT("40-80"), id, 1, &holds) == 0 && holds);
    CHECK(vrepl_key_range_holds(TEXT("40-80"), id, 0, &holds) == 0 && !holds);
    CHECK(vrepl_key_range_holds(TEXT("40"), id, 1, &holds) == 41);
    free(id);
    bool tile = false;
    uint8_t *three = exact("-40,40-8000,80-", 15);
    CHECK(vrepl_key_ranges_tile(three, 15, &tile) == 0 && tile);
    CHECK(vrepl_key_ranges_tile(three, 11, &tile) == 0 && !tile);
    CHECK(vrepl_key_ranges_tile(three + 4, 11, &tile) == 0 && !tile);
    CHECK(vrepl_key_ranges_tile(TEXT("0"), &tile) == 0 && tile);
    CHECK(vrepl_key_ranges_tile(TEXT("80-,-80"), &tile) == 0 && !tile);
    CHECK(vrepl_key_ranges_tile(TEXT("-80,40-"), &tile) == 0 && !tile);
    CHECK(vrepl_key_ranges_tile(three, 12, &tile) == 41 && vrepl_key_ranges_tile(three, 0, &tile) == 41);
    CHECK(vrepl_key_ranges_tile(TEXT("-80, 80-"), &tile) == 41 && vrepl_key_ranges_tile((const uint8_t *)"-,\xff", 3, &tile) == 41);
    free(three);
}

static void ids(void) {
    uint8_t room[16];
    size_t length;
    CHECK(vrepl_vindex_id(TEXT("numeric"), false, TEXT("258"), room, 16, &length) == 0);
    CHECK(length == 8 && memcmp(room, "\0\0\0\0\0\0\1\2", 8) == 0);
    CHECK(vrepl_vindex_id(TEXT("reverse_bits"), false, TEXT("1"), room, 16, &length) == 0);
    CHECK(length == 8 && memcmp(room, "\x80\0\0\0\0\0\0\0", 8) == 0);
    CHECK(vrepl_vindex_id(TEXT("binary"), false, TEXT("abc"), room, 16, &length) == 0 && length == 3 && memcmp(room, "abc", 3) == 0);
    // MD5 of no bytes (RFC 1321)
    CHECK(vrepl_vindex_id(TEXT("binary_md5"), false, TEXT(""), room, 16, &length) == 0 && length == 16);
    CHECK(memcmp(room, "\xd4\x1d\x8c\xd9\x8f\x00\xb2\x04\xe9\x80\x09\x98\xec\xf8\x42\x7e", 16) == 0);
    CHECK(vrepl_vindex_id(TEXT("lookup"), false, TEXT("1"), room, 16, &length) == 42);
    CHECK(vrepl_vindex_id(TEXT("numeric"), true, TEXT("1"), room, 16, &length) == 43);
    CHECK(vrepl_vindex_id(TEXT("numeric"), false, TEXT("-1"), room, 16, &length) == 44);
}

static void messages(void) {
    const uint8_t two[] = {2, 'a', 'b', 0, 3, 'c'};
    uint8_t *feed = exact(two, sizeof two);
    size_t start, length;
    CHECK(vrepl_message(feed, 6, &start, &length) == 0 && start == 1 && length == 2);
    CHECK(vrepl_message(feed + 3, 3, &start, &length) == 0 && start == 1 && length == 0);
    CHECK(vrepl_message(feed + 4, 2, &start, &length) == 81);
    CHECK(vrepl_message(feed + 6, 0, &start, &length) == 81);
    free(feed);
}

static const char *const WORKFLOW =
    "{\"keyspace\":\"ks\",\"tables\":[{\"name\":\"t\",\"columns\":[[\"id\",\"INT64\"],[\"v\",\"VARCHAR\"]],\"key\":[\"id\"],"
    "\"vindex\":[\"id\",\"binary\"]}],\"streams\":[{\"shard\":\"-\",\"filter\":{\"rules\":[{\"match\":\"t\",\"filter\":\"32-\"}]}}]}";

static void workflows(void) {
    uint8_t *file = exact(WORKFLOW, strlen(WORKFLOW));
    size_t length = strlen(WORKFLOW), streams;
    CHECK(vrepl_workflow(file, length, &streams) == 0 && streams == 1);
    CHECK(vrepl_workflow(file, length - 1, &streams) == 51 && vrepl_workflow(TEXT("{}"), &streams) == 52);
    // the columns "2" and NULL; "1" and NULL; NULL alone twice
    uint8_t two[] = {10, 2, 2, 1, 18, 1, '2'}, one[] = {10, 2, 2, 1, 18, 1, '1'}, null[] = {10, 2, 1, 1};
    bool is = false;
    CHECK(vrepl_row_passes(file, length, 0, TEXT("t"), two, sizeof two, &is) == 0 && is);
    CHECK(vrepl_row_passes(file, length, 0, TEXT("t"), one, sizeof one, &is) == 0 && !is);
    CHECK(vrepl_row_passes(file, length, 0, TEXT("t"), null, sizeof null, &is) == 43);
    CHECK(vrepl_row_passes(file, length, 1, TEXT("t"), two, sizeof two, &is) == 115);
    CHECK(vrepl_row_passes(file, length, SIZE_MAX, TEXT("t"), two, sizeof two, &is) == 115);
    CHECK(vrepl_row_passes(file, length, 0, TEXT("u"), two, sizeof two, &is) == 85);
    CHECK(vrepl_row_passes(file, length, 0, (const uint8_t *)"\xff", 1, two, sizeof two, &is) == 85);
    CHECK(vrepl_row_passes(file, length, 0, TEXT("t"), two, sizeof two - 1, &is) == 11);
    CHECK(vrepl_row_passes(file, length, 0, TEXT("t"), two, 0, &is) == 87);
    CHECK(vrepl_row_passes(file, length - 1, 1, TEXT("u"), two, 1, &is) == 51);
    free(file);
}

// Whether a text stands in a room.
static bool says(const uint8_t *room, size_t length, const char *text) {
    return length == strlen(text) && memcmp(room, text, length) == 0;
}

static void told(void) {
    uint8_t *file = exact(WORKFLOW, strlen(WORKFLOW)), room[128];
    size_t length, whole = strlen(WORKFLOW);
    uint32_t refused = 9;
    CHECK(vrepl_workflow_check(file, whole, &refused, room, sizeof room, &length) == 0 && refused == 0);
    CHECK(length == 0);
    CHECK(vrepl_workflow_check(file, whole - 1, &refused, room, sizeof room, &length) == 0 && refused == 51 && length == 0);
    CHECK(vrepl_workflow_check(TEXT("{}"), &refused, room, sizeof room, &length) == 0 && refused == 52 && says(room, length, "keyspace: missing"));
    memset(room, '.', sizeof room);
    CHECK(vrepl_workflow_check(TEXT("{}"), &refused, room, 16, &length) == 0 && refused == 52 && length == 17 && room[0] == '.');
    const char *no_tables = "{\"keyspace\":\"ks\",\"tables\":[],\"streams\":[{\"shard\":\"-\",\"filter\":{\"rules\":[]}}]}";
    CHECK(vrepl_workflow_check(TEXT(no_tables), &refused, room, sizeof room, &length) == 0 && refused == 56);
    CHECK(says(room, length, "tables: 0 tables, at least 1"));
    // the key's column, the types of both columns, the range, each made another one, and a member more
    const struct { const char *old, *new; uint32_t number; const char *place; } faults[] = {
        {"\"key\":[\"id\"]", "\"key\":[\"x\"]", 53, "table t column x"},
        {"VARCHAR", "DECIMAL", 52, "tables[0].columns[1][1]: no type \"DECIMAL\""},
        {"INT64", "TEXT", 54, "table t column id"},
        {"\"32-\"", "\"32\"", 55, "stream 0 rule 0"},
        {"\"shard\"", "\"x\":1,\"shard\"", 0, "warning workflow streams[0].x isn't read\n"},
    };
    for (size_t i = 0; i < sizeof faults / sizeof *faults; i++) {
        char changed[512];
        const char *at = strstr(WORKFLOW, faults[i].old);
        CHECK(at);
        int made = snprintf(changed, sizeof changed, "%.*s%s%s", (int)(at - WORKFLOW), WORKFLOW, faults[i].new, at + strlen(faults[i].old));
        CHECK(vrepl_workflow_check((const uint8_t *)changed, (size_t)made, &refused, room, sizeof room, &length) == 0);
        CHECK(refused == faults[i].number && says(room, length, faults[i].place));
    }
    CHECK(vrepl_workflow_rules(file, whole, room, sizeof room, &length) == 0);
    CHECK(says(room, length, "rule stream 0 table t range 32- of id by binary\n"));
    CHECK(vrepl_workflow_rules(file, whole - 1, room, sizeof room, &length) == 51);
    free(file);
}

static void plans(void) {
    uint8_t *room = malloc(512);
    size_t length, size;
    CHECK(vrepl_plan(TEXT(WORKFLOW), 0, room, 512, &length) == 0 && length < 512);
    vrepl_cursor cursor = {room, room + length};
    const uint8_t *name = vrepl_bytes(&cursor, &size);
    CHECK(says(name, size, "ks"));
    name = vrepl_bytes(&cursor, &size);
    CHECK(says(name, size, "-") && vrepl_number(&cursor) == 1);
    name = vrepl_bytes(&cursor, &size);
    CHECK(says(name, size, "t") && vrepl_number(&cursor) == 2);
    name = vrepl_bytes(&cursor, &size);
    CHECK(says(name, size, "id") && vrepl_number(&cursor) == 265);
    name = vrepl_bytes(&cursor, &size);
    CHECK(says(name, size, "v") && vrepl_number(&cursor) == 6165);
    CHECK(vrepl_number(&cursor) == 1 && vrepl_number(&cursor) == 0);
    CHECK(vrepl_number(&cursor) == 2 && vrepl_number(&cursor) == 0 && vrepl_number(&cursor) == 1 && cursor.at == cursor.end);
    CHECK(vrepl_plan(TEXT(WORKFLOW), 1, room, 512, &length) == 115 && vrepl_plan(TEXT("{}"), 0, room, 512, &length) == 52);
    free(room);
}

// What stands next is a row of t, its key, and its two columns, the second NULL where it has no text.
static bool is_row(vrepl_cursor *cursor, const char *id, const char *v) {
    size_t size;
    const uint8_t *bytes;
    if (vrepl_number(cursor) != 2) return false;
    bytes = vrepl_bytes(cursor, &size);
    if (!says(bytes, size, id)) return false;
    bytes = vrepl_bytes(cursor, &size);
    return v ? bytes && says(bytes, size, v) : !bytes;
}

static bool is_key(vrepl_cursor *cursor, const char *id) {
    size_t size;
    const uint8_t *bytes = vrepl_bytes(cursor, &size);
    if (!says(bytes, size, "t") || vrepl_number(cursor) != 1) return false;
    bytes = vrepl_bytes(cursor, &size);
    return says(bytes, size, id);
}

static void dumps(void) {
    const char *one = "table t\nx31\tN\nx32\tx\n", *other = "table t\nx31\tN\nx32\tx61\nx33\tx\n";
    uint8_t *source = exact(one, strlen(one)), *target = exact(other, strlen(other)), room[512];
    size_t rows = 9, line = 9, length;
    CHECK(vrepl_dump(TEXT(WORKFLOW), source, strlen(one), &rows, &line, room, sizeof room, &length) == 0 && rows == 2 && line == 9);
    vrepl_cursor cursor = {room, room + length};
    CHECK(is_key(&cursor, "1") && is_row(&cursor, "1", NULL) && is_key(&cursor, "2") && is_row(&cursor, "2", "") && cursor.at == cursor.end);
    CHECK(vrepl_dump(TEXT(WORKFLOW), source, strlen(one) - 1, &rows, &line, room, sizeof room, &length) == 121 && line == 3);
    CHECK(vrepl_dump(TEXT(WORKFLOW), source, 0, &rows, &line, room, sizeof room, &length) == 121 && line == 1);
    CHECK(vrepl_dump(TEXT(WORKFLOW), source, 8, &rows, &line, room, 0, &length) == 0 && rows == 0 && length == 0);
    CHECK(vrepl_dump(TEXT("{}"), source, 0, &rows, &line, room, sizeof room, &length) == 52);

    vrepl_counts counts;
    bool in_target = true;
    CHECK(vrepl_compare(TEXT(WORKFLOW), source, strlen(one), target, strlen(other), SIZE_MAX, &counts, &line, &in_target, room, sizeof room, &length) == 0);
    CHECK(counts.processed == 3 && counts.matching == 1 && counts.mismatched == 1 && counts.extra_source == 0 && counts.extra_target == 1);
    cursor = (vrepl_cursor){room, room + length};
    CHECK(is_key(&cursor, "2") && is_row(&cursor, "2", "") && is_row(&cursor, "2", "a"));
    CHECK(is_key(&cursor, "3") && vrepl_number(&cursor) == UINT64_MAX && is_row(&cursor, "3", "") && cursor.at == cursor.end);
    size_t all = length;
    CHECK(vrepl_compare(TEXT(WORKFLOW), target, strlen(other), source, strlen(one), 1, &counts, &line, &in_target, room, sizeof room, &length) == 0);
    CHECK(counts.extra_source == 1 && counts.extra_target == 0 && length < all);
    cursor = (vrepl_cursor){room, room + length};
    CHECK(is_key(&cursor, "2") && is_row(&cursor, "2", "a") && is_row(&cursor, "2", "") && cursor.at == cursor.end);
    CHECK(vrepl_compare(TEXT(WORKFLOW), target, strlen(other), source, strlen(one), 0, &counts, &line, &in_target, room, 0, &length) == 0 && length == 0);
    CHECK(vrepl_compare(TEXT(WORKFLOW), source, strlen(one), source, strlen(one), 9, &counts, &line, &in_target, room, 0, &length) == 0 && length == 0);
    CHECK(counts.processed == 2 && counts.matching == 2);
    CHECK(vrepl_compare(TEXT(WORKFLOW), source, strlen(one), target, 3, 9, &counts, &line, &in_target, room, 0, &length) == 121 && line == 1 && in_target);
    CHECK(vrepl_compare(TEXT(WORKFLOW), source, 9, target, 3, 9, &counts, &line, &in_target, room, 0, &length) == 121 && line == 2 && !in_target);
    CHECK(vrepl_compare(TEXT("{"), source, 9, target, 3, 9, &counts, &line, &in_target, room, 0, &length) == 51);
    free(source), free(target);
}

static void keys(void) {
    uint8_t two[] = {10, 2, 2, 1, 18, 1, '2'}, null[] = {10, 2, 1, 1}, word[] = {10, 2, 2, 1, 18, 1, 'x'}, room[64];
    size_t length, size;
    CHECK(vrepl_row_key(TEXT(WORKFLOW), 0, TEXT("t"), two, sizeof two, room, sizeof room, &length) == 0 && length == 17);
    vrepl_cursor cursor = {room, room + length};
    CHECK(vrepl_number(&cursor) == 1);
    const uint8_t *part = vrepl_bytes(&cursor, &size);
    CHECK(size == 1 && *part == '2' && cursor.at == cursor.end);
    CHECK(vrepl_row_key(TEXT(WORKFLOW), 0, TEXT("t"), null, sizeof null, room, sizeof room, &length) == 61);
    CHECK(vrepl_row_key(TEXT(WORKFLOW), 0, TEXT("t"), word, sizeof word, room, sizeof room, &length) == 62);
}

// A feed of two groups: of t with id and v an insert of "1" and NULL and a delete of "2" and ""; a position alone.
static const uint8_t FEED[] = {
    128, 1, 10, 2, 8, 2, 10, 24, 8, 13, 50, 20, 10, 1, 116, 18, 7, 10, 2, 105, 100, 16, 137, 2, 18, 6, 10, 1, 118, 16,
    149, 48, 10, 18, 8, 12, 42, 14, 10, 1, 116, 18, 9, 18, 7, 10, 2, 2, 1, 18, 1, 49, 10, 18, 8, 12, 42, 14, 10, 1,
    116, 18, 9, 10, 7, 10, 2, 2, 0, 18, 1, 50, 10, 52, 8, 1, 26, 48, 77, 121, 83, 81, 76, 53, 54, 47, 51, 101, 49, 49,
    102, 97, 52, 55, 45, 55, 49, 99, 97, 45, 49, 49, 101, 49, 45, 57, 101, 51, 51, 45, 99, 56, 48, 97, 97, 57, 52, 50,
    57, 53, 54, 50, 58, 49, 45, 49, 10, 2, 8, 3, 62, 10, 2, 8, 2, 10, 52, 8, 1, 26, 48, 77, 121, 83, 81, 76, 53, 54,
    47, 51, 101, 49, 49, 102, 97, 52, 55, 45, 55, 49, 99, 97, 45, 49, 49, 101, 49, 45, 57, 101, 51, 51, 45, 99, 56,
    48, 97, 97, 57, 52, 50, 57, 53, 54, 50, 58, 49, 45, 57, 10, 2, 8, 3,
};

static void groups(void) {
    uint8_t *feed = exact(FEED, sizeof FEED), few[8] = "abcdefg", *room;
    size_t length, size;
    CHECK(vrepl_groups(feed, sizeof FEED, few, 0, few, 0, few, sizeof few, &length) == 0 && length > sizeof few && few[0] == 'a');
    size_t wanted = length;
    room = malloc(wanted);
    CHECK(vrepl_groups(feed, sizeof FEED, TEXT("ks"), TEXT("-80"), room, wanted, &length) == 0 && length == wanted);
    vrepl_cursor cursor = {room, room + length};
    const char *position = "3e11fa47-71ca-11e1-9e33-c80aa9429562:1";
    CHECK(vrepl_number(&cursor) == 1);
    const uint8_t *text = vrepl_bytes(&cursor, &size);
    CHECK(size == strlen(position) && memcmp(text, position, size) == 0 && vrepl_number(&cursor) == 2);
    // the insert
    text = vrepl_bytes(&cursor, &size);
    CHECK(size == 1 && *text == 't' && vrepl_number(&cursor) == UINT64_MAX && vrepl_number(&cursor) == 2);
    text = vrepl_bytes(&cursor, &size);
    CHECK(size == 1 && *text == '1' && vrepl_bytes(&cursor, &size) == NULL && size == 0);
    // the delete
    text = vrepl_bytes(&cursor, &size);
    CHECK(size == 1 && *text == 't' && vrepl_number(&cursor) == 2);
    text = vrepl_bytes(&cursor, &size);
    CHECK(size == 1 && *text == '2' && vrepl_bytes(&cursor, &size) != NULL && size == 0 && vrepl_number(&cursor) == UINT64_MAX);
    // the position alone
    CHECK(vrepl_number(&cursor) == 2 && vrepl_bytes(&cursor, &size) != NULL && size == 40 && vrepl_number(&cursor) == 0);
    CHECK(cursor.at == cursor.end);
    CHECK(vrepl_groups(feed, sizeof FEED - 1, few, 0, few, 0, room, wanted, &length) == 81);
    CHECK(vrepl_groups(feed, sizeof FEED, (const uint8_t *)"\xff", 1, few, 0, room, wanted, &length) == 24);
    CHECK(vrepl_groups(feed, 0, few, 0, few, 0, room, 0, &length) == 0 && length == 0);
    free(room), free(feed);
}

int main(void) {
    words();
    positions();
    ranges();
    ids();
    messages();
    workflows();
    told();
    plans();
    dumps();
    keys();
    groups();
    return 0;
}
