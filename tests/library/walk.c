/* usage: walk FILE
 *
 * Makes each call once more that tests/library/noted.py wrote into FILE, and looks whether it answers as it did then: each with
 * copies of its inputs that end where they are said to end, first with rooms of no bytes and then with rooms of just as many as
 * it gives, so that valgrind and AddressSanitizer find what lies beyond, and what isn't given back. FILE is numbers of eight
 * bytes, the least first: 0, a length and so many bytes, which are the next text from 1 on; or the number of a call's name among
 * the texts, its inputs, its answer, and where that is 0, or 121, what it gives. Prints how many calls were made. */
#include "vrepl.h"
#include <stdio.h>
#include <stdlib.h>
#include <string.h>

#define BAD_DUMP 121
#define MOST 8

typedef struct {
    uint8_t *at;
    size_t length;
    uint64_t number;
} input;

typedef struct {
    uint8_t *at;
    size_t size, length;
    bool yes;
    uint32_t word;
    vrepl_counts counts;
} output;

#define BYTES(i) in[i].at, in[i].length
#define ROOM(i) out[i].at, out[i].size, &out[i].length
#define CALL(name, ...) \
    static uint32_t call_##name(const input *in, output *out) { return vrepl_##name(__VA_ARGS__); }

CALL(gtid_set, BYTES(0), ROOM(0))
CALL(gtid_contains, BYTES(0), in[1].at, in[2].number, &out[0].yes)
CALL(gtid_is_within, BYTES(0), BYTES(1), &out[0].yes)
CALL(gtid_union, BYTES(0), BYTES(1), ROOM(0))
CALL(key_range, BYTES(0), ROOM(0), ROOM(1))
CALL(key_ranges_tile, BYTES(0), &out[0].yes)
CALL(key_range_holds, BYTES(0), BYTES(1), &out[0].yes)
CALL(vindex_id, BYTES(0), in[1].number, BYTES(2), ROOM(0))
CALL(message, BYTES(0), &out[0].length, &out[1].length)
CALL(workflow, BYTES(0), &out[0].length)
CALL(workflow_check, BYTES(0), &out[0].word, ROOM(1))
CALL(workflow_rules, BYTES(0), ROOM(0))
CALL(plan, BYTES(0), in[1].number, ROOM(0))
CALL(row_passes, BYTES(0), in[1].number, BYTES(2), BYTES(3), &out[0].yes)
CALL(row_key, BYTES(0), in[1].number, BYTES(2), BYTES(3), ROOM(0))
CALL(dump, BYTES(0), BYTES(1), &out[0].length, &out[1].length, ROOM(2))
CALL(compare, BYTES(0), BYTES(1), BYTES(2), in[3].number, &out[0].counts, &out[1].length, &out[2].yes, ROOM(3))
CALL(groups, BYTES(0), BYTES(1), BYTES(2), ROOM(0))

/* The calls, with what each takes and gives, in its order; noted.py reads them here. It takes b bytes, u a uuid, n a number. It
 * gives y a bool, p a number, w one of 32 bits, c counts, r what goes into a room; l a number and i a bool with BAD_DUMP alone. */
static const struct {
    const char *name, *takes, *gives;
    uint32_t (*call)(const input *, output *);
} CALLS[] = {
    {"vrepl_gtid_set", "b", "r", call_gtid_set},
    {"vrepl_gtid_contains", "bun", "y", call_gtid_contains},
    {"vrepl_gtid_is_within", "bb", "y", call_gtid_is_within},
    {"vrepl_gtid_union", "bb", "r", call_gtid_union},
    {"vrepl_key_range", "b", "rr", call_key_range},
    {"vrepl_key_ranges_tile", "b", "y", call_key_ranges_tile},
    {"vrepl_key_range_holds", "bb", "y", call_key_range_holds},
    {"vrepl_vindex_id", "bnb", "r", call_vindex_id},
    {"vrepl_message", "b", "pp", call_message},
    {"vrepl_workflow", "b", "p", call_workflow},
    {"vrepl_workflow_check", "b", "wr", call_workflow_check},
    {"vrepl_workflow_rules", "b", "r", call_workflow_rules},
    {"vrepl_plan", "bn", "r", call_plan},
    {"vrepl_row_passes", "bnbb", "y", call_row_passes},
    {"vrepl_row_key", "bnbb", "r", call_row_key},
    {"vrepl_dump", "bb", "plr", call_dump},
    {"vrepl_compare", "bbbn", "clir", call_compare},
    {"vrepl_groups", "bbb", "r", call_groups},
};

static uint8_t *file;
static size_t at, size;
static struct {
    const uint8_t *at;
    size_t length;
} *texts;
static size_t known;

static void fail(const char *why) {
    fprintf(stderr, "walk: byte %zu of the file: %s\n", at, why);
    exit(1);
}

static uint64_t number(void) {
    uint64_t found = 0;
    if (size - at < 8) fail("cut short");
    for (int i = 7; i >= 0; i--) found = found << 8 | file[at + i];
    at += 8;
    return found;
}

static size_t text(void) {
    uint64_t found = number();
    if (!found || found > known) fail("no such text");
    return found - 1;
}

static void new_text(void) {
    size_t length = number();
    if (length > size - at) fail("cut short");
    if ((known & (known + 1)) == 0 && !(texts = realloc(texts, (2 * known + 1) * sizeof *texts))) fail("no memory");
    texts[known].at = file + at, texts[known++].length = length;
    at += length;
}

static uint8_t *of_size(size_t length) {
    uint8_t *made = malloc(length);
    if (!made) fail("no memory");
    return made;
}

/* What was noted of a call: its inputs, its answer, and what it gave. */
typedef struct {
    size_t call, texts[MOST];
    uint64_t answer, numbers[MOST], counts[5];
} note;

static bool is_given(char kind, uint64_t answer) {
    return strchr("li", kind) ? answer == BAD_DUMP : answer == 0;
}

static note next_note(size_t name) {
    note found = {0};
    while (found.call < sizeof CALLS / sizeof *CALLS &&
           (strlen(CALLS[found.call].name) != texts[name].length || memcmp(CALLS[found.call].name, texts[name].at, texts[name].length) != 0)) found.call++;
    if (found.call == sizeof CALLS / sizeof *CALLS) fail("no such call");
    return found;
}

static void free_all(const note *noted, input *in, output *out) {
    for (size_t i = 0; CALLS[noted->call].takes[i]; i++) free(in[i].at);
    for (size_t i = 0; CALLS[noted->call].gives[i]; i++) free(out[i].at);
}

static bool is_as_noted(const note *noted, size_t i, const output *out, bool has_room) {
    const vrepl_counts *counts = &out->counts;
    size_t length = texts[noted->texts[i]].length;
    switch (CALLS[noted->call].gives[i]) {
    case 'y': case 'i': return out->yes == noted->numbers[i];
    case 'p': case 'l': return out->length == noted->numbers[i];
    case 'w': return out->word == noted->numbers[i];
    case 'c': return counts->processed == noted->counts[0] && counts->matching == noted->counts[1] && counts->mismatched == noted->counts[2] &&
                     counts->extra_source == noted->counts[3] && counts->extra_target == noted->counts[4];
    default: return out->length == length && (!has_room || memcmp(out->at, texts[noted->texts[i]].at, length) == 0);
    }
}

/* Makes a call with copies of its inputs, and with rooms that have no bytes or just as many as were given. */
static void make(const note *noted, const size_t *given, const uint64_t *numbers, bool has_room) {
    input in[MOST] = {0};
    output out[MOST] = {0};
    const char *takes = CALLS[noted->call].takes, *gives = CALLS[noted->call].gives;
    for (size_t i = 0; takes[i]; i++) {
        in[i].number = numbers[i];
        if (takes[i] == 'n') continue;
        in[i].length = texts[given[i]].length;
        in[i].at = of_size(in[i].length);
        memcpy(in[i].at, texts[given[i]].at, in[i].length);
    }
    for (size_t i = 0; gives[i]; i++) {
        if (gives[i] != 'r') continue;
        out[i].size = has_room && noted->answer == 0 ? texts[noted->texts[i]].length : 0;
        out[i].at = of_size(out[i].size);
    }
    if (CALLS[noted->call].call(in, out) != noted->answer) fail("another answer");
    for (size_t i = 0; gives[i]; i++)
        if (is_given(gives[i], noted->answer) && !is_as_noted(noted, i, &out[i], has_room)) fail("it gives something else");
    free_all(noted, in, out);
}

static void walk_over(size_t name) {
    note noted = next_note(name);
    size_t given[MOST] = {0};
    uint64_t numbers[MOST] = {0};
    const char *takes = CALLS[noted.call].takes, *gives = CALLS[noted.call].gives;
    for (size_t i = 0; takes[i]; i++)
        if (takes[i] == 'n') numbers[i] = number();
        else given[i] = text();
    noted.answer = number();
    bool has_rooms = false;
    for (size_t i = 0; gives[i]; i++) {
        if (!is_given(gives[i], noted.answer)) continue;
        has_rooms |= gives[i] == 'r';
        if (gives[i] == 'r') noted.texts[i] = text();
        else if (gives[i] == 'c') for (int k = 0; k < 5; k++) noted.counts[k] = number();
        else noted.numbers[i] = number();
    }
    make(&noted, given, numbers, false);
    if (has_rooms) make(&noted, given, numbers, true);
}

int main(int count, char **words) {
    FILE *from = count == 2 ? fopen(words[1], "rb") : NULL;
    if (!from || fseek(from, 0, SEEK_END)) return 2;
    size = (size_t)ftell(from);
    rewind(from);
    file = of_size(size);
    if (fread(file, 1, size, from) != size || fclose(from)) fail("it can't be read");
    size_t made = 0;
    while (at < size) {
        uint64_t what = number();
        if (!what) new_text();
        else if (what > known) fail("no such text");
        else walk_over(what - 1), made++;
    }
    printf("%zu calls\n", made);
    free(texts), free(file);
    return 0;
}
