/* structs.c: the inline functions of include/c13.h, held against the calls that they make. What it prints is held against structs.stdout.
 *
 *   structs AREA NAMES    the files examples/table.c13 and examples/table.names
 *
 * First the example as a user would read it; then every walk and every question, on an area with every table, a string table and a module, whole, cut at
 * each length and with each byte spoilt: the same status, the same words, the same refusal as from the call. */
#include "c13.h"
#include <stdio.h>
#include <stdlib.h>
#include <string.h>

typedef unsigned long long shown;

/* How many readings of end lines there are: from this number on a number names none. */
enum { READINGS = C13_END_LINES_DELTA + 1 };

/* ---- the example, by structs alone */

static void read_area(const uint8_t *area, size_t n, const uint8_t *names, size_t k) {
    uint32_t slots[16], bodies[16];
    size_t used = 0, count, i;
    enum c13_status status;
    struct c13_refused why;
    struct c13_sub sub;
    struct c13_file file;
    struct c13_line line, four[4];
    struct c13_part name;
    struct c13_sub_walk subs = c13_sub_walk_begin(area, n);
    struct c13_file_walk files = c13_file_walk_begin(area, n);
    struct c13_line_walk lines;
    printf("-- the example, version %s\n", C13_VERSION);
    while (c13_sub_walk_next(&subs, &sub) == C13_GIVEN)
        printf("%s of %llu bytes at %llu\n", sub.kind == C13_KIND_LINES ? "lines" : sub.kind == C13_KIND_FILE_CHECKSUMS ? "checksums" : "?", (shown)sub.length,
               (shown)sub.start);
    while (c13_file_walk_next(&files, &file) == C13_GIVEN) {
        if (c13_ask_name(names, k, file.name, &name, &why) != C13_GIVEN) exit(1);
        printf("file %llu %.*s %s ", (shown)file.index, (int)name.length, (const char *)names + name.start, file.kind == C13_CHECKSUM_MD5 ? "md5" : "?");
        for (i = 0; i < file.length; i++) printf("%02x", area[file.start + i]);
        printf("\n");
    }
    if (c13_ask_order_list(area, n, slots, 16, &used, &why) != C13_GIVEN || c13_ask_body_list(area, n, bodies, 16, &used, &why) != C13_GIVEN) exit(1);
    lines = c13_line_walk_begin(area, n, slots, used, bodies, used);
    do {
        status = c13_line_walk_many(&lines, four, 4, &count);
        for (i = 0; i < count; i++)
            printf("%llu:%llx line %llu%s", (shown)four[i].section, (shown)four[i].offset, (shown)four[i].start_line, i == count - 1 ? "\n" : ", ");
    } while (status == C13_GIVEN);
    printf("the last ones came with %s; behind them is %s\n", status == C13_LAST ? "the end" : "?",
           c13_line_walk_many(&lines, four, 4, &count) == C13_NONE ? "nothing" : "?");
    if (c13_line_walk_begin_symbol(&lines, area, n, slots, used, bodies, used, 1, 0x71, C13_END_LINES_CRATE) != C13_GIVEN) exit(1);
    while (c13_line_walk_next(&lines, &line) == C13_GIVEN)
        if (line.offset <= 0x88 && line.has_length && 0x88 < line.offset + line.length) {
            if (c13_ask_file_at(area, n, line.file, &file, &why) != C13_GIVEN || c13_ask_name(names, k, file.name, &name, &why) != C13_GIVEN) exit(1);
            printf("1:88 is of %.*s, line %llu, of the subsection whose body starts at %llu\n", (int)name.length, (const char *)names + name.start, (shown)line.start_line,
                   (shown)line.body);
        }
    if (lines.refused.number) exit(1);
}

/* What a word of one call does to the walk of another, and that a walk of its own has no such word. */
static void words_of_another(const uint8_t *area, size_t n) {
    uint32_t slots[16];
    uint64_t out[C13_MOST] = {0};
    size_t used = 0;
    struct c13_line_walk walk;
    struct c13_line line;
    printf("-- words of another call\n");
    if (c13_order_list(area, n, slots, 16, out, C13_MOST) != C13_GIVEN) exit(1);
    used = (size_t)out[0];
    printf("c13_next_line with the words of c13_order_list: status %u\n", c13_next_line(area, n, slots, used, NULL, 0, out, C13_MOST));
    walk = c13_line_walk_begin(area, n, slots, used, NULL, 0);
    if (c13_line_walk_next(&walk, &line) != C13_GIVEN) exit(1);
    printf("c13_line_walk_next: given, line %llu\n", (shown)line.start_line);
}

/* End lines by each reading, in walks over all lines and over those of a symbol. The largest by low bits and by delta are among them. */
static void read_ends(void) {
    static const uint32_t words[] = {
        0xf2, 32, 0x2000, 1, 4, 0, 1, 20, 0, 0x8200000a,
        0xf2, 64, 0x1000, 1, 20, 0, 5, 52, 0, 0x8c00000a, 4, 0x0200007f, 8, 0x00ffffff, 12, 0x7effffff, 16, 0x7fffffff,
    };
    uint8_t area[sizeof words];
    uint32_t slots[2];
    size_t used = 0;
    struct c13_line line;
    for (size_t i = 0; i < sizeof words; i++) area[i] = (uint8_t)(words[i / 4] >> 8 * (i % 4));
    printf("-- end lines\n");
    if (c13_ask_order_list(area, sizeof area, slots, 2, &used, NULL) != C13_GIVEN) exit(1);
    for (uint32_t reading = C13_END_LINES_CRATE; reading < READINGS; reading++) {
        struct c13_line_walk walk = c13_line_walk_begin_by(area, sizeof area, slots, used, NULL, 0, reading);
        printf("reading %u:", reading);
        while (c13_line_walk_next(&walk, &line) == C13_GIVEN) printf(" %u to %u,", line.start_line, line.end_line);
        if (c13_line_walk_begin_symbol(&walk, area, sizeof area, slots, used, NULL, 0, 1, 0x2003, reading) != C13_GIVEN) exit(1);
        printf(" of a symbol");
        while (c13_line_walk_next(&walk, &line) == C13_GIVEN) printf(" %u to %u\n", line.start_line, line.end_line);
    }
}

/* ---- every inline function against its call */

static unsigned compared, given, refused;

static int answered(uint32_t status) { return status == C13_GIVEN || status == C13_LAST; }

/* Two answers to the same: the call's status and words, and the struct's status, fields and refusal. */
static void same(const char *what, uint32_t status, const void *words, enum c13_status told, const void *fields, size_t size,
                 const struct c13_refused *why) {
    int right = status == (uint32_t)told;
    uint64_t refusal[2];
    if (answered(status)) right = right && !memcmp(words, fields, size);
    if (status == C13_REFUSED) {
        memcpy(refusal, words, sizeof refusal);
        right = right && why->number == refusal[0] && why->carried == refusal[1];
    } else
        right = right && !why->number && !why->carried;
    if (!right) {
        printf("%s: another answer\n", what);
        exit(1);
    }
    compared++, given += answered(status), refused += status == C13_REFUSED;
}

static void as_area(const char *what, int right) {
    if (right) return;
    printf("%s: another answer than of the area\n", what);
    exit(1);
}

/* Both walks, record by record, and their last answer a second time. The choice is that of a walk over lines, to others it is no part of their state. */
#define SAME_WALK(what, choice, call, state, walk_next, walk, record)                            \
    do {                                                                                         \
        uint64_t out[C13_MOST] = {0};                                                            \
        uint32_t status, ended = 0;                                                              \
        out[C13_STATE_END_LINES] = choice;                                                       \
        do {                                                                                     \
            status = call;                                                                       \
            enum c13_status told = walk_next(&walk, &record);                                    \
            same(what, status, out + state, told, &record, sizeof record, &walk.refused);        \
            ended += status != C13_GIVEN;                                                        \
        } while (ended < 2);                                                                     \
    } while (0)

/* The lists of an area. A walk is lent the right body list, the call that it is held against none or a wrong one: the answers are the same. */
static uint32_t slots[16], bodies[16];
static const uint32_t wrong[] = {8, 40, 96};

/* A line's fields, of 32 bits, in words of 64 as c13_next_line gives them. */
struct line_words {
    uint64_t words[C13_RECORD];
};
static enum c13_status next_line(struct c13_line_walk *walk, struct line_words *to) {
    struct c13_line line;
    enum c13_status status = c13_line_walk_next(walk, &line);
    if (status == C13_GIVEN) {
        const struct line_words fields = {{line.section, line.offset, line.has_length, line.length, line.file, line.start_line, line.end_line,
                                           line.has_start_column, line.start_column, line.has_end_column, line.end_column, line.is_statement,
                                           line.body}};
        *to = fields;
    }
    return status;
}

static void lines_many(const uint8_t *area, size_t n, size_t used, uint64_t reading) {
    uint64_t out[C13_MOST] = {0};
    uint32_t words[3 * C13_RECORD];
    struct c13_line three[3];
    struct c13_line_walk walk = c13_line_walk_begin_by(area, n, slots, used, bodies, used, reading);
    size_t count, room = 0;
    uint32_t status;
    out[C13_STATE_END_LINES] = reading;
    do {
        status = c13_lines(area, n, slots, used, wrong, 3, words, room * C13_RECORD, out, C13_MOST);
        enum c13_status told = c13_line_walk_many(&walk, three, room, &count);
        if (count != (answered(status) ? out[C13_LINE_STATE] : 0)) exit(1);
        same("c13_line_walk_many", status, answered(status) ? (const void *)words : out + C13_LINE_STATE, told, three, count * sizeof *three, &walk.refused);
        if (status == C13_LAST && c13_next_line(area, n, slots, used, NULL, 0, out, C13_MOST) != C13_NONE) exit(1);
        if (status == C13_LAST && c13_line_walk_many(&walk, three, 3, &count) != C13_NONE) exit(1);
        room = room == 3 ? 1 : room + 1;
    } while (status == C13_GIVEN || room == 1); /* the first has no room, and is refused for that alone */
}

/* A file's fields, of 32 bits, in words of 64 as c13_next_file and c13_file_at give them. */
struct file_words {
    uint64_t words[C13_FILE_RECORD];
};
static void widen(struct file_words *to, const struct c13_file *file) {
    to->words[0] = file->index, to->words[1] = file->name, to->words[2] = file->kind, to->words[3] = file->start, to->words[4] = file->length;
}
static enum c13_status next_file(struct c13_file_walk *walk, struct file_words *to) {
    struct c13_file file;
    enum c13_status status = c13_file_walk_next(walk, &file);
    if (status == C13_GIVEN) widen(to, &file);
    return status;
}

static void files_many(const uint8_t *area, size_t n) {
    uint64_t out[C13_MOST] = {0};
    uint32_t words[3 * C13_FILE_RECORD];
    struct c13_file three[3];
    struct c13_file_walk walk = c13_file_walk_begin(area, n);
    size_t count, room = 0;
    uint32_t status;
    do {
        status = c13_files(area, n, words, room * C13_FILE_RECORD, out, C13_MOST);
        enum c13_status told = c13_file_walk_many(&walk, three, room, &count);
        if (count != (answered(status) ? out[C13_TABLE_STATE] : 0)) exit(1);
        same("c13_file_walk_many", status, answered(status) ? (const void *)words : out + C13_TABLE_STATE, told, three, count * sizeof *three, &walk.refused);
        if (status == C13_LAST && c13_next_file(area, n, out, C13_MOST) != C13_NONE) exit(1);
        room = room == 3 ? 1 : room + 1;
    } while (status == C13_GIVEN || room == 1);
}

static void symbol_lines(const uint8_t *area, size_t n, size_t used, uint32_t offset, uint32_t reading) {
    uint64_t out[C13_MOST] = {0};
    struct c13_line_walk walk;
    struct line_words line;
    uint32_t status = c13_lines_for_symbol(area, n, slots, used, wrong, 3, 1, offset, reading, out, C13_MOST);
    enum c13_status told = c13_line_walk_begin_symbol(&walk, area, n, slots, used, bodies, used, 1, offset, reading);
    same("c13_line_walk_begin_symbol", status, out, told, walk.out, C13_LINE_STATE * sizeof *out, &walk.refused);
    while (status == C13_GIVEN) {
        status = c13_next_line(area, n, slots, used, NULL, 0, out, C13_MOST);
        told = next_line(&walk, &line);
        same("lines of a symbol", status, out + C13_LINE_STATE, told, &line, sizeof line, &walk.refused);
    }
    /* a walk that was not begun is refused, and not begun at the area's start */
    if (told == C13_REFUSED && next_line(&walk, &line) != C13_REFUSED) exit(1);
}

/* All lines, one and many a call, and those of symbols: by a reading. */
static void lines_by(const uint8_t *area, size_t n, size_t used, uint32_t reading) {
    struct line_words line;
    struct c13_line_walk lines = c13_line_walk_begin_by(area, n, slots, used, bodies, used, reading);
    if (reading == C13_END_LINES_CRATE) lines = c13_line_walk_begin(area, n, slots, used, bodies, used);
    SAME_WALK("c13_line_walk_next", reading, c13_next_line(area, n, slots, used, NULL, 0, out, C13_MOST), C13_LINE_STATE, next_line, lines, line);
    lines_many(area, n, used, reading);
    symbol_lines(area, n, used, 0x1000, reading);
    symbol_lines(area, n, used, 0x1001, reading);
    symbol_lines(area, n, used, 0, reading);
    symbol_lines(area, n, used + 1, 0x1000, reading); /* a slot that is not of this area */
}

/* A number that names no reading: each way to begin a walk leads to C13_NO_SUCH_CHOICE at each step, without a refusal, and stores no line. */
static void no_such_choice(const uint8_t *area, size_t n, size_t used, uint64_t none) {
    struct c13_line line, kept;
    struct c13_line_walk walk = c13_line_walk_begin_by(area, n, slots, used, bodies, used, none);
    size_t count = 1;
    memset(&line, 0xee, sizeof line), kept = line;
    for (int begun = 0; begun < 2; begun++) {
        int right = 1;
        if (begun) right = c13_line_walk_begin_symbol(&walk, area, n, slots, used, bodies, used, 1, 0x1000, none) == C13_NO_SUCH_CHOICE;
        for (int step = 0; step < 2; step++) {
            right = right && c13_line_walk_next(&walk, &line) == C13_NO_SUCH_CHOICE;
            right = right && c13_line_walk_many(&walk, &line, 1, &count) == C13_NO_SUCH_CHOICE && count == 0;
            right = right && !walk.refused.number && walk.out[C13_STATE_END_LINES] == none;
        }
        if (!right || memcmp(&line, &kept, sizeof line)) {
            printf("no such choice: another answer\n");
            exit(1);
        }
        compared++;
    }
}

/* A file of the checksum data alone: as from the call, and as c13_file_at finds it in the area, but for the place of its bytes. */
static void files_in(const uint8_t *area, size_t n, struct c13_part data, uint32_t index) {
    uint64_t out[5] = {index, 0, 0, 0, 0}, whole[4] = {0, 0, 0, 0};
    struct c13_file file;
    struct file_words wide;
    struct c13_refused why;
    uint32_t status = c13_file_in(area + data.start, (size_t)data.length, index, out + 1, 4);
    enum c13_status told = c13_ask_file_in(area + data.start, (size_t)data.length, index, &file, &why);
    if (told == C13_GIVEN) widen(&wide, &file);
    same("c13_ask_file_in", status, status == C13_GIVEN ? out : out + 1, told, &wide, sizeof wide, &why);
    if (c13_checksums(area, n, whole, 2) != C13_GIVEN) return;
    if (c13_file_at(area, n, index, whole, 4) != status) exit(1);
    if (status == C13_GIVEN) whole[2] -= data.start;
    if (memcmp(whole, out + 1, (status == C13_GIVEN ? 4 : 2) * sizeof *whole)) exit(1);
}

static void area_questions(const uint8_t *area, size_t n) {
    static const uint64_t indices[] = {0, 1, 7, 23, 24, 25, 0x80000000, 0x80000001, 0x80000008, 0x80100000, UINT32_MAX};
    uint64_t out[C13_MOST], fields[5];
    struct c13_file file;
    struct file_words wide;
    struct c13_refused why;
    uint32_t status;
    for (size_t i = 0; i < sizeof indices / sizeof *indices; i++) {
        uint32_t index = (uint32_t)indices[i];
        status = c13_file_at(area, n, index, out + 1, 4), out[0] = index;
        enum c13_status told = c13_ask_file_at(area, n, index, &file, &why);
        if (told == C13_GIVEN) widen(&wide, &file);
        same("c13_ask_file_at", status, status == C13_GIVEN ? out : out + 1, told, &wide, sizeof wide, &why);
        status = c13_resolve_import(area, n, index, out, 2);
        told = c13_ask_resolve_import(area, n, index, fields, fields + 1, &why);
        same("c13_ask_resolve_import", status, out, told, fields, 16, &why);
        status = c13_resolve_export(area, n, index, out, 2);
        told = c13_ask_resolve_export(area, n, index, fields, &why);
        same("c13_ask_resolve_export", status, out, told, fields, 8, &why);
        status = c13_word(area, n, 8, 2, index, out, 2);
        told = c13_ask_word(area, n, 8, 2, index, fields, &why);
        same("c13_ask_word", status, out, told, fields, 8, &why);
    }
    struct c13_part data = {0, 0};
    status = c13_checksums(area, n, out, 2);
    same("c13_ask_checksums", status, out, c13_ask_checksums(area, n, &data, &why), &data, sizeof data, &why);
    for (size_t i = 0; i < sizeof indices / sizeof *indices; i++) files_in(area, n, data, (uint32_t)indices[i]);
    status = c13_export_count(area, n, out, 2);
    same("c13_ask_export_count", status, out, c13_ask_export_count(area, n, fields, &why), fields, 8, &why);
}

/* The list of the imports and the body of the exports: asked by structs as by words; and with what was found of an area, or refused, the answers are those of
 * the area's own calls. */
static void found_once(const uint8_t *area, size_t n) {
    static const uint32_t indices[] = {0, 1, 7, 8, 0x80000000, 0x80000001, 0x80000002, 0x80000008, 0x80100000, UINT32_MAX};
    uint32_t places[32];
    uint64_t out[C13_MOST], other[2], fields[3];
    size_t used = 0;
    struct c13_part part = {0, 0};
    struct c13_export exported;
    struct c13_refused why;
    uint32_t listed = c13_import_list(area, n, places, 32, out, 2), found, status;
    enum c13_status told = c13_ask_import_list(area, n, places, 32, &used, &why);
    uint64_t taken = used;
    same("c13_ask_import_list", listed, out, told, &taken, 8, &why);
    found = c13_export_body(area, n, out, 2);
    same("c13_ask_export_body", found, out, c13_ask_export_body(area, n, &part, &why), &part, sizeof part, &why);
    for (size_t i = 0; i < sizeof indices / sizeof *indices; i++) {
        status = c13_resolve_listed(area, n, places, used, indices[i], out, 2);
        told = c13_ask_resolve_listed(area, n, places, used, indices[i], fields, fields + 1, &why);
        same("c13_ask_resolve_listed", status, out, told, fields, 16, &why);
        if (listed != C13_GIVEN) status = c13_import_list(area, n, places, 32, out, 2);
        as_area("c13_resolve_listed", status == c13_resolve_import(area, n, indices[i], other, 2) && !memcmp(out, other, 16));
        status = c13_export_at(area + part.start, part.length, i, out, 3);
        same("c13_ask_export_at", status, out, c13_ask_export_at(area + part.start, part.length, i, &exported, &why), &exported, sizeof exported, &why);
        out[0] = other[0] = 0;
        status = c13_export_in(area + part.start, part.length, indices[i], out, 2);
        told = c13_ask_export_in(area + part.start, part.length, indices[i], fields, &why);
        same("c13_ask_export_in", status, out, told, fields, 8, &why);
        if (found != C13_GIVEN) status = c13_export_body(area, n, out, 2);
        as_area("c13_export_in", status == c13_resolve_export(area, n, indices[i], other, 2) && out[0] == other[0]);
    }
    as_area("c13_export_body", found != C13_GIVEN || (c13_export_count(area, n, out, 2) == C13_GIVEN && out[0] == part.length / 8));
}

static void hold_area(const uint8_t *area, size_t n) {
    uint64_t out[2] = {0};
    size_t used = 0;
    struct c13_refused why;
    struct c13_sub sub;
    struct file_words file;
    struct c13_inlinee inlinee;
    struct c13_import imported;
    struct c13_export exported;
    struct c13_sub_walk subs = c13_sub_walk_begin(area, n);
    struct c13_file_walk files = c13_file_walk_begin(area, n);
    struct c13_inlinee_walk inlinees = c13_inlinee_walk_begin(area, n);
    struct c13_import_walk imports = c13_import_walk_begin(area, n);
    struct c13_export_walk exports = c13_export_walk_begin(area, n);
    uint32_t status = c13_order_list(area, n, slots, 16, out, 2);
    enum c13_status told = c13_ask_order_list(area, n, slots, 16, &used, &why);
    uint64_t listed = used;
    same("c13_ask_order_list", status, out, told, &listed, 8, &why);
    status = c13_body_list(area, n, bodies, 16, out, 2);
    told = c13_ask_body_list(area, n, bodies, 16, &used, &why);
    listed = used;
    same("c13_ask_body_list", status, out, told, &listed, 8, &why);
    SAME_WALK("c13_sub_walk_next", 0, c13_next_sub(area, n, out, C13_MOST), C13_SUB_STATE, c13_sub_walk_next, subs, sub);
    SAME_WALK("c13_file_walk_next", 0, c13_next_file(area, n, out, C13_MOST), C13_TABLE_STATE, next_file, files, file);
    SAME_WALK("c13_inlinee_walk_next", 0, c13_next_inlinee(area, n, out, C13_MOST), C13_TABLE_STATE, c13_inlinee_walk_next, inlinees, inlinee);
    SAME_WALK("c13_import_walk_next", 0, c13_next_import(area, n, out, C13_MOST), C13_TABLE_STATE, c13_import_walk_next, imports, imported);
    SAME_WALK("c13_export_walk_next", 0, c13_next_export(area, n, out, C13_MOST), C13_TABLE_STATE, c13_export_walk_next, exports, exported);
    for (uint32_t reading = C13_END_LINES_CRATE; reading < READINGS; reading++) lines_by(area, n, used, reading);
    no_such_choice(area, n, used, READINGS);
    no_such_choice(area, n, used, UINT64_C(1) << 32); /* its low half is a reading */
    no_such_choice(area, n, used, UINT64_MAX);
    files_many(area, n);
    area_questions(area, n);
    found_once(area, n);
}

static void hold_names(const uint8_t *names, size_t n) {
    uint64_t out[2] = {0};
    struct c13_part part;
    struct c13_refused why;
    uint32_t status = c13_string_table(names, n, out, 2);
    same("c13_ask_string_table", status, out, c13_ask_string_table(names, n, &part, &why), &part, sizeof part, &why);
    for (uint32_t offset = 0; offset < 24; offset++) {
        status = c13_name(names, n, offset, out, 2);
        same("c13_ask_name", status, out, c13_ask_name(names, n, offset, &part, &why), &part, sizeof part, &why);
    }
    /* above 32 bits: no name, and not the one of the low bits */
    if (c13_ask_name(names, n, UINT64_C(0x100000002), &part, &why) != C13_REFUSED) exit(1);
}

static void hold_module(const uint8_t *stream, size_t n) {
    static const uint32_t tried[] = {0, 4, 8, UINT32_MAX};
    uint64_t out[2] = {0};
    struct c13_part part;
    struct c13_refused why;
    for (size_t i = 0; i < 64; i++) {
        struct c13_sizes sizes = {tried[i % 4], tried[i / 4 % 4], tried[i / 16]};
        uint32_t status = c13_module_symbols(stream, n, sizes.symbols, sizes.c11, sizes.c13, out, 2);
        same("c13_ask_module_symbols", status, out, c13_ask_module_symbols(stream, n, sizes, &why), &part, 0, &why);
        status = c13_lines_part(stream, n, sizes.symbols, sizes.c11, sizes.c13, out, 2);
        same("c13_ask_lines_part", status, out, c13_ask_lines_part(stream, n, sizes, &part, &why), &part, sizeof part, &why);
        status = c13_tables_part(stream, n, sizes.symbols, sizes.c11, sizes.c13, out, 2);
        same("c13_ask_tables_part", status, out, c13_ask_tables_part(stream, n, sizes, &part, &why), &part, sizeof part, &why);
    }
}

/* Whole, cut at each length, and with each byte spoilt in four ways. */
static void damaged(const char *what, void (*hold)(const uint8_t *, size_t), const uint8_t *bytes, size_t n) {
    static const uint8_t spoils[] = {0x01, 0x04, 0x80, 0xff};
    uint8_t *copy = (uint8_t *)malloc(n + 1);
    compared = given = refused = 0;
    if (!copy) exit(1);
    for (size_t i = 0; i <= n; i++) hold(bytes, i);
    for (size_t i = 0; i < 4 * n; i++) {
        memcpy(copy, bytes, n);
        copy[i / 4] ^= spoils[i % 4];
        hold(copy, n);
    }
    free(copy);
    printf("%s: %u answers, %u given, %u refused, all the same\n", what, compared, given, refused);
}

/* An area with every table: files, lines with a column, inlinees with extra files, imports, exports. */
static const uint32_t every[] = {
    0xf4, 24, 1, 0x01000110, 0x05040302, 0x09080706, 0x0d0c0b0a, 0x00000f0e,
    0xf2, 48, 0x1000, 0x00010001, 0x20, 0, 2, 36, 0, 0x8200000a, 8, 0x8500000c, 0x00020001, 0x00040003,
    0xf2, 32, 0x0800, 1, 0x20, 0, 1, 20, 4, 0x03000014,
    0xf6, 28, 1, 0x1000, 0, 7, 2, 24, 48,
    0xf7, 28, 5, 2, 0x1003, 0x1004, 9, 1, 0x1007,
    0xf8, 24, 1, 0x1001, 7, 0x1007, 0x80000008, 0x1008,
};

static size_t read_file(const char *path, uint8_t *to) {
    FILE *f = fopen(path, "rb");
    if (!f) exit(3);
    size_t n = fread(to, 1, 4096, f);
    fclose(f);
    return n;
}

int main(int argc, char **argv) {
    static uint8_t area[4096], names[4096], bytes[sizeof every], module[16] = {4};
    if (argc != 3) return 2;
    size_t n = read_file(argv[1], area), k = read_file(argv[2], names);
    read_area(area, n, names, k);
    words_of_another(area, n);
    read_ends();
    printf("-- against the calls\n");
    for (size_t i = 0; i < sizeof every; i++) bytes[i] = (uint8_t)(every[i / 4] >> 8 * (i % 4));
    damaged("area", hold_area, bytes, sizeof bytes);
    damaged("names", hold_names, names, k);
    damaged("module", hold_module, module, sizeof module);
    printf("-- refusals\n");
    for (uint32_t number = 0; number <= 20; number++) printf("%u: %s\n", number, c13_refusal_text(number));
    return 0;
}
