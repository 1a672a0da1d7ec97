/* library.c: every function of include/c13.h, called from C on examples and on hostile inputs. What it prints is held against library.stdout.
 *
 *   library AREA NAMES    the files examples/table.c13 and examples/table.names
 *
 * The lent bytes and words stand at the end of a page behind which nothing may be read or written, so that a step past them ends the program. */
#define _DEFAULT_SOURCE
#include "c13.h"
#include <stdio.h>
#include <stdlib.h>
#include <string.h>
#include <sys/mman.h>

enum { ROOM = 1 << 20, WORDS = 64, RECORDS = 2 * C13_RECORD };

/* How many readings of end lines there are: from this number on a number names none. */
enum { READINGS = C13_END_LINES_DELTA + 1 };

/* ---- memory that ends where a page ends */

static uint8_t *page_end(void) {
    uint8_t *p = (uint8_t *)mmap(NULL, ROOM + 4096, PROT_READ | PROT_WRITE, MAP_PRIVATE | MAP_ANONYMOUS, -1, 0);
    if (p == MAP_FAILED || mprotect(p + ROOM, 4096, PROT_NONE)) exit(3);
    return p + ROOM;
}

static uint8_t *bytes_end;  /* where lent bytes end */
static uint64_t *words_end; /* where lent words end */
static uint32_t *slots_end; /* where lent slots end */
static uint32_t *bodies_end; /* where the lent body list ends */
static uint32_t *records_end; /* where words lent for records end */

/* Copies bytes to where they end with their page. */
static const uint8_t *lent(const void *bytes, size_t n) { return n ? (const uint8_t *)memcpy(bytes_end - n, bytes, n) : bytes_end; }

/* ---- the functions on an area or a stream, as one type */

static uint32_t slots[16], places[16];
static size_t slots_used, bodies_used, places_used;
static uint32_t number;             /* the number that a function takes beside the bytes */
static uint32_t reading;            /* the reading of end lines: a parameter, or in the state of a walk */
static uint32_t sizes[] = {4, 0, 8}; /* the sizes of a module */

typedef uint32_t call(const uint8_t *, size_t, uint64_t *, size_t);

static uint32_t order_list(const uint8_t *a, size_t n, uint64_t *o, size_t m) { return c13_order_list(a, n, slots_end - 16, 16, o, m); }
static uint32_t body_list(const uint8_t *a, size_t n, uint64_t *o, size_t m) { return c13_body_list(a, n, slots_end - 16, 16, o, m); }
static uint32_t next_line(const uint8_t *a, size_t n, uint64_t *o, size_t m) {
    return c13_next_line(a, n, slots, slots_used, bodies_end - bodies_used, bodies_used, o, m);
}
static uint32_t lines(const uint8_t *a, size_t n, uint64_t *o, size_t m) {
    return c13_lines(a, n, slots, slots_used, bodies_end - bodies_used, bodies_used, records_end - 2 * C13_RECORD, 2 * C13_RECORD, o, m);
}
static uint32_t files(const uint8_t *a, size_t n, uint64_t *o, size_t m) {
    return c13_files(a, n, records_end - 2 * C13_FILE_RECORD, 2 * C13_FILE_RECORD, o, m);
}
static uint32_t symbol(const uint8_t *a, size_t n, uint64_t *o, size_t m) {
    return c13_lines_for_symbol(a, n, slots, slots_used, bodies_end - bodies_used, bodies_used, 1, number, reading, o, m);
}
static uint32_t file_at(const uint8_t *a, size_t n, uint64_t *o, size_t m) { return c13_file_at(a, n, number, o, m); }
static uint32_t file_in(const uint8_t *a, size_t n, uint64_t *o, size_t m) { return c13_file_in(a, n, number, o, m); }
static uint32_t resolve_import(const uint8_t *a, size_t n, uint64_t *o, size_t m) { return c13_resolve_import(a, n, number, o, m); }
static uint32_t resolve_export(const uint8_t *a, size_t n, uint64_t *o, size_t m) { return c13_resolve_export(a, n, number, o, m); }
static uint32_t import_list(const uint8_t *a, size_t n, uint64_t *o, size_t m) { return c13_import_list(a, n, slots_end - 16, 16, o, m); }
static uint32_t resolve_listed(const uint8_t *a, size_t n, uint64_t *o, size_t m) { return c13_resolve_listed(a, n, places, places_used, number, o, m); }
static uint32_t export_at(const uint8_t *a, size_t n, uint64_t *o, size_t m) { return c13_export_at(a, n, number, o, m); }
static uint32_t export_in(const uint8_t *a, size_t n, uint64_t *o, size_t m) { return c13_export_in(a, n, number, o, m); }
static uint32_t word_at(const uint8_t *a, size_t n, uint64_t *o, size_t m) { return c13_word(a, n, 8, 2, number, o, m); }
static uint32_t name(const uint8_t *a, size_t n, uint64_t *o, size_t m) { return c13_name(a, n, number, o, m); }
static uint32_t module_symbols(const uint8_t *a, size_t n, uint64_t *o, size_t m) { return c13_module_symbols(a, n, sizes[0], sizes[1], sizes[2], o, m); }
static uint32_t lines_part(const uint8_t *a, size_t n, uint64_t *o, size_t m) { return c13_lines_part(a, n, sizes[0], sizes[1], sizes[2], o, m); }
static uint32_t tables_part(const uint8_t *a, size_t n, uint64_t *o, size_t m) { return c13_tables_part(a, n, sizes[0], sizes[1], sizes[2], o, m); }

/* The name, the words of its state, the words of an answer with it, and what the function reads. */
enum reads { AN_AREA, NAMES, A_MODULE, CHECKSUMS, EXPORTS, SORTS };
static const struct function {
    const char *name;
    call *f;
    size_t state, words;
    enum reads reads;
} functions[] = {
    {"c13_next_sub", c13_next_sub, C13_SUB_STATE, 4, AN_AREA},
    {"c13_order_list", order_list, 0, 1, AN_AREA},
    {"c13_body_list", body_list, 0, 1, AN_AREA},
    {"c13_next_line", next_line, C13_LINE_STATE, C13_LINE_STATE + C13_RECORD, AN_AREA},
    {"c13_lines_for_symbol", symbol, 0, C13_LINE_STATE, AN_AREA},
    {"c13_next_file", c13_next_file, C13_TABLE_STATE, 9, AN_AREA},
    {"c13_file_at", file_at, 0, 4, AN_AREA},
    {"c13_next_inlinee", c13_next_inlinee, C13_TABLE_STATE, 9, AN_AREA},
    {"c13_next_import", c13_next_import, C13_TABLE_STATE, 7, AN_AREA},
    {"c13_word", word_at, 0, 1, AN_AREA},
    {"c13_resolve_import", resolve_import, 0, 2, AN_AREA},
    {"c13_next_export", c13_next_export, C13_TABLE_STATE, 7, AN_AREA},
    {"c13_export_count", c13_export_count, 0, 1, AN_AREA},
    {"c13_resolve_export", resolve_export, 0, 1, AN_AREA},
    {"c13_string_table", c13_string_table, 0, 2, NAMES},
    {"c13_name", name, 0, 2, NAMES},
    {"c13_module_symbols", module_symbols, 0, 0, A_MODULE},
    {"c13_lines_part", lines_part, 0, 2, A_MODULE},
    {"c13_tables_part", tables_part, 0, 2, A_MODULE},
    {"c13_plain", c13_plain, 0, 3, AN_AREA},
    {"c13_lines", lines, C13_LINE_STATE, C13_LINE_STATE + 2, AN_AREA},
    {"c13_files", files, C13_TABLE_STATE, C13_TABLE_STATE + 2, AN_AREA},
    {"c13_checksums", c13_checksums, 0, 2, AN_AREA},
    {"c13_file_in", file_in, 0, 4, CHECKSUMS},
    {"c13_import_list", import_list, 0, 1, AN_AREA},
    {"c13_resolve_listed", resolve_listed, 0, 2, AN_AREA},
    {"c13_export_body", c13_export_body, 0, 2, AN_AREA},
    {"c13_export_at", export_at, 0, 3, EXPORTS},
    {"c13_export_in", export_in, 0, 1, EXPORTS},
};
enum { FUNCTIONS = sizeof functions / sizeof *functions };

/* ---- the writer's functions, as one type */

/* What is written: numbers, words, column words and bytes. */
static uint32_t numbers[4], line_words[8], column_words[4];
static uint8_t sum_bytes[32];
static size_t words_given, columns_given, bytes_given;

typedef uint32_t write_call(uint8_t *, size_t, size_t, uint64_t *, size_t);

static uint32_t open_lines(uint8_t *b, size_t n, size_t at, uint64_t *o, size_t m) {
    return c13_open_lines(b, n, at, numbers[0], (uint16_t)numbers[1], (uint16_t)numbers[2], numbers[3], o, m);
}
static uint32_t add_block(uint8_t *b, size_t n, size_t at, uint64_t *o, size_t m) {
    return c13_add_block(b, n, at, numbers[0], line_words, words_given, column_words, columns_given, o, m);
}
static uint32_t add_entry(uint8_t *b, size_t n, size_t at, uint64_t *o, size_t m) {
    return c13_add_entry(b, n, at, numbers[0], (uint8_t)numbers[1], sum_bytes, bytes_given, o, m);
}
static uint32_t open_inlinees(uint8_t *b, size_t n, size_t at, uint64_t *o, size_t m) { return c13_open_inlinees(b, n, at, numbers[0], o, m); }
static uint32_t add_inlinee(uint8_t *b, size_t n, size_t at, uint64_t *o, size_t m) {
    return c13_add_inlinee(b, n, at, numbers[0], numbers[1], numbers[2], line_words, words_given, o, m);
}
static uint32_t add_module(uint8_t *b, size_t n, size_t at, uint64_t *o, size_t m) {
    return c13_add_module(b, n, at, numbers[0], line_words, words_given, o, m);
}
static uint32_t add_pair(uint8_t *b, size_t n, size_t at, uint64_t *o, size_t m) { return c13_add_pair(b, n, at, numbers[0], numbers[1], o, m); }
static uint32_t add_opaque(uint8_t *b, size_t n, size_t at, uint64_t *o, size_t m) {
    return c13_add_opaque(b, n, at, numbers[0], sum_bytes, bytes_given, o, m);
}

/* With numbers, words, columns and bytes that are accepted in this order. */
static const struct writer {
    const char *name;
    write_call *f;
    uint32_t numbers[4];
    size_t words, columns, bytes;
} writers[] = {
    {"c13_open_checksums", c13_open_checksums, {0}, 0, 0, 0},
    {"c13_add_entry", add_entry, {1, 1}, 0, 0, 16},
    {"c13_open_lines", open_lines, {0x1000, 1, 1, 0x20}, 0, 0, 0},
    {"c13_add_block", add_block, {0}, 4, 2, 0},
    {"c13_open_inlinees", open_inlinees, {1}, 0, 0, 0},
    {"c13_add_inlinee", add_inlinee, {0x1000, 0, 7}, 2, 0, 0},
    {"c13_open_imports", c13_open_imports, {0}, 0, 0, 0},
    {"c13_add_module", add_module, {5}, 2, 0, 0},
    {"c13_open_exports", c13_open_exports, {0}, 0, 0, 0},
    {"c13_add_pair", add_pair, {7, 0x1007}, 0, 0, 0},
    {"c13_add_opaque", add_opaque, {0xf5}, 0, 0, 4},
};
enum { WRITERS = sizeof writers / sizeof *writers };

static void writes(const struct writer *w) {
    memcpy(numbers, w->numbers, sizeof numbers);
    for (size_t i = 0; i < 8; i++) line_words[i] = i % 2 ? 0x8000000a + (uint32_t)i : 4 * (uint32_t)i;
    for (size_t i = 0; i < 4; i++) column_words[i] = 0x00020001 * (uint32_t)(i + 1);
    for (size_t i = 0; i < 32; i++) sum_bytes[i] = (uint8_t)i;
    words_given = w->words, columns_given = w->columns, bytes_given = w->bytes;
}

/* ---- examples */

static const char *const status_names[] = {"none", "given", "refused", "too short", "last", "no such choice"};
enum { STATUSES = sizeof status_names / sizeof *status_names };
static int answered(uint32_t status) { return status == C13_GIVEN || status == C13_LAST; }

static void show(const struct function *f, uint32_t status, const uint64_t *out) {
    size_t from = f->state, to = answered(status) ? f->words : status == C13_REFUSED ? f->state + 2 : f->state;
    if (f->f == symbol && status == C13_GIVEN) to = 4; /* of the state the first words: the lines themselves are shown, too */
    printf("%s: %s", f->name, status_names[status]);
    for (; from < to; from++) printf(" %llu", (unsigned long long)out[from]);
    printf("\n");
}

/* One answer, or all answers of a walk and, behind its end, the last one again. */
static void ask(const char *named, const uint8_t *bytes, size_t n) {
    for (const struct function *f = functions; f < functions + FUNCTIONS; f++)
        if (!strcmp(f->name, named)) {
            uint64_t out[WORDS] = {0};
            uint32_t status;
            do show(f, status = f->f(bytes, n, out, WORDS), out);
            while (f->state && status == C13_GIVEN);
            if (f->state) show(f, f->f(bytes, n, out, WORDS), out);
            if (f->f == symbol && status == C13_GIVEN)
                while ((status = next_line(bytes, n, out, WORDS)) == C13_GIVEN)
                    printf("  line %llu\n", (unsigned long long)out[C13_LINE_STATE + C13_START_LINE]);
            return;
        }
    exit(3);
}

static size_t words_to(uint8_t *to, const uint32_t *words, size_t n) {
    for (size_t i = 0; i < 4 * n; i++) to[i] = (uint8_t)(words[i / 4] >> 8 * (i % 4));
    return 4 * n;
}

/* An area with every table: files, lines with a column, inlinees with extra files, imports, exports. */
static const uint32_t every[] = {
    0xf4, 24, 1, 0x01000110, 0x05040302, 0x09080706, 0x0d0c0b0a, 0x00000f0e,
    0xf2, 48, 0x1000, 0x00010001, 0x20, 0, 2, 36, 0, 0x8200000a, 8, 0x8500000c, 0x00020001, 0x00040003,
    0xf6, 28, 1, 0x1000, 0, 7, 2, 24, 48,
    0xf7, 16, 5, 2, 0x1003, 0x1004,
    0xf8, 16, 7, 0x1007, 0x80000008, 0x1008,
};
static uint8_t every_bytes[sizeof every];

static void use_lists(const uint8_t *area, size_t n) {
    uint64_t out[2];
    bodies_used = slots_used = c13_order_list(area, n, slots, 16, out, 2) == C13_GIVEN ? out[0] : 0;
    if (slots_used && (c13_body_list(area, n, bodies_end - bodies_used, bodies_used, out, 2) != C13_GIVEN || out[0] != slots_used)) exit(3);
    places_used = c13_import_list(area, n, places, 16, out, 2) == C13_GIVEN ? out[0] : 0;
}

static void examples(const uint8_t *area, size_t n, const uint8_t *names, size_t k) {
    printf("-- the example\n");
    use_lists(area, n);
    ask("c13_next_sub", area, n);
    ask("c13_order_list", area, n);
    for (size_t i = 0; i < slots_used; i++) printf("  slot %u\n", slots[i]);
    ask("c13_body_list", area, n);
    for (size_t i = 0; i < bodies_used; i++) printf("  body %u\n", (bodies_end - bodies_used)[i]);
    ask("c13_next_line", area, n);
    ask("c13_lines", area, n);
    const uint32_t *two = records_end - 2 * C13_RECORD;
    printf("  the last two: line %u, line %u\n", two[C13_START_LINE], two[C13_RECORD + C13_START_LINE]);
    number = 0x71, ask("c13_lines_for_symbol", area, n);
    ask("c13_next_file", area, n);
    ask("c13_files", area, n);
    printf("  the file:");
    for (const uint32_t *w = records_end - 2 * C13_FILE_RECORD; w < records_end - C13_FILE_RECORD; w++) printf(" %u", *w);
    printf("\n");
    ask("c13_string_table", names, k);
    number = 2, ask("c13_name", names, k);
    printf("  %.*s\n", 16, names + 14);
    number = 1000, ask("c13_name", names, k);

    printf("-- every table\n");
    n = words_to(every_bytes, every, sizeof every / 4), area = every_bytes;
    use_lists(area, n);
    for (size_t f = 0; f < 14; f++)
        if (functions[f].state) ask(functions[f].name, area, n);
    for (number = 0; number <= 25; number += number == 24 ? 1 : 24) ask("c13_file_at", area, n);
    ask("c13_checksums", area, n);
    for (number = 0; number <= 25; number += number == 24 ? 1 : 24) ask("c13_file_in", area + 8, 24);
    for (number = 0; number < 3; number++) ask("c13_word", area, n);
    static const uint32_t references[] = {0x80000001, 0x80000002, 0x80100000, 1};
    for (size_t i = 0; i < 4; i++) number = references[i], ask("c13_resolve_import", area, n);
    ask("c13_export_count", area, n);
    for (number = 6; number < 8; number++) ask("c13_resolve_export", area, n);
    number = 0x80000008, ask("c13_resolve_export", area, n);
    ask("c13_import_list", area, n);
    for (size_t i = 0; i < places_used; i++) printf("  place %u\n", places[i]);
    for (size_t i = 0; i < 4; i++) number = references[i], ask("c13_resolve_listed", area, n);
    ask("c13_export_body", area, n);
    const uint8_t *exports = area + n - 16;
    for (number = 0; number < 3; number++) ask("c13_export_at", exports, 16);
    for (number = 6; number < 8; number++) ask("c13_export_in", exports, 16);
    ask("c13_export_in", exports, 12);

    printf("-- a module\n");
    static const uint8_t stream[16] = {4};
    for (sizes[1] = 0; sizes[1] < 2; sizes[1]++) {
        ask("c13_module_symbols", stream, sizeof stream);
        ask("c13_lines_part", stream, sizeof stream);
        ask("c13_tables_part", stream, sizeof stream);
    }
    sizes[1] = 0, ask("c13_lines_part", stream, 11);
}

/* A call of the writer, shown: the place behind what is written, or the refusal. */
static void show_write(const struct writer *w, uint8_t *buf, size_t n, size_t *place) {
    uint64_t out[2] = {0};
    uint32_t status = w->f(buf, n, *place, out, 2);
    printf("%s at %zu: %s %llu\n", w->name, *place, status == C13_GIVEN ? "given" : status == C13_REFUSED ? "refused" : "?", (unsigned long long)out[0]);
    if (status == C13_GIVEN) *place = out[0];
}

static void writing(void) {
    printf("-- writing\n");
    static uint8_t buf[512];
    size_t n = 0, wrong;
    for (const struct writer *w = writers; w < writers + WRITERS; w++) writes(w), show_write(w, buf, sizeof buf, &n);
    for (size_t i = 0; i < n; i++) printf("%02x%s", buf[i], i % 32 == 31 || i == n - 1 ? "\n" : "");
    ask("c13_next_sub", buf, n);
    ask("c13_plain", buf, n);
    ask("c13_plain", buf, n - 1);
    /* refused: a pair behind an opaque body, an opaque body of three bytes, no room, a place past the buffer, a place inside a subsection */
    writes(writers + 9), show_write(writers + 9, buf, sizeof buf, &n);
    writes(writers + 10), bytes_given = 3, show_write(writers + 10, buf, sizeof buf, &n);
    bytes_given = 4, show_write(writers + 10, buf, n + 11, &n);
    wrong = sizeof buf + 1, show_write(writers + 10, buf, sizeof buf, &wrong);
    wrong = n - 4, show_write(writers + 10, buf, sizeof buf, &wrong);
}

/* ---- hostile inputs */

static void nothing_lent(void) {
    printf("-- nothing lent\n");
    slots_used = bodies_used = places_used = 0;
    for (const struct function *f = functions; f < functions + FUNCTIONS; f++) printf("%s: %u\n", f->name, f->f(NULL, 0, NULL, 0));
    words_given = columns_given = bytes_given = 0;
    for (const struct writer *w = writers; w < writers + WRITERS; w++) printf("%s: %u\n", w->name, w->f(NULL, 0, 0, NULL, 0));
    uint64_t out[2] = {0};
    printf("c13_order_list, no slots: %u", c13_order_list(every_bytes, sizeof every, NULL, 0, out, 2));
    printf(" %llu\n", (unsigned long long)out[0]);
    printf("c13_body_list, no slots: %u", c13_body_list(every_bytes, sizeof every, NULL, 0, out, 2));
    printf(" %llu\n", (unsigned long long)out[0]);
    printf("c13_next_line, no slots: %u\n", c13_next_line(every_bytes, sizeof every, NULL, 0, NULL, 0, NULL, 0));
    printf("c13_import_list, no places: %u", c13_import_list(every_bytes, sizeof every, NULL, 0, out, 2));
    printf(" %llu\n", (unsigned long long)out[0]);
    printf("c13_resolve_listed, no places: %u", c13_resolve_listed(every_bytes, sizeof every, NULL, 0, 0x80000000, out, 2));
    printf(" %llu\n", (unsigned long long)out[0]);
}

static uint64_t sum; /* over all answers, so that the stored text pins them */
static void sum_up(uint64_t x) { sum = (sum << 5 ^ sum >> 59 ^ x) * 0x9e3779b97f4a7c15; }

static void fail(const struct function *f, const char *why) {
    printf("%s: %s\n", f->name, why);
    exit(1);
}

/* Another body list in the place of the one that is lent: of the same length, each place by one too far; by one shorter; none. */
static void another_body_list(int which) {
    if (which == 0)
        for (size_t i = 1; i <= bodies_used; i++) bodies_end[-(ptrdiff_t)i]++;
    else
        bodies_used = which == 1 && bodies_used ? bodies_used - 1 : 0;
}

/* The same with other body lists: the same status, words and records. */
static void other_bodies(const struct function *f, const uint8_t *bytes, size_t n, const uint64_t *state, size_t m, uint32_t status) {
    uint64_t *out = words_end - m, first[WORDS];
    uint32_t *records = records_end - RECORDS, kept[RECORDS], bodies[16];
    size_t used = bodies_used;
    memcpy(first, out, 8 * m), memcpy(kept, records, sizeof kept), memcpy(bodies, bodies_end - 16, sizeof bodies);
    for (int which = 0; which < 3; which++) {
        another_body_list(which);
        memcpy(out, state, 8 * m);
        if (f->f(bytes, n, out, m) != status || memcmp(first, out, 8 * m) || memcmp(kept, records, sizeof kept)) fail(f, "an answer by the body list");
    }
    memcpy(bodies_end - 16, bodies, sizeof bodies);
    bodies_used = used;
}

/* A choice that is none is told before anything else, and never told where it is one: a word that is not lent is 0. A walk keeps its choice. */
static void chosen(const struct function *f, const uint64_t *state, size_t m, uint32_t status, const uint64_t *out) {
    uint64_t choice = 0;
    if (f->f == next_line || f->f == lines) choice = m > C13_STATE_END_LINES ? state[C13_STATE_END_LINES] : 0;
    if (f->f == symbol) choice = reading;
    if ((status == C13_NO_SUCH_CHOICE) != (choice >= READINGS)) fail(f, "a choice that is none, or told to be none");
    if (answered(status) && f->words >= C13_LINE_STATE && out[C13_STATE_END_LINES] != choice) fail(f, "the choice is not kept");
}

/* A call with m words lent that hold `state`: what must hold of every answer. */
static uint32_t tried(const struct function *f, const uint8_t *bytes, size_t n, const uint64_t *state, size_t m) {
    static uint8_t before[4096];
    uint64_t *out = words_end - m, first[WORDS];
    uint32_t *records = records_end - RECORDS, kept[RECORDS], status, again;
    if (n <= sizeof before) memcpy(before, bytes, n);
    memcpy(out, state, 8 * m);
    memset(kept, 0xee, sizeof kept), memcpy(records, kept, sizeof kept);
    again = f->f(bytes, n, out, m);
    if (!answered(again) && memcmp(kept, records, sizeof kept)) fail(f, "records without an answer");
    memcpy(kept, records, sizeof kept);
    memcpy(first, out, 8 * m);
    memcpy(out, state, 8 * m), memset(records, 0xee, sizeof kept);
    status = f->f(bytes, n, out, m);
    if (status != again || memcmp(first, out, 8 * m) || memcmp(kept, records, sizeof kept)) fail(f, "another answer to the same");
    if (f->f == next_line || f->f == lines || f->f == symbol) other_bodies(f, bytes, n, state, m, status);
    if (n <= sizeof before && memcmp(before, bytes, n)) fail(f, "lent bytes changed");
    size_t from = status == C13_REFUSED ? f->state : 0, to = answered(status) ? f->words : status == C13_REFUSED ? f->state + 2 : 0;
    if (status >= STATUSES || to > m) fail(f, "no such status");
    chosen(f, state, m, status, out);
    for (size_t i = 0; i < m; i++)
        if ((i < from || i >= to) && out[i] != state[i]) fail(f, "a word that is no part of the answer changed");
    if (status == C13_REFUSED && (out[from] < 1 || out[from] > 19)) fail(f, "no such refusal");
    sum_up(status);
    for (size_t i = from; i < to; i++) sum_up(out[i]);
    for (size_t i = 0; i < RECORDS; i++) sum_up(records[i]);
    return status;
}

/* Whole bytes of each sort: an area, names, a module, the checksum data of the area, the body of its exports. */
static struct { const uint8_t *bytes; size_t n; } whole[SORTS];

/* Each function with 0 to WORDS words for its answer: too few are told, and change nothing. */
static void few_words(void) {
    printf("-- few words\n");
    static const uint64_t zeros[WORDS] = {0};
    use_lists(every_bytes, sizeof every);
    for (const struct function *f = functions; f < functions + FUNCTIONS; f++) {
        size_t n = whole[f->reads].n, few = 0;
        const uint8_t *bytes = lent(whole[f->reads].bytes, n);
        number = f->f == resolve_import || f->f == resolve_listed ? 0x80000000 : f->f == resolve_export || f->f == export_in ? 7 : 0;
        for (size_t m = 0; m <= WORDS; m++) few += tried(f, bytes, n, zeros, m) == C13_TOO_SHORT;
        printf("%s: too short below %zu\n", f->name, few);
    }
}

/* Numbers by chance, the same each time. */
static uint64_t chance(void) {
    static uint64_t x = 1;
    x = x * 6364136223846793005u + 1442695040888963407u;
    return x >> 33;
}
static uint64_t number_by_chance(void) {
    switch (chance() % 5) {
    case 0: return chance() % 4;
    case 1: return chance() % 300;
    case 2: return UINT64_MAX - chance() % 3;
    case 3: return UINT32_MAX - chance() % 3;
    default: return chance() << 33 ^ chance();
    }
}

/* Puts bytes of a sort to where they end with their page: whole, cut, spoilt, or all by chance. Says how many. */
static size_t spoilt(enum reads sort) {
    static uint8_t bytes[1024];
    size_t n = whole[sort].n;
    memcpy(bytes, whole[sort].bytes, n);
    switch (chance() % 4) {
    case 0: n = chance() % (n + 1); break;
    case 1: bytes[chance() % n] = (uint8_t)(chance() % 2 ? chance() : chance() % 4); break;
    case 2:
        n = chance() % 64;
        for (size_t i = 0; i < n; i++) bytes[i] = (uint8_t)chance();
    }
    lent(bytes, n);
    return n;
}

static void lists_by_chance(const uint8_t *area, size_t n) {
    use_lists(area, n);
    if (chance() % 2) slots_used = places_used = chance() % 16;
    if (chance() % 2)
        for (size_t i = 0; i < slots_used; i++) slots[i] = (uint32_t)number_by_chance();
    if (chance() % 2)
        for (size_t i = 0; i < places_used; i++) places[i] = (uint32_t)number_by_chance();
    if (chance() % 2) return;
    bodies_used = chance() % 16;
    for (size_t i = 1; i <= bodies_used; i++) bodies_end[-(ptrdiff_t)i] = (uint32_t)number_by_chance();
}

/* Each reading, and numbers that are none, in turn: the least, the largest, and now and then the one that is there. */
static uint64_t choice_in_turn(int turn, uint64_t there) {
    switch (turn % 16) {
    case 13: return READINGS;
    case 14: return UINT64_MAX;
    case 15: return there;
    default: return turn % READINGS;
    }
}

/* Bytes cut, spoilt and by chance, with states, slots and numbers by chance. */
static void by_chance(void) {
    printf("-- by chance\n");
    static uint64_t told[FUNCTIONS][STATUSES], refusals[20];
    for (int round = 0; round < 40000; round++) {
        uint64_t state[WORDS];
        int forged = chance() % 4;
        for (size_t i = 0; i < WORDS; i++) state[i] = forged ? number_by_chance() : 0;
        if (forged == 1) state[0] = chance() % 3, state[1] = chance() % 4, state[2] = chance() % 4;
        state[C13_STATE_END_LINES] = choice_in_turn(round / FUNCTIONS, state[C13_STATE_END_LINES]);
        reading = (uint32_t)state[C13_STATE_END_LINES];
        number = (uint32_t)(chance() % 4 ? chance() % 2 << 31 | chance() % 40 : number_by_chance());
        for (size_t i = 0; i < 3; i++) sizes[i] = (uint32_t)(chance() % 4 ? 4 * (chance() % 3) : number_by_chance());
        const struct function *f = functions + round % FUNCTIONS;
        size_t n = spoilt(f->reads), m = chance() % 8 ? (size_t)WORDS : chance() % WORDS;
        lists_by_chance(bytes_end - n, n);
        uint32_t status = tried(f, bytes_end - n, n, state, m);
        told[f - functions][status]++;
        if (status == C13_REFUSED) refusals[(words_end - m)[f->state]]++;
    }
    for (size_t f = 0; f < FUNCTIONS; f++) {
        printf("%s:", functions[f].name);
        for (size_t i = 0; i < STATUSES; i++)
            if (i < C13_LAST || told[f][i]) printf("%s %s %llu", i ? "," : "", status_names[i], (unsigned long long)told[f][i]);
        printf("\n");
    }
    for (int i = 1; i < 20; i++)
        if (refusals[i]) printf("refusal %d: %llu\n", i, (unsigned long long)refusals[i]);
    printf("sum %016llx\n", (unsigned long long)sum);
    reading = C13_END_LINES_CRATE;
}

/* ---- end lines */

/* Two line subsections, the second one in front, each with five lines in two blocks. Low bits end them in the same 128 lines, past these, and behind the last
 * start line; delta within few lines, and on the largest end line. Of the first three lines the end is another one by each reading. */
static const uint32_t ends[] = {
    0xf2, 76, 0x2000, 1, 20, 0, 3, 36, 0, 0x8c00000a, 4, 0x0200007f, 8, 0x8200000a, 0, 2, 28, 12, 0x00ffffff, 16, 0x7fffffff,
    0xf2, 76, 0x1000, 1, 20, 0, 3, 36, 0, 0x8c00000a, 4, 0x0200007f, 8, 0x8200000a, 0, 2, 28, 12, 0x00ffffff, 16, 0x7fffffff,
};

/* The start and end lines of a walk from a state on, one a call and many a call, which are the same ones. */
static void show_ends(const struct function *f, const char *what, const uint8_t *area, size_t n, const uint64_t *state) {
    uint64_t one[WORDS], many[WORDS];
    memcpy(one, state, sizeof one), memcpy(many, state, sizeof many);
    printf("%s, reading %u:", what, reading);
    while (answered(lines(area, n, many, WORDS)))
        for (size_t i = 0; i < many[C13_LINE_STATE]; i++) {
            const uint32_t *record = records_end - RECORDS + i * C13_RECORD;
            if (next_line(area, n, one, WORDS) != C13_GIVEN) fail(f, "fewer lines one a call");
            for (size_t k = 0; k < C13_RECORD; k++)
                if (one[C13_LINE_STATE + k] != record[k]) fail(f, "another line one a call");
            if (one[C13_STATE_END_LINES] != reading || many[C13_STATE_END_LINES] != reading) fail(f, "the choice is not kept");
            printf(" %u to %u", record[C13_START_LINE], record[C13_END_LINE]);
        }
    if (next_line(area, n, one, WORDS) != C13_NONE) fail(f, "more lines one a call");
    printf("\n");
}

/* Numbers that name no reading, in the state and as a parameter, with 0 to WORDS words, on a whole area and on one that is refused: what `tried` holds. A
 * parameter has 32 bits. */
static void no_such_choice(const struct function *f, const uint8_t *area, size_t n) {
    static const uint64_t none[] = {READINGS, READINGS + 1, UINT32_MAX, UINT64_C(1) << 32, UINT64_MAX};
    uint64_t told[STATUSES] = {0};
    for (size_t i = 0; i < sizeof none / sizeof *none; i++)
        for (size_t m = 0; m <= WORDS; m++) {
            uint64_t state[WORDS] = {0};
            state[C13_STATE_END_LINES] = none[i], reading = c13_number(none[i]);
            told[tried(f, area, n, state, m)]++;
            told[tried(f, area + n - 3, 3, state, m)]++;
        }
    printf("%s:", f->name);
    for (size_t i = 0; i < STATUSES; i++)
        if (told[i]) printf(" %s %llu", status_names[i], (unsigned long long)told[i]);
    printf("\n");
}

static void end_lines(void) {
    static uint8_t bytes[sizeof ends];
    size_t n = words_to(bytes, ends, sizeof ends / 4);
    const uint8_t *area = lent(bytes, n);
    const struct function *f = functions;
    printf("-- end lines\n");
    use_lists(area, n);
    while (f->f != symbol) f++;
    for (reading = C13_END_LINES_CRATE; reading < READINGS; reading++) {
        uint64_t state[WORDS] = {0};
        state[C13_STATE_END_LINES] = reading;
        show_ends(f, "all", area, n, state);
        number = 0x1fff;
        if (symbol(area, n, state, WORDS) != C13_GIVEN) fail(f, "no walk");
        show_ends(f, "those of a symbol", area, n, state);
    }
    for (f = functions; f < functions + FUNCTIONS; f++)
        if (f->f == next_line || f->f == lines || f->f == symbol) no_such_choice(f, area, n);
    reading = C13_END_LINES_CRATE;
}

/* ---- the subsections that lines are from */

/* The words of a walk's state with the record that is held back, and those that say where the body starts that it stands in, and where it ends. */
enum { HELD_RECORD = 5, BODY_START = 22, BODY_END = 23 };

/* Where the bodies start that the lines of a walk are from, from a state on, and how it ends. */
static void show_bodies(const struct function *f, const uint8_t *area, size_t n, const uint64_t *state) {
    uint64_t out[WORDS];
    uint32_t status;
    memcpy(out, state, sizeof out);
    do {
        status = tried(f, area, n, out, WORDS);
        memcpy(out, words_end - WORDS, sizeof out);
        if (f->f == next_line && status == C13_GIVEN) printf(" %llu", (unsigned long long)out[C13_LINE_STATE + C13_BODY]);
        for (size_t i = 0; f->f == lines && answered(status) && i < out[C13_LINE_STATE]; i++)
            printf(" %u", (records_end - RECORDS)[i * C13_RECORD + C13_BODY]);
    } while (status == C13_GIVEN);
    printf(" %s", status_names[status]);
    if (status == C13_REFUSED) printf(" %llu", (unsigned long long)out[C13_LINE_STATE]);
    printf("\n");
}

/* A walk that stands in a body, with another start of that body in its state. Up to the body's end the lines that are read from then on tell that start, and
 * the one that is held back keeps its own; behind the end it is refused. And with another position of the one that is held back, which is told as it stands. */
static void show_starts(const struct function *f, const uint8_t *area, size_t n) {
    uint64_t state[WORDS] = {0};
    if (next_line(area, n, state, WORDS) != C13_GIVEN) fail(f, "no line");
    const uint64_t start = state[BODY_START], end = state[BODY_END];
    const uint64_t starts[] = {start, 0, 8, start + 1, end - 1, end, end + 1, UINT32_MAX, (UINT64_C(1) << 32) + start, UINT64_MAX};
    for (size_t i = 0; i < sizeof starts / sizeof *starts; i++) {
        state[BODY_START] = starts[i];
        printf("%s, start %llu, end %llu:", f->name, (unsigned long long)starts[i], (unsigned long long)end);
        show_bodies(f, area, n, state);
    }
    state[BODY_START] = start;
    const uint64_t held[] = {0, UINT32_MAX, (UINT64_C(1) << 32) + start};
    for (size_t i = 0; i < sizeof held / sizeof *held; i++) {
        state[HELD_RECORD + C13_BODY] = held[i];
        printf("%s, held at %llu:", f->name, (unsigned long long)held[i]);
        show_bodies(f, area, n, state);
    }
}

static void line_bodies(void) {
    static uint8_t bytes[sizeof ends];
    size_t n = words_to(bytes, ends, sizeof ends / 4);
    const uint8_t *area = lent(bytes, n);
    printf("-- bodies of lines\n");
    use_lists(area, n);
    for (const struct function *f = functions; f < functions + FUNCTIONS; f++) {
        uint64_t state[WORDS] = {0};
        if (f->f != next_line && f->f != lines) continue;
        printf("%s, all:", f->name);
        show_bodies(f, area, n, state);
        number = 0x1fff;
        if (symbol(area, n, state, WORDS) != C13_GIVEN) fail(f, "no walk");
        printf("%s, those of a symbol:", f->name);
        show_bodies(f, area, n, state);
        show_starts(f, area, n);
    }
}

/* A line whose offset in the section is above 32 bits, and a subsection whose end is. */
static void too_large(void) {
    static const uint32_t lines_of[][10] = {{0xf2, 32, UINT32_MAX, 1, 0, 0, 1, 20, 1, 10}, {0xf2, 32, UINT32_MAX, 1, 1, 0, 1, 20, 0, 10}};
    static uint8_t bytes[sizeof *lines_of];
    printf("-- offsets that are too large\n");
    for (size_t i = 0; i < sizeof lines_of / sizeof *lines_of; i++) {
        size_t n = words_to(bytes, lines_of[i], sizeof *lines_of / 4);
        const uint8_t *area = lent(bytes, n);
        use_lists(area, n);
        for (const struct function *f = functions; f < functions + FUNCTIONS; f++) {
            uint64_t state[WORDS] = {0};
            if (f->f != next_line && f->f != lines) continue;
            printf("%s, %s:", f->name, i ? "an end" : "a line");
            show_bodies(f, area, n, state);
        }
    }
}

/* A walk, or one answer, with each body list at each step; told counts its statuses. */
static void walked(call *named, const uint8_t *area, size_t n, uint64_t *told) {
    uint64_t state[WORDS] = {0};
    const struct function *f = functions;
    uint32_t status;
    state[C13_STATE_END_LINES] = reading;
    while (f->f != named) f++;
    do {
        status = tried(f, area, n, state, WORDS);
        memcpy(state, words_end - WORDS, sizeof state);
        told[status]++;
    } while (f->state && status == C13_GIVEN);
}

/* An area of 16 line subsections of one line each in no order, and lists that go forth and back in it; some have a wrong slot or too few. */
static void body_lists(void) {
    enum { SUBS = 16, SUB_WORDS = 10 };
    static uint32_t words[SUBS * SUB_WORDS];
    static uint8_t bytes[sizeof words];
    static uint64_t told[3][STATUSES];
    static const char *const names[] = {"c13_next_line", "c13_lines", "c13_lines_for_symbol"};
    call *const calls[] = {next_line, lines, symbol};
    uint32_t all[SUBS];
    uint64_t out[2];
    printf("-- body lists\n");
    for (uint32_t i = 0; i < SUBS; i++) {
        const uint32_t sub[SUB_WORDS] = {0xf2, 32, 0x1000 + 0x20 * (7 * i % SUBS), 1, 0x20, 0, 1, 20, 0, (i + 1) << 24 | (10 + i)};
        memcpy(words + i * SUB_WORDS, sub, sizeof sub);
    }
    size_t n = words_to(bytes, words, SUBS * SUB_WORDS);
    const uint8_t *area = lent(bytes, n);
    if (c13_body_list(area, n, all, SUBS, out, 2) != C13_GIVEN || out[0] != SUBS) exit(3);
    for (int round = 0; round < 1000; round++) {
        use_lists(area, n);
        if (round % 8 == 2) slots_used = chance() % SUBS;
        for (size_t i = 0; round && i < slots_used; i++) slots[i] = all[chance() % SUBS];
        if (round % 4 == 1) slots[chance() % SUBS] = (uint32_t)(chance() % n);
        number = (uint32_t)(0x1000 + chance() % 0x200), reading = round % READINGS;
        for (size_t f = 0; f < 3; f++) walked(calls[f], area, n, told[f]);
    }
    for (size_t f = 0; f < 3; f++)
        printf("%s: given %llu, last %llu, none %llu, refused %llu\n", names[f], (unsigned long long)told[f][C13_GIVEN], (unsigned long long)told[f][C13_LAST],
               (unsigned long long)told[f][C13_NONE], (unsigned long long)told[f][C13_REFUSED]);
    printf("sum %016llx\n", (unsigned long long)sum);
    reading = C13_END_LINES_CRATE;
}

/* Calls of the writer by chance, at places by chance, on buffers that end with their page: a refused one changes nothing, an accepted one nothing behind
 * the place that it answers, and what is written is plain. */
static void writing_by_chance(void) {
    printf("-- writing by chance\n");
    static uint64_t told[WRITERS][4], refusals[20];
    static uint8_t before[256];
    size_t n = 0, place = 0;
    for (int round = 0; round < 20000; round++) {
        if (round % 16 == 0) { /* a new buffer */
            n = chance() % sizeof before, place = 0;
            for (size_t i = 0; i < n; i++) (bytes_end - n)[i] = (uint8_t)chance();
        }
        uint8_t *buf = bytes_end - n;
        const struct writer *w = writers + chance() % WRITERS;
        writes(w);
        if (chance() % 4 == 0) words_given = chance() % 9, columns_given = chance() % 5, bytes_given = chance() % 33;
        if (chance() % 4 == 0)
            for (size_t i = 0; i < 4; i++) numbers[i] = (uint32_t)number_by_chance();
        size_t at = chance() % 8 ? place : number_by_chance(), m = chance() % 8 ? 2 : chance() % 3;
        uint64_t *out = words_end - m;
        for (size_t i = 0; i < m; i++) out[i] = 0;
        memcpy(before, buf, n);
        uint32_t status = w->f(buf, n, at, out, m);
        const struct function f = {w->name, NULL, 0, 0, AN_AREA};
        told[w - writers][status & 3]++;
        if (status == C13_GIVEN) {
            if (m < 2 || out[0] <= at || out[0] > n) fail(&f, "a place that cannot be");
            place = out[0];
            uint64_t plain[3];
            if (c13_plain(buf, place, plain, 3) != C13_GIVEN) fail(&f, "what is written is not plain");
            if (memcmp(before + place, buf + place, n - place)) fail(&f, "bytes behind what is written changed");
        } else {
            if (memcmp(before, buf, n)) fail(&f, "a refused call changed the buffer");
            if (status == C13_TOO_SHORT ? m >= 2 : status != C13_REFUSED || (out[0] != 10 && out[0] != 16 && out[0] != 17)) fail(&f, "no such answer");
            if (status == C13_REFUSED) refusals[out[0]]++;
        }
        sum_up(status);
        if (m == 2) sum_up(out[0]);
    }
    for (size_t w = 0; w < WRITERS; w++)
        printf("%s: given %llu, refused %llu, too short %llu\n", writers[w].name, (unsigned long long)told[w][1], (unsigned long long)told[w][2],
               (unsigned long long)told[w][3]);
    for (int i = 1; i < 20; i++)
        if (refusals[i]) printf("refusal %d: %llu\n", i, (unsigned long long)refusals[i]);
    printf("sum %016llx\n", (unsigned long long)sum);
}

static void too_long(void) {
    printf("-- one byte too many\n");
    size_t n = 16777217;
    uint8_t *area = (uint8_t *)calloc(n, 1);
    uint64_t out[WORDS];
    for (const struct function *f = functions; f < functions + FUNCTIONS; f++) {
        memset(out, 0, sizeof out);
        uint32_t status = f->f(area, n, out, WORDS);
        printf("%s: %u %llu\n", f->name, status, (unsigned long long)out[f->state]);
    }
    /* a choice that is none is told before that */
    for (const struct function *f = functions; f < functions + FUNCTIONS; f++)
        if (f->words >= C13_LINE_STATE) {
            out[C13_STATE_END_LINES] = reading = READINGS;
            printf("%s by no reading: %u\n", f->name, f->f(area, n, out, WORDS));
        }
    free(area);
}

static size_t read_file(const char *path, uint8_t *to) {
    FILE *f = fopen(path, "rb");
    if (!f) exit(3);
    size_t n = fread(to, 1, 4096, f);
    fclose(f);
    return n;
}

int main(int argc, char **argv) {
    static uint8_t area[4096], names[4096];
    if (argc != 3) return 2;
    size_t n = read_file(argv[1], area), k = read_file(argv[2], names);
    bytes_end = page_end(), words_end = (uint64_t *)page_end(), slots_end = (uint32_t *)page_end();
    records_end = (uint32_t *)page_end(), bodies_end = (uint32_t *)page_end();
    static uint8_t module[4 + sizeof every] = {4};
    examples(area, n, names, k);
    writing();
    memcpy(module + 4, every_bytes, sizeof every);
    whole[AN_AREA].bytes = every_bytes, whole[AN_AREA].n = sizeof every;
    whole[NAMES].bytes = names, whole[NAMES].n = k;
    whole[A_MODULE].bytes = module, whole[A_MODULE].n = sizeof module;
    whole[CHECKSUMS].bytes = every_bytes + 8, whole[CHECKSUMS].n = 24;
    whole[EXPORTS].bytes = every_bytes + sizeof every - 16, whole[EXPORTS].n = 16;
    nothing_lent();
    few_words();
    by_chance();
    end_lines();
    too_large();
    line_bodies();
    body_lists();
    writing_by_chance();
    too_long();
    return 0;
}
