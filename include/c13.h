/* c13.h: CodeView C13 areas, the part of a Windows PDB that says which source file and line each piece of code is from, with each file's checksum.
 *
 * The functions are those of the static library that `scripts/x86-64 library` makes (x86-64, System V calling convention). Each is proved to meet its
 * contract in crates/; this header says the same in words. "Document 01" is docs/01-scope.md. They call one function that is not theirs, memcpy of
 * the C library, and nothing else; that it copies is trusted, and not proved. The library that `scripts/windows library` makes has the same functions for
 * Windows, in its calling convention, and a memcpy inside; there one thing more is asked: that nothing writes below the stack pointer of a thread inside a
 * call (the head of scripts/windows says what might).
 *
 * At the end of this header stand inline functions over these calls: walks, records and refusals as structs. They are easier to use, and no part of
 * what is proved.
 *
 * WHAT A CALL IS LENT. Memory is lent as a pointer and a number of elements. A pointer must be valid for that number of elements and aligned to
 * its type; with the number 0 nothing is read through it, and it may be null. What may be written (`out`, `slots` of c13_order_list, `bodies` of
 * c13_body_list, `places` of c13_import_list, `records` of c13_lines and c13_files, `buf` of the writer) must be no part of anything else that is lent.
 * That is all that is asked: any bytes, any numbers and any state of a walk are taken. The library keeps nothing between calls and allocates nothing; calls
 * on different memory may run at the same time.
 *
 * WHAT A CALL ANSWERS. A status, and words that it puts into `out`:
 *
 *   C13_NONE       nothing: a walk is at its end, a lookup found nothing. `out` is left as it was.
 *   C13_GIVEN      an answer, in the words named at the call.
 *   C13_LAST       an answer as C13_GIVEN, and nothing comes behind it: the next call from there answers C13_NONE. Only a call that gives many records
 *                  answers it; C13_GIVEN does not say that there are more.
 *   C13_REFUSED    a refusal: its number (enum c13_refusal) and what it carries, or 0. The words stand at out[0] and out[1], or behind the state if the
 *                  call steps a walk: at out[1], out[4] or out[30].
 *   C13_TOO_SHORT  the words of the answer do not fit in `out`. `out` is left as it was. C13_MOST words are always enough. A call that writes to other
 *                  memory asks for two words, behind the state if it steps a walk, before it does anything.
 *   C13_NO_SUCH_CHOICE  what the caller chose is none of the choices: the reading of end lines, in the state of a walk over lines or as a parameter, is no
 *                  number of enum c13_end_lines. It is tested before everything else, C13_TOO_SHORT too. `out` is left as it was. No number that names
 *                  nothing is taken for a default.
 *
 * Words that are not named are left as they were. A call that is refused, has too few words or names no choice changes no other lent memory.
 *
 * WALKS. The first words of `out` are the state of a walk; all zeros is a new walk, and a word that is not lent counts as 0. The last word of the state of a
 * walk over lines is a choice, which each step keeps: zeros before it are a new walk by the reading that it names. A call that gives a record puts the next
 * state in front of it, so that calling again with the same `out` gives the next record. At its end a walk leaves its state and answers C13_NONE, again and
 * again; a walk that is refused leaves its state and gives the same refusal again. A state that no call gave is no fault: it has one answer, too. So words
 * that another call answered are a state as well, and may be that of a walk at its end: begin each walk with zeros in an `out` of its own, or with a struct
 * of those below.
 *
 * An area, a stream or a body that is lent alone of more than 16,777,216 bytes is refused with C13_TOO_LONG, before every other refusal; the buffer of
 * the writer may be longer. */
#ifndef C13_H
#define C13_H

#include <stddef.h>
#include <stdint.h>

#ifdef __cplusplus
extern "C" {
#endif

/* The version of this header and of the library that it is for. */
#define C13_VERSION "0.1.0"

enum c13_status { C13_NONE = 0, C13_GIVEN = 1, C13_REFUSED = 2, C13_TOO_SHORT = 3, C13_LAST = 4, C13_NO_SUCH_CHOICE = 5 };

/* The numbers of refusals (document 01, "Refusal numbers"). */
enum c13_refusal {
    C13_CUT = 1,                         /* a field, counted body, padding or name ends past its data; a place past the lent bytes */
    C13_UNKNOWN_KIND = 2,                /* subsection kind unknown; carries the kind */
    C13_UNKNOWN_CHECKSUM_KIND = 3,       /* checksum kind above 3; carries the kind */
    C13_EXPORT_LENGTH = 4,               /* export body not a multiple of 8 bytes */
    C13_NOT_A_CROSS_MODULE_REF = 5,      /* bit 31 clear; carries the index */
    C13_CROSS_MODULE_REF_NOT_FOUND = 6,  /* no such module or word; carries the index */
    C13_BLOCK_SIZE = 7,                  /* block size below 12, or lines and columns exceed the block */
    C13_OFFSET_TOO_LARGE = 8,            /* section offset plus line offset or code size above 4,294,967,295 */
    C13_UNSORTED_EXPORTS = 9,            /* lookup in exports whose local indices are not strictly ascending */
    C13_NO_ROOM = 10,                    /* lent room too small */
    C13_TOO_LONG = 11,                   /* area, stream or body that is lent alone, above 16,777,216 bytes */
    C13_OLD_FORMAT = 12,                 /* C11 lines, or symbol signature not 4 */
    C13_NO_STRING_TABLE = 13,            /* string table signature not 0xEFFEEFFE */
    C13_HASH_VERSION = 14,               /* string hash version not 1 or 2 */
    C13_MODULE_SIZES = 15,               /* symbols size plus C13 size above the stream */
    C13_WRONG_PLACE = 16,                /* writer: entry not of the last subsection's kind, place past the buffer, or no plain area before it */
    C13_NOT_PLAIN = 17,                  /* writer: entry breaks a plain-area rule */
    C13_NO_FILE = 18,                    /* file index equals the checksum data's length; carries the index */
    C13_WRONG_SLOT = 19                  /* an order list slot is missing or names no line subsection body of the area */
};

/* Lengths in words: the states of walks, a line record, a file of c13_files, and what is always enough for `out`. */
enum { C13_SUB_STATE = 1, C13_TABLE_STATE = 4, C13_LINE_STATE = 30, C13_RECORD = 13, C13_FILE_RECORD = 5, C13_MOST = 43 };

/* ---- subsections */

/* Kinds of subsections, as cvinfo.h has them (DEBUG_S_..). The calls read the bodies of lines, checksums, inlinees, imports and exports. */
enum c13_kind {
    C13_KIND_SYMBOLS = 0xf1,
    C13_KIND_LINES = 0xf2,
    C13_KIND_STRING_TABLE = 0xf3,
    C13_KIND_FILE_CHECKSUMS = 0xf4,
    C13_KIND_FRAME_DATA = 0xf5,
    C13_KIND_INLINEE_LINES = 0xf6,
    C13_KIND_CROSS_SCOPE_IMPORTS = 0xf7,
    C13_KIND_CROSS_SCOPE_EXPORTS = 0xf8,
    C13_KIND_IL_LINES = 0xf9,
    C13_KIND_FUNC_MDTOKEN_MAP = 0xfa,
    C13_KIND_TYPE_MDTOKEN_MAP = 0xfb,
    C13_KIND_MERGED_ASSEMBLY_INPUT = 0xfc,
    C13_KIND_COFF_SYMBOL_RVA = 0xfd
};
/* Above what an enum of C99 holds. */
#define C13_KIND_IGNORE UINT32_C(0x80000000)

/* The next subsection of an area.
 * State, 1 word: the place, from the area's start. Given: the place behind the subsection, its kind, and where its body starts and its length.
 *   out[0] place   out[1] kind   out[2] start   out[3] length
 * The kinds of enum c13_kind are given, C13_KIND_IGNORE is passed over, every other kind is C13_UNKNOWN_KIND. */
uint32_t c13_next_sub(const uint8_t *area, size_t area_len, uint64_t *out, size_t out_len);

/* ---- lines */

/* The order list: the places of the area's line bodies in ascending (section, offset), equal ones in the order of the area. The first slots take
 * it, the others are left as they were. Refused where the whole area does not pass, then with C13_NO_ROOM where there are more line subsections
 * than slots; no slot is written then. area_len / 20 slots are always enough.
 *   out[0] how many slots it takes */
uint32_t c13_order_list(const uint8_t *area, size_t area_len, uint32_t *slots, size_t slots_len, uint64_t *out, size_t out_len);

/* The body list: the same places in the order of the area. Its refusals, and what it writes and answers, are those of the order list.
 *   out[0] how many slots it takes */
uint32_t c13_body_list(const uint8_t *area, size_t area_len, uint32_t *bodies, size_t bodies_len, uint64_t *out, size_t out_len);

/* WHAT THE BODY LIST IS FOR. The three calls below are lent both lists. No answer depends on `bodies`: it may be anything, and of length 0. With the list that
 * c13_body_list made of the same area a call costs at most some n log n steps, whatever area and slots are: n are the bytes of both, and a body that
 * several slots name counts for each of them. Without it, or with another list, a call over slots that go back in the area often costs up to n squared:
 * each slot that lies before the last one is searched from the area's start. With it, at the first such slot of a call, the list is held against the area,
 * in one pass, and then each slot is found in it by halving. Where the out[0] slots that c13_order_list wrote ascend they are the body list
 * themselves: just these may be lent in both places, and no call for it is needed. */

/* The words of a line record, counted from its first. An optional number is 1 and the number, or 0 and 0.
 * Word 12, the last, is the position of the body of the subsection that the record was read from, as the two lists above have it: it counts from the area's
 * first byte, also where the area is a part of a module's stream, and the subsection's header is the 8 bytes before it. So of a walk that was begun with a
 * new state or by c13_lines_for_symbol the records of one subsection all have the same number there, and those of two subsections never, also where these
 * overlap or have the same section and offset. UINT32_MAX, 0xffffffff, is a position that no area has, and stands for "of no line subsection": no record of
 * such a walk has it. */
enum c13_line_word {
    C13_SECTION = 0,
    C13_OFFSET = 1,
    C13_HAS_LENGTH = 2,
    C13_LENGTH = 3,
    C13_FILE = 4, /* the file's index, for c13_file_at */
    C13_START_LINE = 5,
    C13_END_LINE = 6, /* by the reading that was chosen, enum c13_end_lines */
    C13_HAS_START_COLUMN = 7,
    C13_START_COLUMN = 8,
    C13_HAS_END_COLUMN = 9,
    C13_END_COLUMN = 10,
    C13_IS_STATEMENT = 11, /* 1 a statement, 0 an expression */
    C13_BODY = 12 /* where the body of its subsection starts in the area */
};

/* How end lines are read. A line has seven bits for its end line, bits 24 to 30 of its flags word; no field of an area says how they are meant, so the caller
 * does, once for a walk.
 *   C13_END_LINES_CRATE     as the crate pdb 0.8.0 reads them: the end line is always the start line
 *   C13_END_LINES_LOW_BITS  the seven bits are the lowest of the end line, its other bits are those of the start line; plus 128 where that is below the start
 *                           line. The flags 0x8c00000a are line 10 to 12; start line 127 with 2 in the seven bits is 127 to 130
 *   C13_END_LINES_DELTA     the seven bits are how many lines the end line is behind the start line. The flags 0x8200000a are line 10 to 12; the largest end
 *                           line is 0x100007e, of the flags 0x7fffffff
 * Which to take depends on the compiler. Microsoft's cvinfo.h has the seven bits as deltaLineEnd, and LLVM reads them so: take C13_END_LINES_DELTA for files of
 * a compiler that follows that, and C13_END_LINES_LOW_BITS for those of one that is known to mean low bits. A compiler that means nothing by them often has 0
 * there, which by delta is the start line, and by low bits the first line from there on that 128 divides.
 * Of two walks that are begun alike but for the reading the end lines alone differ: all other words of a record, which records there are, in which order, and
 * each refusal are the same; that is proved. By none is the end line before the start line; by the last two it may pass 24 bits. */
enum c13_end_lines { C13_END_LINES_CRATE = 0, C13_END_LINES_LOW_BITS = 1, C13_END_LINES_DELTA = 2 };

/* The word of a line walk's state that holds the reading. */
enum { C13_STATE_END_LINES = 29 };

/* The next line record of the walk over an area and its order list.
 * State, 30 words. Given: the state behind the record, and at out[30] the 13 words of the record.
 *   out[0] 0 a new walk, 1 between two subsections, 2 inside one   out[1] next slot   out[2] line subsections left   out[3] how far the area was searched
 *   out[4] 1 if a record is held back   out[5] its 13 words, which are given as they stand but for its length; of a number too large for its field the low
 *   bits are, and a word that says which of two is 1 where it is above that
 *   out[18] offset, section, flags and code size of the line header
 *   out[22] start of the body, which the records that are read in it have as C13_BODY: C13_CUT where it lies behind the end, and else no call asks what is
 *   there   out[23] end of the body
 *   out[24] next block   out[25] file   out[26] lines left in the block   out[27] next line   out[28] next column
 *   out[29] the reading of end lines, C13_STATE_END_LINES: each step leaves it as it is; C13_NO_SUCH_CHOICE where it is none. The record that is held back
 *   keeps the end line that it was read with, also where the caller changes this word
 * All zeros is a new walk by the crate's reading; zeros, and another number of enum c13_end_lines at out[29], a new walk by the reading that it names.
 * A record is held back until its end is known, so that its length is right. With the list that c13_order_list made of the same area no slot is wrong;
 * with any other a slot that is missing or names no line body is C13_WRONG_SLOT when the walk comes to it. */
uint32_t c13_next_line(const uint8_t *area, size_t area_len, const uint32_t *slots, size_t slots_len, const uint32_t *bodies, size_t bodies_len,
                       uint64_t *out, size_t out_len);

/* Many line records in one call: those from the walk on, as many as `records` has room for, 13 words of 32 bits each. State as above, 30 words of 64.
 * Given: the state behind the last of them, and at out[30] how many there are; C13_LAST where the walk is over behind them, so that a short walk is one
 * call. The records before a refusal are given first; the next call tells it, as c13_next_line would. With room for no record C13_NO_ROOM; with
 * fewer than 32 words of `out` too short, and nothing changes. */
uint32_t c13_lines(const uint8_t *area, size_t area_len, const uint32_t *slots, size_t slots_len, const uint32_t *bodies, size_t bodies_len,
                   uint32_t *records, size_t records_len, uint64_t *out, size_t out_len);

/* The lines of the symbol at a section and offset: the state of a walk for c13_lines or c13_next_line. The walk is over the list's first line subsection
 * with just that section and offset; where there is none, over the last one in list order of the same section with a smaller offset, whether or
 * not it covers the offset asked; where there is none of these either, it has no records. Its end lines are read as `end_lines` says, a number of
 * enum c13_end_lines; C13_NO_SUCH_CHOICE where it is none. What `out` holds before the call is not looked at.
 *   out[0] .. out[29] the state */
uint32_t c13_lines_for_symbol(const uint8_t *area, size_t area_len, const uint32_t *slots, size_t slots_len, const uint32_t *bodies,
                              size_t bodies_len, uint16_t section, uint32_t offset, uint32_t end_lines, uint64_t *out, size_t out_len);

/* ---- files and their checksums: the entries of the area's last checksum subsection, after the tests of c13_order_list over the whole area */

enum c13_checksum_kind { C13_CHECKSUM_NONE = 0, C13_CHECKSUM_MD5 = 1, C13_CHECKSUM_SHA1 = 2, C13_CHECKSUM_SHA256 = 3 };

/* The next file. State, 4 words: 0 for a new walk or any other number; the body's start and length; the place in it.
 * The bytes of a checksum of no kind are not given: their length is 0.
 *   out[4] the file's index   out[5] its name's offset, for c13_name   out[6] checksum kind   out[7] start of its bytes in the area   out[8] their length */
uint32_t c13_next_file(const uint8_t *area, size_t area_len, uint64_t *out, size_t out_len);

/* Many files in one call: those from the walk on, as many as `records` has room for, 5 words of 32 bits each: what c13_next_file gives at out[4] .. out[8].
 * State as above, 4 words. Given: the state behind the last of them, and at out[4] how many there are; C13_LAST where they end with the checksum data.
 * The files before a refusal are given first; the next call tells it, as c13_next_file would. With room for no file C13_NO_ROOM; with fewer than 6
 * words of `out` too short, and nothing changes. */
uint32_t c13_files(const uint8_t *area, size_t area_len, uint32_t *records, size_t records_len, uint64_t *out, size_t out_len);

/* The file at an index, as line records name it. The index is a place in the checksum data: at its end C13_NO_FILE, behind it C13_CUT. Each call passes
 * over the headers of the whole area twice: whoever asks for more than one file asks c13_checksums once, and c13_file_in for each.
 *   out[0] its name's offset   out[1] checksum kind   out[2] start of its bytes in the area   out[3] their length */
uint32_t c13_file_at(const uint8_t *area, size_t area_len, uint32_t index, uint64_t *out, size_t out_len);

/* The part of the area that is its checksum data, for c13_file_in. Without such a subsection the part is empty, and both words are 0. Refused as
 * c13_file_at is for what is wrong with the area.
 *   out[0] its start   out[1] its length */
uint32_t c13_checksums(const uint8_t *area, size_t area_len, uint64_t *out, size_t out_len);

/* The file at an index of checksum data that is lent alone: what c13_file_at answers, but that its bytes are placed in the data. Any bytes are taken; what it
 * costs does not depend on their number.
 *   out[0] its name's offset   out[1] checksum kind   out[2] start of its bytes in the data   out[3] their length */
uint32_t c13_file_in(const uint8_t *data, size_t data_len, uint32_t index, uint64_t *out, size_t out_len);

/* ---- inlinees, imports, exports: from the first subsection of their kind; without one there are none. State as of c13_next_file */

/* The next inlinee.
 *   out[4] the inlinee   out[5] its file's index   out[6] its line   out[7] place of its extra files in the area   out[8] their number, for c13_word */
uint32_t c13_next_inlinee(const uint8_t *area, size_t area_len, uint64_t *out, size_t out_len);

/* The next module of the imports.
 *   out[4] its name's offset   out[5] place of its words in the area   out[6] their number, for c13_word */
uint32_t c13_next_import(const uint8_t *area, size_t area_len, uint64_t *out, size_t out_len);

/* Word i of the `count` words at a place of the area: little-endian, 4 bytes each. C13_NONE behind the last; C13_CUT where they do not all lie in it.
 *   out[0] the word */
uint32_t c13_word(const uint8_t *area, size_t area_len, size_t place, size_t count, size_t i, uint64_t *out, size_t out_len);

/* A cross-module reference resolved: bits 20 to 30 pick the module, bits 0 to 19 its word. The whole import table is read first.
 *   out[0] the module's name   out[1] the word */
uint32_t c13_resolve_import(const uint8_t *area, size_t area_len, uint32_t index, uint64_t *out, size_t out_len);

/* A list for lookups that read no table again: where the head of each import module stands in the area, in the order of the table. The first places take
 * it, the others are left as they were. Refused as c13_resolve_import refuses the area and the table, then with C13_NO_ROOM where there are more
 * modules than places; no place is written then. area_len / 8 places are always enough. The table is read twice.
 *   out[0] how many places it takes */
uint32_t c13_import_list(const uint8_t *area, size_t area_len, uint32_t *places, size_t places_len, uint64_t *out, size_t out_len);

/* A cross-module reference resolved by a list, at a cost that does not depend on the area's size. With the places that c13_import_list took of the same area,
 * and no more than these, the answer is that of c13_resolve_import. With any other places C13_CUT where no whole module stands at the one that is picked.
 *   out[0] the module's name   out[1] the word */
uint32_t c13_resolve_listed(const uint8_t *area, size_t area_len, const uint32_t *places, size_t places_len, uint32_t index, uint64_t *out,
                            size_t out_len);

/* The next export.
 *   out[4] 0 a type, 1 an id   out[5] its local index   out[6] its global index */
uint32_t c13_next_export(const uint8_t *area, size_t area_len, uint64_t *out, size_t out_len);

/* The number of exports.
 *   out[0] the number */
uint32_t c13_export_count(const uint8_t *area, size_t area_len, uint64_t *out, size_t out_len);

/* The global index of a local one; C13_NONE where it is not exported. C13_UNSORTED_EXPORTS is tested over all pairs first.
 *   out[0] the global index */
uint32_t c13_resolve_export(const uint8_t *area, size_t area_len, uint32_t local, uint64_t *out, size_t out_len);

/* Where the body stands for lookups that pass over no area again: the exports as they stand in the area, 8 bytes each. All that c13_resolve_export tests is
 * tested here, C13_UNSORTED_EXPORTS among it. Without exports it is the empty part at 0.
 *   out[0] its start in the area   out[1] its length */
uint32_t c13_export_body(const uint8_t *area, size_t area_len, uint64_t *out, size_t out_len);

/* The export at index i, counted from 0, of a body that is lent alone; C13_NONE behind the last. C13_TOO_LONG above 16,777,216 bytes, then C13_EXPORT_LENGTH.
 *   out[0] 0 a type, 1 an id   out[1] its local index   out[2] its global index */
uint32_t c13_export_at(const uint8_t *body, size_t body_len, size_t i, uint64_t *out, size_t out_len);

/* The global index of a local one in a body that is lent alone, by halving: n exports take at most log n looks. Of the
 * body that c13_export_body gave the answer is that of c13_resolve_export. The order of the local indices is not tested again: in a body where they do not
 * ascend one may be missed. C13_TOO_LONG above 16,777,216 bytes, then C13_EXPORT_LENGTH.
 *   out[0] the global index */
uint32_t c13_export_in(const uint8_t *body, size_t body_len, uint32_t local, uint64_t *out, size_t out_len);

/* ---- the string table stream (/names) */

/* Whether it is a string table.
 *   out[0] where its names start   out[1] their size */
uint32_t c13_string_table(const uint8_t *stream, size_t stream_len, uint64_t *out, size_t out_len);

/* The name at an offset of the names, without its zero. The tests of c13_string_table come first.
 *   out[0] where it starts in the stream   out[1] its length */
uint32_t c13_name(const uint8_t *stream, size_t stream_len, uint32_t offset, uint64_t *out, size_t out_len);

/* ---- a module's stream, and its three sizes from the DBI stream: symbols, C11 lines, C13 lines */

/* Whether the module's symbols can be read. No words. */
uint32_t c13_module_symbols(const uint8_t *stream, size_t stream_len, uint32_t symbols, uint32_t c11, uint32_t c13, uint64_t *out, size_t out_len);

/* The part of the stream that is the area for calls on lines and files: the C13 lines behind the symbols. With C11 lines it is C13_OLD_FORMAT.
 *   out[0] its start   out[1] its length */
uint32_t c13_lines_part(const uint8_t *stream, size_t stream_len, uint32_t symbols, uint32_t c11, uint32_t c13, uint64_t *out, size_t out_len);

/* The part that is the area for calls on inlinees, imports and exports. With C11 lines it is empty, as these tables are.
 *   out[0] its start   out[1] its length */
uint32_t c13_tables_part(const uint8_t *stream, size_t stream_len, uint32_t symbols, uint32_t c11, uint32_t c13, uint64_t *out, size_t out_len);

/* ---- the writer
 *
 * An area is written into a lent buffer by a sequence of calls. It starts at place 0; each call takes the place that the last one answered, adds one
 * subsection or one entry to the last one there, and answers the place behind what is written then. All lengths are right after each call,
 * and the bytes behind the answered place are left as they were. What was written is what is read: the full reading of the bytes is the list of accepted calls.
 *
 *   out[0] the place behind what is written
 *
 * Refused, in this order: C13_WRONG_PLACE where the place lies past the buffer, what is before it is no plain area, or an entry is not of the last
 * subsection's kind; C13_NOT_PLAIN where the entry would break a rule of plain areas; C13_NO_ROOM where it does not fit in the buffer or in
 * 16,777,216 bytes.
 *
 * LONG AREAS. A call tests all that is before its place, so the time of a sequence on one area grows with the square of its length. Subsections do not depend
 * on each other: areas that are written apart, each from place 0, and laid end to end are the area that all the calls write, and each call is answered the
 * same, refused ones too, but that its place counts from its area's start (proved: `all_joined`, `same_apart` of crates/round_trip). So write each
 * subsection as an area of its own into the free rest of the buffer. Keep `last`, where the last subsection begins, and `place`, which was last answered
 * there, both 0 at first; `end` is the smaller of the buffer's length and 16,777,216:
 *
 *     a call that begins a subsection    buf + last + place, end - last - place, place 0; where it is given, add `place` to `last`, and out[0] is `place`
 *     a call that adds an entry to it    buf + last, end - last, place; where it is given, out[0] is `place`
 *
 * A call that is refused changes neither. last + place bytes are written. */

/* Whether an area is plain, which is what the writer makes: the full reading refuses nothing, and document 01's rules hold. C13_NONE: it is not.
 *   out[0] place of its last header   out[1] kind of its last subsection   out[2] its mark; all 0 in an empty area */
uint32_t c13_plain(const uint8_t *area, size_t area_len, uint64_t *out, size_t out_len);

/* A line subsection with its header; bit 0 of the flags says that its lines have columns. */
uint32_t c13_open_lines(uint8_t *buf, size_t buf_len, size_t place, uint32_t offset, uint16_t section, uint16_t flags, uint32_t code, uint64_t *out,
                        size_t out_len);

/* A block of a file: two words a line (offset, flags), and with columns one word a line (start in the low half, end in the high one), else none. */
uint32_t c13_add_block(uint8_t *buf, size_t buf_len, size_t place, uint32_t file, const uint32_t *lines, size_t lines_len, const uint32_t *columns,
                       size_t columns_len, uint64_t *out, size_t out_len);

/* A checksum subsection, and an entry: 0, 16, 20 or 32 bytes for the kinds 0 to 3. */
uint32_t c13_open_checksums(uint8_t *buf, size_t buf_len, size_t place, uint64_t *out, size_t out_len);
uint32_t c13_add_entry(uint8_t *buf, size_t buf_len, size_t place, uint32_t name, uint8_t kind, const uint8_t *bytes, size_t bytes_len, uint64_t *out,
                       size_t out_len);

/* An inlinee subsection of signature 0 or 1, and an inlinee; extra files only under signature 1. */
uint32_t c13_open_inlinees(uint8_t *buf, size_t buf_len, size_t place, uint32_t signature, uint64_t *out, size_t out_len);
uint32_t c13_add_inlinee(uint8_t *buf, size_t buf_len, size_t place, uint32_t inlinee, uint32_t file, uint32_t line, const uint32_t *extra,
                         size_t extra_len, uint64_t *out, size_t out_len);

/* An import subsection, and a module of it with its words. */
uint32_t c13_open_imports(uint8_t *buf, size_t buf_len, size_t place, uint64_t *out, size_t out_len);
uint32_t c13_add_module(uint8_t *buf, size_t buf_len, size_t place, uint32_t name, const uint32_t *words, size_t words_len, uint64_t *out, size_t out_len);

/* An export subsection, and a pair of it; local indices strictly ascend. */
uint32_t c13_open_exports(uint8_t *buf, size_t buf_len, size_t place, uint64_t *out, size_t out_len);
uint32_t c13_add_pair(uint8_t *buf, size_t buf_len, size_t place, uint32_t local, uint32_t global, uint64_t *out, size_t out_len);

/* A subsection whose body is given whole: of kind C13_KIND_SYMBOLS, _STRING_TABLE, _FRAME_DATA, _IL_LINES, _FUNC_MDTOKEN_MAP, _TYPE_MDTOKEN_MAP,
 * _MERGED_ASSEMBLY_INPUT or _COFF_SYMBOL_RVA. Its length is divisible by 4. */
uint32_t c13_add_opaque(uint8_t *buf, size_t buf_len, size_t place, uint32_t kind, const uint8_t *body, size_t body_len, uint64_t *out, size_t out_len);

/* ---- the same calls with structs, inline
 *
 * A walk is a struct of its own. c13_.._walk_begin makes it, c13_.._walk_next stores the next record, c13_.._walk_many as many as there is room for. A
 * call that steps no walk has the name c13_ask_.. here. Each answers what its call answers: C13_GIVEN, and the answer is stored; C13_LAST of
 * c13_.._walk_many, the same; C13_NONE; C13_REFUSED, and why is stored, in the walk or, where it is not null, behind the last pointer. C13_TOO_SHORT does
 * not come, and C13_NO_SUCH_CHOICE only where a walk over lines is begun with a number that is no reading: it is no refusal, no reason is stored, and the
 * status alone tells it. A loop over c13_.._walk_many uses `count` records at each turn, whatever the status is, and goes on while that is C13_GIVEN.
 *
 *     struct c13_line_walk walk = c13_line_walk_begin(area, area_len, slots, used, bodies, used);
 *     struct c13_line line;
 *     while (c13_line_walk_next(&walk, &line) == C13_GIVEN) use(&line);
 *     if (walk.refused.number) fail(c13_refusal_text(walk.refused.number)); */

/* Why the last call was refused: the number, of enum c13_refusal, and what it carries, or 0. The number is 0 where the last call was not refused. */
struct c13_refused {
    uint32_t number;
    uint64_t carried;
};

/* What a refusal's number says. */
static inline const char *c13_refusal_text(uint32_t number) {
    switch (number) {
    case C13_CUT: return "a field, body, padding or name ends past its data";
    case C13_UNKNOWN_KIND: return "unknown subsection kind";
    case C13_UNKNOWN_CHECKSUM_KIND: return "unknown checksum kind";
    case C13_EXPORT_LENGTH: return "the export body is no multiple of 8 bytes";
    case C13_NOT_A_CROSS_MODULE_REF: return "not a cross-module reference";
    case C13_CROSS_MODULE_REF_NOT_FOUND: return "cross-module reference not found";
    case C13_BLOCK_SIZE: return "a block's size is below 12, or its lines and columns exceed it";
    case C13_OFFSET_TOO_LARGE: return "an offset is above 4,294,967,295";
    case C13_UNSORTED_EXPORTS: return "the local indices of the exports do not ascend";
    case C13_NO_ROOM: return "the lent room is too small";
    case C13_TOO_LONG: return "above 16,777,216 bytes";
    case C13_OLD_FORMAT: return "C11 lines, or a symbol signature that is not 4";
    case C13_NO_STRING_TABLE: return "not a string table";
    case C13_HASH_VERSION: return "unknown hash version of a string table";
    case C13_MODULE_SIZES: return "a module's sizes exceed its stream";
    case C13_WRONG_PLACE: return "an entry at a wrong place";
    case C13_NOT_PLAIN: return "an entry that would break a plain area";
    case C13_NO_FILE: return "no file at the end of the checksum data";
    case C13_WRONG_SLOT: return "a slot names no line subsection";
    default: return "unknown refusal";
    }
}

/* A file's index, a name's offset or a reading for a call that takes 32 bits: a larger number names nothing, and neither does the largest of these. */
static inline uint32_t c13_number(uint64_t number) { return number > UINT32_MAX ? UINT32_MAX : (uint32_t)number; }

/* The status of a call, with why it was refused out of the two words where that stands. */
static inline enum c13_status c13_told(uint32_t status, const uint64_t *words, struct c13_refused *why) {
    if (why) {
        why->number = status == C13_REFUSED ? (uint32_t)words[0] : 0;
        why->carried = status == C13_REFUSED ? words[1] : 0;
    }
    return (enum c13_status)status;
}

/* Records, in words as the calls give them: of 32 bits where c13_lines and c13_files write them, else of 64. `kind` is of enum c13_kind or
 * enum c13_checksum_kind; `start` and `length` name a part of the lent bytes (but the length of a line is that of its code); `body` is where the body of
 * a line's subsection starts, as C13_BODY says; `file` and `index` are for c13_ask_file_at, `name` is for c13_ask_name, `words` and `count` are for
 * c13_ask_word. Where has_.. is 0 there is no such number. */
struct c13_sub {
    uint64_t kind, start, length;
};
struct c13_line {
    uint32_t section, offset, has_length, length, file, start_line, end_line, has_start_column, start_column, has_end_column, end_column, is_statement, body;
};
struct c13_file {
    uint32_t index, name, kind, start, length;
};
struct c13_inlinee {
    uint64_t inlinee, file, line, words, count;
};
struct c13_import {
    uint64_t name, words, count;
};
struct c13_export {
    uint64_t is_id, local, global;
};
struct c13_part {
    uint64_t start, length;
};

/* c13_lines and c13_files write these structs: they are the words of a record, and no more. */
typedef char c13_line_is_a_record[sizeof(struct c13_line) == C13_RECORD * sizeof(uint32_t) ? 1 : -1];
typedef char c13_file_is_a_record[sizeof(struct c13_file) == C13_FILE_RECORD * sizeof(uint32_t) ? 1 : -1];

/* Walks: what is lent, the words of the call, why it was refused. What is lent must stay as it is while the walk is used. */
struct c13_sub_walk {
    const uint8_t *area;
    size_t area_len;
    uint64_t out[C13_SUB_STATE + 3];
    struct c13_refused refused;
};
struct c13_line_walk {
    const uint8_t *area;
    size_t area_len;
    const uint32_t *slots;
    size_t slots_len;
    const uint32_t *bodies;
    size_t bodies_len;
    uint64_t out[C13_LINE_STATE + C13_RECORD];
    struct c13_refused refused;
};
struct c13_file_walk {
    const uint8_t *area;
    size_t area_len;
    uint64_t out[C13_TABLE_STATE + C13_FILE_RECORD];
    struct c13_refused refused;
};
struct c13_inlinee_walk {
    const uint8_t *area;
    size_t area_len;
    uint64_t out[C13_TABLE_STATE + 5];
    struct c13_refused refused;
};
struct c13_import_walk {
    const uint8_t *area;
    size_t area_len;
    uint64_t out[C13_TABLE_STATE + 3];
    struct c13_refused refused;
};
struct c13_export_walk {
    const uint8_t *area;
    size_t area_len;
    uint64_t out[C13_TABLE_STATE + 3];
    struct c13_refused refused;
};

/* Subsections: c13_next_sub. */
static inline struct c13_sub_walk c13_sub_walk_begin(const uint8_t *area, size_t area_len) {
    struct c13_sub_walk walk = {area, area_len, {0}, {0, 0}};
    return walk;
}
static inline enum c13_status c13_sub_walk_next(struct c13_sub_walk *walk, struct c13_sub *sub) {
    const uint64_t *w = walk->out + C13_SUB_STATE;
    enum c13_status status = c13_told(c13_next_sub(walk->area, walk->area_len, walk->out, C13_SUB_STATE + 3), w, &walk->refused);
    if (status == C13_GIVEN) { sub->kind = w[0]; sub->start = w[1]; sub->length = w[2]; }
    return status;
}

/* The two lists: c13_order_list and c13_body_list, which write their slots. `used` of them are for the walk over the lines; both use as many. */
static inline enum c13_status c13_ask_order_list(const uint8_t *area, size_t area_len, uint32_t *slots, size_t slots_len, size_t *used,
                                                 struct c13_refused *why) {
    uint64_t out[2] = {0, 0};
    enum c13_status status = c13_told(c13_order_list(area, area_len, slots, slots_len, out, 2), out, why);
    if (status == C13_GIVEN) *used = (size_t)out[0];
    return status;
}
static inline enum c13_status c13_ask_body_list(const uint8_t *area, size_t area_len, uint32_t *bodies, size_t bodies_len, size_t *used,
                                                struct c13_refused *why) {
    uint64_t out[2] = {0, 0};
    enum c13_status status = c13_told(c13_body_list(area, area_len, bodies, bodies_len, out, 2), out, why);
    if (status == C13_GIVEN) *used = (size_t)out[0];
    return status;
}

/* Lines: c13_next_line, and c13_lines for many, whose room is a number of lines. A walk without a body list is begun with NULL and 0 for it. */
static inline struct c13_line_walk c13_line_walk_begin(const uint8_t *area, size_t area_len, const uint32_t *slots, size_t slots_len,
                                                       const uint32_t *bodies, size_t bodies_len) {
    struct c13_line_walk walk = {area, area_len, slots, slots_len, bodies, bodies_len, {0}, {0, 0}};
    return walk;
}
/* The same by a reading of end lines, of enum c13_end_lines; c13_line_walk_begin is by the crate's. Begun with a number that is none, each step answers
 * C13_NO_SUCH_CHOICE. The number has all bits of the state's word, so that none is cut off on its way. */
static inline struct c13_line_walk c13_line_walk_begin_by(const uint8_t *area, size_t area_len, const uint32_t *slots, size_t slots_len,
                                                          const uint32_t *bodies, size_t bodies_len, uint64_t end_lines) {
    struct c13_line_walk walk = c13_line_walk_begin(area, area_len, slots, slots_len, bodies, bodies_len);
    walk.out[C13_STATE_END_LINES] = end_lines;
    return walk;
}
/* The lines of a symbol by a reading of end lines: c13_lines_for_symbol. C13_GIVEN: the walk is begun. A walk that was not begun gives the same refusal, or
 * C13_NO_SUCH_CHOICE, at each step. */
static inline enum c13_status c13_line_walk_begin_symbol(struct c13_line_walk *walk, const uint8_t *area, size_t area_len, const uint32_t *slots,
                                                         size_t slots_len, const uint32_t *bodies, size_t bodies_len, uint16_t section,
                                                         uint32_t offset, uint64_t end_lines) {
    *walk = c13_line_walk_begin_by(area, area_len, slots, slots_len, bodies, bodies_len, end_lines);
    return c13_told(c13_lines_for_symbol(area, area_len, slots, slots_len, bodies, bodies_len, section, offset, c13_number(end_lines), walk->out,
                                         C13_LINE_STATE),
                    walk->out, &walk->refused);
}
/* A line's words, of 64 bits where c13_next_line gives them. */
static inline void c13_line_of(struct c13_line *line, const uint64_t *words) {
    line->section = (uint32_t)words[C13_SECTION]; line->offset = (uint32_t)words[C13_OFFSET];
    line->has_length = (uint32_t)words[C13_HAS_LENGTH]; line->length = (uint32_t)words[C13_LENGTH]; line->file = (uint32_t)words[C13_FILE];
    line->start_line = (uint32_t)words[C13_START_LINE]; line->end_line = (uint32_t)words[C13_END_LINE];
    line->has_start_column = (uint32_t)words[C13_HAS_START_COLUMN]; line->start_column = (uint32_t)words[C13_START_COLUMN];
    line->has_end_column = (uint32_t)words[C13_HAS_END_COLUMN]; line->end_column = (uint32_t)words[C13_END_COLUMN];
    line->is_statement = (uint32_t)words[C13_IS_STATEMENT]; line->body = (uint32_t)words[C13_BODY];
}
/* Whether a walk stays refused: so does each but one that lacks room, which may be given. */
static inline int c13_line_walk_stays(const struct c13_line_walk *walk) { return walk->refused.number && walk->refused.number != C13_NO_ROOM; }
static inline enum c13_status c13_line_walk_next(struct c13_line_walk *walk, struct c13_line *line) {
    const uint64_t *w = walk->out + C13_LINE_STATE;
    enum c13_status status;
    if (c13_line_walk_stays(walk)) return C13_REFUSED;
    status = c13_told(c13_next_line(walk->area, walk->area_len, walk->slots, walk->slots_len, walk->bodies, walk->bodies_len, walk->out,
                                    C13_LINE_STATE + C13_RECORD),
                      w, &walk->refused);
    if (status == C13_GIVEN) c13_line_of(line, w);
    return status;
}
/* A walk whose last lines came with C13_LAST is at its end, and answers C13_NONE. */
static inline enum c13_status c13_line_walk_many(struct c13_line_walk *walk, struct c13_line *lines, size_t room, size_t *count) {
    enum c13_status status;
    *count = 0;
    if (c13_line_walk_stays(walk)) return C13_REFUSED;
    status = c13_told(c13_lines(walk->area, walk->area_len, walk->slots, walk->slots_len, walk->bodies, walk->bodies_len, (uint32_t *)lines,
                                room * C13_RECORD, walk->out, C13_LINE_STATE + 2),
                      walk->out + C13_LINE_STATE, &walk->refused);
    if (status == C13_GIVEN || status == C13_LAST) *count = (size_t)walk->out[C13_LINE_STATE];
    return status;
}

/* Files: c13_next_file, c13_files for many, whose room is a number of files, and c13_file_at. The words name the file behind its index. */
static inline void c13_file_of(struct c13_file *file, uint64_t index, const uint64_t *words) {
    file->index = (uint32_t)index; file->name = (uint32_t)words[0]; file->kind = (uint32_t)words[1];
    file->start = (uint32_t)words[2]; file->length = (uint32_t)words[3];
}
static inline struct c13_file_walk c13_file_walk_begin(const uint8_t *area, size_t area_len) {
    struct c13_file_walk walk = {area, area_len, {0}, {0, 0}};
    return walk;
}
static inline enum c13_status c13_file_walk_next(struct c13_file_walk *walk, struct c13_file *file) {
    const uint64_t *w = walk->out + C13_TABLE_STATE;
    enum c13_status status = c13_told(c13_next_file(walk->area, walk->area_len, walk->out, C13_TABLE_STATE + C13_FILE_RECORD), w, &walk->refused);
    if (status == C13_GIVEN) c13_file_of(file, w[0], w + 1);
    return status;
}
static inline enum c13_status c13_file_walk_many(struct c13_file_walk *walk, struct c13_file *files, size_t room, size_t *count) {
    enum c13_status status = c13_told(c13_files(walk->area, walk->area_len, (uint32_t *)files, room * C13_FILE_RECORD, walk->out, C13_TABLE_STATE + 2),
                                      walk->out + C13_TABLE_STATE, &walk->refused);
    *count = status == C13_GIVEN || status == C13_LAST ? (size_t)walk->out[C13_TABLE_STATE] : 0;
    return status;
}
static inline enum c13_status c13_ask_file_at(const uint8_t *area, size_t area_len, uint64_t index, struct c13_file *file, struct c13_refused *why) {
    uint64_t out[4] = {0, 0, 0, 0};
    enum c13_status status = c13_told(c13_file_at(area, area_len, c13_number(index), out, 4), out, why);
    if (status == C13_GIVEN) c13_file_of(file, index, out);
    return status;
}
/* The checksum data of an area, and a file of it, whose `start` names a part of the data: c13_checksums, c13_file_in. */
static inline enum c13_status c13_ask_checksums(const uint8_t *area, size_t area_len, struct c13_part *data, struct c13_refused *why) {
    uint64_t out[2] = {0, 0};
    enum c13_status status = c13_told(c13_checksums(area, area_len, out, 2), out, why);
    if (status == C13_GIVEN) { data->start = out[0]; data->length = out[1]; }
    return status;
}
static inline enum c13_status c13_ask_file_in(const uint8_t *data, size_t data_len, uint64_t index, struct c13_file *file, struct c13_refused *why) {
    uint64_t out[4] = {0, 0, 0, 0};
    enum c13_status status = c13_told(c13_file_in(data, data_len, c13_number(index), out, 4), out, why);
    if (status == C13_GIVEN) c13_file_of(file, index, out);
    return status;
}

/* Inlinees, imports and exports: c13_next_inlinee, c13_next_import, c13_next_export. */
static inline struct c13_inlinee_walk c13_inlinee_walk_begin(const uint8_t *area, size_t area_len) {
    struct c13_inlinee_walk walk = {area, area_len, {0}, {0, 0}};
    return walk;
}
static inline enum c13_status c13_inlinee_walk_next(struct c13_inlinee_walk *walk, struct c13_inlinee *inlinee) {
    const uint64_t *w = walk->out + C13_TABLE_STATE;
    enum c13_status status = c13_told(c13_next_inlinee(walk->area, walk->area_len, walk->out, C13_TABLE_STATE + 5), w, &walk->refused);
    if (status == C13_GIVEN) { inlinee->inlinee = w[0]; inlinee->file = w[1]; inlinee->line = w[2]; inlinee->words = w[3]; inlinee->count = w[4]; }
    return status;
}
static inline struct c13_import_walk c13_import_walk_begin(const uint8_t *area, size_t area_len) {
    struct c13_import_walk walk = {area, area_len, {0}, {0, 0}};
    return walk;
}
static inline enum c13_status c13_import_walk_next(struct c13_import_walk *walk, struct c13_import *imported) {
    const uint64_t *w = walk->out + C13_TABLE_STATE;
    enum c13_status status = c13_told(c13_next_import(walk->area, walk->area_len, walk->out, C13_TABLE_STATE + 3), w, &walk->refused);
    if (status == C13_GIVEN) { imported->name = w[0]; imported->words = w[1]; imported->count = w[2]; }
    return status;
}
static inline struct c13_export_walk c13_export_walk_begin(const uint8_t *area, size_t area_len) {
    struct c13_export_walk walk = {area, area_len, {0}, {0, 0}};
    return walk;
}
static inline enum c13_status c13_export_walk_next(struct c13_export_walk *walk, struct c13_export *exported) {
    const uint64_t *w = walk->out + C13_TABLE_STATE;
    enum c13_status status = c13_told(c13_next_export(walk->area, walk->area_len, walk->out, C13_TABLE_STATE + 3), w, &walk->refused);
    if (status == C13_GIVEN) { exported->is_id = w[0]; exported->local = w[1]; exported->global = w[2]; }
    return status;
}

/* A word of an inlinee's extra files or of an import: c13_word. C13_NONE behind the last. */
static inline enum c13_status c13_ask_word(const uint8_t *area, size_t area_len, uint64_t words, uint64_t count, uint64_t i, uint64_t *word,
                                           struct c13_refused *why) {
    uint64_t out[2] = {0, 0};
    enum c13_status status = c13_told(c13_word(area, area_len, (size_t)words, (size_t)count, (size_t)i, out, 2), out, why);
    if (status == C13_GIVEN) *word = out[0];
    return status;
}
/* A cross-module reference: c13_resolve_import. */
static inline enum c13_status c13_ask_resolve_import(const uint8_t *area, size_t area_len, uint32_t index, uint64_t *name, uint64_t *word,
                                                     struct c13_refused *why) {
    uint64_t out[2] = {0, 0};
    enum c13_status status = c13_told(c13_resolve_import(area, area_len, index, out, 2), out, why);
    if (status == C13_GIVEN) { *name = out[0]; *word = out[1]; }
    return status;
}
/* A list of the modules, and a reference by it: c13_import_list, which writes the places, and c13_resolve_listed. `used` of the places are for it. */
static inline enum c13_status c13_ask_import_list(const uint8_t *area, size_t area_len, uint32_t *places, size_t places_len, size_t *used,
                                                  struct c13_refused *why) {
    uint64_t out[2] = {0, 0};
    enum c13_status status = c13_told(c13_import_list(area, area_len, places, places_len, out, 2), out, why);
    if (status == C13_GIVEN) *used = (size_t)out[0];
    return status;
}
static inline enum c13_status c13_ask_resolve_listed(const uint8_t *area, size_t area_len, const uint32_t *places, size_t places_len, uint32_t index,
                                                     uint64_t *name, uint64_t *word, struct c13_refused *why) {
    uint64_t out[2] = {0, 0};
    enum c13_status status = c13_told(c13_resolve_listed(area, area_len, places, places_len, index, out, 2), out, why);
    if (status == C13_GIVEN) { *name = out[0]; *word = out[1]; }
    return status;
}
/* The number of exports, and the global index of a local one: c13_export_count, c13_resolve_export. */
static inline enum c13_status c13_ask_export_count(const uint8_t *area, size_t area_len, uint64_t *count, struct c13_refused *why) {
    uint64_t out[2] = {0, 0};
    enum c13_status status = c13_told(c13_export_count(area, area_len, out, 2), out, why);
    if (status == C13_GIVEN) *count = out[0];
    return status;
}
static inline enum c13_status c13_ask_resolve_export(const uint8_t *area, size_t area_len, uint32_t local, uint64_t *global, struct c13_refused *why) {
    uint64_t out[2] = {0, 0};
    enum c13_status status = c13_told(c13_resolve_export(area, area_len, local, out, 2), out, why);
    if (status == C13_GIVEN) *global = out[0];
    return status;
}

/* The body of the exports, and of it the export at an index and the global index of a local one: c13_export_body, c13_export_at, c13_export_in. The part is
 * one of the area. */
static inline enum c13_status c13_ask_export_body(const uint8_t *area, size_t area_len, struct c13_part *body, struct c13_refused *why) {
    uint64_t out[2] = {0, 0};
    enum c13_status status = c13_told(c13_export_body(area, area_len, out, 2), out, why);
    if (status == C13_GIVEN) { body->start = out[0]; body->length = out[1]; }
    return status;
}
static inline enum c13_status c13_ask_export_at(const uint8_t *body, size_t body_len, uint64_t i, struct c13_export *exported, struct c13_refused *why) {
    uint64_t out[3] = {0, 0, 0};
    enum c13_status status = c13_told(c13_export_at(body, body_len, (size_t)i, out, 3), out, why);
    if (status == C13_GIVEN) { exported->is_id = out[0]; exported->local = out[1]; exported->global = out[2]; }
    return status;
}
static inline enum c13_status c13_ask_export_in(const uint8_t *body, size_t body_len, uint32_t local, uint64_t *global, struct c13_refused *why) {
    uint64_t out[2] = {0, 0};
    enum c13_status status = c13_told(c13_export_in(body, body_len, local, out, 2), out, why);
    if (status == C13_GIVEN) *global = out[0];
    return status;
}

/* Strings: c13_string_table, c13_name. The part is one of the stream. */
static inline enum c13_status c13_ask_string_table(const uint8_t *stream, size_t stream_len, struct c13_part *names, struct c13_refused *why) {
    uint64_t out[2] = {0, 0};
    enum c13_status status = c13_told(c13_string_table(stream, stream_len, out, 2), out, why);
    if (status == C13_GIVEN) { names->start = out[0]; names->length = out[1]; }
    return status;
}
static inline enum c13_status c13_ask_name(const uint8_t *stream, size_t stream_len, uint64_t offset, struct c13_part *name, struct c13_refused *why) {
    uint64_t out[2] = {0, 0};
    enum c13_status status = c13_told(c13_name(stream, stream_len, c13_number(offset), out, 2), out, why);
    if (status == C13_GIVEN) { name->start = out[0]; name->length = out[1]; }
    return status;
}

/* A module's sizes, as the DBI stream has them: c13_module_symbols, c13_lines_part, c13_tables_part. */
struct c13_sizes {
    uint32_t symbols, c11, c13;
};
static inline enum c13_status c13_ask_module_symbols(const uint8_t *stream, size_t stream_len, struct c13_sizes sizes, struct c13_refused *why) {
    uint64_t out[2] = {0, 0};
    return c13_told(c13_module_symbols(stream, stream_len, sizes.symbols, sizes.c11, sizes.c13, out, 2), out, why);
}
static inline enum c13_status c13_ask_lines_part(const uint8_t *stream, size_t stream_len, struct c13_sizes sizes, struct c13_part *part,
                                                 struct c13_refused *why) {
    uint64_t out[2] = {0, 0};
    enum c13_status status = c13_told(c13_lines_part(stream, stream_len, sizes.symbols, sizes.c11, sizes.c13, out, 2), out, why);
    if (status == C13_GIVEN) { part->start = out[0]; part->length = out[1]; }
    return status;
}
static inline enum c13_status c13_ask_tables_part(const uint8_t *stream, size_t stream_len, struct c13_sizes sizes, struct c13_part *part,
                                                  struct c13_refused *why) {
    uint64_t out[2] = {0, 0};
    enum c13_status status = c13_told(c13_tables_part(stream, stream_len, sizes.symbols, sizes.c11, sizes.c13, out, 2), out, why);
    if (status == C13_GIVEN) { part->start = out[0]; part->length = out[1]; }
    return status;
}

#ifdef __cplusplus
}
#endif

#endif
