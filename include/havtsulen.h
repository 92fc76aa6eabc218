/*
 * Havtsulen: reads and writes settings files in the syntax of systemd.syntax(7), as the house rules (document 01) fix
 * it. For x86-64 Linux, from C99 or C++11 on. Link with target/staticlib/libhavtsulen.a, which needs memcpy and memset
 * and nothing else, and compile c/refusal_text.c with your program where it calls havtsulen_refusal_text.
 * examples/setting.c is a whole program.
 *
 * Slices
 *   A slice is two arguments: a pointer to its first element, and its length in elements (not in bytes). An element is
 *   a byte (uint8_t) or a number (size_t). The pointer is not null, is aligned for its elements, and at least `length`
 *   elements lie there. An empty slice is a pointer that is not null, and the length 0; malloc(0) and the data() of an
 *   empty C++ container may be null, so do not lend those. A null pointer, or a length that passes the memory behind
 *   it, is a mistake that the library cannot see.
 *
 * Ownership
 *   The caller owns every buffer. A call uses its slices until it returns. The library keeps no pointer, allocates
 *   nothing, and never writes through a pointer to const.
 *
 * Overlap
 *   A buffer that a call writes to must not overlap any other slice of that call. Slices that are only read may overlap
 *   each other.
 *
 * Answer and report
 *   Every call returns 0 where it is accepted, and otherwise the number of its one refusal (enum havtsulen_refusal).
 *   Its last slice, `report`, takes the numbers that belong to the answer. It has at least HAVTSULEN_REPORT_NUMBERS
 *   numbers. If it is shorter the call returns 1, before everything else is judged, and writes nothing anywhere, the
 *   report included: it then still has its old numbers. The comments of the calls leave that case out. Otherwise its
 *   first four numbers are always written, and the rest of it stays:
 *     accepted: what the comment of the call says, filled up with zeros;
 *     refused:  the place, 0, 0, 0. The place is a line (from 1), an offset in bytes (from 0), or 0, as the enum says.
 *
 * Buffers
 *   Of the buffers that a call writes to: a refused call changes none but the report. An accepted one fills them from
 *   their start, as far as its report says, and all else in them stays. Their contents before the call do not count. A
 *   buffer may be longer than the size stated for it; a shorter one is refused with 1.
 *
 * The table of a file
 *   havtsulen_read leaves a table in three buffers: `text` has the names, keys and values, `sections` two numbers for
 *   each section, and `entries` five for each entry. Indexes count from 0, in the order of the file.
 *     name of section s:          sections[2 * s + 1] bytes at text + sections[2 * s]
 *     index of entry e's section: entries[5 * e]
 *     key of entry e:             entries[5 * e + 2] bytes at text + entries[5 * e + 1]
 *     value of entry e:           entries[5 * e + 4] bytes at text + entries[5 * e + 3]
 *   An entry is one setting: a key and its value. Names, keys and values are not NUL-terminated; their lengths tell
 *   where they end. A section that comes back in the file is one section. A key that comes back is another entry.
 *   Calls that ask a table take the lengths of the buffers, in elements, and beside them the counts of sections and
 *   entries, which havtsulen_read reports as its second and third number, and havtsulen_normal_text as its third and
 *   fourth.
 *
 * Threads
 *   The library has no state and takes no locks. Any number of threads may call it at once, each with its own buffers
 *   to write to. They may ask one table at once, while no call writes to it.
 *
 * Stack
 *   A call needs at most HAVTSULEN_STACK_BYTES bytes of the stack that it is made on. The library does not check that
 *   they are there, but touches its stack page by page, so that a guard page below it ends the program. Measured
 *   (tests/stack): havtsulen_normal_text 112,120, havtsulen_read 93,560, havtsulen_write 17,320, havtsulen_split 6,552,
 *   every other call below 410; and some 3,200 more in the first call of a program that binds memcpy and memset lazily.
 */
#ifndef HAVTSULEN_H
#define HAVTSULEN_H

#include <stddef.h>
#include <stdint.h>

#ifdef __cplusplus
extern "C" {
#endif

/* The longest file. One that is not empty and does not end in LF counts one byte more. */
#define HAVTSULEN_FILE_BYTES 65535

/* Buffers of havtsulen_read and havtsulen_normal_text: `text`, `sections` and `entries`. */
#define HAVTSULEN_TEXT_BYTES 65535
#define HAVTSULEN_SECTION_NUMBERS 128
#define HAVTSULEN_ENTRY_NUMBERS 2560

/* `out` of havtsulen_normal_text; that of havtsulen_write is another. */
#define HAVTSULEN_NORMAL_BYTES 65535

/* Buffers of havtsulen_split: `bytes` and `ends`. */
#define HAVTSULEN_ITEM_BYTES 4096
#define HAVTSULEN_ITEM_ENDS 256

/* `out` of havtsulen_write. */
#define HAVTSULEN_WRITE_BYTES 4096

/* `report` of every call. */
#define HAVTSULEN_REPORT_NUMBERS 4

/* The stack that a call needs at most. */
#define HAVTSULEN_STACK_BYTES 131072

/* `which` of havtsulen_find. */
#define HAVTSULEN_FIRST 0
#define HAVTSULEN_LAST 1

/* What a call returns. Behind each refusal stands its place. */
enum havtsulen_refusal {
    HAVTSULEN_ACCEPTED = 0,
    /* of any call */
    HAVTSULEN_SHORT_BUFFER = 1,     /* 0 */
    /* of a file */
    HAVTSULEN_FILE_TOO_LONG = 2,    /* 0 */
    HAVTSULEN_NOT_UTF8 = 3,         /* line of the first byte after the longest well-formed start */
    HAVTSULEN_CONTROL_BYTE = 4,     /* line of the first one: 00 to 1F but tab and LF, and 7F (so CR LF line ends) */
    HAVTSULEN_LINE_TOO_LONG = 5,    /* line on which the joined line, of over 4,096 bytes, starts; so for 6 to 10 */
    HAVTSULEN_BAD_HEADER = 6,       /* line (a name has one or more bytes 20 to 7E, none of them [ or ]) */
    HAVTSULEN_NO_EQUALS_SIGN = 7,   /* line */
    HAVTSULEN_BAD_KEY = 8,          /* line (a key has one or more of A to Z, a to z, 0 to 9, -, _ and .) */
    HAVTSULEN_NO_SECTION = 9,       /* line */
    HAVTSULEN_TOO_MANY = 10,        /* line of the 65th section or of the 513th entry */
    /* of a list of items */
    HAVTSULEN_TEXT_TOO_LONG = 20,   /* 0 */
    HAVTSULEN_FORBIDDEN_BYTE = 21,  /* offset of the first one: 00 to 1F but tab, and 7F */
    HAVTSULEN_MISPLACED_QUOTE = 22, /* offset of the quote inside the item, or of the byte after the closing quote */
    HAVTSULEN_OPEN_QUOTE = 23,      /* offset of the opening quote */
    HAVTSULEN_ESCAPE_FORM = 24,     /* offset of the backslash */
    HAVTSULEN_ESCAPE_VALUE = 25,    /* offset of the backslash; for 0, above 377 octal, D800 to DFFF, above 10FFFF */
    HAVTSULEN_TOO_MANY_ITEMS = 26,  /* offset of the 257th item; 0 for havtsulen_write */
    HAVTSULEN_NUL_BYTE = 27,        /* 0 */
    HAVTSULEN_BAD_ENDS = 28,        /* 0 */
    /* of a value */
    HAVTSULEN_NO_BOOLEAN = 30,      /* 0 */
    HAVTSULEN_SPAN_FORM = 31,       /* 0 */
    HAVTSULEN_SPAN_TOO_LARGE = 32,  /* 0 */
    /* of a question to a table */
    HAVTSULEN_NO_ENTRY = 40,        /* 0 */
    HAVTSULEN_FAULTY_RECORD = 41    /* 0 */
};

/*
 * What a refusal says, in one line without a full stop: for 0 "accepted", for a number that is none of the above
 * "unknown refusal". The string is constant and lives as long as the program; do not free it. The one function that is
 * not in the archive: it stands in c/refusal_text.c.
 */
const char *havtsulen_refusal_text(size_t number);

/*
 * How far a text is UTF-8 (RFC 3629).
 * In:       text, any bytes, of any length.
 * Accepted: always. report = length of the longest well-formed start of the text, 0, 0, 0. It is text_length exactly
 *           when the whole text is UTF-8.
 */
size_t havtsulen_well_formed_length(const uint8_t *text, size_t text_length, size_t *report, size_t report_length);

/*
 * Judges the bytes of a file, not yet its lines.
 * In:       file, the whole file, of any length.
 * Accepted: the file counts at most HAVTSULEN_FILE_BYTES bytes, a missing last LF as one of them, is UTF-8 and has no
 *           control byte. report = 0, 0, 0, 0.
 * Refused:  2, 3, 4; the first of them in this order. report = place, 0, 0, 0.
 */
size_t havtsulen_check_file(const uint8_t *file, size_t file_length, size_t *report, size_t report_length);

/*
 * Reads a file into a table. Lines that start with # or ; are comments. A line that ends in an odd run of backslashes
 * goes on with the next line that is no comment, the last backslash becoming a space. Blanks (spaces, tabs) at both
 * ends of a line and next to its first = are dropped. [name] opens a section, key=value is an entry of it.
 * In:       file, the whole file, of any length.
 * Out:      text, at least HAVTSULEN_TEXT_BYTES bytes; sections, at least HAVTSULEN_SECTION_NUMBERS numbers; entries,
 *           at least HAVTSULEN_ENTRY_NUMBERS numbers. See "The table of a file" above.
 * Accepted: report = bytes used in text, number of sections (at most 64), number of entries (at most 512), 0.
 * Refused:  1 for a short buffer; then 2, 3, 4, each judged over the whole file, in this order; then the first faulty
 *           line, in it 5 to 10 in order. report = place, 0, 0, 0, and the three buffers are as they were.
 */
size_t havtsulen_read(const uint8_t *file, size_t file_length, uint8_t *text, size_t text_length, size_t *sections,
                      size_t sections_length, size_t *entries, size_t entries_length, size_t *report,
                      size_t report_length);

/*
 * Looks an entry up by the name of its section and by its key, both compared byte for byte.
 * In:       section and key, any bytes, may be empty; which, HAVTSULEN_FIRST (0) for the first such entry, any other
 *           number for the last; the table: text, sections, section_count, entries, entry_count. Its buffers may have
 *           any length and hold any numbers: all records among the counts are judged.
 * Accepted: report = index of the entry, 0, 0, 0.
 * Refused:  41 where a record among the counts points outside the text buffer or names a section that is not below
 *           section_count, or a count passes its buffer; then 40 where there is no such entry. report = 0, 0, 0, 0.
 */
size_t havtsulen_find(const uint8_t *section, size_t section_length, const uint8_t *key, size_t key_length,
                      size_t which, const uint8_t *text, size_t text_length, const size_t *sections,
                      size_t sections_length, size_t section_count, const size_t *entries, size_t entries_length,
                      size_t entry_count, size_t *report, size_t report_length);

/*
 * Where the value of an entry stands in the text buffer, or an empty part.
 * In:       index, any number; the table, as for havtsulen_find.
 * Accepted: always. report = start, length, 0, 0: the value is the `length` bytes at text + start. Where
 *           havtsulen_value_check refuses with 40 or 41, report = 0, 0, 0, 0. An empty value has the length 0 too; ask
 *           havtsulen_value_check to tell them apart.
 */
size_t havtsulen_value(size_t index, const uint8_t *text, size_t text_length, const size_t *sections,
                       size_t sections_length, size_t section_count, const size_t *entries, size_t entries_length,
                       size_t entry_count, size_t *report, size_t report_length);

/*
 * The same, with a refusal where there is no value.
 * In:       index, any number; the table, as for havtsulen_find.
 * Accepted: report = start, length, 0, 0: the value is the `length` bytes at text + start. The length may be 0.
 * Refused:  41 as for havtsulen_find; then 40 where index is not below entry_count. report = 0, 0, 0, 0.
 */
size_t havtsulen_value_check(size_t index, const uint8_t *text, size_t text_length, const size_t *sections,
                             size_t sections_length, size_t section_count, const size_t *entries, size_t entries_length,
                             size_t entry_count, size_t *report, size_t report_length);

/*
 * Writes the normal text of a file: each section once, in the order in which they first appear, as [name] and LF, and
 * under it its entries as key=value and LF. A value that ends in an odd run of backslashes gets a space before the LF.
 * Two accepted files have the same normal text exactly when they hold the same sections and, in each, the same entries,
 * in the same order.
 * In:       file, the whole file, of any length.
 * Out:      text, sections, entries as for havtsulen_read: they then hold the table of the file; out, at least
 *           HAVTSULEN_NORMAL_BYTES bytes, gets the normal text.
 * Accepted: report = length of the normal text, bytes used in text, number of sections, number of entries.
 * Refused:  as havtsulen_read, and 1 also for a short out. report = place, 0, 0, 0, and the four buffers are as they
 *           were.
 */
size_t havtsulen_normal_text(const uint8_t *file, size_t file_length, uint8_t *text, size_t text_length,
                             size_t *sections, size_t sections_length, size_t *entries, size_t entries_length,
                             uint8_t *out, size_t out_length, size_t *report, size_t report_length);

/*
 * Splits a text, such as a value, into items. Blanks (spaces, tabs) stand between items. A double or a single quote
 * opens only at the start of an item; the same quote closes it, the other kind inside is data, and a blank or the end
 * of the text follows. Escapes count in and out of quotes: \a \b \f \n \r \t \v \\ \" \' \s (a space); \xHH and \OOO
 * (three octal digits), which give one byte; \uHHHH and \UHHHHHHHH, which give the UTF-8 of the code point. Hex digits
 * are of either case.
 * In:       text, any bytes; at most 4,096 are accepted.
 * Out:      bytes, at least HAVTSULEN_ITEM_BYTES bytes: the items one after another, quotes and escapes resolved;
 *           ends, at least HAVTSULEN_ITEM_ENDS numbers: ends[i] is the offset in bytes just after item i. Item i starts
 *           at ends[i - 1], the first one at 0. An item may be empty, and need not be UTF-8.
 * Accepted: report = number of items (may be 0), bytes used (the end of the last item), 0, 0.
 * Refused:  1 for a short buffer, 20, 21 in this order; then the first fault that is met reading from the left, 22 to
 *           26: 26 where the item begins, before anything in it, 24 before 25 at one backslash, 23 only when the text
 *           has ended. report = place, 0, 0, 0, and both buffers are as they were.
 */
size_t havtsulen_split(const uint8_t *text, size_t text_length, uint8_t *bytes, size_t bytes_length, size_t *ends,
                       size_t ends_length, size_t *report, size_t report_length);

/*
 * Writes items as a text that havtsulen_split gives back as the same items. The text is printable ASCII, and may stand
 * behind a key and = in a file as far as the line then has at most 4,096 bytes.
 * In:       bytes, the items one after another, of any length; ends, one number for each item, as havtsulen_split
 *           leaves them. ends_length is the number of items, not HAVTSULEN_ITEM_ENDS. Bytes behind the last end are no
 *           item.
 * Out:      out, at least HAVTSULEN_WRITE_BYTES bytes.
 * Accepted: report = length of the text, 0, 0, 0.
 * Refused:  1 for a short out, 26 (more than 256 items), 28 (an end lies below the one before it, or past
 *           bytes_length), 27 (a NUL byte in an item; one behind the last end does no harm), 20 (the text would be
 *           longer than 4,096 bytes), in this order. report = 0, 0, 0, 0, and out is as it was.
 */
size_t havtsulen_write(const uint8_t *bytes, size_t bytes_length, const size_t *ends, size_t ends_length, uint8_t *out,
                       size_t out_length, size_t *report, size_t report_length);

/*
 * Whether a text says yes or no. Yes is 1, yes, true or on; no is 0, no, false or off; exactly these bytes.
 * In:       text, any bytes, of any length.
 * Accepted: report = 1 for yes or 0 for no, 0, 0, 0.
 * Refused:  30. report = 0, 0, 0, 0, so only the number returned tells it from a no.
 */
size_t havtsulen_boolean(const uint8_t *text, size_t text_length, size_t *report, size_t report_length);

/*
 * The time that a text says. It is decimal digits alone (seconds), or one or more parts, each digits and a unit out of
 * us, ms, s, min, h, d (24 hours), w (7 days). Blanks may stand around, between parts, and before a unit.
 * In:       text, any bytes, of any length.
 * Accepted: report = microseconds (the sum of the parts), 0, 0, 0.
 * Refused:  31 (the form), then 32 (more than 18446744073709551615 microseconds). report = 0, 0, 0, 0.
 */
size_t havtsulen_span(const uint8_t *text, size_t text_length, size_t *report, size_t report_length);

#ifdef __cplusplus
}
#endif

#endif
