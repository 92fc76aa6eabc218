/*
 * Measures the stack that each call needs, and exits with 1 where one needs more than HAVTSULEN_STACK_BYTES, or answers
 * another number than the one that its input is made for. The script tests/stack compiles and runs it.
 *
 * Each call is made on a stack of its own, 1 MiB that was filled with one byte. The deepest byte that has changed tells
 * how deep the call went, whatever it left above as it was. It is made twice, with two fillings, so that a byte that is
 * written as the filling in one is seen in the other. What a function that calls nothing needs is taken off.
 *
 * The library calls memcpy and memset. With -z now they are bound at the start, so that no figure depends on the order
 * of the calls. A program that is bound lazily needs some 3,200 bytes more (glibc 2.36) in the first call of them.
 */
#define _GNU_SOURCE

#include <stdio.h>
#include <stdlib.h>
#include <string.h>
#include <sys/mman.h>
#include <ucontext.h>

#include "havtsulen.h"

#define LENGTH(array) (sizeof(array) / sizeof(array)[0])

/* ---- the measure */

#define MEASURED_BYTES ((size_t)1 << 20)
#define GUARD_BYTES ((size_t)4096)

static const uint8_t fillings[] = {0x5a, 0xa5};
static uint8_t *stack;

static void make_stack(void)
{
    uint8_t *memory = mmap(NULL, GUARD_BYTES + MEASURED_BYTES, PROT_READ | PROT_WRITE,
                           MAP_PRIVATE | MAP_ANONYMOUS | MAP_STACK, -1, 0);
    if (memory == MAP_FAILED || mprotect(memory, GUARD_BYTES, PROT_NONE) != 0) {
        perror("stack");
        exit(1);
    }
    stack = memory + GUARD_BYTES;
}

/* Runs a function on the measured stack. */
static void run_there(void (*function)(void))
{
    static ucontext_t here, there;
    if (getcontext(&there) != 0) {
        perror("getcontext");
        exit(1);
    }
    there.uc_stack.ss_sp = stack;
    there.uc_stack.ss_size = MEASURED_BYTES;
    there.uc_link = &here;
    makecontext(&there, function, 0);
    if (swapcontext(&here, &there) != 0) {
        perror("swapcontext");
        exit(1);
    }
}

/* How deep a function goes, from the upper end of the stack. */
static size_t depth(void (*function)(void))
{
    size_t deepest = MEASURED_BYTES;
    for (size_t i = 0; i < LENGTH(fillings); i++) {
        size_t at = 0;
        memset(stack, fillings[i], MEASURED_BYTES);
        run_there(function);
        while (at < deepest && stack[at] == fillings[i])
            at++;
        deepest = at;
    }
    return MEASURED_BYTES - deepest;
}

static void call_nothing(void)
{
}

/* What a function needs beyond one that calls nothing. */
static size_t need(void (*function)(void))
{
    return depth(function) - depth(call_nothing);
}

/* A function whose need is known. Its deepest byte is written as one of the fillings, and nothing near it. */
#define KNOWN_BYTES 100000

static void use_known_bytes(void)
{
    volatile uint8_t array[KNOWN_BYTES];
    array[0] = fillings[0];
    (void)array[0];
}

/* ---- what the calls are given */

static uint8_t input[1 << 17];
static size_t input_length;
static size_t given_ends[HAVTSULEN_ITEM_ENDS + 1];
static size_t given_count;
static const char *section, *key;
static size_t which, entry_index;

static uint8_t text[HAVTSULEN_TEXT_BYTES];
static size_t sections[HAVTSULEN_SECTION_NUMBERS];
static size_t entries[HAVTSULEN_ENTRY_NUMBERS];
static size_t section_count, entry_count;
static uint8_t out[HAVTSULEN_NORMAL_BYTES];
static uint8_t bytes[HAVTSULEN_ITEM_BYTES];
static size_t ends[HAVTSULEN_ITEM_ENDS];
static size_t report[HAVTSULEN_REPORT_NUMBERS];
static size_t number;

/* ---- the calls */

static void call_well_formed_length(void)
{
    number = havtsulen_well_formed_length(input, input_length, report, LENGTH(report));
}

static void call_check_file(void)
{
    number = havtsulen_check_file(input, input_length, report, LENGTH(report));
}

static void call_read(void)
{
    number = havtsulen_read(input, input_length, text, LENGTH(text), sections, LENGTH(sections), entries,
                            LENGTH(entries), report, LENGTH(report));
}

static void call_find(void)
{
    number = havtsulen_find((const uint8_t *)section, strlen(section), (const uint8_t *)key, strlen(key), which, text,
                            LENGTH(text), sections, LENGTH(sections), section_count, entries, LENGTH(entries),
                            entry_count, report, LENGTH(report));
}

static void call_value(void)
{
    number = havtsulen_value(entry_index, text, LENGTH(text), sections, LENGTH(sections), section_count, entries,
                             LENGTH(entries), entry_count, report, LENGTH(report));
}

static void call_value_check(void)
{
    number = havtsulen_value_check(entry_index, text, LENGTH(text), sections, LENGTH(sections), section_count, entries,
                                   LENGTH(entries), entry_count, report, LENGTH(report));
}

static void call_normal_text(void)
{
    number = havtsulen_normal_text(input, input_length, text, LENGTH(text), sections, LENGTH(sections), entries,
                                   LENGTH(entries), out, LENGTH(out), report, LENGTH(report));
}

static void call_split(void)
{
    number = havtsulen_split(input, input_length, bytes, LENGTH(bytes), ends, LENGTH(ends), report, LENGTH(report));
}

static void call_write(void)
{
    number = havtsulen_write(input, input_length, given_ends, given_count, out, LENGTH(out), report, LENGTH(report));
}

static void call_boolean(void)
{
    number = havtsulen_boolean(input, input_length, report, LENGTH(report));
}

static void call_span(void)
{
    number = havtsulen_span(input, input_length, report, LENGTH(report));
}

/* ---- making inputs */

static void put(const char *piece)
{
    memcpy(input + input_length, piece, strlen(piece));
    input_length += strlen(piece);
}

static void put_times(const char *piece, size_t times)
{
    for (size_t i = 0; i < times; i++)
        put(piece);
}

/* Puts a piece as often as it fits before a length. */
static void put_up_to(const char *piece, size_t length)
{
    put_times(piece, (length - input_length) / strlen(piece));
}

/* ---- files */

/* 64 sections, whose names fall and differ late, and 512 entries, in 65,280 bytes. */
static void put_full_table(void)
{
    for (int s = 63; s >= 0; s--) {
        char header[32];
        size_t end = input_length + 1020;
        snprintf(header, sizeof header, "[one start of all %02d]\n", s);
        put(header);
        for (size_t e = 1; e <= 8; e++) {
            put("Key=");
            put_up_to("v", end - 120 * (8 - e) - 1);
            put("\n");
        }
    }
}

static void full_table(void)
{
    put_full_table();
    put("#");
    put_up_to("c", HAVTSULEN_FILE_BYTES - 1);
    put("\n");
}

static void one_entry_more(void)
{
    put_full_table();
    put("#");
    put_up_to("c", HAVTSULEN_FILE_BYTES - 4);
    put("\nK=\n");
}

static void one_section_more(void)
{
    put_full_table();
    put("[one start of all]\n");
}

static void known_headers(void)
{
    put_full_table();
    put_up_to("[one start of all 00]\n", HAVTSULEN_FILE_BYTES);
}

/* An entry joined of two physical lines, with a comment between them: 4,096 bytes, and some more. */
static void put_joined_line(size_t more)
{
    put("K=");
    put_times("v", 2045);
    put("\\\n# comment\n");
    put_times("\\", 2048 + more);
    put("\n");
}

static void longest_lines(void)
{
    put("[A]\n");
    for (size_t i = 0; i < 15; i++)
        put_joined_line(0);
}

static void late_long_line(void)
{
    put("[A]\n");
    for (size_t i = 0; i < 14; i++)
        put_joined_line(0);
    put_joined_line(2);
}

static void shortest_lines(void)
{
    put_up_to("\n", HAVTSULEN_FILE_BYTES);
}

static void no_section(void)
{
    put_up_to("\n", HAVTSULEN_FILE_BYTES - 3);
    put("K=\n");
}

/* The longest file, with one late line in it. */
static void put_late(const char *line)
{
    put("[A]\n");
    put_up_to("#\n", HAVTSULEN_FILE_BYTES - strlen(line));
    put(line);
}

static void late_header(void) { put_late("[A\n"); }
static void late_line_without_sign(void) { put_late("K\n"); }
static void late_key(void) { put_late("K K=\n"); }
static void late_control_byte(void) { put_late("#\x7f\n"); }
static void late_broken_character(void) { put_late("#\xf4\x8f\xbf"); }
static void too_long_file(void) { put_up_to("#\n", HAVTSULEN_FILE_BYTES + 1); }
static void empty(void) { }

static void characters(void)
{
    put("#");
    put_up_to("\xf0\x90\x80\x80\xef\xbf\xbf\xed\x9f\xbf\xc3\xa9~", HAVTSULEN_FILE_BYTES - 1);
    put("\n");
}

/* ---- questions to a table */

/* Reads the full table. The entry meant is the last one. */
static void table_read(void)
{
    put_full_table();
    call_read();
    section_count = report[1];
    entry_count = report[2];
    entry_index = entry_count - 1;
    section = "one start of all 00";
    key = "Key";
    which = HAVTSULEN_LAST;
}

static void first_of_table(void)
{
    table_read();
    which = HAVTSULEN_FIRST;
}

static void missing_key(void)
{
    table_read();
    key = "key";
    entry_index = entry_count;
}

static void faulty_entry(void)
{
    table_read();
    entries[5 * (entry_count - 1) + 4] = SIZE_MAX;
}

static void faulty_count(void)
{
    table_read();
    entry_count = SIZE_MAX;
}

/* ---- texts to split */

static void most_items(void)
{
    put_times("'\\u00e9\\x41abc' ", HAVTSULEN_ITEM_ENDS);
}

static void one_item_more(void)
{
    put_times("a ", HAVTSULEN_ITEM_ENDS);
    put_up_to(" ", 4095);
    put("a");
}

static void longest_item(void)
{
    put("'");
    put_up_to("\"", 4095);
    put("'");
}

static void most_escapes(void)
{
    put_up_to("\\U0010ffff\\u00e9\\x41\\377\\n", 4096);
}

static void too_long_text(void)
{
    put_up_to("a", 4097);
}

/* The longest text, with a late fault in a quoted item. */
static void put_late_fault(const char *fault)
{
    put("\"");
    put_up_to("a", 4096 - strlen(fault));
    put(fault);
}

static void late_open_quote(void) { put_late_fault("a"); }
static void late_misplaced_quote(void) { put_late_fault("\"a"); }
static void late_escape_form(void) { put_late_fault("\\U0010fff"); }
static void late_escape_value(void) { put_late_fault("\\U00110000"); }
static void late_forbidden_byte(void) { put_late_fault("\n"); }

/* ---- items to write */

static void give_items(size_t count, size_t length)
{
    given_count = count;
    for (size_t i = 0; i < count; i++)
        given_ends[i] = (i + 1) * length;
}

/* 256 items of 12 bytes, whose text has 256 * 14 + 255 bytes. */
static void longest_list(void)
{
    put_times("a b c d e f ", 256);
    give_items(256, 12);
}

/* 4,096 bytes of text for one item. */
static void longest_text(void)
{
    put_times("\x01", 1023);
    put("~~");
    give_items(1, 1025);
}

static void too_long_list(void)
{
    put_times("\x80", 4096);
    give_items(256, 16);
}

static void too_long_item(void)
{
    put_times("\x80", sizeof input);
    give_items(1, sizeof input);
}

static void one_end_more(void)
{
    give_items(257, 0);
}

static void late_bad_end(void)
{
    longest_list();
    given_ends[255] = input_length + 1;
}

static void late_nul_byte(void)
{
    longest_list();
    input[input_length - 1] = 0;
}

/* ---- values */

static void word_false(void) { put("false"); }
static void one_part(void) { put("5w"); }
static void long_word(void) { put_times("false", 20000); }
static void most_parts(void) { put_times("1us \t1ms1s 1min 1h 1d 1w ", 5000); }
static void most_digits(void) { put_times("9", 100000); }
static void most_zeros(void) { put_times("0", 100000); }

static void late_number(void)
{
    most_parts();
    put("1");
}

/* ---- which call is made with which inputs, and what it is to return */

struct made {
    const char *name;
    void (*make)(void);
    size_t number;
};

#define MADE(make, number) {#make, make, number}

static const struct made texts[] = {
    MADE(full_table, 0), MADE(characters, 0), MADE(late_broken_character, 0), MADE(empty, 0),
};
static const struct made files_to_check[] = {
    MADE(full_table, 0), MADE(characters, 0), MADE(shortest_lines, 0), MADE(empty, 0), MADE(late_control_byte, 4),
    MADE(late_broken_character, 3), MADE(too_long_file, 2),
};
static const struct made files[] = {
    MADE(full_table, 0), MADE(known_headers, 0), MADE(longest_lines, 0), MADE(shortest_lines, 0), MADE(characters, 0),
    MADE(empty, 0), MADE(too_long_file, 2), MADE(late_broken_character, 3), MADE(late_control_byte, 4),
    MADE(late_long_line, 5), MADE(late_header, 6), MADE(late_line_without_sign, 7), MADE(late_key, 8),
    MADE(no_section, 9), MADE(one_section_more, 10), MADE(one_entry_more, 10),
};
static const struct made questions[] = {
    MADE(table_read, 0), MADE(first_of_table, 0), MADE(missing_key, 40), MADE(faulty_entry, 41), MADE(faulty_count, 41),
};
static const struct made entries_to_check[] = {
    MADE(table_read, 0), MADE(missing_key, 40), MADE(faulty_entry, 41), MADE(faulty_count, 41),
};
static const struct made entries_to_show[] = {
    MADE(table_read, 0), MADE(missing_key, 0), MADE(faulty_entry, 0), MADE(faulty_count, 0),
};
static const struct made texts_to_split[] = {
    MADE(most_items, 0), MADE(longest_item, 0), MADE(most_escapes, 0), MADE(empty, 0), MADE(too_long_text, 20),
    MADE(late_forbidden_byte, 21), MADE(late_misplaced_quote, 22), MADE(late_open_quote, 23),
    MADE(late_escape_form, 24), MADE(late_escape_value, 25), MADE(one_item_more, 26),
};
static const struct made lists[] = {
    MADE(longest_list, 0), MADE(longest_text, 0), MADE(empty, 0), MADE(too_long_list, 20), MADE(too_long_item, 20),
    MADE(one_end_more, 26), MADE(late_nul_byte, 27), MADE(late_bad_end, 28),
};
static const struct made booleans[] = {
    MADE(word_false, 0), MADE(long_word, 30), MADE(empty, 30),
};
static const struct made spans[] = {
    MADE(one_part, 0), MADE(most_parts, 0), MADE(most_zeros, 0), MADE(late_number, 31), MADE(most_digits, 32),
};

struct call {
    const char *name;
    void (*make)(void);
    const struct made *inputs;
    size_t count;
};

#define CALL(name, inputs) {#name, call_##name, inputs, LENGTH(inputs)}

static const struct call calls[] = {
    CALL(well_formed_length, texts), CALL(check_file, files_to_check), CALL(read, files),
    CALL(find, questions), CALL(value, entries_to_show), CALL(value_check, entries_to_check),
    CALL(normal_text, files), CALL(split, texts_to_split), CALL(write, lists), CALL(boolean, booleans),
    CALL(span, spans),
};

/* Measures a call with all its inputs and prints the greatest need. Tells whether that and the numbers are right. */
static int measure(const struct call *call)
{
    size_t greatest = 0;
    const char *name = "";
    int right = 1;
    for (size_t i = 0; i < call->count; i++) {
        const struct made *made = &call->inputs[i];
        input_length = given_count = 0;
        made->make();
        size_t needed = need(call->make);
        if (number != made->number) {
            printf("%s: %s gives %zu instead of %zu\n", call->name, made->name, number, made->number);
            right = 0;
        }
        if (needed > greatest) {
            greatest = needed;
            name = made->name;
        }
    }
    printf("%-18s %7zu bytes (%s)\n", call->name, greatest, name);
    return right && greatest <= HAVTSULEN_STACK_BYTES;
}

int main(void)
{
    int fine = 1;
    make_stack();
    size_t known = need(use_known_bytes);
    if (known < KNOWN_BYTES || known > KNOWN_BYTES + 256) {
        printf("a function that needs %d bytes measures %zu\n", KNOWN_BYTES, known);
        fine = 0;
    }
    for (size_t i = 0; i < LENGTH(calls); i++)
        fine &= measure(&calls[i]);
    printf("%s: a call may need %d bytes\n", fine ? "passed" : "FAILED", HAVTSULEN_STACK_BYTES);
    return fine ? 0 : 1;
}
