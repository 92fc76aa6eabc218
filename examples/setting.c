/*
 * setting FILE SECTION KEY: prints the value of the last such setting of a file, and what the value says as a list of
 * items, as a boolean and as a time span.
 * Exit status: 0; 1 where the file or the question is refused; 2 for a wrong call, or a file that cannot be read.
 *
 *   gcc -std=c99 -Iinclude -o setting examples/setting.c c/refusal_text.c target/staticlib/libhavtsulen.a
 */
#define _POSIX_C_SOURCE 200809L

#include <errno.h>
#include <fcntl.h>
#include <signal.h>
#include <stdio.h>
#include <string.h>
#include <unistd.h>

#include "havtsulen.h"

enum { STATUS_FINE = 0, STATUS_REFUSED = 1, STATUS_TROUBLE = 2 };

/* The buffers of all calls: some 160 KB, too much for a small stack. */
struct work {
    uint8_t file[HAVTSULEN_FILE_BYTES + 1];
    size_t file_length;
    uint8_t text[HAVTSULEN_TEXT_BYTES];
    size_t sections[HAVTSULEN_SECTION_NUMBERS];
    size_t entries[HAVTSULEN_ENTRY_NUMBERS];
    uint8_t bytes[HAVTSULEN_ITEM_BYTES];
    size_t ends[HAVTSULEN_ITEM_ENDS];
    size_t report[HAVTSULEN_REPORT_NUMBERS];
};

/* A part of the text buffer. */
struct value {
    const uint8_t *start;
    size_t length;
};

/* read(2), made again where a signal has interrupted it. */
static ssize_t read_some(int descriptor, uint8_t *to, size_t length)
{
    ssize_t count;
    do
        count = read(descriptor, to, length);
    while (count < 0 && errno == EINTR);
    return count;
}

/* Reads a file, up to one byte more than the longest one has: these are refused with 2, whatever follows. Gives 0, or
 * the number of the error. */
static int read_file(const char *name, struct work *w)
{
    int descriptor = open(name, O_RDONLY);
    if (descriptor < 0)
        return errno;
    ssize_t count = 1;
    w->file_length = 0;
    while (count > 0 && w->file_length < sizeof w->file) {
        count = read_some(descriptor, w->file + w->file_length, sizeof w->file - w->file_length);
        if (count > 0)
            w->file_length += (size_t)count;
    }
    int error = count < 0 ? errno : 0;
    close(descriptor);
    return error;
}

/* Reads the table and finds the value. Gives the number of the refusal; its place is then the first in the report. */
static size_t find_value(struct work *w, const char *section, const char *key, struct value *value)
{
    size_t number = havtsulen_read(w->file, w->file_length, w->text, HAVTSULEN_TEXT_BYTES, w->sections,
                                   HAVTSULEN_SECTION_NUMBERS, w->entries, HAVTSULEN_ENTRY_NUMBERS, w->report,
                                   HAVTSULEN_REPORT_NUMBERS);
    if (number != HAVTSULEN_ACCEPTED)
        return number;
    size_t section_count = w->report[1], entry_count = w->report[2];
    number = havtsulen_find((const uint8_t *)section, strlen(section), (const uint8_t *)key, strlen(key),
                            HAVTSULEN_LAST, w->text, HAVTSULEN_TEXT_BYTES, w->sections, HAVTSULEN_SECTION_NUMBERS,
                            section_count, w->entries, HAVTSULEN_ENTRY_NUMBERS, entry_count, w->report,
                            HAVTSULEN_REPORT_NUMBERS);
    if (number != HAVTSULEN_ACCEPTED)
        return number;
    number = havtsulen_value_check(w->report[0], w->text, HAVTSULEN_TEXT_BYTES, w->sections, HAVTSULEN_SECTION_NUMBERS,
                                   section_count, w->entries, HAVTSULEN_ENTRY_NUMBERS, entry_count, w->report,
                                   HAVTSULEN_REPORT_NUMBERS);
    value->start = w->text + w->report[0];
    value->length = w->report[1];
    return number;
}

/* A refusal in words: its text, its number, and its place where it has one. */
static void print_refusal(FILE *to, size_t number, size_t place)
{
    fprintf(to, "%s (refusal %zu", havtsulen_refusal_text(number), number);
    if (number >= HAVTSULEN_NOT_UTF8 && number <= HAVTSULEN_TOO_MANY)
        fprintf(to, ", line %zu", place);
    if (number >= HAVTSULEN_FORBIDDEN_BYTE && number <= HAVTSULEN_TOO_MANY_ITEMS)
        fprintf(to, ", offset %zu", place);
    fprintf(to, ")\n");
}

/* The bytes 20 to 7E as they are, but the backslash and all others as \xHH. */
static void print_shown(const uint8_t *bytes, size_t length)
{
    for (size_t i = 0; i < length; i++) {
        if (bytes[i] >= 0x20 && bytes[i] <= 0x7e && bytes[i] != '\\')
            putchar(bytes[i]);
        else
            printf("\\x%02x", bytes[i]);
    }
}

static void print_value(struct value value)
{
    printf("value: [");
    fwrite(value.start, 1, value.length, stdout);
    printf("]\n");
}

static void print_items(struct work *w, struct value value)
{
    size_t number = havtsulen_split(value.start, value.length, w->bytes, HAVTSULEN_ITEM_BYTES, w->ends,
                                    HAVTSULEN_ITEM_ENDS, w->report, HAVTSULEN_REPORT_NUMBERS);
    printf("items: ");
    if (number != HAVTSULEN_ACCEPTED) {
        print_refusal(stdout, number, w->report[0]);
        return;
    }
    size_t count = w->report[0], start = 0;
    printf("%zu\n", count);
    for (size_t i = 0; i < count; i++) {
        printf("item %zu: [", i + 1);
        print_shown(w->bytes + start, w->ends[i] - start);
        printf("]\n");
        start = w->ends[i];
    }
}

static void print_boolean(struct work *w, struct value value)
{
    size_t number = havtsulen_boolean(value.start, value.length, w->report, HAVTSULEN_REPORT_NUMBERS);
    printf("boolean: ");
    if (number == HAVTSULEN_ACCEPTED)
        printf("%s\n", w->report[0] == 1 ? "true" : "false");
    else
        print_refusal(stdout, number, w->report[0]);
}

static void print_span(struct work *w, struct value value)
{
    size_t number = havtsulen_span(value.start, value.length, w->report, HAVTSULEN_REPORT_NUMBERS);
    printf("span: ");
    if (number == HAVTSULEN_ACCEPTED)
        printf("%zu microseconds\n", w->report[0]);
    else
        print_refusal(stdout, number, w->report[0]);
}

int main(int argc, char **argv)
{
    static struct work work;
    struct value value;
    /* A reader of standard output that is gone is told below, as any other failed write. */
    signal(SIGPIPE, SIG_IGN);
    if (argc != 4) {
        fprintf(stderr, "usage: setting FILE SECTION KEY\n");
        return STATUS_TROUBLE;
    }
    int error = read_file(argv[1], &work);
    if (error != 0) {
        fprintf(stderr, "setting: %s: %s\n", argv[1], strerror(error));
        return STATUS_TROUBLE;
    }
    size_t number = find_value(&work, argv[2], argv[3], &value);
    if (number != HAVTSULEN_ACCEPTED) {
        fprintf(stderr, "setting: %s: ", argv[1]);
        print_refusal(stderr, number, work.report[0]);
        return STATUS_REFUSED;
    }
    print_value(value);
    print_items(&work, value);
    print_boolean(&work, value);
    print_span(&work, value);
    if (fflush(stdout) != 0 || ferror(stdout)) {
        fprintf(stderr, "setting: standard output cannot be written\n");
        return STATUS_TROUBLE;
    }
    return STATUS_FINE;
}
