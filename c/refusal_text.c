/* The refusals in words. */
#include "havtsulen.h"

const char *havtsulen_refusal_text(size_t number)
{
    switch (number) {
    case HAVTSULEN_ACCEPTED: return "accepted";
    case HAVTSULEN_SHORT_BUFFER: return "a buffer is shorter than stated";
    case HAVTSULEN_FILE_TOO_LONG: return "the file is longer than 65,535 bytes, where a missing last line feed counts as one";
    case HAVTSULEN_NOT_UTF8: return "the file is not UTF-8";
    case HAVTSULEN_CONTROL_BYTE: return "a control byte stands in the file";
    case HAVTSULEN_LINE_TOO_LONG: return "a line, with those that continue it, is longer than 4,096 bytes";
    case HAVTSULEN_BAD_HEADER: return "a section header is malformed";
    case HAVTSULEN_NO_EQUALS_SIGN: return "a setting has no equals sign";
    case HAVTSULEN_BAD_KEY: return "a key is empty or has a byte that keys may not have";
    case HAVTSULEN_NO_SECTION: return "a setting stands before any section header";
    case HAVTSULEN_TOO_MANY: return "there are more than 64 sections or 512 settings";
    case HAVTSULEN_TEXT_TOO_LONG: return "the text is longer than 4,096 bytes";
    case HAVTSULEN_FORBIDDEN_BYTE: return "a control byte stands in the text";
    case HAVTSULEN_MISPLACED_QUOTE: return "a quote inside a bare item, or no blank after a closing quote";
    case HAVTSULEN_OPEN_QUOTE: return "a quote is not closed";
    case HAVTSULEN_ESCAPE_FORM: return "an escape has none of the known forms";
    case HAVTSULEN_ESCAPE_VALUE: return "an escape stands for a value that is not allowed";
    case HAVTSULEN_TOO_MANY_ITEMS: return "there are more than 256 items";
    case HAVTSULEN_NUL_BYTE: return "an item to write has a NUL byte";
    case HAVTSULEN_BAD_ENDS: return "the ends of the items fall or pass their bytes";
    case HAVTSULEN_NO_BOOLEAN: return "the text is no boolean";
    case HAVTSULEN_SPAN_FORM: return "the text is no time span";
    case HAVTSULEN_SPAN_TOO_LARGE: return "the time span is too large";
    case HAVTSULEN_NO_ENTRY: return "there is no such setting";
    case HAVTSULEN_FAULTY_RECORD: return "the table is faulty: a record points outside the text or past the section count, or a count passes its buffer";
    default: return "unknown refusal";
    }
}
