#!/usr/bin/env python3
"""setting FILE SECTION KEY: prints the value of the last such setting of a file, and what the value says as a list of
items, as a boolean and as a time span. The same as setting.c, over the shared library that examples/run builds.

Exit status: 0; 1 where the file or the question is refused; 2 for a wrong call, or a file that cannot be read.
"""
import os
import sys
from ctypes import CDLL, POINTER, c_char, c_char_p, c_size_t

# Sizes and numbers of include/havtsulen.h.
FILE_BYTES = 65535
TEXT_BYTES, SECTION_NUMBERS, ENTRY_NUMBERS = 65535, 128, 2560
ITEM_BYTES, ITEM_ENDS = 4096, 256
REPORT_NUMBERS = 4
LAST = 1
WITH_LINE = range(3, 11)
WITH_OFFSET = range(21, 27)

STATUS_FINE, STATUS_REFUSED, STATUS_TROUBLE = 0, 1, 2

LIBRARY = os.path.join(os.path.dirname(os.path.abspath(__file__)), '../target/libhavtsulen.so')

# The arguments of each call. A slice is a pointer and a length; bytes go as char, so that Python's bytes can be passed.
BYTES = [c_char_p, c_size_t]
NUMBERS = [POINTER(c_size_t), c_size_t]
NUMBER = [c_size_t]
TABLE = BYTES + (NUMBERS + NUMBER) * 2
CALLS = {
    'read': BYTES + BYTES + NUMBERS + NUMBERS,
    'find': BYTES + BYTES + NUMBER + TABLE,
    'value_check': NUMBER + TABLE,
    'split': BYTES + BYTES + NUMBERS,
    'boolean': BYTES,
    'span': BYTES,
}


class Refused(Exception):
    """A refusal in words: its text, its number, and its place where it has one."""

    def __init__(self, text, number, place):
        words = '%s (refusal %d' % (text, number)
        if number in WITH_LINE:
            words += ', line %d' % place
        if number in WITH_OFFSET:
            words += ', offset %d' % place
        super().__init__(words + ')')


class Library:
    def __init__(self, path):
        library = CDLL(path)
        self.refusal_text = library.havtsulen_refusal_text
        self.refusal_text.argtypes, self.refusal_text.restype = NUMBER, c_char_p
        self.functions = {name: library['havtsulen_' + name] for name in CALLS}
        for name, function in self.functions.items():
            function.argtypes, function.restype = CALLS[name] + NUMBERS, c_size_t

    def call(self, name, *arguments):
        """Makes a call and gives its report. Numbers go as they are, anything else as a pointer and a length."""
        report = (c_size_t * REPORT_NUMBERS)()
        flat = []
        for one in (*arguments, report):
            flat += [one] if isinstance(one, int) else [one, len(one)]
        number = self.functions[name](*flat)
        if number:
            raise Refused(self.refusal_text(number).decode(), number, report[0])
        return list(report)


def read_file(name):
    """Reads a file, up to one byte more than the longest one has: these are refused with 2, whatever follows."""
    with open(name, 'rb', buffering=0) as file:
        data = b''
        while len(data) <= FILE_BYTES and (more := file.read(FILE_BYTES + 1 - len(data))):
            data += more
    return data


def find_value(library, file, section, key):
    text, sections, entries = (c_char * TEXT_BYTES)(), (c_size_t * SECTION_NUMBERS)(), (c_size_t * ENTRY_NUMBERS)()
    _, section_count, entry_count, _ = library.call('read', file, text, sections, entries)
    table = text, sections, section_count, entries, entry_count
    index = library.call('find', section, key, LAST, *table)[0]
    start, length, _, _ = library.call('value_check', index, *table)
    return text[start:start + length]


def shown(data):
    """The bytes 20 to 7E as they are, but the backslash and all others as \\xHH."""
    return ''.join(chr(b) if 0x20 <= b <= 0x7e and b != 0x5c else '\\x%02x' % b for b in data)


def items(library, value):
    data, ends = (c_char * ITEM_BYTES)(), (c_size_t * ITEM_ENDS)()
    count = library.call('split', value, data, ends)[0]
    starts = [0, *ends[:count]]
    lines = ['item %d: [%s]' % (i + 1, shown(data[starts[i]:ends[i]])) for i in range(count)]
    return '\n'.join([str(count), *lines])


def boolean(library, value):
    return 'true' if library.call('boolean', value)[0] == 1 else 'false'


def span(library, value):
    return '%d microseconds' % library.call('span', value)[0]


def answer(library, value):
    """What the program prints."""
    text = b'value: [%s]\n' % value
    for question in items, boolean, span:
        try:
            told = question(library, value)
        except Refused as refused:
            told = str(refused)
        text += b'%s: %s\n' % (question.__name__.encode(), told.encode())
    return text


def write_all(data):
    """Writes to standard output and tells whether it went out."""
    try:
        while data:
            data = data[os.write(1, data):]
    except OSError:
        return False
    return True


def tell(words):
    """A line on standard error, if there is one."""
    try:
        os.write(2, words + b'\n')
    except OSError:
        pass


def main(arguments):
    if len(arguments) != 3:
        tell(b'usage: setting FILE SECTION KEY')
        return STATUS_TROUBLE
    if not os.path.exists(LIBRARY):
        tell(b'setting: there is no target/libhavtsulen.so; examples/run builds it')
        return STATUS_TROUBLE
    library = Library(LIBRARY)
    name, section, key = map(os.fsencode, arguments)
    try:
        value = find_value(library, read_file(name), section, key)
    except OSError as error:
        tell(b'setting: %s: %s' % (name, os.strerror(error.errno).encode()))
        return STATUS_TROUBLE
    except Refused as refused:
        tell(b'setting: %s: %s' % (name, str(refused).encode()))
        return STATUS_REFUSED
    if not write_all(answer(library, value)):
        tell(b'setting: standard output cannot be written')
        return STATUS_TROUBLE
    return STATUS_FINE


if __name__ == '__main__':
    sys.exit(main(sys.argv[1:]))
