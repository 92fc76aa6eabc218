"""The cases that the program `lookup_cases` reads, and what it is to print.

This follows document 01: the look-up of "The table", the refusals 40 and 41, and "Look-up: rooms as lent"; and the
readings of look-up in docs/DECISIONS.md. Python's whole numbers do not wrap, and its slices are the parts of the text.
It is no translation of the Rattle code. Each case stands beside its answer as it was worked out by hand, and the two
are held to each other. Only the generated cases at the end have the answer of the rules here alone.
"""
from collections import namedtuple

from expected_table import FULL, NORMAL, SIXTY_FOUR, Generator, layout, numbers, read
from notation import shown
from rules_lines import EXAMPLE

LARGEST = 2 ** 64 - 1
HALF = 2 ** 63
# Five times this is the largest number, and five times the next would wrap to 4.
FIFTH = LARGEST // 5


# ---- the rules

# What a call is lent: the three buffers, and the counts of sections and entries.
Lent = namedtuple('Lent', 'text sections entries section_count entry_count')
# An answer is an index; or a part of the text, its start and its bytes; or a refusal. For a file it is an index and a
# part, or a refusal of either kind.
Part = namedtuple('Part', 'start bytes')
Refusal = namedtuple('Refusal', 'number place')
# The reader's.
Unread = namedtuple('Unread', 'number place')

MISSING = Refusal(40, 0)
FAULTY = Refusal(41, 0)


def records(values, count, size):
    """So many records of this size, None where the buffer ends before."""
    if count * size > len(values):
        return None
    return [values[at:at + size] for at in range(0, count * size, size)]


def table(lent):
    """The entries as (name of the section, key, part that is the value); None for 41."""
    def is_inside(start, length):
        return start + length <= len(lent.text)

    def bytes_of(start, length):
        return lent.text[start:start + length]

    sections = records(lent.sections, lent.section_count, 2)
    entries = records(lent.entries, lent.entry_count, 5)
    if sections is None or entries is None or not all(is_inside(*section) for section in sections):
        return None
    names = [bytes_of(*section) for section in sections]
    found = []
    for section, *parts in entries:
        key, value = parts[:2], parts[2:]
        if section >= len(names) or not is_inside(*key) or not is_inside(*value):
            return None
        found.append((names[section], bytes_of(*key), Part(value[0], bytes_of(*value))))
    return found


def find(lent, which, section, key):
    entries = table(lent)
    if entries is None:
        return FAULTY
    found = [index for index, entry in enumerate(entries) if entry[:2] == (section, key)]
    if not found:
        return MISSING
    return min(found) if which == 'first' else max(found)


def value(lent, index):
    entries = table(lent)
    if entries is None:
        return FAULTY
    return entries[index][2] if index < len(entries) else MISSING


def find_in_file(file, which, section, key):
    """The index and the value's part, in the table of a file; or the reader's refusal."""
    brought = read(file)
    if isinstance(brought, tuple):
        return Unread(*brought)
    text, sections, entries = layout(brought)
    # the program's buffers are longer; nothing behind the used parts is looked at
    lent = Lent(text, sections, entries, len(sections) // 2, len(entries) // 5)
    index = find(lent, which, section, key)
    return index if isinstance(index, Refusal) else (index, value(lent, index))


# ---- cases

def told(answer):
    """What is printed of an answer."""
    if isinstance(answer, Refusal):
        return b'refused %d at %d\n' % answer
    if isinstance(answer, Unread):
        return b'not read, refused %d at %d\n' % answer
    if isinstance(answer, int):
        return b'entry %d\n' % answer
    if isinstance(answer, Part):
        return b'%d bytes [%s], start %d length %d\n' % (
            len(answer.bytes), shown(answer.bytes), answer.start, len(answer.bytes))
    index, part = answer
    return b'entry %d, %s' % (index, told(part))


class Case:
    """A line, the answer of the rules, and the one by hand, None for a generated case. For a file the one by hand has
    the index and the value's bytes alone."""

    def __init__(self, line, result, answer):
        self.line, self.result = line, result
        known = (result[0], result[1].bytes) if type(result) is tuple else result
        assert answer is None or known == answer, (line, answer, result)
        self.told = b'  ' + told(result)


def lent_line(lent, *others):
    # the program takes the fifteen numbers below the largest for the largest
    for number in (*lent.sections, *lent.entries, lent.section_count, lent.entry_count, *others):
        assert number < LARGEST - 15 or number == LARGEST, number
    return b'[%s] %d %d:%s:%s' % (
        shown(lent.text), lent.section_count, lent.entry_count, numbers(lent.sections), numbers(lent.entries))


def find_case(answer, lent, which, section, key):
    line = b'find %s [%s] [%s] %s' % (which.encode(), shown(section), shown(key), lent_line(lent))
    return Case(line, find(lent, which, section, key), answer)


def value_case(answer, lent, index):
    result = value(lent, index)
    case = Case(b'value %d %s' % (index, lent_line(lent, index)), result, answer)
    if isinstance(result, Refusal):
        # the part of length 0 is handed back beside the refusal
        case.told = b'  0 bytes [], ' + told(result)
    return case


def file_case(answer, file, which, section, key):
    line = b'read %s [%s] [%s] [%s]' % (which.encode(), shown(section), shown(key), shown(file))
    return Case(line, find_in_file(file, which, section, key), answer)


def found(first, last, lent, section, key):
    """The first and the last such entry."""
    return [find_case(first, lent, 'first', section, key), find_case(last, lent, 'last', section, key)]


def lacks(lent, *asked):
    """Pairs of a section name and a key that no entry has."""
    return [case for section, key in asked for case in found(MISSING, MISSING, lent, section, key)]


def faulty(*tables):
    """Every question to these is 41: for entries that would be there, and for some that would not."""
    return [case for lent in tables for case in (
        *found(FAULTY, FAULTY, lent, b'A', b'K'), find_case(FAULTY, lent, 'last', b'C', b'X'),
        value_case(FAULTY, lent, 0), value_case(FAULTY, lent, 3), value_case(FAULTY, lent, 4))]


def faulty_in_turn(*tables):
    """The same with one of the questions for each table."""
    return [faulty(lent)[turn % 6] for turn, lent in enumerate(tables)]


def buffers(text, sections, entries, section_count=None, entry_count=None):
    """Buffers, and counts of all that is in them where no other are given."""
    return Lent(text, sections, entries, len(sections) // 2 if section_count is None else section_count,
                len(entries) // 5 if entry_count is None else entry_count)


def with_section(table, index, *record):
    sections = list(table.sections)
    sections[2 * index:2 * index + 2] = record
    return table._replace(sections=sections)


def with_entry(table, index, section=None, key=None, value=None):
    entries = list(table.entries)
    if section is not None:
        entries[5 * index] = section
    if key is not None:
        entries[5 * index + 1:5 * index + 3] = key
    if value is not None:
        entries[5 * index + 3:5 * index + 5] = value
    return table._replace(entries=entries)


# ---- a table as the reader leaves it

# [A] K=1 K=2 [B] K=3 J=, and 9 bytes of text.
PLAIN = buffers(b'AK1K2BK3J', [0, 1, 5, 1], [0, 1, 1, 2, 1, 0, 3, 1, 4, 1, 1, 6, 1, 7, 1, 1, 8, 1, 9, 0])

ASKED = [
    *found(0, 1, PLAIN, b'A', b'K'),
    *found(2, 2, PLAIN, b'B', b'K'),
    *found(3, 3, PLAIN, b'B', b'J'),
    *lacks(PLAIN, (b'A', b'J'), (b'C', b'K'), (b'A', b'X'), (b'C', b'X'), (b'', b'K'), (b'A', b''), (b'', b''),
           (b'a', b'K'), (b'A', b'k'), (b'AK', b'1'), (b'A', b'K1'), (b'AA', b'K'), (b'A', b'KK'), (b'A ', b'K'),
           (b'A', b' K'), (b'K', b'A'), (b'[A]', b'K'), (b'A', b'K='), (b'BK', b'K'), (b'B', b'K3'), (b'B', b'J\x00'),
           (b'B\x00', b'J'), (b'AK1K2BK3J', b'K'), (b'A', b'AK1K2BK3J'), (b'A' * 5000, b'K'), (b'A', b'K' * 65600)),
    value_case(Part(2, b'1'), PLAIN, 0),
    value_case(Part(4, b'2'), PLAIN, 1),
    value_case(Part(7, b'3'), PLAIN, 2),
    value_case(Part(9, b''), PLAIN, 3),
    *[value_case(MISSING, PLAIN, index) for index in (4, 5, 6, 99, HALF, FIFTH, FIFTH + 1, FIFTH + 2, LARGEST)],
]


# ---- other tables that hold

# Names A, AB, A again, and B; keys K, KK and K1. The parts overlap, and stand in no order.
NEAR = buffers(b'ABKK1A', [0, 1, 0, 2, 5, 1, 1, 1],
               [1, 2, 1, 4, 1,  # [AB] K=1
                0, 2, 2, 4, 1,  # [A] KK=1
                2, 3, 2, 0, 1,  # [A] K1=A
                3, 2, 1, 0, 2,  # [B] K=AB
                2, 3, 1, 4, 2,  # [A] K=1A
                0, 2, 1, 5, 0,  # [A] K=
                2, 2, 2, 1, 3])  # [A] KK=BKK

# The empty name, the empty key, and empty values.
EMPTY = buffers(b'ab', [0, 0, 2, 0, 1, 1], [0, 1, 0, 0, 2, 1, 0, 1, 2, 0, 2, 2, 0, 1, 0, 2, 0, 1, 1, 1])

BYTES = buffers(b'\x00\xff\n]<', [0, 1, 1, 1, 0, 0], [0, 1, 1, 0, 5, 1, 2, 1, 3, 2, 2, 0, 2, 2, 0, 1, 3, 2, 4, 1])

HOLDING = [
    *found(4, 5, NEAR, b'A', b'K'),
    *found(1, 6, NEAR, b'A', b'KK'),
    *found(2, 2, NEAR, b'A', b'K1'),
    *found(0, 0, NEAR, b'AB', b'K'),
    *found(3, 3, NEAR, b'B', b'K'),
    *lacks(NEAR, (b'AB', b'KK'), (b'B', b'KK'), (b'AB', b'K1'), (b'A', b'KK1'), (b'A', b'1'), (b'ABK', b'K'),
           (b'BK', b'K'), (b'A', b''), (b'', b'K')),
    *[value_case(answer, NEAR, index) for index, answer in enumerate((
        Part(4, b'1'), Part(4, b'1'), Part(0, b'A'), Part(0, b'AB'), Part(4, b'1A'), Part(5, b''), Part(1, b'BKK'),
        MISSING))],
    # one name in three records; and one key in two sections
    *found(0, 2, buffers(b'AK', [0, 1, 0, 1, 0, 1], [2, 1, 1, 0, 0, 1, 1, 1, 0, 0, 0, 1, 1, 0, 0]), b'A', b'K'),
    *found(1, 1, buffers(b'AKBA', [2, 1, 3, 1], [0, 1, 1, 0, 0, 1, 1, 1, 0, 4]), b'A', b'K'),
    *found(0, 0, buffers(b'AKBA', [2, 1, 3, 1], [0, 1, 1, 0, 0, 1, 1, 1, 0, 4]), b'B', b'K'),
    # the empty name and the empty key
    *found(0, 0, EMPTY, b'', b''),
    *found(1, 1, EMPTY, b'', b'a'),
    *found(2, 2, EMPTY, b'b', b''),
    *found(3, 3, EMPTY, b'b', b'a'),
    *lacks(EMPTY, (b'a', b'a'), (b'', b'b'), (b'a', b''), (b'b', b'b'), (b'ab', b'')),
    *[value_case(answer, EMPTY, index) for index, answer in enumerate((
        Part(0, b'ab'), Part(2, b''), Part(1, b''), Part(1, b'b'), MISSING))],
    *found(0, 0, buffers(b'', [0, 0], [0, 0, 0, 0, 0]), b'', b''),
    *lacks(buffers(b'', [0, 0], [0, 0, 0, 0, 0]), (b'A', b''), (b'', b'A'), (b'\x00', b'')),
    value_case(Part(0, b''), buffers(b'', [0, 0], [0, 0, 0, 0, 0]), 0),
    value_case(MISSING, buffers(b'', [0, 0], [0, 0, 0, 0, 0]), 1),
    # any bytes
    *found(0, 0, BYTES, b'\x00', b'\xff'),
    *found(1, 1, BYTES, b'\xff', b'\n'),
    *found(2, 2, BYTES, b'', b'\x00\xff'),
    *found(3, 3, BYTES, b'\xff', b']<'),
    *lacks(BYTES, (b'\x00', b'\xfe'), (b'\x01', b'\xff'), (b'', b'\xff'), (b'\xff', b']'), (b'\xff', b']<\n')),
    *[value_case(answer, BYTES, index) for index, answer in enumerate((
        Part(0, b'\x00\xff\n]<'), Part(3, b']<'), Part(2, b''), Part(4, b'<')))],
    # parts at the start and at the end of the text
    *[value_case(Part(start, value), with_entry(PLAIN, 1, value=(start, len(value))), 1) for start, value in (
        (0, b''), (0, b'A'), (0, b'AK1K2BK3J'), (1, b'K1K2BK3J'), (8, b'J'), (8, b''), (9, b''), (3, b'K2BK3'),
        (1, b''), (5, b'BK3J'))],
    *found(0, 0, with_entry(PLAIN, 1, key=(9, 0)), b'A', b'K'),
    *found(1, 1, with_entry(PLAIN, 1, key=(9, 0)), b'A', b''),
    *found(1, 1, with_entry(PLAIN, 1, key=(8, 1)), b'A', b'J'),
    *found(1, 1, with_entry(PLAIN, 1, key=(0, 9)), b'A', b'AK1K2BK3J'),
    *found(0, 1, with_entry(PLAIN, 1, key=(6, 1)), b'A', b'K'),
    *found(2, 2, with_section(PLAIN, 1, 9, 0), b'', b'K'),
    *found(2, 2, with_section(PLAIN, 1, 8, 1), b'J', b'K'),
    *found(2, 2, with_section(PLAIN, 1, 0, 9), b'AK1K2BK3J', b'K'),
    *found(0, 2, with_section(PLAIN, 1, 0, 1), b'A', b'K'),
    *found(1, 1, with_entry(PLAIN, 0, section=1), b'A', b'K'),
    *found(0, 2, with_entry(PLAIN, 0, section=1), b'B', b'K'),
]

LONG = buffers(b'a' * 65535, [0, 65535, 1, 65534],
               [0, 0, 65534, 1, 65534, 1, 65535, 0, 0, 65535, 1, 0, 65533, 65535, 0])

# More sections and entries than a file can have: names 0 to 9 in turn, and keys likewise.
DIGITS = b'0123456789'
MANY = buffers(DIGITS, sum([[index % 10, 1] for index in range(70)], []),
               sum([[index % 70, index // 70, 1, index % 10, 1] for index in range(520)], []))

LARGE = [
    *found(0, 0, LONG, b'a' * 65535, b'a' * 65534),
    *found(2, 2, LONG, b'a' * 65534, b'a' * 65533),
    *found(1, 1, LONG, b'a' * 65534, b''),
    *lacks(LONG, (b'a' * 65535, b'a' * 65535), (b'a' * 65535, b'a' * 65533), (b'a' * 65536, b'a' * 65534),
           (b'a' * 65533 + b'b', b''), (b'b' + b'a' * 65534, b'a' * 65534)),
    value_case(Part(1, b'a' * 65534), LONG, 0),
    value_case(Part(0, b'a' * 65535), LONG, 1),
    value_case(Part(65535, b''), LONG, 2),
    value_case(MISSING, LONG, 3),
    *faulty(with_entry(LONG, 2, value=(65535, 1)), with_section(LONG, 0, 1, 65535)),
    # entries 2, 12, .. 62 have the key 0 and a section with the name 2; 492, 502, 512 the key 7 and such a section
    find_case(2, MANY, 'first', b'2', b'0'),
    find_case(512, MANY, 'last', b'2', b'7'),
    value_case(Part(9, b'9'), MANY, 519),
    value_case(FAULTY, MANY._replace(entry_count=521), 519),
    find_case(FAULTY, with_entry(MANY, 519, section=70), 'first', b'2', b'0'),
    value_case(FAULTY, with_section(MANY, 69, 10, 1), 0),
]


# ---- faulty records

# Outside a text of 9 bytes, by their start, their length, or both. The sums of the later ones would wrap to 0 or more.
OUTSIDE = [(10, 0), (9, 1), (0, 10), (8, 2), (1, 9), (100, 0), (0, LARGEST), (LARGEST, 0), (LARGEST, LARGEST),
           (HALF, 0), (0, HALF), (LARGEST, 1), (1, LARGEST), (LARGEST, 2), (2, LARGEST), (LARGEST, 9), (9, LARGEST),
           (LARGEST, 10), (HALF, HALF), (HALF + 1, HALF), (HALF, HALF + 9), (HALF - 1, HALF + 1), (LARGEST - 16, 16),
           (LARGEST - 16, 17), (LARGEST - 16, 26), (17, LARGEST - 16)]

# A text that is as short as can be: the first byte is outside.
NO_TEXT = buffers(b'', [0, 0], [0, 0, 0, 0, 0])

FAULTS = [
    # each question to one record of each kind, needed for it or not
    *faulty(with_section(PLAIN, 0, 10, 0), with_section(PLAIN, 1, 5, 5), with_entry(PLAIN, 0, section=2),
            with_entry(PLAIN, 3, section=3), with_entry(PLAIN, 0, key=(10, 1)), with_entry(PLAIN, 3, key=(8, 2)),
            with_entry(PLAIN, 0, value=(10, 0)), with_entry(PLAIN, 3, value=(9, 1)),
            with_section(PLAIN, 1, LARGEST, 1), with_entry(PLAIN, 1, key=(LARGEST, 1)),
            with_entry(PLAIN, 2, value=(HALF, HALF)), with_entry(PLAIN, 2, section=LARGEST)),
    # each record of the table, all of these parts
    *faulty_in_turn(*[with_section(PLAIN, index, *part) for part in OUTSIDE for index in range(2)]),
    *faulty_in_turn(*[with_entry(PLAIN, index, key=part) for part in OUTSIDE for index in range(4)]),
    *faulty_in_turn(*[with_entry(PLAIN, index, value=part) for index in range(4) for part in OUTSIDE]),
    *faulty_in_turn(*[with_entry(PLAIN, index, section=section)
                      for section in (2, 3, 4, 99, HALF, HALF + 1, LARGEST) for index in range(4)]),
    # a section that no entry has; two faults
    *faulty(with_section(PLAIN._replace(entry_count=2), 1, 9, 1), with_section(PLAIN._replace(entry_count=0), 0, 0, 10),
            with_entry(with_section(PLAIN, 0, 0, 10), 3, section=9)),
    *faulty_in_turn(with_section(NO_TEXT, 0, 0, 1), with_section(NO_TEXT, 0, 1, 0), with_entry(NO_TEXT, 0, section=1),
                    with_entry(NO_TEXT, 0, key=(0, 1)), with_entry(NO_TEXT, 0, key=(1, 0)),
                    with_entry(NO_TEXT, 0, value=(0, 1)), with_entry(NO_TEXT, 0, value=(1, 0)),
                    with_section(NO_TEXT, 0, LARGEST, 1), with_entry(NO_TEXT, 0, key=(1, LARGEST)),
                    with_entry(NO_TEXT, 0, value=(HALF, HALF))),
    # 41 before 40: an entry that is missing, an index past the count
    *[find_case(FAULTY, with_entry(PLAIN, 1, value=(9, 1)), 'first', section, key)
      for section, key in ((b'A', b'K'), (b'B', b'J'), (b'C', b'K'), (b'A', b'J'), (b'', b''))],
    *[value_case(FAULTY, with_section(PLAIN, 1, 5, 5), index) for index in (0, 1, 4, 5, FIFTH + 1, LARGEST)],
    *[value_case(FAULTY, with_entry(PLAIN, 3, key=(8, 2)), index) for index in (0, 2, 3, 4, LARGEST)],
    # behind the counts nothing is judged
    *found(0, 1, with_entry(PLAIN._replace(entry_count=3), 3, section=9), b'A', b'K'),
    *found(2, 2, with_entry(PLAIN._replace(entry_count=3), 3, key=(LARGEST, LARGEST)), b'B', b'K'),
    *lacks(with_entry(PLAIN._replace(entry_count=3), 3, value=(10, 0)), (b'B', b'J')),
    *found(0, 1, with_section(PLAIN._replace(section_count=1, entry_count=2), 1, 10, 0), b'A', b'K'),
    value_case(Part(4, b'2'), with_section(PLAIN._replace(section_count=1, entry_count=2), 1, LARGEST, 1), 1),
    value_case(Part(7, b'3'), with_entry(PLAIN._replace(entry_count=3), 3, value=(9, 1)), 2),
    value_case(MISSING, with_entry(PLAIN._replace(entry_count=3), 3, value=(9, 1)), 3),
]


# ---- counts

def counted(sections, entries):
    return PLAIN._replace(section_count=sections, entry_count=entries)


COUNTS = [
    # past the buffers
    *faulty(counted(3, 4), counted(2, 5), counted(LARGEST, 4), counted(2, LARGEST), counted(LARGEST, LARGEST)),
    *faulty_in_turn(
        *[counted(count, 4) for count in (3, 4, 5, 99, HALF - 1, HALF, HALF + 1, HALF + 2, LARGEST)],
        *[counted(2, count) for count in (5, 6, 7, 99, FIFTH, FIFTH + 1, FIFTH + 2, FIFTH + 5, HALF, LARGEST)],
        *[counted(count, 0) for count in (3, HALF, HALF + 1, LARGEST)],
        *[counted(0, count) for count in (5, FIFTH + 1, LARGEST)]),
    # buffers that end inside a record
    *faulty(PLAIN._replace(sections=PLAIN.sections[:3]), PLAIN._replace(entries=PLAIN.entries[:19])),
    *faulty_in_turn(*[PLAIN._replace(sections=PLAIN.sections[:size]) for size in (0, 1, 2, 3)],
                    *[PLAIN._replace(entries=PLAIN.entries[:size]) for size in (0, 1, 4, 5, 14, 15, 16, 17, 18, 19)],
                    *[PLAIN._replace(sections=PLAIN.sections + [0], section_count=3)],
                    *[PLAIN._replace(entries=PLAIN.entries + [0] * size, entry_count=5) for size in (1, 2, 3, 4)]),
    *[case for extra in ([0], [0, 0, 0], [LARGEST]) for case in found(
        0, 1, PLAIN._replace(sections=PLAIN.sections + extra), b'A', b'K')],
    *[case for extra in ([0], [9] * 2, [LARGEST] * 3, [0] * 4) for case in found(
        3, 3, PLAIN._replace(entries=PLAIN.entries + extra), b'B', b'J')],
    value_case(Part(9, b''), PLAIN._replace(entries=PLAIN.entries + [1, 2, 3, 4]), 3),
    value_case(MISSING, PLAIN._replace(entries=PLAIN.entries + [1, 2, 3, 4]), 4),
    # fewer than the buffers hold
    *found(0, 0, counted(2, 1), b'A', b'K'),
    *lacks(counted(2, 1), (b'B', b'K'), (b'B', b'J')),
    *lacks(counted(2, 2), (b'B', b'K')),
    *found(2, 2, counted(2, 3), b'B', b'K'),
    *lacks(counted(2, 3), (b'B', b'J')),
    *found(0, 1, counted(1, 2), b'A', b'K'),
    *faulty(counted(1, 3), counted(1, 4)),
    *[value_case(answer, counted(2, 2), index) for index, answer in enumerate((
        Part(2, b'1'), Part(4, b'2'), MISSING, MISSING, MISSING))],
    # none
    *lacks(counted(0, 0), (b'A', b'K'), (b'', b'')),
    *lacks(counted(1, 0), (b'A', b'K'), (b'', b'')),
    *lacks(counted(2, 0), (b'B', b'J'), (b'', b'')),
    *faulty(counted(0, 1), counted(0, 4)),
    *[value_case(MISSING, counted(sections, 0), index) for sections in (0, 1, 2) for index in (0, 1, LARGEST)],
    *lacks(buffers(b'', [], []), (b'A', b'K'), (b'', b'')),
    *lacks(buffers(b'AK1', [], []), (b'A', b'K'), (b'', b'')),
    *lacks(buffers(b'', [LARGEST] * 5, [LARGEST] * 11, 0, 0), (b'A', b'K'), (b'', b'')),
    *[value_case(MISSING, buffers(b'', [], []), index) for index in (0, 1, FIFTH + 1, LARGEST)],
    *faulty_in_turn(*[buffers(b'', [], [], *counts) for counts in ((1, 0), (0, 1), (1, 1), (HALF, 0), (0, LARGEST))]),
    *faulty_in_turn(*[buffers(b'', [], [0] * 5, 0, 1), buffers(b'AK1', [], [0, 1, 1, 2, 1], 0, 1)]),
    # the largest number in every place
    *faulty(buffers(b'', [LARGEST] * 2, [LARGEST] * 5), buffers(b'AK1', [0, 1], [LARGEST] * 5),
            buffers(b'AK1', [LARGEST] * 2, [0, 1, 1, 2, 1]),
            buffers(b'AK1', [0, 1], [0, 1, 1, 2, 1], LARGEST, LARGEST)),
]


# ---- tables of files

def in_file(file, *asked):
    """Section names and keys, each with its first and its last entry, index and value; or with one answer for both."""
    return [file_case(answer, file, which, section, key) for section, key, *answers in asked
            for which, answer in (('first', answers[0]), ('last', answers[-1]))]


FILES = [
    *in_file(NORMAL, (b'Cell', b'Serial', (0, b'A 17    rev 2')), (b'Cell', b'Zero', (1, b'')),
             (b'Link', b'Wait', (2, b'2min 200ms')), (b'Cell', b'Note', (3, b'tail\\')), (b'Link', b'Note', MISSING),
             (b'Cell', b'Wait', MISSING), (b'Cell', b'Seria', MISSING), (b'Cell', b'Serial ', MISSING),
             (b'Cel', b'Zero', MISSING), (b'Cells', b'Zero', MISSING), (b'', b'', MISSING)),
    *in_file(EXAMPLE, (b'Section A', b'KeyOne', (0, b'value 1')), (b'Section A', b'KeyTwo', (1, b'value 2')),
             (b'Section B', b'Setting', (2, '"something" "some thing" "…"'.encode())),
             (b'Section B', b'KeyTwo', (3, b'value 2         value 2 continued')),
             (b'Section C', b'KeyThree', (4, b'value 3        value 3 continued')), (b'Section C', b'KeyTwo', MISSING),
             (b'Section', b'KeyOne', MISSING)),
    # headers and keys again
    *in_file(b'[A]\nK=1\n[B]\nK=2\n[A]\nK=3\n[B]\nJ=4\nK=5\n', (b'A', b'K', (0, b'1'), (2, b'3')),
             (b'B', b'K', (1, b'2'), (4, b'5')), (b'B', b'J', (3, b'4')), (b'A', b'J', MISSING)),
    *in_file(b'[A]\nK=1\nK=1\nK=1', (b'A', b'K', (0, b'1'), (2, b'1'))),
    *in_file(b'[A]\nK=1\nK=', (b'A', b'K', (0, b'1'), (1, b''))),
    *in_file(b'[A]\nK=\nK=1\n[A]', (b'A', b'K', (0, b''), (1, b'1'))),
    *in_file(b'[A]\n[B]\n[A]\n[A]\nK=\n[B]\n', (b'A', b'K', (0, b'')), (b'B', b'K', MISSING)),
    # names and keys that are nearly the same
    *in_file(b'[A]\nK=1\nKK=2\nk=3\n[a]\nK=4\n[ A]\nK=5\n[A ]\nK=6\n[AA]\nK=7', (b'A', b'K', (0, b'1')),
             (b'A', b'KK', (1, b'2')), (b'A', b'k', (2, b'3')), (b'a', b'K', (3, b'4')), (b' A', b'K', (4, b'5')),
             (b'A ', b'K', (5, b'6')), (b'AA', b'K', (6, b'7')), (b'A', b'KKK', MISSING), (b' A ', b'K', MISSING)),
    # a value that looks like an entry, and one that has all of a key and its value
    *in_file(b'[A]\nK=J=1\nJ=K2\nK2=', (b'A', b'K', (0, b'J=1')), (b'A', b'J', (1, b'K2')), (b'A', b'K2', (2, b''))),
    # joined values, and UTF-8
    *in_file(b'[A]\nK=a\\\n#x\\\nb', (b'A', b'K', (0, b'a b'))),
    *in_file(b'[A\\\nB]\nK\\\n=a\\\n  b\\\n\nK=c\\', (b'A B', b'K', (0, b'a   b'), (1, b'c')), (b'A\\', b'K', MISSING)),
    *in_file('[A]\nK=é…\U0001f600\nJ = ü \n'.encode(), (b'A', b'K', (0, 'é…\U0001f600'.encode())),
             (b'A', b'J', (1, 'ü'.encode())), (b'A', 'é'.encode(), MISSING)),
    # no table
    *in_file(b'', (b'A', b'K', MISSING), (b'', b'', MISSING)),
    *in_file(b'[A]\n', (b'A', b'K', MISSING), (b'A', b'', MISSING)),
    *in_file(b'K=1', (b'A', b'K', Unread(9, 1))),
    *in_file(b'[A]\nK=1\n[', (b'A', b'K', Unread(6, 3))),
    *in_file(b'[A]\nK=\xff', (b'A', b'K', Unread(3, 2)), (b'B', b'K', Unread(3, 2))),
    *in_file(b'[A]\nK=1\r\n', (b'A', b'K', Unread(4, 2))),
    *in_file(b'#' * 65536, (b'A', b'K', Unread(2, 0))),
    # as many as a file can have
    *in_file(FULL, (b'A', b'K', (0, b''), (511, b''))),
    *in_file(FULL[:-3] + b'J=1', (b'A', b'K', (0, b''), (510, b'')), (b'A', b'J', (511, b'1'))),
    *in_file(FULL + b'K=', (b'A', b'K', Unread(10, 514))),
    *in_file(SIXTY_FOUR + b'K=1\n[s0]\nK=2\n[s6]\nK=3', (b's63', b'K', (0, b'1')), (b's0', b'K', (1, b'2')),
             (b's6', b'K', (2, b'3')), (b's', b'K', MISSING)),
    *in_file(b'[A]\nK=' + b'v' * 4094 + b'\nK=' + b'w' * 4094, (b'A', b'K', (0, b'v' * 4094), (1, b'w' * 4094))),
]


# ---- generated cases

def made(source, choose):
    """Buffers whose records are mostly inside a short text, and what may be asked of them."""
    text = source.text(7, [b'a', b'b', b'a', b'']) if choose(8) else b''

    def part():
        start = choose(len(text) + 1)
        return [start, choose(min(len(text) - start, 2) + 1)]

    section_count, entry_count = 1 + choose(3), choose(5) if choose(6) else choose(9)
    sections = sum([part() for _ in range(section_count)], [])
    entries = sum([[choose(section_count), *part(), *part()] for _ in range(entry_count)], [])
    if choose(4) == 0:
        # one number is another
        buffer = (sections, entries)[choose(3) > 0 and entry_count > 0]
        buffer[choose(len(buffer))] = (0, 1, 2, len(text), len(text) + 1, section_count, HALF, LARGEST)[choose(8)]
    sections += [choose(9) for _ in range(choose(3))]
    entries += [choose(9) for _ in range(choose(6))]
    if choose(8) == 0:
        section_count, entry_count = choose(section_count + 3), choose(entry_count + 3)
    return Lent(text, sections, entries, section_count, entry_count)


def generated():
    source = Generator(4041)
    choose = source.below
    cases = []
    for _ in range(240):
        lent = made(source, choose)
        entries = table(lent)
        section, key = source.text(2, [b'a', b'b', b'']), source.text(2, [b'a', b'b', b''])
        if entries and choose(5):
            section, key, _ = entries[choose(len(entries))]
        cases.append(find_case(None, lent, ('first', 'last')[choose(2)], section, key))
        cases.append(value_case(None, made(source, choose), choose(4)))
    return cases


# ---- what is printed, by hand

HAND = {
    b'find first [A] [K] [AK1K2BK3J] 2 4: 0 1 5 1: 0 1 1 2 1 0 3 1 4 1 1 6 1 7 1 1 8 1 9 0': b'  entry 0\n',
    b'find last [A] [K] [AK1K2BK3J] 2 4: 0 1 5 1: 0 1 1 2 1 0 3 1 4 1 1 6 1 7 1 1 8 1 9 0': b'  entry 1\n',
    b'find last [A] [J] [AK1K2BK3J] 2 4: 0 1 5 1: 0 1 1 2 1 0 3 1 4 1 1 6 1 7 1 1 8 1 9 0': b'  refused 40 at 0\n',
    b'value 2 [AK1K2BK3J] 2 4: 0 1 5 1: 0 1 1 2 1 0 3 1 4 1 1 6 1 7 1 1 8 1 9 0': b'  1 bytes [3], start 7 length 1\n',
    b'value 3 [AK1K2BK3J] 2 4: 0 1 5 1: 0 1 1 2 1 0 3 1 4 1 1 6 1 7 1 1 8 1 9 0': b'  0 bytes [], start 9 length 0\n',
    b'value 4 [AK1K2BK3J] 2 4: 0 1 5 1: 0 1 1 2 1 0 3 1 4 1 1 6 1 7 1 1 8 1 9 0': b'  0 bytes [], refused 40 at 0\n',
    b'value 0 [] 1 1: 18446744073709551615 18446744073709551615:' + b' 18446744073709551615' * 5:
        b'  0 bytes [], refused 41 at 0\n',
    b'find first [] [] [] 0 0::': b'  refused 40 at 0\n',
    b'read last [Cell] [Note] [%s]' % shown(NORMAL): b'  entry 3, 5 bytes [tail\\], start 49 length 5\n',
    b'read first [Cell] [Zero] [%s]' % shown(NORMAL): b'  entry 1, 0 bytes [], start 27 length 0\n',
    b'read first [A] [K] [[A<5d><0a>K=a\\<0a>#x\\<0a>b]': b'  entry 0, 3 bytes [a b], start 2 length 3\n',
    b'read first [A] [K] [K=1]': b'  not read, refused 9 at 1\n',
}


def outputs():
    cases = ASKED + HOLDING + LARGE + FAULTS + COUNTS + FILES + generated()
    told = {case.line: case.told for case in cases}
    # a case that several lists have stands once, but the first of them again: nothing is left over from a call
    listed = [*told, *[case.line for case in ASKED[:6]]]
    for line, printed in HAND.items():
        assert told[line] == printed, line
    lines = b''.join(line + b'\n' for line in listed)
    assert len(lines) < 262144, len(lines)
    printed = b''.join(line + b'\n' + told[line] for line in listed)
    return {'lookup_cases/stdin': lines, 'lookup_cases/stdout': printed}
