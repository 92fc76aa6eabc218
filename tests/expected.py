#!/usr/bin/env python3
"""Writes what the programs are to print: those on lines from here, those on values from expected_values.py, those on
items from expected_items.py, those on tables from expected_table.py, those on look-up from expected_lookup.py, those on
the normal text from expected_normal.py.

usage: expected.py [--check]      (--check: only compare with the files that stand)

This follows the rules of document 01 (for lines they stand in rules_lines.py) and, for single calls, the joiner's
interface in docs/DECISIONS.md. It is no translation of the Rattle code, and Python's own strict decoder judges UTF-8.
The hand-made results at the end are asserted first.
"""
import os
import sys

sys.dont_write_bytecode = True  # leaves no __pycache__ in the repository
import expected_items
import expected_lookup
import expected_normal
import expected_table
import expected_values
from rules_lines import EXAMPLE, logical_lines, refusal

ROOT = os.path.dirname(os.path.dirname(os.path.abspath(__file__)))


def is_utf8(text):
    try:
        text.decode('utf-8')
    except UnicodeDecodeError:
        return False
    return True


def longest_start(text):
    return max(n for n in range(len(text) + 1) if is_utf8(text[:n]))


# ---- what the programs print

def shown(line, most):
    return line if len(line) <= most else line[:20] + b'..'


def listing(file, most):
    """One line for each logical line, up to the first refusal; those over `most` bytes are cut."""
    if refused := refusal(file):
        return b'refused %d at %d\n' % refused
    out = b''
    for first, line, _ in logical_lines(file):
        if len(line) > 4096:
            return out + b'refused 5 at %d\n' % first
        out += b'%d %d:%s\n' % (first, len(line), shown(line, most))
    return out


def one_call(file, offset, line, room):
    """What one call of next_line tells, and the first 8 bytes of a buffer of dots after it."""
    buffer = b'.' * room
    left = logical_lines(file, offset, line) if line <= offset + 1 else []
    if room < 4096:
        told = b'refused 1 at 0'
    elif not left:
        told = b'end'
    else:
        first, text, end = left[0]
        if len(text) > 4096:
            told = b'refused 5 at %d' % first
        else:
            buffer = text + buffer[len(text):]
            told = b'%d %d, then %d %d' % (first, len(text), end, line + file[offset:end].count(b'\n'))
    return told + b'\n' + buffer[:8] + b'\n'


# ---- the cases: a name and a file, in the order of crates/line_cases

FILES = [
    # bench
    ('bench 3', b'[A]\nK=a\\\\\nJ=b'),
    ('bench 4', b'[A]\nK=a\\\n'),
    ('bench 5', b'[A]\nK=a\\\n\nJ=b'),
    ('bench 6', b'[A]\nK=a\\\n#x\\\nb'),
    ('bench 7', b'[A]\n K = a=b '),
    ('empty file', b''),
    ('one LF', b'\n'),
    ('no last LF', b'a\nb'),
    ('tabs', b'\tK\t=\ta\t\n'),
    # comments
    ('comments alone', b'#a\n;b\n'),
    ('comment ending in a backslash', b'#a\\\nb\n'),
    ('comment in a joined line', b'a\\\n#x\nb\n'),
    ('comments in a joined line', b'a\\\n#x\n;y\n#z\\\nb\nc\n'),
    ('comments between two joinings', b'a\\\n#x\nb\\\n;y\nc\n'),
    ('comment before a joined line', b'#x\na\\\nb\n'),
    ('indented #', b' #x\n'),
    ('indented ;', b'\t;x\n'),
    ('indented # in a joined line', b'K=a\\\n #b\n'),
    ('# after the first byte', b'a#b;c\n'),
    ('comment of 5000 bytes', b'#' * 5000),
    ('comment of 5000 bytes in a joined line', b'K=a\\\n' + b'#' * 5000 + b'\nb'),
    # joining
    ('joined at the end, LF', b'a\\\n'),
    ('joined at the end, no LF', b'a\\'),
    ('joined, then comments alone', b'a\\\n#x\n;y\n'),
    ('joined, then a comment without LF', b'a\\\n#x'),
    ('joined, then an empty line', b'a\\\n\nb\n'),
    ('joined, then a line of blanks', b'a\\\n \t\nb\n'),
    ('leading blanks kept', b'a\\\n  b\n'),
    ('three lines', b'a\\\nb\\\nc\nd\n'),
    ('a blank behind the backslash', b'a\\ \nb\n'),
    # backslashes
    ('one line of a backslash', b'\\\n'),
    ('two lines of a backslash', b'\\\n\\\n'),
    ('three lines of a backslash', b'\\\n\\\n\\\n'),
    ('lines of a backslash, then text', b'\\\n\\\na\n'),
    ('run of two', b'a\\\\\nb\n'),
    ('run of three', b'a\\\\\\\nb\n'),
    ('run of four', b'a\\\\\\\\\nb\n'),
    ('runs in two lines', b'a\\\n\\\\\nb\n'),
    ('backslash inside', b'a\\b\nc\n'),
    # lengths
    ('4096 bytes', b'a' * 4096),
    ('4097 bytes', b'a' * 4097),
    ('4096 bytes with the joining space', b'a' * 4095 + b'\\\n'),
    ('4097 bytes with the joining space', b'a' * 4096 + b'\\\n'),
    ('4096 bytes joined', b'a' * 4094 + b'\\\nb'),
    ('4097 bytes joined', b'a' * 4095 + b'\\\nb'),
    ('4096 blanks', b' ' * 4096),
    ('4097 blanks', b' ' * 4097),
    ('a long line in line 2', b'x\n' + b'a' * 4097),
    ('a long line after a comment', b'#\n' + b'a' * 4097),
]

# the same, in the order of crates/check_cases
CHECKS = [
    # sizes
    ('65534 bytes without LF', b'#' * 65530 + b'\nK=1'),
    ('65535 bytes without LF', b'#' * 65531 + b'\nK=1'),
    ('65535 bytes with LF', b'#' * 65530 + b'\nK=1\n'),
    ('65536 bytes with LF', b'#' * 65531 + b'\nK=1\n'),
    # control bytes
    ('control 00', b'a\n\x00\n'),
    ('control 0B', b'a\nb\x0b\n'),
    ('control 0D', b'a\nb\r\n'),
    ('control 1F', b'a\n\x1fb\n'),
    ('control 7F', b'a\nb\x7f'),
    ('tab and LF are none', b'a\t \n~'),
    ('control in a comment', b'a\n#\x01\n'),
    ('the first of two control bytes', b'a\n\x02\n\x03'),
    ('control in line 1, not UTF-8 in line 3', b'\x01\nb\n\xff\n'),
]

# the same, with the longest well-formed start
TEXTS = [
    # not UTF-8
    ('C0 80', b'a\n\xc0\x80\n'),
    ('C1 BF', b'\xc1\xbf\n'),
    ('E0 80 80', b'a\n\xe0\x80\x80\n'),
    ('E0 9F BF', b'\xe0\x9f\xbf\n'),
    ('F0 80 80 80', b'a\n\xf0\x80\x80\x80\n'),
    ('F0 8F BF BF', b'\xf0\x8f\xbf\xbf\n'),
    ('ED A0 80', b'a\nb\n\xed\xa0\x80\n'),
    ('ED BF BF', b'\xed\xbf\xbf\n'),
    ('F5', b'a\n\xf5\x80\x80\x80\n'),
    ('F4 90 80 80', b'a\n\xf4\x90\x80\x80\n'),
    ('lone 80', b'a\n\x80\n'),
    ('lone BF', b'\xbf\n'),
    ('FF', b'a\nb\xff\n'),
    ('cut off C3', b'a\n\xc3'),
    ('cut off E2 82', b'a\n\xe2\x82'),
    ('cut off F0 9F 98', b'a\n\xf0\x9f\x98'),
    ('broken by LF', b'a\n\xe2\x82\nb\n'),
    ('broken by a letter', b'\xc3a\n'),
    ('bad byte in a comment', b'a\n#\xff\nb\n'),
    # well-formed
    ('U+0080', b'\xc2\x80\n'),
    ('U+07FF', b'\xdf\xbf\n'),
    ('U+0800', b'\xe0\xa0\x80\n'),
    ('U+D7FF', b'\xed\x9f\xbf\n'),
    ('U+E000', b'\xee\x80\x80\n'),
    ('U+FFFF', b'\xef\xbf\xbf\n'),
    ('U+10000', b'\xf0\x90\x80\x80\n'),
    ('U+10FFFF', b'\xf4\x8f\xbf\xbf\n'),
    ('EF BB BF', b'\xef\xbb\xbf#x\n'),
]

LARGEST = 2 ** 64 - 1
TWO = b'K=a\nJ=b\n'

# a name, the file, the cursor (offset, line), the buffer's length
CALLS = [
    ('first line', TWO, 0, 1, 4096),
    ('second line', TWO, 4, 2, 4096),
    ('at the end', TWO, 8, 3, 4096),
    ('past the end', TWO, 9, 3, 4096),
    ('largest offset', TWO, LARGEST, 1, 4096),
    ('largest line', TWO, 0, LARGEST, 4096),
    ('largest numbers', TWO, LARGEST, LARGEST, 4096),
    ('line above offset + 1', TWO, 4, 6, 4096),
    ('line is offset + 1', TWO, 4, 5, 4096),
    ('inside a line', TWO, 1, 1, 4096),
    ('line 0', TWO, 0, 0, 4096),
    ('comments are passed', b'#x\n;y\nK=a\n', 0, 1, 4096),
    ('to the end of the file', b'a\\\n#x\n', 0, 1, 4096),
    ('only comments left', b'#x\n', 0, 1, 4096),
    ('empty line', b'\nK=a', 0, 1, 4096),
    ('short buffer', TWO, 0, 1, 4095),
    ('empty buffer', TWO, 0, 1, 0),
    ('short buffer at the end', TWO, 8, 3, 4095),
    ('longer buffer', TWO, 0, 1, 5000),
    ('too long a line', b'a' * 4097, 0, 1, 4096),
    ('too long a line, longer buffer', b'a' * 4097, 0, 1, 5000),
    ('too long by its second part', b'a' * 4095 + b'\\\nb', 0, 1, 4096),
]


# ---- results made by hand from document 01

HAND_FILES = {
    'bench 3': b'1 3:[A]\n2 5:K=a\\\\\n3 3:J=b\n',
    'bench 4': b'1 3:[A]\n2 4:K=a \n',
    'bench 5': b'1 3:[A]\n2 4:K=a \n4 3:J=b\n',
    'bench 6': b'1 3:[A]\n2 5:K=a b\n',
    'bench 7': b'1 3:[A]\n2 9: K = a=b \n',
    'empty file': b'',
    'one LF': b'1 0:\n',
    'comment ending in a backslash': b'2 1:b\n',
    'comments in a joined line': b'1 3:a b\n6 1:c\n',
    'indented # in a joined line': b'1 7:K=a  #b\n',
    'joined, then comments alone': b'1 2:a \n',
    'joined, then a line of blanks': b'1 4:a  \t\n3 1:b\n',
    'three lines of a backslash': b'1 3:   \n',
    'run of two': b'1 3:a\\\\\n2 1:b\n',
    'run of three': b'1 5:a\\\\ b\n',
    '4096 bytes': b'1 4096:aaaaaaaaaaaaaaaaaaaa..\n',
    '4097 bytes': b'refused 5 at 1\n',
    '4097 blanks': b'refused 5 at 1\n',
    'a long line in line 2': b'1 1:x\nrefused 5 at 2\n',
    'a long line after a comment': b'refused 5 at 2\n',
    '65534 bytes without LF': b'2 3:K=1\n',
    '65535 bytes without LF': b'refused 2 at 0\n',
    '65535 bytes with LF': b'2 3:K=1\n',
    'control 0D': b'refused 4 at 2\n',
    'control in line 1, not UTF-8 in line 3': b'refused 3 at 3\n',
}

HAND_TEXTS = {
    'ED A0 80': b'start 4\nrefused 3 at 3\n',
    'broken by LF': b'start 2\nrefused 3 at 2\n',
    'cut off F0 9F 98': b'start 2\nrefused 3 at 2\n',
    'FF': b'start 3\nrefused 3 at 2\n',
    'U+10FFFF': b'start 5\n1 4:\xf4\x8f\xbf\xbf\n',
    'EF BB BF': b'start 6\n1 5:\xef\xbb\xbf#x\n',
}

HAND_CALLS = {
    'first line': b'1 3, then 4 2\nK=a.....\n',
    'at the end': b'end\n........\n',
    'line above offset + 1': b'end\n........\n',
    'comments are passed': b'3 3, then 10 4\nK=a.....\n',
    'to the end of the file': b'1 2, then 6 3\na ......\n',
    'short buffer': b'refused 1 at 0\n........\n',
    'too long a line': b'refused 5 at 1\n........\n',
}

HAND_EXAMPLE = '''\
1 11:[Section A]
2 14:KeyOne=value 1
3 14:KeyTwo=value 2
4 0:
6 0:
7 11:[Section B]
8 38:Setting="something" "some thing" "…"
9 40:KeyTwo=value 2         value 2 continued
11 0:
12 11:[Section C]
13 41:KeyThree=value 3        value 3 continued
'''.encode()


def told(cases, print_case, by_hand):
    """The output of the cases; those with a result made by hand are held to it."""
    out = b''
    for name, *case in cases:
        printed = print_case(*case)
        assert by_hand.pop(name, printed) == printed, name
        out += name.encode() + b'\n' + printed
    return out


def main():
    def listed(file):
        return listing(file, 200)

    def started(file):
        return b'start %d\n' % longest_start(file) + listed(file)

    outputs = {
        'logical/stdin': EXAMPLE,
        'logical/stdout': listing(EXAMPLE, 4096),
        'line_cases/stdout': told(FILES, listed, HAND_FILES) + told(CALLS, one_call, HAND_CALLS),
        'check_cases/stdout': told(CHECKS, listed, HAND_FILES) + told(TEXTS, started, HAND_TEXTS),
        **expected_values.outputs(),
        **expected_items.outputs(),
        **expected_table.outputs(),
        **expected_lookup.outputs(),
        **expected_normal.outputs(),
    }
    assert outputs['logical/stdout'] == HAND_EXAMPLE
    assert not HAND_FILES and not HAND_TEXTS and not HAND_CALLS
    same = True
    for path, content in outputs.items():
        path = os.path.join(ROOT, 'crates', path)
        if '--check' in sys.argv:
            same = same and open(path, 'rb').read() == content
        else:
            os.makedirs(os.path.dirname(path), exist_ok=True)
            open(path, 'wb').write(content)
    sys.exit(0 if same else 'the expected outputs differ from the files that stand')


if __name__ == '__main__':
    main()
