"""The cases that the program `table_cases` reads, and what it is to print.

This follows document 01: the lines of "Bytes and lines" from the heading on, "The table", and the refusals 1 to 10.
Regular expressions and Python's own string methods take the lines apart. It is no translation of the Rattle code.
Each case stands beside its answer as it was worked out by hand, and the two are held to each other. Only the
generated files at the end have the answer of the rules here alone.
"""
import re

from notation import shown
from rules_lines import EXAMPLE, logical_lines, refusal


# ---- the rules

# The bytes 20 to 7E but [ and ].
HEADER = re.compile(rb'\[([ -Z\\^-~]+)\]')
KEY = re.compile(rb'[A-Za-z0-9\-_.]+')


def read(file, text=65535, sections=128, entries=2560):
    """The refusal as (number, place); or what the lines bring, in the order of the file: the name of each new section,
    and each entry as (index of its section, key, value)."""
    if text < 65535 or sections < 128 or entries < 2560:
        return 1, 0
    if refused := refusal(file):
        return refused
    names, current, brought = [], None, []
    for number, line, _ in logical_lines(file):
        if len(line) > 4096:
            return 5, number
        line = line.strip(b' \t')
        if line.startswith(b'['):
            if not (found := HEADER.fullmatch(line)):
                return 6, number
            if found[1] not in names:
                if len(names) == 64:
                    return 10, number
                names.append(found[1])
                brought.append(found[1])
            current = names.index(found[1])
        elif line:
            key, sign, value = line.partition(b'=')
            if not sign:
                return 7, number
            if not KEY.fullmatch(key.rstrip(b' \t')):
                return 8, number
            if current is None:
                return 9, number
            if len(brought) - len(names) == 512:
                return 10, number
            brought.append((current, key.rstrip(b' \t'), value.lstrip(b' \t')))
    return brought


def layout(brought):
    """The used parts of the three buffers."""
    text, sections, entries = b'', [], []
    for one in brought:
        if isinstance(one, bytes):
            sections += [len(text), len(one)]
            text += one
        else:
            section, key, value = one
            entries += [section, len(text), len(key), len(text) + len(key), len(value)]
            text += key + value
    return text, sections, entries


# ---- cases

class Case:
    """A file, its answer by hand, and the lengths of the buffers. The answer is what the lines bring, or the numbers
    of text bytes, sections and entries, or a refusal's number and place; None for a generated file."""

    def __init__(self, answer, file, text=65535, sections=128, entries=2560):
        self.answer, self.sizes, self.result = answer, (text, sections, entries), read(file, text, sections, entries)
        self.line = b'read %d %d %d [%s]' % (text, sections, entries, shown(file))

    def told(self):
        if isinstance(self.result, tuple):
            assert self.answer in (self.result, None), (self.line, self.answer, self.result)
            return b'all kept, refused %d at %d\n' % self.result
        text, sections, entries = layout(self.result)
        counts = len(text), len(sections) // 2, len(entries) // 5
        assert self.answer in (self.result, counts, None), (self.line, self.answer, self.result)
        return (b'%d text bytes, %d sections, %d entries\n' % counts
                + b'  text [%s]' % shown(text) + behind(text, self.sizes[0], b'a5')
                + b'  sections' + numbers(sections) + behind(sections, self.sizes[1], b'99999')
                + b'  entries' + numbers(entries) + behind(entries, self.sizes[2], b'99999'))


def numbers(values):
    return b''.join(b' %d' % value for value in values)


def behind(used, size, pattern):
    """What stands behind the used part of a buffer: the pattern that it was full of, or nothing."""
    return b' then %s, rest kept\n' % (pattern if len(used) < size else b'none')


def brings(answer, *files):
    """Files whose lines all bring the same, or all have these counts."""
    return [Case(answer, file) for file in files]


def refused(number, place, *files):
    return [Case((number, place), file) for file in files]


def in_a(*entries):
    """A section A and its entries, each a key and a value."""
    return [b'A', *[(0, key, value) for key, value in entries]]


A = b'[A]\n'
LONG = b'a' * 4096


def holds(entries, *bodies):
    """Lines that give a section A these entries."""
    return brings(in_a(*entries), *[A + body for body in bodies])


def faulty(number, place, *bodies):
    """Lines that are refused behind the header of a section A, which is line 1."""
    return refused(number, place, *[A + body for body in bodies])


# ---- the rules' own examples

NORMAL = b'''\
# bench 3
[Cell]
Serial=  A 17 \\
; old tag
  rev 2
Zero=
[Link]
Wait=2min 200ms
[Cell]
Note=tail\\ \n'''

NORMAL_BRINGS = [b'Cell', (0, b'Serial', b'A 17    rev 2'), (0, b'Zero', b''), b'Link', (1, b'Wait', b'2min 200ms'),
                 (0, b'Note', b'tail\\')]

EXAMPLE_BRINGS = [
    b'Section A', (0, b'KeyOne', b'value 1'), (0, b'KeyTwo', b'value 2'),
    b'Section B', (1, b'Setting', '"something" "some thing" "…"'.encode()),
    (1, b'KeyTwo', b'value 2         value 2 continued'),
    b'Section C', (2, b'KeyThree', b'value 3        value 3 continued')]

BENCH = [
    *brings([], b''),
    *refused(9, 1, b'K=1'),
    *brings(in_a((b'K', rb'a\\'), (b'J', b'b')), A + b'K=a\\\\\nJ=b'),
    *brings(in_a((b'K', b'a')), A + b'K=a\\\n'),
    *brings(in_a((b'K', b'a'), (b'J', b'b')), A + b'K=a\\\n\nJ=b'),
    *brings(in_a((b'K', b'a b')), A + b'K=a\\\n#x\\\nb'),
    *brings(in_a((b'K', b'a=b')), A + b' K = a=b '),
    *brings(EXAMPLE_BRINGS, EXAMPLE),
    *brings(NORMAL_BRINGS, NORMAL, NORMAL[:-1], b'\n' + NORMAL, NORMAL + b'\n'),
    # its normal text
    *brings([b'Cell', (0, b'Serial', b'A 17    rev 2'), (0, b'Zero', b''), (0, b'Note', b'tail\\'),
             b'Link', (1, b'Wait', b'2min 200ms')],
            b'[Cell]\nSerial=A 17    rev 2\nZero=\nNote=tail\\ \n[Link]\nWait=2min 200ms\n'),
    # and what it would be without the space behind the backslash
    *brings([b'Cell', (0, b'Note', b'tail [Link]'), (0, b'Wait', b'1')], b'[Cell]\nNote=tail\\\n[Link]\nWait=1\n'),
]


# ---- headers

HEADERS = [
    # sections without entries, and no line at all
    *brings([b'A'], b'[A]', A, b'\n\n[A]\n\n', b' [A]', b'[A] ', b'\t[A]\t \n', b'[A]\n[A]', b'[A]\n \n[A]\n\t\n[A]\n'),
    *brings([b'A', b'B', b'C'], b'[A]\n[B]\n[C]', b'[A]\n\n[B]\n[A]\n[C]\n[B]'),
    *brings([], b'\n', b' ', b'\t\n', b'\n\n \n', b'#', b';', b'#\n', b'#[A]', b';K=1', b'#a\\\n#b', b'# \\\n;',
            b'#\n\n;\n \n'),
    # a header again, at once and with others between
    *brings(in_a((b'K', b'1'), (b'J', b'2')), b'[A]\nK=1\n[A]\nJ=2', b'[A]\n[A]\nK=1\nJ=2\n[A]',
            b'[A]\nK=1\n[A]\n[A]\nJ=2'),
    *brings([b'A', (0, b'K', b'1'), b'B', (1, b'K', b'2'), (0, b'K', b'3')], b'[A]\nK=1\n[B]\nK=2\n[A]\nK=3'),
    *brings([b'A', (0, b'K', b'1'), b'B', b'C', (2, b'L', b'2'), (1, b'M', b'3'), (0, b'N', b'4'), (2, b'O', b'5')],
            b'[A]\nK=1\n[B]\n[C]\nL=2\n[B]\nM=3\n[A]\nN=4\n[C]\nO=5'),
    *brings([b'A', b'B', (0, b'K', b'1'), (1, b'K', b'1'), (0, b'K', b'1'), (1, b'K', b'1')],
            b'[A]\n[B]\n[A]\nK=1\n[B]\nK=1\n[A]\nK=1\n[B]\nK=1'),
    # names that are nearly the same
    *brings([b'A', (0, b'K', b'1'), b'a', (1, b'K', b'2'), b'A ', (2, b'K', b'3'), b' A', (3, b'K', b'4'), b'AA',
             (4, b'K', b'5'), (0, b'K', b'6'), (3, b'K', b'7')],
            b'[A]\nK=1\n[a]\nK=2\n[A ]\nK=3\n[ A]\nK=4\n[AA]\nK=5\n[A]\nK=6\n[ A]\nK=7'),
    *brings([b'AB', b'A', (1, b'B', b'A'), b'B', (2, b'A', b'B'), b'BA', (1, b'AB', b'')],
            b'[AB]\n[A]\nB=A\n[B]\nA=B\n[BA]\n[A]\nAB='),
    # a name that stands in the text already, as a key and as a value, is still new
    *brings([b'A', (0, b'K', b'B'), b'B', b'K', b'KB', b'AK'], b'[A]\nK=B\n[B]\n[K]\n[KB]\n[AK]'),
    # blanks in a name
    *brings([b' A ', (0, b'K', b'1')], b'[ A ]\nK=1'),
    *brings([b' '], b'[ ]'),
    *brings([b'  '], b'[  ]\n[  ]'),
    *brings([b'A  B'], b'[A  B]'),
    # other signs in a name
    *brings([b'#x'], b'[#x]'),
    *brings([b'a=b', (0, b'K', b'1')], b'[a=b]\nK=1'),
    *brings([b'=', (0, b'K', b'1')], b'[=]\nK=1'),
    *brings([b'A\\', (0, b'K', b'1')], b'[A\\]\nK=1'),
    *brings([b'A\\\\', (0, b'K', b'1')], b'[A\\\\]\nK=1'),
    *brings([b';', b'#', b'A', b'#A'], b'[;]\n[#]\n#[B]\n[A]\n;[C]\n[#A]'),
    *brings([b'"A"', b"'A'", b'~', b'!'], b'[\"A\"]\n[\'A\']\n[~]\n[!]'),
    # joined headers
    *brings([b'A B', (0, b'K', b'1')], b'[A\\\nB]\nK=1', b'[A\\\n#x\n;y\\\nB]\nK=1', b'[A B]\nK=1',
            b'\\\n[A\\\nB]\\\n\nK=1'),
    *brings([b'A', (0, b'K', b'1')], b'[A]\\\n\nK=1', b'[A]\\\n \t\nK=1', b'[A]\\\n#x\n\nK=1', b'\\\n[A]\nK=1',
            b'\\\n\\\n [A]\nK=1', b'#\\\n[A]\nK=1', b'\t\\\n\t[A]\t\\\n\t\nK=1'),
    *brings([b'A'], b'[A]\\', b'[A]\\\n', b'[A]\\\n#x', b'[A]\\\n\n', b'[A]\\\n\\\n\\', b'[A]\n[A]\\\n\n[A]\\'),
    *brings([b'A '], b'[A\\\n]'),
    *brings([b' '], b'[\\\n]'),
    *brings([b' A'], b'[\\\nA]'),
    *brings([b'A   B'], b'[A \\\n B]'),
    *refused(6, 1, b'[A]\\\nK=1', b'[A]\\\n[B]', b'[A\\', b'[A\\\n', b'[A\\\n\n]', b'[\\\n', b'[A]\\\\', b'[A]\\ ',
             b'[A]\\ \n', b'[A]\\\\\nK=1', b'[A\\\n\tB]', b'[A\\\n#]\n', b'[A]\\\n#x\nK=1', b'[A]\\\n #x'),
    # faults
    *refused(6, 1, b'[', b'[]', b'[A', b'[A]x', b'[A]]', b'[[A]', b'[A]=1', b'[[', b'[]]', b'[[]]', b'[A] x',
             b'[A] [B]', b'[A][B]', b'[A]#x', b'[A] #x', b'[A] ;x', b' [', b'[ ', b'[\n]', b'[A]\t.', b'[A[B]',
             b'[A]B]', b'[=', b'[K=1', b'[]=', b'[ ]]', b'[A\n', b'[A ', b'[a]b]\nK=1', b'[ [A]]', b'[A]\xc2\xa0'),
    *refused(6, 1, b'[\t]', b'[A\tB]', b'[\tA]', b'[A\t]', '[é]'.encode(), '[Aé]'.encode(), '[…]'.encode(),
             b'[\xc2\x80]', b'[\xf4\x8f\xbf\xbf]'),
    *refused(4, 1, b'[\x7f]', b'[A\x01]', b'[A\r]', b'[A]\r\n', b'[A\x00]'),
    *refused(3, 1, b'[\x80]', b'[A\xff]', b'[\xc3]'),
    *refused(7, 1, b']', b'A]', b'] [A]', b'x[A]', b'\\[A]', b'.[A]', b'\xef\xbb\xbf[A]'),
    *refused(8, 1, b']=1', b'x[A]=1', b'"[A]"=1'),
]


# ---- entries

ENTRIES = [
    # empty and equal ones: nothing is reset or merged
    *holds([(b'K', b'')], b'K=', b'K =\n', b' K\t= ', b'K=\\\n', b'K=\\\n\\\n \n', b'K\\\n=\\', b'K=\\\n\n'),
    *holds([(b'K', b'1'), (b'K', b'')], b'K=1\nK='),
    *holds([(b'K', b''), (b'K', b''), (b'K', b'1'), (b'K', b''), (b'K', b'1')], b'K=\nK=\nK=1\nK=\nK=1\n'),
    *holds([(b'K', b'1'), (b'K', b'1'), (b'K', b'1')], b'K=1\nK=1\n[A]\nK=1'),
    *holds([(b'KK', b'1'), (b'K', b'K1'), (b'K1', b'')], b'KK=1\nK=K1\nK1='),
    # blanks around =
    *holds([(b'K', b'1')], b'K=1', b'K =1', b'K= 1', b'K = 1', b'K\t=\t1', b' \tK \t = \t 1\t ', b'K=1 \n', b'\tK=1',
           b'K \\\n \t=\\\n\t 1\\\n ', b'K\\\n=1', b'K=\\\n1', b'\\\nK=1', b'K\\\n=\\\n1\\\n', b'K=1\\'),
    # inside a value they stay
    *holds([(b'K', b'a  b\t c')], b'K=a  b\t c', b'K=  a  b\t c  '),
    *holds([(b'K', b'a  b')], b'K=a\\\n b', b'K=a \\\nb'),
    *holds([(b'K', b'a   b')], b'K=a \\\n b', b'K=a\\\n\\\n\\\nb'),
    *holds([(b'K', b'a \tb')], b'K=a\\\n\tb'),
    # several =
    *holds([(b'K', b'=')], b'K==', b'K= = '),
    *holds([(b'K', b'= =')], b'K== ='),
    *holds([(b'K', b'a=b=c')], b'K=a=b=c', b'K =a=b=c'),
    *holds([(b'K', b'a = b')], b'K = a = b', b'K=a\\\n=\\\nb'),
    *holds([(b'K', b'=a')], b'K==a', b'K= =a', b'K=\\\n=a'),
    # what stands in a value is data
    *holds([(b'K', b'[B]'), (b'J', b'#x'), (b'I', b'a;b #c')], b'K=[B]\nJ=#x\nI=a;b #c'),
    *holds([(b'K', b'a  #b')], b'K=a\\\n #b'),
    *holds([(b'K', b'a [B]')], b'K=a\\\n[B]'),
    *holds([(b'K', b'a J=1')], b'K=a\\\nJ=1'),
    *holds([(b'K', b'"a b" \'c\' \\x41')], b'K="a b" \'c\' \\x41'),
    *holds([(b'K', 'é…\U0001f600 ü'.encode()), (b'J', b'\xc2\xa0'), (b'I', b'\xef\xbb\xbf')],
           'K=é…\U0001f600 ü\nJ=\u00a0\nI=\ufeff\n'.encode()),
    *holds([(b'K', b'\xc2\x80\xf4\x8f\xbf\xbf')], b'K=\xc2\x80\xf4\x8f\xbf\xbf'),
    # backslashes
    *holds([(b'K', b'\\\\')], b'K=\\\\', b'K=\\\\\n', b'K= \\\\ \n'),
    *holds([(b'K', b'a\\\\ b')], b'K=a\\\\\\\nb'),
    *holds([(b'K', b'a\\'), (b'J', b'\\a\\')], b'K=a\\ \nJ=\\a\\\t\n'),
    *holds([(b'K', b'\\\\\\\\'), (b'J', b'1')], b'K=\\\\\\\\\nJ=1'),
    # comments before, between and behind entries
    *holds([(b'K', b'1'), (b'J', b'2')], b'K=1\n#x\\\nJ=2', b'#\n;\nK=1\n\n#K=3\n\nJ=2\n#', b'K=1\n;\\\n#\\\nJ=2\n;\\',
           b'K=1\\\n#x\n\nJ=2', b'K=\\\n#\n;\n1\nJ=2\\\n;\n#', b'K=1\\\n#\n#\n \nJ=2'),
    *brings(in_a((b'K', b'1'), (b'J', b'2')), b'#\\\n[A]\n;[B]\nK=1\nJ=2'),
    *holds([(b'K', b'a b c')], b'K=a\\\n#1\\\nb\\\n;2\n;3\nc', b'#0\nK=a\\\nb\\\nc\n#4'),
    # keys
    *holds([(b'-', b'1'), (b'_', b'2'), (b'.', b'3'), (b'0', b'4'), (b'-._9azAZ', b'5')],
           b'-=1\n_=2\n.=3\n0=4\n-._9azAZ=5'),
    *faulty(8, 2, b'=', b'=1', b' = 1', b'\t=', b'==', b'\\\n=1', b' \\\n \\\n = 1', b'K J=1', b'K\tJ=1', b'K\\\nJ=1',
            b'K\\\n\\\nJ\\\n=1', b'K #x=1', b'K[0]=1', b'K\\=1', b'\\=1', b'K\\\\=1', b'"K"=1', 'é=1'.encode(),
            'Ké=1'.encode(), '…=1'.encode(), b'K\xc2\xa0=1', b'\xef\xbb\xbfK=1', b'K:J=1', b'a/b=1', b'K+=1',
            b'K\\\n#\n;\nJ=1', b'\xc2\x80=1', b']=1', b'K]=1'),
    # no =
    *faulty(7, 2, b'K', b' K ', b'K J', b'\\\\', b'K:1', b']', 'é'.encode(), b'K\\', b'K\\\n\n=1', b'\\ ', b'K\\\n#=\n',
            b'K\\\n#=1\n;=2\n\n=1', b'\\\nK', b'x[B]', b'\\\\\n=1', b'"K"'),
    # a # or ; behind a blank opens no comment
    *faulty(7, 2, b' #x', b'\t#x', b' ;', b' #x\n', b'\\\n#=\n #', b' ;\\\n#=1'),
    *faulty(8, 2, b' #x=1', b'\t;x=1', b' #=', b'\\\n #x=1', b' #K = 1\n'),
]


# ---- each byte from 20 to 7E

KEY_BYTES = b'-.0123456789ABCDEFGHIJKLMNOPQRSTUVWXYZ_abcdefghijklmnopqrstuvwxyz'
assert len(KEY_BYTES) == 65


def name_byte(byte):
    """A name of one byte, and one among others."""
    files = b'[%c]' % byte, b'[A%cB]\nK=1' % byte
    if byte in b'[]':
        return refused(6, 1, *files)
    return [*brings([b'%c' % byte], files[0]), *brings([b'A%cB' % byte, (0, b'K', b'1')], files[1])]


def key_byte(byte):
    """A key of one byte; and one with it at the front, inside, and at its end."""
    one, front, inside, end = A + b'%c=1' % byte, A + b'%cK=1' % byte, A + b'K%cJ=1' % byte, A + b'K%c=1' % byte
    if byte in KEY_BYTES:
        return [*brings(in_a((b'%c' % byte, b'1')), one), *brings(in_a((b'%cK' % byte, b'1')), front),
                *brings(in_a((b'K%cJ' % byte, b'1')), inside), *brings(in_a((b'K%c' % byte, b'1')), end)]
    if byte == ord(' '):
        return [*refused(8, 2, one, inside), *brings(in_a((b'K', b'1')), front, end)]
    if byte == ord('='):
        return [*refused(8, 2, one, front), *brings(in_a((b'K', b'J=1')), inside), *brings(in_a((b'K', b'=1')), end)]
    if byte in b'#;':
        return [*brings([b'A'], one, front), *refused(8, 2, inside, end)]
    if byte == ord('['):
        return [*refused(6, 2, one, front), *refused(8, 2, inside, end)]
    return refused(8, 2, one, front, inside, end)


BYTES = [*sum([name_byte(byte) for byte in range(0x20, 0x7f)], []),
         *sum([key_byte(byte) for byte in range(0x20, 0x7f)], []),
         # and all of them in a value
         *brings(in_a((b'K', bytes(range(0x21, 0x7f)))), A + b'K=' + bytes(range(0x20, 0x7f)))]


# ---- which fault, and its place

PLACES = [
    # the first faulty line
    *refused(7, 2, A + b'K\n=1', A + b'K\n[\nK', A + b'K\n' + b'a' * 4097, b'#\nK\n[', b'\nK\n[A\n=1'),
    *refused(6, 2, A + b'[\nK', A + b'[\n=1', b'\n[B\n[C', A + b'[]\n' + b' ' * 4097),
    *refused(8, 2, A + b'=1\nK', A + b'=1\n[', b'\n=1\nK=1'),
    *refused(9, 2, b'\nK=1\n[', b'\nK=1\nK', b'\nK=1\n=1', b'#\nK=1\n[A]\nK=1', b'\nK=1\nJ=2'),
    *refused(5, 2, A + b'a' * 4097 + b'\nK', A + b' ' * 4097 + b'\n[', b'\n' + b'K' * 4097 + b'\n[A]'),
    # lines are counted, comments, empty ones and joined ones too
    *refused(7, 4, b'#\n;\n\nK', A + b'\n\nK', A + b'#\n#\nK', A + b'J=a\\\nb\nK', A + b'J=a\\\n\nK'),
    *refused(8, 6, A + b'#\nJ=1\\\n;\n2\n=1\nK', b'#\n#\n#\n#\n#\n=1', b'[A\\\n#\\\n#\\\n]\\\n\n=1'),
    *refused(6, 5, b'#1\n[A]\n\n;2\n[A\n;3', b'[A]\nK=\\\n#\n1\n[', b'[A]\n\\\n\\\n\n[', b'[A]\n\n\n\n['),
    # a joined line has the place of its first physical line
    *refused(6, 2, A + b'[A\\\nB\\\nC', A + b'[A\\\n#x\nB', b'#x\n[\\\n]x', A + b'[A]\\\n#\\\n;\nK=1'),
    *refused(6, 3, b'#x\n\n[A\\\nB]\\\nC', b'#1\n;2\n[\\\n#3\n;4', A + b'#\n[B\\\n[A]'),
    *refused(7, 3, A + b'#\nK\\\nJ', A + b'#=\nK\\\n#=\n\n=', A + b'\nK\\\n;\n\\\nJ\nK=1'),
    *refused(8, 3, A + b';\nK\\\nJ=1', A + b'#\n\\\n#\n=1', A + b'\nK\\\n J\\\n=1'),
    *refused(8, 2, A + b'\\\n\\\n=1', A + b'K\\\n#\n;\n J=1'),
    *refused(9, 1, b'K\\\n=\\\n1', b'K=1\\\n#', b'\\\n\\\nK=1', b'\\\n#x\nK=1\n'),
    *refused(9, 3, b'#\n\nK=1', b'#\n;\nK=\\\n1', b'\n \nK=1\n[A]', b'#[A]\n;[A]\nK=1', b' \\\n\nK=1'),
    *refused(5, 2, A + b'K=\\\n' + b'a' * 4094, A + b'\\\n' + b' ' * 4096, b'#\n[\\\n' + b'a' * 4095),
    *refused(5, 3, A + b'#\nK=\\\n#\n' + b'a' * 4094, b'#\n#\n' + b'K' * 4096 + b'\\\n#\n'),
    # in one line: 5, 6, 7, 8, 9, 10
    *refused(5, 1, b'[' * 4097, b'K' * 4097, b'=' * 4097, b'K=' + b'a' * 4095, b'[A]' + b' ' * 4094, b'\t' * 4097,
             b'[' + b'A' * 4095 + b']', b'[A' + b'\\' * 4095 + b'\n\n', b' ' * 4093 + b' [A]',
             'é'.encode() + b'K' * 4095),
    *refused(7, 1, b'K', b'K J', b'.', 'é'.encode()),
    *refused(8, 1, b'=', b'=1', b'K J=1', 'é=1'.encode()),
    *refused(6, 1, b'[K', b'[=', b'[K=1'),
    # 2, 3 and 4 before all of these, 2 before 3 before 4
    *refused(3, 2, b'K\n\xff', b'[\n\xc3\n', b'=\n#\x80', b'K=1\n;\xed\xa0\x80', b'a' * 4097 + b'\n\xff', b'\x01\n\xff',
             b'\x01\n\xff\n\x02', b'\x00\x7f\nK=\xe2\x82\n', b'\r\n[\xe2\x82', A + b'K=\xc0\x80', A + b'K\xf5=1',
             A + b'#\xfe'),
    *refused(3, 3, A + b'K=1\nJ=\xf4\x90\x80\x80\nI', b'K\n[\n\xff\x01', A + b'\\\n\xbf'),
    *refused(4, 2, b'K\n\x01', b'[\n\x7f\n', b'=\n#\x00', b'K=1\n;\x1f', b'a' * 4097 + b'\n\x08', A + b'K=\x0b',
             A + b'K=1\r\n', A + b'\x0c\n\x01', A + b'K\x1b=1', A + b'#\x7f\n\x00', A + b'\x00\n['),
    *refused(4, 3, A + b'K=1\nJ=\x7f\nI', b'K\n[\n\x1f', A + b'K\\\n\x0e=1', '[A]\nK=é\nJ=\x02'.encode()),
    *refused(2, 0, b'K\n' + b'#' * 65533, b'[\n' + b'\xff' * 65534, b'\x00' * 65535, b'\xff' * 65536, b'a' * 1000000,
             b'\n' * 65536, b' ' * 65535, b'\xff' + b'#' * 65535, b'=\n\x01' + b'#' * 65533),
    *refused(3, 1, b'\xff' * 65534, b'\xff' * 65534 + b'\n'),
    *refused(4, 1, b'\x00' * 65534, b'\x1f' * 65534 + b'\n'),
    *refused(5, 1, b' ' * 65534, b'=' * 65534 + b'\n'),
]


# ---- limits

def headers(count, first=0):
    return b''.join(b'[s%d]\n' % number for number in range(first, first + count))


def entries(count):
    return b'K=\n' * count


SIXTY_FOUR = headers(64)
# Names s0 to s63: ten of two bytes, the others of three.
NAMES = 10 * 2 + 54 * 3
FULL = A + entries(512)

COUNTS = [
    # 64 sections and one more
    *brings((NAMES - 3, 63, 0), headers(63)),
    *brings((NAMES, 64, 0), SIXTY_FOUR, SIXTY_FOUR + b'[s0]\n', SIXTY_FOUR + b'[s63]', SIXTY_FOUR * 2),
    *brings((NAMES + 2 + 3, 64, 2), SIXTY_FOUR + b'[s31]\nK=1\n[s0]\nJ=22'),
    *refused(10, 65, SIXTY_FOUR + b'[A]', SIXTY_FOUR + b'[s64]\nK=1', SIXTY_FOUR + b'[s]', SIXTY_FOUR + b'[s0 ]\n',
             SIXTY_FOUR + b'[S0]\nK\n', SIXTY_FOUR + b'[A\\\nB]', headers(66)),
    *refused(10, 66, SIXTY_FOUR + b'[s63]\n[s64]', SIXTY_FOUR + b'\n[A]', SIXTY_FOUR + b'#[A]\n[A]\n[',
             b'#\n' + headers(65), SIXTY_FOUR + b'K=1\n[A]'),
    *refused(6, 65, SIXTY_FOUR + b'[A', SIXTY_FOUR + b'[]', SIXTY_FOUR + b'[\t]', SIXTY_FOUR + b'[s64]]',
             SIXTY_FOUR + '[é]'.encode()),
    *refused(5, 65, SIXTY_FOUR + b'[' + b'a' * 4095 + b']', SIXTY_FOUR + b'[A]' + b' ' * 4094),
    *refused(7, 64, headers(63) + b'K\n' + headers(2, 63)),
    # 512 entries and one more
    *brings((1 + 512, 1, 512), FULL, FULL[:-1] + b'\n \n#K=1\n[A]'),
    *brings((2 + 512, 2, 512), FULL + b'[B]'),
    *refused(10, 514, FULL + b'K=', FULL + b' J\\\n = 1 \nK'),
    *refused(10, 515, FULL + b'[B]\nK=1', b'\n' + FULL + b'K=1\n['),
    *refused(10, 516, FULL + b'\\\n\nK=1'),
    *refused(8, 514, FULL + b'=1\nK=1'),
    *refused(7, 514, FULL + b'K\\\n\nK=1'),
    *refused(6, 514, FULL + b'[B\nK=1'),
    *refused(5, 514, FULL + b'K=' + b'a' * 4095),
    *refused(9, 1, entries(513) + A),
    # both
    *refused(10, 577, SIXTY_FOUR + entries(512) + b'[A]\nK=1'),
    *brings((NAMES + 512, 64, 512), b''.join(headers(1, number) + entries(8) for number in range(64))),
]


def entry_of(size, sign=b'v'):
    """An entry of so many bytes, LF too."""
    return b'K=' + sign * (size - 3) + b'\n'


# 65,535 bytes: 15 lines of 4,096 bytes and one that fills up.
WIDE = A + entry_of(4097) * 15 + entry_of(4076)
assert len(WIDE) == 65535
# 65,535 bytes: 512 entries.
MANY = A + entry_of(128) * 511 + entry_of(123)
assert len(MANY) == 65535
# The same with 64 sections, 8 entries in each. The last one fills up: it has 318 bytes.
SPREAD = b''.join(b'[%02d]\n' % number + entry_of(127, b'%c' % (48 + number)) * 8 for number in range(63))
SPREAD += b'[63]\n' + entry_of(127) * 7 + entry_of(65535 - len(SPREAD) - 5 - 127 * 7)
assert len(SPREAD) == 65535

SIZES = [
    # logical lines
    *brings([b'A', (0, b'K', LONG[2:])], A + b'K=' + LONG[2:], A + b'K=' + LONG[2:] + b'\n'),
    *brings([b'A', (0, LONG[1:], b'')], A + LONG[1:] + b'='),
    *brings([LONG[2:], (0, b'K', b'1')], b'[' + LONG[2:] + b']\nK=1'),
    *brings([b' ' * 4094], b'[' + b' ' * 4094 + b']'),
    *brings([b'A'], A + b' ' * 4096, A + b'\t' * 4096 + b'\n', b'[A]' + b' ' * 4093, b' ' * 4093 + b'[A]',
            A + b'#' * 5000, A + b' ' * 4095 + b'\\', b';' * 4097 + b'\n[A]', A + b' ' * 2000 + b'\\\n' + b'\t' * 2095),
    *brings(in_a((b'K', b'1')), A + b'K=1' + b' ' * 4093, A + b' ' * 4093 + b'K=1', A + b'K' + b' ' * 4093 + b'=1',
            A + b'K=' + b' ' * 4093 + b'1', A + b'K=1' + b' ' * 4092 + b'\\\n', A + b'#' * 5000 + b'\nK=1'),
    *brings([b'A', (0, b'K', b'a' * 4093)], A + b'K=' + b'a' * 4093 + b'\\\n', A + b'K=' + b'a' * 4093 + b'\\'),
    *brings([b'A', (0, b'K', b'a' * 2000 + b' ' + b'b' * 2093)], A + b'K=' + b'a' * 2000 + b'\\\n' + b'b' * 2093),
    *brings([b'A', (0, b'K', b'a' * 2000 + b' ' + b'b' * 2093), (0, b'J', b'1')],
            A + b'K=' + b'a' * 2000 + b'\\\n' + b'#' * 5000 + b'\n' + b'b' * 2093 + b'\nJ=1'),
    *brings([b'A', (0, b'K', 'é…'.encode() + LONG[7:])], A + 'K=é…'.encode() + LONG[7:]),
    *refused(5, 2, A + b'K=' + b'a' * 4095, A + b'K=' + b'a' * 4095 + b'\n', A + b'a' * 4096 + b'=',
             b'\n[' + b'a' * 4095 + b']', A + b' ' * 4097, A + b'\t' * 4097 + b'\n', b'\n[A]' + b' ' * 4094,
             A + b'K=1' + b' ' * 4094, A + b' ' * 4094 + b'K=1', A + b'K=' + b'a' * 4094 + b'\\\n',
             A + b'K=' + b'a' * 4094 + b'\\', A + b'K=' + b'a' * 2000 + b'\\\n' + b'b' * 2094, A + b' ' * 4096 + b'\\',
             A + b' #' + b'x' * 4095, A + 'K=é…'.encode() + LONG[6:]),
    # files of 65,534 and 65,535 bytes
    *brings(in_a((b'K', b'1')), A + b'#' * 65526 + b'\nK=1', A + b'#' * 65526 + b'\nK=1\n', A + b'K=1\n' + b'#' * 65526,
            A + b'K=1\n' + b'\n' * 65527, A + b'K=1\n' + b'#' * 65525 + b'\n', b'\n' * 65527 + A + b'K=1\n',
            b'\n' * 65527 + A + b'K=1'),
    *refused(2, 0, A + b'#' * 65527 + b'\nK=1', A + b'#' * 65527 + b'\nK=1\n', A + b'K=1\n' + b'#' * 65527,
             A + b'K=1\n' + b'\n' * 65528, A + b'K=1\n' + b'#' * 65527 + b'\n', b'\n' * 65528 + A + b'K=1'),
    # nearly all of their bytes are text
    *brings((1 + 15 * 4095 + 4074, 1, 16), WIDE, WIDE[:-1]),
    *refused(2, 0, WIDE[:-1] + b'v', WIDE[:-1] + b'v\n', WIDE + b'\n', WIDE[:-1] + b'\\'),
    *brings((1 + 511 * 126 + 121, 1, 512), MANY),
    *brings((64 * 2 + 511 * 125 + 316, 64, 512), SPREAD[:-1]),
    # a fault at the end of such a file
    *refused(3, 17, WIDE[:-2] + b'\xff'),
    *refused(4, 17, WIDE[:-2] + b'\x01'),
    *refused(5, 16, A + entry_of(4097) * 14 + entry_of(4098)),
    *refused(6, 18, WIDE[:-3] + b'\n['),
    *refused(7, 18, WIDE[:-3] + b'\nv'),
    *refused(8, 18, WIDE[:-3] + b'\n='),
    *refused(10, 514, MANY[:-5] + b'\nK=1'),
    *refused(10, 577, SPREAD[:-5] + b'\n[A]'),
]


# ---- buffers

FAULTY = [b'K=1', b'[', b'K', b'=1', b'\x01', b'\xff', b'a' * 4097, b'a' * 65535, headers(65), FULL + b'K=1']
SHORT = [(65534, 128, 2560), (65535, 127, 2560), (65535, 128, 2559)]

BUFFERS = [
    *[Case((1, 0), file, *sizes) for file in (b'', A + b'K=1', b'K') for sizes in SHORT],
    *[Case((1, 0), A + b'K=1', *sizes) for sizes in (
        (0, 128, 2560), (65535, 0, 2560), (65535, 128, 0), (0, 0, 0), (65534, 127, 2559), (65600, 140, 2559),
        (65600, 127, 2600), (65534, 140, 2600), (1, 2, 5), (65535, 2, 5), (2560, 65, 128))],
    *[Case((1, 0), file, *sizes) for file, sizes in zip(FAULTY, SHORT * 4)],
    *[Case((1, 0), file, 0, 0, 0) for file in FAULTY[:6]],
    *[Case((1, 0), NORMAL, *sizes) for sizes in SHORT],
    *[Case(NORMAL_BRINGS, NORMAL, *sizes) for sizes in (
        (65536, 128, 2560), (65535, 129, 2560), (65535, 128, 2561), (65536, 129, 2561), (65600, 140, 2600))],
    *[Case([], b'', *sizes) for sizes in (
        (65536, 128, 2560), (65535, 129, 2560), (65535, 128, 2561), (65600, 140, 2600))],
    Case((1 + 512, 1, 512), FULL, 65536, 129, 2561),
    Case((NAMES, 64, 0), SIXTY_FOUR, 65536, 129, 2561),
    Case((NAMES, 64, 0), SIXTY_FOUR, 65535, 130, 2560),
    *[Case(answer, file, 65600, 140, 2600) for answer, file in (
        ((9, 1), b'K=1'), ((6, 1), b'['), ((7, 1), b'K'), ((8, 1), b'=1'), ((4, 1), b'\x01'), ((3, 1), b'\xff'),
        ((5, 1), b'a' * 4097), ((2, 0), b'a' * 65535), ((10, 65), headers(65)), ((10, 65), SIXTY_FOUR + b'[A]\nK=1'))],
]


# ---- files after each other

def again(brought):
    """What the same lines bring once more: no section is new."""
    return brought + [one for one in brought if isinstance(one, tuple)]


TWICE = [
    *brings(again(NORMAL_BRINGS), NORMAL * 2, NORMAL * 2 + b'[Link]\n[Cell]\n', NORMAL * 2 + b'[Cell]\n[Cell]'),
    *brings(again(EXAMPLE_BRINGS), EXAMPLE * 2),
    *brings(again(EXAMPLE_BRINGS) + [(0, b'K', b'1'), (2, b'J', b'')],
            EXAMPLE * 2 + b'[Section A]\nK=1\n[Section C]\nJ='),
    *brings(NORMAL_BRINGS + [b'Section A', (2, b'KeyOne', b'value 1'), (2, b'KeyTwo', b'value 2'), (1, b'K', b'1')],
            NORMAL + EXAMPLE[:EXAMPLE.index(b'\n\n')] + b'\n[Link]\nK=1'),
]


# ---- generated files

class Generator:
    """A linear congruential generator with the numbers of Knuth's MMIX; its upper bits choose."""

    def __init__(self, seed):
        self.state = seed

    def below(self, count):
        self.state = (self.state * 6364136223846793005 + 1442695040888963407) % 2 ** 64
        return (self.state >> 33) % count

    def text(self, most, pieces):
        return b''.join(pieces[self.below(len(pieces))] for _ in range(1 + self.below(most)))


SIGNS = [b'[', b']', b'A', b'b', b'=', b' ', b'\t', b'\\', b'#', b';', b'\n', b'1']
PARTS = [b'[A]', b'[b]', b'[A\\]', b'\n', b'\n', b'\n', b'\n', b'\\\n', b'A=', b'b=1', b'A', b'=', b' ', b'\t',
         b'\n#b\\\n', b'\n;\n', b'1', b'\\']
LINES = [b'[A]\n', b'[b]\n', b'[ A]\n', b'A=1\n', b' b = 1 1 \n', b'A=\\\n', b'b.1=[A]\\\n', b'#A\n', b';\\\n', b'\n',
         b' \\\n', b'[A]\\\n', b'A=\\\\\n', b'1==\n', b'A=b\\\n #\n', b'-=;\n', b'[\\\n#\n]\n', b'b\\\n=1\\\n\n',
         b'\t1=A\\ \n', b'b=b\n']


def generated():
    source = Generator(2026)
    files = [source.text(12, SIGNS) for _ in range(60)]
    files += [A + source.text(14, SIGNS) for _ in range(120)]
    files += [source.text(16, PARTS) for _ in range(60)]
    files += [A + source.text(16, PARTS) for _ in range(120)]
    files += [A + source.text(12, LINES) for _ in range(160)]
    return [Case(None, file) for file in dict.fromkeys(files)]


# ---- what is printed, by hand

HAND = {
    b'read 65535 128 2560 []': b'''\
  0 text bytes, 0 sections, 0 entries
  text [] then a5, rest kept
  sections then 99999, rest kept
  entries then 99999, rest kept
''',
    b'read 65535 128 2560 [K=1]': b'  all kept, refused 9 at 1\n',
    b'read 65535 128 2560 [[A<5d><0a>K=a\\\\<0a>J=b]': b'''\
  7 text bytes, 1 sections, 2 entries
  text [AKa\\\\Jb] then a5, rest kept
  sections 0 1 then 99999, rest kept
  entries 0 1 1 2 3 0 5 1 6 1 then 99999, rest kept
''',
    b'read 65535 128 2560 [[A<5d><0a>K=1<0a>K=]': b'''\
  4 text bytes, 1 sections, 2 entries
  text [AK1K] then a5, rest kept
  sections 0 1 then 99999, rest kept
  entries 0 1 1 2 1 0 3 1 4 0 then 99999, rest kept
''',
    b'read 65535 128 2560 [[A<5d><0a>K=1<0a>[B<5d><0a>K=2<0a>[A<5d><0a>K=3]': b'''\
  8 text bytes, 2 sections, 3 entries
  text [AK1BK2K3] then a5, rest kept
  sections 0 1 3 1 then 99999, rest kept
  entries 0 1 1 2 1 1 4 1 5 1 0 6 1 7 1 then 99999, rest kept
''',
    b'read 65535 128 2560 [%s]' % shown(NORMAL): b'''\
  54 text bytes, 2 sections, 4 entries
  text [CellSerialA 17    rev 2ZeroLinkWait2min 200msNotetail\\] then a5, rest kept
  sections 0 4 27 4 then 99999, rest kept
  entries 0 4 6 10 13 0 23 4 27 0 1 31 4 35 10 0 45 4 49 5 then 99999, rest kept
''',
}


def outputs():
    cases = BENCH + HEADERS + ENTRIES + BYTES + PLACES + COUNTS + SIZES + BUFFERS + TWICE
    told = {case.line: b'  ' + case.told() for case in cases + generated()}
    # a file that several lists have is read once, but those of the bench again: nothing is left over from a call
    listed = [*told, *[case.line for case in BENCH]]
    lines = b''.join(line + b'\n' for line in listed)
    for line, printed in HAND.items():
        assert told[line] == printed, line
    assert len(lines) < 200000, len(lines)
    printed = b''.join(line + b'\n' + told[line] for line in listed)
    return {'table_cases/stdin': lines, 'table_cases/stdout': printed}
