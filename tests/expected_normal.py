"""The cases that the programs `normal_cases` and `limits` read, the inputs of `normal`, `normal_refused` and
`normal_long`, and what they are to print.

This follows document 01, "The normal text". What the lines of a file bring, and the refusals 1 to 10, are those of
expected_table.py. It is no translation of the Rattle code. Each case stands beside its answer as it was worked out by
hand, and the two are held to each other. Only the generated files at the end have the answer of the rules here alone.
"""
import re

from expected_table import (A, FULL, MANY, NORMAL, SIXTY_FOUR, SPREAD, WIDE, Generator, behind, entries, entry_of,
                            headers, layout, numbers, read)
from notation import shown
from rules_lines import EXAMPLE


# ---- the rules

def normal_text(brought):
    """The normal text of what the lines of a file bring: each section in order of first appearance, and its entries."""
    names = [one for one in brought if isinstance(one, bytes)]
    found = [one for one in brought if isinstance(one, tuple)]
    written = []
    for index, name in enumerate(names):
        written += [b'[', name, b']\n']
        for section, key, value in found:
            if section == index:
                run = re.search(rb'\\*\Z', value)[0]
                written += [key, b'=', value, b' ' if len(run) % 2 else b'', b'\n']
    return b''.join(written)


def called(file, text, sections, entries, out):
    """The refusal as (number, place), or what the lines bring."""
    return (1, 0) if out < 65535 else read(file, text, sections, entries)


# ---- cases

class Case:
    """A file, its answer by hand, and the lengths of the four buffers. The answer is the normal text, or a refusal's
    number and place; None for a generated file."""

    def __init__(self, answer, file, text=65535, sections=128, entries=2560, out=65535):
        self.sizes, self.result = (text, sections, entries, out), called(file, text, sections, entries, out)
        self.line = b'normal [%s]%s' % (shown(file), numbers(self.sizes))
        self.normal = None if isinstance(self.result, tuple) else normal_text(self.result)
        told = self.result if self.normal is None else self.normal
        assert answer is None or told == answer, (self.line, answer, told)
        if self.normal is not None:
            # what demand 3 says of it
            assert normal_text(read(self.normal)) == self.normal, self.line
            assert len(self.normal) <= len(file) + (not file.endswith(b'\n')), self.line

    def told(self):
        if self.normal is None:
            return b'  all kept, refused %d at %d\n' % self.result
        text, sections, entries = layout(self.result)
        return (b'  %d bytes, ' % len(self.normal)
                + b'%d text bytes, %d sections, %d entries\n' % (len(text), len(sections) // 2, len(entries) // 5)
                + b'  normal [%s]' % shown(self.normal) + behind(self.normal, self.sizes[3], b'a5')
                + b'  text [%s]' % shown(text) + behind(text, self.sizes[0], b'a5')
                + b'  sections' + numbers(sections) + behind(sections, self.sizes[1], b'99999')
                + b'  entries' + numbers(entries) + behind(entries, self.sizes[2], b'99999'))


def lined(*lines):
    """Lines, each with its LF."""
    return b''.join(line + b'\n' for line in lines)


def gives(normal, *files):
    """Files that all have this normal text."""
    return [Case(normal, file) for file in files]


def in_a(lines, *bodies):
    """Bodies behind the header of a section A, which have these lines in the normal text."""
    return gives(lined(b'[A]', *lines), *[A + body for body in bodies])


def refused(number, place, *files):
    return [Case((number, place), file) for file in files]


def again(cases):
    """The normal texts of cases, as files: each is its own normal text."""
    return [Case(case.normal, case.normal) for case in cases if case.normal is not None]


# ---- the rules' own examples

EXAMPLE_NORMAL = lined(
    b'[Cell]', b'Serial=A 17    rev 2', b'Zero=', b'Note=tail\\ ', b'[Link]', b'Wait=2min 200ms')

MAN_PAGE_NORMAL = lined(
    b'[Section A]', b'KeyOne=value 1', b'KeyTwo=value 2',
    b'[Section B]', 'Setting="something" "some thing" "…"'.encode(), b'KeyTwo=value 2         value 2 continued',
    b'[Section C]', b'KeyThree=value 3        value 3 continued')

BENCH = [
    *gives(b'', b''),
    *refused(9, 1, b'K=1'),
    *gives(lined(b'[A]', b'K=a\\\\', b'J=b'), b'[A]\nK=a\\\\\nJ=b'),
    *gives(lined(b'[A]', b'K=a'), b'[A]\nK=a\\\n'),
    *gives(lined(b'[A]', b'K=a', b'J=b'), b'[A]\nK=a\\\n\nJ=b'),
    *gives(lined(b'[A]', b'K=a b'), b'[A]\nK=a\\\n#x\\\nb'),
    *gives(lined(b'[A]', b'K=a=b'), b'[A]\n K = a=b '),
    *gives(EXAMPLE_NORMAL, NORMAL, NORMAL[:-1], b'\n' + NORMAL, NORMAL + b'\n#', EXAMPLE_NORMAL, EXAMPLE_NORMAL[:-1]),
    *gives(MAN_PAGE_NORMAL, EXAMPLE, EXAMPLE[:-1], MAN_PAGE_NORMAL),
    # without the space behind `tail\` the next line is swallowed
    *gives(lined(b'[Cell]', b'Note=tail [Link]', b'Wait=1'), b'[Cell]\nNote=tail\\\n[Link]\nWait=1\n'),
    *gives(lined(b'[Cell]', b'Note=tail\\ ', b'[Link]', b'Wait=1'), b'[Cell]\nNote=tail\\ \n[Link]\nWait=1\n'),
    # files after each other
    *gives(lined(b'[Cell]', b'Serial=A 17    rev 2', b'Zero=', b'Note=tail\\ ', b'Serial=A 17    rev 2', b'Zero=',
                 b'Note=tail\\ ', b'[Link]', b'Wait=2min 200ms', b'Wait=2min 200ms'),
           NORMAL * 2, EXAMPLE_NORMAL * 2, NORMAL + EXAMPLE_NORMAL, EXAMPLE_NORMAL + NORMAL),
]


# ---- sections

SECTIONS = [
    # nothing to write
    *gives(b'', b'\n', b'\n\n', b' ', b'\t', b' \t\n', b'  \n\t\n \n', b'#', b';', b'#x\n;y\n', b'#[A]\n;K=1',
           b'#a\\\n;b\\', b'#\n\n;\n \n', b'\\', b'\\\n', b'\\\n\\\n', b' \\\n\t\\\n#x\n'),
    # no entry in a section
    *gives(lined(b'[A]'), b'[A]', b'[A]\n', b' [A]\t', b'#x\n\n[A]\n\n', b'[A]\n[A]', b'[A]\n \n[A]\n\t\n[A]\n',
           b'[A]\\\n', b'[A]\n\\\n', b'[A]\n#K=1'),
    *gives(lined(b'[A]', b'[B]'), b'[A]\n[B]', b'[A]\n[B]\n[A]', b'[A]\n[B]\n[A]\n[B]\n', b'[A]\n\n[B]\n\n'),
    *gives(lined(b'[B]', b'[A]'), b'[B]\n[A]', b'[B]\n[A]\n[B]', b'[B]\n[B]\n[A]\n[A]'),
    *gives(lined(b'[A]', b'[B]', b'K=1'), b'[A]\n[B]\nK=1', b'[A]\n[B]\n[A]\n[B]\nK=1', b'[A]\n[B]\nK=1\n[A]'),
    *gives(lined(b'[A]', b'K=1', b'[B]'), b'[A]\nK=1\n[B]', b'[A]\n[B]\n[A]\nK=1', b'[A]\nK=1\n[B]\n[A]\n[B]\n'),
    *gives(lined(b'[A]', b'[B]', b'[C]', b'K=1'), b'[A]\n[B]\n[C]\nK=1\n[B]\n[A]\n'),
    *gives(lined(b'[A]', b'[B]', b'K=1', b'[C]'), b'[A]\n[B]\n[C]\n[B]\nK=1'),
    # a section that comes back
    *gives(lined(b'[A]', b'K=1', b'J=2'), b'[A]\nK=1\n[A]\nJ=2', b'[A]\n[A]\nK=1\nJ=2\n[A]',
           b'[A]\nK=1\n[A]\n[A]\nJ=2\n'),
    *gives(lined(b'[A]', b'K=1', b'K=3', b'[B]', b'K=2'), b'[A]\nK=1\n[B]\nK=2\n[A]\nK=3'),
    *gives(lined(b'[B]', b'K=1', b'K=3', b'[A]', b'K=2', b'K=4'), b'[B]\nK=1\n[A]\nK=2\n[B]\nK=3\n[A]\nK=4'),
    *gives(lined(b'[A]', b'L=2', b'[B]', b'K=1', b'[C]'), b'[A]\n[B]\n[C]\n[B]\nK=1\n[A]\nL=2'),
    *gives(lined(b'[C]', b'c=1', b'c=4', b'[B]', b'b=2', b'b=6', b'[A]', b'a=3', b'a=5'),
           b'[C]\nc=1\n[B]\nb=2\n[A]\na=3\n[C]\nc=4\n[A]\na=5\n[B]\nb=6',
           b'[C]\n[B]\n[A]\na=3\na=5\n[B]\nb=2\nb=6\n[C]\nc=1\nc=4'),
    *gives(lined(b'[A]', b'K=1', b'N=4', b'[B]', b'M=3', b'[C]', b'L=2', b'O=5'),
           b'[A]\nK=1\n[B]\n[C]\nL=2\n[B]\nM=3\n[A]\nN=4\n[C]\nO=5'),
    *gives(lined(b'[A]', b'a=1', b'a=3', b'a=5', b'a=7', b'[B]', b'b=2', b'b=4', b'b=6', b'b=8'),
           b'[A]\na=1\n[B]\nb=2\n[A]\na=3\n[B]\nb=4\n[A]\na=5\n[B]\nb=6\n[A]\na=7\n[B]\nb=8'),
    # one that comes back empty
    *gives(lined(b'[A]', b'K=1', b'[B]', b'J=2'), b'[A]\nK=1\n[B]\nJ=2\n[A]', b'[A]\nK=1\n[B]\n[A]\n[B]\nJ=2',
           b'[A]\nK=1\n[B]\nJ=2\n[A]\n#x\n[B]\n\n'),
    # names
    *gives(lined(b'[A]', b'K=1', b'K=5', b'[ A ]', b'K=2', b'[a]', b'K=3', b'[AA]', b'K=4'),
           b'[A]\nK=1\n[ A ]\nK=2\n[a]\nK=3\n[AA]\nK=4\n[A]\nK=5'),
    *gives(lined(b'[ ]', b'[  ]', b'[A  B]'), b'[ ]\n[  ]\n[A  B]', b' [ ] \n\t[  ]\t\n[A  B]'),
    *gives(lined(b'[#x]', b'[;]', b'[a=b]', b'K=1', b'[=]'), b'[#x]\n[;]\n[a=b]\n[=]\n[a=b]\nK=1'),
    *gives(lined(b'[A\\]', b'K=1', b'[A\\\\]', b'K=2', b'[\\]', b'K=3'), b'[A\\]\nK=1\n[A\\\\]\nK=2\n[\\]\nK=3'),
    *gives(lined(b'["A"]', b"['A']", b'[~]', b'[!]', b'[<]', b'[{}]'), b'["A"]\n[\'A\']\n[~]\n[!]\n[<]\n[{}]'),
    *gives(lined(b'[A B]', b'K=1'), b'[A B]\nK=1', b'[A\\\nB]\nK=1', b'[A\\\n#x\n;y\\\nB]\nK=1',
           b'\\\n[A\\\nB]\\\n\nK=1'),
    *gives(lined(b'[A]', b'K=B', b'[B]', b'[K]', b'[KB]'), b'[A]\nK=B\n[B]\n[K]\n[KB]'),
]


# ---- entries

ENTRIES = [
    # blanks go, but those inside a value
    *in_a([b'K=1'], b'K=1', b'K=1\n', b'K =1', b'K= 1', b'K = 1', b'\tK\t=\t1\t', b' \tK \t = \t 1\t \n',
          b'\n\nK=1\n\n', b'#\nK=1\n;'),
    *in_a([b'K=a  b\t c'], b'K=a  b\t c', b'K=  a  b\t c  '),
    *in_a([b'K='], b'K=', b' K = ', b'K=\n', b'K\t=\t\n', b'K=\\\n', b'K=\\\n\\\n \n', b'K\\\n=\\'),
    # the same key again: nothing is reset or merged
    *in_a([b'K=1', b'K=1'], b'K=1\nK=1', b'K=1\n[A]\nK=1'),
    *in_a([b'K=1', b'K=', b'K=2', b'K=1'], b'K=1\nK=\nK=2\nK=1', b'K=1\nK=\n[A]\n[A]\nK=2\n\nK=1\n'),
    *gives(lined(b'[A]', b'K=1', b'K=1', b'[B]', b'K=1'), b'[A]\nK=1\n[B]\nK=1\n[A]\nK=1'),
    *in_a([b'KK=1', b'K=K1', b'K1='], b'KK=1\nK=K1\nK1='),
    # several =
    *in_a([b'K=='], b'K==', b'K= = '),
    *in_a([b'K== ='], b'K== =', b'K = = ='),
    *in_a([b'K=a=b=c'], b'K=a=b=c', b'K =a=b=c', b'K= a=b=c'),
    *in_a([b'K=a = b'], b'K = a = b', b'K=a\\\n=\\\nb'),
    *in_a([b'K==a'], b'K==a', b'K= =a', b'K=\\\n=a'),
    # what stands in a value is data
    *in_a([b'K=[B]', b'J=#x', b'I=a;b #c', b'H=;'], b'K=[B]\nJ=#x\nI=a;b #c\nH=;'),
    *in_a([b'K="a b" \'c\' \\x41', b'J=<5d>]'], b'K="a b" \'c\' \\x41\nJ=<5d>]'),
    # keys
    *in_a([b'-=1', b'_=2', b'.=3', b'0=4', b'-._9azAZ=5'], b'-=1\n_=2\n.=3\n0=4\n-._9azAZ=5'),
    # UTF-8
    *in_a(['K=é…\U0001f600 ü'.encode(), b'J=\xc2\xa0', b'I=\xef\xbb\xbf'],
          'K=é…\U0001f600 ü\nJ=\u00a0\nI=\ufeff\n'.encode(), 'K = é…\U0001f600 ü \nJ=\u00a0\t\nI= \ufeff'.encode()),
    *in_a([b'K=\xc2\x80\xf4\x8f\xbf\xbf\xe0\xa0\x80'], b'K=\xc2\x80\xf4\x8f\xbf\xbf\xe0\xa0\x80'),
    *in_a(['K=é ü'.encode()], 'K=é\\\nü'.encode()),
    *in_a(['K=é\\ '.encode()], 'K=é\\ \n'.encode(), 'K=é\\\t'.encode()),
    # joined lines
    *in_a([b'K=a b'], b'K=a\\\nb', b'K=a\\\nb\n', b'K\\\n=a\\\nb\\\n', b'\\\nK=a\\\nb\\\n\n'),
    *in_a([b'K=a  b'], b'K=a\\\n b', b'K=a \\\nb', b'K=a\\\n\\\nb'),
    *in_a([b'K=a \tb'], b'K=a\\\n\tb'),
    *in_a([b'K=a [B]', b'J=1'], b'K=a\\\n[B]\nJ=1'),
    *in_a([b'K=a J=1'], b'K=a\\\nJ=1'),
    *in_a([b'K=a', b'J=1'], b'K=a\\\n\nJ=1', b'K=a\\\n \t\nJ=1', b'K=a\\\n#x\n\nJ=1'),
    # comments in joined lines
    *in_a([b'K=a b c'], b'K=a\\\n#1\\\nb\\\n;2\n;3\nc', b'#0\nK=a\\\nb\\\nc\n#4',
          b'K=a\\\n#\n;\\\n#\nb\\\n#\\\nc\\\n;\n'),
    *in_a([b'K=a  #b'], b'K=a\\\n #b'),
    *in_a([b'K=1', b'J=2'], b'K=1\n#x\\\nJ=2', b'K=1\\\n#x\n\nJ=2\\\n;', b'K=\\\n#\n;\n1\nJ=2\\\n;\n#'),
]


# ---- values that end in backslashes

BACKSLASHES = [
    # one, with blanks behind it: it stays, and gets one space
    *in_a([b'K=a\\ '], b'K=a\\ ', b'K=a\\ \n', b'K=a\\\t', b'K=a\\\t\n', b'K=a\\  \n', b'K=a\\ \t ', b'K= a\\ \n\n'),
    # none behind it: it joins
    *in_a([b'K=a'], b'K=a\\', b'K=a\\\n', b'K=a\\\n#x', b'K=a\\\n\n', b'K=a\\\n\\\n', b'K=a\\\n \t\n', b'K=a \\\n'),
    *in_a([b'K=a b'], b'K=a\\\nb'),
    # two: data, and no space
    *in_a([b'K=a\\\\'], b'K=a\\\\', b'K=a\\\\\n', b'K=a\\\\ ', b'K=a\\\\ \n', b'K=a\\\\\t\n', b'K=a\\\\  \t',
          b'K= a\\\\ \n\n'),
    # three
    *in_a([b'K=a\\\\\\ '], b'K=a\\\\\\ ', b'K=a\\\\\\ \n', b'K=a\\\\\\\t', b'K=a\\\\\\\t \n'),
    *in_a([b'K=a\\\\'], b'K=a\\\\\\', b'K=a\\\\\\\n', b'K=a\\\\\\\n#x\n', b'K=a\\\\\\\n\n'),
    *in_a([b'K=a\\\\ b'], b'K=a\\\\\\\nb'),
    # four and five
    *in_a([b'K=a\\\\\\\\'], b'K=a\\\\\\\\', b'K=a\\\\\\\\\n', b'K=a\\\\\\\\ \n', b'K=a\\\\\\\\\\', b'K=a\\\\\\\\\\\n'),
    *in_a([b'K=a\\\\\\\\\\ '], b'K=a\\\\\\\\\\ ', b'K=a\\\\\\\\\\\t\n'),
    # nothing else in the value
    *in_a([b'K=\\ '], b'K=\\ ', b'K=\\\t\n', b'K = \\ \n'),
    *in_a([b'K=\\\\'], b'K=\\\\', b'K=\\\\\n', b'K= \\\\ \n', b'K=\\\\\\', b'K=\\\\\\\n'),
    *in_a([b'K=\\\\\\ '], b'K=\\\\\\ ', b'K= \\\\\\\t\n'),
    # in the last of joined lines
    *in_a([b'K=a \\ '], b'K=a\\\n\\ ', b'K=a\\\n\\ \n', b'K=a\\\n\\\t\n', b'K=a \\ \n', b'K=a\\\n#x\n\\ \n',
          b'K=a\\\n;\\\n\\ '),
    *in_a([b'K=a \\\\'], b'K=a\\\n\\\\', b'K=a\\\n\\\\\n', b'K=a\\\n\\\\ \n', b'K=a\\\n\\\\\\\n', b'K=a\\\n#\n\\\\\\'),
    *in_a([b'K=a \\\\\\ '], b'K=a\\\n\\\\\\ ', b'K=a\\\n\\\\\\ \n', b'K=a\\\n#\\\n\\\\\\\t\n'),
    *in_a([b'K=a b\\ '], b'K=a\\\nb\\ \n', b'K=a\\\nb\\\t'),
    # a blank and a backslash that joins behind the run
    *in_a([b'K=a\\ '], b'K=a\\ \\', b'K=a\\ \\\n', b'K=a\\ \\\n\n', b'K=a\\ \\\n \t\n', b'K=a\\ \\\n#x\n',
          b'K=a\\\t\\\n\\\n'),
    *in_a([b'K=a\\\\'], b'K=a\\\\ \\', b'K=a\\\\ \\\n', b'K=a\\\\ \\\n\n', b'K=a\\\\\t\\\n;x'),
    *in_a([b'K=a\\\\\\ '], b'K=a\\\\\\ \\', b'K=a\\\\\\ \\\n', b'K=a\\\\\\ \\\n\n', b'K=a\\\\\\\t\\\n#x\n'),
    *in_a([b'K=a\\  b'], b'K=a\\ \\\nb'),
    # inside a value
    *in_a([b'K=\\a', b'J=\\\\\\b', b'I=a\\ b'], b'K=\\a\nJ=\\\\\\b\nI=a\\ b'),
    *in_a([b'K=\\a\\ '], b'K=\\a\\ \n'),
    *in_a([b'K=\\a\\\\'], b'K=\\a\\\\ \n'),
    *in_a([b'K=\\ \\ '], b'K=\\ \\ \n'),
    # other lines behind it
    *gives(lined(b'[A]', b'K=tail\\ ', b'J=1', b'[B]', b'L=2'), b'[A]\nK=tail\\ \nJ=1\n[B]\nL=2'),
    *gives(lined(b'[A]', b'K=1\\ ', b'K=3\\\\', b'K=5\\\\\\ ', b'[B]', b'K=2\\ ', b'K=4'),
           b'[A]\nK=1\\\t\n[B]\nK=2\\ \n[A]\nK=3\\\\ \n[B]\nK=4\\\n\n[A]\nK=5\\\\\\ '),
    *gives(lined(b'[A]', b'K=\\ ', b'K=\\ ', b'[\\]', b'K=\\ '), b'[A]\nK=\\ \n[\\]\nK=\\ \n[A]\nK=\\ \n'),
]

# nearly all of them
ACCEPTED = BENCH + SECTIONS + ENTRIES + BACKSLASHES


# ---- refusals

REFUSED = [
    *refused(2, 0, b'a' * 65535, b'\n' * 65536, b'\xff' * 65536, b'#' * 100000, A + b'K=1\n' + b'#' * 65527),
    *refused(3, 1, b'\xff', b'#\x80\n', b'[\xc3]'),
    *refused(3, 3, A + b'K=1\nJ=\xe2\x82\n', b'\x01\n[\n\xff', A + b'K=1\n;\xed\xa0\x80'),
    *refused(4, 1, b'\x00', b'[A]\r\n', b'#\x7f'),
    *refused(4, 3, A + b'K=1\nJ=\x1f', b'K\n[\n\x01', A + b'K=1\n#\x0b\n'),
    *refused(5, 1, b'a' * 4097, b' ' * 4097, b'[' * 4097),
    *refused(5, 3, A + b'K=1\n' + b'b' * 4097, A + b'K=1\nJ=\\\n' + b'b' * 4094),
    *refused(6, 1, b'[', b'[]', b'[A', b'[A]x', b'[\t]', '[é]'.encode(), b'[[A]]', b'[A]\\ ', b'[A]\\\nK=1'),
    *refused(6, 3, A + b'K=1\n[B', A + b'K=1\n[A]]\nK=2', A + b'K=1\n[\\\nB'),
    *refused(7, 1, b'K', b'\\\\', b' #x', b'A]'),
    *refused(7, 3, A + b'K=1\nJ', A + b'K=1\nJ\\\n\n=1', A + b'K=1\n\\ \nL=1'),
    *refused(8, 1, b'=1', b'K J=1', 'é=1'.encode(), b'\xef\xbb\xbfK=1'),
    *refused(8, 3, A + b'K=1\n=', A + b'K=1\nK\\\nJ=1', A + b'K=1\n"J"=1'),
    *refused(9, 1, b'K=', b'K=1\n[A]', b'K\\\n=\\\n1'),
    *refused(9, 3, b'#\n\nK=1', b'#[A]\n \nK=1\n[A]\nK=1'),
    *refused(10, 65, headers(65), SIXTY_FOUR + b'[A]\nK=1'),
    *refused(10, 514, FULL + b'K='),
    # the first faulty line
    *refused(7, 2, A + b'K\n=1', A + b'K\n[', A + b'K\n' + b'a' * 4097),
    *refused(8, 2, A + b'=\nK\n[B]'),
    *refused(6, 2, A + b'[\nK=1'),
    # a fault in the last line: nothing of the lines before it is left
    *refused(7, 11, NORMAL + b'tail'),
    *refused(6, 11, NORMAL + b'[Link]]'),
    *refused(3, 11, NORMAL + b'\xc3'),
]


# ---- buffers

SHORT = [(65534, 128, 2560, 65535), (65535, 127, 2560, 65535), (65535, 128, 2559, 65535), (65535, 128, 2560, 65534)]
LONGER = [(65536, 128, 2560, 65535), (65535, 129, 2560, 65535), (65535, 128, 2561, 65535), (65535, 128, 2560, 65536),
          (65600, 140, 2600, 65600), (65535, 140, 2560, 65600)]
FAULTY = [b'K=1', b'[', b'K', b'=1', b'\x01', b'\xff', b'a' * 4097, b'a' * 65535, headers(65), FULL + b'K=1']

BUFFERS = [
    # 1, before everything
    *[Case((1, 0), file, *sizes) for file in (b'', A + b'K=1', NORMAL, b'K') for sizes in SHORT],
    *[Case((1, 0), A + b'K=1', *sizes) for sizes in (
        (0, 128, 2560, 65535), (65535, 0, 2560, 65535), (65535, 128, 0, 65535), (65535, 128, 2560, 0), (0, 0, 0, 0),
        (65534, 127, 2559, 65534), (65600, 140, 2600, 65534), (65600, 140, 2559, 65600), (65600, 127, 2600, 65600),
        (65534, 140, 2600, 65600), (65535, 128, 2560, 8), (65535, 128, 2560, 9))],
    *[Case((1, 0), file, *sizes) for file, sizes in zip(FAULTY, SHORT[3:] + SHORT * 3)],
    *[Case((1, 0), file, 65535, 128, 2560, 65534) for file in FAULTY],
    # longer ones
    *[Case(EXAMPLE_NORMAL, NORMAL, *sizes) for sizes in LONGER],
    *[Case(b'', b'', *sizes) for sizes in LONGER],
    *[Case((7, 11), NORMAL + b'tail', *sizes) for sizes in LONGER],
    *[Case(answer, file, 65600, 140, 2600, 65600) for answer, file in (
        ((9, 1), b'K=1'), ((6, 1), b'['), ((7, 1), b'K'), ((8, 1), b'=1'), ((4, 1), b'\x01'), ((3, 1), b'\xff'),
        ((5, 1), b'a' * 4097), ((2, 0), b'a' * 65535), ((10, 65), headers(65)), ((10, 514), FULL + b'K=1'))],
]


# ---- generated files

PIECES = [b'[A]\n', b'[b]\n', b'[A]\n', b'[ A]\n', b'A=1', b'b= 2', b'c.1 = ', b'\\', b'\\', b'\\\\', b' ', b'\t',
          b'\n', b'\n', b'\n', b'\\\n', b'\n#b\\\n', b'\n;\n', b'1', b'=', 'é'.encode()]
LINES = [b'[A]\n', b'[b]\n', b'[A]\n', b'[C]\n', b'[b\\]\n', b'A=1\n', b' b = 1 1 \n', b'A=\\\n', b'c.1=[A]\\\n',
         b'#A\n', b';\\\n', b'\n', b' \\\n', b'A=\\\\\n', b'1==\n', b'A=b\\\n #\n', b'\t1=A\\ \n', b'b=b\\\\\\\t\n',
         b'A=x\\ \\\n\n', b'b=\\\\ \n', b'A=\\ \n', b'C=\n']


def generated():
    source = Generator(3003)
    files = [A + source.text(12, PIECES) for _ in range(160)]
    files += [A + source.text(14, LINES) for _ in range(200)]
    files += [b'[C]\n' + source.text(24, LINES) for _ in range(60)]
    return [Case(None, file) for file in dict.fromkeys(files)]


# ---- limits

def padded(size, sign=b'v', blank=b' '):
    """An entry of so many bytes, LF too, whose value ends in a backslash."""
    return b'K=' + sign * (size - 5) + b'\\' + blank + b'\n'


# 65,535 bytes: 15 lines of 4,096 bytes and one that fills up, each with a space behind its backslash.
WIDE_PADDED = A + padded(4097) * 15 + padded(4076)
assert len(WIDE_PADDED) == 65535
# The same of 512 entries.
MANY_PADDED = A + padded(128) * 511 + padded(123)
assert len(MANY_PADDED) == 65535


def numbered(number):
    """An entry whose value says which it is."""
    return b'K=%d\n' % number


# Eight times the 64 sections, each time with an entry in each.
ROUNDS = b''.join(headers(1, number % 64) + numbered(number) for number in range(512))
ROUNDS_NORMAL = b''.join(
    headers(1, first) + b''.join(numbered(first + 64 * turn) for turn in range(8)) for first in range(64))
# 64 sections, and then entries in them from the last to the first.
BACK = SIXTY_FOUR + b''.join(headers(1, number) + numbered(number) for number in reversed(range(64)))
BACK_NORMAL = b''.join(headers(1, number) + numbered(number) for number in range(64))

LINE_LIMITS = [
    # logical lines of 4,096 bytes
    *in_a([b'K=' + b'a' * 4094], b'K=' + b'a' * 4094, b'K=' + b'a' * 4094 + b'\n'),
    *in_a([b'a' * 4095 + b'='], b'a' * 4095 + b'='),
    *gives(lined(b'[' + b'a' * 4094 + b']', b'K=1'), b'[' + b'a' * 4094 + b']\nK=1'),
    *in_a([b'K=' + b'a' * 4093], b'K=' + b'a' * 4093 + b'\\\n', b'K=' + b'a' * 4093 + b'\\',
          b'K=' + b'a' * 4093 + b' '),
    *in_a([b'K=' + b'a' * 2000 + b' ' + b'b' * 2093], b'K=' + b'a' * 2000 + b'\\\n' + b'b' * 2093,
          b'K=' + b'a' * 2000 + b'\\\n' + b'#' * 5000 + b'\n' + b'b' * 2093),
    *in_a([b'K=1'], b'K=1' + b' ' * 4093, b' ' * 4093 + b'K=1', b'K' + b' ' * 4093 + b'=1', b'K=' + b'\t' * 4093 + b'1',
          b'#' * 5000 + b'\nK=1', b' ' * 4096 + b'\nK=1'),
    *in_a([b'K=' + 'é…'.encode() + b'a' * 4089], 'K=é…'.encode() + b'a' * 4089),
    # of 4,097
    *refused(5, 2, A + b'K=' + b'a' * 4095, A + b'K=' + b'a' * 4095 + b'\n', A + b'a' * 4096 + b'=', A + b' ' * 4097,
             b'\n[' + b'a' * 4095 + b']', A + b'K=1' + b' ' * 4094, A + b' ' * 4094 + b'K=1',
             A + b'K=' + b'a' * 4094 + b'\\\n', A + b'K=' + b'a' * 2000 + b'\\\n' + b'b' * 2094,
             A + b'K=' + b'a' * 4094 + b' ', A + 'K=é…'.encode() + b'a' * 4090),
    # the space behind an odd run of backslashes: the line has 4,096 bytes with it
    *in_a([b'K=' + b'a' * 4092 + b'\\ '], b'K=' + b'a' * 4092 + b'\\ ', b'K=' + b'a' * 4092 + b'\\\t\n',
          b'K=' + b'a' * 4092 + b'\\ \n'),
    *in_a([b'K=' + b'\\' * 4093 + b' '], b'K=' + b'\\' * 4093 + b' ', b'K=' + b'\\' * 4093 + b'\t\n'),
    *in_a([b'K=' + b'\\' * 4094], b'K=' + b'\\' * 4094, b'K=' + b'\\' * 4094 + b'\n'),
    *in_a([b'K=' + b'\\' * 4092], b'K=' + b'\\' * 4093, b'K=' + b'\\' * 4093 + b'\n', b'K=' + b'\\' * 4092 + b' \n'),
    *in_a([b'K=' + b'a' * 4091 + b'\\ '], b'K=' + b'a' * 4091 + b'\\ \\\n', b'K=' + b'a' * 4091 + b'\\\t\\\n#x\n'),
    *in_a([b'K=' + b'a' * 2000 + b' ' + b'b' * 2091 + b'\\ '], b'K=' + b'a' * 2000 + b'\\\n' + b'b' * 2091 + b'\\ \n'),
    *refused(5, 2, A + b'K=' + b'a' * 4093 + b'\\ ', A + b'K=' + b'a' * 4093 + b'\\\t\n',
             A + b'K=' + b'\\' * 4094 + b' \n', A + b'K=' + b'\\' * 4095, A + b'K=' + b'a' * 4092 + b'\\ \\\n'),
]

COUNT_LIMITS = [
    *gives(SIXTY_FOUR, SIXTY_FOUR, SIXTY_FOUR[:-1], SIXTY_FOUR * 2, SIXTY_FOUR + b'[s63]\n[s0]'),
    *gives(headers(63), headers(63)),
    *refused(10, 65, headers(65), SIXTY_FOUR + b'[A]', SIXTY_FOUR + b'[s64]\nK=1'),
    *refused(10, 66, SIXTY_FOUR + b'[s0]\n[A]', SIXTY_FOUR + b'K=1\n[A]\nK'),
    *gives(BACK_NORMAL, BACK, BACK_NORMAL),
    *gives(FULL, FULL[:-1] + b'\n[A]\n#K='),
    Case(FULL, FULL, 65536, 129, 2561, 65536),
    *gives(A + entries(511), A + entries(511)),
    *gives(FULL + b'[B]\n', A + entries(300) + b'[B]\n[A]\n' + entries(212)),
    *refused(10, 514, FULL + b'K=', FULL + b'J=1\n['),
    *refused(10, 515, FULL + b'[B]\nK=1', b'\n' + FULL + b'K=1'),
    *gives(ROUNDS_NORMAL, ROUNDS[:-1], ROUNDS_NORMAL),
    *refused(10, 1025, ROUNDS + b'[A]'),
    *refused(10, 1025, ROUNDS + b'K=1'),
    *refused(10, 1026, ROUNDS + b'[s0]\nK=1'),
]

FILE_LIMITS = [
    # 65,534 bytes without a last LF, and 65,535 with one
    *in_a([b'K=1'], b'#' * 65526 + b'\nK=1', b'#' * 65526 + b'\nK=1\n', b'K=1\n' + b'#' * 65526,
          b'K=1\n' + b'\n' * 65527, b'K=1\n' + b'#' * 65526 + b'\n'),
    # 65,535 without one, and 65,536
    *refused(2, 0, A + b'#' * 65527 + b'\nK=1', A + b'K=1\n' + b'#' * 65527, A + b'K=1\n' + b'\n' * 65528,
             A + b'#' * 65527 + b'\nK=1\n'),
    # the normal text has 65,535 bytes
    *gives(WIDE, WIDE, WIDE[:-1]),
    *gives(MANY, MANY[:-1]),
    *gives(SPREAD, SPREAD[:-1]),
    *gives(WIDE_PADDED, WIDE_PADDED, WIDE_PADDED[:-1], WIDE_PADDED[:-2] + b'\t',
           A + padded(4097, blank=b'\t') * 15 + padded(4076)),
    *gives(MANY_PADDED, MANY_PADDED[:-1]),
    *refused(2, 0, WIDE[:-1] + b'v', WIDE + b'\n', WIDE_PADDED[:-1] + b'\t', WIDE_PADDED + b'#', SPREAD + b'\n'),
    # and is shorter than the file
    *gives(WIDE[:-2] + b'\n', WIDE[:-2] + b'\n', WIDE[:-2], WIDE[:-2] + b' ', WIDE[:-2] + b'\\', WIDE[:-2] + b'\\\n',
           WIDE[:-2] + b'\t\n'),
    *gives(A + entry_of(4097) * 15 + entry_of(4072), A + entry_of(4097) * 15 + A + entry_of(4072),
           A * 2 + entry_of(4097) * 15 + entry_of(4072)),
    # a fault at the end of such a file
    *refused(3, 17, WIDE[:-2] + b'\xff'),
    *refused(4, 17, WIDE[:-2] + b'\x01'),
    *refused(7, 18, WIDE[:-3] + b'\nv'),
    *refused(10, 514, MANY[:-5] + b'\nK=1'),
    *refused(10, 577, SPREAD[:-5] + b'\n[A]'),
    # longer buffers, and shorter ones
    Case(WIDE, WIDE, 65536, 129, 2561, 65536),
    Case(WIDE, WIDE, 65535, 128, 2560, 65600),
    Case(WIDE_PADDED, WIDE_PADDED, 65600, 140, 2600, 65536),
    *[Case((1, 0), WIDE, *sizes) for sizes in SHORT],
]

LIMITS = LINE_LIMITS + COUNT_LIMITS + FILE_LIMITS


# ---- the inputs of `normal`

# Line 6 has no =.
REFUSED_FILE = b'# bench 3\n[Cell]\nSerial=  A 17 \\\n; old tag\n  rev 2\nZero\n[Link]\nWait=2min 200ms\n'
assert read(REFUSED_FILE) == (7, 6)

# Its first 65,535 bytes are a file that is accepted.
LONG_FILE = WIDE + b'\n\n'
assert len(LONG_FILE) == 65537 and read(LONG_FILE) == (2, 0) and normal_text(read(LONG_FILE[:65535])) == WIDE


# ---- what is printed, by hand

HAND = {
    b'normal [] 65535 128 2560 65535': b'''\
  0 bytes, 0 text bytes, 0 sections, 0 entries
  normal [] then a5, rest kept
  text [] then a5, rest kept
  sections then 99999, rest kept
  entries then 99999, rest kept
''',
    b'normal [K=1] 65535 128 2560 65535': b'  all kept, refused 9 at 1\n',
    b'normal [[A<5d><0a>K=1] 65535 128 2560 65534': b'  all kept, refused 1 at 0\n',
    b'normal [[A<5d><0a>K=a\\ ] 65535 128 2560 65535': b'''\
  10 bytes, 4 text bytes, 1 sections, 1 entries
  normal [[A<5d><0a>K=a\\ <0a>] then a5, rest kept
  text [AKa\\] then a5, rest kept
  sections 0 1 then 99999, rest kept
  entries 0 1 1 2 2 then 99999, rest kept
''',
    b'normal [[A<5d><0a>K=1<0a>[B<5d><0a>K=2<0a>[A<5d><0a>K=3] 65535 128 2560 65535': b'''\
  20 bytes, 8 text bytes, 2 sections, 3 entries
  normal [[A<5d><0a>K=1<0a>K=3<0a>[B<5d><0a>K=2<0a>] then a5, rest kept
  text [AK1BK2K3] then a5, rest kept
  sections 0 1 3 1 then 99999, rest kept
  entries 0 1 1 2 1 1 4 1 5 1 0 6 1 7 1 then 99999, rest kept
''',
    b'normal [%s] 65535 128 2560 65535' % shown(NORMAL): b'''\
  69 bytes, 54 text bytes, 2 sections, 4 entries
  normal [[Cell<5d><0a>Serial=A 17    rev 2<0a>Zero=<0a>Note=tail\\ <0a>[Link<5d><0a>Wait=2min 200ms<0a>] then a5, \
rest kept
  text [CellSerialA 17    rev 2ZeroLinkWait2min 200msNotetail\\] then a5, rest kept
  sections 0 4 27 4 then 99999, rest kept
  entries 0 4 6 10 13 0 23 4 27 0 1 31 4 35 10 0 45 4 49 5 then 99999, rest kept
''',
    b'normal [[A<5d><0a>K=<61 x 4092>\\<09><0a>] 65535 128 2560 65535': b'''\
  4101 bytes, 4095 text bytes, 1 sections, 1 entries
  normal [[A<5d><0a>K=<61 x 4092>\\ <0a>] then a5, rest kept
  text [AK<61 x 4092>\\] then a5, rest kept
  sections 0 1 then 99999, rest kept
  entries 0 1 1 2 4093 then 99999, rest kept
''',
}

# The rules' own example, whole; a space (20) stands behind `tail\`.
HAND_NORMAL = b'''\
[Cell]
Serial=A 17    rev 2
Zero=
Note=tail\\\x20
[Link]
Wait=2min 200ms
'''


def program(name, cases, repeated):
    """The input and the output of a program of cases, some of them once more: nothing is left over from a call."""
    told = {case.line: case.told() for case in cases}
    for line in list(HAND):
        if line in told:
            assert told[line] == HAND.pop(line), line
    listed = [*told, *[case.line for case in repeated]]
    lines = b''.join(line + b'\n' for line in listed)
    assert len(lines) < 262144, len(lines)
    return {name + '/stdin': lines, name + '/stdout': b''.join(line + b'\n' + told[line] for line in listed)}


def outputs():
    assert normal_text(read(NORMAL)) == HAND_NORMAL
    listed = {
        'normal/stdin': NORMAL,
        'normal/stdout': HAND_NORMAL,
        'normal_refused/stdin': REFUSED_FILE,
        'normal_refused/stdout': b'refused 7 at 6\n',
        'normal_long/stdin': LONG_FILE,
        'normal_long/stdout': b'refused 2 at 0\n',
        **program('normal_cases', ACCEPTED + again(ACCEPTED) + REFUSED + BUFFERS + generated(), BENCH),
        **program('limits', LIMITS + again(LIMITS), FILE_LIMITS[:1]),
    }
    assert not HAND, HAND
    return listed
