"""The rules of document 01 for bytes and lines: the refusals of a whole file, and its logical lines.

Python's own strict decoder judges UTF-8.
"""
import re


def refusal(file):
    """The refusal 2, 3 or 4 of a whole file as (number, place), or None."""
    size = len(file) if not file or file.endswith(b'\n') else len(file) + 1
    if size > 65535:
        return 2, 0
    try:
        file.decode('utf-8')
    except UnicodeDecodeError as bad:
        return 3, 1 + file[:bad.start].count(b'\n')
    for offset, byte in enumerate(file):
        if byte == 0x7F or (byte < 0x20 and byte not in b'\t\n'):
            return 4, 1 + file[:offset].count(b'\n')
    return None


def is_continued(line):
    return (len(line) - len(line.rstrip(b'\\'))) % 2 == 1


def logical_lines(file, start=0, number=1):
    """The logical lines from an offset on: (first physical line, bytes, offset just past it)."""
    found, pending, end = [], None, start
    for line in re.findall(rb'[^\n]*\n|[^\n]+', file[start:]):
        end += len(line)
        text = line.removesuffix(b'\n')
        if not text.startswith((b'#', b';')):
            first, before = pending or (number, b'')
            if is_continued(text):
                pending = first, before + text[:-1] + b' '
            else:
                found.append((first, before + text, end))
                pending = None
        number += 1
    if pending:
        found.append((*pending, len(file)))
    return found


# ---- the man page's example

EXAMPLE = '''\
[Section A]
KeyOne=value 1
KeyTwo=value 2

# a comment

[Section B]
Setting="something" "some thing" "…"
KeyTwo=value 2 \\
       value 2 continued

[Section C]
KeyThree=value 3\\
# this line is ignored
; this line is ignored too
       value 3 continued
'''.encode()
