"""The cases that the program `item_cases` reads, and what it is to print.

This follows the part "Items" of document 01 and its refusals 1 and 20 to 28: regular expressions find the items of
a text, and the writer joins the written items. It is no translation of the Rattle code. Each case stands beside its
answer as it was worked out by hand, and the two are held to each other.
"""
import re

from notation import shown


# ---- the rules: splitting

LETTERS = {b'a': b'\x07', b'b': b'\x08', b'f': b'\x0c', b'n': b'\x0a', b'r': b'\x0d', b't': b'\x09', b'v': b'\x0b',
           b'\\': b'\\', b'"': b'"', b"'": b"'", b's': b' '}
ESCAPE = rb'\\(?:[abfnrtv\\"\'s]|x[0-9A-Fa-f]{2}|[0-7]{3}|u[0-9A-Fa-f]{4}|U[0-9A-Fa-f]{8})'
# Behind the opening quote, if there is one: all that can belong to the item.
INSIDE = {b'"': rb'(?:%s|[^"\\])*' % ESCAPE, b"'": rb"(?:%s|[^'\\])*" % ESCAPE, b'': rb'(?:%s|[^ \t"\'\\])*' % ESCAPE}


class Refused(Exception):
    """A refusal: its number and its place."""


def meant(escape, at):
    """The bytes of an escape that has one of the forms."""
    kind, digits = escape[1:2], escape[2:]
    if kind in LETTERS:
        return LETTERS[kind]
    number = int(digits, 16) if kind in b'xuU' else int(escape[1:], 8)
    if number == 0 or 0xd800 <= number <= 0xdfff or number > (0x10ffff if kind in b'uU' else 0xff):
        raise Refused(25, at)
    return chr(number).encode() if kind in b'uU' else bytes([number])


def item_at(text, start):
    """The item that begins at an offset, and the offset behind it."""
    quote = text[start:start + 1] if text[start] in b'"\'' else b''
    first = start + len(quote)
    end = re.compile(INSIDE[quote]).match(text, first).end()
    inside = re.compile(ESCAPE).sub(lambda found: meant(found[0], first + found.start()), text[first:end])
    stop = text[end:end + 1]
    if stop == b'\\':
        raise Refused(24, end)
    if not quote:
        if stop in (b'"', b"'"):
            raise Refused(22, end)
        return inside, end
    if not stop:
        raise Refused(23, start)
    if text[end + 1:end + 2] not in (b'', b' ', b'\t'):
        raise Refused(22, end + 1)
    return inside, end + 1


def split(text, size, count):
    """The items of a text, for buffers of `size` bytes and `count` ends."""
    if size < 4096 or count < 256:
        raise Refused(1, 0)
    if len(text) > 4096:
        raise Refused(20, 0)
    if control := re.search(rb'[\x00-\x08\x0a-\x1f\x7f]', text):
        raise Refused(21, control.start())
    items, at = [], 0
    while found := re.compile(rb'[^ \t]').search(text, at):
        if len(items) == 256:
            raise Refused(26, found.start())
        item, at = item_at(text, found.start())
        items.append(item)
    return items


# ---- the rules: writing

def written(item):
    if re.fullmatch(rb'[A-Za-z0-9\-_./:@%,+]+', item):
        return item
    escapes = {ord(meaning): b'\\' + letter for letter, meaning in LETTERS.items() if letter not in b"'s"}
    return b'"%s"' % b''.join(escapes.get(byte, b'%c' % byte if 0x20 <= byte <= 0x7e else b'\\x%02x' % byte)
                              for byte in item)


def write(data, ends, size):
    """The text of the items, for a buffer of `size` bytes."""
    if size < 4096:
        raise Refused(1, 0)
    if len(ends) > 256:
        raise Refused(26, 0)
    starts = [0, *ends][:len(ends)]
    if any(not start <= end <= len(data) for start, end in zip(starts, ends)):
        raise Refused(28, 0)
    items = [data[start:end] for start, end in zip(starts, ends)]
    if any(0 in item for item in items):
        raise Refused(27, 0)
    text = b' '.join(map(written, items))
    if len(text) > 4096:
        raise Refused(20, 0)
    return text


# ---- cases

class SplitCase:
    """A text, the answer by hand (the items, or a refusal's number and place), and the lengths of the buffers."""

    def __init__(self, answer, text, size=4096, count=256):
        self.answer, self.call = answer, (text, size, count)
        self.line = b'split %d %d [%s]' % (size, count, shown(text))

    def told(self):
        items = split(*self.call)
        assert items == self.answer, self.line
        data = b''.join(items)
        ends = [sum(map(len, items[:n + 1])) for n in range(len(items))]
        return b'rest kept, %d items, %d bytes: %s[%s]' % (
            len(items), len(data), b''.join(b'%d ' % end for end in ends), shown(data))


class WriteCase:
    """Bytes and ends, the answer by hand (the text, or a refusal's number and place), and the buffer's length."""

    def __init__(self, answer, data, ends, size=4096):
        self.answer, self.call = answer, (data, ends, size)
        self.line = b'write %d [%s]%s' % (size, shown(data), b''.join(b' %d' % end for end in ends))

    def told(self):
        text = write(*self.call)
        assert text == self.answer, self.line
        data, ends, _ = self.call
        assert split(text, 4096, 256) == [data[start:end] for start, end in zip([0, *ends], ends)]
        return b'rest kept, %d bytes: [%s], split again the same' % (len(text), shown(text))


def into(items, *texts):
    """Texts that are all split into these items."""
    return [SplitCase(items, text) for text in texts]


def refused(number, place, *texts):
    return [SplitCase((number, place), text) for text in texts]


# ---- splitting: items, blanks and quotes

LISTS = [
    # bench
    *into([b'a b', b'c', b''], b'"a b" c ""'),
    *refused(22, 1, b'a"b'),
    *refused(22, 3, b'"a"b'),
    *into([b'AB\xc3\xa9'], rb'\x41\102\u00e9'),
    *refused(25, 0, rb'\400'),
    *refused(24, 0, rb'\x4'),
    # blanks
    *into([], b'', b' ', b'\t', b'  \t \t'),
    *into([b'a'], b'a', b' a', b'a ', b'\ta\t', b'  a\t \t'),
    *into([b'a', b'b', b'cd'], b'a b cd', b'a\tb\tcd', b' \ta  b \t cd\t', b'a "b" \'cd\'', b'\t"a"\tb\t\'cd\'\t'),
    *into([b'a b', b'c\td'], b'"a b" "c\td"', b"'a b' 'c\td'"),
    # quotes
    *into([b''], b'""', b"''", b' "" ', b"\t''\t"),
    *into([b'', b''], b'"" ""', b"'' ''", b'""\t\'\''),
    *into([b"a'b"], b'"a\'b"', rb"a\'b", rb'"a\'b"', rb"'a\'b'", rb'a\x27b'),
    *into([b'a"b'], b"'a\"b'", rb'a\"b', rb'"a\"b"', rb"'a\"b'", rb'a\042b'),
    *into([b'"a'], rb'\"a', rb'\x22a'),
    *into([b"'a'"], rb"\'a\'", b'"\'a\'"'),
    *into([b'""', b"''"], b"'\"\"' \"''\""),
    *refused(22, 1, b"a'b", b'a"', b"a'", b'a""', b"a''", b'a"b" c'),
    *refused(22, 2, b'""a', b"''a", b'""""', b"''''", b'""\'\'', rb'\\"', rb"\s'"),
    *refused(22, 3, b'"a""b"', b'"a"\'b\'', b"'a'b", b"'a''", b'"a"\x80', b'a b"', b'a b"c'),
    *refused(22, 3, rb'"a"\s', rb'"a"\q', b'"a"\\'),
    *refused(23, 0, b'"', b"'", b'"a', b"'a", b'"a ', b'"a\'', b"'a\"", b'"a b c', rb'"a\"', rb"'a\'", rb'"\\\"'),
    *refused(23, 2, b'a "', b"a '", b'a "b', b"a 'b c", b'a "b\''),
    *refused(23, 3, b'"" \'', b"'' \"a"),
    # the first fault counts
    *refused(22, 1, rb'a"\q "', b"a' 'b", rb'a"\000'),
    *refused(24, 0, rb'\q"', rb'\q \000'),
    *refused(25, 0, rb'\000"', rb'\000 \q'),
    *refused(24, 2, rb'"a\q', rb"'a\q", rb'"a\x4', rb'"a\q" b"c'),
    *refused(25, 2, rb'"a\000', rb"'a\ud800", rb'a \000 "b'),
]


# ---- splitting: escapes

# Each with its bytes.
GOOD_ESCAPES = [
    (rb'\a', b'\x07'), (rb'\b', b'\x08'), (rb'\f', b'\x0c'), (rb'\n', b'\x0a'), (rb'\r', b'\x0d'), (rb'\t', b'\x09'),
    (rb'\v', b'\x0b'), (rb'\\', b'\x5c'), (rb'\"', b'\x22'), (rb"\'", b'\x27'), (rb'\s', b'\x20'),
    (rb'\x01', b'\x01'), (rb'\x20', b' '), (rb'\x5c', b'\x5c'), (rb'\x7f', b'\x7f'), (rb'\x80', b'\x80'),
    (rb'\xff', b'\xff'), (rb'\xFF', b'\xff'), (rb'\xfF', b'\xff'),
    (rb'\001', b'\x01'), (rb'\011', b'\t'), (rb'\040', b' '), (rb'\134', b'\x5c'), (rb'\177', b'\x7f'),
    (rb'\200', b'\x80'), (rb'\377', b'\xff'),
    (rb'\u0001', b'\x01'), (rb'\u007f', b'\x7f'), (rb'\u0080', b'\xc2\x80'), (rb'\u00ff', b'\xc3\xbf'),
    (rb'\u07ff', b'\xdf\xbf'), (rb'\u0800', b'\xe0\xa0\x80'), (rb'\ud7ff', b'\xed\x9f\xbf'),
    (rb'\ue000', b'\xee\x80\x80'), (rb'\uFEFF', b'\xef\xbb\xbf'), (rb'\uFFFF', b'\xef\xbf\xbf'),
    (rb'\U00000001', b'\x01'), (rb'\U0000007F', b'\x7f'), (rb'\U00000080', b'\xc2\x80'),
    (rb'\U000007ff', b'\xdf\xbf'), (rb'\U00000800', b'\xe0\xa0\x80'), (rb'\U0000D7FF', b'\xed\x9f\xbf'),
    (rb'\U0000e000', b'\xee\x80\x80'), (rb'\U0000ffff', b'\xef\xbf\xbf'), (rb'\U00010000', b'\xf0\x90\x80\x80'),
    (rb'\U0001F600', b'\xf0\x9f\x98\x80'), (rb'\U000fffff', b'\xf3\xbf\xbf\xbf'),
    (rb'\U00100000', b'\xf4\x80\x80\x80'), (rb'\U0010ffff', b'\xf4\x8f\xbf\xbf'), (rb'\U0010FFFF', b'\xf4\x8f\xbf\xbf'),
]

# The value is 0, too large, or no code point.
BAD_VALUES = [
    rb'\x00', rb'\000', rb'\u0000', rb'\U00000000', rb'\401', rb'\477', rb'\500', rb'\600', rb'\700', rb'\777',
    rb'\ud800', rb'\uDABC', rb'\udbff', rb'\udc00', rb'\udfff', rb'\U0000d800', rb'\U0000DFFF', rb'\U00110000',
    rb'\U00110041', rb'\U00200041', rb'\U00f00041', rb'\U01000041', rb'\U0f000041', rb'\U10000041', rb'\U80000041',
    rb'\Uf0000041', rb'\Uffffff41', rb'\UFFFFFFFF',
]

# Digits are missing.
SHORT_FORMS = [
    rb'\x', rb'\x0', rb'\x5', rb'\0', rb'\1', rb'\7', rb'\00', rb'\12', rb'\77',
    rb'\u', rb'\u0', rb'\u00', rb'\u004', rb'\ud80',
    rb'\U', rb'\U0', rb'\U00', rb'\U000', rb'\U0000', rb'\U00000', rb'\U000000', rb'\U0000004', rb'\U0011000',
]

# In the place of a digit stands something else.
BAD_DIGITS = [b'\\' + digits for digits in (
    b'8', b'9', b'08', b'80', b'128', b'182', b'812', b'009', b'1 2', b'12a', b'+12', b'-01', b'0x1', b'o12', b'x4g',
    b'xg4', b'x 4', b'x-1', b'x+1', b'x0x', b'X41', b'x/1', b'x:1', b'x@1', b'xG1', b'x`1', b'x\xb11',
    b'u004g', b'u00g1', b'u0g41', b'ug041', b'u+041', b'u-041', b'u 041', b'u{41}',
    b'U0000004g', b'Ug0000041', b'U000g0041', b'U+0000041', b'U0000 041', b'N{x}')]

# These and no others stand behind a backslash.
FIRST = b'abfnrtvsxuU01234567"\'\\'

HEX_DIGITS = [(b'%x' % value, value) for value in range(16)] + [(b'%X' % value, value) for value in range(10, 16)]


def everywhere(escape, meaning):
    """An escape bare and in both kinds of quotes, alone and among letters."""
    return [*into([meaning] * 3, b'%s "%s" \'%s\'' % (escape, escape, escape)),
            *into([b'a%sb' % meaning] * 3, b'a%sb "a%sb" \'a%sb\'' % (escape, escape, escape))]


def bad_everywhere(number, escape):
    return [*refused(number, 0, escape), *refused(number, 1, b'a%s' % escape, b'"%s"' % escape, b"'%s'" % escape)]


def cut_short(escape):
    """By the end, a blank, a quote, another escape, and a byte that is no digit; in quotes too."""
    return [*refused(24, 0, *[escape + tail for tail in (b'', b' 1', b'\t1', b'"', b"'", rb'\x41', b'z1', b'\xff')]),
            *refused(24, 1, *[b'"%s' % escape + tail for tail in (b'', b' "', b'"', b'z"')]),
            *refused(24, 1, *[b"'%s" % escape + tail for tail in (b'', b"'")])]


def hex_digit(digit, value):
    """A hex digit in each place; the other digits are those of 41."""
    one_byte = [(rb'\x4%s', 0x40 + value), (rb'\x%s1', 0x10 * value + 1)]
    points = [(rb'\u%s041', 0x1000 * value + 0x41), (rb'\u0%s41', 0x100 * value + 0x41),
              (rb'\u00%s1', 0x10 * value + 1), (rb'\u004%s', 0x40 + value),
              (rb'\U000%s0041', 0x10000 * value + 0x41), (rb'\U0000%s041', 0x1000 * value + 0x41),
              (rb'\U00000%s41', 0x100 * value + 0x41), (rb'\U000000%s1', 0x10 * value + 1),
              (rb'\U0000004%s', 0x40 + value)]
    return into([b'%c' % number for _, number in one_byte] + [chr(number).encode() for _, number in points],
                b' '.join(form % digit for form, _ in one_byte + points))


def octal_digit(value):
    first = rb'\%d02' % value
    return [*(into([b'%c' % (0o100 * value + 2)], first) if value < 4 else refused(25, 0, first)),
            *into([b'%c' % (0o10 * value + 0o101), b'%c' % (0o110 + value)], rb'\1%d1 \11%d' % (value, value))]


ESCAPES = [
    *sum([everywhere(*escape) for escape in GOOD_ESCAPES], []),
    *sum([hex_digit(*digit) for digit in HEX_DIGITS], []),
    *sum([octal_digit(value) for value in range(8)], []),
    *sum([bad_everywhere(25, escape) for escape in BAD_VALUES], []),
    *sum([cut_short(escape) for escape in SHORT_FORMS], []),
    *sum([[*refused(24, 0, escape), *refused(24, 1, b'"%s"' % escape)] for escape in BAD_DIGITS], []),
    # any other byte behind the backslash, and none
    *sum([refused(24, 0, b'\\%c0000041' % byte) for byte in range(0x20, 0x7f) if byte not in FIRST], []),
    *refused(24, 0, b'\\', b'\\ ', b'\\\t', b'\\\x80', b'\\\xff', '\\é'.encode()),
    *refused(24, 1, b'a\\', b'"\\', b"'\\", b' \\'),
    *refused(24, 2, b'"a\\', b"'a\\", b'a \\', rb'\\' + b'\\'),
    # what an escape gives is data
    *into([b'a b c\td'], rb'a\sb\x20c\td', rb'a\040b\u0020c\011d'),
    *into([b'"', b"'", b'\\n'], rb'\" \x27 \x5cn'),
    *into([b'A1', b'A1', b'A1', b'A1'], rb'\x411 \1011 \u00411 \U000000411'),
    *into([b'\x07\x08\x0c\x0a\x0d\x09\x0b\\"\' '], rb'\a\b\f\n\r\t\v\\\"' + rb"\'\s"),
]


# ---- splitting: bytes

CONTROL = [byte for byte in range(0x20) if byte != 0x09] + [0x7f]
BARE_PRINTED = [b'%c' % byte for byte in range(0x21, 0x7f) if byte not in b'"\'\\']
HIGH = [b'%c' % byte for byte in range(0x80, 0x100)]

BYTES = [
    *sum([refused(21, 1, b'a%cb' % byte, b'"%c"' % byte) for byte in CONTROL], []),
    # before and behind another fault
    *refused(21, 0, b'\x01a"b', b'\x00\\q', b'\x1f"', b'\x7f' + b'a ' * 257),
    *refused(21, 3, b'a"b\x01', b'"a"\x02', b'"ab\x03', b'\\q \x7f', b"'a\\\x1f", b'\\x4\x0a'),
    *refused(21, 4, b'\\400\x1f', b'\\000\x08'),
    *refused(21, 514, b'a ' * 257 + b'\x00'),
    *refused(21, 1, b'\\\x0a', b'a\x0d\x0a', b'a\x02b\x01'),
    # all others
    *into(BARE_PRINTED, b' '.join(BARE_PRINTED)),
    *into([b''.join(BARE_PRINTED)], b''.join(BARE_PRINTED), b'"%s"' % b''.join(BARE_PRINTED)),
    *into(HIGH, b' '.join(HIGH), b'\t'.join(b'"%s"' % byte for byte in HIGH)),
    *into([b''.join(HIGH)], b''.join(HIGH), b"'%s'" % b''.join(HIGH)),
    *into([b'a\xc2\xa0b', '…'.encode()], 'a\u00a0b "…"'.encode()),
]


# ---- splitting: limits

FULL = b'a' * 4096
LISTED = b'a ' * 256
MILLION = 1000000

LIMITS = [
    # 256 items
    *into([b'a'] * 256, LISTED, LISTED[:-1], LISTED + b'\t ', b' ' + LISTED, b'"a" ' * 256),
    *into([b''] * 256, b'"" ' * 256),
    *into([b'a' * 15] * 256, b'aaaaaaaaaaaaaaa ' * 256),
    *refused(26, 512, *[LISTED + tail for tail in (b'a', b'a b', b'""', b'"', b'a"b', b'"a"b', b"'a", rb'\q', rb'\000',
                                                   b'\\')]),
    *refused(26, 515, LISTED + b' \t a'),
    *refused(26, 768, b"'' " * 257),
    *refused(22, 511, LISTED[:-1] + b'" a'),
    *refused(22, 513, LISTED[:-2] + b'"a"b a'),
    *refused(24, 510, LISTED[:-2] + rb'\q a'),
    *refused(23, 510, LISTED[:-2] + b'"a a'),
    *refused(22, 1, b'a"b ' + LISTED),
    # 4,096 bytes
    *into([FULL], FULL),
    *into([FULL[2:]], b'"%s"' % FULL[2:], b"'%s'" % FULL[2:]),
    *into([b'A' * 1024], rb'\x41' * 1024),
    *into([b'\xff' * 4096], b'\xff' * 4096),
    *into([FULL[4:] + b'A'], FULL[4:] + rb'\x41'),
    *into([FULL[10:] + b'\xf4\x8f\xbf\xbf'], FULL[10:] + rb'\U0010ffff'),
    *into([], b' ' * 4096, b'\t' * 4096),
    *into([b'a'], b' ' * 4095 + b'a', b'a' + b' ' * 4095),
    *refused(20, 0, FULL + b'a', FULL + b' ', FULL + b'\x01', b'\x01' + FULL, FULL + b'"', b'"' + FULL, b'\\q' + FULL,
             b'"%s"' % FULL[1:], b' ' * 4097, b' ' * 4096 + b'a', b'a ' * 2049),
    *refused(21, 4095, FULL[1:] + b'\x01'),
    *refused(22, 4095, FULL[1:] + b'"', b'"%s"b' % FULL[3:]),
    *refused(23, 0, b'"' + FULL[1:]),
    *refused(24, 4095, FULL[1:] + b'\\'),
    *refused(24, 4093, FULL[3:] + rb'\x4'),
    *refused(25, 4092, FULL[4:] + rb'\000'),
    # a million bytes
    *refused(20, 0, b'a' * MILLION, b' ' * MILLION, b'\x00' * MILLION, b'"' * MILLION, b'\\' * MILLION),
    # buffers
    *[SplitCase((1, 0), text, size, count)
      for text in (b'a', b'', b'a"b', b'\x01')
      for size, count in ((4095, 256), (4096, 255), (4095, 255), (5000, 255), (4095, 300), (0, 256), (4096, 0))],
    *[SplitCase((1, 0), text, 4095, 255) for text in (FULL + b'a', LISTED + b'a', rb'\q', b'"', rb'\000')],
    *[SplitCase([b'a', b'b c'], b'a "b c"', size, count)
      for size, count in ((4096, 256), (4097, 256), (4096, 257), (4097, 257), (5000, 300))],
    SplitCase([FULL], FULL, 4097, 257),
    SplitCase([b'a'] * 256, LISTED, 4097, 257),
    SplitCase((26, 512), LISTED + b'a', 5000, 300),
    SplitCase((20, 0), FULL + b'a', 5000, 300),
    SplitCase((21, 0), b'\x01', 5000, 300),
    SplitCase((22, 1), b'a"b', 5000, 300),
]

SPLITS = LISTS + ESCAPES + BYTES + LIMITS


# ---- writing

def text_of(text, *items, size=4096):
    """Items, each ending where the next begins, and their text."""
    return [WriteCase(text, b''.join(items), [sum(map(len, items[:n + 1])) for n in range(len(items))], size)]


def unfit(number, data, *ends, size=4096):
    return [WriteCase((number, 0), data, list(ends), size)]


SIGNS = b'-_./:@%,+'
BARE_BYTES = b'ABCDEFGHIJKLMNOPQRSTUVWXYZabcdefghijklmnopqrstuvwxyz0123456789' + SIGNS
QUOTED_BYTES = b' !#$&\'()*;<=>?[]^`{|}~'
BACKSLASHED = {7: rb'\a', 8: rb'\b', 9: rb'\t', 10: rb'\n', 11: rb'\v', 12: rb'\f', 13: rb'\r', 34: rb'\"', 92: rb'\\'}
REST = [byte for byte in range(1, 256) if byte not in BARE_BYTES + QUOTED_BYTES and byte not in BACKSLASHED]
assert REST == [*range(1, 7), *range(14, 32), *range(127, 256)]
IN_QUOTES = {**{byte: b'%c' % byte for byte in BARE_BYTES + QUOTED_BYTES}, **BACKSLASHED,
             **{byte: b'\\x%02x' % byte for byte in REST}}
ONE_BYTE = {byte: text if byte in BARE_BYTES else b'"%s"' % text for byte, text in IN_QUOTES.items()}
ALL = [b'%c' % byte for byte in range(1, 256)]

ITEMS = [
    # empty lists and items
    *text_of(b''),
    *text_of(b'""', b''),
    *text_of(b'"" ""', b'', b''),
    *text_of(b'a "" b ""', b'a', b'', b'b', b''),
    *text_of(b' '.join([b'""'] * 256), *[b''] * 256),
    # each byte
    *sum([text_of(ONE_BYTE[byte], b'%c' % byte) for byte in range(1, 256)], []),
    *text_of(b' '.join(ONE_BYTE[byte] for byte in range(1, 256)), *ALL),
    *text_of(b'"%s"' % b''.join(IN_QUOTES[byte] for byte in range(1, 256)), b''.join(ALL)),
    # bare words
    *sum([text_of(word, word) for sign in SIGNS for word in (b'a%cb' % sign, b'%c%c' % (sign, sign))], []),
    *text_of(BARE_BYTES, BARE_BYTES),
    *text_of(b'/usr/bin/x "--level=3"', b'/usr/bin/x', b'--level=3'),
    *text_of(b'user@host.example:22 50% 1,5 a+b x_1', b'user@host.example:22', b'50%', b'1,5', b'a+b', b'x_1'),
    # quoted ones
    *text_of(b'"a b"', b'a b'),
    *text_of(b'" a" "a " " "', b' a', b'a ', b' '),
    *text_of(b'"it\'s" "say \\"x\\"" "C:\\\\x"', b"it's", b'say "x"', b'C:\\x'),
    *text_of(b'"\\"\\"" "\'\'"', b'""', b"''"),
    *text_of(b'"a\\tb\\n" "\\r\\n" "\\a\\b\\v\\f"', b'a\tb\n', b'\r\n', b'\x07\x08\x0b\x0c'),
    *text_of(b'"\\\\n" "\\\\\\\\" "\\\\x41"', b'\\n', b'\\\\', b'\\x41'),
    *text_of(b'"\\x1b[0m" "\\x7f" "\\xff\\xfe"', b'\x1b[0m', b'\x7f', b'\xff\xfe'),
    *text_of(b'"caf\\xc3\\xa9" "\\xe2\\x80\\xa6"', 'café'.encode(), '…'.encode()),
    *text_of(b'"\\x0101" "\\x01a"', b'\x0101', b'\x01a'),
    *text_of(b'"#a" ";" "$x" "[a]" "a=b" "~" "*"', b'#a', b';', b'$x', b'[a]', b'a=b', b'~', b'*'),
]

MOST = 18446744073709551615

ENDS = [
    # bytes past the last end
    WriteCase(b'a', b'abc', [1]),
    WriteCase(b'', b'abc', []),
    WriteCase(b'""', b'abc', [0]),
    WriteCase(b'a ""', b'ab', [1, 1]),
    WriteCase(b'"" "" ab ""', b'ab', [0, 0, 2, 2]),
    # ends that fall or pass the bytes
    *unfit(28, b'ab', 2, 1),
    *unfit(28, b'ab', 1, 0),
    *unfit(28, b'ab', 0, 2, 1, 2),
    *unfit(28, b'ab', 1, 2, 0),
    *unfit(28, b'ab', 3),
    *unfit(28, b'ab', 0, 3),
    *unfit(28, b'ab', 3, 2),
    *unfit(28, b'', 1),
    *unfit(28, b'ab', MOST),
    *unfit(28, b'ab', 1, MOST),
    *unfit(28, b'ab', MOST, 1),
    *unfit(28, b'ab', MOST, 0),
    *unfit(28, b'a' * 256, *range(1, 256), 254),
    *unfit(28, b'a' * 255, *range(1, 257)),
    # a NUL before and behind the last end
    *unfit(27, b'\x00', 1),
    *unfit(27, b'a\x00b', 2),
    *unfit(27, b'a\x00b', 3),
    *unfit(27, b'a\x00b', 1, 2),
    *unfit(27, b'a\x00b', 1, 1, 3),
    *unfit(27, b'\x00ab', 1, 2, 3),
    *unfit(27, b'a' * 4095 + b'\x00', 4096),
    WriteCase(b'a', b'a\x00b', [1]),
    WriteCase(b'a ""', b'a\x00', [1, 1]),
    WriteCase(b'""', b'\x00', [0]),
    WriteCase(b'', b'\x00', []),
    # 256 and 257 ends
    WriteCase(b' '.join([b'a'] * 256), b'a' * 256, list(range(1, 257))),
    WriteCase(b'a' + b' ""' * 255, b'a', [1] * 256),
    *unfit(26, b'a' * 257, *range(1, 258)),
    *unfit(26, b'', *[0] * 257),
    *unfit(26, b'a', *[1] * 300),
    # order
    *unfit(26, b'a', *range(257, 0, -1)),
    *unfit(26, b'a', *[MOST] * 257),
    *unfit(26, b'\x00', *[1] * 257),
    *unfit(26, b'a' * 5000, *[5000] * 257),
    *unfit(28, b'\x00a', 2, 1),
    *unfit(28, b'\x00', 2),
    *unfit(28, b'a' * 5000, 5000, 4999),
    *unfit(28, b'a' * 5000, 5000, 5001),
    *unfit(27, b'a' * 5000 + b'\x00', 5001),
    *unfit(27, b'\x00' + b'a' * 5000, 1, 5001),
]

ROOMS = [
    # texts of 4,096 bytes, of one more and of many more
    *text_of(FULL, FULL),
    *unfit(20, FULL + b'a', 4097),
    *text_of(b'"%s"' % (b' ' * 4094), b' ' * 4094),
    *unfit(20, b' ' * 4095, 4095),
    *text_of(b'"%s"' % (rb'\n' * 2047), b'\n' * 2047),
    *unfit(20, b'\n' * 2048, 2048),
    *unfit(20, b'\n' * 2047 + b' ', 2048),
    *text_of(b'"%s  "' % (rb'\x01' * 1023), b'\x01' * 1023 + b'  '),
    *unfit(20, b'\x01' * 1023 + b'   ', 1026),
    *unfit(20, b'\x01' * 1024, 1024),
    *unfit(20, b'\x01' * 4096, 4096),
    *unfit(20, b'\x01' * 4096, *range(16, 4097, 16)),
    *unfit(20, b'\x01' * 4097, 4097),
    *text_of(b'"%s"' % (b'\\\\' * 2047), b'\\' * 2047),
    *unfit(20, b'"' * 2048, 2048),
    *text_of(b'a' * 2048 + b' ' + b'a' * 2047, b'a' * 2048, b'a' * 2047),
    *unfit(20, b'a' * 4096, 2048, 4096),
    *text_of(b'a' * 4093 + b' ""', b'a' * 4093, b''),
    *unfit(20, b'a' * 4094, 4094, 4094),
    *text_of(b'aaaaaaaaaaaaaaa ' * 255 + b'aaaaaaaaaaaaaaaa', *[b'a' * 15] * 255, b'a' * 16),
    *unfit(20, b'a' * 3842, *range(15, 3826, 15), 3842),
    *text_of(b'%s "a b"' % (b'a' * 4090), b'a' * 4090, b'a b'),
    *unfit(20, b'a' * 4091 + b'a b', 4091, 4094),
    # a million bytes
    *unfit(20, b'a' * MILLION, MILLION),
    *unfit(20, b'a' * MILLION, 0, 1, MILLION),
    *unfit(27, b'\x00' * MILLION, MILLION),
    *unfit(27, b'a' * MILLION + b'\x00', MILLION + 1),
    *unfit(28, b'a' * MILLION, MILLION + 1),
    *unfit(28, b'a' * MILLION, MILLION, MILLION - 1),
    WriteCase(b'a a', b'a' * MILLION, [1, 2]),
    WriteCase(b'', b'\x00' * MILLION, []),
    # the buffer
    *unfit(1, b'ab', 1, 2, size=4095),
    *unfit(1, b'ab', 1, 2, size=0),
    *unfit(1, b'', size=4095),
    *unfit(1, b'', *[0] * 257, size=4095),
    *unfit(1, b'ab', 2, 1, size=4095),
    *unfit(1, b'\x00', 1, size=4095),
    *unfit(1, FULL + b'a', 4097, size=4095),
    *text_of(b'a b', b'a', b'b', size=4097),
    *text_of(b'a "b c"', b'a', b'b c', size=5000),
    *text_of(b'', size=5000),
    *text_of(FULL, FULL, size=4097),
    *unfit(20, FULL + b'a', 4097, size=5000),
    *unfit(28, b'ab', 3, size=5000),
]

WRITES = ITEMS + ENDS + ROOMS


def outputs():
    cases = SPLITS + WRITES
    assert len({case.line for case in cases}) == len(cases)
    lines, printed = b'', b''
    for case in cases:
        try:
            told = case.told()
        except Refused as refusal:
            assert refusal.args == case.answer, case.line
            told = b'all kept, refused %d at %d' % refusal.args
        lines += case.line + b'\n'
        printed += case.line + b'\n  ' + told + b'\n'
    return {'item_cases/stdin': lines, 'item_cases/stdout': printed}
