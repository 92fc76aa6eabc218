"""What the programs `boolean_cases` and `span_cases` are to print.

This follows the part "Booleans and spans" of document 01 with regular expressions over bytes and Python's
whole numbers; it is no translation of the Rattle code. Beside each case stands its answer as it was worked
out by hand, and the two are held to each other.
"""
import re

BAD_BOOLEAN = 'refused 30 at 0'
BAD_FORM = 'refused 31 at 0'
TOO_LARGE = 'refused 32 at 0'
MOST = 18446744073709551615


# ---- the rules

TRUE = {b'1', b'yes', b'true', b'on'}
FALSE = {b'0', b'no', b'false', b'off'}
SECOND = 1000 * 1000
UNITS = {b'us': 1, b'ms': 1000, b's': SECOND, b'min': 60 * SECOND, b'h': 3600 * SECOND,
         b'd': 24 * 3600 * SECOND, b'w': 7 * 24 * 3600 * SECOND}
PART = rb'([0-9]+)[ \t]*([A-Za-z]+)[ \t]*'


def boolean(text):
    return 'true' if text in TRUE else 'false' if text in FALSE else BAD_BOOLEAN


def number(digits):
    """The number; one of more than 30 digits counts as 10 ** 30, since either is too large in every unit."""
    digits = digits.lstrip(b'0')
    return int(digits or b'0') if len(digits) <= 30 else 10 ** 30


def span(text):
    text = text.strip(b' \t')
    if re.fullmatch(b'[0-9]+', text):
        text += b's'
    if not re.fullmatch(b'(?:' + PART + b')+', text):
        return BAD_FORM
    parts = re.findall(PART, text)
    if not all(unit in UNITS for _, unit in parts):
        return BAD_FORM
    total = sum(number(digits) * UNITS[unit] for digits, unit in parts)
    return TOO_LARGE if total > MOST else total


# ---- a case: its label, its text, and its answer by hand

def shown(answer, *texts):
    """Texts that print: the label is the text in brackets."""
    assert all(text.decode().isprintable() for text in texts)
    return [(b'[%s]' % text, text, answer) for text in texts]


def named(answer, name, text):
    return [(b'<%s>' % name, text, answer)]


def run(answer, head, byte, count, tail):
    """A head, a run of one byte, and a tail."""
    times = b' x %d' % count if count > 1 else b''
    return named(answer, b'%s{%02x%s}%s' % (head, byte, times, tail), head + bytes([byte]) * count + tail)


def million(answer, head, byte, tail):
    return run(answer, head, ord(byte), 1000000, tail)


def around(word):
    """A word with one byte more, before it and behind it."""
    before = [run(BAD_BOOLEAN, b'', byte, 1, word) for byte in b' \t\n']
    behind = [run(BAD_BOOLEAN, word, byte, 1, b'') for byte in b' \t\n\r\x00\xff']
    return sum(before + behind, [])


def unit(name, zero, one, twenty_five, three):
    """A unit alone and behind numbers."""
    return [*shown(BAD_FORM, name), *shown(zero, b'0' + name), *shown(one, b'1' + name),
            *shown(twenty_five, b'25' + name), *shown(three, b'3 ' + name)]


PLACES = [(b'', b''), (b'', b'1'), (b'1', b''), (b'1', b'2'), (b'', b'1s'),
          (b'1', b's'), (b'1m', b's'), (b'1s', b'2s'), (b'1s', b'')]


def everywhere(byte, *answers):
    """A byte in each place of a span."""
    assert len(answers) == len(PLACES)
    return sum([run(answer, head, byte, 1, tail) for answer, (head, tail) in zip(answers, PLACES)], [])


# ---- the cases in the order of crates/boolean_cases

WORDS = [b'1', b'yes', b'true', b'on', b'0', b'no', b'false', b'off']

BOOLEANS = [
    *shown('true', *WORDS[:4]),
    *shown('false', *WORDS[4:]),
    # upper case
    *shown(BAD_BOOLEAN, b'Yes', b'yEs', b'yeS', b'YES', b'True', b'tRue', b'trUe', b'truE', b'TRUE',
           b'On', b'oN', b'ON', b'No', b'nO', b'NO', b'False', b'fAlse', b'faLse', b'falSe', b'falsE', b'FALSE',
           b'Off', b'oFf', b'ofF', b'OFF'),
    # bytes around a word
    *sum(map(around, WORDS), []),
    *shown(BAD_BOOLEAN, *[b' ' + word + b' ' for word in WORDS]),
    # starts and ends of words
    *shown(BAD_BOOLEAN, b'', b'y', b'ye', b't', b'tr', b'tru', b'o', b'n', b'f', b'fa', b'fal', b'fals', b'of',
           b'es', b's', b'rue', b'e', b'alse', b'ff'),
    # a byte more
    *shown(BAD_BOOLEAN, b'11', b'10', b'01', b'00', b'yess', b'truee', b'one', b'onn', b'noo', b'not', b'falsee',
           b'offf'),
    # a byte changed
    *shown(BAD_BOOLEAN, b'/', b'2', b'xes', b'yer', b'urue', b'trud', b'nn', b'om', b'mo', b'np', b'ealse', b'falsd',
           b'pff', b'ofe'),
    # other texts
    *shown(BAD_BOOLEAN, b'enabled', b'disabled', b'Y', b'N', b'yesno', b'yes no', b'"yes"', b'-1', b'+1', b'1.0',
           b'0x1', b'1s'),
    # odd bytes and characters
    *run(BAD_BOOLEAN, b'', 0x00, 1, b''),
    *run(BAD_BOOLEAN, b'', 0x20, 1, b''),
    *run(BAD_BOOLEAN, b'', 0xb1, 1, b''),
    *run(BAD_BOOLEAN, b'', 0xff, 1, b''),
    *run(BAD_BOOLEAN, b'', 0xf9, 1, b'es'),
    *run(BAD_BOOLEAN, b'n', 0xef, 1, b''),
    *run(BAD_BOOLEAN, b'of', 0x00, 1, b'f'),
    *shown(BAD_BOOLEAN, '１'.encode(), 'ｏｎ'.encode(), 'oﬀ'.encode()),
    *named(BAD_BOOLEAN, b'a byte order mark before on', b'\xef\xbb\xbfon'),
    # long texts
    *million(BAD_BOOLEAN, b'', b'1', b''),
    *million(BAD_BOOLEAN, b'', b'0', b''),
    *million(BAD_BOOLEAN, b'yes', b' ', b''),
    *million(BAD_BOOLEAN, b'', b' ', b'yes'),
    *million(BAD_BOOLEAN, b'fals', b'e', b''),
]


# ---- the cases in the order of crates/span_cases

VALUES = [
    # bench, and the man page
    *shown(120200000, b'2min 200ms'),
    *shown(TOO_LARGE, b'18446744073710'),
    *shown(18446744073709000000, b'18446744073709'),
    *shown(BAD_FORM, b'5 20'),
    *shown(50000000, b'50'),
    # units
    *unit(b'us', 0, 1, 25, 3),
    *unit(b'ms', 0, 1000, 25000, 3000),
    *unit(b's', 0, 1000000, 25000000, 3000000),
    *unit(b'min', 0, 60000000, 1500000000, 180000000),
    *unit(b'h', 0, 3600000000, 90000000000, 10800000000),
    *unit(b'd', 0, 86400000000, 2160000000000, 259200000000),
    *unit(b'w', 0, 604800000000, 15120000000000, 1814400000000),
    # several parts
    *shown(788645006007, b'1w 2d 3h 4min 5s 6ms 7us', b'1w2d3h4min5s6ms7us',
           b'7us 6ms 5s 4min 3h 2d 1w', b'7us6ms5s4min3h2d1w'),
    *shown(2000000, b'1s 1s', b'1s1s'),
    *shown(604800000001, b'1us1w'),
    *shown(60001000, b'1min1ms'),
    *shown(60001001, b'1ms1min1us'),
    *shown(5400000000, b'1h 30min'),
    *shown(259200000000, b'1d 24h 1440min'),
    *shown(32000000, b'1s' * 32),
    # numbers
    *shown(0, b'0', b'00', b'0w 0d 0h 0min 0s 0ms 0us'),
    *shown(7000000, b'7', b'007'),
    *shown(86400000000, b'86400'),
    *shown(1234567890000000, b'1234567890'),
    *shown(1000000, b'000000000000000000000000000001s'),
    *shown(MOST, b'00000000000000000000018446744073709551615us'),
    *shown(TOO_LARGE, b'00000000000000000000018446744073709551616us'),
    # blanks
    *shown(5000000, b'   5   ', b'5   s'),
    *shown(3000000, b'1s   2s', b'1 s2 s'),
    *shown(121000000, b'  1  s  2  min  '),
    *named(5000000, b'a tab and a blank on both sides of 5', b'\t 5 \t'),
    *named(62000000, b'tabs and blanks in each place', b' \t1\t \tmin \t 2 \ts\t '),
]

LIMITS = [
    # the largest number in each unit, and one more
    *shown(18446744073709551615, b'18446744073709551615us'),
    *shown(TOO_LARGE, b'18446744073709551616us'),
    *shown(18446744073709551000, b'18446744073709551ms'),
    *shown(TOO_LARGE, b'18446744073709552ms'),
    *shown(18446744073709000000, b'18446744073709s'),
    *shown(TOO_LARGE, b'18446744073710s'),
    *shown(18446744073660000000, b'307445734561min'),
    *shown(TOO_LARGE, b'307445734562min'),
    *shown(18446744073600000000, b'5124095576h'),
    *shown(TOO_LARGE, b'5124095577h'),
    *shown(18446744044800000000, b'213503982d'),
    *shown(TOO_LARGE, b'213503983d'),
    *shown(18446743526400000000, b'30500568w'),
    *shown(TOO_LARGE, b'30500569w'),
    # numbers of 19 and 20 digits
    *shown(9999999999999999999, b'9999999999999999999us'),
    *shown(10000000000000000000, b'10000000000000000000us'),
    *shown(18446744073709551609, b'18446744073709551609us'),
    *shown(TOO_LARGE, b'18446744073709551619us', b'18446744073709551620us', b'99999999999999999999us',
           b'99999999999999999999'),
    # multiples of 2 ** 64
    *shown(TOO_LARGE, b'36893488147419103232us', b'184467440737095516160us', b'2305843009213693952ms',
           b'288230376151711744', b'72057594037927936min', b'18014398509481984h', b'2251799813685248d',
           b'2251799813685248w'),
    # sums
    *shown(MOST, b'18446744073709551614us 1us'),
    *shown(TOO_LARGE, b'18446744073709551615us 1us', b'1us 18446744073709551615us'),
    *shown(MOST, b'18446744073709551615us 0w'),
    *shown(TOO_LARGE, b'18446744073709551615us 0us 1us'),
    *shown(MOST, b'18446744073709s 551615us'),
    *shown(TOO_LARGE, b'18446744073709s 551616us'),
    *shown(MOST, b'30500568w 6d 8h 1min 49s 551ms 615us'),
    *shown(TOO_LARGE, b'30500568w 6d 8h 1min 49s 551ms 616us'),
    *shown(MOST, b'615us551ms49s1min8h6d30500568w'),
    *shown(TOO_LARGE, b'616us551ms49s1min8h6d30500568w'),
    *shown(MOST, b'9223372036854775807us 9223372036854775808us'),
    *shown(TOO_LARGE, b'9223372036854775808us 9223372036854775808us'),
    *shown(18446743526400000000, b'15250284w 15250284w'),
    *shown(TOO_LARGE, b'15250284w 15250285w'),
    # too large a number beside others
    *shown(TOO_LARGE, b'18446744073709551616us 1us', b'1us 18446744073709551616us', b'18446744073709551616us 0us',
           b'18446744073709551616us 18446744073709551616us', b'30500569w 30500569w',
           b'99999999999999999999s 99999999999999999999w'),
]

BAD_UNITS = [b'm', b'mi', b'u', b'M', b'S', b'US', b'mS', b'Min', b'H', b'D', b'W',
             b'mins', b'smin', b'minus', b'ss', b'dw', b'sec', b'ns']

FORMS = [
    # other units
    *sum([unit(name, *[BAD_FORM] * 4) for name in BAD_UNITS], []),
    # blanks alone
    *shown(BAD_FORM, b'', b'   '),
    # numbers without a unit
    *shown(BAD_FORM, b'1s 5', b'1s5', b'5 1s', b'1 0s', b'1h30', b'1 2 3s', b'0 0'),
    # units without a number, or in pieces
    *shown(BAD_FORM, b'min 1', b's1', b'1s min', b'1 s min', b'1m in', b'1u s'),
    # signs, and other ways to write a number
    *shown(BAD_FORM, b'-1', b'+1', b'-1s', b'1s -1s', b'1.5s', b'.5s', b'1,5s', b'1_000', b'0x10', b'1e3',
           b'infinity', b'yes'),
    # form is judged before size
    *shown(BAD_FORM, b'18446744073709551616us 1', b'18446744073709551616us 1x', b'99999999999999999999 x',
           b'99999999999999999999 1', b'x 99999999999999999999', b'18446744073709551615us 1us 1'),
    # characters
    *shown(BAD_FORM, '1µs'.encode(), '١s'.encode(), '１s'.encode(), '1ſ'.encode()),
    *named(BAD_FORM, b'a no-break space between parts', b'1s\xc2\xa02s'),
]

# No digits, letters or blanks.
OTHER_BYTES = b'\x00\x08\n\x0b\x0c\r\x1f\x7f' + b'!"+,-./:;@[_`{' + b'\x80\xa0\xb1\xb5\xc2\xf3\xff'
BLANK_ANSWERS = [BAD_FORM, 1000000, 1000000, BAD_FORM, 1000000, 1000000, BAD_FORM, 3000000, 1000000]

BYTES = [
    # one byte in each place
    *everywhere(ord(' '), *BLANK_ANSWERS),
    *everywhere(ord('\t'), *BLANK_ANSWERS),
    *everywhere(ord('0'), 0, 1000000, 10000000, 102000000, 1000000, 10000000, BAD_FORM, 3000000, BAD_FORM),
    *everywhere(ord('9'), 9000000, 91000000, 19000000, 192000000, 91000000, 19000000, BAD_FORM, 93000000, BAD_FORM),
    *everywhere(ord('s'), *[BAD_FORM] * 2, 1000000, *[BAD_FORM] * 6),
    *everywhere(ord('h'), *[BAD_FORM] * 2, 3600000000, *[BAD_FORM] * 6),
    *everywhere(ord('d'), *[BAD_FORM] * 2, 86400000000, *[BAD_FORM] * 6),
    *everywhere(ord('w'), *[BAD_FORM] * 2, 604800000000, *[BAD_FORM] * 6),
    *everywhere(ord('m'), *[BAD_FORM] * 5, 1000, *[BAD_FORM] * 3),
    *everywhere(ord('u'), *[BAD_FORM] * 5, 1, *[BAD_FORM] * 3),
    *sum([everywhere(byte, *[BAD_FORM] * 9) for byte in b'AZaz' + OTHER_BYTES], []),
    # long runs
    *run(7000000, b'', ord('0'), 5000, b'7s'),
    *million(7000000, b'', b'0', b'7s'),
    *million(0, b'', b'0', b''),
    *million(1000001, b'1s ', b'0', b'1us'),
    *million(BAD_FORM, b'7s', b'0', b''),
    *million(TOO_LARGE, b'', b'9', b''),
    *million(TOO_LARGE, b'', b'9', b'w'),
    *million(BAD_FORM, b'', b'9', b' 1'),
    *million(BAD_FORM, b'', b'9', b'x'),
    *million(BAD_FORM, b'', b' ', b''),
    *million(7000000, b'', b' ', b'7s'),
    *million(7000000, b'7s', b' ', b''),
    *million(7000000, b'7', b' ', b's'),
    *million(2000000, b'1s', b'\t', b'1s'),
    *million(BAD_FORM, b'5', b' ', b'20'),
    *million(BAD_FORM, b'7', b's', b''),
]

SPANS = VALUES + LIMITS + FORMS + BYTES


def told(kind, cases, read):
    """A line for each case; the answer is held to the one made by hand."""
    labels = [label for label, _, _ in cases]
    assert len(set(labels)) == len(labels)
    out = b''
    for label, text, by_hand in cases:
        assert read(text) == by_hand, label
        out += b'%s %s %s\n' % (kind, label, str(by_hand).encode())
    return out


def outputs():
    return {
        'boolean_cases/stdout': told(b'boolean', BOOLEANS, boolean),
        'span_cases/stdout': told(b'span', SPANS, span),
    }
