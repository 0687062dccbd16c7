#!/usr/bin/env python3
"""Comma-separated texts on which an import can go wrong, and what it gives: imports.py crates/import_known

It writes the files `stdin` and `stdout` of that folder. The output begins with a line for each size up to LONGEST: the size, how many strings of so
many bytes over ALPHABET there are, and the hash of their imports, one after another in the order of ALPHABET. Then come the cases of the input,
each the number of its bytes, a newline, the bytes, a newline: what is imported, and how many ways there are to cut the case in two.
"""
import itertools
import os
import random
import sys

from importing import imported

ALPHABET = b'A,"\r\n\0'  # NUL is a byte that the grammar does not allow
LONGEST = 7


# ---- all short strings

def fnv1a(pieces):
    """The hash FNV-1a of 64 bits."""
    hash = 14695981039346656037
    for piece in pieces:
        for b in piece:
            hash = (hash ^ b) * 1099511628211 % 2**64
    return hash


def short_strings():
    for size in range(LONGEST + 1):
        strings = itertools.product(ALPHABET, repeat=size)
        yield b'%d %d %d\n' % (size, len(ALPHABET)**size, fnv1a(imported(bytes(s)) for s in strings))


# ---- records, line ends and fields

GOOD = b'ITALY,1582-10-15'
QUOTED = b'"ITALY","1582-10-15"'
MORE = GOOD + b'\r\n'  # to show whether reading goes on


def files():
    yield from (b'', b'\n', b'\r\n', b'\n\n', b'\r\n\r\n', b'\n\r\n', b'\r\n\n', b'\r', b'\r\r\n', b'\n\r')
    for end in [b'', b'\n', b'\r\n', b'\n\n', b'\r\n\r\n', b'\n\r\n', b'\n' + MORE, b'\n\n' + MORE, b'\r', b'\r\r\n', b'\r\r', b'\n\r', b'\r\n\r', b'\r' + MORE]:
        yield from (GOOD + end, QUOTED + end)
    yield from (b'calendar,date\r\n' + MORE, b'"calendar","date"\r\n' + MORE, b'\xef\xbb\xbf' + MORE, MORE + b'\xef\xbb\xbf' + MORE, b'\xff\xfe', b'\0', bytes(40))
    yield b'DENMARK,1700-2-18\nDENMARK,1700-3-1\r\n"DENMARK",1700-2-19\nJULIAN,"-4712-1-1"'
    yield MORE * 20
    yield b'\n'.join(b'%s,1752-9-%d' % (name, day) for name in [b'UNITED_KINGDOM', b'JULIAN', b'GREGORIAN'] for day in (2, 3, 13, 14)) + b'\n'


def field_counts():
    fields = [b'ITALY', b'1582-10-15', b'', b'""', b'"a, b"', b'","', b'"\r\n"', b'""""']
    for field in fields:
        yield from (field + b'\n' + MORE, field)
    for first, second in itertools.product([b'', b'""', b'","', b'"\r\n"'], repeat=2):
        yield first + b',' + second
    for one in [b'ITALY,1582-10-15,', b',ITALY,1582-10-15', b'ITALY,1582-10-15,,', b'ITALY,,1582-10-15', b'ITALY;1582-10-15', b'ITALY 1582-10-15']:
        yield one + b'\r\n' + MORE
    yield from (b',,', b',,,', b'"","",""', b'"",', b',""', b'ATLANTIS,1,2\n' + MORE, b'ITALY,x,y\n' + MORE, b'"ITALY,1582-10-15"\n' + MORE)
    yield b'A\nB,\nC,,\n,\n\n"",""\n'


def names():
    for name in [b'ITALY', b'"ITALY"', b' ITALY', b'ITALY ', b'" ITALY"', b'italy', b'"IT""ALY"', b'"""ITALY"""', b'"ITA,LY"', b'"ITA\nLY"', b'"ITALY\r\n"', b"'ITALY'", b'""', b'', b'TRIER']:
        yield name + b',1582-10-15'
    yield from (b'JULIAN', b'JULIAN,', b'JULIAN,""', b'"JULIAN",""', b'"JULIAN","1-1"', b'GREGORIAN,"2023-45"')


def dates():
    texts = [b'1582-10-4', b'1582-10-5', b'1582-278', b'01582-010-0015', b'+1582-10-15', b'-4712-1-1', b'1582-13-1', b'1582-2-30', b'1582-356', b'5874898-6-4', b'1582-']
    texts += [b'1582', b'', b'x', b'-', b'99999999999-1-1', b'-99999999999-1-1', b'1582-4294967296', b'1582/10/15', b'1582-10-15 ', b' 1582-10-15', b'1582-10x', b'2147483647-2-30']
    for text in texts:
        yield b'ITALY,%s\r\n"ITALY","%s"\n' % (text, text)
    # Places count in the text without its quotes, a doubled quote as one byte.
    for text in [b'""', b'""1582-10-15', b'15""82', b'1582""', b'1582-""10-5', b'1582-10""', b'1582-10-""5', b'1582-10-5""', b'1582-10-15""""', b'-""5', b'""""1', b'1582-13-""']:
        yield b'ITALY,"%s"\n' % text + MORE
    for text in [b'1582,10,15', b'1582-10-15,', b',', b'1582\n-10-15', b'1582-10-15\r\n', b'\r\n1582-10-15', b'1582-10-\r5', b'\r', b'1582-\n', b'1582-10-15\n']:
        yield b'"ITALY","%s"\r\n' % text + MORE


# ---- bytes at fault

def bytes_at_fault():
    """Bytes that the grammar does not allow, in each place where one can stand."""
    for b in [b'\t', b'\x80']:
        yield from (b + GOOD, b'IT' + b + b'ALY,1582-10-15', b'ITALY' + b + b',1582-10-15', b'ITALY,' + b, MORE + b)
        yield from (GOOD + b + b'\r\n', b'"' + b, b'"IT' + b, b'"ITALY",' + b, b'ITALY,"1582""' + b + b'"', b'""' + b)
        yield from (MORE + b'\n' + GOOD + b + MORE, b'A,B,C' + b + b'\n' + MORE, b'"\r\n' + b)
    for b in b'\0\x01\x0b\x1f\x7f\x80\xff':
        b = bytes([b])
        yield from (GOOD + b, b'"' + b + b'"', QUOTED + b)
    yield from (b'IT"ALY,1582-10-15', b'ITALY",1', b' "ITALY",1582-10-15', b'ITALY, "1582-10-15"', b'ITALY,1582"', b'A""', b'MORE,1\nA"', b'A"B\0', b'ITALY,1"\n' + MORE)
    yield from (b'ITALY\r,1582-10-15', b'ITALY,\r1582', b'\rITALY,1', b'ITALY,1582-10-15\r\0', b'ITALY,1582-10-15\r"', b'A\rB\0', b'\r\r', MORE + b'\r' + MORE, b'A,B\r,\n')


def after_closing_quotes():
    for b in [b'A', b' ', b'\t', b'\0', b'\xff', b'\r', b'\r\r\n', b'\rA', b'\r,', b'\r"', b';', b"'", b'1']:
        yield from (b'"ITALY"' + b, MORE + QUOTED + b + MORE)
    yield from (b'"A" "B"', b'"A"B"', b'"A"B",C', b'"A""B"C', b'"""" ', b'"""A', b'"A",B\n"C"D', b'"A,B"\r"', b'""A""', b'"A"\x80"B\0')


def quotes_never_closed():
    for rest in [b'', b'A', b'""', b'A""', b'""""', b'\n', b'\r\n', b'\r', b',', b',""', b',"",""', b'A,B\r\nC,D\r\n', b'""\n', b'1582-10-15\n' + MORE, b'A""\r\n""B']:
        yield from (b'"' + rest, MORE + b'A,B,C\n"ITALY","' + rest)
    yield from (b'""","', b'"A",""","', b'"A","B","', MORE * 3 + b'"', b'\n"')


def order():
    """Texts with several faults: the first from left to right is told."""
    faults = [b'A"B,1', b'"A"B,1', b'A\t,1', b'"A\0', b'"A', b'A\rB', b'"A"\rB']
    for first, second in zip(faults, faults[1:] + faults[:1]):
        yield first + b'\n' + second
    for fault in faults:
        yield from (b'A,B,C,' + fault, b'\n' + fault, b'ATLANTIS,' + fault)


# ---- records of 511 to 514 bytes

def plain(size):
    """A record of so many bytes, by the zeros before its year."""
    return b'DENMARK,' + b'0' * (size - 17) + b'1700-2-18'


def in_quotes(size):
    return b'"DENMARK","%s1700-2-18"' % (b'0' * (size - 21))


def doubled(size):
    """Doubled quotes stand before its closing quote."""
    return b'"DENMARK","%s"""' % (b'0' * (size - 14))


def with_line_end(size):
    """A line end within quotes is its last but three bytes."""
    return b'DENMARK,"%s\r\n0"' % (b'0' * (size - 13))


def sized():
    for size in [511, 512, 513, 514]:
        yield from (plain(size), plain(size) + b'\r\n' + MORE, in_quotes(size) + b'\n' + MORE, doubled(size) + b'\r\n' + MORE, with_line_end(size) + b'\n' + MORE, b'"' * size)
    yield from (plain(512) + b'\n' + MORE, plain(513) + b'\n' + MORE, with_line_end(515))
    yield MORE + plain(512) + b'\n' + MORE
    yield MORE + plain(513) + b'\n' + MORE
    yield from (b',' * 512 + b'\n' + MORE, b',' * 513 + b'\n' + MORE, b'A,B,' + plain(508) + b'\r\n' + MORE, b'A,B,' + plain(509) + b'\r\n' + MORE)
    # The byte after 512 of a record without quotes, after those of one that ends with a closing quote, and within quotes.
    outside = plain(512)
    for rest in [b',', b'"', b'\0', b'\r', b'\rA', b'\r\r\n']:
        yield outside + rest
    closed = in_quotes(512)
    for rest in [b'', b'A', b',', b'"', b'\r', b'\r\n', b'\rA']:
        yield closed + rest
    inside = b'DENMARK,"' + b'0' * 503
    for rest in [b'', b'"', b'""', b'\0', b'\r\n', b'\n"']:
        yield inside + rest
    # Faults at byte 512, and a record that is too long after another fault in it or before one.
    yield from (plain(511) + b'\r', plain(511) + b'"A', in_quotes(511) + b'A', inside[:511] + b'\t', inside[:511] + b'"', plain(300) + b'\t' + plain(300), plain(511) + b',"')


# ---- files by chance

def by_chance(dice):
    """Records of which some have a byte changed, taken out or put in."""
    pieces = []
    for _ in range(dice.choice([1, 2, 3, 4])):
        fields = [dice.choice([b'ITALY', b'"ITALY"', b'GREGORIAN', b'"A"', b'""', b'"a ""b"""']), dice.choice([b'1582-10-15', b'"1700-2-29"', b'"1582-10-5"', b'"1,\r\n2"', b'1582', b''])]
        one = b','.join(fields) + dice.choice([b'\n', b'\r\n'])
        if not dice.randrange(3):
            at = dice.randrange(len(one))
            one = one[:at] + bytes([dice.choice(b'\t"",\r\nA ')])[:dice.randrange(2)] + one[at + dice.randrange(2):]
        pieces.append(one)
    return b''.join(pieces)[:-1 if dice.randrange(2) else None]


def all_by_chance():
    dice = random.Random(101)
    for _ in range(24):
        yield by_chance(dice)


def cases():
    for some in (files, field_counts, names, dates, bytes_at_fault, after_closing_quotes, quotes_never_closed, order, sized, all_by_chance):
        yield from some()


def main(folder):
    pieces, told = [], list(short_strings())
    for data in dict.fromkeys(cases()):
        pieces.append(b'%d\n%s\n' % (len(data), data))
        told.append(b'%s= %d\n' % (imported(data), len(data) + 1))
    for name, contents in [('stdin', pieces), ('stdout', told)]:
        with open(os.path.join(folder, name), 'wb') as f:
            f.write(b''.join(contents))


main(sys.argv[1])
