#!/usr/bin/env python3
"""Catalogues on which a reader can go wrong, names to look up in them, and the answers: catalogues.py crates/catalogue_known

It writes the files `stdin` and `stdout` of that folder. Each piece of the input is `c` for a catalogue or `n` for a name, how many bytes it has, a
newline, the bytes, a newline. Names are looked up in the catalogue before them.
"""
import os
import random
import sys

from catalogue import *

R = 2299161
GOOD = b'TRIER\t2299526'
OTHER = b'LIEGE\t2299290'


def line(name, r=R):
    return b'%s\t%s' % (name, r if isinstance(r, bytes) else b'%d' % r)


def ended(*lines):
    return b''.join(one + b'\n' for one in lines)


def sized(size, name=b'UTRECHT', r=R, sign=b''):
    """A line of so many bytes, by the zeros before its number."""
    return b'%s\t%s%0*d' % (name, sign, size - len(name) - len(sign) - 1, r)


def name_of(size, k=0):
    """The k-th name of so many bytes: they differ in their last bytes."""
    return (b'SANCTI_MARTINI_IN_CASTRO_VETERI' * 3)[:size - len(b'%d' % k)] + b'%d' % k


def many(count, size=4):
    """So many lines with names of so many bytes."""
    return [line(name_of(size, k), R + k) for k in range(1, count + 1)]


# ---- catalogues with one thing in them

def alone_and_after(one):
    """A line that stands alone, without its newline, and after another."""
    return [ended(one), one, ended(GOOD, one), ended(GOOD) + one + b'\n' + OTHER]


def file_borders():
    yield from (b'', GOOD, ended(GOOD), ended(GOOD) + OTHER, ended(GOOD, OTHER))
    yield from (b'\n', b'\n\n', ended(b'', GOOD), ended(GOOD, b''), ended(GOOD, b'', OTHER), ended(GOOD) + b'\n\n', ended(GOOD, OTHER, b''))
    yield from (GOOD + b'\r\n', GOOD + b'\r', ended(GOOD + b'\r', OTHER + b'\r'), ended(GOOD, OTHER + b'\r'), b'\r\n', b'\r' + GOOD)
    yield from (b'\xef\xbb\xbf' + ended(GOOD), b'\0', ended(GOOD) + b'\0', GOOD + b'\0', b'\0' + GOOD, bytes(40), b'\xff\xfe')


def name_sizes():
    for size in [1, 2, 7, 8, 9, 15, 16, 17, 23, 24, MOST_NAME - 1, MOST_NAME]:
        yield ended(line(name_of(size)), line(name_of(size, 1)))
    for size in [MOST_NAME, MOST_NAME + 1, MOST_NAME + 2, 256 + MOST_NAME, 256 + 5]:
        yield from alone_and_after(line(name_of(size)))
    yield ended(line(name_of(MOST_NAME)), line(name_of(MOST_NAME)))


def line_sizes():
    for size in [LONGEST_LINE - 1, LONGEST_LINE, LONGEST_LINE + 1, LONGEST_LINE + 2]:
        yield from alone_and_after(sized(size))
    for size in [LONGEST_LINE, LONGEST_LINE + 1]:
        yield ended(sized(size, name_of(MOST_NAME)))
        yield ended(sized(size, r=5))
        yield ended(sized(size, r=2147483647, sign=b'-'))
        yield ended(sized(size, r=99999999999))
        yield ended(sized(size, b'ITALY'))
        yield b'A' * size
        yield ended(b'A' * size, GOOD)
        yield b'\t' * size
    yield from (sized(600), ended(sized(1023)), ended(sized(1024), GOOD), ended(sized(1025)), ended(GOOD, sized(1500)))
    yield ended(sized(LONGEST_LINE), sized(LONGEST_LINE, b'MAINZ'))
    yield ended(sized(LONGEST_LINE), sized(LONGEST_LINE + 1, b'MAINZ'))


def line_counts():
    full = many(MOST_LINES)
    for count in [2, 10, MOST_LINES - 1, MOST_LINES]:
        yield ended(*full[:count])
        yield ended(*full[:count])[:-1]
    for size in [8, 16, 24, MOST_NAME]:
        yield ended(*many(MOST_LINES, size))
    last = [line(b'GURK'), b'', b'x', line(b'A', b'5x'), line(b'SPAIN'), full[0], full[-1], line(b'GURK', 5), line(b'GURK', -2**31), line(b'GURK', 2**31)]
    last += [line(b'SPAIN', 2**31), line(b'SPAIN', 5), line(full[0][:4], 5), sized(LONGEST_LINE), sized(LONGEST_LINE + 1), b'\r']
    for one in last:
        yield ended(*full, one)
    yield ended(*full) + line(b'GURK')
    yield ended(*full) + sized(LONGEST_LINE)
    yield ended(*many(MOST_LINES + 1))
    yield ended(*many(MOST_LINES + 2))
    yield ended(*full, b'', line(b'GURK'))
    for one in [line(b'GURK', 5), line(b'GURK', 2**31 - 1), b'', full[0], line(b'SPAIN')]:
        yield ended(*full[:MOST_LINES - 1], one)


EDGES = [-2147483648, -2147483647, -2147439515, -2147439514, 1830691, 1830692, 2147439588, 2147439589, 2147483647]


def reformations():
    for edge in EDGES:
        for r in (edge - 1, edge, edge + 1):
            yield ended(line(b'PASSAU', r))
    for r in [0, 5, -5, -R, 2**32, -2**32, 2**32 + R, R - 2**32, 2**63, -2**63, 2**64 + R, R - 2**64, 2**64 - 1, 10**19, 10**20 + R, 10**40, -10**40]:
        yield ended(line(b'PASSAU', r))
    for text in [b'-0', b'-000', b'000', b'0002299161', b'-0002299161', b'00000000000000000000000002299161', b'-2147483649', b'-02147483648', b'002147483648', b'-00002147483649', b'21474836470', b'3000000000', b'99999999999', b'-99999999999']:
        yield ended(line(b'PASSAU', text))
        yield ended(GOOD, line(b'PASSAU', text), OTHER)


# ---- which refusal comes first

def order():
    """Lines at which several things are at fault, and files with several lines at fault."""
    names = [b'FULDA', b'JULIAN', b'TRIER', b'Fulda', name_of(MOST_NAME + 1)]
    numbers = [b'2299161', b'5', b'-2147483647', b'99999999999', b'-99999999999', b'99999999999x', b'']
    for name in names:
        for number in numbers:
            yield ended(GOOD, line(name, number))
    for name, number in [(b'JULIAN', 5), (b'JULIAN', 99999999999), (b'JULIAN', b'5x'), (b'A', b'99999999999x')]:
        yield ended(line(name, number))
    at_fault = [line(b'FULDA', 5), line(b'FULDA', -2147483647), line(b'SPAIN'), line(b'FULDA', 2**31), line(b'FULDA', -2**31 - 1), b'malformed']
    for first in at_fault:
        for second in at_fault:
            if first != second:
                yield ended(first, second)


def taken():
    for name in sorted(NAMES):
        yield ended(line(name))
        yield ended(line(name + b'_'), line(b'_' + name), line(name[:-1]))
    yield from (ended(GOOD, GOOD), ended(GOOD, OTHER, GOOD), ended(GOOD, line(b'TRIER', 1)), ended(GOOD, line(b'TRIER', R)))
    yield ended(GOOD, line(b'TRIE'), line(b'TRIERE'), line(b'TRIES'), line(b'SRIER'), line(b'TRIER_'), line(b'_TRIER'))
    yield ended(GOOD, line(b'COLOGNE', 2299526))
    yield ended(*(line(b'A' * size) for size in range(1, MOST_NAME + 1)))
    for again in [1, 2, 32, 62, 63]:
        yield ended(*many(63), line(name_of(4, again)))


# ---- the form of a line

STRANGE = b'\0\x01\t\r -+./:@[^`a z{\x7f\x80\xc4\xff'


def forms():
    for b in STRANGE:
        b = bytes([b])
        yield ended(b + GOOD)
        yield ended(b'TR' + b + b'ER\t2299526')
        yield ended(b'TRIER' + b + b'2299526')
        yield ended(b'TRIER\t' + b + b'2299526')
        yield ended(b'TRIER\t22' + b + b'526')
        yield ended(GOOD + b)
    for one in [b'\t', b'A', b'A\t', b'\t5', b'\t2299161', b'A\t-', b'A\t--5', b'A\t--2299161', b'A\t+2299161', b'A\t2299161\t', b'A\t2299161\tB', b'A\t\t2299161']:
        yield from (one, ended(one, GOOD))
    for one in [b'A 2299161', b'A\t 2299161', b'A\t2299161 ', b' A\t2299161', b'A\t2,299,161', b'A\t2299161.0', b'A\t0x231519', b'A\t1582-10-15', b'2299161', b'2299161\tA']:
        yield ended(one)
    for name in [b'0', b'9', b'_', b'___', b'0A', b'_A', b'1582', b'Z9_', b'A_0_Z_9', b'trier', b'Trier', b'TRIEr', b'K\xc3\x96LN']:
        yield ended(line(name))


# ---- catalogues by chance

def by_chance(dice, count):
    """Lines of which one in twelve has a byte changed, taken out or put in."""
    lines = []
    for _ in range(count):
        name = bytes(dice.choices(b'ABXYZ019_', k=dice.choice([1, 1, 2, 2, 3, 5, 8, 16, 30, MOST_NAME])))
        one = line(name, dice.choice([R, 1830692, 2147439588, 2361222]) if dice.randrange(12) else dice.choice(EDGES))
        if not dice.randrange(12):
            at = dice.randrange(len(one))
            one = one[:at] + bytes([dice.choice(STRANGE + b'\n\nA5')])[:dice.randrange(2)] + one[at + dice.randrange(2):]
        lines.append(one)
    return ended(*lines)[:-1 if dice.randrange(2) else None]


def all_by_chance():
    dice = random.Random(100)
    for _ in range(120):
        yield by_chance(dice, dice.choice([1, 2, 3, 4, 6, 9]))
    for _ in range(6):
        names = sorted({bytes(dice.choices(b'ABCDEFGHIJKLMNOPQRSTUVWXYZ', k=6)) for _ in range(MOST_LINES)})
        yield ended(*(line(name, dice.choice([R, 2361222]) + k) for k, name in enumerate(names)))


def catalogues():
    for some in (file_borders, name_sizes, line_sizes, line_counts, reformations, order, taken, forms, all_by_chance):
        yield from some()


# ---- names that are looked up, and the answers

def near(name):
    """A name, and others that are nearly it."""
    yield from (name, name[:-1], name[1:], name + b'A', name + b'\0', name[:-1] + b'\0', name[:-1] + b'~', b'~' + name[1:])


def asked(houses, dice):
    """Each name of a short catalogue with those near it, and of a long one each name; then others."""
    names = list(houses)
    near_names = names if len(names) < 6 else dice.sample(names, 3)
    for name in near_names:
        yield from near(name)
    yield from names
    yield from (b'', b'ITALY', b'\0', b'ITALY\0', b'A' * (MOST_NAME + 1))
    if not houses:
        yield from sorted(NAMES)
        yield from (b'A' * 300, b'italy', b'JULIAN\n', b'\t')
    if len(names) == MOST_LINES:
        size = len(names[0])
        yield from (bytes(dice.choices(b'ABCDEFGHIJKLMNOPQRSTUVWXYZ0123456789_', k=size)) for _ in range(60))


def fields(told):
    return '\t'.join(map(str, told)) if isinstance(told, tuple) else str(told)


def ways(data):
    """In how many ways the program cuts a catalogue in two."""
    size = len(data)
    return sum(cut % (size // 96 + 1) == 0 or size - cut <= 16 for cut in range(size))


def piece(kind, data):
    return b'%s%d\n%s\n' % (kind, len(data), data)


def main(folder):
    dice = random.Random(31)
    pieces, answers = [], []
    for data in dict.fromkeys(catalogues()):
        houses = meaning(data)
        pieces.append(piece(b'c', data))
        answers.append('%s\t%d' % (fields(houses) if is_refused(houses) else len(houses), ways(data)))
        if not is_refused(houses):
            names = list(dict.fromkeys(asked(houses, dice)))
            pieces.extend(piece(b'n', name) for name in names)
            answers.extend(fields(named(houses, name)) for name in names)
    with open(os.path.join(folder, 'stdin'), 'wb') as f:
        f.write(b''.join(pieces))
    with open(os.path.join(folder, 'stdout'), 'w') as f:
        f.write(''.join(one + '\n' for one in answers))


main(sys.argv[1])
