#!/usr/bin/env python3
"""Entries that need every kind of explanation, some of them cut by the borders of blocks of 65,536 bytes: explanations.py [--count] >crates/explain/stdin

With --count, standard error gets how many entries there are of each kind: the sentence with `~` for the text, `@` for the name and `#` for a number.
The house calendars are those of crates/explain/data/houses.
"""
import collections
import os
import random
import re
import sys

import explaining
from calendars import *
import catalogue

BLOCK = 65536
MOST = 2**32 - 1

with open(os.path.join(os.path.dirname(__file__), '../crates/explain/data/houses'), 'rb') as f:
    HOUSES = catalogue.meaning(f.read())
BUILT_IN = [b'JULIAN', b'GREGORIAN', b'ITALY', b'DENMARK', b'SWEDEN', b'SWITZERLAND', b'UNITED_KINGDOM', b'ALBANIA', b'CHINA']
CALENDARS = {**{name: NAMES[name] for name in BUILT_IN}, **HOUSES}


def ymd(date):
    return b'%d-%d-%d' % date


def yo(year, ordinal):
    return b'%d-%d' % (year, ordinal)


def of(name, texts):
    return [name + b'\t' + text for text in texts]


def in_turn(texts):
    """Texts whose fault no calendar has to do with: each in another one."""
    names = list(CALENDARS)
    return [names[k % len(names)] + b'\t' + text for k, text in enumerate(texts)]


# ---- dates in a calendar

def both_ways(c, n):
    """The date of a day, and its ordinal date."""
    y, ordinal, m, d = record(c, n)[:4]
    yield from (ymd((y, m, d)), yo(y, ordinal))


def ends(c):
    """The last accepted date and the first refused one of each end, and years far outside."""
    for n in (LOW, LOW - 1, HIGH, HIGH + 1):
        yield from both_ways(c, n)
    for y in (LOW, HIGH):
        yield from (ymd((y, 1, 1)), ymd((y, 2, 29)), yo(y, 365), yo(y, 366))


def a_month(y, m):
    return (ymd((y, m, d)) for d in (0, 1, 28, 29, 30, 31, 32, MOST))


def a_year(c, y):
    length = len(days_of_year(c, y))
    return (yo(y, ordinal) for ordinal in (0, 1, length, length + 1, 367, MOST))


def month_after(y, m):
    return (y, m + 1) if m < 12 else (y + 1, 1)


def month_before(y, m):
    return (y, m - 1) if m > 1 else (y - 1, 12)


def around_switch(c, switch):
    """The days on both sides of a switch, labels between them, and the months and years that it cuts or takes away."""
    before, after = label(c, switch - 1), label(c, switch)
    for n in (switch - 2, switch - 1, switch, switch + 1):
        yield from both_ways(c, n)
    for n in (switch, switch + 1, switch + 5):
        yield ymd(J.label(n))
    for n in (switch - 1, switch - 2, switch - 5):
        yield ymd(G.label(n))
    middle = (before[0] + after[0]) // 2
    for month in dict.fromkeys([before[:2], month_after(*before[:2]), (middle, 2), month_before(*after[:2]), after[:2]]):
        yield from a_month(*month)
    for y in dict.fromkeys([before[0], middle, after[0] - 1, after[0]]):
        yield from a_year(c, y)


def in_every_calendar():
    for name, c in CALENDARS.items():
        yield from of(name, ends(c))
        for switch in timeline(c).switches:
            yield from of(name, around_switch(c, switch.day))
        yield from of(name, ONE_FAULT)


def leap_years():
    for name in (b'JULIAN', b'GREGORIAN', b'ITALY', b'FIRST_OF_ALL', b'LAST_OF_ALL'):
        for y in (1700, 1900, 2000, 2023, 0, -1, -4, -100, -400):
            yield from of(name, (b'%d-%s' % (y, rest) for rest in (b'2-28', b'2-29', b'2-30', b'60', b'366', b'367')))


def every_month():
    for name in (b'JULIAN', b'GREGORIAN'):
        for y in (1900, 2001):
            for m in range(1, 13):
                yield from of(name, (ymd((y, m, d)) for d in (0, 30, 31)))


def usual():
    """Some days of each calendar, near its switch and anywhere."""
    dice = random.Random(7)
    for name, c in CALENDARS.items():
        switches = timeline(c).switches
        middle = switches[0].day if switches else 2299161
        days = [middle + dice.randrange(-400, 400) for _ in range(3)] + [dice.randrange(LOW, HIGH) for _ in range(2)]
        for n in days:
            yield from of(name, both_ways(c, min(n, HIGH)))


# ---- faults of a text

ONE_FAULT = [b'', b'x', b'-', b'+x', b'2147483648-1', b'-2147483649-1', b'1582', b'1582/10/15', b'1582-', b'1582--1', b'1582-4294967296', b'1582-13-1']
ONE_FAULT += [b'1582-0-1', b'1582-4294967295x', b'1582-10/15', b'1582-10-', b'1582-10-x', b'1582-10-4294967296', b'1582-10-15x']

VALID = [b'1582-10-15', b'-4712-1-1', b'+1700-366', b'2147483647-12-4294967295', b'-2147483648-4294967295', b'007-08-009']
TELLING = b'-+059 x\0\xff'


def at_each_place():
    """Texts cut at each place, with another byte at each place, and with one more."""
    texts = []
    for text in VALID:
        for at in range(len(text) + 1):
            texts.append(text[:at])
            texts.extend(text[:at] + bytes([b]) + text[at + 1:] for b in TELLING)
            texts.extend(text[:at] + bytes([b]) + text[at:] for b in TELLING[:6])
    return in_turn(dict.fromkeys(texts))


def every_byte():
    return of(b'ITALY', (b'1582-1' + bytes([b]) for b in range(256) if b != ord('\n')))


# What stands before a number, the last digits that fit there, and what can stand after it.
FIELDS = [(b'', b'2147483647', b'-1'), (b'+', b'2147483647', b'-1-1'), (b'-', b'2147483648', b'-1'), (b'1-', b'4294967295', b''), (b'1-12-', b'4294967295', b'')]


def out_of_range():
    """Numbers that leave their range with each digit with which they can: the tenth, where nine are before it, or the eleventh, zeros not counted."""
    texts = []
    for before, most, after in FIELDS:
        tenth = [most[:9] + b'%d' % digit for digit in range(10)]
        eleventh = [most + b'0', most + b'9', b'10000000000', b'19999999999']
        others = [b'%d' % (int(most[:9]) + 1) + b'0', b'9999999999', b'99999999999', most[:9] + b'x', most + b'x']
        for digits in tenth + eleventh + others:
            texts.extend(before + zeros + digits + rest for zeros in (b'', b'0', b'0' * 25) for rest in (after, after + b'x'))
        texts.extend(before + digits for digits in tenth + eleventh)
    return in_turn(dict.fromkeys(texts))


def signs():
    texts = [b'+', b'-', b'+-1', b'-+1-1', b'--1-1', b'++1-1', b'- 1-1', b'+\0', b'-\xff', b'+1', b'-1', b'+0-1', b'-0-1', b'-0-1-1', b'+0-0-0', b'1-+1', b'1-1-+1', b'1-1--1', b'1-1-1-', b'1-1-1-1']
    return in_turn(texts)


# ---- lines

def lines():
    text = b'\t1582-10-15'
    yield from (b'', b'\t', b'\t\t', text, b'ITALY', b'A', b'ITALY\t', b'1582-10-15', b'ITALY 1582-10-15', b'ITALY,1582-10-15', b'\r', b'\0', b'ITALY\r', b'ITALY\t\r')
    yield from (b'ITALY\t1582-10-15\r', b'ITALY\t1582-10-15\t', b'ITALY\t\t1582-10-15', b'ITALY\t 1582-10-15', b'ITALY\t\xef\xbb\xbf1582-10-15', b'ITALY\t"1582-10-15"')
    for name in [b'Italy', b'italy', b'ITAL', b'ITALYA', b'ITALY ', b' ITALY', b'ITALY\0', b'\0ITALY', b'\xef\xbb\xbfITALY', b'K\xd6LN', b'K\xc3\x96LN', b'"ITALY"', b'ATLANTIS', b'B', b'AA']:
        yield name + text
    yield from (b'REFORM1582' + text, b'TRIER_' + text, b'SANCTI_MARTINI_IN_CASTRO_VETER' + text, b'SANCTI_MARTINI_IN_CASTRO_VETERIS' + text, b'\x1f \x20~\x7f' + text)
    every = bytes(b for b in range(256) if b not in b'\t\n')
    yield from (every, every + text, b'ITALY\t' + every, b'ITALY\t1582' + every, b'ITALY\t1582-10-15' + every)


def sized(size, name, text, start=b''):
    """A line of so many bytes, by the zeros within its text."""
    return name + b'\t' + start + b'0' * (size - len(name) - 1 - len(start) - len(text)) + text


def long_lines():
    """Those of 512 bytes have the longest explanations; longer ones are not read."""
    for size in (511, 512):
        for name in (b'A', b'SANCTI_MARTINI_IN_CASTRO_VETERI'):
            for text in (b'1582-10-4', b'1582-366', b'1700-2-30', b'5874898-6-4', b'2147483648', b'2147483648-1', b'1582', b'1582x', b'1582-', b'1582-10-', b'1582-10-15x'):
                yield sized(size, name, text)
            for start, text in ((b'-', b'2147483649'), (b'-', b'5884323-5-14'), (b'1582-', b'4294967296'), (b'1582-', b'13x'), (b'1582-', b'10x'), (b'1582-10-', b'4294967296')):
                yield sized(size, name, text, start)
        for text in (b'3701-2-31', b'3701-2-2', b'3701-2-1'):
            yield sized(size, b'ONE_DAY_ON_BOTH_SIDES', text)
        yield from (b'A\t' + bytes(size - 2), b'A\t' + b'\xff' * (size - 2), b'A\t1-1-1' + b'\r' * (size - 7))
    for size in (511, 512, 513, 2000):
        yield from (b'A' * size, b'A' * (size - 1) + b'\t', bytes(size), b'\t' * size, sized(size, b'A', b'1582-10-4'), sized(size, b'A', b'x'))


def by_chance():
    """Texts with a byte or two changed, taken out or put in."""
    dice = random.Random(106)
    names = list(CALENDARS) + [b'ATLANTIS']
    for _ in range(400):
        text = dice.choice(VALID + [b'1700-2-29', b'4100-2-29', b'1-1', b'5874898-6-3', b'214748364-1-1'])
        for _ in range(dice.choice([1, 1, 2])):
            at = dice.randrange(len(text) + 1)
            text = text[:at] + bytes([dice.choice(b'--+0123456789x \t\r\0\x80')])[:dice.randrange(2)] + text[at + dice.randrange(2):]
        yield dice.choice(names) + b'\t' + text


def cases():
    for some in (in_every_calendar, leap_years, every_month, usual, at_each_place, every_byte, out_of_range, signs, lines, long_lines, by_chance):
        yield from some()


# ---- blocks

data = bytearray()
left = list(dict.fromkeys(cases()))[::-1]


def put(line):
    data.extend(line + b'\n')


def fill(place):
    """Cases up to a place as long as there are any, and lines with many zeros, so that one ends there."""
    while left and len(data) + len(left[-1]) + 100 < place:
        put(left.pop())
    while len(data) < place:
        rest = place - len(data)
        put(sized((rest if rest < 500 else 400) - 1, b'DENMARK', b'1700-2-18'))


def cut(border, line, before):
    """A line with so many of its bytes before a border of blocks."""
    fill(border * BLOCK - before)
    put(line)


cut(1, b'ITALY\t1582-10-15x', 16)                               # before the fault
cut(2, sized(512, b'A', b'2147483648'), 512)                    # before the newline of a line of 512 bytes
cut(3, sized(513, b'A', b'2147483648'), 512)                    # before the last byte of a line of 513 bytes
put(sized(70000, b'DENMARK', b'1700-2-18'))                     # longer than a block: border 4 is within it
cut(5, b'JULIAN\t-4712-1-1', 17)                                # a newline is the last byte of its block
assert not left
put(b'SPAIN\t1582-10-5')
data.extend(b'ITALY\t1582-10-')                                 # no newline


# ---- kinds of explanations

BEGINNINGS = ['"@" is not', '"~" is no date in @:', '~ in @ is', '~ is no date in @:', '~ was skipped in @:', '~ is too early in @:', '~ is too late in @:']


def kind(line):
    """The sentence about a line, without what stands in the line and without numbers, but for a length of 0 and for what could stand."""
    told = explaining.explained(line, HOUSES).split('\n')[0]
    name, _, text = map(explaining.shown, line.partition(b'\t'))
    for begins in BEGINNINGS:
        said = re.sub('[~@]', lambda sign: {'~': text, '@': name}[sign[0]], begins)
        if told.startswith(said):
            told = begins + told[len(said):]
            break
    words, stand, could = told.partition('; there could stand')
    return re.sub('(?<![0-9])(?!0 there)-?[0-9]+', '#', words) + stand + could


sys.stdout.buffer.write(data)
if sys.argv[1:] == ['--count']:
    for words, count in sorted(collections.Counter(map(kind, catalogue.lines_of(bytes(data)))).items()):
        print('%5d %s' % (count, words), file=sys.stderr)
