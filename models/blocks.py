#!/usr/bin/env python3
"""Lines on which a program that reads blocks of 65,536 bytes can go wrong: blocks.py >crates/list/stdin

Each border of a block cuts another kind of line; one line is longer than a block; one block has so many short lines that their listing
does not fit the output; the last line has no newline.
"""
import sys

BLOCK = 65536
NAMES = [b'JULIAN', b'GREGORIAN', b'ITALY', b'AUGSBURG', b'UNITED_KINGDOM', b'LIEGE', b'ATLANTIS']  # AUGSBURG and LIEGE are house calendars

data = bytearray()


def entry(k):
    """The k-th of many entries: usual dates, ordinals, padded ones, and now and then one that is refused."""
    year, month, day = 1500 + k * 7 % 440, k % 12 + 1, k * 5 % 31 + 1
    name = NAMES[k % 64 % 7]
    if k % 10 == 3:
        return b'%s\t%d-%d\n' % (name, year, k % 367)
    if k % 10 == 7:
        return b'%s\t%04d-%02d-%02d\n' % (name, year, month, day)
    return b'%s\t%d-%d-%d\n' % (name, year, month, day)


def long_line(size, date=b'1700-2-18'):
    """A line of so many bytes, its newline not counted, whose year has that many zeros before it."""
    return b'DENMARK\t' + b'0' * (size - 8 - len(date)) + date + b'\n'


def fill(place):
    """Entries up to a place, the last of them made longer so that it ends there."""
    k = len(data)
    while len(data) + 100 < place:
        data.extend(entry(k))
        k += 1
    data.extend(long_line(place - len(data) - 1))


def cut(border, line, before):
    """A line with so many of its bytes before a border of blocks."""
    fill(border * BLOCK - before)
    data.extend(line)


cut(1, b'ITALY\t1582-10-15\n', 11)          # in the month
cut(2, long_line(512), 300)                 # in a line of 512 bytes
data.extend(b'\n' * 9000)                   # more output than a block holds
cut(3, long_line(513), 512)                 # before the last byte of a line of 513 bytes, and its newline
data.extend(long_line(70000))               # longer than a block: border 4 is within it
cut(5, b'JULIAN\t-4712-1-1\n', 17)          # a newline is the last byte of its block
data.extend(b'SPAIN\t1582-10-5\n')
data.extend(b'RUSSIA\t1918-2-14')           # no newline
sys.stdout.buffer.write(data)
