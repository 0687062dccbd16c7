#!/usr/bin/env python3
"""Records on which a program that reads blocks of 65,536 bytes can go wrong: csvblocks.py >crates/import/stdin

Each border of a block cuts another kind of thing; one block has so many short records that their listing does not fit the output; the last record
has a quote that is never closed.
"""
import sys

BLOCK = 65536
NAMES = [b'JULIAN', b'GREGORIAN', b'ITALY', b'AUGSBURG', b'UNITED_KINGDOM', b'LIEGE', b'ATLANTIS']  # AUGSBURG and LIEGE are house calendars
FORMS = [b'%s,%s\r\n', b'"%s",%s\r\n', b'%s,"%s"\n', b'"%s","%s"\r\n', b'%s,%s\n']
WITH_FAULT = [b'%s,%s,\r\n', b'%s\r\n%s\n', b'"%s, ""%s""",\r\n', b'%s,"%s\r\n"\r\n', b'"%s\n",%s\n', b'"%s","""%s"""\n', b'"%s,%s"\r\n', b'%s,,%s\n']

data = bytearray()


def date(k):
    """The k-th of many dates: usual ones, ordinals, padded ones, and now and then one that is refused."""
    year, month, day = 1500 + k * 7 % 440, k % 12 + 1, k * 5 % 31 + 1
    if k % 10 == 3:
        return b'%d-%d' % (year, k % 367)
    return (b'%04d-%02d-%02d' if k % 10 == 7 else b'%d-%d-%d') % (year, month, day)


def record(k):
    """The k-th of many records, quoted and not; one in nine has other fields than a name and a date."""
    form = WITH_FAULT[k // 9 % len(WITH_FAULT)] if k % 9 == 0 else FORMS[k % len(FORMS)]
    return form % (NAMES[k % 64 % 7], date(k))


def long_record(size):
    """A record of so many bytes, its line end not counted, whose year has that many zeros before it."""
    return b'DENMARK,%s1700-2-18\r\n' % (b'0' * (size - 17))


def fill(place):
    """Records up to a place, the last of them made longer so that it ends there."""
    k = len(data)
    while len(data) + 100 < place:
        data.extend(record(k))
        k += 1
    data.extend(long_record(place - len(data) - 2))


def cut(border, before, after):
    """Bytes that stand before a border of blocks, and those after it."""
    fill(border * BLOCK - len(before))
    data.extend(before + after)


cut(1, long_record(512)[:300], long_record(512)[300:])  # in a field of a record of 512 bytes
data.extend(b'\n' * 9000)                               # more output than a block holds
cut(2, b'ITALY,1582-10-15\r', b'\n')
cut(3, b'ITALY,"1582-10-15\r', b'\n"\r\n')              # within quotes
cut(4, b'ITALY,"1582"', b'"-10-15"\r\n')               # between the two of a doubled quote
cut(5, b'"ITALY","1582-10-15"', b'\r\n')                # after a closing quote
cut(6, b'', b'"LIEGE",1582-12-31\r\n')                  # before a record
data.extend(b'SPAIN,1582-10-5\r\n"SPAIN","1582-10-15\r\n')
sys.stdout.buffer.write(data)
