#!/usr/bin/env python3
"""The import of standard input, comma-separated text, as RFC 4180 and the requests have it: importing.py [CATALOGUE] <records.csv

CATALOGUE is a file as listing.py takes it.
"""
import re

from calendars import refused
import listing

LONGEST_RECORD = 512

# The grammar of RFC 4180, with a bare LF as a line end too.
TEXTDATA = rb'\x20-\x21\x23-\x2b\x2d-\x7e'
NON_ESCAPED = re.compile(rb'[%s]*' % TEXTDATA)
BETWEEN_QUOTES = re.compile(rb'(?:[%s,\r\n]|"")*' % TEXTDATA)
LINE_END = re.compile(rb'\r\n|\n')


def ends_record(data, at):
    """The end of the file ends a record as well."""
    return at == len(data) or LINE_END.match(data, at)


def read_record(data, start):
    """The fields of the record that starts there and the place of its end, or the refusal that ends the import.

    It is read from left to right up to its end, or up to the first byte that the grammar does not allow.
    """
    fields, at = [], start
    while True:
        opening, quoted = at, data.startswith(b'"', at)
        if quoted:
            at = BETWEEN_QUOTES.match(data, opening + 1).end()
            fields.append(data[opening + 1:at].replace(b'""', b'"'))
            if at == len(data):
                return judged(start, at, refused(25, opening))
            if not data.startswith(b'"', at):
                return judged(start, at + 1, refused(35, at))
            at += 1
        else:
            at = NON_ESCAPED.match(data, at).end()
            fields.append(data[opening:at])
        if ends_record(data, at):
            return judged(start, at, (fields, at))
        if not data.startswith(b',', at):
            return judged(start, at + 1, refused(26 if quoted else 35, at))
        at += 1


def judged(start, read, told):
    """What is told of a record, where it was read up to a place: its byte 513 comes before all else."""
    return refused(20, start + LONGEST_RECORD) if read - start > LONGEST_RECORD else told


def answers(data, houses):
    """The answer to each record, up to the refusal that ends the import."""
    start = 0
    while start < len(data):
        told = read_record(data, start)
        if told[0] == '!':
            yield told
            return
        fields, end = told
        yield refused(27, start) if len(fields) != 2 else listing.dated(*fields, houses)
        start = LINE_END.match(data, end).end() if end < len(data) else end


def imported(data, houses={}):
    """What the import of a file writes."""
    return listing.written(answers(data, houses))


if __name__ == '__main__':
    listing.run(answers)
