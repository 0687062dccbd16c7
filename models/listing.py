#!/usr/bin/env python3
"""The listing of standard input, as the scope has it: listing.py [CATALOGUE] <entries.tsv

CATALOGUE is a file of house calendars; without it, or where there is no such file, it counts as empty.
"""
import os
import sys

from calendars import *
import catalogue


# ---- what every program has that answers names and dates

def dated(name, text, houses):
    """The answer to a calendar name and a date text."""
    calendar = catalogue.named(houses, name)
    return calendar if calendar == refused(19) else parse(calendar, text)


def columns(told):
    if told[0] == '!':
        return told
    y, ordinal, m, d, _, n, style = told[1:]
    return (n, y, ordinal, m, d, n % 7 + 1, {'J': 'OS', 'G': 'NS', 'S': 'SV'}[style])


def written(answers):
    """The header, and a line for each answer."""
    lines = [('jdn', 'year', 'ordinal', 'month', 'day', 'weekday', 'style'), *map(columns, answers)]
    return ''.join('\t'.join(map(str, line)) + '\n' for line in lines).encode()


def read_catalogue(files):
    if not files or not os.path.exists(files[0]):
        return b''
    with open(files[0], 'rb') as f:
        return f.read()


def run(answers):
    """Standard input to standard output, by the answers to an input; a refused catalogue is the one answer there is."""
    houses = catalogue.meaning(read_catalogue(sys.argv[1:]))
    told = [houses] if catalogue.is_refused(houses) else answers(sys.stdin.buffer.read(), houses)
    sys.stdout.buffer.write(written(told))


# ---- the listing

def answer(line, houses):
    if len(line) > 512:
        return refused(20)
    name, _, text = line.partition(b'\t')
    return dated(name, text, houses)


def answers(data, houses):
    return [answer(line, houses) for line in catalogue.lines_of(data)]


if __name__ == '__main__':
    run(answers)
