"""A catalogue of house calendars, from the requests alone: what the bytes of a file mean, and what calendar a name has beside it."""
import re

from calendars import *

MOST_LINES = 64
MOST_NAME = 31
LONGEST_LINE = 512

FORM = re.compile(rb'([A-Z0-9_]{1,%d})\t(-?[0-9]+)' % MOST_NAME)


def lines_of(data):
    """A newline ends a line, and a last line needs none."""
    lines = data.split(b'\n')
    return lines[:-1] if lines[-1] == b'' else lines


def read_line(line, place, houses):
    """The name of a line and its reformation, or its refusal, where `houses` are those of the lines before it."""
    form = FORM.fullmatch(line)
    if len(line) > LONGEST_LINE or not form:
        return refused(22, place)
    name, r = form.group(1), int(form.group(2))
    if not LOW <= r <= HIGH:
        first = form.end(1) + 1
        after_sign = first + (r < 0)
        left = next(end for end in range(after_sign + 1, len(line) + 1) if not LOW <= int(line[first:end]) <= HIGH)
        return refused(28 if r < LOW else 11, place, left - 1)
    if name in NAMES or name in houses:
        return refused(23, place)
    if place > MOST_LINES:
        return refused(24, place)
    fault = reformation_fault(r)
    return refused(fault[1], place, r) if fault else ('=', name, r)


def meaning(data):
    """The names of a file with their reformations, or the refusal of its first refused line."""
    houses = {}
    for place, line in enumerate(lines_of(data), 1):
        told = read_line(line, place, houses)
        if told[0] == '!':
            return told
        houses[told[1]] = told[2]
    return houses


def is_refused(told):
    return not isinstance(told, dict)


def named(houses, name):
    """The calendar of a name, or its refusal."""
    if name in NAMES:
        return NAMES[name]
    return houses.get(name, refused(19))
