#!/usr/bin/env python3
"""Why each entry of standard input is accepted or refused, in words, as the requests have it: explaining.py [CATALOGUE] <entries.tsv

CATALOGUE is a file as listing.py takes it; beside a refused one nothing is explained. The answer to an entry is the listing's. What is said of it
is found by asking day after day, and what could stand in a text by trying every byte.
"""
import functools
import re
import sys

from calendars import *
import catalogue
import listing


def shown(some):
    return ''.join(chr(b) if 32 <= b <= 126 else '?' for b in some)


def sentence(words, *said):
    return words % said + '.\n'


# ---- what could stand in a text

FORM = re.compile(rb'([+-]?[0-9]+)-([0-9]+)(?:-([0-9]+))?')


def in_grammar(s):
    form = FORM.fullmatch(s)
    if not form:
        return False
    year, second, third = (n and int(n) for n in form.groups())
    if third is not None and not (1 <= second <= 12 and third < 2**32):
        return False
    return LOW <= year <= HIGH and second < 2**32


# What begins a text of the grammar ends with a sign, with a digit of the year, with a `-` after a number, or with a digit of another number, and then
# these make it a text: 1-1, -1, 1, nothing. Its last number may lack digits, but these would only take it further from 0: it is in its range without
# them. A second number that ends the text is an ordinal, and needs no more; one with a `-` after it is whole, so it is a month.
COMPLETIONS = [b'', b'1', b'-1', b'1-1']


@functools.lru_cache(maxsize=None)
def could_stand(front):
    """The bytes that could stand after the front of a text, and whether the end could."""
    after = (front + bytes([b]) for b in range(256))
    could = bytes(begun[-1] for begun in after if any(in_grammar(begun + rest) for rest in COMPLETIONS))
    return could, in_grammar(front)


def choices(could, end):
    digits = [b for b in could if b in b'0123456789']
    assert bytes(digits) == b'0123456789'[:len(digits)] and all(b in b'-+' for b in could if b not in digits)
    words = []
    if digits:
        words.append({10: 'a digit', 1: 'the digit 0'}.get(len(digits), 'a digit 0 to %d' % (len(digits) - 1)))
    words.extend('"%c"' % b for b in b'-+' if b in could)
    if end:
        words.append('the end')
    return ' or '.join(words)


# ---- faults of a text

YEAR_LEAVES = 'the year leaves its range, -2147483648 to 2147483647, at place %d'
NUMBER_LEAVES = 'the number leaves its range, 0 to 4294967295, at place %d'
FAULTS = {
    8: 'it ends at place %d, where a number has to stand',
    9: 'a number has to stand at place %d',
    10: 'a digit has to follow the sign, at place %d',
    12: 'no "-" stands at place %d',
    13: 'it ends after the year, at place %d',
    14: 'it goes on after the day, at place %d',
}


def fault_words(number, text, place):
    if number in (11, 28):
        year_is_over = re.search(rb'[0-9]-', text[:place])
        return NUMBER_LEAVES if year_is_over else YEAR_LEAVES
    return FAULTS[number]


def fault(number, place, value, text):
    """What is wrong in a text, and the place that is pointed at."""
    if number == 3:
        return 'the month at place %d is %d, and a month is 1 to 12' % (place, value), place
    place += number == 10  # after the sign
    could, end = could_stand(text[:place])
    stands_well = text[place] in could if place < len(text) else end
    assert not stands_well and (could or end)
    return fault_words(number, text, place) % place + '; there could stand ' + choices(could, end), place


def faulty(refusal, name, text):
    words, place = fault(*refusal, text)
    picture = '    %s\n    %s^\n' % (shown(text), ' ' * place)
    return sentence('"%s" is no date in %s: %s', shown(text), name, words) + picture


# ---- facts of a calendar

RULES = {'J': ('Julian', julian_leap), 'G': ('Gregorian', gregorian_leap), 'S': ('Julian', julian_leap)}


def runs(numbers):
    """The first and the last of each run of numbers."""
    firsts = [k for k in numbers if k - 1 not in numbers]
    lasts = [k for k in numbers if k + 1 not in numbers]
    return list(zip(firsts, lasts))


def month_has(c, y, m):
    """The days of a month, asked for one by one; those outside 32 bits count."""
    days = [d for d in range(41) if bearer(c, (y, m, d)) is not None]
    assert days == [label(c, n)[2] for n in days_of_month(c, y, m)]
    if not days:
        return 'no days'
    return 'the days ' + ' and '.join('%d to %d' % run for run in runs(days))


def day_of(c, said):
    """The day of a date that exists."""
    if len(said) == 3:
        y, ordinal, _ = said
        return days_of_year(c, y)[ordinal - 1]
    return bearer(c, said[:3])


def on_day(c, n):
    return '%d-%d-%d (day %d)' % (*label(c, n), n)


# ---- an entry

def of_accepted(record, name, text):
    y, _, m, d, _, n, style = record
    rule, leap = RULES[style]
    kind = 'a' if leap(y) else 'no'
    return sentence('%s in %s is %d-%d-%d, day %d. The %s rule applied, and %d is %s leap year under that rule', text, name, y, m, d, n, rule, y, kind)


def of_refused(number, c, said, name, text):
    """Of a text of the grammar, by what it says."""
    if number == 4:
        y, m = said[:2]
        return sentence('%s is no date in %s: the month %d-%d has %s there', text, name, y, m, month_has(c, y, m))
    if number == 5:
        switch = timeline(c).gap(said[:3])
        return sentence('%s was skipped in %s: %s was followed by %s', text, name, on_day(c, switch - 1), on_day(c, switch))
    if number == 6:
        length = len(days_of_year(c, said[0]))
        words = '%s is no date in %s: a single number after the year counts its days, and the year %d has %d days there'
        return sentence(words, text, name, said[0], length)
    assert number == 7
    end = 'late in %s: its day number would be above 2147483647' if day_of(c, said) > HIGH else 'early in %s: its day number would be below -2147483648'
    return sentence('%s is too ' + end, text, name)


def explained(line, houses):
    told = listing.answer(line, houses)
    if told == refused(20):
        return sentence('The line has more than 512 bytes, and is not read')
    name, _, text = line.partition(b'\t')
    if told == refused(19):
        unknown = '"%s" is not the name of a calendar, neither of a built-in one nor of one in the catalogue.'
        return sentence(unknown + ' A name is all that stands before the first tab of a line', shown(name))
    if told[0] == '=':
        return of_accepted(told[1:], shown(name), shown(text))
    if told[1] in (4, 5, 6, 7):
        return of_refused(told[1], catalogue.named(houses, name), fields_of(text), shown(name), shown(text))
    return faulty(told[1:], shown(name), text)


def explanation(data, houses):
    """A paragraph for each line; lines that are the same are explained once."""
    lines = catalogue.lines_of(data)
    paragraphs = {line: explained(line, houses) for line in dict.fromkeys(lines)}
    return [paragraphs[line] for line in lines]


if __name__ == '__main__':
    houses = catalogue.meaning(listing.read_catalogue(sys.argv[1:]))
    if catalogue.is_refused(houses):
        sys.exit('catalogue: refused %d at line %d' % houses[1:3])
    sys.stdout.buffer.write(''.join(explanation(sys.stdin.buffer.read(), houses)).encode())
