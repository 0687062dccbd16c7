#!/usr/bin/env python3
"""The Swedish years, for the programs: swedish.py queries | every | entries

queries  For crates/probe/stdin, before the heading of the crate julian 0.7.1. `python3 models/swedish.py queries | python3 models/known.py` has the
         answers, for the same place in crates/probe/stdout.
every    Every day of 1699 to 1754 through every call. These are too many to be kept: what crates/probe/out/probe answers to them is compared with
         `python3 models/swedish.py every | python3 models/known.py`.
entries  The same years for the listing and for the explanation: cases of samples/check, which compares a script with its model (`as_model`). With a
         comma for the tab they are records for the import.

The probe has to take `S` as CAL and as the style of a record; in a digest that style counts as 2. The models know the name SWEDISH once it stands in
NOT_REFORMING (calendars.py). Once it stands in BUILT_IN (explanations.py) too, crates/explain/stdin has its switches.
"""
import sys

from calendars import *

YEARS = range(1699, 1755)
TURNS = [1700, 1712, 1753]
SWITCHES = [switch.day for switch in timeline('S').switches]
MOST = 2**32 - 1
OTHERS = ['J', 'G', NAMES[b'SWEDEN'], NAMES[b'DENMARK'], NAMES[b'ITALY']]


def query(*fields):
    return '\t'.join(map(str, fields))


def days_in(years):
    return [n for y in years for n in days_of_year('S', y)]


# ---- a day through every call

def by_label(y, m, d):
    yield from (query(key, 'S', y, m, d) for key in ('ymd', 'has', 'index'))
    yield query('parse', 'S', '%d-%d-%d' % (y, m, d))


def by_ordinal(y, o):
    yield query('ord', 'S', y, o)
    yield query('parse', 'S', '%d-%d' % (y, o))


def by_position(y, m, k):
    yield from (query(key, 'S', y, m, k) for key in ('kth', 'find'))


def by_number(n):
    yield from (query(key, 'S', n) for key in ('jdn', 'succ', 'pred', 'zero', 'genuine', 'write'))
    yield query('unix', 'S', (n - 2440588) * 86400 + n % 2 * 86399)
    yield from (query('conv', 'S', n, 'J'), query('conv', 'S', n, 'G'), query('conv', 'J', n, 'S'))
    yield from (query('view', 'S', n, 0, way) for way in range(4))


def every_call(n):
    y, o, m, d, k = record('S', n)[:5]
    yield from by_number(n)
    yield from by_label(y, m, d)
    yield from by_ordinal(y, o)
    yield from by_position(y, m, k)


def of_year(y):
    yield query('len', 'S', y)
    yield from (query('mon', 'S', y, m) for m in range(1, 13))


# ---- what is kept

def the_calendar():
    yield '## The calendar itself: neither reforming nor proleptic, and yet with a last Julian and a first Gregorian date.'
    yield query('ref', 'S')
    yield '## Its name, what the name begins with, and other names like it.'
    names = [*('SWEDISH'[:k] for k in range(1, 8)), 'SWEDEN', 'SWEDISH ', 'SWEDISHA', 'SWEDISK', 'Swedish', 'swedish']
    yield from (query('name', name) for name in names)


def by_digest():
    yield '## Every day of a year, for each of 1699 to 1754: by its number, by month and day, by ordinal, and by the four walkers.'
    for y in YEARS:
        first, *_, last = days = days_of_year('S', y)
        yield query('days', 'S', first, 1, len(days))
        yield from (query('year', 'S', y), query('places', 'S', y))
        yield from (query('walk', 'S', n, len(days), way) for way, n in enumerate((first - 1, last + 1, first, last)))
    yield '## All those years in one walk.'
    days = days_in(YEARS)
    yield from (query('walk', 'S', n, len(days), way) for way, n in enumerate((days[0] - 1, days[-1] + 1, days[0], days[-1])))
    yield '## Days from the first one on, far apart, and the years next to both ends.'
    yield query('days', 'S', LOW, 3000017, MOST // 3000017 + 2)
    for y in (LOW, -5884203, -5884202, -5884201, -4713, -4712, 0, 5874897, 5874898, 5874899, HIGH):
        yield from (query('year', 'S', y), query('places', 'S', y))


def near_switches():
    yield '## The days on both sides of each switch, and the first and the last day of each month of 1700, 1712 and 1753, through every call.'
    days = {n + k for n in SWITCHES for k in range(-4, 4)}
    for y in TURNS:
        for m in range(1, 13):
            of_month = days_of_month('S', y, m)
            days.update((of_month[0], of_month[-1]))
    for n in sorted(days):
        yield from every_call(n)


def labels():
    yield '## February of 1700, of 1712 and of 1753, days and positions 0 to 32.'
    for y in TURNS:
        for d in [*range(33), MOST]:
            yield from by_label(y, 2, d)
            yield from by_position(y, 2, d)
    yield '## The end of February in the years beside them.'
    for y in TURNS:
        for beside in (y - 4, y - 1, y + 1, y + 4):
            for d in (28, 29, 30):
                yield from by_label(beside, 2, d)
    yield '## 30 February 1712 in other calendars.'
    for c in OTHERS:
        yield from (query(key, c, 1712, 2, 30) for key in ('ymd', 'has', 'index'))
        yield query('parse', c, '1712-2-30')
    yield '## Lengths, and the days of each month.'
    for y in TURNS:
        yield from of_year(y)
    yield from (query(key, 'S', 1712, m, 30) for key in ('ymd', 'has', 'index', 'kth', 'find') for m in (0, 13, MOST))
    yield from (query('mon', 'S', 1712, m) for m in (0, 13, MOST))


def ordinals():
    yield '## Ordinals 0 to 368 of 1700, of 1712 and of 1753.'
    for y in TURNS:
        for o in [*range(369), MOST]:
            yield from by_ordinal(y, o)
    yield '## The last ordinals of the years beside them.'
    for y in TURNS:
        for beside in (y - 1, y + 1):
            for o in range(364, 369):
                yield from by_ordinal(beside, o)


def at_ends():
    yield '## Both ends of 32 bits: the last days, the days past them, and years far outside.'
    for n in (LOW, LOW + 1, HIGH - 1, HIGH):
        yield from every_call(n)
        yield from (query('view', 'S', n, 2, way) for way in range(4))
    for n in (LOW - 1, HIGH + 1):
        y, o, m, d, k = record('S', n)[:5]
        yield from by_label(y, m, d)
        yield from by_ordinal(y, o)
        yield from by_position(y, m, k)
    for y in (LOW, HIGH):
        yield from of_year(y)
        for m, d in ((1, 1), (2, 28), (2, 29), (2, 30), (12, 31), (12, 32)):
            yield from by_label(y, m, d)
        for o in (0, 1, 365, 366, 367):
            yield from by_ordinal(y, o)


def over_switches():
    yield '## Walkers over each switch.'
    for n in SWITCHES:
        for k in range(3):
            yield from (query('view', 'S', n + far, k, way) for way, far in enumerate((-2, 1, -1, 0)))
    yield '## The first and the last second of the days on both sides.'
    for n in SWITCHES:
        yield from (query('unix', 'S', (n - 2440588) * 86400 + rest) for rest in (-86400, -1, 0, 86399))
    yield '## The same days in other calendars.'
    for n in SWITCHES:
        for c in OTHERS:
            yield from (query('conv', 'S', n - 1, c), query('conv', 'S', n, c), query('conv', c, n - 1, 'S'), query('conv', c, n, 'S'))


def made_up():
    """A record as it is, with each style, with each field changed by one, and in another calendar."""
    yield '## Records that may be made up: each style, each number one off, and other calendars.'
    for n in sorted({n + k for n in SWITCHES for k in (-1, 0)} | {2344000}):
        y, o, m, d, k, _, style = record('S', n)
        numbers = (n, y, o, m, d, k)
        records = [(*numbers, other) for other in 'JGS']
        for i in range(6):
            records += [(*numbers[:i], numbers[i] + by, *numbers[i + 1:], style) for by in (-1, 1) if i < 2 or numbers[i] + by >= 0]
        for rec in records:
            yield query('genuine', 'S', '=', *rec)
        for rec in records[:3]:
            yield from (query(key, 'S', '=', *rec) for key in ('succ', 'pred', 'zero', 'write'))
            yield query('conv', 'S', '=', *rec, 'G')
            yield from (query('view', 'S', '=', *rec, 0, way) for way in (0, 3, 4, 8))
            yield from (query('genuine', c, '=', *rec) for c in OTHERS)
        for c in OTHERS:
            yield query('genuine', 'S', '=', n, *record(c, n)[:5], record(c, n)[6])


def queries():
    yield '# The Swedish years.'
    for some in (the_calendar, by_digest, near_switches, labels, ordinals, at_ends, over_switches, made_up):
        yield from some()


# ---- every day

def every():
    for y in YEARS:
        yield from of_year(y)
    for n in days_in(YEARS):
        yield from every_call(n)


# ---- the listing

def entries():
    texts = []
    for n in days_in(YEARS) + [LOW, LOW - 1, HIGH, HIGH + 1]:
        y, o, m, d = record('S', n)[:4]
        texts += ['%d-%d-%d' % (y, m, d), '%d-%d' % (y, o)]
    for y in TURNS:
        texts += ['%d-2-%d' % (y, d) for d in [*range(33), MOST]]
        texts += ['%d-%d' % (y, o) for o in [*range(369), MOST]]
    texts += ['%d-%s' % (y, rest) for y in (LOW, HIGH) for rest in ('1-1', '2-29', '2-30', '366', '367')]
    texts += ['1712-02-30', '+01712-002-030', '1712-2-30x', '1712-2-', '1712-13-30', '1712', '']
    yield from ('SWEDISH\t' + text for text in dict.fromkeys(texts))
    yield from (name.decode() + '\t1712-2-30' for name in sorted(NAMES))


if __name__ == '__main__':
    made = {'queries': queries, 'every': every, 'entries': entries}
    if len(sys.argv) != 2 or sys.argv[1] not in made:
        sys.exit('usage: swedish.py queries | every | entries')
    sys.stdout.writelines(line + '\n' for line in made[sys.argv[1]]())
