#!/usr/bin/env python3
"""The answers of oracle/PROTOCOL.md to the known queries: known.py <crates/probe/stdin

It answers each line up to the heading of the recorded part, and that one too, from the definition of the calendars alone. `S` is the Swedish
calendar, and its style; in a digest the style counts as 2.
"""
import sys

from calendars import *

RECORDED = b'# The crate julian 0.7.1'
WORD = 2**64


# ---- fields of a query

def calendar(field):
    """The calendar, and the refusal of its reformation; one that is marked `?` is not looked at."""
    if field in (b'J', b'G', b'S'):
        return field.decode(), None
    if field.startswith(b'?'):
        return int(field[1:]), None
    r = int(field)
    return r, reformation_fault(r)


def date(c, fields):
    """An answer with the record of a day number, or with the fields that stand after `=`; and the fields after the date."""
    if fields[0] == b'=':
        n, y, o, m, d, k = map(int, fields[1:7])
        return ('=', y, o, m, d, k, n, fields[7].decode()), fields[8:]
    if not accepted(c):
        return refused(16), fields[1:]
    return ('=',) + record(c, int(fields[0])), fields[1:]


# ---- fields of an answer

def numbers(rec):
    y, o, m, d, k, n, style = rec
    return [n, y, o, m, d, k, style]


def told(c, answer):
    """A record with style and weekday, or the refusal."""
    if answer[0] == '!':
        return list(answer)
    return numbers(answer[1:]) + [answer[6] % 7 + 1]


def genuine(c, rec):
    return accepted(c) and record(c, rec[5]) == tuple(rec)


def on_day(c, n):
    if not accepted(c):
        return refused(16)
    return ('=',) + record(c, n) if LOW <= n <= HIGH else refused(15)


# ---- queries about a date

def if_genuine(c, rec, *fields):
    """Each field by itself, so that a record that is made up is refused as often as it is asked."""
    return list(fields) if genuine(c, rec) else list(refused(16)) * len(fields)


def next_day(c, rec, step):
    return told(c, on_day(c, rec[5] + step)) if genuine(c, rec) else list(refused(16))


def about_date(key, c, answer, fields):
    if key == b'jdn' or answer[0] == '!':
        return told(c, answer)
    rec = answer[1:]
    n = rec[5]
    if key == b'succ':
        return next_day(c, rec, 1)
    if key == b'pred':
        return next_day(c, rec, -1)
    if key == b'zero':
        return if_genuine(c, rec, rec[1] - 1, rec[4] - 1)
    if key == b'genuine':
        return [int(genuine(c, rec))] + if_genuine(c, rec, n % 7 + 1, int(rec[6] == 'J'), int(rec[6] == 'G'))
    if key == b'write':
        return ['%d-%d-%d' % (rec[0], rec[2], rec[3])] if genuine(c, rec) else list(refused(16))
    if key == b'walk':
        return walk(c, rec, *map(int, fields))
    if key == b'conv':
        to, fault = calendar(fields[0])
        if fault:
            return list(fault)
        return told(to, on_day(to, n)) if genuine(c, rec) else list(refused(16))
    return view(c, rec, *map(int, fields))


# ---- digests: one number for many values

STYLE_VALUES = {'J': 1, 'G': 0, 'S': 2}


def digest(values):
    h = 0
    for x in values:
        h = (h * 1000003 + x + 2**33) % 2147483647
    return h


def date_values(answer, *places):
    """The values of a record, all as they are told or those at some places; or the one that a refused date counts as."""
    if answer[0] == '!':
        return [(2 if answer[1] == 7 else 1) - 2**33]
    values = [STYLE_VALUES.get(x, x) for x in told(None, answer)]
    return [values[place] for place in places] if places else values


def digest_of(answers, *places):
    return digest(x for answer in answers for x in date_values(answer, *places))


def days(c, n, by, count):
    numbers = [n + k * by for k in range(count) if LOW <= n + k * by <= HIGH]
    return [digest_of(on_day(c, k) for k in numbers), len(numbers)]


def year(c, y):
    values = [len(days_of_year(c, y))]
    for m in range(1, 13):
        values += month_question(b'mon', c, y, m)
        for d in range(34):
            values += date_values(on_ymd(c, y, m, d, 0), 0)
    return [digest(values)]


def places(c, y):
    return [digest_of((on_ordinal(c, y, o, 0) for o in range(371)), 3, 4, 5, 0)]


# ---- walkers: from day n the k-th call gives n+k, n-k, n+k-1, n-k+1

STEPS = (1, -1, 1, -1)


def on_or_past(way, n):
    """Whether a walker that holds day n has no day after it."""
    return not LOW <= n + STEPS[way] <= HIGH


def ended_when_made(way, n):
    return way < 2 and on_or_past(way, n)


def flag_fits(way, n, ended):
    return on_or_past(way, n) if ended else not ended_when_made(way, n)


def step(c, walker):
    way, rec, ended = walker
    n = rec[5]
    if not genuine(c, rec) or not flag_fits(way, n, ended):
        return refused(16), walker
    if ended:
        return refused(15), walker
    gives = n + STEPS[way] if way < 2 else n
    holds = gives if way < 2 or on_or_past(way, n) else n + STEPS[way]
    none_left = on_or_past(way, gives)
    return ('=',) + record(c, gives), (way, record(c, holds), none_left)


def shown(c, walker):
    way, rec, ended = walker
    return [way, c] + numbers(rec) + [int(ended)]


def view(c, rec, count, way):
    if way < 4:
        if not genuine(c, rec):
            return list(refused(16))
        walker = (way, rec, ended_when_made(way, rec[5]))
    else:
        walker = (way % 4, rec, way > 7)
    for _ in range(count):
        walker = step(c, walker)[1]
    given, after = step(c, walker)
    return shown(c, walker) + 2 * (told(c, given) + shown(c, after))


def walk(c, rec, count, way):
    walker = (way, rec, ended_when_made(way, rec[5]))
    given = []
    for _ in range(count):
        answer, walker = step(c, walker)
        given += [answer] if answer[0] == '=' else []
    return [len(given), digest_of(given)] + (told(c, given[-1]) if given else ['-'])


# ---- queries about years and months

def month_question(key, c, y, m, x=None):
    parts = 3 if key == b'mon' else 1
    if not accepted(c):
        return parts * refused(16)
    if not 1 <= m <= 12:
        return parts * refused(3, 0, m)
    days = days_of_month(c, y, m)
    if key == b'mon':
        first_and_last = [label(c, days[0])[2], label(c, days[-1])[2]] if days else [0, 0]
        return [len(days)] + first_and_last
    if key in (b'has', b'index'):
        n = bearer(c, (y, m, x))
        if key == b'has':
            return [0 if n is None else 1]
        if n is None:
            return refused(5 if skipped(c, (y, m, x)) else 4, 0, x)
        return [days.index(n) + 1]
    if not 1 <= x <= len(days):
        return refused(21, 0, x)
    if key == b'kth':
        return [label(c, days[x - 1])[2]]
    return told(c, given(c, days[x - 1], y))


def by_ymd(c, y, m, d):
    if not accepted(c):
        return refused(16)
    return refused(3, 0, m) if not 1 <= m <= 12 else on_ymd(c, y, m, d, 0)


# ---- queries about calendars

def reformation(c):
    if not accepted(c):
        return 5 * refused(16)
    reforming = c not in TIMELINES
    fields = [int(reforming), int(c in ('J', 'G')), c if reforming else '-']
    for n in (timeline(c).last_of('J'), timeline(c).first_of('G')):
        fields += ['-'] if n is None else told(c, on_day(c, n))
    return fields


DIGESTS = {b'days': days, b'year': year, b'places': places}


def of_calendar(key, fields):
    c, fault = calendar(fields[0])
    if fault:
        return fault
    if key == b'ref':
        return reformation(c)
    if key == b'parse':
        return told(c, parse(c, b'\t'.join(fields[1:])))
    if key == b'unix':
        return unix(c, int(fields[1]))
    if key in (b'jdn', b'succ', b'pred', b'zero', b'genuine', b'conv', b'view', b'write', b'walk'):
        answer, rest = date(c, fields[1:])
        return about_date(key, c, answer, rest)
    x = list(map(int, fields[1:]))
    if key == b'ymd':
        return told(c, by_ymd(c, *x))
    if key == b'ord':
        return told(c, on_ordinal(c, x[0], x[1], 0) if accepted(c) else refused(16))
    if key in DIGESTS:
        return DIGESTS[key](c, *x) if accepted(c) else refused(16)
    if key == b'len':
        return [len(days_of_year(c, x[0]))] if accepted(c) else refused(16)
    return month_question(key, c, *x)


# ---- seconds

FIRST_SECOND, LAST_SECOND = -185753453990400, 185331720383999


def time(t):
    if not FIRST_SECOND <= t <= LAST_SECOND:
        return refused(17, 0, t)
    day, rest = divmod(t, 86400)
    return [day + 2440588, rest]


def unix(c, t):
    if not accepted(c):
        return refused(16)
    answer = time(t)
    return answer if answer[0] == '!' else told(c, on_day(c, answer[0])) + answer[1:]


# ---- texts

def one_read(what, place, s):
    """What stands at a place, and the place after it."""
    at = place % WORD
    if at > len(s):
        return refused(16)
    try:
        if what == b'n':
            return number(s, at, 0, 2**32 - 1, False)
        if what == b's':
            return number(s, at, LOW, HIGH, True)
        if what == b'd':
            return [dash(s, at)]
        return ['.'] if at == len(s) else refused(14, at, s[at])
    except Fault as f:
        return refused(*f.args)


def by_reader(what, place, s):
    """The same by a reader that stands at the place, and the last 32 bits of where it stands then."""
    at = place % WORD
    told_read = list(one_read(what.lower(), place, s))
    if what == b'E':
        return told_read
    return told_read + [(at if told_read[0] == '!' else told_read[-1]) % 2**32]


def read_date(s):
    try:
        return fields_of(s)
    except Fault as f:
        return refused(*f.args)


# ---- lent buffers

def put(buf, at, text):
    if at + len(text) > len(buf):
        return refused(18, 0, len(text)), buf
    return [at + len(text)], buf[:at] + text + buf[at + len(text):]


def into_buffer(key, c, rec, buf):
    y, o, m, d = rec[:4]
    if key == b'bput':
        first, buf = put(buf, o, b'%d' % y)
        second, buf = put(buf, m, b'%d' % d)
        return list(first) + list(second), buf
    if key == b'bdate' and not genuine(c, rec):
        return refused(16), buf
    return put(buf, 0, b'%d-%d-%d' % (y, m, d))


def buffer(key, fields):
    size, text = int(fields[0]), b'\t'.join(fields[1:])
    c, fault = calendar(fields[2])
    answer, _ = date(c, fields[3:])
    if fault or answer[0] == '!':
        return [text] + list(fault or answer)
    told_size, lent = into_buffer(key, c, answer[1:], text[:size])
    return [lent + text[size:]] + list(told_size)


# ---- a line

def answer(line):
    if line.startswith(b'+'):
        line = line[1:] + b'\n'
    key, *fields = line.split(b'\t')
    if key == b'name':
        name = b'\t'.join(fields)
        return [NAMES[name]] if name in NAMES else refused(19)
    if key == b'wd':
        return [int(fields[0]) % 7 + 1]
    if key == b'sec':
        return [(int(fields[0]) - 2440588) * 86400]
    if key == b'time':
        return time(int(fields[0]))
    if key == b'text':
        return read_date(b'\t'.join(fields))
    if key == b'at':
        read = by_reader if fields[0].isupper() else one_read
        return read(fields[0], int(fields[1]), b'\t'.join(fields[2:]))
    if key in (b'bdate', b'bymd', b'bput'):
        return buffer(key, fields)
    return of_calendar(key, fields)


def written(field):
    return field if isinstance(field, bytes) else str(field).encode()


def main():
    lines = sys.stdin.buffer.read().split(b'\n')
    for line in lines if lines[-1] else lines[:-1]:
        told_line = line if line.startswith(b'#') else b'\t'.join(map(written, answer(line)))
        sys.stdout.buffer.write(told_line + b'\n')
        if line.startswith(RECORDED):
            return


main()
