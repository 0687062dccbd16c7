"""The calendars, the answers and the text of a date, from the scope alone: what the models in this folder share.

The calendars go day by day, as timelines.py has them. Ordinals are counted by walking back day by day. The text is read by the grammar's words, left
to right. Nothing here is taken from the port. A calendar is 'J', 'G', the day of a reformation, or 'S', the Swedish one.
"""
import functools
import re

from reckonings import *
import timelines


# ---- the calendars, day by day

TIMELINES = {'J': timelines.JULIAN, 'G': timelines.GREGORIAN, 'S': timelines.SWEDISH}


@functools.lru_cache(maxsize=None)
def timeline(c):
    return TIMELINES[c] if c in TIMELINES else timelines.reforming(c)


def label(c, n):
    return timeline(c).label(n)


def accepted(c):
    return c in TIMELINES or 1830692 <= c <= 2147439588


FIRST = {}


def first_with(c, n, parts):
    """The first day of the year of day n, or of its month: walked back to day by day, and then remembered."""
    year_or_month = label(c, n)[:parts]
    if (c, year_or_month) not in FIRST:
        first = n
        while label(c, first - 1)[:parts] == year_or_month:
            first -= 1
        FIRST[c, year_or_month] = first
    return FIRST[c, year_or_month]


def style(c, n):
    """J on days with their Julian label, G on days with their Gregorian one, S on the Swedish days."""
    return timeline(c).style(n)


def record(c, n):
    """year, ordinal, month, day, day ordinal, day number, style."""
    y, m, d = label(c, n)
    return (y, n - first_with(c, n, 1) + 1, m, d, n - first_with(c, n, 2) + 1, n, style(c, n))


def bearer(c, lab):
    """The day of the unbounded calendar that bears the label, or None."""
    return timeline(c).bearer(lab)


def skipped(c, lab):
    """Strictly between the labels on both sides of a switch, and valid in the Julian or the Gregorian calendar."""
    return timeline(c).skipped(lab)


@functools.lru_cache(maxsize=None)
def days_of_year(c, y):
    """All days of the unbounded calendar with that year."""
    return timeline(c).days_of_year(y)


@functools.lru_cache(maxsize=None)
def days_of_month(c, y, m):
    return [n for n in days_of_year(c, y) if label(c, n)[1] == m]


# ---- calendars by name: the days on which the countries went over, as the comments of `ncal.rs` tell them

FIRST_GREGORIAN = """
ALBANIA 1912-12-14, AUSTRALIA 1752-09-14, AUSTRIA 1583-10-16, BELGIUM 1582-12-25, BULGARIA 1916-04-14, CANADA 1752-09-14, CHINA 1912-01-01,
CZECH_REPUBLIC 1584-01-17, DENMARK 1700-03-01, FINLAND 1753-03-01, FRANCE 1582-12-20, GERMANY 1700-03-01, GREECE 1924-03-23,
HUNGARY 1587-11-01, ICELAND 1700-11-28, ITALY 1582-10-15, JAPAN 1919-01-01, LATVIA 1918-02-15, LITHUANIA 1918-02-15,
LUXEMBOURG 1582-12-25, NETHERLANDS 1582-12-25, NORWAY 1700-03-01, POLAND 1582-10-15, PORTUGAL 1582-10-15, ROMANIA 1919-04-14,
RUSSIA 1918-02-14, SLOVENIA 1919-03-18, SPAIN 1582-10-15, SWEDEN 1753-03-01, SWITZERLAND 1655-03-11, TURKEY 1927-01-01,
UNITED_KINGDOM 1752-09-14, UNITED_STATES 1752-09-14, YUGOSLAVIA 1919-03-18
"""


NOT_REFORMING = {b'JULIAN': 'J', b'GREGORIAN': 'G'}  # the 37th name is b'SWEDISH': 'S'


def calendars_by_name():
    names = dict(NOT_REFORMING)
    for entry in FIRST_GREGORIAN.split(','):
        country, date = entry.split()
        names[country.encode()] = G.day(tuple(map(int, date.split('-'))))
    return names


NAMES = calendars_by_name()


# ---- answers: ('=', record) or ('!', number, place, value)

def refused(number, place=0, value=0):
    return ('!', number, place, value)


def reformation_fault(r):
    """Why no calendar is reforming at r, or None."""
    label_of_r = G.label(r)
    if r - 1 < LOW:
        return refused(1, 0, r)
    if not LOW <= J.day(label_of_r) <= HIGH:
        return refused(2, 0, r)
    if label_of_r <= J.label(r):
        return refused(1, 0, r)
    return None


def given(c, n, y):
    if not LOW <= n <= HIGH:
        return refused(7, 0, y)
    return ('=',) + record(c, n)


def on_ymd(c, y, m, d, place):
    n = bearer(c, (y, m, d))
    if n is None:
        return refused(5 if skipped(c, (y, m, d)) else 4, place, d)
    return given(c, n, y)


def on_ordinal(c, y, o, place):
    days = days_of_year(c, y)
    if not 1 <= o <= len(days):
        return refused(6, place, o)
    return given(c, days[o - 1], y)


# ---- the text

DIGITS = re.compile(rb'[0-9]+')


class Fault(Exception):
    pass


def number(s, at, low, high, signed):
    first = at
    if at == len(s):
        raise Fault(8, at, 0)
    negative = False
    if signed and s[at] in b'+-':
        negative = s[at] == ord('-')
        at += 1
        if not DIGITS.match(s, at):
            raise Fault(10, first, 0)
    m = DIGITS.match(s, at)
    if not m:
        raise Fault(9, at, s[at])
    value = 0
    for end in range(m.start() + 1, m.end() + 1):
        value = -int(s[at:end]) if negative else int(s[at:end])
        if not low <= value <= high:
            raise Fault(28 if value < low else 11, end - 1, 0)
    return value, m.end()


def dash(s, at):
    if at == len(s):
        raise Fault(13, at, 0)
    if s[at] != ord('-'):
        raise Fault(12, at, s[at])
    return at + 1


def fields_of(s):
    """What a text says, read left to right: year, ordinal and its place, or year, month, day and its place."""
    y, at = number(s, 0, LOW, HIGH, True)
    second = dash(s, at)
    n, at = number(s, second, 0, 2**32 - 1, False)
    if at == len(s):
        return (y, n, second)
    if not 1 <= n <= 12:
        raise Fault(3, second, n)
    third = dash(s, at)
    d, at = number(s, third, 0, 2**32 - 1, False)
    if at < len(s):
        raise Fault(14, at, s[at])
    return (y, n, d, third)


def parse(c, s):
    if not accepted(c):
        return refused(16)
    try:
        said = fields_of(s)
        return on_ordinal(c, *said) if len(said) == 3 else on_ymd(c, *said)
    except Fault as f:
        return refused(*f.args)
