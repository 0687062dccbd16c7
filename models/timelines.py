#!/usr/bin/env python3
"""Calendars that switch, from the requests alone: what counts before the first switch, and a list of switches. timelines.py checks them.

A switch is a day, a style and what counts from that day on: the labels of a reckoning moved by some days, or 30 February of a year. Styles are `J`,
`G` and `S`, the Swedish one.
"""
import collections
import random

from reckonings import *

Moved = collections.namedtuple('Moved', 'reckoning by')  # day n has the label that day n + by has in the reckoning
February30 = collections.namedtuple('February30', 'year')
Switch = collections.namedtuple('Switch', 'day style counts')
Era = collections.namedtuple('Era', 'style counts')


class Timeline:
    """The label and the style of every day. `start` is what is in force before the first switch."""

    def __init__(self, switches, start=Era('J', Moved(J, 0))):
        self.switches, self.start = list(switches), start

    # ---- the days

    def era(self, n):
        """What is in force on day n: the last switch that has come, or the start."""
        for switch in reversed(self.switches):
            if switch.day <= n:
                return switch
        return self.start

    def label(self, n):
        counts = self.era(n).counts
        return (counts.year, 2, 30) if isinstance(counts, February30) else counts.reckoning.label(n + counts.by)

    def style(self, n):
        return self.era(n).style

    # ---- the labels

    def bearer(self, lab):
        """The day that bears the label, or None: each thing that counts at some time is asked for its day."""
        for era in [self.start, *self.switches]:
            if isinstance(era.counts, February30):
                n = era.day
            else:
                borne = era.counts.reckoning.day(lab)
                n = None if borne is None else borne - era.counts.by
            if n is not None and self.label(n) == lab:
                return n
        return None

    def gap(self, lab):
        """The switch day by which a label was skipped, or None: it lies strictly between the labels on both sides, and one reckoning has it."""
        if J.day(lab) is None and G.day(lab) is None:
            return None
        for switch in self.switches:
            if self.label(switch.day - 1) < lab < self.label(switch.day):
                return switch.day
        return None

    def skipped(self, lab):
        return self.gap(lab) is not None

    def missing(self, lab):
        return self.bearer(lab) is None and not self.skipped(lab)

    def days_of_year(self, y):
        """All days with that year, also those outside 32 bits: those near the year's start by each thing that counts, looked at one by one."""
        near = set()
        for era in [self.start, *self.switches]:
            if isinstance(era.counts, February30):
                near.add(era.day)
            else:
                start = era.counts.reckoning.day((y, 1, 1)) - era.counts.by
                near.update(range(start - 1, start + 367))
        return sorted(n for n in near if self.label(n)[0] == y)

    # ---- the first and the last day of a style

    def first_of(self, style):
        """The first day of a style; None if there is no such day, or none before which it was not in force."""
        days = [switch.day for switch in self.switches if switch.style == style]
        return days[0] if days and self.start.style != style else None

    def last_of(self, style):
        """The last day of a style; None if there is no such day, or if it stays in force."""
        eras = [self.start, *self.switches]
        days = [after.day - 1 for era, after in zip(eras, eras[1:]) if era.style == style]
        return days[-1] if days and eras[-1].style != style else None

    # ---- what is asked of a list

    def days_rise(self):
        return all(a.day < b.day for a, b in zip(self.switches, self.switches[1:]))

    def thirtieths_last_a_day(self):
        """A 30 February is followed by a switch on the next day."""
        after = [switch.day for switch in self.switches[1:]] + [None]
        return all(then == s.day + 1 for s, then in zip(self.switches, after) if isinstance(s.counts, February30))

    def first_labels_rise(self):
        """Each switch's first label is later than the label of the day before it."""
        return all(self.label(s.day - 1) < self.label(s.day) for s in self.switches)

    def years_fit(self):
        """The year of every 32-bit day fits 32 bits. It does not fall within an era, so those of its first and last 32-bit day tell it."""
        ends = [LOW, HIGH] + [n for s in self.switches for n in (s.day - 1, s.day) if LOW <= n <= HIGH]
        return all(LOW <= self.label(n)[0] <= HIGH for n in ends)

    def is_rising(self):
        return self.days_rise() and self.thirtieths_last_a_day() and self.first_labels_rise() and self.years_fit()


JULIAN = Timeline([])
GREGORIAN = Timeline([], Era('G', Moved(G, 0)))
SWEDISH = Timeline([
    Switch(2342042, 'S', Moved(J, 1)),
    Switch(2346425, 'S', February30(1712)),
    Switch(2346426, 'J', Moved(J, 0)),
    Switch(2361390, 'G', Moved(G, 0)),
])


def reforming(r):
    return Timeline([Switch(r, 'G', Moved(G, 0))])


# ---- the Swedish years, told day by day

TOLD = {(1700, 2, 28): (1700, 3, 1), (1712, 2, 29): (1712, 2, 30), (1712, 2, 30): (1712, 3, 1), (1753, 2, 17): (1753, 3, 1)}
KNOWN = {
    2342041: (1700, 2, 28), 2342042: (1700, 3, 1), 2346424: (1712, 2, 29), 2346425: (1712, 2, 30), 2346426: (1712, 3, 1),
    2361389: (1753, 2, 17), 2361390: (1753, 3, 1),
}
LENGTHS = {1700: 365, 1712: 367, 1753: 354}
SKIPPED = {(1700, 2, 29)} | {(1753, 2, d) for d in range(18, 29)}
MISSING = [(1700, 2, 30), (1712, 2, 31), (1753, 2, 29)]


def walked(first, last):
    """The days of these years and their labels: each next label by the leap rule in force, but for the four that the request tells."""
    n, lab = J.day((first, 1, 1)), (first, 1, 1)
    days = {}
    while lab[0] <= last:
        days[n] = lab
        leap = gregorian_leap if lab >= (1753, 3, 1) else julian_leap
        n, lab = n + 1, TOLD.get(lab) or next_label(leap, lab)
    return days


def told_style(lab):
    if (1700, 3, 1) <= lab <= (1712, 2, 30):
        return 'S'
    return 'J' if lab <= (1753, 2, 17) else 'G'


def same_days(days):
    """Each day of a walk has its label and its style, and each label its day."""
    for n, lab in days.items():
        assert (SWEDISH.label(n), SWEDISH.style(n), SWEDISH.bearer(lab)) == (lab, told_style(lab), n), (n, lab)
    assert KNOWN.items() <= days.items()
    poltava = G.day((1709, 7, 8))
    assert (days[poltava], J.label(poltava)) == ((1709, 6, 28), (1709, 6, 27))


def same_years(days):
    years = collections.defaultdict(list)
    for n, lab in days.items():
        years[lab[0]].append(n)
    for y, of_year in years.items():
        assert SWEDISH.days_of_year(y) == of_year
        assert len(of_year) == LENGTHS.get(y, 366 if julian_leap(y) else 365)
    assert days[years[1712][61 - 1]] == (1712, 2, 30)


def same_refusals(days):
    """Every month of these years with days 0 to 32: a label is borne, skipped or missing as told; and how many were asked for."""
    borne = set(days.values())
    asked = [(y, m, d) for y in sorted({lab[0] for lab in borne}) for m in range(1, 13) for d in range(33)]
    for lab in asked:
        assert (SWEDISH.bearer(lab) is not None) == (lab in borne)
        assert SWEDISH.skipped(lab) == (lab in SKIPPED)
        assert SWEDISH.missing(lab) == (lab not in borne and lab not in SKIPPED)
    assert borne <= set(asked) and SKIPPED <= set(asked) and all(map(SWEDISH.missing, MISSING))
    return len(asked)


def elsewhere():
    """Outside of these years labels are plain, and nothing is skipped; in no other calendar is there a 30 February."""
    dice = random.Random(1712)
    for _ in range(2000):
        lab = (dice.choice([dice.randrange(-6000000, 1699), dice.randrange(1755, 6000000)]), dice.randrange(1, 13), dice.randrange(33))
        assert SWEDISH.bearer(lab) == (J if lab[0] < 1700 else G).day(lab) and not SWEDISH.skipped(lab)
    accepted = [1830692, *range(2346400, 2346450), *(dice.randrange(1830692, 2147439589) for _ in range(1000)), 2147439588]
    for other in [JULIAN, GREGORIAN, *map(reforming, accepted)]:
        assert other.is_rising() and other.missing((1712, 2, 30))
    assert reforming(1830691).is_rising()  # although it is refused


def check_swedish():
    assert SWEDISH.is_rising() and (SWEDISH.last_of('J'), SWEDISH.first_of('G')) == (2361389, 2361390)
    days = walked(1699, 1754)
    same_days(days)
    same_years(days)
    labels = same_refusals(days)
    elsewhere()
    return 'SWEDISH: %d days walked, %d labels asked for, %d of them skipped' % (len(days), labels, len(SKIPPED))


# ---- lists by chance

FAR = 800 * 10**9  # days, more than there are in the years of 32 bits after 0


def near_label(dice, timeline, n, reckoning):
    """A reckoning moved so that day n continues the labels before it, or leaves some out, or falls back."""
    y, m, d = timeline.label(n - 1)
    days = [reckoning.day(lab) for lab in ((y, m, d), (y, m, 28))]
    before = days[1] if days[0] is None else days[0]
    leaps = dice.choice([1, 1, 1, 1, 1, 2, 2, 2, 3, 3, 11, 12, 31, 60, 366, 800, 0, 0, -1, -11, -366])
    if not dice.randrange(25):
        leaps = dice.choice([-FAR, FAR, FAR])
    return Moved(reckoning, before + leaps - n)


def some_start(dice):
    far = -FAR if not dice.randrange(5) else 0
    return dice.choice([Era('J', Moved(J, 0))] * 4 + [Era('G', Moved(G, 0)), Era('J', Moved(J, far)), Era('G', Moved(G, 3))])


def end_of_february(dice, timeline, n):
    """The day after some 28 or 29 February that is not far."""
    for later in range(n, n + 430):
        if timeline.label(later - 1)[1:] in dice.choice([[(2, 28)], [(2, 29)], [(2, 28), (2, 29)]]):
            return later
    return n


def some_list(dice):
    """Up to six switches that are not far from one another; some lists have days that do not rise, or a 30 February that goes on."""
    timeline = Timeline([], some_start(dice))
    switches = timeline.switches
    n = dice.choice([0, 1721060, 1830692, 2299161, 2342042, 2361390, LOW, HIGH, 10**13, -10**13, dice.randrange(LOW, HIGH)])
    n += dice.randrange(-400, 400)
    for _ in range(dice.randrange(1, 5)):
        n += dice.choice([1, 1, 2, 3, 5, 20, 45, 100]) if dice.randrange(40) else dice.choice([0, -1, -30])
        if not dice.randrange(3):
            n = end_of_february(dice, timeline, n)
            year = timeline.label(n - 1)[0] + dice.choice([0] * 8 + [1, -1])
            switches.append(Switch(n, dice.choice('JGS'), February30(year)))
            n += dice.choice([1] * 8 + [2])
            if not dice.randrange(12):
                continue
        switches.append(Switch(n, dice.choice('JGS'), near_label(dice, timeline, n, dice.choice([J, G]))))
    return timeline


def later_each_day(labels):
    return all(a < b for a, b in zip(labels, labels[1:]))


def same_labels(dice, timeline, first, labels):
    """Of a rising list: each label of the window has its day, and what is strictly between those of two days is skipped if the second is a switch."""
    switch_days = {s.day for s in timeline.switches}
    assert len(set(labels)) == len(labels)
    for n in switch_days:
        for near in (n - 2, n - 1, n, n + 1):
            assert timeline.bearer(timeline.label(near)) == near
    for year in {s.counts.year for s in timeline.switches if isinstance(s.counts, February30)}:
        of_year = [n for n in timeline.days_of_year(year) if first <= n < first + len(labels)]
        assert of_year == [n for n, (y, _, _) in enumerate(labels, first) if y == year]
    for _ in range(20):
        y, m, d = dice.choice(labels)
        lab = (y, dice.choice([m, 2]), dice.choice([d + 1, 29, 30, 31, dice.randrange(33)]))
        if labels[0] < lab < labels[-1]:
            after = next(i for i, one in enumerate(labels) if one >= lab)
            borne = labels[after] == lab
            valid = J.day(lab) is not None or G.day(lab) is not None
            assert timeline.bearer(lab) == (first + after if borne else None)
            assert timeline.skipped(lab) == (not borne and valid and first + after in switch_days)


def check_lists(count):
    dice = random.Random(107)
    found = collections.Counter()
    for _ in range(count):
        timeline = some_list(dice)
        if not timeline.days_rise():
            found['days fall'] += 1
            continue
        first, last = timeline.switches[0].day - 40, timeline.switches[-1].day + 40
        labels = [timeline.label(n) for n in range(first, last + 1)]
        found['days'] += len(labels)
        rises = timeline.first_labels_rise()
        if timeline.thirtieths_last_a_day():
            assert later_each_day(labels) == rises
        else:
            assert not later_each_day(labels)
            found['30 February goes on'] += 1
            continue
        if not rises:
            found['labels fall'] += 1
            continue
        same_labels(dice, timeline, first, labels)
        fit = timeline.years_fit()
        assert fit == (LOW <= timeline.label(LOW)[0] and timeline.label(HIGH)[0] <= HIGH)
        found['rise' if fit else 'years do not fit'] += 1
        found['with 30 February'] += fit and any(isinstance(s.counts, February30) for s in timeline.switches)
    counts = '%(days)d days walked, %(rise)d rise (%(with 30 February)d of them with a 30 February); of the others days fall in %(days fall)d, '
    counts += 'a 30 February goes on in %(30 February goes on)d, labels fall in %(labels fall)d, years do not fit in %(years do not fit)d'
    return '%d lists: ' % count + counts % found


def check_years():
    """The last year of 32 bits on the last day, the first one on the first day, and one year further; a day outside 32 bits may have any year."""
    last, after, first, before = (HIGH, 12, 31), (HIGH + 1, 1, 1), (LOW, 1, 1), (LOW - 1, 12, 31)
    for r in (J, G):
        for n, lab, fits in [(HIGH, last, True), (HIGH - 1, last, False), (HIGH, after, False), (HIGH + 1, after, True)]:
            assert Timeline([Switch(n, 'S', Moved(r, r.day(lab) - n))]).is_rising() == fits
        for n, lab, fits in [(LOW, first, True), (LOW + 1, first, False), (LOW, before, False), (LOW - 1, before, True)]:
            assert Timeline([], Era('S', Moved(r, r.day(lab) - n))).is_rising() == fits
        for n, year, fits in [(HIGH, HIGH, True), (HIGH, HIGH + 1, False), (HIGH - 1, HIGH + 1, False), (HIGH + 1, HIGH + 1, True)]:
            march = Moved(r, r.day((year, 3, 1)) - n - 1)
            assert Timeline([Switch(n, 'S', February30(year)), Switch(n + 1, 'S', march)]).is_rising() == fits


if __name__ == '__main__':
    check_years()
    print(check_swedish() + '; ' + check_lists(4000))
