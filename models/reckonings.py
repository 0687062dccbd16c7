"""The Julian and the Gregorian reckoning: each cycle of labels is stepped through once from its anchor, and later cycles repeat it."""

LOW, HIGH = -2**31, 2**31 - 1


def julian_leap(y):
    return y % 4 == 0


def gregorian_leap(y):
    return y % 4 == 0 and (y % 100 != 0 or y % 400 == 0)


def month_days(leap, m):
    return [31, 29 if leap else 28, 31, 30, 31, 30, 31, 31, 30, 31, 30, 31][m - 1]


def next_label(leap, label):
    y, m, d = label
    if d < month_days(leap(y), m):
        return (y, m, d + 1)
    return (y, m + 1, 1) if m < 12 else (y + 1, 1, 1)


class Reckoning:
    """The labels of every day: the day `anchor` has the given label, and each next day the next one. The labels repeat after so many years."""

    def __init__(self, leap, years, anchor, label):
        self.leap, self.years, self.anchor = leap, years, anchor
        self.cycle = []
        y, m, d = label
        while label != (y + years, m, d):
            self.cycle.append(label)
            label = next_label(leap, label)
        self.place = {label: i for i, label in enumerate(self.cycle)}

    def label(self, n):
        turns, i = divmod(n - self.anchor, len(self.cycle))
        y, m, d = self.cycle[i]
        return (y + turns * self.years, m, d)

    def day(self, label):
        """The day that bears the label, or None."""
        y, m, d = label
        lowest = self.cycle[0][0]
        for year in (lowest + (y - lowest) % self.years, lowest + self.years):
            i = self.place.get((year, m, d))
            if i is not None and (y - year) % self.years == 0:
                return self.anchor + i + (y - year) // self.years * len(self.cycle)
        return None


J = Reckoning(julian_leap, 4, 0, (-4712, 1, 1))
G = Reckoning(gregorian_leap, 400, 2299161, (1582, 10, 15))
