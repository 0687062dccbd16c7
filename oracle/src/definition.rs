//! The calendars as they are defined, without the crate and without the port: a day is a whole number; below the day of the reformation it
//! has its Julian label, from there on its Gregorian one; a year or a month is the days that bear it. Years are counted from an anchor with
//! the leap rules alone, in 64 bits. The tests hold these counts against labels that go from each day to the next.
use crate::protocol::{Cal, Library, Or, Record, Refusal, Reformation};
use std::ops::{Range, RangeInclusive};

/// Year, month and day, which are compared in this order.
pub type Label = (i64, u32, u32);

/// A calendar by the first day with a Gregorian label, which for the two others lies beyond every day.
#[derive(Clone, Copy, PartialEq, Eq, Debug)]
pub struct Switched {
    pub cal: Cal,
    pub switch: i64,
}

#[derive(Clone, Copy, PartialEq, Eq, Debug)]
pub struct Dated {
    pub cal: Switched,
    pub day: i64,
}

pub struct Definition;

// ---- The two reckonings

pub fn is_leap(julian: bool, year: i64) -> bool {
    year.rem_euclid(4) == 0 && (julian || year.rem_euclid(100) != 0 || year.rem_euclid(400) == 0)
}

pub fn month_length(julian: bool, year: i64, month: u32) -> u32 {
    match month {
        2 => 28 + is_leap(julian, year) as u32,
        4 | 6 | 9 | 11 => 30,
        _ => 31,
    }
}

/// How many days of year 0 and later ones lie before a year; for years below 0 it is negative.
fn days_before(julian: bool, year: i64) -> i64 {
    let fours = (year + 3).div_euclid(4);
    if julian {
        return 365 * year + fours;
    }
    365 * year + fours - (year + 99).div_euclid(100) + (year + 399).div_euclid(400)
}

/// The first day of a year. Julian -4712-01-01 is day 0, Gregorian 1582-10-15, the 288th day of its year, is day 2299161.
pub fn year_start(julian: bool, year: i64) -> i64 {
    if julian {
        days_before(true, year) - days_before(true, -4712)
    } else {
        days_before(false, year) - days_before(false, 1582) + 2299161 - 287
    }
}

pub fn label(julian: bool, day: i64) -> Label {
    // A year has 365 or 366 days, so that no guess here is too late.
    let since = day - year_start(julian, 0);
    let mut year = since.div_euclid(if since < 0 { 365 } else { 366 });
    loop {
        let past = day - year_start(julian, year + 1);
        if past < 0 {
            break;
        }
        year += 1 + past.div_euclid(366);
    }
    let mut left = day - year_start(julian, year);
    let mut month = 1;
    while left >= month_length(julian, year, month).into() {
        left -= i64::from(month_length(julian, year, month));
        month += 1;
    }
    (year, month, left as u32 + 1)
}

/// The label of the day after.
pub fn next_label(julian: bool, (year, month, day): Label) -> Label {
    if day < month_length(julian, year, month) {
        (year, month, day + 1)
    } else if month < 12 {
        (year, month + 1, 1)
    } else {
        (year + 1, 1, 1)
    }
}

pub fn is_label(julian: bool, (year, month, day): Label) -> bool {
    (1..=12).contains(&month) && 1 <= day && day <= month_length(julian, year, month)
}

pub fn day_of(julian: bool, (year, month, day): Label) -> i64 {
    let before: u32 = (1..month).map(|m| month_length(julian, year, m)).sum();
    year_start(julian, year) + i64::from(before) + i64::from(day) - 1
}

// ---- Days that bear a year or a month

/// The Julian days and the Gregorian days, each from a first one up to one that is past them.
#[derive(Clone, Copy)]
pub struct Runs {
    julian: (i64, i64),
    gregorian: (i64, i64),
}

impl Runs {
    fn new(cal: Switched, julian: (i64, i64), gregorian: (i64, i64)) -> Self {
        Runs {
            julian: (julian.0, julian.1.min(cal.switch).max(julian.0)),
            gregorian: (gregorian.0.max(cal.switch).min(gregorian.1), gregorian.1),
        }
    }
    pub fn year(cal: Switched, year: i64) -> Self {
        let run = |julian| (year_start(julian, year), year_start(julian, year + 1));
        Runs::new(cal, run(true), run(false))
    }
    pub fn month(cal: Switched, year: i64, month: u32) -> Self {
        let run = |julian| {
            let first = day_of(julian, (year, month, 1));
            (first, first + i64::from(month_length(julian, year, month)))
        };
        Runs::new(cal, run(true), run(false))
    }
    fn julian_days(&self) -> i64 {
        self.julian.1 - self.julian.0
    }
    pub fn len(&self) -> u32 {
        (self.julian_days() + self.gregorian.1 - self.gregorian.0) as u32
    }
    /// The k-th day, from 1.
    pub fn nth(&self, k: u32) -> Option<i64> {
        let k = i64::from(k);
        if k < 1 || k > self.len().into() {
            None
        } else if k <= self.julian_days() {
            Some(self.julian.0 + k - 1)
        } else {
            Some(self.gregorian.0 + k - self.julian_days() - 1)
        }
    }
    fn place(&self, cal: Switched, day: i64) -> u32 {
        let place = if day < cal.switch { day - self.julian.0 } else { self.julian_days() + day - self.gregorian.0 };
        place as u32 + 1
    }
    /// Whether the month has days of both reckonings with a gap between them.
    pub fn has_gap(&self) -> bool {
        self.julian_days() > 0 && self.gregorian.0 < self.gregorian.1
    }
}

impl Switched {
    pub fn of(cal: Cal) -> Self {
        let switch = match cal {
            Cal::Julian => i64::MAX,
            Cal::Gregorian => i64::MIN,
            Cal::Reforming(r) => r.into(),
        };
        Switched { cal, switch }
    }
    pub fn label(self, day: i64) -> Label {
        label(day < self.switch, day)
    }
    /// Strictly between the labels on both sides of the switch, and a Julian or a Gregorian label.
    fn skips(self, l: Label) -> bool {
        let valid = is_label(true, l) || is_label(false, l);
        matches!(self.cal, Cal::Reforming(_)) && valid && self.label(self.switch - 1) < l && l < self.label(self.switch)
    }
    /// The day that bears a label, also one outside 32 bits.
    pub fn find(self, l: Label) -> Or<i64> {
        if is_label(true, l) && day_of(true, l) < self.switch {
            return Ok(day_of(true, l));
        }
        if is_label(false, l) && day_of(false, l) >= self.switch {
            return Ok(day_of(false, l));
        }
        Err(Refusal::new(if self.skips(l) { 5 } else { 4 }, l.2.into()))
    }
    pub fn record(self, day: i64) -> Record {
        let (year, month, day_of_month) = self.label(day);
        Record {
            jdn: day as i32,
            year: year as i32,
            ordinal: Runs::year(self, year).place(self, day),
            month,
            day: day_of_month,
            day_ordinal: Runs::month(self, year, month).place(self, day),
            julian: day < self.switch,
            weekday: weekday(day),
        }
    }
}

pub fn weekday(day: i64) -> u32 {
    day.rem_euclid(7) as u32 + 1
}

fn checked_month(month: u32) -> Or<()> {
    if (1..=12).contains(&month) {
        Ok(())
    } else {
        Err(Refusal::new(3, month.into()))
    }
}

fn fits(cal: Switched, year: i32, day: i64) -> Or<Dated> {
    match i32::try_from(day) {
        Ok(_) => Ok(Dated { cal, day }),
        Err(_) => Err(Refusal::new(7, year.into())),
    }
}

/// The first Gregorian dates of the countries, as the comments of `ncal.rs` tell them.
const FIRST_GREGORIAN: &[(&str, Label)] = &[
    ("ALBANIA", (1912, 12, 14)), ("AUSTRALIA", (1752, 9, 14)), ("AUSTRIA", (1583, 10, 16)), ("BELGIUM", (1582, 12, 25)),
    ("BULGARIA", (1916, 4, 14)), ("CANADA", (1752, 9, 14)), ("CHINA", (1912, 1, 1)), ("CZECH_REPUBLIC", (1584, 1, 17)),
    ("DENMARK", (1700, 3, 1)), ("FINLAND", (1753, 3, 1)), ("FRANCE", (1582, 12, 20)), ("GERMANY", (1700, 3, 1)), ("GREECE", (1924, 3, 23)),
    ("HUNGARY", (1587, 11, 1)), ("ICELAND", (1700, 11, 28)), ("ITALY", (1582, 10, 15)), ("JAPAN", (1919, 1, 1)), ("LATVIA", (1918, 2, 15)),
    ("LITHUANIA", (1918, 2, 15)), ("LUXEMBOURG", (1582, 12, 25)), ("NETHERLANDS", (1582, 12, 25)), ("NORWAY", (1700, 3, 1)),
    ("POLAND", (1582, 10, 15)), ("PORTUGAL", (1582, 10, 15)), ("ROMANIA", (1919, 4, 14)), ("RUSSIA", (1918, 2, 14)),
    ("SLOVENIA", (1919, 3, 18)), ("SPAIN", (1582, 10, 15)), ("SWEDEN", (1753, 3, 1)), ("SWITZERLAND", (1655, 3, 11)),
    ("TURKEY", (1927, 1, 1)), ("UNITED_KINGDOM", (1752, 9, 14)), ("UNITED_STATES", (1752, 9, 14)), ("YUGOSLAVIA", (1919, 3, 18)),
];

// ---- The calls

impl Library for Definition {
    type Calendar = Switched;
    type Date = Dated;

    /// The table of reformations, which a theorem of the port and all 2^32 answers of the crate agree with.
    fn calendar(&mut self, cal: Cal) -> Or<Switched> {
        if let Cal::Reforming(r) = cal {
            match r {
                i32::MIN | -2147439514..=1830691 => return Err(Refusal::new(1, r.into())),
                1830692..=2147439588 => {}
                _ => return Err(Refusal::new(2, r.into())),
            }
        }
        Ok(Switched::of(cal))
    }

    fn at_jdn(&self, cal: Switched, jdn: i32) -> Dated {
        Dated { cal, day: jdn.into() }
    }

    fn at_ymd(&self, cal: Switched, year: i32, month: u32, day: u32) -> Or<Dated> {
        checked_month(month)?;
        fits(cal, year, cal.find((year.into(), month, day))?)
    }

    fn at_ordinal(&self, cal: Switched, year: i32, ordinal: u32) -> Or<Dated> {
        match Runs::year(cal, year.into()).nth(ordinal) {
            Some(day) => fits(cal, year, day),
            None => Err(Refusal::new(6, ordinal.into())),
        }
    }

    fn record(&self, d: Dated) -> Record {
        d.cal.record(d.day)
    }

    fn zero(&self, d: Dated) -> (u32, u32) {
        let r = self.record(d);
        (r.ordinal - 1, r.day_ordinal - 1)
    }

    fn reformation(&self, cal: Switched) -> Reformation {
        let day = match cal.cal {
            Cal::Reforming(r) => Some(r),
            _ => None,
        };
        Reformation {
            reforming: day.is_some(),
            proleptic: day.is_none(),
            day,
            last_julian: day.map(|r| cal.record(i64::from(r) - 1)),
            first_gregorian: day.map(|r| cal.record(r.into())),
        }
    }

    fn year_length(&self, cal: Switched, year: i32) -> u32 {
        Runs::year(cal, year.into()).len()
    }

    fn month(&self, cal: Switched, year: i32, month: u32) -> Or<[u32; 3]> {
        checked_month(month)?;
        let days = Runs::month(cal, year.into(), month);
        let number = |k| days.nth(k).map_or(0, |day| cal.label(day).2);
        Ok([days.len(), number(1), number(days.len())])
    }

    fn contains(&self, cal: Switched, year: i32, month: u32, day: u32) -> Or<bool> {
        checked_month(month)?;
        Ok(cal.find((year.into(), month, day)).is_ok())
    }

    fn day_ordinal(&self, cal: Switched, year: i32, month: u32, day: u32) -> Or<u32> {
        checked_month(month)?;
        let found = cal.find((year.into(), month, day))?;
        Ok(Runs::month(cal, year.into(), month).place(cal, found))
    }

    fn nth_day(&self, cal: Switched, year: i32, month: u32, k: u32) -> Or<u32> {
        checked_month(month)?;
        match Runs::month(cal, year.into(), month).nth(k) {
            Some(day) => Ok(cal.label(day).2),
            None => Err(Refusal::new(21, k.into())),
        }
    }

    fn nth_date(&self, cal: Switched, year: i32, month: u32, k: u32) -> Or<Dated> {
        checked_month(month)?;
        match Runs::month(cal, year.into(), month).nth(k) {
            Some(day) => fits(cal, year, day),
            None => Err(Refusal::new(21, k.into())),
        }
    }

    fn succ(&self, d: Dated) -> Or<Dated> {
        if d.day == i32::MAX.into() {
            return Err(Refusal::new(15, 0));
        }
        Ok(Dated { day: d.day + 1, ..d })
    }

    fn pred(&self, d: Dated) -> Or<Dated> {
        if d.day == i32::MIN.into() {
            return Err(Refusal::new(15, 0));
        }
        Ok(Dated { day: d.day - 1, ..d })
    }

    fn convert(&self, d: Dated, to: Switched) -> Dated {
        Dated { cal: to, ..d }
    }

    fn walk(&self, d: Dated, way: u32, count: u32) -> Vec<Dated> {
        walked_days(d.day, way, count).map(|day| Dated { day, ..d }).collect()
    }

    fn write(&self, d: Dated) -> String {
        let (year, month, day) = d.cal.label(d.day);
        format!("{year}-{month}-{day}")
    }

    fn weekday(&self, jdn: i32) -> u32 {
        weekday(jdn.into())
    }

    fn seconds(&self, jdn: i32) -> i64 {
        (i64::from(jdn) - 2440588) * 86400
    }

    fn time(&self, t: i64) -> Or<(i32, u32)> {
        match i32::try_from(t.div_euclid(86400) + 2440588) {
            Ok(day) => Ok((day, t.rem_euclid(86400) as u32)),
            Err(_) => Err(Refusal::new(17, t)),
        }
    }

    fn at_time(&self, cal: Switched, t: i64) -> Or<(Dated, u32)> {
        let (jdn, seconds) = self.time(t)?;
        Ok((self.at_jdn(cal, jdn), seconds))
    }

    fn parse(&self, cal: Switched, text: &[u8]) -> Or<Dated> {
        let placed = |place| move |why: Refusal| Refusal { place: if why.number == 7 { 0 } else { place }, ..why };
        match read(text)? {
            Text::Ordinal(year, ordinal, place) => self.at_ordinal(cal, year, ordinal).map_err(placed(place)),
            Text::Day(year, month, day, place) => self.at_ymd(cal, year, month, day).map_err(placed(place)),
        }
    }

    fn named(&self, name: &[u8]) -> Or<Cal> {
        match name {
            b"JULIAN" => Ok(Cal::Julian),
            b"GREGORIAN" => Ok(Cal::Gregorian),
            _ => match FIRST_GREGORIAN.iter().find(|c| c.0.as_bytes() == name) {
                Some(c) => Ok(Cal::Reforming(day_of(false, c.1) as i32)),
                None => Err(Refusal::new(19, 0)),
            },
        }
    }
}

/// The days that a walker gives: 0 later, 1 earlier, 2 this and later, 3 this and earlier; at most `count`, and none outside 32 bits.
pub fn walked_days(start: i64, way: u32, count: u32) -> impl Iterator<Item = i64> {
    let (first, step) = match way {
        0 => (1, 1),
        1 => (-1, -1),
        2 => (0, 1),
        _ => (0, -1),
    };
    (0..i64::from(count)).map(move |k| start + first + k * step).take_while(|&day| i32::try_from(day).is_ok())
}

// ---- Texts

/// A date text: year and ordinal, or year, month and day, with the place of the last number.
pub enum Text {
    Ordinal(i32, u32, usize),
    Day(i32, u32, u32, usize),
}

/// Digits from a place on, and the place after them. The value stops growing above 64 bits.
/// The place after the digits that stand at a place, if any do.
fn digits(text: &[u8], at: usize) -> Option<usize> {
    let n = text[at..].iter().take_while(|b| b.is_ascii_digit()).count();
    (n > 0).then_some(at + n)
}

/// The number that digits write, below 0 where `sign` is; or 11 or 28, at the first digit with which it is outside its range.
fn in_range(text: &[u8], digits: Range<usize>, sign: i64, range: RangeInclusive<i64>) -> Or<i64> {
    digits.into_iter().try_fold(0, |value, place| {
        let value = value * 10 + sign * i64::from(text[place] - b'0');
        range.contains(&value).then_some(value).ok_or(fault(if sign < 0 { 28 } else { 11 }, text, place, false))
    })
}

fn fault(number: u32, text: &[u8], place: usize, value: bool) -> Refusal {
    Refusal { number, place, value: if value { text[place].into() } else { 0 } }
}

/// Refusal 8 or 9: no number begins here.
fn no_number(text: &[u8], at: usize) -> Refusal {
    if at == text.len() {
        fault(8, text, at, false)
    } else {
        fault(9, text, at, true)
    }
}

fn signed(text: &[u8]) -> Or<(i32, usize)> {
    let sign = text.first().filter(|b| b"+-".contains(b));
    let none = if sign.is_some() { fault(10, text, 0, false) } else { no_number(text, 0) };
    let first = sign.is_some() as usize;
    let next = digits(text, first).ok_or(none)?;
    let value = in_range(text, first..next, if sign == Some(&b'-') { -1 } else { 1 }, i32::MIN.into()..=i32::MAX.into())?;
    Ok((value as i32, next))
}

fn unsigned(text: &[u8], at: usize) -> Or<(u32, usize)> {
    let next = digits(text, at).ok_or_else(|| no_number(text, at))?;
    Ok((in_range(text, at..next, 1, 0..=u32::MAX.into())? as u32, next))
}

fn dash(text: &[u8], at: usize) -> Or<usize> {
    match text.get(at) {
        Some(b'-') => Ok(at + 1),
        Some(_) => Err(fault(12, text, at, true)),
        None => Err(fault(13, text, at, false)),
    }
}

pub fn read(text: &[u8]) -> Or<Text> {
    let (year, next) = signed(text)?;
    let second = dash(text, next)?;
    let (number, next) = unsigned(text, second)?;
    if next == text.len() {
        return Ok(Text::Ordinal(year, number, second));
    }
    checked_month(number).map_err(|why| Refusal { place: second, ..why })?;
    let third = dash(text, next)?;
    let (day, next) = unsigned(text, third)?;
    if next < text.len() {
        return Err(fault(14, text, next, true));
    }
    Ok(Text::Day(year, number, day, third))
}

#[cfg(test)]
mod tests {
    use super::*;

    /// Eight thousand years about the anchors, day by day, and back from each label to its day.
    #[test]
    fn labels_go_from_day_to_day() {
        assert_eq!(label(true, 0), (-4712, 1, 1));
        assert_eq!(label(false, 2299161), (1582, 10, 15));
        for julian in [true, false] {
            let mut l = label(julian, -200_000);
            for day in -200_000..2_800_000 {
                assert_eq!(label(julian, day), l);
                assert_eq!(day_of(julian, l), day);
                l = next_label(julian, l);
            }
        }
    }

    #[test]
    fn ends_of_32_bits() {
        assert_eq!(label(true, i32::MIN.into()), (-5884202, 3, 16));
        assert_eq!(label(false, i32::MIN.into()), (-5884323, 5, 15));
        assert_eq!(label(true, i32::MAX.into()), (5874777, 10, 17));
        assert_eq!(label(false, i32::MAX.into()), (5874898, 6, 3));
    }

    /// Ordinals and lengths of the years about some reformations, counted.
    #[test]
    fn ordinals_are_counted() {
        for r in [1830692, 1832153, 2298203, 2299161, 2361222, 2419403, 2419751, 3145930, 4717569] {
            let cal = Switched::of(Cal::Reforming(r as i32));
            let (mut ordinal, mut last) = (0, cal.label(r - 1000).0 - 1);
            for day in r - 1000..r + 1000 {
                let rec = cal.record(day);
                ordinal = if rec.year as i64 == last { ordinal + 1 } else { 1 };
                if last > cal.label(r - 1000).0 {
                    assert_eq!(rec.ordinal, ordinal);
                }
                last = rec.year.into();
            }
        }
    }
}
