//! The differences that are expected, one rule for each kind. A rule says for a query what the crate answers in place of what the definition
//! gives, and is silent on every other query. It is wrong where the crate does not give exactly that, also where the crate is right.
use crate::definition::{is_leap, label, month_length, next_label, read, walked_days, weekday, Definition, Label, Runs, Switched, Text};
use crate::protocol::{answer, places_digest, stepped, walked, year_digest, Answer, Cal, Library, Query, Record, Refusal, NOT_UTF8};

pub const PANIC: &str = "!\tPANIC";

pub struct Rule {
    pub name: &'static str,
    says: fn(&Query) -> Option<String>,
}

pub const RULES: &[Rule] = &[
    Rule { name: "year too short by one", says: short_year },
    Rule { name: "position wraps around", says: position_wraps },
    Rule { name: "date of a position outside 32 bits", says: outside },
    Rule { name: "29 February of a year that is not leap named skipped", says: february },
    Rule { name: "no day of a skipped month named skipped", says: skipped_month },
    Rule { name: "text that is not UTF-8", says: not_utf8 },
];

/// What the definition gives.
pub fn by_definition(query: &Query) -> String {
    let mut out = Answer::default();
    answer(&mut Definition, query, &mut out);
    out.0
}

/// The rule that speaks of a query, and what it foretells of the crate: something else than the definition gives.
pub fn foretold(query: &Query, defined: &str) -> Option<(usize, String)> {
    RULES.iter().enumerate().find_map(|(i, rule)| (rule.says)(query).filter(|says| says != defined).map(|says| (i, says)))
}

fn refused(why: Refusal) -> Option<String> {
    let mut out = Answer::default();
    out.refusal(why);
    Some(out.0)
}

fn record(r: Record) -> Option<String> {
    let mut out = Answer::default();
    out.record(&r);
    Some(out.0)
}

// ---- The year that the crate makes too short by one

/// Where the first Gregorian day lies after February of a Gregorian leap year, and the last Julian day before 1 March of that year or in an
/// earlier year, the crate counts the leap day among the skipped ones though the count of days before the gap never had it.
struct Short {
    cal: Switched,
    year: i32,
    length: u32,
    /// The day that falls out of the year.
    last: i64,
}

fn is_short(before: Label, (year, month, _): Label) -> bool {
    is_leap(false, year) && month > 2 && before < (year, 3, 1)
}

fn short(cal: Cal) -> Option<Short> {
    let cal = Definition.calendar(cal).ok()?;
    let Cal::Reforming(r) = cal.cal else { return None };
    let after = cal.label(r.into());
    if !is_short(cal.label(i64::from(r) - 1), after) {
        return None;
    }
    let year = after.0;
    let days = Runs::year(cal, year);
    Some(Short { cal, year: year as i32, length: days.len(), last: days.nth(days.len())? })
}

impl Short {
    /// The record of day `of` that the crate gives to day `jdn`.
    fn moved(&self, of: i64, jdn: i64) -> Record {
        Record { jdn: jdn as i32, weekday: weekday(jdn), julian: jdn < self.cal.switch, ..self.cal.record(of) }
    }
    /// Where the year has one day, the crate's year has none, and no step goes over it.
    fn is_emptied(&self) -> bool {
        self.length == 1
    }
    /// A step leaves the last day of the year out, and goes on with labels that are a day off.
    fn walk(&self, start: i64, way: u32, count: u32) -> Vec<Record> {
        let back = way == 1 || way == 3;
        let passed = |day: i64| if back { day <= self.last && start > self.last } else { day >= self.last && start < self.last };
        walked_days(start, way, count)
            .take_while(|&day| !(self.is_emptied() && passed(day)))
            .map(|day| match (passed(day), back) {
                (false, _) => self.cal.record(day),
                (true, false) => self.moved(day + 1, day),
                (true, true) => self.moved(day - 1, day),
            })
            .collect()
    }
}

/// Goes over all accepted reformations: how many have such a year, and the least ones of each kind that docs/DIFFERENCES.md tells.
pub fn count() {
    let (first, last) = (1830692, 2147439588);
    let (mut before, mut after) = (label(true, first - 1), label(false, first));
    let mut short = 0;
    let mut least = [("a year too short", None), ("across years", None), ("a year of one day", None), ("a month skipped as a whole", None)];
    for r in first..=last {
        let is = is_short(before, after);
        let across = is && before.0 < after.0;
        let months = (after.0 - before.0) * 12 + i64::from(after.1) - i64::from(before.1);
        for (least, holds) in least.iter_mut().zip([is, across, across && (after.1, after.2) == (12, 31), months > 1]) {
            if holds && least.1.is_none() {
                least.1 = Some(r);
            }
        }
        short += is as u64;
        (before, after) = (next_label(true, before), next_label(false, after));
    }
    println!("{short} of {} reformations have a year that the crate makes too short", last - first + 1);
    least.iter().for_each(|(what, r)| println!("least with {what}: {}", r.map_or("none".into(), |r: i64| r.to_string())));
}

/// What is asked about: the calendar, and the day where it is one.
fn start(query: &Query) -> Option<(Cal, i64)> {
    use Query::*;
    match *query {
        Jdn(c, n) | Succ(c, n) | Pred(c, n) | Zero(c, n) | Write(c, n) | Walk(c, n, _, _) => Some((c, n.into())),
        Unix(c, t) => Some((c, t.div_euclid(86400) + 2440588)),
        _ => None,
    }
}

fn short_year(query: &Query) -> Option<String> {
    use Query::*;
    if let Some((c, day)) = start(query) {
        let s = short(c)?;
        if day == s.last {
            return Some(PANIC.into());
        }
        return short_step(query, &s);
    }
    match *query {
        Conv(c, n, to) => [c, to].iter().any(|&c| short(c).is_some_and(|s| s.last == n.into())).then(|| PANIC.into()),
        Days(c, n, step, count) => {
            let s = short(c)?;
            stepped(n, step, count).any(|n| i64::from(n) == s.last).then(|| PANIC.into())
        }
        Len(c, y) => short(c).filter(|s| s.year == y).map(|s| (s.length - 1).to_string()),
        Year(c, y) => short(c).filter(|s| s.year == y).map(|s| year_digest(&Definition, s.cal, y, s.length - 1).to_string()),
        Places(c, y) => short(c).filter(|s| s.year == y).map(|s| places_digest(&Definition, s.cal, y, s.length).to_string()),
        Ord(c, y, o) => {
            let s = short(c)?;
            (s.year == y && s.length == o).then(|| refused(Refusal::new(6, o.into())))?
        }
        Parse(c, text) => short_text(&short(c)?, text),
        _ => None,
    }
}

fn short_step(query: &Query, s: &Short) -> Option<String> {
    let onto = match *query {
        Query::Succ(_, n) => i64::from(n) == s.last - 1,
        Query::Pred(_, n) => i64::from(n) == s.last + 1,
        _ => false,
    };
    match *query {
        _ if onto && s.is_emptied() => refused(Refusal::new(15, 0)),
        Query::Succ(..) if onto => record(s.moved(s.last + 1, s.last)),
        Query::Pred(..) if onto => record(s.moved(s.last - 1, s.last)),
        Query::Walk(_, n, count, way) => {
            let mut out = Answer::default();
            walked(&s.walk(n.into(), way, count), &mut out);
            Some(out.0)
        }
        _ => None,
    }
}

/// A text with the ordinal of the last day.
fn short_text(s: &Short, text: &[u8]) -> Option<String> {
    match read(text).ok()? {
        Text::Ordinal(y, o, place) if s.year == y && s.length == o => refused(Refusal { number: 6, place, value: o.into() }),
        _ => None,
    }
}

// ---- Positions in a month

/// In a month with a gap inside the crate adds the length of the gap to the position in 32 bits, and the sum wraps. `nth_date` then asks for
/// a day that is not there.
fn position_wraps(query: &Query) -> Option<String> {
    let (Query::Kth(c, y, m, k) | Query::Find(c, y, m, k)) = *query else { return None };
    let cal = Definition.calendar(c).ok()?;
    if !(1..=12).contains(&m) || !Runs::month(cal, y.into(), m).has_gap() {
        return None;
    }
    let (before, after) = (cal.label(cal.switch - 1), cal.label(cal.switch));
    let (day, wraps) = k.overflowing_add(after.2 - before.2 - 1);
    if !wraps || day > month_length(false, y.into(), m) {
        return None;
    }
    match query {
        Query::Kth(..) => Some(day.to_string()),
        // A day that the month has again is found, a day in the gap or 0 is not.
        _ => match Definition.at_ymd(cal, y, m, day) {
            Ok(d) => record(Definition.record(d)),
            Err(_) => Some(PANIC.into()),
        },
    }
}

/// The crate takes for granted that the day of a position has a number of 32 bits.
fn outside(query: &Query) -> Option<String> {
    let Query::Find(c, y, m, k) = *query else { return None };
    let cal = Definition.calendar(c).ok()?;
    match Definition.nth_date(cal, y, m, k) {
        Err(why) if why.number == 7 => Some(PANIC.into()),
        _ => None,
    }
}

// ---- Names of refusals

/// The year, month and day that a query asks about and that the definition refuses as 4, with the refusal that the crate has for it.
fn missing(query: &Query) -> Option<(Switched, Label, Refusal)> {
    use Query::*;
    let (c, l, place) = match *query {
        Ymd(c, y, m, d) | Index(c, y, m, d) => (c, (y.into(), m, d), 0),
        Parse(c, text) => match read(text).ok()? {
            Text::Day(y, m, d, place) => (c, (y.into(), m, d), place),
            Text::Ordinal(..) => return None,
        },
        _ => return None,
    };
    let cal = Definition.calendar(c).ok()?;
    if !(1..=12).contains(&l.1) {
        return None;
    }
    let why = cal.find(l).err().filter(|why| why.number == 4)?;
    Some((cal, l, Refusal { number: 5, place, ..why }))
}

/// 29 February, where the last Julian day is in that February and the first Gregorian day in a later month: the crate gives that February 29
/// days, whatever the year, and calls the day skipped. Where the year is leap in neither calendar it is no date, and the definition says 4.
fn february(query: &Query) -> Option<String> {
    let (cal, l, why) = missing(query)?;
    let Cal::Reforming(r) = cal.cal else { return None };
    let (before, after) = (cal.label(i64::from(r) - 1), cal.label(r.into()));
    let in_it = before.0 == l.0 && before.1 == 2 && (after.0, after.1) > (l.0, 2);
    (l.1 == 2 && l.2 == 29 && in_it).then(|| refused(why))?
}

/// In a month that is skipped as a whole the crate calls every number of a day skipped, also one that neither calendar has there.
fn skipped_month(query: &Query) -> Option<String> {
    let (cal, l, why) = missing(query)?;
    let Cal::Reforming(r) = cal.cal else { return None };
    let (before, after) = (cal.label(i64::from(r) - 1), cal.label(r.into()));
    let between = (before.0, before.1) < (l.0, l.1) && (l.0, l.1) < (after.0, after.1);
    (between && Runs::month(cal, l.0, l.1).len() == 0).then(|| refused(why))?
}

// ---- Texts

/// The crate takes texts of Rust, which are UTF-8. What the port gives for others is held to the definition alone.
fn not_utf8(query: &Query) -> Option<String> {
    match *query {
        Query::Parse(c, text) if std::str::from_utf8(text).is_err() => {
            Definition.calendar(c).ok()?;
            refused(Refusal::new(NOT_UTF8, 0))
        }
        _ => None,
    }
}
