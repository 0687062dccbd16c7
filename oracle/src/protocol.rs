//! Queries and answers as PROTOCOL.md has them. What a library has to offer is the trait `Library`; the crate and the count of days
//! (`crate_side`, `definition`) both have it, so that one function writes the answers of both.
use std::fmt::Write;
use std::str::FromStr;

/// A calendar as a query names it. Nothing says that the day of a reformation is an accepted one.
#[derive(Clone, Copy, PartialEq, Eq, Debug)]
pub enum Cal {
    Julian,
    Gregorian,
    Reforming(i32),
}

/// What is said of a date.
#[derive(Clone, Copy, PartialEq, Eq, Debug)]
pub struct Record {
    pub jdn: i32,
    pub year: i32,
    pub ordinal: u32,
    pub month: u32,
    pub day: u32,
    pub day_ordinal: u32,
    pub julian: bool,
    pub weekday: u32,
}

/// A refusal by its number; `NOT_UTF8` is no refusal of the library, but of the type of Rust's texts.
#[derive(Clone, Copy, PartialEq, Eq, Debug)]
pub struct Refusal {
    pub number: u32,
    pub place: usize,
    pub value: i64,
}

pub const NOT_UTF8: u32 = 0;

impl Refusal {
    pub fn new(number: u32, value: i64) -> Self {
        Refusal { number, place: 0, value }
    }
}

pub type Or<T> = Result<T, Refusal>;

/// What `ref` tells: whether the calendar reforms, whether it is proleptic, the day, the dates before and on it.
pub struct Reformation {
    pub reforming: bool,
    pub proleptic: bool,
    pub day: Option<i32>,
    pub last_julian: Option<Record>,
    pub first_gregorian: Option<Record>,
}

pub trait Library {
    type Calendar: Copy;
    type Date: Copy;
    fn calendar(&mut self, cal: Cal) -> Or<Self::Calendar>;
    fn at_jdn(&self, cal: Self::Calendar, jdn: i32) -> Self::Date;
    fn at_ymd(&self, cal: Self::Calendar, year: i32, month: u32, day: u32) -> Or<Self::Date>;
    fn at_ordinal(&self, cal: Self::Calendar, year: i32, ordinal: u32) -> Or<Self::Date>;
    fn record(&self, date: Self::Date) -> Record;
    /// Ordinal and day ordinal, counted from 0.
    fn zero(&self, date: Self::Date) -> (u32, u32);
    fn reformation(&self, cal: Self::Calendar) -> Reformation;
    fn year_length(&self, cal: Self::Calendar, year: i32) -> u32;
    /// Number of days, first day, last day.
    fn month(&self, cal: Self::Calendar, year: i32, month: u32) -> Or<[u32; 3]>;
    fn contains(&self, cal: Self::Calendar, year: i32, month: u32, day: u32) -> Or<bool>;
    fn day_ordinal(&self, cal: Self::Calendar, year: i32, month: u32, day: u32) -> Or<u32>;
    fn nth_day(&self, cal: Self::Calendar, year: i32, month: u32, k: u32) -> Or<u32>;
    fn nth_date(&self, cal: Self::Calendar, year: i32, month: u32, k: u32) -> Or<Self::Date>;
    fn succ(&self, date: Self::Date) -> Or<Self::Date>;
    fn pred(&self, date: Self::Date) -> Or<Self::Date>;
    fn convert(&self, date: Self::Date, to: Self::Calendar) -> Self::Date;
    /// At most `count` days of the walker `way`.
    fn walk(&self, date: Self::Date, way: u32, count: u32) -> Vec<Self::Date>;
    fn write(&self, date: Self::Date) -> String;
    fn weekday(&self, jdn: i32) -> u32;
    fn seconds(&self, jdn: i32) -> i64;
    fn time(&self, t: i64) -> Or<(i32, u32)>;
    fn at_time(&self, cal: Self::Calendar, t: i64) -> Or<(Self::Date, u32)>;
    fn parse(&self, cal: Self::Calendar, text: &[u8]) -> Or<Self::Date>;
    fn named(&self, name: &[u8]) -> Or<Cal>;
}

#[derive(Clone, Copy, PartialEq, Eq, Debug)]
pub enum Query<'a> {
    Jdn(Cal, i32),
    Ymd(Cal, i32, u32, u32),
    Ord(Cal, i32, u32),
    Ref(Cal),
    Len(Cal, i32),
    Mon(Cal, i32, u32),
    Has(Cal, i32, u32, u32),
    Index(Cal, i32, u32, u32),
    Kth(Cal, i32, u32, u32),
    Find(Cal, i32, u32, u32),
    Succ(Cal, i32),
    Pred(Cal, i32),
    Zero(Cal, i32),
    Write(Cal, i32),
    Conv(Cal, i32, Cal),
    Walk(Cal, i32, u32, u32),
    Days(Cal, i32, u32, u32),
    Year(Cal, i32),
    Places(Cal, i32),
    Unix(Cal, i64),
    Parse(Cal, &'a [u8]),
    Wd(i32),
    Sec(i32),
    Time(i64),
    Name(&'a [u8]),
}

/// The fields of a query, from left to right.
struct Fields<'a>(Option<&'a [u8]>);

impl<'a> Fields<'a> {
    fn word(&mut self) -> Option<&'a [u8]> {
        let rest = self.0.take()?;
        match rest.iter().position(|&b| b == b'\t') {
            Some(i) => {
                self.0 = Some(&rest[i + 1..]);
                Some(&rest[..i])
            }
            None => Some(rest),
        }
    }
    fn number<T: FromStr>(&mut self) -> Option<T> {
        std::str::from_utf8(self.word()?).ok()?.parse().ok()
    }
    fn cal(&mut self) -> Option<Cal> {
        match self.word()? {
            b"J" => Some(Cal::Julian),
            b"G" => Some(Cal::Gregorian),
            r => Fields(Some(r)).number().map(Cal::Reforming),
        }
    }
    fn rest(&mut self) -> Option<&'a [u8]> {
        self.0.take()
    }
}

impl<'a> Query<'a> {
    pub fn read(line: &'a [u8]) -> Option<Query<'a>> {
        use Query::*;
        let mut f = Fields(Some(line));
        let query = match f.word()? {
            b"jdn" => Jdn(f.cal()?, f.number()?),
            b"ymd" => Ymd(f.cal()?, f.number()?, f.number()?, f.number()?),
            b"ord" => Ord(f.cal()?, f.number()?, f.number()?),
            b"ref" => Ref(f.cal()?),
            b"len" => Len(f.cal()?, f.number()?),
            b"mon" => Mon(f.cal()?, f.number()?, f.number()?),
            b"has" => Has(f.cal()?, f.number()?, f.number()?, f.number()?),
            b"index" => Index(f.cal()?, f.number()?, f.number()?, f.number()?),
            b"kth" => Kth(f.cal()?, f.number()?, f.number()?, f.number()?),
            b"find" => Find(f.cal()?, f.number()?, f.number()?, f.number()?),
            b"succ" => Succ(f.cal()?, f.number()?),
            b"pred" => Pred(f.cal()?, f.number()?),
            b"zero" => Zero(f.cal()?, f.number()?),
            b"write" => Write(f.cal()?, f.number()?),
            b"conv" => Conv(f.cal()?, f.number()?, f.cal()?),
            b"walk" => Walk(f.cal()?, f.number()?, f.number()?, f.number()?),
            b"days" => Days(f.cal()?, f.number()?, f.number()?, f.number()?),
            b"year" => Year(f.cal()?, f.number()?),
            b"places" => Places(f.cal()?, f.number()?),
            b"unix" => Unix(f.cal()?, f.number()?),
            b"parse" => Parse(f.cal()?, f.rest()?),
            b"wd" => Wd(f.number()?),
            b"sec" => Sec(f.number()?),
            b"time" => Time(f.number()?),
            b"name" => Name(f.rest()?),
            _ => return None,
        };
        f.rest().is_none().then_some(query)
    }
}

// ---- Answers

/// The fields of an answer, each with a tab after it but the last.
#[derive(Default)]
pub struct Answer(pub String);

impl Answer {
    pub fn field(&mut self, x: impl std::fmt::Display) {
        if !self.0.is_empty() {
            self.0.push('\t');
        }
        write!(self.0, "{x}").expect("a text takes all that is written to it");
    }
    pub fn record(&mut self, r: &Record) {
        self.field(r.jdn);
        self.field(r.year);
        for x in [r.ordinal, r.month, r.day, r.day_ordinal] {
            self.field(x);
        }
        self.field(if r.julian { 'J' } else { 'G' });
        self.field(r.weekday);
    }
    /// A refusal by its number; its place; its value.
    pub fn refusal(&mut self, why: Refusal) {
        self.field('!');
        match why.number {
            NOT_UTF8 => self.field("NotUtf8"),
            n => self.field(n),
        }
        self.field(why.place);
        self.field(why.value);
    }
    fn cal(&mut self, cal: Cal) {
        match cal {
            Cal::Julian => self.field('J'),
            Cal::Gregorian => self.field('G'),
            Cal::Reforming(r) => self.field(r),
        }
    }
    fn option(&mut self, r: Option<Record>) {
        match r {
            Some(r) => self.record(&r),
            None => self.field('-'),
        }
    }
}

#[derive(Default)]
pub struct Digest(pub u64);

impl Digest {
    pub fn add(&mut self, x: i64) {
        self.0 = (self.0 * 1_000_003 + (x + (1 << 33)) as u64) % 2_147_483_647;
    }
    pub fn record(&mut self, r: &Record) {
        self.add(r.jdn.into());
        self.add(r.year.into());
        for x in [r.ordinal, r.month, r.day, r.day_ordinal, r.julian as u32, r.weekday] {
            self.add(x.into());
        }
    }
    pub fn refusal(&mut self, why: Refusal) {
        self.add((if why.number == 7 { 2 } else { 1 }) - (1 << 33));
    }
}

pub fn walked(days: &[Record], out: &mut Answer) {
    let mut h = Digest::default();
    days.iter().for_each(|r| h.record(r));
    out.field(days.len());
    out.field(h.0);
    out.option(days.last().copied());
}

/// The digest of a year whose length is said to be `length`.
pub fn year_digest<L: Library>(lib: &L, cal: L::Calendar, year: i32, length: u32) -> u64 {
    let mut h = Digest::default();
    h.add(length.into());
    for m in 1..=12 {
        match lib.month(cal, year, m) {
            Ok(fields) => fields.iter().for_each(|&x| h.add(x.into())),
            Err(why) => (0..3).for_each(|_| h.refusal(why)),
        }
        for d in 0..=33 {
            match lib.at_ymd(cal, year, m, d) {
                Ok(date) => h.add(lib.record(date).jdn.into()),
                Err(why) => h.refusal(why),
            }
        }
    }
    h.0
}

/// The digest of the ordinals of a year, those from `end` on refused.
pub fn places_digest<L: Library>(lib: &L, cal: L::Calendar, year: i32, end: u32) -> u64 {
    let mut h = Digest::default();
    for o in 0..=370 {
        match lib.at_ordinal(cal, year, o) {
            Ok(date) if o < end => {
                let r = lib.record(date);
                [r.month, r.day, r.day_ordinal].iter().for_each(|&x| h.add(x.into()));
                h.add(r.jdn.into());
            }
            Ok(_) => h.refusal(Refusal::new(6, o.into())),
            Err(why) => h.refusal(why),
        }
    }
    h.0
}

/// The days that `days` asks for: every step-th one, as far as 32 bits go.
pub fn stepped(jdn: i32, step: u32, count: u32) -> impl Iterator<Item = i32> {
    (0..count).map_while(move |i| i32::try_from(i64::from(jdn) + i64::from(i) * i64::from(step)).ok())
}

pub fn answer<L: Library>(lib: &mut L, query: &Query, out: &mut Answer) {
    if let Err(why) = fields(lib, query, out) {
        out.0.clear();
        out.refusal(why);
    }
}

fn fields<L: Library>(lib: &mut L, query: &Query, out: &mut Answer) -> Or<()> {
    use Query::*;
    match *query {
        Jdn(c, n) => date_on(lib, c, n, |lib, d| Ok(out.record(&lib.record(d)))),
        Succ(c, n) => date_on(lib, c, n, |lib, d| Ok(out.record(&lib.record(lib.succ(d)?)))),
        Pred(c, n) => date_on(lib, c, n, |lib, d| Ok(out.record(&lib.record(lib.pred(d)?)))),
        Write(c, n) => date_on(lib, c, n, |lib, d| Ok(out.field(lib.write(d)))),
        Zero(c, n) => date_on(lib, c, n, |lib, d| {
            let (ordinal, day) = lib.zero(d);
            out.field(ordinal);
            Ok(out.field(day))
        }),
        Walk(c, n, count, way) => date_on(lib, c, n, |lib, d| {
            let days: Vec<Record> = lib.walk(d, way, count).into_iter().map(|d| lib.record(d)).collect();
            Ok(walked(&days, out))
        }),
        Conv(c, n, to) => {
            let from = lib.calendar(c)?;
            let to = lib.calendar(to)?;
            Ok(out.record(&lib.record(lib.convert(lib.at_jdn(from, n), to))))
        }
        Ymd(c, y, m, d) => {
            let cal = lib.calendar(c)?;
            Ok(out.record(&lib.record(lib.at_ymd(cal, y, m, d)?)))
        }
        Ord(c, y, o) => {
            let cal = lib.calendar(c)?;
            Ok(out.record(&lib.record(lib.at_ordinal(cal, y, o)?)))
        }
        Parse(c, text) => {
            let cal = lib.calendar(c)?;
            Ok(out.record(&lib.record(lib.parse(cal, text)?)))
        }
        Find(c, y, m, k) => {
            let cal = lib.calendar(c)?;
            Ok(out.record(&lib.record(lib.nth_date(cal, y, m, k)?)))
        }
        _ => numbers(lib, query, out),
    }
}

fn date_on<L: Library>(lib: &mut L, cal: Cal, jdn: i32, tell: impl FnOnce(&L, L::Date) -> Or<()>) -> Or<()> {
    let cal = lib.calendar(cal)?;
    tell(lib, lib.at_jdn(cal, jdn))
}

/// The answers that are numbers and not dates.
fn numbers<L: Library>(lib: &mut L, query: &Query, out: &mut Answer) -> Or<()> {
    use Query::*;
    match *query {
        Len(c, y) => {
            let cal = lib.calendar(c)?;
            out.field(lib.year_length(cal, y));
        }
        Mon(c, y, m) => {
            let cal = lib.calendar(c)?;
            match lib.month(cal, y, m) {
                Ok(fields) => fields.iter().for_each(|x| out.field(x)),
                Err(why) => (0..3).for_each(|_| out.refusal(why)),
            }
        }
        Has(c, y, m, d) => {
            let cal = lib.calendar(c)?;
            out.field(lib.contains(cal, y, m, d)? as u32);
        }
        Index(c, y, m, d) => {
            let cal = lib.calendar(c)?;
            out.field(lib.day_ordinal(cal, y, m, d)?);
        }
        Kth(c, y, m, k) => {
            let cal = lib.calendar(c)?;
            out.field(lib.nth_day(cal, y, m, k)?);
        }
        Ref(c) => {
            let cal = lib.calendar(c)?;
            reformation(&lib.reformation(cal), out);
        }
        _ => others(lib, query, out)?,
    }
    Ok(())
}

fn others<L: Library>(lib: &mut L, query: &Query, out: &mut Answer) -> Or<()> {
    use Query::*;
    match *query {
        Days(c, n, step, count) => {
            let cal = lib.calendar(c)?;
            let (mut h, mut given) = (Digest::default(), 0u32);
            for n in stepped(n, step, count) {
                h.record(&lib.record(lib.at_jdn(cal, n)));
                given += 1;
            }
            out.field(h.0);
            out.field(given);
        }
        Year(c, y) => {
            let cal = lib.calendar(c)?;
            out.field(year_digest(lib, cal, y, lib.year_length(cal, y)));
        }
        Places(c, y) => {
            let cal = lib.calendar(c)?;
            out.field(places_digest(lib, cal, y, u32::MAX));
        }
        Unix(c, t) => {
            let cal = lib.calendar(c)?;
            let (date, seconds) = lib.at_time(cal, t)?;
            out.record(&lib.record(date));
            out.field(seconds);
        }
        Wd(n) => out.field(lib.weekday(n)),
        Sec(n) => out.field(lib.seconds(n)),
        Time(t) => {
            let (jdn, seconds) = lib.time(t)?;
            out.field(jdn);
            out.field(seconds);
        }
        Name(name) => out.cal(lib.named(name)?),
        _ => unreachable!("the other queries are answered above"),
    }
    Ok(())
}

fn reformation(r: &Reformation, out: &mut Answer) {
    out.field(r.reforming as u32);
    out.field(r.proleptic as u32);
    match r.day {
        Some(day) => out.field(day),
        None => out.field('-'),
    }
    out.option(r.last_julian);
    out.option(r.first_gregorian);
}
