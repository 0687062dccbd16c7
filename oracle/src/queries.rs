//! Queries for the comparison. All of them are written out as PROTOCOL.md has them, in blocks that begin and end at lines, so that they can be
//! handed from thread to thread. The same numbers give the same queries everywhere.
use crate::crate_side::COUNTRIES;
use crate::definition::Switched;
use crate::protocol::Cal;
use std::io::Write;

const BLOCK: usize = 1 << 16;
const MIN: i64 = i32::MIN as i64;
const MAX: i64 = i32::MAX as i64;

/// xorshift64*, small and fixed.
pub struct Random(u64);

impl Random {
    pub fn new(seed: u64) -> Self {
        Random(seed.wrapping_mul(0x9E37_79B9_7F4A_7C15) | 1)
    }
    fn next(&mut self) -> u64 {
        self.0 ^= self.0 >> 12;
        self.0 ^= self.0 << 25;
        self.0 ^= self.0 >> 27;
        self.0.wrapping_mul(0x2545_F491_4F6C_DD1D)
    }
    pub fn below(&mut self, n: u64) -> u64 {
        ((self.next() >> 32) * n) >> 32
    }
    fn range(&mut self, low: i64, high: i64) -> i64 {
        low + self.below((high - low + 1) as u64) as i64
    }
    fn one<'a, T>(&mut self, of: &'a [T]) -> &'a T {
        &of[self.below(of.len() as u64) as usize]
    }
}

/// Where the queries go: a block is handed on when it is full. Of all queries every `every`-th is kept, for a run over a share of them.
pub struct Sink<'a> {
    block: Vec<u8>,
    every: u64,
    seen: u64,
    hand_on: &'a mut dyn FnMut(Vec<u8>),
}

impl<'a> Sink<'a> {
    pub fn new(every: u64, hand_on: &'a mut dyn FnMut(Vec<u8>)) -> Self {
        Sink { block: Vec::with_capacity(BLOCK + 1024), every, seen: 0, hand_on }
    }
    fn line(&mut self, parts: &[&[u8]]) {
        self.seen += 1;
        // A share is taken with a shift, so that it does not keep step with the loops that make the queries.
        if (self.seen + self.seen / 977) % self.every != 0 {
            return;
        }
        parts.iter().for_each(|p| self.block.extend_from_slice(p));
        self.block.push(b'\n');
        if self.block.len() >= BLOCK {
            self.flush();
        }
    }
    fn put(&mut self, line: std::fmt::Arguments) {
        let mut text = [0u8; 256];
        let mut rest = &mut text[..];
        rest.write_fmt(line).expect("a query without a text is short");
        let n = 256 - rest.len();
        self.line(&[&text[..n]]);
    }
    pub fn flush(&mut self) {
        if !self.block.is_empty() {
            (self.hand_on)(std::mem::replace(&mut self.block, Vec::with_capacity(BLOCK + 1024)));
        }
    }
}

macro_rules! ask {
    ($to:expr, $($part:tt)*) => { $to.put(format_args!($($part)*)) };
}

// ---- Calendars

/// Reformations that are asked about closely: those of the countries, the first and the last, those about 29 February, at the end of a year,
/// across one or more years, and those at which the crate is at fault.
pub const REFORMATIONS: &[i32] = &[
    1830692, 1830693, 1830694, 1830720, 1831057, 1832153, 1832154, 1832458, 1832459, 2147439588, 2147439587, 2147439500, 2298203, 2298204,
    2341972, 2341973, 2342031, 2342033, 2378497, 2415021, 2451545, 2451604, 2451605, 3145930, 3145931, 4717569, 4717570, 5373484, 6000000,
    19582149, 19583243, 19583244, 19583245, 40000000, 146097000, 1000000000, 2000000000,
];

fn reformations() -> Vec<i32> {
    let mut all: Vec<i32> = COUNTRIES.iter().map(|c| c.1).chain(REFORMATIONS.iter().copied()).collect();
    all.sort_unstable();
    all.dedup();
    all
}

fn calendars() -> Vec<String> {
    ["J".into(), "G".into()].into_iter().chain(reformations().iter().map(|r| r.to_string())).collect()
}

fn switch(cal: &str) -> Option<i64> {
    cal.parse().ok()
}

fn definition(cal: &str) -> Switched {
    Switched::of(match cal {
        "J" => Cal::Julian,
        "G" => Cal::Gregorian,
        r => Cal::Reforming(r.parse().expect("a calendar is J, G or a day")),
    })
}

// ---- The edges

/// Every reformation near the edges of their table and near those that are asked about closely.
pub fn reformation_edges(to: &mut Sink) {
    let edges = [MIN, -2147439515, -1, 0, 1830692, 2147439589, MAX];
    for r in edges.into_iter().chain(reformations().into_iter().map(i64::from)) {
        for r in (r - 40).max(MIN)..=(r + 40).min(MAX) {
            ask!(to, "ref\t{r}");
            ask!(to, "wd\t{r}");
            ask!(to, "sec\t{r}");
        }
    }
    ask!(to, "ref\tJ");
    ask!(to, "ref\tG");
}

fn clamped(low: i64, high: i64) -> std::ops::RangeInclusive<i64> {
    low.max(MIN)..=high.min(MAX)
}

/// Day numbers: both ends of 32 bits, about day 0, and about the reformation and the end of its year.
fn day_edges(to: &mut Sink, cal: &str) {
    let r = switch(cal).unwrap_or(2299161);
    let year_end = definition(cal).label(r).0;
    let end = crate::definition::year_start(false, year_end + 1);
    for (low, high) in [(MIN, MIN + 400), (MAX - 400, MAX), (-400, 400), (r - 400, r + 400), (end - 8, end + 8)] {
        for n in clamped(low, high) {
            for command in ["jdn", "succ", "pred", "zero", "write"] {
                ask!(to, "{command}\t{cal}\t{n}");
            }
            ask!(to, "conv\t{cal}\t{n}\tG");
            ask!(to, "conv\tJ\t{n}\t{cal}");
        }
        for (i, n) in clamped(low, high).step_by(29).enumerate() {
            ask!(to, "walk\t{cal}\t{n}\t{}\t{}", [0, 1, 2, 30, 420][i % 5], i % 4);
            ask!(to, "walk\t{cal}\t{n}\t{}\t{}", [450, 7, 1, 60][i % 4], (i + 1) % 4);
        }
    }
}

/// The years of a calendar that are asked about closely: the ends of 32 bits, century years, the years of the gap.
fn years(cal: &str) -> Vec<i64> {
    let mut years = vec![
        -5884324, -5884323, -5884322, -5884203, -5884202, -5884201, -4713, -4712, -400, -100, -4, -1, 0, 1, 4, 100, 300, 400, 1500, 1582, 1600,
        1700, 1752, 1900, 2000, 5874776, 5874777, 5874778, 5874897, 5874898, 5874899, MIN, MAX, MIN + 1, MAX - 1,
    ];
    if let Some(r) = switch(cal) {
        let c = definition(cal);
        let (before, after) = (c.label(r - 1).0, c.label(r).0);
        years.extend(before - 1..=(before + 2).min(after + 1));
        years.extend((after - 2).max(before - 1)..=after + 1);
        years.push((before + after) / 2);
    }
    years.retain(|y| (MIN..=MAX).contains(y));
    years.sort_unstable();
    years.dedup();
    years
}

/// A year and its months: every day from 0 to 33 and numbers far off, as day of a month and as position.
fn year_edges(to: &mut Sink, cal: &str, y: i64) {
    ask!(to, "len\t{cal}\t{y}");
    ask!(to, "year\t{cal}\t{y}");
    ask!(to, "places\t{cal}\t{y}");
    for m in (0..=13u32).chain([99, 4294967295]) {
        ask!(to, "mon\t{cal}\t{y}\t{m}");
        for d in (0..=33u32).chain([99, 4294967270, 4294967286, 4294967287, 4294967295]) {
            for command in ["ymd", "has", "index", "kth", "find"] {
                ask!(to, "{command}\t{cal}\t{y}\t{m}\t{d}");
            }
            ask!(to, "parse\t{cal}\t{y}-{m}-{d}");
        }
    }
    for n in (0..=368u32).chain([4294967295]) {
        ask!(to, "ord\t{cal}\t{y}\t{n}");
        ask!(to, "parse\t{cal}\t{y}-{n}");
    }
}

fn time_edges(to: &mut Sink, cal: &str) {
    let r = switch(cal).unwrap_or(2299161);
    for t in [i64::MIN, i64::MAX, 0, -185753453990400, 185331720383999, (r - 2440588) * 86400] {
        for d in [-86401, -86400, -1, 0, 1, 59, 86399, 86400] {
            let t = t.saturating_add(d);
            ask!(to, "unix\t{cal}\t{t}");
            ask!(to, "time\t{t}");
        }
    }
}

/// Every name, and each with a letter changed, left out or added.
pub fn names(to: &mut Sink) {
    for name in COUNTRIES.iter().map(|c| c.0).chain(["JULIAN", "GREGORIAN", "REFORM1582", "", "J", "G"]) {
        ask!(to, "name\t{name}");
        ask!(to, "name\t{}", name.to_lowercase());
        ask!(to, "name\t{name} ");
        ask!(to, "name\t {name}");
        for i in 0..name.len() {
            ask!(to, "name\t{}{}", &name[..i], &name[i + 1..]);
            for b in ["A", "_", "x", "É", "\0"] {
                ask!(to, "name\t{}{b}{}", &name[..i], &name[i + 1..]);
                ask!(to, "name\t{}{b}{}", &name[..i], &name[i..]);
            }
        }
    }
}

/// Every one of the first reformations, by digests of the years on both sides, so that no fault lies before the first one that is told.
fn first_reformations(to: &mut Sink) {
    for r in 1830692..1830692 + 3000 {
        let c = Switched::of(Cal::Reforming(r));
        let (before, after) = (c.label(i64::from(r) - 1).0, c.label(r.into()).0);
        for y in before..=after {
            for command in ["len", "year", "places"] {
                ask!(to, "{command}\t{r}\t{y}");
            }
            ask!(to, "ymd\t{r}\t{y}\t2\t29");
        }
        ask!(to, "walk\t{r}\t{}\t400\t2", r - 10);
    }
}

/// The inputs that docs/DIFFERENCES.md names, each of which shows a difference.
const TOLD: &[&str] = &[
    "len 1832153 304",
    "jdn 1832153 1832458",
    "ord 1832153 304 365",
    "parse 1832153 304-365",
    "succ 1832153 1832457",
    "pred 1832153 1832459",
    "walk 1832153 1832457 3 0",
    "walk 1832153 1832459 3 1",
    "walk 1832153 1832456 5 2",
    "walk 1832153 1832460 5 3",
    "unix 1832153 -52542432000",
    "conv J 1832458 1832153",
    "len 2298203 1580",
    "len 4717569 8204",
    "len 19583244 48904",
    "jdn 19583244 19583244",
    "succ 19583244 19583243",
    "pred 19583244 19583245",
    "walk 19583244 19583240 10 0",
    "kth 1830694 300 3 4294967295",
    "find 1830694 300 3 4294967295",
    "kth 2299161 1582 10 4294967286",
    "find 2299161 1582 10 4294967287",
    "find G 5874898 6 4",
    "find J 5874777 10 18",
    "find G -5884323 5 14",
    "ymd 1830692 300 2 29",
    "ymd 1831057 301 2 29",
    "ymd 2325606 1655 2 29",
    "ymd 2342032 1700 2 29",
    "ymd 2361390 1753 2 29",
    "ymd 3145930 3901 2 0",
    "index 3145930 3901 2 99",
];

pub fn told(to: &mut Sink) {
    TOLD.iter().for_each(|line| to.line(&[line.replace(' ', "\t").as_bytes()]));
    to.line(&[b"parse\tG\t\x80"]);
}

pub fn edges(to: &mut Sink) {
    told(to);
    reformation_edges(to);
    first_reformations(to);
    names(to);
    for cal in calendars() {
        day_edges(to, &cal);
        time_edges(to, &cal);
        years(&cal).into_iter().for_each(|y| year_edges(to, &cal, y));
    }
}

// ---- Texts

/// Every text of at most `longest` bytes over an alphabet.
pub fn short_texts(to: &mut Sink, alphabet: &[u8], longest: u32, calendars: &[&str]) {
    let n = alphabet.len() as u64;
    let mut text = vec![];
    for length in 0..=longest {
        for code in 0..n.pow(length) {
            text.clear();
            let mut left = code;
            for _ in 0..length {
                text.push(alphabet[(left % n) as usize]);
                left /= n;
            }
            for cal in calendars {
                to.line(&[b"parse\t", cal.as_bytes(), b"\t", &text]);
            }
        }
    }
}

/// Queries by chance, about half of them near something of interest.
pub struct Chance {
    random: Random,
    known: Vec<String>,
}

impl Chance {
    pub fn new(seed: u64) -> Self {
        Chance { random: Random::new(seed), known: calendars() }
    }

    fn cal(&mut self) -> String {
        match self.random.below(8) {
            0 => "J".into(),
            1 => "G".into(),
            2..=4 => self.random.one(&self.known).clone(),
            5 => self.random.range(1830692, 6_000_000).to_string(),
            _ => self.random.range(1830692, 2147439588).to_string(),
        }
    }

    fn day(&mut self, cal: &str) -> i64 {
        let near = match self.random.below(6) {
            0 => MIN,
            1 => MAX,
            2 => return self.random.range(MIN, MAX),
            3 => return self.random.range(1721428, 2488434),
            _ => switch(cal).unwrap_or(0),
        };
        (near + self.random.range(-800, 800)).clamp(MIN, MAX)
    }

    /// Year, month, day and ordinal: most of them those of a day, some a little off.
    fn label(&mut self, cal: &str) -> (i64, u32, u32, u32) {
        let n = self.day(cal);
        let like = *self.random.one(&[Cal::Julian, Cal::Gregorian]);
        let r = Switched::of(like).record(n);
        let year = if self.random.below(40) == 0 { self.random.range(MIN, MAX) } else { r.year.into() };
        let month = if self.random.below(30) == 0 { self.random.below(14) as u32 } else { r.month };
        let day = if self.random.below(8) == 0 { self.random.below(34) as u32 } else { r.day };
        let ordinal = if self.random.below(8) == 0 { self.random.below(369) as u32 } else { r.ordinal };
        (year, month, day, ordinal)
    }

    pub fn single(&mut self, to: &mut Sink) {
        let cal = self.cal();
        let n = self.day(&cal);
        let (y, m, d, o) = self.label(&cal);
        match self.random.below(24) {
            0..=2 => ask!(to, "jdn\t{cal}\t{n}"),
            3..=5 => ask!(to, "ymd\t{cal}\t{y}\t{m}\t{d}"),
            6 | 7 => ask!(to, "ord\t{cal}\t{y}\t{o}"),
            8 => ask!(to, "len\t{cal}\t{y}"),
            9 => ask!(to, "mon\t{cal}\t{y}\t{m}"),
            10 => ask!(to, "has\t{cal}\t{y}\t{m}\t{d}"),
            11 => ask!(to, "index\t{cal}\t{y}\t{m}\t{d}"),
            12 => ask!(to, "kth\t{cal}\t{y}\t{m}\t{d}"),
            13 => ask!(to, "find\t{cal}\t{y}\t{m}\t{d}"),
            14 => ask!(to, "succ\t{cal}\t{n}"),
            15 => ask!(to, "pred\t{cal}\t{n}"),
            16 => ask!(to, "walk\t{cal}\t{n}\t{}\t{}", self.random.below(50), self.random.below(4)),
            17 => ask!(to, "unix\t{cal}\t{}", (n - 2440588) * 86400 + self.random.range(-90000, 90000)),
            18 => ask!(to, "time\t{}", (n - 2440588) * 86400 + self.random.range(-90000, 90000)),
            19 => ask!(to, "ref\t{n}"),
            20 => ask!(to, "conv\t{cal}\t{n}\t{}", self.cal()),
            21 => ask!(to, "{}\t{cal}\t{n}", ["write", "zero"][(n & 1) as usize]),
            22 => ask!(to, "parse\t{cal}\t{y}-{m}-{d}"),
            _ => ask!(to, "parse\t{cal}\t{y}-{o}"),
        }
    }

    /// A reformation by chance over all that are accepted, asked about where it makes a difference: its gap, 29 February, and the end of its
    /// year.
    pub fn reformation(&mut self, to: &mut Sink) {
        let r = if self.random.below(3) == 0 { self.random.range(1830692, 6_000_000) } else { self.random.range(1830692, 2147439588) };
        let c = Switched::of(Cal::Reforming(r as i32));
        let (before, after) = (c.label(r - 1), c.label(r));
        let end = crate::definition::year_start(false, after.0 + 1);
        ask!(to, "ref\t{r}");
        for y in [before.0, after.0] {
            ask!(to, "len\t{r}\t{y}");
            ask!(to, "ymd\t{r}\t{y}\t2\t29");
            ask!(to, "parse\t{r}\t{y}-2-{}", self.random.range(28, 30));
            ask!(to, "ord\t{r}\t{y}\t{}", self.random.range(0, 367));
            ask!(to, "parse\t{r}\t{y}-{}", self.random.range(0, 367));
        }
        for l in [before, after] {
            ask!(to, "mon\t{r}\t{}\t{}", l.0, l.1);
            let d = (i64::from(l.2) + self.random.range(-2, 2)).max(0);
            for command in ["ymd", "index", "has", "kth", "find"] {
                ask!(to, "{command}\t{r}\t{}\t{}\t{d}", l.0, l.1);
            }
        }
        for n in [r - 1, r, end - 2, end - 1, end] {
            if n > MAX {
                continue;
            }
            for command in ["jdn", "succ", "pred"] {
                ask!(to, "{command}\t{r}\t{n}");
            }
        }
        let n = (r + self.random.range(-3, 3)).clamp(MIN, MAX);
        ask!(to, "walk\t{r}\t{n}\t{}\t{}", self.random.below(40), self.random.below(4));
        ask!(to, "year\t{r}\t{}", after.0);
        if self.random.below(4) == 0 {
            ask!(to, "places\t{r}\t{}", after.0);
            ask!(to, "year\t{r}\t{}", before.0);
        }
    }

    fn text(&mut self, cal: &str) -> Vec<u8> {
        let (y, m, d, o) = self.label(cal);
        match self.random.below(5) {
            0 => format!("{y}-{o}"),
            1 => format!("{y:04}-{m:02}-{d:02}"),
            2 => format!("+{y}-00{m}-{d}"),
            3 => format!("{y:+}-{o:03}"),
            _ => format!("{y}-{m}-{d}"),
        }
        .into_bytes()
    }

    /// A date text with one to four bytes deleted, doubled, changed, swapped or put in.
    pub fn damaged(&mut self, to: &mut Sink) {
        let cal = self.cal();
        let mut text = self.text(&cal);
        for _ in 0..=self.random.below(4) {
            let at = self.random.below(text.len() as u64 + 1) as usize;
            let byte = *self.random.one(b"0123456789-+-+- ./x:\x00\x7f\r\t");
            match self.random.below(7) {
                0 if at < text.len() => drop(text.remove(at)),
                1 if at < text.len() => text.insert(at, text[at]),
                2 if at < text.len() => text[at] = byte,
                3 if at + 1 < text.len() => text.swap(at, at + 1),
                4 => text.truncate(at),
                5 if self.random.below(4) == 0 => drop(text.splice(at..at, *self.random.one(&[*b"\xc3\xa9", *b"\xc2\xb2", *b"\xd9\xa3", *b"\xff1"]))),
                _ => text.insert(at, byte),
            }
        }
        to.line(&[b"parse\t", cal.as_bytes(), b"\t", &text]);
    }

    /// Bytes by chance, and digits by chance about the ends of 32 bits.
    pub fn wild(&mut self, to: &mut Sink) {
        let cal = self.cal();
        let signs: [&str; 20] = ["0", "1", "2", "3", "4", "5", "6", "7", "8", "9", "-", "-", "-", "-", "+", "x", ".", " ", "\u{e9}", "\u{20ac}"];
        let mut text = vec![];
        if self.random.below(2) == 0 {
            for _ in 0..self.random.below(24) {
                text.extend_from_slice(if self.random.below(200) == 0 { b"\xff" } else { self.random.one(&signs).as_bytes() });
            }
        } else {
            let big = [4294967295i64, 4294967296, 2147483647, 2147483648, 42949672950, 99999999999, 12, 13, 366, 365, 0];
            for i in 0..=self.random.below(3) {
                text.extend_from_slice(if i > 0 { b"-" } else { *self.random.one(&[&b""[..], b"-", b"+"]) });
                text.extend_from_slice(format!("{}", self.random.one(&big) + self.random.range(0, 1)).as_bytes());
            }
        }
        to.line(&[b"parse\t", cal.as_bytes(), b"\t", &text]);
    }

    /// Blocks by digest: days, days with a stride, years, ordinals, long walks.
    pub fn blocks(&mut self, to: &mut Sink) {
        let cal = self.cal();
        let n = self.day(&cal);
        let (y, ..) = self.label(&cal);
        ask!(to, "days\t{cal}\t{n}\t1\t400");
        ask!(to, "days\t{cal}\t{n}\t{}\t400", self.random.below(4_000_000));
        ask!(to, "year\t{cal}\t{y}");
        ask!(to, "places\t{cal}\t{y}");
        ask!(to, "walk\t{cal}\t{n}\t400\t{}", self.random.below(4));
    }
}
