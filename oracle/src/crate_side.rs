//! The crate julian 0.7.1 as a `Library`: its names of refusals become numbers, and the place of a fault in a text, which it does not tell,
//! is found by asking it about ever shorter texts.
use crate::protocol::{Cal, Library, Or, Record, Refusal, Reformation, NOT_UTF8};
use julian::errors::{DateError, ParseDateError, ReformingError};
use julian::{ncal, Calendar, Date, Month, MonthShape, Weekday};
use std::num::IntErrorKind;

macro_rules! countries {
    ($($n:ident)*) => { &[$((stringify!($n), ncal::$n)),*] };
}

/// The constants of `ncal.rs`.
pub const COUNTRIES: &[(&str, i32)] = countries!(
    ALBANIA AUSTRALIA AUSTRIA BELGIUM BULGARIA CANADA CHINA CZECH_REPUBLIC DENMARK FINLAND FRANCE
    GERMANY GREECE HUNGARY ICELAND ITALY JAPAN LATVIA LITHUANIA LUXEMBOURG NETHERLANDS NORWAY
    POLAND PORTUGAL ROMANIA RUSSIA SLOVENIA SPAIN SWEDEN SWITZERLAND TURKEY UNITED_KINGDOM
    UNITED_STATES YUGOSLAVIA
);

/// The crate. It keeps the reforming calendar of the query before, since most queries come in runs and making one is slow.
#[derive(Default)]
pub struct Crate {
    kept: Option<(i32, Calendar)>,
}

fn month_of(month: u32) -> Or<Month> {
    Month::try_from(month).map_err(|_| Refusal::new(3, month.into()))
}

fn shape(cal: Calendar, year: i32, month: u32) -> Or<Option<MonthShape>> {
    Ok(cal.month_shape(year, month_of(month)?))
}

fn date_refusal(e: DateError, year: i32) -> Refusal {
    match e {
        DateError::Arithmetic => Refusal::new(7, year.into()),
        DateError::DayOutOfRange { day, .. } => Refusal::new(4, day.into()),
        DateError::SkippedDate { day, .. } => Refusal::new(5, day.into()),
        DateError::OrdinalOutOfRange { ordinal, .. } => Refusal::new(6, ordinal.into()),
    }
}

impl Library for Crate {
    type Calendar = Calendar;
    type Date = Date;

    fn calendar(&mut self, cal: Cal) -> Or<Calendar> {
        match (cal, self.kept) {
            (Cal::Julian, _) => Ok(Calendar::JULIAN),
            (Cal::Gregorian, _) => Ok(Calendar::GREGORIAN),
            (Cal::Reforming(r), Some((kept, calendar))) if r == kept => Ok(calendar),
            (Cal::Reforming(r), _) => match Calendar::reforming(r) {
                Ok(calendar) => {
                    self.kept = Some((r, calendar));
                    Ok(calendar)
                }
                Err(ReformingError::InvalidReformation) => Err(Refusal::new(1, r.into())),
                Err(ReformingError::Arithmetic) => Err(Refusal::new(2, r.into())),
            },
        }
    }

    fn at_jdn(&self, cal: Calendar, jdn: i32) -> Date {
        cal.at_jdn(jdn)
    }

    fn at_ymd(&self, cal: Calendar, year: i32, month: u32, day: u32) -> Or<Date> {
        cal.at_ymd(year, month_of(month)?, day).map_err(|e| date_refusal(e, year))
    }

    fn at_ordinal(&self, cal: Calendar, year: i32, ordinal: u32) -> Or<Date> {
        cal.at_ordinal_date(year, ordinal).map_err(|e| date_refusal(e, year))
    }

    fn record(&self, d: Date) -> Record {
        assert!(d.is_julian() != d.is_gregorian(), "a date has one style");
        Record {
            jdn: d.julian_day_number(),
            year: d.year(),
            ordinal: d.ordinal(),
            month: d.month().number(),
            day: d.day(),
            day_ordinal: d.day_ordinal(),
            julian: d.is_julian(),
            weekday: d.weekday().number(),
        }
    }

    fn zero(&self, d: Date) -> (u32, u32) {
        (d.ordinal0(), d.day_ordinal0())
    }

    fn reformation(&self, cal: Calendar) -> Reformation {
        Reformation {
            reforming: cal.is_reforming(),
            proleptic: cal.is_proleptic(),
            day: cal.reformation(),
            last_julian: cal.last_julian_date().map(|d| self.record(d)),
            first_gregorian: cal.first_gregorian_date().map(|d| self.record(d)),
        }
    }

    fn year_length(&self, cal: Calendar, year: i32) -> u32 {
        cal.year_length(year)
    }

    fn month(&self, cal: Calendar, year: i32, month: u32) -> Or<[u32; 3]> {
        Ok(shape(cal, year, month)?.map_or([0; 3], |s| [s.len(), s.first_day(), s.last_day()]))
    }

    fn contains(&self, cal: Calendar, year: i32, month: u32, day: u32) -> Or<bool> {
        Ok(shape(cal, year, month)?.is_some_and(|s| s.contains(day)))
    }

    /// The crate answers `None` and no reason; `at_ymd` tells the reason.
    fn day_ordinal(&self, cal: Calendar, year: i32, month: u32, day: u32) -> Or<u32> {
        match shape(cal, year, month)?.and_then(|s| s.day_ordinal(day)) {
            Some(n) => Ok(n),
            None => self.at_ymd(cal, year, month, day).and(Err(Refusal::new(0, 0))),
        }
    }

    fn nth_day(&self, cal: Calendar, year: i32, month: u32, k: u32) -> Or<u32> {
        shape(cal, year, month)?.and_then(|s| s.nth_day(k)).ok_or(Refusal::new(21, k.into()))
    }

    fn nth_date(&self, cal: Calendar, year: i32, month: u32, k: u32) -> Or<Date> {
        shape(cal, year, month)?.and_then(|s| s.nth_date(k)).ok_or(Refusal::new(21, k.into()))
    }

    fn succ(&self, d: Date) -> Or<Date> {
        d.succ().ok_or(Refusal::new(15, 0))
    }

    fn pred(&self, d: Date) -> Or<Date> {
        d.pred().ok_or(Refusal::new(15, 0))
    }

    fn convert(&self, d: Date, to: Calendar) -> Date {
        d.convert_to(to)
    }

    fn walk(&self, d: Date, way: u32, count: u32) -> Vec<Date> {
        let count = count as usize;
        match way {
            0 => d.later().take(count).collect(),
            1 => d.earlier().take(count).collect(),
            2 => d.and_later().take(count).collect(),
            _ => d.and_earlier().take(count).collect(),
        }
    }

    /// The crate has no such writer; the text is put together from its fields.
    fn write(&self, d: Date) -> String {
        format!("{}-{}-{}", d.year(), d.month().number(), d.day())
    }

    fn weekday(&self, jdn: i32) -> u32 {
        Weekday::for_jdn(jdn).number()
    }

    fn seconds(&self, jdn: i32) -> i64 {
        julian::jdn2unix(jdn)
    }

    fn time(&self, t: i64) -> Or<(i32, u32)> {
        julian::unix2jdn(t).map_err(|_| Refusal::new(17, t))
    }

    fn at_time(&self, cal: Calendar, t: i64) -> Or<(Date, u32)> {
        cal.at_unix_time(t).map_err(|_| Refusal::new(17, t))
    }

    fn parse(&self, cal: Calendar, text: &[u8]) -> Or<Date> {
        let text = std::str::from_utf8(text).map_err(|_| Refusal::new(NOT_UTF8, 0))?;
        cal.parse_date(text).map_err(|e| text_refusal(cal, text, e))
    }

    fn named(&self, name: &[u8]) -> Or<Cal> {
        match COUNTRIES.iter().find(|c| c.0.as_bytes() == name) {
            Some(c) => Ok(Cal::Reforming(c.1)),
            None if name == b"JULIAN" => Ok(Cal::Julian),
            None if name == b"GREGORIAN" => Ok(Cal::Gregorian),
            None => Err(Refusal::new(19, 0)),
        }
    }
}

// ---- Faults in texts

/// Reading stops at the first fault. So the shortest beginning of the text that the crate refuses in the same way ends with the character at
/// fault.
fn shortest(cal: Calendar, text: &str, e: &ParseDateError) -> usize {
    let mut end = text.len();
    while let Some((before, _)) = text[..end].char_indices().next_back() {
        match cal.parse_date(&text[..before]) {
            Err(shorter) if shorter == *e => end = before,
            _ => break,
        }
    }
    end
}

/// Where the number that ends at `end` begins: after the last dash that is not the sign of the year.
fn field_start(text: &str, end: usize) -> usize {
    text.as_bytes()[..end].iter().rposition(|&b| b == b'-').filter(|&i| i > 0).map_or(0, |i| i + 1)
}

/// The place after the dash that ends the year.
fn second_field(text: &str) -> usize {
    text.as_bytes().iter().skip(1).position(|&b| b == b'-').map_or(0, |i| i + 2)
}

fn year_of(text: &str) -> i64 {
    text[..second_field(text) - 1].parse().expect("a text with a date has a year")
}

/// A refusal about the character that ends the shortest faulty text. The value is its first byte.
fn character(cal: Calendar, text: &str, e: &ParseDateError, number: u32, got: Option<char>) -> Refusal {
    let end = shortest(cal, text, e);
    let (place, c) = text[..end].char_indices().next_back().expect("a character is at fault");
    assert!(got.is_none() || got == Some(c), "the crate tells the character at fault");
    Refusal { number, place, value: text.as_bytes()[place].into() }
}

fn text_refusal(cal: Calendar, text: &str, e: ParseDateError) -> Refusal {
    use ParseDateError::*;
    match e {
        InvalidDate(DateError::Arithmetic) => Refusal::new(7, year_of(text)),
        InvalidDate(d) => Refusal { place: field_start(text, text.len()), ..date_refusal(d, 0) },
        InvalidMonth { value } => Refusal { number: 3, place: second_field(text), value: value.into() },
        Trailing => character(cal, text, &e, 14, None),
        InvalidIntStart { got } | InvalidUIntStart { got } => {
            let why = character(cal, text, &e, 9, Some(got));
            assert!((why.place == 0) == matches!(e, InvalidIntStart { .. }), "only the year is a signed number");
            why
        }
        UnexpectedChar { got, .. } => character(cal, text, &e, 12, Some(got)),
        EmptyInt => Refusal { number: 8, place: text.len(), value: 0 },
        UnexpectedEnd { .. } => Refusal { number: 13, place: text.len(), value: 0 },
        ParseInt(ref int) => {
            let end = shortest(cal, text, &e);
            let (number, place) = match int.kind() {
                IntErrorKind::InvalidDigit => (10, field_start(text, end)),
                IntErrorKind::PosOverflow => (11, end - 1),
                IntErrorKind::NegOverflow => (28, end - 1),
                kind => panic!("the crate's numbers are refused in three ways, and not as {kind:?}"),
            };
            Refusal { number, place, value: 0 }
        }
    }
}
