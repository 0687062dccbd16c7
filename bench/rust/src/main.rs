//! Runs one call of the crate many times over days that are prepared in memory, and writes a sum over all fields of the answers. Orders,
//! inputs and sums are those of the program `bench_calls`.
use julian::{Calendar, Date, Month};
use std::io::Read;

const DAYS: usize = 4096;

struct Inputs {
    dates: Vec<Date>,
    jdns: Vec<i32>,
    labels: Vec<(i32, Month, u32)>,
    texts: Vec<String>,
}

fn prepare(calendar: &Calendar) -> Inputs {
    let mut x: u64 = 1;
    let dates: Vec<Date> = (0..DAYS)
        .map(|_| {
            x = (x * 1_103_515_245 + 12_345) % 2_147_483_648;
            calendar.at_jdn(1_721_428 + ((x / 16) % 767_007) as i32)
        })
        .collect();
    Inputs {
        jdns: dates.iter().map(|d| d.julian_day_number()).collect(),
        labels: dates.iter().map(|d| (d.year(), d.month(), d.day())).collect(),
        texts: dates.iter().map(|d| format!("{:04}-{:02}-{:02}", d.year(), d.month().number(), d.day())).collect(),
        dates,
    }
}

fn raised(x: i32) -> u64 {
    (x as i64 + 2_147_483_648) as u64
}

fn fields(d: &Date) -> u64 {
    let low = raised(d.julian_day_number()) ^ (d.ordinal() as u64) << 32 ^ (d.month().number() as u64) << 44;
    let high = (d.day() as u64) << 50 ^ (d.day_ordinal() as u64) << 56 ^ raised(d.year()) << 12;
    low ^ high ^ (d.is_gregorian() as u64) << 62
}

// The sum of one call for each input, so many rounds.
fn sum<T>(inputs: &[T], rounds: u64, call: impl Fn(&T) -> u64) -> u64 {
    let mut sum: u64 = 0;
    for _ in 0..rounds {
        for input in inputs {
            sum = sum.wrapping_add(call(input));
        }
    }
    sum
}

#[inline(never)]
fn no_calls(inputs: &[Date], rounds: u64) -> u64 {
    sum(inputs, rounds, fields)
}

#[inline(never)]
fn jdn_calls(calendar: &Calendar, inputs: &[i32], rounds: u64) -> u64 {
    sum(inputs, rounds, |&jdn| fields(&calendar.at_jdn(jdn)))
}

#[inline(never)]
fn ymd_calls(calendar: &Calendar, inputs: &[(i32, Month, u32)], rounds: u64) -> u64 {
    sum(inputs, rounds, |&(y, m, d)| calendar.at_ymd(y, m, d).map_or(4, |date| fields(&date)))
}

#[inline(never)]
fn parse_calls(calendar: &Calendar, inputs: &[String], rounds: u64) -> u64 {
    sum(inputs, rounds, |text| calendar.parse_date(text).map_or(4, |date| fields(&date)))
}

#[inline(never)]
fn succ_calls(inputs: &[Date], rounds: u64) -> u64 {
    sum(inputs, rounds, |date| date.succ().map_or(15, |next| fields(&next)))
}

fn obey(order: &[u8]) -> u64 {
    let calendar = match order[1] {
        b'J' => Calendar::JULIAN,
        b'G' => Calendar::GREGORIAN,
        _ => Calendar::REFORM1582,
    };
    let rounds: u64 = String::from_utf8_lossy(&order[2..7]).parse().expect("rounds in five digits");
    let inputs = prepare(&calendar);
    match order[0] {
        b'j' => jdn_calls(&calendar, &inputs.jdns, rounds),
        b'y' => ymd_calls(&calendar, &inputs.labels, rounds),
        b'p' => parse_calls(&calendar, &inputs.texts, rounds),
        b's' => succ_calls(&inputs.dates, rounds),
        _ => no_calls(&inputs.dates, rounds),
    }
}

fn main() {
    let mut orders = Vec::new();
    std::io::stdin().read_to_end(&mut orders).expect("orders on standard input");
    for order in orders.chunks_exact(8) {
        println!("{}", obey(order));
    }
}
