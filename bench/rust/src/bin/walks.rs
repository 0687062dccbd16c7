//! Walks day by day on the crate, and writes a sum over all fields of the dates. Orders, walks and sums are those of the program `bench_walks`.
use julian::{Calendar, Date};
use std::io::Read;

const DAYS: usize = 4096;

fn raised(x: i32) -> u64 {
    (x as i64 + 2_147_483_648) as u64
}

#[inline(always)]
fn fields(d: Date) -> u64 {
    let low = raised(d.julian_day_number()) ^ (d.ordinal() as u64) << 32 ^ (d.month().number() as u64) << 44;
    let high = (d.day() as u64) << 50 ^ (d.day_ordinal() as u64) << 56 ^ raised(d.year()) << 12;
    low ^ high ^ (d.is_gregorian() as u64) << 62
}

#[inline(always)]
fn steps(mut walker: impl Iterator<Item = Date>) -> u64 {
    let mut sum: u64 = 0;
    for _ in 0..DAYS {
        sum = sum.wrapping_add(fields(walker.next().unwrap()));
    }
    sum
}

fn main() {
    let mut order = [0u8; 7];
    std::io::stdin().read_exact(&mut order).expect("an order of seven bytes on standard input");
    let calendar = match order[1] {
        b'J' => Calendar::JULIAN,
        b'G' => Calendar::GREGORIAN,
        _ => Calendar::REFORM1582,
    };
    let rounds: u64 = std::str::from_utf8(&order[2..]).unwrap().parse().expect("rounds in five digits");
    let mut sum: u64 = 0;
    for _ in 0..rounds {
        let date = calendar.at_jdn(2_298_000);
        sum = sum.wrapping_add(match order[0] {
            b'l' => steps(date.later()),
            b'e' => steps(date.earlier()),
            _ => steps(date.and_later()),
        });
    }
    println!("{sum}");
}
