//! entries COUNT [SEED]: lines for the listing, all valid, of the years 1 to 2100 in several calendars. One in ten is a year and an ordinal, one in
//! ten is padded, the others are year, month and day without padding.
use bench::Names;
use std::io::{self, BufWriter, Write};

const SOME: [&str; 8] = ["JULIAN", "GREGORIAN", "ITALY", "UNITED_KINGDOM", "DENMARK", "CZECH_REPUBLIC", "RUSSIA", "TURKEY"];

/// xorshift64*: small, fixed, the same everywhere.
struct Random(u64);

impl Random {
    /// A number below n.
    fn below(&mut self, n: u64) -> u64 {
        self.0 ^= self.0 >> 12;
        self.0 ^= self.0 << 25;
        self.0 ^= self.0 >> 27;
        ((self.0.wrapping_mul(0x2545_F491_4F6C_DD1D) >> 32) * n) >> 32
    }
}

fn main() -> io::Result<()> {
    let mut args = std::env::args().skip(1);
    let count: u64 = args.next().map_or(1000, |word| word.parse().expect("a count"));
    let seed: u64 = args.next().map_or(1, |word| word.parse().expect("a seed"));
    let names = Names::new();
    let mut random = Random(seed.wrapping_mul(0x9E37_79B9_7F4A_7C15) | 1);
    let mut out = BufWriter::with_capacity(1 << 16, io::stdout().lock());
    for _ in 0..count {
        let name = SOME[random.below(SOME.len() as u64) as usize];
        let calendar = names.find(name.as_bytes()).expect("a name of ncal.rs");
        let date = calendar.at_jdn(1_721_428 + random.below(767_007) as i32);
        match random.below(10) {
            0 => writeln!(out, "{name}\t{}-{}", date.year(), date.ordinal())?,
            1 => writeln!(out, "{name}\t{date}")?,
            _ => writeln!(out, "{name}\t{}-{}-{}", date.year(), date.month().number(), date.day())?,
        }
    }
    out.flush()
}
