//! The listing as one writes it on the crate: lines NAME<TAB>TEXT in, numbers in columns out. A refused line gives `!` and no more, since the
//! crate has no refusals by number.
use bench::Names;
use std::io::{self, BufRead, BufReader, BufWriter, Write};

const LONGEST: usize = 512;

fn main() -> io::Result<()> {
    let names = Names::new();
    let mut input = BufReader::with_capacity(1 << 16, io::stdin().lock());
    let mut out = BufWriter::with_capacity(1 << 16, io::stdout().lock());
    let mut line = Vec::with_capacity(LONGEST + 1);
    out.write_all(b"jdn\tyear\tordinal\tmonth\tday\tweekday\tstyle\n")?;
    loop {
        line.clear();
        if input.read_until(b'\n', &mut line)? == 0 {
            return out.flush();
        }
        if line.last() == Some(&b'\n') {
            line.pop();
        }
        match date(&names, &line) {
            Some(d) => writeln!(
                out,
                "{}\t{}\t{}\t{}\t{}\t{}\t{}",
                d.julian_day_number(),
                d.year(),
                d.ordinal(),
                d.month().number(),
                d.day(),
                d.weekday().number(),
                if d.is_julian() { "OS" } else { "NS" }
            )?,
            None => writeln!(out, "!")?,
        }
    }
}

fn date(names: &Names, line: &[u8]) -> Option<julian::Date> {
    if line.len() > LONGEST {
        return None;
    }
    let tab = line.iter().position(|&b| b == b'\t');
    let (name, text) = match tab {
        Some(i) => (&line[..i], &line[i + 1..]),
        None => (line, &[][..]),
    };
    let text = std::str::from_utf8(text).ok()?;
    names.find(name)?.parse_date(text).ok()
}
