//! The crate julian 0.7.1 beside the port.
//!
//!   oracle answer                            the crate's answers to the queries of standard input
//!   oracle compare SHARE PROGRAM ARGUMENT..  runs the port's program, asks both every SHARE-th query, and tells each difference
//!   oracle queries SHARE                     writes these queries
//!   oracle sample QUERIES ANSWERS            writes the sample that is recorded for the port's program
//!   oracle count                             counts the reformations that the crate's first fault touches
mod compare;
mod crate_side;
mod definition;
mod protocol;
mod queries;
mod rules;
mod sample;

use protocol::{answer, Answer, Query};
use std::io::{self, BufRead, Write};
use std::panic::{catch_unwind, AssertUnwindSafe};
use std::process::ExitCode;

/// What the crate answers; a panic is an answer too.
pub fn by_crate(side: &mut crate_side::Crate, query: &Query) -> String {
    catch_unwind(AssertUnwindSafe(|| {
        let mut out = Answer::default();
        answer(side, query, &mut out);
        out.0
    }))
    .unwrap_or_else(|_| rules::PANIC.into())
}

fn answers() -> io::Result<()> {
    let (mut input, mut output) = (io::stdin().lock(), io::BufWriter::new(io::stdout().lock()));
    let mut side = crate_side::Crate::default();
    let mut line = vec![];
    while input.read_until(b'\n', &mut line)? > 0 {
        let query = line.strip_suffix(b"\n").unwrap_or(&line);
        let text = Query::read(query).map_or("?".into(), |q| by_crate(&mut side, &q));
        writeln!(output, "{text}")?;
        line.clear();
    }
    output.flush()
}

fn queries(share: u64) -> io::Result<()> {
    let mut output = io::stdout().lock();
    let mut failed = Ok(());
    compare::all_queries(share, &mut |block| {
        if failed.is_ok() {
            failed = output.write_all(&block);
        }
    });
    failed
}

fn main() -> ExitCode {
    // A panic of the crate is caught and is an answer; what it would print is of no use.
    std::panic::set_hook(Box::new(|_| ()));
    let arguments: Vec<String> = std::env::args().skip(1).collect();
    let words: Vec<&str> = arguments.iter().map(String::as_str).collect();
    let done = match words[..] {
        ["answer"] => answers().map(|_| true),
        ["queries", share] => queries(share.parse().expect("the share is a number")).map(|_| true),
        ["compare", share, program, ref more @ ..] => compare::run(share.parse().expect("the share is a number"), program, more),
        ["sample", queries, answers] => sample::write(queries, answers),
        ["count"] => {
            rules::count();
            Ok(true)
        }
        _ => {
            eprintln!("oracle answer | compare SHARE PROGRAM ARGUMENT.. | queries SHARE | sample QUERIES ANSWERS | count");
            Ok(false)
        }
    };
    match done {
        Ok(true) => ExitCode::SUCCESS,
        Ok(false) => ExitCode::FAILURE,
        Err(e) => {
            eprintln!("{e}");
            ExitCode::FAILURE
        }
    }
}
