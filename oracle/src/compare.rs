//! The run over both sides: the queries are made by one thread, go to the port's program by another, and are answered by the crate and by
//! the definition here, where the answers meet.
use crate::crate_side::Crate;
use crate::protocol::Query;
use crate::queries::{edges, short_texts, Chance, Sink};
use crate::rules::{by_definition, foretold, RULES};
use std::collections::BTreeMap;
use std::io::{self, BufRead, BufReader, Write};
use std::process::{Command, Stdio};
use std::sync::mpsc::{sync_channel, Receiver};
use std::sync::Arc;
use std::thread;
use std::time::Instant;

/// All queries of a full run, of which every `share`-th is handed on.
pub fn all_queries(share: u64, hand_on: &mut dyn FnMut(Vec<u8>)) {
    let mut to = Sink::new(share, hand_on);
    edges(&mut to);
    short_texts(&mut to, b"01239-+x", 6, &["G", "2342032", "1832153"]);
    short_texts(&mut to, b"0123456789-+x", 5, &["J", "G"]);
    let mut chance = Chance::new(1);
    for _ in 0..100_000 {
        (0..40).for_each(|_| chance.single(&mut to));
        (0..30).for_each(|_| chance.damaged(&mut to));
        (0..10).for_each(|_| chance.wild(&mut to));
        chance.reformation(&mut to);
    }
    (0..4_000).for_each(|_| chance.blocks(&mut to));
    to.flush();
}

/// What was seen so far.
#[derive(Default)]
struct Tally {
    queries: u64,
    equal: u64,
    by_command: BTreeMap<String, u64>,
    /// For each rule how often it explained a difference, and the first one.
    explained: Vec<(u64, String)>,
    unexplained: u64,
}

fn shown(line: &[u8]) -> String {
    line.escape_ascii().to_string().replace("\\t", " ")
}

impl Tally {
    fn new() -> Self {
        Tally { explained: vec![(0, String::new()); RULES.len()], ..Tally::default() }
    }

    /// Holds the three answers against one another. The definition is asked about every query, so that a fault that crate and port share
    /// would be seen too.
    fn add(&mut self, side: &mut Crate, line: &[u8], port: &[u8]) {
        self.queries += 1;
        let command = line.split(|&b| b == b'\t').next().unwrap_or_default();
        match self.by_command.get_mut(std::str::from_utf8(command).unwrap_or("?")) {
            Some(n) => *n += 1,
            None => drop(self.by_command.insert(shown(command), 1)),
        }
        let Some(query) = Query::read(line) else { return self.fail("unreadable query", line, "", port, "") };
        let from_crate = crate::by_crate(side, &query);
        let defined = by_definition(&query);
        if defined.as_bytes() != port {
            return self.fail("the port is not as defined", line, &from_crate, port, &defined);
        }
        match foretold(&query, &defined) {
            None if from_crate == defined => self.equal += 1,
            Some((rule, says)) if from_crate == says => {
                self.explained[rule].0 += 1;
                if self.explained[rule].0 == 1 {
                    self.explained[rule].1 = format!("{}: crate {}, port {}", shown(line), shown(from_crate.as_bytes()), shown(port));
                }
            }
            None => self.fail("the crate differs", line, &from_crate, port, &defined),
            Some((_, says)) => self.fail("a rule foretells another answer of the crate", line, &from_crate, port, &says),
        }
    }

    fn fail(&mut self, why: &str, line: &[u8], from_crate: &str, port: &[u8], defined: &str) {
        self.unexplained += 1;
        if self.unexplained <= 200 {
            println!("UNEXPLAINED, {why}: {}", shown(line));
            println!("    crate      {}\n    port       {}\n    expected   {}", shown(from_crate.as_bytes()), shown(port), shown(defined.as_bytes()));
        }
    }

    fn tell(&self, seconds: u64) {
        println!("{} queries in {seconds} seconds, {} with equal answers", self.queries, self.equal);
        let commands: Vec<String> = self.by_command.iter().map(|(c, n)| format!("{c} {n}")).collect();
        println!("by command: {}", commands.join(", "));
        for (rule, (n, first)) in RULES.iter().zip(&self.explained) {
            println!("difference by rule: {n:9}  {}", rule.name);
            if *n > 0 {
                println!("    first: {first}");
            }
        }
        println!("unexplained: {}", self.unexplained);
    }
}

type Blocks = Receiver<Arc<Vec<u8>>>;

/// The port's answers, one for each query of the blocks; whether there were so many.
fn meet(blocks: Blocks, output: &mut impl BufRead, tally: &mut Tally) -> io::Result<bool> {
    let (mut side, mut answer) = (Crate::default(), vec![]);
    for block in blocks {
        for line in block.strip_suffix(b"\n").unwrap_or(&block).split(|&b| b == b'\n') {
            answer.clear();
            if output.read_until(b'\n', &mut answer)? == 0 {
                println!("the port's program ended before the query {}", shown(line));
                return Ok(false);
            }
            answer.pop();
            tally.add(&mut side, line, &answer);
        }
    }
    answer.clear();
    Ok(output.read_until(b'\n', &mut answer)? == 0)
}

/// Runs the port's program and compares; whether all differences are explained.
pub fn run(share: u64, program: &str, arguments: &[&str]) -> io::Result<bool> {
    let start = Instant::now();
    let mut child = Command::new(program).args(arguments).stdin(Stdio::piped()).stdout(Stdio::piped()).spawn()?;
    let mut input = child.stdin.take().expect("the input is a pipe");
    let mut output = BufReader::with_capacity(1 << 16, child.stdout.take().expect("the output is a pipe"));
    let (to_port, for_port): (_, Blocks) = sync_channel(64);
    let (to_crate, for_crate): (_, Blocks) = sync_channel(64);
    // Where the port's program has ended, the sending fails and is let be: the answers that are missing are seen where the answers meet.
    let writer = thread::spawn(move || for_port.iter().try_for_each(|block| input.write_all(&block)));
    let maker = thread::spawn(move || {
        all_queries(share, &mut |block| {
            let block = Arc::new(block);
            let _ = to_port.send(block.clone());
            let _ = to_crate.send(block);
        })
    });
    let mut tally = Tally::new();
    let complete = meet(for_crate, &mut output, &mut tally)?;
    maker.join().expect("the maker of queries does not panic");
    let written = writer.join().expect("the writer does not panic");
    let status = child.wait()?;
    tally.tell(start.elapsed().as_secs());
    if !complete || written.is_err() || !status.success() {
        println!("the port's program ended otherwise than it should: {status}");
        return Ok(false);
    }
    Ok(tally.unexplained == 0 && tally.queries > 0)
}
