//! The recorded sample: queries of every kind, and for each the crate's answer. Where a rule explains why the crate is at fault, the answer is
//! that of the definition. The port's program is not asked, so that its answers are held to those of others.
use crate::crate_side::Crate;
use crate::protocol::Query;
use crate::queries::{edges, names, reformation_edges, short_texts, told, Chance, Sink};
use crate::rules::{by_definition, foretold, RULES};
use std::io;

fn blocks() -> Vec<Vec<u8>> {
    let mut blocks = vec![];
    let mut keep = |block| blocks.push(block);
    let mut some = |share: u64, make: &mut dyn FnMut(&mut Sink)| {
        let mut to = Sink::new(share, &mut keep);
        make(&mut to);
        to.flush();
    };
    some(1, &mut |to| told(to));
    some(7, &mut |to| names(to));
    some(53, &mut |to| reformation_edges(to));
    some(997, &mut |to| edges(to));
    some(211, &mut |to| short_texts(to, b"01239-+x", 6, &["G", "2342032", "1832153"]));
    let mut chance = Chance::new(2);
    some(1, &mut |to| {
        (0..6_000).for_each(|_| chance.single(to));
        (0..4_000).for_each(|_| chance.damaged(to));
        (0..1_500).for_each(|_| chance.wild(to));
        (0..150).for_each(|_| chance.reformation(to));
        (0..60).for_each(|_| chance.blocks(to));
    });
    blocks
}

pub fn write(queries: &str, answers: &str) -> io::Result<bool> {
    let (mut asked, mut given) = (vec![], vec![]);
    let (mut count, mut by_rule) = (0, vec![0; RULES.len()]);
    let mut side = Crate::default();
    for block in blocks() {
        for line in block.split(|&b| b == b'\n').filter(|line| !line.is_empty()) {
            let query = Query::read(line).expect("the queries can be read");
            let (from_crate, defined) = (crate::by_crate(&mut side, &query), by_definition(&query));
            match foretold(&query, &defined) {
                None if from_crate == defined => {}
                Some((rule, says)) if from_crate == says => by_rule[rule] += 1,
                _ => {
                    println!("the crate's answer to {} is not expected", line.escape_ascii());
                    return Ok(false);
                }
            }
            count += 1;
            asked.extend_from_slice(line);
            asked.push(b'\n');
            given.extend_from_slice(defined.as_bytes());
            given.push(b'\n');
        }
    }
    std::fs::write(queries, &asked)?;
    std::fs::write(answers, &given)?;
    println!("{count} queries, {} bytes, and answers, {} bytes", asked.len(), given.len());
    for (rule, n) in RULES.iter().zip(by_rule) {
        println!("answered by the definition: {n:5}  {}", rule.name);
    }
    Ok(true)
}
