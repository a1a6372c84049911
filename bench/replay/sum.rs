//! What a user would write instead: reads all logs, sums each object's changes, prints the k greatest totals.
//!
//!     sum K LOG..
use std::collections::HashMap;
use std::{env, fs, io::Write};

fn main() {
    let mut words = env::args().skip(1);
    let k: usize = words.next().and_then(|k| k.parse().ok()).expect("sum K LOG..");
    let logs: Vec<String> = words.map(|log| fs::read_to_string(log).expect("a readable log")).collect();
    let mut totals: HashMap<&str, i64> = HashMap::new();
    for line in logs.iter().flat_map(|log| log.lines()) {
        let (name, change) = line.rsplit_once(',').expect("NAME,CHANGE");
        *totals.entry(name).or_default() += change.parse::<i64>().expect("a whole number");
    }
    let mut ranked: Vec<_> = totals.into_iter().collect();
    ranked.sort_by(|a, b| b.1.cmp(&a.1).then(a.0.cmp(b.0)));
    let mut out = std::io::stdout().lock();
    for (name, total) in ranked.iter().take(k) {
        writeln!(out, "{total} {name}").expect("standard output");
    }
}
