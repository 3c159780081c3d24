//! What a run prints: a progress line, the table of calls, and the differences.
use crate::judge::{Difference, Run, Tally};
use crate::scenarios::{self, KINDS};
use std::collections::BTreeMap;
use std::io::Write;
use std::time::{Duration, Instant};

/// Differences shown in full.
const SHOWN: usize = 20;

/// A line on standard error, overwritten at most ten times a second.
pub struct Progress {
    last: Instant,
    wrote: bool,
}

impl Progress {
    pub fn new() -> Progress {
        Progress { last: Instant::now(), wrote: false }
    }
    pub fn at(&mut self, kind: usize, done: u64, count: u64, tally: &Tally, found: usize) {
        if self.last.elapsed() < Duration::from_millis(100) {
            return;
        }
        self.last = Instant::now();
        self.wrote = true;
        eprint!("\r{:9} {done:>8} of {count}, {} calls, {found} kinds of difference ", KINDS[kind], tally.calls);
        let _ = std::io::stderr().flush();
    }
    pub fn end(&self) {
        if self.wrote {
            eprintln!();
        }
    }
}

impl Default for Progress {
    fn default() -> Self {
        Self::new()
    }
}

/// A difference of one sort: how often it was met, and the smallest scenario that shows it.
pub struct Found {
    pub times: u64,
    pub size: usize,
    pub seed: u64,
}

pub type Differences = BTreeMap<(usize, String), Found>;

pub fn add(all: &mut Differences, kind: usize, seed: u64, met: Vec<Difference>) {
    for d in met {
        let f = all.entry((kind, d.what)).or_insert(Found { times: 0, size: usize::MAX, seed });
        f.times += 1;
        if d.size < f.size {
            (f.size, f.seed) = (d.size, seed);
        }
    }
}

/// Calls by kind and by the number that the port answers, and what the original did.
pub fn calls(t: &Tally) {
    print!("{:27}", "call, by answer number");
    (0..=12).for_each(|n| print!("{n:>9}"));
    println!("{:>11} {:>30}", "all", "original: done, error, panic");
    for (name, o) in &t.outcomes {
        print!("{name:27}");
        for n in 0..=12 {
            match t.numbers.get(&(*name, n)) {
                Some(c) => print!("{c:>9}"),
                None => print!("{:>9}", "-"),
            }
        }
        let all = o.iter().sum::<u64>();
        if name.starts_with("link_") || name.starts_with("list_") {
            println!("{all:>11} {:>30}", "has no such call");
        } else {
            println!("{all:>11} {:>10}{:>10}{:>10}", o[0], o[1], o[2]);
        }
    }
    println!("scenarios {}, calls {}, column entries and words compared {}", t.scenarios, t.calls, t.entries);
    println!("longest path: {} link points, {} grades, {} speed points", t.most_links, t.most_grades, t.most_speeds);
    println!("trims under R174: {} (the original panics in {})", t.moved, t.moved_panics);
    println!(
        "limits laid: {}, strictly between two neighbouring points (R23): {} ({} of no length), in {} calls",
        t.limits, t.between, t.no_length, t.calls_between
    );
    println!("paths held to their limits exactly: {}, paths laid in two orders: {}, offsets asked about: {}", t.exact, t.orders, t.asked);
    println!("searches from the largest index, refused with 11, where the original's index wraps: {}", t.wrapped);
}

/// One scenario in full.
pub fn show(kind: usize, seed: u64) -> String {
    let mut tally = Tally::default();
    let mut run = Run::new(kind, seed, &mut tally, true);
    scenarios::run(kind, &mut run);
    let n = run.differences.len();
    format!("{}{} {seed}: {n} differences\n", run.log.unwrap(), KINDS[kind])
}

/// Each difference with the seed that shows it; the first twenty in full.
pub fn differences(all: &Differences) {
    println!("kinds of difference: {}", all.len());
    for ((kind, what), f) in all {
        println!("-- {} {}: {what} ({} times)", KINDS[*kind], f.seed, f.times);
    }
    for ((kind, what), f) in all.iter().take(SHOWN) {
        println!("\n== {} {}: {what}\n{}", KINDS[*kind], f.seed, show(*kind, f.seed));
    }
}
