//! Runs of the planner's program on groups of route files, and what a run prints.
use super::counts::Counts;
use super::judge::{differences, Difference, Spoil};
use super::said::{files, File};
use super::{route, Route, KIND};
use crate::rng::Rng;
use std::collections::BTreeMap;
use std::fs;
use std::io::Write;
use std::path::{Path, PathBuf};
use std::process::Command;
use std::time::{Duration, Instant};

/// Files that one run of the program is given.
const GROUP: u64 = 50;
/// Differences whose files are kept, and those shown in full.
const KEPT: usize = 100;
const SHOWN: usize = 10;

/// The planner's program: MOCHASPIT_PLAN, or the repository's crates/plan/out/plan.
fn program() -> String {
    let default = concat!(env!("CARGO_MANIFEST_DIR"), "/../../../crates/plan/out/plan");
    std::env::var("MOCHASPIT_PLAN").unwrap_or_else(|_| default.to_string())
}

/// What the program says of these routes, written to a folder.
fn said(routes: &[Route], folder: &Path) -> std::io::Result<Vec<(String, File)>> {
    let names: Vec<PathBuf> = routes.iter().map(|r| folder.join(format!("{}.route", r.seed))).collect();
    for (name, r) in names.iter().zip(routes) {
        fs::write(name, &r.text)?;
    }
    let out = Command::new(program()).args(&names).output()?;
    // 1: a call was refused; 2: a file cannot be read, of which nothing is said
    if !matches!(out.status.code(), Some(0..=2)) {
        return Err(std::io::Error::other(format!("{}: {}", out.status, String::from_utf8_lossy(&out.stderr))));
    }
    Ok(files(&String::from_utf8_lossy(&out.stdout)))
}

/// A difference: of which seed, and what it is.
struct Found {
    seed: u64,
    what: String,
    case: String,
}

struct Runs {
    folder: PathBuf,
    counts: Counts,
    found: Vec<Found>,
    spoil: Spoil,
    r: Rng,
    last: Instant,
}

impl Runs {
    fn one(&mut self, route: &Route, said: Option<&(String, File)>) {
        self.counts.add(&route.counts);
        let name = self.folder.join(format!("{}.route", route.seed));
        let met: Option<Difference> = match said {
            Some((n, file)) if Path::new(n) == name => differences(route, file, &mut self.spoil, &mut self.r),
            _ => Some(("the file is not named".to_string(), format!("{:?}", said.map(|s| &s.0)))),
        };
        match met {
            Some((what, case)) => self.found.push(Found { seed: route.seed, what, case }),
            None => drop(fs::remove_file(&name)),
        }
        if self.found.len() > KEPT {
            let _ = fs::remove_file(name);
        }
    }
    fn group(&mut self, seeds: std::ops::Range<u64>) -> std::io::Result<()> {
        let routes: Vec<Route> = seeds.map(route).collect();
        let all = said(&routes, &self.folder)?;
        for (k, r) in routes.iter().enumerate() {
            self.one(r, all.get(k));
        }
        Ok(())
    }
    /// A line on standard error, overwritten at most ten times a second.
    fn progress(&mut self, done: u64, count: u64) {
        if done == count || self.last.elapsed() >= Duration::from_millis(100) {
            self.last = Instant::now();
            eprint!("\rroutes    {done:>8} of {count}, {} differences ", self.found.len());
            let _ = std::io::stderr().flush();
        }
    }
    fn print(&self) {
        self.counts.print();
        println!("calls held to what is wanted {}, differences {}", self.spoil.calls, self.found.len());
        let mut sorts: BTreeMap<&str, (u64, &Found)> = BTreeMap::new();
        self.found.iter().for_each(|f| sorts.entry(&f.what).or_insert((0, f)).0 += 1);
        for (what, (times, f)) in &sorts {
            println!("-- routes {}: {what} ({times} times)\n   {}", f.seed, f.case);
        }
        for f in self.found.iter().take(KEPT) {
            println!("{}: {}: {}", self.folder.join(format!("{}.route", f.seed)).display(), f.what, f.case);
        }
        sorts.values().take(SHOWN).for_each(|(_, f)| print!("\n{}", show(f.seed)));
    }
}

/// Runs COUNT routes from a seed on: the exit status.
pub fn run(first: u64, count: u64, spoil: u64) -> std::io::Result<i32> {
    let folder = std::env::temp_dir().join(format!("mochaspit-routes-{}", std::process::id()));
    fs::create_dir_all(&folder)?;
    let spoil = Spoil { every: spoil, calls: 0, spoiled: 0, noticed: 0 };
    let mut runs = Runs { folder, counts: Counts::default(), found: vec![], spoil, r: Rng::new(KIND + 1, first), last: Instant::now() };
    let end = first.saturating_add(count);
    let mut seed = first;
    while seed < end {
        let next = end.min(seed.saturating_add(GROUP));
        runs.group(seed..next)?;
        seed = next;
        runs.progress(seed - first, count);
    }
    eprintln!();
    runs.print();
    if runs.found.is_empty() {
        fs::remove_dir_all(&runs.folder)?;
    }
    let y = &runs.spoil;
    if y.every != 0 {
        println!("figures altered {}, noticed {}", y.spoiled, y.noticed);
    }
    Ok((!runs.found.is_empty() || y.spoiled != y.noticed) as i32)
}

/// A route in full, and what the planner has to say of it.
pub fn show(seed: u64) -> String {
    let r = route(seed);
    let trouble = r.trouble.map_or(String::new(), |t| format!("{t}\n"));
    r.text + "== wanted\n" + &r.wanted.iter().map(|w| w.text()).collect::<String>() + &r.points.text() + "\n" + &trouble
}
