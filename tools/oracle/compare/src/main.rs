//! `compare SEED COUNT [KIND]`: COUNT scenarios of each kind, or of one, from a seed on. `compare show KIND SEED`: one in full.
//! `compare SEED COUNT routes`: COUNT route files through the planner's program, beside the original's own run of their calls.
//! `compare vectors SEED COUNT FOLDER`: the vectors that crates/replay replays, from the original's answers.
use compare::judge::{Run, Tally};
use compare::report::{self, Differences, Progress};
use compare::routes;
use compare::scenarios::{self, KINDS};
use compare::vectors;

const USAGE: &str = "usage: compare SEED COUNT [KIND] | compare show KIND SEED | compare vectors SEED COUNT FOLDER
kinds: paths, long, lists, positions, damaged, exact; and by its name alone: routes, with the planner's program that MOCHASPIT_PLAN names
CMP_SPOIL=N: every N-th call one bit of the port's answer is flipped, to see that the comparison notices";

fn usage() -> ! {
    eprintln!("{USAGE}");
    std::process::exit(2)
}

fn number(a: &str) -> u64 {
    a.parse().unwrap_or_else(|_| usage())
}

fn spoil() -> u64 {
    std::env::var("CMP_SPOIL").map_or(0, |x| number(&x))
}

fn kind(a: &str) -> usize {
    KINDS.iter().position(|k| *k == a).unwrap_or_else(|| usage())
}

/// Runs COUNT scenarios of each kind; the differences met.
fn run(first: u64, count: u64, kinds: &[usize], tally: &mut Tally) -> Differences {
    let mut all = Differences::new();
    let mut line = Progress::new();
    for &k in kinds {
        for seed in first..first.saturating_add(count) {
            let mut run = Run::new(k, seed, tally, false);
            scenarios::run(k, &mut run);
            let met = run.differences;
            report::add(&mut all, k, seed, met);
            line.at(k, seed - first + 1, count, tally, all.len());
        }
    }
    line.end();
    all
}

/// Runs COUNT route files through the planner's program: the exit status.
fn run_routes(first: u64, count: u64) -> i32 {
    routes::run(first, count, spoil()).unwrap_or_else(|e| {
        eprintln!("the planner's program: {e}");
        2
    })
}

/// Writes the calls and the original's answers to FOLDER/stdin and FOLDER/stdout, and says how many there are.
fn write_vectors(seed: u64, count: u64, folder: &str) -> std::io::Result<()> {
    let v = vectors::vectors(seed, count, &format!("compare vectors {seed} {count} {folder}"));
    if !v.fits() {
        return Err(std::io::Error::other("crates/replay has no room for as many calls"));
    }
    std::fs::write(format!("{folder}/stdin"), &v.calls)?;
    std::fs::write(format!("{folder}/stdout"), &v.answers)?;
    println!("stdin {} bytes, stdout {} bytes", v.calls.len(), v.answers.len());
    v.codes.iter().for_each(|(code, n)| println!("code {code:x}: {n}"));
    v.tally.iter().for_each(|(name, [done, refused])| println!("{name}: {done} done, {refused} refused"));
    Ok(())
}

fn main() {
    std::panic::set_hook(Box::new(|_| {}));
    let a: Vec<String> = std::env::args().skip(1).collect();
    let a: Vec<&str> = a.iter().map(String::as_str).collect();
    let (first, count, kinds) = match a[..] {
        ["show", "routes", seed] => {
            print!("{}", routes::show(number(seed)));
            return;
        }
        [first, count, "routes"] => std::process::exit(run_routes(number(first), number(count))),
        ["show", k, seed] => {
            print!("{}", report::show(kind(k), number(seed)));
            return;
        }
        ["vectors", seed, count, folder] => {
            write_vectors(number(seed), number(count), folder).unwrap_or_else(|e| {
                eprintln!("{folder}: {e}");
                std::process::exit(2)
            });
            return;
        }
        [first, count] => (number(first), number(count), (0..KINDS.len()).collect()),
        [first, count, k] => (number(first), number(count), vec![kind(k)]),
        _ => usage(),
    };
    let mut tally = Tally { spoil: spoil(), ..Default::default() };
    let all = run(first, count, &kinds, &mut tally);
    report::calls(&tally);
    if tally.spoil != 0 {
        println!("answers spoiled {}, noticed {}", tally.spoiled, tally.noticed);
        std::process::exit((tally.spoiled != tally.noticed) as i32);
    }
    report::differences(&all);
    std::process::exit(!all.is_empty() as i32);
}
