//! `bench [PART]`: the original and the port on the same inputs in one process; for each line the best time of several runs of each, and the ratio.
use altrios_core::lin_search_hint::Dir;
use altrios_core::train::kind::path_res;
use altrios_core::train::set_link_and_offset;
use altrios_core::uc;
use compare::bench_input::*;
use compare::calls::State;
use compare::original;
use compare::port;
use mochaspit::sys::{Strap, TrainState};
use std::hint::black_box;
use std::time::{Duration, Instant};

/// The best of several runs; `input` is made anew before each and is not timed.
fn best<T, R>(runs: usize, mut input: impl FnMut() -> T, mut f: impl FnMut(&mut T) -> R) -> Duration {
    let one = |_| {
        let mut x = input();
        let start = Instant::now();
        black_box(f(black_box(&mut x)));
        start.elapsed()
    };
    (0..runs).map(one).min().unwrap()
}

fn text(t: Duration) -> String {
    let n = t.as_nanos() as f64;
    match n {
        _ if n < 1e4 => format!("{n:.0} ns"),
        _ if n < 1e7 => format!("{:.1} us", n / 1e3),
        _ => format!("{:.1} ms", n / 1e6),
    }
}

fn line(name: &str, original: Duration, port: Duration) {
    let ratio = port.as_nanos() as f64 / original.as_nanos().max(1) as f64;
    println!("{name:78} {:>11} {:>11} {ratio:>9.2}", text(original), text(port));
}

/// A figure of the port beside one pass over the same numbers.
fn beside(name: &str, each: Duration, pass: Duration) {
    let ratio = each.as_nanos() as f64 / pass.as_nanos().max(1) as f64;
    println!("  {name:76} {:>11} {:>11} {ratio:>9.2}", text(pass), text(each));
}

/// A path of 1,000 links in columns of the size that it needs.
fn fitted_path() -> State {
    let mut s = fitted(1000);
    let list: Vec<u32> = (1..=1000).collect();
    s.path = port::extend(s.path, train(), &list, &mut s.cols, &ring(1000).flat).path;
    s
}

/// The trims of such a path, call by call.
fn trims_alone(trims: &[f64]) -> Duration {
    best(9, fitted_path, |s| trims.iter().for_each(|x| s.path = port::clear(s.path, *x, &mut s.cols).outcome.path))
}

/// One pass over the records that each of the trims leaves: what their question 1 reads at the least.
fn passes(trims: &[f64]) -> Duration {
    let one = |_| {
        let mut s = fitted_path();
        let mut sum = Duration::ZERO;
        for x in trims {
            let start = Instant::now();
            black_box(pass(black_box(&used(&s.path, &s.cols))));
            sum += start.elapsed();
            s.path = port::clear(s.path, *x, &mut s.cols).outcome.path;
        }
        sum
    };
    (0..9).map(one).min().unwrap()
}

/// `new`, one extension by 1,000 links, 1,000 trims by one link each, `finish`.
fn plan() {
    let table = ring(1000);
    let list: Vec<u32> = (1..=1000).collect();
    let links = indices(&list);
    let trims: Vec<f64> = (1..=1000).map(|k| LINK * k as f64).collect();
    let t = train();
    let theirs = |s: &mut State| {
        s.original = altrios_core::track::PathTpc::new(original::train(&t));
        s.original.extend(&table.net, &links).unwrap();
        for x in &trims {
            black_box(s.original.clear(*x * uc::M).unwrap());
        }
        s.original.finish();
    };
    let ours = |s: &mut State| {
        s.path = port::new(t, &mut s.cols).path;
        s.path = port::extend(s.path, t, &list, &mut s.cols, &table.flat).path;
        trims.iter().for_each(|x| s.path = port::clear(s.path, *x, &mut s.cols).outcome.path);
        let a = port::finish(s.path, &mut s.cols);
        assert_eq!(a.answer.number, 0);
        s.path = a.path;
    };
    let in_one = |s: &mut State| {
        s.path = port::new(t, &mut s.cols).path;
        s.path = port::extend(s.path, t, &list, &mut s.cols, &table.flat).path;
        let a = port::clear_each(s.path, &trims, &mut s.cols);
        assert_eq!(a.outcome.answer.number, 0);
        s.path = port::finish(a.outcome.path, &mut s.cols).path;
    };
    let mut s = empty();
    theirs(&mut s);
    ours(&mut s);
    same(&s);
    let mut s = empty();
    theirs(&mut s);
    in_one(&mut s);
    same(&s);
    let original = best(9, empty, theirs);
    line("plan: new, extend by 1,000 links, 1,000 trims, finish", original, best(9, empty, ours));
    line("  the same plan with columns of the size that it needs", original, best(9, || fitted(1000), ours));
    line("  the same plan with the trims as one call", original, best(25, empty, in_one));
    beside("those 1,000 trims call by call (right) beside 1,000 passes over what they leave (left)", trims_alone(&trims), passes(&trims));
    let joined = || extended(&table, &list);
    let theirs = |s: &mut State| s.original.clear(LINK * 1.5 * uc::M).unwrap();
    let trim = best(25, joined, |s| port::clear(s.path, LINK * 1.5, &mut s.cols));
    line("  one trim of that path by one link", best(9, joined, theirs), trim);
    let s = joined();
    beside("that trim (right) beside one pass over the columns to their ends (left)", trim, best(25, || (), |_| pass(&whole(&s.cols))));
    let theirs = |s: &mut State| s.original.recalc_speeds(&table.net).unwrap();
    let ours = |s: &mut State| port::recalc_speeds(s.path, t, &mut s.cols, &table.flat);
    let time = best(9, joined, ours);
    line("  recalc_speeds of that path, 2,000 limits laid", best(9, joined, theirs), time);
    let read = [&whole(&s.cols)[..], &numbers(&table.flat)].concat();
    beside("that recalculation (right) beside one pass over columns and table (left)", time, best(25, || (), |_| pass(&read)));
}

/// 1,000 extensions by one link each.
fn link_by_link() {
    let table = ring(1000);
    let list: Vec<u32> = (1..=1000).collect();
    let links = indices(&list);
    let theirs = |s: &mut State| links.iter().for_each(|l| s.original.extend(&table.net, [*l]).unwrap());
    let ours = |s: &mut State| {
        list.iter().for_each(|l| s.path = port::extend(s.path, train(), &[*l], &mut s.cols, &table.flat).path);
    };
    let mut s = empty();
    theirs(&mut s);
    ours(&mut s);
    same(&s);
    let ours_time = best(9, empty, ours);
    line("extend link by link, 1,000 calls", best(9, empty, theirs), ours_time);
    let each = best(25, || (), |_| pass(&whole(&s.cols)));
    beside("one of these calls (right) beside one pass over the columns to their ends (left)", ours_time / 1000, each);
}

/// One extension by limits on a path whose link 1 left 3,900 speed points; each side lays them on points of its own.
fn among(what: &str, limits: Vec<[f64; 3]>) {
    let mixed = two_links((0..1950).map(apart).collect(), limits);
    let before = || extended(&mixed, &[1]);
    let theirs = |s: &mut State| s.original.extend(&mixed.net, indices(&[2])).unwrap();
    let ours = |s: &mut State| port::extend(s.path, train(), &[2], &mut s.cols, &mixed.flat);
    let mut both = before();
    let from = both.path.speed_count;
    theirs(&mut both);
    both.path = ours(&mut both).path;
    let (to, own) = (both.path.speed_count, both.original.speed_points().len());
    if own == to {
        same(&both);
    }
    let name = format!("insert_speed: {what}, {from} to {to} points (original {own})");
    line(&name, best(25, before, theirs), best(25, before, ours));
}

fn apart(k: usize) -> [f64; 3] {
    [4.0 * k as f64, 4.0 * k as f64 + 1.0, 10.0]
}

/// Limits laid on speed points: 2,000 behind the last point, then 97 in the midst of 3,900, and 97 there that lie strictly between two points.
fn limits() {
    let appended = two_links((0..2000).map(apart).collect(), vec![]);
    let theirs = |s: &mut State| s.original.extend(&appended.net, indices(&[1])).unwrap();
    let ours = |s: &mut State| port::extend(s.path, train(), &[1], &mut s.cols, &appended.flat);
    let points = extended(&appended, &[1]).path.speed_count;
    let name = format!("insert_speed: one extension, 2,000 limits appended, {points} points");
    line(&name, best(9, empty, theirs), best(9, empty, ours));
    // each ends where a point stands: its beginning is a new point, and nothing goes out
    among("one extension, 97 limits in the midst", (0..97).map(|k| [4.0 * (900 + k) as f64 + 1.0, 4.0 * (900 + k) as f64 + 3.0, 20.0]).collect());
    // the port releases each at its end, so that two points go in; the original has one
    among("97 of them strictly between two points", (0..97).map(|k| [4.0 * (900 + k) as f64 + 1.0, 4.0 * (900 + k) as f64 + 2.0, 20.0]).collect());
}

fn position(offset: f64, length: f64) -> TrainState {
    TrainState { offset, offset_back: offset - length, length, weight_static: 2e7, ..Default::default() }
}

/// 10,000 positions of one strap along 16,000 records; each public call asks the whole list questions 1 and 2.
fn strap() {
    let n = 16000;
    let col = records(n);
    let list = original::records(&col, n);
    let at: Vec<f64> = (0..10000).map(|k| 1000.0 + 15.8 * k as f64).collect();
    let theirs = |_: &mut ()| {
        let mut s = original::state(&position(at[0], 1000.0), true);
        let mut strap = path_res::Strap::new(&list, &s).unwrap();
        let mut sum = 0.0;
        for x in &at {
            s.offset.update_unchecked(*x * uc::M, String::new).unwrap();
            s.offset_back.update_unchecked((*x - 1000.0) * uc::M, String::new).unwrap();
            sum += strap.calc_res(&list, &s, &Dir::Fwd).unwrap().value;
        }
        sum
    };
    let ours = |_: &mut ()| {
        let mut strap: Strap = port::strap_new(&col, n, position(at[0], 1000.0)).strap;
        let mut sum = 0.0;
        for x in &at {
            let a = port::strap_calc_res(strap, &col, n, position(*x, 1000.0), 1);
            strap = a.strap;
            sum += a.res;
        }
        sum
    };
    assert_eq!(theirs(&mut ()).to_bits(), ours(&mut ()).to_bits(), "the forces differ");
    let (a, b) = (best(9, || (), theirs), best(3, || (), ours));
    line("Strap, 10,000 positions over 16,000 records, call by call", a, b);
    let once = best(25, || (), |_| pass(&[&col]));
    beside("one of these calls (right) beside one pass over the column (left)", b / 10000, once);
}

/// 10,000 positions of one strap along 16,000 records, as one walk; the original goes position by position, since it has no other way.
fn strap_walk() {
    let n = 16000;
    let col = records(n);
    let list = original::records(&col, n);
    let (first, step, count) = (position(1000.0, 1000.0), 15.8, 10000);
    let theirs = |_: &mut ()| {
        let mut s = original::state(&first, true);
        let mut strap = path_res::Strap::new(&list, &s).unwrap();
        let (mut front, mut back, mut force) = (first.offset, first.offset_back, 0.0);
        for _ in 0..count {
            s.offset.update_unchecked(front * uc::M, String::new).unwrap();
            s.offset_back.update_unchecked(back * uc::M, String::new).unwrap();
            force = strap.calc_res(&list, &s, &Dir::Fwd).unwrap().value;
            (front, back) = (front + step, back + step);
        }
        force
    };
    let ours = |_: &mut ()| {
        let strap = port::strap_new(&col, n, first).strap;
        port::strap_walk(strap, &col, n, first, 1, step, count).res
    };
    assert_eq!(theirs(&mut ()).to_bits(), ours(&mut ()).to_bits(), "the forces differ");
    line("Strap, a new one and 10,000 positions as one walk", best(25, || (), theirs), best(25, || (), ours));
    let strap = port::strap_new(&col, n, first).strap;
    let alone = best(25, || (), |_| port::strap_walk(strap, &col, n, first, 1, step, count));
    beside("the walk alone (right) beside one pass over the column (left)", alone, best(25, || (), |_| pass(&[&col])));
}

/// 1,000 positions on a path of 1,000 links.
fn positions() {
    let table = ring(1000);
    let s = extended(&table, &(1..=1000).collect::<Vec<u32>>());
    let at: Vec<f64> = (0..1000).map(|k| 20.0 + 99.97 * k as f64).collect();
    let theirs = |_: &mut ()| {
        let mut x = original::state(&position(at[0], 20.0), false);
        let mut sum = 0.0;
        for o in &at {
            x.offset.update_unchecked(*o * uc::M, String::new).unwrap();
            x.offset_back.update_unchecked((*o - 20.0) * uc::M, String::new).unwrap();
            x.offset.mark_stale();
            x.link_idx_front.mark_stale();
            x.offset_in_link.mark_stale();
            x.link_idx_back.mark_stale();
            set_link_and_offset(&mut x, &s.original).unwrap();
            sum += x.offset_in_link.get_fresh(String::new).unwrap().value;
        }
        sum
    };
    let ours = |_: &mut ()| {
        let mut sum = 0.0;
        for o in &at {
            sum += port::set_link_and_offset(position(*o, 20.0), s.path, &s.cols).state.offset_in_link;
        }
        sum
    };
    assert_eq!(theirs(&mut ()).to_bits(), ours(&mut ()).to_bits(), "the positions differ");
    let (a, b) = (best(9, || (), theirs), best(9, || (), ours));
    line("set_link_and_offset, 1,000 positions on a path of 1,000 links", a, b);
    let used = used(&s.path, &s.cols);
    beside("one of these calls (right) beside one pass over the columns (left)", b / 1000, best(25, || (), |_| pass(&used)));
}

/// One extension by the whole list.
fn growth() {
    let table = ring(1000);
    for n in [1, 10, 100, 1000] {
        let list: Vec<u32> = (1..=n).collect();
        let links = indices(&list);
        let theirs = |s: &mut State| s.original.extend(&table.net, &links).unwrap();
        let ours = |s: &mut State| port::extend(s.path, train(), &list, &mut s.cols, &table.flat);
        extended(&table, &list);
        let time = best(25, empty, ours);
        line(&format!("growth: one extension of an empty path by {n} links"), best(25, empty, theirs), time);
        if n == 1000 {
            let s = extended(&table, &list);
            let read = [&whole(&s.cols)[..], &numbers(&table.flat)].concat();
            beside("that extension (right) beside one pass over columns and table (left)", time, best(25, || (), |_| pass(&read)));
        }
    }
}

fn main() {
    let only = std::env::args().nth(1);
    println!(
        "columns of the port: 1,025 link points, 16,384 grades and curves, 4,096 speed points, zeros before each run; best of several runs"
    );
    println!("{:78} {:>11} {:>11} {:>9}", "", "original", "port", "ratio");
    let parts: [(&str, fn()); 7] = [
        ("plan", plan),
        ("links", link_by_link),
        ("limits", limits),
        ("strap", strap),
        ("walk", strap_walk),
        ("positions", positions),
        ("growth", growth),
    ];
    for (name, part) in parts {
        if only.as_deref().is_none_or(|x| x == name) {
            part();
        }
    }
}
