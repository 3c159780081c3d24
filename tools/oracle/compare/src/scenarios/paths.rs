//! Lists of path calls after `new`: few links and short columns, or extensions by hundreds of links and columns past the bounds.
use crate::calls::{step, Call, State, Table};
use crate::columns::Cols;
use crate::judge::Run;
use crate::original;
use crate::random_table::{table, Taste};
use crate::random_train::{offset_among, position, train};
use crate::rng::{Rng, NOT_FINITE};
use mochaspit::sys::{PathTpc, Train};

/// Links that mostly follow the path's last one.
pub fn some_links(r: &mut Rng, st: &State, table: &Table, n: usize, faults: usize) -> Vec<u32> {
    let size = table.entries.len();
    let mut l = vec![];
    let mut prev = match st.path.link_count {
        k @ 2.. => st.cols.numbers.get(4 * (k - 2).min(1 << 40) + 3).copied().unwrap_or(0),
        _ => 0,
    };
    for _ in 0..n {
        let follows = |&k: &u32| {
            let x = &table.entries[k as usize].link;
            prev == 0 || x.prev == prev || x.prev_alt == prev
        };
        let next: Vec<u32> = (1..size as u32).filter(follows).collect();
        prev = if next.is_empty() || r.chance(faults) { r.to(size + 2) as u32 } else { r.of(&next) };
        l.push(prev);
    }
    l
}

/// New numbers for the table's links: turned by some places or in any order, a few of them wrong or missing.
pub fn new_numbers(r: &mut Rng, size: usize) -> Vec<u32> {
    let n = size.max(2) - 1;
    let mut v: Vec<u32> = (0..=n as u32).collect();
    if r.chance(700) {
        v[1..].rotate_left(r.to(n));
    } else {
        (2..=n).rev().for_each(|k| v.swap(k, 1 + r.to(k)));
    }
    if r.chance(80) {
        let k = r.to(n + 1);
        v[k] = r.to(n + 3) as u32;
    }
    if r.chance(40) {
        v.truncate(1 + r.to(n + 1));
    }
    v
}

/// An offset to trim at: on link points, next to them, between, on speed points, outside.
pub fn trim(r: &mut Rng, st: &State) -> f64 {
    let links = &st.cols.offsets[..st.path.link_count.min(st.cols.offsets.len())];
    match r.to(20) {
        0..=16 => offset_among(r, links),
        17..=18 => {
            let n = st.path.speed_count.min(st.cols.speeds.len() / 2);
            let s: Vec<f64> = (0..n).map(|k| st.cols.speeds[2 * k]).collect();
            offset_among(r, &s)
        }
        _ => r.of(&NOT_FINITE),
    }
}

/// Link k of a path that may not have it.
pub fn some_link(r: &mut Rng, p: &PathTpc) -> usize {
    match r.to(14) {
        0 => usize::MAX,
        1 => p.link_count,
        2 => p.link_count.wrapping_sub(1),
        _ => r.to(p.link_count.clamp(1, 2000)),
    }
}

fn random_call(r: &mut Rng, st: &State, table: &Table, last: bool, long: bool) -> Call {
    let all = if st.path.link_count == 1 && r.chance(700) {
        45 // an extension of a path without links, mostly
    } else if last {
        122
    } else {
        112
    };
    match r.to(all) {
        0..=44 => {
            let n = if long { r.of(&[0, 3, 150, 400, 700, 1024]) } else { r.to(5) };
            Call::Extend(some_links(r, st, table, n, if long { 0 } else { 25 }))
        }
        45..=71 => Call::Clear(trim(r, st)),
        72..=86 => Call::Recalc,
        87..=95 => Call::Reindex(new_numbers(r, table.entries.len())),
        96..=97 => Call::New,
        98..=101 => Call::LinkGrades(some_link(r, &st.path)),
        102..=105 => Call::LinkCurves(some_link(r, &st.path)),
        106..=109 => {
            let links = &st.cols.offsets[..st.path.link_count];
            Call::Locate(position(r, links, false))
        }
        _ => Call::Finish,
    }
}

/// Columns of the lengths that a caller lends.
fn lent(r: &mut Rng, long: bool) -> Cols {
    let few = !long && r.chance(150);
    let all = if long { [1100, 4500, 50000, 50000, 8400, 3200, 1100] } else { [64, 260, 480, 480, 640, 240, 80] };
    let mut c = Cols::zeros(all.map(|n| if few && r.chance(350) { r.to(n / 2) } else { n }));
    c.junk(r, &PathTpc::default());
    c
}

/// One call, now and then with a column lent shorter than it is.
fn one(run: &mut Run, st: &mut State, call: &Call, t: &Train, table: &Table) -> bool {
    if !run.r.chance(20) {
        return step(run, st, call, t, table);
    }
    let mut full = st.cols.clone();
    let k = run.r.to(7);
    let n = run.r.to(full.lens()[k] + 1);
    st.cols.resize(k, n);
    run.say(|| format!("column {k} is lent with {n} entries"));
    let done = step(run, st, call, t, table);
    full.take(&st.cols);
    st.cols = full;
    done
}

fn taste(r: &mut Rng, long: bool) -> Taste {
    let wild = r.chance(120);
    Taste {
        wild,
        samples: if long && r.chance(300) { 40 } else { 5 },
        limits: if long && r.chance(200) { 9 } else { 5 },
        apart: long && r.chance(250),
        faults: !long || r.chance(100),
    }
}

pub fn run(run: &mut Run, long: bool) {
    let k = taste(&mut run.r, long);
    let mut t = train(&mut run.r, k.wild);
    let table = Table::new(table(&mut run.r, &t, k));
    let none = original::path(&PathTpc::default(), &Cols::default(), &t);
    let mut st = State { path: PathTpc::default(), cols: lent(&mut run.r, long), original: none };
    let count = 2 + run.r.to(13);
    run.say(|| format!("{t:?}\ncolumns {:?}\ntable {:?}", st.cols.lens(), table.entries));
    for i in 0..count {
        run.size = 3 * table.entries.len() + i;
        let call = if i == 0 { Call::New } else { random_call(&mut run.r, &st, &table, i + 1 == count, long) };
        if i > 0 && run.r.chance(30) {
            t = train(&mut run.r, k.wild);
            st.original = original::with_train(&st.original, &t);
            run.say(|| format!("from here on {t:?}"));
        }
        if run.r.chance(300) {
            st.cols.junk(&mut run.r, &st.path);
        }
        let done = one(run, &mut st, &call, &t, &table);
        if !run.differences.is_empty() || (i == 0 && !done) {
            return;
        }
        run.say(|| st.cols.text(&st.path));
    }
}
