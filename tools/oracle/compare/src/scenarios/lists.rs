//! Lists searched alone: `calc_idx`, `Point`, `Strap` and walks of it with stored indices, some of them stale.
use crate::ask_lists::{BWD, FWD, UNK};
use crate::judge::Run;
use crate::list_calls::{step, List, ListCall};
use crate::random_train::{offset_among, position};
use crate::rng::{Rng, EXTREME, NOT_FINITE};
use mochaspit::sys::{Point, Strap, TrainState};

fn number(r: &mut Rng, wild: bool) -> f64 {
    if wild && r.chance(150) {
        r.of(&EXTREME)
    } else {
        r.of(&[0.0, -0.0, 1.0, 0.01, -0.02, 5.0, 12.5, -3.0, 0.1])
    }
}

/// Offsets on a coarse grid, so that some meet: in order mostly, in any order else.
fn offsets(r: &mut Rng, n: usize, wild: bool) -> Vec<f64> {
    let grid = [0.0, 10.0, 10.0, 50.0, 0.1, 100.0];
    let mut x = r.of(&[0.0, 0.0, -0.0, -100.0, 250.0]);
    let mut v = vec![];
    for _ in 0..n {
        v.push(r.zero_sign(x));
        x += if wild && r.chance(100) { r.of(&EXTREME).abs() } else { r.of(&grid) };
        if !x.is_finite() {
            x = f64::MAX;
        }
    }
    if r.chance(200) {
        (1..n).rev().for_each(|k| v.swap(k, r.to(k + 1)));
    }
    if n > 0 && r.chance(250) {
        v[n - 1] = f64::INFINITY;
    }
    v
}

/// A list; a few have a number that is not finite, a column with more or fewer entries, or a count past it.
pub fn list(r: &mut Rng, wild: bool) -> List {
    let n = if r.chance(15) { r.of(&[200, 700]) } else { r.of(&[0, 1, 1, 2, 2, 3, 3, 4, 5, 8, 12]) };
    let mut l = List { col: vec![], n };
    for x in offsets(r, n, wild) {
        l.col.extend([x, number(r, wild), number(r, wild)]);
    }
    if n > 0 && r.chance(40) {
        let k = r.to(3 * n);
        l.col[k] = r.of(&NOT_FINITE);
    }
    if r.chance(150) {
        (0..r.to(9)).for_each(|_| l.col.push(r.of(&[f64::NAN, 7.0, f64::INFINITY, -0.0])));
    }
    if r.chance(40) {
        l.col.truncate(r.to(l.col.len() + 1));
    }
    if r.chance(40) {
        l.n = r.of(&[0, n + 1, n + 2, usize::MAX, usize::MAX / 3 + 1, 1 << 62, n.saturating_sub(1)]);
    }
    l
}

/// An index: in the list mostly, at its end, past it, or the largest of all.
pub fn index(r: &mut Rng, n: usize) -> usize {
    match r.to(24) {
        0 => n,
        1 => n.wrapping_sub(1),
        2 => r.of(&[999, usize::MAX, usize::MAX - 1, n.wrapping_add(1), 1 << 32]),
        3..=9 => 0,
        _ => r.to(n.clamp(1, 1000)),
    }
}

fn direction(r: &mut Rng) -> u32 {
    if r.chance(15) {
        r.of(&[3, 4, 256, u32::MAX])
    } else {
        r.of(&[UNK, FWD, BWD])
    }
}

/// The calls that a stored index answers by itself.
fn accessors(r: &mut Rng, p: Point, q: Strap, s: TrainState) -> Vec<ListCall> {
    let sub = |r: &mut Rng, k: usize| r.of(&[0, 1, k, k.wrapping_add(1), k / 2, usize::MAX]);
    vec![
        ListCall::PointCoeff(p),
        ListCall::PointNet(p, s),
        ListCall::PointIdx(p),
        ListCall::PointFix(p, sub(r, p.idx)),
        ListCall::StrapCoeffFront(q),
        ListCall::StrapCoeffBack(q),
        ListCall::StrapNetFront(q, s),
        ListCall::StrapNetBack(q, s),
        ListCall::StrapIdx(q),
        ListCall::StrapFix(q, sub(r, q.idx_front.min(q.idx_back))),
    ]
}

/// A walk from a position: none, one or many, with steps ahead and back, few of them not finite.
fn walk(r: &mut Rng, q: Strap, s: TrainState, dir: u32, wild: bool) -> ListCall {
    let by = r.of(&[0.0, -0.0, 1.0, 10.0, 25.0, 0.1, 100.0]);
    let by = if (dir == BWD) != r.chance(150) { -by } else { by };
    let by = if wild && r.chance(300) { r.of(&EXTREME) } else { by };
    let by = if r.chance(15) { r.of(&NOT_FINITE) } else { by };
    ListCall::StrapWalk(q, s, dir, by, r.of(&[0, 1, 2, 2, 3, 3, 5, 8, 20, 100]))
}

/// The finite offsets of a list.
pub fn at(l: &List) -> Vec<f64> {
    l.col.chunks(3).take(l.n).map(|x| x[0]).filter(|x| x.is_finite()).collect()
}

/// A train that goes along the list with one strap and one point, forward and then back.
fn along(run: &mut Run, l: &List, wild: bool) {
    let mut s = position(&mut run.r, &at(l), wild);
    let (mut p, mut q) = (Point::default(), Strap::default());
    let a = step(run, &ListCall::PointNew(s), l);
    let b = step(run, &ListCall::StrapNew(s), l);
    if a[0] == 0 {
        p.idx = a[2] as usize;
    }
    if b[0] == 0 {
        q = Strap { idx_front: b[2] as usize, idx_back: b[3] as usize };
    }
    for dir in [FWD, UNK, BWD] {
        let call = walk(&mut run.r, q, s, dir, wild);
        step(run, &call, l);
    }
    let turn = run.r.to(8);
    for i in 0..8 {
        let dir = if run.r.chance(200) { UNK } else { [FWD, BWD][(i > turn) as usize] };
        let by = run.r.of(&[0.0, 1.0, 10.0, 25.0, 0.1, 100.0]);
        let by = if i > turn { -by } else { by };
        s.offset += by;
        s.offset_back = if run.r.chance(100) { s.offset_back } else { s.offset - s.length };
        let a = step(run, &ListCall::PointRes(p, s, dir), l);
        let b = step(run, &ListCall::StrapRes(q, s, dir), l);
        p.idx = a[2] as usize;
        q = Strap { idx_front: b[2] as usize, idx_back: b[3] as usize };
        if !run.differences.is_empty() {
            return;
        }
    }
}

/// Calls with indices of any kind.
fn stored(run: &mut Run, l: &List, wild: bool) {
    let among = at(l);
    for _ in 0..6 {
        let s = position(&mut run.r, &among, wild);
        let p = Point { idx: index(&mut run.r, l.n) };
        let front = index(&mut run.r, l.n);
        let back = if run.r.chance(200) { front } else { index(&mut run.r, l.n) };
        let q = Strap { idx_front: front, idx_back: back };
        let (d, e) = (direction(&mut run.r), direction(&mut run.r));
        let mut all = vec![ListCall::PointRes(p, s, d), ListCall::StrapRes(q, s, e), ListCall::PointNew(s), ListCall::StrapNew(s)];
        all.extend(accessors(&mut run.r, p, q, s));
        all.push(walk(&mut run.r, q, s, e, wild));
        for call in &all {
            step(run, call, l);
        }
        for _ in 0..3 {
            let x = if run.r.chance(20) { run.r.of(&NOT_FINITE) } else { offset_among(&mut run.r, &among) };
            let call = ListCall::CalcIdx(x, index(&mut run.r, l.n), direction(&mut run.r));
            step(run, &call, l);
        }
        if !run.differences.is_empty() {
            return;
        }
    }
}

pub fn run(run: &mut Run) {
    let wild = run.r.chance(250);
    let l = list(&mut run.r, wild);
    run.size = l.col.len();
    run.say(|| format!("{l:?}"));
    along(run, &l, wild);
    if run.differences.is_empty() {
        stored(run, &l, wild);
    }
}
