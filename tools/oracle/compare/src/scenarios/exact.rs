//! The posted speed, exactly: after each call it is the top speed and all covering limits laid, taken together by `min_speed`, as a number. And the
//! same limits in any order post the same speed on any speed points that never fall.
use super::paths::{some_links, trim};
use crate::ask_links::limits_laid;
use crate::calls::{step, Call, State, Table};
use crate::columns::Cols;
use crate::judge::Run;
use crate::original;
use crate::port;
use crate::rng::Rng;
use crate::table::{Flat, Lk, Set};
use mochaspit::sys::{PathTpc, Train};

const SPEEDS: [f64; 14] = [30.0, 25.0, 20.0, 15.0, 10.0, 5.0, 0.0, -0.0, -5.0, -10.0, -15.0, -25.0, 10.0, 20.0];
/// Entries of the columns lent.
const LENGTHS: [usize; 7] = [40, 160, 120, 120, 1400, 0, 0];

/// `min_speed` by its rule (R17): both sign bits clear, the smaller; otherwise minus the smaller size.
fn min_speed(a: f64, b: f64) -> f64 {
    if a.is_sign_positive() && b.is_sign_positive() {
        if b < a {
            b
        } else {
            a
        }
    } else if b.abs() < a.abs() {
        -b.abs()
    } else {
        -a.abs()
    }
}

/// The path's ends and the limits laid since `new` (start, end, speed), by the calls' arguments alone.
struct Book {
    top: f64,
    ends: Vec<f64>,
    limits: Vec<[f64; 3]>,
}

impl Book {
    fn extend(&mut self, list: &[u32], t: &Train, table: &Table) {
        for &n in list {
            let link = &table.entries[n as usize].link;
            let base = self.ends[self.ends.len() - 1];
            let (limits, tail) = limits_laid(link, t).unwrap();
            self.limits.extend(limits.iter().map(|l| [l[0] + base, (l[1] + base) + tail, l[2]]));
            self.ends.push(base + link.length);
        }
    }
    fn clear(&mut self, x: f64) {
        while self.ends[1] < x {
            self.ends.remove(0);
        }
    }
    /// The top speed and all limits that cover x, taken together in their order, and in the opposite one.
    fn wanted(&self, x: f64) -> [f64; 2] {
        let covering = || self.limits.iter().filter(|l| l[0] <= x && x < l[1]).map(|l| l[2]);
        [covering().fold(self.top, min_speed), covering().rev().fold(self.top, |a, v| min_speed(v, a))]
    }
}

/// The speed of the last point at or before x.
fn posted(points: &[f64], x: f64) -> f64 {
    points.chunks(2).rfind(|p| p[0] <= x).map_or(f64::NAN, |p| p[1])
}

/// Every offset from the beginning on at which something may change, the two floats next to it, the middle to the following one, and offsets past all.
fn offsets(from: f64, ends: &[f64], points: &[f64], limits: &[[f64; 3]]) -> Vec<f64> {
    let mut at: Vec<f64> =
        limits.iter().flat_map(|l| [l[0], l[1]]).chain(points.chunks(2).map(|p| p[0])).chain(ends.iter().copied()).collect();
    at.sort_by(f64::total_cmp);
    at.dedup();
    let last = at[at.len() - 1];
    let middles: Vec<f64> = at.windows(2).map(|w| w[0] + (w[1] - w[0]) / 2.0).collect();
    let beside: Vec<f64> = at.iter().flat_map(|x| [x.next_up(), x.next_down()]).collect();
    at.extend(middles.into_iter().chain(beside).chain([-0.0, last + 1.0, 2.0 * last.abs() + 1e6, f64::MAX]));
    at.retain(|x| *x >= from && x.is_finite());
    at
}

fn train(r: &mut Rng) -> Train {
    Train {
        length: r.of(&[0.5, 1.0, 2.0, 3.0, 8.0, 0.1, 1e-9]),
        speed_max: r.of(&[30.0, 30.0, 20.0, 40.0, 12.0, 0.0, -0.0]),
        towed_mass_static: 1e6,
        mass_per_brake: 1e4,
        axle_count: 4,
        ..Default::default()
    }
}

/// A limit on a coarse grid, so that ends meet; it may reach past its link.
fn limit(r: &mut Rng, grid: f64) -> [f64; 3] {
    let start = r.to(10);
    let end = if r.chance(150) { start } else { start + r.to(9) };
    [r.zero_sign(start as f64 * grid), end as f64 * grid, r.of(&SPEEDS)]
}

fn link(r: &mut Rng, own: u32, prev: u32, grid: f64, limits: Vec<[f64; 3]>) -> Lk {
    let mut l = Lk { own, prev, length: r.of(&[1.0, 2.0, 4.0, 8.0, 8.0]) * grid, ..Default::default() };
    let conds = if r.chance(100) { vec![(5, r.of(&[1, 2]), 4.0)] } else { vec![] };
    l.sets[0] = Some(Set { head_end: r.chance(500) as u32, conds, lims: limits });
    l
}

/// Up to four links in a ring.
fn ring(r: &mut Rng, grid: f64) -> Table {
    let n = 1 + r.to(4) as u32;
    let mut v = vec![Lk::default()];
    for own in 1..=n {
        let limits = (0..r.of(&[0, 1, 2, 3, 4, 6, 10])).map(|_| limit(r, grid)).collect();
        v.push(link(r, own, if own == 1 { n } else { own - 1 }, grid, limits));
    }
    Table::new(Flat::of(&v, None))
}

/// The posted speed at every offset that matters: read from the points, and asked of the port.
fn check(run: &mut Run, st: &State, book: &Book) {
    let points = &st.cols.speeds[..2 * st.path.speed_count];
    let at = offsets(book.ends[0], &book.ends, points, &book.limits);
    let mut is: Vec<f64> = at.iter().map(|x| posted(points, *x)).collect();
    run.tally.asked += at.len() as u64;
    let spoilt = run.spoil_number(&mut is);
    for (x, is) in at.iter().zip(&is) {
        let [wanted, turned] = book.wanted(*x);
        if wanted.to_bits() != turned.to_bits() {
            run.differs("exact: the limits taken together in the opposite order give another number".to_string());
            break;
        }
        let a = port::posted_speed(st.path, *x, &st.cols);
        if *is != wanted || a.answer.number != 0 || a.speed != wanted {
            run.say(|| format!("  at {x:?} posted {is:?}, answered {a:?}, wanted {wanted:?}; limits {:?}", book.limits));
            run.differs("exact: the posted speed is not that of the top speed and all covering limits".to_string());
            break;
        }
    }
    run.notice(spoilt);
}

/// Extensions and trims in any order on a path of `new`.
fn by_calls(run: &mut Run) {
    let grid = run.r.of(&[1.0, 1.0, 0.5, 0.1, 1.0 / 3.0, 1e15]);
    let (t, table) = (train(&mut run.r), ring(&mut run.r, grid));
    let none = original::path(&PathTpc::default(), &Cols::default(), &t);
    let mut st = State { path: PathTpc::default(), cols: Cols::zeros(LENGTHS), original: none };
    let mut book = Book { top: t.speed_max, ends: vec![0.0], limits: vec![] };
    run.say(|| format!("{t:?}\ntable {:?}", table.entries));
    let count = 2 + run.r.to(10);
    for i in 0..count {
        let n = 1 + run.r.to(3);
        let call = match i {
            0 => Call::New,
            _ if st.path.link_count > 1 && run.r.chance(350) => Call::Clear(trim(&mut run.r, &st)),
            _ if i + 1 == count && run.r.chance(200) => Call::Finish,
            _ => Call::Extend(some_links(&mut run.r, &st, &table, n, 0)),
        };
        run.size = book.limits.len() + i;
        if step(run, &mut st, &call, &t, &table) {
            match &call {
                Call::Extend(l) => book.extend(l, &t, &table),
                Call::Clear(x) => book.clear(*x),
                _ => {}
            }
        }
        run.say(|| st.cols.text(&st.path));
        if run.differences.is_empty() {
            check(run, &st, &book);
        }
        if !run.differences.is_empty() {
            return;
        }
    }
    run.tally.exact += 1;
}

/// A path without links that a caller made, with speed points on the grid that never fall; some share an offset.
fn by_hand(r: &mut Rng, from: f64, grid: f64, t: &Train) -> State {
    let mut cols = Cols::zeros(LENGTHS);
    let mut steps: Vec<usize> = (0..r.of(&[0, 1, 2, 3, 4, 6])).map(|_| r.to(12)).collect();
    steps.sort_unstable();
    steps.insert(0, 0);
    for (k, n) in steps.iter().enumerate() {
        (cols.speeds[2 * k], cols.speeds[2 * k + 1]) = (from + *n as f64 * grid, r.of(&SPEEDS));
    }
    (cols.offsets[0], cols.grades[0], cols.curves[0]) = (from, from, from);
    let path = PathTpc { link_count: 1, grade_count: 1, curve_count: 1, speed_count: steps.len(), ..Default::default() };
    State { original: original::path(&path, &cols, t), path, cols }
}

/// The same limits laid in two orders on the same points post the same speed from the path's beginning on.
fn in_either_order(run: &mut Run) {
    let r = &mut run.r;
    let (grid, from) = (r.of(&[1.0, 0.5, 0.1]), r.of(&[0.0, 0.0, -4.0, 100.0]));
    let t = Train { speed_max: 1000.0, ..train(r) };
    let st = by_hand(r, from, grid, &t);
    let fine = r.of(&[grid, grid / 2.0]);
    let given: Vec<[f64; 3]> = (0..r.of(&[2, 2, 2, 3, 5])).map(|_| limit(r, fine)).collect();
    let mut turned = given.clone();
    (1..turned.len()).rev().for_each(|k| turned.swap(k, r.to(k + 1)));
    if turned.len() == 2 {
        turned = vec![given[1], given[0]];
    }
    let one = link(r, 1, 0, grid, given);
    let mut other = Lk { own: 2, ..one.clone() };
    other.sets[0].as_mut().unwrap().lims = turned;
    let table = Table::new(Flat::of(&[Lk::default(), one, other], None));
    run.say(|| format!("{t:?}\ntable {:?}\n{}", table.entries, st.cols.text(&st.path)));
    let mut book = Book { top: t.speed_max, ends: vec![from], limits: vec![] };
    book.extend(&[1], &t, &table);
    let mut both = [st.clone(), st];
    for (k, st) in both.iter_mut().enumerate() {
        if !step(run, st, &Call::Extend(vec![k as u32 + 1]), &t, &table) {
            run.differs("exact: two or more limits are not laid".to_string());
        }
        run.say(|| st.cols.text(&st.path));
    }
    if run.differences.is_empty() {
        same_posted(run, &both, &book);
    }
}

/// The two paths post the same speed at every offset that matters.
fn same_posted(run: &mut Run, both: &[State; 2], book: &Book) {
    let [a, b] = both.each_ref().map(|s| &s.cols.speeds[..2 * s.path.speed_count]);
    let at = offsets(book.ends[0], &book.ends, &[a, b].concat(), &book.limits);
    let mut is: Vec<f64> = at.iter().map(|x| posted(a, *x)).collect();
    run.tally.asked += at.len() as u64;
    run.tally.orders += 1;
    let spoilt = run.spoil_number(&mut is);
    if let Some((x, is)) = at.iter().zip(&is).find(|(x, is)| **is != posted(b, **x)) {
        run.say(|| format!("  at {x:?} posted {is:?} and {:?}", posted(b, *x)));
        run.differs("exact: the same limits in another order post another speed".to_string());
    }
    run.notice(spoilt);
}

pub fn run(run: &mut Run) {
    by_calls(run);
    if run.differences.is_empty() {
        in_either_order(run);
    }
}
