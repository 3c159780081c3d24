//! Paths that a caller made by hand: sound by question 2, and unlike those that the calls make.
use crate::columns::{Cols, WIDTHS};
use crate::rng::{Rng, EXTREME};
use mochaspit::sys::PathTpc;

/// What a path made by hand may have.
#[derive(Clone, Copy)]
pub struct Shape {
    pub links: usize,
    /// link numbers are below this, mostly
    pub numbers: usize,
    pub wild: bool,
}

/// Strictly behind x, by a step of a coarse grid.
fn behind(r: &mut Rng, x: f64, wild: bool) -> f64 {
    let step = if wild && r.chance(100) { r.of(&EXTREME).abs() } else { r.of(&[1.0, 10.0, 50.0, 100.0, 20.0, 0.1]) };
    let y = x + step;
    if y.is_finite() && x < y {
        y
    } else {
        x.next_up()
    }
}

fn link_offsets(r: &mut Rng, k: Shape) -> Vec<f64> {
    let plain = [0.0, -0.0, 0.0, 100.0, -100.0, 0.1, -50.0, -10.0];
    let mut x = if k.wild && r.chance(300) { r.of(&[-1e300, -1.7e308, 1e15, 5e-324, -5e-324, 1e300, 1e308]) } else { r.of(&plain) };
    let mut v = vec![x];
    for _ in 0..k.links {
        x = behind(r, x, k.wild);
        v.push(x);
    }
    v
}

fn number(r: &mut Rng, wild: bool) -> f64 {
    if wild && r.chance(60) {
        r.of(&EXTREME)
    } else {
        r.of(&[0.0, -0.0, 1.0, 0.01, -0.02, 5.0, 12.5, -3.0, 100.0])
    }
}

/// Grades or curves: each link's first at its offset, the others in order or anywhere; the counts of the links come with them.
fn records(r: &mut Rng, offsets: &[f64], finished: bool, wild: bool) -> (Vec<f64>, Vec<u32>) {
    let (mut col, mut counts) = (vec![], vec![]);
    let sorted = r.chance(700);
    let links = offsets.len() - 1;
    for k in 0..=links {
        let n = if k == links { 1 } else { r.of(&[1, 1, 1, 2, 3, 5]) };
        counts.push(if k == links { 0 } else { n as u32 });
        for i in 0..n {
            let at = if i == 0 {
                r.zero_sign(offsets[k])
            } else if sorted {
                offsets[k] + (offsets[k + 1] - offsets[k]) * i as f64 / n as f64
            } else {
                r.of(offsets) + r.of(&[0.0, 1.0, -1.0, 7.0])
            };
            col.extend([if at.is_finite() { at } else { 0.0 }, number(r, wild), number(r, wild)]);
        }
    }
    if finished {
        col.extend([f64::INFINITY, number(r, wild), number(r, wild)]);
    }
    (col, counts)
}

/// Speed points from the first link point on, never falling; some share an offset, some have equal speeds.
fn speeds(r: &mut Rng, offsets: &[f64], wild: bool) -> Vec<f64> {
    let mut at: Vec<f64> = (0..r.of(&[0, 1, 1, 2, 3, 5, 8])).map(|_| near_path(r, offsets)).filter(|x| *x >= offsets[0]).collect();
    at.sort_by(f64::total_cmp);
    at.insert(0, r.zero_sign(offsets[0]));
    let pool = [30.0, 20.0, 15.0, 10.0, 25.0, 20.0, 0.0, -0.0, -10.0, -20.0, 40.0];
    let speed = |r: &mut Rng| if wild && r.chance(60) { r.of(&EXTREME) } else { r.of(&pool) };
    at.iter().flat_map(|x| [*x, speed(r)]).collect()
}

/// An offset on a link point, next to it, between two, or past the end.
fn near_path(r: &mut Rng, offsets: &[f64]) -> f64 {
    let k = r.to(offsets.len());
    let x = offsets[k] + r.of(&[0.0, 0.0, 0.0, 5.0, 25.0, 1.0]);
    r.near(if x.is_finite() { x } else { offsets[k] })
}

fn numbers(r: &mut Rng, k: Shape) -> Vec<u32> {
    if k.links == 0 {
        return vec![0];
    }
    let one = |r: &mut Rng| if r.chance(15) { r.of(&[99, u32::MAX]) } else { 1 + r.to(k.numbers.max(2) - 1) as u32 };
    let mut v: Vec<u32> = (0..k.links).map(|_| one(r)).collect();
    v.push(v[k.links - 1]);
    v
}

/// A sound path. Its columns have room to spare, or hold its records and nothing else.
pub fn sound_path(r: &mut Rng, k: Shape) -> (PathTpc, Cols) {
    let is_finished = r.chance(350);
    let offsets = link_offsets(r, k);
    let (grades, own_grades) = records(r, &offsets, is_finished, k.wild);
    let (curves, own_curves) = records(r, &offsets, is_finished, k.wild);
    let mut c = Cols { speeds: speeds(r, &offsets, k.wild), grades, curves, ..Default::default() };
    for (i, n) in numbers(r, k).iter().enumerate() {
        let powers = if i < k.links { r.of(&[0, 0, 1, 2]) } else { 0 };
        c.numbers.extend([own_grades[i], own_curves[i], powers, *n]);
        for _ in 0..powers {
            c.powers.extend([number(r, k.wild), number(r, k.wild), r.of(&[1e6, 0.0, -5.0])]);
            c.districts.push(r.of(&[0, 1, 2, 77]));
        }
    }
    c.offsets = offsets;
    let path = PathTpc {
        link_count: c.offsets.len(),
        grade_count: c.grades.len() / 3,
        curve_count: c.curves.len() / 3,
        speed_count: c.speeds.len() / 2,
        power_count: c.districts.len(),
        is_finished,
    };
    let tight = r.chance(100);
    for (i, width) in WIDTHS.iter().enumerate() {
        let spare = if tight || r.chance(60) { r.to(2) } else { width * r.of(&[8, 40]) };
        c.resize(i, c.lens()[i] + spare);
    }
    c.junk(r, &path);
    (path, c)
}
