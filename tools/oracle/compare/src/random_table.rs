//! Random link tables: values on a coarse grid so that offsets meet, and now and then a link that question 6 refuses.
use crate::rng::{Rng, BAD, EXTREME, NOT_FINITE};
use crate::table::{Flat, Lk, Set};
use mochaspit::sys::Train;

/// What a table's links may have.
#[derive(Clone, Copy)]
pub struct Taste {
    /// numbers at the ends of binary64
    pub wild: bool,
    /// most samples of a link
    pub samples: usize,
    /// most limits of a set
    pub limits: usize,
    /// two limits on each link that do not touch, so that each adds two speed points
    pub apart: bool,
    /// links that question 6 refuses, and columns that do not hold what the links say
    pub faults: bool,
}

fn condition(r: &mut Rng, t: &Train) -> (u32, u32, f64) {
    let kind = 3 + r.to(3) as u32;
    let figure = match kind {
        3 => t.towed_mass_static,
        4 => t.mass_per_brake,
        _ => t.axle_count as f64,
    };
    // a comparison that holds, mostly
    let (code, v) = if r.chance(800) {
        r.of(&[(1, figure), (2, figure - 1.0), (3, figure + 1.0), (4, figure), (5, figure)])
    } else {
        (1 + r.to(5) as u32, figure + r.of(&[-1.0, 0.0, 0.5, 0.9, 1e10, -1e10]))
    };
    (kind, code, if v.is_finite() { v } else { 0.0 })
}

fn limit(r: &mut Rng, length: f64, wild: bool) -> [f64; 3] {
    let step = length / 4.0;
    let a = r.to(6) as f64 * step;
    let b = if r.chance(150) { a } else { a + r.to(5) as f64 * step };
    let v = r.of(&[5.0, 10.0, 15.0, 20.0, 25.0, 30.0, -5.0, -10.0, 0.0, -0.0, 10.0, 20.0]);
    let mut l = [r.zero_sign(a), b, v];
    if wild && r.chance(150) {
        match r.to(3) {
            0 => l[1] = r.of(&[1.7e308, 1e300, 1e17]),
            1 => l[2] = r.of(&EXTREME),
            _ => (l[0], l[1]) = (1e300, 1.7e308),
        }
    }
    l
}

fn set(r: &mut Rng, t: &Train, length: f64, k: Taste) -> Set {
    if k.apart {
        let lims = vec![[0.0, length / 4.0, r.of(&[5.0, 10.0])], [length / 2.0, length * 0.75, r.of(&[5.0, 15.0])]];
        return Set { head_end: 1, conds: vec![], lims };
    }
    let mut s = Set { head_end: r.chance(400) as u32, ..Default::default() };
    if r.chance(300) {
        s.conds = (0..1 + r.to(2)).map(|_| condition(r, t)).collect();
    }
    if r.chance(4) {
        s.conds = vec![(5, 4, 0.0); 63 + r.to(3)];
    }
    let n = if r.chance(300) { 0 } else { 1 + r.to(k.limits) };
    s.lims = (0..n).map(|_| limit(r, length, k.wild)).collect();
    s
}

/// Elevations or headings of a link: none, or at least two from 0 to its length.
fn samples(r: &mut Rng, length: f64, values: &[f64], k: Taste) -> Vec<[f64; 2]> {
    if r.chance(350) {
        return vec![];
    }
    let n = 2 + r.to(k.samples - 1);
    let at = |r: &mut Rng, i: usize| {
        if i == n - 1 {
            length
        } else if i > 0 && r.chance(300) {
            length * (i as f64 - 0.5 * r.unit()) / (n - 1) as f64
        } else {
            length * i as f64 / (n - 1) as f64
        }
    };
    let mut v: Vec<[f64; 2]> = (0..n).map(|i| [at(r, i), r.of(values)]).collect();
    v[0][0] = r.zero_sign(v[0][0]);
    if k.wild && r.chance(80) {
        let i = r.to(n);
        v[i][1] = r.of(&EXTREME);
    }
    if r.chance(300) {
        v.iter_mut().for_each(|x| x[1] += r.unit());
    }
    v
}

fn neighbours(r: &mut Rng, l: &mut Lk, i: usize, n: usize, ring: bool) {
    l.prev = if ring || r.chance(600) { [i as u32 - 1, n as u32][(i == 1) as usize] } else { r.to(n + 1) as u32 };
    l.next = if i == n { 1 } else { i as u32 + 1 };
    if r.chance(250) {
        l.prev_alt = r.to(n + 1) as u32;
    }
    if r.chance(100) {
        l.next_alt = r.to(n + 1) as u32;
    }
    if !r.chance(60) {
        if l.prev == l.prev_alt {
            l.prev_alt = 0;
        }
        if l.next == l.next_alt {
            l.next_alt = 0;
        }
    }
}

fn sets(r: &mut Rng, l: &mut Lk, t: &Train, k: Taste) {
    let own = 1 + t.train_type.min(6) as usize;
    if r.chance(600) {
        l.sets[0] = Some(set(r, t, l.length, k));
    }
    if l.sets[0].is_none() || r.chance(200) {
        if !r.chance(40) {
            l.sets[own] = Some(set(r, t, l.length, k));
        }
        for p in 1..8 {
            if p != own && r.chance(150) {
                l.sets[p] = Some(set(r, t, l.length, k));
            }
        }
    }
}

/// A table of at most eight links, link 0 among them but empty; most follow one another in a ring.
pub fn links(r: &mut Rng, t: &Train, k: Taste) -> Vec<Lk> {
    let n = r.of(&[1, 2, 3, 4, 4, 5, 6, 8]);
    let mut v = vec![Lk::default()];
    let ring = r.chance(850);
    let lens: &[f64] = if r.chance(700) { &[10.0, 20.0, 50.0, 100.0] } else { &[0.1, 0.3, 33.3, 1234.5678, 10.0] };
    for i in 1..=n {
        let mut l = Lk { own: i as u32, length: r.of(lens), ..Default::default() };
        if k.wild && r.chance(150) {
            l.length = r.of(&EXTREME).abs();
        }
        neighbours(r, &mut l, i, n, ring);
        l.elevs = samples(r, l.length, &[0.0, 1.0, 2.0, -1.0, 10.0, 0.5, -0.0], k);
        l.heads = samples(r, l.length, &[0.0, 0.5, 1.0, 3.0, 6.2, -1.0, std::f64::consts::PI, -0.0, std::f64::consts::TAU], k);
        for _ in 0..r.of(&[0, 0, 1, 2]) {
            let a = r.to(4) as f64 * l.length / 4.0;
            let end = if k.wild && r.chance(60) { 1.7e308 } else { a + r.to(4) as f64 * 5.0 };
            l.powers.push(([r.zero_sign(a), end, r.of(&[1e6, 2e6, 0.0, -1.0])], r.of(&[0, 1, 2, u32::MAX])));
        }
        sets(r, &mut l, t, k);
        if k.faults && r.chance(18) {
            spoil_link(r, &mut l, n);
        }
        v.push(l);
    }
    v
}

/// One clause of question 6 broken, perhaps.
fn spoil_link(r: &mut Rng, l: &mut Lk, n: usize) {
    match r.to(10) {
        0 => l.length = r.of(&[0.0, -5.0, f64::NAN, f64::INFINITY]),
        1 => l.own = r.to(n + 2) as u32,
        2 => l.elevs.truncate(1),
        3 => l.heads.truncate(1),
        4 => spoil_samples(r, &mut l.elevs),
        5 => spoil_samples(r, &mut l.heads),
        6 => {
            if let Some(p) = l.powers.last_mut() {
                p.0[r.to(3)] = r.of(&[-1.0, f64::NAN, f64::INFINITY, 0.0])
            }
        }
        _ => l.sets.iter_mut().flatten().for_each(|s| spoil_set(r, s)),
    }
}

fn spoil_samples(r: &mut Rng, v: &mut [[f64; 2]]) {
    if v.is_empty() {
        return;
    }
    let k = r.to(v.len());
    match r.to(4) {
        0 => v[k][r.to(2)] = r.of(&NOT_FINITE),
        1 => v[k][0] = r.of(&[0.0, -0.0, 1e5, -1.0]),
        2 => v[k][0] = v[0][0],
        _ => v[k][0] = if r.chance(500) { v[k][0].next_up() } else { v[k][0].next_down() },
    }
}

fn spoil_set(r: &mut Rng, s: &mut Set) {
    match r.to(5) {
        0 => s.head_end = r.of(&[2, u32::MAX]),
        1 => s.conds.push((r.of(&[0, 1, 2, 6, u32::MAX]), 1, 0.0)),
        2 => s.conds.push((3, r.of(&[0, 6, u32::MAX]), 0.0)),
        3 => {
            if let Some(c) = s.conds.last_mut() {
                c.2 = r.of(&BAD)
            }
        }
        _ => {
            if let Some(x) = s.lims.last_mut() {
                x[r.to(3)] = r.of(&[-1.0, f64::NAN, f64::INFINITY, 0.0])
            }
        }
    }
}

/// Columns that do not hold what the links say: a range past its pool, an unknown flag, a column cut short.
fn spoil_columns(r: &mut Rng, f: &mut Flat) {
    let n = f.len();
    match r.to(10) {
        0..=2 => {
            let at = 11 * r.to(n) + 5 + r.to(6);
            f.links[at] = r.of(&[u32::MAX, 1000, f.links[at].wrapping_add(1), 1 << 31]);
        }
        3..=4 => {
            let at = 48 * r.to(n) + r.to(48);
            f.sets[at] = r.of(&[u32::MAX, 2, f.sets[at].wrapping_add(1), 0]);
        }
        5 => cut(r, &mut f.elevs),
        6 => cut(r, &mut f.limits),
        7 => match r.to(3) {
            0 => cut(r, &mut f.codes),
            1 => cut(r, &mut f.values),
            _ => cut(r, &mut f.headings),
        },
        8 => match r.to(2) {
            0 => cut(r, &mut f.link_powers),
            _ => cut(r, &mut f.link_districts),
        },
        _ => match r.to(3) {
            0 => cut(r, &mut f.links),
            1 => cut(r, &mut f.lengths),
            _ => cut(r, &mut f.sets),
        },
    }
}

fn cut<T>(r: &mut Rng, v: &mut Vec<T>) {
    let n = v.len().saturating_sub(1 + r.to(4));
    v.truncate(n);
}

/// The ten columns of a random table.
pub fn table(r: &mut Rng, t: &Train, k: Taste) -> Flat {
    let v = links(r, t, k);
    let mut f = Flat::of(&v, Some(r));
    if k.faults && r.chance(50) {
        spoil_columns(r, &mut f);
    }
    f
}
