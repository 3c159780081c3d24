//! A random train and link table for a route file: lengths and limits on a coarse grid, so that offsets meet.
use crate::rng::Rng;
use crate::table::{Lk, Set};
use mochaspit::sys::Train;

const SPEEDS: [f64; 12] = [25.0, 20.0, 15.0, 10.0, 5.0, 10.0, 20.0, 13.889, 8.3335, 20.0001, 19.9999, 30.0];
/// Speeds without a direction, against it, and above most top speeds.
const ODD: [f64; 12] = [0.0, -0.0, -5.0, -10.0, -15.0, -20.0, -25.0, -20.0001, 0.0004, 50.0, 35.0, 40.0];

/// How a table's limits lie: the step of the grid, how many a set has at most, whether short and inside their link, odd speeds in a thousand.
#[derive(Clone, Copy)]
pub struct Taste {
    pub grid: f64,
    limits: usize,
    inside: bool,
    odd: usize,
    /// extensions by hundreds of links
    pub long: bool,
}

pub fn taste(r: &mut Rng) -> Taste {
    let long = r.chance(4);
    let inside = r.chance(if long { 800 } else { 400 });
    let limits = match inside {
        true if long => r.of(&[2, 4, 8]),
        true => r.of(&[1, 2, 3]),
        _ => r.of(&[2, 3, 4, 8]),
    };
    Taste { grid: grid(r), limits, inside, odd: r.of(&[0, 30, 100, 400]), long }
}

/// The step of the grid; a few have no exact decimal or are so large that sums are rounded.
fn grid(r: &mut Rng) -> f64 {
    match r.to(20) {
        0..=8 => 100.0,
        9..=11 => 1.0,
        12..=13 => 250.0,
        14..=15 => 0.5,
        16 => 0.1,
        17 => 1.0 / 3.0,
        18 => 1e15,
        _ => 12.345,
    }
}

pub fn train(r: &mut Rng, k: Taste) -> Train {
    let steps = match r.to(10) {
        0 => r.of(&[1e-9, 20.0]),
        _ if k.long => r.of(&[0.1, 0.5, 2.0]),
        _ => r.of(&[0.5, 1.0, 2.0, 3.0, 8.0, 0.1, 3.1]),
    };
    let mut t = Train {
        length: k.grid * steps,
        speed_max: if r.chance(40) { r.of(&[0.0, -0.0, 0.0005]) } else { r.of(&[30.0, 30.0, 20.0, 40.0, 12.0, 22.2225]) },
        towed_mass_static: r.of(&[1e6, 620_000.0]),
        mass_per_brake: r.of(&[1e4, 12_000.5]),
        axle_count: r.of(&[4, 48, 400]),
        train_type: r.to(7) as u32,
        curve_coeff_0: r.of(&[0.0, 0.7]),
        curve_coeff_1: r.of(&[0.0, 0.7]),
        curve_coeff_2: r.of(&[0.0, -0.3]),
    };
    if r.chance(8) {
        match r.to(3) {
            0 => t.length = r.of(&[0.0, -1.0, f64::NAN]),
            1 => t.speed_max = r.of(&[-1.0, f64::INFINITY]),
            _ => t.mass_per_brake = f64::NAN,
        }
    }
    t
}

/// A limit: short ones inside others, some without length, some past their link's end.
fn limit(r: &mut Rng, length: f64, k: Taste) -> [f64; 3] {
    let step = if r.chance(100) { k.grid / 2.0 } else { k.grid };
    let steps = ((length / step) as usize).max(1);
    let (start, long) = if k.inside {
        let start = r.to(steps);
        (start, r.of(&[1, 1, 2]).min(steps - start))
    } else {
        (r.of(&[0, 0, 1, 2, 3, 4, 5, 6, 7, 8, 9, 10]), r.of(&[1, 1, 2, 2, 3, 4, 6, 9, 12]))
    };
    let end = if r.chance(80) { start } else { start + long };
    let v = if r.chance(k.odd) { r.of(&ODD) } else { r.of(&SPEEDS) };
    [r.zero_sign(start as f64 * step), end as f64 * step, v]
}

/// A condition, the train's figure on the left; most hold.
fn condition(r: &mut Rng, t: &Train) -> (u32, u32, f64) {
    let kind = 3 + r.to(3) as u32;
    let figure = [t.towed_mass_static, t.mass_per_brake, t.axle_count as f64][kind as usize - 3];
    let figure = if figure.is_finite() { figure } else { 1.0 };
    let (code, v) = match r.to(10) {
        0..=7 => r.of(&[(1, figure), (2, figure - 1.0), (3, figure + 1.0), (4, figure), (5, figure)]),
        _ => (1 + r.to(5) as u32, figure + r.of(&[-1.0, 0.0, 0.5, 1.0])),
    };
    (kind, code, v)
}

fn set(r: &mut Rng, t: &Train, length: f64, k: Taste) -> Set {
    let conds = if r.chance(150) { (0..1 + r.to(2)).map(|_| condition(r, t)).collect() } else { vec![] };
    let n = r.to(k.limits + 1);
    Set { head_end: r.chance(350) as u32, conds, lims: (0..n).map(|_| limit(r, length, k)).collect() }
}

/// Sets for all trains, for this train's type and for others; a few links have none for this train.
fn sets(r: &mut Rng, l: &mut Lk, t: &Train, k: Taste) {
    let own = 1 + t.train_type as usize;
    if r.chance(650) {
        l.sets[0] = Some(set(r, t, l.length, k));
    }
    if (l.sets[0].is_none() && !r.chance(30)) || r.chance(150) {
        l.sets[own] = Some(set(r, t, l.length, k));
    }
    let other = 1 + r.to(7);
    if other != own && r.chance(250) {
        l.sets[other] = Some(set(r, t, l.length, k));
    }
}

/// The links that follow and precede: a line, a ring, or any, loops of one link among them.
fn neighbours(r: &mut Rng, l: &mut Lk, n: u32, shape: usize) {
    let own = l.own;
    let ring = |k: u32| if k == 0 { n } else { k };
    let any = 1 + r.to(n as usize) as u32;
    l.prev = match shape {
        0 => own - 1,
        1 => ring(own - 1),
        _ => r.of(&[own, ring(own - 1), any]),
    };
    l.next = if own == n { (shape != 0) as u32 } else { own + 1 };
    if r.chance(300) {
        l.prev_alt = r.of(&[own, own, any]);
    }
    if r.chance(100) {
        l.next_alt = 1 + r.to(n as usize) as u32;
    }
    // an alternative that is none is refused by question 5
    if !r.chance(20) {
        if l.prev == l.prev_alt {
            l.prev_alt = 0;
        }
        if l.next == l.next_alt {
            l.next_alt = 0;
        }
    }
}

fn samples(r: &mut Rng, length: f64, values: &[f64]) -> Vec<[f64; 2]> {
    if r.chance(700) {
        return vec![];
    }
    let n = 1 + r.to(3);
    (0..=n).map(|k| [length * k as f64 / n as f64, r.of(values)]).collect()
}

/// One field that question 6 refuses, or a length whose sum question 8 does.
fn spoil(r: &mut Rng, l: &mut Lk) {
    match r.to(6) {
        0 => l.length = r.of(&[0.0, -5.0, f64::NAN]),
        1 => l.length = f64::from_bits(0x7fe0_0000_0000_0000),
        2 => l.elevs = vec![[0.0, 1.0], [l.length / 2.0, 2.0]],
        3 => l.heads = vec![[0.0, 1.0]],
        4 => l.powers.push(([2.0, 1.0, 1e6], 1)),
        _ => {
            if let Some(x) = l.sets.iter_mut().flatten().flat_map(|s| s.lims.last_mut()).next() {
                x[r.to(2)] = r.of(&[-1.0, f64::INFINITY])
            }
        }
    }
}

/// Link 1 comes first only, with a low limit over all that follows: the original loses it with the link, and then has far more speed points.
fn blanket(v: &mut [Lk], grid: f64) {
    let n = v.len() - 1;
    if n >= 3 {
        (v[1].prev, v[1].prev_alt, v[2].prev, v[2].prev_alt) = (0, 0, 1, n as u32);
        v[1].sets.iter_mut().flatten().for_each(|s| s.lims.push([0.0, 1e4 * grid, 0.5]));
    }
}

/// One to twelve links, from number 1 on; number 0 is empty.
pub fn links(r: &mut Rng, t: &Train, k: Taste) -> Vec<Lk> {
    let n = r.of(&[1, 2, 3, 4, 4, 5, 6, 7, 8, 10, 12]);
    let shape = r.of(&[0, 1, 1, 2]);
    let mut v = vec![Lk::default()];
    for own in 1..=n {
        let mut l =
            Lk { own, length: r.of(&[1.0, 2.0, 3.0, 4.0, 5.0, 8.0, if k.long { 40.0 } else { 8.0 }]) * k.grid, ..Default::default() };
        neighbours(r, &mut l, n, shape);
        l.elevs = samples(r, l.length, &[0.0, 1.0, 2.5, -1.0, 10.0]);
        l.heads = samples(r, l.length, &[0.0, 0.5, 1.0, 3.0, -1.0]);
        if r.chance(100) {
            l.powers.push(([0.0, l.length, 4e6], r.to(3) as u32));
        }
        sets(r, &mut l, t, k);
        if r.chance(8) {
            spoil(r, &mut l);
        }
        v.push(l);
    }
    if k.long && r.chance(400) {
        blanket(&mut v, k.grid);
    }
    v
}
