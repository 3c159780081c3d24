//! Random trains, mostly ordinary, and random positions of a train.
use crate::rng::{Rng, BAD, EXTREME, NOT_FINITE};
use mochaspit::sys::{Train, TrainState};

/// A train; a wild one may have numbers at the ends of binary64. A few have a number that question 1 refuses, or an unknown type.
pub fn train(r: &mut Rng, wild: bool) -> Train {
    let mut t = Train {
        length: r.of(&[5.0, 10.0, 30.0, 50.0, 100.0, 0.1, 400.0, 3000.0]),
        speed_max: r.of(&[20.0, 25.0, 30.0, 40.0, 30.0, 0.0, -0.0]),
        towed_mass_static: r.of(&[1e6, 2e6, 0.0]),
        mass_per_brake: r.of(&[1e4, 2e4]),
        axle_count: r.of(&[4, 100, 400, 0, u32::MAX]),
        train_type: r.to(7) as u32,
        curve_coeff_0: r.of(&[0.0, 1.0, 0.5, 17.3]),
        curve_coeff_1: r.of(&[0.0, 2.0, -0.3]),
        curve_coeff_2: r.of(&[0.0, 3.0, 0.1]),
    };
    if wild && r.chance(200) {
        match r.to(4) {
            0 => t.length = r.of(&EXTREME).abs(),
            1 => t.speed_max = r.of(&EXTREME).abs(),
            2 => *coefficient(r, &mut t) = r.of(&EXTREME),
            _ => t.towed_mass_static = r.of(&EXTREME),
        }
    }
    if r.chance(14) {
        spoil_train(r, &mut t);
    }
    t
}

fn coefficient<'a>(r: &mut Rng, t: &'a mut Train) -> &'a mut f64 {
    match r.to(3) {
        0 => &mut t.curve_coeff_0,
        1 => &mut t.curve_coeff_1,
        _ => &mut t.curve_coeff_2,
    }
}

/// One number that question 1 refuses, or a type that has no name.
fn spoil_train(r: &mut Rng, t: &mut Train) {
    match r.to(6) {
        0 => t.length = if r.chance(500) { r.of(&[0.0, -0.0]) } else { r.of(&BAD) },
        1 => t.speed_max = r.of(&BAD),
        2 => *coefficient(r, t) = r.of(&NOT_FINITE),
        3 => t.towed_mass_static = r.of(&NOT_FINITE),
        4 => t.mass_per_brake = r.of(&NOT_FINITE),
        _ => t.train_type = r.of(&[7, 8, 255, 256, u32::MAX]),
    }
}

/// A position whose front and back lie among the given offsets, on them or near them.
pub fn position(r: &mut Rng, among: &[f64], wild: bool) -> TrainState {
    let offset = offset_among(r, among);
    let length = r.of(&[1.0, 2.0, 10.0, 50.0, 100.0, 0.1, 1000.0]);
    let mut s = TrainState {
        offset,
        offset_back: if r.chance(600) { offset - length } else { offset_among(r, among) },
        length,
        weight_static: r.of(&[1e6, 0.0, -0.0, 9.8e7, 1.0, -5.0]),
        link_idx_front: r.to(5) as u32,
        link_idx_back: r.of(&[0, 3, u32::MAX]),
        offset_in_link: r.of(&[0.0, -0.0, 12.5, -7.0]),
    };
    if wild && r.chance(400) {
        (0..1 + r.to(3)).for_each(|_| *field(r, &mut s) = r.of(&EXTREME));
    }
    if wild && r.chance(30) {
        (s.offset, s.length) = r.of(&[(-1.7e308, 1.7e308), (1.7e308, 1.0), (-1.7e308, 5e-324)]);
    }
    if r.chance(25) {
        *field(r, &mut s) = r.of(&NOT_FINITE);
    }
    if r.chance(10) {
        s.length = r.of(&[0.0, -0.0, -1.0, 5e-324]);
    }
    s
}

fn field<'a>(r: &mut Rng, s: &'a mut TrainState) -> &'a mut f64 {
    match r.to(5) {
        0 => &mut s.offset,
        1 => &mut s.offset_back,
        2 => &mut s.length,
        3 => &mut s.weight_static,
        _ => &mut s.offset_in_link,
    }
}

/// An offset on one of the given ones, next to it, between two, before the first or past the last.
pub fn offset_among(r: &mut Rng, among: &[f64]) -> f64 {
    if among.is_empty() {
        return r.of(&[0.0, -0.0, 50.0, -1.0, 1e300]);
    }
    let k = r.to(among.len());
    let x = among[k];
    match r.to(12) {
        0..=5 => r.near(x),
        6..=8 => {
            let y = among[(k + 1).min(among.len() - 1)];
            let m = x + (y - x) * r.of(&[0.25, 0.5, 0.75, 1e-15]);
            if m.is_finite() {
                m
            } else {
                x
            }
        }
        9 => among[among.len() - 1] + r.of(&[1.0, 1e300, 1e-9, 30.0]),
        10 => among[0] - r.of(&[1.0, 0.0, 1e-9, 1e300]),
        _ => r.of(&[-0.0, 0.0, 5.0, 100.0, 1e308]),
    }
}
