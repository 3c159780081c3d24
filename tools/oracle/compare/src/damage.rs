//! Damage to a sound path: a number, a count, a record or a column's length that the questions have to notice.
use crate::columns::{counts, Cols, WIDTHS};
use crate::rng::{Rng, EXTREME, NOT_FINITE};
use mochaspit::sys::PathTpc;

/// A column of numbers and how many of its entries the records take.
fn used(r: &mut Rng, p: &PathTpc, c: &Cols) -> Option<(usize, usize)> {
    let k = r.of(&[0, 2, 3, 4, 5]);
    let n = counts(p)[[0, 0, 1, 2, 3, 4][k]].saturating_mul(WIDTHS[k]).min(c.lens()[k]);
    (n > 0).then_some((k, n))
}

fn other_number(r: &mut Rng, x: f64) -> f64 {
    match r.to(8) {
        0..=2 => r.of(&NOT_FINITE),
        3 => r.of(&EXTREME),
        4 => -x,
        5 => x + r.of(&[1.0, -1.0, 100.0, -100.0]),
        6 => x.next_up(),
        _ => x.next_down(),
    }
}

/// One number of a record becomes another.
fn entry(r: &mut Rng, p: &PathTpc, c: &mut Cols) {
    if let Some((k, n)) = used(r, p, c) {
        let i = r.to(n);
        let v = c.floats(k);
        v[i] = if r.chance(150) { v[r.to(n)] } else { other_number(r, v[i]) };
    }
}

/// Two offsets of neighbouring records change places, or become one.
fn order(r: &mut Rng, p: &PathTpc, c: &mut Cols) {
    let (k, w, n) = r.of(&[(0, 1, p.link_count), (4, 2, p.speed_count), (2, 3, p.grade_count), (3, 3, p.curve_count)]);
    let v = c.floats(k);
    let n = n.min(v.len() / w);
    if n >= 2 {
        let i = w * r.to(n - 1);
        if r.chance(500) {
            v.swap(i, i + w);
        } else {
            v[i + w] = v[i];
        }
    }
}

/// A count of the record, or whether it is finished.
fn count(r: &mut Rng, p: &mut PathTpc) {
    let k = r.to(6);
    let x = match k {
        0 => &mut p.link_count,
        1 => &mut p.grade_count,
        2 => &mut p.curve_count,
        3 => &mut p.speed_count,
        4 => &mut p.power_count,
        _ => {
            p.is_finished = !p.is_finished;
            return;
        }
    };
    let all =
        [0, 1, x.wrapping_add(1), x.wrapping_sub(1), x.wrapping_sub(1), usize::MAX, usize::MAX / 3 + 1, 1 << 32, 1 << 63, 5000, 20000];
    *x = r.of(&all);
}

/// A count or a number of a link point; or two counts whose sum stays, as whole numbers or modulo 2^32.
fn link_number(r: &mut Rng, p: &PathTpc, c: &mut Cols) {
    let n = p.link_count.min(c.numbers.len() / 4);
    if n == 0 {
        return;
    }
    let (i, j) = (r.to(n), r.to(4));
    let x = c.numbers[4 * i + j];
    match r.to(4) {
        0 => c.numbers[4 * i + j] = r.of(&[0, x.wrapping_add(1), x.wrapping_sub(1), u32::MAX, 1 << 31]),
        1 => c.numbers[4 * (n - 1) + j] = r.of(&[0, 1, 7, u32::MAX]),
        _ => {
            let by = r.of(&[1, 1, u32::MAX, x]);
            let k = 4 * r.to(n) + j % 3;
            c.numbers[4 * i + j % 3] = c.numbers[4 * i + j % 3].wrapping_sub(by);
            c.numbers[k] = c.numbers[k].wrapping_add(by);
        }
    }
}

/// A column is lent shorter: by an entry or two, to what the records take, or without any.
fn length(r: &mut Rng, p: &PathTpc, c: &mut Cols) {
    let k = r.to(7);
    let n = c.lens()[k];
    let taken = counts(p)[[0, 0, 1, 2, 3, 4, 4][k]].saturating_mul(WIDTHS[k]).min(n);
    let any = r.to(n + 1);
    let left = r.of(&[0, taken, taken.saturating_sub(1), taken.saturating_sub(WIDTHS[k]), n.saturating_sub(1), any]);
    c.resize(k, left.min(n));
}

/// The first speed point or a closing record.
fn ends(r: &mut Rng, p: &PathTpc, c: &mut Cols) {
    let (k, i) = r.of(&[(4, 0), (2, p.grade_count), (3, p.curve_count)]);
    let i = if k == 4 { i } else { i.saturating_sub(1).saturating_mul(3) };
    if i < c.lens()[k] {
        let x = c.floats(k)[i];
        c.floats(k)[i] = r.of(&[f64::INFINITY, f64::NEG_INFINITY, f64::NAN, 0.0, 1e308, x.next_up()]);
    }
}

/// One thing about a path becomes another.
pub fn damage(r: &mut Rng, p: &mut PathTpc, c: &mut Cols) {
    match r.to(12) {
        0..=3 => entry(r, p, c),
        4 => order(r, p, c),
        5..=6 => count(r, p),
        7..=8 => link_number(r, p, c),
        9..=10 => length(r, p, c),
        _ => ends(r, p, c),
    }
}
