//! Questions 4 to 9 of listed links (R107 to R112), stated independently of the port's code.
use crate::ask_path::Asked;
use crate::columns::{counts, Cols};
use crate::table::{Entry, Lk, Set};
use altrios_core::uc;
use mochaspit::sys::{PathTpc, Train};

fn finite(x: &[f64]) -> bool {
    x.iter().all(|y| y.is_finite())
}

fn limit_formed(l: &[f64; 3]) -> bool {
    finite(l) && 0.0 <= l[0] && l[0] <= l[1]
}

/// None or at least two, offsets rising strictly from 0 to the length.
fn samples_formed(v: &[[f64; 2]], length: f64) -> bool {
    if v.is_empty() {
        return true;
    }
    let rising = v.windows(2).all(|w| w[0][0] < w[1][0]);
    v.len() >= 2 && v.iter().all(|x| finite(x)) && rising && v[0][0] == 0.0 && v[v.len() - 1][0] == length
}

fn set_formed(s: &Set) -> bool {
    let known = |c: &(u32, u32, f64)| (3..=5).contains(&c.0) && (1..=5).contains(&c.1) && c.2.is_finite();
    s.conds.len() <= 64 && s.conds.iter().all(known) && s.lims.iter().all(limit_formed)
}

/// Question 6 of link n.
fn formed(e: &Entry, n: usize) -> bool {
    let l = &e.link;
    e.in_pools
        && e.flags_known
        && l.own as usize == n
        && l.length.is_finite()
        && l.length > 0.0
        && samples_formed(&l.elevs, l.length)
        && samples_formed(&l.heads, l.length)
        && l.powers.iter().all(|p| limit_formed(&p.0))
        && l.sets.iter().flatten().all(set_formed)
}

fn holds(&(kind, code, v): &(u32, u32, f64), t: &Train) -> bool {
    let (a, b) = match kind {
        3 => (t.towed_mass_static, v),
        4 => (t.mass_per_brake, v),
        _ => (t.axle_count as f64, v as u32 as f64),
    };
    match code {
        1 => a == b,
        2 => a > b,
        3 => a < b,
        4 => a >= b,
        _ => a <= b,
    }
}

/// What a link is to a train: whether question 6 and 7 say yes, the limits laid, and how far behind their end they reach.
struct Facts {
    formed: bool,
    has_set: bool,
    laid: Vec<[f64; 3]>,
    tail: f64,
}

/// The limits of a link that are laid for a train, as the link has them, and how far behind their end they reach; none where it has no set for the train.
pub fn limits_laid(l: &Lk, t: &Train) -> Option<(Vec<[f64; 3]>, f64)> {
    let s = l.sets[0].as_ref().or(l.sets[1 + t.train_type as usize].as_ref())?;
    let applies = s.conds.iter().all(|c| holds(c, t));
    let laid = s.lims.iter().copied().filter(|x| applies && x[2] < t.speed_max).collect();
    Some((laid, if s.head_end == 1 { 0.0 } else { t.length }))
}

fn facts(e: &Entry, n: usize, t: &Train) -> Facts {
    let own = limits_laid(&e.link, t);
    let has_set = own.is_some();
    let (laid, tail) = own.unwrap_or_default();
    Facts { formed: formed(e, n), has_set, laid, tail }
}

fn all_facts(table: &[Entry], t: &Train) -> Vec<Facts> {
    table.iter().enumerate().map(|(n, e)| facts(e, n, t)).collect()
}

/// Question 8 of the limits laid on a link that begins at base.
fn limits_finite(f: &Facts, base: f64) -> bool {
    f.laid.iter().all(|x| finite(&[x[0] + base, x[1] + base, (x[1] + base) + f.tail]))
}

/// The first position whose link fails a question.
fn first(list: &[u32], number: u32, yes: impl Fn(usize) -> bool) -> Option<Asked> {
    list.iter().position(|&n| !yes(n as usize)).map(|k| (number, k))
}

fn real(list: &[u32], table: &[Entry]) -> Option<Asked> {
    first(list, 4, |n| n != 0 && n < table.len())
}

fn formed_and_set(list: &[u32], f: &[Facts]) -> Option<Asked> {
    first(list, 6, |n| f[n].formed).or_else(|| first(list, 7, |n| f[n].has_set))
}

/// Question 5 of a link behind the link numbered prev.
fn follows(l: &Lk, prev: u32) -> bool {
    let alternatives = (l.prev != l.prev_alt || l.prev_alt == 0) && (l.next != l.next_alt || l.next_alt == 0);
    prev != 0 && alternatives && (l.prev == prev || l.prev_alt == prev)
}

fn contiguous(list: &[u32], last: Option<u32>, table: &[Entry]) -> Option<Asked> {
    let mut prev = last;
    for (k, &n) in list.iter().enumerate() {
        let l = &table[n as usize].link;
        if prev.is_some_and(|p| !follows(l, p)) {
            return Some((5, k));
        }
        prev = Some(l.own);
    }
    None
}

/// What question 8 carries from link to link: end of the path, last grade's offset and net value, last curve's net value.
struct Walk {
    end: f64,
    base: f64,
    net: f64,
    bend: f64,
}

impl Walk {
    fn grades(&mut self, l: &Lk) -> bool {
        l.elevs.windows(2).all(|w| {
            let (rise, run) = (w[1][1] - w[0][1], w[1][0] - w[0][0]);
            let up = self.net + w[1][1];
            self.net = up - w[0][1];
            finite(&[rise, run, rise / run, up, self.net, self.base + w[1][0]])
        })
    }
    fn curves(&mut self, l: &Lk, t: &Train) -> bool {
        let (rev, one) = (uc::REV.value, (uc::DEG / (uc::FT * 100.0)).value);
        l.heads.windows(2).all(|w| {
            let run = w[1][0] - w[0][0];
            let turn = w[1][1] - w[0][1];
            let half = turn + rev / 2.0;
            let bent = -rev / 2.0 + half % rev;
            let curvature = bent.abs() / run;
            let x = curvature - one;
            let (a, b) = (t.curve_coeff_0 * one, t.curve_coeff_1 * x);
            let q = t.curve_coeff_2 * x;
            let sharp = [x, a, b, a + b, q, q * x, (a + b) + q * x];
            let gentle = [t.curve_coeff_0 * curvature];
            let steps: &[f64] = if curvature < one { &gentle } else { &sharp };
            let c = steps[steps.len() - 1];
            self.bend += c * run;
            finite(steps) && finite(&[run, turn, half, half % rev, bent, curvature, c * run, self.bend, self.base + w[1][0]])
        })
    }
    /// Question 8 of one link; then the path ends behind it.
    fn link(&mut self, l: &Lk, f: &Facts, t: &Train) -> bool {
        let (end, base) = (l.length + self.end, self.base + l.length);
        let powers = l.powers.iter().all(|(p, _)| finite(&[self.base + p[0], self.base + p[1]]));
        let limits = limits_finite(f, self.end);
        let yes = powers && limits && self.grades(l) && self.curves(l, t) && finite(&[end, base]) && self.end < end;
        (self.end, self.base) = (end, base);
        yes
    }
}

/// Question 8 of the listed links.
fn sums_finite(list: &[u32], p: &PathTpc, c: &Cols, t: &Train, table: &[Entry], f: &[Facts]) -> Option<Asked> {
    let (g, k) = (3 * (p.grade_count - 1), 3 * (p.curve_count - 1));
    let mut w = Walk { end: c.offsets[p.link_count - 1], base: c.grades[g], net: c.grades[g + 2], bend: c.curves[k + 2] };
    if p.grade_count == 1 {
        if let Some(e) = table[list[0] as usize].link.elevs.first() {
            w.net = e[1];
        }
    }
    list.iter().position(|&n| !w.link(&table[n as usize].link, &f[n as usize], t)).map(|k| (8, k))
}

/// Question 9 of the listed links.
fn room_for(list: &[u32], p: &PathTpc, c: &Cols, table: &[Entry], f: &[Facts]) -> Option<Asked> {
    let (have, room) = (counts(p), c.room());
    let mut need = have;
    for &n in list {
        let l = &table[n as usize].link;
        let own = [1, l.elevs.len().max(2) - 1, l.heads.len().max(2) - 1, 2 * f[n as usize].laid.len(), l.powers.len()];
        (0..5).for_each(|k| need[k] += own[k]);
    }
    (0..5).any(|k| need[k] > room[k]).then_some((9, 0))
}

/// Questions 4 to 9 of `extend` on a path that is sound and open.
pub fn extend(list: &[u32], p: &PathTpc, c: &Cols, t: &Train, table: &[Entry]) -> Option<Asked> {
    if list.is_empty() {
        return None;
    }
    let last = p.link_count.checked_sub(2).map(|k| c.numbers[4 * k + 3]);
    let f = all_facts(table, t);
    real(list, table)
        .or_else(|| contiguous(list, last, table))
        .or_else(|| formed_and_set(list, &f))
        .or_else(|| sums_finite(list, p, c, t, table, &f))
        .or_else(|| room_for(list, p, c, table, &f))
}

/// Questions 4 to 9 of `recalc_speeds` on a path that is sound.
pub fn recalc(p: &PathTpc, c: &Cols, t: &Train, table: &[Entry]) -> Option<Asked> {
    let list: Vec<u32> = (0..p.link_count - 1).map(|k| c.numbers[4 * k + 3]).collect();
    let f = all_facts(table, t);
    let sums = || {
        let mut links = list.iter().zip(&c.offsets);
        links.position(|(&n, &base)| !limits_finite(&f[n as usize], base)).map(|k| (8, k))
    };
    let fits = || {
        let laid: usize = list.iter().map(|&n| f[n as usize].laid.len()).sum();
        (1 + 2 * laid > c.room()[3]).then_some((9, 0))
    };
    real(&list, table).or_else(|| formed_and_set(&list, &f)).or_else(sums).or_else(fits)
}
