//! The questions of the calls on a list searched alone (R104 to R115), stated independently of the port's code.
use crate::ask_path::position_fine;
use crate::list_calls::{List, ListCall};
use mochaspit::sys::{Strap, TrainState};

/// Done, or the number of the question answered with no. The place is always 0.
type Done<T> = Result<T, u32>;

fn yes(n: u32, is: bool) -> Done<()> {
    if is {
        Ok(())
    } else {
        Err(n)
    }
}

/// A direction's code: 0 Unk, 1 Fwd, 2 Bwd; another is refused with 1.
pub const UNK: u32 = 0;
pub const FWD: u32 = 1;
pub const BWD: u32 = 2;

/// Questions 1 and 2 of a list, `also` being question 1 of the call's other numbers.
fn sound(l: &List, also: bool) -> Done<()> {
    let closing = l.n.checked_sub(1).and_then(|k| k.checked_mul(3));
    let end = l.n.saturating_mul(3).min(l.col.len());
    let fine = |(k, x): (usize, &f64)| x.is_finite() || (Some(k) == closing && *x == f64::INFINITY);
    yes(1, also && l.col[..end].iter().enumerate().all(fine))?;
    yes(2, l.n >= 1 && l.n <= l.col.len() / 3)
}

fn offset(l: &List, i: usize) -> f64 {
    l.col[3 * i]
}

/// Questions 10 and 11 of one search, and where it ends.
fn search(l: &List, x: f64, hint: usize, dir: u32) -> Done<usize> {
    if dir == BWD {
        yes(10, offset(l, 0) <= x)?;
        yes(11, hint < l.n)?;
        return Ok((0..=hint).rev().find(|&i| offset(l, i) <= x).unwrap());
    }
    yes(10, x <= offset(l, l.n - 1))?;
    yes(11, hint < l.n - 1)?;
    Ok((hint..l.n - 1).find(|&i| x <= offset(l, i + 1)).unwrap())
}

/// Question 8: every number is finite.
fn finite(v: &[f64]) -> Done<()> {
    yes(8, v.iter().all(|x| x.is_finite()))
}

fn middle(s: &TrainState) -> Done<f64> {
    let half = s.length * 0.5;
    finite(&[half, s.offset - half])?;
    Ok(s.offset - half)
}

/// The steps of a record's value at an offset; the last one is the value.
fn value(l: &List, i: usize, x: f64) -> [f64; 3] {
    let (from, coeff, net) = (l.col[3 * i], l.col[3 * i + 1], l.col[3 * i + 2]);
    let run = x - from;
    [run, coeff * run, net + coeff * run]
}

fn point_res(l: &List, idx: usize, s: &TrainState, dir: u32) -> Done<()> {
    let i = search(l, middle(s)?, idx, dir)?;
    finite(&[l.col[3 * i + 1] * s.weight_static])
}

/// Where a strap's searches end. The other one is made only if the first does not end at its index; where it is made, the two
/// values are taken even if both end at one record. `one`: the two indices are found equal, and the record's coefficient is taken.
fn strap_moved(l: &List, p: &Strap, s: &TrainState, dir: u32) -> Done<(Strap, bool)> {
    let front = || search(l, s.offset, p.idx_front, dir);
    let back = || search(l, s.offset_back, p.idx_back, dir);
    if dir == BWD {
        let b = back()?;
        let one = b == p.idx_front;
        let f = if one { b } else { front()? };
        return Ok((Strap { idx_front: f, idx_back: b }, one));
    }
    let f = front()?;
    let one = dir == FWD && f == p.idx_back;
    let b = if one { f } else { back()? };
    Ok((Strap { idx_front: f, idx_back: b }, one || (dir == UNK && f == b)))
}

fn strap_res(l: &List, p: &Strap, s: &TrainState, dir: u32) -> Done<Strap> {
    let (q, one) = strap_moved(l, p, s, dir)?;
    if one {
        finite(&[l.col[3 * q.idx_front + 1] * s.weight_static])?;
        return Ok(q);
    }
    let (f, b) = (value(l, q.idx_front, s.offset), value(l, q.idx_back, s.offset_back));
    let d = f[2] - b[2];
    finite(&f)?;
    finite(&b)?;
    finite(&[d, d / s.length, d / s.length * s.weight_static])?;
    Ok(q)
}

/// The questions of each position, and between two of them question 8 of the sums.
fn strap_walk(l: &List, mut p: Strap, mut s: TrainState, dir: u32, by: f64, count: usize) -> Done<()> {
    for k in 0..count {
        if k > 0 {
            s.offset += by;
            s.offset_back += by;
            finite(&[s.offset, s.offset_back])?;
        }
        p = strap_res(l, &p, &s, dir)?;
    }
    Ok(())
}

fn strap_new(l: &List, s: &TrainState) -> Done<()> {
    if l.n == 1 {
        return Ok(());
    }
    let x = s.offset - s.length;
    finite(&[x])?;
    let b = search(l, x, 0, FWD)?;
    search(l, s.offset, b, FWD).map(|_| ())
}

/// Questions 1, 2 and 11 of a stored index, and 8 of the value there.
fn accessor(l: &List, idx: usize, at: Option<(f64, &TrainState)>) -> Done<()> {
    sound(l, at.is_none_or(|(_, s)| position_fine(s)))?;
    yes(11, idx < l.n)?;
    at.map_or(Ok(()), |(x, _)| finite(&value(l, idx, x)))
}

fn asked(call: &ListCall, l: &List) -> Done<()> {
    use ListCall::*;
    match call {
        CalcIdx(x, hint, dir) => {
            sound(l, x.is_finite() && *dir <= 2)?;
            search(l, *x, *hint, *dir).map(|_| ())
        }
        PointNew(s) => {
            sound(l, position_fine(s))?;
            search(l, middle(s)?, 0, FWD).map(|_| ())
        }
        PointRes(p, s, dir) => {
            sound(l, position_fine(s) && *dir <= 2)?;
            point_res(l, p.idx, s, *dir)
        }
        StrapNew(s) => {
            sound(l, position_fine(s))?;
            strap_new(l, s)
        }
        StrapRes(p, s, dir) => {
            sound(l, position_fine(s) && *dir <= 2)?;
            strap_res(l, p, s, *dir).map(|_| ())
        }
        StrapWalk(p, s, dir, by, count) => {
            sound(l, position_fine(s) && by.is_finite() && *dir <= 2)?;
            strap_walk(l, *p, *s, *dir, *by, *count)
        }
        PointCoeff(p) => accessor(l, p.idx, None),
        PointNet(p, s) => accessor(l, p.idx, Some((s.offset, s))),
        StrapCoeffFront(p) => accessor(l, p.idx_front, None),
        StrapCoeffBack(p) => accessor(l, p.idx_back, None),
        StrapNetFront(p, s) => accessor(l, p.idx_front, Some((s.offset, s))),
        StrapNetBack(p, s) => accessor(l, p.idx_back, Some((s.offset_back, s))),
        PointFix(p, sub) => yes(11, *sub <= p.idx),
        StrapFix(p, sub) => yes(11, *sub <= p.idx_back && *sub <= p.idx_front),
        PointIdx(_) | StrapIdx(_) => Ok(()),
    }
}

/// The answer that the rules ask of a call on a list.
pub fn ask(call: &ListCall, l: &List) -> (u32, usize) {
    (asked(call, l).err().unwrap_or(0), 0)
}
