//! The port through its C interface: columns lent as pointer and length, and each answer as a row of words to compare.
use crate::calls::Call;
use crate::columns::Cols;
use crate::list_calls::{List, ListCall};
use crate::table::Flat;
use mochaspit::sys::*;

/// Calls a function of the C interface with the path's seven columns behind its own arguments.
macro_rules! with_columns {
    ($name:ident, $c:ident, lent $(, $own:expr)*) => {
        unsafe { $name($($own,)*
            $c.offsets.as_mut_ptr(), $c.offsets.len(), $c.numbers.as_mut_ptr(), $c.numbers.len(),
            $c.grades.as_mut_ptr(), $c.grades.len(), $c.curves.as_mut_ptr(), $c.curves.len(),
            $c.speeds.as_mut_ptr(), $c.speeds.len(), $c.powers.as_mut_ptr(), $c.powers.len(),
            $c.districts.as_mut_ptr(), $c.districts.len()) }
    };
    ($name:ident, $c:ident, read $(, $own:expr)*) => {
        unsafe { $name($($own,)*
            $c.offsets.as_ptr(), $c.offsets.len(), $c.numbers.as_ptr(), $c.numbers.len(),
            $c.grades.as_ptr(), $c.grades.len(), $c.curves.as_ptr(), $c.curves.len(),
            $c.speeds.as_ptr(), $c.speeds.len(), $c.powers.as_ptr(), $c.powers.len(),
            $c.districts.as_ptr(), $c.districts.len()) }
    };
    ($name:ident, $c:ident, $f:ident $(, $own:expr)*) => {
        unsafe { $name($($own,)*
            $c.offsets.as_mut_ptr(), $c.offsets.len(), $c.numbers.as_mut_ptr(), $c.numbers.len(),
            $c.grades.as_mut_ptr(), $c.grades.len(), $c.curves.as_mut_ptr(), $c.curves.len(),
            $c.speeds.as_mut_ptr(), $c.speeds.len(), $c.powers.as_mut_ptr(), $c.powers.len(),
            $c.districts.as_mut_ptr(), $c.districts.len(),
            $f.links.as_ptr(), $f.links.len(), $f.lengths.as_ptr(), $f.lengths.len(), $f.sets.as_ptr(), $f.sets.len(),
            $f.elevs.as_ptr(), $f.elevs.len(), $f.headings.as_ptr(), $f.headings.len(),
            $f.limits.as_ptr(), $f.limits.len(), $f.codes.as_ptr(), $f.codes.len(), $f.values.as_ptr(), $f.values.len(),
            $f.link_powers.as_ptr(), $f.link_powers.len(), $f.link_districts.as_ptr(), $f.link_districts.len()) }
    };
}

pub fn new(train: Train, c: &mut Cols) -> PathAnswer {
    with_columns!(mochaspit_new, c, lent, train)
}
pub fn finish(path: PathTpc, c: &mut Cols) -> PathAnswer {
    with_columns!(mochaspit_finish, c, lent, path)
}
pub fn clear(path: PathTpc, offset: f64, c: &mut Cols) -> ClearAnswer {
    with_columns!(mochaspit_clear, c, lent, path, offset)
}
pub fn clear_each(path: PathTpc, xs: &[f64], c: &mut Cols) -> ClearAnswer {
    with_columns!(mochaspit_clear_each, c, lent, path, xs.as_ptr(), xs.len())
}
pub fn reindex(path: PathTpc, new: &[u32], c: &mut Cols) -> PathAnswer {
    with_columns!(mochaspit_reindex, c, lent, path, new.as_ptr(), new.len())
}
pub fn extend(path: PathTpc, train: Train, list: &[u32], c: &mut Cols, f: &Flat) -> PathAnswer {
    with_columns!(mochaspit_extend, c, f, path, train, list.as_ptr(), list.len())
}
pub fn recalc_speeds(path: PathTpc, train: Train, c: &mut Cols, f: &Flat) -> PathAnswer {
    with_columns!(mochaspit_recalc_speeds, c, f, path, train)
}
pub fn posted_speed(path: PathTpc, offset: f64, c: &Cols) -> PostedAnswer {
    with_columns!(mochaspit_posted_speed, c, read, path, offset)
}
pub fn link_grades(path: PathTpc, k: usize, c: &Cols) -> RangeAnswer {
    with_columns!(mochaspit_link_grades, c, read, path, k)
}
pub fn link_curves(path: PathTpc, k: usize, c: &Cols) -> RangeAnswer {
    with_columns!(mochaspit_link_curves, c, read, path, k)
}
pub fn set_link_and_offset(state: TrainState, path: PathTpc, c: &Cols) -> StateAnswer {
    with_columns!(mochaspit_set_link_and_offset, c, read, state, path)
}
pub fn strap_new(col: &[f64], n: usize, state: TrainState) -> StrapAnswer {
    unsafe { mochaspit_strap_new(col.as_ptr(), col.len(), n, state) }
}
pub fn strap_calc_res(strap: Strap, col: &[f64], n: usize, state: TrainState, dir: u32) -> StrapRes {
    unsafe { mochaspit_strap_calc_res(strap, col.as_ptr(), col.len(), n, state, dir) }
}
pub fn strap_walk(strap: Strap, col: &[f64], n: usize, state: TrainState, dir: u32, step: f64, count: usize) -> StrapRes {
    unsafe { mochaspit_strap_walk(strap, col.as_ptr(), col.len(), n, state, dir, step, count) }
}

/// The words of a path's record.
pub fn path_words(p: &PathTpc) -> Vec<u64> {
    let c = crate::columns::counts(p);
    c.iter().map(|&x| x as u64).chain([p.is_finished as u64]).collect()
}

/// The words of a position.
pub fn state_words(s: &TrainState) -> Vec<u64> {
    let f = [s.offset, s.offset_back, s.length, s.weight_static, s.offset_in_link].map(f64::to_bits);
    let mut v = f.to_vec();
    v.extend([s.link_idx_front as u64, s.link_idx_back as u64]);
    v
}

fn row(a: Answer, rest: &[u64]) -> Vec<u64> {
    let mut v = vec![a.number as u64, a.place as u64];
    v.extend(rest);
    v
}

fn dropped_words(d: &LinkPoint) -> [u64; 5] {
    [d.offset.to_bits(), d.grade_count as u64, d.curve_count as u64, d.cat_power_count as u64, d.link_idx as u64]
}

/// Lists of trims that begin at x are so many calls of `clear`: all of them, or the first refusal at its position and nothing changed.
fn trims_as_calls(path: PathTpc, x: f64, c: &Cols) {
    for xs in [&[x][..], &[x, x], &[x, f64::NAN, x], &[x, x * 0.5], &[x, x * 1.5, x * 2.0, x * 3.0]] {
        let (mut each, mut turn) = (c.clone(), c.clone());
        let in_one = clear_each(path, xs, &mut each);
        let (mut p, mut gone, mut end) = (path, [0; 5], (0, 0));
        for (k, y) in xs.iter().enumerate() {
            let a = clear(p, *y, &mut turn);
            if a.outcome.answer.number != 0 {
                end = (a.outcome.answer.number, k);
                break;
            }
            p = a.outcome.path;
            gone.iter_mut().zip(dropped_words(&a.dropped)).for_each(|(g, d)| *g += d);
        }
        let refused = end.0 != 0;
        let (p, gone, turn) = if refused { (path, [0; 5], c.clone()) } else { (p, gone, turn) };
        assert_eq!((in_one.outcome.answer.number, in_one.outcome.answer.place), end, "the answer of a list of trims differs");
        assert!(each.differ(&turn).is_empty() && in_one.outcome.path == p && dropped_words(&in_one.dropped) == gone, "a list of trims differs");
    }
}

/// A list without an offset asks questions 1 and 2 of the path and leaves what an empty extension of an open path leaves.
fn no_trims(path: PathTpc, t: Train, c: &Cols, f: &Flat) {
    let (mut each, mut joined) = (c.clone(), c.clone());
    let a = clear_each(path, &[], &mut each).outcome;
    let b = extend(path, t, &[], &mut joined, f);
    // 1 may be the train's, and a finished path cannot be extended
    if b.answer.number != 1 && b.answer.number != 3 {
        assert!((a.answer.number, a.answer.place) == (b.answer.number, 0) && a.path == b.path && each.differ(&joined).is_empty(), "no trims differ");
    }
}

/// The speed posted about x is that of the last speed point at or before the offset, found by a plain search; refused, it is +0. What questions 1 and 2
/// say of the path, a list of trims without an offset says too.
fn posted_as_searched(path: PathTpc, x: f64, c: &Cols) {
    let judged = clear_each(path, &[], &mut c.clone()).outcome.answer.number;
    let points = c.speeds.chunks_exact(2).take(path.speed_count);
    let at_points = points.clone().step_by(1 + path.speed_count.min(4096) / 8).map(|p| p[0]);
    for y in [x, x.next_up(), x.next_down(), x * 0.5, x * 1.5, -x, f64::INFINITY, f64::NAN].into_iter().chain(at_points) {
        let number = match judged {
            1 => 1,
            _ if !y.is_finite() => 1,
            0 if y < c.offsets[0] => 10,
            n => n,
        };
        let behind = points.clone().filter(|p| number == 0 && p[0] <= y).last().map_or(0, |p| p[1].to_bits());
        let a = posted_speed(path, y, c);
        assert_eq!((a.answer.number, a.answer.place, a.speed.to_bits()), (number, 0, behind), "the speed posted at {y} differs");
    }
}

/// A call on a path: number, place and the words of what it hands back, and the record to go on with.
pub fn path_call(call: &Call, path: PathTpc, t: Train, c: &mut Cols, f: &Flat) -> (Vec<u64>, PathTpc) {
    let plain = |a: PathAnswer| (row(a.answer, &path_words(&a.path)), a.path);
    let range = |a: RangeAnswer| (row(a.answer, &[a.range.from as u64, a.range.len as u64]), path);
    match call {
        Call::New => plain(new(t, c)),
        Call::Extend(l) => plain(extend(path, t, l, c, f)),
        Call::Clear(x) => {
            trims_as_calls(path, *x, c);
            no_trims(path, t, c, f);
            posted_as_searched(path, *x, c);
            let a = clear(path, *x, c);
            let (mut v, p) = plain(a.outcome);
            v.extend(dropped_words(&a.dropped));
            (v, p)
        }
        Call::Finish => plain(finish(path, c)),
        Call::Reindex(l) => plain(reindex(path, l, c)),
        Call::Recalc => plain(recalc_speeds(path, t, c, f)),
        Call::LinkGrades(k) => range(link_grades(path, *k, c)),
        Call::LinkCurves(k) => range(link_curves(path, *k, c)),
        Call::Locate(s) => {
            posted_as_searched(path, s.offset, c);
            let a = set_link_and_offset(*s, path, c);
            (row(a.answer, &state_words(&a.state)), path)
        }
    }
}

/// A call on a list: number, place and the words of what it hands back.
pub fn list_call(call: &ListCall, l: &List) -> Vec<u64> {
    let (p, len, n) = (l.col.as_ptr(), l.col.len(), l.n);
    let point = |a: PointAnswer| row(a.answer, &[a.point.idx as u64]);
    let strap = |a: StrapAnswer| row(a.answer, &[a.strap.idx_front as u64, a.strap.idx_back as u64]);
    let force = |a: mochaspit::sys::StrapRes| row(a.answer, &[a.strap.idx_front as u64, a.strap.idx_back as u64, a.res.to_bits()]);
    let coeff = |a: CoeffAnswer| row(a.answer, &[a.res_coeff.to_bits()]);
    let net = |a: NetAnswer| row(a.answer, &[a.res_net.to_bits()]);
    let index = |i: usize| row(Answer::default(), &[i as u64]);
    use ListCall::*;
    unsafe {
        match *call {
            CalcIdx(x, hint, dir) => {
                let a = mochaspit_calc_idx(p, len, n, x, hint, dir);
                row(a.answer, &[a.idx as u64])
            }
            PointNew(s) => point(mochaspit_point_new(p, len, n, s)),
            PointRes(q, s, dir) => {
                let a = mochaspit_point_calc_res(q, p, len, n, s, dir);
                row(a.answer, &[a.point.idx as u64, a.res.to_bits()])
            }
            PointCoeff(q) => coeff(mochaspit_point_res_coeff_front(q, p, len, n)),
            PointNet(q, s) => net(mochaspit_point_res_net_front(q, p, len, n, s)),
            PointIdx(q) => index(mochaspit_point_path_tpc_idx_front(q)),
            PointFix(q, sub) => point(mochaspit_point_fix_cache(q, sub)),
            StrapNew(s) => strap(mochaspit_strap_new(p, len, n, s)),
            StrapRes(q, s, dir) => force(mochaspit_strap_calc_res(q, p, len, n, s, dir)),
            StrapWalk(q, s, dir, by, count) => force(mochaspit_strap_walk(q, p, len, n, s, dir, by, count)),
            StrapCoeffFront(q) => coeff(mochaspit_strap_res_coeff_front(q, p, len, n)),
            StrapCoeffBack(q) => coeff(mochaspit_strap_res_coeff_back(q, p, len, n)),
            StrapNetFront(q, s) => net(mochaspit_strap_res_net_front(q, p, len, n, s)),
            StrapNetBack(q, s) => net(mochaspit_strap_res_net_back(q, p, len, n, s)),
            StrapIdx(q) => index(mochaspit_strap_path_tpc_idx_front(q)),
            StrapFix(q, sub) => strap(mochaspit_strap_fix_cache(q, sub)),
        }
    }
}
