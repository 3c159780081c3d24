//! The original: records made for it, what it answers read off, errors and panics caught.
use crate::calls::Call;
use crate::columns::Cols;
use crate::list_calls::ListCall;
use crate::table::{Entry, Lk, Set};
use crate::value::{from_value, record, to_value, Value};
use altrios_core::lin_search_hint::{Dir, LinSearchHint};
use altrios_core::track::*;
use altrios_core::train::kind::path_res;
use altrios_core::train::{set_link_and_offset, TrainState};
use altrios_core::uc;
use altrios_core::utils::tracked_state::TrackedState;
use mochaspit::sys;
use std::panic::{catch_unwind, AssertUnwindSafe};

pub enum Out<T> {
    Done(T),
    Err,
    Panic,
}

/// What the original answered, that it returned an error, or that it panicked.
pub fn caught<T>(f: impl FnOnce() -> anyhow::Result<T>) -> Out<T> {
    match catch_unwind(AssertUnwindSafe(f)) {
        Ok(Ok(t)) => Out::Done(t),
        Ok(Err(_)) => Out::Err,
        Err(_) => Out::Panic,
    }
}

const TYPES: [TrainType; 7] = [
    TrainType::None,
    TrainType::Freight,
    TrainType::Passenger,
    TrainType::Intermodal,
    TrainType::HighSpeedPassenger,
    TrainType::TiltTrain,
    TrainType::Commuter,
];

/// A train; a type without a name becomes the last one, for the port refuses it.
pub fn train(t: &sys::Train) -> TrainParams {
    TrainParams {
        length: t.length * uc::M,
        speed_max: t.speed_max * uc::MPS,
        towed_mass_static: t.towed_mass_static * uc::KG,
        mass_per_brake: t.mass_per_brake * uc::KG,
        axle_count: t.axle_count,
        train_type: TYPES[t.train_type.min(6) as usize],
        curve_coeff_0: t.curve_coeff_0 * uc::R,
        curve_coeff_1: t.curve_coeff_1 * uc::R,
        curve_coeff_2: t.curve_coeff_2 * uc::R,
    }
}

/// A set; codes without a name become the last ones, for question 6 refuses them.
fn set(s: &Set) -> SpeedSet {
    let mut x = SpeedSet { is_head_end: s.head_end != 0, ..Default::default() };
    for &(k, c, limit_val) in &s.conds {
        let limit_type = match k {
            3 => LimitType::MassTotal,
            4 => LimitType::MassPerBrake,
            _ => LimitType::AxleCount,
        };
        let compare_type = match c {
            1 => CompareType::TpEqualRp,
            2 => CompareType::TpGreaterThanRp,
            3 => CompareType::TpLessThanRp,
            4 => CompareType::TpGreaterThanEqualRp,
            _ => CompareType::TpLessThanEqualRp,
        };
        x.speed_params.push(SpeedParam { limit_val, limit_type, compare_type });
    }
    let lim = |l: &[f64; 3]| SpeedLimit { offset_start: l[0] * uc::M, offset_end: l[1] * uc::M, speed: l[2] * uc::MPS };
    x.speed_limits = s.lims.iter().map(lim).collect();
    x
}

/// District numbers travel as decimal names; 0 is none.
fn power(p: &[f64], district: u32) -> CatPowerLimit {
    CatPowerLimit {
        offset_start: p[0] * uc::M,
        offset_end: p[1] * uc::M,
        power_limit: p[2] * uc::W,
        district_id: (district != 0).then(|| district.to_string()),
    }
}

fn link(l: &Lk) -> Link {
    let mut x = Link {
        idx_curr: LinkIdx::new(l.own),
        idx_next: LinkIdx::new(l.next),
        idx_next_alt: LinkIdx::new(l.next_alt),
        idx_prev: LinkIdx::new(l.prev),
        idx_prev_alt: LinkIdx::new(l.prev_alt),
        length: l.length * uc::M,
        ..Default::default()
    };
    x.elevs = l.elevs.iter().map(|e| Elev::new(e[0] * uc::M, e[1] * uc::M)).collect();
    let heading = |h: &[f64; 2]| Heading { offset: h[0] * uc::M, heading: h[1] * uc::RAD, lat: None, lon: None };
    x.headings = l.heads.iter().map(heading).collect();
    x.cat_power_limits = l.powers.iter().map(|(p, d)| power(p, *d)).collect();
    x.speed_set = l.sets[0].as_ref().map(set);
    for (t, s) in TYPES.iter().zip(&l.sets[1..]) {
        if let Some(s) = s {
            x.speed_sets.insert(*t, set(s));
        }
    }
    x
}

pub fn network(entries: &[Entry]) -> Vec<Link> {
    entries.iter().map(|e| link(&e.link)).collect()
}

/// The first n records of a column of grades or curves, as many as it holds.
pub fn records(col: &[f64], n: usize) -> Vec<PathResCoeff> {
    let one = |x: &[f64]| PathResCoeff { offset: x[0] * uc::M, res_coeff: x[1] * uc::R, res_net: x[2] * uc::M };
    col.chunks_exact(3).take(n).map(one).collect()
}

fn link_points(p: &sys::PathTpc, c: &Cols) -> Vec<LinkPoint> {
    let one = |(x, n): (&f64, &[u32])| LinkPoint {
        offset: *x * uc::M,
        grade_count: n[0] as usize,
        curve_count: n[1] as usize,
        cat_power_count: n[2] as usize,
        link_idx: LinkIdx::new(n[3]),
    };
    c.offsets.iter().zip(c.numbers.chunks_exact(4)).take(p.link_count).map(one).collect()
}

fn speed_points(col: &[f64], n: usize) -> Vec<SpeedLimitPoint> {
    let one = |x: &[f64]| SpeedLimitPoint { offset: x[0] * uc::M, speed_limit: x[1] * uc::MPS };
    col.chunks_exact(2).take(n).map(one).collect()
}

/// A path with the records of these columns, as many as they hold.
pub fn path(p: &sys::PathTpc, c: &Cols, t: &sys::Train) -> PathTpc {
    let powers = c.powers.chunks_exact(3).zip(&c.districts).take(p.power_count);
    let mut v = to_value(&PathTpc::new(train(t)));
    v.set("link_points", to_value(&link_points(p, c)));
    v.set("grades", to_value(&records(&c.grades, p.grade_count)));
    v.set("curves", to_value(&records(&c.curves, p.curve_count)));
    v.set("speed_points", to_value(&speed_points(&c.speeds, p.speed_count)));
    v.set("cat_power_limits", to_value(&powers.map(|(x, d)| power(x, *d)).collect::<Vec<_>>()));
    v.set("is_finished", Value::Bool(p.is_finished));
    from_value(v)
}

/// The same path with another train.
pub fn with_train(p: &PathTpc, t: &sys::Train) -> PathTpc {
    let mut v = to_value(p);
    v.set("train_params", to_value(&train(t)));
    from_value(v)
}

/// The same path with other speed points, two numbers each.
pub fn with_speeds(p: &PathTpc, speeds: &[f64]) -> PathTpc {
    let mut v = to_value(p);
    v.set("speed_points", to_value(&speed_points(speeds, usize::MAX)));
    from_value(v)
}

/// The record of counts that goes with a path.
pub fn counted(p: &PathTpc) -> sys::PathTpc {
    sys::PathTpc {
        link_count: p.link_points().len(),
        grade_count: p.grades().len(),
        curve_count: p.curves().len(),
        speed_count: p.speed_points().len(),
        power_count: p.cat_power_limits().len(),
        is_finished: p.is_finished(),
    }
}

/// The columns of a path, with zeros up to the given lengths.
pub fn columns(p: &PathTpc, lens: [usize; 7]) -> Cols {
    let mut c = Cols::default();
    for x in p.link_points() {
        c.offsets.push(x.offset.value);
        c.numbers.extend([x.grade_count as u32, x.curve_count as u32, x.cat_power_count as u32, x.link_idx.idx() as u32]);
    }
    for (col, l) in [(&mut c.grades, p.grades()), (&mut c.curves, p.curves())] {
        l.iter().for_each(|x| col.extend([x.offset.value, x.res_coeff.value, x.res_net.value]));
    }
    p.speed_points().iter().for_each(|x| c.speeds.extend([x.offset.value, x.speed_limit.value]));
    for x in p.cat_power_limits() {
        c.powers.extend([x.offset_start.value, x.offset_end.value, x.power_limit.value]);
        c.districts.push(x.district_id.as_deref().map_or(0, |d| d.parse().unwrap()));
    }
    let held = c.lens();
    (0..7).for_each(|k| c.resize(k, lens[k].max(held[k])));
    c
}

/// A position; its offset and link fields are still to be brought up to date, as `set_link_and_offset` wants them.
pub fn state(s: &sys::TrainState, located: bool) -> TrainState {
    let mut x = TrainState {
        offset: TrackedState::new(s.offset * uc::M),
        offset_back: TrackedState::new(s.offset_back * uc::M),
        length: TrackedState::new(s.length * uc::M),
        weight_static: TrackedState::new(s.weight_static * uc::N),
        ..Default::default()
    };
    if !located {
        x.offset.mark_stale();
        x.link_idx_front.mark_stale();
        x.offset_in_link.mark_stale();
        x.link_idx_back.mark_stale();
    }
    x
}

fn locate(s: &sys::TrainState, p: &PathTpc) -> anyhow::Result<Vec<u64>> {
    let mut x = state(s, false);
    set_link_and_offset(&mut x, p)?;
    let at = String::new;
    let placed = sys::TrainState {
        link_idx_front: *x.link_idx_front.get_fresh(at)?,
        offset_in_link: x.offset_in_link.get_fresh(at)?.value,
        link_idx_back: *x.link_idx_back.get_fresh(at)?,
        ..*s
    };
    Ok(crate::port::state_words(&placed))
}

fn dropped(d: LinkPoint) -> Vec<u64> {
    let n = [d.grade_count, d.curve_count, d.cat_power_count, d.link_idx.idx()];
    [d.offset.value.to_bits()].into_iter().chain(n.map(|x| x as u64)).collect()
}

/// A call on a path, which it may change: the words of what it hands back beside the path. The two calls for a link's records are not there.
pub fn path_call(call: &Call, p: &mut PathTpc, t: &sys::Train, net: &[Link]) -> Out<Vec<u64>> {
    let idx = |l: &[u32]| l.iter().map(|&n| LinkIdx::new(n)).collect::<Vec<_>>();
    caught(|| {
        match call {
            Call::New => *p = PathTpc::new(train(t)),
            Call::Extend(l) => p.extend(net, idx(l))?,
            Call::Clear(x) => return Ok(dropped(p.clear(*x * uc::M)?)),
            Call::Finish => p.finish(),
            Call::Reindex(l) => p.reindex(&idx(l))?,
            Call::Recalc => p.recalc_speeds(net)?,
            Call::Locate(s) => return locate(s, p),
            Call::LinkGrades(_) | Call::LinkCurves(_) => {}
        }
        Ok(vec![])
    })
}

fn point(p: &sys::Point) -> path_res::Point {
    from_value(record([("idx", Value::U64(p.idx as u64))]))
}
fn strap(p: &sys::Strap) -> path_res::Strap {
    from_value(record([("idx_front", Value::U64(p.idx_front as u64)), ("idx_back", Value::U64(p.idx_back as u64))]))
}
fn point_words(p: &path_res::Point) -> Vec<u64> {
    vec![to_value(p).field("idx").u64()]
}
fn strap_words(p: &path_res::Strap) -> Vec<u64> {
    let v = to_value(p);
    vec![v.field("idx_front").u64(), v.field("idx_back").u64()]
}
fn dir(code: u32) -> Dir {
    match code {
        1 => Dir::Fwd,
        2 => Dir::Bwd,
        _ => Dir::Unk,
    }
}
fn and(mut v: Vec<u64>, x: f64) -> Vec<u64> {
    v.push(x.to_bits());
    v
}

/// Position by position: the original has no other way.
fn walk(mut p: path_res::Strap, mut s: sys::TrainState, d: &Dir, by: f64, count: usize, l: &[PathResCoeff]) -> anyhow::Result<Vec<u64>> {
    let mut force = 0.0;
    for k in 0..count {
        if k > 0 {
            s.offset += by;
            s.offset_back += by;
        }
        force = p.calc_res(l, &state(&s, true), d)?.value;
    }
    Ok(and(strap_words(&p), force))
}

fn on_list(call: &ListCall, l: &[PathResCoeff]) -> anyhow::Result<Vec<u64>> {
    use ListCall::*;
    Ok(match call {
        CalcIdx(x, hint, d) => vec![l.calc_idx(*x * uc::M, *hint, &dir(*d))? as u64],
        PointNew(s) => point_words(&path_res::Point::new(l, &state(s, true))?),
        PointRes(p, s, d) => {
            let mut p = point(p);
            let f = p.calc_res(l, &state(s, true), &dir(*d))?;
            and(point_words(&p), f.value)
        }
        PointCoeff(p) => and(vec![], point(p).res_coeff_front(l).value),
        PointNet(p, s) => and(vec![], point(p).res_net_front(l, &state(s, true))?.value),
        PointIdx(p) => vec![point(p).path_tpc_idx_front() as u64],
        PointFix(p, sub) => {
            let mut p = point(p);
            p.fix_cache(*sub);
            point_words(&p)
        }
        StrapNew(s) => strap_words(&path_res::Strap::new(l, &state(s, true))?),
        StrapRes(p, s, d) => {
            let mut p = strap(p);
            let f = p.calc_res(l, &state(s, true), &dir(*d))?;
            and(strap_words(&p), f.value)
        }
        StrapWalk(p, s, d, by, count) => walk(strap(p), *s, &dir(*d), *by, *count, l)?,
        StrapCoeffFront(p) => and(vec![], strap(p).res_coeff_front(l).value),
        StrapCoeffBack(p) => and(vec![], strap(p).res_coeff_back(l).value),
        StrapNetFront(p, s) => and(vec![], strap(p).res_net_front(l, &state(s, true))?.value),
        StrapNetBack(p, s) => and(vec![], strap(p).res_net_back(l, &state(s, true))?.value),
        StrapIdx(p) => vec![strap(p).path_tpc_idx_front() as u64],
        StrapFix(p, sub) => {
            let mut p = strap(p);
            p.fix_cache(*sub);
            strap_words(&p)
        }
    })
}

/// A call on a list: the words of what it hands back.
pub fn list_call(call: &ListCall, l: &[PathResCoeff]) -> Out<Vec<u64>> {
    caught(|| on_list(call, l))
}
