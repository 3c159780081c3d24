//! The calls on a list searched alone, each made on both sides and judged.
use crate::ask_lists;
use crate::judge::{Run, Verdict, OWN};
use crate::original::{self, Out};
use crate::port;
use mochaspit::sys::{Point, Strap, TrainState};

/// A list: n records in a column that may hold more or fewer.
#[derive(Clone, Debug)]
pub struct List {
    pub col: Vec<f64>,
    pub n: usize,
}

/// Numbers behind a record are a direction's code, or for `fix_cache` the count dropped.
#[derive(Clone, Debug)]
pub enum ListCall {
    CalcIdx(f64, usize, u32),
    PointNew(TrainState),
    PointRes(Point, TrainState, u32),
    PointCoeff(Point),
    PointNet(Point, TrainState),
    PointIdx(Point),
    PointFix(Point, usize),
    StrapNew(TrainState),
    StrapRes(Strap, TrainState, u32),
    StrapCoeffFront(Strap),
    StrapCoeffBack(Strap),
    StrapNetFront(Strap, TrainState),
    StrapNetBack(Strap, TrainState),
    StrapIdx(Strap),
    StrapFix(Strap, usize),
    /// direction, step and how many positions
    StrapWalk(Strap, TrainState, u32, f64, usize),
}

use ListCall::*;

impl ListCall {
    pub fn name(&self) -> &'static str {
        match self {
            CalcIdx(..) => "calc_idx",
            PointNew(_) => "Point::new",
            PointRes(..) => "Point::calc_res",
            PointCoeff(_) => "Point::res_coeff_front",
            PointNet(..) => "Point::res_net_front",
            PointIdx(_) => "Point::path_tpc_idx_front",
            PointFix(..) => "Point::fix_cache",
            StrapNew(_) => "Strap::new",
            StrapRes(..) => "Strap::calc_res",
            StrapCoeffFront(_) => "Strap::res_coeff_front",
            StrapCoeffBack(_) => "Strap::res_coeff_back",
            StrapNetFront(..) => "Strap::res_net_front",
            StrapNetBack(..) => "Strap::res_net_back",
            StrapIdx(_) => "Strap::path_tpc_idx_front",
            StrapFix(..) => "Strap::fix_cache",
            StrapWalk(..) => "Strap, a walk",
        }
    }
    fn words(&self) -> &'static [&'static str] {
        match self {
            CalcIdx(..) | PointNew(_) | PointIdx(_) | PointFix(..) | StrapIdx(_) => &["index"],
            PointRes(..) => &["index", "force"],
            PointCoeff(_) | StrapCoeffFront(_) | StrapCoeffBack(_) => &["coefficient"],
            PointNet(..) | StrapNetFront(..) | StrapNetBack(..) => &["net value"],
            StrapNew(_) | StrapFix(..) => &["front index", "back index"],
            StrapRes(..) | StrapWalk(..) => &["front index", "back index", "force"],
        }
    }
    /// The words after a refusal: the indices as they came, zero for each answer wanted.
    fn refused(&self) -> Vec<u64> {
        let both = |p: &Strap| vec![p.idx_front as u64, p.idx_back as u64];
        match self {
            PointRes(p, ..) => vec![p.idx as u64, 0],
            PointFix(p, _) => vec![p.idx as u64],
            StrapRes(p, ..) | StrapWalk(p, ..) => [both(p), vec![0]].concat(),
            StrapFix(p, _) => both(p),
            StrapNew(_) => vec![0, 0],
            _ => vec![0],
        }
    }
    /// Whether a forward search begins at the largest index: the original's index then wraps to 0.
    fn wraps(&self) -> bool {
        match self {
            CalcIdx(_, hint, dir) => *hint == usize::MAX && *dir < 2,
            PointRes(p, _, dir) => p.idx == usize::MAX && *dir < 2,
            StrapRes(p, _, dir) | StrapWalk(p, _, dir, ..) => (p.idx_front == usize::MAX || p.idx_back == usize::MAX) && *dir < 2,
            _ => false,
        }
    }
}

/// Makes one call on both sides and judges it; the port's number and words.
pub fn step(run: &mut Run, call: &ListCall, l: &List) -> Vec<u64> {
    let asked = ask_lists::ask(call, l);
    run.say(|| format!("{call:?}"));
    let got = port::list_call(call, l);
    let done = original::list_call(call, &original::records(&l.col, l.n));
    let mut own = OWN.to_vec();
    if let PointFix(..) | StrapFix(..) = call {
        own.push(11);
    }
    if call.wraps() && asked.0 == 11 && matches!(done, Out::Done(_)) {
        run.tally.wrapped += 1;
        own.push(11);
    }
    let v = Verdict { call: call.name(), words: call.words(), asked, got: got.clone(), done, refused: call.refused(), own: &own };
    run.judge(v, None);
    got
}
