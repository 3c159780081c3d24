//! Vectors of the calls on a list: searches, `Point` and `Strap`, along the list and with indices of any kind.
use super::{code, expected, whole, Vectors};
use crate::ask_lists::{self, BWD, FWD, UNK};
use crate::list_calls::{List, ListCall};
use crate::original;
use crate::random_train::{offset_among, position};
use crate::rng::Rng;
use crate::scenarios::lists::{at, index, list};
use mochaspit::sys::{Point, Strap, TrainState};

/// Records of a list that crates/replay has room for.
const ROOM: usize = 64;
/// Stands apart from the kinds of the comparison, so that the numbers drawn are others.
const KIND: usize = 101;

/// What the calls are made on.
struct Session {
    list: List,
    state: TrainState,
    point: Point,
    strap: Strap,
}

/// A list of finite numbers, its last offset excepted, which may be +infinity as that of a finished path.
fn fine_list(r: &mut Rng, wild: bool) -> List {
    loop {
        let mut l = list(r, wild);
        if l.n > ROOM || l.col.len() < 3 * l.n {
            continue;
        }
        l.col.truncate(3 * l.n);
        let closing = |k: usize| k + 3 == l.col.len() && l.col[k] == f64::INFINITY;
        if (0..l.col.len()).all(|k| l.col[k].is_finite() || closing(k)) {
            return l;
        }
    }
}

fn fine_position(r: &mut Rng, l: &List, wild: bool) -> TrainState {
    loop {
        let s = position(r, &at(l), wild);
        if [s.offset, s.offset_back, s.length, s.weight_static].iter().all(|x| x.is_finite()) {
            return TrainState { offset_in_link: 0.0, ..s };
        }
    }
}

/// An index of any kind but the largest of all, from which the original's search goes on at 0.
fn some_index(r: &mut Rng, n: usize) -> usize {
    loop {
        let k = index(r, n);
        if k != usize::MAX {
            return k;
        }
    }
}

/// The words of a done call as text; the last is a force or another number as bits, unless the call gives indices alone.
fn text(call: &ListCall, w: &[u64]) -> Vec<String> {
    use ListCall::*;
    let indices = match call {
        CalcIdx(..) | PointNew(_) | StrapNew(_) | PointFix(..) | StrapFix(..) => w.len(),
        _ => w.len() - 1,
    };
    let one = |(k, x): (usize, &u64)| if k < indices { whole(*x) } else { format!("{x:016x}") };
    w.iter().enumerate().map(one).collect()
}

/// What the original answers to each of some calls; none at all where one of them is left out.
fn answers(calls: &[ListCall], l: &List) -> Option<Vec<Option<Vec<u64>>>> {
    let records = original::records(&l.col, l.n);
    let fixes = |c: &ListCall| matches!(c, ListCall::PointFix(..) | ListCall::StrapFix(..));
    let one = |c: &ListCall| {
        let asked = ask_lists::ask(c, l).0;
        if fixes(c) && asked != 0 {
            return None;
        }
        expected(asked, original::list_call(c, &records)).ok()
    };
    calls.iter().map(one).collect()
}

impl Session {
    /// Writes a code whose answers are those of some calls, unless one of them is left out, and keeps the indices.
    fn step(&mut self, v: &mut Vectors, code: u64, words: &[u64], calls: &[ListCall]) {
        let Some(all) = answers(calls, &self.list) else { return };
        v.call(code, words);
        for (c, w) in calls.iter().zip(&all) {
            v.answer(c.name(), w.as_ref().map(|w| text(c, w)).as_deref());
            if let Some(w) = w {
                self.keep(c, w);
            }
        }
    }
    /// The indices after a done call.
    fn keep(&mut self, call: &ListCall, w: &[u64]) {
        use ListCall::*;
        match call {
            PointNew(_) | PointRes(..) | PointFix(..) => self.point = Point { idx: w[0] as usize },
            StrapNew(_) | StrapRes(..) | StrapFix(..) => self.strap = Strap { idx_front: w[0] as usize, idx_back: w[1] as usize },
            _ => {}
        }
    }
    fn place(&mut self, v: &mut Vectors, s: TrainState) {
        self.state = s;
        v.call(code::STATE, &[s.offset, s.offset_back, s.length, s.weight_static].map(f64::to_bits));
    }
    fn set(&mut self, v: &mut Vectors, point: usize, front: usize, back: usize) {
        self.point = Point { idx: point };
        self.strap = Strap { idx_front: front, idx_back: back };
        v.call(code::POINT, &[point as u64]);
        v.call(code::STRAP, &[front as u64, back as u64]);
    }
    fn begin(&mut self, v: &mut Vectors) {
        self.step(v, code::POINT_NEW, &[], &[ListCall::PointNew(self.state)]);
        self.step(v, code::STRAP_NEW, &[], &[ListCall::StrapNew(self.state)]);
    }
    fn res(&mut self, v: &mut Vectors, dir: u32) {
        self.step(v, code::POINT_RES, &[dir as u64], &[ListCall::PointRes(self.point, self.state, dir)]);
        self.step(v, code::STRAP_RES, &[dir as u64], &[ListCall::StrapRes(self.strap, self.state, dir)]);
    }
    fn values(&mut self, v: &mut Vectors) {
        use ListCall::*;
        let (p, q, s) = (self.point, self.strap, self.state);
        self.step(v, code::POINT_VALUES, &[], &[PointCoeff(p), PointNet(p, s)]);
        self.step(v, code::STRAP_VALUES, &[], &[StrapCoeffFront(q), StrapCoeffBack(q), StrapNetFront(q, s), StrapNetBack(q, s)]);
    }
    fn fix(&mut self, v: &mut Vectors, r: &mut Rng) {
        let sub = |r: &mut Rng, k: usize| r.of(&[0, 1, k, k / 2]);
        let (a, b) = (sub(r, self.point.idx), sub(r, self.strap.idx_front.min(self.strap.idx_back)));
        self.step(v, code::POINT_FIX, &[a as u64], &[ListCall::PointFix(self.point, a)]);
        self.step(v, code::STRAP_FIX, &[b as u64], &[ListCall::StrapFix(self.strap, b)]);
    }
}

/// A train that goes along the list forward and then back.
fn along(v: &mut Vectors, r: &mut Rng, s: &mut Session, wild: bool) {
    let turn = r.to(8);
    let start = fine_position(r, &s.list, wild);
    s.place(v, start);
    s.begin(v);
    for i in 0..8 {
        let dir = if r.chance(200) { UNK } else { [FWD, BWD][(i > turn) as usize] };
        let by = r.of(&[0.0, 1.0, 10.0, 25.0, 0.1, 100.0]);
        let offset = s.state.offset + if i > turn { -by } else { by };
        let offset_back = if r.chance(100) { s.state.offset_back } else { offset - s.state.length };
        if offset.is_finite() && offset_back.is_finite() {
            s.place(v, TrainState { offset, offset_back, ..s.state });
        }
        s.res(v, dir);
        s.values(v);
    }
    s.fix(v, r);
}

/// Calls with indices of any kind.
fn stored(v: &mut Vectors, r: &mut Rng, s: &mut Session, wild: bool) {
    let n = s.list.n;
    let next = fine_position(r, &s.list, wild);
    s.place(v, next);
    let front = some_index(r, n);
    let back = if r.chance(200) { front } else { some_index(r, n) };
    s.set(v, some_index(r, n), front, back);
    s.values(v);
    s.res(v, r.of(&[UNK, FWD, BWD]));
    s.fix(v, r);
    s.begin(v);
    for _ in 0..3 {
        let (x, hint, dir) = (offset_among(r, &at(&s.list)), some_index(r, n), r.of(&[UNK, FWD, BWD]));
        if x.is_finite() {
            s.step(v, code::CALC_IDX, &[x.to_bits(), hint as u64, dir as u64], &[ListCall::CalcIdx(x, hint, dir)]);
        }
    }
}

pub fn run(v: &mut Vectors, seed: u64) {
    let r = &mut Rng::new(KIND, seed);
    let wild = r.chance(250);
    let l = fine_list(r, wild);
    let words: Vec<u64> = l.col.iter().map(|x| x.to_bits()).collect();
    v.call(code::LIST, &words);
    let mut s = Session { list: l, state: TrainState::default(), point: Point::default(), strap: Strap::default() };
    s.set(v, 0, 0, 0);
    along(v, r, &mut s, wild);
    for _ in 0..4 {
        stored(v, r, &mut s, wild);
    }
}
