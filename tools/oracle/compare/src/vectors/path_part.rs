//! Vectors of the path's calls and of positions: a train and a table, and then calls in any order.
use super::{code, expected, real, whole, Vectors};
use crate::ask_path::{self, train_fine};
use crate::calls::{moved_speeds, with_laid, Call, State, Table};
use crate::columns::Cols;
use crate::lay;
use crate::original::{self, Out};
use crate::random_table::{table, Taste};
use crate::random_train::{position, train};
use crate::rng::Rng;
use crate::scenarios::paths::{new_numbers, some_link, some_links, trim};
use crate::table::Flat;
use mochaspit::sys::{PathTpc, Train, TrainState};

/// The lengths of the path's columns in crates/replay: 48 link points, 160 grades, curves and speed points, 64 power limits.
const LENGTHS: [usize; 7] = [48, 192, 480, 480, 320, 192, 64];
/// Entries of a table's column that crates/replay has room for.
const TABLE_ROOM: usize = 1024;
/// Stands apart from the kinds of the comparison, so that the numbers drawn are others.
const KIND: usize = 100;

fn bits(v: &[f64]) -> Vec<u64> {
    v.iter().map(|x| x.to_bits()).collect()
}

fn numbers(v: &[u32]) -> Vec<u64> {
    v.iter().map(|x| *x as u64).collect()
}

fn columns(f: &Flat) -> [Vec<u64>; 10] {
    [
        numbers(&f.links),
        bits(&f.lengths),
        numbers(&f.sets),
        bits(&f.elevs),
        bits(&f.headings),
        bits(&f.limits),
        numbers(&f.codes),
        bits(&f.values),
        bits(&f.link_powers),
        numbers(&f.link_districts),
    ]
}

/// A train that question 1 takes.
fn fine_train(r: &mut Rng, wild: bool) -> Train {
    loop {
        let t = train(r, wild);
        if train_fine(&t) {
            return t;
        }
    }
}

/// A table that crates/replay has room for.
fn fitting_table(r: &mut Rng, t: &Train, wild: bool) -> Flat {
    let taste = Taste { wild, samples: 4, limits: 3, apart: false, faults: false };
    loop {
        let f = table(r, t, taste);
        if columns(&f).iter().all(|c| c.len() <= TABLE_ROOM) {
            return f;
        }
    }
}

fn random_call(r: &mut Rng, st: &State, table: &Table, last: bool) -> Call {
    let links = &st.cols.offsets[..st.path.link_count];
    let all = if st.path.link_count == 1 && r.chance(700) { 36 } else { 108 + 40 * last as usize };
    match r.to(all) {
        0..=35 => {
            let n = r.to(4);
            Call::Extend(some_links(r, st, table, n, 40))
        }
        36..=59 => Call::Clear(trim(r, st)),
        60..=71 => Call::Recalc,
        72..=80 => {
            let mut l = new_numbers(r, table.entries.len());
            if r.chance(150) {
                l.truncate(r.to(l.len() + 1));
            }
            Call::Reindex(l)
        }
        81..=86 => Call::LinkGrades(some_link(r, &st.path)),
        87..=92 => Call::LinkCurves(some_link(r, &st.path)),
        93..=104 => Call::Locate(position(r, links, false)),
        _ => Call::Finish,
    }
}

fn state_words(s: &TrainState) -> Vec<u64> {
    bits(&[s.offset, s.offset_back, s.length, s.weight_static])
}

/// Whether every number that a call is given is finite.
fn finite(call: &Call) -> bool {
    match call {
        Call::Clear(x) => x.is_finite(),
        Call::Locate(s) => [s.offset, s.offset_back, s.length, s.weight_static].iter().all(|x| x.is_finite()),
        _ => true,
    }
}

fn write_call(v: &mut Vectors, call: &Call) {
    match call {
        Call::New => v.call(code::NEW, &[]),
        Call::Extend(l) => v.call(code::EXTEND, &numbers(l)),
        Call::Clear(x) => v.call(code::CLEAR, &[x.to_bits()]),
        Call::Finish => v.call(code::FINISH, &[]),
        Call::Recalc => v.call(code::RECALC, &[]),
        Call::Reindex(l) => v.call(code::REINDEX, &numbers(l)),
        Call::LinkGrades(k) => v.call(code::LINK_GRADES, &[*k as u64]),
        Call::LinkCurves(k) => v.call(code::LINK_CURVES, &[*k as u64]),
        Call::Locate(s) => {
            v.call(code::STATE, &state_words(s));
            v.call(code::LOCATE, &[]);
        }
    }
}

/// The values of a done call: those of the path calls begin with whether the path is finished.
fn values(call: &Call, w: &[u64], finished: bool) -> Vec<String> {
    let float = |k: usize| format!("{:016x}", w[k]);
    match call {
        Call::LinkGrades(_) | Call::LinkCurves(_) => vec![whole(w[0]), whole(w[1])],
        Call::Locate(_) => vec![whole(w[5]), whole(w[6]), float(4)],
        Call::Clear(_) => {
            let mut v = vec![whole(finished as u64), float(0)];
            v.extend(w[1..].iter().map(|x| whole(*x)));
            v
        }
        _ => vec![whole(finished as u64)],
    }
}

/// The five lists up to their counts. What lies past the counts is zero.
fn write_path(v: &mut Vectors, p: &PathTpc, c: &Cols) {
    let reals = |col: &[f64], n: usize| col[..n].iter().map(|x| real(*x)).collect::<Vec<String>>();
    let point = |k: usize| [vec![real(c.offsets[k])], c.numbers[4 * k..4 * k + 4].iter().map(|n| whole(*n as u64)).collect()].concat();
    let power = |k: usize| [reals(&c.powers[3 * k..], 3), vec![whole(c.districts[k] as u64)]].concat();
    v.line("links", &(0..p.link_count).flat_map(point).collect::<Vec<_>>());
    v.line("grades", &reals(&c.grades, 3 * p.grade_count));
    v.line("curves", &reals(&c.curves, 3 * p.curve_count));
    v.line("speeds", &reals(&c.speeds, 2 * p.speed_count));
    v.line("powers", &(0..p.power_count).flat_map(power).collect::<Vec<_>>());
    v.line("rest 0", &[]);
}

/// Makes one call on the original, and writes it and its answer unless it is left out.
fn step(v: &mut Vectors, st: &mut State, call: &Call, t: &Train, table: &Table) {
    let asked = ask_path::ask(call, &st.path, &st.cols, t, &table.entries).0;
    if !finite(call) || matches!(call, Call::Clear(x) if asked == 0 && moved_speeds(*x, &st.path, &st.cols).is_some()) {
        return;
    }
    let mut q = st.original.clone();
    let out = match call {
        // the original has no such call: the answer follows from its link points' counts
        Call::LinkGrades(_) | Call::LinkCurves(_) if asked != 0 => Out::Err,
        Call::LinkGrades(k) => Out::Done(ask_path::link_range(*k, 0, &st.cols).to_vec()),
        Call::LinkCurves(k) => Out::Done(ask_path::link_range(*k, 1, &st.cols).to_vec()),
        _ => original::path_call(call, &mut q, t, &table.net),
    };
    let Ok(done) = expected(asked, out) else { return };
    if done.is_some() {
        if let Some(laid) = lay::laid(call, &st.original, t, &table.net) {
            q = with_laid(&laid, q);
        }
        (st.path, st.cols) = (original::counted(&q), original::columns(&q, LENGTHS));
        st.original = q;
    }
    write_call(v, call);
    v.answer(call.name(), done.map(|w| values(call, &w, st.path.is_finished)).as_deref());
    if !matches!(call, Call::LinkGrades(_) | Call::LinkCurves(_) | Call::Locate(_)) {
        write_path(v, &st.path, &st.cols);
    }
}

fn write_train(v: &mut Vectors, t: &Train) {
    let n = [t.length, t.speed_max, t.towed_mass_static, t.mass_per_brake, t.curve_coeff_0, t.curve_coeff_1, t.curve_coeff_2];
    v.call(code::TRAIN, &[bits(&n), numbers(&[t.axle_count, t.train_type])].concat());
}

pub fn run(v: &mut Vectors, seed: u64) {
    let r = &mut Rng::new(KIND, seed);
    let wild = r.chance(250);
    let mut t = fine_train(r, wild);
    let table = Table::new(fitting_table(r, &t, wild));
    write_train(v, &t);
    let words: Vec<u64> = columns(&table.flat).into_iter().flat_map(|c| [vec![c.len() as u64], c].concat()).collect();
    v.call(code::TABLE, &words);
    let none = original::path(&PathTpc::default(), &Cols::default(), &t);
    let mut st = State { path: PathTpc::default(), cols: Cols::zeros(LENGTHS), original: none };
    step(v, &mut st, &Call::New, &t, &table);
    let count = 8 + r.to(14);
    for i in 0..count {
        if r.chance(60) {
            t = fine_train(r, wild);
            st.original = original::with_train(&st.original, &t);
            write_train(v, &t);
        }
        let call = random_call(r, &st, &table, i + 2 >= count);
        step(v, &mut st, &call, &t, &table);
    }
}
