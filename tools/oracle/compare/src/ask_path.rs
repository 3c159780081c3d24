//! The questions of the path calls (R104 to R115), stated over the lent columns and independently of the port's code.
use crate::ask_links;
use crate::calls::Call;
use crate::columns::{counts, Cols};
use crate::table::Entry;
use mochaspit::sys::{PathTpc, Train, TrainState};

/// Number and place of the answer: (0, 0) where every question is answered with yes.
pub type Asked = (u32, usize);

/// The question's number where the answer is no.
fn no(n: u32, yes: bool) -> Option<Asked> {
    (!yes).then_some((n, 0))
}

/// Question 1 of one column: every entry up to the count or the column's end is finite; `closing` is an entry that may be +infinity.
fn entries_finite(col: &[f64], count: usize, width: usize, closing: Option<usize>) -> bool {
    let end = count.saturating_mul(width).min(col.len());
    let fine = |(k, x): (usize, &f64)| x.is_finite() || (Some(k) == closing && *x == f64::INFINITY);
    col[..end].iter().enumerate().all(fine)
}

/// Question 1 of a path. The closing offset is that of the record at count - 1, on a path that says it is finished.
fn path_finite(p: &PathTpc, c: &Cols) -> bool {
    let closing = |n: usize| if p.is_finished { n.checked_sub(1).and_then(|k| k.checked_mul(3)) } else { None };
    entries_finite(&c.offsets, p.link_count, 1, None)
        && entries_finite(&c.grades, p.grade_count, 3, closing(p.grade_count))
        && entries_finite(&c.curves, p.curve_count, 3, closing(p.curve_count))
        && entries_finite(&c.speeds, p.speed_count, 2, None)
        && entries_finite(&c.powers, p.power_count, 3, None)
}

/// Question 2 of the records of one kind, grades or curves: the counts add up, and each link point's first record is at its offset.
fn records_sound(col: &[f64], n: usize, finished: bool, own: &[u64], c: &Cols) -> bool {
    let closing = finished as u64;
    if own.iter().sum::<u64>() + 1 + closing != n as u64 {
        return false;
    }
    if finished && col[3 * (n - 1)] != f64::INFINITY {
        return false;
    }
    let mut first = 0;
    own.iter().enumerate().all(|(k, count)| {
        let there = col[3 * first] == c.offsets[k];
        first += *count as usize;
        there
    })
}

/// Question 2 of link numbers: none is 0 and the end point has the last link's; a path without links has its one 0.
fn numbers_sound(numbers: &[u32]) -> bool {
    match numbers {
        [only] => *only == 0,
        [.., last, end] => numbers.iter().all(|&n| n != 0) && end == last,
        [] => false,
    }
}

/// Question 2 of a path.
pub fn path_sound(p: &PathTpc, c: &Cols) -> bool {
    let (have, room) = (counts(p), c.room());
    if have[..4].contains(&0) || (0..5).any(|k| have[k] > room[k]) {
        return false;
    }
    let n = have[0];
    let field = |j: usize| (0..n).map(|k| c.numbers[4 * k + j]).collect::<Vec<u32>>();
    let own = |j: usize| field(j).iter().map(|&x| x as u64).collect::<Vec<u64>>();
    let speeds: Vec<f64> = (0..have[3]).map(|k| c.speeds[2 * k]).collect();
    own(2).iter().sum::<u64>() == have[4] as u64
        && (0..3).all(|j| own(j)[n - 1] == 0)
        && c.offsets[..n].windows(2).all(|w| w[0] < w[1])
        && numbers_sound(&field(3))
        && speeds[0] == c.offsets[0]
        && speeds.windows(2).all(|w| w[0] <= w[1])
        && records_sound(&c.grades, have[1], p.is_finished, &own(0), c)
        && records_sound(&c.curves, have[2], p.is_finished, &own(1), c)
}

/// Question 1 of a train; at the C interface its type has a name, too.
pub fn train_fine(t: &Train) -> bool {
    let c = [t.curve_coeff_0, t.curve_coeff_1, t.curve_coeff_2];
    let n = [t.length, t.speed_max, t.towed_mass_static, t.mass_per_brake];
    let below = t.speed_max < 0.0;
    c.iter().chain(&n).all(|x| x.is_finite()) && t.length > 0.0 && !below && t.train_type <= 6
}

/// Question 1 of a position.
pub fn position_fine(s: &TrainState) -> bool {
    let n = [s.offset, s.offset_back, s.length, s.weight_static, s.offset_in_link];
    n.iter().all(|x| x.is_finite()) && s.length > 0.0
}

fn clear(x: f64, p: &PathTpc, c: &Cols) -> Option<Asked> {
    let n = p.link_count;
    no(10, c.offsets[0] <= x && x <= c.offsets[n - 1]).or(no(12, n >= 2))
}

fn reindex(l: &[u32], p: &PathTpc, c: &Cols) -> Option<Asked> {
    let renamed = |k: &usize| l.get(c.numbers[4 * k + 3] as usize).is_some_and(|&n| n != 0);
    (0..p.link_count - 1).find(|k| !renamed(k)).map(|k| (4, k))
}

fn locate(s: &TrainState, p: &PathTpc, c: &Cols) -> Option<Asked> {
    let before = s.offset < c.offsets[0] || s.offset_back < c.offsets[0];
    let behind = c.offsets[..p.link_count].iter().rfind(|&&x| x <= s.offset);
    no(10, !before).or_else(|| no(8, (s.offset - behind.unwrap()).is_finite()))
}

/// The answer that the rules ask of a call on a path.
pub fn ask(call: &Call, p: &PathTpc, c: &Cols, t: &Train, table: &[Entry]) -> Asked {
    if let Call::New = call {
        let room = c.room();
        return no(1, train_fine(t)).or(no(9, room[..4].iter().all(|&n| n >= 1))).unwrap_or((0, 0));
    }
    let plain = match call {
        Call::Extend(_) | Call::Recalc => train_fine(t),
        Call::Clear(x) => x.is_finite(),
        Call::Locate(s) => position_fine(s),
        _ => true,
    };
    let first = no(1, plain && path_finite(p, c)).or_else(|| no(2, path_sound(p, c)));
    first.or_else(|| ask_sound(call, p, c, t, table)).unwrap_or((0, 0))
}

/// The questions behind the first two, of a path that is sound.
fn ask_sound(call: &Call, p: &PathTpc, c: &Cols, t: &Train, table: &[Entry]) -> Option<Asked> {
    let (have, room) = (counts(p), c.room());
    let open = no(3, !p.is_finished);
    match call {
        Call::Extend(l) => open.or_else(|| ask_links::extend(l, p, c, t, table)),
        Call::Recalc => ask_links::recalc(p, c, t, table),
        Call::Finish => open.or(no(9, have[1] < room[1] && have[2] < room[2])),
        Call::Clear(x) => clear(*x, p, c),
        Call::Reindex(l) => reindex(l, p, c),
        Call::LinkGrades(k) | Call::LinkCurves(k) => no(10, *k < have[0] - 1),
        Call::Locate(s) => locate(s, p, c),
        Call::New => None,
    }
}

/// Where the records of link k lie in their column, entries from and how many; j is 0 for grades, 1 for curves.
pub fn link_range(k: usize, j: usize, c: &Cols) -> [u64; 2] {
    let before: u64 = (0..k).map(|i| c.numbers[4 * i + j] as u64).sum();
    [3 * before, 3 * c.numbers[4 * k + j] as u64]
}
