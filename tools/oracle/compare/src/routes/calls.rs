//! The calls of a random route: mostly such that are done, trims and extensions in turn, and now and then one that is refused.
use crate::calls::{Call, State, Table};
use crate::random_train::offset_among;
use crate::rng::{Rng, NOT_FINITE};
use crate::scenarios::paths::new_numbers;
use mochaspit::sys::{Train, TrainState};

/// A line that is a call.
pub enum Line {
    Path(Call),
    Posted(f64),
    Show,
    Powers,
    Resistance(f64, f64),
}

impl Line {
    /// The call's word in a route file.
    pub fn word(&self) -> &'static str {
        match self {
            Line::Path(Call::New) => "new",
            Line::Path(Call::Extend(_)) => "extend",
            Line::Path(Call::Clear(_)) => "clear",
            Line::Path(Call::Finish) => "finish",
            Line::Path(Call::Recalc) => "recalculate",
            Line::Path(Call::Reindex(_)) => "reindex",
            Line::Path(Call::Locate(_)) => "locate",
            Line::Path(Call::LinkGrades(_)) => "grades",
            Line::Path(Call::LinkCurves(_)) => "curves",
            Line::Posted(_) => "posted",
            Line::Show => "show",
            Line::Powers => "powers",
            Line::Resistance(..) => "resistance",
        }
    }
}

/// Links of a path past which it is not extended, so that no column is full; a long route has no such bound.
const MOST_LINKS: usize = 90;

/// What the calls of a route are drawn for.
pub struct Scene<'a> {
    pub t: &'a Train,
    pub table: &'a Table,
    /// extensions by hundreds of links
    pub long: bool,
}

fn offsets(st: &State) -> &[f64] {
    &st.cols.offsets[..st.path.link_count]
}

/// An offset that drops a link of a path with two or more: in a later link than the first, at its beginning or its end.
pub fn dropping(r: &mut Rng, st: &State) -> f64 {
    let links = offsets(st);
    let k = 2 + r.to(links.len() - 2);
    r.of(&[links[k], links[k - 1].next_up(), links[k - 1] + (links[k] - links[k - 1]) / 2.0])
}

/// An offset to trim at, mostly one that drops a link: past link points, on them, at speed points; a few are out of range or no numbers.
pub fn trim(r: &mut Rng, st: &State) -> f64 {
    let links = offsets(st);
    if links.len() > 2 && r.chance(600) {
        return dropping(r, st);
    }
    if r.chance(200) {
        let points: Vec<f64> = st.cols.speeds.chunks(2).take(st.path.speed_count).map(|p| p[0]).collect();
        return offset_among(r, &points);
    }
    if r.chance(30) {
        return r.of(&NOT_FINITE);
    }
    offset_among(r, links)
}

/// New numbers of the links; a few of them lie outside the table.
fn renumbered(r: &mut Rng, table: &Table) -> Vec<u32> {
    let size = table.entries.len();
    let mut l = new_numbers(r, size);
    if r.chance(60) {
        l.iter_mut().skip(1).for_each(|n| *n += 30);
    }
    if r.chance(100) {
        l.extend([7, 1]);
    }
    l
}

/// Links that follow the path's last one, as far as there are any; a few times any numbers.
fn following(r: &mut Rng, st: &State, table: &Table, n: usize) -> Vec<u32> {
    let size = table.entries.len();
    if r.chance(30) {
        return (0..n).map(|_| r.to(size + 2) as u32).collect();
    }
    let mut prev = if st.path.link_count > 1 { st.cols.numbers[4 * (st.path.link_count - 2) + 3] } else { 0 };
    let mut list = vec![];
    for _ in 0..n {
        let follows = |&k: &u32| {
            let l = &table.entries[k as usize].link;
            prev == 0 || l.prev == prev || l.prev_alt == prev
        };
        let next: Vec<u32> = (1..size as u32).filter(follows).collect();
        match next.len() {
            0 => break,
            _ if prev == 0 && r.chance(600) => prev = 1,
            _ => prev = r.of(&next),
        }
        list.push(prev);
    }
    list
}

fn extension(r: &mut Rng, st: &State, s: &Scene) -> Call {
    let n = if s.long { r.of(&[3, 60, 150, 400]) } else { r.of(&[1, 1, 2, 2, 3, 3, 4, 6]) };
    if st.path.link_count > MOST_LINKS && !s.long {
        return Call::Clear(trim(r, st));
    }
    match following(r, st, s.table, n) {
        none if none.is_empty() && r.chance(300) => Call::New,
        none if none.is_empty() => Call::Clear(trim(r, st)),
        list => Call::Extend(list),
    }
}

fn place(r: &mut Rng, st: &State) -> f64 {
    let begin = st.cols.offsets[0];
    let points: Vec<f64> = st.cols.speeds.chunks(2).take(st.path.speed_count).map(|p| p[0]).collect();
    match r.to(10) {
        0 => begin,
        1..=5 => offset_among(r, &points),
        6 if r.chance(100) => r.of(&NOT_FINITE),
        _ => offset_among(r, offsets(st)),
    }
}

fn reading(r: &mut Rng, st: &State, t: &Train) -> Line {
    let state = |front: f64, back: f64| TrainState { offset: front, offset_back: back, length: t.length, ..Default::default() };
    match r.to(16) {
        0..=8 => Line::Posted(place(r, st)),
        9..=11 => Line::Path(Call::Locate(state(place(r, st), place(r, st)))),
        12..=13 => Line::Show,
        14 => r.of(&[|| Line::Powers, || Line::Path(Call::LinkGrades(0)), || Line::Path(Call::LinkCurves(1))])(),
        _ => Line::Resistance(place(r, st), place(r, st)),
    }
}

/// Any call that may come next; finish mostly near the end.
pub fn any(r: &mut Rng, st: &State, s: &Scene, last: bool) -> Line {
    if st.path.link_count < 3 && r.chance(800) || s.long && r.chance(300) {
        return Line::Path(extension(r, st, s));
    }
    let call = match r.to(100) {
        0..=34 => extension(r, st, s),
        35..=64 => Call::Clear(trim(r, st)),
        65..=72 => Call::Recalc,
        73..=79 => Call::Reindex(renumbered(r, s.table)),
        80..=81 => Call::New,
        82 if r.chance(200) || last => Call::Finish,
        _ => return reading(r, st, s.t),
    };
    Line::Path(call)
}
