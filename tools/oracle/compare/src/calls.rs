//! The calls on a path, each made on both sides and judged.
use crate::ask_path;
use crate::columns::{counts, Cols};
use crate::judge::{Run, Verdict, OWN};
use crate::lay::{self, Laid};
use crate::original::{self, Out};
use crate::port;
use crate::table::{Entry, Flat};
use altrios_core::track::{Link, PathTpc as OriginalPath};
use mochaspit::sys::{PathTpc, Train, TrainState};

#[derive(Clone, Debug)]
pub enum Call {
    New,
    Extend(Vec<u32>),
    Clear(f64),
    Finish,
    Reindex(Vec<u32>),
    Recalc,
    LinkGrades(usize),
    LinkCurves(usize),
    Locate(TrainState),
}

const PATH: [&str; 6] = ["link count", "grade count", "curve count", "speed count", "power count", "finished"];
const CLEARED: [&str; 11] = [
    "link count",
    "grade count",
    "curve count",
    "speed count",
    "power count",
    "finished",
    "dropped offset",
    "dropped grades",
    "dropped curves",
    "dropped power limits",
    "dropped link number",
];
const RANGE: [&str; 2] = ["first entry", "entries"];
const PLACED: [&str; 7] = ["offset", "back", "length", "weight", "offset in link", "front link", "back link"];

impl Call {
    pub fn name(&self) -> &'static str {
        match self {
            Call::New => "new",
            Call::Extend(_) => "extend",
            Call::Clear(_) => "clear",
            Call::Finish => "finish",
            Call::Reindex(_) => "reindex",
            Call::Recalc => "recalc_speeds",
            Call::LinkGrades(_) => "link_grades",
            Call::LinkCurves(_) => "link_curves",
            Call::Locate(_) => "set_link_and_offset",
        }
    }
    fn words(&self) -> &'static [&'static str] {
        match self {
            Call::Clear(_) => &CLEARED,
            Call::LinkGrades(_) | Call::LinkCurves(_) => &RANGE,
            Call::Locate(_) => &PLACED,
            _ => &PATH,
        }
    }
    /// The words after a refusal: every record as it came, zero for each answer wanted.
    fn refused(&self, p: &PathTpc) -> Vec<u64> {
        match self {
            Call::New => vec![0; 6],
            Call::Clear(_) => port::path_words(p).into_iter().chain([0; 5]).collect(),
            Call::LinkGrades(_) | Call::LinkCurves(_) => vec![0; 2],
            Call::Locate(s) => port::state_words(s),
            _ => port::path_words(p),
        }
    }
    fn is_reading(&self) -> bool {
        matches!(self, Call::LinkGrades(_) | Call::LinkCurves(_) | Call::Locate(_))
    }
}

/// A link table: its columns, its links as read from them, and the original's.
pub struct Table {
    pub flat: Flat,
    pub entries: Vec<Entry>,
    pub net: Vec<Link>,
}

impl Table {
    pub fn new(flat: Flat) -> Table {
        let entries = flat.entries();
        let net = original::network(&entries);
        Table { flat, entries, net }
    }
}

/// A path on both sides: the port's record and columns, and the original's.
#[derive(Clone)]
pub struct State {
    pub path: PathTpc,
    pub cols: Cols,
    pub original: OriginalPath,
}

/// The speed points that R52 gives where none is at the kept beginning of a trim.
pub fn moved_speeds(x: f64, p: &PathTpc, c: &Cols) -> Option<Vec<f64>> {
    let links = &c.offsets[..p.link_count];
    let d = links.windows(2).position(|w| w[1] >= x)?;
    let at = links[d];
    let speeds = &c.speeds[..2 * p.speed_count];
    if d == 0 || speeds.chunks(2).any(|s| s[0] == at) {
        return None;
    }
    let last = speeds.chunks(2).rposition(|s| s[0] < at)?;
    let mut v = speeds[2 * last..].to_vec();
    v[0] = at;
    Some(v)
}

/// The path that the original leaves, with the speed points that the rules give: other points than its own only where a limit lies between two (R23).
pub fn with_laid(laid: &Laid, q: OriginalPath) -> OriginalPath {
    if laid.between > 0 {
        original::with_speeds(&q, &laid.numbers())
    } else {
        q
    }
}

/// The same, counted. Where no limit lies between two points, the original's own have to be those that the rules give.
fn hand_limits(run: &mut Run, call: &Call, laid: &Laid, q: OriginalPath) -> OriginalPath {
    let y = &mut run.tally;
    y.limits += laid.limits;
    y.between += laid.between;
    y.no_length += laid.no_length;
    y.calls_between += (laid.between > 0) as u64;
    if laid.between == 0 && !laid.are(q.speed_points()) {
        run.differs(format!("{}: the original's speed points are not those of its limits laid one by one", call.name()));
    }
    with_laid(laid, q)
}

/// The original's side of a call: what it answers, and the path that it leaves. Under R174 it is handed the points of R52, under R23 those of `lay`.
fn original_side(run: &mut Run, call: &Call, st: &State, t: &Train, table: &Table, fine: bool) -> (Out<Vec<u64>>, OriginalPath) {
    let mut q = st.original.clone();
    if let (Call::Clear(x), true) = (call, fine) {
        if let Some(v) = moved_speeds(*x, &st.path, &st.cols) {
            run.tally.moved += 1;
            let raw = original::path_call(call, &mut q, t, &table.net);
            run.tally.moved_panics += matches!(raw, Out::Panic) as u64;
            q = original::with_speeds(&st.original, &v);
        }
    }
    let out = original::path_call(call, &mut q, t, &table.net);
    if let (Out::Done(_), true) = (&out, fine) {
        if let Some(laid) = lay::laid(call, &st.original, t, &table.net) {
            q = hand_limits(run, call, &laid, q);
        }
    }
    let out = match (out, call) {
        (Out::Done(_), Call::LinkGrades(k)) if fine => Out::Done(ask_path::link_range(*k, 0, &st.cols).to_vec()),
        (Out::Done(_), Call::LinkCurves(k)) if fine => Out::Done(ask_path::link_range(*k, 1, &st.cols).to_vec()),
        (Out::Done(_), Call::LinkGrades(_) | Call::LinkCurves(_)) => Out::Err,
        (Out::Done(w), Call::Locate(_)) => Out::Done(w),
        (Out::Done(w), _) => Out::Done(port::path_words(&original::counted(&q)).into_iter().chain(w).collect()),
        (o, _) => o,
    };
    (out, q)
}

/// Makes one call on both sides with the columns as they are lent in `st`, and judges it. True where it was done.
pub fn step(run: &mut Run, st: &mut State, call: &Call, t: &Train, table: &Table) -> bool {
    let before = st.cols.clone();
    let asked = ask_path::ask(call, &st.path, &st.cols, t, &table.entries);
    run.say(|| format!("{call:?}"));
    let (got, path) = port::path_call(call, st.path, *t, &mut st.cols, &table.flat);
    let lent = std::mem::replace(&mut st.cols, before);
    let (done, q) = original_side(run, call, st, t, table, asked.0 == 0);
    let left = match (&done, call.is_reading()) {
        (Out::Done(_), false) => original::columns(&q, st.cols.lens()),
        _ => st.cols.clone(),
    };
    let refused = call.refused(&st.path);
    let ok = got[0] == 0;
    let mut lent = lent;
    let v = Verdict { call: call.name(), words: call.words(), asked, got, done, refused, own: &OWN };
    run.judge(v, Some((&st.cols, &mut lent, &left)));
    st.cols = lent;
    if ok && !call.is_reading() {
        st.path = path;
        st.original = q;
        let c = counts(&path);
        let y = &mut run.tally;
        (y.most_links, y.most_grades, y.most_speeds) = (y.most_links.max(c[0]), y.most_grades.max(c[1]), y.most_speeds.max(c[3]));
    }
    ok
}
