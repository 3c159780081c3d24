//! What the planner has to say of each call, from the original's own run of the calls and from the limits themselves.
use super::book::Book;
use super::calls::Line;
use super::counts::Counts;
use super::form::Form;
use super::text::shown;
use crate::ask_path::{self, path_sound};
use crate::calls::{moved_speeds, with_laid, Call, State, Table};
use crate::columns::Cols;
use crate::lay;
use crate::original::{self, Out};
use altrios_core::track::PathTpc as OriginalPath;
use mochaspit::sys::{PathTpc, Train};

/// Entries of the columns: as the planner has them, and for a route that does not need as many.
const BOUNDS: [usize; 7] = [1025, 4100, 49152, 49152, 8192, 3072, 1024];
const FEWER: [usize; 7] = [128, 512, 2048, 2048, 4096, 512, 128];

/// The original's own run: its path, and whether it stopped since the last `new`.
struct Own {
    path: OriginalPath,
    stopped: bool,
}

pub struct Model<'a> {
    t: &'a Train,
    table: &'a Table,
    /// the path by the port's rules: the questions are asked of it
    pub st: State,
    own: Own,
    book: Book,
    lengths: [usize; 7],
    /// links have new numbers that the limits laid do not know
    pub renumbered: bool,
    pub counts: Counts,
    /// what the original did that it should not: the run ends there
    pub trouble: Option<String>,
}

/// The speed of the last point at or before x.
fn posted(points: impl DoubleEndedIterator<Item = (f64, f64)>, x: f64) -> f64 {
    points.rev().find(|p| p.0 <= x).map_or(f64::NAN, |p| p.1)
}

impl<'a> Model<'a> {
    pub fn new(t: &'a Train, table: &'a Table, long: bool) -> Model<'a> {
        let lengths = if long { BOUNDS } else { FEWER };
        let none = original::path(&PathTpc::default(), &Cols::default(), t);
        let st = State { path: PathTpc::default(), cols: Cols::zeros(lengths), original: none.clone() };
        let own = Own { path: none, stopped: false };
        Model { t, table, st, own, book: Book::new(t), lengths, renumbered: false, counts: Counts::default(), trouble: None }
    }
    /// The line's wanted text; a call that is done is made.
    pub fn step(&mut self, line: &Line) -> Vec<Form> {
        match line {
            Line::Path(call) => self.path_call(call),
            Line::Posted(x) => self.posted(*x),
            Line::Show => vec![Form::of("", &[]), Form::Any, self.points()],
            Line::Powers | Line::Resistance(..) => vec![Form::Any],
        }
    }
    /// Limits laid behind an extension, if it is done.
    pub fn lists(&self, call: &Call) -> usize {
        let Call::Extend(list) = call else { return 0 };
        let laid = |n: &u32| self.table.entries.get(*n as usize).map_or(0, |e| Book::limits_of(&e.link, self.t));
        self.book.count() + list.iter().map(laid).sum::<usize>()
    }
    /// How many speed points the path has, as the table ends.
    pub fn points(&self) -> Form {
        Form::of("{speed points} speed points", &[self.st.path.speed_count.to_string()])
    }
    fn posted(&mut self, x: f64) -> Vec<Form> {
        let (p, c) = (&self.st.path, &self.st.cols);
        let asked = match x {
            _ if !x.is_finite() => (1, 0),
            _ if !path_sound(p, c) => (2, 0),
            _ if c.offsets[0] > x => (10, 0),
            _ => (0, 0),
        };
        if asked.0 != 0 {
            self.counts.refused[asked.0 as usize] += 1;
            return vec![Form::refused(asked)];
        }
        self.counts.done += 1;
        self.counts.posted += 1;
        let v = self.smallest(x);
        vec![Form::of("done: {speed}", &[shown(v)])]
    }
    /// The smallest of what holds at x; the speed points by the port's rules post the same.
    fn smallest(&mut self, x: f64) -> f64 {
        let (p, c, v) = (&self.st.path, &self.st.cols, self.book.smallest(x));
        if posted(c.speeds.chunks(2).take(p.speed_count).map(|s| (s[0], s[1])), x) != v {
            self.trouble = Some(format!("the speed points by the rules do not post the smallest of what holds at {x}"));
        }
        v
    }
    fn path_call(&mut self, call: &Call) -> Vec<Form> {
        let asked = ask_path::ask(call, &self.st.path, &self.st.cols, self.t, &self.table.entries);
        if asked.0 != 0 {
            self.counts.refused[asked.0 as usize] += 1;
            return vec![Form::refused(asked)];
        }
        self.counts.done += 1;
        let before = self.st.path.link_count;
        let words = self.by_rule(call);
        if matches!(call, Call::Locate(_) | Call::LinkGrades(_) | Call::LinkCurves(_)) {
            return self.read(call, &words);
        }
        let stops = self.by_original(call);
        self.book.step(call, self.t, self.table);
        self.renumbered = matches!(call, Call::Reindex(_)) || self.renumbered && !matches!(call, Call::Recalc | Call::New);
        let n = [self.book.links.len(), self.st.path.speed_count, self.own.path.speed_points().len()];
        self.counts.long(n);
        self.counts.more += (!self.own.stopped && n[2] > n[1]) as u64;
        self.told(call, before - (before > 0) as usize, stops)
    }
    /// Makes a call on the path by the port's rules; what it hands back.
    fn by_rule(&mut self, call: &Call) -> Vec<u64> {
        let st = &self.st;
        let mut q = st.original.clone();
        if let Call::Clear(x) = call {
            if let Some(v) = moved_speeds(*x, &st.path, &st.cols) {
                q = original::with_speeds(&q, &v);
            }
        }
        let Out::Done(words) = original::path_call(call, &mut q, self.t, &self.table.net) else {
            self.trouble = Some(format!("{}: no question refuses it, the original fails", call.name()));
            return vec![0; 7];
        };
        if let Some(laid) = lay::laid(call, &st.original, self.t, &self.table.net) {
            q = with_laid(&laid, q);
        }
        let cols = original::columns(&q, self.lengths);
        self.st = State { path: original::counted(&q), cols, original: q };
        words
    }
    /// Makes a call on the original's own path; whether it stops there.
    fn by_original(&mut self, call: &Call) -> bool {
        if matches!(call, Call::New) {
            self.own.stopped = false;
        }
        if self.own.stopped {
            return false;
        }
        match (original::path_call(call, &mut self.own.path, self.t, &self.table.net), call) {
            (Out::Done(_), _) => {}
            (Out::Panic, Call::Clear(_)) => self.own.stopped = true,
            _ => self.trouble = Some(format!("{}: fails on the original's own path", call.name())),
        }
        self.own.stopped
    }
    /// What a call that reads the path says.
    fn read(&self, call: &Call, w: &[u64]) -> Vec<Form> {
        if !matches!(call, Call::Locate(_)) {
            return vec![Form::of("done", &[]), Form::Any];
        }
        let figures = [w[5].to_string(), shown(f64::from_bits(w[4])), w[6].to_string()];
        vec![Form::of("done: front in link {front} at {offset in link}, back in link {back}", &figures)]
    }
    fn told(&mut self, call: &Call, before: usize, stops: bool) -> Vec<Form> {
        let left = self.book.links.len();
        match call {
            Call::Extend(_) => {
                let figures = [left.to_string(), shown(self.book.end)];
                vec![Form::of("done, the path has links: {links}, it ends at {end}", &figures)]
            }
            Call::Clear(_) => {
                let figures = [left.to_string(), before.to_string(), shown(self.book.begin())];
                let mut v = vec![Form::of("done, links left: {links left} of {links before}, the path begins at {beginning}", &figures)];
                self.counts.clears += 1;
                if left < before {
                    v.extend(self.beside(stops));
                }
                self.same_links();
                v
            }
            _ => vec![Form::of("done", &[])],
        }
    }
    /// The original's own link points are those of the path, as bits.
    fn same_links(&mut self) {
        let bits = |p: &OriginalPath| p.link_points().iter().map(|x| (x.offset.value.to_bits(), x.link_idx.idx())).collect::<Vec<_>>();
        let own = bits(&self.own.path);
        let n = self.book.links.len();
        let listed = self.book.links.iter().map(|l| (l.1.to_bits(), l.0 as usize));
        if !self.own.stopped && (own.len() != n + 1 || !own[..n].iter().copied().eq(listed)) {
            self.trouble = Some("the links left are not those of the original's own path".to_string());
        }
    }
    /// Behind a drop: what is posted at the beginning here and by the original's own points, and the limit that it loses.
    fn beside(&mut self, stops: bool) -> Vec<Form> {
        let begin = self.book.begin();
        let here = self.smallest(begin);
        let y = &mut self.counts;
        y.dropped += 1;
        let ours = Form::of("  here:          {speed here} posted at {offset here}", &[shown(here), shown(begin)]);
        if self.own.stopped {
            y.stops += stops as u64;
            y.stopped += !stops as u64;
            let at = "  original Rust: stops here, no speed point is at or past {offset of the stop}";
            let its = if stops { Form::of(at, &[shown(begin)]) } else { Form::of("  original Rust: stopped at an earlier drop", &[]) };
            return vec![ours, its];
        }
        let points = self.own.path.speed_points().iter().map(|p| (p.offset.value, p.speed_limit.value));
        let its = posted(points, begin);
        y.compared(here, its);
        let figures = [shown(its), shown(begin)];
        let form = "  original Rust: {speed of the original} posted at {offset of the original}";
        vec![ours, Form::lost(form, figures, self.book.lost(begin, its))]
    }
}
