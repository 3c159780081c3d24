//! One answer of the port beside what is wanted of it, and the tally of a run.
use crate::columns::{Cols, NAMES};
use crate::original::Out;
use crate::rng::Rng;
use std::collections::BTreeMap;

/// Questions that are the port's own: the original may go on where one of them is answered with no.
pub const OWN: [u32; 6] = [1, 2, 3, 6, 8, 9];

/// What a whole run has seen.
#[derive(Default)]
pub struct Tally {
    pub scenarios: u64,
    pub calls: u64,
    /// entries of columns and words of answers compared
    pub entries: u64,
    /// by call and the port's number
    pub numbers: BTreeMap<(&'static str, u32), u64>,
    /// by call: the original done, an error, a panic
    pub outcomes: BTreeMap<&'static str, [u64; 3]>,
    /// trims under R174, and how many of these panic in the original
    pub moved: u64,
    pub moved_panics: u64,
    /// limits laid, those strictly between two neighbouring points, those of them without length, and calls with one between two
    pub limits: u64,
    pub between: u64,
    pub no_length: u64,
    pub calls_between: u64,
    /// searches with the largest hint, which the original counts on from 0
    pub wrapped: u64,
    /// paths whose posted speed was held to the limits, paths laid in two orders, and the offsets asked about
    pub exact: u64,
    pub orders: u64,
    pub asked: u64,
    pub most_links: usize,
    pub most_speeds: usize,
    pub most_grades: usize,
    /// every so many calls one bit of the port's answer is flipped, and every so many checks one of a posted speed; 0: never
    pub spoil: u64,
    pub checks: u64,
    pub spoiled: u64,
    pub noticed: u64,
}

/// A difference: what differs, and how large the input is.
pub struct Difference {
    pub what: String,
    pub size: usize,
}

/// One scenario under way.
pub struct Run<'a> {
    pub r: Rng,
    pub tally: &'a mut Tally,
    /// the whole scenario as text, where it is asked for
    pub log: Option<String>,
    pub differences: Vec<Difference>,
    pub size: usize,
}

/// One answer to judge.
pub struct Verdict<'a> {
    pub call: &'static str,
    /// names of the words behind number and place
    pub words: &'a [&'static str],
    /// number and place by the questions
    pub asked: (u32, usize),
    /// number, place and words of the port
    pub got: Vec<u64>,
    /// the words of the original, or of the program where the original has no such call
    pub done: Out<Vec<u64>>,
    /// the words after a refusal
    pub refused: Vec<u64>,
    /// questions that are the port's own in this call
    pub own: &'a [u32],
}

/// Words that are the bits of an f64.
const FLOATS: [&str; 9] = ["offset", "back", "length", "weight", "offset in link", "force", "coefficient", "net value", "dropped offset"];

/// The port's answer in words.
fn text(v: &Verdict) -> String {
    let mut s = format!("number {}, place {}", v.got[0], v.got[1]);
    for (name, w) in v.words.iter().zip(&v.got[2..]) {
        s += &if FLOATS.contains(name) { format!(", {name} {:?}", f64::from_bits(*w)) } else { format!(", {name} {w}") };
    }
    s
}

impl<'a> Run<'a> {
    pub fn new(kind: usize, seed: u64, tally: &'a mut Tally, show: bool) -> Run<'a> {
        tally.scenarios += 1;
        Run { r: Rng::new(kind, seed), tally, log: show.then(String::new), differences: vec![], size: 0 }
    }
    pub fn say(&mut self, text: impl FnOnce() -> String) {
        if let Some(l) = &mut self.log {
            l.push_str(&text());
            l.push('\n');
        }
    }
    pub fn differs(&mut self, what: String) {
        let size = self.size;
        self.say(|| format!("  DIFFERENCE: {what}"));
        self.differences.push(Difference { what, size });
    }
    /// Whether this call's answer is to be spoiled.
    fn spoils(&mut self) -> bool {
        self.tally.calls += 1;
        self.tally.spoil != 0 && self.tally.calls.is_multiple_of(self.tally.spoil)
    }
    /// Flips a bit of one of the numbers, not that of its sign, where this check's turn has come: how many differences there were before.
    pub fn spoil_number(&mut self, v: &mut [f64]) -> Option<usize> {
        self.tally.checks += 1;
        if v.is_empty() || self.tally.spoil == 0 || !self.tally.checks.is_multiple_of(self.tally.spoil) {
            return None;
        }
        self.tally.spoiled += 1;
        let k = self.r.to(v.len());
        v[k] = f64::from_bits(v[k].to_bits() ^ 1 << self.r.to(63));
        Some(self.differences.len())
    }
    /// Counts a flipped number that made a difference.
    pub fn notice(&mut self, before: Option<usize>) {
        self.tally.noticed += before.is_some_and(|n| self.differences.len() > n) as u64;
    }
    /// Judges one answer, and the columns where the call has them: what was lent, what came back, and what a done call leaves.
    pub fn judge(&mut self, mut v: Verdict, columns: Option<(&Cols, &mut Cols, &Cols)>) {
        let before = self.differences.len();
        let spoils = self.spoils();
        let (was, is, left) = match columns {
            Some((a, b, c)) => (Some(a), Some(b), Some(c)),
            None => (None, None, None),
        };
        let mut is = is;
        if spoils {
            self.spoil(&mut v.got, is.as_deref_mut());
        }
        self.count(&v);
        self.judge_words(&v);
        if let (Some(was), Some(is), Some(left)) = (was, is, left) {
            let done = v.got[0] == 0;
            self.judge_columns(v.call, v.got[0], if done { left } else { was }, is);
        }
        if spoils {
            self.tally.noticed += (self.differences.len() > before) as u64;
        }
    }
    fn spoil(&mut self, got: &mut [u64], is: Option<&mut Cols>) {
        self.tally.spoiled += 1;
        if let Some(c) = is {
            if self.r.chance(700) && c.spoil(&mut self.r) {
                return;
            }
        }
        let k = self.r.to(got.len());
        let bits = if k == 0 { 4 } else { 64 };
        got[k] ^= 1 << self.r.to(bits);
    }
    fn count(&mut self, v: &Verdict) {
        *self.tally.numbers.entry((v.call, v.got[0] as u32)).or_default() += 1;
        let k = match v.done {
            Out::Done(_) => 0,
            Out::Err => 1,
            Out::Panic => 2,
        };
        self.tally.outcomes.entry(v.call).or_default()[k] += 1;
        self.tally.entries += v.got.len() as u64;
        let word = ["done", "an error", "a panic"][k];
        self.say(|| format!("  port: {}; original: {word}; by the questions {:?}", text(v), v.asked));
    }
    fn judge_words(&mut self, v: &Verdict) {
        let (call, number) = (v.call, v.got[0] as u32);
        if (number, v.got[1] as usize) != v.asked {
            let same = if v.got[1] as usize == v.asked.1 { "same place" } else { "another place" };
            self.differs(format!("{call}: answers {number}, by the questions {} ({same})", v.asked.0));
        }
        let want = match (&v.done, number) {
            (Out::Done(w), 0) => w,
            (_, 0) => return self.differs(format!("{call}: done, the original fails")),
            (Out::Done(_), _) if !v.own.contains(&number) => {
                return self.differs(format!("{call}: refused with {number}, the original is done"));
            }
            _ => &v.refused,
        };
        let end = if number == 0 { "done" } else { "refused" };
        for (k, name) in v.words.iter().enumerate() {
            if want[k] != v.got[k + 2] {
                self.say(|| format!("  {name}: wanted {:x}, is {:x}", want[k], v.got[k + 2]));
                self.differs(format!("{call}, {end}: {name} differs"));
            }
        }
    }
    fn judge_columns(&mut self, call: &'static str, number: u64, want: &Cols, is: &Cols) {
        self.tally.entries += is.lens().iter().sum::<usize>() as u64;
        for (k, at) in want.differ(is) {
            let end = if number == 0 { "done" } else { "refused" };
            self.say(|| format!("  {} differ from entry {at} on\n wanted {want:?}\n is {is:?}", NAMES[k]));
            self.differs(format!("{call}, {end}: {} differ", NAMES[k]));
        }
    }
}
