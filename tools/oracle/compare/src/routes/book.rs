//! The path's links and the limits laid, by the calls' arguments alone.
use crate::ask_links::limits_laid;
use crate::calls::{Call, Table};
use crate::table::Lk;
use mochaspit::sys::Train;

/// A limit laid: from where to where it holds, its tail counted in, its speed and its link's number.
#[derive(Clone, Copy, Debug)]
pub struct Limit {
    pub start: f64,
    pub end: f64,
    pub speed: f64,
    pub link: u32,
}

/// The links of the path (number and offset), where it ends, and the limits laid since `new` or the last recalculation, in the order of laying.
pub struct Book {
    top: f64,
    pub links: Vec<(u32, f64)>,
    pub end: f64,
    limits: Vec<Limit>,
}

/// `min_speed` by its rule (R17): both sign bits clear, the smaller; otherwise minus the smaller size.
fn min_speed(a: f64, b: f64) -> f64 {
    let m = if b.abs() < a.abs() { b.abs() } else { a.abs() };
    if a.is_sign_positive() && b.is_sign_positive() {
        m
    } else {
        -m
    }
}

impl Book {
    pub fn new(t: &Train) -> Book {
        Book { top: t.speed_max, links: vec![], end: 0.0, limits: vec![] }
    }
    /// How many limits a link lays for a train.
    pub fn limits_of(l: &Lk, t: &Train) -> usize {
        limits_laid(l, t).map_or(0, |x| x.0.len())
    }
    /// How many limits are laid.
    pub fn count(&self) -> usize {
        self.limits.len()
    }
    /// Where the path begins.
    pub fn begin(&self) -> f64 {
        self.links.first().map_or(self.end, |l| l.1)
    }
    fn lay(&mut self, n: u32, base: f64, t: &Train, table: &Table) {
        let (limits, tail) = limits_laid(&table.entries[n as usize].link, t).unwrap();
        let laid = |l: &[f64; 3]| Limit { start: l[0] + base, end: (l[1] + base) + tail, speed: l[2], link: n };
        self.limits.extend(limits.iter().map(laid));
    }
    /// A call that is done.
    pub fn step(&mut self, call: &Call, t: &Train, table: &Table) {
        match call {
            Call::New => *self = Book::new(t),
            Call::Extend(list) => {
                for &n in list {
                    let base = self.end;
                    self.lay(n, base, t, table);
                    self.links.push((n, base));
                    self.end = base + table.entries[n as usize].link.length;
                }
            }
            Call::Clear(x) => {
                while self.links.len() > 1 && self.links[1].1 < *x {
                    self.links.remove(0);
                }
            }
            Call::Recalc => {
                self.limits.clear();
                self.links.clone().iter().for_each(|&(n, base)| self.lay(n, base, t, table));
            }
            Call::Reindex(new) => self.links.iter_mut().for_each(|l| l.0 = new[l.0 as usize]),
            _ => {}
        }
    }
    fn covering(&self, x: f64) -> impl Iterator<Item = &Limit> {
        self.limits.iter().filter(move |l| l.start <= x && x < l.end)
    }
    /// The top speed and all limits that cover x, taken together.
    pub fn smallest(&self, x: f64) -> f64 {
        self.covering(x).fold(self.top, |v, l| min_speed(v, l.speed))
    }
    /// The first limit laid of the smallest size among those that cover x, where that size is below the size of v.
    pub fn lost(&self, x: f64, v: f64) -> Option<Limit> {
        let size = self.covering(x).map(|l| l.speed.abs()).min_by(f64::total_cmp)?;
        if size < v.abs() {
            self.covering(x).find(|l| l.speed.abs() == size).copied()
        } else {
            None
        }
    }
}
