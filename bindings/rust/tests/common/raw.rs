//! A path and a link table as the C interface sees them: columns that a test may fill with anything.

use mochaspit::sys;

/// A path's record with its columns.
#[derive(Clone, Debug)]
pub struct Raw {
    pub path: sys::PathTpc,
    pub offsets: Vec<f64>,
    pub numbers: Vec<u32>,
    pub grades: Vec<f64>,
    pub curves: Vec<f64>,
    pub speeds: Vec<f64>,
    pub powers: Vec<f64>,
    pub districts: Vec<u32>,
}

/// The ten columns of a link table.
#[derive(Clone, Debug, Default)]
pub struct Table {
    pub links: Vec<u32>,
    pub lengths: Vec<f64>,
    pub sets: Vec<u32>,
    pub elevs: Vec<f64>,
    pub headings: Vec<f64>,
    pub limits: Vec<f64>,
    pub codes: Vec<u32>,
    pub values: Vec<f64>,
    pub link_powers: Vec<f64>,
    pub link_districts: Vec<u32>,
}

impl Table {
    /// Links of these lengths, each behind the one before, with a single head-end set; the first has the limits, (start, end, speed).
    pub fn of(lengths: &[f64], limits: &[(f64, f64, f64)]) -> Table {
        let mut t = Table { links: vec![0; 11], lengths: vec![0.0], sets: vec![0; 48], ..Table::default() };
        t.limits = limits.iter().flat_map(|l| [l.0, l.1, l.2]).collect();
        for (i, &length) in (1..).zip(lengths) {
            let limits = if i == 1 { t.limits.len() as u32 / 3 } else { 0 };
            t.links.extend([i, 0, 0, i - 1, 0, 0, 0, 0, 0, 0, 0]);
            t.lengths.push(length);
            t.sets.extend([1, 1, 0, 0, 0, limits]);
            t.sets.extend([0; 42]);
        }
        t
    }
}

/// The arguments of seven columns, and of ten.
macro_rules! columns {
    ($f:ident, $c:expr, $($arg:expr),*) => {
        unsafe {
            sys::$f($($arg,)* $c.offsets.as_mut_ptr(), $c.offsets.len(), $c.numbers.as_mut_ptr(), $c.numbers.len(),
                $c.grades.as_mut_ptr(), $c.grades.len(), $c.curves.as_mut_ptr(), $c.curves.len(),
                $c.speeds.as_mut_ptr(), $c.speeds.len(), $c.powers.as_mut_ptr(), $c.powers.len(),
                $c.districts.as_mut_ptr(), $c.districts.len())
        }
    };
}

macro_rules! columns_and_table {
    ($f:ident, $c:expr, $t:expr, $($arg:expr),*) => {
        unsafe {
            sys::$f($($arg,)* $c.offsets.as_mut_ptr(), $c.offsets.len(), $c.numbers.as_mut_ptr(), $c.numbers.len(),
                $c.grades.as_mut_ptr(), $c.grades.len(), $c.curves.as_mut_ptr(), $c.curves.len(),
                $c.speeds.as_mut_ptr(), $c.speeds.len(), $c.powers.as_mut_ptr(), $c.powers.len(),
                $c.districts.as_mut_ptr(), $c.districts.len(),
                $t.links.as_ptr(), $t.links.len(), $t.lengths.as_ptr(), $t.lengths.len(),
                $t.sets.as_ptr(), $t.sets.len(), $t.elevs.as_ptr(), $t.elevs.len(),
                $t.headings.as_ptr(), $t.headings.len(), $t.limits.as_ptr(), $t.limits.len(),
                $t.codes.as_ptr(), $t.codes.len(), $t.values.as_ptr(), $t.values.len(),
                $t.link_powers.as_ptr(), $t.link_powers.len(), $t.link_districts.as_ptr(), $t.link_districts.len())
        }
    };
}

impl Raw {
    /// Columns for so many records of each kind, filled with sevens.
    pub fn room(records: usize) -> Raw {
        Raw {
            path: sys::PathTpc::default(),
            offsets: vec![7.0; records],
            numbers: vec![7; 4 * records],
            grades: vec![7.0; 3 * records],
            curves: vec![7.0; 3 * records],
            speeds: vec![7.0; 2 * records],
            powers: vec![7.0; 3 * records],
            districts: vec![7; records],
        }
    }

    /// The path of `new`, in columns for ten records, with sevens past the counts.
    pub fn start(train: sys::Train) -> Raw {
        let mut raw = Raw::room(10);
        assert_eq!(raw.new_path(train).number, 0);
        raw.fill_rest();
        raw
    }

    /// Sevens past the counts.
    pub fn fill_rest(&mut self) {
        let p = self.path;
        self.offsets[p.link_count..].fill(7.0);
        self.numbers[4 * p.link_count..].fill(7);
        self.grades[3 * p.grade_count..].fill(7.0);
        self.curves[3 * p.curve_count..].fill(7.0);
        self.speeds[2 * p.speed_count..].fill(7.0);
        self.powers[3 * p.power_count..].fill(7.0);
        self.districts[p.power_count..].fill(7);
    }

    /// Whether every entry past the counts is zero, +0 for an f64.
    pub fn rest_is_zero(&self) -> bool {
        let p = self.path;
        let floats = self.offsets[p.link_count..].iter().chain(&self.grades[3 * p.grade_count..]);
        let floats = floats.chain(&self.curves[3 * p.curve_count..]).chain(&self.speeds[2 * p.speed_count..]);
        let mut floats = floats.chain(&self.powers[3 * p.power_count..]);
        let mut words = self.numbers[4 * p.link_count..].iter().chain(&self.districts[p.power_count..]);
        floats.all(|x| x.to_bits() == 0) && words.all(|&x| x == 0)
    }

    /// The path with these speed points in place of its own.
    pub fn with_speeds(mut self, points: &[(f64, f64)]) -> Raw {
        self.path.speed_count = points.len();
        for (i, p) in points.iter().enumerate() {
            self.speeds[2 * i] = p.0;
            self.speeds[2 * i + 1] = p.1;
        }
        self
    }

    /// The speed points as pairs.
    pub fn points(&self) -> Vec<(f64, f64)> {
        self.speeds.chunks_exact(2).take(self.path.speed_count).map(|p| (p[0], p[1])).collect()
    }

    /// Every number of record and columns, as bits.
    pub fn bits(&self) -> (sys::PathTpc, Vec<u64>, Vec<u32>) {
        let floats = [&self.offsets, &self.grades, &self.curves, &self.speeds, &self.powers];
        let floats = floats.into_iter().flatten().map(|x| x.to_bits()).collect();
        (self.path, floats, [&self.numbers[..], &self.districts[..]].concat())
    }

    pub fn new_path(&mut self, train: sys::Train) -> sys::Answer {
        let r = columns!(mochaspit_new, self, train);
        self.take(r)
    }

    pub fn extend(&mut self, train: sys::Train, list: &[u32], t: &Table) -> sys::Answer {
        let r = columns_and_table!(mochaspit_extend, self, t, self.path, train, list.as_ptr(), list.len());
        self.take(r)
    }

    pub fn recalc_speeds(&mut self, train: sys::Train, t: &Table) -> sys::Answer {
        let r = columns_and_table!(mochaspit_recalc_speeds, self, t, self.path, train);
        self.take(r)
    }

    pub fn clear(&mut self, offset: f64) -> (sys::Answer, sys::LinkPoint) {
        let r = columns!(mochaspit_clear, self, self.path, offset);
        (self.take(r.outcome), r.dropped)
    }

    pub fn finish(&mut self) -> sys::Answer {
        let r = columns!(mochaspit_finish, self, self.path);
        self.take(r)
    }

    pub fn reindex(&mut self, new: &[u32]) -> sys::Answer {
        let r = columns!(mochaspit_reindex, self, self.path, new.as_ptr(), new.len());
        self.take(r)
    }

    pub fn link_grades(&mut self, k: usize) -> sys::RangeAnswer {
        columns!(mochaspit_link_grades, self, self.path, k)
    }

    pub fn link_curves(&mut self, k: usize) -> sys::RangeAnswer {
        columns!(mochaspit_link_curves, self, self.path, k)
    }

    pub fn posted_speed(&mut self, offset: f64) -> sys::PostedAnswer {
        columns!(mochaspit_posted_speed, self, self.path, offset)
    }

    pub fn locate(&mut self, state: sys::TrainState) -> sys::StateAnswer {
        columns!(mochaspit_set_link_and_offset, self, state, self.path)
    }

    /// The record that a call answers, done or refused.
    fn take(&mut self, r: sys::PathAnswer) -> sys::Answer {
        self.path = r.path;
        r.answer
    }
}
