//! The seven columns of a path as a caller lends them, beside the record of its counts.
use crate::rng::Rng;
use mochaspit::sys::PathTpc;

/// Entries of one record in each column.
pub const WIDTHS: [usize; 7] = [1, 4, 3, 3, 2, 3, 1];
pub const NAMES: [&str; 7] = ["offsets", "numbers", "grades", "curves", "speeds", "powers", "districts"];
/// The bounds of R12: link points, grades, curves, speed points, power limits.
pub const BOUNDS: [usize; 5] = [1025, 16384, 16384, 4096, 1024];

#[derive(Clone, Debug, Default)]
pub struct Cols {
    pub offsets: Vec<f64>,
    pub numbers: Vec<u32>,
    pub grades: Vec<f64>,
    pub curves: Vec<f64>,
    pub speeds: Vec<f64>,
    pub powers: Vec<f64>,
    pub districts: Vec<u32>,
}

/// The counts of a record, by kind of record.
pub fn counts(p: &PathTpc) -> [usize; 5] {
    [p.link_count, p.grade_count, p.curve_count, p.speed_count, p.power_count]
}

/// The counts of a record, by column.
fn counts_by_column(p: &PathTpc) -> [usize; 7] {
    let c = counts(p);
    [c[0], c[0], c[1], c[2], c[3], c[4], c[4]]
}

fn first_unequal<T>(a: &[T], b: &[T], bits: impl Fn(&T) -> u64) -> Option<usize> {
    if let Some(k) = a.iter().zip(b).position(|(x, y)| bits(x) != bits(y)) {
        return Some(k);
    }
    (a.len() != b.len()).then_some(a.len().min(b.len()))
}

impl Cols {
    pub fn zeros(lens: [usize; 7]) -> Cols {
        Cols {
            offsets: vec![0.0; lens[0]],
            numbers: vec![0; lens[1]],
            grades: vec![0.0; lens[2]],
            curves: vec![0.0; lens[3]],
            speeds: vec![0.0; lens[4]],
            powers: vec![0.0; lens[5]],
            districts: vec![0; lens[6]],
        }
    }
    pub fn lens(&self) -> [usize; 7] {
        [
            self.offsets.len(),
            self.numbers.len(),
            self.grades.len(),
            self.curves.len(),
            self.speeds.len(),
            self.powers.len(),
            self.districts.len(),
        ]
    }
    /// Records that fit: the bound, or what the lent columns hold where that is less.
    pub fn room(&self) -> [usize; 5] {
        let l = self.lens();
        let held = [l[0].min(l[1] / 4), l[2] / 3, l[3] / 3, l[4] / 2, (l[5] / 3).min(l[6])];
        [0, 1, 2, 3, 4].map(|k| held[k].min(BOUNDS[k]))
    }
    /// The f64 column of a number: 0 offsets, 2 grades, 3 curves, 4 speeds, 5 powers.
    pub fn floats(&mut self, k: usize) -> &mut Vec<f64> {
        match k {
            0 => &mut self.offsets,
            2 => &mut self.grades,
            3 => &mut self.curves,
            4 => &mut self.speeds,
            _ => &mut self.powers,
        }
    }
    /// The u32 column of a number: 1 numbers, 6 districts.
    pub fn words(&mut self, k: usize) -> &mut Vec<u32> {
        if k == 1 {
            &mut self.numbers
        } else {
            &mut self.districts
        }
    }
    /// Sets a column's length; new entries are 0.
    pub fn resize(&mut self, k: usize, n: usize) {
        match k {
            1 | 6 => self.words(k).resize(n, 0),
            _ => self.floats(k).resize(n, 0.0),
        }
    }
    /// Arbitrary entries past the counts, which no call may read as records.
    pub fn junk(&mut self, r: &mut Rng, p: &PathTpc) {
        let c = counts_by_column(p);
        for k in 0..7 {
            let used = c[k].saturating_mul(WIDTHS[k]);
            if k == 1 || k == 6 {
                self.words(k).iter_mut().skip(used).for_each(|x| *x = r.to(9) as u32);
            } else {
                let v = [1.0, -3.5, f64::NAN, f64::INFINITY, -0.0, 77.0];
                self.floats(k).iter_mut().skip(used).for_each(|x| *x = r.of(&v));
            }
        }
    }
    /// Takes over the entries of shorter columns.
    pub fn take(&mut self, from: &Cols) {
        self.offsets[..from.offsets.len()].copy_from_slice(&from.offsets);
        self.numbers[..from.numbers.len()].copy_from_slice(&from.numbers);
        self.grades[..from.grades.len()].copy_from_slice(&from.grades);
        self.curves[..from.curves.len()].copy_from_slice(&from.curves);
        self.speeds[..from.speeds.len()].copy_from_slice(&from.speeds);
        self.powers[..from.powers.len()].copy_from_slice(&from.powers);
        self.districts[..from.districts.len()].copy_from_slice(&from.districts);
    }
    /// For each column that differs as bits: its number and the first entry.
    pub fn differ(&self, other: &Cols) -> Vec<(usize, usize)> {
        let f = |a: &[f64], b: &[f64]| first_unequal(a, b, |x| x.to_bits());
        let w = |a: &[u32], b: &[u32]| first_unequal(a, b, |x| *x as u64);
        let all = [
            f(&self.offsets, &other.offsets),
            w(&self.numbers, &other.numbers),
            f(&self.grades, &other.grades),
            f(&self.curves, &other.curves),
            f(&self.speeds, &other.speeds),
            f(&self.powers, &other.powers),
            w(&self.districts, &other.districts),
        ];
        all.iter().enumerate().filter_map(|(k, x)| x.map(|i| (k, i))).collect()
    }
    /// Flips a bit of one entry; false where there is no entry.
    pub fn spoil(&mut self, r: &mut Rng) -> bool {
        let lens = self.lens();
        let full: Vec<usize> = (0..7).filter(|&k| lens[k] > 0).collect();
        if full.is_empty() {
            return false;
        }
        let k = r.of(&full);
        let (i, bit) = (r.to(lens[k]), r.to(64));
        if k == 1 || k == 6 {
            self.words(k)[i] ^= 1 << (bit % 32);
        } else {
            let x = &mut self.floats(k)[i];
            *x = f64::from_bits(x.to_bits() ^ 1 << bit);
        }
        true
    }
    /// The records up to the counts, a line for each column.
    pub fn text(&self, p: &PathTpc) -> String {
        let c = counts_by_column(p);
        let up = |k: usize, n: usize| c[k].saturating_mul(WIDTHS[k]).min(n);
        let mut s = format!("  {p:?}\n  lengths {:?}\n", self.lens());
        s += &format!("  offsets {:?}\n", &self.offsets[..up(0, self.offsets.len())]);
        s += &format!("  numbers {:?}\n", &self.numbers[..up(1, self.numbers.len())]);
        s += &format!("  grades {:?}\n", &self.grades[..up(2, self.grades.len())]);
        s += &format!("  curves {:?}\n", &self.curves[..up(3, self.curves.len())]);
        s += &format!("  speeds {:?}\n", &self.speeds[..up(4, self.speeds.len())]);
        s += &format!("  powers {:?}\n", &self.powers[..up(5, self.powers.len())]);
        s + &format!("  districts {:?}\n", &self.districts[..up(6, self.districts.len())])
    }
}
