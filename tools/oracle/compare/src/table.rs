//! The link table: links as records, the ten lent columns made of them, and links read back from the columns.
use crate::rng::Rng;

/// A set of limits: whether the train's head counts, conditions (kind, comparison, value) and limits (start, end, speed).
#[derive(Clone, Debug, Default)]
pub struct Set {
    pub head_end: u32,
    pub conds: Vec<(u32, u32, f64)>,
    pub lims: Vec<[f64; 3]>,
}

#[derive(Clone, Debug, Default)]
pub struct Lk {
    pub own: u32,
    pub next: u32,
    pub next_alt: u32,
    pub prev: u32,
    pub prev_alt: u32,
    pub length: f64,
    pub elevs: Vec<[f64; 2]>,
    pub heads: Vec<[f64; 2]>,
    pub powers: Vec<([f64; 3], u32)>,
    /// the single set, then one for each train type
    pub sets: [Option<Set>; 8],
}

/// The ten columns of a table.
#[derive(Clone, Debug, Default)]
pub struct Flat {
    pub links: Vec<u32>,
    pub lengths: Vec<f64>,
    pub sets: Vec<u32>,
    pub elevs: Vec<f64>,
    pub headings: Vec<f64>,
    pub limits: Vec<f64>,
    pub codes: Vec<u32>,
    pub values: Vec<f64>,
    pub link_powers: Vec<f64>,
    pub link_districts: Vec<u32>,
}

/// A link as the columns give it, and whether its ranges lie in their pools and its flags are known.
#[derive(Clone, Debug)]
pub struct Entry {
    pub link: Lk,
    pub in_pools: bool,
    pub flags_known: bool,
}

impl Flat {
    /// The columns of a table; with gaps, the pools have entries of no link between those of the links.
    pub fn of(links: &[Lk], mut gaps: Option<&mut Rng>) -> Flat {
        let mut f = Flat::default();
        for l in links {
            if let Some(r) = gaps.as_deref_mut() {
                if r.chance(100) {
                    f.gap();
                }
            }
            f.push(l);
        }
        f
    }
    fn gap(&mut self) {
        self.elevs.extend([7.0, 7.0]);
        self.headings.extend([7.0, 7.0]);
        self.limits.extend([1.0, 2.0, 3.0]);
        self.codes.extend([9, 9]);
        self.values.push(1.0);
        self.link_powers.extend([1.0, 2.0, 3.0]);
        self.link_districts.push(9);
    }
    fn push(&mut self, l: &Lk) {
        self.links.extend([l.own, l.next, l.next_alt, l.prev, l.prev_alt]);
        let first = [self.elevs.len() / 2, self.headings.len() / 2, self.link_districts.len()];
        for (from, n) in first.iter().zip([l.elevs.len(), l.heads.len(), l.powers.len()]) {
            self.links.extend([*from as u32, n as u32]);
        }
        self.lengths.push(l.length);
        self.elevs.extend(l.elevs.iter().flatten());
        self.headings.extend(l.heads.iter().flatten());
        for (p, d) in &l.powers {
            self.link_powers.extend(p);
            self.link_districts.push(*d);
        }
        for s in &l.sets {
            self.push_set(s.as_ref());
        }
    }
    fn push_set(&mut self, s: Option<&Set>) {
        let Some(s) = s else {
            return self.sets.extend([0; 6]);
        };
        let first = [self.values.len(), self.limits.len() / 3];
        self.sets.extend([1, s.head_end, first[0] as u32, s.conds.len() as u32, first[1] as u32, s.lims.len() as u32]);
        for c in &s.conds {
            self.codes.extend([c.0, c.1]);
            self.values.push(c.2);
        }
        self.limits.extend(s.lims.iter().flatten());
    }
    /// How many links are in the table: all their fixed numbers lie in the columns.
    pub fn len(&self) -> usize {
        (self.links.len() / 11).min(self.lengths.len()).min(self.sets.len() / 48)
    }
    pub fn is_empty(&self) -> bool {
        self.len() == 0
    }
    /// The links as the columns give them; a range is cut where its pool ends.
    pub fn entries(&self) -> Vec<Entry> {
        (0..self.len()).map(|i| self.entry(i)).collect()
    }
    fn entry(&self, i: usize) -> Entry {
        let n = &self.links[11 * i..11 * i + 11];
        let mut e = Entry { link: Lk::default(), in_pools: true, flags_known: true };
        let [elevs, heads, powers] = [
            e.cut(n[5], n[6], self.elevs.len() / 2),
            e.cut(n[7], n[8], self.headings.len() / 2),
            e.cut(n[9], n[10], (self.link_powers.len() / 3).min(self.link_districts.len())),
        ];
        e.link = Lk { own: n[0], next: n[1], next_alt: n[2], prev: n[3], prev_alt: n[4], length: self.lengths[i], ..Default::default() };
        e.link.elevs = elevs.map(|k| [self.elevs[2 * k], self.elevs[2 * k + 1]]).collect();
        e.link.heads = heads.map(|k| [self.headings[2 * k], self.headings[2 * k + 1]]).collect();
        e.link.powers = powers.map(|k| ([0, 1, 2].map(|j| self.link_powers[3 * k + j]), self.link_districts[k])).collect();
        for k in 0..8 {
            e.link.sets[k] = self.set(48 * i + 6 * k, &mut e);
        }
        e
    }
    fn set(&self, at: usize, e: &mut Entry) -> Option<Set> {
        let n = &self.sets[at..at + 6];
        e.flags_known &= n[0] <= 1;
        if n[0] == 0 {
            return None;
        }
        e.flags_known &= n[1] <= 1;
        let conds = e.cut(n[2], n[3], (self.codes.len() / 2).min(self.values.len()));
        let lims = e.cut(n[4], n[5], self.limits.len() / 3);
        Some(Set {
            head_end: n[1],
            conds: conds.map(|k| (self.codes[2 * k], self.codes[2 * k + 1], self.values[k])).collect(),
            lims: lims.map(|k| [0, 1, 2].map(|j| self.limits[3 * k + j])).collect(),
        })
    }
}

impl Entry {
    /// A range of a pool of `held` records, cut at its end.
    fn cut(&mut self, first: u32, count: u32, held: usize) -> std::ops::Range<usize> {
        let end = first as usize + count as usize;
        self.in_pools &= end <= held;
        (first as usize).min(held)..end.min(held)
    }
}
