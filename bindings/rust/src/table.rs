//! The link table: the ten columns that the C interface reads, built from links.

use crate::link::{Link, LinkIdx, PowerLimit, SpeedSet, SpeedSets};

/// Links by number, from 1. Links are only added, so that every number stays good.
#[derive(Clone, Debug, PartialEq)]
pub struct LinkTable {
    pub(crate) links: Vec<u32>,
    pub(crate) lengths: Vec<f64>,
    pub(crate) sets: Vec<u32>,
    pub(crate) elevs: Vec<f64>,
    pub(crate) headings: Vec<f64>,
    pub(crate) limits: Vec<f64>,
    pub(crate) codes: Vec<u32>,
    pub(crate) values: Vec<f64>,
    pub(crate) link_powers: Vec<f64>,
    pub(crate) link_districts: Vec<u32>,
}

/// Numbers of a link in `links`, and of its eight set places in `sets`.
const LINK: usize = 11;
const SETS: usize = 48;

impl Default for LinkTable {
    fn default() -> Self {
        LinkTable::new()
    }
}

impl LinkTable {
    /// A table without links. Place 0, which is no link's, is zeros.
    pub fn new() -> Self {
        LinkTable {
            links: vec![0; LINK],
            lengths: vec![0.0],
            sets: vec![0; SETS],
            elevs: Vec::new(),
            headings: Vec::new(),
            limits: Vec::new(),
            codes: Vec::new(),
            values: Vec::new(),
            link_powers: Vec::new(),
            link_districts: Vec::new(),
        }
    }

    /// How many links the table has.
    pub fn len(&self) -> usize {
        self.lengths.len() - 1
    }

    /// Whether the table has no link.
    pub fn is_empty(&self) -> bool {
        self.len() == 0
    }

    /// Adds a link and answers its number, the first being 1.
    ///
    /// # Panics
    /// If the table holds 2³² links or records of one kind, which no number of the table can count.
    pub fn push(&mut self, link: &Link) -> LinkIdx {
        let own = counted(self.lengths.len());
        let elevs = add_pairs(&mut self.elevs, link.elevations.iter().map(|e| [e.offset, e.elevation]));
        let headings = add_pairs(&mut self.headings, link.headings.iter().map(|h| [h.offset, h.heading]));
        let powers = self.add_powers(&link.power_limits);
        let neighbours = [link.next.0, link.next_alt.0, link.prev.0, link.prev_alt.0];
        self.links.push(own);
        self.links.extend(neighbours);
        self.links.extend([elevs, headings, powers].into_iter().flatten());
        self.lengths.push(link.length);
        self.add_sets(&link.speed_sets);
        LinkIdx(own)
    }

    /// First and count of these power limits.
    fn add_powers(&mut self, powers: &[PowerLimit]) -> [u32; 2] {
        let range = [counted(self.link_districts.len()), counted(powers.len())];
        for p in powers {
            self.link_powers.extend([p.start, p.end, p.power]);
            self.link_districts.push(p.district);
        }
        range
    }

    /// The eight set places of a link: the single set's, then one for each type of train.
    fn add_sets(&mut self, sets: &SpeedSets) {
        match sets {
            SpeedSets::Single(set) => {
                self.add_set(Some(set));
                (0..7).for_each(|_| self.add_set(None));
            }
            SpeedSets::ByType(sets) => {
                self.add_set(None);
                sets.places().iter().for_each(|set| self.add_set(set.as_ref()));
            }
        }
    }

    /// One set place: present, head end, first and count of its conditions and of its limits.
    fn add_set(&mut self, set: Option<&SpeedSet>) {
        let Some(set) = set else {
            self.sets.extend([0; 6]);
            return;
        };
        let conditions = [counted(self.values.len()), counted(set.conditions.len())];
        for c in &set.conditions {
            let (codes, value) = c.coded();
            self.codes.extend(codes);
            self.values.push(value);
        }
        let limits = [counted(self.limits.len() / 3), counted(set.limits.len())];
        for l in &set.limits {
            self.limits.extend([l.start, l.end, l.speed]);
        }
        self.sets.extend([1, u32::from(set.head_end)]);
        self.sets.extend(conditions.into_iter().chain(limits));
    }
}

impl<'a> FromIterator<&'a Link> for LinkTable {
    /// The table of these links, numbered from 1 in their order.
    fn from_iter<I: IntoIterator<Item = &'a Link>>(links: I) -> Self {
        let mut table = LinkTable::new();
        for link in links {
            table.push(link);
        }
        table
    }
}

/// Adds records of two numbers to a pool; first and count of them.
fn add_pairs(pool: &mut Vec<f64>, pairs: impl ExactSizeIterator<Item = [f64; 2]>) -> [u32; 2] {
    let range = [counted(pool.len() / 2), counted(pairs.len())];
    pool.extend(pairs.flatten());
    range
}

/// A count as a number of the table.
fn counted(n: usize) -> u32 {
    u32::try_from(n).expect("a link table counts its links and records in 32 bits")
}
