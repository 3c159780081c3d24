//! What the benchmark runs on: a train, tables of links, lists of records, and a path on both sides.
use crate::calls::{State, Table};
use crate::columns::Cols;
use crate::original;
use crate::port;
use crate::table::{Flat, Lk, Set};
use altrios_core::track::LinkIdx;
use mochaspit::sys::{PathTpc, Train};

/// Entries of columns that hold the bounds of R12: 1,025 link points, 16,384 grades and curves, 4,096 speed points, 1,024 power limits.
pub const FULL: [usize; 7] = [1025, 4 * 1025, 3 * 16384, 3 * 16384, 2 * 4096, 3 * 1024, 1024];
/// Length of each link of a plan.
pub const LINK: f64 = 100.0;

pub fn train() -> Train {
    Train {
        length: 20.0,
        speed_max: 30.0,
        towed_mass_static: 2e6,
        mass_per_brake: 1e4,
        curve_coeff_0: 1.0,
        curve_coeff_1: 2.0,
        curve_coeff_2: 3.0,
        axle_count: 400,
        train_type: 1,
    }
}

/// A link with 4 limits, 5 elevations and 5 headings. Two of the limits are below the top speed and laid, far enough apart to add
/// two speed points each: four such limits on 1,000 links would need 8,001 speed points, and 4,096 is the bound.
fn link(own: u32, links: u32) -> Lk {
    let turn = |k: usize| (own as f64 * 0.1 + k as f64 * 0.02) % 6.0;
    let lims = vec![[0.0, 25.0, 15.0], [10.0, 90.0, 40.0], [50.0, 75.0, 20.0], [80.0, 100.0, 35.0]];
    let mut l = Lk { own, length: LINK, prev: if own == 1 { links } else { own - 1 }, ..Default::default() };
    l.elevs = (0..5).map(|k| [25.0 * k as f64, ((own as usize * 7 + k) % 13) as f64]).collect();
    l.heads = (0..5).map(|k| [25.0 * k as f64, turn(k)]).collect();
    l.sets[0] = Some(Set { head_end: 0, conds: vec![(3, 4, 1e6)], lims });
    l
}

/// A ring of links, numbered from 1.
pub fn ring(links: u32) -> Table {
    let v: Vec<Lk> = (0..=links).map(|k| if k == 0 { Lk::default() } else { link(k, links) }).collect();
    Table::new(Flat::of(&v, None))
}

/// A table of one link whose set has the given limits, head-end, and a second behind it with others.
pub fn two_links(first: Vec<[f64; 3]>, second: Vec<[f64; 3]>) -> Table {
    let one = |own: u32, lims: Vec<[f64; 3]>| {
        let mut l = Lk { own, length: 1.0, prev: own - 1, ..Default::default() };
        l.sets[0] = Some(Set { head_end: 1, conds: vec![], lims });
        l
    };
    Table::new(Flat::of(&[Lk::default(), one(1, first), one(2, second)], None))
}

pub fn indices(l: &[u32]) -> Vec<LinkIdx> {
    l.iter().map(|&n| LinkIdx::new(n)).collect()
}

/// The path of `new` on both sides, in columns of the full length.
pub fn empty() -> State {
    let t = train();
    let mut cols = Cols::zeros(FULL);
    let a = port::new(t, &mut cols);
    assert_eq!(a.answer.number, 0);
    State { path: a.path, cols, original: altrios_core::track::PathTpc::new(original::train(&t)) }
}

/// The same with columns of the size that a path of so many links of `ring` needs, finished.
pub fn fitted(links: usize) -> State {
    let records = 3 * (4 * links + 2);
    let mut s = empty();
    s.cols = Cols::zeros([links + 1, 4 * (links + 1), records, records, 2 * (4 * links + 1), 0, 0]);
    s.path = crate::port::new(train(), &mut s.cols).path;
    s
}

/// A path of the listed links on both sides, compared before it is used.
pub fn extended(table: &Table, list: &[u32]) -> State {
    let mut s = empty();
    let a = port::extend(s.path, train(), list, &mut s.cols, &table.flat);
    assert_eq!(a.answer.number, 0, "{:?}", a.answer);
    s.path = a.path;
    s.original.extend(&table.net, indices(list)).unwrap();
    same(&s);
    s
}

/// Stops where the two sides of a path differ.
pub fn same(s: &State) {
    let w = original::columns(&s.original, s.cols.lens());
    assert!(w.differ(&s.cols).is_empty() && original::counted(&s.original) == s.path, "the two paths differ");
}

/// A column of n records, ten metres apart.
pub fn records(n: usize) -> Vec<f64> {
    let one = |k: usize| [10.0 * k as f64, ((k * 7) % 11) as f64 * 1e-3, (k % 17) as f64];
    (0..n).flat_map(one).collect()
}

/// One pass over columns, every entry asked whether it is finite.
#[allow(clippy::eq_op)]
pub fn pass(columns: &[&[f64]]) -> bool {
    let mut ok = true;
    for c in columns {
        for x in *c {
            ok &= x - x == 0.0;
        }
    }
    ok
}

/// The numbers of a path's records, column by column.
pub fn used<'a>(p: &PathTpc, c: &'a Cols) -> [&'a [f64]; 5] {
    [
        &c.offsets[..p.link_count],
        &c.grades[..3 * p.grade_count],
        &c.curves[..3 * p.curve_count],
        &c.speeds[..2 * p.speed_count],
        &c.powers[..3 * p.power_count],
    ]
}

/// The f64 columns of a table.
pub fn numbers(f: &Flat) -> [&[f64]; 6] {
    [&f.lengths, &f.elevs, &f.headings, &f.limits, &f.values, &f.link_powers]
}

/// The f64 columns of a path to their ends, records or not.
pub fn whole(c: &Cols) -> [&[f64]; 5] {
    [&c.offsets, &c.grades, &c.curves, &c.speeds, &c.powers]
}
