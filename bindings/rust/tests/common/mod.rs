//! What the tests share: a train, links with head-end limits, and short forms of records.
#![allow(dead_code)]

use mochaspit::{Link, LinkIdx, LinkTable, Path, Refusal, SpeedLimit, SpeedSet, SpeedSets, Train, TrainType};

pub mod raw;

/// A freight train of 50 m with top speed 30.
pub fn train() -> Train {
    Train {
        length: 50.0,
        speed_max: 30.0,
        towed_mass_static: 1000.0,
        mass_per_brake: 20.0,
        curve_coeff_0: 0.5,
        curve_coeff_1: 0.7,
        curve_coeff_2: 11.0,
        axle_count: 4,
        train_type: TrainType::Freight,
    }
}

/// A set whose limits, (start, end, speed), end with the train's front.
pub fn head_end(limits: &[(f64, f64, f64)]) -> SpeedSet {
    let limits = limits.iter().map(|&(start, end, speed)| SpeedLimit { start, end, speed }).collect();
    SpeedSet { head_end: true, conditions: Vec::new(), limits }
}

/// A flat, straight link behind link `prev` with one set for every train.
pub fn link(length: f64, prev: u32, limits: &[(f64, f64, f64)]) -> Link {
    Link { length, prev: LinkIdx(prev), speed_sets: SpeedSets::Single(head_end(limits)), ..Link::default() }
}

/// Links 1 and 2, from 0 to 100 and from there to 250, with limits on link 1.
pub fn two_links(limits: &[(f64, f64, f64)]) -> LinkTable {
    LinkTable::from_iter([&link(100.0, 0, limits), &link(150.0, 1, &[])])
}

/// A path with the links listed.
pub fn path_of(table: &LinkTable, links: &[u32]) -> Path {
    let mut path = Path::new(&train()).unwrap();
    path.extend(table, &idxs(links)).unwrap();
    path
}

pub fn idxs(links: &[u32]) -> Vec<LinkIdx> {
    links.iter().map(|&n| LinkIdx(n)).collect()
}

/// The speed points as pairs.
pub fn speeds(path: &Path) -> Vec<(f64, f64)> {
    path.speed_points().iter().map(|p| (p.offset, p.speed)).collect()
}

/// The offsets of the link points.
pub fn offsets(path: &Path) -> Vec<f64> {
    path.link_points().map(|p| p.offset).collect()
}

/// A refusal.
pub fn no<T>(number: u32, place: usize) -> Result<T, Refusal> {
    Err(Refusal { number, place })
}
