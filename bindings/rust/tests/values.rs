//! Values that the calls lay and hand back: link points, grades, curves, power limits, sets and conditions, and other numbers.

mod common;

use common::{head_end, idxs, link, path_of, speeds, train, two_links};
use mochaspit::{
    Coeff, Compare, Condition, Dropped, Elevation, Heading, Link, LinkIdx, LinkPoint, LinkTable, Path, Position, PowerLimit, SpeedSet, SpeedSets,
    Train, TrainType, TypeSets,
};
use std::f64::consts::PI;

/// Link 1 with elevations, headings and a power limit, and link 2, flat and straight, with another.
fn survey() -> LinkTable {
    let elevations = [(0.0, 10.0), (40.0, 12.0), (100.0, 9.0)].map(|(offset, elevation)| Elevation { offset, elevation });
    let headings = [(0.0, 0.0), (60.0, 0.03), (100.0, 0.13)].map(|(offset, heading)| Heading { offset, heading });
    let first = Link {
        elevations: elevations.to_vec(),
        headings: headings.to_vec(),
        power_limits: vec![PowerLimit { start: 20.0, end: 80.0, power: 5000.0, district: 3 }],
        ..link(100.0, 0, &[])
    };
    let second = Link { power_limits: vec![PowerLimit { start: 0.0, end: 150.0, power: 7000.0, district: 0 }], ..link(150.0, 1, &[]) };
    LinkTable::from_iter([&first, &second])
}

/// The coefficient of a curve by the rules of `extend`.
fn curve(turn: f64, run: f64) -> f64 {
    let rev = 2.0 * PI;
    let curvature = (-rev / 2.0 + (turn + rev / 2.0) % rev).abs() / run;
    let one = (PI / 180.0) / (0.3048 * 100.0);
    let (c0, c1, c2) = (train().curve_coeff_0, train().curve_coeff_1, train().curve_coeff_2);
    if curvature < one {
        return c0 * curvature;
    }
    c0 * one + c1 * (curvature - one) + c2 * (curvature - one) * (curvature - one)
}

fn coeff(offset: f64, res_coeff: f64, res_net: f64) -> Coeff {
    Coeff { offset, res_coeff, res_net }
}

#[test]
fn link_points_count_their_records() {
    let path = path_of(&survey(), &[1, 2]);
    let point = |offset, n, power_count, link| LinkPoint { offset, grade_count: n, curve_count: n, power_count, link: LinkIdx(link) };
    let points: Vec<_> = path.link_points().collect();
    assert_eq!(points, [point(0.0, 2, 1, 1), point(100.0, 1, 1, 2), point(250.0, 0, 0, 2)]);
}

#[test]
fn grades_and_curves() {
    let path = path_of(&survey(), &[1, 2]);
    let grades = [coeff(0.0, 2.0 / 40.0, 10.0), coeff(40.0, -3.0 / 60.0, 12.0), coeff(100.0, 0.0, 9.0), coeff(250.0, 0.0, 9.0)];
    assert_eq!(path.grades(), grades);
    let (a, b) = (curve(0.03, 60.0), curve(0.13 - 0.03, 40.0));
    let net = a * 60.0 + b * 40.0;
    let curves = [coeff(0.0, a, 0.0), coeff(60.0, b, a * 60.0), coeff(100.0, 0.0, net), coeff(250.0, 0.0, net)];
    assert_eq!(path.curves(), curves);
    assert_eq!(path.link_grades(0).unwrap(), &grades[..2]);
    assert_eq!(path.link_grades(1).unwrap(), &grades[2..3]);
    assert_eq!(path.link_curves(0).unwrap(), &curves[..2]);
    assert_eq!(path.link_curves(1).unwrap(), &curves[2..3]);
}

#[test]
fn power_limits_move_and_go_with_their_link() {
    let mut path = path_of(&survey(), &[1, 2]);
    let first = PowerLimit { start: 20.0, end: 80.0, power: 5000.0, district: 3 };
    let second = PowerLimit { start: 100.0, end: 250.0, power: 7000.0, district: 0 };
    assert_eq!(path.power_limits().collect::<Vec<_>>(), [first, second]);
    let dropped = path.clear(101.0).unwrap();
    assert_eq!((dropped.links, dropped.grades, dropped.curves, dropped.power_limits), (1, 2, 2, 1));
    assert_eq!(path.power_limits().collect::<Vec<_>>(), [second]);
    assert_eq!(path.grades(), [coeff(100.0, 0.0, 9.0), coeff(250.0, 0.0, 9.0)]);
}

#[test]
fn a_list_of_trims_is_so_many_trims() {
    let limited = two_links(&[(50.0, 200.0, 20.0)]);
    let mut one_by_one = path_of(&limited, &[1, 2]);
    let mut in_one = one_by_one.clone();
    one_by_one.clear(60.0).unwrap();
    let last = one_by_one.clear(120.0).unwrap();
    assert_eq!(in_one.clear_each(&[60.0, 120.0]), Ok(last));
    assert_eq!(in_one, one_by_one);
    assert_eq!(speeds(&in_one)[0], (100.0, 20.0));
    assert_eq!(in_one.clear_each(&[]), Ok(Dropped::default()));
    assert_eq!(in_one, one_by_one);
}

#[test]
fn a_refused_list_of_trims_changes_nothing() {
    let before = path_of(&two_links(&[(50.0, 200.0, 20.0)]), &[1, 2]);
    let mut path = before.clone();
    let refused =
        [([120.0, 251.0, 120.0], (10, 1)), ([120.0, 130.0, 99.0], (10, 2)), ([-1.0, 130.0, 140.0], (10, 0)), ([120.0, f64::NAN, 0.0], (1, 1))];
    for (offsets, (number, place)) in refused {
        let refusal = path.clear_each(&offsets).unwrap_err();
        assert_eq!((refusal.number, refusal.place), (number, place));
        assert_eq!(path, before);
    }
}

#[test]
fn a_path_without_links_and_a_finished_one() {
    let mut path = Path::new(&train()).unwrap();
    assert_eq!(path.link_points().collect::<Vec<_>>(), [LinkPoint::default()]);
    assert_eq!((path.grades(), path.curves()), (&[Coeff::default()][..], &[Coeff::default()][..]));
    assert_eq!(speeds(&path), [(0.0, 30.0)]);
    assert_eq!((path.power_limits().len(), path.is_finished()), (0, false));
    path.extend(&survey(), &[]).unwrap();
    assert_eq!(path, Path::new(&train()).unwrap());
    path.extend(&survey(), &idxs(&[1])).unwrap();
    path.finish().unwrap();
    assert_eq!(path.grades().last(), Some(&coeff(f64::INFINITY, 0.0, 9.0)));
    assert_eq!((path.grades().len(), path.curves().len(), path.is_finished()), (4, 4, true));
    assert_eq!(path.link_grades(0).unwrap().len(), 2);
}

#[test]
fn other_numbers_for_the_links() {
    let mut path = path_of(&survey(), &[1, 2]);
    path.reindex(&[0, 40, 7]).unwrap();
    assert_eq!(path.link_points().map(|p| p.link.0).collect::<Vec<_>>(), [40, 7, 7]);
    let mut position = Position { offset: 120.0, offset_back: 70.0, length: 50.0, ..Position::default() };
    position.locate(&path).unwrap();
    assert_eq!((position.link_front, position.link_back, position.offset_in_link), (LinkIdx(7), LinkIdx(40), 20.0));
}

#[test]
fn speeds_anew_from_another_table() {
    let mut path = path_of(&two_links(&[(50.0, 200.0, 20.0)]), &[1, 2]);
    path.recalc_speeds(&two_links(&[(10.0, 30.0, 12.0)])).unwrap();
    assert_eq!(speeds(&path), [(0.0, 30.0), (10.0, 12.0), (30.0, 30.0)]);
    path.clear(120.0).unwrap();
    path.recalc_speeds(&two_links(&[(50.0, 200.0, 20.0)])).unwrap();
    assert_eq!(speeds(&path), [(100.0, 30.0)]);
}

/// The tail of a limit is the length of the train that the path was made for, whatever is done with the caller's own record.
#[test]
fn a_path_keeps_its_train() {
    let mut first = link(100.0, 0, &[(20.0, 40.0, 15.0)]);
    if let SpeedSets::Single(set) = &mut first.speed_sets {
        set.head_end = false;
    }
    let table = LinkTable::from_iter([&first]);
    let mut own = train();
    let mut path = Path::new(&own).unwrap();
    own.length = 5.0;
    path.extend(&table, &idxs(&[1])).unwrap();
    assert_eq!(speeds(&path), [(0.0, 30.0), (20.0, 15.0), (90.0, 30.0)]);
    path.recalc_speeds(&table).unwrap();
    assert_eq!(speeds(&path), [(0.0, 30.0), (20.0, 15.0), (90.0, 30.0)]);
    assert_eq!(path.train(), &train());
    assert_ne!(Path::new(&own).unwrap(), Path::new(&train()).unwrap());
}

/// The speed posted at 15 on a link with these sets.
fn posted(train: &Train, sets: SpeedSets) -> f64 {
    let table = LinkTable::from_iter([&Link { speed_sets: sets, ..link(100.0, 0, &[]) }]);
    let mut path = Path::new(train).unwrap();
    path.extend(&table, &idxs(&[1])).unwrap();
    path.posted_speed(15.0).unwrap()
}

const TYPES: [TrainType; 7] = [
    TrainType::None,
    TrainType::Freight,
    TrainType::Passenger,
    TrainType::Intermodal,
    TrainType::HighSpeedPassenger,
    TrainType::TiltTrain,
    TrainType::Commuter,
];

#[test]
fn each_type_has_its_own_set() {
    let speed = |t: TrainType| 5.0 + f64::from(t as u32);
    let sets = TYPES.into_iter().fold(TypeSets::new(), |sets, t| sets.with(t, head_end(&[(10.0, 20.0, speed(t))])));
    for train_type in TYPES {
        assert_eq!(posted(&Train { train_type, ..train() }, SpeedSets::ByType(sets.clone())), speed(train_type));
        assert_eq!(sets.get(train_type), Some(&head_end(&[(10.0, 20.0, speed(train_type))])));
        assert_eq!(posted(&Train { train_type, ..train() }, SpeedSets::Single(head_end(&[(10.0, 20.0, 3.0)]))), 3.0);
    }
}

/// Whether a set with these conditions applies to the train.
fn applies(conditions: &[Condition]) -> bool {
    let set = SpeedSet { conditions: conditions.to_vec(), ..head_end(&[(10.0, 20.0, 5.0)]) };
    posted(&train(), SpeedSets::Single(set)) == 5.0
}

#[test]
fn each_comparison_of_each_kind() {
    let kinds: [fn(Compare, f64) -> Condition; 3] = [Condition::TotalMass, Condition::MassPerBrake, Condition::Axles];
    for (kind, figure) in kinds.into_iter().zip([1000.0, 20.0, 4.0]) {
        for (value, equal, above) in [(figure, true, false), (figure - 1.0, false, true), (figure + 1.0, false, false)] {
            assert_eq!(applies(&[kind(Compare::Equal, value)]), equal);
            assert_eq!(applies(&[kind(Compare::Above, value)]), above);
            assert_eq!(applies(&[kind(Compare::Below, value)]), !equal && !above);
            assert_eq!(applies(&[kind(Compare::NotBelow, value)]), equal || above);
            assert_eq!(applies(&[kind(Compare::NotAbove, value)]), !above);
        }
    }
}

#[test]
fn conditions_hold_together_and_axles_are_whole() {
    let (yes, no) = (Condition::TotalMass(Compare::Above, 1.0), Condition::MassPerBrake(Compare::Below, 1.0));
    assert!(applies(&[]) && applies(&[yes, yes]));
    assert!(!applies(&[yes, no]) && !applies(&[no, yes]));
    assert!(applies(&vec![yes; 64]));
    assert!(applies(&[Condition::Axles(Compare::Equal, 4.9), Condition::Axles(Compare::Above, -3.0)]));
    assert!(applies(&[Condition::Axles(Compare::Below, 1e300)]));
}

#[test]
fn a_table_counts_its_links() {
    let mut table = LinkTable::default();
    assert!(table.is_empty());
    assert_eq!(table.push(&link(100.0, 0, &[])), LinkIdx(1));
    assert_eq!(table.push(&link(150.0, 1, &[])), LinkIdx(2));
    assert_eq!(table.len(), 2);
    assert_eq!(table, two_links(&[]));
}
