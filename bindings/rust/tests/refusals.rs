//! Each refusal, 1 to 12, through a call; a refused call changes nothing.

mod common;

use common::{head_end, idxs, link, no, path_of, train, two_links};
use mochaspit::{
    Coeff, Compare, Condition, Dir, Elevation, Heading, Link, LinkIdx, LinkTable, Path, Point, Position, PowerLimit, Records, Refusal, Room,
    SpeedSets, Strap, Train, TrainType, TypeSets,
};

/// Makes a call that must be refused, and looks at the path before and after; Debug shows an f64 to the bit, but for a NaN's.
fn refused<T: std::fmt::Debug>(path: &mut Path, number: u32, place: usize, call: impl FnOnce(&mut Path) -> Result<T, Refusal>) {
    let before = format!("{path:?}");
    assert_eq!(call(path).unwrap_err(), Refusal { number, place });
    assert_eq!(format!("{path:?}"), before);
}

/// The trains that question 1 refuses.
fn bad_trains() -> Vec<Train> {
    let t = train();
    let mut bad = vec![Train { length: 0.0, ..t }, Train { length: -1.0, ..t }, Train { speed_max: -1.0, ..t }];
    for x in [f64::NAN, f64::INFINITY, f64::NEG_INFINITY] {
        bad.push(Train { length: x, ..t });
        bad.push(Train { speed_max: x, ..t });
        bad.push(Train { towed_mass_static: x, ..t });
        bad.push(Train { mass_per_brake: x, ..t });
        bad.push(Train { curve_coeff_0: x, ..t });
        bad.push(Train { curve_coeff_1: x, ..t });
        bad.push(Train { curve_coeff_2: x, ..t });
    }
    bad
}

#[test]
fn number_1_numbers_that_are_not_finite() {
    let mut path = path_of(&two_links(&[(50.0, 200.0, 20.0)]), &[1]);
    for bad in bad_trains() {
        assert_eq!(Path::new(&bad).unwrap_err(), Refusal { number: 1, place: 0 }, "{bad:?}");
    }
    refused(&mut path, 1, 0, |p| p.clear(f64::NAN));
    refused(&mut path, 1, 0, |p| p.clear(f64::INFINITY));
    let top_speed_0 = Train { speed_max: 0.0, ..train() };
    assert!(Path::new(&top_speed_0).is_ok());
}

#[test]
fn number_2_an_empty_list() {
    let none = Records::from(Vec::new());
    let position = Position { offset: 50.0, length: 50.0, ..Position::default() };
    assert_eq!(none.calc_idx(0.0, 0, Dir::Fwd), no(2, 0));
    assert_eq!(Point::new(&none, &position), no(2, 0));
    assert_eq!(Strap::new(&none, &position), no(2, 0));
    let mut strap = Strap { idx_front: 3, idx_back: 2 };
    assert_eq!(strap.calc_res(&none, &position, Dir::Bwd), no(2, 0));
    assert_eq!(strap, Strap { idx_front: 3, idx_back: 2 });
}

#[test]
fn number_3_a_finished_path() {
    let table = two_links(&[]);
    let mut path = path_of(&table, &[1]);
    path.finish().unwrap();
    assert!(path.is_finished());
    refused(&mut path, 3, 0, |p| p.finish());
    refused(&mut path, 3, 0, |p| p.extend(&table, &idxs(&[2])));
    refused(&mut path, 3, 0, |p| p.extend(&table, &[]));
    path.recalc_speeds(&table).unwrap();
    path.reindex(&[0, 5]).unwrap();
}

#[test]
fn number_4_links_that_are_not_there() {
    let table = two_links(&[]);
    let mut path = Path::new(&train()).unwrap();
    refused(&mut path, 4, 0, |p| p.extend(&table, &idxs(&[0])));
    refused(&mut path, 4, 2, |p| p.extend(&table, &idxs(&[1, 2, 3])));
    refused(&mut path, 4, 1, |p| p.extend(&table, &idxs(&[1, u32::MAX])));
    refused(&mut path, 4, 0, |p| p.extend(&LinkTable::new(), &idxs(&[1])));
    path.extend(&table, &idxs(&[1, 2])).unwrap();
    refused(&mut path, 4, 1, |p| p.reindex(&[0, 5]));
    refused(&mut path, 4, 0, |p| p.reindex(&[9, 0, 6]));
    refused(&mut path, 4, 1, |p| p.recalc_speeds(&LinkTable::from_iter([&link(100.0, 0, &[])])));
}

#[test]
fn number_5_links_that_do_not_follow() {
    let alike = Link { prev_alt: LinkIdx(1), ..link(50.0, 1, &[]) };
    let next_alike = Link { next: LinkIdx(9), next_alt: LinkIdx(9), ..link(50.0, 1, &[]) };
    let other = Link { prev_alt: LinkIdx(1), ..link(50.0, 2, &[]) };
    let table = LinkTable::from_iter([&link(100.0, 0, &[]), &link(150.0, 9, &[]), &alike, &next_alike, &other]);
    let mut path = Path::new(&train()).unwrap();
    for wrong in [1, 2, 3, 4] {
        refused(&mut path, 5, 1, |p| p.extend(&table, &idxs(&[1, wrong])));
    }
    path.extend(&table, &idxs(&[1])).unwrap();
    refused(&mut path, 5, 0, |p| p.extend(&table, &idxs(&[2])));
    path.extend(&table, &idxs(&[5])).unwrap();
}

/// Links that question 6 refuses.
fn bad_links() -> Vec<Link> {
    let good = || link(100.0, 0, &[]);
    let rise = |list: &[(f64, f64)]| list.iter().map(|&(offset, elevation)| Elevation { offset, elevation }).collect();
    let turn = |list: &[(f64, f64)]| list.iter().map(|&(offset, heading)| Heading { offset, heading }).collect();
    let power = |start, end, power| vec![PowerLimit { start, end, power, district: 1 }];
    let mut many = head_end(&[]);
    many.conditions = vec![Condition::Axles(Compare::NotBelow, 0.0); 65];
    let other_type = TypeSets::new().with(TrainType::Freight, head_end(&[])).with(TrainType::Commuter, head_end(&[(0.0, 1.0, f64::NAN)]));
    vec![
        link(0.0, 0, &[]),
        link(-1.0, 0, &[]),
        link(f64::NAN, 0, &[]),
        link(f64::INFINITY, 0, &[]),
        Link { elevations: rise(&[(0.0, 1.0)]), ..good() },
        Link { elevations: rise(&[(0.0, 1.0), (99.0, 1.0)]), ..good() },
        Link { elevations: rise(&[(1.0, 1.0), (100.0, 1.0)]), ..good() },
        Link { elevations: rise(&[(0.0, 1.0), (50.0, 1.0), (50.0, 1.0), (100.0, 1.0)]), ..good() },
        Link { elevations: rise(&[(0.0, 1.0), (100.0, f64::NAN)]), ..good() },
        Link { headings: turn(&[(0.0, 1.0)]), ..good() },
        Link { headings: turn(&[(0.0, 1.0), (100.0, f64::INFINITY)]), ..good() },
        Link { power_limits: power(-1.0, 5.0, 1.0), ..good() },
        Link { power_limits: power(6.0, 5.0, 1.0), ..good() },
        Link { power_limits: power(0.0, 5.0, f64::NAN), ..good() },
        link(100.0, 0, &[(-1.0, 5.0, 10.0)]),
        link(100.0, 0, &[(6.0, 5.0, 10.0)]),
        link(100.0, 0, &[(0.0, 5.0, f64::NEG_INFINITY)]),
        Link { speed_sets: SpeedSets::Single(many), ..good() },
        Link { speed_sets: SpeedSets::ByType(other_type), ..good() },
    ]
}

#[test]
fn number_6_links_that_are_not_well_formed() {
    let first = link(100.0, 0, &[]);
    for bad in bad_links() {
        let mut path = Path::new(&train()).unwrap();
        let behind = Link { prev: LinkIdx(1), ..bad };
        let table = LinkTable::from_iter([&first, &behind]);
        refused(&mut path, 6, 0, |p| p.extend(&table, &idxs(&[2])));
        refused(&mut path, 6, 1, |p| p.extend(&table, &idxs(&[1, 2])));
        path.extend(&two_links(&[]), &idxs(&[1, 2])).unwrap();
        refused(&mut path, 6, 1, |p| p.recalc_speeds(&table));
    }
}

#[test]
fn number_7_no_set_for_the_train() {
    let sets = SpeedSets::ByType(TypeSets::new().with(TrainType::Commuter, head_end(&[])));
    let commuters = Link { speed_sets: sets, ..link(150.0, 1, &[]) };
    let table = LinkTable::from_iter([&link(100.0, 0, &[]), &commuters]);
    let mut path = Path::new(&train()).unwrap();
    refused(&mut path, 7, 1, |p| p.extend(&table, &idxs(&[1, 2])));
    path.extend(&two_links(&[]), &idxs(&[1, 2])).unwrap();
    refused(&mut path, 7, 1, |p| p.recalc_speeds(&table));
    let mut commuter = Path::new(&Train { train_type: TrainType::Commuter, ..train() }).unwrap();
    commuter.extend(&table, &idxs(&[1, 2])).unwrap();
    commuter.recalc_speeds(&table).unwrap();
}

#[test]
fn number_8_sums_that_are_too_large() {
    let steep = vec![Elevation { offset: 0.0, elevation: 1e308 }, Elevation { offset: 10.0, elevation: 1e308 }];
    let high = Link { elevations: steep, ..link(10.0, 1, &[]) };
    let table = LinkTable::from_iter([&link(1e308, 1, &[]), &link(1.0, 1, &[]), &high]);
    let mut path = Path::new(&train()).unwrap();
    refused(&mut path, 8, 1, |p| p.extend(&table, &idxs(&[1, 1])));
    refused(&mut path, 8, 1, |p| p.extend(&table, &idxs(&[1, 2])));
    refused(&mut path, 8, 0, |p| p.extend(&table, &idxs(&[3])));
    let records = Records::from_iter([Coeff { res_coeff: 1e308, ..Coeff::default() }, Coeff { offset: 100.0, ..Coeff::default() }]);
    let position = Position { offset: 50.0, length: 2.0, weight_static: 1e308, ..Position::default() };
    let mut point = Point { idx: 0 };
    assert_eq!(point.calc_res(&records, &position, Dir::Fwd), no(8, 0));
}

#[test]
fn number_9_records_that_do_not_fit() {
    let power = PowerLimit { start: 0.0, end: 10.0, power: 1.0, district: 1 };
    let full = Link { power_limits: vec![power], ..link(100.0, 0, &[(0.0, 10.0, 15.0)]) };
    let table = LinkTable::from_iter([&full]);
    let enough = Room { link_points: 2, grades: 2, curves: 2, speed_points: 3, power_limits: 1 };
    let short = [
        Room { link_points: 1, ..enough },
        Room { grades: 1, ..enough },
        Room { curves: 1, ..enough },
        Room { speed_points: 2, ..enough },
        Room { power_limits: 0, ..enough },
    ];
    for room in short {
        let mut path = Path::with_room(&train(), room).unwrap();
        refused(&mut path, 9, 0, |p| p.extend(&table, &idxs(&[1])));
    }
    let mut path = Path::with_room(&train(), enough).unwrap();
    path.extend(&table, &idxs(&[1])).unwrap();
    refused(&mut path, 9, 0, |p| p.finish());
    let none = Room { speed_points: 0, ..enough };
    assert_eq!(Path::with_room(&train(), none).unwrap_err(), Refusal { number: 9, place: 0 });
}

#[test]
fn number_9_at_the_bounds() {
    let again = Link { prev: LinkIdx(1), ..link(10.0, 1, &[]) };
    let table = LinkTable::from_iter([&again]);
    let mut path = Path::with_room(&train(), Room { link_points: usize::MAX, ..Room::BOUNDS }).unwrap();
    path.extend(&table, &[LinkIdx(1); 1024]).unwrap();
    assert_eq!(path.link_points().len(), 1025);
    refused(&mut path, 9, 0, |p| p.extend(&table, &idxs(&[1])));
    path.clear(15.0).unwrap();
    path.extend(&table, &idxs(&[1])).unwrap();
}

#[test]
fn number_10_outside_the_path() {
    let mut path = path_of(&two_links(&[]), &[1, 2]);
    refused(&mut path, 10, 0, |p| p.clear(-0.1));
    refused(&mut path, 10, 0, |p| p.clear(250.1));
    refused(&mut path, 10, 0, |p| p.link_grades(2).map(<[_]>::len));
    refused(&mut path, 10, 0, |p| p.link_curves(usize::MAX).map(<[_]>::len));
    assert_eq!(path.link_grades(1).unwrap().len(), 1);
    let found = Position { link_front: LinkIdx(9), link_back: LinkIdx(8), offset_in_link: 3.0, ..Position::default() };
    let before = Position { offset: 40.0, offset_back: -10.0, length: 50.0, ..found };
    let mut position = before;
    assert_eq!(position.locate(&path), no(10, 0));
    assert_eq!(position, before);
    position.length = 0.0;
    assert_eq!(position.locate(&path), no(1, 0));
}

#[test]
fn number_11_indices_that_are_not_there() {
    let path = path_of(&two_links(&[]), &[1, 2]);
    let grades = Records::from(path.grades());
    assert_eq!(grades.calc_idx(50.0, 3, Dir::Bwd), no(11, 0));
    assert_eq!(grades.calc_idx(50.0, 2, Dir::Unk), no(11, 0));
    let mut point = Point { idx: 2 };
    assert_eq!(point.fix_cache(3), no(11, 0));
    assert_eq!(point, Point { idx: 2 });
    assert_eq!(Point { idx: 3 }.res_coeff_front(&grades), no(11, 0));
    let mut strap = Strap { idx_front: 2, idx_back: 1 };
    assert_eq!(strap.fix_cache(2), no(11, 0));
    assert_eq!(strap, Strap { idx_front: 2, idx_back: 1 });
    assert_eq!(strap.fix_cache(1), Ok(()));
    assert_eq!(strap, Strap { idx_front: 1, idx_back: 0 });
}

#[test]
fn number_12_no_link_to_drop() {
    let mut path = Path::new(&train()).unwrap();
    refused(&mut path, 12, 0, |p| p.clear(0.0));
    refused(&mut path, 10, 0, |p| p.clear(1.0));
    path.extend(&two_links(&[]), &idxs(&[1])).unwrap();
    assert!(path.clear(0.0).is_ok());
}

#[test]
fn the_first_question_decides() {
    let unset = Link { speed_sets: SpeedSets::ByType(TypeSets::new()), ..link(100.0, 0, &[]) };
    let table = LinkTable::from_iter([&unset, &link(-1.0, 1, &[])]);
    let mut path = Path::new(&train()).unwrap();
    refused(&mut path, 4, 1, |p| p.extend(&table, &idxs(&[1, 0])));
    refused(&mut path, 5, 1, |p| p.extend(&table, &idxs(&[1, 1])));
    refused(&mut path, 6, 1, |p| p.extend(&table, &idxs(&[1, 2])));
    refused(&mut path, 7, 0, |p| p.extend(&table, &idxs(&[1])));
}
