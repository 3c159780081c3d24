//! The rows of the rules: limits laid (S), links dropped (T), records found (L) and a train located (G).

mod common;

use common::raw::{Raw, Table};
use common::{link, no, offsets, path_of, speeds, train, two_links};
use mochaspit::{calc_idx, sys, Coeff, Dir, Dropped, LinkIdx, LinkTable, Position, Records, Refusal};

/// The speed points of a path with one link, its limits laid in their order.
fn laid(limits: &[(f64, f64, f64)]) -> Vec<(f64, f64)> {
    let table = LinkTable::from_iter([&link(300.0, 0, limits)]);
    speeds(&path_of(&table, &[1]))
}

/// A train for the C interface, with top speed 30.
fn raw_train() -> sys::Train {
    sys::Train { length: 50.0, speed_max: 30.0, ..sys::Train::default() }
}

/// The speed points after one limit is laid on two others.
fn laid_on(points: [(f64, f64); 2], limit: (f64, f64, f64)) -> Vec<(f64, f64)> {
    let mut raw = Raw::start(raw_train()).with_speeds(&points);
    assert_eq!(raw.extend(raw_train(), &[1], &Table::of(&[300.0], &[limit])), sys::Answer::default());
    raw.points()
}

/// The speed points after one limit is laid on (0,30),(100,20).
fn laid_on_two(limit: (f64, f64, f64)) -> Vec<(f64, f64)> {
    laid_on([(0.0, 30.0), (100.0, 20.0)], limit)
}

#[test]
fn s1_to_s3_and_s8() {
    assert_eq!(laid(&[(20.0, 40.0, 15.0)]), [(0.0, 30.0), (20.0, 15.0), (40.0, 30.0)]);
    assert_eq!(laid(&[(20.0, 40.0, 15.0), (40.0, 60.0, 15.0)]), [(0.0, 30.0), (20.0, 15.0), (60.0, 30.0)]);
    assert_eq!(laid(&[(0.0, 10.0, 20.0)]), [(0.0, 20.0), (10.0, 30.0)]);
    assert_eq!(laid(&[(5.0, 9.0, -12.0)]), [(0.0, 30.0), (5.0, -12.0), (9.0, 30.0)]);
}

#[test]
fn s4_to_s7() {
    assert_eq!(laid_on_two((20.0, 40.0, 15.0)), [(0.0, 30.0), (20.0, 15.0), (40.0, 30.0), (100.0, 20.0)]);
    assert_eq!(laid_on_two((20.0, 100.0, 15.0)), [(0.0, 30.0), (20.0, 15.0), (100.0, 20.0)]);
    assert_eq!(laid_on_two((50.0, 150.0, 25.0)), [(0.0, 30.0), (50.0, 25.0), (100.0, 20.0)]);
    assert_eq!(laid_on_two((50.0, 150.0, 10.0)), [(0.0, 30.0), (50.0, 10.0), (150.0, 20.0)]);
}

/// The same four where 100–900 at 20 was laid before, so that the path ends at 30.
#[test]
fn s4_to_s7_before_a_release() {
    let after = |limit| laid(&[(100.0, 900.0, 20.0), limit]);
    let end = (900.0, 30.0);
    assert_eq!(after((20.0, 40.0, 15.0)), [(0.0, 30.0), (20.0, 15.0), (40.0, 30.0), (100.0, 20.0), end]);
    assert_eq!(after((20.0, 100.0, 15.0)), [(0.0, 30.0), (20.0, 15.0), (100.0, 20.0), end]);
    assert_eq!(after((50.0, 150.0, 25.0)), [(0.0, 30.0), (50.0, 25.0), (100.0, 20.0), end]);
    assert_eq!(after((50.0, 150.0, 10.0)), [(0.0, 30.0), (50.0, 10.0), (150.0, 20.0), end]);
}

/// A short board inside a stretch: the speed is that of the stretch before it, the board's on it, and that of the stretch again behind it.
#[test]
fn a_limit_between_two_points_ends_at_its_end() {
    let table = LinkTable::from_iter([&link(300.0, 0, &[(100.0, 200.0, 20.0), (20.0, 40.0, 15.0), (120.0, 140.0, 5.0)])]);
    let path = path_of(&table, &[1]);
    let points = [(0.0, 30.0), (20.0, 15.0), (40.0, 30.0), (100.0, 20.0), (120.0, 5.0), (140.0, 20.0), (200.0, 30.0)];
    assert_eq!(speeds(&path), points);
    for (offset, speed) in [(19.9, 30.0), (20.0, 15.0), (39.9, 15.0), (40.0, 30.0), (99.9, 30.0), (100.0, 20.0)] {
        assert_eq!(path.posted_speed(offset), Ok(speed));
    }
    for (offset, speed) in [(119.9, 20.0), (120.0, 5.0), (139.9, 5.0), (140.0, 20.0), (199.9, 20.0), (200.0, 30.0)] {
        assert_eq!(path.posted_speed(offset), Ok(speed));
    }
}

/// Strictly between two points a limit of no length changes nothing, nor does one above the speed there, and no point goes out. Behind the last
/// point one of no length adds two points at its offset, of which the second is posted.
#[test]
fn a_limit_between_two_points_that_changes_nothing() {
    let stretch = (100.0, 200.0, 20.0);
    let points = [(0.0, 30.0), (100.0, 20.0), (200.0, 30.0)];
    assert_eq!(laid(&[stretch, (20.0, 20.0, 15.0)]), points);
    assert_eq!(laid(&[stretch, (150.0, 150.0, -5.0)]), points);
    assert_eq!(laid(&[stretch, (120.0, 140.0, 25.0)]), points);
    assert_eq!(laid_on_two((20.0, 20.0, 20.0)), [(0.0, 30.0), (100.0, 20.0)]);
    assert_eq!(laid_on([(0.0, 10.0), (100.0, 10.0)], (20.0, 40.0, 15.0)), [(0.0, 10.0), (100.0, 10.0)]);
    assert_eq!(laid(&[(20.0, 20.0, 15.0)]), [(0.0, 30.0), (20.0, 15.0), (20.0, 30.0)]);
}

#[test]
fn t1_drops_a_link_and_keeps_its_limit() {
    let mut path = path_of(&two_links(&[(50.0, 200.0, 20.0)]), &[1, 2]);
    assert_eq!(offsets(&path), [0.0, 100.0, 250.0]);
    assert_eq!(speeds(&path), [(0.0, 30.0), (50.0, 20.0), (200.0, 30.0)]);
    assert_eq!(path.clear(120.0), Ok(Dropped { links: 1, grades: 1, curves: 1, power_limits: 0 }));
    assert_eq!(speeds(&path), [(100.0, 20.0), (200.0, 30.0)]);
    assert_eq!(offsets(&path), [100.0, 250.0]);
}

#[test]
fn t2_keeps_the_link_before_its_end() {
    let mut path = path_of(&two_links(&[(50.0, 200.0, 20.0)]), &[1, 2]);
    let before = path.clone();
    assert_eq!(path.clear(100.0), Ok(Dropped::default()));
    assert_eq!(path, before);
}

#[test]
fn t3_and_t4() {
    let mut raw = Raw::start(raw_train());
    assert_eq!(raw.extend(raw_train(), &[1, 2], &Table::of(&[100.0, 150.0], &[])).number, 0);
    let mut raw = raw.with_speeds(&[(0.0, 30.0), (100.0, 20.0)]);
    let before = raw.bits();
    let (answer, dropped) = raw.clear(251.0);
    assert_eq!((answer.number, answer.place, dropped.grade_count), (10, 0, 0));
    assert_eq!(raw.bits(), before);
    let (answer, dropped) = raw.clear(120.0);
    assert_eq!((answer.number, dropped.grade_count, dropped.curve_count, dropped.cat_power_count), (0, 1, 1, 0));
    assert_eq!((dropped.offset, dropped.link_idx), (0.0, 0));
    assert_eq!(raw.points(), [(100.0, 20.0)]);

    let mut path = path_of(&two_links(&[]), &[1, 2]);
    assert_eq!(path.clear(251.0), no(10, 0));
}

#[test]
fn l1_to_l6() {
    let at = |offset| Coeff { offset, ..Coeff::default() };
    let records = Records::from_iter([at(0.0), at(100.0), at(250.0)]);
    let found = |offset, hint, dir| calc_idx(&records, offset, hint, dir);
    assert_eq!(found(100.0, 0, Dir::Fwd), Ok(0));
    assert_eq!(found(101.0, 0, Dir::Fwd), Ok(1));
    assert_eq!(found(100.0, 2, Dir::Bwd), Ok(1));
    assert_eq!(found(50.0, 1, Dir::Fwd), Ok(1));
    assert_eq!(found(100.0, 2, Dir::Fwd), no(11, 0));
    assert_eq!(found(251.0, 0, Dir::Fwd), no(10, 0));
    assert_eq!(found(101.0, 0, Dir::Unk), Ok(1));
}

#[test]
fn g1_front_at_the_end_of_link_7() {
    let links: Vec<_> = (0..7).map(|_| link(250.0, 0, &[])).collect();
    let path = path_of(&LinkTable::from_iter(&links), &[7]);
    let mut position = Position { offset: 250.0, offset_back: 200.0, length: 50.0, weight_static: 1e6, ..Position::default() };
    assert_eq!(position.locate(&path), Ok(()));
    assert_eq!((position.link_front, position.link_back, position.offset_in_link), (LinkIdx(7), LinkIdx(7), 0.0));
    assert_eq!((position.offset, position.offset_back, position.length, position.weight_static), (250.0, 200.0, 50.0, 1e6));
}

#[test]
fn a_tail_is_added_unless_head_end() {
    let mut first = link(100.0, 0, &[(20.0, 40.0, 15.0)]);
    if let mochaspit::SpeedSets::Single(set) = &mut first.speed_sets {
        set.head_end = false;
    }
    let path = path_of(&LinkTable::from_iter([&first]), &[1]);
    assert_eq!(speeds(&path), [(0.0, 30.0), (20.0, 15.0), (90.0, 30.0)]);
    assert_eq!(path.posted_speed(-0.5), no(10, 0));
    assert_eq!(path.posted_speed(f64::NAN), no(1, 0));
    assert_eq!(path.posted_speed(20.0), Ok(15.0));
    assert_eq!(path.posted_speed(89.9), Ok(15.0));
    assert_eq!(path.posted_speed(f64::MAX), Ok(train().speed_max));
    assert_eq!(path.posted_speed(f64::INFINITY), no(1, 0));
}

#[test]
fn a_refusal_is_an_error_with_words() {
    let e: Box<dyn std::error::Error> = Box::new(Refusal { number: 4, place: 1 });
    assert_eq!(e.to_string(), "refused with 4 at place 1: a link number is 0 or not in the table, or a link gets no new number or the number 0");
    assert_eq!(Refusal { number: 12, place: 0 }.to_string(), "refused with 12: the path has no link to drop");
    assert_eq!(Refusal { number: 12, place: 3 }.to_string(), "refused with 12 at place 3: the path has no link to drop");
    let mut reasons: Vec<_> = (1..=12).map(|number| Refusal { number, place: 0 }.reason()).collect();
    reasons.sort_unstable();
    reasons.dedup();
    assert_eq!(reasons.len(), 12);
}
