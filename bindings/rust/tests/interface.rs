//! The C interface itself: unknown codes, columns of any length and content, and what done and refused calls leave in them.

mod common;

use common::raw::{Raw, Table};
use mochaspit::sys;

/// A freight train of 50 m with top speed 30.
fn train() -> sys::Train {
    sys::Train { length: 50.0, speed_max: 30.0, train_type: 1, ..sys::Train::default() }
}

fn answer(number: u32, place: usize) -> sys::Answer {
    sys::Answer { number, place }
}

/// A train of 50 m and 2 N with its front at 60 m.
fn state() -> sys::TrainState {
    sys::TrainState { offset: 60.0, offset_back: 10.0, length: 50.0, weight_static: 2.0, ..sys::TrainState::default() }
}

/// Two links, of 100 m and 150 m, the limit 50–200 at 20 on the first.
fn table() -> Table {
    Table::of(&[100.0, 150.0], &[(50.0, 200.0, 20.0)])
}

/// The path of both links, with sevens past the counts.
fn path() -> Raw {
    let mut raw = Raw::start(train());
    assert_eq!(raw.extend(train(), &[1, 2], &table()), answer(0, 0));
    raw.fill_rest();
    raw
}

/// Makes a call that must be refused, and compares every bit of record and columns.
fn refused(mut raw: Raw, number: u32, place: usize, call: impl FnOnce(&mut Raw) -> sys::Answer) {
    let before = raw.bits();
    assert_eq!(call(&mut raw), answer(number, place));
    assert_eq!(raw.bits(), before);
}

/// Makes a call that must be done, and looks for zeros past the counts.
fn done(mut raw: Raw, call: impl FnOnce(&mut Raw) -> sys::Answer) -> Raw {
    assert_eq!(call(&mut raw), answer(0, 0));
    assert!(raw.rest_is_zero());
    raw
}

#[test]
fn unknown_train_types() {
    for train_type in [7, 8, 256, u32::MAX] {
        let odd = sys::Train { train_type, ..train() };
        refused(Raw::room(10), 1, 0, |r| r.new_path(odd));
        refused(path(), 1, 0, |r| r.extend(odd, &[2], &table()));
        refused(path(), 1, 0, |r| r.recalc_speeds(odd, &table()));
    }
    for train_type in 0..7 {
        done(Raw::room(10), |r| r.new_path(sys::Train { train_type, ..train() }));
    }
}

/// A train that question 1 refuses, given to a path that was made for another.
#[test]
fn trains_that_are_not_finite() {
    for x in [f64::NAN, f64::INFINITY, f64::NEG_INFINITY] {
        let t = train();
        let numbers = [
            sys::Train { length: x, ..t },
            sys::Train { speed_max: x, ..t },
            sys::Train { towed_mass_static: x, ..t },
            sys::Train { mass_per_brake: x, ..t },
            sys::Train { curve_coeff_0: x, ..t },
            sys::Train { curve_coeff_1: x, ..t },
            sys::Train { curve_coeff_2: x, ..t },
        ];
        let others = [sys::Train { length: 0.0, ..t }, sys::Train { length: -1.0, ..t }, sys::Train { speed_max: -1.0, ..t }];
        for bad in numbers.into_iter().chain(others) {
            refused(Raw::room(10), 1, 0, |r| r.new_path(bad));
            refused(path(), 1, 0, |r| r.extend(bad, &[2], &table()));
            refused(path(), 1, 0, |r| r.recalc_speeds(bad, &table()));
        }
    }
}

#[test]
fn unknown_directions() {
    let list = [0.0, 0.5, 0.0, 100.0, 0.0, 50.0];
    let (col, len, n) = (list.as_ptr(), list.len(), 2);
    for dir in [3, 255, u32::MAX] {
        let found = unsafe { sys::mochaspit_calc_idx(col, len, n, 50.0, 0, dir) };
        assert_eq!((found.answer, found.idx), (answer(1, 0), 0));
        let (point, strap) = (sys::Point { idx: 5 }, sys::Strap { idx_front: 6, idx_back: 4 });
        let res = unsafe { sys::mochaspit_point_calc_res(point, col, len, n, state(), dir) };
        assert_eq!((res.answer, res.point, res.res.to_bits()), (answer(1, 0), point, 0));
        let res = unsafe { sys::mochaspit_strap_calc_res(strap, col, len, n, state(), dir) };
        assert_eq!((res.answer, res.strap, res.res.to_bits()), (answer(1, 0), strap, 0));
        refused_walks(strap, &list, n, dir, 1);
        refused_walks(strap, &[], 0, dir, 1);
    }
    for dir in 0..3 {
        let start = sys::Strap::default();
        let res = unsafe { sys::mochaspit_strap_calc_res(start, col, len, n, state(), dir) };
        assert_eq!((res.answer, res.strap, res.res), (answer(0, 0), start, 1.0));
    }
}

#[test]
fn a_count_that_the_column_does_not_hold() {
    let list = [0.0, 0.5, 0.0, 100.0, 0.0];
    for n in [2, 3, usize::MAX] {
        let found = unsafe { sys::mochaspit_calc_idx(list.as_ptr(), list.len(), n, 0.0, 0, 1) };
        assert_eq!((found.answer, found.idx), (answer(2, 0), 0));
    }
    let with_nan = [0.0, f64::NAN, 0.0];
    let found = unsafe { sys::mochaspit_calc_idx(with_nan.as_ptr(), 3, 9, 0.0, 0, 1) };
    assert_eq!(found.answer, answer(1, 0));
}

/// Walks over none, one and three positions that are refused with a number: place 0, the strap as it came, force +0.
fn refused_walks(strap: sys::Strap, list: &[f64], n: usize, dir: u32, number: u32) {
    for count in [0, 1, 3] {
        let end = unsafe { sys::mochaspit_strap_walk(strap, list.as_ptr(), list.len(), n, state(), dir, 1.0, count) };
        assert_eq!((end.answer, end.strap, end.res.to_bits()), (answer(number, 0), strap, 0));
    }
}

#[test]
fn walks_ask_questions_1_and_2() {
    let list = [0.0, 0.5, 0.0, 100.0, 0.0];
    let strap = sys::Strap { idx_front: 6, idx_back: 4 };
    for dir in 0..3 {
        for (list, n) in [(&list[..0], 0), (&list, 0), (&list, 2), (&list, 3), (&list, usize::MAX / 3 + 1), (&list, usize::MAX)] {
            refused_walks(strap, list, n, dir, 2);
        }
        refused_walks(strap, &[0.0, f64::NAN, 0.0, 100.0, 0.0, 50.0], 2, dir, 1);
        refused_walks(strap, &[0.0, f64::NAN, 0.0], 9, dir, 1);
        refused_walks(strap, &[f64::INFINITY, 0.5, 0.0, 100.0, 0.0, 50.0], 2, dir, 1);
    }
}

#[test]
fn walks_that_are_done() {
    let list = [0.0, 0.5, 0.0, 100.0, 0.0, 50.0];
    let (col, len, start) = (list.as_ptr(), list.len(), sys::Strap::default());
    for (dir, count) in [(0, 1), (0, 3), (1, 1), (1, 40), (2, 1), (2, 40)] {
        let end = unsafe { sys::mochaspit_strap_walk(start, col, len, 2, state(), dir, 1.0, count) };
        assert_eq!((end.answer, end.strap, end.res), (answer(0, 0), start, 1.0));
    }
    let strap = sys::Strap { idx_front: 6, idx_back: 4 };
    let none = unsafe { sys::mochaspit_strap_walk(strap, col, len, 2, state(), 1, 1.0, 0) };
    assert_eq!((none.answer, none.strap, none.res.to_bits()), (answer(0, 0), strap, 0));
    // 60 + 41 is past the last record
    let past = unsafe { sys::mochaspit_strap_walk(start, col, len, 2, state(), 1, 1.0, 42) };
    assert_eq!((past.answer, past.strap, past.res.to_bits()), (answer(10, 0), start, 0));
}

#[test]
fn done_calls_leave_zeros_past_the_counts() {
    done(Raw::room(10), |r| r.new_path(train()));
    done(Raw::start(train()), |r| r.extend(train(), &[1, 2], &table()));
    done(Raw::start(train()), |r| r.extend(train(), &[], &table()));
    done(path(), |r| r.clear(50.0).0);
    let kept = done(path(), |r| r.clear(120.0).0);
    assert_eq!(kept.points(), [(100.0, 20.0), (200.0, 30.0)]);
    done(path(), |r| r.finish());
    done(path(), |r| r.recalc_speeds(train(), &table()));
    let renamed = done(path(), |r| r.reindex(&[0, 4, 5]));
    assert_eq!(renamed.numbers[..12], [1, 1, 0, 4, 1, 1, 0, 5, 0, 0, 0, 5]);
}

#[test]
fn refused_calls_leave_every_bit() {
    let mut odd = path();
    odd.speeds[19] = f64::from_bits(0xfff4_0000_dead_beef);
    odd.grades[29] = f64::from_bits(0x7ff0_0000_0000_0001);
    odd.offsets[9] = -0.0;
    refused(Raw::room(0), 9, 0, |r| r.new_path(train()));
    refused(Raw::room(10), 1, 0, |r| r.new_path(sys::Train { length: f64::NAN, ..train() }));
    refused(odd.clone(), 4, 1, |r| r.extend(train(), &[2, 3], &table()));
    refused(odd.clone(), 5, 0, |r| r.extend(train(), &[1], &table()));
    refused(odd.clone(), 1, 0, |r| r.clear(f64::NEG_INFINITY).0);
    refused(odd.clone(), 10, 0, |r| r.clear(251.0).0);
    refused(odd.clone(), 4, 0, |r| r.reindex(&[]));
    refused(odd.clone(), 4, 1, |r| r.recalc_speeds(train(), &Table::of(&[100.0], &[])));
    let mut full = odd.clone();
    full.grades.truncate(9);
    refused(full, 9, 0, |r| r.finish());
    odd.finish();
    refused(odd, 3, 0, |r| r.finish());
}

/// Paths that do not hold together, by one number each.
fn unsound() -> Vec<Raw> {
    let with = |change: fn(&mut Raw)| {
        let mut raw = path();
        change(&mut raw);
        raw
    };
    vec![
        with(|r| r.path.link_count = 0),
        with(|r| r.path.link_count = usize::MAX),
        with(|r| r.path.grade_count = usize::MAX),
        with(|r| r.path.curve_count = 2),
        with(|r| r.path.speed_count = 0),
        with(|r| r.path.speed_count = 11),
        with(|r| r.path.power_count = 1),
        with(|r| r.path.is_finished = true),
        with(|r| r.offsets[1] = 0.0),
        with(|r| r.numbers[0] = u32::MAX),
        with(|r| r.numbers[3] = 0),
        with(|r| r.numbers[11] = 1),
        with(|r| r.grades[3] = 99.0),
        with(|r| r.curves[6] = 251.0),
        with(|r| r.speeds[0] = -1.0),
        with(|r| r.speeds[4] = 49.0),
        with(|r| r.numbers.truncate(11)),
        with(|r| r.speeds.truncate(5)),
    ]
}

#[test]
fn paths_that_do_not_hold_together() {
    let state = sys::TrainState { offset: 60.0, offset_back: 10.0, length: 50.0, link_idx_front: 8, offset_in_link: 3.0, ..Default::default() };
    for raw in unsound() {
        refused(raw.clone(), 2, 0, |r| r.extend(train(), &[2], &table()));
        refused(raw.clone(), 2, 0, |r| r.clear(120.0).0);
        refused(raw.clone(), 2, 0, |r| r.finish());
        refused(raw.clone(), 2, 0, |r| r.recalc_speeds(train(), &table()));
        refused(raw.clone(), 2, 0, |r| r.reindex(&[0, 4, 5]));
        refused(raw.clone(), 2, 0, |r| r.link_grades(0).answer);
        refused(raw.clone(), 2, 0, |r| r.link_curves(0).answer);
        refused(raw.clone(), 2, 0, |r| r.posted_speed(60.0).answer);
        refused(raw.clone(), 1, 0, |r| r.posted_speed(f64::NAN).answer);
        let found = raw.clone().locate(state);
        assert_eq!((found.answer, found.state.link_idx_front, found.state.offset_in_link), (answer(2, 0), 8, 3.0));
    }
}

#[test]
fn paths_with_numbers_that_are_not_finite() {
    for x in [f64::NAN, f64::INFINITY, f64::NEG_INFINITY] {
        for i in 0..6 {
            let mut raw = path();
            match i {
                0 => raw.offsets[2] = x,
                1 => raw.grades[6] = x,
                2 => raw.curves[8] = x,
                3 => raw.speeds[5] = x,
                4 => (raw.path.power_count, raw.powers[2]) = (1, x),
                _ => raw.grades[4] = x,
            }
            refused(raw.clone(), 1, 0, |r| r.posted_speed(60.0).answer);
            refused(raw, 1, 0, |r| r.finish());
        }
    }
}

#[test]
fn ranges_of_a_link() {
    let mut raw = path();
    let found = raw.link_grades(1);
    assert_eq!((found.answer, found.range), (answer(0, 0), sys::Range { from: 3, len: 3 }));
    let found = raw.link_curves(0);
    assert_eq!((found.answer, found.range), (answer(0, 0), sys::Range { from: 0, len: 3 }));
    let found = raw.link_curves(2);
    assert_eq!((found.answer, found.range), (answer(10, 0), sys::Range::default()));
}

#[test]
fn speeds_at_an_offset() {
    let points = [(0.0, 30.0), (5.0, 10.0), (5.0, 25.0), (50.0, 20.0), (200.0, -15.0), (250.0, 30.0), (300.0, -0.0)];
    for n in 1..=points.len() {
        let mut raw = path().with_speeds(&points[..n]);
        for x in [-0.0, 4.9, 5.0, 5.1, 49.9, 50.0, 199.9, 200.0, 249.9, 250.0, 251.0, 300.0, 1e308] {
            let behind = points[..n].iter().rfind(|p| p.0 <= x).unwrap().1;
            let found = raw.posted_speed(x);
            assert_eq!((found.answer, found.speed.to_bits()), (answer(0, 0), behind.to_bits()), "{n} points, at {x}");
        }
        for (x, number) in [(f64::NAN, 1), (f64::INFINITY, 1), (f64::NEG_INFINITY, 1), (-0.1, 10), (-1e308, 10)] {
            let found = raw.posted_speed(x);
            assert_eq!((found.answer, found.speed.to_bits()), (answer(number, 0), 0), "at {x}");
        }
    }
    let fell = path().with_speeds(&[(0.0, 30.0), (50.0, 20.0), (49.0, 10.0)]);
    refused(fell, 2, 0, |r| r.posted_speed(60.0).answer);
}

#[test]
fn tables_with_one_wrong_number() {
    let with = |change: fn(&mut Table)| {
        let mut t = table();
        t.codes.extend([3, 1]);
        t.values.push(0.0);
        t.sets[48 + 3] = 1;
        change(&mut t);
        t
    };
    refused(Raw::start(train()), 4, 1, |r| r.extend(train(), &[1, 2], &with(|t| t.lengths.truncate(2))));
    refused(Raw::start(train()), 4, 1, |r| r.extend(train(), &[1, 2], &with(|t| t.sets.truncate(143))));
    refused(Raw::start(train()), 4, 1, |r| r.extend(train(), &[1, 2], &with(|t| t.links.truncate(32))));
    let wrong: [fn(&mut Table); 8] = [
        |t| t.links[11] = 3,
        |t| t.links[11 + 6] = u32::MAX,
        |t| t.links[11 + 9] = 1,
        |t| t.sets[48] = 2,
        |t| t.sets[48 + 1] = 2,
        |t| t.sets[48 + 4] = 1,
        |t| t.codes[0] = 1,
        |t| t.codes[1] = 6,
    ];
    for change in wrong {
        refused(Raw::start(train()), 6, 0, |r| r.extend(train(), &[1], &with(change)));
    }
    done(Raw::start(train()), |r| r.extend(train(), &[1], &with(|_| ())));
}
