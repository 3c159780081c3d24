//! Resistance at the train's middle and over its length, on lists of records and on a path's grades.

mod common;

use common::{link, no, path_of};
use mochaspit::{Coeff, Dir, Elevation, Link, LinkIdx, LinkTable, Point, Position, Records, Refusal, Strap};

/// Coefficient 0.01 from 0, 0.02 from 100, 0 from 250.
fn hill() -> Records<'static> {
    let coeff = |offset, res_coeff, res_net| Coeff { offset, res_coeff, res_net };
    Records::from(vec![coeff(0.0, 0.01, 0.0), coeff(100.0, 0.02, 1.0), coeff(250.0, 0.0, 4.0)])
}

/// A train of 50 m and 1 MN with its front at an offset.
fn at(offset: f64) -> Position {
    Position { offset, offset_back: offset - 50.0, length: 50.0, weight_static: 1e6, ..Position::default() }
}

#[test]
fn a_point_follows_the_middle() {
    let mut point = Point::new(&hill(), &at(120.0)).unwrap();
    assert_eq!(point, Point { idx: 0 });
    assert_eq!(point.calc_res(&hill(), &at(120.0), Dir::Fwd), Ok(0.01 * 1e6));
    assert_eq!(point.calc_res(&hill(), &at(130.0), Dir::Fwd), Ok(0.02 * 1e6));
    assert_eq!((point.idx, point.path_tpc_idx_front()), (1, 1));
    assert_eq!(point.res_coeff_front(&hill()), Ok(0.02));
    assert_eq!(point.res_net_front(&hill(), &at(130.0)), Ok(1.0 + 0.02 * 30.0));
    assert_eq!(point.calc_res(&hill(), &at(60.0), Dir::Fwd), Ok(0.02 * 1e6));
    assert_eq!(point.calc_res(&hill(), &at(60.0), Dir::Bwd), Ok(0.01 * 1e6));
    assert_eq!(point.fix_cache(0), Ok(()));
    assert_eq!(point, Point { idx: 0 });
}

#[test]
fn a_refused_point_stays() {
    let mut point = Point { idx: 1 };
    assert_eq!(point.calc_res(&hill(), &at(276.0), Dir::Fwd), no(10, 0));
    assert_eq!(point.calc_res(&hill(), &at(20.0), Dir::Bwd), no(10, 0));
    assert_eq!(point.calc_res(&hill(), &Position { weight_static: f64::NAN, ..at(130.0) }, Dir::Fwd), no(1, 0));
    assert_eq!(point.calc_res(&hill(), &Position { weight_static: 1e308, ..at(130.0) }, Dir::Fwd), Ok(0.02 * 1e308));
    assert_eq!(point, Point { idx: 1 });
    let single = Records::from(vec![Coeff::default()]);
    assert_eq!(Point::new(&single, &at(25.0)), no(11, 0));
    assert_eq!(Strap::new(&single, &at(25.0)), Ok(Strap { idx_front: 0, idx_back: 0 }));
    let low = Position { offset: -1.7e308, length: 1.7e308, ..at(0.0) };
    assert_eq!(Point::new(&single, &low), no(8, 0));
}

#[test]
fn a_strap_follows_front_and_back() {
    let mut strap = Strap::new(&hill(), &at(120.0)).unwrap();
    assert_eq!(strap, Strap { idx_front: 1, idx_back: 0 });
    let (front, back): (f64, f64) = (1.0 + 0.02 * 20.0, 0.01 * 70.0);
    assert_eq!(strap.calc_res(&hill(), &at(120.0), Dir::Fwd), Ok((front - back) / 50.0 * 1e6));
    assert_eq!((strap.res_coeff_front(&hill()), strap.res_coeff_back(&hill())), (Ok(0.02), Ok(0.01)));
    assert_eq!(strap.res_net_front(&hill(), &at(120.0)), Ok(front));
    assert_eq!(strap.res_net_back(&hill(), &at(120.0)), Ok(back));
    assert_eq!(strap.path_tpc_idx_front(), 1);
    assert_eq!(strap.fix_cache(1), no(11, 0));
    assert_eq!(strap.calc_res(&hill(), &at(200.0), Dir::Unk), Ok(0.02 * 1e6));
    assert_eq!(strap, Strap { idx_front: 1, idx_back: 1 });
    assert_eq!(strap.calc_res(&hill(), &at(90.0), Dir::Bwd), Ok(0.01 * 1e6));
    assert_eq!(strap, Strap { idx_front: 0, idx_back: 0 });
}

#[test]
fn a_refused_strap_stays() {
    let start = Strap { idx_front: 1, idx_back: 0 };
    let mut strap = start;
    assert_eq!(strap.calc_res(&hill(), &at(251.0), Dir::Fwd), no(10, 0));
    assert_eq!(strap.calc_res(&hill(), &at(20.0), Dir::Bwd), no(10, 0));
    assert_eq!(strap.calc_res(&hill(), &Position { offset_back: f64::INFINITY, ..at(120.0) }, Dir::Unk), no(1, 0));
    assert_eq!(strap.calc_res(&hill(), &Position { weight_static: f64::MAX, length: 1e-9, ..at(120.0) }, Dir::Fwd), no(8, 0));
    assert_eq!(strap, start);
    let mut wild = Strap { idx_front: 0, idx_back: usize::MAX };
    assert_eq!(wild.calc_res(&hill(), &at(120.0), Dir::Fwd), no(11, 0));
    assert_eq!(wild.res_coeff_back(&hill()), no(11, 0));
    assert_eq!(wild.res_net_back(&hill(), &at(120.0)), no(11, 0));
    assert_eq!(wild, Strap { idx_front: 0, idx_back: usize::MAX });
}

/// Positions inside the list, at its ends and outside, and with numbers that are refused.
fn positions() -> Vec<Position> {
    let mut list: Vec<_> = (-20..=320).map(|x| at(f64::from(x))).collect();
    let good = at(120.0);
    for x in [f64::NAN, f64::INFINITY, f64::NEG_INFINITY, f64::MAX, f64::MIN] {
        list.push(Position { offset: x, ..good });
        list.push(Position { offset_back: x, ..good });
        list.push(Position { length: x, ..good });
        list.push(Position { weight_static: x, ..good });
        list.push(Position { offset_in_link: x, ..good });
    }
    list.push(Position { length: 0.0, ..good });
    list.push(Position { length: -0.0, ..good });
    list
}

/// A walk by single calls, front and back of each position by their sums: the strap is moved once every one is done.
fn one_by_one(strap: &mut Strap, records: &Records, mut at: Position, dir: Dir, step: f64, count: usize) -> Result<f64, Refusal> {
    let (mut moved, mut force) = (*strap, 0.0);
    for k in 0..count {
        if k > 0 {
            at.offset += step;
            at.offset_back += step;
            if !(at.offset.is_finite() && at.offset_back.is_finite()) {
                return no(8, 0);
            }
        }
        force = moved.calc_res(records, &at, dir)?;
    }
    *strap = moved;
    Ok(force)
}

#[test]
fn a_walk_answers_as_the_single_calls() {
    let hill = hill();
    let single = Records::from(vec![Coeff { res_coeff: 0.5, ..Coeff::default() }]);
    let steps = [(7.5, 1), (7.5, 2), (-15.0, 3), (30.0, 4), (0.0, 3), (f64::MAX, 2), (f64::MIN, 3)];
    for (records, position) in [&hill, &single].into_iter().flat_map(|records| positions().into_iter().map(move |p| (records, p))) {
        for (dir, i) in [Dir::Unk, Dir::Fwd, Dir::Bwd].into_iter().flat_map(|dir| (0..16).map(move |i| (dir, i))) {
            for (step, count) in steps {
                let mut a = Strap { idx_front: i / 4, idx_back: i % 4 };
                let mut b = a;
                assert_eq!(a.walk(records, &position, dir, step, count), one_by_one(&mut b, records, position, dir, step, count));
                assert_eq!(a, b);
            }
        }
    }
}

#[test]
fn a_walk_is_done_whole_or_not_at_all() {
    let start = Strap::default();
    let (mut strap, hill) = (start, hill());
    for count in [5, 9, 1000] {
        // 120, 160, 200, 240 and 280: the fifth is past the last record
        assert_eq!(strap.walk(&hill, &at(120.0), Dir::Fwd, 40.0, count), no(10, 0));
        assert_eq!(strap, start);
    }
    assert_eq!(strap.walk(&hill, &at(251.0), Dir::Fwd, 40.0, 3), no(10, 0));
    assert_eq!(strap, start);
    assert_eq!(strap.walk(&hill, &at(120.0), Dir::Fwd, 40.0, 4), Ok(0.02 * 1e6));
    assert_eq!(strap, Strap { idx_front: 1, idx_back: 1 });
    let mut wild = Strap { idx_front: 0, idx_back: usize::MAX };
    assert_eq!(wild.walk(&hill, &at(120.0), Dir::Fwd, 40.0, 3), no(11, 0));
    assert_eq!(wild.walk(&hill, &at(120.0), Dir::Fwd, 40.0, 0), Ok(0.0));
    assert_eq!(wild, Strap { idx_front: 0, idx_back: usize::MAX });
}

#[test]
fn a_walk_asks_list_position_and_step_once() {
    let start = Strap { idx_front: 1, idx_back: 0 };
    let (mut strap, hill) = (start, hill());
    let broken = Records::from(vec![Coeff { res_net: f64::NAN, ..Coeff::default() }]);
    for count in [0, 1, 3] {
        for step in [f64::NAN, f64::INFINITY, f64::NEG_INFINITY] {
            assert_eq!(strap.walk(&hill, &at(120.0), Dir::Fwd, step, count), no(1, 0));
            assert_eq!(strap.walk(&Records::default(), &at(120.0), Dir::Fwd, step, count), no(1, 0));
        }
        assert_eq!(strap.walk(&hill, &at(f64::NAN), Dir::Fwd, 1.0, count), no(1, 0));
        assert_eq!(strap.walk(&hill, &Position { length: 0.0, ..at(120.0) }, Dir::Fwd, 1.0, count), no(1, 0));
        assert_eq!(strap.walk(&broken, &at(120.0), Dir::Fwd, 1.0, count), no(1, 0));
        assert_eq!(strap.walk(&Records::default(), &at(120.0), Dir::Fwd, 1.0, count), no(2, 0));
    }
    assert_eq!(strap, start);
}

/// The sums of a step that is made, and not of one that is not.
#[test]
fn a_step_that_overflows() {
    let coeff = |offset| Coeff { offset, res_coeff: 0.5, res_net: 0.0 };
    let wide = Records::from(vec![coeff(f64::MIN), coeff(0.0), coeff(f64::INFINITY)]);
    let (ahead, behind) = (at(1e308), Position { offset: -1e307, offset_back: -1e308, ..at(0.0) });
    for (position, dir, step, i) in [(ahead, Dir::Fwd, 1e308, 1), (behind, Dir::Bwd, -1e308, 0)] {
        let start = Strap { idx_front: i, idx_back: i };
        let mut strap = start;
        assert_eq!(strap.walk(&wide, &position, dir, step, 1), Ok(0.5 * 1e6));
        assert_eq!(strap.walk(&wide, &position, dir, step, 2), no(8, 0));
        assert_eq!(strap.walk(&wide, &position, dir, step * 0.3, 3), Ok(0.5 * 1e6));
        assert_eq!(strap.walk(&wide, &position, dir, step * 0.3, 4), no(8, 0));
        assert_eq!(strap, start);
    }
}

/// The indices fall by the count of grades that `clear` dropped, and the force stays.
#[test]
fn a_strap_on_a_path_that_drops_a_link() {
    let rise = |list: [(f64, f64); 2]| list.map(|(offset, elevation)| Elevation { offset, elevation }).to_vec();
    let first = Link { elevations: rise([(0.0, 10.0), (100.0, 11.0)]), ..link(100.0, 0, &[]) };
    let second = Link { elevations: rise([(0.0, 11.0), (150.0, 14.0)]), prev: LinkIdx(1), ..link(150.0, 1, &[]) };
    let mut path = path_of(&LinkTable::from_iter([&first, &second]), &[1, 2]);
    path.finish().unwrap();
    let mut strap = Strap::new(&Records::from(path.grades()), &at(200.0)).unwrap();
    assert_eq!(strap, Strap { idx_front: 1, idx_back: 1 });
    let force = strap.calc_res(&Records::from(path.grades()), &at(200.0), Dir::Fwd).unwrap();
    assert_eq!(force, 3.0 / 150.0 * 1e6);
    let dropped = path.clear(150.0).unwrap();
    strap.fix_cache(dropped.grades).unwrap();
    assert_eq!(strap, Strap { idx_front: 0, idx_back: 0 });
    assert_eq!(strap.calc_res(&Records::from(path.grades()), &at(200.0), Dir::Fwd), Ok(force));
    assert_eq!(Records::from(path.curves()).calc_idx(1e9, 0, Dir::Fwd), Ok(1));
}
