//! Random runs: after every extension and every drop the posted speed is the top speed and each limit that covers the offset, taken together.

mod common;

use common::{idxs, link, train};
use mochaspit::{Link, LinkIdx, LinkTable, Path, SpeedSets};

/// A small generator of numbers below a bound.
struct Dice(u64);

impl Dice {
    fn below(&mut self, n: u64) -> u64 {
        self.0 ^= self.0 << 13;
        self.0 ^= self.0 >> 7;
        self.0 ^= self.0 << 17;
        self.0 % n
    }

    fn metres(&mut self, n: u64) -> f64 {
        self.below(n) as f64
    }
}

/// A limit laid on the path: from start up to, but not at, end.
#[derive(Clone, Copy)]
struct Laid {
    start: f64,
    end: f64,
    speed: f64,
}

/// Three links in a ring, each with up to three limits.
fn ring(dice: &mut Dice) -> Vec<Link> {
    let mut links = Vec::new();
    for prev in [3, 1, 2] {
        let mut limits = Vec::new();
        for _ in 0..dice.below(4) {
            let start = dice.metres(12);
            let sign = if dice.below(5) == 0 { -1.0 } else { 1.0 };
            limits.push((start, start + dice.metres(30), sign * dice.metres(40)));
        }
        let mut link = link(5.0 + dice.metres(20), prev, &limits);
        if let SpeedSets::Single(set) = &mut link.speed_sets {
            set.head_end = dice.below(2) == 0;
        }
        links.push(link);
    }
    links
}

/// The limits that a link lays where it begins at base.
fn laid(link: &Link, base: f64) -> Vec<Laid> {
    let SpeedSets::Single(set) = &link.speed_sets else { return Vec::new() };
    let tail = if set.head_end { 0.0 } else { train().length };
    set.limits.iter().map(|l| Laid { start: l.start + base, end: l.end + base + tail, speed: l.speed }).collect()
}

/// The smaller of two speeds; with a sign on either, minus the smaller size.
fn min_speed(a: f64, b: f64) -> f64 {
    if a.is_sign_positive() && b.is_sign_positive() {
        a.min(b)
    } else {
        -a.abs().min(b.abs())
    }
}

/// The posted speed is the top speed and all limits below it that cover the offset, taken together, as a number.
fn check(path: &Path, book: &[Laid]) {
    let points: Vec<_> = path.link_points().collect();
    let (first, last) = (points[0].offset, points[points.len() - 1].offset);
    let top = train().speed_max;
    let mut x = first;
    while x < last + 2.0 * train().length {
        let covering = book.iter().filter(|l| l.speed < top && l.start <= x && x < l.end);
        let wanted = covering.fold(top, |u, l| min_speed(u, l.speed));
        assert_eq!(path.posted_speed(x), Ok(wanted), "at {x}");
        x += 0.5;
    }
}

/// One run: links joined one by one, and the path cut now and then.
fn run(dice: &mut Dice) {
    let links = ring(dice);
    let table = LinkTable::from_iter(&links);
    let mut path = Path::new(&train()).unwrap();
    let mut book = Vec::new();
    for i in 0..12 {
        let base = path.link_points().last().unwrap().offset;
        book.extend(laid(&links[i % 3], base));
        path.extend(&table, &idxs(&[i as u32 % 3 + 1])).unwrap();
        check(&path, &book);
        if dice.below(3) == 0 {
            let (first, end) = (path.link_points().next().unwrap().offset, path.link_points().last().unwrap().offset);
            let before = path.link_points().len();
            let dropped = path.clear(first + dice.metres((end - first) as u64 + 1)).unwrap();
            assert_eq!((dropped.links, dropped.grades), (before - path.link_points().len(), dropped.links));
            check(&path, &book);
        }
    }
    let ring: Vec<_> = path.link_points().map(|p| p.link).collect();
    assert!(ring.iter().all(|&l| l != LinkIdx(0)));
}

#[test]
fn posted_speeds_keep_to_the_limits() {
    let mut dice = Dice(0x9e37_79b9_7f4a_7c15);
    for _ in 0..300 {
        run(&mut dice);
    }
}
