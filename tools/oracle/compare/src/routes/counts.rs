//! What a run of routes has seen.

/// Of one route, or of all.
#[derive(Clone, Debug, Default)]
pub struct Counts {
    pub routes: u64,
    /// calls held to the questions: done, and refused by each
    pub done: u64,
    pub refused: [u64; 13],
    /// posted speeds held to the smallest of what holds
    pub posted: u64,
    /// trims that are done, and those that drop a link
    pub clears: u64,
    pub dropped: u64,
    /// of these: the original stops, or has stopped before
    pub stops: u64,
    pub stopped: u64,
    /// the original posts higher and so loses a limit, posts lower, posts the same size with another sign
    pub lost: u64,
    pub lower: u64,
    pub sign: u64,
    /// both post the same
    pub same: u64,
    /// most links of a path, speed points, and speed points of the original's own path
    pub most: [usize; 3],
    /// calls behind which the original has more speed points
    pub more: u64,
}

impl Counts {
    /// One drop: what is posted here, and by the original.
    pub fn compared(&mut self, here: f64, its: f64) {
        let field = if its.abs() > here.abs() {
            &mut self.lost
        } else if its.abs() < here.abs() {
            &mut self.lower
        } else if its != here {
            &mut self.sign
        } else {
            &mut self.same
        };
        *field += 1;
    }
    /// A path of so many links and points.
    pub fn long(&mut self, n: [usize; 3]) {
        (0..3).for_each(|k| self.most[k] = self.most[k].max(n[k]));
    }
    fn fields(&mut self) -> [&mut u64; 12] {
        [
            &mut self.routes,
            &mut self.done,
            &mut self.posted,
            &mut self.clears,
            &mut self.dropped,
            &mut self.stops,
            &mut self.stopped,
            &mut self.lost,
            &mut self.lower,
            &mut self.sign,
            &mut self.same,
            &mut self.more,
        ]
    }
    pub fn add(&mut self, other: &Counts) {
        let mut other = other.clone();
        for (a, b) in self.fields().into_iter().zip(other.fields()) {
            *a += *b;
        }
        self.long(other.most);
        (0..13).for_each(|k| self.refused[k] += other.refused[k]);
    }
    pub fn print(&self) {
        println!("routes {}, calls done {}, posted speeds among them {}", self.routes, self.done, self.posted);
        let refused = self.refused.iter().enumerate().filter(|x| *x.1 > 0);
        println!("refused by question{}", refused.map(|(k, n)| format!(" {k}: {n}")).collect::<Vec<_>>().join(","));
        let [links, points, its] = self.most;
        println!("longest path: {links} links, {points} speed points, {its} in the original, which has more behind {} calls", self.more);
        println!("clears done {}, of these with links dropped {}", self.clears, self.dropped);
        let differ = self.lost + self.lower + self.sign;
        println!("  the same posted at the new beginning {}, another speed {differ}", self.same);
        println!("    the original loses a limit {}, posts lower {}, the same size with another sign {}", self.lost, self.lower, self.sign);
        println!("  the original stops {}, had stopped at an earlier drop {}", self.stops, self.stopped);
    }
}
