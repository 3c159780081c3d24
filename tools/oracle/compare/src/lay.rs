//! The limits of a call laid one by one, stated independently of the port's code: by the original's `insert_speed`, save where R23 says otherwise.
use crate::calls::Call;
use crate::original;
use altrios_core::si;
use altrios_core::track::speed_point::InsertSpeed;
use altrios_core::track::*;
use altrios_core::uc;
use mochaspit::sys::Train;

/// The speed points with the limits laid so far, and how many these are.
pub struct Laid {
    pub points: Vec<SpeedLimitPoint>,
    pub limits: u64,
    /// those strictly between two neighbouring points, and how many of these have no length
    pub between: u64,
    pub no_length: u64,
}

/// The index of the second of the two neighbouring points that a limit lies strictly between.
fn between(points: &[SpeedLimitPoint], l: &SpeedLimit) -> Option<usize> {
    let (s, e) = (l.offset_start, l.offset_end);
    let around = |w: &[SpeedLimitPoint]| w[0].offset < s && s <= e && e < w[1].offset;
    Some(points.windows(2).position(around)? + 1)
}

impl Laid {
    fn on(points: Vec<SpeedLimitPoint>) -> Laid {
        Laid { points, limits: 0, between: 0, no_length: 0 }
    }
    /// R23: strictly between two neighbouring points (s, m(u)) and (e, u) go in, u being the speed of the first, where s < e and m(u) is not u.
    fn limit(&mut self, l: &SpeedLimit) {
        self.limits += 1;
        let Some(k) = between(&self.points, l) else {
            return self.points.insert_speed(l);
        };
        let (s, e, u) = (l.offset_start, l.offset_end, self.points[k - 1].speed_limit);
        let m = min_speed(u, l.speed);
        self.between += 1;
        self.no_length += (s == e) as u64;
        if s < e && m != u {
            let two = [(s, m), (e, u)].map(|(offset, speed_limit)| SpeedLimitPoint { offset, speed_limit });
            self.points.splice(k..k, two);
        }
    }
    /// The limits of a link's set that the original lays where the link begins at base, as its `add_speeds` places them.
    fn link(&mut self, link: &Link, base: si::Length, t: &TrainParams) {
        let own = link.speed_set.as_ref().or_else(|| link.speed_sets.get(&t.train_type));
        let Some(set) = own.filter(|s| t.speed_set_applies(s)) else { return };
        let tail = if set.is_head_end { 0.0 * uc::M } else { t.length };
        for l in set.speed_limits.iter().filter(|l| l.speed < t.speed_max) {
            self.limit(&SpeedLimit { offset_start: l.offset_start + base, offset_end: l.offset_end + base + tail, speed: l.speed });
        }
    }
    /// The points, two numbers each.
    pub fn numbers(&self) -> Vec<f64> {
        self.points.iter().flat_map(|p| [p.offset.value, p.speed_limit.value]).collect()
    }
    /// Whether the points are the given ones, as bits.
    pub fn are(&self, others: &[SpeedLimitPoint]) -> bool {
        let bits = |p: &SpeedLimitPoint| (p.offset.value.to_bits(), p.speed_limit.value.to_bits());
        self.points.iter().map(bits).eq(others.iter().map(bits))
    }
}

/// What a done call lays on the original's path as it was before; none where it is a call that lays no limit.
pub fn laid(call: &Call, before: &PathTpc, t: &Train, net: &[Link]) -> Option<Laid> {
    let (t, links) = (original::train(t), before.link_points());
    match call {
        Call::Extend(list) => {
            let mut laid = Laid::on(before.speed_points().to_vec());
            let mut base = before.offset_end();
            for &n in list {
                let link = &net[n as usize];
                laid.link(link, base, &t);
                base = link.length + base;
            }
            Some(laid)
        }
        Call::Recalc => {
            let mut laid = Laid::on(vec![SpeedLimitPoint { offset: before.offset_begin(), speed_limit: t.speed_max }]);
            links[..links.len() - 1].iter().for_each(|p| laid.link(&net[p.link_idx.idx()], p.offset, &t));
            Some(laid)
        }
        _ => None,
    }
}
