//! Resistance taken at the train's middle.

use crate::position::Position;
use crate::records::{column, Records};
use crate::refusal::{judged, Refusal};
use crate::sys;
use crate::train::Dir;

/// The record that the train's middle is in. A refused call leaves it as it was.
#[derive(Clone, Copy, Debug, Default, PartialEq, Eq, Hash)]
pub struct Point {
    pub idx: usize,
}

impl Point {
    /// The record of the train's middle, searched forwards from 0. Refused with 1, 2, 8, 10 and 11; 11 for a list of one record.
    pub fn new(records: &Records, position: &Position) -> Result<Point, Refusal> {
        let (col, len, n) = column(records);
        // Safety: `column` gives a pointer with its own length, and `records` is borrowed; the same for every call below.
        let found = unsafe { sys::mochaspit_point_new(col, len, n, position.record()) };
        point_of(found)
    }

    /// Moves to the middle's record and answers the force on the train in newtons. Refused with 1, 2, 8, 10 and 11.
    pub fn calc_res(&mut self, records: &Records, position: &Position, dir: Dir) -> Result<f64, Refusal> {
        let (col, len, n) = column(records);
        let found = unsafe { sys::mochaspit_point_calc_res(self.record(), col, len, n, position.record(), dir as u32) };
        *self = point_of(sys::PointAnswer { answer: found.answer, point: found.point })?;
        Ok(found.res)
    }

    /// The coefficient of its record. Refused with 1, 2 and 11.
    pub fn res_coeff_front(&self, records: &Records) -> Result<f64, Refusal> {
        let (col, len, n) = column(records);
        let found = unsafe { sys::mochaspit_point_res_coeff_front(self.record(), col, len, n) };
        judged(found.answer)?;
        Ok(found.res_coeff)
    }

    /// The net value at the train's front by its record. Refused with 1, 2, 11 and 8.
    pub fn res_net_front(&self, records: &Records, position: &Position) -> Result<f64, Refusal> {
        let (col, len, n) = column(records);
        let found = unsafe { sys::mochaspit_point_res_net_front(self.record(), col, len, n, position.record()) };
        judged(found.answer)?;
        Ok(found.res_net)
    }

    /// Its index.
    pub fn path_tpc_idx_front(&self) -> usize {
        // Safety: the call takes a number and no pointer.
        unsafe { sys::mochaspit_point_path_tpc_idx_front(self.record()) }
    }

    /// Takes off so many records dropped at the list's beginning. Refused with 11 if they are more than lie before it.
    pub fn fix_cache(&mut self, dropped: usize) -> Result<(), Refusal> {
        // Safety: the call takes numbers and no pointer.
        let fixed = unsafe { sys::mochaspit_point_fix_cache(self.record(), dropped) };
        *self = point_of(fixed)?;
        Ok(())
    }

    fn record(&self) -> sys::Point {
        sys::Point { idx: self.idx }
    }
}

/// The point of an answer that is done.
fn point_of(found: sys::PointAnswer) -> Result<Point, Refusal> {
    judged(found.answer)?;
    Ok(Point { idx: found.point.idx })
}
