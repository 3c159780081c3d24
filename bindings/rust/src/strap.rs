//! Resistance taken over the train's length.

use crate::position::Position;
use crate::records::{column, Records};
use crate::refusal::{judged, Refusal};
use crate::sys;
use crate::train::Dir;

/// The records that the train's front and back are in. A refused call leaves both as they were.
#[derive(Clone, Copy, Debug, Default, PartialEq, Eq, Hash)]
pub struct Strap {
    pub idx_front: usize,
    pub idx_back: usize,
}

impl Strap {
    /// The records of back (front less length) and front, searched forwards; 0 and 0 for one record. Refused with 1, 2, 8, 10 and 11.
    pub fn new(records: &Records, position: &Position) -> Result<Strap, Refusal> {
        let (col, len, n) = column(records);
        // Safety: `column` gives a pointer with its own length, and `records` is borrowed; the same for every call below.
        let found = unsafe { sys::mochaspit_strap_new(col, len, n, position.record()) };
        strap_of(found)
    }

    /// Moves to the records of front and back and answers the force on the train in newtons. Refused with 1, 2, 10, 11 and 8.
    pub fn calc_res(&mut self, records: &Records, position: &Position, dir: Dir) -> Result<f64, Refusal> {
        let (col, len, n) = column(records);
        let found = unsafe { sys::mochaspit_strap_calc_res(self.record(), col, len, n, position.record(), dir as u32) };
        res_of(found, self)
    }

    /// [`Strap::calc_res`] at `count` positions, the first at `position` and front and back of each `step` metres further, all or
    /// nothing: the force at the last, and 0 for no position. Refused with 1 and 2, and then at the first position that is refused with
    /// 10, 11 or 8.
    pub fn walk(&mut self, records: &Records, position: &Position, dir: Dir, step: f64, count: usize) -> Result<f64, Refusal> {
        let (col, len, n) = column(records);
        let found = unsafe { sys::mochaspit_strap_walk(self.record(), col, len, n, position.record(), dir as u32, step, count) };
        res_of(found, self)
    }

    /// The coefficient of the front's record. Refused with 1, 2 and 11.
    pub fn res_coeff_front(&self, records: &Records) -> Result<f64, Refusal> {
        let (col, len, n) = column(records);
        coeff_of(unsafe { sys::mochaspit_strap_res_coeff_front(self.record(), col, len, n) })
    }

    /// The coefficient of the back's record. Refused with 1, 2 and 11.
    pub fn res_coeff_back(&self, records: &Records) -> Result<f64, Refusal> {
        let (col, len, n) = column(records);
        coeff_of(unsafe { sys::mochaspit_strap_res_coeff_back(self.record(), col, len, n) })
    }

    /// The net value at the train's front by the front's record. Refused with 1, 2, 11 and 8.
    pub fn res_net_front(&self, records: &Records, position: &Position) -> Result<f64, Refusal> {
        let (col, len, n) = column(records);
        net_of(unsafe { sys::mochaspit_strap_res_net_front(self.record(), col, len, n, position.record()) })
    }

    /// The net value at the train's back by the back's record. Refused with 1, 2, 11 and 8.
    pub fn res_net_back(&self, records: &Records, position: &Position) -> Result<f64, Refusal> {
        let (col, len, n) = column(records);
        net_of(unsafe { sys::mochaspit_strap_res_net_back(self.record(), col, len, n, position.record()) })
    }

    /// The front's index.
    pub fn path_tpc_idx_front(&self) -> usize {
        // Safety: the call takes numbers and no pointer.
        unsafe { sys::mochaspit_strap_path_tpc_idx_front(self.record()) }
    }

    /// Takes off so many records dropped at the list's beginning. Refused with 11 if they are more than lie before front or back.
    pub fn fix_cache(&mut self, dropped: usize) -> Result<(), Refusal> {
        // Safety: the call takes numbers and no pointer.
        let fixed = unsafe { sys::mochaspit_strap_fix_cache(self.record(), dropped) };
        *self = strap_of(fixed)?;
        Ok(())
    }

    fn record(&self) -> sys::Strap {
        sys::Strap { idx_front: self.idx_front, idx_back: self.idx_back }
    }
}

/// The strap of an answer that is done.
fn strap_of(found: sys::StrapAnswer) -> Result<Strap, Refusal> {
    judged(found.answer)?;
    Ok(Strap { idx_front: found.strap.idx_front, idx_back: found.strap.idx_back })
}

/// The force of an answer that is done; the strap is moved then.
fn res_of(found: sys::StrapRes, strap: &mut Strap) -> Result<f64, Refusal> {
    *strap = strap_of(sys::StrapAnswer { answer: found.answer, strap: found.strap })?;
    Ok(found.res)
}

fn coeff_of(found: sys::CoeffAnswer) -> Result<f64, Refusal> {
    judged(found.answer)?;
    Ok(found.res_coeff)
}

fn net_of(found: sys::NetAnswer) -> Result<f64, Refusal> {
    judged(found.answer)?;
    Ok(found.res_net)
}
