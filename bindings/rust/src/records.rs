//! Lists of grade or curve records, searched alone.

use crate::refusal::{judged, Refusal};
use crate::sys;
use crate::train::Dir;
use std::borrow::Cow;
use std::ops::Deref;

/// A grade or curve record: from its offset on the net value rises by the coefficient for each metre.
#[derive(Clone, Copy, Debug, Default, PartialEq)]
#[repr(C)]
pub struct Coeff {
    /// Offset in metres.
    pub offset: f64,
    /// Resistance for each newton of weight.
    pub res_coeff: f64,
    /// Net value in metres: for grades the elevation.
    pub res_net: f64,
}

/// A list of records, owned or borrowed: `Records::from(path.grades())`.
#[derive(Clone, Debug, Default, PartialEq)]
pub struct Records<'a>(Cow<'a, [Coeff]>);

impl<'a> From<&'a [Coeff]> for Records<'a> {
    fn from(list: &'a [Coeff]) -> Self {
        Records(Cow::Borrowed(list))
    }
}

impl From<Vec<Coeff>> for Records<'_> {
    fn from(list: Vec<Coeff>) -> Self {
        Records(Cow::Owned(list))
    }
}

impl FromIterator<Coeff> for Records<'_> {
    fn from_iter<I: IntoIterator<Item = Coeff>>(list: I) -> Self {
        Records(list.into_iter().collect())
    }
}

impl Deref for Records<'_> {
    type Target = [Coeff];

    fn deref(&self) -> &[Coeff] {
        &self.0
    }
}

impl Records<'_> {
    /// The index of the record where an offset lies, searched from a hint.
    ///
    /// `Fwd` and `Unk`: the first record from the hint on whose successor is not before the offset, never back. `Bwd`: the last record
    /// up to the hint that is not after the offset. Refused with 1, 2 (no record), 10 and 11.
    pub fn calc_idx(&self, offset: f64, hint: usize, dir: Dir) -> Result<usize, Refusal> {
        let (col, len, n) = column(self);
        // Safety: as `column` says.
        let found = unsafe { sys::mochaspit_calc_idx(col, len, n, offset, hint, dir as u32) };
        judged(found.answer)?;
        Ok(found.idx)
    }
}

/// The index of the record where an offset lies: [`Records::calc_idx`].
pub fn calc_idx(records: &Records, offset: f64, hint: usize, dir: Dir) -> Result<usize, Refusal> {
    records.calc_idx(offset, hint, dir)
}

/// A list as the C interface takes it: a pointer, the count of numbers and the count of records.
///
/// A record is three f64s side by side, which columns.rs asserts, so the pointer is good for three numbers a record while the list is
/// borrowed; it is not null and aligned even if the list is empty. The calls on a list only read it and keep no pointer.
pub(crate) fn column(list: &[Coeff]) -> (*const f64, usize, usize) {
    (list.as_ptr().cast(), 3 * list.len(), list.len())
}
