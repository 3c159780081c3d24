//! A path's seven columns, and the calls that borrow them: each pointer goes out with the length of its own vector.

use crate::records::Coeff;
use crate::sys;
use crate::table::LinkTable;
use std::mem::{align_of, size_of};

/// How many records of each kind a path may have. More than the bounds is cut to them.
#[derive(Clone, Copy, Debug, PartialEq, Eq, Hash)]
pub struct Room {
    /// Link points: one more than links.
    pub link_points: usize,
    /// Grade records: those of the links, one more, and another to finish the path.
    pub grades: usize,
    /// Curve records, as grades.
    pub curves: usize,
    /// Speed points: laying a limit asks for room for two more.
    pub speed_points: usize,
    pub power_limits: usize,
}

impl Room {
    /// The bounds: no path has more records than these.
    pub const BOUNDS: Room = Room { link_points: 1025, grades: 16_384, curves: 16_384, speed_points: 4096, power_limits: 1024 };
}

impl Default for Room {
    /// The bounds.
    fn default() -> Self {
        Room::BOUNDS
    }
}

/// A speed in metres a second, posted from an offset in metres on.
#[derive(Clone, Copy, Debug, Default, PartialEq)]
#[repr(C)]
pub struct SpeedPoint {
    pub offset: f64,
    pub speed: f64,
}

// A column of records is lent as a column of f64s: a record is its numbers side by side, with nothing between.
const _: () = assert!(size_of::<SpeedPoint>() == 2 * size_of::<f64>() && align_of::<SpeedPoint>() == align_of::<f64>());
const _: () = assert!(size_of::<Coeff>() == 3 * size_of::<f64>() && align_of::<Coeff>() == align_of::<f64>());

/// The columns. Records past a path's counts are zero.
#[derive(Clone)]
pub(crate) struct Columns {
    pub offsets: Vec<f64>,
    pub numbers: Vec<u32>,
    pub grades: Vec<Coeff>,
    pub curves: Vec<Coeff>,
    pub speeds: Vec<SpeedPoint>,
    pub powers: Vec<f64>,
    pub districts: Vec<u32>,
}

/// A call to the C interface with the columns $c: `writes` lends them to be changed, `reads` to be read; `from` adds a link table.
///
/// Safety, for every use: the vectors are distinct, so no two columns overlap; each is borrowed for the whole call, and its pointer
/// is not null and aligned even if it is empty; its length in numbers is that of its vector, by the sizes asserted above. The calls
/// keep no pointer, and are proved for any lengths and any numbers.
macro_rules! call {
    ($name:ident($($arg:expr),*) writes $c:expr $(, from $t:expr)?) => {{
        let c: &mut Columns = $c;
        unsafe {
            sys::$name($($arg,)*
                c.offsets.as_mut_ptr(), c.offsets.len(), c.numbers.as_mut_ptr(), c.numbers.len(),
                c.grades.as_mut_ptr().cast(), 3 * c.grades.len(), c.curves.as_mut_ptr().cast(), 3 * c.curves.len(),
                c.speeds.as_mut_ptr().cast(), 2 * c.speeds.len(), c.powers.as_mut_ptr(), c.powers.len(),
                c.districts.as_mut_ptr(), c.districts.len()
                $(, $t.links.as_ptr(), $t.links.len(), $t.lengths.as_ptr(), $t.lengths.len(),
                $t.sets.as_ptr(), $t.sets.len(), $t.elevs.as_ptr(), $t.elevs.len(),
                $t.headings.as_ptr(), $t.headings.len(), $t.limits.as_ptr(), $t.limits.len(),
                $t.codes.as_ptr(), $t.codes.len(), $t.values.as_ptr(), $t.values.len(),
                $t.link_powers.as_ptr(), $t.link_powers.len(), $t.link_districts.as_ptr(), $t.link_districts.len())?)
        }
    }};
    ($name:ident($($arg:expr),*) reads $c:expr) => {{
        let c: &Columns = $c;
        unsafe {
            sys::$name($($arg,)*
                c.offsets.as_ptr(), c.offsets.len(), c.numbers.as_ptr(), c.numbers.len(),
                c.grades.as_ptr().cast(), 3 * c.grades.len(), c.curves.as_ptr().cast(), 3 * c.curves.len(),
                c.speeds.as_ptr().cast(), 2 * c.speeds.len(), c.powers.as_ptr(), c.powers.len(),
                c.districts.as_ptr(), c.districts.len())
        }
    }};
}

impl Columns {
    /// Columns of zeros for so many records.
    pub fn with_room(room: Room) -> Self {
        let bounds = Room::BOUNDS;
        let links = room.link_points.min(bounds.link_points);
        let powers = room.power_limits.min(bounds.power_limits);
        Columns {
            offsets: vec![0.0; links],
            numbers: vec![0; 4 * links],
            grades: vec![Coeff::default(); room.grades.min(bounds.grades)],
            curves: vec![Coeff::default(); room.curves.min(bounds.curves)],
            speeds: vec![SpeedPoint::default(); room.speed_points.min(bounds.speed_points)],
            powers: vec![0.0; 3 * powers],
            districts: vec![0; powers],
        }
    }

    pub fn new_path(&mut self, train: sys::Train) -> sys::PathAnswer {
        call!(mochaspit_new(train) writes self)
    }

    pub fn extend(&mut self, path: sys::PathTpc, train: sys::Train, list: &[u32], table: &LinkTable) -> sys::PathAnswer {
        call!(mochaspit_extend(path, train, list.as_ptr(), list.len()) writes self, from table)
    }

    pub fn clear(&mut self, path: sys::PathTpc, offset: f64) -> sys::ClearAnswer {
        call!(mochaspit_clear(path, offset) writes self)
    }

    pub fn clear_each(&mut self, path: sys::PathTpc, offsets: &[f64]) -> sys::ClearAnswer {
        call!(mochaspit_clear_each(path, offsets.as_ptr(), offsets.len()) writes self)
    }

    pub fn finish(&mut self, path: sys::PathTpc) -> sys::PathAnswer {
        call!(mochaspit_finish(path) writes self)
    }

    pub fn recalc_speeds(&mut self, path: sys::PathTpc, train: sys::Train, table: &LinkTable) -> sys::PathAnswer {
        call!(mochaspit_recalc_speeds(path, train) writes self, from table)
    }

    pub fn reindex(&mut self, path: sys::PathTpc, new: &[u32]) -> sys::PathAnswer {
        call!(mochaspit_reindex(path, new.as_ptr(), new.len()) writes self)
    }

    pub fn link_grades(&self, path: sys::PathTpc, k: usize) -> sys::RangeAnswer {
        call!(mochaspit_link_grades(path, k) reads self)
    }

    pub fn link_curves(&self, path: sys::PathTpc, k: usize) -> sys::RangeAnswer {
        call!(mochaspit_link_curves(path, k) reads self)
    }

    pub fn posted_speed(&self, path: sys::PathTpc, offset: f64) -> sys::PostedAnswer {
        call!(mochaspit_posted_speed(path, offset) reads self)
    }

    pub fn locate(&self, state: sys::TrainState, path: sys::PathTpc) -> sys::StateAnswer {
        call!(mochaspit_set_link_and_offset(state, path) reads self)
    }
}
