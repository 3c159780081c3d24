//! The path: its record with the columns that it owns, and its calls.

use crate::columns::{Columns, Room, SpeedPoint};
use crate::link::{LinkIdx, PowerLimit};
use crate::records::Coeff;
use crate::refusal::{judged, Refusal};
use crate::sys;
use crate::table::LinkTable;
use crate::train::Train;
use std::fmt;

/// The beginning of a link on the path, or, as the last one, the path's end.
#[derive(Clone, Copy, Debug, Default, PartialEq)]
pub struct LinkPoint {
    /// Offset on the path, in metres.
    pub offset: f64,
    /// How many grade, curve and power records the link has; the path's end has none.
    pub grade_count: usize,
    pub curve_count: usize,
    pub power_count: usize,
    /// The link's number; at the path's end that of the last link, or 0 on a path without links.
    pub link: LinkIdx,
}

/// What [`Path::clear`] or [`Path::clear_each`] dropped: so many records at the beginning of each list.
#[derive(Clone, Copy, Debug, Default, PartialEq, Eq, Hash)]
pub struct Dropped {
    pub links: usize,
    pub grades: usize,
    pub curves: usize,
    pub power_limits: usize,
}

/// The path that a train runs on. It owns its columns, so that no record is changed but by a call, and a refused call changes none. It
/// keeps the train that it was made for, so that no limit is laid for another:
///
/// ```compile_fail
/// # use mochaspit::{LinkIdx, LinkTable, Path, Train};
/// # let (train, other, table) = (Train::default(), Train::default(), LinkTable::new());
/// let mut path = Path::new(&train).unwrap();
/// path.extend(&other, &table, &[LinkIdx(1)]).unwrap(); // no call takes a train
/// ```
#[derive(Clone)]
pub struct Path {
    train: Train,
    record: sys::PathTpc,
    columns: Columns,
}

impl Path {
    /// A path without links for a train, with room up to the bounds. Refused with 1.
    pub fn new(train: &Train) -> Result<Path, Refusal> {
        Path::with_room(train, Room::BOUNDS)
    }

    /// A path without links, with the room given. Refused with 1 or 9.
    pub fn with_room(train: &Train, room: Room) -> Result<Path, Refusal> {
        let mut columns = Columns::with_room(room);
        let done = columns.new_path(train.record());
        judged(done.answer)?;
        Ok(Path { train: *train, record: done.path, columns })
    }

    /// The train that the path was made for.
    pub fn train(&self) -> &Train {
        &self.train
    }

    /// Joins these links to the path's end, with their limits, grades, curves and power limits. A limit holds from its start up to its end,
    /// the train's length added unless its set is a head-end set, and is released there.
    ///
    /// Refused with 3 to 9; for 4 to 8 the place is the first failing position in the list.
    pub fn extend(&mut self, table: &LinkTable, links: &[LinkIdx]) -> Result<(), Refusal> {
        let list: Vec<u32> = links.iter().map(|link| link.0).collect();
        let done = self.columns.extend(self.record, self.train.record(), &list, table);
        self.take(done)
    }

    /// Drops the links behind an offset, as a rule that of the train's back. The limit that the train stands in stays posted.
    ///
    /// The kept beginning is the first link point whose next one is not before the offset. Refused with 1, 10 and 12.
    pub fn clear(&mut self, offset: f64) -> Result<Dropped, Refusal> {
        let done = self.columns.clear(self.record, offset);
        self.dropped(done)
    }

    /// Drops the links behind each of these offsets in turn, all or nothing: what so many calls of [`Path::clear`] leave; the path is
    /// judged once, and its records move once.
    ///
    /// Refused as the first of those calls that is refused, its place the position in the list.
    pub fn clear_each(&mut self, offsets: &[f64]) -> Result<Dropped, Refusal> {
        let done = self.columns.clear_each(self.record, offsets);
        self.dropped(done)
    }

    /// Closes the path with a grade and a curve record at +infinity. Refused with 3 and 9.
    pub fn finish(&mut self) -> Result<(), Refusal> {
        let done = self.columns.finish(self.record);
        self.take(done)
    }

    /// Lays the limits of the links still on the path anew. Refused with 4 and 6 to 9; the place is an index of `link_points`.
    pub fn recalc_speeds(&mut self, table: &LinkTable) -> Result<(), Refusal> {
        let done = self.columns.recalc_speeds(self.record, self.train.record(), table);
        self.take(done)
    }

    /// Gives each link n the number `new[n]`. Refused with 4 where there is none or it is 0; the place is an index of `link_points`.
    pub fn reindex(&mut self, new: &[u32]) -> Result<(), Refusal> {
        let done = self.columns.reindex(self.record, new);
        self.take(done)
    }

    /// The grade records of link k, from 0. Refused with 10 past the last link.
    pub fn link_grades(&self, k: usize) -> Result<&[Coeff], Refusal> {
        let found = self.columns.link_grades(self.record, k);
        part(&self.columns.grades, found)
    }

    /// The curve records of link k, from 0. Refused with 10 past the last link.
    pub fn link_curves(&self, k: usize) -> Result<&[Coeff], Refusal> {
        let found = self.columns.link_curves(self.record, k);
        part(&self.columns.curves, found)
    }

    /// The link points, the path's end as the last one.
    pub fn link_points(&self) -> impl ExactSizeIterator<Item = LinkPoint> + DoubleEndedIterator + '_ {
        let offsets = self.columns.offsets[..self.record.link_count].iter();
        offsets.zip(self.columns.numbers.chunks_exact(4)).map(|(&offset, numbers)| LinkPoint {
            offset,
            grade_count: numbers[0] as usize,
            curve_count: numbers[1] as usize,
            power_count: numbers[2] as usize,
            link: LinkIdx(numbers[3]),
        })
    }

    /// The grade records: net values are elevations in metres. A finished path's last one is at +infinity.
    pub fn grades(&self) -> &[Coeff] {
        &self.columns.grades[..self.record.grade_count]
    }

    /// The curve records. A finished path's last one is at +infinity.
    pub fn curves(&self) -> &[Coeff] {
        &self.columns.curves[..self.record.curve_count]
    }

    /// The speed points, sorted by offset.
    pub fn speed_points(&self) -> &[SpeedPoint] {
        &self.columns.speeds[..self.record.speed_count]
    }

    /// The power limits, with offsets on the path.
    pub fn power_limits(&self) -> impl ExactSizeIterator<Item = PowerLimit> + DoubleEndedIterator + '_ {
        let districts = self.columns.districts[..self.record.power_count].iter();
        self.columns.powers.chunks_exact(3).zip(districts).map(|(limit, &district)| PowerLimit {
            start: limit[0],
            end: limit[1],
            power: limit[2],
            district,
        })
    }

    /// Whether the path is finished.
    pub fn is_finished(&self) -> bool {
        self.record.is_finished
    }

    /// The speed posted at an offset, by the proved call: that of the last speed point at or before it. Refused with 1, the offset is not
    /// finite, and with 10, it lies before the path's beginning.
    pub fn posted_speed(&self, offset: f64) -> Result<f64, Refusal> {
        let found = self.columns.posted_speed(self.record, offset);
        judged(found.answer)?;
        Ok(found.speed)
    }

    /// The record and the columns, for calls that only read a path.
    pub(crate) fn parts(&self) -> (sys::PathTpc, &Columns) {
        (self.record, &self.columns)
    }

    /// Keeps the record of trims that are done, and tells what went.
    fn dropped(&mut self, done: sys::ClearAnswer) -> Result<Dropped, Refusal> {
        let before = self.record.link_count;
        self.take(done.outcome)?;
        Ok(Dropped {
            links: before - self.record.link_count,
            grades: done.dropped.grade_count,
            curves: done.dropped.curve_count,
            power_limits: done.dropped.cat_power_count,
        })
    }

    /// Keeps the record of a call that is done.
    fn take(&mut self, done: sys::PathAnswer) -> Result<(), Refusal> {
        judged(done.answer)?;
        self.record = done.path;
        Ok(())
    }
}

impl fmt::Debug for Path {
    /// Train and records, without the room past them.
    fn fmt(&self, f: &mut fmt::Formatter<'_>) -> fmt::Result {
        f.debug_struct("Path")
            .field("train", &self.train)
            .field("link_points", &self.link_points().collect::<Vec<_>>())
            .field("grades", &self.grades())
            .field("curves", &self.curves())
            .field("speed_points", &self.speed_points())
            .field("power_limits", &self.power_limits().collect::<Vec<_>>())
            .field("is_finished", &self.is_finished())
            .finish()
    }
}

impl PartialEq for Path {
    /// Equal trains and equal records, whatever the room.
    fn eq(&self, other: &Path) -> bool {
        self.train == other.train
            && self.record == other.record
            && self.link_points().eq(other.link_points())
            && self.grades() == other.grades()
            && self.curves() == other.curves()
            && self.speed_points() == other.speed_points()
            && self.power_limits().eq(other.power_limits())
    }
}

/// The records of a range, which counts single numbers, three to a record.
fn part(column: &[Coeff], found: sys::RangeAnswer) -> Result<&[Coeff], Refusal> {
    judged(found.answer)?;
    let from = found.range.from / 3;
    Ok(&column[from..from + found.range.len / 3])
}
