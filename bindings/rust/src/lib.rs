//! The path that a train runs on: links joined with their speed limits, grades and curves, by the proved calls of Mochaspit.
//!
//! A [`LinkTable`] is built from [`Link`]s. A [`Path`] is made for a [`Train`] and keeps it, joins links of the table, drops those behind the
//! train, and posts the speed at each offset. [`Point`] and [`Strap`] take the resistance of grades or curves at a [`Position`].
//! Every call is done or answers a [`Refusal`], and a refused call has changed nothing.
//!
//! Lengths and offsets are metres, speeds metres a second, masses kilograms, weights and forces newtons, headings radians.
//!
//! ```
//! use mochaspit::{Link, LinkIdx, LinkTable, Path, SpeedLimit, SpeedSet, SpeedSets, Train};
//!
//! # fn main() -> Result<(), mochaspit::Refusal> {
//! // Two links of 100 m and 150 m. On the first, 15 m/s from 90 m to its end.
//! let limits = vec![SpeedLimit { start: 90.0, end: 100.0, speed: 15.0 }];
//! let set = SpeedSet { limits, ..SpeedSet::default() };
//! let first = Link { length: 100.0, next: LinkIdx(2), speed_sets: SpeedSets::Single(set), ..Link::default() };
//! let second = Link { length: 150.0, prev: LinkIdx(1), ..Link::default() };
//! let table = LinkTable::from_iter([&first, &second]);
//!
//! let train = Train { length: 20.0, speed_max: 30.0, ..Train::default() };
//! let mut path = Path::new(&train)?;
//! path.extend(&table, &[LinkIdx(1), LinkIdx(2)])?;
//!
//! // The limit holds until the train's back is past its end: 20 m into the second link.
//! assert_eq!(path.posted_speed(50.0), Ok(30.0));
//! assert_eq!(path.posted_speed(110.0), Ok(15.0));
//! assert_eq!(path.posted_speed(120.0), Ok(30.0));
//!
//! // The first link is dropped, and its limit stays posted.
//! let dropped = path.clear(110.0)?;
//! assert_eq!(dropped.links, 1);
//! assert_eq!(path.posted_speed(110.0), Ok(15.0));
//!
//! // There is no link 9: nothing is joined.
//! let refusal = path.extend(&table, &[LinkIdx(9)]).unwrap_err();
//! assert_eq!((refusal.number, refusal.place), (4, 0));
//! # Ok(())
//! # }
//! ```

mod columns;
mod link;
mod path;
mod point;
mod position;
mod records;
mod refusal;
mod strap;
pub mod sys;
mod table;
mod train;

pub use columns::{Room, SpeedPoint};
pub use link::{Compare, Condition, Elevation, Heading, Link, LinkIdx, PowerLimit, SpeedLimit, SpeedSet, SpeedSets, TypeSets};
pub use path::{Dropped, LinkPoint, Path};
pub use point::Point;
pub use position::Position;
pub use records::{calc_idx, Coeff, Records};
pub use refusal::Refusal;
pub use strap::Strap;
pub use table::LinkTable;
pub use train::{Dir, Train, TrainType};

/// The example of README.md, run with the tests.
#[cfg(doctest)]
#[doc = include_str!("../README.md")]
struct Readme;
