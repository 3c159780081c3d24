//! A link: its neighbours, elevations, headings, power limits and speed sets. Plain data; a call that reaches a link judges it.

use crate::TrainType;

/// The number of a link in a table, from 1; 0 stands for none.
#[derive(Clone, Copy, Debug, Default, PartialEq, Eq, Hash, PartialOrd, Ord)]
pub struct LinkIdx(pub u32);

/// An elevation at an offset of the link, both in metres.
#[derive(Clone, Copy, Debug, Default, PartialEq)]
pub struct Elevation {
    pub offset: f64,
    pub elevation: f64,
}

/// A heading in radians at an offset of the link in metres.
#[derive(Clone, Copy, Debug, Default, PartialEq)]
pub struct Heading {
    pub offset: f64,
    pub heading: f64,
}

/// A power limit in watts from start to end, in metres, with the number of its district, 0 for none.
#[derive(Clone, Copy, Debug, Default, PartialEq)]
pub struct PowerLimit {
    pub start: f64,
    pub end: f64,
    pub power: f64,
    pub district: u32,
}

/// A speed limit in metres a second from start to end, in metres from the link's beginning.
#[derive(Clone, Copy, Debug, Default, PartialEq)]
pub struct SpeedLimit {
    pub start: f64,
    pub end: f64,
    pub speed: f64,
}

/// How the train's figure, on the left, is compared with a condition's value, on the right.
#[derive(Clone, Copy, Debug, PartialEq, Eq, Hash)]
#[repr(u32)]
pub enum Compare {
    Equal = 1,
    Above = 2,
    Below = 3,
    NotBelow = 4,
    NotAbove = 5,
}

/// A condition of a speed set: which figure of the train is compared, how, and with which value.
#[derive(Clone, Copy, Debug, PartialEq)]
pub enum Condition {
    /// The train's towed mass, in kilograms.
    TotalMass(Compare, f64),
    /// The train's mass for each brake, in kilograms.
    MassPerBrake(Compare, f64),
    /// The train's axles; the value is cut to a whole number from 0 to 4294967295.
    Axles(Compare, f64),
}

impl Condition {
    /// The codes of kind and comparison, and the value.
    pub(crate) fn coded(self) -> ([u32; 2], f64) {
        match self {
            Condition::TotalMass(compare, value) => ([3, compare as u32], value),
            Condition::MassPerBrake(compare, value) => ([4, compare as u32], value),
            Condition::Axles(compare, value) => ([5, compare as u32], value),
        }
    }
}

/// Speed limits for the trains that meet every condition. At most 64 conditions.
#[derive(Clone, Debug, Default, PartialEq)]
pub struct SpeedSet {
    /// Whether a limit ends with the train's front; otherwise it is held until the train's back is past its end.
    pub head_end: bool,
    pub conditions: Vec<Condition>,
    pub limits: Vec<SpeedLimit>,
}

/// The speed sets of a link.
#[derive(Clone, Debug, PartialEq)]
pub enum SpeedSets {
    /// One set for every train.
    Single(SpeedSet),
    /// A set for each type of train, or none.
    ByType(TypeSets),
}

impl Default for SpeedSets {
    /// One set without limits for every train.
    fn default() -> Self {
        SpeedSets::Single(SpeedSet::default())
    }
}

/// Speed sets by type of train. A train whose type has none is refused with 7.
#[derive(Clone, Debug, Default, PartialEq)]
pub struct TypeSets(Box<[Option<SpeedSet>; 7]>);

impl TypeSets {
    /// No set for any type.
    pub fn new() -> Self {
        TypeSets::default()
    }

    /// The same with a set for a type.
    pub fn with(mut self, train_type: TrainType, set: SpeedSet) -> Self {
        self.0[train_type as usize] = Some(set);
        self
    }

    /// The set for a type.
    pub fn get(&self, train_type: TrainType) -> Option<&SpeedSet> {
        self.0[train_type as usize].as_ref()
    }

    /// The seven places, in the order of the types.
    pub(crate) fn places(&self) -> &[Option<SpeedSet>; 7] {
        &self.0
    }
}

/// A link. Its own number is its place in the table.
#[derive(Clone, Debug, Default, PartialEq)]
pub struct Link {
    /// The link after it, and the other one at a switch; 0 for none.
    pub next: LinkIdx,
    pub next_alt: LinkIdx,
    /// The link before it, and the other one at a switch; 0 for none.
    pub prev: LinkIdx,
    pub prev_alt: LinkIdx,
    /// Length in metres, above 0.
    pub length: f64,
    /// None, or at least two, with offsets rising from 0 to the length.
    pub elevations: Vec<Elevation>,
    /// None, or at least two, with offsets rising from 0 to the length.
    pub headings: Vec<Heading>,
    pub power_limits: Vec<PowerLimit>,
    pub speed_sets: SpeedSets,
}
