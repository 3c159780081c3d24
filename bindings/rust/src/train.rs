//! A train, its type, and the direction of a search.

use crate::sys;

/// The types of a train; a link may have a speed set for each.
#[derive(Clone, Copy, Debug, Default, PartialEq, Eq, Hash)]
#[repr(u32)]
pub enum TrainType {
    #[default]
    None = 0,
    Freight = 1,
    Passenger = 2,
    Intermodal = 3,
    HighSpeedPassenger = 4,
    TiltTrain = 5,
    Commuter = 6,
}

/// The direction of a search, or of the train's run since the last one.
#[derive(Clone, Copy, Debug, Default, PartialEq, Eq, Hash)]
#[repr(u32)]
pub enum Dir {
    /// Unknown: searched like `Fwd`; a [`Strap`](crate::Strap) moves both its ends.
    #[default]
    Unk = 0,
    /// Forwards: from the hint on, never back.
    Fwd = 1,
    /// Backwards: from the hint down.
    Bwd = 2,
}

/// A train. Its numbers must be finite, its length above 0 and its top speed not below 0; a call refuses others with 1.
#[derive(Clone, Copy, Debug, Default, PartialEq)]
pub struct Train {
    /// Length in metres.
    pub length: f64,
    /// Top speed in metres a second.
    pub speed_max: f64,
    /// Mass that the condition [`TotalMass`](crate::Condition::TotalMass) compares, in kilograms.
    pub towed_mass_static: f64,
    /// Mass for each brake, in kilograms.
    pub mass_per_brake: f64,
    /// Curve resistance for each radian a metre, up to one degree in 100 ft.
    pub curve_coeff_0: f64,
    /// Curve resistance for each radian a metre beyond that.
    pub curve_coeff_1: f64,
    /// Curve resistance for the square of what is beyond that.
    pub curve_coeff_2: f64,
    /// Number of axles.
    pub axle_count: u32,
    /// Which of a link's speed sets is for this train.
    pub train_type: TrainType,
}

impl Train {
    /// The record of the C interface.
    pub(crate) fn record(&self) -> sys::Train {
        sys::Train {
            length: self.length,
            speed_max: self.speed_max,
            towed_mass_static: self.towed_mass_static,
            mass_per_brake: self.mass_per_brake,
            curve_coeff_0: self.curve_coeff_0,
            curve_coeff_1: self.curve_coeff_1,
            curve_coeff_2: self.curve_coeff_2,
            axle_count: self.axle_count,
            train_type: self.train_type as u32,
        }
    }
}
