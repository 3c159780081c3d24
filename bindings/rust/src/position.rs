//! Where a train stands.

use crate::link::LinkIdx;
use crate::path::Path;
use crate::refusal::{judged, Refusal};
use crate::sys;

/// Where a train stands on its path. Numbers must be finite and the length above 0; a call refuses others with 1.
#[derive(Clone, Copy, Debug, Default, PartialEq)]
pub struct Position {
    /// Offset of the train's front, in metres.
    pub offset: f64,
    /// Offset of the train's back, in metres.
    pub offset_back: f64,
    /// The train's length, in metres.
    pub length: f64,
    /// The train's weight, in newtons.
    pub weight_static: f64,
    /// The links of front and back, and the front's distance from the beginning of its link: [`Position::locate`] writes these.
    pub link_front: LinkIdx,
    pub link_back: LinkIdx,
    pub offset_in_link: f64,
}

impl Position {
    /// Finds the links where front and back stand. Refused with 1, 10 (before the path) and 8.
    pub fn locate(&mut self, path: &Path) -> Result<(), Refusal> {
        let (record, columns) = path.parts();
        let found = columns.locate(self.record(), record);
        judged(found.answer)?;
        self.link_front = LinkIdx(found.state.link_idx_front);
        self.link_back = LinkIdx(found.state.link_idx_back);
        self.offset_in_link = found.state.offset_in_link;
        Ok(())
    }

    /// The record of the C interface.
    pub(crate) fn record(&self) -> sys::TrainState {
        sys::TrainState {
            offset: self.offset,
            offset_back: self.offset_back,
            length: self.length,
            weight_static: self.weight_static,
            link_idx_front: self.link_front.0,
            link_idx_back: self.link_back.0,
            offset_in_link: self.offset_in_link,
        }
    }
}
