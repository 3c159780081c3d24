//! The kinds of scenarios: each makes its input from a seed, and calls both sides.
mod damaged;
mod exact;
pub mod lists;
pub mod paths;
mod positions;

use crate::judge::Run;

pub const KINDS: [&str; 6] = ["paths", "long", "lists", "positions", "damaged", "exact"];

/// Runs one scenario of a kind.
pub fn run(kind: usize, run: &mut Run) {
    match kind {
        0 => paths::run(run, false),
        1 => paths::run(run, true),
        2 => lists::run(run),
        3 => positions::run(run),
        4 => damaged::run(run),
        _ => exact::run(run),
    }
}
