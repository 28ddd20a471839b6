//! The oracle: the original Rust behind the case lines of docs/CASES.md.
pub mod answer;
pub mod ids;
pub mod kinds;
pub mod random;
pub mod text;

pub use ids::{Id, Refusal};

/// The most bytes of a component.
pub const MCL: usize = 300;
/// The most components of a path.
pub const MCC: usize = 20;
/// The most bytes of a path.
pub const MPL: usize = 600;

pub type Path = willow_data_model::Path<MCL, MCC, MPL>;
pub type Area = willow_data_model::grouping::Area<MCL, MCC, MPL, Id>;
pub type Entry = willow_data_model::Entry<MCL, MCC, MPL, Id, Id, Id>;
pub type Range3d = willow_data_model::grouping::Range3d<MCL, MCC, MPL, Id>;

/// Panics of the originals are answers here, not messages.
pub fn silence_panics() {
    std::panic::set_hook(Box::new(|_| {}));
}
