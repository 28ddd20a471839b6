//! The original and the proved archive in one process, each case put to both.
pub mod check;
pub mod flat;
pub mod ill_formed;
pub mod numbers;
pub mod pairs;
pub mod random;
pub mod short;
pub mod tally;

use jakepuro::raw::{MAX_COMPONENT_COUNT, MAX_COMPONENT_LENGTH, MAX_PATH_LENGTH};
// Both have the same limits.
const _: () = assert!(
    oracle::MCL == MAX_COMPONENT_LENGTH
        && oracle::MCC == MAX_COMPONENT_COUNT
        && oracle::MPL == MAX_PATH_LENGTH
);
