//! Ranges: a start, and an end that may be open.
use crate::raw;

/// Where a range ends.
#[derive(Clone, Copy, Debug, PartialEq, Eq, Hash)]
pub enum RangeEnd<T> {
    /// Before this value.
    Closed(T),
    /// Nowhere.
    Open,
}

/// From a start on, before an end. The end may lie below the start.
#[derive(Clone, Copy, Debug, PartialEq, Eq, Hash)]
pub struct Range<T> {
    /// Its first value.
    pub start: T,
    /// Where it ends.
    pub end: RangeEnd<T>,
}

/// A range of times.
///
/// ```
/// use jakepuro::{RangeEnd, TimeRange};
///
/// assert_eq!(TimeRange::new_closed(100, 200).end, RangeEnd::Closed(200));
/// assert_eq!(TimeRange::new_open(100), TimeRange::new(100, RangeEnd::Open));
/// ```
pub type TimeRange = Range<u64>;

impl<T> Range<T> {
    /// From start to end.
    pub fn new(start: T, end: RangeEnd<T>) -> Range<T> {
        Range { start, end }
    }
    /// From start to a closed end.
    pub fn new_closed(start: T, end: T) -> Range<T> {
        Range::new(start, RangeEnd::Closed(end))
    }
    /// From start on.
    pub fn new_open(start: T) -> Range<T> {
        Range::new(start, RangeEnd::Open)
    }
}

impl<T> RangeEnd<T> {
    /// The mark of an open end beside the end, which is `zero` then.
    pub(crate) fn into_marked(self, zero: T) -> (u8, T) {
        match self {
            RangeEnd::Closed(end) => (0, end),
            RangeEnd::Open => (1, zero),
        }
    }
    /// From the mark of an open end and the end beside it.
    pub(crate) fn from_marked(open: u8, end: T) -> RangeEnd<T> {
        match open {
            0 => RangeEnd::Closed(end),
            _ => RangeEnd::Open,
        }
    }
}

impl From<TimeRange> for raw::TimeRange {
    fn from(range: TimeRange) -> raw::TimeRange {
        let (end_open, end) = range.end.into_marked(0);
        raw::TimeRange { start: range.start.to_be_bytes(), end_open, end: end.to_be_bytes() }
    }
}
impl From<&raw::TimeRange> for TimeRange {
    fn from(record: &raw::TimeRange) -> TimeRange {
        let end = RangeEnd::from_marked(record.end_open, u64::from_be_bytes(record.end));
        Range::new(u64::from_be_bytes(record.start), end)
    }
}
