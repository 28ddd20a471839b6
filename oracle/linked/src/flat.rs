//! The original's values as flat records.
use jakepuro::raw;
use oracle::{Area, Entry, Id, Path, Range3d};
use std::fmt::Debug;
use willow_data_model::grouping::{AreaSubspace, Range, RangeEnd};

/// What a reader of the archive fills.
pub trait Record: Copy + PartialEq + Debug {
    /// A content by which it is seen whether a reader wrote.
    const UNTOUCHED: Self;
}

/// The byte of which untouched records and buffers are made.
pub const FILL: u8 = 0xa5;

impl Record for u64 {
    const UNTOUCHED: u64 = u64::from_ne_bytes([FILL; 8]);
}
impl Record for raw::Path {
    const UNTOUCHED: raw::Path = raw::Path {
        count: FILL,
        lengths: [[FILL; 2]; raw::MAX_COMPONENT_COUNT],
        bytes: [FILL; raw::MAX_PATH_LENGTH],
    };
}
const TIMES: raw::TimeRange = raw::TimeRange { start: [FILL; 8], end_open: FILL, end: [FILL; 8] };
impl Record for raw::Area {
    const UNTOUCHED: raw::Area =
        raw::Area { any: FILL, id: [FILL; 32], path: Record::UNTOUCHED, times: TIMES };
}
impl Record for raw::Entry {
    const UNTOUCHED: raw::Entry = raw::Entry {
        namespace_id: [FILL; 32],
        subspace_id: [FILL; 32],
        path: Record::UNTOUCHED,
        timestamp: [FILL; 8],
        payload_length: [FILL; 8],
        payload_digest: [FILL; 32],
    };
}
impl Record for raw::Range3d {
    const UNTOUCHED: raw::Range3d = raw::Range3d {
        subspace_start: [FILL; 32],
        subspace_end_open: FILL,
        subspace_end: [FILL; 32],
        path_start: Record::UNTOUCHED,
        path_end_open: FILL,
        path_end: Record::UNTOUCHED,
        times: TIMES,
    };
}

pub fn path(p: &Path) -> raw::Path {
    let mut record = raw::Path::ZERO;
    let mut end = 0;
    for (i, c) in p.components().enumerate() {
        record.bytes[end..end + c.len()].copy_from_slice(c.as_ref());
        record.lengths[i] = (c.len() as u16).to_be_bytes();
        end += c.len();
    }
    record.count = p.component_count() as u8;
    record
}
fn times(t: &Range<u64>) -> raw::TimeRange {
    let (end_open, end) = match t.end {
        RangeEnd::Open => (1, 0),
        RangeEnd::Closed(end) => (0, end),
    };
    raw::TimeRange { start: t.start.to_be_bytes(), end_open, end: end.to_be_bytes() }
}
pub fn area(a: &Area) -> raw::Area {
    let (any, id) = match a.subspace() {
        AreaSubspace::Any => (1, [0; 32]),
        AreaSubspace::Id(id) => (0, id.0),
    };
    raw::Area { any, id, path: path(a.path()), times: times(a.times()) }
}
pub fn namespace_and_area((namespace, a): &(Id, Area)) -> ([u8; 32], raw::Area) {
    (namespace.0, area(a))
}
pub fn entry(e: &Entry) -> raw::Entry {
    raw::Entry {
        namespace_id: e.namespace_id().0,
        subspace_id: e.subspace_id().0,
        path: path(e.path()),
        timestamp: e.timestamp().to_be_bytes(),
        payload_length: e.payload_length().to_be_bytes(),
        payload_digest: e.payload_digest().0,
    }
}
pub fn range3d(r: &Range3d) -> raw::Range3d {
    let (subspace_end_open, subspace_end) = match &r.subspaces().end {
        RangeEnd::Open => (1, [0; 32]),
        RangeEnd::Closed(id) => (0, id.0),
    };
    let (path_end_open, path_end) = match &r.paths().end {
        RangeEnd::Open => (1, raw::Path::ZERO),
        RangeEnd::Closed(p) => (0, path(p)),
    };
    raw::Range3d {
        subspace_start: r.subspaces().start.0,
        subspace_end_open,
        subspace_end,
        path_start: path(&r.paths().start),
        path_end_open,
        path_end,
        times: times(r.times()),
    }
}
