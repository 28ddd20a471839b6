//! 3d ranges, and their encoding against a 3d range.
use crate::codec::{counted, filled};
use crate::{
    raw, Path, Range, RangeEnd, Refusal, RelativeDecodable, RelativeEncodable, SubspaceId,
    TimeRange,
};
use std::fmt;

/// A range of subspaces, a range of paths and a range of times.
///
/// Against a 3d range every 3d range is written. It is read leniently only.
///
/// ```
/// use jakepuro::*;
///
/// let subspaces = Range::new_open([0; 32]);
/// let paths = Range::new_open(Path::new_empty());
/// let all = Range3d::new(subspaces, paths.clone(), TimeRange::new_open(0));
/// let range = Range3d::new(subspaces, paths, TimeRange::new_closed(3, 9));
/// let mut buffer = [0; 16];
/// let written = range.relative_encode(&mut buffer, &all)?;
/// assert_eq!(buffer[..written], [0x4c, 0xcc, 0x00, 0x00, 0x03, 0x09]);
/// assert_eq!(Range3d::relative_decode(&buffer, 0, &all)?, (range, 6));
///
/// // The subspaces' start has to be told.
/// assert_eq!(Range3d::relative_decode(&[0x0c, 0xcc], 0, &all), Err(Refusal::TheirFault));
/// # Ok::<(), Refusal>(())
/// ```
#[derive(Clone, PartialEq, Eq, Hash)]
pub struct Range3d(pub(crate) raw::Range3d);

impl Range3d {
    /// A 3d range of these parts.
    pub fn new(subspaces: Range<SubspaceId>, paths: Range<Path>, times: TimeRange) -> Range3d {
        let (subspace_end_open, subspace_end) = subspaces.end.into_marked(SubspaceId::default());
        let (path_end_open, path_end) = paths.end.into_marked(Path::new_empty());
        Range3d(raw::Range3d {
            subspace_start: subspaces.start,
            subspace_end_open,
            subspace_end,
            path_start: paths.start.0,
            path_end_open,
            path_end: path_end.0,
            times: times.into(),
        })
    }
    /// Its subspaces.
    pub fn subspaces(&self) -> Range<SubspaceId> {
        let end = RangeEnd::from_marked(self.0.subspace_end_open, self.0.subspace_end);
        Range::new(self.0.subspace_start, end)
    }
    /// Its paths.
    pub fn paths(&self) -> Range<&Path> {
        let end = RangeEnd::from_marked(self.0.path_end_open, raw::as_path(&self.0.path_end));
        Range::new(raw::as_path(&self.0.path_start), end)
    }
    /// Its times.
    pub fn times(&self) -> TimeRange {
        (&self.0.times).into()
    }
}

impl fmt::Debug for Range3d {
    fn fmt(&self, f: &mut fmt::Formatter<'_>) -> fmt::Result {
        f.debug_struct("Range3d")
            .field("subspaces", &self.subspaces())
            .field("paths", &self.paths())
            .field("times", &self.times())
            .finish()
    }
}

impl RelativeEncodable<Range3d> for Range3d {
    fn relative_encode(&self, buffer: &mut [u8], reference: &Range3d) -> Result<usize, Refusal> {
        counted(|n| raw::range3d_range3d_encode(buffer, &self.0, &reference.0, n))
    }
    fn relative_len_of_encoding(&self, reference: &Range3d) -> Result<usize, Refusal> {
        counted(|n| raw::range3d_range3d_len_of_encoding(&self.0, &reference.0, n))
    }
}
impl RelativeDecodable<Range3d> for Range3d {
    fn relative_decode(
        message: &[u8],
        start: usize,
        reference: &Range3d,
    ) -> Result<(Range3d, usize), Refusal> {
        filled(Range3d(raw::Range3d::ZERO), |range, n| {
            raw::range3d_range3d_decode(message, start, &reference.0, &mut range.0, n)
        })
    }
}
