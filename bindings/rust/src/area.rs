//! Areas, and their encoding against an area.
use crate::codec::{counted, filled};
use crate::{
    raw, Path, Refusal, RelativeDecodable, RelativeDecodableCanonic, RelativeEncodable, SubspaceId,
    TimeRange,
};
use std::fmt;

/// The subspaces of an area.
#[derive(Clone, Copy, Debug, PartialEq, Eq, Hash)]
pub enum AreaSubspace {
    /// All of them.
    Any,
    /// One.
    Id(SubspaceId),
}

/// An area: a subspace or any, the paths that begin with a path, and a range of times.
///
/// Against an area it is written if it lies inside.
///
/// ```
/// use jakepuro::*;
///
/// let all = Area::new_full();
/// let path = Path::from_components(&[b"a"])?;
/// let area = Area::new(AreaSubspace::Any, path, TimeRange::new_open(5));
/// let mut buffer = [0; 4];
/// assert_eq!(area.relative_encode(&mut buffer, &all)?, 4);
/// assert_eq!(buffer, [0x60, 0x05, 0x11, 0x61]);
/// let (back, consumed) = Area::relative_decode_canonic(&buffer, 0, &all)?;
/// assert_eq!((&back, consumed), (&area, 4));
/// assert_eq!(back.times().start, 5);
///
/// assert_eq!(all.relative_encode(&mut buffer, &area), Err(Refusal::Outside));
/// assert_eq!(Area::relative_decode(&buffer[..2], 0, &all), Err(Refusal::EndOfInput));
/// # Ok::<(), Box<dyn std::error::Error>>(())
/// ```
#[derive(Clone, PartialEq, Eq, Hash)]
pub struct Area(pub(crate) raw::Area);

impl Area {
    /// An area of these parts.
    pub fn new(subspace: AreaSubspace, path: Path, times: TimeRange) -> Area {
        let (any, id) = match subspace {
            AreaSubspace::Any => (1, SubspaceId::default()),
            AreaSubspace::Id(id) => (0, id),
        };
        Area(raw::Area { any, id, path: path.0, times: times.into() })
    }
    /// The area of all subspaces, paths and times.
    pub fn new_full() -> Area {
        Area::new(AreaSubspace::Any, Path::new_empty(), TimeRange::new_open(0))
    }
    /// Its subspaces.
    pub fn subspace(&self) -> AreaSubspace {
        match self.0.any {
            0 => AreaSubspace::Id(self.0.id),
            _ => AreaSubspace::Any,
        }
    }
    /// The path that its paths begin with.
    pub fn path(&self) -> &Path {
        raw::as_path(&self.0.path)
    }
    /// Its times.
    pub fn times(&self) -> TimeRange {
        (&self.0.times).into()
    }
    fn read(
        message: &[u8],
        start: usize,
        canonic: bool,
        reference: &Area,
    ) -> Result<(Area, usize), Refusal> {
        filled(Area(raw::Area::ZERO), |area, n| {
            raw::area_area_decode(message, start, canonic, &reference.0, &mut area.0, n)
        })
    }
}

impl fmt::Debug for Area {
    fn fmt(&self, f: &mut fmt::Formatter<'_>) -> fmt::Result {
        f.debug_struct("Area")
            .field("subspace", &self.subspace())
            .field("path", self.path())
            .field("times", &self.times())
            .finish()
    }
}

impl RelativeEncodable<Area> for Area {
    fn relative_encode(&self, buffer: &mut [u8], reference: &Area) -> Result<usize, Refusal> {
        counted(|n| raw::area_area_encode(buffer, &self.0, &reference.0, n))
    }
    fn relative_len_of_encoding(&self, reference: &Area) -> Result<usize, Refusal> {
        counted(|n| raw::area_area_len_of_encoding(&self.0, &reference.0, n))
    }
}
impl RelativeDecodable<Area> for Area {
    fn relative_decode(
        message: &[u8],
        start: usize,
        reference: &Area,
    ) -> Result<(Area, usize), Refusal> {
        Area::read(message, start, false, reference)
    }
}
impl RelativeDecodableCanonic<Area> for Area {
    fn relative_decode_canonic(
        message: &[u8],
        start: usize,
        reference: &Area,
    ) -> Result<(Area, usize), Refusal> {
        Area::read(message, start, true, reference)
    }
}
