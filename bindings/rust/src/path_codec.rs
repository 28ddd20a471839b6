//! Encodings of paths: plain, against a path, as an extension of a path.
use crate::codec::{counted, filled};
use crate::{
    raw, Decodable, DecodableCanonic, Encodable, Path, Refusal, RelativeDecodable,
    RelativeDecodableCanonic, RelativeEncodable,
};

impl Path {
    /// The path that a reader fills.
    fn read(call: impl FnOnce(&mut raw::Path, &mut usize) -> u8) -> Result<(Path, usize), Refusal> {
        filled(Path::new_empty(), |path, n| call(&mut path.0, n))
    }
}

impl Encodable for Path {
    fn encode(&self, buffer: &mut [u8]) -> Result<usize, Refusal> {
        counted(|n| raw::path_encode(buffer, &self.0, n))
    }
    fn len_of_encoding(&self) -> Result<usize, Refusal> {
        counted(|n| raw::path_len_of_encoding(&self.0, n))
    }
}
impl Decodable for Path {
    fn decode(message: &[u8], start: usize) -> Result<(Path, usize), Refusal> {
        Path::read(|path, n| raw::path_decode(message, start, false, path, n))
    }
}
impl DecodableCanonic for Path {
    fn decode_canonic(message: &[u8], start: usize) -> Result<(Path, usize), Refusal> {
        Path::read(|path, n| raw::path_decode(message, start, true, path, n))
    }
}

impl RelativeEncodable<Path> for Path {
    fn relative_encode(&self, buffer: &mut [u8], reference: &Path) -> Result<usize, Refusal> {
        counted(|n| raw::path_path_encode(buffer, &self.0, &reference.0, n))
    }
    fn relative_len_of_encoding(&self, reference: &Path) -> Result<usize, Refusal> {
        counted(|n| raw::path_path_len_of_encoding(&self.0, &reference.0, n))
    }
}
impl RelativeDecodable<Path> for Path {
    fn relative_decode(
        message: &[u8],
        start: usize,
        reference: &Path,
    ) -> Result<(Path, usize), Refusal> {
        Path::read(|path, n| raw::path_path_decode(message, start, false, &reference.0, path, n))
    }
}
impl RelativeDecodableCanonic<Path> for Path {
    fn relative_decode_canonic(
        message: &[u8],
        start: usize,
        reference: &Path,
    ) -> Result<(Path, usize), Refusal> {
        Path::read(|path, n| raw::path_path_decode(message, start, true, &reference.0, path, n))
    }
}

/// Writes a path as an extension of a prefix of it: the components after the prefix's.
/// [`Refusal::Outside`] where it is no prefix.
///
/// ```
/// use jakepuro::*;
///
/// let prefix = Path::from_components(&[b"a"])?;
/// let path = Path::from_components(&[b"a", b"bc"])?;
/// let mut buffer = [0; 3];
/// assert_eq!(path_extends_path_encoding_len(&path, &prefix)?, 3);
/// assert_eq!(encode_path_extends_path(&mut buffer, &path, &prefix)?, 3);
/// assert_eq!(buffer, [0x21, 0x62, 0x63]);
/// assert_eq!(decode_path_extends_path_canonic(&buffer, 0, &prefix)?, (path.clone(), 3));
///
/// let other = Path::from_components(&[b"b"])?;
/// assert_eq!(encode_path_extends_path(&mut buffer, &path, &other), Err(Refusal::Outside));
/// # Ok::<(), Box<dyn std::error::Error>>(())
/// ```
pub fn encode_path_extends_path(
    buffer: &mut [u8],
    path: &Path,
    extends: &Path,
) -> Result<usize, Refusal> {
    counted(|n| raw::path_extends_encode(buffer, &path.0, &extends.0, n))
}

/// How many bytes [`encode_path_extends_path`] writes. Refuses as it does, [`Refusal::NoRoom`] aside.
pub fn path_extends_path_encoding_len(path: &Path, extends: &Path) -> Result<usize, Refusal> {
    counted(|n| raw::path_extends_len_of_encoding(&path.0, &extends.0, n))
}

/// Reads an extension of a path, as the format allows it.
pub fn decode_path_extends_path(
    message: &[u8],
    start: usize,
    extends: &Path,
) -> Result<(Path, usize), Refusal> {
    Path::read(|path, n| raw::path_extends_decode(message, start, false, &extends.0, path, n))
}

/// Reads an extension of a path, as writing gives it.
pub fn decode_path_extends_path_canonic(
    message: &[u8],
    start: usize,
    extends: &Path,
) -> Result<(Path, usize), Refusal> {
    Path::read(|path, n| raw::path_extends_decode(message, start, true, &extends.0, path, n))
}
