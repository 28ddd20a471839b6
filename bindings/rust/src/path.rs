//! Paths.
use crate::raw::{self, MAX_COMPONENT_COUNT, MAX_COMPONENT_LENGTH, MAX_PATH_LENGTH};
use std::error::Error;
use std::fmt;

/// A path: at most [`MAX_COMPONENT_COUNT`] components of at most [`MAX_COMPONENT_LENGTH`] bytes each,
/// [`MAX_PATH_LENGTH`] bytes in all.
///
/// By itself:
///
/// ```
/// use jakepuro::*;
///
/// let path = Path::from_components(&[b"a", b"bc"])?;
/// let mut buffer = [0xee; 6];
/// assert_eq!(path.encode(&mut buffer)?, 5);
/// assert_eq!(buffer, [0x32, 0x01, 0x61, 0x62, 0x63, 0xee]);
/// assert_eq!(Path::decode_canonic(&buffer, 0)?, (path.clone(), 5));
///
/// // Too short a buffer is left as it was.
/// let mut short = [0xee; 4];
/// assert_eq!(path.encode(&mut short), Err(Refusal::NoRoom));
/// assert_eq!(short, [0xee; 4]);
/// # Ok::<(), Box<dyn std::error::Error>>(())
/// ```
///
/// Against a path, of which it shares as many leading components as it can:
///
/// ```
/// # use jakepuro::*;
/// let reference = Path::from_components(&[b"a"])?;
/// let path = Path::from_components(&[b"a", b"bc"])?;
/// let mut buffer = [0; 4];
/// assert_eq!(path.relative_len_of_encoding(&reference)?, 4);
/// assert_eq!(path.relative_encode(&mut buffer, &reference)?, 4);
/// assert_eq!(buffer, [0x01, 0x21, 0x62, 0x63]);
///
/// // The same path sharing nothing is no canonic encoding.
/// let message = [0x00, 0x32, 0x01, 0x61, 0x62, 0x63];
/// assert_eq!(Path::relative_decode(&message, 0, &reference)?, (path, 6));
/// let refusal = Path::relative_decode_canonic(&message, 0, &reference).unwrap_err();
/// assert_eq!(refusal, Refusal::TheirFault);
/// # Ok::<(), Box<dyn std::error::Error>>(())
/// ```
///
/// As an extension of a path, see [`encode_path_extends_path`](crate::encode_path_extends_path).
#[derive(Clone, PartialEq, Eq, Hash)]
#[repr(transparent)]
pub struct Path(pub(crate) raw::Path);

/// Why components make no path.
#[derive(Clone, Copy, Debug, PartialEq, Eq, Hash)]
pub enum InvalidPathError {
    /// There are more than [`MAX_COMPONENT_COUNT`] components.
    TooManyComponents,
    /// A component has more than [`MAX_COMPONENT_LENGTH`] bytes.
    ComponentTooLong,
    /// The components have more than [`MAX_PATH_LENGTH`] bytes in all.
    PathTooLong,
}

impl fmt::Display for InvalidPathError {
    fn fmt(&self, f: &mut fmt::Formatter<'_>) -> fmt::Result {
        match self {
            InvalidPathError::TooManyComponents => {
                write!(f, "a path has at most {MAX_COMPONENT_COUNT} components")
            }
            InvalidPathError::ComponentTooLong => {
                write!(f, "a component has at most {MAX_COMPONENT_LENGTH} bytes")
            }
            InvalidPathError::PathTooLong => {
                write!(f, "a path has at most {MAX_PATH_LENGTH} bytes")
            }
        }
    }
}

impl Error for InvalidPathError {}

impl Path {
    /// The path of no components.
    pub fn new_empty() -> Path {
        Path(raw::Path::ZERO)
    }

    /// The path of these components.
    ///
    /// ```
    /// use jakepuro::{InvalidPathError, Path, raw::MAX_COMPONENT_LENGTH};
    ///
    /// let path = Path::from_components(&[b"blog", b"", b"idea"])?;
    /// assert_eq!(path.component_count(), 3);
    /// assert_eq!(path.components().last(), Some(&b"idea"[..]));
    /// let error = Path::from_components(&[&[0; MAX_COMPONENT_LENGTH + 1]]).unwrap_err();
    /// assert_eq!(error, InvalidPathError::ComponentTooLong);
    /// # Ok::<(), InvalidPathError>(())
    /// ```
    pub fn from_components(components: &[&[u8]]) -> Result<Path, InvalidPathError> {
        let mut path = Path::new_empty();
        for component in components {
            path.push(component)?;
        }
        Ok(path)
    }

    /// The path with one component more.
    ///
    /// ```
    /// use jakepuro::Path;
    ///
    /// let path = Path::new_empty().append(b"a")?.append(b"bc")?;
    /// assert_eq!(path, Path::from_components(&[b"a", b"bc"])?);
    /// # Ok::<(), jakepuro::InvalidPathError>(())
    /// ```
    pub fn append(&self, component: &[u8]) -> Result<Path, InvalidPathError> {
        let mut path = self.clone();
        path.push(component)?;
        Ok(path)
    }

    fn push(&mut self, component: &[u8]) -> Result<(), InvalidPathError> {
        let (count, start) = (self.component_count(), self.path_length());
        if count == MAX_COMPONENT_COUNT {
            return Err(InvalidPathError::TooManyComponents);
        }
        if component.len() > MAX_COMPONENT_LENGTH {
            return Err(InvalidPathError::ComponentTooLong);
        }
        let end = start + component.len();
        if end > MAX_PATH_LENGTH {
            return Err(InvalidPathError::PathTooLong);
        }
        self.0.bytes[start..end].copy_from_slice(component);
        self.0.lengths[count] = (component.len() as u16).to_be_bytes();
        self.0.count += 1;
        Ok(())
    }

    /// How many components it has.
    pub fn component_count(&self) -> usize {
        usize::from(self.0.count)
    }

    /// How many bytes its components have in all.
    pub fn path_length(&self) -> usize {
        self.lengths().sum()
    }

    /// Whether it has no components.
    pub fn is_empty(&self) -> bool {
        self.0.count == 0
    }

    fn lengths(&self) -> impl ExactSizeIterator<Item = usize> + '_ {
        let lengths = &self.0.lengths[..self.component_count()];
        lengths.iter().map(|l| usize::from(u16::from_be_bytes(*l)))
    }

    /// The components in their order.
    ///
    /// ```
    /// use jakepuro::Path;
    ///
    /// let path = Path::from_components(&[b"a", b"", b"bc"])?;
    /// let components: Vec<&[u8]> = path.components().collect();
    /// assert_eq!(components, [&b"a"[..], b"", b"bc"]);
    /// # Ok::<(), jakepuro::InvalidPathError>(())
    /// ```
    pub fn components(&self) -> impl ExactSizeIterator<Item = &[u8]> + '_ {
        let mut rest = &self.0.bytes[..];
        self.lengths().map(move |length| {
            let (component, after) = rest.split_at(length);
            rest = after;
            component
        })
    }
}

impl Default for Path {
    fn default() -> Path {
        Path::new_empty()
    }
}

/// The components in quotes, what is no printable ASCII escaped.
impl fmt::Debug for Path {
    fn fmt(&self, f: &mut fmt::Formatter<'_>) -> fmt::Result {
        f.write_str("Path")?;
        f.debug_list().entries(self.components().map(Shown)).finish()
    }
}

struct Shown<'a>(&'a [u8]);
impl fmt::Debug for Shown<'_> {
    fn fmt(&self, f: &mut fmt::Formatter<'_>) -> fmt::Result {
        write!(f, "\"{}\"", self.0.escape_ascii())
    }
}
