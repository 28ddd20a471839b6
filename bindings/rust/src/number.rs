//! Compact numbers.
use crate::codec::{counted, filled};
use crate::{
    raw, Decodable, DecodableCanonic, Encodable, Refusal, RelativeDecodable,
    RelativeDecodableCanonic,
};

/// How many bits a tag has.
#[derive(Clone, Copy, Debug, PartialEq, Eq, Hash)]
#[repr(u8)]
pub enum TagWidth {
    /// 2 bits.
    Two = 2,
    /// 3 bits.
    Three = 3,
    /// 4 bits.
    Four = 4,
    /// 5 bits.
    Five = 5,
    /// 6 bits.
    Six = 6,
    /// 7 bits.
    Seven = 7,
    /// 8 bits.
    Eight = 8,
}

/// The tag of a compact number: a small number itself, or how many bytes follow.
#[derive(Clone, Copy, Debug, PartialEq, Eq, Hash)]
pub struct Tag {
    width: TagWidth,
    data: u8,
}

impl Tag {
    /// A tag, unless its bits do not fit the width.
    pub fn new(width: TagWidth, data: u8) -> Option<Tag> {
        (u16::from(data) < 1 << width as u8).then_some(Tag { width, data })
    }
    /// How many bits it has.
    pub fn width(&self) -> TagWidth {
        self.width
    }
    /// Its bits, the lowest ones of the byte.
    pub fn data(&self) -> u8 {
        self.data
    }
}

/// A compact number: by itself with a tag in a byte of its own, or after a [`Tag`] that stands elsewhere.
///
/// ```
/// use jakepuro::*;
///
/// let mut buffer = [0; 9];
/// assert_eq!(CompactU64(252).encode(&mut buffer), Ok(2));
/// assert_eq!(buffer[..2], [0xfc, 252]);
/// assert_eq!(CompactU64::decode_canonic(&buffer, 0), Ok((CompactU64(252), 2)));
///
/// // A longer form than needed is read leniently only.
/// assert_eq!(CompactU64::decode(&[0xfc, 7], 0), Ok((CompactU64(7), 2)));
/// assert_eq!(CompactU64::decode_canonic(&[0xfc, 7], 0), Err(Refusal::TheirFault));
///
/// // After a tag of 4 bits.
/// let (tag, written) = CompactU64(300).tagged_encode(&mut buffer, TagWidth::Four)?;
/// assert_eq!((tag.data(), written), (13, 2));
/// assert_eq!(CompactU64::relative_decode(&buffer[..2], 0, &tag), Ok((CompactU64(300), 2)));
/// assert_eq!(CompactU64::relative_decode(&buffer[..1], 0, &tag), Err(Refusal::EndOfInput));
/// # Ok::<(), Refusal>(())
/// ```
#[derive(Clone, Copy, Debug, PartialEq, Eq, PartialOrd, Ord, Hash)]
pub struct CompactU64(pub u64);

impl CompactU64 {
    /// Writes the bytes after a tag; answers the tag, and how many they are.
    pub fn tagged_encode(
        &self,
        buffer: &mut [u8],
        width: TagWidth,
    ) -> Result<(Tag, usize), Refusal> {
        let (data, written) =
            filled(0, |tag, n| raw::number_encode(buffer, width as u8, self.0, tag, n))?;
        Ok((Tag { width, data }, written))
    }
    /// How many bytes follow the tag.
    pub fn tagged_len_of_encoding(&self, width: TagWidth) -> Result<usize, Refusal> {
        counted(|n| raw::number_len_of_encoding(width as u8, self.0, n))
    }
    fn read(message: &[u8], start: usize, canonic: bool) -> Result<(Self, usize), Refusal> {
        filled(CompactU64(0), |v, n| raw::standalone_decode(message, start, canonic, &mut v.0, n))
    }
    fn read_after(
        message: &[u8],
        start: usize,
        canonic: bool,
        tag: &Tag,
    ) -> Result<(Self, usize), Refusal> {
        filled(CompactU64(0), |v, n| {
            raw::number_decode(message, start, canonic, tag.width as u8, tag.data, &mut v.0, n)
        })
    }
}

impl Encodable for CompactU64 {
    fn encode(&self, buffer: &mut [u8]) -> Result<usize, Refusal> {
        counted(|n| raw::standalone_encode(buffer, self.0, n))
    }
    fn len_of_encoding(&self) -> Result<usize, Refusal> {
        counted(|n| raw::standalone_len_of_encoding(self.0, n))
    }
}
impl Decodable for CompactU64 {
    fn decode(message: &[u8], start: usize) -> Result<(Self, usize), Refusal> {
        Self::read(message, start, false)
    }
}
impl DecodableCanonic for CompactU64 {
    fn decode_canonic(message: &[u8], start: usize) -> Result<(Self, usize), Refusal> {
        Self::read(message, start, true)
    }
}
/// Reads the bytes after a tag.
impl RelativeDecodable<Tag> for CompactU64 {
    fn relative_decode(message: &[u8], start: usize, tag: &Tag) -> Result<(Self, usize), Refusal> {
        Self::read_after(message, start, false, tag)
    }
}
impl RelativeDecodableCanonic<Tag> for CompactU64 {
    fn relative_decode_canonic(
        message: &[u8],
        start: usize,
        tag: &Tag,
    ) -> Result<(Self, usize), Refusal> {
        Self::read_after(message, start, true, tag)
    }
}
