//! Why a call was refused.
use std::error::Error;
use std::fmt;

/// Why a call was refused. Each refusal has the number that docs/FORMAT.md gives it.
///
/// ```
/// use jakepuro::{Decodable, Path, Refusal};
///
/// let refusal = Path::decode(&[0x12, 0x02, 0x61], 0).unwrap_err();
/// assert_eq!(refusal, Refusal::EndOfInput);
/// assert_eq!(refusal as u8, 1);
/// assert_eq!(refusal.to_string(), "the message ends before its next field");
/// ```
#[derive(Clone, Copy, Debug, PartialEq, Eq, Hash)]
#[repr(u8)]
pub enum Refusal {
    /// Reading: the next field needs a byte past the message's end. With more bytes it may be read.
    EndOfInput = 1,
    /// Reading: the bytes are no encoding against this reference, or not the one that writing gives.
    TheirFault = 2,
    /// Writing and measuring: the value does not lie inside the reference.
    Outside = 3,
    /// Writing: the encoding is longer than the lent buffer.
    NoRoom = 4,
    /// A flat record handed in is not well formed. The types of this crate are; only [`raw`](crate::raw)
    /// can show it.
    Malformed = 5,
}

impl Refusal {
    /// What a call of [`raw`](crate::raw) answered: 0 is acceptance.
    pub fn from_answer(answer: u8) -> Result<(), Refusal> {
        match answer {
            0 => Ok(()),
            1 => Err(Refusal::EndOfInput),
            2 => Err(Refusal::TheirFault),
            3 => Err(Refusal::Outside),
            4 => Err(Refusal::NoRoom),
            _ => Err(Refusal::Malformed),
        }
    }
}

impl fmt::Display for Refusal {
    fn fmt(&self, f: &mut fmt::Formatter<'_>) -> fmt::Result {
        f.write_str(match self {
            Refusal::EndOfInput => "the message ends before its next field",
            Refusal::TheirFault => "the bytes are no such encoding against this reference",
            Refusal::Outside => "the value does not lie inside the reference",
            Refusal::NoRoom => "the encoding is longer than the buffer",
            Refusal::Malformed => "a record is not well formed",
        })
    }
}

impl Error for Refusal {}
