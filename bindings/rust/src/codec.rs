//! What records offer, under willow-rs's names.
use crate::version::assert_version;
use crate::Refusal;

/// A value that is written by itself.
pub trait Encodable {
    /// Writes into the buffer's first bytes; answers how many. Refused, it changes none.
    fn encode(&self, buffer: &mut [u8]) -> Result<usize, Refusal>;
    /// How many bytes writing gives.
    fn len_of_encoding(&self) -> Result<usize, Refusal>;
}

/// A value that is read by itself.
pub trait Decodable: Sized {
    /// Reads what the format allows, from `message[start]` on; answers the value and the bytes
    /// consumed. A start past the end counts as no bytes.
    fn decode(message: &[u8], start: usize) -> Result<(Self, usize), Refusal>;
}

/// A value that is read by itself, strictly.
pub trait DecodableCanonic: Decodable {
    /// As [`decode`](Decodable::decode), but only what writing gives.
    fn decode_canonic(message: &[u8], start: usize) -> Result<(Self, usize), Refusal>;
}

/// A value that is written against a reference.
pub trait RelativeEncodable<R> {
    /// Writes into the buffer's first bytes; answers how many. Refused, it changes none.
    fn relative_encode(&self, buffer: &mut [u8], reference: &R) -> Result<usize, Refusal>;
    /// How many bytes writing gives. Refuses as writing does, [`Refusal::NoRoom`] aside.
    fn relative_len_of_encoding(&self, reference: &R) -> Result<usize, Refusal>;
}

/// A value that is read against a reference.
pub trait RelativeDecodable<R>: Sized {
    /// Reads what the format allows, from `message[start]` on; answers the value and the bytes
    /// consumed. A start past the end counts as no bytes.
    fn relative_decode(
        message: &[u8],
        start: usize,
        reference: &R,
    ) -> Result<(Self, usize), Refusal>;
}

/// A value that is read against a reference, strictly.
pub trait RelativeDecodableCanonic<R>: RelativeDecodable<R> {
    /// As [`relative_decode`](RelativeDecodable::relative_decode), but only what writing gives.
    fn relative_decode_canonic(
        message: &[u8],
        start: usize,
        reference: &R,
    ) -> Result<(Self, usize), Refusal>;
}

/// What a call counted. Every call that the types of the crate's root make goes through here.
pub(crate) fn counted(call: impl FnOnce(&mut usize) -> u8) -> Result<usize, Refusal> {
    assert_version();
    let mut count = 0;
    Refusal::from_answer(call(&mut count))?;
    Ok(count)
}

/// What a call filled, and the bytes that it consumed.
pub(crate) fn filled<T>(
    mut value: T,
    call: impl FnOnce(&mut T, &mut usize) -> u8,
) -> Result<(T, usize), Refusal> {
    let consumed = counted(|n| call(&mut value, n))?;
    Ok((value, consumed))
}
