//! Entries, and their encodings against a namespace and an area, and against an entry.
use crate::codec::{counted, filled};
use crate::{
    raw, Area, NamespaceId, Path, PayloadDigest, Refusal, RelativeDecodable,
    RelativeDecodableCanonic, RelativeEncodable, SubspaceId,
};
use std::fmt;

/// An entry.
///
/// Against a namespace and an area it is written if it lies inside:
///
/// ```
/// use jakepuro::*;
///
/// let (namespace, subspace, digest) = ([1; 32], [2; 32], [3; 32]);
/// let area = Area::new(AreaSubspace::Id(subspace), Path::new_empty(), TimeRange::new_open(0));
/// let reference = (namespace, area);
/// let entry = Entry::new(namespace, subspace, Path::new_empty(), 5, 7, digest);
/// let mut buffer = [0; 64];
/// let written = entry.relative_encode(&mut buffer, &reference)?;
/// assert_eq!(buffer[..5], [0x40, 0x00, 0x00, 0x05, 0x07]);
/// assert_eq!((&buffer[5..written], written), (&digest[..], 37));
/// assert_eq!(Entry::relative_decode_canonic(&buffer, 0, &reference)?, (entry, 37));
///
/// let other = Entry::new([9; 32], subspace, Path::new_empty(), 5, 7, digest);
/// assert_eq!(other.relative_len_of_encoding(&reference), Err(Refusal::Outside));
/// # Ok::<(), Refusal>(())
/// ```
///
/// Against an entry every entry is written. It is read leniently only:
///
/// ```
/// # use jakepuro::*;
/// let reference = Entry::new([1; 32], [2; 32], Path::new_empty(), 5, 0, [3; 32]);
/// let entry = Entry::new([1; 32], [2; 32], Path::new_empty(), 6, 3, [4; 32]);
/// let mut buffer = [0; 36];
/// assert_eq!(entry.relative_encode(&mut buffer, &reference)?, 36);
/// assert_eq!(Entry::relative_decode(&buffer, 0, &reference)?, (entry, 36));
/// assert_eq!(Entry::relative_decode(&buffer[..35], 0, &reference), Err(Refusal::EndOfInput));
/// # Ok::<(), Refusal>(())
/// ```
#[derive(Clone, PartialEq, Eq, Hash)]
pub struct Entry(pub(crate) raw::Entry);

impl Entry {
    /// An entry of these parts.
    pub fn new(
        namespace_id: NamespaceId,
        subspace_id: SubspaceId,
        path: Path,
        timestamp: u64,
        payload_length: u64,
        payload_digest: PayloadDigest,
    ) -> Entry {
        Entry(raw::Entry {
            namespace_id,
            subspace_id,
            path: path.0,
            timestamp: timestamp.to_be_bytes(),
            payload_length: payload_length.to_be_bytes(),
            payload_digest,
        })
    }
    /// Its namespace.
    pub fn namespace_id(&self) -> &NamespaceId {
        &self.0.namespace_id
    }
    /// Its subspace.
    pub fn subspace_id(&self) -> &SubspaceId {
        &self.0.subspace_id
    }
    /// Its path.
    pub fn path(&self) -> &Path {
        raw::as_path(&self.0.path)
    }
    /// Its time.
    pub fn timestamp(&self) -> u64 {
        u64::from_be_bytes(self.0.timestamp)
    }
    /// How many bytes its payload has.
    pub fn payload_length(&self) -> u64 {
        u64::from_be_bytes(self.0.payload_length)
    }
    /// The digest of its payload.
    pub fn payload_digest(&self) -> &PayloadDigest {
        &self.0.payload_digest
    }
    /// The entry that a reader fills.
    fn read(
        call: impl FnOnce(&mut raw::Entry, &mut usize) -> u8,
    ) -> Result<(Entry, usize), Refusal> {
        filled(Entry(raw::Entry::ZERO), |entry, n| call(&mut entry.0, n))
    }
}

impl fmt::Debug for Entry {
    fn fmt(&self, f: &mut fmt::Formatter<'_>) -> fmt::Result {
        f.debug_struct("Entry")
            .field("namespace_id", self.namespace_id())
            .field("subspace_id", self.subspace_id())
            .field("path", self.path())
            .field("timestamp", &self.timestamp())
            .field("payload_length", &self.payload_length())
            .field("payload_digest", self.payload_digest())
            .finish()
    }
}

impl RelativeEncodable<(NamespaceId, Area)> for Entry {
    fn relative_encode(
        &self,
        buffer: &mut [u8],
        (namespace, area): &(NamespaceId, Area),
    ) -> Result<usize, Refusal> {
        counted(|n| raw::entry_area_encode(buffer, &self.0, namespace, &area.0, n))
    }
    fn relative_len_of_encoding(
        &self,
        (namespace, area): &(NamespaceId, Area),
    ) -> Result<usize, Refusal> {
        counted(|n| raw::entry_area_len_of_encoding(&self.0, namespace, &area.0, n))
    }
}
impl RelativeDecodable<(NamespaceId, Area)> for Entry {
    fn relative_decode(
        message: &[u8],
        start: usize,
        (namespace, area): &(NamespaceId, Area),
    ) -> Result<(Entry, usize), Refusal> {
        Entry::read(|entry, n| {
            raw::entry_area_decode(message, start, false, namespace, &area.0, entry, n)
        })
    }
}
impl RelativeDecodableCanonic<(NamespaceId, Area)> for Entry {
    fn relative_decode_canonic(
        message: &[u8],
        start: usize,
        (namespace, area): &(NamespaceId, Area),
    ) -> Result<(Entry, usize), Refusal> {
        Entry::read(|entry, n| {
            raw::entry_area_decode(message, start, true, namespace, &area.0, entry, n)
        })
    }
}

impl RelativeEncodable<Entry> for Entry {
    fn relative_encode(&self, buffer: &mut [u8], reference: &Entry) -> Result<usize, Refusal> {
        counted(|n| raw::entry_entry_encode(buffer, &self.0, &reference.0, n))
    }
    fn relative_len_of_encoding(&self, reference: &Entry) -> Result<usize, Refusal> {
        counted(|n| raw::entry_entry_len_of_encoding(&self.0, &reference.0, n))
    }
}
impl RelativeDecodable<Entry> for Entry {
    fn relative_decode(
        message: &[u8],
        start: usize,
        reference: &Entry,
    ) -> Result<(Entry, usize), Refusal> {
        Entry::read(|entry, n| raw::entry_entry_decode(message, start, &reference.0, entry, n))
    }
}
