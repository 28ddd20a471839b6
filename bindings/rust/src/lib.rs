//! The path codec and the relative encodings of the [Willow protocol](https://willowprotocol.org), proved.
//!
//! These are bindings to a static archive whose every function is proved; this crate is thin and is not. `sh
//! tools/build.sh` in the repository builds the archive; the environment variable `JAKEPURO_LIB_DIR` names the
//! folder of an archive elsewhere. The formats and refusals are those of docs/FORMAT.md.
//!
//! An archive of another version than this crate's [`VERSION`] is not called: every call of the types below
//! panics and says so. [`check_version`] tells it by a value; a program that calls [`raw`] asks it first.
//!
//! The names are willow-rs's, as `Path<300, 20, 600>` and with ids and digests of 32 bytes. Nothing is
//! allocated: writers take a lent buffer, readers a message and where to start in it.
//!
//! | value | reference | |
//! |---|---|---|
//! | [`CompactU64`] | none, or a [`Tag`] | |
//! | [`Path`] | none, or a [`Path`]; a prefix, see [`encode_path_extends_path`] | |
//! | [`Area`] | an [`Area`] | |
//! | [`Entry`] | a namespace and an [`Area`] | |
//! | [`Entry`] | an [`Entry`] | lenient reading only |
//! | [`Range3d`] | a [`Range3d`] | lenient reading only |
//!
//! ```
//! use jakepuro::{Path, RelativeDecodableCanonic, RelativeEncodable};
//!
//! let reference = Path::from_components(&[b"blog", b"idea"])?;
//! let path = Path::from_components(&[b"blog", b"recipes"])?;
//! let mut buffer = [0; 64];
//! let written = path.relative_encode(&mut buffer, &reference)?;
//! assert_eq!(&buffer[..written], b"\x01\x71recipes");
//! let (back, consumed) = Path::relative_decode_canonic(&buffer, 0, &reference)?;
//! assert_eq!((back, consumed), (path, written));
//! # Ok::<(), Box<dyn std::error::Error>>(())
//! ```
#![warn(missing_docs)]
#![deny(unsafe_code)]

mod area;
mod codec;
mod entry;
mod number;
mod path;
mod path_codec;
mod range;
mod range3d;
#[allow(unsafe_code)]
pub mod raw;
mod refusal;
mod version;

pub use area::{Area, AreaSubspace};
pub use codec::{
    Decodable, DecodableCanonic, Encodable, RelativeDecodable, RelativeDecodableCanonic,
    RelativeEncodable,
};
pub use entry::Entry;
pub use number::{CompactU64, Tag, TagWidth};
pub use path::{InvalidPathError, Path};
pub use path_codec::{
    decode_path_extends_path, decode_path_extends_path_canonic, encode_path_extends_path,
    path_extends_path_encoding_len,
};
pub use range::{Range, RangeEnd, TimeRange};
pub use range3d::Range3d;
pub use raw::version;
pub use refusal::Refusal;
pub use version::{check_version, VersionMismatch, VERSION};

/// A namespace's id.
pub type NamespaceId = [u8; raw::ID_LENGTH];
/// A subspace's id.
pub type SubspaceId = [u8; raw::ID_LENGTH];
/// The digest of a payload.
pub type PayloadDigest = [u8; raw::ID_LENGTH];
