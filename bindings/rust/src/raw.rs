//! The C interface of include/jakepuro.h as it is: flat records, numbers for answers, counts lent.
//!
//! The types of the crate's root hold these records and keep them well formed. Here any content may be
//! handed in, in every field: what is not well formed is refused with 5, and nothing is changed. So all
//! calls are safe. They answer 0 or a refusal's number ([`Refusal::from_answer`](crate::Refusal::from_answer));
//! what is left beside a refusal is as the header says.
//!
//! All of this is said of an archive of this crate's [`VERSION`](crate::VERSION). The calls here do not look:
//! ask [`check_version`](crate::check_version) once before them.

/// The most bytes of a component.
pub const MAX_COMPONENT_LENGTH: usize = 300;
/// The most components of a path.
pub const MAX_COMPONENT_COUNT: usize = 20;
/// The most bytes of a path.
pub const MAX_PATH_LENGTH: usize = 600;
/// The bytes of a namespace id, a subspace id and a payload digest.
pub const ID_LENGTH: usize = 32;

macro_rules! records {
    ($(
        $(#[$doc:meta])*
        $name:ident { $($(#[$of_field:meta])* $field:ident: $type:ty,)* }
    )*) => { $(
        $(#[$doc])*
        #[repr(C)]
        #[derive(Clone, Copy, Debug, PartialEq, Eq, Hash)]
        pub struct $name { $($(#[$of_field])* pub $field: $type,)* }
        impl $name {
            /// The record of zeros, which is well formed.
            // SAFETY: it is bytes.
            pub const ZERO: Self = unsafe { std::mem::zeroed() };
        }
        // No byte of padding.
        const _: () = assert!(std::mem::size_of::<$name>() == 0 $(+ std::mem::size_of::<$type>())*);
    )* };
}

records! {
    /// A path. What is not used of bytes and lengths is zero.
    Path {
        /// How many components there are.
        count: u8,
        /// Their lengths, the highest byte first.
        lengths: [[u8; 2]; MAX_COMPONENT_COUNT],
        /// Their bytes, one component after the other.
        bytes: [u8; MAX_PATH_LENGTH],
    }
    /// A range of times; they have the highest byte first.
    TimeRange {
        /// From here on.
        start: [u8; 8],
        /// 1 if the end is open, else 0.
        end_open: u8,
        /// Before here; zero if it is open.
        end: [u8; 8],
    }
    /// An area.
    Area {
        /// 1 for any subspace, else 0.
        any: u8,
        /// The subspace; zero beside any.
        id: [u8; ID_LENGTH],
        /// The path that its paths begin with.
        path: Path,
        /// Its times.
        times: TimeRange,
    }
    /// An entry; numbers have the highest byte first.
    Entry {
        /// Its namespace.
        namespace_id: [u8; ID_LENGTH],
        /// Its subspace.
        subspace_id: [u8; ID_LENGTH],
        /// Its path.
        path: Path,
        /// Its time.
        timestamp: [u8; 8],
        /// How many bytes its payload has.
        payload_length: [u8; 8],
        /// The digest of its payload.
        payload_digest: [u8; ID_LENGTH],
    }
    /// A 3d range.
    Range3d {
        /// The first subspace.
        subspace_start: [u8; ID_LENGTH],
        /// 1 if the subspaces' end is open, else 0.
        subspace_end_open: u8,
        /// The subspaces' end; zero if it is open.
        subspace_end: [u8; ID_LENGTH],
        /// The first path.
        path_start: Path,
        /// 1 if the paths' end is open, else 0.
        path_end_open: u8,
        /// The paths' end; zero if it is open.
        path_end: Path,
        /// Its times.
        times: TimeRange,
    }
}

/// A record seen as the type that keeps it well formed.
pub(crate) fn as_path(record: &Path) -> &crate::Path {
    // SAFETY: crate::Path is transparent over this record.
    unsafe { &*(record as *const Path).cast() }
}

// The calls are safe: references are not null and an exclusive one overlaps no other, which is all that the
// header asks of pointers; and any content may be lent.

/// The three functions of a record: the C functions under their names, and the calls.
macro_rules! calls {
    (
        $(#[$doc:meta])*
        $encode:ident, $length:ident, $decode:ident
        $record:ty [$($reference:ident: $type:ty),*] $($canonic:ident)?
    ) => {
        mod $encode {
            use super::*;
            extern "C" {
                #[link_name = concat!("jakepuro_", stringify!($encode))]
                pub fn encode(
                    buffer: *mut u8,
                    buffer_len: usize,
                    value: &$record,
                    $($reference: &$type,)*
                    written: &mut usize,
                ) -> u8;
                #[link_name = concat!("jakepuro_", stringify!($length))]
                pub fn length(value: &$record, $($reference: &$type,)* length: &mut usize) -> u8;
                #[link_name = concat!("jakepuro_", stringify!($decode))]
                pub fn decode(
                    message: *const u8,
                    message_len: usize,
                    start: usize,
                    $($canonic: bool,)?
                    $($reference: &$type,)*
                    value: &mut $record,
                    consumed: &mut usize,
                ) -> u8;
            }
        }
        /// Writing.
        $(#[$doc])*
        pub fn $encode(
            buffer: &mut [u8],
            value: &$record,
            $($reference: &$type,)*
            written: &mut usize,
        ) -> u8 {
            let (bytes, len) = (buffer.as_mut_ptr(), buffer.len());
            unsafe { $encode::encode(bytes, len, value, $($reference,)* written) }
        }
        /// The written length.
        $(#[$doc])*
        pub fn $length(value: &$record, $($reference: &$type,)* length: &mut usize) -> u8 {
            unsafe { $encode::length(value, $($reference,)* length) }
        }
        /// Reading.
        $(#[$doc])*
        pub fn $decode(
            message: &[u8],
            start: usize,
            $($canonic: bool,)?
            $($reference: &$type,)*
            value: &mut $record,
            consumed: &mut usize,
        ) -> u8 {
            let (bytes, len) = (message.as_ptr(), message.len());
            unsafe { $encode::decode(bytes, len, start, $($canonic,)? $($reference,)* value, consumed) }
        }
    };
}

calls! {
    /// Plain paths.
    path_encode, path_len_of_encoding, path_decode
    Path [] canonic
}
calls! {
    /// Paths against a path.
    path_path_encode, path_path_len_of_encoding, path_path_decode
    Path [reference: Path] canonic
}
calls! {
    /// Paths as an extension of a path.
    path_extends_encode, path_extends_len_of_encoding, path_extends_decode
    Path [extends: Path] canonic
}
calls! {
    /// Areas against an area.
    area_area_encode, area_area_len_of_encoding, area_area_decode
    Area [reference: Area] canonic
}
calls! {
    /// Entries against a namespace and an area.
    entry_area_encode, entry_area_len_of_encoding, entry_area_decode
    Entry [namespace_id: [u8; ID_LENGTH], area: Area] canonic
}
calls! {
    /// Entries against an entry: lenient reading only.
    entry_entry_encode, entry_entry_len_of_encoding, entry_entry_decode
    Entry [reference: Entry]
}
calls! {
    /// 3d ranges against a 3d range: lenient reading only.
    range3d_range3d_encode, range3d_range3d_len_of_encoding, range3d_range3d_decode
    Range3d [reference: Range3d]
}

mod archive {
    extern "C" {
        pub fn jakepuro_version() -> u32;
    }
}

/// The version of the archive that is linked.
pub fn version() -> u32 {
    // SAFETY: it takes nothing, and every version of the archive has it.
    unsafe { archive::jakepuro_version() }
}

mod numbers {
    extern "C" {
        pub fn jakepuro_number_encode(
            buffer: *mut u8,
            buffer_len: usize,
            width: u8,
            value: u64,
            tag: &mut u8,
            written: &mut usize,
        ) -> u8;
        pub fn jakepuro_number_len_of_encoding(width: u8, value: u64, length: &mut usize) -> u8;
        pub fn jakepuro_number_decode(
            message: *const u8,
            message_len: usize,
            start: usize,
            canonic: bool,
            width: u8,
            tag: u8,
            value: &mut u64,
            consumed: &mut usize,
        ) -> u8;
        pub fn jakepuro_standalone_encode(
            buffer: *mut u8,
            buffer_len: usize,
            value: u64,
            written: &mut usize,
        ) -> u8;
        pub fn jakepuro_standalone_len_of_encoding(value: u64, length: &mut usize) -> u8;
        pub fn jakepuro_standalone_decode(
            message: *const u8,
            message_len: usize,
            start: usize,
            canonic: bool,
            value: &mut u64,
            consumed: &mut usize,
        ) -> u8;
    }
}

/// Writing a number's bytes after a tag of `width` bits, and the tag.
pub fn number_encode(
    buffer: &mut [u8],
    width: u8,
    value: u64,
    tag: &mut u8,
    written: &mut usize,
) -> u8 {
    let (bytes, len) = (buffer.as_mut_ptr(), buffer.len());
    unsafe { numbers::jakepuro_number_encode(bytes, len, width, value, tag, written) }
}
/// How many bytes follow the tag.
pub fn number_len_of_encoding(width: u8, value: u64, length: &mut usize) -> u8 {
    unsafe { numbers::jakepuro_number_len_of_encoding(width, value, length) }
}
/// Reading the bytes after a tag.
pub fn number_decode(
    message: &[u8],
    start: usize,
    canonic: bool,
    width: u8,
    tag: u8,
    value: &mut u64,
    consumed: &mut usize,
) -> u8 {
    let (bytes, len) = (message.as_ptr(), message.len());
    unsafe {
        numbers::jakepuro_number_decode(bytes, len, start, canonic, width, tag, value, consumed)
    }
}

/// Writing a number with its tag in a byte of its own.
pub fn standalone_encode(buffer: &mut [u8], value: u64, written: &mut usize) -> u8 {
    let (bytes, len) = (buffer.as_mut_ptr(), buffer.len());
    unsafe { numbers::jakepuro_standalone_encode(bytes, len, value, written) }
}
/// The written length of a number with its tag in a byte of its own.
pub fn standalone_len_of_encoding(value: u64, length: &mut usize) -> u8 {
    unsafe { numbers::jakepuro_standalone_len_of_encoding(value, length) }
}
/// Reading a number with its tag in a byte of its own.
pub fn standalone_decode(
    message: &[u8],
    start: usize,
    canonic: bool,
    value: &mut u64,
    consumed: &mut usize,
) -> u8 {
    let (bytes, len) = (message.as_ptr(), message.len());
    unsafe { numbers::jakepuro_standalone_decode(bytes, len, start, canonic, value, consumed) }
}
