//! For each kind the original's reader, writer and length, and the archive's.
use crate::flat::{self, Record};
use crate::ill_formed::Spoil;
use jakepuro::raw;
use oracle::kinds::*;
use oracle::random::{messages, Random, Rng};
use oracle::{Path, Refusal};
use ufotofu::{FromSlice, IntoVec};

pub trait Pair {
    const NAME: &'static str;
    /// The kind of its case lines.
    const KIND: &'static str;
    /// Whether there is a strict reading.
    const STRICT: bool;
    /// Whether it follows a tag that stands elsewhere.
    const TAGGED: bool = false;
    type Ref;
    type Val;
    type FlatRef: Spoil;
    type Flat: Record + Spoil;

    fn flat_ref(r: &Self::Ref) -> Self::FlatRef;
    fn flat(v: &Self::Val) -> Self::Flat;

    /// The original's reader.
    fn read(strict: bool, from: &mut FromSlice, r: &Self::Ref) -> Result<Self::Val, Refusal>;
    /// The original's writer, and the tag that stands elsewhere. May panic: outside the reference.
    fn write_into(v: &Self::Val, r: &Self::Ref, into: &mut IntoVec) -> Option<u8>;
    /// The original's length. May panic: outside the reference.
    fn length(v: &Self::Val, r: &Self::Ref) -> usize;

    /// The archive's reader.
    fn decode(
        message: &[u8],
        start: usize,
        canonic: bool,
        r: &Self::FlatRef,
        v: &mut Self::Flat,
        consumed: &mut usize,
    ) -> u8;
    /// The archive's writer.
    fn encode(
        buffer: &mut [u8],
        v: &Self::Flat,
        r: &Self::FlatRef,
        tag: &mut u8,
        written: &mut usize,
    ) -> u8;
    /// The archive's length.
    fn len_of_encoding(v: &Self::Flat, r: &Self::FlatRef, length: &mut usize) -> u8;

    fn any_ref(g: &mut Rng) -> Self::Ref;
    /// Up to so many references, that all short messages are read against.
    fn references(g: &mut Rng, n: usize) -> Vec<Self::Ref>;
    fn value(g: &mut Rng, r: &Self::Ref) -> Self::Val;
    /// A message that may have to do with the value. The tag of a number stands in the reference.
    fn message(g: &mut Rng, v: &Self::Val, r: &mut Self::Ref) -> Vec<u8>;

    /// Whether the lengths may differ here, as docs/DIFFERENCES.md lists it.
    fn listed(_: &Self::Val, _: &Self::Ref) -> bool {
        false
    }

    /// The reference's fields in a case line, each followed by a tab.
    fn put_ref(out: &mut Vec<u8>, r: &Self::Ref, reading: bool);
    fn put_val(out: &mut Vec<u8>, v: &Self::Val);
}

macro_rules! pair {
    (
        $kind:ident, $flat_ref:ty, $flat:ty, $to_flat_ref:expr, $to_flat:expr,
        $encode:expr, $length:expr, $decode:expr $(, $listed:expr)?
    ) => {
        impl Pair for $kind {
            const NAME: &'static str = <$kind as Random>::NAME;
            const KIND: &'static str = <$kind as Random>::NAME;
            const STRICT: bool = <$kind as Kind>::STRICT;
            type Ref = <$kind as Kind>::Ref;
            type Val = <$kind as Kind>::Val;
            type FlatRef = $flat_ref;
            type Flat = $flat;
            fn flat_ref(r: &Self::Ref) -> $flat_ref {
                $to_flat_ref(r)
            }
            fn flat(v: &Self::Val) -> $flat {
                $to_flat(v)
            }
            fn read(strict: bool, from: &mut FromSlice, r: &Self::Ref) -> Result<Self::Val, Refusal> {
                <$kind as Kind>::read(strict, from, r)
            }
            fn write_into(v: &Self::Val, r: &Self::Ref, into: &mut IntoVec) -> Option<u8> {
                <$kind as Kind>::write_into(v, r, into);
                None
            }
            fn length(v: &Self::Val, r: &Self::Ref) -> usize {
                <$kind as Kind>::length(v, r)
            }
            fn decode(
                message: &[u8],
                start: usize,
                canonic: bool,
                r: &$flat_ref,
                v: &mut $flat,
                consumed: &mut usize,
            ) -> u8 {
                $decode(message, start, canonic, r, v, consumed)
            }
            fn encode(
                buffer: &mut [u8],
                v: &$flat,
                r: &$flat_ref,
                _: &mut u8,
                written: &mut usize,
            ) -> u8 {
                $encode(buffer, v, r, written)
            }
            fn len_of_encoding(v: &$flat, r: &$flat_ref, length: &mut usize) -> u8 {
                $length(v, r, length)
            }
            fn any_ref(g: &mut Rng) -> Self::Ref {
                <$kind as Random>::any_ref(g)
            }
            fn references(g: &mut Rng, n: usize) -> Vec<Self::Ref> {
                let n = if std::mem::size_of::<Self::Ref>() > 0 { n } else { 1 };
                (0..n).map(|_| <$kind as Random>::any_ref(g)).collect()
            }
            fn value(g: &mut Rng, r: &Self::Ref) -> Self::Val {
                <$kind as Random>::value(g, r)
            }
            fn message(g: &mut Rng, v: &Self::Val, r: &mut Self::Ref) -> Vec<u8> {
                messages::message::<$kind>(g, v, r)
            }
            $(fn listed(v: &Self::Val, r: &Self::Ref) -> bool {
                $listed(v, r)
            })?
            fn put_ref(out: &mut Vec<u8>, r: &Self::Ref, _: bool) {
                if std::mem::size_of::<Self::Ref>() > 0 {
                    <$kind as Kind>::put_ref(out, r);
                    out.push(b'\t');
                }
            }
            fn put_val(out: &mut Vec<u8>, v: &Self::Val) {
                <$kind as Kind>::put_val(out, v)
            }
        }
    };
}

fn nothing(_: &()) {}
type NamespaceAndArea = ([u8; 32], raw::Area);

/// The kinds, laid out as a table.
#[rustfmt::skip]
mod all {
    use super::*;

    pair!(
        Standalone, (), u64, nothing, u64::clone,
        |b, v: &u64, _, n| raw::standalone_encode(b, *v, n),
        |v: &u64, _, n| raw::standalone_len_of_encoding(*v, n),
        |m, start, canonic, _, v, n| raw::standalone_decode(m, start, canonic, v, n)
    );
    pair!(
        PlainPath, (), raw::Path, nothing, flat::path,
        |b, v, _, n| raw::path_encode(b, v, n),
        |v, _, n| raw::path_len_of_encoding(v, n),
        |m, start, canonic, _, v, n| raw::path_decode(m, start, canonic, v, n)
    );
    pair!(
        PathPath, raw::Path, raw::Path, flat::path, flat::path,
        raw::path_path_encode, raw::path_path_len_of_encoding, raw::path_path_decode
    );
    pair!(
        PathExtends, raw::Path, raw::Path, flat::path, flat::path,
        raw::path_extends_encode, raw::path_extends_len_of_encoding, raw::path_extends_decode,
        |v: &Path, r: &Path| !r.is_prefix_of(v)
    );
    pair!(
        AreaArea, raw::Area, raw::Area, flat::area, flat::area,
        raw::area_area_encode, raw::area_area_len_of_encoding, raw::area_area_decode
    );
    pair!(
        EntryArea, NamespaceAndArea, raw::Entry, flat::namespace_and_area, flat::entry,
        |b, v, r: &NamespaceAndArea, n| raw::entry_area_encode(b, v, &r.0, &r.1, n),
        |v, r: &NamespaceAndArea, n| raw::entry_area_len_of_encoding(v, &r.0, &r.1, n),
        |m, start, canonic, r: &NamespaceAndArea, v, n| {
            raw::entry_area_decode(m, start, canonic, &r.0, &r.1, v, n)
        }
    );
    pair!(
        EntryEntry, raw::Entry, raw::Entry, flat::entry, flat::entry,
        raw::entry_entry_encode, raw::entry_entry_len_of_encoding,
        |m, start, _, r, v, n| raw::entry_entry_decode(m, start, r, v, n)
    );
    pair!(
        Range3dRange3d, raw::Range3d, raw::Range3d, flat::range3d, flat::range3d,
        raw::range3d_range3d_encode, raw::range3d_range3d_len_of_encoding,
        |m, start, _, r, v, n| raw::range3d_range3d_decode(m, start, r, v, n)
    );
}

/// Hands all pairs to a macro.
#[macro_export]
macro_rules! with_all_pairs {
    ($do:ident) => {
        $do!(
            $crate::numbers::Number<2>,
            $crate::numbers::Number<3>,
            $crate::numbers::Number<4>,
            $crate::numbers::Number<5>,
            $crate::numbers::Number<6>,
            $crate::numbers::Number<7>,
            $crate::numbers::Number<8>,
            oracle::kinds::Standalone,
            oracle::kinds::PlainPath,
            oracle::kinds::PathPath,
            oracle::kinds::PathExtends,
            oracle::kinds::AreaArea,
            oracle::kinds::EntryArea,
            oracle::kinds::EntryEntry,
            oracle::kinds::Range3dRange3d
        )
    };
}

/// Whether a kind is meant by a name: its own, or that of its case lines.
pub fn is_named<P: Pair>(name: &str) -> bool {
    name == P::NAME || name == P::KIND
}
