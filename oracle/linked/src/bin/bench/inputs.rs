//! What is read and written: for each kind some variants of a reference and a value, short or as long as the limits allow.
use linked::numbers::Number;
use linked::pairs::Pair;
use oracle::kinds::*;
use oracle::{Area, Entry, Id, Path, Range3d, MCC, MPL};
use willow_data_model::grouping::{AreaSubspace, Range, RangeEnd};

/// How many variants are taken in turn.
pub const VARIANTS: usize = 16;

#[derive(Clone, Copy)]
pub enum Size {
    /// Two components of a few bytes.
    Short,
    /// As many components and bytes as there may be.
    Limit,
}
impl Size {
    /// How many components a path has, and a component without its variation.
    fn of_path(self) -> (usize, usize) {
        match self {
            Size::Short => (2, 4),
            Size::Limit => (MCC, MPL / MCC),
        }
    }
}

/// The first components of the variant's path. Their lengths vary, their sum does not.
fn prefix(size: Size, i: usize, count: usize) -> Path {
    let (_, length) = size.of_path();
    let components: Vec<Vec<u8>> = (0..count)
        .map(|c| {
            let more = (i + c / 2) % 3;
            let length = if c % 2 == 0 { length + more } else { length - more };
            vec![b'a' + ((i + c) % 26) as u8; length]
        })
        .collect();
    Path::from_slices(&components).expect("within the limits")
}
fn path(size: Size, i: usize) -> Path {
    prefix(size, i, size.of_path().0)
}
/// The first half of its components.
fn half(size: Size, i: usize) -> Path {
    prefix(size, i, size.of_path().0 / 2)
}
/// A path that shares the first half, and as many components more.
fn fork(size: Size, i: usize) -> Path {
    let mut components: Vec<Vec<u8>> = path(size, i).components().map(|c| c.to_vec()).collect();
    let half = components.len() / 2;
    for c in &mut components[half..] {
        c[0] = b'~';
    }
    Path::from_slices(&components).expect("within the limits")
}
fn id(i: usize) -> Id {
    Id([i as u8; 32])
}
/// Differences of one, two and four bytes.
fn difference(i: usize) -> u64 {
    [5, 300, 70_000, 40][i % 4] + i as u64
}
const TIMES: u64 = 1_700_000_000;

fn any_below(size: Size, i: usize) -> Area {
    Area::new(AreaSubspace::Any, half(size, i), Range::new_open(TIMES))
}
fn entry(size: Size, i: usize) -> Entry {
    Entry::new(id(1), id(i), path(size, i), TIMES + difference(i), difference(i + 1), id(i + 2))
}

/// A kind that is measured.
pub trait Measured: Pair {
    fn variant(size: Size, i: usize) -> (Self::Ref, Self::Val);
}
macro_rules! measured {
    ($($kind:ty: |$size:ident, $i:ident| $variant:expr;)*) => { $(
        impl Measured for $kind {
            fn variant($size: Size, $i: usize) -> (Self::Ref, Self::Val) {
                $variant
            }
        }
    )* };
}
measured! {
    Number<4>: |_size, i| (number::write(difference(i), number::width(4).unwrap()).0, difference(i));
    Standalone: |_size, i| ((), difference(i));
    PlainPath: |size, i| ((), path(size, i));
    PathPath: |size, i| (fork(size, i), path(size, i));
    PathExtends: |size, i| (half(size, i), path(size, i));
    AreaArea: |size, i| (
        any_below(size, i),
        Area::new(
            AreaSubspace::Id(id(i)),
            path(size, i),
            Range::new(TIMES + difference(i), RangeEnd::Closed(TIMES + 2 * difference(i))),
        ),
    );
    EntryArea: |size, i| ((id(1), any_below(size, i)), entry(size, i));
    EntryEntry: |size, i| (
        Entry::new(id(1), id(i % 2), fork(size, i), TIMES, 0, id(0)),
        entry(size, i),
    );
    Range3dRange3d: |size, i| (
        Range3d::new(
            Range::new_open(id(1)),
            Range::new(half(size, i), RangeEnd::Closed(fork(size, i))),
            Range::new_open(TIMES),
        ),
        Range3d::new(
            Range::new(id(1), RangeEnd::Closed(id(i + 2))),
            Range::new(half(size, i), RangeEnd::Closed(path(size, i))),
            Range::new(TIMES + difference(i), RangeEnd::Closed(TIMES + 2 * difference(i))),
        ),
    );
}
