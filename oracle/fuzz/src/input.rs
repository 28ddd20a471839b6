//! References made of a fuzzer's input, byte by byte; where the input ends, zeros follow.
use linked::numbers::Number;
use linked::pairs::Pair;
use oracle::kinds::*;
use oracle::{Area, Entry, Id, Path, Range3d, MCC, MCL, MPL};
use willow_data_model::grouping::{AreaSubspace, Range, RangeEnd};

pub struct Input<'a>(pub &'a [u8]);

impl Input<'_> {
    pub fn byte(&mut self) -> u8 {
        match self.0.split_first() {
            Some((b, rest)) => {
                self.0 = rest;
                *b
            }
            None => 0,
        }
    }
    fn number(&mut self) -> u64 {
        let bytes = self.byte() % 9;
        (0..bytes).fold(0, |n, _| n << 8 | u64::from(self.byte()))
    }
    fn id(&mut self) -> Id {
        Id([self.byte(); 32])
    }
    /// Few short components, or many, or long ones.
    fn path(&mut self) -> Path {
        let shape = self.byte();
        let (count, unit) = match shape >> 6 {
            0 | 1 => (shape % 4, 1),
            2 => (shape % (MCC as u8 + 1), 1),
            _ => (shape % 4, MCL / 3),
        };
        let mut left = MPL;
        let mut comps = vec![];
        for _ in 0..count {
            let length = (usize::from(self.byte() % 4) * unit).min(left);
            left -= length;
            comps.push(vec![self.byte(); length]);
        }
        Path::from_slices(&comps).expect("within the limits")
    }
    fn end<T>(&mut self, closed: fn(&mut Self) -> T) -> RangeEnd<T> {
        match self.byte() % 2 {
            0 => RangeEnd::Open,
            _ => RangeEnd::Closed(closed(self)),
        }
    }
    fn range<T: Ord>(&mut self, one: fn(&mut Self) -> T) -> Range<T> {
        let start = one(self);
        Range::new(start, self.end(one))
    }
    fn area(&mut self) -> Area {
        let subspace = match self.end(Input::id) {
            RangeEnd::Open => AreaSubspace::Any,
            RangeEnd::Closed(id) => AreaSubspace::Id(id),
        };
        Area::new(subspace, self.path(), self.range(Input::number))
    }
    fn entry(&mut self) -> Entry {
        let (namespace, subspace, path) = (self.id(), self.id(), self.path());
        Entry::new(namespace, subspace, path, self.number(), 0, Id::default())
    }
    fn range3d(&mut self) -> Range3d {
        Range3d::new(self.range(Input::id), self.range(Input::path), self.range(Input::number))
    }
}

/// A kind whose references can be taken from the input.
pub trait FromInput: Pair {
    fn take(input: &mut Input) -> Self::Ref;
}
macro_rules! from_input {
    ($($kind:ident: $take:expr;)*) => { $(
        impl FromInput for $kind {
            fn take(input: &mut Input) -> Self::Ref {
                $take(input)
            }
        }
    )* };
}
from_input! {
    Standalone: |_| ();
    PlainPath: |_| ();
    PathPath: Input::path;
    PathExtends: Input::path;
    AreaArea: Input::area;
    EntryArea: |input: &mut Input| (input.id(), input.area());
    EntryEntry: Input::entry;
    Range3dRange3d: Input::range3d;
}
impl<const W: u8> FromInput for Number<W> {
    fn take(input: &mut Input) -> u8 {
        input.byte() >> (8 - W)
    }
}
