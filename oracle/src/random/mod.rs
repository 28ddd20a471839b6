//! Random cases: references, values, messages and buffers, the same ones for the same seed.
pub mod loose;
pub mod messages;
pub mod paths;
pub mod records;
pub mod values;

use crate::kinds::*;
use loose::Loose;
use paths::*;
use records::*;
use values::*;

/// A small generator (splitmix64).
pub struct Rng(pub u64);
impl Rng {
    /// The generator of a seed.
    pub fn of_seed(seed: u64) -> Self {
        Rng(seed.wrapping_mul(0xd134_2543_de82_ef95).wrapping_add(1))
    }
    pub fn next(&mut self) -> u64 {
        self.0 = self.0.wrapping_add(0x9e37_79b9_7f4a_7c15);
        let mut z = self.0;
        z = (z ^ (z >> 30)).wrapping_mul(0xbf58_476d_1ce4_e5b9);
        z = (z ^ (z >> 27)).wrapping_mul(0x94d0_49bb_1331_11eb);
        z ^ (z >> 31)
    }
    pub fn below(&mut self, n: usize) -> usize {
        ((self.next() >> 32) * n as u64 >> 32) as usize
    }
    pub fn chance(&mut self, percent: usize) -> bool {
        self.below(100) < percent
    }
    pub fn pick<T: Copy>(&mut self, of: &[T]) -> T {
        of[self.below(of.len())]
    }
    pub fn byte(&mut self) -> u8 {
        self.next() as u8
    }
}

/// A kind with random references, and for each of them random values and writings that stray.
pub trait Random: Kind {
    const NAME: &'static str;
    fn any_ref(g: &mut Rng) -> Self::Ref;
    fn value(g: &mut Rng, r: &Self::Ref) -> Self::Val;
    fn loose(l: &mut Loose, v: &Self::Val, r: &Self::Ref) -> Vec<u8>;
}

macro_rules! random {
    ($kind:ident, $name:literal, $any_ref:expr, $value:expr, $loose:expr) => {
        impl Random for $kind {
            const NAME: &'static str = $name;
            fn any_ref(g: &mut Rng) -> Self::Ref {
                let any_ref: fn(&mut Rng) -> Self::Ref = $any_ref;
                any_ref(g)
            }
            fn value(g: &mut Rng, r: &Self::Ref) -> Self::Val {
                let value: fn(&mut Rng, &Self::Ref) -> Self::Val = $value;
                value(g, r)
            }
            fn loose(l: &mut Loose, v: &Self::Val, r: &Self::Ref) -> Vec<u8> {
                let loose: fn(&mut Loose, &Self::Val, &Self::Ref) -> Vec<u8> = $loose;
                loose(l, v, r)
            }
        }
    };
}

random!(Standalone, "standalone", |_| (), |g, _| number_value(g), |l, v, _| l.standalone(*v));
random!(PlainPath, "path", |_| (), |g, _| any_path(g), |l, v, _| l.path(v));
random!(PathPath, "path_path", any_path, near_path, |l, v, r| l.path_path(v, r));
random!(
    PathExtends,
    "path_extends",
    any_path,
    |g, r| if g.chance(70) { longer_path(g, r) } else { near_path(g, r) },
    |l, v, r| l.path_extends(v, r)
);
random!(AreaArea, "area_area", any_area, near_area, |l, v, r| l.area_area(v, r));
random!(EntryArea, "entry_area", |g| (any_id(g), any_area(g)), entry_in_area, |l, v, r| l
    .entry_area(v, r));
random!(EntryEntry, "entry_entry", any_entry, near_entry, |l, v, r| l.entry_entry(v, r));
random!(Range3dRange3d, "range3d_range3d", any_range3d, near_range3d, |l, v, r| l.range3d(v, r));
