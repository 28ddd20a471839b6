//! Records that are not well formed, which the original cannot hold: the archive must answer 5 and change nothing.
use crate::check::{refused_with, Agreed, Fenced, NO_COUNT};
use crate::flat::{Record, FILL};
use crate::pairs::Pair;
use jakepuro::raw::{
    self, MAX_COMPONENT_COUNT as MCC, MAX_COMPONENT_LENGTH as MCL, MAX_PATH_LENGTH as MPL,
};
use oracle::random::Rng;
use std::fmt::Debug;

/// A well-formed record that can be made ill-formed.
pub trait Spoil: Clone + Debug {
    /// Makes it so; false where it always is well formed.
    fn spoil(&mut self, _: &mut Rng) -> bool {
        false
    }
}
impl Spoil for () {}
impl Spoil for u8 {}
impl Spoil for u64 {}

fn set_length(path: &mut raw::Path, i: usize, length: usize) {
    path.lengths[i] = (length as u16).to_be_bytes();
}
fn not_zero(g: &mut Rng) -> u8 {
    1 + g.below(255) as u8
}

impl Spoil for raw::Path {
    fn spoil(&mut self, g: &mut Rng) -> bool {
        let count = usize::from(self.count);
        let total: usize = self.lengths.iter().map(|l| usize::from(u16::from_be_bytes(*l))).sum();
        match g.below(6) {
            0 => self.count = (MCC + 1 + g.below(255 - MCC)) as u8,
            1 if total < MPL => self.bytes[total + g.below(MPL - total)] = not_zero(g),
            2 if count < MCC => {
                self.lengths[count + g.below(MCC - count)][g.below(2)] = not_zero(g)
            }
            3 if count > 0 => set_length(self, g.below(count), MCL + 1 + g.below(65535 - MCL)),
            4 if total < MPL => self.bytes[MPL - 1] = not_zero(g),
            _ => {
                // Each length within its limit, their sum not.
                const THIRD: usize = MPL / 3;
                self.count = 3 + g.below(MCC - 2) as u8;
                for i in 0..self.count.into() {
                    set_length(self, i, if i < 3 { THIRD + 1 + g.below(MCL - THIRD) } else { 0 });
                }
            }
        }
        true
    }
}

/// A mark other than 0 and 1, or something beside a mark of 1.
fn spoil_marked(g: &mut Rng, mark: &mut u8, beside: &mut [u8]) {
    if g.chance(50) {
        *mark = 2 + g.below(254) as u8;
    } else {
        *mark = 1;
        beside[g.below(beside.len())] = not_zero(g);
    }
}
impl Spoil for raw::Area {
    fn spoil(&mut self, g: &mut Rng) -> bool {
        match g.below(3) {
            0 => spoil_marked(g, &mut self.any, &mut self.id),
            1 => spoil_marked(g, &mut self.times.end_open, &mut self.times.end),
            _ => return self.path.spoil(g),
        }
        true
    }
}
impl Spoil for ([u8; 32], raw::Area) {
    fn spoil(&mut self, g: &mut Rng) -> bool {
        self.1.spoil(g)
    }
}
impl Spoil for raw::Entry {
    fn spoil(&mut self, g: &mut Rng) -> bool {
        self.path.spoil(g)
    }
}
impl Spoil for raw::Range3d {
    fn spoil(&mut self, g: &mut Rng) -> bool {
        match g.below(6) {
            0 => spoil_marked(g, &mut self.subspace_end_open, &mut self.subspace_end),
            1 => spoil_marked(g, &mut self.times.end_open, &mut self.times.end),
            2 => self.path_end_open = 2 + g.below(254) as u8,
            3 => {
                // Well formed but for the mark beside it.
                self.path_end_open = 1;
                self.path_end = raw::Path { count: 1 + g.below(MCC) as u8, ..raw::Path::ZERO };
            }
            4 => return self.path_start.spoil(g),
            _ => return self.path_end.spoil(g),
        }
        true
    }
}

/// What is lent to calls on records that are not well formed.
pub struct Lent<'a, P: Pair> {
    pub message: &'a [u8],
    pub start: usize,
    pub buffer: &'a [u8],
    pub work: &'a mut Fenced,
    pub record: &'a mut P::Flat,
}

/// Spoils the value or the reference or both, and puts what is spoilt to each function.
pub fn spoilt<P: Pair>(
    g: &mut Rng,
    v: &P::Flat,
    r: &P::FlatRef,
    lent: &mut Lent<P>,
    mut count: impl FnMut(Agreed),
) {
    for (spoil_v, spoil_r) in [(true, false), (false, true), (true, true)] {
        let (mut v, mut r) = (*v, r.clone());
        let bad_v = spoil_v && v.spoil(g);
        let bad_r = spoil_r && r.spoil(g);
        if bad_v || bad_r {
            count(written::<P>(&v, &r, lent));
            count(measured::<P>(&v, &r));
        }
        if bad_r {
            count(read::<P>(false, &r, lent));
            if P::STRICT {
                count(read::<P>(true, &r, lent));
            }
        }
    }
}

fn written<P: Pair>(v: &P::Flat, r: &P::FlatRef, lent: &mut Lent<P>) -> Agreed {
    let (mut tag, mut written) = (FILL, NO_COUNT);
    let answer = P::encode(lent.work.lend(lent.buffer), v, r, &mut tag, &mut written);
    let unchanged = lent.work.back() == lent.buffer && tag == FILL;
    refused_with(5, (answer, written), unchanged, || format!("{} w\n{r:02x?}\n{v:02x?}", P::NAME))
}
fn measured<P: Pair>(v: &P::Flat, r: &P::FlatRef) -> Agreed {
    let mut length = NO_COUNT;
    let answer = P::len_of_encoding(v, r, &mut length);
    refused_with(5, (answer, length), true, || format!("{} n\n{r:02x?}\n{v:02x?}", P::NAME))
}
fn read<P: Pair>(strict: bool, r: &P::FlatRef, lent: &mut Lent<P>) -> Agreed {
    let mut consumed = NO_COUNT;
    let answer = P::decode(lent.message, lent.start, strict, r, lent.record, &mut consumed);
    let unchanged = *lent.record == P::Flat::UNTOUCHED;
    *lent.record = P::Flat::UNTOUCHED;
    let (message, start) = (lent.message, lent.start);
    refused_with(5, (answer, consumed), unchanged, || {
        format!("{} strict: {strict}\n{r:02x?}\n{start} {message:02x?}", P::NAME)
    })
}

/// Widths that no tag has: 5. Tags that do not fit their width: 2, as docs/FORMAT.md says.
pub fn tags_and_widths(g: &mut Rng, message: &[u8], start: usize, mut count: impl FnMut(Agreed)) {
    let width = g.byte();
    let has_tags = (2..=8).contains(&width);
    let tag = g.byte();
    if has_tags && u16::from(tag) < 1 << width {
        return;
    }
    let value = g.next();
    for strict in [false, true] {
        let (mut v, mut consumed) = (u64::UNTOUCHED, NO_COUNT);
        let answer = raw::number_decode(message, start, strict, width, tag, &mut v, &mut consumed);
        let number = if has_tags { 2 } else { 5 };
        count(refused_with(number, (answer, consumed), v == u64::UNTOUCHED, || {
            format!("number width {width} tag {tag} strict: {strict}\n{start} {message:02x?}")
        }));
    }
    if !has_tags {
        let (mut buffer, mut t, mut written) = ([FILL; 9], FILL, NO_COUNT);
        let answer = raw::number_encode(&mut buffer, width, value, &mut t, &mut written);
        let unchanged = buffer == [FILL; 9] && t == FILL;
        let case = || format!("number w width {width} {value}");
        count(refused_with(5, (answer, written), unchanged, case));
        let mut length = NO_COUNT;
        let answer = raw::number_len_of_encoding(width, value, &mut length);
        count(refused_with(5, (answer, length), true, case));
    }
}
