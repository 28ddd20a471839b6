//! Compact numbers after a tag, by the tag's width.
use crate::pairs::Pair;
use jakepuro::raw;
use oracle::kinds::number;
use oracle::random::{messages, values::number_value, Rng};
use oracle::text::put_number;
use oracle::Refusal;
use ufotofu::{FromSlice, IntoVec};

/// A compact number after a tag of W bits. The reference is the tag, which only reading looks at.
pub struct Number<const W: u8>;
impl<const W: u8> Pair for Number<W> {
    const NAME: &'static str = match W {
        2 => "number_2",
        3 => "number_3",
        4 => "number_4",
        5 => "number_5",
        6 => "number_6",
        7 => "number_7",
        _ => "number_8",
    };
    const KIND: &'static str = "number";
    const STRICT: bool = true;
    const TAGGED: bool = true;
    type Ref = u8;
    type Val = u64;
    type FlatRef = u8;
    type Flat = u64;
    fn flat_ref(tag: &u8) -> u8 {
        *tag
    }
    fn flat(v: &u64) -> u64 {
        *v
    }
    fn read(strict: bool, from: &mut FromSlice, tag: &u8) -> Result<u64, Refusal> {
        number::read(strict, from, &number::tag(W.into(), (*tag).into()).unwrap())
    }
    fn write_into(v: &u64, _: &u8, into: &mut IntoVec) -> Option<u8> {
        Some(number::write_into(*v, number::width(W.into()).unwrap(), into))
    }
    fn length(v: &u64, _: &u8) -> usize {
        number::length(*v, number::width(W.into()).unwrap())
    }
    fn decode(
        message: &[u8],
        start: usize,
        canonic: bool,
        tag: &u8,
        v: &mut u64,
        consumed: &mut usize,
    ) -> u8 {
        raw::number_decode(message, start, canonic, W, *tag, v, consumed)
    }
    fn encode(buffer: &mut [u8], v: &u64, _: &u8, tag: &mut u8, written: &mut usize) -> u8 {
        raw::number_encode(buffer, W, *v, tag, written)
    }
    fn len_of_encoding(v: &u64, _: &u8, length: &mut usize) -> u8 {
        raw::number_len_of_encoding(W, *v, length)
    }
    fn any_ref(g: &mut Rng) -> u8 {
        g.below(1 << W) as u8
    }
    /// The highest tags, after which bytes follow, and those before them.
    fn references(_: &mut Rng, n: usize) -> Vec<u8> {
        (0..=u8::MAX >> (8 - W)).rev().take(n).collect()
    }
    fn value(g: &mut Rng, _: &u8) -> u64 {
        number_value(g)
    }
    fn message(g: &mut Rng, v: &u64, tag: &mut u8) -> Vec<u8> {
        let (t, m) = messages::number_message(g, *v, W.into());
        *tag = t as u8;
        m
    }
    fn put_ref(out: &mut Vec<u8>, tag: &u8, reading: bool) {
        put_number(out, W.into());
        out.push(b'\t');
        if reading {
            put_number(out, (*tag).into());
            out.push(b'\t');
        }
    }
    fn put_val(out: &mut Vec<u8>, v: &u64) {
        put_number(out, *v)
    }
}
