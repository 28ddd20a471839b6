//! A target for libFuzzer, which brings `main`: the input chooses kind, mode, start and reference, the rest of
//! it is the message; original and archive read it and are compared. tools/fuzz.sh builds and runs it.
#![no_main]
mod input;

use input::{FromInput, Input};
use linked::check::{reading, Agreed, Difference};
use linked::flat::Record;
use linked::pairs::is_named;
use linked::with_all_pairs;
use oracle::random::Rng;
use std::sync::OnceLock;

/// The kind to keep to, if not all.
const KIND: &str = "FUZZ_KIND";

/// The bit of the first byte that asks for strict reading.
const STRICT: u8 = 1;
/// That asks for a start that is not 0.
const START: u8 = 2;
/// That asks for a reference of the generator's, not one made of the input.
const GENERATED: u8 = 4;

/// How many references of the generator's there are.
const GENERATED_REFERENCES: u8 = 16;

fn compare<P: FromInput>(mut input: Input) -> Agreed {
    let flags = input.byte();
    let strict = P::STRICT && flags & STRICT != 0;
    let start = if flags & START != 0 { input.byte().into() } else { 0 };
    let r = if flags & GENERATED != 0 {
        P::any_ref(&mut Rng::of_seed((input.byte() % GENERATED_REFERENCES).into()))
    } else {
        P::take(&mut input)
    };
    let mut record = P::Flat::UNTOUCHED;
    reading::<P>(strict, input.0, start, (&r, &P::flat_ref(&r)), &mut record)
}

type Compare = fn(Input) -> Agreed;

/// The comparisons to choose from: of the kind that is asked for, or of all.
fn comparisons() -> Vec<Compare> {
    let only = std::env::var(KIND).ok();
    let mut made: Vec<Compare> = vec![];
    macro_rules! each {
        ($($pair:ty),*) => { $(
            if only.as_deref().is_none_or(is_named::<$pair>) {
                made.push(compare::<$pair>);
            }
        )* };
    }
    with_all_pairs!(each);
    assert!(!made.is_empty(), "{KIND} names no kind");
    oracle::silence_panics();
    made
}

/// # Safety
/// As libFuzzer calls it: `size` bytes at `data`.
#[no_mangle]
pub unsafe extern "C" fn LLVMFuzzerTestOneInput(data: *const u8, size: usize) -> i32 {
    static COMPARISONS: OnceLock<Vec<Compare>> = OnceLock::new();
    let comparisons = COMPARISONS.get_or_init(comparisons);
    let bytes = if size == 0 { &[] } else { std::slice::from_raw_parts(data, size) };
    let mut input = Input(bytes);
    let compare = comparisons[usize::from(input.byte()) % comparisons.len()];
    if let Err(Difference(case)) = compare(input) {
        eprintln!("DIFFERENCE: {case}");
        std::process::abort();
    }
    0
}
