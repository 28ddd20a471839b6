//! How long the original and the proved archive take on the same inputs, in one process, as a table in markdown.
//!
//! The archive reads into a lent record, writes into a lent buffer and tests, as always, that the records handed in are
//! well formed. What the original does stands below the table.
mod inputs;

use inputs::{Measured, Size, VARIANTS};
use linked::flat::Record;
use linked::numbers::Number;
use oracle::kinds::*;
use std::hint::black_box;
use std::time::{Duration, Instant};
use ufotofu::{FromSlice, IntoVec};

/// How long a round takes, about, and how many there are after the first, which warms up. The best counts.
const ROUND: Duration = Duration::from_millis(20);
const ROUNDS: usize = 9;
/// More than any encoding has.
const ROOM: usize = 4096;

/// Nanoseconds per call, the variants taken in turn.
fn nanoseconds(mut call: impl FnMut(usize)) -> f64 {
    let mut round = |turns: usize| {
        let begun = Instant::now();
        for _ in 0..turns {
            for i in 0..VARIANTS {
                call(i);
            }
        }
        begun.elapsed()
    };
    let mut turns = 1;
    while round(turns) < ROUND {
        turns *= 2;
    }
    let best = (0..ROUNDS).map(|_| round(turns)).min().expect("there are rounds");
    best.as_nanos() as f64 / (turns * VARIANTS) as f64
}

fn row(kind: &str, size: &str, asked: &str, bytes: f64, original: f64, archive: f64) {
    // Bytes in a nanosecond are gigabytes in a second.
    let speed = |ns: f64| 1000.0 * bytes / ns;
    println!(
        "| {kind} | {size} | {bytes:.0} | {asked} | {original:.1} | {:.0} | {archive:.1} | {:.0} | {:.2} |",
        speed(original),
        speed(archive),
        original / archive
    );
}

fn measure<P: Measured>(size: Size, size_name: &str) {
    let variants: Vec<_> = (0..VARIANTS).map(|i| P::variant(size, i)).collect();
    let flat: Vec<_> = variants.iter().map(|(r, v)| (P::flat_ref(r), P::flat(v))).collect();
    let messages: Vec<Vec<u8>> = variants
        .iter()
        .map(|(r, v)| {
            let mut into = IntoVec::default();
            P::write_into(v, r, &mut into);
            into.0
        })
        .collect();
    let bytes = messages.iter().map(Vec::len).sum::<usize>() as f64 / VARIANTS as f64;
    let row = |asked, original, archive| row(P::NAME, size_name, asked, bytes, original, archive);

    let mut record = P::Flat::UNTOUCHED;
    for (strict, asked) in [(true, "strict reading"), (false, "lenient reading")] {
        if strict && !P::STRICT {
            continue;
        }
        let original = nanoseconds(|i| {
            let mut from = FromSlice::new(black_box(&messages[i]));
            let read = P::read(strict, &mut from, black_box(&variants[i].0));
            assert!(black_box(&read).is_ok());
        });
        let archive = nanoseconds(|i| {
            let (message, r) = black_box((&messages[i], &flat[i].0));
            let mut consumed = 0;
            let answer = P::decode(message, 0, strict, r, &mut record, &mut consumed);
            black_box(&record);
            assert!(black_box((answer, consumed)).0 == 0);
        });
        row(asked, original, archive);
    }

    let mut into = IntoVec(Vec::with_capacity(ROOM));
    let mut buffer = [0; ROOM];
    let original = nanoseconds(|i| {
        let (r, v) = black_box(&variants[i]);
        into.0.clear();
        black_box(P::write_into(v, r, &mut into));
        black_box(&into.0);
    });
    let archive = nanoseconds(|i| {
        let (r, v) = black_box(&flat[i]);
        let (mut tag, mut written) = (0, 0);
        let answer = P::encode(&mut buffer, v, r, &mut tag, &mut written);
        black_box(&buffer);
        assert!(black_box((answer, tag, written)).0 == 0);
    });
    row("writing", original, archive);

    let original = nanoseconds(|i| {
        let (r, v) = black_box(&variants[i]);
        black_box(P::length(v, r));
    });
    let archive = nanoseconds(|i| {
        let (r, v) = black_box(&flat[i]);
        let mut length = 0;
        let answer = P::len_of_encoding(v, r, &mut length);
        assert!(black_box((answer, length)).0 == 0);
    });
    row("length", original, archive);
}

fn both_sizes<P: Measured>() {
    measure::<P>(Size::Short, "short");
    measure::<P>(Size::Limit, "limit");
}

fn main() {
    println!("| kind | size | bytes | asked | original, ns | MB/s | archive, ns | MB/s | original / archive |");
    println!("|---|---|---|---|---|---|---|---|---|");
    measure::<Number<4>>(Size::Short, "");
    measure::<Standalone>(Size::Short, "");
    both_sizes::<PlainPath>();
    both_sizes::<PathPath>();
    both_sizes::<PathExtends>();
    both_sizes::<AreaArea>();
    both_sizes::<EntryArea>();
    both_sizes::<EntryEntry>();
    both_sizes::<Range3dRange3d>();
    println!();
    println!(
        "Best of {ROUNDS} rounds, {VARIANTS} variants in turn; bytes are those of an encoding. The original runs over the oracle's \
         stand-ins and writes into a vector whose capacity was reserved before; reading includes dropping what was read."
    );
}
