//! All messages of up to so many bytes, each against the same few references.
use crate::check::reading;
use crate::flat::Record;
use crate::pairs::Pair;
use crate::tally::{Asked, Tally};
use oracle::random::Rng;

/// Reads all messages of up to `longest` bytes, each followed by the tail, against so many references.
pub fn run<P: Pair>(seed: u64, longest: usize, tail: &[u8], references: usize, tally: &mut Tally) {
    for r in P::references(&mut Rng::of_seed(seed), references) {
        let flat_ref = P::flat_ref(&r);
        let mut record = P::Flat::UNTOUCHED;
        for length in 0..=longest {
            let mut message = vec![0; length];
            message.extend_from_slice(tail);
            loop {
                let mut read =
                    |strict| reading::<P>(strict, &message, 0, (&r, &flat_ref), &mut record);
                if P::STRICT {
                    tally.count(Asked::ShortStrict, read(true));
                }
                tally.count(Asked::ShortLenient, read(false));
                if !next(&mut message[..length]) {
                    break;
                }
            }
        }
    }
}

/// The next message of its length; false after the last.
fn next(message: &mut [u8]) -> bool {
    for b in message.iter_mut().rev() {
        *b = b.wrapping_add(1);
        if *b != 0 {
            return true;
        }
    }
    false
}
