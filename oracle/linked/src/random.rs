//! Random cases of a kind, as the generator of case lines makes them.
use crate::check::{reading, Fenced, Writing};
use crate::flat::Record;
use crate::ill_formed::{self, Lent};
use crate::pairs::Pair;
use crate::tally::{Asked, Tally};
use oracle::random::{messages, Rng};

/// One case in so many is written into buffers of every length.
const EVERY_ROOM: u64 = 32;
/// And its buffers are so much longer than the encoding, at most.
const MORE_ROOM: usize = 3;

pub fn run<P: Pair>(seed: u64, cases: u64, tally: &mut Tally) {
    let mut g = Rng::of_seed(seed);
    let mut record = P::Flat::UNTOUCHED;
    let mut work = Fenced::default();
    for i in 0..cases {
        let mut r = P::any_ref(&mut g);
        let v = P::value(&mut g, &r);
        let message = P::message(&mut g, &v, &mut r);
        let (start, message) = messages::placed(&mut g, message);
        let start = start as usize;
        let flat_ref = P::flat_ref(&r);
        let references = (&r, &flat_ref);
        if P::STRICT {
            let read = reading::<P>(true, &message, start, references, &mut record);
            tally.count(Asked::Strict, read);
        }
        let read = reading::<P>(false, &message, start, references, &mut record);
        tally.count(Asked::Lenient, read);

        let writing = Writing::<P>::new(&v, references);
        let buffer = messages::buffer(&mut g, writing.length());
        tally.count(Asked::Writing, writing.into_buffer(&buffer, &mut work));
        tally.count_length(writing.measured());
        if i % EVERY_ROOM == 0 {
            let longest = writing.length().unwrap_or(0) + MORE_ROOM;
            let buffer: Vec<u8> = (0..longest).map(|_| g.byte()).collect();
            for room in 0..=longest {
                let written = writing.into_buffer(&buffer[..room], &mut work);
                tally.count(Asked::EveryRoom, written);
            }
        }

        let count = |agreed| tally.count(Asked::IllFormed, agreed);
        if P::TAGGED {
            ill_formed::tags_and_widths(&mut g, &message, start, count);
        } else {
            let lent = &mut Lent::<P> {
                message: &message,
                start,
                buffer: &buffer,
                work: &mut work,
                record: &mut record,
            };
            ill_formed::spoilt::<P>(&mut g, writing.flat(), &flat_ref, lent, count);
        }
    }
}
