//! One case put to the original and to the archive, and everything compared that is left behind.
use crate::flat::{Record, FILL};
use crate::pairs::Pair;
use oracle::answer::{from_start, guarded, Outcome};
use oracle::text::{put_hex, put_number};
use ufotofu::{FromSlice, IntoVec};
use ufotofu_codec::{Blame, DecodeError};

/// A case on which the two differ: a case line (docs/CASES.md), and what each answered.
pub struct Difference(pub String);

/// 0 or the number of a refusal, on which both agree.
pub type Agreed = Result<u8, Difference>;

/// What a count holds before a call.
pub const NO_COUNT: usize = usize::from_ne_bytes([FILL; 8]);

fn case_line<P: Pair>(op: char, r: &P::Ref, rest: impl FnOnce(&mut Vec<u8>)) -> String {
    let mut line = format!("{}\t{op}\t", P::KIND).into_bytes();
    P::put_ref(&mut line, r, op == 's' || op == 'l');
    rest(&mut line);
    String::from_utf8(line).expect("case lines are text")
}
fn difference(case: String, original: &str, archive: &str) -> Difference {
    Difference(format!("{case}\n    original  {original}\n    archive   {archive}"))
}

/// Reading. The record is lent untouched and left so.
pub fn reading<P: Pair>(
    strict: bool,
    message: &[u8],
    start: usize,
    (r, flat_ref): (&P::Ref, &P::FlatRef),
    record: &mut P::Flat,
) -> Agreed {
    let mut from = FromSlice::new(from_start(message, start as u64));
    let original = guarded(|| P::read(strict, &mut from, r));
    let mut consumed = NO_COUNT;
    let answer = P::decode(message, start, strict, flat_ref, record, &mut consumed);
    let (expected, same) = match &original {
        Outcome::Done(Ok(v)) => (0, consumed == from.pos && *record == P::flat(v)),
        Outcome::Done(Err(e)) => (
            match e {
                DecodeError::UnexpectedEndOfInput(()) => 1,
                DecodeError::Other(Blame::TheirFault) => 2,
                DecodeError::Other(Blame::OurFault) => u8::MAX,
                DecodeError::Producer(e) => match *e {},
            },
            consumed == 0 && *record == P::Flat::UNTOUCHED,
        ),
        Outcome::Panicked => (u8::MAX, true),
    };
    if answer == expected && same {
        if answer == 0 {
            *record = P::Flat::UNTOUCHED;
        }
        return Ok(answer);
    }
    let case = case_line::<P>(if strict { 's' } else { 'l' }, r, |out| {
        put_number(out, start as u64);
        out.push(b'\t');
        put_hex(out, message);
    });
    let theirs = match &original {
        Outcome::Done(Ok(v)) => format!("ok {} {:02x?}", from.pos, P::flat(v)),
        Outcome::Done(Err(e)) => format!("{e:?}"),
        Outcome::Panicked => "panicked".into(),
    };
    let ours = format!("{answer} {consumed} {record:02x?}");
    *record = P::Flat::UNTOUCHED;
    Err(difference(case, &theirs, &ours))
}

/// A copy of a buffer to be lent, with bytes behind it that nobody may change.
#[derive(Default)]
pub struct Fenced(Vec<u8>);
impl Fenced {
    const BEHIND: [u8; 16] = [FILL; 16];
    pub fn lend(&mut self, buffer: &[u8]) -> &mut [u8] {
        self.0.clear();
        self.0.extend_from_slice(buffer);
        self.0.extend_from_slice(&Self::BEHIND);
        &mut self.0[..buffer.len()]
    }
    /// What was lent; with what stands behind it, if that was changed.
    pub fn back(&self) -> &[u8] {
        self.0.strip_suffix(&Self::BEHIND).unwrap_or(&self.0)
    }
}

/// A value to be written against a reference, with what the original writes.
pub struct Writing<'a, P: Pair> {
    v: &'a P::Val,
    r: &'a P::Ref,
    flat: P::Flat,
    flat_ref: &'a P::FlatRef,
    /// The tag that stands elsewhere, and the bytes; none outside the reference.
    original: Option<(Option<u8>, Vec<u8>)>,
}
impl<'a, P: Pair> Writing<'a, P> {
    pub fn new(v: &'a P::Val, (r, flat_ref): (&'a P::Ref, &'a P::FlatRef)) -> Self {
        let original = match guarded(|| {
            let mut into = IntoVec::default();
            (P::write_into(v, r, &mut into), into.0)
        }) {
            Outcome::Done(written) => Some(written),
            Outcome::Panicked => None,
        };
        Writing { v, r, flat: P::flat(v), flat_ref, original }
    }
    pub fn flat(&self) -> &P::Flat {
        &self.flat
    }
    /// How many bytes the original writes.
    pub fn length(&self) -> Option<usize> {
        self.original.as_ref().map(|o| o.1.len())
    }

    /// Writing into a copy of the buffer.
    pub fn into_buffer(&self, buffer: &[u8], work: &mut Fenced) -> Agreed {
        let (mut tag, mut written) = (FILL, NO_COUNT);
        let answer =
            P::encode(work.lend(buffer), &self.flat, self.flat_ref, &mut tag, &mut written);
        let work = work.back();
        let (expected, same) = match &self.original {
            None => (3, written == 0 && tag == FILL && work == buffer),
            Some((_, bytes)) if bytes.len() > buffer.len() => {
                (4, written == 0 && tag == FILL && work == buffer)
            }
            Some((their_tag, bytes)) => (
                0,
                written == bytes.len()
                    && tag == their_tag.unwrap_or(FILL)
                    && work[..written] == bytes[..]
                    && work[written..] == buffer[written..],
            ),
        };
        if answer == expected && same {
            return Ok(answer);
        }
        let case = case_line::<P>('w', self.r, |out| {
            P::put_val(out, self.v);
            out.push(b'\t');
            put_hex(out, buffer);
        });
        let ours = format!("{answer} {written} tag {tag} {}", hex(work));
        let theirs = match &self.original {
            None => "panicked".into(),
            Some((tag, bytes)) => format!("tag {tag:?} {}", hex(bytes)),
        };
        Err(difference(case, &theirs, &ours))
    }

    /// The written length; and whether the two differ as listed.
    pub fn measured(&self) -> Result<(u8, bool), Difference> {
        let original = match guarded(|| P::length(self.v, self.r)) {
            Outcome::Done(n) => Some(n),
            Outcome::Panicked => None,
        };
        let mut length = NO_COUNT;
        let answer = P::len_of_encoding(&self.flat, self.flat_ref, &mut length);
        let listed = P::listed(self.v, self.r);
        let expected = match original {
            Some(n) if !listed => (0, n),
            _ => (3, 0),
        };
        if (answer, length) == expected {
            return Ok((answer, listed && original.is_some()));
        }
        let case = case_line::<P>('n', self.r, |out| P::put_val(out, self.v));
        Err(difference(case, &format!("{original:?}"), &format!("{answer} {length}")))
    }
}

fn hex(bytes: &[u8]) -> String {
    let mut out = Vec::new();
    put_hex(&mut out, bytes);
    String::from_utf8(out).expect("hex is text")
}

/// That a call which the original has no answer to was refused with a number, counting and changing nothing.
pub fn refused_with(
    number: u8,
    (answer, count): (u8, usize),
    unchanged: bool,
    case: impl FnOnce() -> String,
) -> Agreed {
    if answer == number && count == 0 && unchanged {
        return Ok(number);
    }
    let ours = format!("{answer} {count}, unchanged: {unchanged}");
    Err(difference(case(), &format!("none; docs/FORMAT.md says {number}"), &ours))
}
