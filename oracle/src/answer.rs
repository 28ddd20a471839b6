//! One case line in, one answer line out.
use crate::kinds::*;
use crate::text::*;
use crate::Refusal;
use std::panic::{catch_unwind, AssertUnwindSafe};
use ufotofu::FromSlice;
use ufotofu_codec::{Blame, DecodeError};

/// What became of a call into the original.
pub enum Outcome<T> {
    Done(T),
    Panicked,
}
pub fn guarded<T>(f: impl FnOnce() -> T) -> Outcome<T> {
    match catch_unwind(AssertUnwindSafe(f)) {
        Ok(t) => Outcome::Done(t),
        Err(_) => Outcome::Panicked,
    }
}

fn put_refusal(out: &mut Vec<u8>, e: &Refusal) {
    out.extend_from_slice(match e {
        DecodeError::UnexpectedEndOfInput(()) => b"no\t1",
        DecodeError::Other(Blame::TheirFault) => b"no\t2",
        DecodeError::Other(Blame::OurFault) => b"no\tourfault",
        DecodeError::Producer(e) => match *e {},
    })
}
fn put_no(out: &mut Vec<u8>, n: u64, buffer: &[u8]) {
    out.extend_from_slice(b"no\t");
    put_number(out, n);
    out.push(b'\t');
    put_hex(out, buffer);
}
/// The part of a message from a start that may lie past its end.
pub fn from_start(message: &[u8], start: u64) -> &[u8] {
    &message[usize::try_from(start).unwrap_or(usize::MAX).min(message.len())..]
}

/// Where `--check` reports answers that contradict each other.
pub type Report<'a> = Option<&'a mut dyn FnMut(&str)>;

fn of_kind<K: Kind>(
    op: &[u8],
    f: &mut Fields,
    out: &mut Vec<u8>,
    mut report: Report,
) -> Option<()> {
    let r = K::take_ref(f)?;
    match op {
        b"s" | b"l" => {
            let strict = op == b"s";
            if strict && !K::STRICT {
                return None;
            }
            let start = f.number()?;
            let message = f.bytes()?;
            f.done()?;
            let part = from_start(&message, start);
            let mut from = FromSlice::new(part);
            match guarded(|| K::read(strict, &mut from, &r)) {
                Outcome::Panicked => out.extend_from_slice(b"panic"),
                Outcome::Done(Err(e)) => put_refusal(out, &e),
                Outcome::Done(Ok(v)) => {
                    out.extend_from_slice(b"ok\t");
                    put_number(out, from.pos as u64);
                    out.push(b'\t');
                    K::put_val(out, &v);
                }
            }
            if let Some(c) = &mut report {
                check_reading::<K>(part, &r, *c);
            }
        }
        b"w" => {
            let v = K::take_val(f)?;
            let mut buffer = f.bytes()?;
            f.done()?;
            match guarded(|| K::write(&v, &r)) {
                Outcome::Panicked => put_no(out, 3, &buffer),
                Outcome::Done(enc) if enc.len() > buffer.len() => put_no(out, 4, &buffer),
                Outcome::Done(enc) => {
                    buffer[..enc.len()].copy_from_slice(&enc);
                    out.extend_from_slice(b"ok\t");
                    put_number(out, enc.len() as u64);
                    out.push(b'\t');
                    put_hex(out, &buffer);
                }
            }
            if let Some(c) = &mut report {
                check_writing::<K>(&v, &r, *c);
            }
        }
        b"n" => {
            let v = K::take_val(f)?;
            f.done()?;
            match guarded(|| K::length(&v, &r)) {
                Outcome::Panicked => out.extend_from_slice(b"no\t3"),
                Outcome::Done(n) => {
                    out.extend_from_slice(b"ok\t");
                    put_number(out, n as u64);
                }
            }
            if let Some(c) = &mut report {
                check_writing::<K>(&v, &r, *c);
            }
        }
        _ => return None,
    }
    Some(())
}

fn check_reading<K: Kind>(part: &[u8], r: &K::Ref, report: &mut dyn FnMut(&str)) {
    let mut lf = FromSlice::new(part);
    let lenient = guarded(|| K::read(false, &mut lf, r));
    let rewritten = match &lenient {
        Outcome::Panicked => return report("lenient reader panics"),
        Outcome::Done(Ok(v)) => Some(guarded(|| K::write(v, r))),
        Outcome::Done(Err(_)) => None,
    };
    if let Some(Outcome::Panicked) = rewritten {
        report("writer panics on what lenient accepted");
    }
    if !K::STRICT {
        return;
    }
    let mut sf = FromSlice::new(part);
    let strict = match guarded(|| K::read(true, &mut sf, r)) {
        Outcome::Panicked => return report("strict reader panics"),
        Outcome::Done(s) => s,
    };
    let same_bytes = matches!(&rewritten, Some(Outcome::Done(enc)) if enc[..] == part[..lf.pos]);
    match (&strict, &lenient) {
        (Ok(s), Outcome::Done(Ok(l))) => {
            if s != l || sf.pos != lf.pos {
                report("strict and lenient accept differently");
            }
            if !same_bytes {
                report("strict accepted what writing does not give");
            }
        }
        (Ok(_), _) => report("strict accepts, lenient refuses"),
        (Err(_), Outcome::Done(Ok(_))) if same_bytes => report("strict refuses what writing gives"),
        _ => {}
    }
}

fn check_writing<K: Kind>(v: &K::Val, r: &K::Ref, report: &mut dyn FnMut(&str)) {
    let enc = guarded(|| K::write(v, r));
    let len = guarded(|| K::length(v, r));
    match (&enc, &len) {
        (Outcome::Done(e), Outcome::Done(n)) if e.len() != *n => report("length differs"),
        (Outcome::Done(_), Outcome::Panicked) => report("length panics, writing does not"),
        (Outcome::Panicked, Outcome::Done(_)) => report("writing panics, length does not"),
        _ => {}
    }
    if let Outcome::Done(e) = enc {
        for strict in [false, true] {
            if strict && !K::STRICT {
                continue;
            }
            let mut from = FromSlice::new(&e);
            match guarded(|| K::read(strict, &mut from, r)) {
                Outcome::Done(Ok(back)) if back == *v && from.pos == e.len() => {}
                _ => report(if strict {
                    "strict does not read back what was written"
                } else {
                    "lenient does not read back what was written"
                }),
            }
        }
    }
}

fn of_number(op: &[u8], f: &mut Fields, out: &mut Vec<u8>) -> Option<()> {
    let w = f.number()?;
    let width = number::width(w)?;
    match op {
        b"s" | b"l" => {
            let tag = number::tag(w, f.number()?)?;
            let start = f.number()?;
            let message = f.bytes()?;
            f.done()?;
            let mut from = FromSlice::new(from_start(&message, start));
            match guarded(|| number::read(op == b"s", &mut from, &tag)) {
                Outcome::Panicked => out.extend_from_slice(b"panic"),
                Outcome::Done(Err(e)) => put_refusal(out, &e),
                Outcome::Done(Ok(v)) => {
                    out.extend_from_slice(b"ok\t");
                    put_number(out, from.pos as u64);
                    out.push(b'\t');
                    put_number(out, v);
                }
            }
        }
        b"w" => {
            let v = f.number()?;
            let mut buffer = f.bytes()?;
            f.done()?;
            let (tag, enc) = number::write(v, width);
            if enc.len() > buffer.len() {
                put_no(out, 4, &buffer);
            } else {
                buffer[..enc.len()].copy_from_slice(&enc);
                out.extend_from_slice(b"ok\t");
                put_number(out, enc.len() as u64);
                out.push(b'\t');
                put_number(out, tag as u64);
                out.push(b'\t');
                put_hex(out, &buffer);
            }
        }
        b"n" => {
            let v = f.number()?;
            f.done()?;
            out.extend_from_slice(b"ok\t");
            put_number(out, number::length(v, width) as u64);
        }
        _ => return None,
    }
    Some(())
}

/// Answers a line given without its newline; appends the answer and a newline.
pub fn answer(line: &[u8], out: &mut Vec<u8>, report: Report) {
    let before = out.len();
    if parts(line, out, report).is_none() {
        out.truncate(before);
        out.extend_from_slice(b"no\t6");
    }
    out.push(b'\n');
}

fn parts(line: &[u8], out: &mut Vec<u8>, report: Report) -> Option<()> {
    if line.len() > LINE_LIMIT {
        return None;
    }
    let mut f = Fields::new(line);
    let kind = f.next()?;
    if kind == b"raw" {
        out.extend_from_slice(b"skip");
        return Some(());
    }
    let op = f.next()?;
    let f = &mut f;
    match kind {
        b"number" => of_number(op, f, out),
        b"standalone" => of_kind::<Standalone>(op, f, out, report),
        b"path" => of_kind::<PlainPath>(op, f, out, report),
        b"path_path" => of_kind::<PathPath>(op, f, out, report),
        b"path_extends" => of_kind::<PathExtends>(op, f, out, report),
        b"area_area" => of_kind::<AreaArea>(op, f, out, report),
        b"entry_area" => of_kind::<EntryArea>(op, f, out, report),
        b"entry_entry" => of_kind::<EntryEntry>(op, f, out, report),
        b"range3d_range3d" => of_kind::<Range3dRange3d>(op, f, out, report),
        _ => None,
    }
}
