//! A second implementation of docs/FORMAT.md that shares no codec with the original Rust: same lines
//! in, same lines out.
mod read;
mod values;
mod write;

use oracle::text::*;
use read::Msg;
use std::io::{self, BufRead, Write};
use values::*;
use write::*;

fn tab(out: &mut Vec<u8>, f: impl FnOnce(&mut Vec<u8>)) {
    out.push(b'\t');
    f(out)
}
fn kind<R, V>(
    op: &[u8],
    f: &mut Fields,
    out: &mut Vec<u8>,
    has_strict: bool,
    r: Option<R>,
    value: fn(&mut Fields) -> Option<V>,
    put: fn(&mut Vec<u8>, &V),
    read: fn(&mut Msg, &R) -> Res<V>,
    write: fn(&V, &R) -> Res<Vec<u8>>,
) -> Option<()> {
    let r = r?;
    match op {
        b"s" | b"l" => {
            let strict = op == b"s";
            if strict && !has_strict {
                return None;
            }
            let start = f.number()?;
            let m = f.bytes()?;
            f.done()?;
            let rest = oracle::answer::from_start(&m, start);
            let mut msg = Msg { rest, strict };
            match read(&mut msg, &r) {
                Ok(v) => {
                    out.extend_from_slice(b"ok");
                    tab(out, |o| put_number(o, (rest.len() - msg.rest.len()) as u64));
                    tab(out, |o| put(o, &v));
                }
                Err(n) => {
                    out.extend_from_slice(b"no");
                    tab(out, |o| put_number(o, n));
                }
            }
        }
        b"w" => {
            let v = value(f)?;
            let mut b = f.bytes()?;
            f.done()?;
            let res = write(&v, &r).and_then(|e| {
                need(e.len() <= b.len(), 4)?;
                b[..e.len()].copy_from_slice(&e);
                Ok(e.len())
            });
            out.extend_from_slice(if res.is_ok() { b"ok" } else { b"no" });
            tab(out, |o| put_number(o, res.map_or_else(|n| n, |l| l as u64)));
            tab(out, |o| put_hex(o, &b));
        }
        b"n" => {
            let v = value(f)?;
            f.done()?;
            let res = write(&v, &r);
            out.extend_from_slice(if res.is_ok() { b"ok" } else { b"no" });
            tab(out, |o| put_number(o, res.map_or_else(|n| n, |e| e.len() as u64)));
        }
        _ => return None,
    }
    Some(())
}
fn number(op: &[u8], f: &mut Fields, out: &mut Vec<u8>) -> Option<()> {
    let w = f.number()?;
    if !(2..=8).contains(&w) {
        return None;
    }
    match op {
        b"s" | b"l" => {
            let tag = f.number()?;
            if tag >= 1 << w {
                return None;
            }
            let read = |m: &mut Msg, r: &(u8, u32)| m.number(r.0, r.1);
            let r = Some((tag as u8, w as u32));
            kind(op, f, out, true, r, |f| f.number(), |o, n| put_number(o, *n), read, |_, _| Err(0))
        }
        b"w" => {
            let v = f.number()?;
            let mut b = f.bytes()?;
            f.done()?;
            let (tag, e) = written(v, w as u32);
            if e.len() > b.len() {
                out.extend_from_slice(b"no\t4");
            } else {
                b[..e.len()].copy_from_slice(&e);
                out.extend_from_slice(b"ok");
                tab(out, |o| put_number(o, e.len() as u64));
                tab(out, |o| put_number(o, tag as u64));
            }
            tab(out, |o| put_hex(o, &b));
            Some(())
        }
        b"n" => {
            let v = f.number()?;
            f.done()?;
            out.extend_from_slice(b"ok");
            tab(out, |o| put_number(o, written(v, w as u32).1.len() as u64));
            Some(())
        }
        _ => None,
    }
}
fn parts(line: &[u8], out: &mut Vec<u8>) -> Option<()> {
    if line.len() > LINE_LIMIT {
        return None;
    }
    let mut fields = Fields::new(line);
    let f = &mut fields;
    let k = f.next()?;
    if k == b"raw" {
        out.extend_from_slice(b"skip");
        return Some(());
    }
    let op = f.next()?;
    match k {
        b"number" => number(op, f, out),
        b"standalone" => kind(
            op,
            f,
            out,
            true,
            Some(()),
            |f| f.number(),
            |o, n| put_number(o, *n),
            |m, _| m.standalone(),
            |v, _| Ok(w_standalone(*v)),
        ),
        b"path" => kind(
            op,
            f,
            out,
            true,
            Some(()),
            |f| f.path(),
            put_path,
            |m, _| Ok(path(&m.path()?)),
            |v, _| Ok(w_path(&comps(v))),
        ),
        b"path_path" => {
            let r = f.path();
            kind(
                op,
                f,
                out,
                true,
                r,
                |f| f.path(),
                put_path,
                |m, r| Ok(path(&m.path_path(&comps(r))?)),
                |v, r| Ok(w_path_path(&comps(v), &comps(r))),
            )
        }
        b"path_extends" => {
            let r = f.path();
            kind(
                op,
                f,
                out,
                true,
                r,
                |f| f.path(),
                put_path,
                |m, r| Ok(path(&m.path_extends(&comps(r))?)),
                |v, r| w_path_extends(&comps(v), &comps(r)),
            )
        }
        b"area_area" => {
            let r = f.area();
            kind(op, f, out, true, r, |f| f.area(), put_area, |m, r| m.area(r), w_area)
        }
        b"entry_area" => {
            let r = (|| Some((f.id()?, f.area()?)))();
            kind(
                op,
                f,
                out,
                true,
                r,
                |f| f.entry(),
                put_entry,
                |m, r| m.entry_area(r),
                w_entry_area,
            )
        }
        b"entry_entry" => {
            let r = f.entry();
            kind(
                op,
                f,
                out,
                false,
                r,
                |f| f.entry(),
                put_entry,
                |m, r| m.entry_entry(r),
                |v, r| Ok(w_entry_entry(v, r)),
            )
        }
        b"range3d_range3d" => {
            let r = f.range3d();
            kind(
                op,
                f,
                out,
                false,
                r,
                |f| f.range3d(),
                put_range3d,
                |m, r| m.range3d(r),
                |v, r| Ok(w_range3d(v, r)),
            )
        }
        _ => None,
    }
}

fn main() -> io::Result<()> {
    let mut input = io::BufReader::with_capacity(1 << 20, io::stdin().lock());
    let mut output = io::BufWriter::with_capacity(1 << 20, io::stdout().lock());
    let mut line = Vec::new();
    let mut out = Vec::new();
    loop {
        line.clear();
        if input.read_until(b'\n', &mut line)? == 0 {
            return output.flush();
        }
        if line.last() == Some(&b'\n') {
            line.pop();
        }
        out.clear();
        if parts(&line, &mut out).is_none() {
            out = b"no\t6".to_vec();
        }
        out.push(b'\n');
        output.write_all(&out)?;
    }
}
