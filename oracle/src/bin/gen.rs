//! `gen SEED COUNT [KIND]`: prints COUNT random case lines, the same ones for the same seed.
use oracle::answer::{guarded, Outcome};
use oracle::kinds::*;
use oracle::random::{messages, values, Random, Rng};
use oracle::text::*;
use std::io::{self, Write};

fn put_placed(out: &mut Vec<u8>, (start, m): (u64, Vec<u8>)) {
    put_number(out, start);
    out.push(b'\t');
    put_hex(out, &m);
}

fn of_kind<K: Random>(g: &mut Rng, out: &mut Vec<u8>) {
    let r = K::any_ref(g);
    let v = K::value(g, &r);
    let op = match g.below(20) {
        0..=6 if K::STRICT => b's',
        0..=13 => b'l',
        14..=17 => b'w',
        _ => b'n',
    };
    out.extend_from_slice(K::NAME.as_bytes());
    out.extend_from_slice(&[b'\t', op, b'\t']);
    if std::mem::size_of::<K::Ref>() > 0 {
        K::put_ref(out, &r);
        out.push(b'\t');
    }
    match op {
        b's' | b'l' => {
            let m = messages::message::<K>(g, &v, &r);
            put_placed(out, messages::placed(g, m));
        }
        b'w' => {
            K::put_val(out, &v);
            out.push(b'\t');
            let len = match guarded(|| K::write(&v, &r)) {
                Outcome::Done(m) => Some(m.len()),
                Outcome::Panicked => None,
            };
            put_hex(out, &messages::buffer(g, len));
        }
        _ => K::put_val(out, &v),
    }
}

fn of_number(g: &mut Rng, out: &mut Vec<u8>) {
    let w = g.pick(&[2u64, 3, 4, 5, 6, 7, 8]);
    let v = values::number_value(g);
    let op = g.pick(b"sslllwwn");
    out.extend_from_slice(b"number\t");
    out.extend_from_slice(&[op, b'\t']);
    put_number(out, w);
    out.push(b'\t');
    match op {
        b's' | b'l' => {
            let (tag, m) = messages::number_message(g, v, w);
            put_number(out, tag);
            out.push(b'\t');
            put_placed(out, messages::placed(g, m));
        }
        b'w' => {
            put_number(out, v);
            out.push(b'\t');
            let len = number::length(v, number::width(w).unwrap());
            put_hex(out, &messages::buffer(g, Some(len)));
        }
        _ => put_number(out, v),
    }
}

type Line = fn(&mut Rng, &mut Vec<u8>);
const KINDS: [(&str, Line); 9] = [
    ("number", of_number),
    (Standalone::NAME, of_kind::<Standalone>),
    (PlainPath::NAME, of_kind::<PlainPath>),
    (PathPath::NAME, of_kind::<PathPath>),
    (PathExtends::NAME, of_kind::<PathExtends>),
    (AreaArea::NAME, of_kind::<AreaArea>),
    (EntryArea::NAME, of_kind::<EntryArea>),
    (EntryEntry::NAME, of_kind::<EntryEntry>),
    (Range3dRange3d::NAME, of_kind::<Range3dRange3d>),
];
/// The records that are made of others get more lines than the small ones.
const SHARES: [usize; 19] = [0, 1, 2, 2, 3, 3, 4, 4, 5, 5, 5, 6, 6, 6, 7, 7, 8, 8, 8];

/// The seed, the count, and the lines to take, if the arguments are in their form.
fn arguments(args: &[String]) -> Option<(u64, u64, Option<Line>)> {
    let line = match args.get(3) {
        None => None,
        Some(kind) => Some(KINDS.iter().find(|k| k.0 == kind)?.1),
    };
    Some((args.get(1)?.parse().ok()?, args.get(2)?.parse().ok()?, line))
}

fn main() -> io::Result<()> {
    oracle::silence_panics();
    let args: Vec<String> = std::env::args().collect();
    let Some((seed, count, only)) = arguments(&args) else {
        eprintln!("gen SEED COUNT [KIND]   KIND: {}", KINDS.map(|k| k.0).join(" "));
        std::process::exit(2);
    };
    let mut g = Rng::of_seed(seed);
    let mut output = io::stdout().lock();
    let mut out = Vec::with_capacity(1 << 20);
    let mut made = 0;
    while made < count {
        let before = out.len();
        let line = only.unwrap_or_else(|| KINDS[g.pick(&SHARES)].1);
        line(&mut g, &mut out);
        if out.len() - before > LINE_LIMIT {
            out.truncate(before);
            continue;
        }
        out.push(b'\n');
        made += 1;
        if out.len() > 1 << 19 {
            output.write_all(&out)?;
            out.clear();
        }
    }
    output.write_all(&out)?;
    output.flush()
}
