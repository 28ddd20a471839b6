//! Writing; 3 where the value lies outside the reference.
use crate::values::*;
use oracle::{Area, Entry, Id, Path, Range3d};
use willow_data_model::grouping::{AreaSubspace, RangeEnd};

pub fn written(n: u64, w: u32) -> (u8, Vec<u8>) {
    let first = (1u64 << w) - 4;
    if n < first {
        return (n as u8, vec![]);
    }
    let i = [8u32, 16, 32, 64].iter().position(|b| *b == 64 || n >> b == 0).unwrap();
    (first as u8 + i as u8, n.to_be_bytes()[8 - (1 << i)..].to_vec())
}
pub fn w_standalone(n: u64) -> Vec<u8> {
    let (t, b) = written(n, 8);
    [vec![t], b].concat()
}
pub fn w_path(c: &[Vec<u8>]) -> Vec<u8> {
    let (lt, lb) = written(total(c) as u64, 4);
    let (ct, cb) = written(c.len() as u64, 4);
    let mut out = [vec![lt << 4 | ct], lb, cb].concat();
    for (i, x) in c.iter().enumerate() {
        if i + 1 < c.len() {
            out.extend(w_standalone(x.len() as u64));
        }
        out.extend(x);
    }
    out
}
fn shared(c: &Comps, r: &Comps) -> usize {
    c.iter().zip(r).take_while(|(a, b)| a == b).count()
}
pub fn w_path_path(c: &Comps, r: &Comps) -> Vec<u8> {
    let n = shared(c, r);
    [w_standalone(n as u64), w_path(&c[n..])].concat()
}
pub fn w_path_extends(c: &Comps, r: &Comps) -> Res<Vec<u8>> {
    need(c.starts_with(r), 3)?;
    Ok(w_path(&c[r.len()..]))
}
/// Added, and the difference; a tie adds.
fn smaller(t: u64, s: u64, e: u64) -> (bool, u64) {
    if t - s <= e - t {
        (true, t - s)
    } else {
        (false, e - t)
    }
}
pub fn w_area(v: &Area, r: &Area) -> Res<Vec<u8>> {
    let mut id = vec![];
    let mut h = 0u8;
    match (v.subspace(), r.subspace()) {
        (AreaSubspace::Any, AreaSubspace::Any) => {}
        (AreaSubspace::Any, _) => return Err(3),
        (AreaSubspace::Id(a), AreaSubspace::Id(b)) => need(a == b, 3)?,
        (AreaSubspace::Id(a), AreaSubspace::Any) => {
            h = 0x80;
            id = a.0.to_vec();
        }
    }
    let p = w_path_extends(&comps(v.path()), &comps(r.path()))?;
    let (s, e) = (r.times().start, as_top(&r.times().end));
    let (vs, ve) = (v.times().start, as_top(&v.times().end));
    need(range_in(vs, &v.times().end, r.times()), 3)?;
    need(s <= vs && vs <= e && s <= ve && ve <= e, 3)?;
    let (add, d) = smaller(vs, s, e);
    let (tag, mut times) = written(d, 2);
    h |= (add as u8) << 5 | tag << 2;
    if v.times().end == RangeEnd::Open {
        h |= 0x40;
    } else {
        let (add, d) = smaller(ve, s, e);
        let (tag, b) = written(d, 2);
        h |= (add as u8) << 4 | tag;
        times.extend(b);
    }
    Ok([vec![h], id, times, p].concat())
}
pub fn w_entry_area(v: &Entry, r: &(Id, Area)) -> Res<Vec<u8>> {
    need(*v.namespace_id() == r.0, 3)?;
    let mut h = 0u8;
    let mut id = vec![];
    match r.1.subspace() {
        AreaSubspace::Any => {
            h = 0x80;
            id = v.subspace_id().0.to_vec();
        }
        AreaSubspace::Id(i) => need(i == v.subspace_id(), 3)?,
    }
    let (c, rc) = (comps(v.path()), comps(r.1.path()));
    need(c.starts_with(&rc), 3)?;
    let t = v.timestamp();
    need(time_in(t, r.1.times()), 3)?;
    let (add, d) = smaller(t, r.1.times().start, as_top(&r.1.times().end));
    let (tt, tb) = written(d, 2);
    let (lt, lb) = written(v.payload_length(), 2);
    h |= (add as u8) << 6 | tt << 4 | lt << 2;
    Ok([vec![h], id, w_path_path(&c, &rc), tb, lb, v.payload_digest().0.to_vec()].concat())
}
pub fn w_entry_entry(v: &Entry, r: &Entry) -> Vec<u8> {
    let mut h = 0u8;
    let mut ids = vec![];
    if v.namespace_id() != r.namespace_id() {
        h |= 0x80;
        ids.extend(v.namespace_id().0);
    }
    if v.subspace_id() != r.subspace_id() {
        h |= 0x40;
        ids.extend(v.subspace_id().0);
    }
    if v.timestamp() > r.timestamp() {
        h |= 0x20;
    }
    let (tt, tb) = written(v.timestamp().abs_diff(r.timestamp()), 2);
    let (lt, lb) = written(v.payload_length(), 3);
    h |= tt << 3 | lt;
    let p = w_path_path(&comps(v.path()), &comps(r.path()));
    [vec![h], ids, tb, lb, p, v.payload_digest().0.to_vec()].concat()
}
/// A path or time is written against the reference's start or end, whichever is closer; the start
/// on a tie, and where the end is open.
pub fn w_range3d(v: &Range3d, r: &Range3d) -> Vec<u8> {
    let sub = r.subspaces();
    let mut ids = vec![];
    let mut flag = |id: &Id| {
        if *id == sub.start {
            1u8
        } else if sub.end == RangeEnd::Closed(*id) {
            2
        } else {
            ids.extend(id.0);
            3
        }
    };
    let sf = flag(&v.subspaces().start);
    let ef = match &v.subspaces().end {
        RangeEnd::Open => 0,
        RangeEnd::Closed(id) => flag(id),
    };
    let start = comps(&r.paths().start);
    let rel = |p: &Path| {
        let c = comps(p);
        match &r.paths().end {
            RangeEnd::Closed(e) if shared(&c, &comps(e)) > shared(&c, &start) => {
                (0u8, w_path_path(&c, &comps(e)))
            }
            _ => (1, w_path_path(&c, &start)),
        }
    };
    let (pf, mut paths) = rel(&v.paths().start);
    let mut h = sf << 6 | ef << 4 | pf << 3;
    match &v.paths().end {
        RangeEnd::Open => h |= 4,
        RangeEnd::Closed(p) => {
            let (f, b) = rel(p);
            h |= f << 1;
            paths.extend(b);
        }
    }
    let time = |t: u64| {
        let (flag, base) = match r.times().end {
            RangeEnd::Closed(e) if t.abs_diff(e) < t.abs_diff(r.times().start) => (0u8, e),
            _ => (8, r.times().start),
        };
        let (tag, b) = written(t.abs_diff(base), 2);
        (flag | ((t >= base) as u8) << 2 | tag, b)
    };
    let (f, mut times) = time(v.times().start);
    let mut k = f << 4;
    match v.times().end {
        RangeEnd::Open => h |= 1,
        RangeEnd::Closed(e) => {
            let (f, b) = time(e);
            k |= f;
            times.extend(b);
        }
    }
    [vec![h, k], ids, paths, times].concat()
}
