//! Reading: fields and checks in the order of docs/FORMAT.md; the first that fails gives 1 or 2.
use crate::values::*;
use crate::write::written;
use oracle::{Area, Entry, Id, Range3d, MCC, MCL, MPL};
use willow_data_model::grouping::{AreaSubspace, Range, RangeEnd};

pub struct Msg<'a> {
    pub rest: &'a [u8],
    pub strict: bool,
}
impl Msg<'_> {
    fn byte(&mut self) -> Res<u8> {
        let (b, rest) = self.rest.split_first().ok_or(1u64)?;
        self.rest = rest;
        Ok(*b)
    }
    fn bytes(&mut self, n: usize) -> Res<Vec<u8>> {
        need(n <= self.rest.len(), 1)?;
        let (a, b) = self.rest.split_at(n);
        self.rest = b;
        Ok(a.to_vec())
    }
    fn id(&mut self) -> Res<Id> {
        Ok(Id(self.bytes(32)?.try_into().unwrap()))
    }
    pub fn number(&mut self, tag: u8, w: u32) -> Res<u64> {
        let first = (1u64 << w) - 4;
        let t = tag as u64;
        if t < first {
            return Ok(t);
        }
        let n = self.bytes(1 << (t - first))?.iter().fold(0u64, |a, b| a << 8 | *b as u64);
        need(!self.strict || written(n, w).0 == tag, 2)?;
        Ok(n)
    }
    pub fn standalone(&mut self) -> Res<u64> {
        let t = self.byte()?;
        self.number(t, 8)
    }
    fn total_and_count(&mut self) -> Res<(u64, u64)> {
        let h = self.byte()?;
        Ok((self.number(h >> 4, 4)?, self.number(h & 15, 4)?))
    }
    /// The suffix's components, once its total and count are known and fit.
    fn components(&mut self, total: u64, count: u64) -> Res<Comps> {
        let mut left = total as i64;
        let mut c = vec![];
        if count == 0 {
            need(total == 0, 2)?;
        }
        for i in 0..count {
            let n = if i + 1 < count {
                let n = self.standalone()?;
                need(n <= MCL as u64, 2)?;
                n as i64
            } else {
                need(left >= 0, 2)?;
                need(left <= MCL as i64, 2)?;
                left
            };
            left -= n;
            c.push(self.bytes(n as usize)?);
        }
        Ok(c)
    }
    pub fn path(&mut self) -> Res<Comps> {
        let (t, n) = self.total_and_count()?;
        need(t <= MPL as u64 && n <= MCC as u64, 2)?;
        self.components(t, n)
    }
    pub fn path_path(&mut self, r: &Comps) -> Res<Comps> {
        let shared = self.standalone()?;
        let (t, n) = self.total_and_count()?;
        need(shared <= r.len() as u64, 2)?;
        let shared = shared as usize;
        let mut c = r[..shared].to_vec();
        need(t as u128 + total(&c) as u128 <= MPL as u128, 2)?;
        need(n as u128 + shared as u128 <= MCC as u128, 2)?;
        c.extend(self.components(t, n)?);
        if self.strict && shared < r.len() && shared < c.len() {
            need(r[shared] != c[shared], 2)?;
        }
        Ok(c)
    }
    pub fn path_extends(&mut self, r: &Comps) -> Res<Comps> {
        let suffix = self.path()?;
        let c = [r.clone(), suffix].concat();
        need(total(&c) <= MPL && c.len() <= MCC, 2)?;
        Ok(c)
    }
    /// A time inside the reference with the smaller difference.
    fn inside(&mut self, add: bool, tag: u8, s: u64, e: u64) -> Res<u64> {
        let d = self.number(tag, 2)?;
        let t = if add { s.checked_add(d) } else { e.checked_sub(d) }.ok_or(2u64)?;
        need(s <= t && t <= e, 2)?;
        need(d == (t - s).min(e - t), 2)?;
        if self.strict {
            need(add == (t - s <= e - t), 2)?;
        }
        Ok(t)
    }
    pub fn area(&mut self, r: &Area) -> Res<Area> {
        let h = self.byte()?;
        let open = h & 0x40 != 0;
        if self.strict && open {
            need(h & 0x13 == 0, 2)?;
        }
        let mut sub = r.subspace().clone();
        if h & 0x80 != 0 {
            let id = self.id()?;
            if let AreaSubspace::Id(rid) = r.subspace() {
                need(!self.strict && *rid == id, 2)?;
            }
            sub = AreaSubspace::Id(id);
        }
        let (s, e) = (r.times().start, as_top(&r.times().end));
        let start = self.inside(h & 0x20 != 0, h >> 2 & 3, s, e)?;
        let end = if open {
            need(h & 0x10 == 0, 2)?;
            RangeEnd::Open
        } else {
            RangeEnd::Closed(self.inside(h & 0x10 != 0, h & 3, s, e)?)
        };
        need(range_in(start, &end, r.times()), 2)?;
        let p = self.path_extends(&comps(r.path()))?;
        Ok(Area::new(sub, path(&p), Range::new(start, end)))
    }
    pub fn entry_area(&mut self, r: &(Id, Area)) -> Res<Entry> {
        let h = self.byte()?;
        need(h & 3 == 0, 2)?;
        let any = r.1.subspace() == &AreaSubspace::Any;
        need((h & 0x80 != 0) == any, 2)?;
        let id = match r.1.subspace() {
            AreaSubspace::Any => self.id()?,
            AreaSubspace::Id(i) => *i,
        };
        let rp = comps(r.1.path());
        let p = self.path_path(&rp)?;
        need(p.starts_with(&rp), 2)?;
        let (s, e) = (r.1.times().start, as_top(&r.1.times().end));
        let d = self.number(h >> 4 & 3, 2)?;
        let add = h & 0x40 != 0;
        let t = if add { s.checked_add(d) } else { e.checked_sub(d) }.ok_or(2u64)?;
        need(time_in(t, r.1.times()), 2)?;
        if self.strict {
            need(add == (t - s <= e - t), 2)?;
        }
        let n = self.number(h >> 2 & 3, 2)?;
        Ok(Entry::new(r.0, id, path(&p), t, n, self.id()?))
    }
    pub fn entry_entry(&mut self, r: &Entry) -> Res<Entry> {
        let h = self.byte()?;
        let ns = if h & 0x80 != 0 { self.id()? } else { *r.namespace_id() };
        let ss = if h & 0x40 != 0 { self.id()? } else { *r.subspace_id() };
        let d = self.number(h >> 3 & 3, 2)?;
        let t = r.timestamp();
        let t = if h & 0x20 != 0 { t.checked_add(d) } else { t.checked_sub(d) }.ok_or(2u64)?;
        let n = self.number(h & 7, 3)?;
        let p = self.path_path(&comps(r.path()))?;
        Ok(Entry::new(ns, ss, path(&p), t, n, self.id()?))
    }
    pub fn range3d(&mut self, r: &Range3d) -> Res<Range3d> {
        let (h, k) = (self.byte()?, self.byte()?);
        let sub = r.subspaces();
        let id = |me: &mut Self, flags: u8| match (flags, &sub.end) {
            (1, _) => Ok(sub.start),
            (2, RangeEnd::Closed(e)) => Ok(*e),
            (3, e) => {
                let id = me.id()?;
                need(id != sub.start && *e != RangeEnd::Closed(id), 2)?;
                Ok(id)
            }
            _ => Err(2u64),
        };
        let ss = id(self, h >> 6)?;
        let se = match h >> 4 & 3 {
            0 => RangeEnd::Open,
            f => RangeEnd::Closed(id(self, f)?),
        };
        let p = r.paths();
        let base = |start: bool| match (&p.end, start) {
            (_, true) => Ok(comps(&p.start)),
            (RangeEnd::Closed(e), false) => Ok(comps(e)),
            _ => Err(2u64),
        };
        let ps = self.path_path(&base(h & 8 != 0)?)?;
        let pe = match h & 4 != 0 {
            true => RangeEnd::Open,
            false => RangeEnd::Closed(path(&self.path_path(&base(h & 2 != 0)?)?)),
        };
        let time = |me: &mut Self, flags: u8, tag: u8| {
            let d = me.number(tag, 2)?;
            let base = match (flags & 2 != 0, &r.times().end) {
                (true, _) => r.times().start,
                (false, RangeEnd::Closed(e)) => *e,
                _ => return Err(2u64),
            };
            if flags & 1 != 0 { base.checked_add(d) } else { base.checked_sub(d) }.ok_or(2u64)
        };
        let ts = time(self, k >> 6, k >> 4 & 3)?;
        let te = match h & 1 != 0 {
            true => RangeEnd::Open,
            false => RangeEnd::Closed(time(self, k >> 2 & 3, k & 3)?),
        };
        Ok(Range3d::new(Range::new(ss, se), Range::new(path(&ps), pe), Range::new(ts, te)))
    }
}
