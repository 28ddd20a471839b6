//! Non-canonical and wrong encodings: any width that holds a number, any flag that might do.
use super::paths::*;
use super::values::*;
use super::Rng;
use crate::{Area, Entry, Id, Path, Range3d, MCC, MCL, MPL};
use willow_data_model::grouping::{AreaSubspace, Range, RangeEnd};

/// How far the loose writer strays, in percent, at each choice.
pub struct Loose<'a> {
    pub g: &'a mut Rng,
    pub stray: usize,
}
impl Loose<'_> {
    fn odd(&mut self) -> bool {
        let s = self.stray;
        self.g.chance(s)
    }
    /// The tag and the bytes after it.
    pub fn number(&mut self, n: u64, w: u32) -> (u8, Vec<u8>) {
        let long = (1u64 << w) - 4;
        let least = match n {
            n if n < 1 << 8 => 0,
            n if n < 1 << 16 => 1,
            n if n < 1 << 32 => 2,
            _ => 3,
        };
        if n < long && !self.odd() {
            return (n as u8, vec![]);
        }
        let i = if self.odd() { least + self.g.below(4 - least) } else { least };
        ((long as usize + i) as u8, n.to_be_bytes()[8 - (1 << i)..].to_vec())
    }
    pub fn standalone(&mut self, n: u64) -> Vec<u8> {
        let (tag, rest) = self.number(n, 8);
        [vec![tag], rest].concat()
    }
    fn comps(&mut self, c: &[Vec<u8>]) -> Vec<u8> {
        let mut total = c.iter().map(|x| x.len() as u64).sum::<u64>();
        let mut count = c.len() as u64;
        // Now and then a claim that does not hold.
        match self.g.below(60) {
            0 => total = total.wrapping_add(self.g.below(3) as u64),
            1 => total = total.saturating_sub(1 + self.g.below(3) as u64),
            2 => {
                let bounds = [0, 11, 12, MCL - 1, MCL, MCL + 1, MPL - 1, MPL, MPL + 1, usize::MAX];
                total = self.g.pick(&bounds) as u64
            }
            3 => count = count.wrapping_add(1),
            4 => count = count.saturating_sub(1),
            5 => {
                let bounds = [0, 1, 11, 12, MCC - 1, MCC, MCC + 1, 255, 256, usize::MAX];
                count = self.g.pick(&bounds) as u64
            }
            _ => {}
        }
        let (lt, lb) = self.number(total, 4);
        let (ct, cb) = self.number(count, 4);
        let mut out = [vec![lt << 4 | ct], lb, cb].concat();
        for (i, x) in c.iter().enumerate() {
            if i + 1 < c.len() || self.g.chance(1) {
                let mut n = x.len() as u64;
                if self.g.chance(1) {
                    n = self.g.pick(&[0, 1, MCL - 1, MCL, MCL + 1, MPL, usize::MAX]) as u64;
                }
                out.extend(self.standalone(n));
            }
            out.extend(x);
        }
        out
    }
    /// A path nobody could hold, and at times one that could: for overruns and joined limits.
    fn big_comps(&mut self) -> Comps {
        let g = &mut *self.g;
        match g.below(5) {
            0 => vec![vec![0x61; MCL]; 1 + g.below(4)],
            1 => vec![vec![0x61; g.below(2)]; MCC - 2 + g.below(6)],
            2 => (0..1 + g.below(6)).map(|_| vec![0x62; g.below(MCL + 2)]).collect(),
            3 => vec![vec![0x61; MCL - 50 + g.below(53)]; 1 + g.below(4)],
            _ => vec![vec![0x61; (MPL + 1) / (1 + g.below(MCC))]; 1 + g.below(MCC + 2)],
        }
    }
    pub fn path(&mut self, p: &Path) -> Vec<u8> {
        let c = if self.g.chance(4) { self.big_comps() } else { comps(p) };
        self.comps(&c)
    }
    pub fn path_path(&mut self, p: &Path, r: &Path) -> Vec<u8> {
        let mut shared = p.longest_common_prefix(r).component_count();
        if self.odd() {
            shared = self.g.below(shared + 1);
        }
        let mut c = comps(p)[shared..].to_vec();
        if self.g.chance(4) {
            c = self.big_comps();
        }
        let mut claimed = shared as u64;
        match self.g.below(50) {
            0 => claimed += 1,
            1 => claimed = r.component_count() as u64 + self.g.below(2) as u64,
            2 => claimed = self.g.pick(&[MCC, MCC + 1, 251, 252, 255, 256, usize::MAX]) as u64,
            _ => {}
        }
        let mut out = self.standalone(claimed);
        out.extend(self.comps(&c));
        out
    }
    pub fn path_extends(&mut self, p: &Path, r: &Path) -> Vec<u8> {
        let n = r.component_count().min(p.component_count());
        let mut c = comps(p)[n..].to_vec();
        if self.g.chance(6) {
            c = self.big_comps();
        }
        self.comps(&c)
    }
    /// Added or not, and the difference, for a time against a reference's start and end.
    fn diff(&mut self, t: u64, start: u64, end: u64) -> (bool, u64) {
        let (up, down) = (t.wrapping_sub(start), end.wrapping_sub(t));
        let add = (up <= down) != self.odd();
        let mut d = if add { up } else { down };
        if self.g.chance(3) {
            d = step(self.g);
        }
        (add, d)
    }
    pub fn area_area(&mut self, v: &Area, r: &Area) -> Vec<u8> {
        let (s, e) = (r.times().start, top(&r.times().end));
        let (sa, sd) = self.diff(v.times().start, s, e);
        let (ea, ed) = self.diff(top(&v.times().end), s, e);
        let (st, sb) = self.number(sd, 2);
        let (et, eb) = self.number(ed, 2);
        let mut id = None;
        if v.subspace() != r.subspace() || self.odd() {
            if let AreaSubspace::Id(i) = v.subspace() {
                id = Some(i.0.to_vec());
            }
        }
        let mut h = st << 2 | (id.is_some() as u8) << 7 | (sa as u8) << 5;
        let mut end = vec![];
        if v.times().is_open() && !self.g.chance(2) {
            h |= 0x40;
            if self.odd() {
                h |= self.g.below(4) as u8;
            }
            if self.odd() {
                h |= 0x10;
            }
        } else {
            h |= et | (ea as u8) << 4;
            end = eb;
        }
        let p = self.path_extends(v.path(), r.path());
        [vec![h], id.unwrap_or_default(), sb, end, p].concat()
    }
    pub fn entry_area(&mut self, v: &Entry, r: &(Id, Area)) -> Vec<u8> {
        let t = r.1.times();
        let (a, d) = self.diff(v.timestamp(), t.start, top(&t.end));
        let (tt, tb) = self.number(d, 2);
        let (lt, lb) = self.number(v.payload_length(), 2);
        let any = r.1.subspace().is_any() != self.g.chance(2);
        let mut h = (any as u8) << 7 | (a as u8) << 6 | tt << 4 | lt << 2;
        if self.g.chance(2) {
            h |= self.g.below(4) as u8;
        }
        let id = if any { v.subspace_id().0.to_vec() } else { vec![] };
        let p = self.path_path(v.path(), r.1.path());
        [vec![h], id, p, tb, lb, v.payload_digest().0.to_vec()].concat()
    }
    pub fn entry_entry(&mut self, v: &Entry, r: &Entry) -> Vec<u8> {
        let ns = v.namespace_id() != r.namespace_id() || self.odd();
        let ss = v.subspace_id() != r.subspace_id() || self.odd();
        let mut add = v.timestamp() > r.timestamp();
        let mut d = v.timestamp().abs_diff(r.timestamp());
        if (d == 0 && self.odd()) || self.g.chance(2) {
            add = !add;
        }
        if self.g.chance(2) {
            d = step(self.g);
        }
        let (tt, tb) = self.number(d, 2);
        let (lt, lb) = self.number(v.payload_length(), 3);
        let h = (ns as u8) << 7 | (ss as u8) << 6 | (add as u8) << 5 | tt << 3 | lt;
        let n = if ns { v.namespace_id().0.to_vec() } else { vec![] };
        let s = if ss { v.subspace_id().0.to_vec() } else { vec![] };
        let p = self.path_path(v.path(), r.path());
        [vec![h], n, s, tb, lb, p, v.payload_digest().0.to_vec()].concat()
    }
    /// Against start or end of a 3d range's times: flags (against start, added) and difference.
    fn time3d(&mut self, t: u64, r: &Range<u64>) -> (u8, u64) {
        let end = match r.end {
            RangeEnd::Closed(e) => e,
            RangeEnd::Open => r.start,
        };
        let near = !r.is_open() && t.abs_diff(end) < t.abs_diff(r.start);
        let start = near == self.odd() || (r.is_open() && !self.g.chance(2));
        let base = if start { r.start } else { end };
        let mut d = t.abs_diff(base);
        let mut add = t >= base;
        if (d == 0 && self.odd()) || self.g.chance(2) {
            add = !add;
        }
        if self.g.chance(2) {
            d = step(self.g);
        }
        ((start as u8) << 1 | add as u8, d)
    }
    pub fn range3d(&mut self, v: &Range3d, r: &Range3d) -> Vec<u8> {
        let mut ids = vec![];
        let sub = v.subspaces();
        let mut flag = |me: &mut Self, id: &Id| {
            if *id == r.subspaces().start && !me.odd() {
                1
            } else if r.subspaces().end == *id && !me.odd() {
                2
            } else {
                ids.extend(id.0);
                3u8
            }
        };
        let mut sf = flag(self, &sub.start);
        let mut ef = match &sub.end {
            RangeEnd::Open => 0,
            RangeEnd::Closed(id) => flag(self, id),
        };
        if self.g.chance(3) {
            sf = self.g.below(4) as u8;
        }
        if self.g.chance(3) {
            ef = self.g.below(4) as u8;
        }
        let pick = |me: &mut Self, p: &Path| {
            let base_end = match &r.paths().end {
                RangeEnd::Closed(e) => e,
                RangeEnd::Open => &r.paths().start,
            };
            let start = match me.g.below(3) {
                0 => true,
                1 => false,
                _ => {
                    p.longest_common_prefix(&r.paths().start).component_count()
                        >= p.longest_common_prefix(base_end).component_count()
                }
            } || (r.paths().is_open() && !me.g.chance(3));
            let base = if start { &r.paths().start } else { base_end };
            (start as u8, me.path_path(p, base))
        };
        let (pf, pb) = pick(self, &v.paths().start);
        let (mut qf, qb, mut qo) = (0, vec![], 1);
        let (qf, qb, qo) = match &v.paths().end {
            RangeEnd::Open => {
                if self.odd() {
                    qf = 1;
                }
                (qf, qb, qo)
            }
            RangeEnd::Closed(p) => {
                qo = 0;
                let (f, b) = pick(self, p);
                (f, b, qo)
            }
        };
        let (tf, td) = self.time3d(v.times().start, r.times());
        let (tt, tb) = self.number(td, 2);
        let open = v.times().is_open();
        let (uf, ut, ub) = if open {
            let junk = if self.odd() { self.g.below(16) as u8 } else { 0 };
            (junk >> 2, junk & 3, vec![])
        } else {
            let (f, d) = self.time3d(top(&v.times().end), r.times());
            let (t, b) = self.number(d, 2);
            (f, t, b)
        };
        let h1 = sf << 6 | ef << 4 | pf << 3 | qo << 2 | qf << 1 | open as u8;
        let h2 = tf << 6 | tt << 4 | uf << 2 | ut;
        [vec![h1, h2], ids, pb, qb, tb, ub].concat()
    }
}
