//! Random areas, entries and 3d ranges, and ones that stand in some relation to a given reference.
use super::paths::*;
use super::values::*;
use super::Rng;
use crate::{Area, Entry, Id, Path, Range3d};
use willow_data_model::grouping::{AreaSubspace, Range, RangeEnd};

pub fn any_area(g: &mut Rng) -> Area {
    let sub = if g.chance(55) { AreaSubspace::Any } else { AreaSubspace::Id(any_id(g)) };
    let p = if g.chance(55) { Path::new_empty() } else { any_path(g) };
    Area::new(sub, p, any_times(g))
}
pub fn near_area(g: &mut Rng, r: &Area) -> Area {
    let sub = match r.subspace() {
        AreaSubspace::Any if g.chance(50) => AreaSubspace::Any,
        AreaSubspace::Any => AreaSubspace::Id(any_id(g)),
        AreaSubspace::Id(id) if g.chance(92) => AreaSubspace::Id(near_id(g, id, 92)),
        AreaSubspace::Id(_) => AreaSubspace::Any,
    };
    let p = if g.chance(88) { longer_path(g, r.path()) } else { near_path(g, r.path()) };
    Area::new(sub, p, near_times(g, r.times()))
}
pub fn any_entry(g: &mut Rng) -> Entry {
    Entry::new(any_id(g), any_id(g), any_path(g), any_time(g), number_value(g), any_id(g))
}
pub fn near_entry(g: &mut Rng, r: &Entry) -> Entry {
    let t = match g.below(6) {
        0 => r.timestamp(),
        1 | 2 => r.timestamp().wrapping_add(step(g)),
        3 | 4 => r.timestamp().wrapping_sub(step(g)),
        _ => any_time(g),
    };
    Entry::new(
        near_id(g, r.namespace_id(), 60),
        near_id(g, r.subspace_id(), 60),
        near_path(g, r.path()),
        t,
        number_value(g),
        near_id(g, r.payload_digest(), 30),
    )
}
pub fn entry_in_area(g: &mut Rng, r: &(Id, Area)) -> Entry {
    let sub = match r.1.subspace() {
        AreaSubspace::Any => any_id(g),
        AreaSubspace::Id(id) => near_id(g, id, 92),
    };
    let p = if g.chance(88) { longer_path(g, r.1.path()) } else { near_path(g, r.1.path()) };
    let (s, e) = (r.1.times().start, top(&r.1.times().end));
    let mut t = near_time(g, s, e);
    if s < e && g.chance(60) {
        t = t.clamp(s, e - 1);
    }
    Entry::new(near_id(g, &r.0, 93), sub, p, t, number_value(g), any_id(g))
}
pub fn any_range3d(g: &mut Rng) -> Range3d {
    let ss = any_id(g);
    let se = if g.chance(40) { RangeEnd::Open } else { RangeEnd::Closed(near_id(g, &ss, 15)) };
    let ps = if g.chance(30) { Path::new_empty() } else { any_path(g) };
    let pe = if g.chance(40) { RangeEnd::Open } else { RangeEnd::Closed(near_path(g, &ps)) };
    Range3d::new(Range::new(ss, se), Range::new(ps, pe), any_times(g))
}
pub fn near_range3d(g: &mut Rng, r: &Range3d) -> Range3d {
    let id = |g: &mut Rng| match (g.below(5), &r.subspaces().end) {
        (0 | 1, _) => r.subspaces().start,
        (2 | 3, RangeEnd::Closed(e)) => *e,
        _ => any_id(g),
    };
    let (ss, se) = (id(g), id(g));
    let se = if g.chance(25) { RangeEnd::Open } else { RangeEnd::Closed(se) };
    let p = |g: &mut Rng| match (g.below(5), &r.paths().end) {
        (0 | 1, _) => near_path(g, &r.paths().start),
        (2 | 3, RangeEnd::Closed(e)) => near_path(g, e),
        _ => any_path(g),
    };
    let (ps, pe) = (p(g), p(g));
    let pe = if g.chance(25) { RangeEnd::Open } else { RangeEnd::Closed(pe) };
    Range3d::new(Range::new(ss, se), Range::new(ps, pe), near_times(g, r.times()))
}
