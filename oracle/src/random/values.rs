//! Random numbers, times and ids, and ones that stand in some relation to a given reference.
use super::Rng;
use crate::Id;
use willow_data_model::grouping::{Range, RangeEnd};

const STEPS: [u64; 34] = [
    0,
    0,
    0,
    1,
    1,
    2,
    3,
    4,
    5,
    10,
    11,
    12,
    13,
    50,
    100,
    250,
    251,
    252,
    253,
    255,
    256,
    257,
    65535,
    65536,
    65537,
    0xffff_fffe,
    0xffff_ffff,
    0x1_0000_0000,
    0x1_0000_0001,
    1 << 63,
    (1 << 63) - 1,
    u64::MAX - 1,
    u64::MAX,
    1 << 48,
];
pub fn step(g: &mut Rng) -> u64 {
    match g.below(12) {
        0 => g.next() >> g.below(64),
        1..=4 => g.below(6) as u64,
        _ => g.pick(&STEPS),
    }
}
/// A number with all widths about equally likely.
pub fn number_value(g: &mut Rng) -> u64 {
    match g.below(4) {
        0 => g.next() >> g.below(64),
        _ => step(g),
    }
}
pub fn any_time(g: &mut Rng) -> u64 {
    match g.below(10) {
        0..=2 => step(g),
        3 | 4 => u64::MAX.wrapping_sub(step(g)),
        5 => 1000 + g.below(20) as u64,
        6 => (1u64 << 63).wrapping_add(step(g)),
        7 => g.next(),
        _ => g.below(8) as u64,
    }
}
/// A time that stands in some relation to a reference's.
pub fn near_time(g: &mut Rng, start: u64, end: u64) -> u64 {
    let (lo, hi) = (start.min(end), start.max(end));
    let mid = lo + (hi - lo) / 2;
    match g.below(16) {
        0 => start,
        1 => end,
        2 | 3 => mid,
        4 => mid.wrapping_add(1),
        5 => mid.wrapping_sub(1),
        6 | 7 => start.wrapping_add(step(g)),
        8 | 9 => end.wrapping_sub(step(g)),
        10 => end.wrapping_add(g.below(3) as u64),
        11 => start.wrapping_sub(g.below(3) as u64),
        12 => any_time(g),
        _ if hi > lo => lo + g.next() % (hi - lo),
        _ => lo,
    }
}
pub fn top(e: &RangeEnd<u64>) -> u64 {
    u64::from(e)
}
pub fn any_times(g: &mut Rng) -> Range<u64> {
    let start = any_time(g);
    let end = match g.below(20) {
        0..=6 => RangeEnd::Open,
        7..=13 => RangeEnd::Closed(start.saturating_add(step(g))),
        14 => RangeEnd::Closed(start.saturating_sub(step(g))),
        15 => RangeEnd::Closed(u64::MAX),
        16 => RangeEnd::Closed(start),
        17 => RangeEnd::Closed(start.saturating_add(200 + g.below(3) as u64)),
        _ => RangeEnd::Closed(any_time(g)),
    };
    Range::new(start, end)
}
pub fn near_times(g: &mut Rng, r: &Range<u64>) -> Range<u64> {
    if g.chance(5) {
        return *r;
    }
    let (s, e) = (r.start, top(&r.end));
    let mut start = near_time(g, s, e);
    let mut end = near_time(g, s, e);
    if s <= e && g.chance(60) {
        (start, end) = (start.clamp(s, e), end.clamp(s, e));
    }
    if start > end && g.chance(85) {
        std::mem::swap(&mut start, &mut end);
    }
    let open = g.chance(match r.end {
        RangeEnd::Open => 35,
        RangeEnd::Closed(_) => 8,
    });
    Range::new(start, if open { RangeEnd::Open } else { RangeEnd::Closed(end) })
}

pub fn any_id(g: &mut Rng) -> Id {
    let mut id = [0; 32];
    match g.below(24) {
        0..=5 => {}
        6..=10 => id[31] = 1,
        11..=14 => id[0] = 1,
        15 => id[15] = g.byte(),
        16..=18 => id = [0xff; 32],
        19 => id[31] = 2,
        20 => id = [0x61; 32],
        21 => id.iter_mut().for_each(|b| *b = g.byte()),
        _ => id[7] = 0x80,
    }
    Id(id)
}
pub fn near_id(g: &mut Rng, r: &Id, same: usize) -> Id {
    if g.chance(same) {
        return *r;
    }
    if g.chance(20) {
        let mut id = r.0;
        id[g.below(32)] ^= 1 << g.below(8);
        return Id(id);
    }
    any_id(g)
}
