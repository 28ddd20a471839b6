//! What reading and writing share: components, an open end as a number, what lies inside what.
use oracle::Path;
use willow_data_model::grouping::{Range, RangeEnd};

pub type Res<T> = Result<T, u64>;
pub type Comps = Vec<Vec<u8>>;
pub const TOP: u64 = u64::MAX;

pub fn comps(p: &Path) -> Comps {
    p.components().map(|c| c.to_vec()).collect()
}
pub fn path(c: &Comps) -> Path {
    Path::from_slices(c).unwrap()
}
pub fn total(c: &[Vec<u8>]) -> usize {
    c.iter().map(|x| x.len()).sum()
}
pub fn as_top(e: &RangeEnd<u64>) -> u64 {
    match e {
        RangeEnd::Open => TOP,
        RangeEnd::Closed(n) => *n,
    }
}
pub fn need(b: bool, n: u64) -> Res<()> {
    if b {
        Ok(())
    } else {
        Err(n)
    }
}

pub fn time_in(t: u64, r: &Range<u64>) -> bool {
    r.start <= t
        && match r.end {
            RangeEnd::Open => true,
            RangeEnd::Closed(e) => t < e,
        }
}
pub fn range_in(start: u64, end: &RangeEnd<u64>, r: &Range<u64>) -> bool {
    r.start <= start
        && match (&r.end, end) {
            (RangeEnd::Open, _) => true,
            (RangeEnd::Closed(_), RangeEnd::Open) => false,
            (RangeEnd::Closed(a), RangeEnd::Closed(b)) => a >= b,
        }
}
