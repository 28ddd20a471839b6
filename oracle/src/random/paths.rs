//! Random paths, and paths that stand in some relation to a given one.
use super::Rng;
use crate::{Path, MCC, MCL, MPL};

pub type Comps = Vec<Vec<u8>>;
const LESS: usize = MCL - 1;
const LENGTHS: [usize; 22] = [
    5, 7, 10, 11, 12, 13, 14, 15, 16, 100, 200, 250, 251, 252, 253, 254, 255, 256, 257, LESS, MCL,
    MCL,
];
pub fn small_comp(g: &mut Rng) -> Vec<u8> {
    match g.below(12) {
        0 | 1 => vec![],
        2..=4 => vec![0x61],
        5 | 6 => vec![0x62],
        7 => vec![0x61, 0x62],
        8 => vec![0],
        9 => vec![0xff],
        10 => vec![0x61; 1 + g.below(5)],
        _ => (0..g.below(4)).map(|_| g.byte()).collect(),
    }
}
pub fn long_comp(g: &mut Rng) -> Vec<u8> {
    let b = g.pick(&[0x61, 0x61, 0x62, 0, 0xff]);
    vec![b; g.pick(&LENGTHS)]
}
/// Cuts until the limits hold.
pub fn within(mut c: Comps) -> Comps {
    c.truncate(MCC);
    let mut left = MPL;
    for x in c.iter_mut() {
        x.truncate(MCL.min(left));
        left -= x.len();
    }
    c
}
pub fn comps_of_total(g: &mut Rng, total: usize, count: usize) -> Comps {
    let mut left = total;
    let mut c = Comps::new();
    for i in 0..count {
        let rest = (count - i - 1) * MCL;
        let least = left.saturating_sub(rest).min(MCL);
        let most = left.min(MCL);
        let n = if i + 1 == count {
            most
        } else if g.chance(50) {
            least.max(most.min(g.below(40)))
        } else {
            least + g.below(most - least + 1)
        };
        c.push(vec![g.pick(&[0x61, 0x62]); n]);
        left -= n;
    }
    c
}
pub fn any_comps(g: &mut Rng) -> Comps {
    let c = match g.below(40) {
        0..=6 => vec![],
        7..=26 => (0..1 + g.below(4)).map(|_| small_comp(g)).collect(),
        27 | 28 => {
            let n = MCC - 12 + g.below(13);
            vec![vec![]; n]
        }
        29 => (0..MCC).map(|_| small_comp(g)).collect(),
        30 => {
            let n = g.pick(&[2, 3, 5, MCC - 1, MCC]);
            comps_of_total(g, MPL, n)
        }
        31 => {
            let (t, n) = (MPL - 20 + g.below(21), 2 + g.below(MCC - 1));
            comps_of_total(g, t, n)
        }
        32 | 33 => {
            let t = g.pick(&[10, 11, 12, 13, 251, 252, 253, 255, 256, 257]);
            let n = 1 + g.below(4);
            comps_of_total(g, t, n)
        }
        34 => vec![long_comp(g)],
        35 => vec![vec![0x61; MCL], vec![0x62; MCL]],
        36 => (0..10 + g.below(4)).map(|_| vec![0x61; g.below(2)]).collect(),
        _ => {
            let mut c: Comps = (0..1 + g.below(3)).map(|_| small_comp(g)).collect();
            let at = g.below(c.len() + 1);
            c.insert(at, long_comp(g));
            c
        }
    };
    within(c)
}
pub fn extend(g: &mut Rng, r: &Comps) -> Comps {
    let mut c = r.clone();
    match g.below(10) {
        0..=2 => {}
        3..=7 => c.extend((0..1 + g.below(3)).map(|_| small_comp(g))),
        _ => c.extend(any_comps(g)),
    }
    within(c)
}
pub fn near_comps(g: &mut Rng, r: &Comps) -> Comps {
    let mut c = r.clone();
    match g.below(12) {
        0 | 1 => {}
        2 => c.truncate(g.below(r.len() + 1)),
        3..=6 => return extend(g, r),
        7 | 8 => {
            c.truncate(g.below(r.len() + 1));
            c.extend((0..1 + g.below(3)).map(|_| small_comp(g)));
        }
        9 if !c.is_empty() => {
            let i = g.below(c.len());
            let n = c[i].len();
            match g.below(3) {
                0 if n > 0 => c[i][g.below(n)] ^= 1 << g.below(8),
                1 => c[i].push(g.byte()),
                _ => {
                    c[i].pop();
                }
            }
        }
        _ => return any_comps(g),
    }
    within(c)
}
pub fn comps(p: &Path) -> Comps {
    p.components().map(|c| c.to_vec()).collect()
}
pub fn path(c: &Comps) -> Path {
    Path::from_slices(c).expect("within the limits")
}
pub fn any_path(g: &mut Rng) -> Path {
    path(&any_comps(g))
}
pub fn near_path(g: &mut Rng, r: &Path) -> Path {
    path(&near_comps(g, &comps(r)))
}
pub fn longer_path(g: &mut Rng, r: &Path) -> Path {
    path(&extend(g, &comps(r)))
}
