//! Random messages, whole, astray and damaged, and random buffers.
use super::loose::Loose;
use super::{Random, Rng};
use crate::answer::{guarded, Outcome};

/// A message, from an encoding as it stands to nothing like one.
fn damage(g: &mut Rng, mut m: Vec<u8>) -> Vec<u8> {
    match g.below(20) {
        0..=6 => {}
        7..=9 => m.extend((0..1 + g.below(6)).map(|_| g.next() as u8).collect::<Vec<_>>()),
        10..=12 => {
            // Anywhere, near the front, just before or shortly inside a digest at the end.
            let n = match g.below(3) {
                0 => g.below(m.len() + 1),
                1 => g.below(m.len().min(12) + 1),
                _ => m.len().saturating_sub(28 + g.below(12)),
            };
            m.truncate(n);
        }
        13 => {
            m.pop();
        }
        14 | 15 => {
            for _ in 0..1 + g.below(2) {
                if !m.is_empty() {
                    let i = if g.chance(60) { g.below(m.len().min(8)) } else { g.below(m.len()) };
                    m[i] = match g.below(3) {
                        0 => m[i] ^ 1 << g.below(8),
                        1 => m[i].wrapping_add(g.pick(&[1, 0xff])),
                        _ => g.byte(),
                    };
                }
            }
        }
        16 | 17 => {
            for _ in 0..1 + g.below(2) {
                if let Some(b) = m.first_mut() {
                    *b ^= 1 << g.below(8);
                }
            }
        }
        18 => {
            if m.len() > 1 {
                m[1] ^= 1 << g.below(8);
            }
        }
        _ => {
            let n = g.below(13);
            m = (0..n).map(|_| if g.chance(50) { g.below(4) as u8 } else { g.byte() }).collect();
            if g.chance(30) {
                m.extend([0; 70]);
            }
        }
    }
    m
}

/// A message that may have to do with a value against a reference.
pub fn message<K: Random>(g: &mut Rng, v: &K::Val, r: &K::Ref) -> Vec<u8> {
    let real = if g.chance(45) {
        match guarded(|| K::write(v, r)) {
            Outcome::Done(m) => Some(m),
            Outcome::Panicked => None,
        }
    } else {
        None
    };
    let m = real.unwrap_or_else(|| {
        let stray = g.pick(&[0, 4, 15, 40, 70]);
        K::loose(&mut Loose { g, stray }, v, r)
    });
    damage(g, m)
}

/// A tag of w bits and a message that may have to do with a number.
pub fn number_message(g: &mut Rng, v: u64, w: u64) -> (u64, Vec<u8>) {
    let stray = g.pick(&[0, 20, 50]);
    let (mut tag, m) = Loose { g, stray }.number(v, w as u32);
    if g.chance(15) {
        tag = g.below(1 << w) as u8;
    }
    (tag as u64, damage(g, m))
}

/// Where to start, and a message that has the given one there or near by.
pub fn placed(g: &mut Rng, m: Vec<u8>) -> (u64, Vec<u8>) {
    match g.below(20) {
        0..=12 => (0, m),
        13..=15 => {
            let n = 1 + g.below(5);
            let junk: Vec<u8> = (0..n).map(|_| g.byte()).collect();
            (n as u64, [junk, m].concat())
        }
        16 => (g.below(m.len() + 1) as u64, m),
        17 => (m.len() as u64, m),
        18 => (m.len() as u64 + 1 + g.below(3) as u64, m),
        _ => (g.pick(&[0, 1, 1 << 32, 1 << 63, u64::MAX - 1, u64::MAX]), m),
    }
}

/// A buffer for an encoding of a length, or for one that cannot be.
pub fn buffer(g: &mut Rng, len: Option<usize>) -> Vec<u8> {
    let len = len.unwrap_or(g.below(80));
    let n = match g.below(10) {
        0..=3 => len,
        4 | 5 => len.saturating_sub(1),
        6 => len + 1 + g.below(4),
        7 => len + g.below(40),
        8 => g.below(len + 1),
        _ => 0,
    };
    let fill = g.below(3);
    (0..n)
        .map(|_| match fill {
            0 => 0,
            1 => 0xee,
            _ => g.byte(),
        })
        .collect()
}
