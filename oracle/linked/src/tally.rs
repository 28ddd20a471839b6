//! Cases counted by kind, operation and outcome.
use crate::check::{Agreed, Difference};

/// What was asked.
#[derive(Clone, Copy, PartialEq, Eq)]
pub enum Asked {
    Strict,
    Lenient,
    Writing,
    /// Writing, with every length of buffer.
    EveryRoom,
    Length,
    IllFormed,
    /// Strict reading of short messages, all of them.
    ShortStrict,
    ShortLenient,
}
impl Asked {
    const ALL: [(Asked, &'static str); 8] = [
        (Asked::Strict, "strict reading"),
        (Asked::Lenient, "lenient reading"),
        (Asked::Writing, "writing"),
        (Asked::EveryRoom, "writing, every room"),
        (Asked::Length, "length"),
        (Asked::IllFormed, "not well formed"),
        (Asked::ShortStrict, "strict, all short"),
        (Asked::ShortLenient, "lenient, all short"),
    ];
}

/// How many differences of a row are printed.
const PRINTED: u64 = 5;

#[derive(Default)]
struct Row {
    outcomes: [u64; 6],
    listed: u64,
    differences: u64,
}

/// The counts of a kind.
pub struct Tally {
    kind: &'static str,
    rows: [Row; Asked::ALL.len()],
}
impl Tally {
    pub fn new(kind: &'static str) -> Self {
        Tally { kind, rows: Default::default() }
    }
    /// Counts a case; prints one that differs, if there were not too many.
    #[inline]
    pub fn count(&mut self, asked: Asked, agreed: Agreed) {
        match agreed {
            Ok(answer) => self.rows[asked as usize].outcomes[usize::from(answer)] += 1,
            Err(difference) => self.differs(asked, difference),
        }
    }
    #[cold]
    fn differs(&mut self, asked: Asked, Difference(case): Difference) {
        let row = &mut self.rows[asked as usize];
        row.differences += 1;
        if row.differences <= PRINTED {
            println!("DIFFERENCE in {}: {case}", self.kind);
        }
    }
    /// Counts a length; the listed difference also apart.
    pub fn count_length(&mut self, measured: Result<(u8, bool), Difference>) {
        if let Ok((_, true)) = measured {
            self.rows[Asked::Length as usize].listed += 1;
        }
        self.count(Asked::Length, measured.map(|m| m.0));
    }

    pub fn print_head() {
        println!(
            "{:<16} {:<20} {:>13} {:>13} {:>13} {:>13} {:>11} {:>11} {:>11} {:>9} {:>11}",
            "kind", "asked", "cases", "ok", "1", "2", "3", "4", "5", "listed", "differences"
        );
    }
    /// Prints its rows; answers cases and differences.
    pub fn print(&self) -> (u64, u64) {
        let mut sums = (0, 0);
        for (asked, name) in Asked::ALL {
            let row = &self.rows[asked as usize];
            let cases = row.outcomes.iter().sum::<u64>() + row.differences;
            if cases == 0 {
                continue;
            }
            let [ok, n1, n2, n3, n4, n5] = row.outcomes;
            println!(
                "{:<16} {name:<20} {cases:>13} {ok:>13} {n1:>13} {n2:>13} {n3:>11} {n4:>11} {n5:>11} {:>9} {:>11}",
                self.kind, row.listed, row.differences
            );
            sums = (sums.0 + cases, sums.1 + row.differences);
        }
        sums
    }
}
