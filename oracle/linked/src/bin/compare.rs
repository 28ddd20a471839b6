//! Compares the proved archive with the original, in one process. Exit status 1 if there is a difference that
//! docs/DIFFERENCES.md does not list; each is printed as a case line.
use linked::pairs::{is_named, Pair};
use linked::tally::Tally;
use linked::{random, short, with_all_pairs};
use std::time::Instant;

const USAGE: &str =
    "compare [--seed N] [--cases N] [--short BYTES] [--references N] [--tail BYTES] [--kind KIND]
    --cases N        random cases of each kind (100000), each read both ways, written and measured
    --short BYTES    all messages of up to so many bytes as well
    --references N   against so many references (12)
    --tail BYTES     each followed by so many bytes (0)
    --kind KIND      as in docs/CASES.md, or number_2 to number_8";

struct Compare {
    seed: u64,
    cases: u64,
    short: Option<usize>,
    references: usize,
    tail: Vec<u8>,
    kind: Option<String>,
    compared: u64,
    differing: u64,
}

impl Compare {
    fn pair<P: Pair>(&mut self) {
        let mut tally = Tally::new(P::NAME);
        random::run::<P>(self.seed, self.cases, &mut tally);
        if let Some(longest) = self.short {
            short::run::<P>(self.seed, longest, &self.tail, self.references, &mut tally);
        }
        let (cases, differences) = tally.print();
        self.compared += cases;
        self.differing += differences;
    }
    /// Compares the kinds that are asked for; false if there is none.
    fn all(&mut self) -> bool {
        let mut any = false;
        macro_rules! each {
            ($($pair:ty),*) => { $(
                if self.kind.as_deref().is_none_or(is_named::<$pair>) {
                    self.pair::<$pair>();
                    any = true;
                }
            )* };
        }
        with_all_pairs!(each);
        any
    }
}

fn options(args: impl Iterator<Item = String>) -> Option<Compare> {
    let mut c = Compare {
        seed: 1,
        cases: 100_000,
        short: None,
        references: 12,
        tail: vec![],
        kind: None,
        compared: 0,
        differing: 0,
    };
    let mut args = args.skip(1);
    while let Some(option) = args.next() {
        let value = args.next()?;
        match option.as_str() {
            "--seed" => c.seed = value.parse().ok()?,
            "--cases" => c.cases = value.parse().ok()?,
            "--short" => c.short = Some(value.parse().ok()?),
            "--references" => c.references = value.parse().ok()?,
            // Small bytes, so that what follows may be taken for lengths and components.
            "--tail" => c.tail = (0..value.parse().ok()?).map(|i: usize| (i % 3) as u8).collect(),
            "--kind" => c.kind = Some(value),
            _ => return None,
        }
    }
    Some(c)
}

fn main() {
    oracle::silence_panics();
    let Some(mut compare) = options(std::env::args()) else {
        eprintln!("{USAGE}");
        std::process::exit(2);
    };
    let begun = Instant::now();
    Tally::print_head();
    if !compare.all() {
        eprintln!("{USAGE}");
        std::process::exit(2);
    }
    let Compare { compared, differing, .. } = compare;
    println!("{compared} cases in {:.1?}, {differing} differences", begun.elapsed());
    std::process::exit(i32::from(differing > 0));
}
