//! Reads case lines on standard input, prints an answer line for each.
//! With `--check`, also checks reading, writing and length against each other and reports on
//! standard error what contradicts.
use oracle::answer::answer;
use std::io::{self, BufRead, Write};

fn main() -> io::Result<()> {
    let check = std::env::args().any(|a| a == "--check");
    oracle::silence_panics();
    let mut input = io::BufReader::with_capacity(1 << 20, io::stdin().lock());
    let mut output = io::stdout().lock();
    let mut line = Vec::new();
    let mut out = Vec::with_capacity(1 << 20);
    loop {
        line.clear();
        if input.read_until(b'\n', &mut line)? == 0 {
            break;
        }
        if line.last() == Some(&b'\n') {
            line.pop();
        }
        if check {
            let mut report = |what: &str| {
                eprintln!("{what}: {}", String::from_utf8_lossy(&line));
            };
            answer(&line, &mut out, Some(&mut report));
        } else {
            answer(&line, &mut out, None);
        }
        if out.len() > 1 << 19 {
            output.write_all(&out)?;
            out.clear();
        }
    }
    output.write_all(&out)?;
    output.flush()
}
