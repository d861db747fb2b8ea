//! make_log SIZE LINES KEEP SEED: writes a table of the size `small`, `middle` or `full` and an accepted log of so many lines, the input
//! of the program judge. Every task has the keep KEEP: 1 keeps nearly every cycle, 1000000000 only those that miss a signal.

use host::walk::{sized_table, Runner, Size, SIZES};
use host::Source;
use std::io::{stdout, BufWriter, Write};

const LONGEST_WAIT: u64 = 100;

fn write_log(size: Size, lines: u64, keep: u64, seed: u64) -> std::io::Result<()> {
    let mut s = Source(seed);
    let table = sized_table(&mut s, size, keep);
    let mut out = BufWriter::new(stdout());
    out.write_all(table.text().as_bytes())?;
    let mut runner = Runner::new(&table, LONGEST_WAIT);
    for _ in 0..lines {
        match runner.next(&mut s) {
            Some(step) => out.write_all(step.line().as_bytes())?,
            None => break,
        }
    }
    out.flush()
}

fn main() {
    let args: Vec<String> = std::env::args().skip(1).collect();
    let size = args.first().and_then(|name| SIZES.iter().find(|(known, _)| known == name));
    let numbers: Vec<u64> = args.iter().skip(1).filter_map(|n| n.parse().ok()).collect();
    match (size, numbers.as_slice()) {
        (Some((_, size)), [lines, keep, seed]) => write_log(*size, *lines, *keep, *seed).expect("standard output takes it"),
        _ => {
            eprintln!("make_log small|middle|full LINES KEEP SEED");
            std::process::exit(2);
        }
    }
}
