//! How much stack a call of the exported functions takes: judge.h promises less than half of 256 KiB.

use host::driver::{build_with_product, long_case, pausing_case, rowed_case, wide_cases, widest_row};
use host::told::{K_LOG, K_TABLE};
use host::walk::{Case, SIZES};
use host::{repository, Source};
use std::fs::write;
use std::path::{Path, PathBuf};
use std::process::Command;

/// Half of what a thread should have that calls them.
const HALF: usize = 128 * 1024;

/// Cases that go each way through a call: a table that is refused; logs that are judged to their end; `state` rows on line 1 and behind it, sound,
/// not sound, unlike the state reached, and garbled.
fn cases() -> Vec<Case> {
    let mut s = Source(20);
    let k = Case { table: K_TABLE.into(), log: K_LOG.into() };
    let refused = Case { table: K_LOG.into(), log: K_LOG.into() };
    let long = long_case(&mut s, SIZES[2].1, 1, 2_000);
    let wide = wide_cases(&mut s);
    let behind = wide.iter().map(|case| Case { table: case.table.clone(), log: [b"wait\t1\n", &case.log[..]].concat() });
    let late = Case { table: wide[0].table.clone(), log: [b"wait\t1\n".to_vec(), widest_row(13)].concat() };
    [k, refused, long, late, pausing_case(), rowed_case()].into_iter().chain(behind).chain(wide.iter().cloned()).collect()
}

/// The stack that a call of this function takes, as recorder/stack.c finds it.
fn stack_of(program: &Path, function: &str, table: &Path, log: &Path, room: usize) -> usize {
    let mut command = Command::new("sh");
    command.current_dir(repository()).arg("host/run").arg(program).arg(function).arg(table).arg(log).arg(room.to_string());
    let output = command.output().expect("sh starts");
    assert!(output.status.success(), "{:?} ended with {}", command, output.status);
    String::from_utf8_lossy(&output.stdout).trim().parse().expect("a number of bytes")
}

#[test]
fn a_call_takes_less_than_half_of_the_stack_that_it_should_have() {
    let folder = PathBuf::from(env!("CARGO_TARGET_TMPDIR"));
    let program = folder.join("stack");
    build_with_product(&program, "stack.c");
    let (table, log) = (folder.join("stack_table"), folder.join("stack_log"));
    for function in ["judge", "reached"] {
        let mut most = 0;
        for case in cases() {
            write(&table, &case.table).and_then(|_| write(&log, &case.log)).expect("the files are written");
            for room in [10, 100_000] {
                most = most.max(stack_of(&program, function, &table, &log, room));
            }
        }
        println!("{}: {} bytes of stack", function, most);
        assert!(most > 4096, "{} takes {} bytes, which is not measured", function, most);
        assert!(most < HALF, "{} takes {} bytes", function, most);
    }
}
