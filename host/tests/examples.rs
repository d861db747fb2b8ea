//! The examples: what they show, by the model, and that the sprayer's log is what its program writes.

use host::model::{cut_input, judge, reached, Cycle, Judging, Step};
use host::table::Table;
use host::told::{K_LOG, K_REPORT, K_TABLE};
use host::{repository, EXAMPLES};
use std::fs::read;
use std::process::Command;

fn example(file: &str) -> Vec<u8> {
    read(repository().join("examples").join(file)).unwrap_or_else(|error| panic!("examples/{}: {}", file, error))
}

/// The table and the judging of an example.
fn judging(file: &str) -> (Table, Judging) {
    let input = example(file);
    let (table, log) = cut_input(&input);
    let table = Table::read(table).expect("a table that is fine");
    let judging = Judging::of(&table, log);
    (table, judging)
}

#[test]
fn the_reports_are_the_models() {
    for name in EXAMPLES {
        let input = example(&format!("{}.txt", name));
        let (table, log) = cut_input(&input);
        let report = String::from_utf8(judge(table, log)).expect("a report is plain text");
        assert_eq!(report.into_bytes(), example(&format!("{}.report", name)), "{}", name);
    }
}

#[test]
fn the_example_k_is_the_pages() {
    assert_eq!(example("k.txt"), (K_TABLE.to_string() + K_LOG).into_bytes());
    assert_eq!(example("k.report"), K_REPORT.as_bytes());
}

#[test]
fn the_log_of_m_ends_in_a_conflict() {
    let (_, judging) = judging("m.txt");
    assert_eq!((judging.refusal, judging.line), (15, 28));
    let kept: Vec<(u64, u64, u64)> = judging.kept.iter().map(|cycle| (cycle.task, cycle.close - cycle.open, cycle.longest)).collect();
    assert_eq!(kept, [(1, 7, 3)]);
}

/// A cycle by number, ticks and missed.
fn told(cycle: &Cycle) -> (u64, u64, u64) {
    (cycle.number, cycle.close - cycle.open, cycle.missed)
}

#[test]
fn the_late_cycles_are_kept() {
    let (table, judging) = judging("late.txt");
    assert_eq!((table.tasks[0], judging.refusal), ((100_000, 150_000), 0));
    // of the kept cycles one took its keep; of the others each ended behind a signal
    assert_eq!(judging.kept.iter().map(told).collect::<Vec<_>>(), [(2, 120_000, 1), (4, 160_000, 1), (5, 70_000, 1)]);
    assert_eq!(judging.dropped.iter().map(told).collect::<Vec<_>>(), [(1, 80_000, 0), (3, 70_000, 0), (6, 60_000, 0)]);
}

#[test]
fn the_drive_is_cut_at_noon_with_both_cycles_open() {
    let (morning, afternoon) = (example("noon-first.txt"), example("noon-second.txt"));
    let ((table, first), (same, second)) = (cut_input(&morning), cut_input(&afternoon));
    assert_eq!(table, same);
    let row = reached(table, first).expect("the morning is accepted");
    let rest = second.strip_prefix(&row[..]).expect("the afternoon begins with the row that the morning reaches");
    let sum = |name: &str| judging(name).1.sum();
    assert_eq!(sum("noon-first.txt"), [20, 360_000, 3, 1, 0, 2, 8, 0, 0]);
    assert_eq!(sum("noon-second.txt"), [22, 450_000, 5, 2, 3, 0, 10, 0, 0]);
    // not cut: the steps, kept and dropped cycles of both files, and each cycle that was open at noon counts once
    let table = Table::read(table).expect("a table that is fine");
    let whole = Judging::of(&table, &[first, rest].concat());
    assert_eq!(whole.sum(), [42, 450_000, 6, 3, 3, 0, 10, 0, 0]);
    let kept: Vec<(u64, u64, u64, u64)> = whole.kept.iter().map(|cycle| (cycle.task, cycle.number, cycle.open, cycle.close)).collect();
    assert_eq!(kept, [(0, 1, 100_000, 130_000), (1, 1, 200_000, 370_000), (0, 2, 200_000, 390_000)]);
    assert_eq!([judging("noon-first.txt").1.kept, judging("noon-second.txt").1.kept].concat(), whole.kept);
}

#[test]
fn the_sprayers_log_shows_what_its_scenario_says() {
    let (table, judging) = judging("sprayer.txt");
    assert_eq!((table.tasks.len(), table.acts.len(), table.codels.len(), table.mutexes.len()), (4, 5, 15, 3));
    assert_eq!(judging.refusal, 0);
    assert!((300..1_000).contains(&judging.accepted.len()), "{} lines", judging.accepted.len());
    // one slow cycle of the drive; in each arm's cycle 6 two signals come while it stands, not executing for long; its next one begins late,
    // ends behind a signal, and takes less than its keep
    let of_task = |task: u64| judging.kept.iter().filter(move |cycle| cycle.task == task);
    assert_eq!(of_task(0).map(|cycle| (cycle.longest, cycle.missed)).collect::<Vec<_>>(), [(13_500, 0)]);
    for (arm, ticks) in [(1, [136_169, 17_273]), (2, [144_912, 18_639])] {
        assert_eq!(of_task(arm).map(told).collect::<Vec<_>>(), [(6, ticks[0], 2), (7, ticks[1], 1)]);
        assert!(of_task(arm).all(|cycle| cycle.longest < 11_000) && ticks[1] < table.tasks[arm as usize].1);
    }
    assert_eq!(of_task(3).map(told).collect::<Vec<_>>(), [(3, 128_000, 1), (4, 59_858, 0)]);
    assert!(of_task(3).any(|cycle| cycle.longest == 128_000));
    // at the end of the row all but the counting of the wheels' turns is interrupted
    let interrupted: Vec<Step> = judging.accepted.iter().filter(|step| matches!(step, Step::Ia(_))).copied().collect();
    assert_eq!(interrupted, [0, 2, 3, 4].map(Step::Ia));
}

#[test]
fn the_sprayers_log_is_what_its_program_writes() {
    let output = Command::new(env!("CARGO_BIN_EXE_sprayer")).output().expect("it starts");
    assert!(output.status.success() && output.stdout == example("sprayer.txt"), "examples/sprayer.txt is made by the program sprayer");
}
