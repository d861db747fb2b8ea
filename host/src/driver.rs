//! Judges that keep to recorder/judge.h, called on case after case through the driver recorder/cases.c and held against the model.

use crate::model::{
    apply, judge, put_answer, reached, reached_into, refused_with, ActivityState, Holder, State, Step, TaskState, CEILING, MOST_TICKS,
};
use crate::row::{row_of, LONGEST_ROW};
use crate::table::Table;
use crate::told::{cases_of_k, lines_of, told_cases, K_REPORT, K_TABLE};
use crate::walk::{any_case, ceiling_case, cut_everywhere, row_case, sized_table, Case, Runner, Size, SIZES};
use crate::{run, run_script, Source};
use std::env::var;
use std::path::{Path, PathBuf};
use std::process::Command;

/// What a buffer and its guard bytes hold before the call.
const FILL: u8 = 0xaa;
const BATCH: usize = 500;
/// The functions of judge.h by the numbers that the driver knows them by.
const JUDGE: usize = 0;
const REACHED: usize = 1;

/// A judge behind the driver.
pub struct Driver {
    program: PathBuf,
}

/// How often each refusal was given; at 0 that there was none, and at 31 that the report or the row did not fit.
pub type Hits = [usize; 32];

/// "Does not fit": the page's number for a buffer that is too short.
pub const UNFIT: usize = 31;

/// Room for any report on a log of this length, as recorder/judge.h promises.
pub fn room_for_any(log: usize) -> usize {
    2 * log + 256
}

/// CASES of the environment, or as many cases as usual.
pub fn case_count(usual: usize) -> usize {
    var("CASES").ok().and_then(|n| n.parse().ok()).unwrap_or(usual)
}

/// Compiles C files of host/ to an x86-64 program, with one flag more than CFLAGS.
pub fn compile(program: &Path, flag: &str, files: &[&str]) {
    let flags = var("CFLAGS").unwrap_or_else(|_| "-O2".to_string());
    let mut command = Command::new("sh");
    command.arg("host/compile").arg(program).args(files.iter().map(|file| format!("host/{}", file)));
    run_script(command.env("CFLAGS", format!("{} {}", flags, flag)));
}

/// Links a C file of recorder/ with the product's archive.
pub fn build_with_product(program: &Path, file: &str) {
    run_script(Command::new("sh").arg("host/recorder/build").arg(program).arg(format!("host/recorder/{}", file)));
}

impl Driver {
    /// The product's exported function, in a program that is made at this path.
    pub fn of_product(program: PathBuf) -> Driver {
        build_with_product(&program, "cases.c");
        Driver { program }
    }

    /// The C judge of bench/ that this flag chooses, in a program that is made at this path.
    pub fn of_c_judge(program: PathBuf, flag: &str) -> Driver {
        compile(&program, flag, &["recorder/cases.c", "bench/judge.c"]);
        Driver { program }
    }

    /// Gives cases to `judge`, each with its room for the report, and holds every answer, every buffer and its guard bytes to the model.
    pub fn compare(&self, cases: &[(&Case, usize)], hits: &mut Hits) {
        let asked = cases.iter().map(|(case, room)| {
            let answer = answered(&judge(&case.table, &case.log), *room, hits);
            (*case, asked(JUDGE, case, *room, 0), answer)
        });
        self.hold(asked.collect());
    }

    /// Gives cases to `reached`, each with its room for the row and the refusal's count of numbers, and holds it to the model the same way.
    pub fn compare_reached(&self, cases: &[(&Case, usize, usize)], hits: &mut Hits) {
        let asked = cases.iter().map(|(case, room, numbers)| {
            let answer = reached_answered(case, *room, *numbers, hits);
            (*case, asked(REACHED, case, *room, *numbers), answer)
        });
        self.hold(asked.collect());
    }

    /// Gives the driver what is asked with each case, and asserts that it writes what is expected.
    fn hold(&self, cases: Vec<(&Case, Vec<u8>, Vec<u8>)>) {
        let input: Vec<u8> = cases.iter().flat_map(|(_, asked, _)| asked.iter().copied()).collect();
        let wrote = run(&self.program, &input);
        let mut rest = &wrote[..];
        for (case, _, answer) in &cases {
            assert!(rest.len() >= answer.len(), "an answer for each case");
            let (own, behind) = rest.split_at(answer.len());
            assert!(own == &answer[..], "{}\ngives {}\nand not {}", shown(case), text(own), text(answer));
            rest = behind;
        }
        assert!(rest.is_empty(), "no more answers than cases");
    }

    /// The same with a room of any fit for each case.
    pub fn compare_in_any_room(&self, s: &mut Source, cases: &[Case], hits: &mut Hits) {
        let roomed: Vec<(&Case, usize)> = cases.iter().map(|case| (case, some_room(s, case))).collect();
        self.compare(&roomed, hits);
    }

    /// `reached` on cases, each with a room of any fit and any length of the refusal.
    pub fn compare_reached_in_any_room(&self, s: &mut Source, cases: &[Case], hits: &mut Hits) {
        let roomed: Vec<(&Case, usize, usize)> =
            cases.iter().map(|case| (case, some_room_for_row(s, case), *s.one_of(&[0, 1, 2, 2, 2, 3]))).collect();
        self.compare_reached(&roomed, hits);
    }

    /// Table K, which has the page's report with its keep and with longer ones.
    pub fn compare_k(&self) {
        for k in cases_of_k() {
            assert_eq!(judge(&k.table, &k.log), K_REPORT.as_bytes());
            self.compare(&[(&k, K_REPORT.len()), (&k, K_REPORT.len() - 1), (&k, 1_000)], &mut Hits::default());
        }
    }

    /// The cases that the page tells.
    pub fn compare_told(&self, hits: &mut Hits) {
        let told = told_cases();
        self.compare(&told.iter().map(|(case, _)| (case, room_for_any(case.log.len()))).collect::<Vec<(&Case, usize)>>(), hits);
        self.compare_reached(&told.iter().map(|(case, _)| (case, LONGEST_ROW, 2)).collect::<Vec<(&Case, usize, usize)>>(), hits);
    }

    /// Random cases, intact and damaged, in batches.
    pub fn compare_random(&self, s: &mut Source, count: usize, hits: &mut Hits) {
        for _ in 0..(count + BATCH - 1) / BATCH {
            let mut cases: Vec<Case> = (0..BATCH).map(|_| any_case(s)).collect();
            cases.extend((0..3).map(|_| ceiling_case(s)));
            self.compare_in_any_room(s, &cases, hits);
        }
    }

    /// Random cases for `reached`, intact and damaged, in batches.
    pub fn compare_random_reached(&self, s: &mut Source, count: usize, hits: &mut Hits) {
        for _ in 0..(count + BATCH - 1) / BATCH {
            let cases: Vec<Case> = (0..BATCH).map(|_| any_case(s)).collect();
            self.compare_reached_in_any_room(s, &cases, hits);
        }
    }

    /// Walks cut behind every line: both files of each cut, judged, and the state that each reaches.
    pub fn compare_cut(&self, s: &mut Source, walks: usize, hits: &mut Hits) {
        for _ in 0..walks {
            let cases = cut_everywhere(s, 40);
            self.compare_in_any_room(s, &cases, hits);
            self.compare_reached_in_any_room(s, &cases, hits);
        }
    }

    /// Random cases with `state` rows, intact and damaged, in batches.
    pub fn compare_rows(&self, s: &mut Source, count: usize, hits: &mut Hits) {
        for _ in 0..(count + BATCH - 1) / BATCH {
            let cases: Vec<Case> = (0..BATCH).map(|_| row_case(s)).collect();
            self.compare_in_any_room(s, &cases, hits);
        }
    }

    /// Every byte at every place of a table and of its log.
    pub fn compare_every_byte(&self, case: &Case, hits: &mut Hits) {
        for byte in 0..=255 {
            let tables = (0..case.table.len()).map(|at| Case { table: changed(&case.table, at, byte), log: case.log.clone() });
            self.compare_in_plenty(&tables.collect::<Vec<Case>>(), hits);
        }
        self.compare_every_byte_of_log(case, hits);
    }

    /// Every byte at every place of a log.
    pub fn compare_every_byte_of_log(&self, case: &Case, hits: &mut Hits) {
        for byte in 0..=255 {
            let logs = (0..case.log.len()).map(|at| Case { table: case.table.clone(), log: changed(&case.log, at, byte) });
            self.compare_in_plenty(&logs.collect::<Vec<Case>>(), hits);
        }
    }

    fn compare_in_plenty(&self, cases: &[Case], hits: &mut Hits) {
        self.compare(&cases.iter().map(|case| (case, room_for_any(case.log.len()))).collect::<Vec<(&Case, usize)>>(), hits);
    }
}

/// A text with another byte at a place.
fn changed(text: &[u8], at: usize, byte: u8) -> Vec<u8> {
    [&text[..at], &[byte], &text[at + 1..]].concat()
}

/// A case as the driver reads it.
fn asked(function: usize, case: &Case, room: usize, numbers: usize) -> Vec<u8> {
    let lengths = [function, case.table.len(), case.log.len(), room, numbers].map(|n| (n as u32).to_le_bytes()).concat();
    [&lengths[..], &case.table, &case.log].concat()
}

/// What the driver writes where the judge is right and the guard bytes are as they were.
fn answered(report: &[u8], room: usize, hits: &mut Hits) -> Vec<u8> {
    let mut buffer = vec![FILL; room];
    let length = put_answer(report, &mut buffer);
    hits[if length == 0 { UNFIT } else { refused_with(report).0 as usize }] += 1;
    [&(length as u32).to_le_bytes()[..], &[1], &buffer].concat()
}

/// What the driver writes of `reached`.
fn reached_answered(case: &Case, room: usize, numbers: usize, hits: &mut Hits) -> Vec<u8> {
    let (mut buffer, mut pair) = (vec![FILL; room], vec![u64::from_le_bytes([FILL; 8]); numbers]);
    let mut refused = [0; 2];
    reached_into(&case.table, &case.log, &mut buffer.clone(), &mut refused);
    hits[refused[0] as usize] += 1;
    let length = reached_into(&case.table, &case.log, &mut buffer, &mut pair);
    let pair: Vec<u8> = pair.iter().flat_map(|n| n.to_le_bytes()).collect();
    [&(length as u32).to_le_bytes()[..], &[1], &buffer, &pair].concat()
}

/// A buffer's length: the row's, one less, one more, none, or plenty; plenty where the case is refused.
fn some_room_for_row(s: &mut Source, case: &Case) -> usize {
    let row = reached(&case.table, &case.log).map_or(LONGEST_ROW, |row| row.len());
    *s.one_of(&[row, row, row + 1, LONGEST_ROW, LONGEST_ROW + 1, row - 1, 0])
}

/// A buffer's length: the report's, one less, one more, none, or plenty.
fn some_room(s: &mut Source, case: &Case) -> usize {
    let report = judge(&case.table, &case.log).len();
    let plenty = room_for_any(case.log.len());
    assert!(report <= plenty, "a report of {} bytes on {}", report, shown(case));
    *s.one_of(&[report, report, report + 1, plenty, plenty + 44, report - 1, 0])
}

fn text(bytes: &[u8]) -> String {
    String::from_utf8_lossy(bytes).into_owned()
}

/// The start of a case's text.
fn shown(case: &Case) -> String {
    text(&case.table[..case.table.len().min(40_000)]) + &text(&case.log[..case.log.len().min(40_000)])
}

/// A table and a log that pauses in it; all of the log is accepted.
pub fn pausing_case() -> Case {
    let table = b"task\t10\t5\nact\t0\ncodel\t0\tstart\t20\ncodel\t0\tmain\t2\nedge\t0\t1\tpause\nedge\t1\tether\trun\nend\t6\n".to_vec();
    let log = b"wait\t10\nst\t0\nsm\t0\t0000000000000001\t0000000000000000\nlm\t0\t0\nea\t0\t0\nwait\t3\nfa\t0\t1\nfm\t0\n".to_vec();
    assert_eq!(judge(&table, &log), b"cycles\t1\nsum\t8\t13\t1\t0\t1\t0\t4\t0\t0\n");
    Case { table, log }
}

/// An accepted log of so many lines in a table of the size.
pub fn long_case(s: &mut Source, size: Size, keep: u64, lines: usize) -> Case {
    let table = sized_table(s, size, keep);
    let mut runner = Runner::new(&table, 100);
    let log: String = (0..lines).filter_map(|_| runner.next(s)).map(|step| step.line()).collect();
    Case { table: table.text().into_bytes(), log: log.into_bytes() }
}

/// A log of some 10 MB in K: quick cycles that are dropped, with a kept one and an interruption every hundred.
pub fn large_log() -> Vec<u8> {
    let quick = "st\t0\nsm\t0\t0000000000000001\t0000000000000000\nlm\t0\t0\nea\t0\t0\nwait\t4\nfa\t0\tether\nfm\t0\nwait\t6\n";
    let slow = "st\t0\nsm\t0\t0000000000000001\t0000000000000000\nlm\t0\t0\nea\t0\t0\nwait\t7\nfa\t0\tether\nfm\t0\nwait\t3\n";
    let interrupted = "st\t0\nsm\t0\t0000000000000001\t0000000000000001\nlm\t0\t0\nia\t0\nfm\t0\nwait\t10\n";
    let hundred = quick.repeat(98) + slow + interrupted;
    ("wait\t10\n".to_string() + &hundred.repeat(1_150)).into_bytes()
}

/// The widest row of a table of 16 tasks and 64 activities in which each number has so many digits.
pub fn widest_row(digits: usize) -> Vec<u8> {
    let (n, set) = ("9".repeat(digits), "0".repeat(16));
    let task = [&n[..], "0", "0", &n, &set, &set, &n, &n, &n, &n].join("\t");
    let act = [&n[..], "0", &n].join("\t");
    let fields: Vec<&str> = [&n[..]].into_iter().chain([&task[..]; 16]).chain([&act[..]; 64]).collect();
    format!("state\t{}\n", fields.join("\t")).into_bytes()
}

/// A table of the most rows and a sound state of it with numbers as wide as they may be: in each task the last activity executes.
pub fn widest_sound(s: &mut Source) -> (Table, State) {
    let mut table = sized_table(s, SIZES[2].1, 400);
    table.tasks.iter_mut().for_each(|task| task.0 = MOST_TICKS);
    table.codels.iter_mut().for_each(|codel| codel.limit = MOST_TICKS);
    let mut state = State { date: CEILING, ..State::fresh(&table) };
    let most = CEILING - MOST_TICKS;
    for (task, t) in state.tasks.iter_mut().enumerate() {
        let a = 4 * task + 3;
        let (holder, to_run) = (Holder::Activity(a), 1 << a);
        let open = TaskState { managing: true, holder, to_run, open: CEILING, ..t.clone() };
        *t = TaskState { timer: MOST_TICKS, cycle: most, missed: most, longest: MOST_TICKS, ..open };
        state.acts[a] = ActivityState { at: 4 * a as u64 + 1, executing: true, clock: MOST_TICKS };
    }
    (table, state)
}

/// Cases of tables with the most rows, their logs of little but rows: some that read and are not sound, some that do not read, the widest
/// sound one, and one that a walk reaches: once, cut, twice, and behind the walk.
pub fn wide_cases(s: &mut Source) -> Vec<Case> {
    let (table, state) = widest_sound(s);
    let widest = Case { table: table.text().into_bytes(), log: row_of(&state) };
    let walk = long_case(s, SIZES[2].1, 400, 300);
    let row = reached(&walk.table, &walk.log).expect("a walk that is accepted");
    let cut = row[..row.len() - 1].to_vec();
    let (twice, behind) = ([&row[..], &row].concat(), [&walk.log[..], &row, &row].concat());
    let logs = (12..=15).map(widest_row).chain([row, cut, twice, behind]);
    logs.map(|log| Case { table: walk.table.clone(), log }).chain([widest]).collect()
}

/// A log that is accepted, with the row of the state reached behind every so many lines.
pub fn with_rows_between(case: &Case, lines: usize) -> Case {
    let table = Table::read(&case.table).expect("a table that is fine");
    let mut state = State::fresh(&table);
    let mut log = Vec::new();
    for (i, line) in case.log.split_inclusive(|b| *b == b'\n').enumerate() {
        apply(&table, &mut state, &Step::read(line).expect("a step"));
        log.extend(line);
        if (i + 1) % lines == 0 {
            log.extend(row_of(&state));
        }
    }
    Case { table: case.table.clone(), log }
}

/// A log in K that begins from a row, goes on for one tick, and has a row behind it.
pub fn rowed_case() -> Case {
    let log = lines_of("state 12 2 0 1 0 x1 x0 1 10 0 0 0 1 2, wait 1, state 13 3 0 1 0 x1 x0 1 10 0 0 0 1 3");
    assert_eq!(judge(K_TABLE.as_bytes(), &log), b"cycles\t1\nsum\t1\t13\t1\t0\t0\t1\t0\t0\t0\n");
    Case { table: K_TABLE.into(), log }
}
