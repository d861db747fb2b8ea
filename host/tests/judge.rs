//! The product against the model: the exported function through the driver recorder/cases.c, and the program target/bin/judge.
//! CASES in the environment says how many random cases the function is given.

use host::driver::{
    build_with_product, case_count, large_log, long_case, pausing_case, room_for_any, rowed_case, wide_cases, with_rows_between, Driver,
    Hits, UNFIT,
};
use host::model::{cut_input, judge};
use host::table::LONGEST;
use host::told::{cases_of_k, told_cases, K_LOG, K_REPORT, K_TABLE as K};
use host::walk::{any_case, ceiling_case, cut_everywhere, refused_everywhere, row_case, Case, SIZES};
use host::{output_of, product, repository, run, run_program, start, write_in_chunks, write_to, Source, EXAMPLES};
use std::fs::{read, read_to_string, remove_file};
use std::path::{Path, PathBuf};
use std::process::{Command, Stdio};

/// The most memory that the program may take, in kibibytes.
const MOST_MEMORY: u64 = 8 * 1024;

fn temporary(name: &str) -> PathBuf {
    PathBuf::from(env!("CARGO_TARGET_TMPDIR")).join(name)
}

/// The exported function behind the driver, for the test of this name.
fn function(test: &str) -> Driver {
    Driver::of_product(temporary(&format!("judge_{}", test)))
}

fn case(table: &str, log: impl AsRef<[u8]>) -> Case {
    Case { table: table.as_bytes().to_vec(), log: log.as_ref().to_vec() }
}

fn shown(bytes: &[u8]) -> String {
    String::from_utf8_lossy(&bytes[..bytes.len().min(40_000)]).into_owned()
}

/// What the model says of the program's standard input.
fn report_on(stdin: &[u8]) -> Vec<u8> {
    let (table, log) = cut_input(stdin);
    judge(table, log)
}

/// Holds the program and the function to the model on inputs of the program.
fn compare_program(function: &Driver, inputs: &[Vec<u8>], hits: &mut Hits) {
    let cut = |input: &Vec<u8>| {
        let (table, log) = cut_input(input);
        Case { table: table.to_vec(), log: log.to_vec() }
    };
    let cases: Vec<Case> = inputs.iter().map(cut).collect();
    let roomed: Vec<(&Case, usize)> = cases.iter().map(|case| (case, room_for_any(case.log.len()))).collect();
    function.compare(&roomed, hits);
    for input in inputs {
        let wrote = run_program("judge", input);
        assert!(wrote == report_on(input), "{}\ngives {}\nand not {}", shown(input), shown(&wrote), shown(&report_on(input)));
    }
}

/// Each report was given: without a refusal, and with every number of a table and of a log.
fn assert_every_answer(hits: &Hits, least: usize) {
    println!("none {}, by number {:?} and {:?}, not fitting {}", hits[0], &hits[1..8], &hits[11..22], hits[UNFIT]);
    for number in (0..=7).chain(11..=18).chain([20, 21]) {
        assert!(hits[number] >= least, "{} is given {} times", number, hits[number]);
    }
}

#[test]
fn the_report_of_k_is_the_pages_with_its_keep_and_with_longer_ones() {
    function("k").compare_k();
    for k in cases_of_k() {
        assert_eq!(run_program("judge", &[k.table, k.log].concat()), K_REPORT.as_bytes());
    }
}

#[test]
fn refusals_are_as_the_page_tells() {
    let driver = function("told");
    driver.compare_told(&mut Hits::default());
    let inputs: Vec<Vec<u8>> = told_cases().into_iter().map(|(case, _)| [case.table, case.log].concat()).collect();
    compare_program(&driver, &inputs, &mut Hits::default());
}

#[test]
fn a_report_is_written_exactly_where_it_fits() {
    let cases = [case(K, K_LOG), case(K, ""), case("", K_LOG), case(K, "st\t0\n"), pausing_case()];
    let driver = function("rooms");
    for case in &cases {
        let length = judge(&case.table, &case.log).len();
        let rooms = (0..length + 3).chain([length + 4_095, 65_535, 65_536, 65_537, 10_000_000]);
        let mut hits = Hits::default();
        driver.compare(&rooms.map(|room| (case, room)).collect::<Vec<(&Case, usize)>>(), &mut hits);
        assert_eq!(hits[UNFIT], length, "every shorter buffer, the empty one too");
    }
}

/// A report of more than 64 KiB, which no single small buffer holds.
#[test]
fn a_long_report_is_written_exactly_where_it_fits() {
    let cycle = "st\t0\nsm\t0\t0000000000000000\t0000000000000000\nfm\t0\nwait\t10\n";
    let table = K.replace("task\t10\t5", "task\t10\t1");
    let slow = "st\t0\nsm\t0\t0000000000000001\t0000000000000000\nlm\t0\t0\nea\t0\t0\nwait\t10\nfa\t0\tether\nfm\t0\n";
    let case = case(&table, "wait\t10\n".to_string() + &slow.repeat(4_000) + &cycle.repeat(3));
    let report = judge(&case.table, &case.log);
    assert!(report.len() > 100_000 && report.starts_with(b"cycles\t1\nkept\t0\t1\t10\t20\t0\t10\nkept\t0\t2\t20\t30\t0\t10\n"));
    let rooms = [0, 1, 9, 65_535, 65_536, 65_537, report.len() - 1, report.len(), report.len() + 1, 2 * report.len()];
    function("long_report").compare(&rooms.map(|room| (&case, room)), &mut Hits::default());
    assert!(run_program("judge", &[case.table, case.log].concat()) == report, "the program writes it too");
}

/// Inputs at the edges of the page's forms.
fn odd_inputs() -> Vec<Vec<u8>> {
    let line = |length: usize, filler: u8| [b"wait\t1".to_vec(), vec![filler; length - 7], vec![b'\n']].concat();
    let mut inputs: Vec<Vec<u8>> = vec![vec![], K.into(), b"\n".to_vec(), b"end\t0\n".to_vec(), b"end\t".to_vec(), b"end".to_vec()];
    let logs = ["\n", "\0", "\r\n", "wait\t10\r\n", "wait\t1\0\n", "wait\t10", "\0\0\0\0\n", "wait\t10\n\0", "wait\t10\n\nst\t0\n"];
    inputs.extend(logs.iter().map(|log| (K.to_string() + log).into_bytes()));
    for length in [16, 17, 61, 62, 63, 64, 65, 127, 128, 4_096, 65_536, 100_000] {
        for filler in *b"0\t x\0\r" {
            inputs.push([K.as_bytes(), &line(length, filler)].concat());
            inputs.push([K.as_bytes(), b"wait\t10\n", &line(length, filler), b"st\t0\n"].concat());
            inputs.push([b"task\t10\t5\n", &line(length, filler)[..]].concat());
            inputs.push([K.as_bytes(), &line(length, filler)[..length - 1]].concat());
        }
    }
    let tables = [K.replace('\n', "\r\n"), K.replace("act", "act\0"), K.replace("act\t0", "act\t\u{0}"), K[..K.len() - 1].to_string()];
    inputs.extend(tables.iter().map(|table| (table.clone() + K_LOG).into_bytes()));
    inputs
}

#[test]
fn odd_forms_are_read_as_the_model_does() {
    compare_program(&function("odd"), &odd_inputs(), &mut Hits::default());
}

/// Inputs whose table is about as long as one may be: with an `end` row around the last byte, or without any; junk, or rows that are read.
fn inputs_of_long_tables() -> Vec<Vec<u8>> {
    let mut inputs = Vec::new();
    for length in (LONGEST - 9..LONGEST + 9).chain([2 * LONGEST - 1, 2 * LONGEST, 2 * LONGEST + 1]) {
        let junk = vec![b'x'; length - 1];
        let all_but_end = &K.as_bytes()[..K.len() - 6];
        let rows: Vec<u8> = all_but_end.iter().chain(b"mutex\t0\t0\n".iter().cycle()).copied().take(length - 1).collect();
        for front in [junk, rows] {
            inputs.push(front.clone());
            inputs.push([&front[..], b"\n"].concat());
            inputs.push([&front[..front.len() - 6], b"\nend\t1\nst\t0\n"].concat());
            inputs.push([&front[..], b"\nend\t1\nst\t0\nend\t1\n"].concat());
        }
    }
    inputs
}

#[test]
fn tables_about_as_long_as_they_may_be_are_cut_as_the_model_does() {
    let mut hits = Hits::default();
    compare_program(&function("long_tables"), &inputs_of_long_tables(), &mut hits);
    assert!(hits[1] > 20 && hits[3] > 20, "both sides of the longest: {:?}", hits);
}

#[test]
fn the_function_reports_as_the_model_does() {
    let mut hits = Hits::default();
    let count = case_count(40_000);
    function("random").compare_random(&mut Source(41), count, &mut hits);
    assert_every_answer(&hits, count / 1_000);
    assert!(hits[UNFIT] >= count / 10, "it often does not fit: {} times", hits[UNFIT]);
}

#[test]
fn the_function_refuses_as_the_model_does_all_along_a_walk() {
    let mut s = Source(42);
    let mut hits = Hits::default();
    let driver = function("refused");
    for _ in 0..10 {
        let cases: Vec<Case> = (0..12).flat_map(|_| refused_everywhere(&mut s, 40)).collect();
        driver.compare_in_any_room(&mut s, &cases, &mut hits);
    }
    assert!(hits[12..=17].iter().all(|n| *n >= 50), "each refusal is met often: {:?}", hits);
}

#[test]
fn the_function_reads_every_byte_at_every_place_as_the_model_does() {
    function("byte").compare_every_byte(&pausing_case(), &mut Hits::default());
}

#[test]
fn the_function_takes_rows_anywhere_as_the_model_does() {
    let mut hits = Hits::default();
    let count = case_count(40_000) / 4;
    function("rows").compare_rows(&mut Source(46), count, &mut hits);
    assert!([0, 11, 20, 21].iter().all(|number| hits[*number] >= count / 50), "{:?}", hits);
}

#[test]
fn the_function_judges_logs_cut_behind_any_line_as_the_model_does() {
    let mut hits = Hits::default();
    function("cut").compare_cut(&mut Source(47), 40, &mut hits);
    assert!(hits[0] >= 1_000, "{:?}", hits);
}

#[test]
fn wide_rows_are_read_as_the_model_does() {
    let cases = wide_cases(&mut Source(48));
    let mut hits = Hits::default();
    let driver = function("wide");
    driver.compare(&cases.iter().map(|case| (case, room_for_any(case.log.len()))).collect::<Vec<(&Case, usize)>>(), &mut hits);
    assert_eq!((hits[0], hits[11], hits[20]), (4, 3, 2));
    let inputs: Vec<Vec<u8>> = cases.iter().map(|case| [&case.table[..], &case.log].concat()).collect();
    compare_program(&driver, &inputs, &mut Hits::default());
}

#[test]
fn the_function_reads_every_byte_of_a_row_as_the_model_does() {
    let mut hits = Hits::default();
    function("row_byte").compare_every_byte_of_log(&rowed_case(), &mut hits);
    assert!([0, 11, 20, 21].iter().all(|number| hits[*number] >= 100), "{:?}", hits);
}

#[test]
fn the_function_reports_long_logs_as_the_model_does() {
    let mut s = Source(43);
    let driver = function("long");
    for ((_, size), lines) in SIZES.iter().zip([30_000, 5_000, 1_000]) {
        for keep in [1, 400, 1_000_000_000] {
            let case = long_case(&mut s, *size, keep, lines);
            let rowed = with_rows_between(&case, 97);
            driver.compare_in_any_room(&mut s, &[case.clone(), case, rowed], &mut Hits::default());
        }
    }
}

#[test]
fn the_program_reports_as_the_model_and_the_function_do() {
    let mut s = Source(44);
    let mut hits = Hits::default();
    let mut cases: Vec<Case> = (0..500).map(|_| any_case(&mut s)).collect();
    cases.extend((0..6).map(|_| ceiling_case(&mut s)));
    cases.extend((0..3).flat_map(|_| refused_everywhere(&mut s, 20)).take(150));
    cases.extend((0..200).map(|_| row_case(&mut s)));
    cases.extend(cut_everywhere(&mut s, 40));
    let inputs: Vec<Vec<u8>> = cases.iter().map(|case| [&case.table[..], &case.log].concat()).collect();
    compare_program(&function("program"), &inputs, &mut hits);
    assert_every_answer(&hits, 1);
}

fn run_in_chunks(input: &[u8], chunk: usize) -> Vec<u8> {
    let child = start(&product("judge"));
    let (process, bytes) = (child.id(), input.to_vec());
    output_of(child, move |pipe| write_in_chunks(process, pipe, &bytes, chunk))
}

/// Inputs, and how many bytes at a time the program is given of each.
fn inputs_in_pieces() -> Vec<(Vec<u8>, &'static [usize])> {
    let mut s = Source(45);
    let mut cases = |size: usize, keep: u64, lines: usize, apart: usize| {
        let case = long_case(&mut s, SIZES[size].1, keep, lines);
        let rowed = with_rows_between(&case, apart);
        [case, rowed].map(|case| [case.table, case.log].concat())
    };
    let ([full, full_rowed], [long, long_rowed]) = (cases(2, 400, 2_000, 40), cases(0, 1_000_000_000, 25_000, 3));
    let refused = [&long[..200_000], b"\nwait\t1\n", &long[200_000..]].concat();
    assert!(full.len() > 20_000 && long.len() > 3 * 65_537, "more than a few pieces");
    let short = [K.to_string() + K_LOG, K.to_string() + K_LOG + "wait\t0", K.to_string(), String::new()];
    let mut inputs: Vec<(Vec<u8>, &'static [usize])> = Vec::new();
    inputs.extend(short.iter().map(|input| (input.clone().into_bytes(), &[1, 2, 63, 64, 65_536][..])));
    inputs.extend([full, full_rowed].map(|input| (input, &[63, 64, 4_095, 4_096, 65_536][..])));
    inputs.extend([long, long_rowed, refused].map(|input| (input, &[65_535, 65_536, 65_537, usize::MAX][..])));
    inputs.extend(inputs_of_long_tables().into_iter().step_by(9).map(|input| (input, &[4_096, 32_767, 32_768, 32_769][..])));
    inputs
}

#[test]
fn the_program_reads_its_input_in_any_pieces() {
    for (input, chunks) in inputs_in_pieces() {
        let report = report_on(&input);
        for chunk in chunks {
            let wrote = run_in_chunks(&input, *chunk);
            assert!(wrote == report, "{} bytes, {} at a time: {}\nand not {}", input.len(), chunk, shown(&wrote), shown(&report));
        }
    }
}

#[test]
fn logs_of_ten_megabytes_are_judged() {
    let log = large_log();
    assert!(log.len() > 10_000_000);
    let driver = function("large");
    let whole = case(K, &log);
    let refused = case(K, [&log[..], b"wait\t11\n"].concat());
    let report = judge(&whole.table, &whole.log);
    let sum = "sum\t917701\t1150010\t115000\t1150\t113850\t0\t5\t0\t0\n";
    assert!(report.ends_with(sum.as_bytes()), "{}", shown(&report[report.len() - 100..]));
    driver.compare(&[(&whole, report.len()), (&whole, report.len() - 1), (&refused, 2 * report.len())], &mut Hits::default());
    for case in [whole, refused] {
        let input = [case.table, case.log].concat();
        assert!(run_program("judge", &input) == report_on(&input), "the program's report on {} bytes", input.len());
    }
}

/// The peak memory of the program on an input, in kibibytes.
fn peak_memory(measure: &Path, input: &[u8], name: &str) -> u64 {
    let file = temporary(name);
    if file.exists() {
        remove_file(&file).expect("the measurement before is removed");
    }
    let mut command = Command::new(measure);
    command.arg(&file).arg(product("judge")).stdin(Stdio::piped()).stdout(Stdio::piped());
    let bytes = input.to_vec();
    let wrote = output_of(command.spawn().expect("it starts"), move |mut pipe| write_to(&mut pipe, &bytes));
    assert!(wrote == report_on(input), "the report, measured or not");
    let line = read_to_string(&file).expect("a line of the measurement");
    line.trim().split('\t').nth(1).and_then(|kib| kib.parse().ok()).expect("kibibytes in the second field")
}

#[test]
fn the_programs_memory_stays_small() {
    if !cfg!(target_arch = "x86_64") {
        println!("not measured: the program runs under an emulator here");
        return;
    }
    let measure = temporary("measure");
    let source = repository().join("host/bench/measure.c");
    let compiled = Command::new("cc").args(["-O2", "-std=c11", "-o"]).arg(&measure).arg(source).status().expect("cc starts");
    assert!(compiled.success(), "measure.c compiles");
    let large = [K.as_bytes(), &large_log()].concat();
    let large_report = [K.replace("task\t10\t5", "task\t10\t1").as_bytes(), &large_log()].concat();
    let one_line = [K.as_bytes(), &vec![b'0'; 10_000_000]].concat();
    let no_end = vec![b'x'; 10_000_000];
    for (name, input) in [("large_log", large), ("large_report", large_report), ("one_line", one_line), ("no_end_row", no_end)] {
        let peak = peak_memory(&measure, &input, &format!("memory_of_{}", name));
        println!("{}: {} bytes, peak memory {} KiB", name, input.len(), peak);
        assert!(peak < MOST_MEMORY, "{} KiB for {} bytes of {}", peak, input.len(), name);
    }
}

#[test]
fn the_program_reports_on_the_examples() {
    let examples = repository().join("examples");
    for name in EXAMPLES {
        let file = |ending: &str| read(examples.join(format!("{}.{}", name, ending))).expect("an example");
        assert!(run_program("judge", &file("txt")) == file("report"), "examples/{}.txt", name);
    }
}

#[test]
fn the_recorder_prints_the_reports_of_the_runs_that_it_still_has_and_of_a_drive_that_it_cuts() {
    let program = temporary("recorder");
    build_with_product(&program, "recorder.c");
    let wrote = String::from_utf8(run(&program, b"")).expect("plain text");
    let slow = "cycles\t1\nkept\t0\t2\t20\t25\t0\t5\nkept\t0\t3\t30\t39\t0\t9\nsum\t25\t40\t3\t2\t1\t0\t4\t0\t0\n";
    let last = "cycles\t1\nkept\t0\t2\t20\t27\t0\t7\nsum\t17\t30\t2\t1\t1\t0\t4\t17\t18\n";
    let runs = format!("lines 34 to 58:\n{}lines 59 to 76:\n{}", slow, last);
    // the cycle that is open at noon is opened in both files and kept in the second
    let morning = "cycles\t1\nkept\t0\t1\t10\t16\t0\t6\nsum\t14\t27\t2\t1\t0\t1\t4\t0\t0\n";
    let afternoon = "cycles\t1\nkept\t0\t2\t20\t27\t0\t7\nsum\t11\t40\t2\t1\t1\t0\t4\t0\t0\n";
    assert_eq!(wrote, format!("{}up to noon:\n{}from noon on:\n{}", runs, morning, afternoon));
}
