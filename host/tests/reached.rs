//! `reached` against the model: the exported function through the driver recorder/cases.c, and the program target/bin/reached.
//! CASES in the environment says how many random cases the function is given.

use host::driver::{case_count, large_log, long_case, pausing_case, rowed_case, wide_cases, with_rows_between, Driver, Hits, UNFIT};
use host::model::{cut_input, reached};
use host::row::LONGEST_ROW;
use host::told::{told_cases, K_LOG, K_TABLE as K};
use host::walk::{any_case, ceiling_case, cut_everywhere, row_case, Case, SIZES};
use host::{outputs_of, product, repository, run_program, start, write_in_chunks, write_to, Source};
use std::fs::read;
use std::path::PathBuf;
use std::process::Output;

/// The exported function behind the driver, for the test of this name.
fn function(test: &str) -> Driver {
    Driver::of_product(PathBuf::from(env!("CARGO_TARGET_TMPDIR")).join(format!("reached_{}", test)))
}

fn case(table: &str, log: impl AsRef<[u8]>) -> Case {
    Case { table: table.as_bytes().to_vec(), log: log.as_ref().to_vec() }
}

fn shown(bytes: &[u8]) -> String {
    String::from_utf8_lossy(&bytes[..bytes.len().min(20_000)]).into_owned()
}

/// What the program must write to standard output and to standard error: the row, or the refusal's number and line.
fn told_of(stdin: &[u8]) -> (Vec<u8>, Vec<u8>) {
    let (table, log) = cut_input(stdin);
    match reached(table, log) {
        Ok(row) => (row, vec![]),
        Err((number, line)) => (vec![], format!("{}\t{}\n", number, line).into_bytes()),
    }
}

/// Holds what the program left to what it must write. A refusal may give it another status, but it ends by itself.
fn assert_told(input: &[u8], output: &Output) {
    assert!(output.status.code().is_some(), "{}\nends the program with {}", shown(input), output.status);
    let wrote = (output.stdout.clone(), output.stderr.clone());
    let told = told_of(input);
    assert!(wrote == told, "{}\ngives {} and {}", shown(input), shown(&wrote.0), shown(&wrote.1));
}

fn compare_program(inputs: &[Vec<u8>]) {
    for input in inputs {
        let bytes = input.clone();
        assert_told(input, &outputs_of(start(&product("reached")), move |mut pipe| write_to(&mut pipe, &bytes)));
    }
}

fn compare_in_chunks(input: &[u8], chunk: usize) {
    let child = start(&product("reached"));
    let (process, bytes) = (child.id(), input.to_vec());
    assert_told(input, &outputs_of(child, move |pipe| write_in_chunks(process, pipe, &bytes, chunk)));
}

fn input_of(case: &Case) -> Vec<u8> {
    [&case.table[..], &case.log].concat()
}

#[test]
fn a_row_is_written_exactly_where_it_fits() {
    let driver = function("rooms");
    for case in [case(K, K_LOG), case(K, ""), pausing_case(), rowed_case()] {
        let length = reached(&case.table, &case.log).expect("an accepted log").len();
        let rooms = (0..length + 3).chain([LONGEST_ROW - 1, LONGEST_ROW, LONGEST_ROW + 1, 65_536, 1_000_000]);
        let asked = rooms.flat_map(|room| [0, 1, 2, 3].map(|numbers| (&case, room, numbers)));
        let mut hits = Hits::default();
        driver.compare_reached(&asked.collect::<Vec<(&Case, usize, usize)>>(), &mut hits);
        assert_eq!(hits[UNFIT], 4 * length, "every shorter buffer, the empty one too");
    }
}

#[test]
fn a_refusal_leaves_the_buffer_and_a_short_pair_alone() {
    let cases = [case(K, "st\t0\n"), case("", K_LOG), case(K, "wait\t10"), case(K, "state\t0\n"), case(K, "wait\t10\nst\t0\nst\t0\n")];
    let asked = cases.iter().flat_map(|case| (0..5).map(move |numbers| (case, 200, numbers)));
    let mut hits = Hits::default();
    function("refused").compare_reached(&asked.collect::<Vec<(&Case, usize, usize)>>(), &mut hits);
    assert_eq!((hits[0], hits[6], hits[11], hits[14]), (0, 5, 10, 10));
}

#[test]
fn the_function_gives_the_row_that_the_model_gives() {
    let mut hits = Hits::default();
    let count = case_count(40_000) / 2;
    function("random").compare_random_reached(&mut Source(61), count, &mut hits);
    for number in [0, UNFIT].into_iter().chain(1..=7).chain(11..=17).chain([20, 21]) {
        assert!(hits[number] >= count / 2_000, "{} is given {} times", number, hits[number]);
    }
}

#[test]
fn the_function_gives_the_rows_of_long_logs() {
    let mut s = Source(62);
    let driver = function("long");
    for ((_, size), lines) in SIZES.iter().zip([20_000, 5_000, 1_000]) {
        let whole = long_case(&mut s, *size, 400, lines);
        let cases = [with_rows_between(&whole, 61), whole, ceiling_case(&mut s)];
        driver.compare_reached_in_any_room(&mut s, &cases, &mut Hits::default());
    }
    let wide = wide_cases(&mut s);
    driver.compare_reached_in_any_room(&mut s, &wide, &mut Hits::default());
}

#[test]
fn the_program_gives_what_the_page_tells() {
    compare_program(&told_cases().iter().map(|(case, _)| input_of(case)).collect::<Vec<Vec<u8>>>());
    compare_program(&[vec![], K.into(), b"end\t0\n".to_vec(), K[..K.len() - 1].into(), vec![b'x'; 40_000]]);
}

#[test]
fn the_program_gives_the_row_that_the_model_gives() {
    let mut s = Source(63);
    let mut cases: Vec<Case> = (0..200).map(|_| any_case(&mut s)).collect();
    cases.extend((0..100).map(|_| row_case(&mut s)));
    cases.extend((0..2).flat_map(|_| cut_everywhere(&mut s, 30)));
    cases.extend(wide_cases(&mut s));
    compare_program(&cases.iter().map(input_of).collect::<Vec<Vec<u8>>>());
}

#[test]
fn the_program_reads_its_input_in_any_pieces() {
    let mut s = Source(64);
    let small = [case(K, K_LOG), rowed_case(), case(K, "wait\t11\n"), case(K, "")];
    for (case, chunk) in small.iter().flat_map(|case| [1, 2, 63, 64, 4_096].map(|chunk| (case, chunk))) {
        compare_in_chunks(&input_of(case), chunk);
    }
    let long = with_rows_between(&long_case(&mut s, SIZES[2].1, 400, 2_000), 50);
    assert!(long.log.len() > 65_536, "more than a piece");
    for chunk in [63, 4_095, 4_096, 65_535, 65_536, 65_537] {
        compare_in_chunks(&input_of(&long), chunk);
    }
}

#[test]
fn the_program_gives_the_row_of_a_log_of_ten_megabytes() {
    let log = large_log();
    compare_program(&[[K.as_bytes(), &log].concat(), [K.as_bytes(), &log, b"wait\t11\n"].concat()]);
}

/// The rows of a report but its first and its last, and the nine numbers of that one.
fn parts_of(report: &[u8]) -> (Vec<String>, Vec<u64>) {
    let text = String::from_utf8(report.to_vec()).expect("a report is plain text");
    let mut rows: Vec<String> = text.lines().skip(1).map(str::to_string).collect();
    let sum = rows.pop().expect("a `sum` row");
    (rows, sum.split('\t').skip(1).map(|n| n.parse().expect("a number")).collect())
}

/// The programs alone, without the model: a drive that is cut anywhere has the kept rows of the whole, and its sums add up.
#[test]
fn a_drive_that_is_cut_is_judged_as_one() {
    let mut s = Source(65);
    for (_, size) in SIZES {
        let case = long_case(&mut s, size, 400, 1_500);
        let lines: Vec<&[u8]> = case.log.split_inclusive(|b| *b == b'\n').collect();
        let judged = |log: &[u8]| parts_of(&run_program("judge", &[&case.table, log].concat()));
        let (kept, sum) = judged(&case.log);
        for _ in 0..8 {
            let (morning, afternoon) = lines.split_at(s.below(lines.len() as u64 + 1) as usize);
            let row = run_program("reached", &[&case.table[..], &morning.concat()].concat());
            let (first, second) = (judged(&morning.concat()), judged(&[row, afternoon.concat()].concat()));
            assert_eq!([first.0, second.0].concat(), kept);
            assert_eq!([0, 3, 4].map(|i| first.1[i] + second.1[i]), [sum[0], sum[3], sum[4]]);
            assert_eq!(first.1[2] + second.1[2], sum[2] + first.1[5]);
            assert_eq!([1, 5, 7, 8].map(|i| second.1[i]), [sum[1], sum[5], 0, 0]);
        }
    }
}

#[test]
fn the_example_of_the_afternoon_begins_with_the_row_of_the_morning() {
    let example = |name: &str| read(repository().join("examples").join(name)).expect("an example");
    let row = run_program("reached", &example("noon-first.txt"));
    let second = example("noon-second.txt");
    let (_, log) = cut_input(&second);
    assert_eq!(log.split_inclusive(|b| *b == b'\n').next(), Some(&row[..]));
}
