//! The C judges of the benchmarks against the model, on random tables and logs, intact and damaged, and on buffers of every fit.
//! CASES in the environment says how many cases, CFLAGS how the C is compiled.

use host::driver::{case_count, compile, long_case, pausing_case, wide_cases, with_rows_between, Driver, Hits, UNFIT};
use host::model::{cut_input, judge};
use host::walk::{any_case, refused_everywhere, Case, SIZES};
use host::{run, Source};
use std::path::PathBuf;

/// Each C judge by name, with the flag that chooses it.
const C_JUDGES: [(&str, &str); 2] = [("tuned", "-UPLAIN"), ("plain", "-DPLAIN")];

fn program(name: &str) -> PathBuf {
    PathBuf::from(env!("CARGO_TARGET_TMPDIR")).join(name)
}

/// The C judges behind the driver, for the test of this name.
fn drivers(test: &str) -> Vec<Driver> {
    C_JUDGES.iter().map(|(name, flag)| Driver::of_c_judge(program(&format!("{}_{}", name, test)), flag)).collect()
}

#[test]
fn the_c_judges_report_on_k_as_the_page_has_it() {
    for driver in drivers("k") {
        driver.compare_k();
    }
}

#[test]
fn the_c_judges_refuse_as_the_page_tells() {
    for driver in drivers("told") {
        driver.compare_told(&mut Hits::default());
    }
}

#[test]
fn the_c_judges_report_as_the_model_does() {
    for driver in drivers("random") {
        driver.compare_random(&mut Source(31), case_count(5_000), &mut Hits::default());
    }
}

#[test]
fn the_c_judges_give_the_row_that_the_model_gives() {
    let count = case_count(5_000);
    for driver in drivers("reached") {
        let mut hits = Hits::default();
        driver.compare_random_reached(&mut Source(35), count, &mut hits);
        assert!([0, 11, 20, 21, UNFIT].iter().all(|number| hits[*number] >= count / 100), "{:?}", hits);
    }
}

#[test]
fn the_c_judges_take_rows_anywhere_as_the_model_does() {
    let mut s = Source(37);
    let (wide, count) = (wide_cases(&mut s), case_count(5_000) / 2);
    for driver in drivers("rows") {
        let mut hits = Hits::default();
        driver.compare_rows(&mut s, count, &mut hits);
        assert!([0, 11, 20, 21].iter().all(|number| hits[*number] >= count / 50), "{:?}", hits);
        driver.compare_in_any_room(&mut s, &wide, &mut hits);
    }
}

#[test]
fn the_c_judges_judge_logs_cut_behind_any_line_as_the_model_does() {
    for driver in drivers("cut") {
        let mut hits = Hits::default();
        driver.compare_cut(&mut Source(36), 20, &mut hits);
        assert!(hits[0] >= 500, "{:?}", hits);
    }
}

#[test]
fn the_c_judges_refuse_as_the_model_does_all_along_a_walk() {
    let mut s = Source(34);
    for driver in drivers("refused") {
        for _ in 0..10 {
            let cases: Vec<Case> = (0..12).flat_map(|_| refused_everywhere(&mut s, 40)).collect();
            driver.compare_in_any_room(&mut s, &cases, &mut Hits::default());
        }
    }
}

#[test]
fn the_c_judges_read_every_byte_at_every_place_as_the_model_does() {
    for driver in drivers("byte") {
        driver.compare_every_byte(&pausing_case(), &mut Hits::default());
    }
}

#[test]
fn the_c_judges_report_long_logs_as_the_model_does() {
    let mut s = Source(32);
    let drivers = drivers("long");
    for ((_, size), lines) in SIZES.iter().zip([50_000, 5_000, 1_000]) {
        for keep in [1, 400, 1_000_000_000] {
            let case = long_case(&mut s, *size, keep, lines);
            let cases = [case.clone(), with_rows_between(&case, 97), case];
            for driver in &drivers {
                driver.compare_in_any_room(&mut s, &cases, &mut Hits::default());
            }
        }
    }
}

#[test]
fn the_c_programs_cut_their_input_as_the_model_does() {
    let mut s = Source(33);
    for (name, flag) in C_JUDGES {
        let program = program(name);
        compile(&program, flag, &["bench/program.c", "bench/judge.c"]);
        for i in 0..200 {
            let case = any_case(&mut s);
            let mut input = [case.table, case.log].concat();
            if i % 4 == 0 {
                input = [vec![b'x'; 32_740 + s.below(40) as usize], b"\nend\t1\n".to_vec(), input].concat();
            }
            let (table, log) = cut_input(&input);
            assert_eq!(run(&program, &input), judge(table, log), "{}", String::from_utf8_lossy(&input));
        }
    }
}
