//! The model's `state` rows against the page: what is written is read back, a log may be cut anywhere, and no other row passes.

use host::driver::{widest_row, widest_sound};
use host::model::{judge, reached, reached_into, refused_with, unsound, Judging, State, CEILING};
use host::row::{is_row, read_row, read_sound_row, row_of, LONGEST_ROW};
use host::table::Table;
use host::told::{line_of, lines_of, told_cases, K, K_FRESH, K_LOG, M, STANDING, TWO};
use host::walk::{any_case, any_table, lines_with_rows, sized_table, some_sound_state, wild_step, SIZES};
use host::Source;
use std::collections::BTreeSet;

/// The longest row that reads, in a table of 16 tasks and 64 activities: every number has 13 digits.
const LONGEST_READ: usize = 3_892;

fn table(list: &str) -> Table {
    Table::read(&lines_of(list)).expect("a table that is fine")
}

fn text(bytes: &[u8]) -> String {
    String::from_utf8_lossy(bytes).into_owned()
}

/// The report of a table and a log in their short forms, with spaces.
fn report(table: &str, log: &str) -> String {
    text(&judge(&lines_of(table), &lines_of(log))).replace('\t', " ")
}

/// A sound state is written to a row that reads back to it and to nothing else.
fn check_row(table: &Table, state: &State) {
    let row = row_of(state);
    assert_eq!(read_row(table, &row).as_ref(), Some(state), "{}", text(&row));
    assert_eq!(read_sound_row(table, &row).as_ref(), Ok(state));
    assert!(is_row(&row) && row.len() <= LONGEST_READ && row.ends_with(b"\n"), "{} bytes", row.len());
    assert_eq!(row.iter().filter(|b| **b == b'\t').count(), 1 + 10 * table.tasks.len() + 3 * table.acts.len());
}

#[test]
fn a_row_has_the_pages_fields_in_its_order() {
    let k = table(K);
    assert_eq!(row_of(&State::fresh(&k)), line_of(K_FRESH).as_bytes());
    let log = lines_of("wait 10, st 0, sm 0 1 0, lm 0 0, ea 0 0, wait 10, st 0, wait 10");
    let row = b"state\t30\t10\t1\t1\t0\t0000000000000001\t0000000000000000\t1\t10\t1\t0\t0\t1\t20\n";
    assert_eq!(reached(&lines_of(K), &log), Ok(row.to_vec()));
    let standing = "state 10 0 0 1 0 x1 x0 1 10 0 0 0 0 1 1 x2 x0 1 10 0 0 0 0 0 1 0 0";
    assert_eq!(reached(&lines_of(M), &lines_of(STANDING)), Ok(line_of(standing).into_bytes()));
    let ended = "state 30 0 0 0 manager x0 x0 3 0 0 0 ether 0 0";
    assert_eq!(reached(&lines_of(K), K_LOG.as_bytes()), Ok(line_of(ended).into_bytes()));
}

#[test]
fn a_row_read_back_is_the_same_state() {
    let mut s = Source(51);
    for _ in 0..3_000 {
        let table = any_table(&mut s);
        let state = some_sound_state(&mut s, &table, 40);
        check_row(&table, &state);
    }
    for _ in 0..20 {
        let table = sized_table(&mut s, SIZES[2].1, 400);
        let state = some_sound_state(&mut s, &table, 40);
        check_row(&table, &state);
    }
}

#[test]
fn the_longest_row_that_reads_is_far_from_the_longest_line() {
    let full = sized_table(&mut Source(52), SIZES[2].1, 400);
    let widest = widest_row(13);
    assert_eq!(widest.len(), LONGEST_READ);
    assert_eq!(read_sound_row(&full, &widest), Err(20));
    assert_eq!(read_sound_row(&full, &widest_row(14)), Err(11));
    assert!(LONGEST_READ < LONGEST_ROW);
}

#[test]
fn the_widest_sound_state_has_a_row() {
    let (table, state) = widest_sound(&mut Source(58));
    assert_eq!(unsound(&table, &state), None);
    check_row(&table, &state);
    assert!(row_of(&state).len() > 2_300, "{} bytes", row_of(&state).len());
}

#[test]
fn each_sentence_of_a_sound_state_is_broken_by_a_row() {
    let two = table(TWO);
    let broken = told_cases().into_iter().filter(|(case, refused)| *refused == (20, 1) && case.table == lines_of(TWO));
    let states = broken.map(|(case, _)| read_row(&two, &case.log).expect("a row that reads"));
    let sentences: BTreeSet<&str> = states.filter_map(|state| unsound(&two, &state)).collect();
    assert_eq!(sentences.len(), 20, "{:?}", sentences);
}

#[test]
fn a_row_refused_on_line_1_leaves_the_fresh_sum() {
    let refused = |row: &str, number: u64| assert_eq!(report(K, row), format!("cycles 1\nsum 0 0 0 0 0 0 0 {} 1\n", number));
    refused("state 30 10 1 1 0 x1 x0 1 10 1 0 0 1", 11);
    refused("state 30 10 1 1 0 x1 x0 1 10 1 0 0 1 21", 20);
    refused("state", 11);
}

#[test]
fn a_row_is_a_line_and_no_step() {
    let open = "state 30 10 1 1 0 x1 x0 1 10 1 0 0 1 20";
    assert_eq!(report(K, open), "cycles 1\nsum 0 30 1 0 0 1 0 0 0\n");
    assert_eq!(report(K, &format!("{}, {}", open, open)), "cycles 1\nsum 0 30 1 0 0 1 0 0 0\n");
    let closed = format!("{}, fa 0 ether, fm 0", open);
    assert_eq!(report(K, &closed), "cycles 1\nkept 0 1 10 30 1 20\nsum 2 30 1 1 0 0 2 0 0\n");
    // the row between them does not part the steps of one date, and counts in the refusal's line
    let between = format!("{}, fa 0 ether, state 30 10 1 1 manager x0 x0 1 10 1 20 ether 0 0, fm 0, lm 0 0", open);
    assert_eq!(report(K, &between), "cycles 1\nkept 0 1 10 30 1 20\nsum 2 30 1 1 0 0 2 13 5\n");
    let differs = format!("{}, fa 0 ether, {}", open, open);
    assert_eq!(report(K, &differs), "cycles 1\nsum 1 30 1 0 0 1 1 21 3\n");
}

/// The log from line `from` on, up to line `to`.
fn lines(lines: &[Vec<u8>], from: usize, to: usize) -> Vec<u8> {
    lines[from..to].concat()
}

/// A log judged whole against its two parts, cut behind its first `cut` lines, all of them accepted.
fn check_cut(table: &Table, log: &[Vec<u8>], cut: usize) {
    let whole = Judging::of(table, &log.concat());
    let first = Judging::of(table, &lines(log, 0, cut));
    assert_eq!((first.refusal, first.line), (0, 0));
    let row = reached(table.text().as_bytes(), &lines(log, 0, cut)).expect("an accepted log reaches a state");
    assert_eq!(row, row_of(&first.state));
    let second = Judging::of(table, &[row, lines(log, cut, log.len())].concat());
    assert_eq!([first.kept.clone(), second.kept.clone()].concat(), whole.kept);
    assert_eq!([first.dropped.clone(), second.dropped.clone()].concat(), whole.dropped);
    assert_eq!([first.accepted.clone(), second.accepted.clone()].concat(), whole.accepted);
    assert_eq!((second.open_at_start, first.opened() + second.opened()), (first.state.managing(), whole.opened() + first.state.managing()));
    assert_eq!((&second.state, second.refusal), (&whole.state, whole.refusal));
    assert_eq!(second.line, if whole.line == 0 { 0 } else { whole.line - cut + 1 });
    check_sums(first.sum(), second.sum(), whole.sum(), first.state.managing() as u64);
    let (most, parts) = (whole.most_between_waits(), [first.most_between_waits(), second.most_between_waits()]);
    assert!(parts.iter().all(|n| *n <= most) && most <= parts[0] + parts[1], "{} of {:?}", most, parts);
}

/// The two `sum` rows add up to the whole one's: steps, opened but for the tasks managing at the cut, kept, dropped; date, managing and
/// refusal are the second's.
fn check_sums(first: [u64; 9], second: [u64; 9], whole: [u64; 9], managing: u64) {
    let added = [0, 3, 4].map(|i| first[i] + second[i]);
    assert_eq!(added, [whole[0], whole[3], whole[4]]);
    assert_eq!(first[2] + second[2], whole[2] + managing);
    assert_eq!([second[1], second[5], second[7]], [whole[1], whole[5], whole[7]]);
    assert_eq!([first[5], first[7], first[8]], [managing, 0, 0]);
}

#[test]
fn a_log_may_be_cut_behind_any_line() {
    let mut s = Source(53);
    let (mut cuts, mut open) = (0, 0);
    for _ in 0..700 {
        let table = any_table(&mut s);
        let mut log = lines_with_rows(&mut s, &table, 30);
        let accepted = log.len();
        log.push(wild_step(&mut s, &table).line().into_bytes());
        // before the first line too, where that is a step
        let starts = usize::from(log.first().map_or(false, |line| is_row(line)));
        for cut in starts..=accepted {
            check_cut(&table, &log, cut);
            cuts += 1;
            open += usize::from(Judging::of(&table, &lines(&log, 0, cut)).state.managing() > 0);
        }
    }
    assert!(cuts > 10_000 && open > cuts / 4, "{} of {} cuts with a cycle open", open, cuts);
}

#[test]
fn rows_of_the_state_reached_change_nothing_but_the_line() {
    let mut s = Source(54);
    let mut refused = 0;
    for _ in 0..400 {
        let table = any_table(&mut s);
        let mut log = lines_with_rows(&mut s, &table, 40);
        log.push(wild_step(&mut s, &table).line().into_bytes());
        let keeps = |i: usize| i == 0 || !is_row(&log[i]);
        let bare: Vec<Vec<u8>> = (0..log.len()).filter(|i| keeps(*i)).map(|i| log[i].clone()).collect();
        let (with_rows, without) = (Judging::of(&table, &log.concat()), Judging::of(&table, &bare.concat()));
        let line = if without.line == 0 { 0 } else { log.len() };
        assert_eq!(with_rows, Judging { line, ..without });
        refused += usize::from(with_rows.refusal > 0);
    }
    assert!(refused > 100, "{} logs end with a refusal", refused);
}

/// A row with one byte changed in every way that is worth a try.
fn changed_bytes(row: &[u8]) -> impl Iterator<Item = Vec<u8>> + '_ {
    let odd = b"0123456789abcdefmrtgA\t\n\r\0 +-";
    (0..row.len()).flat_map(move |at| odd.iter().filter(move |b| **b != row[at]).map(move |b| [&row[..at], &[*b], &row[at + 1..]].concat()))
}

#[test]
fn no_row_but_the_one_of_the_state_reached_passes() {
    let mut s = Source(55);
    let mut hits = [0usize; 22];
    for _ in 0..60 {
        let table = any_table(&mut s);
        let before = lines_with_rows(&mut s, &table, 20);
        let log = if before.is_empty() { row_of(&State::fresh(&table)) } else { before.concat() };
        let reached_state = Judging::of(&table, &log).state;
        let place = log.iter().filter(|b| **b == b'\n').count() + 1;
        for changed in changed_bytes(&row_of(&reached_state)).step_by(7) {
            let judging = Judging::of(&table, &[&log[..], &changed].concat());
            assert_eq!((judging.line, &judging.state), (place, &reached_state), "{}", text(&changed));
            hits[judging.refusal as usize] += 1;
        }
    }
    assert_eq!(hits[11] + hits[20] + hits[21], hits.iter().sum::<usize>());
    assert!([11, 20, 21].iter().all(|number| hits[*number] > 200), "{:?}", hits);
}

#[test]
fn a_row_that_reads_and_is_sound_is_the_row_of_its_state() {
    let mut s = Source(56);
    let mut sound = 0;
    for _ in 0..300 {
        let table = any_table(&mut s);
        let row = row_of(&some_sound_state(&mut s, &table, 30));
        for changed in changed_bytes(&row).step_by(5) {
            if let Ok(state) = read_sound_row(&table, &changed) {
                assert_eq!(text(&row_of(&state)), text(&changed));
                sound += 1;
            }
        }
    }
    assert!(sound > 1_000, "{} changed rows are sound", sound);
}

#[test]
fn reached_gives_the_row_or_the_refusal_of_the_report() {
    let mut s = Source(57);
    let (mut rows, mut refused) = (0, 0);
    for _ in 0..5_000 {
        let case = any_case(&mut s);
        let told = refused_with(&judge(&case.table, &case.log));
        match reached(&case.table, &case.log) {
            Ok(row) => {
                assert_eq!(told, (0, 0));
                let again = judge(&case.table, &[&case.log[..], &row].concat());
                assert_eq!(refused_with(&again), (0, 0), "the row may stand behind the log");
                rows += 1;
            }
            Err(pair) => {
                assert_eq!(pair, told);
                refused += 1;
            }
        }
    }
    assert!(rows > 1_000 && refused > 1_000, "{} rows, {} refusals", rows, refused);
}

#[test]
fn reached_is_written_where_it_fits() {
    let (k, row) = (lines_of(K), line_of(K_FRESH).into_bytes());
    for room in [0, row.len() - 1, row.len(), row.len() + 3] {
        let mut buffer = vec![b'?'; room];
        let mut pair = [7, 7, 7];
        let length = reached_into(&k, b"", &mut buffer, &mut pair);
        let fits = room >= row.len();
        assert_eq!((length, pair), (if fits { row.len() } else { 0 }, if fits { [0, 0, 7] } else { [31, 0, 7] }));
        assert_eq!(buffer, [&row[..length], &vec![b'?'; room - length]].concat());
    }
    let mut buffer = [b'?'; 200];
    let mut pair = [7, 7];
    assert_eq!((reached_into(&k, b"wait\t11\n", &mut buffer, &mut pair), pair, buffer), (0, [17, 1], [b'?'; 200]));
    assert_eq!((reached_into(b"", b"", &mut buffer, &mut pair), pair), (0, [6, 1]));
    let mut short = [7];
    assert_eq!((reached_into(&k, b"wait\t11\n", &mut buffer, &mut short), short), (0, [7]));
}

#[test]
fn a_log_begins_at_the_last_date_too() {
    let k = table(K);
    let row = format!("state {} 0 0 0 manager x0 x0 0 0 0 0 ether 0 0", CEILING);
    let judging = Judging::of(&k, line_of(&row).as_bytes());
    assert_eq!((judging.refusal, judging.state.date, judging.opened()), (0, CEILING, 0));
    assert_eq!(report(K, &format!("{}, wait 1", row)), "cycles 1\nsum 0 1000000000000 0 0 0 0 0 18 2\n");
}
