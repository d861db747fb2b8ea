//! The model of the judge against the page: its report, its bench cases, its sentences one by one, and what holds on every walk.

use host::model::{
    cut_input, executes, judge, judge_into, members, refusal, refused_with, something_to_do, step, unsound, ActivityState, Holder, Judging,
    State, Step, CEILING,
};
use host::row::{is_row, row_of};
use host::table::{Table, ETHER, LONGEST};
use host::told::{cases_of_k, line_of, lines_of as text, told_cases, K, K_REPORT, K_TABLE, M, P, STANDING, STOPPED, TWO};
use host::walk::{
    accepted_step, any_case, any_table, candidates, ceiling_case, partners, refused_everywhere, sized_table, some_sound_state, text_of,
    wanted, wild_step, Case, Runner, SIZES,
};
use host::Source;

fn table(list: &str) -> Table {
    Table::read(&text(list)).expect("a table that is fine")
}

/// The state after steps that are all accepted.
fn after(table: &Table, steps: &str) -> State {
    text(steps).split_inclusive(|b| *b == b'\n').fold(State::fresh(table), |state, line| {
        step(table, &state, line).unwrap_or_else(|number| panic!("{} for {}", number, String::from_utf8_lossy(line)))
    })
}

/// The answer to a step: its refusal, or 0.
fn answer(table: &Table, state: &State, short: &str) -> u64 {
    step(table, state, line_of(short).as_bytes()).err().unwrap_or(0)
}

/// The last row of a report, with spaces.
fn sum_row(report: &[u8]) -> String {
    let text = String::from_utf8(report.to_vec()).expect("a report is plain text");
    text.lines().last().expect("a `sum` row").replace('\t', " ")
}

#[test]
fn the_report_of_k_is_the_pages_with_its_keep_and_with_longer_ones() {
    assert_eq!(text(K), K_TABLE.as_bytes());
    for k in cases_of_k() {
        assert_eq!(judge(&k.table, &k.log), K_REPORT.as_bytes());
    }
}

#[test]
fn the_bench_cases_of_k() {
    let k = table(K);
    let fresh = State::fresh(&k);
    let cases = [("wait 10", 0), ("wait 11", 17), ("st 0", 14), ("lm 0 0", 13)];
    assert_eq!(cases.map(|(short, _)| (short, answer(&k, &fresh, short))), cases);
    assert_eq!(answer(&k, &after(&k, "wait 10"), "wait 1"), 17);
    let signalled = after(&k, "wait 10, st 0");
    assert_eq!(answer(&k, &signalled, "wait 20"), 16);
    assert_eq!(answer(&k, &signalled, "sm 0 2 0"), 12);
    let entered = after(&k, "wait 10, st 0, sm 0 1 0, lm 0 0, ea 0 0");
    assert_eq!(answer(&k, &entered, "fa 0 ether"), 14);
}

#[test]
fn the_bench_cases_of_m() {
    let m = table(M);
    let both = after(&m, STANDING);
    assert_eq!(answer(&m, &both, "wait 1"), 16);
    let first = step(&m, &both, b"cx\t0\n").expect("`cx 0` is accepted");
    assert_eq!(answer(&m, &first, "cx 1"), 15);
    assert_eq!(answer(&m, &first, "wait 1"), 0);
}

#[test]
fn the_other_bench_cases() {
    let k = table(K);
    let mut last = State::fresh(&k);
    last.date = CEILING;
    assert_eq!(unsound(&k, &last), None);
    assert_eq!(answer(&k, &last, "wait 1"), 18);
    last.date = CEILING - 1;
    assert_eq!(["wait 1", "wait 2", "wait 11"].map(|short| answer(&k, &last, short)), [0, 18, 17]);
    assert_eq!(Table::read(&text("task 0 5, end 1")), Err((3, 1)));
    assert!(Table::read(&text(&K.replace("task 10", "task 1000000000"))).is_ok());
    assert_eq!(judge(b"", b""), b"cycles\t1\nsum\t0\t0\t0\t0\t0\t0\t0\t6\t1\n");
    assert_eq!(judge(&text(K), b""), b"cycles\t1\nsum\t0\t0\t0\t0\t0\t0\t0\t0\t0\n");
}

#[test]
fn a_report_is_written_where_it_fits() {
    let report = b"cycles\t1\nsum\t0\t0\t0\t0\t0\t0\t0\t0\t0\n";
    for (room, length) in [(report.len() - 1, 0), (report.len(), report.len()), (report.len() + 2, report.len())] {
        let mut buffer = vec![b'?'; room];
        assert_eq!(judge_into(&text(K), b"", &mut buffer), length);
        assert_eq!(buffer, [&report[..length], &vec![b'?'; room - length]].concat());
    }
}

#[test]
fn a_clock_does_not_count_while_its_activity_stands() {
    let m = table(M);
    let freed = after(&m, &format!("{}, cx 0, wait 4, fa 0 ether, cx 1", STANDING));
    assert_eq!(freed.acts[1], ActivityState { at: 1, executing: true, clock: 0 });
    assert_eq!(answer(&m, &freed, "fa 1 ether"), 14);
    let limit = after(&m, &format!("{}, cx 0, wait 4, fa 0 ether, cx 1, fm 0, wait 4", STANDING));
    assert_eq!(answer(&m, &limit, "wait 1"), 17);
}

#[test]
fn a_holder_in_r_is_interrupted_and_does_not_run() {
    let before = "wait 10, st 0, sm 0 1 0, lm 0 0, ea 0 0, wait 1, fa 0 1, fm 0, wait 9, st 0, sm 0 1 1, lm 0 0";
    for (name, end) in [(P, ETHER), (STOPPED, 2)] {
        let t = table(name);
        let held = after(&t, before);
        assert_eq!(["fa 0 ether", "ea 0 0", "cx 0"].map(|short| answer(&t, &held, short)), [13, 13, 13]);
        let gone = step(&t, &held, b"ia\t0\n").expect("`ia` is accepted");
        assert_eq!(gone.acts[0], ActivityState { at: end, executing: end != ETHER, clock: 0 });
        // with a stop codel A leaves R alone; without, A gives back
        let task = &gone.tasks[0];
        let left = if end == ETHER { (0, 0, Holder::Manager) } else { (1, 0, Holder::Activity(0)) };
        assert_eq!((task.to_run, task.to_interrupt, task.holder), left);
        assert_eq!(task.longest, 0);
    }
}

#[test]
fn a_paused_activity_enters_its_codel_again() {
    let p = table(P);
    let again = after(&p, "wait 10, st 0, sm 0 1 0, lm 0 0, ea 0 0, wait 1, fa 0 1, fm 0, wait 9, st 0, sm 0 1 0, lm 0 0");
    assert_eq!(again.acts[0], ActivityState { at: 1, executing: true, clock: 0 });
    assert_eq!(answer(&p, &again, "fa 0 ether"), 14);
    assert_eq!(answer(&p, &again, "wait 1"), 0);
}

#[test]
fn signals_are_missed_only_while_managing() {
    let k = table(K);
    let open = after(&k, "wait 10, st 0, sm 0 1 0, lm 0 0, ea 0 0, wait 10, st 0");
    assert_eq!((open.tasks[0].signal, open.tasks[0].missed), (true, 1));
    let mut again = open.clone();
    again.tasks[0].timer = 10;
    again.date = 30;
    assert_eq!(step(&k, &again, b"st\t0\n").expect("the timer is due").tasks[0].missed, 2);
    let mut waiting = after(&k, "wait 10, st 0");
    waiting.tasks[0].timer = 10;
    waiting.date = 20;
    let next = step(&k, &waiting, b"st\t0\n").expect("the timer is due");
    assert_eq!((next.tasks[0].signal, next.tasks[0].missed), (true, 0));
}

#[test]
fn a_signal_keeps_a_cycle_that_is_short() {
    let t = K.replace("task 10 5", "task 10 1000");
    let report = |steps: &str| judge(&text(&t), &text(&format!("wait 10, st 0, sm 0 1 0, lm 0 0, ea 0 0, {}, fa 0 ether, fm 0", steps)));
    assert_eq!(report("wait 9"), b"cycles\t1\nsum\t8\t19\t1\t0\t1\t0\t4\t0\t0\n");
    assert_eq!(report("wait 10, st 0"), b"cycles\t1\nkept\t0\t1\t10\t20\t1\t10\nsum\t9\t20\t1\t1\t0\t0\t4\t0\t0\n");
    let two = b"cycles\t1\nkept\t0\t1\t10\t30\t2\t20\nsum\t11\t30\t1\t1\t0\t0\t4\t0\t0\n";
    assert_eq!(report("wait 10, st 0, wait 10, st 0"), two);
}

#[test]
fn missed_may_exceed_what_the_cycles_leave() {
    let t = table(&K.replace("task 10 5", "task 1 5"));
    let late = after(&t, "wait 1, st 0, sm 0 1 0, lm 0 0, ea 0 0, wait 1, st 0");
    let task = &late.tasks[0];
    assert_eq!((late.date, task.timer, task.cycle, task.signal, task.missed), (2, 0, 1, true, 1));
    assert_eq!(answer(&t, &late, "wait 1"), 0);
}

#[test]
fn a_codel_may_end_after_one_tick() {
    let k = table(K);
    let ended = after(&k, "wait 10, st 0, sm 0 1 0, lm 0 0, ea 0 0, wait 1, fa 0 ether");
    assert_eq!((ended.tasks[0].longest, ended.tasks[0].to_run), (1, 0));
}

#[test]
fn a_keep_that_is_just_met_keeps() {
    let log = |d: u64| text(&format!("wait 10, st 0, sm 0 1 0, lm 0 0, ea 0 0, wait {}, fa 0 ether, fm 0", d));
    assert_eq!(sum_row(&judge(&text(K), &log(5))), "sum 8 15 1 1 0 0 4 0 0");
    assert_eq!(sum_row(&judge(&text(K), &log(4))), "sum 8 14 1 0 1 0 4 0 0");
}

#[test]
fn cases_are_refused_as_the_page_tells() {
    for (case, refused) in told_cases() {
        let shown = || String::from_utf8_lossy(&[&case.table[..], &case.log].concat()).into_owned();
        assert_eq!(refused_with(&judge(&case.table, &case.log)), refused, "{}", shown());
    }
    assert_eq!(refused_with(&judge(b"task\t10\t5", b"")), (1, 1));
    assert_eq!(refused_with(&judge(&vec![b'x'; LONGEST + 1], b"")), (3, 0));
}

#[test]
fn lines_that_are_no_steps_are_11() {
    let long = format!("wait {}", "0".repeat(57));
    let fields = ["wait ", "wait 01", "wait +1", "wait 10000000000", "wait ether", "ea 0 ether", "fa 0 start", "st 0\r", "st 0\0"];
    let counts = ["", " ", "wait", "wait 1 ", "fm 0 0", "lm 0", "Wait 1", "nothing 0", &long];
    let k = table(K);
    let fresh = State::fresh(&k);
    for short in fields.iter().chain(&counts) {
        assert_eq!(answer(&k, &fresh, short), 11, "{:?}", short);
    }
    for set in ["000000000000000", "00000000000000000", "000000000000000A", "000000000000000g"] {
        let line = format!("sm\t0\t0000000000000000\t{}\n", set);
        assert_eq!(step(&k, &fresh, line.as_bytes()), Err(11), "{}", set);
    }
    assert_eq!(step(&k, &fresh, b"wait\t1"), Err(11));
    assert_eq!(step(&k, &fresh, &[b"wait\t".to_vec(), vec![b'1'; 58], vec![b'\n']].concat()), Err(11));
}

#[test]
fn numbers_that_name_nothing_are_12_before_13() {
    let t = table(TWO);
    let fresh = State::fresh(&t);
    let numbers = ["wait 0", "wait 1000000001", "wait 9999999999", "st 2", "fm 9999999999", "lm 2 0", "lm 0 3", "ia 3", "cx 64"];
    let targets = ["ea 0 4", "ea 3 0", "fa 0 4", "fa 3 ether", "sm 2 0 0", "sm 0 4 0", "sm 0 0 8", "sm 1 0 8000000000000000"];
    for short in numbers.iter().chain(&targets) {
        assert_eq!(answer(&t, &fresh, short), 12, "{}", short);
    }
    let thirteen = ["lm 0 0", "lm 0 2", "ia 0", "cx 0", "ea 0 0", "ea 0 3", "fa 0 ether", "fa 0 3", "fm 0", "sm 0 3 3", "sm 1 4 0"];
    for short in thirteen {
        assert_eq!(answer(&t, &fresh, short), 13, "{}", short);
    }
}

#[test]
fn a_number_of_another_family_is_13() {
    let t = table(TWO);
    let open = after(&t, "wait 10, st 0, st 1, sm 0 3 0, sm 1 4 0");
    assert_eq!(["lm 0 2", "lm 1 0", "lm 0 1"].map(|short| answer(&t, &open, short)), [13, 13, 0]);
    let held = after(&t, "wait 10, st 0, st 1, sm 0 3 0, sm 1 4 0, lm 0 0, lm 1 2");
    assert_eq!(["ea 0 3", "ea 0 2", "ea 0 1", "ea 1 2", "ea 0 0"].map(|short| answer(&t, &held, short)), [13, 13, 13, 13, 0]);
}

#[test]
fn fa_and_ea_tell_their_edges_apart() {
    // codel 0 pauses to 1 and runs to 0; codel 1 runs to 0 and to ether
    let t = table("task 10 5, act 0, codel 0 start 20, codel 0 main 20, edge 0 0 run, edge 0 1 pause, edge 1 0 run, edge 1 ether run, \
                   end 8");
    let at_start = after(&t, "wait 10, st 0, sm 0 1 0, lm 0 0, ea 0 0, wait 3");
    let answers = ["fa 0 0", "fa 0 ether", "ea 0 1", "ea 0 0", "fa 0 1"].map(|short| answer(&t, &at_start, short));
    assert_eq!(answers, [13, 13, 13, 0, 0]);
    let again = step(&t, &at_start, b"ea\t0\t0\n").expect("a run edge to itself");
    assert_eq!((again.tasks[0].longest, again.acts[0].clock), (3, 0));
}

/// A change to a state, and the sentence that it breaks.
type Break = (&'static str, fn(&mut State));

fn breaks() -> [Break; 32] {
    [
        ("date at most 1,000,000,000,000", |s| s.date = CEILING + 1),
        ("timer at most the period", |s| s.tasks[0].timer = 11),
        ("N and R within the task", |s| s.tasks[0].to_run = 4),
        ("N and R within the task", |s| s.tasks[1].to_interrupt = 1),
        ("N and R within the task", |s| s.tasks[1].to_interrupt = 1 << 63),
        ("each activity at ether or a codel of its own", |s| s.acts[0].at = 3),
        ("each activity at ether or a codel of its own", |s| s.acts[0].at = 4),
        ("a waiting manager holds and has N and R empty", |s| s.tasks[0].to_run = 1),
        ("a waiting manager holds and has N and R empty", |s| s.tasks[0].to_interrupt = 1),
        ("a waiting manager holds and has N and R empty", |s| s.tasks[0].holder = Holder::Activity(0)),
        ("the holder is the manager or one of the task's activities", |s| hold(s, 0, 2, 0, 0)),
        ("the holder is the manager or one of the task's activities", |s| hold(s, 0, 99, 0, 0)),
        ("an activity that is not the holder is at ether or at the target of a pause, not executing", |s| s.acts[0].at = 0),
        ("an activity that is not the holder is at ether or at the target of a pause, not executing", |s| put(s, 0, 1, true, 0)),
        ("so is a holder in R", |s| {
            hold(s, 0, 0, 0, 1);
            put(s, 0, 0, false, 0);
        }),
        ("so is a holder in R", |s| {
            hold(s, 0, 0, 0, 1);
            put(s, 0, 1, true, 0);
        }),
        ("a holder at ether is in N or R", |s| hold(s, 0, 0, 2, 2)),
        ("nothing executes at ether", |s| {
            hold(s, 0, 0, 1, 0);
            put(s, 0, ETHER, true, 0);
        }),
        ("a holder not in R at a thread-safe codel executes", |s| {
            hold(s, 0, 1, 2, 0);
            put(s, 1, 2, false, 0);
        }),
        ("no executing conflict pair", |s| {
            hold(s, 0, 0, 1, 0);
            put(s, 0, 0, true, 0);
            hold(s, 1, 2, 4, 0);
            put(s, 2, 3, true, 0);
        }),
        ("an executing clock is at most the limit", |s| {
            hold(s, 0, 0, 1, 0);
            put(s, 0, 0, true, 5);
        }),
        ("every other clock is 0", |s| put(s, 0, ETHER, false, 1)),
        ("date minus timer is not below 0", |s| {
            s.date = 5;
            s.tasks[0].timer = 6;
        }),
        ("cycle number plus signal is at most date minus timer", |s| s.tasks[0].cycle = 21),
        ("cycle number plus signal is at most date minus timer", |s| {
            s.tasks[0].cycle = 20;
            s.tasks[0].signal = true;
        }),
        ("so is missed", |s| s.tasks[0].missed = 21),
        ("so is missed", |s| s.tasks[0].missed = u64::MAX),
        ("longest is at most 1,000,000,000", |s| s.tasks[0].longest = 1_000_000_001),
        ("open date is at most the date", |s| s.tasks[0].open = 21),
        ("open date, missed and longest are 0 while waiting", |s| s.tasks[0].open = 1),
        ("open date, missed and longest are 0 while waiting", |s| s.tasks[0].missed = 1),
        ("open date, missed and longest are 0 while waiting", |s| s.tasks[0].longest = 1),
    ]
}

fn hold(s: &mut State, task: usize, activity: usize, to_run: u64, to_interrupt: u64) {
    s.tasks[task].managing = true;
    s.tasks[task].holder = Holder::Activity(activity);
    s.tasks[task].to_run = to_run;
    s.tasks[task].to_interrupt = to_interrupt;
}

fn put(s: &mut State, activity: usize, at: u64, executing: bool, clock: u64) {
    s.acts[activity] = ActivityState { at, executing, clock };
}

#[test]
fn each_sentence_of_a_sound_state_refuses() {
    let t = table(TWO);
    for (sentence, change) in breaks() {
        let mut state = State::fresh(&t);
        state.date = 20;
        assert_eq!(unsound(&t, &state), None);
        change(&mut state);
        assert_eq!(unsound(&t, &state), Some(sentence));
        assert_eq!([answer(&t, &state, "wait 1"), answer(&t, &state, "no step")], [19, 19], "{}", sentence);
    }
    let mut refused = t.clone();
    refused.tasks[0].0 = 0;
    assert_eq!(answer(&refused, &State::fresh(&refused), "no step"), 19);
}

#[test]
fn the_states_next_to_the_broken_ones_are_sound() {
    let t = table(TWO);
    let changes: [fn(&mut State); 6] = [
        |s| s.tasks[0].cycle = 20,
        |s| hold(s, 0, 0, 3, 3),
        |s| put(s, 0, 1, false, 0),
        |s| {
            hold(s, 0, 0, 0, 0);
            put(s, 0, 0, true, 4);
        },
        |s| {
            hold(s, 0, 0, 0, 1);
            put(s, 0, 1, false, 0);
        },
        |s| {
            s.tasks[0].managing = true;
            s.tasks[0].open = 20;
            s.tasks[0].longest = 1_000_000_000;
            (s.tasks[0].cycle, s.tasks[0].signal, s.tasks[0].missed) = (19, true, 20);
        },
    ];
    for change in changes {
        let mut state = State::fresh(&t);
        state.date = 20;
        change(&mut state);
        assert_eq!(unsound(&t, &state), None);
    }
}

#[test]
fn the_input_is_cut_behind_the_first_end_row() {
    let cut = |input: &[u8]| {
        let (table, log) = cut_input(input);
        assert_eq!([table, log].concat(), input);
        table.len()
    };
    let k = text(K);
    assert_eq!(cut(&[&k[..], b"wait\t10\nend\t4\n"].concat()), k.len());
    assert_eq!(cut(b""), 0);
    assert_eq!(cut(b"end\nend 4\nxend\t4\n\tend\t4\n"), 24);
    assert_eq!(cut(b"end\tof it\nst\t0\n"), 10);
    assert_eq!(cut(b"task\t1\t1\nend\t1"), 14);
    // an `end` row that ends at the byte just within, just beyond and further on
    for (front, length) in [(LONGEST - 6, LONGEST), (LONGEST - 5, LONGEST + 1), (LONGEST - 4, LONGEST + 1), (LONGEST + 1, LONGEST + 1)] {
        let input = [vec![b'x'; front - 1], b"\nend\t1\nst\t0\nst\t0\n".to_vec()].concat();
        assert_eq!(cut(&input), length, "a row behind {} bytes", front);
    }
    assert_eq!(cut(&b"x\n".repeat(20_000)), LONGEST + 1);
}

/// What holds in every state that a walk comes to.
fn check_state(table: &Table, partners: &[Vec<u64>], state: &State) {
    assert_eq!(unsound(table, state), None, "{:?}\n{}", state, table.text());
    for (lo, hi) in &table.mutexes {
        assert!(!(executes(table, state, *lo) && executes(table, state, *hi)), "codels {} and {} execute", lo, hi);
    }
    for task in 0..table.tasks.len() as u64 {
        let own = (0..table.acts.len()).filter(|a| members(table, task) >> a & 1 == 1 && state.acts[*a].executing);
        assert!(own.count() <= 1, "task {} executes one activity", task);
    }
    for act in state.acts.iter().filter(|a| a.executing) {
        assert!(act.clock <= table.codels[act.at as usize].limit, "a clock past its limit");
    }
    let wishes: Vec<Step> = (0..table.tasks.len()).filter_map(|task| wanted(table, partners, state, task)).collect();
    assert_eq!(!wishes.is_empty(), something_to_do(table, state), "the short test for 16 is the page's: {:?}", state);
    assert!(wishes.iter().all(|wish| refusal(table, state, wish) == 0), "what hinders a wait is accepted: {:?}", wishes);
}

/// Walks from a state and checks every state, every stretch between waits, and that some step is accepted below the ceiling.
fn check_walk(s: &mut Source, table: &Table, start: &State, most: usize, waits_of_8: u64) {
    let partners = partners(table);
    let bound = 6 * table.acts.len() + 6 * table.tasks.len();
    let mut state = start.clone();
    let (mut steps, mut stretch) = (Vec::new(), 0);
    check_state(table, &partners, &state);
    while steps.len() < most {
        let taken = match accepted_step(s, table, &state, waits_of_8) {
            Some(taken) => taken,
            None => {
                assert_eq!(state.date, CEILING, "below the ceiling some step is accepted: {:?}", state);
                break;
            }
        };
        state = step(table, &state, taken.line().as_bytes()).expect("the step that was chosen is accepted");
        stretch = if taken.is_wait() { 0 } else { stretch + 1 };
        assert!(stretch <= bound, "{} steps in one date with {} allowed", stretch, bound);
        check_state(table, &partners, &state);
        steps.push(taken);
    }
    check_judging(s, table, start, &steps, &state);
}

/// The judging of a walk with any step behind it, and a row before it unless it starts fresh: all is accepted up to there, the cycles add
/// up, and a refusal changes nothing.
fn check_judging(s: &mut Source, table: &Table, start: &State, steps: &[Step], state: &State) {
    let last = wild_step(s, table);
    let row = if *start == State::fresh(table) { vec![] } else { row_of(start) };
    let judging = Judging::of(table, &[&row[..], &text_of(steps), last.line().as_bytes()].concat());
    assert_eq!(judging.opened(), judging.kept.len() + judging.dropped.len() + judging.state.managing());
    assert!(judging.kept.iter().all(|cycle| cycle.is_kept(table)) && !judging.dropped.iter().any(|cycle| cycle.is_kept(table)));
    match judging.refusal {
        0 => assert_eq!((judging.accepted.len(), judging.line), (steps.len() + 1, 0)),
        number => {
            assert_eq!(&judging.state, state, "{:?}", last);
            assert_eq!((judging.accepted.len(), judging.line), (steps.len(), steps.len() + 1 + usize::from(!row.is_empty())));
            assert_eq!(number, refusal(table, state, &last));
        }
    }
}

#[test]
fn walks_stay_sound_and_never_stand_still() {
    let mut s = Source(21);
    for i in 0..1_500 {
        let table = any_table(&mut s);
        check_walk(&mut s, &table, &State::fresh(&table), 60, [0, 2, 4, 8][i % 4]);
    }
}

#[test]
fn walks_from_sound_states_do_too() {
    let mut s = Source(29);
    for i in 0..1_500 {
        let table = any_table(&mut s);
        let start = some_sound_state(&mut s, &table, 40);
        check_walk(&mut s, &table, &start, 40, [0, 2, 4, 8][i % 4]);
    }
}

#[test]
fn walks_in_large_tables_do_too() {
    let mut s = Source(22);
    for waits_of_8 in [0, 4] {
        let table = Table::any(&mut s, 16, 4, 4);
        check_walk(&mut s, &table, &State::fresh(&table), 60, waits_of_8);
    }
    let table = sized_table(&mut s, SIZES[2].1, 100);
    check_walk(&mut s, &table, &State::fresh(&table), 60, 4);
}

#[test]
fn refused_steps_are_refused_again_by_the_whole_list() {
    let mut s = Source(23);
    for _ in 0..60 {
        let table = any_table(&mut s);
        let mut state = State::fresh(&table);
        for _ in 0..20 {
            for tried in candidates(&mut s, &table, &state).iter().chain(&[wild_step(&mut s, &table)]) {
                let number = step(&table, &state, tried.line().as_bytes()).err().unwrap_or(0);
                assert_eq!(number, refusal(&table, &state, tried), "{:?}", tried);
            }
            match accepted_step(&mut s, &table, &state, 4) {
                Some(taken) => state = step(&table, &state, taken.line().as_bytes()).expect("it is accepted"),
                None => break,
            }
        }
    }
}

#[test]
fn a_refusal_is_reported_at_its_line_all_along_a_walk() {
    let mut s = Source(27);
    let mut hits = [0usize; 19];
    for case in (0..40).flat_map(|_| refused_everywhere(&mut s, 40)) {
        let (number, line) = refused_with(&judge(&case.table, &case.log));
        assert_eq!(line as usize, case.log.iter().filter(|b| **b == b'\n').count(), "the last line is refused");
        hits[number as usize] += 1;
    }
    assert!(hits[12..=17].iter().all(|n| *n >= 20), "each refusal is met often: {:?}", hits);
}

#[test]
fn each_answer_is_given_often() {
    let mut s = Source(24);
    let mut hits = [0usize; 22];
    let (mut kept, mut dropped, mut missed) = (0, 0, 0);
    for i in 0..20_000 {
        let case = if i % 400 == 0 { ceiling_case(&mut s) } else { any_case(&mut s) };
        let report = judge(&case.table, &case.log);
        hits[refused_with(&report).0 as usize] += 1;
        if let Ok(table) = Table::read(&case.table) {
            let judging = Judging::of(&table, &case.log);
            assert_eq!(judging.opened(), judging.kept.len() + judging.dropped.len() + judging.state.managing());
            assert_eq!(judging.refusal, refused_with(&report).0);
            kept += judging.kept.len();
            dropped += judging.dropped.len();
            missed += judging.kept.iter().filter(|cycle| cycle.missed > 0).count();
        }
    }
    println!("by refusal {:?}; cycles kept {}, with missed signals {}, dropped {}", hits, kept, missed, dropped);
    for number in (0..=7).chain(11..=18).chain([20, 21]) {
        assert!(hits[number] >= 20, "{} is given {} times", number, hits[number]);
    }
    assert!(kept > 1_000 && dropped > 1_000 && missed > 100, "cycles of every verdict");
}

/// The signals of each cycle, told by the steps alone: those of the task between the `sm` that opens it and the `fm` that closes it.
fn signals_of_closed_cycles(steps: &[Step]) -> Vec<(u64, u64, u64)> {
    let mut open = [None; 16];
    let mut number = [0; 16];
    let mut closed = Vec::new();
    for step in steps {
        match *step {
            Step::Sm(t, ..) => {
                number[t as usize] += 1;
                open[t as usize] = Some(0);
            }
            Step::St(t) => open[t as usize] = open[t as usize].map(|signals| signals + 1),
            Step::Fm(t) => closed.push((t, number[t as usize], open[t as usize].take().expect("a cycle is open"))),
            _ => {}
        }
    }
    closed
}

#[test]
fn missed_is_how_many_signals_came_while_the_cycle_was_open() {
    let mut s = Source(28);
    let mut by_signals = [0usize; 4];
    let read = |case: Case| Table::read(&case.table).ok().map(|table| Judging::of(&table, &case.log));
    let from_fresh = (0..5_000).map(|_| any_case(&mut s)).filter(|case| !is_row(&case.log));
    for judging in from_fresh.filter_map(read) {
        let mut cycles: Vec<(u64, u64, u64)> =
            judging.kept.iter().chain(&judging.dropped).map(|cycle| (cycle.task, cycle.number, cycle.missed)).collect();
        let mut told = signals_of_closed_cycles(&judging.accepted);
        cycles.sort();
        told.sort();
        assert_eq!(cycles, told);
        assert!(judging.dropped.iter().all(|cycle| cycle.missed == 0), "no cycle with a signal in it is dropped");
        told.iter().for_each(|(_, _, signals)| by_signals[(*signals).min(3) as usize] += 1);
    }
    assert!(by_signals.iter().all(|n| *n > 50), "none, one, two and more: {:?}", by_signals);
}

#[test]
fn quick_walks_are_accepted() {
    let mut s = Source(25);
    for ((name, size), lines) in SIZES.iter().zip([20_000, 3_000, 1_000]) {
        for keep in [1, 300, 1_000_000_000] {
            let table = sized_table(&mut s, *size, keep);
            let mut runner = Runner::new(&table, 100);
            let steps: Vec<Step> = (0..lines).filter_map(|_| runner.next(&mut s)).collect();
            let judging = Judging::of(&table, &text_of(&steps));
            assert_eq!((judging.refusal, &judging.state), (0, &runner.state), "{}", name);
            let waits = steps.iter().filter(|step| step.is_wait()).count();
            assert!(waits * 100 >= lines * 25 && waits * 100 <= lines * 30, "{}: {} waits in {} lines", name, waits, lines);
            let (kept, dropped) = (judging.kept.len(), judging.dropped.len());
            let mixed = match keep {
                1 => kept > 3 * dropped,
                1_000_000_000 => dropped > 100 * kept,
                _ => kept > 10 && dropped > kept,
            };
            assert!(mixed, "{} with keep {}: {} kept, {} dropped", name, keep, kept, dropped);
        }
    }
}

#[test]
fn a_walk_comes_to_the_last_date_and_no_further() {
    let mut s = Source(28);
    for _ in 0..10 {
        let case = ceiling_case(&mut s);
        let judging = Judging::of(&Table::read(&case.table).expect("a table that is fine"), &case.log);
        assert_eq!(judging.state.date, CEILING);
        assert!([0, 17, 18].contains(&judging.refusal), "only the last wait is refused, if any: {}", judging.refusal);
    }
}

#[test]
fn the_full_size_has_the_most_rows() {
    let table = sized_table(&mut Source(26), SIZES[2].1, 1);
    let rows = [table.tasks.len(), table.acts.len(), table.codels.len(), table.edges.len(), table.mutexes.len()];
    assert_eq!(rows, [16, 64, 256, 512, 512]);
    assert_eq!(Table::read(table.text().as_bytes()), Ok(table));
}
