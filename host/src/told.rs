//! Tables, logs and their refusals as the page tells them, worked out by hand: its bench cases, and places that are easily misread.
//! They are written short: lines parted by a comma and a space, spaces for tabs, and sets without their leading zeros, in a `state` row behind
//! an x.

use crate::walk::Case;

/// Table K of the page.
pub const K: &str = "task 10 5, act 0, codel 0 start 20, edge 0 ether run, end 4";
/// Table K as document 01 prints it.
pub const K_TABLE: &str = "task\t10\t5\nact\t0\ncodel\t0\tstart\t20\nedge\t0\tether\trun\nend\t4\n";
/// The log of table K as document 01 prints it.
pub const K_LOG: &str = "wait\t10\nst\t0\nsm\t0\t0000000000000001\t0000000000000000\nlm\t0\t0\nea\t0\t0\nwait\t10\nst\t0\nwait\t10\nfa\t0\tether\n\
                         fm\t0\nsm\t0\t0000000000000000\t0000000000000001\nlm\t0\t0\nia\t0\nfm\t0\nst\t0\n\
                         sm\t0\t0000000000000000\t0000000000000001\nlm\t0\t0\nia\t0\nfm\t0\n";
/// The report on it, with the `kept` row of document 02.
pub const K_REPORT: &str = "cycles\t1\nkept\t0\t1\t10\t30\t1\t20\nsum\t19\t30\t3\t1\t2\t0\t11\t0\t0\n";
/// Table M of the page.
pub const M: &str = "task 10 5, task 10 5, act 0, act 1, codel 0 start 4, codel 1 start 4, edge 0 ether run, edge 1 ether run, mutex 0 1, \
                     end 9";
/// The steps of M that leave both activities standing before their codels at date 10.
pub const STANDING: &str = "wait 10, st 0, st 1, sm 0 1 0, sm 1 2 0, lm 0 0, lm 1 1, ea 0 0, ea 1 1";
/// One activity that pauses before its second codel, which goes on to ether. No stop.
pub const P: &str = "task 10 5, act 0, codel 0 start 20, codel 0 main 20, edge 0 1 pause, edge 1 ether run, end 6";
/// The same with a stop codel.
pub const STOPPED: &str = "task 10 5, act 0, codel 0 start 20, codel 0 main 20, codel 0 stop 20, edge 0 1 pause, edge 1 ether run, \
                           edge 2 ether run, end 8";
/// Two tasks; activities 0 and 1 are the first one's. Codel 1 is the target of a pause, codels 0 and 3 are in conflict.
pub const TWO: &str = "task 10 5, task 10 5, act 0, act 0, act 1, codel 0 start 4, codel 0 main 4, codel 1 start 4, codel 2 start 4, \
                       edge 0 1 pause, edge 1 ether run, edge 2 ether run, edge 3 ether run, mutex 0 3, end 14";
/// Two tasks; activity 0 pauses before codel 1, which is in conflict with the other one's.
const PAUSED: &str = "task 10 5, task 10 5, act 0, act 1, codel 0 start 20, codel 0 main 20, codel 1 start 20, edge 0 1 pause, \
                      edge 1 ether run, edge 2 ether run, mutex 1 2, end 11";
/// The steps of PAUSED that lead to date 20: activity 0 is paused before codel 1, both tasks are signalled, and codel 2 executes.
const BUSY: &str = "wait 10, st 0, st 1, sm 0 1 0, lm 0 0, ea 0 0, sm 1 2 0, lm 1 1, ea 1 2, cx 1, wait 1, fa 0 1, fm 0, wait 9, st 0, st 1";
/// One activity whose codel 0 runs to itself and pauses to 1; codel 1 runs to 0 and to ether.
const LOOPING: &str = "task 10 5, act 0, codel 0 start 20, codel 0 main 20, edge 0 0 run, edge 0 1 pause, edge 1 0 run, edge 1 ether run, \
                       end 8";
/// The steps of a table of one task of period 10 up to its first signal.
const SIGNALLED: &str = "wait 10, st 0";
/// The steps of K, P, STOPPED and LOOPING up to their start codel.
const ENTERED: &str = "wait 10, st 0, sm 0 1 0, lm 0 0, ea 0 0";
/// The steps of P and STOPPED that pause, and then give the paused activity the task again, in N and in R.
const INTERRUPTED: &str = "wait 10, st 0, sm 0 1 0, lm 0 0, ea 0 0, wait 1, fa 0 1, fm 0, wait 9, st 0, sm 0 1 1, lm 0 0";

/// A table, parts of a log that is accepted, and single steps behind it with their refusals; 0 is acceptance.
type Told = (&'static str, &'static [&'static str], &'static [(&'static str, u64)]);

const STEPS: [Told; 29] = [
    (K, &[], &[("wait 10", 0), ("wait 11", 17), ("st 0", 14), ("lm 0 0", 13)]),
    (K, &["wait 10"], &[("wait 1", 17), ("st 0", 0), ("sm 0 1 0", 13)]),
    (K, &[SIGNALLED], &[("wait 20", 16), ("wait 1", 16), ("sm 0 2 0", 12), ("st 0", 14), ("sm 0 1 1", 0), ("sm 0 0 0", 0)]),
    (K, &[SIGNALLED, "sm 0 1 0"], &[("wait 1", 16), ("fm 0", 13), ("ea 0 0", 13), ("lm 0 0", 0)]),
    (K, &[SIGNALLED, "sm 0 0 0"], &[("wait 1", 16), ("lm 0 0", 13), ("fm 0", 0)]),
    (K, &[SIGNALLED, "sm 0 1 0, lm 0 0"], &[("wait 1", 16), ("ia 0", 13), ("cx 0", 13), ("fa 0 ether", 13), ("ea 0 0", 0)]),
    (K, &[ENTERED], &[("fa 0 ether", 14), ("wait 10", 0), ("wait 11", 17), ("ea 0 0", 13), ("cx 0", 13)]),
    (K, &[ENTERED, "wait 1"], &[("fa 0 ether", 0), ("fa 0 0", 13), ("wait 9", 0), ("wait 10", 17)]),
    (K, &[SIGNALLED, "sm 0 0 1, lm 0 0"], &[("wait 1", 16), ("ea 0 0", 13), ("ia 0", 0)]),
    // waiting, with a signal and a timer that is due
    (K, &[ENTERED, "wait 10, st 0, wait 10, fa 0 ether, fm 0"], &[("st 0", 0), ("wait 1", 16), ("sm 0 0 0", 0)]),
    (K, &[], &[("wait 0", 12), ("wait 1000000001", 12), ("wait 9999999999", 12), ("wait 10000000000", 11), ("wait 01", 11)]),
    (K, &[], &[("wait ", 11), ("wait +1", 11), ("wait -1", 11), ("wait ether", 11), ("wait 1 ", 11), ("wait", 11), ("Wait 1", 11)]),
    (K, &[], &[("ea 0 ether", 11), ("fa 0 start", 11), ("fa 0 ethe", 11), ("fm 0 0", 11), ("lm 0", 11), ("st 0\r", 11), ("st 0\0", 11)]),
    (K, &["wait 10"], &[("st 1", 12), ("st 9999999999", 12), ("st 10000000000", 11), ("st 00", 11), ("fm 4294967296", 12)]),
    (M, &[STANDING], &[("wait 1", 16), ("cx 0", 0), ("cx 1", 0), ("ea 0 0", 13), ("fa 0 ether", 13)]),
    (M, &[STANDING, "cx 0"], &[("cx 1", 15), ("wait 1", 0), ("cx 0", 13)]),
    (M, &[STANDING, "cx 0, wait 4"], &[("wait 1", 17), ("cx 1", 15), ("fa 0 ether", 0)]),
    (M, &[STANDING, "cx 0, wait 4, fa 0 ether, fm 0"], &[("wait 1", 16), ("fa 1 ether", 13), ("cx 1", 0)]),
    (M, &[STANDING, "cx 0, wait 4, fa 0 ether, fm 0, cx 1"], &[("fa 1 ether", 14), ("wait 4", 0), ("wait 5", 17)]),
    (P, &[ENTERED, "wait 3"], &[("fa 0 1", 0), ("fa 0 ether", 13), ("ea 0 1", 13), ("fa 0 0", 13), ("ea 0 0", 13)]),
    // a holder in R does not run
    (P, &[INTERRUPTED], &[("fa 0 ether", 13), ("ea 0 0", 13), ("cx 0", 13), ("wait 1", 16), ("ia 0", 0), ("fm 0", 13)]),
    (P, &[INTERRUPTED, "ia 0"], &[("fm 0", 0), ("wait 1", 16), ("lm 0 0", 13), ("ia 0", 13)]),
    (STOPPED, &[INTERRUPTED], &[("fa 0 ether", 13), ("ea 0 2", 13), ("wait 1", 16), ("ia 0", 0)]),
    (STOPPED, &[INTERRUPTED, "ia 0"], &[("fa 0 ether", 14), ("fm 0", 13), ("ia 0", 13), ("wait 10", 0)]),
    (LOOPING, &[ENTERED, "wait 3"], &[("fa 0 0", 13), ("fa 0 ether", 13), ("ea 0 1", 13), ("ea 0 0", 0), ("fa 0 1", 0)]),
    (PAUSED, &[BUSY], &[("wait 1", 16), ("sm 1 2 0", 13), ("sm 0 1 1", 0)]),
    // before a conflict a holder in R hinders a wait, another does not
    (PAUSED, &[BUSY, "sm 0 1 1, lm 0 0"], &[("wait 1", 16), ("cx 0", 13), ("ia 0", 0)]),
    (PAUSED, &[BUSY, "sm 0 1 0, lm 0 0"], &[("wait 10", 0), ("wait 11", 17), ("cx 0", 15), ("fa 0 ether", 13), ("ia 0", 13)]),
    (TWO, &["wait 10, st 0, st 1, sm 0 3 0, sm 1 4 0"], &[("lm 0 2", 13), ("lm 1 0", 13), ("lm 0 3", 12), ("lm 2 0", 12), ("lm 0 1", 0)]),
];

/// The row of K's fresh state.
pub const K_FRESH: &str = "state 0 0 0 0 manager x0 x0 0 0 0 0 ether 0 0";
/// K's log up to its first `fa`, and the row of the state there: the cycle is open, the codel has executed for 20 ticks, a signal came.
const K_LATE: &str = "wait 10, st 0, sm 0 1 0, lm 0 0, ea 0 0, wait 10, st 0, wait 10";
const K_LATE_ROW: &str = "state 30 10 1 1 0 x1 x0 1 10 1 0 0 1 20";
/// The row of M four ticks after activity 0 executes; activity 1 stands.
const M_ROW: &str = "state 14 4 0 1 0 x1 x0 1 10 0 0 4 0 1 1 x2 x0 1 10 0 0 0 1 4 1 0 0";

/// As STEPS, with `state` rows behind the log or in it.
const ROWS: [Told; 22] = [
    (K, &[], &[(K_FRESH, 0), ("state", 11), ("state ", 11), ("states 0", 11), ("State 0", 11), (" state 0", 11)]),
    // fields: too few, too many, a tab too many, an empty one
    (K, &[], &[("state 0 0 0 0 manager x0 x0 0 0 0 0 ether 0", 11), ("state 0 0 0 0 manager x0 x0 0 0 0 0 ether 0 0 0", 11)]),
    (K, &[], &[("state 0 0 0 0 manager x0 x0 0 0 0 0 ether 0 0 ", 11), ("state  0 0 0 manager x0 x0 0 0 0 0 ether 0 0", 11)]),
    (M, &[], &[(K_FRESH, 11), ("state 0 0 0 0 manager x0 x0 0 0 0 0 ether 0 0 0 0 0 manager x0 x0 0 0 0 0 ether 0 0", 11)]),
    // numbers: form is 11, size is 20
    (K, &[], &[("state 10000000000000 0 0 0 manager x0 x0 0 0 0 0 ether 0 0", 11), ("state 00 0 0 0 manager x0 x0 0 0 0 0 ether 0 0", 11)]),
    (K, &[], &[("state 9999999999999 0 0 0 manager x0 x0 0 0 0 0 ether 0 0", 20), ("state 10 01 0 0 manager x0 x0 0 0 0 0 ether 0 0", 11)]),
    (K, &[], &[("state 20 0 0 0 manager x0 x0 +1 0 0 0 ether 0 0", 11), ("state 20 0 0 0 manager x0 x0 -1 0 0 0 ether 0 0", 11)]),
    (K, &[], &[("state 20 0 0 0 manager x0 x0 1 0 0 0 ether 0 00", 11), ("state 20 0 0 0 manager x0 x0 1 0 0 0 ether 0 0\r", 11)]),
    // yes and no, words and sets
    (K, &[], &[("state 20 0 2 0 manager x0 x0 0 0 0 0 ether 0 0", 11), ("state 20 0 01 0 manager x0 x0 0 0 0 0 ether 0 0", 11)]),
    (K, &[], &[("state 20 0 0 2 manager x0 x0 0 0 0 0 ether 0 0", 11), ("state 20 0 0 0 manager x0 x0 0 0 0 0 ether 2 0", 11)]),
    (K, &[], &[("state 20 0 0 0 ether x0 x0 0 0 0 0 ether 0 0", 11), ("state 20 0 0 0 manager x0 x0 0 0 0 0 manager 0 0", 11)]),
    (K, &[], &[("state 20 0 0 0 Manager x0 x0 0 0 0 0 ether 0 0", 11), ("state 20 0 0 0 manager x0 x0 0 0 0 0 ethe 0 0", 11)]),
    (K, &[], &[("state 20 0 0 1 00 x1 x0 0 0 0 0 0 1 0", 11), ("state 20 0 0 1 10000000000000 x1 x0 0 0 0 0 0 1 0", 11)]),
    (K, &[], &[("state 20 0 0 1 manager xA x0 0 0 0 0 ether 0 0", 11), ("state 20 0 0 1 manager x0 x00000000000000001 0 0 0 0 ether 0 0", 11)]),
    (K, &[], &[("state 20 0 0 1 manager 1 x0 0 0 0 0 ether 0 0", 11), ("state 20 0 0 1 manager x1 x1 0 0 0 0 ether 0 0", 0)]),
    // a later row must be the state reached, where line 1 was none too; 11 before 20 before 21
    (K, &["wait 10"], &[("state 10 10 0 0 manager x0 x0 0 0 0 0 ether 0 0", 0), (K_FRESH, 21), ("state", 11)]),
    (K, &["wait 10"], &[("state 10 9 0 0 manager x0 x0 0 0 0 0 ether 0 0", 21), ("state 10 11 0 0 manager x0 x0 0 0 0 0 ether 0 0", 20)]),
    (K, &[K_LATE], &[(K_LATE_ROW, 0), ("state 30 10 1 1 0 x1 x0 1 10 1 0 0 1 19", 21), ("state 30 10 1 1 0 x1 x0 1 10 1 0 0 1 21", 20)]),
    (K, &[K_LATE_ROW], &[(K_LATE_ROW, 0), (K_FRESH, 21), ("fa 0 ether", 0), ("st 0", 0), ("wait 1", 17), ("fm 0", 13), ("ea 0 0", 13)]),
    (K, &[K_LATE_ROW, K_LATE_ROW, "fa 0 ether", "fm 0"], &[("state 30 10 1 0 manager x0 x0 1 0 0 0 ether 0 0", 0), (K_LATE_ROW, 21)]),
    (M, &[STANDING, "cx 0, wait 4", M_ROW], &[(M_ROW, 0), ("cx 1", 15), ("wait 1", 17), ("fa 0 ether", 0)]),
    (M, &[M_ROW], &[(M_ROW, 0), ("cx 1", 15), ("wait 1", 17), ("fa 0 ether", 0), ("ea 0 0", 13), ("cx 0", 13)]),
];

/// Rows that begin a log where no steps from fresh lead, and steps behind them: at the last date, and with a clock that began before date 0.
const STARTS: [Told; 3] = [
    (K, &["state 1000000000000 0 0 0 manager x0 x0 0 0 0 0 ether 0 0"], &[("wait 1", 18), ("wait 11", 17), ("st 0", 14)]),
    (K, &["state 999999999999 0 0 0 manager x0 x0 0 0 0 0 ether 0 0"], &[("wait 1", 0), ("wait 2", 18)]),
    (K, &["state 3 0 0 1 0 x0 x0 0 3 0 0 0 1 15"], &[("wait 5", 0), ("wait 6", 17), ("fa 0 ether", 0), ("fm 0", 13)]),
];

/// A task's part of a row: a waiting manager. An activity's: at ether.
const IDLE: &str = "0 0 0 manager x0 x0 0 0 0 0";
const AWAY: &str = "ether 0 0";
/// The task parts of TWO whose activity 0, 1 or 2 holds: to run, or for 0 to be interrupted.
const RUNS_0: &str = "0 0 1 0 x1 x0 0 0 0 0";
const RUNS_1: &str = "0 0 1 1 x2 x0 0 0 0 0";
const RUNS_2: &str = "0 0 1 2 x4 x0 0 0 0 0";
const STOPS_0: &str = "0 0 1 0 x0 x1 0 0 0 0";

/// A row of TWO in its parts: date, tasks 0 and 1, activities 0, 1 and 2.
type Parts = [&'static str; 6];

const fn with_date(date: &'static str) -> Parts {
    [date, IDLE, IDLE, AWAY, AWAY, AWAY]
}

const fn with_task(task: &'static str) -> Parts {
    ["20", task, IDLE, AWAY, AWAY, AWAY]
}

const fn with_holder(task: &'static str, act: &'static str) -> Parts {
    ["20", task, IDLE, act, AWAY, AWAY]
}

/// Rows of TWO that break one sentence of the sound state each, sentence by sentence.
const BROKEN: [Parts; 45] = [
    // date at most 1,000,000,000,000; timer at most the period
    with_date("1000000000001"),
    with_task("11 0 0 manager x0 x0 0 0 0 0"),
    with_task("9999999999999 0 0 manager x0 x0 0 0 0 0"),
    // N and R within the task
    with_task("0 0 1 manager x4 x0 0 0 0 0"),
    with_task("0 0 1 manager x0 x4 0 0 0 0"),
    with_task("0 0 1 manager x8 x0 0 0 0 0"),
    with_task("0 0 1 manager x0 x8000000000000000 0 0 0 0"),
    ["20", IDLE, "0 0 1 manager x1 x0 0 0 0 0", AWAY, AWAY, AWAY],
    // each activity at ether or a codel of its own; codel 1 is activity 0's
    with_holder(IDLE, "4 0 0"),
    with_holder(IDLE, "9999999999999 0 0"),
    ["20", IDLE, IDLE, AWAY, "1 0 0", AWAY],
    ["20", RUNS_1, IDLE, AWAY, "3 1 0", AWAY],
    // a waiting manager holds and has N and R empty
    with_holder("0 0 0 0 x0 x0 0 0 0 0", "0 1 0"),
    with_task("0 0 0 manager x1 x0 0 0 0 0"),
    with_task("0 0 0 manager x0 x2 0 0 0 0"),
    // the holder is the manager or one of the task's activities
    with_task("0 0 1 2 x1 x0 0 0 0 0"),
    with_task("0 0 1 3 x1 x0 0 0 0 0"),
    with_task("0 0 1 64 x1 x0 0 0 0 0"),
    with_task("0 0 1 9999999999999 x1 x0 0 0 0 0"),
    // an activity that is not the holder is at ether or at the target of a pause, not executing
    with_holder(IDLE, "0 0 0"),
    with_holder(IDLE, "1 1 0"),
    ["20", RUNS_1, IDLE, "0 0 0", "2 1 0", AWAY],
    // so is a holder in R
    with_holder(STOPS_0, "0 0 0"),
    with_holder(STOPS_0, "1 1 0"),
    with_holder("0 0 1 0 x1 x1 0 0 0 0", "1 1 0"),
    // a holder at ether is in N or R; nothing executes at ether
    with_task("0 0 1 0 x0 x0 0 0 0 0"),
    with_task("0 0 1 0 x2 x2 0 0 0 0"),
    with_holder(RUNS_0, "ether 1 0"),
    // a holder not in R at a thread-safe codel executes
    ["20", RUNS_1, IDLE, AWAY, "2 0 0", AWAY],
    with_holder(RUNS_0, "1 0 0"),
    // no executing conflict pair
    ["20", RUNS_0, RUNS_2, "0 1 0", AWAY, "3 1 0"],
    // an executing clock is at most the limit, every other clock is 0
    with_holder(RUNS_0, "0 1 5"),
    with_holder(RUNS_0, "0 0 1"),
    with_holder(IDLE, "ether 0 1"),
    // date minus timer is not below 0; cycle number plus signal is at most that, and so is missed
    ["5", "6 0 0 manager x0 x0 0 0 0 0", IDLE, AWAY, AWAY, AWAY],
    with_task("0 0 0 manager x0 x0 21 0 0 0"),
    with_task("0 1 0 manager x0 x0 20 0 0 0"),
    with_task("5 0 0 manager x0 x0 16 0 0 0"),
    with_task("0 0 1 manager x0 x0 0 0 21 0"),
    // longest is at most 1,000,000,000; open date is at most the date
    with_task("0 0 1 manager x0 x0 0 0 0 1000000001"),
    with_task("0 0 1 manager x0 x0 0 21 0 0"),
    // open date, missed and longest are 0 while waiting
    with_task("0 0 0 manager x0 x0 0 1 0 0"),
    with_task("0 0 0 manager x0 x0 0 0 1 0"),
    with_task("0 0 0 manager x0 x0 0 0 0 1"),
    ["20", IDLE, "0 0 0 manager x0 x0 1 20 0 0", AWAY, AWAY, AWAY],
];

/// Rows of TWO just beside those, sound.
const SOUND: [Parts; 21] = [
    with_date("20"),
    with_date("1000000000000"),
    with_task("10 0 0 manager x0 x0 0 0 0 0"),
    with_task("0 0 1 manager x3 x3 0 0 0 0"),
    ["20", IDLE, "0 0 1 manager x4 x4 0 0 0 0", AWAY, AWAY, AWAY],
    with_holder(IDLE, "1 0 0"),
    with_task(RUNS_0),
    with_task(STOPS_0),
    with_holder(STOPS_0, "1 0 0"),
    with_holder(RUNS_0, "1 1 4"),
    with_holder("0 0 1 0 x0 x0 0 0 0 0", "0 1 4"),
    with_holder(RUNS_0, "0 0 0"),
    ["20", RUNS_1, IDLE, "1 0 0", "2 1 0", AWAY],
    ["20", RUNS_0, RUNS_2, "0 1 0", AWAY, "3 0 0"],
    ["20", RUNS_0, RUNS_2, "0 0 0", AWAY, "3 1 0"],
    ["20", RUNS_0, RUNS_2, "1 1 0", AWAY, "3 1 0"],
    ["5", "5 0 0 manager x0 x0 0 0 0 0", IDLE, AWAY, AWAY, AWAY],
    with_task("0 1 0 manager x0 x0 19 0 0 0"),
    with_task("5 0 0 manager x0 x0 15 0 0 0"),
    with_task("0 0 1 manager x0 x0 20 20 20 1000000000"),
    with_task("0 1 1 manager x0 x0 19 0 20 0"),
];

/// A table, a log, and the number and line of its refusal: a row at the refused line or behind it.
const LOGS: [(&str, &str, (u64, u64)); 6] = [
    (K, "wait 11, state 0 0 0 0 manager x0 x0 0 0 0 0 ether 0 0", (17, 1)),
    (K, "wait 10, wait 1, state", (17, 2)),
    (K, "state 1 0 0 0 manager x0 x0 0 0 0 0 ether 0 0, no step, state 1 0 0 0 manager x0 x0 0 0 0 0 ether 0 0", (11, 2)),
    (K, "state 1 2 0 0 manager x0 x0 0 0 0 0 ether 0 0, no step", (20, 1)),
    (K, "wait 10, state 10 10 0 0 manager x0 x0 0 0 0 0 ether 0 0, st 0, state 10 10 0 0 manager x0 x0 0 0 0 0 ether 0 0, st 0", (21, 4)),
    (K, "wait 10, state 10 10 0 0 manager x0 x0 0 0 0 0 ether 0 0, st 0, st 0", (14, 4)),
];

/// The rows before those of the tables that are refused at line 7 and on.
const ACTS: &str = "task 10 5, act 0, act 0, codel 0 start 1, codel 0 stop 1, codel 1 start 1";

/// Rows behind ACTS, or without it, and the number and line of their refusal.
const TABLES: [(&str, &str, (u64, u64)); 30] = [
    ("", "task 0 5, task x 5", (3, 1)),
    ("", "end 0, end 1", (2, 2)),
    ("", "end 3", (6, 1)),
    ("", "end 0", (7, 1)),
    ("", "end 1, end 2", (6, 1)),
    ("", "codel 0 start 1", (4, 1)),
    ("", "codel 9 start 0", (3, 1)),
    (ACTS, "mutex 0 0", (5, 7)),
    (ACTS, "mutex 9 9", (4, 7)),
    (ACTS, "mutex 2 1", (2, 7)),
    (ACTS, "edge 0 1 run", (5, 7)),
    (ACTS, "edge 1 1 run", (5, 7)),
    (ACTS, "edge 0 2 run", (5, 7)),
    (ACTS, "edge 0 ether pause", (5, 7)),
    (ACTS, "edge 0 ether run, edge 0 9999999999 run", (2, 8)),
    (ACTS, "edge 0 0 run, edge 0 0 pause", (2, 8)),
    (ACTS, "edge 3 ether run", (4, 7)),
    (ACTS, "edge 0 3 run", (4, 7)),
    (ACTS, "codel 1 start 1", (5, 7)),
    (ACTS, "codel 0 main 1", (2, 7)),
    (ACTS, "codel 2 main 0", (3, 7)),
    (ACTS, "act 0", (2, 7)),
    (ACTS, "end 6", (7, 7)),
    ("", "task 10 5, act 0, act 1", (4, 3)),
    ("", "task 10 5 ", (1, 1)),
    ("", "task 10 05", (1, 1)),
    ("", "task 10 10000000000", (1, 1)),
    ("", "task 10 9999999999", (3, 1)),
    ("", "task 10 5", (6, 2)),
    ("", "", (6, 1)),
];

/// A row or step from its short form.
pub fn line_of(short: &str) -> String {
    let fields: Vec<&str> = short.split(' ').collect();
    match fields.as_slice() {
        ["sm", task, n, r] => format!("sm\t{}\t{:0>16}\t{:0>16}\n", task, n, r),
        ["state", told @ ..] => told.iter().fold("state".to_string(), |row, field| row + "\t" + &field_of(field)) + "\n",
        _ => fields.join("\t") + "\n",
    }
}

/// A field of a `state` row from its short form.
fn field_of(short: &str) -> String {
    short.strip_prefix('x').map_or(short.to_string(), |digits| format!("{:0>16}", digits))
}

/// Lines from their short form; no list is no line.
pub fn lines_of(list: &str) -> Vec<u8> {
    list.split(", ").filter(|short| !short.is_empty()).map(line_of).collect::<String>().into_bytes()
}

/// Each step or row behind the lines before it, with the number and line of its refusal.
fn told_steps() -> impl Iterator<Item = (Case, (u64, u64))> {
    STEPS.iter().chain(&ROWS).chain(&STARTS).flat_map(|(table, before, steps)| {
        let accepted = lines_of(&before.join(", "));
        let line = 1 + accepted.iter().filter(|b| **b == b'\n').count() as u64;
        steps.iter().map(move |(step, number)| {
            let log = [&accepted[..], line_of(step).as_bytes()].concat();
            (Case { table: lines_of(table), log }, (*number, if *number == 0 { 0 } else { line }))
        })
    })
}

fn told_tables() -> impl Iterator<Item = (Case, (u64, u64))> {
    let few = TABLES.iter().map(|(before, rows, refused)| (format!("{}, {}", before, rows), *refused));
    let too_many = [
        (format!("{}act 0, task 1 1", "task 1 1, ".repeat(16)), (2, 18)),
        (format!("{}task 1 1", "task 1 1, ".repeat(16)), (3, 17)),
    ];
    few.chain(too_many).map(|(list, refused)| (Case { table: lines_of(&list), log: b"st\t0\n".to_vec() }, refused))
}

/// The rows of TWO as the first line of a log.
fn told_parts() -> impl Iterator<Item = (Case, (u64, u64))> {
    let broken = BROKEN.iter().map(|parts| (parts, (20, 1)));
    let sound = SOUND.iter().map(|parts| (parts, (0, 0)));
    let case = |parts: &Parts| Case { table: lines_of(TWO), log: line_of(&format!("state {}", parts.join(" "))).into_bytes() };
    broken.chain(sound).map(move |(parts, refused)| (case(parts), refused))
}

/// Rows that go on behind K's fresh one up to so many bytes with their newline: by a number that grows, by fields, or by other bytes.
fn long_rows() -> Vec<Vec<u8>> {
    let fresh = line_of(K_FRESH).into_bytes();
    let row = |length: usize, filler: &[u8]| {
        let bytes = fresh[..fresh.len() - 1].iter().chain(filler.iter().cycle()).take(length - 1);
        bytes.chain(b"\n").copied().collect::<Vec<u8>>()
    };
    let lengths = [4_095, 4_096, 5_000, 65_536, 70_000];
    lengths.iter().flat_map(|length| [&b"0"[..], b"\t0", b"x"].map(|filler| row(*length, filler))).collect()
}

/// Rows that lack their newline, and rows longer than any that reads, with it and without: 11, on line 1 and behind a row that is fine.
fn told_rows_without_end() -> impl Iterator<Item = (Case, (u64, u64))> {
    let fresh = line_of(K_FRESH).into_bytes();
    let uncut = [&fresh[..fresh.len() - 1], &fresh[..fresh.len() - 2], b"state\t", b"state"].map(<[u8]>::to_vec);
    let endless: Vec<Vec<u8>> = long_rows().iter().map(|row| row[..row.len() - 1].to_vec()).collect();
    let case = |log: Vec<u8>| Case { table: K_TABLE.into(), log };
    let rows = uncut.into_iter().chain(endless).chain(long_rows());
    rows.flat_map(move |row| [(case([&fresh[..], &row].concat()), (11, 2)), (case(row), (11, 1))])
}

/// The logs with a row at the refused line or behind it.
fn told_logs() -> impl Iterator<Item = (Case, (u64, u64))> {
    LOGS.iter().map(|(table, log, refused)| (Case { table: lines_of(table), log: lines_of(log) }, *refused))
}

/// K and its log, with the page's keep and with longer ones. The report of each is K's: the first cycle takes 20 ticks and one signal comes
/// meanwhile, so it is kept by that signal where not by its time.
pub fn cases_of_k() -> Vec<Case> {
    let kept_at = |keep: u64| K_TABLE.replace("task\t10\t5", &format!("task\t10\t{}", keep));
    let case = |keep: u64| Case { table: kept_at(keep).into_bytes(), log: K_LOG.into() };
    [5, 20, 21, 25, 1_000_000_000].map(case).to_vec()
}

/// All cases, each with the number and line that its report ends with.
pub fn told_cases() -> Vec<(Case, (u64, u64))> {
    told_steps().chain(told_parts()).chain(told_rows_without_end()).chain(told_logs()).chain(told_tables()).collect()
}
