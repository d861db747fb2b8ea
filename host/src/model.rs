//! The judge, written from documents 01 and 02 and not from the Rattle code: plain and slow. Quoted words are the pages'.

use crate::row::{is_row, read_sound_row, row_of};
use crate::table::{Table, ETHER, LONGEST};
use crate::text::{number, set, word};

/// The last date: "date at most 1,000,000,000,000".
pub const CEILING: u64 = 1_000_000_000_000;
/// The most ticks of a period, a limit or a wait.
pub const MOST_TICKS: u64 = 1_000_000_000;
const LONGEST_LINE: usize = 63;
const START: usize = 0;
const STOP: usize = 1;
const STEPS: [&str; 9] = ["wait", "st", "sm", "lm", "ia", "ea", "cx", "fa", "fm"];

/// A step with the numbers of its line as they stand; a target may be ETHER.
#[derive(Clone, Copy, Debug, PartialEq)]
pub enum Step {
    Wait(u64),
    St(u64),
    Sm(u64, u64, u64),
    Lm(u64, u64),
    Ia(u64),
    Ea(u64, u64),
    Cx(u64),
    Fa(u64, u64),
    Fm(u64),
}

/// Who runs in a task: "holder (manager or one activity)".
#[derive(Clone, Copy, Debug, PartialEq)]
pub enum Holder {
    Manager,
    Activity(usize),
}

/// What the state says of a task; `to_run` is N, `to_interrupt` is R.
#[derive(Clone, Debug, PartialEq)]
pub struct TaskState {
    pub timer: u64,
    pub signal: bool,
    pub managing: bool,
    pub holder: Holder,
    pub to_run: u64,
    pub to_interrupt: u64,
    pub cycle: u64,
    pub open: u64,
    pub missed: u64,
    pub longest: u64,
}

/// What the state says of an activity; it is at a codel or at ETHER.
#[derive(Clone, Debug, PartialEq)]
pub struct ActivityState {
    pub at: u64,
    pub executing: bool,
    pub clock: u64,
}

/// "The state".
#[derive(Clone, Debug, PartialEq)]
pub struct State {
    pub date: u64,
    pub tasks: Vec<TaskState>,
    pub acts: Vec<ActivityState>,
}

/// A closed cycle, as a `kept` row tells it.
#[derive(Clone, Debug, PartialEq)]
pub struct Cycle {
    pub task: u64,
    pub number: u64,
    pub open: u64,
    pub close: u64,
    pub missed: u64,
    pub longest: u64,
}

/// All that judging a log leaves behind; `refusal` and `line` are 0 where nothing was refused. `open_at_start` is how many tasks were
/// managing in the state that the log begins from.
#[derive(Clone, Debug, PartialEq)]
pub struct Judging {
    pub state: State,
    pub open_at_start: usize,
    pub accepted: Vec<Step>,
    pub kept: Vec<Cycle>,
    pub dropped: Vec<Cycle>,
    pub refusal: u64,
    pub line: usize,
}

impl Step {
    /// What a line with its newline says; `None` is refusal 11.
    pub fn read(line: &[u8]) -> Option<Step> {
        if line.len() > LONGEST_LINE {
            return None;
        }
        let fields: Vec<&[u8]> = line.strip_suffix(b"\n")?.split(|b| *b == b'\t').collect();
        let numeric = |i: usize| number(10, fields[i]);
        let target = |i: usize| if fields[i] == b"ether" { Some(ETHER) } else { number(10, fields[i]) };
        let step = match (STEPS[word(&STEPS, fields[0])?], fields.len() - 1) {
            ("wait", 1) => Step::Wait(numeric(1)?),
            ("st", 1) => Step::St(numeric(1)?),
            ("sm", 3) => Step::Sm(numeric(1)?, set(fields[2])?, set(fields[3])?),
            ("lm", 2) => Step::Lm(numeric(1)?, numeric(2)?),
            ("ia", 1) => Step::Ia(numeric(1)?),
            ("ea", 2) => Step::Ea(numeric(1)?, numeric(2)?),
            ("cx", 1) => Step::Cx(numeric(1)?),
            ("fa", 2) => Step::Fa(numeric(1)?, target(2)?),
            ("fm", 1) => Step::Fm(numeric(1)?),
            _ => return None,
        };
        Some(step)
    }

    /// The step's line with its newline.
    pub fn line(&self) -> String {
        match *self {
            Step::Wait(d) => format!("wait\t{}\n", d),
            Step::St(task) => format!("st\t{}\n", task),
            Step::Sm(task, n, r) => format!("sm\t{}\t{:016x}\t{:016x}\n", task, n, r),
            Step::Lm(task, a) => format!("lm\t{}\t{}\n", task, a),
            Step::Ia(a) => format!("ia\t{}\n", a),
            Step::Ea(a, c) => format!("ea\t{}\t{}\n", a, c),
            Step::Cx(a) => format!("cx\t{}\n", a),
            Step::Fa(a, ETHER) => format!("fa\t{}\tether\n", a),
            Step::Fa(a, c) => format!("fa\t{}\t{}\n", a, c),
            Step::Fm(task) => format!("fm\t{}\n", task),
        }
    }

    /// Whether time passes in it.
    pub fn is_wait(&self) -> bool {
        matches!(self, Step::Wait(_))
    }
}

impl State {
    /// "Fresh: everything 0 or empty, managers waiting and holding, activities at ether."
    pub fn fresh(table: &Table) -> State {
        let task = TaskState {
            timer: 0,
            signal: false,
            managing: false,
            holder: Holder::Manager,
            to_run: 0,
            to_interrupt: 0,
            cycle: 0,
            open: 0,
            missed: 0,
            longest: 0,
        };
        let act = ActivityState { at: ETHER, executing: false, clock: 0 };
        State { date: 0, tasks: vec![task; table.tasks.len()], acts: vec![act; table.acts.len()] }
    }

    /// How many tasks are managing.
    pub fn managing(&self) -> usize {
        self.tasks.iter().filter(|t| t.managing).count()
    }
}

fn has(members: u64, activity: u64) -> bool {
    activity < 64 && members >> activity & 1 == 1
}

fn without(members: u64, activity: u64) -> u64 {
    members & !(1 << activity)
}

/// The task of an activity.
pub fn task_of(table: &Table, activity: u64) -> usize {
    table.acts[activity as usize] as usize
}

/// A task's activities as a set.
pub fn members(table: &Table, task: u64) -> u64 {
    (0..table.acts.len()).filter(|a| table.acts[*a] == task).fold(0, |set, a| set | 1 << a)
}

fn codel_of_kind(table: &Table, activity: u64, kind: usize) -> Option<u64> {
    table.codels.iter().position(|c| c.activity == activity && c.kind == kind).map(|c| c as u64)
}

/// The codel that an activity starts with.
pub fn start_of(table: &Table, activity: u64) -> u64 {
    codel_of_kind(table, activity, START).expect("each activity has one start")
}

fn has_edge(table: &Table, codel: u64, target: u64, pause: bool) -> bool {
    table.edges.iter().any(|e| (e.codel, e.target, e.pause) == (codel, target, pause))
}

fn at_rest(table: &Table, place: u64) -> bool {
    place == ETHER || table.edges.iter().any(|e| e.target == place && e.pause)
}

/// "A codel with no mutex row is thread safe."
pub fn thread_safe(table: &Table, codel: u64) -> bool {
    table.mutexes.iter().all(|(lo, hi)| *lo != codel && *hi != codel)
}

/// Whether some activity executes the codel.
pub fn executes(table: &Table, state: &State, codel: u64) -> bool {
    let act = &state.acts[table.codels[codel as usize].activity as usize];
    act.executing && act.at == codel
}

fn conflict_executes(table: &Table, state: &State, codel: u64) -> bool {
    table.mutexes.iter().any(|(lo, hi)| {
        (*lo == codel && executes(table, state, *hi)) || (*hi == codel && executes(table, state, *lo))
    })
}

/// Whether the activity holds its task.
pub fn holds(table: &Table, state: &State, activity: u64) -> bool {
    state.tasks[task_of(table, activity)].holder == Holder::Activity(activity as usize)
}

fn in_r(table: &Table, state: &State, activity: u64) -> bool {
    has(state.tasks[task_of(table, activity)].to_interrupt, activity)
}

/// "A holder not in R, at any other codel and not executing, stands before it; nothing else stands."
pub fn stands(table: &Table, state: &State, activity: u64) -> bool {
    let act = &state.acts[activity as usize];
    let ready = holds(table, state, activity) && !in_r(table, state, activity) && !act.executing;
    ready && act.at != ETHER && !thread_safe(table, act.at)
}

/// The first sentence of "Sound state" that does not hold, if any. A sentence may lean on those before it.
pub fn unsound(table: &Table, state: &State) -> Option<&'static str> {
    let every_task = |test: &dyn Fn(usize, &TaskState) -> bool| state.tasks.iter().enumerate().all(|(i, t)| test(i, t));
    let every_act = |test: &dyn Fn(u64, &ActivityState) -> bool| state.acts.iter().enumerate().all(|(i, a)| test(i as u64, a));
    let resting = |a: &ActivityState| at_rest(table, a.at) && !a.executing;
    let sentences: [(&str, &dyn Fn() -> bool); 20] = [
        ("date at most 1,000,000,000,000", &|| state.date <= CEILING),
        ("timer at most the period", &|| every_task(&|i, t| t.timer <= table.tasks[i].0)),
        ("N and R within the task", &|| {
            every_task(&|i, t| (t.to_run | t.to_interrupt) & !members(table, i as u64) == 0)
        }),
        ("each activity at ether or a codel of its own", &|| {
            every_act(&|i, a| a.at == ETHER || table.codels.get(a.at as usize).map_or(false, |c| c.activity == i))
        }),
        ("a waiting manager holds and has N and R empty", &|| {
            every_task(&|_, t| t.managing || (t.holder == Holder::Manager && t.to_run == 0 && t.to_interrupt == 0))
        }),
        ("the holder is the manager or one of the task's activities", &|| {
            every_task(&|i, t| match t.holder {
                Holder::Manager => true,
                Holder::Activity(a) => has(members(table, i as u64), a as u64),
            })
        }),
        ("an activity that is not the holder is at ether or at the target of a pause, not executing", &|| {
            every_act(&|i, a| holds(table, state, i) || resting(a))
        }),
        ("so is a holder in R", &|| every_act(&|i, a| !(holds(table, state, i) && in_r(table, state, i)) || resting(a))),
        ("a holder at ether is in N or R", &|| {
            every_act(&|i, a| {
                let t = &state.tasks[task_of(table, i)];
                !(holds(table, state, i) && a.at == ETHER) || has(t.to_run | t.to_interrupt, i)
            })
        }),
        ("nothing executes at ether", &|| every_act(&|_, a| !(a.executing && a.at == ETHER))),
        ("a holder not in R at a thread-safe codel executes", &|| {
            every_act(&|i, a| {
                let runs = holds(table, state, i) && !in_r(table, state, i);
                !(runs && a.at != ETHER && thread_safe(table, a.at)) || a.executing
            })
        }),
        ("no executing conflict pair", &|| {
            table.mutexes.iter().all(|(lo, hi)| !(executes(table, state, *lo) && executes(table, state, *hi)))
        }),
        ("an executing clock is at most the limit", &|| {
            every_act(&|_, a| !a.executing || a.clock <= table.codels[a.at as usize].limit)
        }),
        ("every other clock is 0", &|| every_act(&|_, a| a.executing || a.clock == 0)),
        ("date minus timer is not below 0", &|| every_task(&|_, t| t.timer <= state.date)),
        ("cycle number plus signal is at most date minus timer", &|| {
            every_task(&|_, t| u128::from(t.cycle) + u128::from(t.signal) <= u128::from(state.date - t.timer))
        }),
        ("so is missed", &|| every_task(&|_, t| t.missed <= state.date - t.timer)),
        ("longest is at most 1,000,000,000", &|| every_task(&|_, t| t.longest <= MOST_TICKS)),
        ("open date is at most the date", &|| every_task(&|_, t| t.open <= state.date)),
        ("open date, missed and longest are 0 while waiting", &|| {
            every_task(&|_, t| t.managing || (t.open, t.missed, t.longest) == (0, 0, 0))
        }),
    ];
    sentences.iter().find(|(_, holds)| !holds()).map(|(sentence, _)| *sentence)
}

/// 12: "no such task, activity or codel; a set outside its task; d out of range".
fn names_exist(table: &Table, step: &Step) -> bool {
    let task = |n: u64| n < table.tasks.len() as u64;
    let act = |n: u64| n < table.acts.len() as u64;
    let codel = |n: u64| n < table.codels.len() as u64;
    match *step {
        Step::Wait(d) => (1..=MOST_TICKS).contains(&d),
        Step::St(t) | Step::Fm(t) => task(t),
        Step::Sm(t, n, r) => task(t) && (n | r) & !members(table, t) == 0,
        Step::Lm(t, a) => task(t) && act(a),
        Step::Ia(a) | Step::Cx(a) => act(a),
        Step::Ea(a, c) => act(a) && codel(c),
        Step::Fa(a, target) => act(a) && (target == ETHER || codel(target)),
    }
}

/// 13: "the step's conditions fail, clocks and conflicts apart".
fn conditions_hold(table: &Table, state: &State, step: &Step) -> bool {
    let runs = |a: u64| holds(table, state, a) && !in_r(table, state, a);
    match *step {
        Step::Wait(_) | Step::St(_) => true,
        Step::Sm(t, _, _) => {
            let task = &state.tasks[t as usize];
            !task.managing && task.signal
        }
        Step::Lm(t, a) => {
            let task = &state.tasks[t as usize];
            task.managing && task.holder == Holder::Manager && has(task.to_run | task.to_interrupt, a)
        }
        Step::Ia(a) => holds(table, state, a) && in_r(table, state, a),
        Step::Ea(a, c) => {
            let act = &state.acts[a as usize];
            let begins = || act.at == ETHER && c == start_of(table, a);
            runs(a) && (begins() || (act.executing && has_edge(table, act.at, c, false)))
        }
        Step::Cx(a) => runs(a) && stands(table, state, a),
        Step::Fa(a, target) => {
            let act = &state.acts[a as usize];
            let pauses = || has_edge(table, act.at, target, true);
            let ends = || target == ETHER && has_edge(table, act.at, ETHER, false);
            holds(table, state, a) && act.executing && (pauses() || ends())
        }
        Step::Fm(t) => {
            let task = &state.tasks[t as usize];
            task.managing && task.holder == Holder::Manager && (task.to_run, task.to_interrupt) == (0, 0)
        }
    }
}

/// 14: "`st` with timer below the period; `ea` or `fa` from a codel at clock 0".
fn too_early(table: &Table, state: &State, step: &Step) -> bool {
    match *step {
        Step::St(t) => state.tasks[t as usize].timer < table.tasks[t as usize].0,
        Step::Ea(a, _) => state.acts[a as usize].at != ETHER && state.acts[a as usize].clock == 0,
        Step::Fa(a, _) => state.acts[a as usize].clock == 0,
        _ => false,
    }
}

/// 15: "`cx` while a conflicting codel executes".
fn in_conflict(table: &Table, state: &State, step: &Step) -> bool {
    match *step {
        Step::Cx(a) => conflict_executes(table, state, state.acts[a as usize].at),
        _ => false,
    }
}

/// "Some `sm`, `lm`, `ia`, `cx`, `fm` or `ea` from ether would be accepted": every argument is tried. The sets of an `sm` decide 12
/// alone, which no empty set gives, so the empty sets stand for all.
pub fn something_to_do(table: &Table, state: &State) -> bool {
    let accepted = |step: Step| refusal(table, state, &step) == 0;
    let acts = || 0..table.acts.len() as u64;
    let codels = || 0..table.codels.len() as u64;
    let of_task = |t: u64| accepted(Step::Sm(t, 0, 0)) || accepted(Step::Fm(t)) || acts().any(|a| accepted(Step::Lm(t, a)));
    let from_ether = |a: u64| state.acts[a as usize].at == ETHER && codels().any(|c| accepted(Step::Ea(a, c)));
    let of_act = |a: u64| accepted(Step::Ia(a)) || accepted(Step::Cx(a)) || from_ether(a);
    (0..table.tasks.len() as u64).any(of_task) || acts().any(of_act)
}

/// 17: "`wait` that takes a timer past its period or an executing clock past its limit".
fn passes_a_limit(table: &Table, state: &State, d: u64) -> bool {
    let timer = |(i, t): (usize, &TaskState)| t.timer + d > table.tasks[i].0;
    let clock = |a: &ActivityState| a.executing && a.clock + d > table.codels[a.at as usize].limit;
    state.tasks.iter().enumerate().any(timer) || state.acts.iter().any(clock)
}

fn wait_refusal(table: &Table, state: &State, d: u64) -> u64 {
    if something_to_do(table, state) {
        16
    } else if passes_a_limit(table, state, d) {
        17
    } else if state.date + d > CEILING {
        18
    } else {
        0
    }
}

/// The number, from 12 on, that a step is refused with in a sound state; 0 is acceptance.
pub fn refusal(table: &Table, state: &State, step: &Step) -> u64 {
    if !names_exist(table, step) {
        return 12;
    }
    if !conditions_hold(table, state, step) {
        return 13;
    }
    if too_early(table, state, step) {
        return 14;
    }
    if in_conflict(table, state, step) {
        return 15;
    }
    match *step {
        Step::Wait(d) => wait_refusal(table, state, d),
        _ => 0,
    }
}

/// "Enter c": "clock 0; executing if c is thread safe, else standing before it".
fn enter(table: &Table, state: &mut State, activity: u64, codel: u64) {
    state.acts[activity as usize] = ActivityState { at: codel, executing: thread_safe(table, codel), clock: 0 };
}

/// "Give back": "A leaves N and R, stops executing, its clock becomes 0, and the manager holds". It is left at the place.
fn give_back(table: &Table, state: &mut State, activity: u64, place: u64) {
    let task = &mut state.tasks[task_of(table, activity)];
    task.to_run = without(task.to_run, activity);
    task.to_interrupt = without(task.to_interrupt, activity);
    task.holder = Holder::Manager;
    state.acts[activity as usize] = ActivityState { at: place, executing: false, clock: 0 };
}

/// "Set longest to the larger of itself and that clock."
fn note_clock(table: &Table, state: &mut State, activity: u64) {
    let clock = state.acts[activity as usize].clock;
    let task = &mut state.tasks[task_of(table, activity)];
    task.longest = task.longest.max(clock);
}

fn pass_time(state: &mut State, d: u64) {
    state.date += d;
    for task in &mut state.tasks {
        task.timer += d;
    }
    for act in state.acts.iter_mut().filter(|a| a.executing) {
        act.clock += d;
    }
}

/// "Timer 0, signal set"; "missed grows at each `st` accepted while the cycle is open, set or not".
fn start_timer(task: &mut TaskState) {
    task.timer = 0;
    task.signal = true;
    if task.managing {
        task.missed += 1;
    }
}

fn launch(table: &Table, state: &mut State, task: u64, activity: u64) {
    state.tasks[task as usize].holder = Holder::Activity(activity as usize);
    let at = state.acts[activity as usize].at;
    if !in_r(table, state, activity) && at != ETHER {
        enter(table, state, activity, at);
    }
}

fn interrupt(table: &Table, state: &mut State, activity: u64) {
    match codel_of_kind(table, activity, STOP) {
        Some(stop) => {
            let task = &mut state.tasks[task_of(table, activity)];
            task.to_interrupt = without(task.to_interrupt, activity);
            enter(table, state, activity, stop);
        }
        None => give_back(table, state, activity, ETHER),
    }
}

/// Does an accepted step.
pub fn apply(table: &Table, state: &mut State, step: &Step) {
    match *step {
        Step::Wait(d) => pass_time(state, d),
        Step::St(t) => start_timer(&mut state.tasks[t as usize]),
        Step::Sm(t, n, r) => {
            let open = state.date;
            let task = &mut state.tasks[t as usize];
            let cycle = task.cycle + 1;
            *task = TaskState { signal: false, managing: true, to_run: n, to_interrupt: r, cycle, open, ..task.clone() };
        }
        Step::Lm(t, a) => launch(table, state, t, a),
        Step::Ia(a) => interrupt(table, state, a),
        Step::Ea(a, c) => {
            if state.acts[a as usize].at != ETHER {
                note_clock(table, state, a);
            }
            enter(table, state, a, c);
        }
        Step::Cx(a) => {
            state.acts[a as usize].executing = true;
            state.acts[a as usize].clock = 0;
        }
        Step::Fa(a, target) => {
            note_clock(table, state, a);
            give_back(table, state, a, target);
        }
        Step::Fm(t) => {
            let task = &mut state.tasks[t as usize];
            *task = TaskState { managing: false, open: 0, missed: 0, longest: 0, ..task.clone() };
        }
    }
}

/// One step by the whole list of refusals: 19 first, then the line, then the step. A refusal leaves the state as it came.
pub fn step(table: &Table, state: &State, line: &[u8]) -> Result<State, u64> {
    if Table::read(table.text().as_bytes()).is_err() || unsound(table, state).is_some() {
        return Err(19);
    }
    let step = Step::read(line).ok_or(11u64)?;
    match refusal(table, state, &step) {
        0 => {
            let mut next = state.clone();
            apply(table, &mut next, &step);
            Ok(next)
        }
        number => Err(number),
    }
}

impl Cycle {
    /// The cycle that an `fm` of the task closes in this state.
    fn closing(state: &State, task: u64) -> Cycle {
        let t = &state.tasks[task as usize];
        Cycle { task, number: t.cycle, open: t.open, close: state.date, missed: t.missed, longest: t.longest }
    }

    /// "Kept if close date minus open date is at least the task's keep, or missed is at least 1; else dropped."
    pub fn is_kept(&self, table: &Table) -> bool {
        self.close - self.open >= table.tasks[self.task as usize].1 || self.missed >= 1
    }

    fn row(&self) -> String {
        format!("kept\t{}\t{}\t{}\t{}\t{}\t{}\n", self.task, self.number, self.open, self.close, self.missed, self.longest)
    }
}

impl Judging {
    /// Judges a log up to its end or its first refusal.
    pub fn of(table: &Table, log: &[u8]) -> Judging {
        let state = State::fresh(table);
        let mut judging = Judging { state, open_at_start: 0, accepted: vec![], kept: vec![], dropped: vec![], refusal: 0, line: 0 };
        for (i, line) in log.split_inclusive(|b| *b == b'\n').enumerate() {
            if let Err(number) = judging.take(table, i == 0, line) {
                (judging.refusal, judging.line) = (number, i + 1);
                break;
            }
        }
        judging
    }

    /// Takes a line, the log's first or a later one, or gives the number of its refusal.
    fn take(&mut self, table: &Table, first: bool, line: &[u8]) -> Result<(), u64> {
        if is_row(line) { self.take_row(table, first, line) } else { self.take_step(table, line) }
    }

    /// "A file may now start with a `state` row"; one "later in a log must equal the state reached", 21 "for one that differs".
    fn take_row(&mut self, table: &Table, first: bool, line: &[u8]) -> Result<(), u64> {
        let told = read_sound_row(table, line)?;
        if first {
            self.open_at_start = told.managing();
            self.state = told;
            return Ok(());
        }
        if told == self.state { Ok(()) } else { Err(21) }
    }

    /// That the state is sound needs no asking: no accepted step leaves it unsound.
    fn take_step(&mut self, table: &Table, line: &[u8]) -> Result<(), u64> {
        let step = Step::read(line).ok_or(11u64)?;
        match refusal(table, &self.state, &step) {
            0 => {
                self.give_verdict(table, &step);
                apply(table, &mut self.state, &step);
                self.accepted.push(step);
                Ok(())
            }
            number => Err(number),
        }
    }

    fn give_verdict(&mut self, table: &Table, step: &Step) {
        if let Step::Fm(task) = *step {
            let cycle = Cycle::closing(&self.state, task);
            if cycle.is_kept(table) {
                self.kept.push(cycle);
            } else {
                self.dropped.push(cycle);
            }
        }
    }

    /// "Opened (accepted `sm`)"; "managing tasks at the start count as opened".
    pub fn opened(&self) -> usize {
        self.open_at_start + self.accepted.iter().filter(|s| matches!(s, Step::Sm(..))).count()
    }

    /// "Most steps other than waits between two neighbouring waits or at either end of the log".
    pub fn most_between_waits(&self) -> usize {
        self.accepted.split(Step::is_wait).map(|stretch| stretch.len()).max().unwrap_or(0)
    }

    /// The numbers of the `sum` row.
    pub fn sum(&self) -> [u64; 9] {
        [
            self.accepted.len() as u64,
            self.state.date,
            self.opened() as u64,
            self.kept.len() as u64,
            self.dropped.len() as u64,
            self.state.managing() as u64,
            self.most_between_waits() as u64,
            self.refusal,
            self.line as u64,
        ]
    }
}

fn report(kept: &[Cycle], sum: [u64; 9]) -> Vec<u8> {
    let rows: String = kept.iter().map(Cycle::row).collect();
    let numbers: String = sum.iter().map(|n| format!("\t{}", n)).collect();
    format!("cycles\t1\n{}sum{}\n", rows, numbers).into_bytes()
}

/// The report of a table and a log, each taken whole.
pub fn judge(table: &[u8], log: &[u8]) -> Vec<u8> {
    match Table::read(table) {
        Ok(table) => {
            let judging = Judging::of(&table, log);
            report(&judging.kept, judging.sum())
        }
        Err((number, line)) => report(&[], [0, 0, 0, 0, 0, 0, 0, number, line as u64]),
    }
}

/// The row of the state after a log's last line, or the number and line of the refusal of the table or of the log.
pub fn reached(table: &[u8], log: &[u8]) -> Result<Vec<u8>, (u64, u64)> {
    let table = Table::read(table).map_err(|(number, line)| (number, line as u64))?;
    let judging = Judging::of(&table, log);
    match judging.refusal {
        0 => Ok(row_of(&judging.state)),
        number => Err((number, judging.line as u64)),
    }
}

/// What the exported function `reached` does: the length of the row in the buffer, or 0 with the buffer unchanged; the pair tells the
/// refusal, 31 and 0 where the row does not fit, 0 and 0 where there is none, and is left alone where it is shorter than two numbers.
pub fn reached_into(table: &[u8], log: &[u8], buffer: &mut [u8], pair: &mut [u64]) -> usize {
    let (length, refused) = match reached(table, log) {
        Ok(row) => match put_answer(&row, buffer) {
            0 => (0, (31, 0)),
            length => (length, (0, 0)),
        },
        Err(refused) => (0, refused),
    };
    if pair.len() >= 2 {
        (pair[0], pair[1]) = refused;
    }
    length
}

/// What an exported function does with a report or a row: its length, or 0 "with the buffer unchanged exactly when" it "does not fit".
/// Bytes past it "are unchanged".
pub fn put_answer(answer: &[u8], buffer: &mut [u8]) -> usize {
    if answer.len() > buffer.len() {
        return 0;
    }
    buffer[..answer.len()].copy_from_slice(answer);
    answer.len()
}

/// What the function on three slices does.
pub fn judge_into(table: &[u8], log: &[u8], buffer: &mut [u8]) -> usize {
    put_answer(&judge(table, log), buffer)
}

/// The last two numbers of a report: the refusal and its line.
pub fn refused_with(report: &[u8]) -> (u64, u64) {
    let row = report.split(|b| *b == b'\n').rev().nth(1).expect("a report has a `sum` row");
    let numbers: Vec<u64> = row.split(|b| *b == b'\t').skip(1).filter_map(|field| number(13, field)).collect();
    assert_eq!(numbers.len(), 9, "nine numbers in a `sum` row");
    (numbers[7], numbers[8])
}

/// How the program `judge` parts its standard input into table and log. A line lies within the first 32,768 bytes where all of it does,
/// its newline too. Where its newline is further on, the other reading (it need only begin there) cuts elsewhere, but both tables are too
/// long and have one report. A last line without a newline ends with the input, so that the table is all there is.
pub fn cut_input(stdin: &[u8]) -> (&[u8], &[u8]) {
    let mut length = 0;
    for line in stdin.split_inclusive(|b| *b == b'\n') {
        length += line.len();
        if length > LONGEST {
            break;
        }
        if line.starts_with(b"end\t") {
            return stdin.split_at(length);
        }
    }
    stdin.split_at(stdin.len().min(LONGEST + 1))
}
