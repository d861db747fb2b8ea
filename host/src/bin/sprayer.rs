//! sprayer: writes the table of a two-arm vineyard sprayer and the log of a run to the end of a row, examples/sprayer.txt.
//!
//! The run is played by a small bench: every codel takes about its usual time, but for what the scenario says. Steering once is slow. Once
//! there is air in the line, and the pump regulates so long that both arms stand before their valves and miss two signals. At the end of the
//! row spraying, pressure and steering are interrupted.

use host::model::{apply, State, Step};
use host::table::{Codel, Edge, Table, ETHER};
use host::walk::{longest_wait, partners, wanted};
use host::Source;

const START: usize = 0;
const STOP: usize = 1;
const MAIN: usize = 2;

/// Period and keep of drive, left arm, right arm and pump, in microseconds.
const TASKS: [(u64, u64); 4] = [(20_000, 12_000), (50_000, 30_000), (50_000, 30_000), (100_000, 40_000)];

/// The tasks of the activities: follow the row and count the wheels' turns (drive), spray (left arm), spray (right arm), pressure (pump).
const ACTIVITIES: [u64; 5] = [0, 0, 1, 2, 3];

/// The activity that goes on behind the end of the row.
const COUNT_TURNS: usize = 1;

/// The codels that the scenario slows down.
const STEER: u64 = 1;
const REGULATE: u64 = 13;

/// Where a codel goes when it ends.
#[derive(Clone, Copy)]
enum Way {
    Run(u64),
    Pause(u64),
    End,
}

/// A codel: what its row says, its usual time, and where it goes in this run.
struct Part {
    activity: u64,
    kind: usize,
    limit: u64,
    usual: u64,
    way: Way,
}

const fn part(activity: u64, kind: usize, limit: u64, usual: u64, way: Way) -> Part {
    Part { activity, kind, limit, usual, way }
}

const CODELS: [Part; 15] = [
    // follow the row: find it, steer cycle by cycle, brake
    part(0, START, 9_000, 4_000, Way::Run(1)),
    part(0, MAIN, 16_000, 3_000, Way::Pause(1)),
    part(0, STOP, 8_000, 5_000, Way::End),
    // count the wheels' turns
    part(1, START, 2_000, 600, Way::End),
    // left arm: unfold, then aim and open the valve cycle by cycle, close it
    part(2, START, 40_000, 22_000, Way::Pause(5)),
    part(2, MAIN, 8_000, 3_000, Way::Run(6)),
    part(2, MAIN, 20_000, 9_000, Way::Pause(5)),
    part(2, STOP, 6_000, 2_500, Way::End),
    // right arm: the same
    part(3, START, 40_000, 24_000, Way::Pause(9)),
    part(3, MAIN, 8_000, 3_200, Way::Run(10)),
    part(3, MAIN, 20_000, 9_500, Way::Pause(9)),
    part(3, STOP, 6_000, 2_500, Way::End),
    // pump: prime, regulate cycle by cycle, vent
    part(4, START, 80_000, 35_000, Way::Pause(13)),
    part(4, MAIN, 150_000, 6_000, Way::Pause(13)),
    part(4, STOP, 30_000, 12_000, Way::End),
];

/// Steering and spraying, and the pump's regulating, may also end by themselves.
const MAY_END: [u64; 4] = [1, 6, 10, 13];

/// One line from the pump feeds both arms: one valve is open at a time, and none while the pump regulates.
const CONFLICTS: [(u64, u64); 3] = [(6, 10), (6, 13), (10, 13)];

/// The scenario, in microseconds from the start. What is slow: a codel, the date from which its next execution counts, and its time.
const SLOW: [(u64, u64, u64); 2] = [(STEER, 150_000, 13_500), (REGULATE, 250_000, 128_000)];
const END_OF_ROW: u64 = 480_000;
const END_OF_LOG: u64 = 600_000;

fn edges_of(codel: u64, way: Way) -> Vec<Edge> {
    let edge = |target: u64, pause: bool| Edge { codel, target, pause };
    let mut edges = match way {
        Way::Run(target) => vec![edge(target, false)],
        Way::Pause(target) => vec![edge(target, true)],
        Way::End => vec![edge(ETHER, false)],
    };
    if MAY_END.contains(&codel) {
        edges.push(edge(ETHER, false));
    }
    edges
}

fn table() -> Table {
    let part_edges = |(codel, part): (usize, &Part)| edges_of(codel as u64, part.way);
    Table {
        tasks: TASKS.to_vec(),
        acts: ACTIVITIES.to_vec(),
        codels: CODELS.iter().map(|part| Codel { activity: part.activity, kind: part.kind, limit: part.limit }).collect(),
        edges: CODELS.iter().enumerate().flat_map(part_edges).collect(),
        mutexes: CONFLICTS.to_vec(),
    }
}

/// The bench: the component's state, when each executing codel will end, and what is still to be slow.
struct Bench {
    table: Table,
    partners: Vec<Vec<u64>>,
    state: State,
    ends: Vec<Option<u64>>,
    slow: Vec<(u64, u64, u64)>,
    source: Source,
}

impl Bench {
    fn new() -> Bench {
        let table = table();
        let (partners, state, ends) = (partners(&table), State::fresh(&table), vec![None; ACTIVITIES.len()]);
        Bench { table, partners, state, ends, slow: SLOW.to_vec(), source: Source(2026) }
    }

    /// The next step of the run, done.
    fn next(&mut self) -> Step {
        let step = self.wanted_step().or_else(|| self.due_step()).unwrap_or_else(|| Step::Wait(self.quiet_time()));
        apply(&self.table, &mut self.state, &step);
        self.note_ends();
        step
    }

    /// What some task does before time passes.
    fn wanted_step(&self) -> Option<Step> {
        let step = (0..TASKS.len()).find_map(|task| wanted(&self.table, &self.partners, &self.state, task))?;
        Some(if let Step::Sm(task, _, _) = step { self.signalled(task) } else { step })
    }

    /// A manager takes its signal: up to the end of the row all of its activities are to run; from then on those that are under way are to be
    /// interrupted, and only the wheels are counted.
    fn signalled(&self, task: u64) -> Step {
        let (mut to_run, mut to_interrupt) = (0, 0);
        for (activity, _) in ACTIVITIES.iter().enumerate().filter(|(_, owner)| **owner == task) {
            if self.state.date < END_OF_ROW || activity == COUNT_TURNS {
                to_run |= 1 << activity;
            } else if self.state.acts[activity].at != ETHER {
                to_interrupt |= 1 << activity;
            }
        }
        Step::Sm(task, to_run, to_interrupt)
    }

    /// A timer at its period, or a codel that ends now.
    fn due_step(&self) -> Option<Step> {
        let timer = (0..TASKS.len()).find(|task| self.state.tasks[*task].timer == TASKS[*task].0);
        let ended = || (0..ACTIVITIES.len()).find(|activity| self.ends[*activity] == Some(self.state.date));
        timer.map(|task| Step::St(task as u64)).or_else(|| ended().map(|activity| self.end_of(activity)))
    }

    fn end_of(&self, activity: usize) -> Step {
        let number = activity as u64;
        match CODELS[self.state.acts[activity].at as usize].way {
            Way::Run(target) => Step::Ea(number, target),
            Way::Pause(target) => Step::Fa(number, target),
            Way::End => Step::Fa(number, ETHER),
        }
    }

    /// The ticks until a timer is due or a codel ends.
    fn quiet_time(&self) -> u64 {
        let ends = self.ends.iter().flatten().map(|end| end - self.state.date);
        ends.chain([longest_wait(&self.table, &self.state)]).min().expect("there are timers")
    }

    /// Says when a codel that has just begun will end, and forgets those that do not execute.
    fn note_ends(&mut self) {
        for activity in 0..ACTIVITIES.len() {
            let act = self.state.acts[activity].clone();
            self.ends[activity] = match self.ends[activity] {
                _ if !act.executing => None,
                Some(end) if act.clock > 0 || end > self.state.date => Some(end),
                _ => Some(self.state.date + self.time_of(act.at)),
            };
        }
    }

    /// The time that a codel takes which begins now: what the scenario says, else the usual one, a tenth more or less.
    fn time_of(&mut self, codel: u64) -> u64 {
        let now = self.state.date;
        if let Some(i) = self.slow.iter().position(|(slow, from, _)| *slow == codel && now >= *from) {
            return self.slow.remove(i).2;
        }
        let usual = CODELS[codel as usize].usual;
        usual - usual / 10 + self.source.below(usual / 5)
    }
}

fn main() {
    let mut bench = Bench::new();
    print!("{}", bench.table.text());
    while bench.state.date < END_OF_LOG {
        print!("{}", bench.next().line());
    }
}
