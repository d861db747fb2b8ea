//! The table's text, written from document 01 and not from the Rattle code: plain and slow.

use crate::text::{number, word};
use crate::Source;

pub const LONGEST: usize = 32_768;
const MOST_TICKS: u64 = 1_000_000_000;
const MOST: [usize; 5] = [16, 64, 256, 512, 512];
const ROWS: [&str; 6] = ["task", "act", "codel", "edge", "mutex", "end"];
const KINDS: [&str; 3] = ["start", "stop", "main"];
const MODES: [&str; 2] = ["run", "pause"];
const STOP: usize = 1;

/// "Ether" stands above every number.
pub const ETHER: u64 = u64::MAX;

#[derive(Clone, Debug, PartialEq)]
pub struct Codel {
    pub activity: u64,
    pub kind: usize,
    pub limit: u64,
}

#[derive(Clone, Debug, PartialEq)]
pub struct Edge {
    pub codel: u64,
    pub target: u64,
    pub pause: bool,
}

#[derive(Clone, Debug, Default, PartialEq)]
pub struct Table {
    pub tasks: Vec<(u64, u64)>,
    pub acts: Vec<u64>,
    pub codels: Vec<Codel>,
    pub edges: Vec<Edge>,
    pub mutexes: Vec<(u64, u64)>,
}

enum Row {
    Task(u64, u64),
    Act(u64),
    Codel(Codel),
    Edge(Edge),
    Mutex(u64, u64),
    End(u64),
}

/// The number and the line of a refusal.
pub type Refusal = (u64, usize);

/// 1: "wrong word, field count or number form".
fn parse(line: &[u8]) -> Option<Row> {
    let fields: Vec<&[u8]> = line.split(|b| *b == b'\t').collect();
    let numeric = |i: usize| number(10, fields[i]);
    let target = |i: usize| if fields[i] == b"ether" { Some(ETHER) } else { number(10, fields[i]) };
    let row = match (word(&ROWS, fields[0])?, fields.len() - 1) {
        (0, 2) => Row::Task(numeric(1)?, numeric(2)?),
        (1, 1) => Row::Act(numeric(1)?),
        (2, 3) => Row::Codel(Codel { activity: numeric(1)?, kind: word(&KINDS, fields[2])?, limit: numeric(3)? }),
        (3, 3) => Row::Edge(Edge { codel: numeric(1)?, target: target(2)?, pause: word(&MODES, fields[3])? == 1 }),
        (4, 2) => Row::Mutex(numeric(1)?, numeric(2)?),
        (5, 1) => Row::End(numeric(1)?),
        _ => return None,
    };
    Some(row)
}

fn in_range(n: u64) -> bool {
    (1..=MOST_TICKS).contains(&n)
}

/// The first number whose test fails.
fn first(tests: &[(u64, bool)]) -> Result<(), u64> {
    tests.iter().find(|(_, holds)| !holds).map_or(Ok(()), |(n, _)| Err(*n))
}

impl Table {
    fn has<T>(list: &[T], n: u64) -> bool {
        n < list.len() as u64
    }

    fn activity_of(&self, codel: u64) -> Option<u64> {
        self.codels.get(codel as usize).map(|c| c.activity)
    }

    fn task_of(&self, codel: u64) -> Option<u64> {
        self.activity_of(codel).and_then(|a| self.acts.get(a as usize).copied())
    }

    fn counts(&self) -> [usize; 5] {
        [self.tasks.len(), self.acts.len(), self.codels.len(), self.edges.len(), self.mutexes.len()]
    }

    /// Takes a row behind the others, or gives the number of its refusal.
    fn add(&mut self, row: Row) -> Result<(), u64> {
        let place = |kind: usize| (2, self.counts()[kind + 1..].iter().all(|n| *n == 0));
        let room = |kind: usize| (3, self.counts()[kind] < MOST[kind]);
        match row {
            Row::Task(period, keep) => {
                first(&[place(0), room(0), (3, in_range(period) && in_range(keep))])?;
                self.tasks.push((period, keep));
            }
            Row::Act(task) => {
                let rises = self.acts.last().map_or(true, |last| *last <= task);
                first(&[place(1), (2, rises), room(1), (4, Self::has(&self.tasks, task))])?;
                self.acts.push(task);
            }
            Row::Codel(c) => {
                let rises = self.codels.last().map_or(true, |last| last.activity <= c.activity);
                let alone = c.kind > STOP || self.codels.iter().all(|d| (d.activity, d.kind) != (c.activity, c.kind));
                let known = Self::has(&self.acts, c.activity);
                first(&[place(2), (2, rises), room(2), (3, in_range(c.limit)), (4, known), (5, alone)])?;
                self.codels.push(c);
            }
            Row::Edge(e) => {
                let rises = self.edges.last().map_or(true, |last| (last.codel, last.target) < (e.codel, e.target));
                let to_ether = e.target == ETHER;
                let known = Self::has(&self.codels, e.codel) && (to_ether || Self::has(&self.codels, e.target));
                let leads = if to_ether {
                    !e.pause
                } else {
                    self.activity_of(e.codel) == self.activity_of(e.target)
                        && self.codels.get(e.target as usize).map_or(true, |d| d.kind != STOP)
                };
                first(&[place(3), (2, rises), room(3), (4, known), (5, leads)])?;
                self.edges.push(e);
            }
            Row::Mutex(lo, hi) => {
                let rises = self.mutexes.last().map_or(true, |last| *last < (lo, hi));
                let known = Self::has(&self.codels, lo) && Self::has(&self.codels, hi);
                first(&[(2, lo <= hi), (2, rises), room(4), (4, known), (5, self.task_of(lo) != self.task_of(hi))])?;
                self.mutexes.push((lo, hi));
            }
            Row::End(_) => unreachable!("an `end` row is not added"),
        }
        Ok(())
    }

    /// 7: what is missing after the last row.
    fn whole(&self) -> bool {
        let has_act = |t: usize| self.acts.iter().any(|a| *a == t as u64);
        let has_start = |a: usize| self.codels.iter().any(|c| c.activity == a as u64 && c.kind == 0);
        let has_edge = |c: usize| self.edges.iter().any(|e| e.codel == c as u64);
        !self.tasks.is_empty()
            && (0..self.tasks.len()).all(has_act)
            && (0..self.acts.len()).all(has_start)
            && (0..self.codels.len()).all(has_edge)
    }

    /// What a text says.
    pub fn read(text: &[u8]) -> Result<Table, Refusal> {
        if text.len() > LONGEST {
            return Err((3, 0));
        }
        let mut table = Table::default();
        let mut end = None;
        let mut last = 0;
        for (i, line) in text.split_inclusive(|b| *b == b'\n').enumerate() {
            last = i + 1;
            let row = line.strip_suffix(b"\n").and_then(parse).ok_or((1, last))?;
            match row {
                _ if end.is_some() => return Err((2, last)),
                Row::End(n) if n != i as u64 => return Err((6, last)),
                Row::End(_) => end = Some(last),
                row => table.add(row).map_err(|n| (n, last))?,
            }
        }
        let line = end.ok_or((6, last + 1))?;
        if table.whole() { Ok(table) } else { Err((7, line)) }
    }

    /// The text of a table.
    pub fn text(&self) -> String {
        let mut rows: Vec<String> = Vec::new();
        let place = |target: u64| if target == ETHER { "ether".to_string() } else { target.to_string() };
        rows.extend(self.tasks.iter().map(|(period, keep)| format!("task\t{}\t{}", period, keep)));
        rows.extend(self.acts.iter().map(|task| format!("act\t{}", task)));
        rows.extend(self.codels.iter().map(|c| format!("codel\t{}\t{}\t{}", c.activity, KINDS[c.kind], c.limit)));
        rows.extend(self.edges.iter().map(|e| format!("edge\t{}\t{}\t{}", e.codel, place(e.target), MODES[e.pause as usize])));
        rows.extend(self.mutexes.iter().map(|(lo, hi)| format!("mutex\t{}\t{}", lo, hi)));
        let end = format!("end\t{}", rows.len());
        rows.push(end);
        rows.join("\n") + "\n"
    }

    /// A well-formed table of up to so many tasks, activities a task and codels an activity.
    pub fn any(s: &mut Source, tasks: u64, acts: u64, codels: u64) -> Table {
        let mut t = Table::default();
        for task in 0..1 + s.below(tasks) {
            t.tasks.push((1 + s.below(30), 1 + s.below(20)));
            for _ in 0..1 + s.below(acts) {
                let activity = t.acts.len() as u64;
                t.acts.push(task);
                let count = 1 + s.below(codels);
                t.add_codels(s, activity, count);
            }
        }
        let count = t.codels.len() as u64;
        for lo in 0..count {
            for hi in lo + 1..count {
                if t.task_of(lo) != t.task_of(hi) && s.below(4) == 0 && t.mutexes.len() < MOST[4] {
                    t.mutexes.push((lo, hi));
                }
            }
        }
        t
    }

    fn add_codels(&mut self, s: &mut Source, activity: u64, count: u64) {
        let from = self.codels.len() as u64;
        let start = s.below(count);
        let stop = s.below(2 * count);
        for i in 0..count {
            let kind = if i == start { 0 } else if i == stop { STOP } else { 2 };
            self.codels.push(Codel { activity, kind, limit: 1 + s.below(12) });
        }
        for codel in from..from + count {
            let before = self.edges.len();
            for target in (from..from + count).filter(|d| self.codels[*d as usize].kind != STOP) {
                if s.below(3) == 0 && self.edges.len() < MOST[3] - 256 {
                    self.edges.push(Edge { codel, target, pause: s.below(2) == 0 });
                }
            }
            if self.edges.len() == before || s.below(2) == 0 {
                self.edges.push(Edge { codel, target: ETHER, pause: false });
            }
        }
    }
}
