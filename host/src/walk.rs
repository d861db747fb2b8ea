//! Seeded tables to walk in, accepted walks, and damage to tables and logs.

use crate::model::{apply, executes, holds, members, refusal, start_of, Holder, State, Step, CEILING, MOST_TICKS};
use crate::row::{is_row, read_sound_row, row_of};
use crate::table::{Codel, Edge, Table, ETHER};
use crate::Source;

/// A table and a log, as they are given to the judge.
#[derive(Clone, Debug)]
pub struct Case {
    pub table: Vec<u8>,
    pub log: Vec<u8>,
}

/// The most ticks of periods, keeps and limits that go together: even; codels that outlast periods (signals are missed); periods that
/// outlast codels; the largest there are.
const PACES: [(u64, u64, u64); 6] =
    [(4, 4, 4), (30, 20, 12), (5, 40, 60), (60, 30, 5), (1, 3, 2), (MOST_TICKS, MOST_TICKS, MOST_TICKS)];

/// 1 to most; the most itself often.
fn ticks(s: &mut Source, most: u64) -> u64 {
    if s.below(4) == 0 { most } else { 1 + s.below(most) }
}

/// Gives a table ticks of a pace; the tasks have one period half of the time, so that they meet before conflicts.
fn set_pace(s: &mut Source, table: &mut Table, pace: (u64, u64, u64)) {
    let common = ticks(s, pace.0);
    let alike = s.below(2) == 0;
    for task in &mut table.tasks {
        *task = (if alike { common } else { ticks(s, pace.0) }, ticks(s, pace.1));
    }
    for codel in &mut table.codels {
        codel.limit = ticks(s, pace.2);
    }
}

const MOST_MUTEXES: usize = 512;

/// A well-formed table: small mostly, and now and then of up to the most rows.
pub fn any_table(s: &mut Source) -> Table {
    let small = [(1, 1, 1), (1, 1, 3), (1, 2, 3), (2, 1, 1), (2, 1, 2), (2, 2, 3), (3, 1, 2), (3, 2, 3), (4, 2, 2)];
    let (tasks, acts, codels) = if s.below(300) == 0 { (16, 4, 4) } else { *s.one_of(&small) };
    let mut table = Table::any(s, tasks, acts, codels);
    if tasks > 1 && table.tasks.len() == 1 {
        table = Table::any(s, tasks, acts, codels);
    }
    let pace = *s.one_of(&PACES);
    set_pace(s, &mut table, pace);
    let conflicts_of_8 = *s.one_of(&[0, 1, 4, 8]);
    let all = 0..table.codels.len() as u64;
    table.mutexes = pairs_of_two_tasks(&table, all);
    table.mutexes.retain(|_| s.below(8) < conflicts_of_8);
    table.mutexes.truncate(MOST_MUTEXES);
    table
}

/// Every pair of these codels that lies in two tasks, in the order of mutex rows.
fn pairs_of_two_tasks(table: &Table, codels: impl Iterator<Item = u64> + Clone) -> Vec<(u64, u64)> {
    let task = |c: u64| table.acts[table.codels[c as usize].activity as usize];
    let pairs = codels.clone().flat_map(|lo| codels.clone().map(move |hi| (lo, hi)));
    pairs.filter(|(lo, hi)| lo < hi && task(*lo) != task(*hi)).collect()
}

/// The codels that each codel conflicts with.
pub fn partners(table: &Table) -> Vec<Vec<u64>> {
    let mut lists = vec![Vec::new(); table.codels.len()];
    for (lo, hi) in &table.mutexes {
        lists[*lo as usize].push(*hi);
        lists[*hi as usize].push(*lo);
    }
    lists
}

/// What a task wants done before time may pass, by its holder alone: the short test for 16. The sets of an `sm` are left empty.
pub fn wanted(table: &Table, partners: &[Vec<u64>], state: &State, task: usize) -> Option<Step> {
    let t = &state.tasks[task];
    let number = task as u64;
    let activity = match t.holder {
        Holder::Manager if !t.managing => return if t.signal { Some(Step::Sm(number, 0, 0)) } else { None },
        Holder::Manager => {
            let sets = t.to_run | t.to_interrupt;
            return Some(if sets == 0 { Step::Fm(number) } else { Step::Lm(number, u64::from(sets.trailing_zeros())) });
        }
        Holder::Activity(a) => a as u64,
    };
    let act = &state.acts[activity as usize];
    if t.to_interrupt >> activity & 1 == 1 {
        return Some(Step::Ia(activity));
    }
    if act.at == ETHER {
        return Some(Step::Ea(activity, start_of(table, activity)));
    }
    let free = !act.executing && partners[act.at as usize].iter().all(|c| !executes(table, state, *c));
    if free { Some(Step::Cx(activity)) } else { None }
}

/// The ticks that may pass before a timer, an executing clock or the date is at its end.
pub fn longest_wait(table: &Table, state: &State) -> u64 {
    let timers = state.tasks.iter().zip(&table.tasks).map(|(t, (period, _))| period - t.timer);
    let clocks = state.acts.iter().filter(|a| a.executing).map(|a| table.codels[a.at as usize].limit - a.clock);
    timers.chain(clocks).min().unwrap_or(MOST_TICKS).min(CEILING - state.date)
}

fn some_set(s: &mut Source, members: u64) -> u64 {
    match s.below(4) {
        0 => 0,
        1 => members,
        _ => members & s.next(),
    }
}

fn some_member(s: &mut Source, set: u64) -> u64 {
    let skipped = s.below(u64::from(set.count_ones()));
    let rest = (0..skipped).fold(set, |rest, _| rest & (rest - 1));
    u64::from(rest.trailing_zeros())
}

fn some_waits(s: &mut Source, table: &Table, state: &State) -> Vec<Step> {
    let longest = longest_wait(table, state);
    let past_the_ceiling = (CEILING - state.date + 1).min(MOST_TICKS);
    [1, longest, 1 + s.below(longest.max(1)), longest + 1, past_the_ceiling].iter().map(|d| Step::Wait(*d)).collect()
}

/// The steps worth a trial in a state: every kind of step with every task, activity and codel that belong together, some sets and some
/// waits. While any step at all is accepted, one of these is.
pub fn candidates(s: &mut Source, table: &Table, state: &State) -> Vec<Step> {
    let mut steps = some_waits(s, table, state);
    for task in 0..table.tasks.len() as u64 {
        let set = members(table, task);
        let interrupted = some_set(s, set) & some_set(s, set);
        steps.extend([Step::St(task), Step::Fm(task), Step::Sm(task, some_set(s, set), interrupted), Step::Sm(task, set, 0)]);
    }
    for (a, task) in table.acts.iter().enumerate() {
        let a = a as u64;
        steps.extend([Step::Lm(*task, a), Step::Ia(a), Step::Cx(a), Step::Fa(a, ETHER)]);
        let own = (0..table.codels.len() as u64).filter(|c| table.codels[*c as usize].activity == a);
        steps.extend(own.flat_map(|c| [Step::Ea(a, c), Step::Fa(a, c)]));
    }
    steps
}

/// An accepted step, or `None` where there is none. A wait is chosen, where one is accepted, so many times out of 8.
pub fn accepted_step(s: &mut Source, table: &Table, state: &State, waits_of_8: u64) -> Option<Step> {
    let tried = candidates(s, table, state).into_iter().filter(|step| refusal(table, state, step) == 0);
    let (waits, others): (Vec<Step>, Vec<Step>) = tried.partition(Step::is_wait);
    match (waits.is_empty(), others.is_empty()) {
        (true, true) => None,
        (false, true) => Some(*s.one_of(&waits)),
        (true, false) => Some(*s.one_of(&others)),
        _ => Some(*if s.below(8) < waits_of_8 { s.one_of(&waits) } else { s.one_of(&others) }),
    }
}

/// An accepted walk from fresh of at most so many steps.
pub fn walk(s: &mut Source, table: &Table, most: usize) -> Vec<Step> {
    walk_on(s, table, &mut State::fresh(table), most)
}

/// An accepted walk from a state of at most so many steps, done.
pub fn walk_on(s: &mut Source, table: &Table, state: &mut State, most: usize) -> Vec<Step> {
    let mut steps = Vec::new();
    let waits_of_8 = *s.one_of(&[0, 3, 5, 8]);
    while steps.len() < most {
        match accepted_step(s, table, state, waits_of_8) {
            Some(step) => {
                apply(table, state, &step);
                steps.push(step);
            }
            None => break,
        }
    }
    steps
}

/// A number of a row, one just past the last, or one far off.
fn wild_number(s: &mut Source, count: usize) -> u64 {
    match s.below(12) {
        0 => count as u64,
        1 => *s.one_of(&[63, 64, 255, 256, 4_294_967_296, 9_999_999_999]),
        _ => s.below(count as u64),
    }
}

/// Any step, with numbers that need not belong together nor exist.
pub fn wild_step(s: &mut Source, table: &Table) -> Step {
    let task = wild_number(s, table.tasks.len());
    let a = wild_number(s, table.acts.len());
    let c = wild_number(s, table.codels.len());
    let acts = if table.acts.len() == 64 { u64::MAX } else { (1 << table.acts.len()) - 1 };
    match s.below(9) {
        0 => Step::Wait(*s.one_of(&[0, 1, 2, 3, 10, MOST_TICKS, MOST_TICKS + 1, 9_999_999_999])),
        1 => Step::St(task),
        2 => {
            let within = *s.one_of(&[acts, acts, acts << 1, u64::MAX]);
            Step::Sm(task, some_set(s, within), some_set(s, within))
        }
        3 => Step::Lm(task, a),
        4 => Step::Ia(a),
        5 => Step::Ea(a, c),
        6 => Step::Cx(a),
        7 => Step::Fa(a, *s.one_of(&[c, ETHER])),
        _ => Step::Fm(task),
    }
}

/// A step that is refused with the number in this state, if a few trials find one.
pub fn refused_step(s: &mut Source, table: &Table, state: &State, number: u64) -> Option<Step> {
    let mut tried = candidates(s, table, state);
    tried.extend((0..20).map(|_| wild_step(s, table)));
    tried.retain(|step| refusal(table, state, step) == number);
    if tried.is_empty() { None } else { Some(*s.one_of(&tried)) }
}

/// Every beginning of an accepted walk, each with one step behind it for every number that some step is refused with there.
pub fn refused_everywhere(s: &mut Source, most: usize) -> Vec<Case> {
    let table = any_table(s);
    let text = table.text().into_bytes();
    let mut state = State::fresh(&table);
    let (mut log, mut cases) = (Vec::new(), Vec::new());
    for _ in 0..most {
        for number in 12..=18 {
            let refused = refused_step(s, &table, &state, number);
            cases.extend(refused.map(|step| Case { table: text.clone(), log: [&log, step.line().as_bytes()].concat() }));
        }
        match accepted_step(s, &table, &state, 4) {
            Some(step) => {
                apply(&table, &mut state, &step);
                log.extend(step.line().into_bytes());
            }
            None => break,
        }
    }
    cases
}

/// The text of steps.
pub fn text_of(steps: &[Step]) -> Vec<u8> {
    steps.iter().map(Step::line).collect::<String>().into_bytes()
}

/// A number near another, or one at an edge of the page.
fn near(s: &mut Source, n: u64) -> u64 {
    match s.below(7) {
        0 | 1 => n.saturating_add(1),
        2 | 3 => n.saturating_sub(1),
        4 => *s.one_of(&[MOST_TICKS, MOST_TICKS + 1, 9_999_999_999, 10_000_000_000]),
        5 => 0,
        _ => s.below(20),
    }
}

/// A set with a digit more or less, a digit that is none, or another member.
fn damaged_set(s: &mut Source, field: &[u8]) -> Vec<u8> {
    let mut set = field.to_vec();
    let at = s.below(16) as usize;
    match s.below(4) {
        0 => set.insert(at, b'0'),
        1 => {
            set.remove(at);
        }
        2 => set[at] = *s.one_of(b"/:`gG@AF \0\x80\xb0\xe1\xff"),
        _ => set[at] = *s.one_of(b"0123456789abcdef"),
    }
    set
}

/// A field with its form or its value changed.
fn damaged_field(s: &mut Source, field: &[u8]) -> Vec<u8> {
    if field.len() == 16 {
        return damaged_set(s, field);
    }
    let text = String::from_utf8_lossy(field).into_owned();
    let words = ["start", "stop", "main", "run", "pause", "ether", "task", "act", "codel", "edge", "mutex", "end", "wait", "sm", "fa"];
    match text.parse::<u64>() {
        Ok(n) if s.below(4) > 0 => near(s, n).to_string(),
        Ok(n) => match s.below(6) {
            0 => format!("0{}", n),
            1 => format!("+{}", n),
            2 => format!("-{}", n),
            3 => format!("{} ", n),
            4 => format!("{:0>11}", n),
            _ => s.one_of(&words).to_string(),
        },
        _ if s.below(2) == 0 => s.one_of(&words).to_string(),
        _ => s.one_of(&["", "x", "0"]).to_string(),
    }
    .into_bytes()
}

fn damage_field_of(s: &mut Source, line: &mut Vec<u8>) {
    let mut fields: Vec<Vec<u8>> = line.split(|b| *b == b'\t').map(<[u8]>::to_vec).collect();
    let at = s.below(fields.len() as u64) as usize;
    match s.below(6) {
        0 => fields.insert(at, b"0".to_vec()),
        1 => {
            fields.remove(at);
        }
        _ => fields[at] = damaged_field(s, &fields[at]),
    }
    *line = fields.join(&b'\t');
}

/// A field of a `state` row with another value, mostly of its form; the value need not make sense.
fn other_field(s: &mut Source, table: &Table, field: &str) -> String {
    let far = *s.one_of(&[CEILING, CEILING + 1, 9_999_999_999_999, 10_000_000_000_000]);
    match (field, field.parse::<u64>()) {
        ("manager", _) => wild_number(s, table.acts.len()).to_string(),
        ("ether", _) => wild_number(s, table.codels.len()).to_string(),
        (set, _) if set.len() == 16 => {
            let task = s.below(table.tasks.len() as u64);
            let within = *s.one_of(&[members(table, task), members(table, task), u64::MAX]);
            format!("{:016x}", some_set(s, within))
        }
        ("0", _) if s.below(2) == 0 => "1".to_string(),
        ("1", _) if s.below(2) == 0 => "0".to_string(),
        (_, Ok(_)) if s.below(6) == 0 => s.one_of(&["manager", "ether"]).to_string(),
        (_, Ok(n)) if s.below(6) > 0 => near(s, n).to_string(),
        _ => far.to_string(),
    }
}

/// A `state` row with one to three of its fields changed.
fn changed_row(s: &mut Source, table: &Table, row: &[u8]) -> Vec<u8> {
    let text = String::from_utf8_lossy(row).into_owned();
    let mut fields: Vec<String> = text.trim_end().split('\t').map(str::to_string).collect();
    for _ in 0..1 + s.below(3) {
        let at = 1 + s.below(fields.len() as u64 - 1) as usize;
        fields[at] = other_field(s, table, &fields[at]);
    }
    (fields.join("\t") + "\n").into_bytes()
}

/// A sound state about this one that no steps from fresh need lead to: changed rows are tried, and those that are sound are taken.
pub fn sound_about(s: &mut Source, table: &Table, state: &State) -> State {
    let mut sound = state.clone();
    for _ in 0..s.below(40) {
        let row = changed_row(s, table, &row_of(&sound));
        sound = read_sound_row(table, &row).unwrap_or(sound);
    }
    sound
}

/// A state that a walk leads to or, half of the time, a sound one about it.
pub fn some_sound_state(s: &mut Source, table: &Table, most: usize) -> State {
    let mut state = State::fresh(table);
    walk_on(s, table, &mut state, most);
    if s.below(2) == 0 { sound_about(s, table, &state) } else { state }
}

/// The lines of an accepted log from fresh or, half of the time, from a row, with rows of the state reached in between.
pub fn lines_with_rows(s: &mut Source, table: &Table, most: usize) -> Vec<Vec<u8>> {
    let mut lines = Vec::new();
    let mut state = State::fresh(table);
    if s.below(2) == 0 {
        state = some_sound_state(s, table, most);
        lines.push(row_of(&state));
    }
    while lines.len() < most {
        if s.below(6) == 0 {
            lines.push(row_of(&state));
        }
        let steps = walk_on(s, table, &mut state, 1);
        lines.extend(steps.iter().map(|step| step.line().into_bytes()));
        if steps.is_empty() {
            break;
        }
    }
    lines
}

/// A log with rows: accepted, with a row changed, with one put elsewhere, or damaged.
fn with_rows(s: &mut Source, table: &Table, most: usize) -> Vec<u8> {
    let mut lines = lines_with_rows(s, table, most);
    let rows: Vec<usize> = (0..lines.len()).filter(|i| is_row(&lines[*i])).collect();
    if !rows.is_empty() {
        let at = *s.one_of(&rows);
        let row = lines[at].clone();
        match s.below(8) {
            0..=2 => {}
            3..=5 => lines[at] = changed_row(s, table, &row),
            _ => lines.insert(s.below(lines.len() as u64 + 1) as usize, row),
        }
    }
    let log = lines.concat();
    if s.below(6) == 0 { damaged(s, &log) } else { log }
}

/// A table and a log with rows.
pub fn row_case(s: &mut Source) -> Case {
    let table = any_table(s);
    let most = 1 + s.below(40) as usize;
    Case { table: table.text().into_bytes(), log: with_rows(s, &table, most) }
}

/// A walk cut behind every line, and before the first: each first file, and each second one, which begins with the row of the state
/// reached. Behind the walk comes a step of any kind.
pub fn cut_everywhere(s: &mut Source, most: usize) -> Vec<Case> {
    let table = any_table(s);
    let text = table.text().into_bytes();
    let steps = walk(s, &table, most);
    let last = wild_step(s, &table).line().into_bytes();
    let mut state = State::fresh(&table);
    let mut cases = Vec::new();
    for cut in 0..=steps.len() {
        cases.push(Case { table: text.clone(), log: text_of(&steps[..cut]) });
        cases.push(Case { table: text.clone(), log: [row_of(&state), text_of(&steps[cut..]), last.clone()].concat() });
        steps.get(cut).into_iter().for_each(|step| apply(&table, &mut state, step));
    }
    cases
}

/// Makes a line of 62, 63, 64 or 65 bytes, its newline counted.
fn pad(s: &mut Source, line: &mut Vec<u8>) {
    let filler = *s.one_of(b"0 \tx");
    line.resize(61 + s.below(4) as usize, filler);
}

/// Changes one byte, puts one in or takes one away.
fn damage_bytes(s: &mut Source, bytes: &mut Vec<u8>) {
    let at = s.below(bytes.len() as u64 + 1) as usize;
    let odd = *s.one_of(b"0123456789abcdef\t\t\n\n\r\0 zA+-\x80\xff");
    match s.below(3) {
        0 => bytes.insert(at, odd),
        1 if at < bytes.len() => bytes[at] = odd,
        _ if at < bytes.len() => {
            bytes.remove(at);
        }
        _ => {}
    }
}

/// A text with one line, field or byte changed, or cut short.
pub fn damaged(s: &mut Source, text: &[u8]) -> Vec<u8> {
    let mut lines: Vec<Vec<u8>> = text.split_inclusive(|b| *b == b'\n').map(|l| l[..l.len() - 1].to_vec()).collect();
    if lines.is_empty() {
        lines.push(Vec::new());
    }
    let at = s.below(lines.len() as u64) as usize;
    let other = s.below(lines.len() as u64) as usize;
    match s.below(16) {
        0 => lines.swap(at, other),
        1 => {
            lines.remove(at);
        }
        2 => lines.insert(other, lines[at].clone()),
        3 => pad(s, &mut lines[at]),
        4 => lines[at].push(*s.one_of(b"\r\0\t \n")),
        5 => lines.truncate(at),
        6 | 7 => {}
        _ => damage_field_of(s, &mut lines[at]),
    }
    let mut bytes: Vec<u8> = lines.into_iter().flat_map(|line| [line, vec![b'\n']].concat()).collect();
    match s.below(12) {
        0 => {
            bytes.pop();
        }
        1 => bytes.truncate(s.below(bytes.len() as u64 + 1) as usize),
        2 | 3 => damage_bytes(s, &mut bytes),
        _ => {}
    }
    bytes
}

/// A table with one row that the page forbids, or without one that it asks for, and now and then still a fine one.
fn broken_table(s: &mut Source, table: &Table) -> Table {
    let mut t = table.clone();
    let (codel, other) = (s.below(t.codels.len() as u64), s.below(t.codels.len() as u64));
    let edge = s.below(t.edges.len() as u64) as usize;
    let out_of_range = *s.one_of(&[0, MOST_TICKS + 1]);
    match s.below(9) {
        0 => t.codels[codel as usize].kind = s.below(3) as usize,
        1 => t.edges[edge].target = other,
        2 => t.edges[edge].pause = !t.edges[edge].pause,
        3 => t.mutexes.push((codel.min(other), codel.max(other))),
        4 => t.edges.retain(|e| e.codel != codel),
        5 => t.tasks.push((1, 1)),
        6 => t.codels[codel as usize].limit = out_of_range,
        7 => t.tasks[0].1 = out_of_range,
        _ => {
            t.acts.pop();
        }
    }
    t.mutexes.sort_unstable();
    t
}

/// A damaged text of a table; the count of its `end` row is put right half of the time, so that other faults show.
pub fn damaged_table(s: &mut Source, table: &Table) -> Vec<u8> {
    if s.below(3) == 0 {
        return broken_table(s, table).text().into_bytes();
    }
    let text = damaged(s, table.text().as_bytes());
    let rows = text.iter().filter(|b| **b == b'\n').count();
    let end = text.windows(5).position(|w| w == b"\nend\t");
    match end {
        Some(at) if s.below(2) == 0 => [&text[..at], format!("\nend\t{}\n", rows.saturating_sub(1)).as_bytes()].concat(),
        _ => text,
    }
}

/// A text about as long as a table may be and just longer, or a table with a task too many.
fn overgrown_table(s: &mut Source, table: &Table) -> Vec<u8> {
    let mut text = table.text().into_bytes();
    if s.below(2) == 0 {
        text.resize(32_766 + s.below(5) as usize, b'x');
        text.push(b'\n');
        return text;
    }
    let row = format!("task\t{}\t1\n", 1 + s.below(9)).into_bytes();
    [row.repeat(17), text].concat()
}

/// A log with a few steps of any kind put in anywhere; mostly the first of them is refused.
fn with_wild_steps(s: &mut Source, table: &Table, steps: &[Step]) -> Vec<u8> {
    let mut steps = steps.to_vec();
    for _ in 0..1 + s.below(3) {
        let at = s.below(steps.len() as u64 + 1) as usize;
        steps.insert(at, wild_step(s, table));
    }
    text_of(&steps)
}

/// A log with one of its waits a little longer than it was.
fn with_longer_wait(s: &mut Source, steps: &[Step]) -> Vec<u8> {
    let mut steps = steps.to_vec();
    let waits: Vec<usize> = (0..steps.len()).filter(|i| steps[*i].is_wait()).collect();
    if !waits.is_empty() {
        let at = *s.one_of(&waits);
        if let Step::Wait(d) = steps[at] {
            steps[at] = Step::Wait(d + 1 + s.below(3));
        }
    }
    text_of(&steps)
}

/// A walk to a step that is refused with a number from 12 to 17, where one is met, and a step behind it.
fn with_refused_step(s: &mut Source, table: &Table, most: usize) -> Vec<u8> {
    let number = *s.one_of(&[12, 13, 14, 15, 15, 15, 16, 17, 17]);
    let mut state = State::fresh(table);
    let mut log = String::new();
    for _ in 0..most {
        let refused = if s.below(3) == 0 { refused_step(s, table, &state, number) } else { None };
        let step = refused.or_else(|| accepted_step(s, table, &state, 6));
        log.extend(step.map(|step| step.line()));
        match step {
            Some(step) if refused.is_none() => apply(table, &mut state, &step),
            _ => break,
        }
    }
    (log + &wild_step(s, table).line()).into_bytes()
}

/// A walk to the last date, with periods so long that it takes only some thousands of lines, and waits that try to go on.
pub fn ceiling_case(s: &mut Source) -> Case {
    let (tasks, acts, codels) = *s.one_of(&[(1, 1, 1), (1, 1, 2), (2, 1, 1)]);
    let mut table = Table::any(s, tasks, acts, codels);
    for task in &mut table.tasks {
        *task = (MOST_TICKS, ticks(s, MOST_TICKS));
    }
    for codel in &mut table.codels {
        codel.limit = MOST_TICKS;
    }
    let mut runner = Runner::new(&table, MOST_TICKS);
    let mut log = Vec::new();
    while let Some(step) = runner.next(s) {
        log.extend(step.line().into_bytes());
    }
    let number = *s.one_of(&[17, 18, 18, 18]);
    let last = refused_step(s, &table, &runner.state, number);
    log.extend(text_of(&last.into_iter().collect::<Vec<Step>>()));
    Case { table: table.text().into_bytes(), log }
}

/// A table and a log: accepted, refused at a chosen step, with `state` rows, or damaged.
pub fn any_case(s: &mut Source) -> Case {
    let table = any_table(s);
    let longest = *s.one_of(&[5, 50, 50, 50, 50, 200]);
    let most = s.below(longest) as usize;
    let steps = walk(s, &table, most);
    let text = table.text().into_bytes();
    let log = text_of(&steps);
    match s.below(28) {
        0..=4 => Case { table: text, log },
        5..=8 => Case { table: text, log: with_refused_step(s, &table, 100) },
        9..=10 => Case { table: text, log: with_longer_wait(s, &steps) },
        11..=13 => Case { table: text, log: with_wild_steps(s, &table, &steps) },
        14..=16 => Case { table: text, log: damaged(s, &log) },
        17..=19 => Case { table: damaged_table(s, &table), log },
        20 => Case { table: damaged_table(s, &table), log: damaged(s, &log) },
        21..=26 => Case { table: text, log: with_rows(s, &table, most) },
        _ if s.below(8) == 0 => Case { table: overgrown_table(s, &table), log },
        _ => Case { table: [text, b"end\t0\n".repeat(s.below(2) as usize)].concat(), log: damaged(s, &log) },
    }
}

/// How large a table for a benchmark is: tasks, and rows of conflicts. Each task has activities of four codels.
#[derive(Clone, Copy, Debug, PartialEq)]
pub struct Size {
    pub tasks: u64,
    pub acts_of_task: u64,
    pub mutexes: usize,
}

/// The sizes by name; `full` has the most rows of each kind.
pub const SIZES: [(&str, Size); 3] = [
    ("small", Size { tasks: 2, acts_of_task: 2, mutexes: 8 }),
    ("middle", Size { tasks: 8, acts_of_task: 4, mutexes: 256 }),
    ("full", Size { tasks: 16, acts_of_task: 4, mutexes: 512 }),
];

/// A table of a size, with this keep for every task: each activity has a start, two mains and a stop, two edges a codel. The start and the
/// second main may be in conflict; the others are thread safe.
pub fn sized_table(s: &mut Source, size: Size, keep: u64) -> Table {
    let mut table = Table::default();
    for task in 0..size.tasks {
        table.tasks.push((5_000 + s.below(15_000), keep));
        for _ in 0..size.acts_of_task {
            add_activity(s, &mut table, task);
        }
    }
    let starts_and_second_mains = (0..table.codels.len() as u64).step_by(2);
    let mut pairs = pairs_of_two_tasks(&table, starts_and_second_mains);
    while pairs.len() > size.mutexes {
        pairs.swap_remove(s.below(pairs.len() as u64) as usize);
    }
    pairs.sort_unstable();
    table.mutexes = pairs;
    table
}

fn add_activity(s: &mut Source, table: &mut Table, task: u64) {
    let activity = table.acts.len() as u64;
    let start = table.codels.len() as u64;
    let (first, second, stop) = (start + 1, start + 2, start + 3);
    table.acts.push(task);
    table.codels.extend([0, 2, 2, 1].map(|kind| Codel { activity, kind, limit: 500 + s.below(2_000) }));
    let edges = [(start, first, false), (first, second, false), (second, first, true), (stop, second, false)];
    for (codel, target, pause) in edges {
        table.edges.push(Edge { codel, target, pause });
        table.edges.push(Edge { codel, target: ETHER, pause: false });
    }
}

/// Walks quickly: it does what some task wants, then what is due, then ends some codel or waits. It never asks the model whether a step
/// is accepted.
pub struct Runner<'a> {
    table: &'a Table,
    partners: Vec<Vec<u64>>,
    longest_wait: u64,
    next_task: usize,
    pub state: State,
}

impl<'a> Runner<'a> {
    /// A runner from fresh that waits no longer than this at once while a codel executes.
    pub fn new(table: &'a Table, longest_wait: u64) -> Runner<'a> {
        Runner { table, partners: partners(table), longest_wait, next_task: 0, state: State::fresh(table) }
    }

    /// The next step, done; `None` at the last date.
    pub fn next(&mut self, s: &mut Source) -> Option<Step> {
        let step = self.wanted_step(s).or_else(|| self.due_step(s)).or_else(|| self.free_step(s))?;
        apply(self.table, &mut self.state, &step);
        Some(step)
    }

    fn wanted_step(&mut self, s: &mut Source) -> Option<Step> {
        let count = self.table.tasks.len();
        for i in 0..count {
            let task = (self.next_task + i) % count;
            if let Some(step) = wanted(self.table, &self.partners, &self.state, task) {
                self.next_task = task;
                return Some(self.with_sets(s, step));
            }
        }
        self.next_task = (self.next_task + 1) % count;
        None
    }

    /// An `sm` with sets: some activities to run, few to interrupt; an `lm` of any activity of the sets.
    fn with_sets(&self, s: &mut Source, step: Step) -> Step {
        match step {
            Step::Sm(task, _, _) => {
                let set = members(self.table, task);
                let few = s.next() & s.next() & s.next();
                Step::Sm(task, set & s.next(), if s.below(2) == 0 { set & few } else { 0 })
            }
            Step::Lm(task, _) => {
                let t = &self.state.tasks[task as usize];
                Step::Lm(task, some_member(s, t.to_run | t.to_interrupt))
            }
            other => other,
        }
    }

    /// An `st` of a timer at its period, or the end of a codel at its limit.
    fn due_step(&self, s: &mut Source) -> Option<Step> {
        let timer = (0..self.table.tasks.len()).find(|t| self.state.tasks[*t].timer == self.table.tasks[*t].0);
        let at_limit = |a: &u64| self.executing(*a) && self.clock(*a) == self.limit(*a);
        let act = || (0..self.table.acts.len() as u64).find(at_limit);
        timer.map(|t| Step::St(t as u64)).or_else(|| act().map(|a| self.end_of(s, a)))
    }

    /// The end of some executing codel, or a wait.
    fn free_step(&self, s: &mut Source) -> Option<Step> {
        let ready: Vec<u64> = self.holders().filter(|a| self.executing(*a) && self.clock(*a) > 0).collect();
        if !ready.is_empty() && s.below(16) < 13 {
            let activity = *s.one_of(&ready);
            return Some(self.end_of(s, activity));
        }
        let most = longest_wait(self.table, &self.state);
        let idle = self.holders().next().is_none();
        match (most, idle) {
            (0, _) => None,
            (_, true) => Some(Step::Wait(most)),
            _ => Some(Step::Wait(if self.longest_wait == MOST_TICKS { most } else { 1 + s.below(most.min(self.longest_wait)) })),
        }
    }

    fn holders(&self) -> impl Iterator<Item = u64> + '_ {
        self.state.tasks.iter().filter_map(|t| match t.holder {
            Holder::Activity(a) => Some(a as u64),
            Holder::Manager => None,
        })
    }

    fn executing(&self, activity: u64) -> bool {
        self.state.acts[activity as usize].executing && holds(self.table, &self.state, activity)
    }

    fn clock(&self, activity: u64) -> u64 {
        self.state.acts[activity as usize].clock
    }

    fn limit(&self, activity: u64) -> u64 {
        self.table.codels[self.state.acts[activity as usize].at as usize].limit
    }

    /// An `ea` or `fa` along some edge of the codel.
    fn end_of(&self, s: &mut Source, activity: u64) -> Step {
        let at = self.state.acts[activity as usize].at;
        let from = self.table.edges.partition_point(|e| e.codel < at);
        let to = self.table.edges.partition_point(|e| e.codel <= at);
        let edge = s.one_of(&self.table.edges[from..to]);
        if edge.pause || edge.target == ETHER { Step::Fa(activity, edge.target) } else { Step::Ea(activity, edge.target) }
    }
}
