//! The `state` row of document 02, written from the page and not from the Rattle code: plain and slow. Quoted words are the page's.

use crate::model::{unsound, ActivityState, Holder, State, TaskState};
use crate::table::{Table, ETHER};
use crate::text::{number, set};

/// "One line of at most 4,095 bytes", its newline counted.
pub const LONGEST_ROW: usize = 4_095;
/// "Numbers to 13 digits".
const MOST_DIGITS: usize = 13;
const WORD: &[u8] = b"state\t";

/// A field of the state, by the form that it has in a row.
enum Field<'a> {
    Number(&'a mut u64),
    Flag(&'a mut bool),
    Set(&'a mut u64),
    Holder(&'a mut Holder),
    Place(&'a mut u64),
}

/// "For each task: timer, signal, manager (waiting or managing), holder (manager or one activity), sets N (to run) and R (to interrupt),
/// cycle number, open date, missed, longest."
const OF_TASK: [fn(&mut TaskState) -> Field; 10] = [
    |t| Field::Number(&mut t.timer),
    |t| Field::Flag(&mut t.signal),
    |t| Field::Flag(&mut t.managing),
    |t| Field::Holder(&mut t.holder),
    |t| Field::Set(&mut t.to_run),
    |t| Field::Set(&mut t.to_interrupt),
    |t| Field::Number(&mut t.cycle),
    |t| Field::Number(&mut t.open),
    |t| Field::Number(&mut t.missed),
    |t| Field::Number(&mut t.longest),
];

/// "For each activity: its codel or ether, executing or not, codel clock."
const OF_ACTIVITY: [fn(&mut ActivityState) -> Field; 3] =
    [|a| Field::Place(&mut a.at), |a| Field::Flag(&mut a.executing), |a| Field::Number(&mut a.clock)];

/// "Every field of the state, tasks then activities, in document 01's order", behind the date.
fn each_field(state: &mut State, mut visit: impl FnMut(Field)) {
    visit(Field::Number(&mut state.date));
    for task in &mut state.tasks {
        OF_TASK.iter().for_each(|field| visit(field(task)));
    }
    for act in &mut state.acts {
        OF_ACTIVITY.iter().for_each(|field| visit(field(act)));
    }
}

impl Field<'_> {
    /// "Sets as in `sm`, yes as 1, managing as 1, `manager` or `ether` where no number stands".
    fn text(&self) -> String {
        match self {
            Field::Number(n) => n.to_string(),
            Field::Flag(flag) => u8::from(**flag).to_string(),
            Field::Set(members) => format!("{:016x}", members),
            Field::Holder(Holder::Manager) => "manager".to_string(),
            Field::Holder(Holder::Activity(a)) => a.to_string(),
            Field::Place(&mut ETHER) => "ether".to_string(),
            Field::Place(codel) => codel.to_string(),
        }
    }

    /// Takes what a text says; `None` where it does not have the form.
    fn take(self, text: &[u8]) -> Option<()> {
        match self {
            Field::Number(n) => *n = number(MOST_DIGITS, text)?,
            Field::Flag(flag) => *flag = [&b"0"[..], b"1"].iter().position(|word| *word == text)? == 1,
            Field::Set(members) => *members = set(text)?,
            Field::Holder(holder) if text == b"manager" => *holder = Holder::Manager,
            Field::Holder(holder) => *holder = Holder::Activity(number(MOST_DIGITS, text)? as usize),
            Field::Place(at) if text == b"ether" => *at = ETHER,
            Field::Place(at) => *at = number(MOST_DIGITS, text)?,
        }
        Some(())
    }
}

/// Whether a line is a row of this kind, whatever it says, and so no step.
pub fn is_row(line: &[u8]) -> bool {
    line.starts_with(WORD)
}

/// The row of a state, with its newline.
pub fn row_of(state: &State) -> Vec<u8> {
    let mut fields = Vec::new();
    each_field(&mut state.clone(), |field| fields.push(field.text()));
    [WORD, fields.join("\t").as_bytes(), b"\n"].concat()
}

/// The state that a line with its newline tells, sound or not; `None` is refusal 11.
pub fn read_row(table: &Table, line: &[u8]) -> Option<State> {
    if line.len() > LONGEST_ROW {
        return None;
    }
    let mut texts = line.strip_suffix(b"\n")?.strip_prefix(WORD)?.split(|b| *b == b'\t');
    let mut state = State::fresh(table);
    let mut reads = true;
    each_field(&mut state, |field| reads &= texts.next().and_then(|text| field.take(text)).is_some());
    if reads && texts.next().is_none() { Some(state) } else { None }
}

/// The sound state that a line tells, or the number of its refusal: "11 for one that does not read, 20 for a `state` row that is not
/// sound".
pub fn read_sound_row(table: &Table, line: &[u8]) -> Result<State, u64> {
    let state = read_row(table, line).ok_or(11u64)?;
    if unsound(table, &state).is_none() { Ok(state) } else { Err(20) }
}
