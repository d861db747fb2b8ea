//! The table reader and writer on random well-formed and damaged tables: the program table_cases against the text written from the page.

use host::table::{Codel, Edge, Table, ETHER, LONGEST};
use host::{run_program, Source};

const CASES: usize = 20_000;

/// What the program writes of a text.
fn answer(text: &[u8]) -> String {
    match Table::read(text) {
        Err((number, line)) => format!("{} at line {}", number, line),
        Ok(table) => {
            assert_eq!(table.text().as_bytes(), text, "one table has one text");
            format!("fine; written: {} bytes, the text; a byte less: 31 at line 0, not the text", text.len())
        }
    }
}

/// Gives the program cases, and holds each answer to what the page says. A text without its last newline is given as an open case.
fn compare(texts: &[Vec<u8>]) {
    let mut input = Vec::new();
    for (i, text) in texts.iter().enumerate() {
        let whole = text.is_empty() || text.ends_with(b"\n");
        input.extend(format!("{}\t{}\n", if whole { "case" } else { "open" }, i).into_bytes());
        input.extend(text);
        if !whole {
            input.push(b'\n');
        }
    }
    assert!(input.len() <= 65_536, "the program reads that much");
    let wrote = String::from_utf8(run_program("table_cases", &input)).expect("only notes and answers are written");
    let answers: Vec<&str> = wrote.lines().collect();
    assert!(answers.len() > texts.len(), "the writer's own cases follow");
    for (i, text) in texts.iter().enumerate() {
        assert_eq!(answers[i], format!("{}\t{}", i, answer(text)), "{:?}", String::from_utf8_lossy(text));
    }
}

/// A number near another, or any small one.
fn near(s: &mut Source, n: u64) -> u64 {
    match s.below(6) {
        0 => n + 1,
        1 => n.saturating_sub(1),
        2 => 1_000_000_000 + s.below(2),
        3 => 9_999_999_999,
        4 => 0,
        _ => s.below(20),
    }
}

/// A text with one field, line or byte changed; the count of `end` is put right half of the time.
fn damaged(s: &mut Source, text: &str) -> Vec<u8> {
    let mut lines: Vec<Vec<String>> = text.lines().map(|l| l.split('\t').map(str::to_string).collect()).collect();
    let at = s.below(lines.len() as u64) as usize;
    let other = s.below(lines.len() as u64) as usize;
    let field = s.below(lines[at].len() as u64) as usize;
    match s.below(9) {
        0 | 1 => {
            let n = lines[at][field].parse().unwrap_or(0);
            lines[at][field] = near(s, n).to_string();
        }
        2 => lines.swap(at, other),
        3 => {
            lines.remove(at);
        }
        4 => {
            let row = lines[at].clone();
            lines.insert(other, row);
        }
        5 => lines[at][field] = s.one_of(&["start", "stop", "main", "run", "pause", "ether", "task", "edge", "", "x"]).to_string(),
        6 => lines[at].insert(field, "0".to_string()),
        7 => {
            lines[at].pop();
        }
        _ => {}
    }
    let count = lines.len();
    if s.below(2) == 0 && count > 0 && lines[count - 1][0] == "end" && lines[count - 1].len() == 2 {
        lines[count - 1][1] = (count - 1).to_string();
    }
    let mut bytes = lines.iter().map(|l| l.join("\t") + "\n").collect::<String>().into_bytes();
    if s.below(8) == 0 && !bytes.is_empty() {
        let at = s.below(bytes.len() as u64) as usize;
        bytes[at] = *s.one_of(b"0123456789\tzA \0\r");
    }
    if s.below(30) == 0 {
        bytes.pop();
    }
    bytes
}

#[test]
fn random_tables_are_read_and_written_as_the_page_says() {
    let mut s = Source(2);
    let mut hits = [0usize; 8];
    let mut done = 0;
    while done < CASES {
        let (mut texts, mut length) = (Vec::new(), 0);
        while length < 55_000 && done < CASES {
            let (tasks, acts, codels) = *s.one_of(&[(1, 1, 2), (2, 2, 3), (3, 2, 4), (6, 3, 3)]);
            let text = Table::any(&mut s, tasks, acts, codels).text();
            let bytes = if s.below(5) == 0 { text.into_bytes() } else { damaged(&mut s, &text) };
            hits[Table::read(&bytes).map_or_else(|(number, _)| number as usize, |_| 0)] += 1;
            length += bytes.len() + 16;
            texts.push(bytes);
            done += 1;
        }
        compare(&texts);
    }
    println!("accepted {}, refused by number {:?}", hits[0], &hits[1..]);
    assert!(hits.iter().all(|n| *n >= 100), "each answer is given often: {:?}", hits);
}

/// As many rows of each kind as there may be: 16 tasks of 4 activities of 4 codels, two edges each, every task's first codel against the
/// others' until 512 mutex rows are reached.
fn largest() -> Table {
    let mut t = Table::default();
    for task in 0..16 {
        t.tasks.push((1_000_000_000, 1_000_000_000));
        t.acts.extend([task; 4]);
    }
    for codel in 0..256u64 {
        let activity = codel / 4;
        t.codels.push(Codel { activity, kind: (codel % 4).min(2) as usize, limit: 1_000_000_000 });
        t.edges.push(Edge { codel, target: 4 * activity, pause: true });
        t.edges.push(Edge { codel, target: ETHER, pause: false });
    }
    for lo in 0..256u64 {
        for hi in lo + 1..256 {
            if lo / 16 != hi / 16 && t.mutexes.len() < 512 {
                t.mutexes.push((lo, hi));
            }
        }
    }
    t
}

#[test]
fn the_largest_table_is_read_and_written() {
    let text = largest().text().into_bytes();
    assert_eq!(text.iter().filter(|b| **b == b'\n').count(), 16 + 64 + 256 + 512 + 512 + 1);
    compare(&[text]);
}

#[test]
fn one_row_more_of_each_kind_is_refused() {
    // 3: "one row too many of its kind", at the first row past the most
    let mut acts = largest();
    acts.acts.push(15);
    let mut codels = largest();
    codels.codels.push(Codel { activity: 63, kind: 2, limit: 1 });
    let mut edges = largest();
    edges.edges.insert(1, Edge { codel: 0, target: 2, pause: false });
    let mut mutexes = largest();
    let last = *mutexes.mutexes.last().expect("it has rows");
    mutexes.mutexes.push((last.0, last.1 + 1));
    for (table, line) in [(acts, 81), (codels, 337), (edges, 849), (mutexes, 1361)] {
        let text = table.text().into_bytes();
        assert_eq!(Table::read(&text), Err((3, line)));
        compare(&[text]);
    }
}

#[test]
fn the_length_of_a_text_comes_first() {
    // one line of 32,768 bytes is read, and is no row; one of 32,769 bytes is not read at all
    let line = |n: usize| [vec![b'x'; n - 1], vec![b'\n']].concat();
    assert_eq!(Table::read(&line(LONGEST)), Err((1, 1)));
    assert_eq!(Table::read(&line(LONGEST + 1)), Err((3, 0)));
    compare(&[line(LONGEST)]);
    compare(&[line(LONGEST + 1)]);
}
