//! The text layer on random valid and damaged fields: the program text_cases against the forms written from the page.

use host::{run_program, text, Source};

const WORDS: [&str; 6] = ["start", "stop", "main", "run", "pause", "ether"];
const CASES: usize = 30_000;

/// Bytes that damage is made of: digits, letters and signs around them, and bytes that no field has. No tab and no newline.
const ODD: &[u8] = b"0123456789abcdefgABCDEF/:`@G+- .\0\r\x7f\x80\xff";

/// A field with one byte changed, added or taken away, or left as it is.
fn damaged(s: &mut Source, mut field: Vec<u8>) -> Vec<u8> {
    let at = s.below(field.len() as u64 + 1) as usize;
    let odd = *s.one_of(ODD);
    match s.below(5) {
        0 => field.insert(at, odd),
        1 if at < field.len() => field[at] = odd,
        2 if at < field.len() => {
            field.remove(at);
        }
        _ => {}
    }
    field
}

/// Numbers of every width, with the powers of ten and their neighbours often among them.
fn any_number(s: &mut Source) -> u64 {
    let power = 10u64.pow(s.below(20) as u32);
    match s.below(4) {
        0 => power,
        1 => power - 1,
        2 => s.next() % power,
        _ => s.next() >> s.below(64),
    }
}

fn shown(result: Option<u64>) -> String {
    result.map_or("bad".to_string(), |n| n.to_string())
}

/// Sets with few members, members side by side, or any.
fn any_set(s: &mut Source) -> u128 {
    let ones = u128::MAX >> s.below(128);
    match s.below(4) {
        0 => 0,
        1 => 1 << s.below(128),
        2 => ones << s.below(128),
        _ => (u128::from(s.next()) << 64 | u128::from(s.next())) & ones,
    }
}

/// How many digits a set is read over: those of the page, those of two halves, and odd ones.
fn any_digits(s: &mut Source) -> usize {
    match s.below(4) {
        0 => 16,
        1 => 32,
        _ => s.below(36) as usize,
    }
}

/// Members of either half and around their ends, and numbers that are none.
fn any_member(s: &mut Source) -> u64 {
    match s.below(8) {
        0 => any_number(s) % 10_000_000_000_000_000_000,
        1 => 60 + s.below(8),
        _ => s.below(132),
    }
}

/// The last so many digits of a set, with zeros before it where there are more.
fn set_field(set: u128, digits: usize) -> Vec<u8> {
    let whole = format!("{:0>100}", format!("{:x}", set));
    whole.as_bytes()[100 - digits..].to_vec()
}

fn yes_or_no(yes: bool) -> String {
    if yes { "yes" } else { "no" }.to_string()
}

/// A case and the answer that the page gives it.
fn case(s: &mut Source, note: &str) -> (Vec<u8>, String) {
    let n = any_number(s);
    let (op, args, answer) = match s.below(8) {
        0 => {
            let most = s.below(22) as usize;
            let field = damaged(s, n.to_string().into_bytes());
            let answer = shown(text::number(most, &field));
            ("number", vec![most.to_string().into_bytes(), field], answer)
        }
        1 => {
            let digits = any_digits(s);
            let whole = set_field(any_set(s), digits);
            let field = damaged(s, whole);
            let answer = text::set_of(digits, &field).map_or("bad".to_string(), |m| format!("{} {}", m as u64, m >> 64));
            ("set", vec![digits.to_string().into_bytes(), field], answer)
        }
        2 => ("digits", vec![b"16".to_vec(), format!("{:016x}", n).into_bytes()], format!("{} of width {}", n, n.to_string().len())),
        3 => {
            let digits = s.below(100) as usize;
            let (low, high) = (n % 10_000_000_000_000_000_000, any_number(s) % 10_000_000_000_000_000_000);
            let answer = String::from_utf8(set_field(u128::from(high) << 64 | u128::from(low), digits)).expect("hex digits");
            ("hex", vec![digits.to_string().into_bytes(), low.to_string().into_bytes(), high.to_string().into_bytes()], answer)
        }
        4 => {
            let whole = s.one_of(&WORDS).as_bytes().to_vec();
            let field = damaged(s, whole);
            let answer = text::word(&WORDS, &field).map_or("unknown".to_string(), |k| format!("{} {}", k, WORDS[k]));
            ("word", vec![field], answer)
        }
        5 => {
            let (set, i) = (any_set(s), any_member(s));
            let answer = yes_or_no(text::is_member(set, i));
            ("member", vec![b"32".to_vec(), set_field(set, 32), i.to_string().into_bytes()], answer)
        }
        6 => {
            let (set, i, j) = (any_set(s), any_member(s), any_member(s));
            let answer = yes_or_no((0..128).all(|k| !text::is_member(set, k) || (i <= k && k < j)));
            ("between", vec![b"32".to_vec(), set_field(set, 32), i.to_string().into_bytes(), j.to_string().into_bytes()], answer)
        }
        _ => {
            let fields = (0..s.below(4)).map(|_| damaged(s, n.to_string().into_bytes())).collect();
            ("place", fields, String::new())
        }
    };
    let mut line = format!("{}\t{}", op, note).into_bytes();
    for arg in args {
        line.push(b'\t');
        line.extend(arg);
    }
    let answer = match (op, text::place(&line, 3)) {
        ("place", None) => "absent".to_string(),
        ("place", Some((from, to))) => format!("{} to {}", from, to),
        _ => answer,
    };
    (line, answer)
}

#[test]
fn random_fields_are_read_as_the_page_says() {
    let mut s = Source(1);
    let mut done = 0;
    while done < CASES {
        let (mut input, mut expected) = (Vec::new(), Vec::new());
        while input.len() < 60_000 {
            let note = done.to_string();
            let (line, answer) = case(&mut s, &note);
            input.extend(line);
            input.push(b'\n');
            expected.push(format!("{}\t{}", note, answer));
            done += 1;
        }
        let wrote = String::from_utf8(run_program("text_cases", &input)).expect("only notes and results are written");
        let answers: Vec<&str> = wrote.lines().collect();
        assert_eq!(answers.len(), expected.len());
        for (line, (answer, wanted)) in input.split(|b| *b == b'\n').zip(answers.iter().zip(&expected)) {
            assert_eq!(answer, wanted, "{:?}", String::from_utf8_lossy(line));
        }
    }
}

#[test]
fn a_last_line_without_newline_is_a_line() {
    assert_eq!(run_program("text_cases", b"number\tlast\t10\t7"), b"last\t7\n");
}

#[test]
fn no_input_gives_no_output() {
    assert_eq!(run_program("text_cases", b""), b"");
}

#[test]
fn a_line_that_is_no_case_is_said_to_be_none() {
    assert_eq!(run_program("text_cases", b"nothing\tof the kind\n\n"), b"of the kind\tno case\n\tno case\n");
}
