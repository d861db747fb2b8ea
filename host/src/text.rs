//! The forms of document 01's text, written from the page and not from the Rattle code.

/// "Numbers are decimal, one to ten digits, no leading zero (0 itself is one digit)", over the most digits; the text layer never reads
/// more than 19.
pub fn number(most: usize, field: &[u8]) -> Option<u64> {
    let short = !field.is_empty() && field.len() <= most && field.len() <= 19;
    let plain = field.iter().all(|b| b.is_ascii_digit());
    let led = field.len() > 1 && field[0] == b'0';
    if !short || !plain || led {
        return None;
    }
    std::str::from_utf8(field).ok()?.parse().ok()
}

/// "A set is sixteen lower-case hex digits; bit i, counted from the low end, is activity i", over the number of digits; the text layer never
/// reads more than 32.
pub fn set_of(digits: usize, field: &[u8]) -> Option<u128> {
    if field.len() != digits || digits > 32 {
        return None;
    }
    let mut members = 0;
    for (place, digit) in field.iter().rev().enumerate() {
        let value = b"0123456789abcdef".iter().position(|d| d == digit)?;
        for bit in 0..4 {
            if value >> bit & 1 == 1 {
                members |= 1 << (4 * place + bit);
            }
        }
    }
    Some(members)
}

/// A set of sixteen digits, as log lines have it.
pub fn set(field: &[u8]) -> Option<u64> {
    set_of(16, field).map(|members| members as u64)
}

/// Whether a number is a member of a set.
pub fn is_member(set: u128, i: u64) -> bool {
    i < 128 && set >> i & 1 == 1
}

/// Which of the words the field is.
pub fn word(words: &[&str], field: &[u8]) -> Option<usize> {
    words.iter().position(|w| w.as_bytes() == field)
}

/// Where field i of a line starts and ends.
pub fn place(line: &[u8], i: usize) -> Option<(usize, usize)> {
    let mut start = 0;
    for (k, field) in line.split(|b| *b == b'\t').enumerate() {
        if k == i {
            return Some((start, start + field.len()));
        }
        start += field.len() + 1;
    }
    None
}
