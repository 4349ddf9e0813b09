//! The rows that the program `lastday` reads and prints. No paper gives their
//! form: document 02, e, asks for an answer and names no program.

use crate::reading::last_day::last_day;

/// The most bytes a row has, its end byte not counted.
pub const ROW: usize = 4_096;

/// What the program prints for an input: a row for each row.
pub fn printed(input: &[u8]) -> String {
    rows(input).map(|row| answer(row) + "\n").collect()
}

/// The rows of an input. They end in byte 10; what follows the last byte 10,
/// where it is not empty, is a row too.
pub fn rows(input: &[u8]) -> impl Iterator<Item = &[u8]> {
    input
        .split_inclusive(|&byte| byte == 10)
        .map(|row| row.strip_suffix(&[10]).unwrap_or(row))
}

/// The date as one number, `refused` and the number, or `bad row`.
fn answer(row: &[u8]) -> String {
    let Some(numbers) = numbers(row) else {
        return "bad row".to_string();
    };
    match last_day(numbers[0], numbers[1], &numbers[2..]) {
        Ok(date) => date.to_string(),
        Err(refusal) => format!("refused {}", refusal.number()),
    }
}

/// Year, month and the closed dates: two or more decimal numbers parted by
/// exactly one space, no space at start or end. None for any other row.
pub fn numbers(row: &[u8]) -> Option<Vec<u32>> {
    if row.len() > ROW {
        return None;
    }
    let numbers: Option<Vec<u32>> = row.split(|&byte| byte == b' ').map(number).collect();
    numbers.filter(|numbers| numbers.len() >= 2)
}

/// A decimal number: one or more ASCII digits, leading noughts allowed, its
/// value at most 4,294,967,295.
fn number(word: &[u8]) -> Option<u32> {
    if word.is_empty() || !word.iter().all(u8::is_ascii_digit) {
        return None;
    }
    word.iter().try_fold(0_u32, |value, digit| {
        value.checked_mul(10)?.checked_add(u32::from(digit - b'0'))
    })
}
