//! The page that an explanation is written on: its rows, and how long ones are
//! folded.

use std::fmt::Display;

/// No row has more columns.
pub const COLUMNS: usize = 100;

/// The text so far.
#[derive(Clone, Debug, Default)]
pub(super) struct Page {
    text: String,
}

impl Page {
    /// A row that stands by itself.
    pub(super) fn row(&mut self, text: impl Display) {
        self.say(text);
        self.text.push('\n');
    }

    /// A part of a row, folded by itself.
    pub(super) fn say(&mut self, text: impl Display) {
        self.text.push_str(&folded(&text.to_string()));
    }

    /// Rows that are there already, such as the listing's.
    pub(super) fn rows(&mut self, rows: &str) {
        rows.lines().for_each(|row| self.row(row));
    }

    pub(super) fn bytes(self) -> Vec<u8> {
        self.text.into_bytes()
    }
}

/// A text of more columns than a row has: its last blank that leaves no more than
/// 100 columns before it, and is not the first byte, becomes a row end, and what
/// follows is folded in the same way.
fn folded(text: &str) -> String {
    let mut rows = Vec::new();
    let mut rest = text;
    while rest.len() > COLUMNS {
        let Some(blank) = rest[1..=COLUMNS].rfind(' ') else {
            break;
        };
        rows.push(&rest[..=blank]);
        rest = &rest[blank + 2..];
    }
    rows.push(rest);
    rows.join("\n")
}

#[cfg(test)]
mod tests {
    use super::folded;

    #[test]
    fn a_blank_after_100_columns_is_the_last_that_ends_a_row() {
        let word = |length: usize| "a".repeat(length);
        let fold = |lengths: &[usize]| {
            let words: Vec<String> = lengths.iter().map(|&length| word(length)).collect();
            let rows = folded(&words.join(" "));
            rows.lines().map(str::len).collect::<Vec<_>>()
        };
        assert_eq!(fold(&[100]), [100]);
        assert_eq!(fold(&[50, 49]), [100]);
        assert_eq!(fold(&[50, 50]), [50, 50]);
        assert_eq!(fold(&[50, 49, 1]), [100, 1]);
        assert_eq!(fold(&[50, 48, 1]), [99, 1]);
        assert_eq!(fold(&[50, 50, 49, 100, 3]), [50, 100, 100, 3]);
    }
}
