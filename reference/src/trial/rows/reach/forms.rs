//! What rows of a bad form reach, and rows of a form that is just good. A bad
//! row counts where it is a good one without its fault.

use super::view::{Turn, View};
use crate::reading::calendar::leap;
use crate::reading::last_day::CLOSED;
use crate::reading::rows::{ROW, numbers};

pub(super) const BAD: &[Turn] = &[
    ("empty", |v| v.row.is_empty()),
    ("one number", |v| v.bad() && good(&[v.row, b" 1"].concat())),
    ("two spaces", |v| {
        v.bad() && good(&replaced(v.row, b"  ", b" "))
    }),
    ("a space at the start", |v| {
        v.row.starts_with(b" ") && good(&v.row[1..])
    }),
    ("a space at the end", |v| {
        v.row.strip_suffix(b" ").is_some_and(good)
    }),
    ("a letter", |v| {
        v.good_without(|byte| byte.is_ascii_alphabetic())
    }),
    ("a minus sign", |v| v.good_without(|byte| byte == b'-')),
    ("a plus sign", |v| v.good_without(|byte| byte == b'+')),
    ("a tab", |v| v.bad() && good(&replaced(v.row, b"\t", b" "))),
    ("a comma", |v| v.bad() && good(&replaced(v.row, b",", b" "))),
    ("a carriage return at the end", |v| {
        v.row.strip_suffix(b"\r").is_some_and(good)
    }),
    ("a carriage return inside", |v| {
        v.good_without(|byte| byte == 13) && !v.row.ends_with(b"\r")
    }),
    ("byte 0", |v| v.good_without(|byte| byte == 0)),
    ("a byte beside the digits", |v| {
        v.good_without(|byte| byte == b'/' || byte == b':')
    }),
    ("a byte above 127", |v| v.good_without(|byte| byte > 127)),
    ("the number 2^32", |v| {
        v.large(|digits| digits == b"4294967296")
    }),
    ("11 digits or more", |v| {
        v.large(|digits| digits.len() > 10 && digits[0] != b'0')
    }),
    ("2^32 and an allowed number", |v| v.again(1 << 32)),
    ("2^64 and an allowed number", |v| v.again(1 << 64)),
    ("3,000 digits", |v| v.large(|digits| digits.len() == 3_000)),
    ("4,296 digits", |v| v.digits(4_296) && !v.noughts(4_096)),
    ("4,296 digits, most of them noughts", |v| {
        v.digits(4_296) && v.noughts(4_096)
    }),
    ("4,097 bytes", |v| {
        v.row.len() == ROW + 1 && good(&replaced(v.row, b"00", b"0"))
    }),
    ("20,000 bytes or more", |v| v.row.len() >= 20_000),
    ("a good row in its first 4,096 bytes", |v| {
        v.row.len() > ROW && good(&v.row[..ROW])
    }),
    ("and another in the rest", |v| {
        v.row.len() > ROW && good(&v.row[..ROW]) && good(&v.row[ROW..])
    }),
];

pub(super) const JUST_GOOD: &[Turn] = &[
    ("the year 4,294,967,295", |v| v.year == u32::MAX),
    ("the month 4,294,967,295", |v| v.month == u32::MAX),
    ("a date 4,294,967,295", |v| v.closed.contains(&u32::MAX)),
    ("noughts at the start of a number", |v| {
        v.accepted() && v.noughts(1)
    }),
    ("4,096 bytes", |v| v.accepted() && v.row.len() == ROW),
    ("4,095 bytes", |v| v.accepted() && v.row.len() == ROW - 1),
    ("400 dates or more", |v| v.closed.len() >= 400),
    ("2,000 dates or more", |v| v.closed.len() >= 2_000),
    ("a 29 February of a leap year", |v| {
        let leap_day = |date: &u32| date % 10_000 == 229 && leap(date / 10_000);
        v.accepted() && v.closed.iter().any(leap_day)
    }),
    ("64 closed dates", |v| {
        v.accepted() && v.closed.len() == CLOSED
    }),
    ("63 closed dates", |v| {
        v.accepted() && v.closed.len() == CLOSED - 1
    }),
    ("one closed date", |v| v.accepted() && v.closed.len() == 1),
    ("no closed date", |v| v.accepted() && v.closed.is_empty()),
];

fn good(row: &[u8]) -> bool {
    numbers(row).is_some()
}

/// The row with the first of such bytes replaced.
fn replaced(row: &[u8], bytes: &[u8], other: &[u8]) -> Vec<u8> {
    let found = row.windows(bytes.len()).position(|some| some == bytes);
    match found {
        Some(place) => [&row[..place], other, &row[place + bytes.len()..]].concat(),
        None => row.to_vec(),
    }
}

impl View<'_> {
    fn bad(&self) -> bool {
        self.answer.is_none()
    }

    fn accepted(&self) -> bool {
        matches!(self.answer, Some(Ok(_)))
    }

    /// The row is bad, and good without such bytes.
    fn good_without(&self, fault: fn(u8) -> bool) -> bool {
        let rest: Vec<u8> = self
            .row
            .iter()
            .copied()
            .filter(|&byte| !fault(byte))
            .collect();
        self.bad() && good(&rest)
    }

    fn words(&self) -> impl Iterator<Item = &[u8]> {
        self.row.split(|&byte| byte == b' ')
    }

    /// The row is bad, and good with the numbers of which this holds made 0.
    fn large(&self, holds: impl Fn(&[u8]) -> bool) -> bool {
        let words = self
            .words()
            .map(|word| if holds(word) { b"0" } else { word });
        let mended = words.collect::<Vec<_>>().join(&b' ');
        self.bad() && good(&mended)
    }

    /// The row is bad for a number that is this much too large.
    fn again(&self, much: u128) -> bool {
        self.large(|word| {
            let number = std::str::from_utf8(word)
                .ok()
                .and_then(|w| w.parse::<u128>().ok());
            number.is_some_and(|number| (much + 1..much + 20_520_000).contains(&number))
        })
    }

    /// A number has so many digits or more.
    fn digits(&self, least: usize) -> bool {
        self.words()
            .any(|word| word.len() >= least && word.iter().all(u8::is_ascii_digit))
    }

    /// So many noughts or more stand at the start of a number.
    fn noughts(&self, least: usize) -> bool {
        self.words()
            .any(|word| word.len() > least && word[..least].iter().all(|&d| d == b'0'))
    }
}
