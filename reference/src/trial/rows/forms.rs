//! Rows of a bad form, and rows of a form that is just good.

use super::draft::Draft;
use super::runs::run;
use crate::reading::rows::ROW;
use crate::trial::random::Random;

/// Gives a draft's row a form.
type Form = fn(&mut Random, &Draft) -> Vec<u8>;

/// Two to the power of 32 and of 64, at which numbers of a machine begin again.
const AGAIN: [u128; 2] = [1 << 32, 1 << 64];

const BAD: &[Form] = &[
    |_, _| vec![],
    |random, _| b" ".repeat(random.pick(&[1, 2, ROW])),
    |random, draft| draft.words()[random.below(2)].clone().into_bytes(),
    |random, draft| beside(random, draft, 1, " "),
    |_, draft| [b" ", draft.bytes().as_slice()].concat(),
    |_, draft| [draft.bytes().as_slice(), b" "].concat(),
    |random, draft| {
        let letter = random.pick(&["a", "e", "O", "l", "x", "Z"]);
        inside(random, draft, letter.as_bytes())
    },
    |random, draft| beside(random, draft, 0, "-"),
    |random, draft| beside(random, draft, 0, "+"),
    |random, draft| parted(random, draft, b"\t"),
    |_, draft| [draft.bytes().as_slice(), b"\r"].concat(),
    |random, draft| inside(random, draft, b"\r"),
    |random, draft| inside(random, draft, b"\0"),
    |random, draft| {
        let beside = random.pick(b"/:");
        inside(random, draft, &[beside])
    },
    |random, draft| {
        let odd = random.pick(b"._;\x0b\x0c\x7f\x80\xff");
        inside(random, draft, &[odd])
    },
    |random, draft| parted(random, draft, b","),
    |random, draft| inside(random, draft, "٣".as_bytes()),
    |random, draft| instead(random, draft, |_| AGAIN[0].to_string()),
    |random, draft| instead(random, draft, |number| (AGAIN[0] + number).to_string()),
    |random, draft| instead(random, draft, |number| (AGAIN[1] + number).to_string()),
    |random, draft| long_number(random, draft, 11),
    |random, draft| long_number(random, draft, 40),
    |random, draft| long_number(random, draft, 3_000),
    |random, draft| long_number(random, draft, 4_296),
    |random, draft| draft.padded(random, 4_296 + 600),
    |random, draft| draft.padded(random, ROW + 1),
    |random, draft| draft.padded(random, ROW + 2),
    |random, draft| draft.padded(random, 20_000),
    |random, draft| [draft.padded(random, ROW), draft.bytes()].concat(),
    |random, draft| [draft.padded(random, ROW), draft.bytes().repeat(30)].concat(),
    |random, draft| [draft.padded(random, ROW).as_slice(), b" ", &draft.bytes()].concat(),
    |random, draft| [draft.padded(random, ROW).as_slice(), b" "].concat(),
    |random, draft| [draft.padded(random, ROW).as_slice(), b"\r"].concat(),
    garbage,
];

const JUST_GOOD: &[Form] = &[
    |_, draft| largest(draft, 0),
    |_, draft| largest(draft, 1),
    |_, draft| [draft.bytes().as_slice(), b" 4294967295"].concat(),
    |random, draft| noughts(random, draft, 3),
    |random, draft| noughts(random, draft, 50),
    |random, draft| draft.padded(random, ROW - 1),
    |random, draft| draft.padded(random, ROW),
    |_, _| [b"2021 5".as_slice(), &b" 0".repeat((ROW - 6) / 2)].concat(),
    |_, _| [b"2021 5".as_slice(), &b" 20210510".repeat((ROW - 6) / 9)].concat(),
    |random, _| {
        let noughts: [&[u8]; 5] = [b"0 0", b"00 000", b"2021 0", b"0 5", b"2021 5 0"];
        random.pick(&noughts).to_vec()
    },
];

/// A run's row in one form of all, in turn.
pub(super) fn form(random: &mut Random, turn: usize) -> Vec<u8> {
    let draft = run(random);
    let forms = [BAD, JUST_GOOD].concat();
    forms[turn % forms.len()](random, &draft)
}

/// The row with something before one of its numbers, from the place on.
fn beside(random: &mut Random, draft: &Draft, from: usize, what: &str) -> Vec<u8> {
    let mut words = draft.words();
    let place = from + random.below(words.len() - from);
    words[place].insert_str(0, what);
    words.join(" ").into_bytes()
}

/// The row with bytes put in at its start or at some place.
fn inside(random: &mut Random, draft: &Draft, what: &[u8]) -> Vec<u8> {
    let mut row = draft.bytes();
    let any = random.below(row.len());
    let place = random.pick(&[any, any, any, 0]);
    row.splice(place..place, what.iter().copied());
    row
}

/// The row with another byte for one of its spaces.
fn parted(random: &mut Random, draft: &Draft, what: &[u8]) -> Vec<u8> {
    let mut row = draft.bytes();
    let spaces: Vec<usize> = (0..row.len()).filter(|&i| row[i] == b' ').collect();
    let place = random.pick(&spaces);
    row.splice(place..=place, what.iter().copied());
    row
}

/// The row with another number for one of its numbers.
fn instead(random: &mut Random, draft: &Draft, other: fn(u128) -> String) -> Vec<u8> {
    let mut words = draft.words();
    let any = random.below(words.len());
    let place = random.pick(&[0, 1, any, words.len() - 1]);
    words[place] = other(words[place].parse().expect("a number"));
    words.join(" ").into_bytes()
}

/// The row with the largest number at a place.
fn largest(draft: &Draft, place: usize) -> Vec<u8> {
    let mut words = draft.words();
    words[place] = u32::MAX.to_string();
    words.join(" ").into_bytes()
}

/// The row with a number of so many digits, no nought at its start.
fn long_number(random: &mut Random, draft: &Draft, digits: usize) -> Vec<u8> {
    let mut words = draft.words();
    let place = random.below(words.len());
    words[place] = random.from_to(1, 9).to_string();
    for _ in 1..digits {
        words[place] += &random.below(10).to_string();
    }
    words.join(" ").into_bytes()
}

/// The row with up to so many noughts at the start of its numbers.
fn noughts(random: &mut Random, draft: &Draft, most: usize) -> Vec<u8> {
    let words = draft.words().into_iter();
    let words: Vec<String> = words
        .map(|word| "0".repeat(random.below(most + 1)) + &word)
        .collect();
    words.join(" ").into_bytes()
}

/// Bytes without sense, digits and spaces more often, none of them a row's end.
fn garbage(random: &mut Random, _: &Draft) -> Vec<u8> {
    let length = random.pick(&[1, 20, 300, 5_000]);
    let bytes = (0..length).map(|_| match random.below(3) {
        0 => random.pick(b"0123456789"),
        1 => b' ',
        _ => random.bits() as u8,
    });
    bytes.filter(|&byte| byte != 10).collect()
}
