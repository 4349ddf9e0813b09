//! Which failures reach a grower (document 02, n), and what the program `failures`
//! prints. No paper gives its row.

use crate::reading::answers::opened;
use crate::reading::book::{Book, SECTIONS, SectionCode};
use crate::reading::expiry::{Settlement, settle};
use crate::reading::file::Reader;
use crate::reading::file::event::Event;
use crate::reading::file::whole::Replay;
use crate::reading::refusal::{Refusal, first};

/// "more than 10 are named"
pub const NAMED: usize = 10;
/// More arguments than these the program turns away.
pub const ARGUMENTS: usize = 256;
/// A section number that is never held, as at most 128 sections are.
const UNKNOWN: u8 = 255;

/// The answer: "three counts over all such patterns: delivered in full, in part, not
/// at all". "An accepted call returns 0 as its number"; a refused one has "any count
/// in its answer being 0".
#[derive(Clone, Copy, Debug, Default, PartialEq, Eq)]
pub struct Failures {
    pub number: u8,
    pub full: u32,
    pub part: u32,
    pub none: u32,
}

/// How the lots of a section end.
#[derive(Clone, Copy, Debug, PartialEq, Eq)]
pub enum Ending {
    Full,
    Part,
    NotAtAll,
}

impl Ending {
    /// "A section with no position counts as in full; lapsed lots count as not
    /// delivered."
    pub fn of(position: i64, delivered: u32) -> Ending {
        if u64::from(delivered) == position.unsigned_abs() {
            Ending::Full
        } else if delivered > 0 {
            Ending::Part
        } else {
            Ending::NotAtAll
        }
    }
}

impl Book {
    /// Failures: "40 when more than 10 are named or one twice, after 1, 5 and 10".
    pub fn failures_faults(&self, asked: u8, named: &[u8]) -> Vec<Refusal> {
        self.faults(|| {
            let unknown = |&number: &u8| self.section_held(number).is_none();
            let twice = (1..named.len()).any(|i| named[..i].contains(&named[i]));
            [
                (self.expired, Refusal::Expired),
                (
                    unknown(&asked) || named.iter().any(unknown),
                    Refusal::UnknownSection,
                ),
                (named.len() > NAMED || twice, Refusal::NamedSections),
            ]
        })
    }

    /// **Failures**: "Each count is the number of patterns whose expiry steps, run
    /// from the present positions, end so". No session is asked for.
    pub fn failures(&self, asked: u8, named: &[u8]) -> Failures {
        let mut answer = Failures::default();
        if let Err(refusal) = first(self.failures_faults(asked, named)) {
            answer.number = refusal.number();
            return answer;
        }
        let asked = usize::from(asked);
        for settlement in self.settlements(named) {
            let delivered = settlement.delivered[asked];
            match Ending::of(self.sections[asked].position, delivered) {
                Ending::Full => answer.full += 1,
                Ending::Part => answer.part += 1,
                Ending::NotAtAll => answer.none += 1,
            }
        }
        answer
    }

    /// The six steps, and what is removed after them, for each pattern of the
    /// sections named, of which a good book holds all.
    pub fn settlements(&self, named: &[u8]) -> impl Iterator<Item = Settlement> {
        let patterns = 0..1_u32 << named.len();
        patterns.map(|pattern| settle(&self.with_pattern(named, pattern)))
    }

    /// A copy in which each of the named sections meets its condition or not, as its
    /// bit of the pattern says, "the others as set".
    fn with_pattern(&self, named: &[u8], pattern: u32) -> Book {
        let mut book = self.clone();
        for (bit, &section) in named.iter().enumerate() {
            book.sections[usize::from(section)].condition_met = pattern >> bit & 1 == 1;
        }
        book
    }
}

/// What the program prints for a file, asked by its first argument, with the
/// sections that the others name. None without an argument and with too many.
pub fn printed(arguments: &[&[u8]], file: &[u8]) -> Option<String> {
    let (asked, named) = arguments.split_first()?;
    (arguments.len() <= ARGUMENTS).then(|| match answered(asked, named, file) {
        Ok(Failures {
            number: 0,
            full,
            part,
            none,
        }) => format!("{full} {part} {none}\n"),
        Ok(refused) => format!("refused {}\n", refused.number),
        Err(refusal) => format!("refused {}\n", refusal.number()),
    })
}

/// The call's answer; or 25, or the opening's 2 to 4.
fn answered(asked: &[u8], named: &[&[u8]], file: &[u8]) -> Result<Failures, Refusal> {
    let book = looked_at(file)?;
    let number = |argument: &[u8]| section_meant(&book, argument).unwrap_or(UNKNOWN);
    let named: Vec<u8> = named.iter().map(|argument| number(argument)).collect();
    Ok(book.failures(number(asked), &named))
}

/// The book after the calls of all events but expiries. A refused call leaves it as
/// it was, and no call is made for an event that does not read.
pub fn looked_at(file: &[u8]) -> Result<Book, Refusal> {
    let (n, book) = opened(file)?;
    let mut replay = Replay::new(book);
    for next in 0..n {
        match (Reader { file, next }).read().event {
            Ok(Event::Expiry) | Err(_) => {}
            Ok(event) => {
                let _ = replay.take(&event, 0, 0);
            }
        }
    }
    Ok(replay.book)
}

/// The section that an argument means: seven bytes are a section code, all else is a
/// number. None where no such section is held.
pub fn section_meant(book: &Book, argument: &[u8]) -> Option<u8> {
    let place = match argument.try_into() {
        Ok(code) => {
            let mut sections = book.sections().iter();
            sections.position(|section| section.code == SectionCode(code))
        }
        Err(_) => base_ten(argument).filter(|&number| number < book.sections_held),
    };
    place.map(|place| place as u8)
}

/// A number of one digit or more, noughts in front among them; 128, which is never
/// held, stands for all that are greater.
fn base_ten(digits: &[u8]) -> Option<usize> {
    let add = |number: usize, digit: &u8| match digit {
        b'0'..=b'9' => Some((number * 10 + usize::from(digit - b'0')).min(SECTIONS)),
        _ => None,
    };
    let number = digits.iter().try_fold(0, add);
    number.filter(|_| !digits.is_empty())
}
