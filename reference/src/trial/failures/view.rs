//! A case as the program sees it.

use super::Case;
use super::arguments::may_lapse;
use crate::reading::answers::opened;
use crate::reading::book::{Book, Section};
use crate::reading::failures::section_meant;
use crate::reading::file::Reader;
use crate::reading::file::event::Event;
use crate::reading::file::whole::Replay;

/// What became of an event.
#[derive(Clone, Copy, Debug, PartialEq, Eq)]
pub(super) enum Step {
    Accepted,
    Refused,
    Unreadable,
    /// An expiry, which is skipped, and whether it would be accepted.
    Expiry(bool),
}

/// An argument, and the section that it means.
pub(super) struct Argument<'a> {
    pub(super) text: &'a str,
    pub(super) section: Option<u8>,
}

impl Argument<'_> {
    pub(super) fn is_code(&self) -> bool {
        self.text.len() == 7
    }

    pub(super) fn is_digits(&self) -> bool {
        !self.text.is_empty() && self.text.bytes().all(|byte| byte.is_ascii_digit())
    }

    /// A number that is not a code.
    pub(super) fn is_number(&self) -> bool {
        self.is_digits() && !self.is_code()
    }

    pub(super) fn has_noughts_in_front(&self) -> bool {
        self.is_number() && self.text.len() > 1 && self.text.starts_with('0')
    }

    /// A number of 256 or more, which goes round to one that is held.
    pub(super) fn goes_round(&self, held: usize) -> bool {
        let number = self.text.parse::<u128>().ok();
        let round = |number: u128| number > 255 && (number % 256) < held as u128;
        self.is_number() && number.is_some_and(round)
    }
}

/// What lapsed lots make of the section asked, in some pattern.
#[derive(Clone, Copy, Debug, Default)]
pub(super) struct Lapses {
    pub(super) any: bool,
    /// It would be delivered in full, or in part, if they were delivered.
    pub(super) from_full: bool,
    pub(super) from_part: bool,
}

pub(super) struct View<'a> {
    pub(super) steps: Vec<Step>,
    /// None where no book is opened.
    pub(super) book: Option<Book>,
    pub(super) arguments: Vec<Argument<'a>>,
    /// The counts, or the number of a refusal.
    pub(super) answer: Result<[u32; 3], u8>,
    pub(super) lapses: Lapses,
}

impl View<'_> {
    pub(super) fn new<'a>(case: &'a Case, row: &str) -> View<'a> {
        let (steps, book) = match opened(&case.input.bytes) {
            Ok((n, book)) => {
                let (steps, book) = walked(&case.input.bytes, n, book);
                (steps, Some(book))
            }
            Err(_) => (vec![], None),
        };
        let meant = |text: &str| section_meant(book.as_ref()?, text.as_bytes());
        let argument = |text: &'a String| Argument {
            text,
            section: meant(text),
        };
        let mut view = View {
            arguments: case.arguments.iter().map(argument).collect(),
            steps,
            book,
            answer: answer_in(row),
            lapses: Lapses::default(),
        };
        view.lapses = view.lapses();
        view
    }

    pub(super) fn is_counted(&self) -> bool {
        self.answer.is_ok()
    }

    pub(super) fn patterns(&self) -> u32 {
        self.answer.map_or(0, |counts| counts.iter().sum())
    }

    pub(super) fn named(&self) -> &[Argument<'_>] {
        &self.arguments[1..]
    }

    /// The section asked, where counts are given.
    pub(super) fn asked(&self) -> Option<&Section> {
        let asked = self.arguments[0].section.filter(|_| self.is_counted())?;
        self.book.as_ref()?.section_held(asked)
    }

    /// Counts are given, and this holds of the book and of some section named.
    pub(super) fn any_named(&self, holds: impl Fn(&Section) -> bool) -> bool {
        let held = |argument: &Argument| {
            let book = self.book.as_ref()?;
            argument
                .section
                .and_then(|section| book.section_held(section))
        };
        self.is_counted() && self.named().iter().filter_map(held).any(holds)
    }

    /// Counts are given, and this holds of the book.
    pub(super) fn book_has(&self, holds: impl Fn(&Book) -> bool) -> bool {
        self.is_counted() && self.book.as_ref().is_some_and(holds)
    }

    /// Counts are given, and the file has such an event.
    pub(super) fn any_step(&self, such: impl Fn(&Step) -> bool) -> bool {
        self.is_counted() && self.steps.iter().any(such)
    }

    /// Counts are given, and an accepted event follows an expiry that would be.
    pub(super) fn goes_on_after_expiry(&self) -> bool {
        let mut after = self.steps.iter();
        self.is_counted()
            && after.any(|step| *step == Step::Expiry(true))
            && after.any(|step| *step == Step::Accepted)
    }

    pub(super) fn asked_is_unknown(&self) -> bool {
        self.book.is_some() && self.arguments[0].section.is_none()
    }

    pub(super) fn named_is_unknown(&self) -> bool {
        self.book.is_some() && self.named().iter().any(|named| named.section.is_none())
    }

    pub(super) fn is_too_many(&self) -> bool {
        self.named().len() > 10
    }

    /// A section is named twice, by arguments with this property.
    pub(super) fn is_twice(&self, holds: impl Fn(&Argument, &Argument) -> bool) -> bool {
        let named = self.named();
        let same = |a: &Argument, b: &Argument| a.section.is_some() && a.section == b.section;
        (0..named.len()).any(|i| {
            let mut before = named[..i].iter();
            before.any(|other| same(other, &named[i]) && holds(other, &named[i]))
        })
    }

    /// An argument that means no section has this property.
    pub(super) fn any_unknown(&self, such: impl Fn(&Argument) -> bool) -> bool {
        let mut arguments = self.arguments.iter();
        self.book.is_some() && arguments.any(|a| a.section.is_none() && such(a))
    }

    pub(super) fn held(&self) -> usize {
        self.book.as_ref().map_or(0, |book| book.sections_held)
    }

    fn lapses(&self) -> Lapses {
        let (Some(book), Some(asked)) = (&self.book, self.arguments[0].section) else {
            return Lapses::default();
        };
        let asked = usize::from(asked);
        if !self.is_counted() || !may_lapse(book, asked) {
            return Lapses::default();
        }
        let named: Vec<u8> = self
            .named()
            .iter()
            .filter_map(|named| named.section)
            .collect();
        let mut lapses = Lapses::default();
        for settlement in book.settlements(&named) {
            let lapsed = settlement.lapsed[asked] > 0;
            let terminated = settlement.terminated[asked] > 0;
            let delivered = settlement.delivered[asked] > 0;
            lapses.any |= lapsed;
            lapses.from_full |= lapsed && !terminated;
            lapses.from_part |= lapsed && terminated && !delivered;
            if lapses.from_full && lapses.from_part {
                break;
            }
        }
        lapses
    }
}

/// Gives every event but an expiry to its call.
fn walked(file: &[u8], n: usize, book: Book) -> (Vec<Step>, Book) {
    let mut replay = Replay::new(book);
    let step = |next| match (Reader { file, next }).read().event {
        Err(_) => Step::Unreadable,
        Ok(event @ Event::Expiry) => Step::Expiry(event.faults(&replay.book).is_empty()),
        Ok(event) => match replay.take(&event, 0, 0) {
            Ok(()) => Step::Accepted,
            Err(_) => Step::Refused,
        },
    };
    let steps = (0..n).map(step).collect();
    (steps, replay.book)
}

/// The counts or the number in a row.
fn answer_in(row: &str) -> Result<[u32; 3], u8> {
    let number = |word: &str| word.parse().expect("a number");
    match row.strip_prefix("refused ") {
        Some(refused) => Err(number(refused.trim_end()) as u8),
        None => {
            let counts: Vec<u32> = row.split_whitespace().map(number).collect();
            Ok(counts.try_into().expect("three counts"))
        }
    }
}
