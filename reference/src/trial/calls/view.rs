//! A file as its calls see it.

use crate::reading::answers::opened;
use crate::reading::book::{Book, SECTIONS};
use crate::reading::expiry::settle;
use crate::reading::file::event::Event;
use crate::reading::file::{Reader, SIZES};
use crate::reading::listing::Lists;
use crate::reading::refusal::Refusal;
use crate::trial::removal::Removal;

/// An event and what was answered to it.
pub(super) struct Step {
    pub(super) kind: u8,
    /// None where it does not read.
    pub(super) event: Option<Event>,
    /// 0 where it was accepted.
    pub(super) number: u8,
    /// The sections held then.
    pub(super) held: usize,
    /// Of a trade: what the book before its run would answer.
    pub(super) before_run: u8,
    /// Of an accepted session.
    pub(super) margins: Vec<i64>,
    /// Of an accepted expiry.
    pub(super) removal: Option<Removal>,
}

impl Step {
    pub(super) fn is_trade(&self) -> bool {
        matches!(self.event, Some(Event::Trade { .. }))
    }

    pub(super) fn is_session(&self) -> bool {
        matches!(self.event, Some(Event::Session { .. }))
    }

    pub(super) fn is_expiry(&self) -> bool {
        matches!(self.event, Some(Event::Expiry))
    }

    pub(super) fn is_accepted(&self) -> bool {
        self.number == 0
    }
}

/// A file: the number that turns it away, or its steps.
pub(super) struct View {
    pub(super) bytes: usize,
    pub(super) away: Option<u8>,
    pub(super) steps: Vec<Step>,
}

impl View {
    pub(super) fn new(file: &[u8]) -> View {
        let (away, steps) = match opened(file) {
            Ok((n, book)) => (None, steps(file, n, book)),
            Err(refusal) => (Some(refusal.number()), vec![]),
        };
        View {
            bytes: file.len(),
            away,
            steps,
        }
    }

    /// The trades that follow one another stand together, all else alone.
    pub(super) fn parts(&self) -> impl Iterator<Item = &[Step]> {
        self.steps.chunk_by(|a, b| a.is_trade() && b.is_trade())
    }

    pub(super) fn any_run(&self, holds: impl Fn(&[Step]) -> bool) -> bool {
        self.parts().any(|part| part[0].is_trade() && holds(part))
    }

    /// Two runs parted by one step alone, with these properties.
    pub(super) fn parted(&self, holds: impl Fn(&[Step], &Step, &[Step]) -> bool) -> bool {
        let parts: Vec<&[Step]> = self.parts().collect();
        let runs = |a: &[Step], b: &[Step]| a[0].is_trade() && b[0].is_trade();
        let mut three = parts.windows(3);
        three.any(|three| runs(three[0], three[2]) && holds(three[0], &three[1][0], three[2]))
    }

    pub(super) fn any(&self, holds: impl Fn(&Step) -> bool) -> bool {
        self.steps.iter().any(holds)
    }

    /// An accepted session with this property.
    pub(super) fn any_session(&self, holds: impl Fn(&Step) -> bool) -> bool {
        self.any(|step| step.is_session() && step.is_accepted() && holds(step))
    }

    /// The accepted expiry, where there is one.
    pub(super) fn expiry(&self) -> Option<&Step> {
        let mut steps = self.steps.iter();
        steps.find(|step| step.is_expiry() && step.is_accepted())
    }

    /// An accepted expiry with this property of its lines.
    pub(super) fn removal(&self, holds: impl Fn(&Removal) -> bool) -> bool {
        let removal = self.expiry().and_then(|step| step.removal.as_ref());
        removal.is_some_and(holds)
    }

    /// What stands before the accepted expiry; all, where there is none.
    pub(super) fn before_expiry(&self) -> &[Step] {
        let ends = |step: &Step| step.is_expiry() && step.is_accepted();
        self.steps.split(ends).next().unwrap_or(&[])
    }

    /// What stands after the accepted expiry.
    pub(super) fn after_expiry(&self) -> &[Step] {
        let place = self.before_expiry().len() + 1;
        self.steps.get(place..).unwrap_or(&[])
    }
}

/// Gives every event to its call.
fn steps(file: &[u8], n: usize, mut book: Book) -> Vec<Step> {
    let mut steps: Vec<Step> = Vec::new();
    let mut before_run = book.clone();
    let mut lists = Lists::full();
    for next in 0..n {
        if !steps.last().is_some_and(Step::is_trade) {
            before_run.clone_from(&book);
        }
        let event = (Reader { file, next }).read().event;
        let mut margins = [0; SECTIONS];
        let lent = lists.lend().expiry;
        let answer = event.and_then(|event| event.call(&mut book, &mut margins, lent));
        let before = event.map(|event| event.faults(&before_run));
        let first = |faults: Vec<Refusal>| faults.first().map_or(0, |first| first.number());
        let mut step = Step {
            kind: file[SIZES + next],
            event: event.ok(),
            number: answer.map_or_else(Refusal::number, |_| 0),
            held: book.sections_held,
            before_run: before.map_or(0, first),
            margins: vec![],
            removal: None,
        };
        if step.is_session() && step.is_accepted() {
            step.margins = margins[..step.held].to_vec();
        }
        if step.is_expiry() && step.is_accepted() {
            step.removal = Some(Removal::new(&book, &settle(&book)));
        }
        steps.push(step);
    }
    steps
}
