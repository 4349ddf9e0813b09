//! What an expiry removed (document 02, a), as what a file reaches is asked.

use crate::reading::book::Book;
use crate::reading::expiry::{Line, Settlement};
use std::collections::BTreeMap;

/// The lines that an expiry formed and the lots of the sections.
#[derive(Clone, Debug)]
pub struct Removal {
    pub lines: Vec<Formed>,
    pub sections: Vec<Lots>,
}

/// A line formed, with the participants of its buyer and its seller.
#[derive(Clone, Copy, Debug)]
pub struct Formed {
    pub line: Line,
    pub inside: bool,
    pub participants: [u32; 2],
}

impl Formed {
    pub fn is_removed(&self) -> bool {
        self.participants[0] == self.participants[1]
    }

    pub fn is_kept(&self) -> bool {
        !self.is_removed()
    }

    fn names(&self, section: usize) -> bool {
        [self.line.buyer, self.line.seller].contains(&section)
    }
}

/// What becomes of a section's lots.
#[derive(Clone, Copy, Debug)]
pub struct Lots {
    pub long: bool,
    pub delivered: u32,
    pub terminated: u32,
    pub lapsed: u32,
}

impl Lots {
    /// Which of its delivered, terminated and lapsed lots are above 0.
    pub fn kinds(&self) -> [bool; 3] {
        [self.delivered, self.terminated, self.lapsed].map(|lots| lots > 0)
    }

    pub fn lapsed_alone(&self) -> bool {
        self.kinds() == [false, false, true]
    }
}

impl Removal {
    pub fn new(book: &Book, settlement: &Settlement) -> Removal {
        let participant = |section: usize| book.sections[section].participant;
        let passes = settlement.passes.iter();
        let lines = passes.flat_map(|pass| pass.lines.iter().map(move |line| (pass, *line)));
        let formed = lines.map(|(pass, line)| Formed {
            line,
            inside: pass.code.is_some(),
            participants: [line.buyer, line.seller].map(participant),
        });
        let lots = (0..book.sections_held).map(|i| Lots {
            long: book.sections[i].position > 0,
            delivered: settlement.delivered[i],
            terminated: settlement.terminated[i],
            lapsed: settlement.lapsed[i],
        });
        Removal {
            lines: formed.collect(),
            sections: lots.collect(),
        }
    }

    pub fn any(&self, holds: impl Fn(&Formed) -> bool) -> bool {
        self.lines.iter().any(holds)
    }

    /// A removed line with this property.
    pub fn any_removed(&self, holds: impl Fn(&Formed) -> bool) -> bool {
        self.any(|line| line.is_removed() && holds(line))
    }

    pub fn removed(&self) -> usize {
        self.lines.iter().filter(|line| line.is_removed()).count()
    }

    pub fn kept(&self) -> usize {
        self.lines.len() - self.removed()
    }

    /// The first line formed, while others are kept.
    pub fn first(&self) -> bool {
        self.kept() > 0 && self.lines[0].is_removed()
    }

    /// The last line formed, while others are kept.
    pub fn last(&self) -> bool {
        self.kept() > 0 && self.lines.last().is_some_and(Formed::is_removed)
    }

    /// The lines from the first that is kept to the last that is.
    fn middle(&self) -> &[Formed] {
        let first = self.lines.iter().position(Formed::is_kept).unwrap_or(0);
        let last = self.lines.iter().rposition(Formed::is_kept).unwrap_or(0);
        self.lines.get(first..=last).unwrap_or(&[])
    }

    /// A line between two that are kept.
    pub fn between(&self) -> bool {
        self.kept() > 1 && self.middle().iter().any(Formed::is_removed)
    }

    /// Two lines or more that follow one another, between two that are kept.
    pub fn between_in_a_row(&self) -> bool {
        let mut two = self.middle().windows(2);
        self.kept() > 1 && two.any(|two| two.iter().all(Formed::is_removed))
    }

    /// All lines, of which there are two or more.
    pub fn all(&self) -> bool {
        self.lines.len() > 1 && self.kept() == 0
    }

    pub fn any_section(&self, holds: impl Fn(&Lots) -> bool) -> bool {
        self.sections.iter().any(holds)
    }

    /// The removed lines that name a section, for any section.
    pub fn any_sum(&self, holds: impl Fn(&[&Formed]) -> bool) -> bool {
        (0..self.sections.len()).any(|section| {
            let names = |line: &&Formed| line.is_removed() && line.names(section);
            holds(&self.lines.iter().filter(names).collect::<Vec<_>>())
        })
    }

    /// For each notice drawn the lots of its kept lines and of its removed ones.
    pub fn notices(&self) -> Vec<[i64; 2]> {
        let mut notices: BTreeMap<(usize, u8), [i64; 2]> = BTreeMap::new();
        for formed in &self.lines {
            let Line {
                seller, elevator, ..
            } = formed.line;
            let lots = notices.entry((seller, elevator)).or_default();
            lots[usize::from(formed.is_removed())] += formed.line.lots;
        }
        notices.into_values().collect()
    }

    /// Long sections of such lots.
    fn long(&self, like: impl Fn(&Lots) -> bool) -> usize {
        let long = self.sections.iter().filter(|lots| lots.long);
        long.filter(|lots| like(lots)).count()
    }

    /// Whether the lines formed pass demand 3's limit where it does not take in
    /// the long sections with lapsed lots alone, or the notices that removed lines
    /// alone drew.
    pub fn passes_limit(&self, without_sections: bool, without_notices: bool) -> bool {
        let long = self.long(|l| l.delivered > 0 || !without_sections && l.lapsed > 0);
        let notices = self.notices();
        let drawn = notices
            .iter()
            .filter(|[kept, _]| *kept > 0 || !without_notices);
        !self.lines.is_empty() && self.lines.len() + 1 > long + drawn.count()
    }
}
