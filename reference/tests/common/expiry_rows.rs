//! What is printed of an expiry, and slips in what was removed (document 02, a).

use std::fmt::Write;
use wheat_delivery::reading::answers::{Caller, opened, printed};
use wheat_delivery::reading::book::{Book, SECTIONS, Section};
use wheat_delivery::reading::calls::REGISTER;
use wheat_delivery::reading::expiry::{Line, Settlement, settle};
use wheat_delivery::reading::file::Reader;
use wheat_delivery::reading::file::event::Event;
use wheat_delivery::reading::file::whole::run;
use wheat_delivery::reading::listing::listing;

/// The rows of an expiry before they are printed.
pub struct Rows {
    book: Book,
    settlement: Settlement,
    /// The lines formed, each with whether its pass is an inside one.
    formed: Vec<(Line, bool)>,
    /// The lines, and how many of them the first row counts.
    lines: Vec<Line>,
    count: usize,
    /// Delivered, terminated and lapsed.
    lots: Vec<[u32; 3]>,
}

/// A slip in the rows.
pub type Slip = fn(&mut Rows);

impl Rows {
    fn new(book: Book, settlement: Settlement) -> Rows {
        let passes = settlement.passes.iter();
        let of_pass = passes.flat_map(|pass| {
            let inside = pass.code.is_some();
            pass.lines.iter().map(move |line| (*line, inside))
        });
        let lots = |i: usize| {
            let lists = [
                &settlement.delivered,
                &settlement.terminated,
                &settlement.lapsed,
            ];
            lists.map(|list| list[i])
        };
        Rows {
            formed: of_pass.collect(),
            lines: settlement.register.clone(),
            count: settlement.register.len(),
            lots: (0..book.sections_held).map(lots).collect(),
            book,
            settlement,
        }
    }

    fn sections(&self, line: &Line) -> [&Section; 2] {
        [line.buyer, line.seller].map(|section| &self.book.sections[section])
    }

    fn formed(&self) -> Vec<Line> {
        self.formed.iter().map(|(line, _)| *line).collect()
    }

    fn is_removed(&self, line: &Line) -> bool {
        let [buyer, seller] = self.sections(line);
        buyer.participant == seller.participant
    }

    /// Removes the lines of such a buyer, a seller and a pass, and no other.
    fn remove(&mut self, such: impl Fn(&Section, &Section, bool) -> bool) {
        let removed = |(line, inside): &(Line, bool)| {
            let [buyer, seller] = self.sections(line);
            such(buyer, seller, *inside)
        };
        let lines = self.formed.iter();
        let (removed, kept): (Vec<(Line, bool)>, _) = lines.partition(|line| removed(line));
        self.lines = kept.into_iter().map(|(line, _)| line).collect();
        self.count = self.lines.len();
        let mut lapsed = vec![0; self.lots.len()];
        for (line, _) in removed {
            lapsed[line.buyer] += line.lots as u32;
            lapsed[line.seller] += line.lots as u32;
        }
        for (lots, lapsed) in self.lots.iter_mut().zip(lapsed) {
            *lots = [lots[0] + lots[2] - lapsed, lots[1], lapsed];
        }
    }

    /// Lapsed lots of such sections stay delivered.
    fn stay_delivered(&mut self, such: impl Fn(&Section) -> bool) {
        for (lots, section) in self.lots.iter_mut().zip(self.book.sections()) {
            if such(section) {
                *lots = [lots[0] + lots[2], lots[1], 0];
            }
        }
    }

    fn register(&self) -> String {
        let mut text = format!("register {}\n", self.count);
        for line in &self.lines {
            let [buyer, seller] = self.sections(line).map(|section| section.code);
            let (elevator, lots) = (line.elevator, line.lots);
            let tonnes = lots * i64::from(self.book.lot);
            writeln!(text, "{buyer} {elevator} {seller} {lots} {tonnes}").unwrap();
        }
        text
    }

    /// The rows of the sections, each with an end of its own.
    fn with_sections(&self, end: impl Fn(usize) -> String) -> String {
        let mut text = self.register();
        for (i, [delivered, terminated, lapsed]) in self.lots.iter().enumerate() {
            let (code, end) = (self.book.sections[i].code, end(i));
            writeln!(text, "{code} {delivered} {terminated} {lapsed}{end}").unwrap();
        }
        text
    }
}

/// What a program with a slip lists of a file.
pub fn listed(file: &[u8], slip: Slip) -> String {
    let Ok(accepted) = run(file, REGISTER, SECTIONS) else {
        return listing(file);
    };
    let mut rows = Rows::new(accepted.book, accepted.settlement);
    slip(&mut rows);
    rows.with_sections(|i| format!(" {}", accepted.margin_sums[i]))
}

/// What a program with a slip answers to the calls of a file.
pub fn answered(file: &[u8], slip: Slip) -> String {
    let Ok((n, book)) = opened(file) else {
        return printed(file);
    };
    let mut caller = Caller::new(book);
    let mut text = String::new();
    for next in 0..n {
        let event = (Reader { file, next }).read().event;
        let answer = event.and_then(|event| caller.call(&event));
        let ended = event == Ok(Event::Expiry) && answer.is_ok();
        text += &match answer {
            Ok(_) if ended => format!("{next} 0\n{}", expiry(&caller.book, slip)),
            Ok(rows) => format!("{next} 0\n{rows}"),
            Err(refusal) => format!("{next} {}\n", refusal.number()),
        };
    }
    text
}

fn expiry(book: &Book, slip: Slip) -> String {
    let mut rows = Rows::new(book.clone(), settle(book));
    let (pairs, formed) = (rows.settlement.pairs(), rows.formed.len());
    slip(&mut rows);
    let kept = rows.count;
    let rows = rows.with_sections(|_| String::new());
    format!("expiry {pairs} {formed} {kept}\n{rows}")
}

pub const RIGHT: Slip = |_| {};

/// Slips that some file must show.
pub const SLIPS: [(&str, Slip); 20] = [
    ("nothing is removed", |rows| rows.remove(|_, _, _| false)),
    ("removed lots stay delivered and lapse too", |rows| {
        rows.lots.iter_mut().for_each(|lots| lots[0] += lots[2]);
    }),
    ("removed lots stay delivered", |rows| {
        rows.stay_delivered(|_| true)
    }),
    ("lots lapse on the buyer's side alone", |rows| {
        rows.stay_delivered(|section| section.position < 0)
    }),
    ("lots lapse on the seller's side alone", |rows| {
        rows.stay_delivered(|section| section.position > 0)
    }),
    ("removed lots are terminated", |rows| {
        for lots in &mut rows.lots {
            *lots = [lots[0], lots[1] + lots[2], 0];
        }
    }),
    ("terminated lots lapse", |rows| {
        for lots in &mut rows.lots {
            *lots = [lots[0], 0, lots[1] + lots[2]];
        }
    }),
    ("a section's last removed line counts alone", |rows| {
        let mut removed = rows.formed();
        removed.retain(|line| rows.is_removed(line));
        for line in removed {
            rows.lots[line.buyer][2] = line.lots as u32;
            rows.lots[line.seller][2] = line.lots as u32;
        }
    }),
    ("lapsed comes before terminated", |rows| {
        rows.lots.iter_mut().for_each(|lots| lots.swap(1, 2));
    }),
    ("the first row counts the lines formed", |rows| {
        rows.count = rows.formed.len();
    }),
    ("the later lines do not move up", |rows| {
        let gap = Line {
            buyer: 0,
            elevator: 0,
            seller: 0,
            lots: 0,
        };
        let mut places = rows.formed();
        for place in &mut places {
            *place = if rows.is_removed(place) { gap } else { *place };
        }
        places.truncate(rows.count);
        rows.lines = places;
    }),
    ("the first lines formed are the register", |rows| {
        rows.lines = rows.formed();
        rows.lines.truncate(rows.count);
    }),
    ("the last line takes the place of a removed one", |rows| {
        let mut lines = rows.formed();
        while let Some(place) = lines.iter().position(|line| rows.is_removed(line)) {
            lines.swap_remove(place);
        }
        rows.lines = lines;
    }),
    ("inside lines alone are removed", |rows| {
        rows.remove(|buyer, seller, inside| inside && buyer.participant == seller.participant);
    }),
    ("outside lines alone are removed", |rows| {
        rows.remove(|buyer, seller, inside| !inside && buyer.participant == seller.participant);
    }),
    ("participant 0 is nobody", |rows| {
        rows.remove(|buyer, seller, _| {
            buyer.participant == seller.participant && buyer.participant != 0
        });
    }),
    ("the settlement codes are compared", |rows| {
        rows.remove(|buyer, seller, _| buyer.settlement_code == seller.settlement_code);
    }),
    ("the first byte of the participants is compared", |rows| {
        rows.remove(|buyer, seller, _| buyer.participant as u8 == seller.participant as u8);
    }),
    ("two bytes of the participants are compared", |rows| {
        rows.remove(|buyer, seller, _| buyer.participant as u16 == seller.participant as u16);
    }),
    ("31 bits of the participants are compared", |rows| {
        rows.remove(|buyer, seller, _| buyer.participant << 1 == seller.participant << 1);
    }),
];
