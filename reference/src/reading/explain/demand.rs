//! Demand 3 with the numbers of an accepted file (00, 3; 02, a).

use super::Page;
use super::contract::rounded;
use super::events::History;
use crate::reading::book::{Book, Notice};
use crate::reading::expiry::Line;

/// Every sentence of the demand, and what it says of this file.
pub(super) fn told(page: &mut Page, history: &History) {
    page.rows("\nDEMAND 3, WITH THE NUMBERS OF THIS CONTRACT (00, 3; 02, a)");
    page.row("The margins of each accepted session sum to zero.");
    let (sessions, even) = (history.sessions, history.even_sessions);
    page.row(format!(
        "    sessions accepted: {sessions}; of these with margins that sum to 0: {even}"
    ));
    lots(page, history);
    notices(page, history);
    lines(page, history);
    margins(page, history);
}

/// Delivered, terminated and lapsed lots, and those in the register.
fn lots(page: &mut Page, history: &History) {
    page.rows(
        "\
Each section's delivered, terminated and lapsed lots sum to the size of its lots bought less
sold, and its lots in the register equal its delivered lots.",
    );
    let settlement = history.settlement();
    for (i, section) in history.book().sections().iter().enumerate() {
        let (code, traded) = (section.code, history.traded[i]);
        let (bought, sold) = (traded.bought, traded.sold);
        page.row(format!(
            "    {code} bought {bought}, sold {sold}: position {}",
            bought - sold
        ));
        let (delivered, terminated) = (settlement.delivered[i], settlement.terminated[i]);
        let lapsed = settlement.lapsed[i];
        let sum = delivered + terminated + lapsed;
        let kept = settlement.register.iter();
        let kept = kept.filter(|line| [line.buyer, line.seller].contains(&i));
        let kept: i64 = kept.map(|line| line.lots).sum();
        page.row(format!(
            "        {delivered} delivered + {terminated} terminated + {lapsed} lapsed = {sum}; \
             {kept} in the register"
        ));
    }
}

/// "A notice's drawn lots are those of the lines formed with its section as seller
/// at its elevator".
fn drawn(history: &History, notice: &Notice) -> i64 {
    let of_notice = |line: &&Line| {
        (line.seller, line.elevator) == (usize::from(notice.section), notice.elevator)
    };
    let lines = history.settlement().lines().filter(of_notice);
    lines.map(|line| line.lots).sum()
}

fn notices(page: &mut Page, history: &History) {
    page.row("No notice is drawn beyond its lots; lines taken out count too.");
    let book = history.book();
    for (i, notice) in book.notices().iter().enumerate() {
        let code = book.sections[usize::from(notice.section)].code;
        let (elevator, drawn) = (notice.elevator, drawn(history, notice));
        page.row(format!(
            "    notice {i} of {code} at elevator {elevator}: {drawn} drawn of {} lots",
            notice.lots
        ));
    }
}

/// The line limit "takes in the notices of removed lines and long sections with
/// lapsed lots" (02, a).
fn lines(page: &mut Page, history: &History) {
    page.rows(
        "\
The lines formed are at most the long sections with delivered or lapsed lots and the drawn
notices together, less one.",
    );
    let (book, settlement) = (history.book(), history.settlement());
    let formed = settlement.lines().count();
    if formed == 0 {
        page.row("    lines formed: 0");
        return;
    }
    let has_lots = |i: usize| settlement.delivered[i] + settlement.lapsed[i] > 0;
    let traded = |i: usize| history.traded[i].bought - history.traded[i].sold;
    let long = |i: &usize| traded(*i) > 0 && has_lots(*i);
    let long = (0..book.sections_held).filter(long).count();
    let notices = book.notices().iter();
    let notices = notices.filter(|notice| drawn(history, notice) > 0).count();
    let most = long + notices - 1;
    page.row(format!(
        "    lines formed: {formed}; such long sections {long} + drawn notices {notices} - 1 = {most}"
    ));
}

/// V of the last session's price.
fn last_value(book: &Book) -> i64 {
    let (.., k) = rounded(100_000 * u64::from(book.w), book.r.into());
    let (.., value) = rounded(u64::from(book.last_price) * k, 100_000);
    value as i64
}

/// Each section's margins, once by the trades and once by the sessions.
fn margins(page: &mut Page, history: &History) {
    page.rows(
        "\
Each section's margins sum to its net lots times the last session's value, less lots times
entry value, bought plus, sold minus. The number after less sums its bought and sold of the trades.",
    );
    let value = last_value(history.book());
    for (i, section) in history.book().sections().iter().enumerate() {
        let (code, traded) = (section.code, history.traded[i]);
        let (net, entered) = (traded.bought - traded.sold, traded.entered);
        let worth = net * value - entered;
        let sum = history.margins(i);
        page.row(format!(
            "    {code}: {net} * {value} less {entered} is {worth}; its margins sum to {sum}"
        ));
    }
}
