//! The file's sizes and the contract that they open (01, "Event file", "Value of
//! a price", "Opening").

use super::{Page, Refused};
use crate::reading::book::Book;
use crate::reading::calls::open;
use crate::reading::file::{EVENTS, SIZES, contract_in, events_in, length};
use crate::reading::refusal::Refusal;

/// The number of events, or why the file is misshapen: "25 length under 16, n
/// above 3,800, or length not 16 + 17n".
pub(super) fn events(page: &mut Page, file: &[u8]) -> Result<usize, Refused> {
    events_in(file).map_err(|refusal| {
        page.row(format!("refusal 25: {}", misshapen(file)));
        (refusal, 0)
    })
}

fn misshapen(file: &[u8]) -> String {
    let held = file.len();
    if held < SIZES {
        return format!("the file has {held} bytes, and its sizes alone have {SIZES}");
    }
    let n = u32::from_le_bytes(file[..4].try_into().expect("four bytes")) as usize;
    let (said, most) = (length(n), length(EVENTS));
    if n > EVENTS {
        format!("{n} events are above {EVENTS}")
    } else if held > most {
        format!("{n} events have {said} bytes, and the file has more than {most}")
    } else {
        format!("{n} events have {said} bytes, and the file has {held}")
    }
}

/// Lot, W, R and the factor K, and the book that they open.
pub(super) fn opened(page: &mut Page, file: &[u8]) -> Result<Book, Refused> {
    let (lot, w, r) = contract_in(file);
    let n = u32::from_le_bytes(file[..4].try_into().expect("four bytes"));
    page.rows(
        "
THE CONTRACT (01, Value of a price; 001, 2.1.3; 02, c)
K and V are rounded: below half the divisor the quotient stands, at half or above it is one more.",
    );
    page.row(format!(
        "events {n}, lot {lot} tonnes, W (value of the price step) {w}, \
         R (price step) {r}; K = 100000*W/R"
    ));
    let k = factor(page, w, r);
    let (answer, book) = open(lot, w, r);
    let Err(refusal) = answer else {
        return Ok(book);
    };
    page.row(match refusal {
        Refusal::LotSize => format!("refusal 2: lot {lot} is outside 1 to 1000 tonnes"),
        Refusal::StepOrItsValue => {
            format!("refusal 3: W {w} or R {r} is outside 1 to 1000000")
        }
        _ => format!("refusal 4: K {k} is outside 1 to 10000000"),
    });
    Err((refusal, 0))
}

/// The factor K; with an R of 0 there is none.
fn factor(page: &mut Page, w: u32, r: u32) -> u64 {
    if r == 0 {
        page.row("    R is 0, and there is no K".to_string());
        return 0;
    }
    division(page, 100_000, w.into(), r.into())
}

/// A number divided and rounded (02, c): "quotient and remainder, and then three
/// cases: remainder below half the divisor, at half, above half"; "the first gives
/// the quotient, the other two one more".
pub fn rounded(number: u64, divisor: u64) -> (u64, u64, &'static str, u64) {
    let (quotient, remainder) = (number / divisor, number % divisor);
    let (case, up) = match (2 * remainder).cmp(&divisor) {
        std::cmp::Ordering::Less => ("below half", 0),
        std::cmp::Ordering::Equal => ("at half, so up", 1),
        std::cmp::Ordering::Greater => ("above half, so up", 1),
    };
    (quotient, remainder, case, quotient + up)
}

/// The row of a product divided and rounded; returns what it comes to.
pub(super) fn division(page: &mut Page, first: u64, second: u64, divisor: u64) -> u64 {
    let (quotient, remainder, case, result) = rounded(first * second, divisor);
    page.row(format!(
        "    {first}*{second}/{divisor}: quotient {quotient}, remainder {remainder}, {case}: {result}"
    ));
    result
}
