//! Explanations worked by hand, the checks of what they say, and wrong ones that the
//! checks find.

use wheat_delivery::reading::explain::{COLUMNS, explain, rounded};
use wheat_delivery::reading::file::event::Event;
use wheat_delivery::reading::file::write;
use wheat_delivery::reading::listing::listing;
use wheat_delivery::reading::value::{factor, value};
use wheat_delivery::trial::examples::{examples, shared};
use wheat_delivery::trial::explain::checks::{fault, first_difference};
use wheat_delivery::trial::explain::inputs;
use wheat_delivery::trial::explain::reach::Reach;
use wheat_delivery::trial::hand::{notice, section, session, trade, worked};
use wheat_delivery::trial::random::Random;

fn text_of(file: &[u8]) -> String {
    String::from_utf8(explain(file)).unwrap()
}

/// The explanation of one of the files that are always given.
fn named(name: &str) -> String {
    let input = inputs(&[]).find(|input| input.name == name);
    text_of(&input.unwrap().bytes)
}

fn assert_holds(text: &str, rows: &str) {
    let difference = first_difference(rows.as_bytes(), text.as_bytes());
    assert!(text.contains(rows), "{text}\n{difference:?}");
}

/// Document 01's worked example, every row held against that document by hand.
const WORKED: &str = "\
EXPLANATION OF ONE WHEAT CONTRACT, FROM ITS EVENT FILE
Papers: 00 the demands, 01 the scope, 02 the change requests, 000 the method, 001 the specification.
Of 02, requests a and c bear on a contract. Amounts are kopecks, prices kopecks for a tonne.
A position is lots bought less sold; 'code' alone is a settlement code.

THE CONTRACT (01, Value of a price; 001, 2.1.3; 02, c)
K and V are rounded: below half the divisor the quotient stands, at half or above it is one more.
events 15, lot 25 tonnes, W (value of the price step) 2500, R (price step) 100; K = 100000*W/R
    100000*2500/100: quotient 2500000, remainder 0, below half: 2500000

THE EVENTS, NUMBERED FROM 0 (01, The book)
A basis is lots times V, bought plus, sold minus, since the last session, on top of position*V then.
A margin is position*V - basis, which is what 001, 2.1.3 comes to, VM2 = VM - VM1 included.
Every condition starts as not met.
0 section: A000001 has number 0, settlement code 1, participant 1, no seller mark
1 section: A000002 has number 1, settlement code 1, participant 2, seller mark
2 section: B000001 has number 2, settlement code 2, participant 3, seller mark
3 section: C000001 has number 3, settlement code 3, participant 4, no seller mark
4 trade: A000001 buys 2 lots from A000002 at price P 1500000; V = P*K/100000
    1500000*2500000/100000: quotient 37500000, remainder 0, below half: 37500000
    A000001: 2*37500000 = 75000000 bought, position 2, basis 75000000
    A000002: 2*37500000 = 75000000 sold, position -2, basis -75000000
5 trade: A000001 buys 3 lots from B000001 at price P 1500000; V = P*K/100000
    1500000*2500000/100000: quotient 37500000, remainder 0, below half: 37500000
    A000001: 3*37500000 = 112500000 bought, position 5, basis 187500000
    B000001: 3*37500000 = 112500000 sold, position -3, basis -112500000
6 trade: C000001 buys 3 lots from B000001 at price P 1510000; V = P*K/100000
    1510000*2500000/100000: quotient 37750000, remainder 0, below half: 37750000
    C000001: 3*37750000 = 113250000 bought, position 3, basis 113250000
    B000001: 3*37750000 = 113250000 sold, position -6, basis -225750000
7 session: day, price P 1520000; V = P*K/100000
    1520000*2500000/100000: quotient 38000000, remainder 0, below half: 38000000
    section, position, basis, margin = position*V - basis, session sum so far, section sum so far
    A000001 5 187500000 2500000 2500000 2500000
    A000002 -2 -75000000 -1000000 1500000 -1000000
    B000001 -6 -225750000 -2250000 -750000 -2250000
    C000001 3 113250000 750000 0 750000
    the margins of this session sum to 0; each basis becomes position*38000000
8 condition: A000001 meets its condition
9 condition: A000002 meets its condition
10 condition: B000001 meets its condition
11 notice: A000002 files 2 lots at elevator 0, notice 0 in filing order
12 notice: B000001 files 2 lots at elevator 4, notice 1 in filing order
13 notice: B000001 files 4 lots at elevator 1, notice 2 in filing order
14 expiry

THE EXPIRY, STEP BY STEP

Step 1. Which sections fail (000, 2.1; 01, Expiry, step 1)
A000001 code 1, position 5, lots in notices 0, condition met, no seller mark
    sound
A000002 code 1, position -2, lots in notices 2, condition met, seller mark
    sound
B000001 code 2, position -6, lots in notices 6, condition met, seller mark
    sound
C000001 code 3, position 3, lots in notices 0, condition not met, no seller mark
    fails: its condition is not met
    its 3 lots are terminated

Step 2. Each settlement code closes what fails in it (000, 2.2; 01, Expiry, step 2)
D(c) is the sum of the failing positions of code c. Sound sections on the other side give, smallest
first, then lower section code. Codes where no lots fail are not shown.
code 3, what fails
    C000001 has 3
    D(3) = 3
    left of D(3): 3

Step 3. What is left is closed over all codes together (000, 2.3; 01, Expiry, step 3)
D is what is left of all D(c), with sign. Codes whose sound net after step 2 is opposite to D give,
each at most its net: their sections on the side of that net, over all such codes together,
smallest first, then lower section code. Codes with no sound lots left are not shown.
D = 3
code 1, sound lots left
    A000001 has 5
    A000002 has -2
    the sound net is 3, not opposite to D: it gives nothing
code 2, sound lots left
    B000001 has -6
    the sound net is -6, opposite to D: it may give 6
who gives
    B000001 of code 2 has 6 lots and gives 3; 0 left of D, 3 of the net of code 2
left of D: 0

Step 4. What goes outside, and what stays inside (000, 2.4; 01, Expiry, step 4)
Sections on the side of their code's net are marked outside, largest first, then lower section
code, until the net is reached; the last one is split there (ours). The rest is inside.
code 1 has the net 3
    A000001 has 5 lots: 3 outside, 2 inside; 0 left of the net
    A000001 is split here, where the net is reached
    A000002 has 2 lots: all inside
code 2 has the net -3
    B000001 has 3 lots: 3 outside, 0 inside; 0 left of the net

Step 5. What is drawn of the notices (000 is silent, ours; 01, Expiry, step 5)
A short section's notices are drawn in filing order: its inside lots, then its outside lots; the
terminated come off the end.
notice 0: A000002 at elevator 0, 2 lots: 2 inside, 0 outside, 0 terminated
notice 1: B000001 at elevator 4, 2 lots: 0 inside, 2 outside, 0 terminated
notice 2: B000001 at elevator 1, 4 lots: 0 inside, 1 outside, 3 terminated

Step 6. Pairs and lines, inside by code number, then outside (000, 2.5; 01, Expiry, step 6)
Buyers have their lots of step 4, elevators the sums of what step 5 draws at them. Most lots first.
Ties (000 is silent, ours): lower buyer section code, lower elevator, lower seller section code.
A tie row stands above the pair or line that it decides. Codes with nothing inside have no pass.
Inside pass of code 1
  buyer A000001 has 2 lots
  elevator 0 has 2 lots
  stage one: the fullest buyer and the fullest elevator form a pair
  pair 1: A000001 with 2 and elevator 0 with 2: 2 lots; left 0 and 0
  stage two: the fullest pair and the fullest notice at its elevator form a line
  line 1: A000001 at elevator 0 with 2, notice 0 of A000002 with 2: 2 lots; left 0 and 0
Outside pass
  buyer A000001 has 3 lots
  elevator 1 has 1 lots
  elevator 4 has 2 lots
  stage one: the fullest buyer and the fullest elevator form a pair
  pair 2: A000001 with 3 and elevator 4 with 2: 2 lots; left 1 and 0
  pair 3: A000001 with 1 and elevator 1 with 1: 1 lots; left 0 and 0
  stage two: the fullest pair and the fullest notice at its elevator form a line
  line 2: A000001 at elevator 4 with 2, notice 1 of B000001 with 2: 2 lots; left 0 and 0
  line 3: A000001 at elevator 1 with 1, notice 2 of B000001 with 1: 1 lots; left 0 and 0
pairs formed: 3; lines formed: 3; lines kept: 3

THE REGISTER AND THE SECTIONS, AS THE LISTING HAS THEM (01, Event file; 02, a)
Lines kept: buyer, elevator, seller, lots, tonnes.
Sections: section code, delivered, terminated, lapsed, sum of its margins.
register 3
A000001 0 A000002 2 50
A000001 4 B000001 2 50
A000001 1 B000001 1 25
A000001 5 0 0 2500000
A000002 2 0 0 -1000000
B000001 3 3 0 -2250000
C000001 0 3 0 750000

DEMAND 3, WITH THE NUMBERS OF THIS CONTRACT (00, 3; 02, a)
The margins of each accepted session sum to zero.
    sessions accepted: 1; of these with margins that sum to 0: 1
Each section's delivered, terminated and lapsed lots sum to the size of its lots bought less
sold, and its lots in the register equal its delivered lots.
    A000001 bought 5, sold 0: position 5
        5 delivered + 0 terminated + 0 lapsed = 5; 5 in the register
    A000002 bought 0, sold 2: position -2
        2 delivered + 0 terminated + 0 lapsed = 2; 2 in the register
    B000001 bought 0, sold 6: position -6
        3 delivered + 3 terminated + 0 lapsed = 6; 3 in the register
    C000001 bought 3, sold 0: position 3
        0 delivered + 3 terminated + 0 lapsed = 3; 0 in the register
No notice is drawn beyond its lots; lines taken out count too.
    notice 0 of A000002 at elevator 0: 2 drawn of 2 lots
    notice 1 of B000001 at elevator 4: 2 drawn of 2 lots
    notice 2 of B000001 at elevator 1: 1 drawn of 4 lots
The lines formed are at most the long sections with delivered or lapsed lots and the drawn
notices together, less one.
    lines formed: 3; such long sections 1 + drawn notices 3 - 1 = 3
Each section's margins sum to its net lots times the last session's value, less lots times
entry value, bought plus, sold minus. The number after less sums its bought and sold of the trades.
    A000001: 5 * 38000000 less 187500000 is 2500000; its margins sum to 2500000
    A000002: -2 * 38000000 less -75000000 is -1000000; its margins sum to -1000000
    B000001: -6 * 38000000 less -225750000 is -2250000; its margins sum to -2250000
    C000001: 3 * 38000000 less 113250000 is 750000; its margins sum to 750000
";

#[test]
fn the_worked_example_is_explained() {
    let text = text_of(&worked().file());
    assert_eq!(
        first_difference(WORKED.as_bytes(), text.as_bytes()),
        None,
        "{text}"
    );
}

#[test]
fn a_refused_file_is_explained_up_to_its_refusal() {
    let [_, (_, refused), ..] = examples();
    let events = WORKED.split("14 expiry\n").next().unwrap();
    let events = events.replace("events 15,", "events 16,");
    let end = "\
14 notice: section 2, elevator 4, 2 lots
    section 2 is B000001
    refusal 20: B000001 has a notice at elevator 4 already

THE FILE IS REFUSED: NUMBER AND PLACE (01, Event file)
A refused file writes nothing: no margin above stands, and no register is made.
refused 20 14
";
    assert_eq!(text_of(&refused), format!("{events}{end}"));
}

#[test]
fn a_misshapen_file_has_one_reason() {
    for (name, reason) in [
        (
            "no byte",
            "the file has 0 bytes, and its sizes alone have 16",
        ),
        (
            "15 bytes",
            "the file has 15 bytes, and its sizes alone have 16",
        ),
        ("3,801 events", "3801 events are above 3800"),
        (
            "as many events as 32 bits say",
            "4294967295 events are above 3800",
        ),
        (
            "a byte too many",
            "15 events have 271 bytes, and the file has 272",
        ),
        (
            "15 events in 64616 bytes",
            "15 events have 271 bytes, and the file has 64616",
        ),
        (
            "15 events in 64617 bytes",
            "15 events have 271 bytes, and the file has more than 64616",
        ),
    ] {
        let head: String = WORKED.split_inclusive('\n').take(4).collect();
        let end = "\
THE FILE IS REFUSED: NUMBER AND PLACE (01, Event file)
A refused file writes nothing: no margin above stands, and no register is made.
refused 25 0
";
        let wanted = format!("{head}refusal 25: {reason}\n\n{end}");
        assert_eq!(named(name), wanted);
    }
}

/// Code 1: +5 and -2 fail, two of -2 are sound. Code 2: -4 fails, two of +3 are
/// sound. Code 3: -3 fails. Code 4: two of +2. Code 5: -2.
#[test]
fn ties_and_signs_of_steps_two_to_four() {
    let text = named("three codes fail");
    assert_holds(
        &text,
        "\
C000001 code 3, position -3, lots in notices 1, condition not met, no seller mark
    fails: its condition is not met
    fails: it is short without the seller mark
    fails: it is short and its notices do not sum to its lots (ours)
    its 3 lots are terminated
C000002 code 3, position 0, lots in notices 0, condition not met, no seller mark
    fails: its condition is not met
    its 0 lots are terminated
",
    );
    assert_holds(
        &text,
        "\
code 1, what fails
    A000001 has 5
    A000002 has -2
    D(1) = 3
    A000003 has 2 lots and gives 2; 1 left of D(1)
    tie: A000004 has 2 lots too; the lower section code came first
    A000004 has 2 lots and gives 1; 0 left of D(1)
    left of D(1): 0
code 2, what fails
    B000001 has -4
    D(2) = -4
    B000002 has 3 lots and gives 3; -1 left of D(2)
    tie: B000003 has 3 lots too; the lower section code came first
    B000003 has 3 lots and gives 1; 0 left of D(2)
    left of D(2): 0
code 3, what fails
    C000001 has -3
    D(3) = -3
    left of D(3): -3
",
    );
    assert_holds(
        &text,
        "\
D = -3
code 1, sound lots left
    A000004 has -1
    the sound net is -1, not opposite to D: it gives nothing
code 2, sound lots left
    B000003 has 2
    the sound net is 2, opposite to D: it may give 2
code 4, sound lots left
    D000002 has 2
    D000001 has 2
    the sound net is 4, opposite to D: it may give 4
code 5, sound lots left
    E000001 has -2
    the sound net is -2, not opposite to D: it gives nothing
who gives
    B000003 of code 2 has 2 lots and gives 2; -1 left of D, 0 of the net of code 2
    tie: D000001 has 2 lots too; the lower section code came first
    D000001 of code 4 has 2 lots and gives 1; 0 left of D, 3 of the net of code 4
    tie: D000002 has 2 lots too; the lower section code came first
    D000002 of code 4 has 2 lots and gives 0; 0 left of D, 3 of the net of code 4
left of D: 0
",
    );
    assert_holds(
        &text,
        "\
code 1 has the net -1
    A000004 has 1 lots: 1 outside, 0 inside; 0 left of the net
code 4 has the net 3
    D000002 has 2 lots: 2 outside, 0 inside; 1 left of the net
    D000001 has 1 lots: 1 outside, 0 inside; 0 left of the net
code 5 has the net -2
    E000001 has 2 lots: 2 outside, 0 inside; 0 left of the net
",
    );
}

/// Three buyers of 4 lots; two sellers with 2 lots at each of three elevators.
#[test]
fn ties_of_buyers_elevators_pairs_and_notices() {
    let rows = "\
Inside pass of code 2
  buyer A000002 has 4 lots
  buyer A000001 has 4 lots
  buyer A000003 has 4 lots
  elevator 3 has 4 lots
  elevator 5 has 4 lots
  elevator 9 has 4 lots
  stage one: the fullest buyer and the fullest elevator form a pair
    tie: 3 buyers have 4 lots; the lowest section code, A000001, is taken
    tie: 3 elevators have 4 lots; the lowest number, 3, is taken
  pair 1: A000001 with 4 and elevator 3 with 4: 4 lots; left 0 and 0
    tie: 2 buyers have 4 lots; the lowest section code, A000002, is taken
    tie: 2 elevators have 4 lots; the lowest number, 5, is taken
  pair 2: A000002 with 4 and elevator 5 with 4: 4 lots; left 0 and 0
  pair 3: A000003 with 4 and elevator 9 with 4: 4 lots; left 0 and 0
  stage two: the fullest pair and the fullest notice at its elevator form a line
    tie: 3 pairs have 4 lots; the lowest buyer section code, A000001, is taken
    tie: 2 notices at elevator 3 have 2 lots; the lowest seller section code, B000001, is taken
  line 1: A000001 at elevator 3 with 4, notice 4 of B000001 with 2: 2 lots; left 2 and 0
    tie: 2 pairs have 4 lots; the lowest buyer section code, A000002, is taken
    tie: 2 notices at elevator 5 have 2 lots; the lowest seller section code, B000001, is taken
  line 2: A000002 at elevator 5 with 4, notice 5 of B000001 with 2: 2 lots; left 2 and 0
    tie: 2 notices at elevator 9 have 2 lots; the lowest seller section code, B000001, is taken
  line 3: A000003 at elevator 9 with 4, notice 3 of B000001 with 2: 2 lots; left 2 and 0
    tie: 3 pairs have 2 lots; the lowest buyer section code, A000001, is taken
  line 4: A000001 at elevator 3 with 2, notice 1 of B000002 with 2: 2 lots; left 0 and 0
    tie: 2 pairs have 2 lots; the lowest buyer section code, A000002, is taken
  line 5: A000002 at elevator 5 with 2, notice 2 of B000002 with 2: 2 lots; left 0 and 0
  line 6: A000003 at elevator 9 with 2, notice 0 of B000002 with 2: 2 lots; left 0 and 0
Outside pass: nothing is left to form
pairs formed: 3; lines formed: 6; lines kept: 6
";
    assert_holds(&named("ties in both stages"), rows);
}

/// A buyer of 6 lots and one of 2; a seller with 2 lots at each of four elevators.
#[test]
fn ties_of_pairs_of_one_buyer() {
    let rows = "\
    tie: 4 elevators have 2 lots; the lowest number, 5, is taken
  pair 1: A000001 with 6 and elevator 5 with 2: 2 lots; left 4 and 0
    tie: 3 elevators have 2 lots; the lowest number, 6, is taken
  pair 2: A000001 with 4 and elevator 6 with 2: 2 lots; left 2 and 0
    tie: 2 buyers have 2 lots; the lowest section code, A000001, is taken
    tie: 2 elevators have 2 lots; the lowest number, 7, is taken
  pair 3: A000001 with 2 and elevator 7 with 2: 2 lots; left 0 and 0
  pair 4: A000002 with 2 and elevator 8 with 2: 2 lots; left 0 and 0
  stage two: the fullest pair and the fullest notice at its elevator form a line
    tie: 4 pairs have 2 lots; the lowest buyer section code, A000001, is taken
    tie: 3 of them are of A000001; the lowest elevator, 5, is taken
  line 1: A000001 at elevator 5 with 2, notice 3 of B000001 with 2: 2 lots; left 0 and 0
    tie: 3 pairs have 2 lots; the lowest buyer section code, A000001, is taken
    tie: 2 of them are of A000001; the lowest elevator, 6, is taken
  line 2: A000001 at elevator 6 with 2, notice 1 of B000001 with 2: 2 lots; left 0 and 0
    tie: 2 pairs have 2 lots; the lowest buyer section code, A000001, is taken
  line 3: A000001 at elevator 7 with 2, notice 2 of B000001 with 2: 2 lots; left 0 and 0
  line 4: A000002 at elevator 8 with 2, notice 0 of B000001 with 2: 2 lots; left 0 and 0
";
    assert_holds(&named("pairs of one buyer"), rows);
}

#[test]
fn long_rows_are_folded_at_their_last_blank() {
    let text = named("a million lots");
    assert_holds(
        &text,
        "\
    tie: 2 notices at elevator 31 have 1000000 lots; the lowest seller section code, B000001, is
taken
",
    );
    assert_holds(
        &text,
        "\
  line 2: A000002 at elevator 31 with 1000000, notice 0 of B000002 with 1000000: 1000000 lots; left
0 and 0
",
    );
    assert!(text.lines().all(|row| row.len() <= COLUMNS));
}

/// The bytes of a section code that are no signs, the first that is not allowed,
/// and every byte of an operand that is wrong.
#[test]
fn bytes_that_are_refused_are_shown() {
    for (events, rows) in [
        (
            vec![section(255, true, "a\u{1} \\~!\u{7f}", u32::MAX)],
            "\
0 section: section code a\\x01\\x20\\x5c~!\\x7f, settlement code 255, participant 4294967295
    refusal 6: settlement code 255 is above 63
",
        ),
        (
            vec![section(63, true, "A0z-000", 1)],
            "\
0 section: section code A0z-000, settlement code 63, participant 1
    refusal 7: byte 2 of the section code is 122, neither 0-9 (48-57) nor A-Z (65-90)
",
        ),
        (
            vec![session(7), trade(3, 3, 1, 1)],
            "\
1 trade: buyer 3, seller 3, price 1, 1 lots
    refusal 10: section 3 is not held; 0 are, numbered from 0
    refusal 10: section 3 is not held; 0 are, numbered from 0
",
        ),
        (
            vec![session(7), session(8), Event::Expiry, notice(0, 0, 0)],
            "2 expiry\n    refusal 22: the last session is an evening one\n\n",
        ),
    ] {
        assert_holds(&text_of(&write(1, 1, 1, &events).unwrap()), rows);
    }
    let mut file = write(1, 1, 1, &[section(1, true, "A000001", 1)]).unwrap();
    (file[18], file[26], file[32]) = (2, 9, 255);
    let rows = "\
0 event of kind 1
    refusal 26: the mark at byte 1 of its operand is 2, above 1
    refusal 26: byte 9 of its operand is 9 and should be zero
    refusal 26: byte 15 of its operand is 255 and should be zero

THE FILE IS REFUSED: NUMBER AND PLACE (01, Event file)
A refused file writes nothing: no margin above stands, and no register is made.
refused 26 0
";
    assert_holds(&text_of(&file), rows);
}

/// "the first gives the quotient, the other two one more, and that every value comes
/// out as it did" (02, c).
#[test]
fn quotient_remainder_and_case_are_the_rounding() {
    assert_eq!(rounded(49_999, 100_000), (0, 49_999, "below half", 0));
    assert_eq!(rounded(50_000, 100_000), (0, 50_000, "at half, so up", 1));
    assert_eq!(
        rounded(200_000, 3),
        (66_666, 2, "above half, so up", 66_667)
    );
    let mut random = Random::new(1);
    for _ in 0..100_000 {
        let most = random.pick(&[10, 1_000, 1_000_000]);
        let (w, r) = (random.from_to(1, most), random.from_to(1, most));
        let k = factor(w, r);
        assert_eq!(rounded(100_000 * u64::from(w), r.into()).3, k);
        let price = random.from_to(1, 10_000_000);
        let (.., worth) = rounded(u64::from(price) * k.min(10_000_000), 100_000);
        assert_eq!(worth as i64, value(price, k.min(10_000_000)));
    }
}

#[test]
fn every_file_passes_the_checks() {
    let seeds: Vec<u64> = (5_000..5_160).collect();
    for input in inputs(&seeds) {
        let listed = listing(&input.bytes);
        let found = fault(&explain(&input.bytes), listed.as_bytes());
        assert_eq!(found, None, "{}", input.name);
    }
}

#[test]
fn the_files_that_are_always_given_reach_everything() {
    let mut reach = Reach::default();
    inputs(&[]).for_each(|input| reach.add(&explain(&input.bytes)));
    assert_eq!(reach.missing(), [""; 0], "{reach}");
}

#[test]
fn few_files_do_not_reach_everything() {
    let mut reach = Reach::default();
    reach.add(WORKED.as_bytes());
    let missing = reach.missing().join("; ");
    for kind in [
        "\"refused 27 #\"",
        "\"    D(#) = -#\"",
        "folded \"  line #: ",
        "256 notices",
    ] {
        assert!(missing.contains(kind), "{missing}");
    }
    for kind in ["\"    D(#) = #\"", "\"# expiry\"", "\"    sound\""] {
        assert!(!missing.contains(kind), "{missing}");
    }
    assert!(reach.to_string().contains("  not reached: "));
}

/// A slip in a text: what stands there, and what is put in its place.
type Slip = (&'static str, &'static str, &'static str);

/// Found by the text alone, and by what `wheat` prints.
const SLIPS: [Slip; 15] = [
    (
        "another number of lots terminated",
        "its 3 lots are",
        "its 4 lots are",
    ),
    (
        "no row of lots terminated",
        "    its 3 lots are terminated\n",
        "",
    ),
    ("another number given", "and gives 3;", "and gives 2;"),
    (
        "another section gives",
        "    B000001 of code 2 has",
        "    A000002 of code 2 has",
    ),
    (
        "no row of what is given",
        "    B000001 of code 2 has 6 lots and gives 3; 0 left of D, 3 of the net of code 2\n",
        "",
    ),
    (
        "another section fails",
        "C000001 code 3, position",
        "D000001 code 3, position",
    ),
    (
        "a line of the register left out",
        "A000001 4 B000001 2 50\n",
        "",
    ),
    (
        "another sum of margins",
        "C000001 0 3 0 750000\n",
        "C000001 0 3 0 750001\n",
    ),
    (
        "a row in the listing too many",
        "C000001 0 3 0 750000\n",
        "C000001 0 3 0 750000\n\n",
    ),
    (
        "no empty row before demand 3",
        "750000\n\nDEMAND",
        "750000\nDEMAND",
    ),
    ("no demand 3", "\nDEMAND 3", "\nDEMAND 4"),
    ("no register", "register 3\n", ""),
    (
        "a row too long",
        "quotient 2500000, remainder",
        "quotient 2500000, and what is left of it, which is nothing at all, remainder",
    ),
    ("a byte that is no ASCII", "lots bought", "lots b\u{f6}ught"),
    ("a tab", "    sound", "\tsound"),
];

#[test]
fn wrong_explanations_are_found_by_their_text() {
    let wheat = listing(&worked().file());
    assert_eq!(fault(WORKED.as_bytes(), wheat.as_bytes()), None);
    for (name, stands, put) in SLIPS {
        let text = WORKED.replacen(stands, put, 1);
        assert_ne!(text, WORKED, "{name}");
        assert!(fault(text.as_bytes(), wheat.as_bytes()).is_some(), "{name}");
    }
    for end in ["", "\nx", "\n\u{0}"] {
        let text = format!("{}{end}", WORKED.trim_end());
        assert!(
            fault(text.as_bytes(), wheat.as_bytes()).is_some(),
            "{end:?}"
        );
    }
    let other = listing(&shared().file());
    assert!(fault(WORKED.as_bytes(), other.as_bytes()).is_some());
    assert!(fault(WORKED.as_bytes(), b"refused 25 0\n").is_some());
}

#[test]
fn wrong_ends_of_a_refused_file_are_found_by_their_text() {
    let [_, (_, refused), ..] = examples();
    let (text, wheat) = (text_of(&refused), listing(&refused));
    assert_eq!(fault(text.as_bytes(), wheat.as_bytes()), None);
    for (name, wrong) in [
        (
            "another number",
            text.replace("refused 20 14", "refused 19 14"),
        ),
        (
            "another place",
            text.replace("refused 20 14", "refused 20 13"),
        ),
        ("a row more", format!("{text}refused 20 15\n")),
        ("an empty row more", format!("{text}\n")),
        ("no last row", text.replace("refused 20 14\n", "")),
    ] {
        assert!(
            fault(wrong.as_bytes(), wheat.as_bytes()).is_some(),
            "{name}"
        );
    }
}

/// Any row left out, and any digit changed, is a difference from the reading, and
/// the row where it is stands in what is said.
#[test]
fn any_row_left_out_and_any_digit_changed_is_found() {
    let rows: Vec<&str> = WORKED.split_inclusive('\n').collect();
    for left_out in 0..rows.len() {
        let text = [&rows[..left_out], &rows[left_out + 1..]].concat().concat();
        let found = first_difference(WORKED.as_bytes(), text.as_bytes());
        assert!(found.is_some(), "row {left_out}");
    }
    for (at, digit) in WORKED.char_indices().filter(|(_, c)| c.is_ascii_digit()) {
        let other = if digit == '9' { "0" } else { "9" };
        let text = format!("{}{other}{}", &WORKED[..at], &WORKED[at + 1..]);
        let row = WORKED[..at].matches('\n').count() + 1;
        let found = first_difference(WORKED.as_bytes(), text.as_bytes()).unwrap();
        assert!(
            found.starts_with(&format!("row {row}: wanted is ")),
            "{found}"
        );
    }
}
