//! The kinds of row that an explanation has: `#` stands for a number, `~` before it
//! for a sign or none, `@` for a section code and `?` for one with any bytes.

/// Every row that must be seen, most of them the templates of the text; where one
/// row of another kind must follow, a `|` parts them.
pub(super) const KINDS: &str = "\
EXPLANATION OF ONE WHEAT CONTRACT, FROM ITS EVENT FILE
Papers: 00 the demands, 01 the scope, 02 the change requests, 000 the method, 001 the specification.
Of 02, requests a and c bear on a contract. Amounts are kopecks, prices kopecks for a tonne.
A position is lots bought less sold; 'code' alone is a settlement code.
refusal 25: the file has # bytes, and its sizes alone have 16
refusal 25: # events are above 3800
refusal 25: # events have # bytes, and the file has more than 64616
refusal 25: # events have # bytes, and the file has #
THE CONTRACT (01, Value of a price; 001, 2.1.3; 02, c)
K and V are rounded: below half the divisor the quotient stands, at half or above it is one more.
events #, lot # tonnes, W (value of the price step) #, R (price step) #; K = 100000*W/R|    100000*#/#: quotient #, remainder #, below half: #
events #, lot # tonnes, W (value of the price step) #, R (price step) #; K = 100000*W/R|    100000*#/#: quotient #, remainder #, at half, so up: #
events #, lot # tonnes, W (value of the price step) #, R (price step) #; K = 100000*W/R|    100000*#/#: quotient #, remainder #, above half, so up: #
events #, lot # tonnes, W (value of the price step) #, R (price step) 0; K = 100000*W/R|    R is 0, and there is no K
refusal 2: lot # is outside 1 to 1000 tonnes
refusal 3: W # or R # is outside 1 to 1000000
refusal 4: K 0 is outside 1 to 10000000
refusal 4: K # is outside 1 to 10000000
THE EVENTS, NUMBERED FROM 0 (01, The book)
A basis is lots times V, bought plus, sold minus, since the last session, on top of position*V then.
A margin is position*V - basis, which is what 001, 2.1.3 comes to, VM2 = VM - VM1 included.
Every condition starts as not met.
# section: @ has number #, settlement code #, participant #, seller mark
# section: @ has number #, settlement code #, participant #, no seller mark
# trade: @ buys # lots from @ at price P #; V = P*K/100000|    #*#/100000: quotient #, remainder #, below half: #
# trade: @ buys # lots from @ at price P #; V = P*K/100000|    #*#/100000: quotient #, remainder #, at half, so up: #
# trade: @ buys # lots from @ at price P #; V = P*K/100000|    #*#/100000: quotient #, remainder #, above half, so up: #
    @: #*# = # bought, position ~#, basis ~#|    @: #*# = # sold, position ~#, basis ~#
# session: day, price P #; V = P*K/100000|    #*#/100000: quotient #, remainder #, below half: #
# session: day, price P #; V = P*K/100000|    #*#/100000: quotient #, remainder #, at half, so up: #
# session: day, price P #; V = P*K/100000|    #*#/100000: quotient #, remainder #, above half, so up: #
# session: evening, price P #; V = P*K/100000|    #*#/100000: quotient #, remainder #, below half: #
# session: evening, price P #; V = P*K/100000|    #*#/100000: quotient #, remainder #, at half, so up: #
# session: evening, price P #; V = P*K/100000|    #*#/100000: quotient #, remainder #, above half, so up: #
    section, position, basis, margin = position*V - basis, session sum so far, section sum so far
    section, position, basis, margin = position*V - basis, session sum so far, section sum so far|    the margins of this session sum to 0; each basis becomes position*#
    @ ~# ~# ~# ~# ~#
    @ -# -# -# -# -#
    the margins of this session sum to 0; each basis becomes position*#
# condition: @ meets its condition
# condition: @ does not meet its condition
# notice: @ files # lots at elevator #, notice # in filing order
# expiry
# event of kind #|    refusal 26: kind # is none of 1 to 6
# event of kind 1|    refusal 26: the mark at byte 1 of its operand is #, above 1
# event of kind 4|    refusal 26: the mark at byte 1 of its operand is #, above 1
# event of kind 1|    refusal 26: byte # of its operand is # and should be zero
# event of kind 2|    refusal 26: byte # of its operand is # and should be zero
# event of kind 3|    refusal 26: byte # of its operand is # and should be zero
# event of kind 4|    refusal 26: byte # of its operand is # and should be zero
# event of kind 5|    refusal 26: byte # of its operand is # and should be zero
# event of kind 6|    refusal 26: byte # of its operand is # and should be zero
    refusal 26: the mark at byte 1 of its operand is #, above 1|    refusal 26: byte # of its operand is # and should be zero
    refusal 26: byte # of its operand is # and should be zero|    refusal 26: byte # of its operand is # and should be zero
# section: section code ?, settlement code #, participant #|    refusal 5: the book has expired, by the event before #
# trade: buyer #, seller #, price #, # lots|    section # is @
    section # is @|    refusal 5: the book has expired, by the event before #
# session: price #|    refusal 5: the book has expired, by the event before #
# condition: section #, met|    section # is @
# condition: section #, not met|    refusal 5: the book has expired, by the event before #
# notice: section #, elevator #, # lots|    section # is @
# expiry|    refusal 5: the book has expired, by the event before #
# section: section code ?, settlement code #, participant #|    refusal 6: settlement code # is above 63
# section: section code ?, settlement code #, participant #|    refusal 7: byte # of the section code is #, neither 0-9 (48-57) nor A-Z (65-90)
# section: section code @, settlement code #, participant #|    refusal 8: the section code @ is held already, by section #
# section: section code @, settlement code #, participant #|    refusal 9: 128 sections are held, and there is place for 128
# trade: buyer #, seller #, price #, # lots|    refusal 10: section # is not held; # are, numbered from 0
    refusal 10: section # is not held; # are, numbered from 0|    refusal 10: section # is not held; # are, numbered from 0
# condition: section #, met|    refusal 10: section # is not held; # are, numbered from 0
# condition: section #, not met|    refusal 10: section # is not held; # are, numbered from 0
# notice: section #, elevator #, # lots|    refusal 10: section # is not held; # are, numbered from 0
    section # is @|    refusal 11: section # is buyer and seller
    section # is @|    refusal 12: price # is outside 1 to 10000000
    section # is @|    refusal 12: price # is no multiple of R #
    section # is @|    refusal 13: # lots are outside 1 to 10000
    section # is @|    refusal 14: a position would pass its limit
    the position of @ is ~# and would be ~#; the limit is 1000000 on either side|    the position of @ is ~# and would be ~#; the limit is 1000000 on either side
    the position of @ is 1000000 and would be #; the limit is 1000000 on either side
    the position of @ is -1000000 and would be -#; the limit is 1000000 on either side
    section # is @|    refusal 15: 2000 trades since the last session, and 2000 is the most
# session: price #|    refusal 16: price # is outside 1 to 10000000
    section # is @|    refusal 18: elevator # is above 31
    section # is @|    refusal 19: # lots are outside 1 to 1000000
    section # is @|    refusal 20: @ has a notice at elevator # already
    section # is @|    refusal 21: 256 notices are filed, and there is place for 256
# expiry|    refusal 22: no session was held
# expiry|    refusal 22: the last session is an evening one
# expiry|    refusal 22: # trades followed the last session
after 0 events: refusal 27, the last event is not an accepted expiry
after # events: refusal 27, the last event is not an accepted expiry
THE EXPIRY, STEP BY STEP
Step 1. Which sections fail (000, 2.1; 01, Expiry, step 1)
@ code #, position ~#, lots in notices #, condition met, seller mark
@ code #, position ~#, lots in notices #, condition met, no seller mark
@ code #, position ~#, lots in notices #, condition not met, seller mark
@ code #, position ~#, lots in notices #, condition not met, no seller mark
    sound
    fails: its condition is not met|    its # lots are terminated
    fails: it is short without the seller mark|    its # lots are terminated
    fails: it is short and its notices do not sum to its lots (ours)|    its # lots are terminated
    fails: its condition is not met|    fails: it is short without the seller mark
    fails: it is short without the seller mark|    fails: it is short and its notices do not sum to its lots (ours)
    fails: its condition is not met|    fails: it is short and its notices do not sum to its lots (ours)
    its 0 lots are terminated
Step 2. Each settlement code closes what fails in it (000, 2.2; 01, Expiry, step 2)
D(c) is the sum of the failing positions of code c. Sound sections on the other side give, smallest
first, then lower section code. Codes where no lots fail are not shown.
code #, what fails|    @ has ~#
    @ has #
    @ has -#
    D(#) = #
    D(#) = -#
    D(#) = 0|    left of D(#): 0
    tie: @ has # lots too; the lower section code came first|    @ has # lots and gives #; ~# left of D(#)
    tie: @ has # lots too; the lower section code came first|    @ has # lots and gives 0; 0 left of D(#)
    @ has # lots and gives #; # left of D(#)
    @ has # lots and gives #; -# left of D(#)
    @ has # lots and gives #; 0 left of D(#)
    left of D(#): #
    left of D(#): -#
    left of D(#): 0
Step 3. What is left is closed over all codes together (000, 2.3; 01, Expiry, step 3)
D is what is left of all D(c), with sign. Codes whose sound net after step 2 is opposite to D give,
each at most its net: their sections on the side of that net, over all such codes together,
smallest first, then lower section code. Codes with no sound lots left are not shown.
code #, sound lots left|    @ has ~#
who gives
D = #
D = -#
D = 0|nothing is to be closed
    the sound net is #, opposite to D: it may give #
    the sound net is -#, opposite to D: it may give #
    the sound net is #, not opposite to D: it gives nothing
    the sound net is 0, not opposite to D: it gives nothing
    the sound net is -#, not opposite to D: it gives nothing
    tie: @ has # lots too; the lower section code came first|    @ of code # has # lots and gives #; ~# left of D, # of the net of code #
    @ of code # has # lots and gives #; # left of D, # of the net of code #
    @ of code # has # lots and gives #; -# left of D, # of the net of code #
    @ of code # has # lots and gives #; 0 left of D, # of the net of code #
    @ of code # has # lots and gives 0; 0 left of D, # of the net of code #
    @ of code # has # lots and gives 0; -# left of D, 0 of the net of code #
left of D: 0
Step 4. What goes outside, and what stays inside (000, 2.4; 01, Expiry, step 4)
Sections on the side of their code's net are marked outside, largest first, then lower section
code, until the net is reached; the last one is split there (ours). The rest is inside.
code # has the net #
code # has the net -#
code # has the net 0|    @ has # lots: all inside
    tie: @ has # lots too; the lower section code came first|    @ has # lots: # outside, # inside; # left of the net
    @ has # lots: # outside, 0 inside; # left of the net
    @ has # lots: 0 outside, # inside; 0 left of the net
    @ is split here, where the net is reached
    @ has # lots: all inside
Step 5. What is drawn of the notices (000 is silent, ours; 01, Expiry, step 5)
A short section's notices are drawn in filing order: its inside lots, then its outside lots; the
terminated come off the end.
notice #: @ at elevator #, # lots: none is drawn, the section fails
notice #: @ at elevator #, # lots: # inside, # outside, # terminated
notice #: @ at elevator #, # lots: ignored, the section is not short
Step 6. Pairs and lines, inside by code number, then outside (000, 2.5; 01, Expiry, step 6)
Buyers have their lots of step 4, elevators the sums of what step 5 draws at them. Most lots first.
Ties (000 is silent, ours): lower buyer section code, lower elevator, lower seller section code.
A tie row stands above the pair or line that it decides. Codes with nothing inside have no pass.
    tie: # pairs of @ have # lots; the lowest elevator, #, is taken|  line #: @ at elevator # with #, notice # of @ with #: # lots; left # and #
Inside pass of code #
Outside pass
Outside pass: nothing is left to form
  buyer @ has # lots
  elevator # has # lots
  stage one: the fullest buyer and the fullest elevator form a pair
    tie: # buyers have # lots; the lowest section code, @, is taken|  pair #: @ with # and elevator # with #: # lots; left # and #
    tie: # buyers have # lots; the lowest section code, @, is taken|    tie: # elevators have # lots; the lowest number, #, is taken
    tie: # elevators have # lots; the lowest number, #, is taken|  pair #: @ with # and elevator # with #: # lots; left # and #
  pair #: @ with # and elevator # with #: # lots; left 0 and #
  pair #: @ with # and elevator # with #: # lots; left # and 0
  stage two: the fullest pair and the fullest notice at its elevator form a line
    tie: # pairs have # lots; the lowest buyer section code, @, is taken|  line #: @ at elevator # with #, notice # of @ with #: # lots; left # and #
    tie: # pairs have # lots; the lowest buyer section code, @, is taken|    tie: # of them are of @; the lowest elevator, #, is taken
    tie: # of them are of @; the lowest elevator, #, is taken|  line #: @ at elevator # with #, notice # of @ with #: # lots; left # and #
    tie: # pairs have # lots; the lowest buyer section code, @, is taken|    tie: # notices at elevator # have # lots; the lowest seller section code, @, is taken
    tie: # pairs of @ have # lots; the lowest elevator, #, is taken|    tie: # notices at elevator # have # lots; the lowest seller section code, @, is taken
    tie: # notices at elevator # have # lots; the lowest seller section code, @, is taken|  line #: @ at elevator # with #, notice # of @ with #: # lots; left # and #
  line #: @ at elevator # with #, notice # of @ with #: # lots; left 0 and #
  line #: @ at elevator # with #, notice # of @ with #: # lots; left # and 0
  line #: @ at elevator # with #, notice # of @ with #: # lots; left # and #|    taken out (02, a; 001, 3.4): @ and @ are both participant #; # lots lapse for each
pairs formed: 0; lines formed: 0; lines kept: 0
pairs formed: #; lines formed: #; lines kept: #
pairs formed: #; lines formed: #; lines kept: 0
THE REGISTER AND THE SECTIONS, AS THE LISTING HAS THEM (01, Event file; 02, a)
Lines kept: buyer, elevator, seller, lots, tonnes.
Sections: section code, delivered, terminated, lapsed, sum of its margins.|register #
register 0
@ # @ # #
@ # # # ~#
DEMAND 3, WITH THE NUMBERS OF THIS CONTRACT (00, 3; 02, a)
The margins of each accepted session sum to zero.
    sessions accepted: #; of these with margins that sum to 0: #
Each section's delivered, terminated and lapsed lots sum to the size of its lots bought less
sold, and its lots in the register equal its delivered lots.
    @ bought #, sold #: position ~#
        # delivered + # terminated + # lapsed = #; # in the register
No notice is drawn beyond its lots; lines taken out count too.
    notice # of @ at elevator #: 0 drawn of # lots
    notice # of @ at elevator #: # drawn of # lots
The lines formed are at most the long sections with delivered or lapsed lots and the drawn
notices together, less one.
    lines formed: 0
    lines formed: #; such long sections # + drawn notices # - 1 = #
Each section's margins sum to its net lots times the last session's value, less lots times
entry value, bought plus, sold minus. The number after less sums its bought and sold of the trades.
    @: ~# * # less ~# is ~#; its margins sum to ~#
THE FILE IS REFUSED: NUMBER AND PLACE (01, Event file)
A refused file writes nothing: no margin above stands, and no register is made.|refused # #
refused 2 0
refused 3 0
refused 4 0
refused 5 #
refused 6 #
refused 7 #
refused 8 #
refused 9 #
refused 10 #
refused 11 #
refused 12 #
refused 13 #
refused 14 #
refused 15 #
refused 16 #
refused 18 #
refused 19 #
refused 20 #
refused 21 #
refused 22 #
refused 25 0
refused 26 #
refused 27 #
";

/// The kinds of row that can be longer than 100 columns, and so be folded.
pub(super) const FOLDED: [&str; 6] = [
    "events #, lot # tonnes, W (value of the price step) #, R (price step) #; K = 100000*W/R",
    "    @ of code # has # lots and gives #; ~# left of D, # of the net of code #",
    "    tie: # notices at elevator # have # lots; the lowest seller section code, @, is taken",
    "  line #: @ at elevator # with #, notice # of @ with #: # lots; left # and #",
    "    taken out (02, a; 001, 3.4): @ and @ are both participant #; # lots lapse for each",
    "    @: ~# * # less ~# is ~#; its margins sum to ~#",
];

/// Whether a row is of a kind.
pub(super) fn is_of(kind: &str, row: &str) -> bool {
    let (mut kind, mut row) = (kind.as_bytes(), row.as_bytes());
    while let Some((&sign, others)) = kind.split_first() {
        kind = others;
        let taken = match sign {
            b'#' => number(row),
            b'~' => Some(usize::from(row.first() == Some(&b'-'))),
            b'@' => code(row),
            b'?' => row.iter().position(|&byte| byte == b','),
            _ => (row.first() == Some(&sign)).then_some(1),
        };
        let Some(rest) = taken.and_then(|taken| row.get(taken..)) else {
            return false;
        };
        row = rest;
    }
    row.is_empty()
}

/// How many bytes a number has, without noughts in front.
fn number(row: &[u8]) -> Option<usize> {
    let digits = row.iter().take_while(|byte| byte.is_ascii_digit()).count();
    (digits > 0 && (row[0] != b'0' || digits == 1)).then_some(digits)
}

fn code(row: &[u8]) -> Option<usize> {
    let is_sign = |byte: &u8| matches!(byte, b'0'..=b'9' | b'A'..=b'Z');
    (row.len() >= 7 && row[..7].iter().all(is_sign)).then_some(7)
}
