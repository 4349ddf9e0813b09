//! The refusals, each with the number of document 01, or of document 02 from
//! 29 on.

/// Why a call, a read or a write is refused.
#[derive(Clone, Copy, Debug, PartialEq, Eq, PartialOrd, Ord, Hash)]
#[repr(u8)]
pub enum Refusal {
    BrokenBook = 1,
    LotSize = 2,
    StepOrItsValue = 3,
    Factor = 4,
    Expired = 5,
    SettlementCode = 6,
    CodeByte = 7,
    CodeHeld = 8,
    SectionsFull = 9,
    UnknownSection = 10,
    BuyerIsSeller = 11,
    TradePrice = 12,
    TradeLots = 13,
    PositionLimit = 14,
    TradesFull = 15,
    SessionPrice = 16,
    MarginListShort = 17,
    Elevator = 18,
    NoticeLots = 19,
    NoticeHeld = 20,
    NoticesFull = 21,
    NotAfterDaySession = 22,
    RegisterListShort = 23,
    SectionListShort = 24,
    FileSize = 25,
    Malformed = 26,
    NoExpiryLast = 27,
    PlaceBeyond = 28,
    BlockLists = 29,
    YearOrMonth = 30,
    ClosedDates = 31,
    LabelLists = 39,
    NamedSections = 40,
}

impl Refusal {
    /// The number the papers give this refusal.
    pub fn number(self) -> u8 {
        self as u8
    }
}

/// Those of the refusals whose condition holds, in the order given.
pub fn holding<const N: usize>(conditions: [(bool, Refusal); N]) -> Vec<Refusal> {
    conditions
        .into_iter()
        .filter(|(holds, _)| *holds)
        .map(|(_, refusal)| refusal)
        .collect()
}

/// "A refused call returns the first number in document 01's order whose
/// condition holds" (demand 1).
pub fn first(faults: Vec<Refusal>) -> Result<(), Refusal> {
    match faults.first() {
        Some(refusal) => Err(*refusal),
        None => Ok(()),
    }
}
