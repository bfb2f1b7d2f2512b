//! The numbers given back.

/// The number of a call that was not refused.
pub const DONE: u32 = 0;

/// Why a call is refused; the discriminant is the documents' number.
#[derive(Clone, Copy, Debug, PartialEq, Eq)]
#[repr(u32)]
pub enum Refusal {
    TableNotGood = 1,
    TooManyWords = 2,
    TooDeep = 3,
    MetavariableInSubject = 4,
    LeftRootNoSymbol = 5,
    FreeVariable = 6,
    ArgumentsNotDistinctVariables = 7,
    AbsentOnLeft = 8,
    TooManyMetavariables = 9,
    CodeTableShort = 10,
    CodeDoesNotPass = 11,
    MatchFails = 12,
    ResultTooLarge = 13,
    ResultTooDeep = 14,
    ResultIndexTooHigh = 15,
    WorkingTableShort = 16,
    BadFile = 17,
    /// More rules or rewrites than a list run takes.
    ListTooLong = 37,
}

impl Refusal {
    /// The documents' number.
    pub fn number(self) -> u32 {
        self as u32
    }
}

/// What compile and run give back.
#[derive(Clone, Copy, Debug, PartialEq, Eq)]
pub struct Answer {
    pub number: u32,
    pub words: u32,
}

impl Answer {
    /// The count of words written, or the refusal's number and no words.
    pub(crate) fn of(outcome: Result<usize, Refusal>) -> Answer {
        match outcome {
            Ok(words) => Answer { number: DONE, words: words as u32 },
            Err(refusal) => Answer { number: refusal.number(), words: 0 },
        }
    }
}
