//! The trait through which a tool chain is driven, and what its calls answer.

/// What the check answers.
#[derive(Clone, Copy, PartialEq, Eq, Debug)]
pub enum CheckAnswer {
    Passed { functions: usize, nodes: usize, words: usize },
    Refused { number: u16, place: usize },
}

/// How a turn found the run.
#[derive(Clone, Copy, PartialEq, Eq, Debug)]
pub enum Outcome {
    Ended,
    Fault { cause: u16, node: usize },
    Waits,
    Runs,
}

impl Outcome {
    /// Whether the run is over.
    pub fn over(self) -> bool {
        matches!(self, Outcome::Ended | Outcome::Fault { .. })
    }
}

/// What a turn answers.
#[derive(Clone, Copy, PartialEq, Eq, Debug)]
pub enum TurnAnswer {
    Answered { outcome: Outcome, steps: u32 },
    Refused { number: u16, place: u16 },
}

/// What a feed answers: a refusal has number and place.
pub type FeedAnswer = Result<(), (u16, u16)>;

/// The line that a program is armed with. The waiting bytes are fed to it before arming.
#[derive(Clone, PartialEq, Eq, Debug)]
pub enum Line {
    /// A tape with an input buffer of `hold_total` places, those of the waiting bytes counted, and this room.
    Tape { waiting: Vec<u8>, hold_total: usize, room: usize },
    /// A new ring.
    Ring { waiting: Vec<u8> },
}

pub const RING_HOLD: usize = 256;
pub const RING_ROOM: usize = 1024;

impl Line {
    pub fn waiting(&self) -> &[u8] {
        match self {
            Line::Tape { waiting, .. } | Line::Ring { waiting } => waiting,
        }
    }

    /// How many bytes the line holds at most: over all time for a tape, at once for a ring.
    pub fn hold_total(&self) -> usize {
        match self {
            Line::Tape { hold_total, .. } => *hold_total,
            Line::Ring { .. } => RING_HOLD,
        }
    }

    pub fn room(&self) -> usize {
        match self {
            Line::Tape { room, .. } => *room,
            Line::Ring { .. } => RING_ROOM,
        }
    }

    /// Whether a take regains hold.
    pub fn regains(&self) -> bool {
        matches!(self, Line::Ring { .. })
    }
}

/// A tool chain with one program, its code, and one run.
pub trait Chain {
    /// Check a table; nothing held changes.
    fn check(&mut self, table: &[u8]) -> CheckAnswer;

    /// Hold the program of a table and translate it into memory of `code_words` words. Answers how many words the code
    /// has, or number and place of the refusal: of the check, or 30. A refused load changes nothing.
    fn load(&mut self, table: &[u8], code_words: usize) -> Result<usize, (u16, usize)>;

    /// The words of the code that is held.
    fn code(&self) -> Vec<u64>;

    /// Start the program that is held over a new line, at its beginning.
    fn arm(&mut self, line: &Line);

    /// Let the run make up to `budget` steps.
    fn turn(&mut self, budget: u32) -> TurnAnswer;

    /// Feed one byte to the line.
    fn feed(&mut self, byte: u8) -> FeedAnswer;

    /// The bytes that wait on the line.
    fn waiting(&self) -> Vec<u8>;

    /// The bytes that were sent since arming.
    fn sent(&self) -> Vec<u8>;

    /// Main's variable in a slot.
    fn variable(&self, slot: usize) -> i16;
}
