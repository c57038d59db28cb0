//! What is handed back (01, "What is handed back").

/// Why a paper is refused: the numbers of the table, and those of 02.
#[derive(Clone, Copy, Debug, PartialEq, Eq)]
pub enum Fault {
    Length = 1,
    Version = 2,
    Kind = 3,
    Body = 4,
    Range = 5,
    Label = 6,
    Locations = 7,
    JointSwitches = 8,
    Order = 9,
    Coefficients = 10,
    Bound = 11,
    Start = 12,
    Step = 13,
    End = 14,
    /// Of a table or a buffer.
    Short = 15,
    Text = 16,
    Result = 17,
    /// Of two sheets that do not belong together.
    Pair = 18,
}

/// The first fault of a sheet, and its byte offset there.
#[derive(Clone, Copy, Debug, PartialEq, Eq)]
pub struct Refusal {
    pub fault: Fault,
    pub place: usize,
}

impl Refusal {
    pub fn new(fault: Fault, place: usize) -> Self {
        Refusal { fault, place }
    }
}

/// Which of the things handed over a place is in.
#[derive(Clone, Copy, Debug, PartialEq, Eq)]
pub enum Sheet {
    Model = 0,
    Second = 1,
    Call = 2,
}

/// An argument or a limit outside its range: 5, in the call itself.
pub const ARGUMENT: (Sheet, Refusal) = (Sheet::Call, Refusal { fault: Fault::Range, place: 0 });

/// The five numbers. The layout is that of the C header.
#[derive(Clone, Copy, Debug, Default, PartialEq, Eq)]
#[repr(C)]
pub struct Answer {
    pub number: u32,
    pub sheet: u32,
    pub place: u32,
    pub done: u32,
    pub score: u32,
}

impl Answer {
    pub fn accepted(sheet: Sheet, place: usize, done: usize, score: u32) -> Self {
        Answer { number: 0, sheet: sheet as u32, place: place as u32, done: done as u32, score }
    }

    pub fn refused(refusal: Refusal, sheet: Sheet, done: usize, score: u32) -> Self {
        Answer { number: refusal.fault as u32, sheet: sheet as u32, place: refusal.place as u32, done: done as u32, score }
    }
}
