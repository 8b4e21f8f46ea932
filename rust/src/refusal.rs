//! Why a call was turned down.

use core::fmt;

/// The number of a refusal is the archive's answer.
#[derive(Clone, Copy, Debug, PartialEq, Eq, Hash)]
#[repr(u32)]
pub enum Refusal {
    ColumnCount = 1,
    TooFewColumns = 2,
    ValueSize = 3,
    OwnNumber = 4,
    OwnValueLength = 5,
    OwnValueBlank = 6,
    NoOpenRound = 7,
    Slot = 8,
    FrameCutShort = 9,
    Command = 10,
    FrameLength = 11,
    Sender = 12,
    Run = 13,
    OtherRound = 14,
    Repeated = 15,
    BufferTooShort = 16,
    NotFinished = 17,
    CodeLength = 18,
    LevelValueSize = 21,
    LevelTooManyBlank = 22,
}

use Refusal::*;

/// Each refusal with what it says.
#[rustfmt::skip]
const SAYS: [(Refusal, &str); 20] = [
    (ColumnCount, "a group has 1 to 32 columns"),
    (TooFewColumns, "too few columns to bear that many bad ones: three for each and one more are needed"),
    (ValueSize, "a value has 1 to 8 bytes"),
    (OwnNumber, "the column's own number is not one of the group's"),
    (OwnValueLength, "the own value has not the length that the settings say"),
    (OwnValueBlank, "the own value is blank, all zeros"),
    (NoOpenRound, "the column is in none of the three rounds"),
    (Slot, "the slot is the column's own or none of the group's"),
    (FrameCutShort, "the frame is shorter than its header"),
    (Command, "the frame begins with an unknown command"),
    (FrameLength, "the frame has not the length of its command"),
    (Sender, "the frame names another sender than its slot"),
    (Run, "the frame is of another run"),
    (OtherRound, "the frame is of a round that is closed, or two ahead"),
    (Repeated, "this sender's frame of that round is there already"),
    (BufferTooShort, "the buffer is shorter than the frame"),
    (NotFinished, "the column has not finished its three rounds"),
    (CodeLength, "the vector or the checks have not their length, or the output is too short"),
    (LevelValueSize, "a level is there only of values of 4 bytes"),
    (LevelTooManyBlank, "more columns are blank, at confidence 0, than may be bad"),
];

impl Refusal {
    pub fn number(self) -> u32 {
        self as u32
    }

    pub fn from_number(number: u32) -> Option<Refusal> {
        SAYS.iter()
            .map(|(refusal, _)| *refusal)
            .find(|refusal| refusal.number() == number)
    }

    /// Done, or why not. The archive answers 0 or one of these numbers and no other, which is proved.
    pub(crate) fn from_answer(answer: u32) -> Result<(), Refusal> {
        match Refusal::from_number(answer) {
            Some(refusal) => Err(refusal),
            None if answer == 0 => Ok(()),
            None => unreachable!("answer {answer}"),
        }
    }
}

impl fmt::Display for Refusal {
    fn fmt(&self, to: &mut fmt::Formatter) -> fmt::Result {
        let says = SAYS
            .iter()
            .find(|(refusal, _)| refusal == self)
            .map_or("", |(_, says)| says);
        to.write_str(says)
    }
}

impl core::error::Error for Refusal {}
