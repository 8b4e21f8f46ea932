//! The proved radio link of mobile column lifts: a column's part in the exchange, and the code beneath it. Safe calls over the archive
//! that `rt lib` writes in `crates/sajowemi`; nothing here needs the standard library or memory of its own. The archive's calls want
//! buffers that do not overlap, which Rust's borrows see to: a vector is not repaired over itself.
//!
//! ```ignore
//! let mut column = Column::open(Settings { n: 4, t: 1, w: 4 }, 2, run, &height)?;
//! for _ in 0..3 {
//!     let mut buffer = [0; LONGEST_FRAME];
//!     radio.send(column.send(&mut buffer)?);
//!     while let Some((slot, frame)) = radio.frame_before(end_of_round) {
//!         let _ = column.take(slot, frame); // of this round, or early for the next; a refused one is counted for its slot
//!     }
//!     column.close()?;
//! }
//! let beliefs = column.result()?;
//! motor.go(column.level()?.correction);
//! service.note(3, column.refused(3)); // how many of column 3's frames were refused
//! ```
#![no_std]

pub mod archive;
mod refusal;

pub use archive::LONGEST_FRAME;
pub use refusal::Refusal;

/// n columns, 1 to 32; t bad ones borne, with n at least 3t + 1; w bytes of a value, 1 to 8.
#[derive(Clone, Copy, Debug, PartialEq, Eq)]
pub struct Settings {
    pub n: u32,
    pub t: u32,
    pub w: u32,
}

/// A column's record: plain data, which a copy keeps as it is.
#[derive(Clone, Copy)]
pub struct Column {
    record: archive::Column,
}

impl Column {
    /// A column of the group with its number, 1 to n, the run and its own value of w bytes.
    pub fn open(settings: Settings, number: u32, run: u16, own: &[u8]) -> Result<Column, Refusal> {
        let Settings { n, t, w } = settings;
        let outcome = archive::open(n, t, w, number, run, own);
        Refusal::from_answer(outcome.answer)?;
        Ok(Column {
            record: outcome.column,
        })
    }

    /// A column with a record that was kept elsewhere. Its bits may be anything: each call checks them.
    pub fn from_record(record: archive::Column) -> Column {
        Column { record }
    }

    pub fn record(&self) -> &archive::Column {
        &self.record
    }

    /// The column's number, 1 to n.
    pub fn number(&self) -> u32 {
        self.record.who.number
    }

    /// The round, 1 to 3, or 4 at the end.
    pub fn round(&self) -> u32 {
        self.record.round
    }

    /// How many of the frames that came in slot k, which is column k's, were refused 9 to 15 since the opening, up to the count's top,
    /// where it stays; None where there is no column k. It is 0 for the column itself, whose slot is refused 8, which is not counted. Of a
    /// record made by hand, what stands there.
    pub fn refused(&self, k: u32) -> Option<u32> {
        let at = place(k, self.record.who.n)?;
        self.record.refused.get(at).copied()
    }

    /// The sum of all counts. As long as none of them has reached its top, it is how many frames were refused 9 to 15 since the opening;
    /// from then on it may be less.
    pub fn refused_in_all(&self) -> u64 {
        self.record.refused.into_iter().map(u64::from).sum()
    }

    /// Takes the frame that came in slot k, which is column k's: one of the round, or one of the round that follows, which is kept and
    /// counts as taken when that round opens. A refusal 9 to 15 is the frame's fault, and counted for its slot.
    pub fn take(&mut self, slot: u32, frame: &[u8]) -> Result<(), Refusal> {
        let outcome = archive::take(&self.record, slot, frame);
        self.record = outcome.column;
        Refusal::from_answer(outcome.answer)
    }

    /// The bytes of the round's frame; 0 where sending is refused for another reason than the buffer.
    pub fn frame_size(&self) -> usize {
        archive::frame_size(&self.record) as usize
    }

    /// Writes the round's frame in front of the buffer, and hands that part of it back.
    pub fn send<'a>(&self, buffer: &'a mut [u8]) -> Result<&'a [u8], Refusal> {
        Refusal::from_answer(archive::send(&self.record, buffer))?;
        Ok(&buffer[..self.frame_size()])
    }

    /// Closes the round. The next one opens with the frames that came early for it.
    pub fn close(&mut self) -> Result<(), Refusal> {
        let outcome = archive::close(&self.record);
        self.record = outcome.column;
        Refusal::from_answer(outcome.answer)
    }

    /// What the column believes at the end of round three, and how far off it found each sender.
    pub fn result(&self) -> Result<Beliefs, Refusal> {
        let held = archive::result(&self.record);
        Refusal::from_answer(held.answer)?;
        Ok(Beliefs {
            n: self.record.who.n,
            w: self.record.who.w as usize,
            held,
        })
    }

    /// The level of the group and the column's correction, of values that are heights: signed, of four bytes, high byte first. Where b
    /// columns are blank, at confidence 0, the t - b lowest and the t - b highest of the other heights are dropped, and the lowest and the
    /// highest left are added and halved, rounded down. Refused where the column has not finished, where w is not 4, and where b is above t.
    ///
    /// Where at most t columns are bad, and the good columns' frames reach each other in time with nothing else under their slots, no good
    /// column that has finished is refused its level; it lies between the lowest and the highest good height, and the levels of two differ
    /// by at most half of the spread of good heights, rounded up. So good columns that go to their levels and exchange again come together,
    /// until one tenth or nothing is left of the spread; one that comes to stand at height 0 is refused at its next opening, as blank.
    pub fn level(&self) -> Result<Level, Refusal> {
        let archive::Level {
            answer,
            level,
            correction,
        } = archive::level(&self.record);
        Refusal::from_answer(answer)?;
        Ok(Level { level, correction })
    }
}

/// What the motors act on, in tenths of a millimetre.
#[derive(Clone, Copy, Debug, PartialEq, Eq)]
pub struct Level {
    /// The level of the group.
    pub level: i64,
    /// The level less the column's own height: how far to go, down where it is negative.
    pub correction: i64,
}

/// The values of all columns, each with a confidence, and how far off each sender was in rounds two and three.
#[derive(Clone, Copy)]
pub struct Beliefs {
    n: u32,
    w: usize,
    held: archive::Holdings,
}

impl Beliefs {
    /// The value of column k and its confidence; None where there is no column k. Of a record that the calls made, the confidence is 0, 1
    /// or 2, and the value zeros where it is 0; of one made by hand, what stands there.
    pub fn of(&self, k: u32) -> Option<(&[u8], u8)> {
        let at = place(k, self.n)?;
        Some((
            &self.held.values[at * self.w..(at + 1) * self.w],
            self.held.confidences[at],
        ))
    }

    /// The same of columns 1 to n.
    pub fn all(&self) -> impl Iterator<Item = (&[u8], u8)> {
        (1..=self.n).filter_map(|k| self.of(k))
    }

    /// How far off sender k was in round two, 0 places for the column itself; None where there is no column k. Of a record made by hand,
    /// what stands there.
    pub fn told_two(&self, k: u32) -> Option<Told> {
        self.told(&self.held.told_two, k)
    }

    /// The same in round three.
    pub fn told_three(&self, k: u32) -> Option<Told> {
        self.told(&self.held.told_three, k)
    }

    fn told(&self, senders: &[u8; archive::MOST_COLUMNS], k: u32) -> Option<Told> {
        place(k, self.n).map(|at| Told::from_byte(senders[at]))
    }
}

/// Where column k of n stands in the lists.
fn place(k: u32, n: u32) -> Option<usize> {
    (1..=n).contains(&k).then(|| k as usize - 1)
}

/// What a round told of a sender. Where at most t columns are bad, and the good columns' frames reach each other in time with nothing else
/// under their slots, it is of a good sender `Changed`, by at most the count of bad columns: these may have sent the two different values.
#[derive(Clone, Copy, Debug, PartialEq, Eq)]
pub enum Told {
    /// So many of the n + 2t places, columns' values and check values together, were changed when its row was repaired: at most 52, of a
    /// record that the calls made.
    Changed(u8),
    /// No frame of the sender's counted in that round.
    Missing,
    /// Its check values fit no vector near.
    Nothing,
}

impl Told {
    /// The byte as a record has it. One that no call leaves there, 53 to 253, is read as a number.
    pub fn from_byte(byte: u8) -> Told {
        match byte {
            archive::TOLD_MISSING => Told::Missing,
            archive::TOLD_NONE => Told::Nothing,
            places => Told::Changed(places),
        }
    }
}

/// The 2t check values of a vector of n values, in front of the output, whose other bytes are kept.
pub fn check_values(settings: Settings, vector: &[u8], output: &mut [u8]) -> Result<(), Refusal> {
    let Settings { n, t, w } = settings;
    Refusal::from_answer(archive::check_values(n, t, w, vector, output))
}

/// What repair found.
#[derive(Clone, Copy, Debug, PartialEq, Eq)]
pub enum Repair {
    /// The output begins with the one vector near enough in every byte plane. So many of the n + 2t places, columns' values and check
    /// values together, were changed: a place counts once if any byte of it changed. And so many were tried in each plane.
    Repaired { changed: u32, tried: Tried },
    /// Some plane has no codeword near; the output keeps its bytes. All n + 2t places of such a plane were tried, and of each other those
    /// up to its last wrong one.
    Nothing { tried: Tried },
}

/// How many places the search for wrong ones tried in each byte plane: plane p, from 0 on, is byte p of every value and check value.
#[derive(Clone, Copy, Debug, PartialEq, Eq)]
pub struct Tried {
    w: usize,
    places: [u8; archive::VALUE_ROOM],
}

impl Tried {
    /// The w planes. A search goes through columns 1 to n, then checks 1 to 2t, and ends at the last wrong one: 0 where none is wrong, and
    /// all n + 2t where the plane has no codeword near, whatever the other planes have; all n + 2t too where the last check is wrong.
    pub fn planes(&self) -> &[u8] {
        &self.places[..self.w]
    }
}

/// The archive's answer where nothing is near.
const NONE: u32 = 256;

/// The vector of n values repaired by the 2t check values received, in front of the output, whose other bytes are kept.
///
/// ```
/// use sajowemi::{Repair, Settings, check_values, repair};
///
/// let settings = Settings { n: 4, t: 1, w: 2 };
/// let (mut vector, mut checks) = ([1, 2, 3, 4, 5, 6, 7, 8], [0; 4]);
/// check_values(settings, &vector, &mut checks)?;
/// vector[5] = 60; // the second byte of column 3's value
///
/// let mut output = [0; 8];
/// match repair(settings, &vector, &checks, &mut output)? {
///     Repair::Repaired { changed, tried } => {
///         assert_eq!((changed, tried.planes()), (1, &[0, 3][..]));
///         assert_eq!(output, [1, 2, 3, 4, 5, 6, 7, 8]);
///     }
///     Repair::Nothing { .. } => panic!("one place is wrong, and one is borne"),
/// }
/// # Ok::<(), sajowemi::Refusal>(())
/// ```
pub fn repair(
    settings: Settings,
    vector: &[u8],
    checks: &[u8],
    output: &mut [u8],
) -> Result<Repair, Refusal> {
    let Settings { n, t, w } = settings;
    let archive::Repaired {
        answer,
        changed,
        tried: places,
    } = archive::repair(n, t, w, vector, checks, output);
    let tried = Tried {
        w: w as usize,
        places,
    };
    match answer {
        NONE => Ok(Repair::Nothing { tried }),
        _ => Refusal::from_answer(answer).map(|()| Repair::Repaired { changed, tried }),
    }
}
