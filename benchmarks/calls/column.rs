//! A column's calls, whichever program has them.

pub const LONGEST_FRAME: usize = 164;

/// n columns, t bad ones borne, w bytes of a value.
#[derive(Clone, Copy)]
pub struct Group {
    pub n: u32,
    pub t: u32,
    pub w: u32,
}

/// What a result call answers, zeros behind n columns: values one after the other, confidences, and what rounds two and three told.
#[derive(Debug, PartialEq)]
pub struct Ended {
    pub answer: u32,
    pub values: [u8; 256],
    pub confidences: [u8; 32],
    pub told_two: [u8; 32],
    pub told_three: [u8; 32],
}

/// Every call answers 0, or why it was refused.
pub trait Calls: Copy {
    /// A record for a column to be opened in.
    fn unopened() -> Self;
    fn open(&mut self, group: Group, number: u32, run: u16, own: &[u8]) -> u32;
    fn take(&mut self, slot: u32, frame: &[u8]) -> u32;
    /// The frame's length.
    fn send(&self, buffer: &mut [u8]) -> Result<usize, u32>;
    fn close(&mut self) -> u32;
    /// The call by itself, of which only the answer is handed on.
    fn result(&self) -> u32;
    fn ended(&self) -> Ended;
    /// How many frames of a slot were refused.
    fn refused(&self, slot: u32) -> Option<u32>;
}

/// Every field of a record, and of nothing else.
pub trait Fields {
    fn fields(&self) -> Vec<u8>;
}

/// The calls of the safe crate, under whatever name it is linked.
#[macro_export]
macro_rules! calls_of {
    ($safe:ident) => {
        impl $crate::column::Calls for $safe::Column {
            fn unopened() -> Self {
                let smallest = $safe::Settings { n: 1, t: 0, w: 1 };
                $safe::Column::open(smallest, 1, 0, &[1]).unwrap()
            }

            fn open(
                &mut self,
                group: $crate::column::Group,
                number: u32,
                run: u16,
                own: &[u8],
            ) -> u32 {
                let $crate::column::Group { n, t, w } = group;
                let opened = $safe::Column::open($safe::Settings { n, t, w }, number, run, own);
                opened.map_or_else($safe::Refusal::number, |column| {
                    *self = column;
                    0
                })
            }

            fn take(&mut self, slot: u32, frame: &[u8]) -> u32 {
                let taken = $safe::Column::take(self, slot, frame);
                taken.map_or_else($safe::Refusal::number, |()| 0)
            }

            fn send(&self, buffer: &mut [u8]) -> Result<usize, u32> {
                let sent = $safe::Column::send(self, buffer).map(<[u8]>::len);
                sent.map_err($safe::Refusal::number)
            }

            fn close(&mut self) -> u32 {
                $safe::Column::close(self).map_or_else($safe::Refusal::number, |()| 0)
            }

            fn result(&self) -> u32 {
                let beliefs = std::hint::black_box($safe::Column::result(self));
                beliefs.map_or_else($safe::Refusal::number, |_| 0)
            }

            fn ended(&self) -> $crate::column::Ended {
                let held = $safe::archive::result(self.record());
                $crate::column::Ended {
                    answer: held.answer,
                    values: held.values,
                    confidences: held.confidences,
                    told_two: held.told_two,
                    told_three: held.told_three,
                }
            }

            fn refused(&self, slot: u32) -> Option<u32> {
                $safe::Column::refused(self, slot)
            }
        }

        impl $crate::column::Fields for $safe::Column {
            fn fields(&self) -> Vec<u8> {
                let $safe::archive::Column {
                    who,
                    slots,
                    early,
                    found,
                    round,
                    refused,
                } = self.record();
                let mut words = vec![who.n, who.t, who.w, who.number, who.run.into(), *round];
                words.extend(refused);
                let mut bytes: Vec<u8> = words.into_iter().flat_map(u32::to_ne_bytes).collect();
                bytes.extend(who.own);
                for slot in slots.iter().chain(early) {
                    bytes.push(slot.taken);
                    bytes.extend(slot.bytes);
                }
                bytes.extend([found.heard, found.agreed, found.values].concat());
                bytes.extend([found.confidences, found.told_two, found.told_three].concat());
                bytes
            }
        }
    };
}
