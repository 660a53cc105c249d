//! Plans read record by record. Each type is over the number of output bytes that a record has, 64 in the
//! first edition and 128 in the second; [`crate::Plan`] and [`crate::second`] name the two.

use core::iter::FusedIterator;

use crate::{Answer, Code, Refused, IDLE};

/// One setting of a plan and its hold.
#[derive(Clone, Copy, Debug, PartialEq, Eq, Hash)]
pub struct Record<const PLACES: usize> {
    /// For how many slots the setting is held, 1 or more.
    pub hold: u16,
    /// The output of each input, [`IDLE`] where it has none and for every input from N on.
    pub outputs: [u8; PLACES],
}

impl<const PLACES: usize> Record<PLACES> {
    /// The output of an input, `None` where it is idle or beyond the record.
    pub fn output(&self, input: usize) -> Option<u8> {
        self.outputs.get(input).copied().filter(|&output| output != IDLE)
    }

    /// The pairs that the setting joins, inputs in order: input and output of each.
    pub fn pairs(&self) -> impl Iterator<Item = (u8, u8)> + '_ {
        (0..=u8::MAX).zip(self.outputs).filter(|&(_, output)| output != IDLE)
    }
}

/// The output bytes of a record, from the output of each input from 0 on; `None`, and every input that is
/// not named, is idle. Outputs beyond the record's bytes are left out.
pub fn outputs<const PLACES: usize>(of: &[Option<u8>]) -> [u8; PLACES] {
    let mut bytes = [IDLE; PLACES];
    for (byte, output) in bytes.iter_mut().zip(of) {
        *byte = output.unwrap_or(IDLE);
    }
    bytes
}

/// What one step of reading gives.
#[derive(Clone, Copy, Debug, PartialEq, Eq)]
pub enum Step<const PLACES: usize> {
    /// The record at this place.
    Record(Record<PLACES>),
    /// There is no record at this place, nor at any after it.
    End,
    /// The record at this place, whose number this is, is not well formed: [`Code::Malformed`].
    Malformed(u64),
}

/// How the plans of an edition are opened and stepped through.
pub trait Edition<const PLACES: usize> {
    /// Opens a plan for N and counts its records.
    fn open(n: u64, plan: &[u8]) -> Answer;
    /// The step at record `at`.
    fn step_at(n: u64, plan: &[u8], at: u64) -> Step<PLACES>;
}

/// The edition whose records have so many output bytes.
#[derive(Clone, Copy, Debug)]
pub enum Of<const PLACES: usize> {}

/// A plan's bytes and the place reached. It steps as the proved reader does: after the end every further
/// step is the end, and after a record that is not well formed every further step says so again.
#[derive(Clone, Debug)]
pub struct Reader<'a, const PLACES: usize> {
    n: u64,
    plan: &'a [u8],
    at: u64,
}

impl<'a, const PLACES: usize> Reader<'a, PLACES>
where
    Of<PLACES>: Edition<PLACES>,
{
    /// Opens a plan for N: the answer of opening it, whose codes are 1, 9 and 10 and which counts the
    /// records, and a reader at the first. Where opening is refused there is a reader all the same, and its
    /// every step is the end.
    pub fn open(n: u64, plan: &'a [u8]) -> (Answer, Self) {
        (Of::<PLACES>::open(n, plan), Reader { n, plan, at: 0 })
    }

    /// The next record, or the end, or that the record is not well formed; the last two leave the reader
    /// where it is.
    #[must_use]
    pub fn step(&mut self) -> Step<PLACES> {
        let step = Of::<PLACES>::step_at(self.n, self.plan, self.at);
        if let Step::Record(_) = step {
            self.at += 1;
        }
        step
    }
}

/// The records of a plan that was opened, for a `for` loop. Where one is not well formed its refusal is
/// given once, and then no more: this is where it parts from [`Reader`], which stays there.
#[must_use]
#[derive(Clone, Debug)]
pub struct Plan<'a, const PLACES: usize> {
    reader: Reader<'a, PLACES>,
    left: u64,
}

impl<'a, const PLACES: usize> Plan<'a, PLACES>
where
    Of<PLACES>: Edition<PLACES>,
{
    /// Opens a plan for N. Codes: 1, 9, 10; no record is judged yet.
    pub fn open(n: u64, plan: &'a [u8]) -> Result<Self, Refused> {
        let (answer, reader) = Reader::open(n, plan);
        let left = answer.done()?.records;
        Ok(Plan { reader, left })
    }
}

impl<const PLACES: usize> Iterator for Plan<'_, PLACES>
where
    Of<PLACES>: Edition<PLACES>,
{
    type Item = Result<Record<PLACES>, Refused>;

    fn next(&mut self) -> Option<Self::Item> {
        if self.left == 0 {
            return None;
        }
        match self.reader.step() {
            Step::Record(record) => {
                self.left -= 1;
                Some(Ok(record))
            }
            Step::End => {
                self.left = 0;
                None
            }
            Step::Malformed(place) => {
                self.left = 0;
                let code = Code::Malformed as u64;
                Some(Err(Refused(Answer { code, place, ..Answer::default() })))
            }
        }
    }

    /// At least one more where records are left, and at most all of them: one that is not well formed is
    /// the last.
    fn size_hint(&self) -> (usize, Option<usize>) {
        (usize::from(self.left > 0), usize::try_from(self.left).ok())
    }
}

impl<const PLACES: usize> FusedIterator for Plan<'_, PLACES> where Of<PLACES>: Edition<PLACES> {}
