//! Safe calls of Chordvenus, the proved switch planner, over its archive for x86-64 Linux.
//!
//! A switch has N inputs and N outputs, each side numbered from 0. A demand is N * N cells: cell i * N + j
//! is how many slots input i asks of output j. A line is all cells of one input or all of one output, and T
//! is the largest sum of a line. A plan is records of [`RECORD_SIZE`] bytes: a switch setting each, and for
//! how many slots it is held. A setting grants its hold to each pair that it joins; a plan covers a demand
//! if every pair is granted what it asks or more. Empty slots are what is granted beyond that.
//!
//! Functions at the top of the crate take the memory that they write from the caller and answer an
//! [`Answer`]: [`Answer::done`] makes a `Result` of it. Those of [`owned`] make a `Vec` that is just large
//! enough. Plans are read through [`Plan`], an iterator, or through [`Reader`], which steps as the proved
//! reader does. [`second`] has the second edition, for switches of up to 128 ports.
//!
//! For every input a call ends, stays inside the memory that it is lent, and gives the one answer that its
//! rules allow. A refusal changes no lent byte, and answers 0 for all that it counts. Success changes only
//! what the call says that it writes. A buffer of length 0 asks how much room a plan needs: the answer has
//! [`Code::Room`], and its place is how many records there will be.
//!
//! The stack is the one thing that a caller still owes: [`stack`] says how many bytes each call may use. A
//! thread of Rust's has far more, unless it is given less.
//!
//! ```
//! let cells = [2, 1, 1, 2];
//! let mut plan = [0; chordvenus::exact_bytes(2)];
//! let answer = chordvenus::exact(2, &cells, &mut plan).done()?;
//! let used = &plan[..answer.records as usize * chordvenus::RECORD_SIZE];
//! for record in chordvenus::Plan::open(2, used)? {
//!     let record = record?;
//!     println!("{} {:?} {:?}", record.hold, record.output(0), record.output(1));
//! }
//! # Ok::<(), chordvenus::Refused>(())
//! ```
//!
//! An answer that is thrown away draws a warning:
//!
//! ```compile_fail
//! #![deny(unused_must_use)]
//! chordvenus::wish(0);
//! ```
//!
//! The crate needs neither `std` nor a heap. The feature `alloc` has [`owned`]; `std`, which is on unless
//! turned off, has that and `std::error::Error` for [`Refused`].
#![no_std]
#![warn(missing_docs)]

#[cfg(feature = "alloc")]
extern crate alloc;
#[cfg(feature = "std")]
extern crate std;

mod code;
#[cfg(feature = "alloc")]
pub mod owned;
pub mod reading;
pub mod second;
pub mod stack;
pub mod sys;

pub use code::{About, Code, Line, Refused};
pub use reading::outputs;
pub use sys::Answer;

/// The largest N.
pub const MOST_PORTS: usize = 64;
/// Bytes of a plan record.
pub const RECORD_SIZE: usize = 68;
/// Bytes of a wish record.
pub const WISH_SIZE: usize = 8;

/// Bytes of a task record.
pub const TASK_SIZE: usize = 12;
/// Bytes of an entry of the list that a rescue writes.
pub const ENTRY_SIZE: usize = 4;
/// The output of an idle input.
pub const IDLE: u8 = 255;
/// The largest sum of a line, and the largest wish.
pub const MOST_LINE: u64 = 65_535;
/// The largest T of the quick cover.
pub const MOST_QUICK: u64 = 1_024;
/// The most records of a plan that is read.
pub const MOST_RECORDS: usize = 8_192;

/// One setting of a plan and its hold.
pub type Record = reading::Record<64>;
/// What one step of reading a plan gives.
pub type Step = reading::Step<64>;
/// A plan's bytes and the place reached, stepped through as the proved reader does.
pub type Reader<'a> = reading::Reader<'a, 64>;
/// The records of a plan, as an iterator.
pub type Plan<'a> = reading::Plan<'a, 64>;

/// Bytes that hold the exact plan of every demand of N ports, for arrays: N * N - 2 * N + 2 records, as
/// many as [`exact_room`] answers for lines of any length. N is 1 or more.
pub const fn exact_bytes(n: usize) -> usize {
    (n * n + 2 - 2 * n) * RECORD_SIZE
}

/// Bytes that hold the doubled plan of every demand of N ports, by either rule: 2 * N records.
pub const fn doubled_bytes(n: usize) -> usize {
    2 * n * RECORD_SIZE
}

/// Bytes that hold the quick cover of every demand whose lines sum to `longest` or less: 2 * `longest` - 1
/// records, and none where that is 0.
pub const fn quick_bytes(longest: usize) -> usize {
    match longest {
        0 => 0,
        _ => (2 * longest - 1) * RECORD_SIZE,
    }
}

/// The version of the archive, which is [`sys::VERSION`]: with another a program does not link.
#[must_use]
pub fn version() -> u64 {
    // SAFETY: no memory is lent; the same holds for the next call.
    unsafe { sys::cv_version() }
}

/// One wish, as the bits of a binary32, to slots. A wish above zero is rounded up to whole slots and is
/// never worth fewer than 2; zero and minus zero are worth 0.
///
/// Codes: 6, 7, 8, each with place 0. Done: `total` is the slots.
#[must_use]
pub fn wish(bits: u32) -> Answer {
    unsafe { sys::cv_wish(bits) }
}

/// A wish list to a demand, each wish by the rule of [`wish`]. The list is records of [`WISH_SIZE`] bytes:
/// input, output, a zero byte and another, and the four bytes of a binary32, low byte first. Pairs that no
/// record names ask nothing; a wish of zero names its pair like any other. Lines are not checked here.
///
/// Codes: 1, 2, 9, then of the first faulty record the first of 11, 12, 6, 7, 8. Writes: all N * N cells.
/// Done: `records` is the number of wish records.
#[must_use]
pub fn wishes(n: u64, list: &[u8], cells: &mut [u32]) -> Answer {
    // SAFETY: a slice has as many elements as its length says, and a mutable one overlaps no other;
    // the same holds for each call below.
    unsafe { sys::cv_wishes(n, list.as_ptr(), list.len(), cells.as_mut_ptr(), cells.len()) }
}

/// The exact plan: it covers the demand with a total hold of T, and no plan that covers has less. Cells in
/// order are filled up so that every line sums to T; then, until all is zero, a full setting over cells
/// that are not zero is taken off for the smallest of its cells. Of all such settings it is the one whose
/// outputs come first in dictionary order. At most T records, and at most N * N - 2 * N + 2.
///
/// Codes: 1, 2, 3, 5. Writes: the plan's records, at the start of `plan`. Done: `records`, `longest`,
/// `total`, `empty`.
#[must_use]
pub fn exact(n: u64, cells: &[u32], plan: &mut [u8]) -> Answer {
    unsafe { sys::cv_exact(n, cells.as_ptr(), cells.len(), plan.as_mut_ptr(), plan.len()) }
}

/// The doubled plan: few records, at most twice the time. With u = T / N rounded up, its first part is the
/// exact plan of the quotients (each cell divided by u), every hold multiplied by u. Its second part gives each pair what
/// the division left over: rotation k joins input i to output (i + k) mod N and is held as long as the pair
/// of it with the most left over needs; where that is 0, it is not there. At most 2 * N records, and a
/// total hold of at most 2 * T - 1.
///
/// Codes: 1, 2, 3, 5. Writes: the plan's records, at the start of `plan`. Done: `records`, `longest`,
/// `total`, `empty`.
#[must_use]
pub fn doubled(n: u64, cells: &[u32], plan: &mut [u8]) -> Answer {
    unsafe { sys::cv_doubled(n, cells.as_ptr(), cells.len(), plan.as_mut_ptr(), plan.len()) }
}

/// The doubled plan by the rule before that of [`doubled`], for controllers that expect all N rotations:
/// where u is 2 or more, every rotation is there, held for u - 1 slots. The same bounds hold.
///
/// Codes: 1, 2, 3, 5. Writes: the plan's records, at the start of `plan`. Done: `records`, `longest`,
/// `total`, `empty`.
#[must_use]
pub fn doubled_every_rotation(n: u64, cells: &[u32], plan: &mut [u8]) -> Answer {
    unsafe { sys::cv_doubled_every_rotation(n, cells.as_ptr(), cells.len(), plan.as_mut_ptr(), plan.len()) }
}

/// The quick cover: one record of hold 1 for each slot s = 0, 1, .. until nothing is left. In slot s the
/// inputs choose one after the other, s mod N first and on around: the lowest output that no input has
/// chosen yet and that the pair still wants, or none. T is at most [`MOST_QUICK`]. T to 2 * T - 1 records.
///
/// Codes: 1, 2, 3, 4, 5. Writes: the plan's records, at the start of `plan`. Done: `records`, `longest`,
/// `total`, `empty`.
#[must_use]
pub fn quick(n: u64, cells: &[u32], plan: &mut [u8]) -> Answer {
    unsafe { sys::cv_quick(n, cells.as_ptr(), cells.len(), plan.as_mut_ptr(), plan.len()) }
}

/// The records that suffice for the exact plan of any demand of N ports whose lines sum to `longest` or
/// less: that many, or N * N - 2 * N + 2, whichever is less. With room for so many, [`exact`] never
/// answers code 5.
///
/// Codes: 1, 3. Done: `records`.
#[must_use]
pub fn exact_room(n: u64, longest: u64) -> Answer {
    // SAFETY: no memory is lent; the same holds for each room below.
    unsafe { sys::cv_exact_room(n, longest) }
}

/// The records that suffice for the doubled plan, by either rule, and for [`grating_doubled`]: 2 * N.
///
/// Codes: 1, 3. Done: `records`.
#[must_use]
pub fn doubled_room(n: u64, longest: u64) -> Answer {
    unsafe { sys::cv_doubled_room(n, longest) }
}

/// The records that suffice for the quick cover of any demand whose lines sum to `longest` or less:
/// 2 * `longest` - 1, and none where that is 0.
///
/// Codes: 1, 3, 4. Done: `records`.
#[must_use]
pub fn quick_room(n: u64, longest: u64) -> Answer {
    unsafe { sys::cv_quick_room(n, longest) }
}

/// The doubled plan for the grating fabric, where the wavelength of a pair, input i to output j, is
/// (j - i) mod N. It is that of [`doubled`] but for the rotations: in their place stand anti-rotations, of
/// which number k gives input i the output (k - i) mod N, held by the same rule. None of them has more than
/// two inputs on a wavelength, or more than one where N is odd. Records of the first part may;
/// [`grating_report`] tells.
///
/// Codes: 1, 2, 3, 5. Writes: the plan's records, at the start of `plan`. Done: `records`, `total`.
#[must_use]
pub fn grating_doubled(n: u64, cells: &[u32], plan: &mut [u8]) -> Answer {
    unsafe { sys::cv_grating_doubled(n, cells.as_ptr(), cells.len(), plan.as_mut_ptr(), plan.len()) }
}

/// The quiet plan for the grating fabric: no setting has more than `limit` inputs on one wavelength. While
/// a cell is not 0, the inputs in order each take the lowest free output with slots left whose wavelength
/// fewer than `limit` inputs use in this setting, or stay idle; the setting is held for the smallest cell
/// that it joins. Every pair is granted exactly its cell. At most as many records as cells that are not 0,
/// and a total of less than three times that of any plan that covers the demand within the limit. With
/// less room than a record for each cell that is not 0 the records are counted first.
///
/// Codes: 1, 2, 3, 17, 5. Writes: the plan's records, at the start of `plan`. Done: `records`, `longest`,
/// `total`; `empty` is 0.
#[must_use]
pub fn grating_quiet(n: u64, cells: &[u32], limit: u64, plan: &mut [u8]) -> Answer {
    unsafe { sys::cv_grating_quiet(n, cells.as_ptr(), cells.len(), limit, plan.as_mut_ptr(), plan.len()) }
}

/// The least total that any plan can have that covers the demand and has no more than `limit` inputs of a
/// setting on one wavelength: the larger of T and, rounded up, the most slots asked on one wavelength over
/// `limit`.
///
/// Codes: 1, 2, 3, 17. Done: `longest`, `total`.
#[must_use]
pub fn grating_least(n: u64, cells: &[u32], limit: u64) -> Answer {
    unsafe { sys::cv_grating_least(n, cells.as_ptr(), cells.len(), limit) }
}

/// What the records of a plan from anywhere do on the grating fabric: for each the largest number of inputs
/// on one wavelength, of those that are not idle; 0 where all are.
///
/// Codes: 1, 9, 10, 11, then 5 where `report` is shorter than one byte for each record. Writes: one byte
/// for each record, in order, at the start of `report`. Done: `records`, `total`.
#[must_use]
pub fn grating_report(n: u64, plan: &[u8], report: &mut [u8]) -> Answer {
    unsafe { sys::cv_grating_report(n, plan.as_ptr(), plan.len(), report.as_mut_ptr(), report.len()) }
}

/// Checks a plan from anywhere against a demand.
///
/// Codes: 1, 2, 3, 9, 10, 11, 13. Done: `records`, `longest`, `total`, `empty`; the plan covers the demand.
#[must_use]
pub fn check(n: u64, cells: &[u32], plan: &[u8]) -> Answer {
    unsafe { sys::cv_check(n, cells.as_ptr(), cells.len(), plan.as_ptr(), plan.len()) }
}

/// The length of a plan at a switching time of `d` slots: total hold, and `d` for each record that moves
/// the mirrors, which are the first and those whose outputs differ from the record before.
///
/// Codes: 1, 9, 10, 11. Done: `length`, `records`, `total`.
#[must_use]
pub fn length(n: u64, plan: &[u8], d: u16) -> Answer {
    unsafe { sys::cv_length(n, plan.as_ptr(), plan.len(), d) }
}

/// Joins equal settings: the plan is written anew into a second buffer, each setting once, where it came
/// first, held for the sum of its holds. A sum that no record can hold becomes as many records of 65,535 as
/// fit into it and one more for the rest, unless the rest is 0. No pair is granted more or less than
/// before. Never more records than were read.
///
/// Codes: 1, 9, 10, 11, 5. Writes: the joined plan's records, at the start of `joined`. Done: `records`
/// and `total` of the joined plan.
#[must_use]
pub fn join(n: u64, plan: &[u8], joined: &mut [u8]) -> Answer {
    unsafe { sys::cv_join(n, plan.as_ptr(), plan.len(), joined.as_mut_ptr(), joined.len()) }
}

/// Writes one record. All 64 outputs are given; those of inputs from N on are [`IDLE`]. [`outputs`] makes
/// them of options.
///
/// Codes: 1, 5 (place 1), 11 (place 0). Writes: the first [`RECORD_SIZE`] bytes of `plan`. Done:
/// `records` is 1, `total` is the hold.
///
/// ```
/// let mut plan = [0; chordvenus::RECORD_SIZE];
/// chordvenus::write(7, 3, &chordvenus::outputs(&[Some(2), None, Some(0)]), &mut plan).done()?;
/// let record = chordvenus::Plan::open(3, &plan)?.next().unwrap()?;
/// assert_eq!((record.output(0), record.output(1)), (Some(2), None));
/// # Ok::<(), chordvenus::Refused>(())
/// ```
#[must_use]
pub fn write(hold: u16, n: u64, outputs: &[u8; 64], plan: &mut [u8]) -> Answer {
    unsafe { sys::cv_write(hold, n, outputs.as_ptr(), plan.as_mut_ptr(), plan.len()) }
}

/// Opens a plan for N and counts its records; no record is judged yet.
///
/// Codes: 1, 9, 10. Done: `records`.
#[must_use]
pub fn open(n: u64, plan: &[u8]) -> Answer {
    unsafe { sys::cv_open(n, plan.as_ptr(), plan.len()) }
}

/// The step at record `at` of a plan opened for N: that record, the end (at every `at` from the number of
/// records on, and at every `at` where [`open`] refuses the plan), or that the record is not well formed.
#[must_use]
pub fn step_at(n: u64, plan: &[u8], at: u64) -> Step {
    let step = unsafe { sys::cv_step_at(n, plan.as_ptr(), plan.len(), at) };
    match step.kind {
        0 => Step::Record(Record { hold: step.hold as u16, outputs: step.outputs }),
        1 => Step::End,
        _ => Step::Malformed(step.place),
    }
}

impl reading::Edition<64> for reading::Of<64> {
    fn open(n: u64, plan: &[u8]) -> Answer {
        open(n, plan)
    }

    fn step_at(n: u64, plan: &[u8], at: u64) -> Step {
        step_at(n, plan, at)
    }
}

/// Moves a plan to the second edition: the same holds and settings in records of 132 bytes, in a second
/// buffer. N is at most [`MOST_PORTS`] and the records at most [`MOST_RECORDS`]. What was moved grants what
/// it granted, and [`to_first`] makes the same bytes of it again.
///
/// Codes: 1, 9, 10, 11, 5. Writes: the moved plan's records, at the start of `moved`. Done: `records` and
/// `total` of the moved plan.
#[must_use]
pub fn to_second(n: u64, plan: &[u8], moved: &mut [u8]) -> Answer {
    unsafe { sys::cv_to_second(n, plan.as_ptr(), plan.len(), moved.as_mut_ptr(), moved.len()) }
}

/// Moves a plan of the second edition to the first, within the first edition's limits: N over
/// [`MOST_PORTS`] is code 1, and more than [`MOST_RECORDS`] records are code 10.
///
/// Codes, writes, done: as [`to_second`].
#[must_use]
pub fn to_first(n: u64, plan: &[u8], moved: &mut [u8]) -> Answer {
    unsafe { sys::cv_to_first(n, plan.as_ptr(), plan.len(), moved.as_mut_ptr(), moved.len()) }
}

/// The record in force at a slot, its own bytes, slots counted from 0 by holds alone: a part of tonight's
/// plan or, from the slot on where that is over, of the standby plan, which begins there and repeats
/// without end. Both plans are judged whole, whatever the slot is.
///
/// Codes: 1; 9, 10, 11 for tonight's plan; 9, 10, 11 for the standby plan; 14. [`Answer::about`] says which
/// of the two it is.
pub fn in_force<'a>(n: u64, tonight: &'a [u8], standby: &'a [u8], slot: u64) -> Result<&'a [u8], Refused> {
    let part = unsafe {
        sys::cv_in_force(n, tonight.as_ptr(), tonight.len(), standby.as_ptr(), standby.len(), slot)
    };
    part.answer.done()?;
    let plan = if part.plan == About::Tonight as u64 { tonight } else { standby };
    Ok(&plan[part.start as usize..][..part.size as usize])
}

/// What a batch that was stopped leaves to ask: for each pair the slots asked that the plan's first `first`
/// records did not grant, and the new wish added. Slots granted beyond what was asked are lost. The records
/// behind them are judged too. The new wishes are cells, not a wish list, so that a cell of 1 stays 1.
///
/// Codes: 1; 2 where any of the three buffers of cells does not have N * N; 9, 10, 11; 15; then 3 for the
/// demand, for the new wishes and for the new demand, and [`Answer::about`] says for which. Writes: all
/// N * N cells. Done: every count is 0.
#[must_use]
pub fn carry_over(
    n: u64,
    asked: &[u32],
    plan: &[u8],
    first: u64,
    wished: &[u32],
    cells: &mut [u32],
) -> Answer {
    unsafe {
        sys::cv_carry_over(
            n,
            asked.as_ptr(),
            asked.len(),
            plan.as_ptr(),
            plan.len(),
            first,
            wished.as_ptr(),
            wished.len(),
            cells.as_mut_ptr(),
            cells.len(),
        )
    }
}

/// The open-shop plan, for a switch whose ports move on their own: every pair with slots is a task that takes
/// `d`, for switching, and its slots. Tasks start at time 0 and whenever others have ended: the idle outputs,
/// from the lowest up, each start one with the lowest idle input that has one left for them.
/// The records, of [`TASK_SIZE`] bytes, stand in order of start, and of output where starts are equal;
/// [`Task::read`] reads one. N * N of them always suffice.
///
/// Codes: 1, 2, 3, 5. Writes: the task records, at the start of `tasks`. Done: `records` is the number of
/// tasks, `total` the latest end, or 0.
///
/// ```
/// let mut tasks = [0; 4 * chordvenus::TASK_SIZE];
/// let answer = chordvenus::shop(2, &[1, 2, 3, 1], 1, &mut tasks).done()?;
/// assert_eq!((answer.records, answer.total), (4, 6));
/// assert_eq!(chordvenus::tasks(2, &tasks), answer);
/// # Ok::<(), chordvenus::Refused>(())
/// ```
#[must_use]
pub fn shop(n: u64, cells: &[u32], d: u16, tasks: &mut [u8]) -> Answer {
    unsafe { sys::cv_shop(n, cells.as_ptr(), cells.len(), d, tasks.as_mut_ptr(), tasks.len()) }
}

/// Reads tasks from anywhere, any number of them. A task holds its ports from its start on and is over at its
/// end. Gaps are fine, and so is a pair that runs again later.
///
/// Codes: 1, 9, then 11 for the first record that breaks a rule of its own, does not follow the record before
/// it by start and then output, or overlaps one before it on its input or its output. Done: `records` is the
/// number of tasks, `total` the latest end, or 0.
#[must_use]
pub fn tasks(n: u64, tasks: &[u8]) -> Answer {
    unsafe { sys::cv_tasks(n, tasks.as_ptr(), tasks.len()) }
}

/// A task: a pair at work from its start on; at its end it is over.
#[derive(Clone, Copy, Debug, PartialEq, Eq)]
pub struct Task {
    /// The input's number.
    pub input: u8,
    /// The output's number.
    pub output: u8,
    /// When it starts.
    pub start: u32,
    /// When it is over.
    pub end: u32,
}

impl Task {
    /// The task of a record, as [`shop`] writes it.
    pub fn read(record: &[u8; TASK_SIZE]) -> Task {
        let word =
            |at: usize| u32::from_le_bytes([record[at], record[at + 1], record[at + 2], record[at + 3]]);
        Task { input: record[0], output: record[1], start: word(4), end: word(8) }
    }
}

/// A plan for a demand out of a damaged one: its well-formed records as they stand, and behind them the exact
/// plan of what those leave uncovered. The list tells of each record that was dropped, in order, in
/// [`ENTRY_SIZE`] bytes, which [`Entry::read`] takes apart.
///
/// Codes: 1, 2, 3; 10 for the damaged plan, whose torn tail counts as a record, and for the rescued one; 5 for
/// the plan; 16 for the list. Writes: the rescued plan's records, and an entry for each record dropped. Done:
/// `records`, `total` and `empty` of the rescued plan, `longest` of the demand, `added`, `dropped`.
#[must_use]
pub fn rescue(n: u64, cells: &[u32], damaged: &[u8], plan: &mut [u8], dropped: &mut [u8]) -> Answer {
    unsafe {
        sys::cv_rescue(
            n,
            cells.as_ptr(),
            cells.len(),
            damaged.as_ptr(),
            damaged.len(),
            plan.as_mut_ptr(),
            plan.len(),
            dropped.as_mut_ptr(),
            dropped.len(),
        )
    }
}

/// A record that a rescue dropped.
#[derive(Clone, Copy, Debug, PartialEq, Eq)]
pub struct Entry {
    /// Its number in the damaged plan; of a torn tail the number of whole records.
    pub number: u16,
    /// Why: [`Entry::BAD_HOLD`] and the like, the first that is true of it.
    pub reason: u8,
}

impl Entry {
    /// Its hold is 0.
    pub const BAD_HOLD: u8 = 1;
    /// Its N is another.
    pub const BAD_PORTS: u8 = 2;
    /// Its fourth byte is not 0.
    pub const BAD_SPARE: u8 = 3;
    /// One of its first N outputs is neither idle nor a port.
    pub const BAD_OUTPUT: u8 = 4;
    /// Two of its first N inputs have one output.
    pub const OUTPUT_TWICE: u8 = 5;
    /// An output behind the first N is not idle.
    pub const PAST_PORTS: u8 = 6;
    /// The bytes behind the last whole record are no record.
    pub const TORN_TAIL: u8 = 7;

    /// The entries of a list of [`rescue`]'s.
    pub fn read(list: &[u8]) -> impl Iterator<Item = Entry> + '_ {
        list.chunks_exact(ENTRY_SIZE)
            .map(|entry| Entry { number: u16::from_le_bytes([entry[0], entry[1]]), reason: entry[2] })
    }
}
