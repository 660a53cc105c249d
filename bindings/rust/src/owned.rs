//! Calls that make the memory they write, a `Vec` of the size that always suffices and then cut to what was
//! written, in the place of calls that are lent it. What each call does is said at the function of the same
//! name at the top of the crate.
//!
//! ```
//! let plan = chordvenus::owned::exact(2, &[2, 1, 1, 2])?;
//! assert_eq!((plan.answer.records, plan.answer.total), (2, 3));
//! for record in chordvenus::Plan::open(2, &plan.bytes)? {
//!     println!("{:?}", record?.pairs().collect::<Vec<_>>());
//! }
//! # Ok::<(), chordvenus::Refused>(())
//! ```

use alloc::vec;
use alloc::vec::Vec;

use crate::{second, Answer, Entry, Refused, ENTRY_SIZE, MOST_LINE, MOST_QUICK, RECORD_SIZE, TASK_SIZE};

/// A plan that a call made, or tasks, and their counts.
#[derive(Clone, Debug, PartialEq, Eq)]
pub struct Planned {
    /// The records and nothing else.
    pub bytes: Vec<u8>,
    /// What the call answered; its code is 0.
    pub answer: Answer,
}

/// The cells of a wish list, as [`crate::wishes`] writes them.
pub fn wishes(n: u64, list: &[u8]) -> Result<Vec<u32>, Refused> {
    let mut cells = vec![0; cells_of(n)];
    crate::wishes(n, list, &mut cells).done()?;
    Ok(cells)
}

/// The exact plan, as [`crate::exact`] writes it.
pub fn exact(n: u64, cells: &[u32]) -> Result<Planned, Refused> {
    planned(RECORD_SIZE, crate::exact_room(n, longest(n, cells_of(n), cells).min(MOST_LINE)), |plan| {
        crate::exact(n, cells, plan)
    })
}

/// The doubled plan, as [`crate::doubled`] writes it.
pub fn doubled(n: u64, cells: &[u32]) -> Result<Planned, Refused> {
    planned(RECORD_SIZE, crate::doubled_room(n, 0), |plan| crate::doubled(n, cells, plan))
}

/// The doubled plan with every rotation, as [`crate::doubled_every_rotation`] writes it.
pub fn doubled_every_rotation(n: u64, cells: &[u32]) -> Result<Planned, Refused> {
    planned(RECORD_SIZE, crate::doubled_room(n, 0), |plan| crate::doubled_every_rotation(n, cells, plan))
}

/// The quick cover, as [`crate::quick`] writes it.
pub fn quick(n: u64, cells: &[u32]) -> Result<Planned, Refused> {
    planned(RECORD_SIZE, crate::quick_room(n, longest(n, cells_of(n), cells).min(MOST_QUICK)), |plan| {
        crate::quick(n, cells, plan)
    })
}

/// The grating fabric's doubled plan, as [`crate::grating_doubled`] writes it.
pub fn grating_doubled(n: u64, cells: &[u32]) -> Result<Planned, Refused> {
    planned(RECORD_SIZE, crate::doubled_room(n, 0), |plan| crate::grating_doubled(n, cells, plan))
}

/// The quiet plan, as [`crate::grating_quiet`] writes it: each record empties a cell, so there are no more of
/// them than cells that are not 0.
pub fn grating_quiet(n: u64, cells: &[u32], limit: u64) -> Result<Planned, Refused> {
    let asked = cells.iter().filter(|&&cell| cell != 0).count();
    let room = Answer { records: asked as u64, ..Answer::default() };
    planned(RECORD_SIZE, room, |plan| crate::grating_quiet(n, cells, limit, plan))
}

/// For each record the most inputs that share a wavelength, as [`crate::grating_report`] writes them.
pub fn grating_report(n: u64, plan: &[u8]) -> Result<Vec<u8>, Refused> {
    let mut report = vec![0; plan.len() / RECORD_SIZE];
    crate::grating_report(n, plan, &mut report).done()?;
    Ok(report)
}

/// The plan with equal settings joined, as [`crate::join`] writes it.
pub fn join(n: u64, plan: &[u8]) -> Result<Planned, Refused> {
    planned(RECORD_SIZE, as_many(plan, RECORD_SIZE), |joined| crate::join(n, plan, joined))
}

/// The plan in the second edition's records, as [`crate::to_second`] writes it.
pub fn to_second(n: u64, plan: &[u8]) -> Result<Planned, Refused> {
    planned(second::RECORD_SIZE, as_many(plan, RECORD_SIZE), |moved| crate::to_second(n, plan, moved))
}

/// The plan in the first edition's records, as [`crate::to_first`] writes it.
pub fn to_first(n: u64, plan: &[u8]) -> Result<Planned, Refused> {
    planned(RECORD_SIZE, as_many(plan, second::RECORD_SIZE), |moved| crate::to_first(n, plan, moved))
}

/// What a stopped batch leaves to ask, as [`crate::carry_over`] writes it.
pub fn carry_over(
    n: u64,
    asked: &[u32],
    plan: &[u8],
    first: u64,
    wished: &[u32],
) -> Result<Vec<u32>, Refused> {
    let mut cells = vec![0; cells_of(n)];
    crate::carry_over(n, asked, plan, first, wished, &mut cells).done()?;
    Ok(cells)
}

/// The tasks of the open-shop plan, as [`crate::shop`] writes them.
pub fn shop(n: u64, cells: &[u32], d: u16) -> Result<Planned, Refused> {
    let mut bytes = vec![0; cells.iter().filter(|&&cell| cell != 0).count() * TASK_SIZE];
    let answer = crate::shop(n, cells, d, &mut bytes).done()?;
    Ok(Planned { bytes, answer })
}

/// The rescued plan and the list of what was dropped, as [`crate::rescue`] writes them.
pub fn rescue(n: u64, cells: &[u32], damaged: &[u8]) -> Result<(Planned, Vec<Entry>), Refused> {
    let records = damaged.len().div_ceil(RECORD_SIZE);
    let mut list = vec![0; records * ENTRY_SIZE];
    let room = crate::exact_room(n, longest(n, cells_of(n), cells).min(MOST_LINE));
    let room = Answer { records: room.records + records as u64, ..room };
    let plan = planned(RECORD_SIZE, room, |plan| crate::rescue(n, cells, damaged, plan, &mut list))?;
    list.truncate(plan.answer.dropped as usize * ENTRY_SIZE);
    Ok((plan, Entry::read(&list).collect()))
}

/// Runs a planner on a `Vec` of that room. Where the room is refused the planner is asked all the same, with
/// no memory: it has the refusal that comes first.
pub(crate) fn planned(
    record: usize,
    room: Answer,
    plan: impl FnOnce(&mut [u8]) -> Answer,
) -> Result<Planned, Refused> {
    let mut bytes = vec![0; room.records as usize * record];
    let answer = plan(&mut bytes).done()?;
    bytes.truncate(answer.records as usize * record);
    Ok(Planned { bytes, answer })
}

/// Room for as many records as these bytes have whole ones.
pub(crate) fn as_many(plan: &[u8], record: usize) -> Answer {
    Answer { records: (plan.len() / record) as u64, ..Answer::default() }
}

/// N * N where the archive takes such an N, else none: the call refuses then.
fn cells_of(n: u64) -> usize {
    match crate::exact_room(n, 0).code {
        0 => n as usize * n as usize,
        _ => 0,
    }
}

/// T of a demand, where it has as many cells as it should; else 0, and the planner refuses.
pub(crate) fn longest(n: u64, should: usize, cells: &[u32]) -> u64 {
    if cells.is_empty() || cells.len() != should {
        return 0;
    }
    let ports = n as usize;
    let slots = |sum, &cell: &u32| sum + u64::from(cell);
    let inputs = cells.chunks(ports).map(|row| row.iter().fold(0, slots));
    let outputs = (0..ports).map(|output| cells[output..].iter().step_by(ports).fold(0, slots));
    inputs.chain(outputs).max().unwrap_or(0)
}
