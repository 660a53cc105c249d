//! Calls of the second edition that make the memory they write, as those of [`crate::owned`] do in the first.

use alloc::vec;
use alloc::vec::Vec;

use super::RECORD_SIZE;
use crate::owned::{as_many, longest, planned, Planned};
use crate::{second, Refused, MOST_LINE, MOST_QUICK};

/// The cells of a wish list, as [`second::wishes`] writes them.
pub fn wishes(n: u64, list: &[u8]) -> Result<Vec<u32>, Refused> {
    let mut cells = vec![0; cells_of(n)];
    second::wishes(n, list, &mut cells).done()?;
    Ok(cells)
}

/// The exact plan, as [`second::exact`] writes it.
pub fn exact(n: u64, cells: &[u32]) -> Result<Planned, Refused> {
    let room = second::exact_room(n, longest(n, cells_of(n), cells).min(MOST_LINE));
    planned(RECORD_SIZE, room, |plan| second::exact(n, cells, plan))
}

/// The doubled plan, as [`second::doubled`] writes it.
pub fn doubled(n: u64, cells: &[u32]) -> Result<Planned, Refused> {
    planned(RECORD_SIZE, second::doubled_room(n, 0), |plan| second::doubled(n, cells, plan))
}

/// The doubled plan with every rotation, as [`second::doubled_every_rotation`] writes it.
pub fn doubled_every_rotation(n: u64, cells: &[u32]) -> Result<Planned, Refused> {
    planned(RECORD_SIZE, second::doubled_room(n, 0), |plan| second::doubled_every_rotation(n, cells, plan))
}

/// The quick cover, as [`second::quick`] writes it.
pub fn quick(n: u64, cells: &[u32]) -> Result<Planned, Refused> {
    let room = second::quick_room(n, longest(n, cells_of(n), cells).min(MOST_QUICK));
    planned(RECORD_SIZE, room, |plan| second::quick(n, cells, plan))
}

/// The plan with equal settings joined, as [`second::join`] writes it.
pub fn join(n: u64, plan: &[u8]) -> Result<Planned, Refused> {
    planned(RECORD_SIZE, as_many(plan, RECORD_SIZE), |joined| second::join(n, plan, joined))
}

/// N * N where the archive takes such an N, else none: the call refuses then.
fn cells_of(n: u64) -> usize {
    match second::exact_room(n, 0).code {
        0 => n as usize * n as usize,
        _ => 0,
    }
}
