//! The second edition, for switches of up to 128 ports: calls as those of the first, at the top of the
//! crate, with records of 132 bytes that have 128 outputs.

use crate::{reading, sys, Answer};

#[cfg(feature = "alloc")]
pub mod owned;

/// The largest N.
pub const MOST_PORTS: usize = 128;
/// Bytes of a plan record: hold in two, N, the byte 2, 128 outputs.
pub const RECORD_SIZE: usize = 132;
/// The most records of a plan that is read.
pub const MOST_RECORDS: usize = 32_768;

/// One setting of a plan and its hold.
pub type Record = reading::Record<128>;
/// What one step of reading gives.
pub type Step = reading::Step<128>;
/// A plan's bytes and the place reached.
pub type Reader<'a> = reading::Reader<'a, 128>;
/// The records of a plan that was opened, for a `for` loop.
pub type Plan<'a> = reading::Plan<'a, 128>;

/// Bytes that hold the exact plan of every demand of N ports, for arrays: N * N - 2 * N + 2 records, as many as
/// [`exact_room`] answers for lines of any length. N is 1 or more.
pub const fn exact_bytes(n: usize) -> usize {
    (n * n + 2 - 2 * n) * RECORD_SIZE
}

/// Bytes that hold the doubled plan of every demand of N ports, by either rule: 2 * N records.
pub const fn doubled_bytes(n: usize) -> usize {
    2 * n * RECORD_SIZE
}

/// Bytes that hold the quick cover of every demand whose lines sum to `longest` or less: 2 * `longest` - 1 records,
/// and none where that is 0.
pub const fn quick_bytes(longest: usize) -> usize {
    match longest {
        0 => 0,
        _ => (2 * longest - 1) * RECORD_SIZE,
    }
}

/// As [`crate::wishes`], N up to 128.
#[must_use]
pub fn wishes(n: u64, list: &[u8], cells: &mut [u32]) -> Answer {
    // SAFETY: a slice has as many elements as its length says, and a mutable one overlaps no other;
    // the same holds for each call below that lends memory.
    unsafe { sys::cv2_wishes(n, list.as_ptr(), list.len(), cells.as_mut_ptr(), cells.len()) }
}

/// As [`crate::check`], of a plan of this edition.
#[must_use]
pub fn check(n: u64, cells: &[u32], plan: &[u8]) -> Answer {
    unsafe { sys::cv2_check(n, cells.as_ptr(), cells.len(), plan.as_ptr(), plan.len()) }
}

/// As [`crate::length`], of a plan of this edition.
#[must_use]
pub fn length(n: u64, plan: &[u8], d: u16) -> Answer {
    unsafe { sys::cv2_length(n, plan.as_ptr(), plan.len(), d) }
}

/// As [`crate::join`], of a plan of this edition.
#[must_use]
pub fn join(n: u64, plan: &[u8], joined: &mut [u8]) -> Answer {
    unsafe { sys::cv2_join(n, plan.as_ptr(), plan.len(), joined.as_mut_ptr(), joined.len()) }
}

/// As [`crate::write`], with 128 outputs.
#[must_use]
pub fn write(hold: u16, n: u64, outputs: &[u8; 128], plan: &mut [u8]) -> Answer {
    unsafe { sys::cv2_write(hold, n, outputs.as_ptr(), plan.as_mut_ptr(), plan.len()) }
}

/// As [`crate::open`], of a plan of this edition.
#[must_use]
pub fn open(n: u64, plan: &[u8]) -> Answer {
    unsafe { sys::cv2_open(n, plan.as_ptr(), plan.len()) }
}

/// As [`crate::step_at`], of a plan of this edition.
#[must_use]
pub fn step_at(n: u64, plan: &[u8], at: u64) -> Step {
    let step = unsafe { sys::cv2_step_at(n, plan.as_ptr(), plan.len(), at) };
    match step.kind {
        0 => Step::Record(Record { hold: step.hold as u16, outputs: step.outputs }),
        1 => Step::End,
        _ => Step::Malformed(step.place),
    }
}

impl reading::Edition<128> for reading::Of<128> {
    fn open(n: u64, plan: &[u8]) -> Answer {
        open(n, plan)
    }

    fn step_at(n: u64, plan: &[u8], at: u64) -> Step {
        step_at(n, plan, at)
    }
}

/// The exact plan, as [`crate::exact`].
///
/// Codes: 1, 2, 3, 5. Writes: the plan's records, at the start of `plan`. Done: `records`, `longest`, `total`,
/// `empty`.
#[must_use]
pub fn exact(n: u64, cells: &[u32], plan: &mut [u8]) -> Answer {
    // SAFETY: a slice has as many elements as its length says, and a mutable one overlaps no other;
    // the same holds for each planner below.
    unsafe { sys::cv2_exact(n, cells.as_ptr(), cells.len(), plan.as_mut_ptr(), plan.len()) }
}

/// The doubled plan, as [`crate::doubled`].
///
/// Codes, writes, done: as [`exact`].
#[must_use]
pub fn doubled(n: u64, cells: &[u32], plan: &mut [u8]) -> Answer {
    unsafe { sys::cv2_doubled(n, cells.as_ptr(), cells.len(), plan.as_mut_ptr(), plan.len()) }
}

/// The doubled plan by the rule of every rotation, as [`crate::doubled_every_rotation`].
///
/// Codes, writes, done: as [`exact`].
#[must_use]
pub fn doubled_every_rotation(n: u64, cells: &[u32], plan: &mut [u8]) -> Answer {
    unsafe { sys::cv2_doubled_every_rotation(n, cells.as_ptr(), cells.len(), plan.as_mut_ptr(), plan.len()) }
}

/// The quick cover, as [`crate::quick`].
///
/// Codes: 1, 2, 3, 4, 5. Writes, done: as [`exact`].
#[must_use]
pub fn quick(n: u64, cells: &[u32], plan: &mut [u8]) -> Answer {
    unsafe { sys::cv2_quick(n, cells.as_ptr(), cells.len(), plan.as_mut_ptr(), plan.len()) }
}

/// The records of the second edition that suffice for the exact plan of any demand of N ports, N up to 128,
/// whose lines sum to `longest` or less: that many, or N * N - 2 * N + 2, whichever is less.
///
/// Codes: 1, 3. Done: `records`.
#[must_use]
pub fn exact_room(n: u64, longest: u64) -> Answer {
    // SAFETY: no memory is lent; the same holds for each room below.
    unsafe { sys::cv2_exact_room(n, longest) }
}

/// The records that suffice for the doubled plan, by either rule: 2 * N.
///
/// Codes: 1, 3. Done: `records`.
#[must_use]
pub fn doubled_room(n: u64, longest: u64) -> Answer {
    unsafe { sys::cv2_doubled_room(n, longest) }
}

/// The records that suffice for the quick cover of any demand whose lines sum to `longest` or less:
/// 2 * `longest` - 1, and none where that is 0.
///
/// Codes: 1, 3, 4. Done: `records`.
#[must_use]
pub fn quick_room(n: u64, longest: u64) -> Answer {
    unsafe { sys::cv2_quick_room(n, longest) }
}
