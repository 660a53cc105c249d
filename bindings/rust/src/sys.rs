//! The calls of libchordvenus.a as C has them, with nothing in between. The crate's own functions are safe
//! and lend slices; these take a pointer and the number of elements that it leads to.
//!
//! # Safety
//!
//! Each pointer leads to as many elements as the length after it says, and `cv_write`'s outputs are 64
//! bytes and `cv2_write`'s 128; where a length is 0 the pointer may be null. A pointer to cells is aligned for `u32`. Memory that
//! a call writes overlaps no other memory that it is lent, and while the call runs nobody else writes what
//! is lent or reads what the call writes. So many bytes of stack are left as [`crate::stack`] says.

use core::mem::size_of;

/// The number of the structs and calls declared here. [`cv_version`] gives the archive's, and a program
/// does not link with an archive that has another.
pub const VERSION: u64 = 1;

/// What every call answers; what does not apply is 0.
#[repr(C)]
#[derive(Clone, Copy, Debug, Default, PartialEq, Eq)]
pub struct Answer {
    /// 0, or the number of the [`crate::Code`] by which the call was refused.
    pub code: u64,
    /// Where, as the code says.
    pub place: u64,
    /// Code 3 of a demand: 1 where the line is an input's, 2 where it is an output's; else 0.
    pub side: u64,
    /// Records of the plan or of the wish list, or records that suffice for a plan.
    pub records: u64,
    /// T, the longest line of the demand.
    pub longest: u64,
    /// Total hold of the plan.
    pub total: u64,
    /// Length of the plan.
    pub length: u64,
    /// Empty slots of the plan: what it grants beyond what is asked, over all pairs.
    pub empty: u64,
    /// Of a rescue: the records added to the plan.
    pub added: u64,
    /// Of a rescue: the records dropped from the plan.
    pub dropped: u64,
    /// The number of the [`crate::About`] that the code is about, where the call takes several plans or
    /// demands; else 0.
    pub about: u64,
}

/// One step of reading a plan.
#[repr(C)]
#[derive(Clone, Copy, Debug, PartialEq, Eq)]
pub struct RawStep {
    /// 0 a record, 1 the end, 2 a record that is not well formed.
    pub kind: u64,
    /// Of kind 2 the record's number, else 0.
    pub place: u64,
    /// Of kind 0 the hold, else 0.
    pub hold: u64,
    /// Of kind 0 the outputs by input, else all idle.
    pub outputs: [u8; 64],
}

/// One step of reading a plan of the second edition.
#[repr(C)]
#[derive(Clone, Copy, Debug, PartialEq, Eq)]
pub struct RawStepSecond {
    /// 0 a record, 1 the end, 2 a record that is not well formed.
    pub kind: u64,
    /// Of kind 2 the record's number, else 0.
    pub place: u64,
    /// Of kind 0 the hold, else 0.
    pub hold: u64,
    /// Of kind 0 the outputs by input, else all idle.
    pub outputs: [u8; 128],
}

/// Where the record in force stands; all is 0 where the call is refused, but for its answer.
#[repr(C)]
#[derive(Clone, Copy, Debug, PartialEq, Eq)]
pub struct RawPart {
    /// Its counts are 0.
    pub answer: Answer,
    /// 1 tonight's plan, 2 the standby plan, 0 where the call is refused.
    pub plan: u64,
    /// The first byte of the record in that plan.
    pub start: u64,
    /// How many bytes it has.
    pub size: u64,
}

// An answer is returned by value, so both sides must agree on these.
const _: () = assert!(size_of::<Answer>() == 88);
const _: () = assert!(size_of::<RawStep>() == 88);
const _: () = assert!(size_of::<RawPart>() == 112);
const _: () = assert!(size_of::<RawStepSecond>() == 152);

// The name ends in VERSION: whatever uses this crate refers to it, and so does not link with an archive of
// another version.
#[used]
static BUILT_FOR: unsafe extern "C" fn() -> u64 = cv_interface_1;

extern "C" {
    fn cv_interface_1() -> u64;
    /// What [`crate::version`] calls.
    #[must_use]
    pub fn cv_version() -> u64;
    /// What [`crate::wish`] calls.
    #[must_use]
    pub fn cv_wish(bits: u32) -> Answer;
    /// What [`crate::wishes`] calls.
    #[must_use]
    pub fn cv_wishes(n: u64, list: *const u8, list_len: usize, cells: *mut u32, cells_len: usize) -> Answer;
    /// What [`crate::exact`] calls.
    #[must_use]
    pub fn cv_exact(n: u64, cells: *const u32, cells_len: usize, plan: *mut u8, plan_len: usize) -> Answer;
    /// What [`crate::doubled`] calls.
    #[must_use]
    pub fn cv_doubled(n: u64, cells: *const u32, cells_len: usize, plan: *mut u8, plan_len: usize) -> Answer;
    /// What [`crate::doubled_every_rotation`] calls.
    #[must_use]
    pub fn cv_doubled_every_rotation(
        n: u64,
        cells: *const u32,
        cells_len: usize,
        plan: *mut u8,
        plan_len: usize,
    ) -> Answer;
    /// What [`crate::quick`] calls.
    #[must_use]
    pub fn cv_quick(n: u64, cells: *const u32, cells_len: usize, plan: *mut u8, plan_len: usize) -> Answer;
    /// What [`crate::second::exact`] calls.
    #[must_use]
    pub fn cv2_exact(n: u64, cells: *const u32, cells_len: usize, plan: *mut u8, plan_len: usize) -> Answer;
    /// What [`crate::second::doubled`] calls.
    #[must_use]
    pub fn cv2_doubled(n: u64, cells: *const u32, cells_len: usize, plan: *mut u8, plan_len: usize)
        -> Answer;
    /// What [`crate::second::doubled_every_rotation`] calls.
    #[must_use]
    pub fn cv2_doubled_every_rotation(
        n: u64,
        cells: *const u32,
        cells_len: usize,
        plan: *mut u8,
        plan_len: usize,
    ) -> Answer;
    /// What [`crate::second::quick`] calls.
    #[must_use]
    pub fn cv2_quick(n: u64, cells: *const u32, cells_len: usize, plan: *mut u8, plan_len: usize) -> Answer;
    /// What [`crate::exact_room`] calls.
    #[must_use]
    pub fn cv_exact_room(n: u64, longest: u64) -> Answer;
    /// What [`crate::doubled_room`] calls.
    #[must_use]
    pub fn cv_doubled_room(n: u64, longest: u64) -> Answer;
    /// What [`crate::quick_room`] calls.
    #[must_use]
    pub fn cv_quick_room(n: u64, longest: u64) -> Answer;
    /// What [`crate::second::exact_room`] calls.
    #[must_use]
    pub fn cv2_exact_room(n: u64, longest: u64) -> Answer;
    /// What [`crate::second::doubled_room`] calls.
    #[must_use]
    pub fn cv2_doubled_room(n: u64, longest: u64) -> Answer;
    /// What [`crate::second::quick_room`] calls.
    #[must_use]
    pub fn cv2_quick_room(n: u64, longest: u64) -> Answer;
    /// What [`crate::grating_doubled`] calls.
    #[must_use]
    pub fn cv_grating_doubled(
        n: u64,
        cells: *const u32,
        cells_len: usize,
        plan: *mut u8,
        plan_len: usize,
    ) -> Answer;
    /// What [`crate::grating_quiet`] calls.
    #[must_use]
    pub fn cv_grating_quiet(
        n: u64,
        cells: *const u32,
        cells_len: usize,
        limit: u64,
        plan: *mut u8,
        plan_len: usize,
    ) -> Answer;
    /// What [`crate::grating_least`] calls.
    #[must_use]
    pub fn cv_grating_least(n: u64, cells: *const u32, cells_len: usize, limit: u64) -> Answer;
    /// What [`crate::grating_report`] calls.
    #[must_use]
    pub fn cv_grating_report(
        n: u64,
        plan: *const u8,
        plan_len: usize,
        report: *mut u8,
        report_len: usize,
    ) -> Answer;
    /// What [`crate::check`] calls.
    #[must_use]
    pub fn cv_check(n: u64, cells: *const u32, cells_len: usize, plan: *const u8, plan_len: usize) -> Answer;
    /// What [`crate::length`] calls.
    #[must_use]
    pub fn cv_length(n: u64, plan: *const u8, plan_len: usize, d: u16) -> Answer;
    /// What [`crate::join`] calls.
    #[must_use]
    pub fn cv_join(n: u64, plan: *const u8, plan_len: usize, joined: *mut u8, joined_len: usize) -> Answer;
    /// What [`crate::write`] calls.
    #[must_use]
    pub fn cv_write(hold: u16, n: u64, outputs: *const u8, plan: *mut u8, plan_len: usize) -> Answer;
    /// What [`crate::open`] calls.
    #[must_use]
    pub fn cv_open(n: u64, plan: *const u8, plan_len: usize) -> Answer;
    /// What [`crate::step_at`] calls.
    #[must_use]
    pub fn cv_step_at(n: u64, plan: *const u8, plan_len: usize, at: u64) -> RawStep;
    /// What [`crate::second::wishes`] calls.
    #[must_use]
    pub fn cv2_wishes(n: u64, list: *const u8, list_len: usize, cells: *mut u32, cells_len: usize) -> Answer;
    /// What [`crate::second::check`] calls.
    #[must_use]
    pub fn cv2_check(n: u64, cells: *const u32, cells_len: usize, plan: *const u8, plan_len: usize)
        -> Answer;
    /// What [`crate::second::length`] calls.
    #[must_use]
    pub fn cv2_length(n: u64, plan: *const u8, plan_len: usize, d: u16) -> Answer;
    /// What [`crate::second::join`] calls.
    #[must_use]
    pub fn cv2_join(n: u64, plan: *const u8, plan_len: usize, joined: *mut u8, joined_len: usize) -> Answer;
    /// What [`crate::second::write`] calls.
    #[must_use]
    pub fn cv2_write(hold: u16, n: u64, outputs: *const u8, plan: *mut u8, plan_len: usize) -> Answer;
    /// What [`crate::second::open`] calls.
    #[must_use]
    pub fn cv2_open(n: u64, plan: *const u8, plan_len: usize) -> Answer;
    /// What [`crate::second::step_at`] calls.
    #[must_use]
    pub fn cv2_step_at(n: u64, plan: *const u8, plan_len: usize, at: u64) -> RawStepSecond;
    /// What [`crate::to_second`] calls.
    #[must_use]
    pub fn cv_to_second(n: u64, plan: *const u8, plan_len: usize, moved: *mut u8, moved_len: usize)
        -> Answer;
    /// What [`crate::to_first`] calls.
    #[must_use]
    pub fn cv_to_first(n: u64, plan: *const u8, plan_len: usize, moved: *mut u8, moved_len: usize) -> Answer;
    /// What [`crate::in_force`] calls.
    #[must_use]
    pub fn cv_in_force(
        n: u64,
        tonight: *const u8,
        tonight_len: usize,
        standby: *const u8,
        standby_len: usize,
        slot: u64,
    ) -> RawPart;
    /// What [`crate::carry_over`] calls.
    #[must_use]
    pub fn cv_carry_over(
        n: u64,
        asked: *const u32,
        asked_len: usize,
        plan: *const u8,
        plan_len: usize,
        first: u64,
        wished: *const u32,
        wished_len: usize,
        cells: *mut u32,
        cells_len: usize,
    ) -> Answer;
    /// What [`crate::shop`] calls.
    #[must_use]
    pub fn cv_shop(
        n: u64,
        cells: *const u32,
        cells_len: usize,
        d: u16,
        tasks: *mut u8,
        tasks_len: usize,
    ) -> Answer;
    /// What [`crate::tasks`] calls.
    #[must_use]
    pub fn cv_tasks(n: u64, tasks: *const u8, tasks_len: usize) -> Answer;
    /// What [`crate::rescue`] calls.
    #[must_use]
    pub fn cv_rescue(
        n: u64,
        cells: *const u32,
        cells_len: usize,
        damaged: *const u8,
        damaged_len: usize,
        plan: *mut u8,
        plan_len: usize,
        dropped: *mut u8,
        dropped_len: usize,
    ) -> Answer;
}
