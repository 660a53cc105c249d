//! Bytes of stack that each call may use at any N, with all that it calls; a signal handler on the same
//! stack comes on top. They are held against the archive's instructions, and each call is run on a thread
//! that has no more.

/// Of [`crate::version`].
pub const VERSION: usize = 256;

/// Of [`crate::wish`].
pub const WISH: usize = 256;

/// Of [`crate::wishes`].
pub const WISHES: usize = 2_048;

/// Of [`crate::exact`].
pub const EXACT: usize = 40_960;

/// Of [`crate::doubled`].
pub const DOUBLED: usize = 40_960;

/// Of [`crate::doubled_every_rotation`].
pub const DOUBLED_EVERY_ROTATION: usize = 40_960;

/// Of [`crate::quick`].
pub const QUICK: usize = 20_480;

/// Of [`crate::second::exact`].
pub const SECOND_EXACT: usize = 106_496;

/// Of [`crate::second::doubled`].
pub const SECOND_DOUBLED: usize = 106_496;

/// Of [`crate::second::doubled_every_rotation`].
pub const SECOND_DOUBLED_EVERY_ROTATION: usize = 106_496;

/// Of [`crate::second::quick`].
pub const SECOND_QUICK: usize = 73_728;

/// Of [`crate::exact_room`].
pub const EXACT_ROOM: usize = 256;

/// Of [`crate::doubled_room`].
pub const DOUBLED_ROOM: usize = 256;

/// Of [`crate::quick_room`].
pub const QUICK_ROOM: usize = 256;

/// Of [`crate::second::exact_room`].
pub const SECOND_EXACT_ROOM: usize = 256;

/// Of [`crate::second::doubled_room`].
pub const SECOND_DOUBLED_ROOM: usize = 256;

/// Of [`crate::second::quick_room`].
pub const SECOND_QUICK_ROOM: usize = 256;

/// Of [`crate::grating_doubled`].
pub const GRATING_DOUBLED: usize = 61_440;

/// Of [`crate::grating_quiet`].
pub const GRATING_QUIET: usize = 20_480;

/// Of [`crate::grating_least`].
pub const GRATING_LEAST: usize = 256;

/// Of [`crate::grating_report`].
pub const GRATING_REPORT: usize = 1_024;

/// Of [`crate::check`].
pub const CHECK: usize = 20_480;

/// Of [`crate::length`].
pub const LENGTH: usize = 1_024;

/// Of [`crate::join`].
pub const JOIN: usize = 90_112;

/// Of [`crate::write`].
pub const WRITE: usize = 1_024;

/// Of [`crate::open`].
pub const OPEN: usize = 256;

/// Of [`crate::step_at`].
pub const STEP_AT: usize = 1_024;

/// Of [`crate::second::wishes`].
pub const SECOND_WISHES: usize = 4_096;

/// Of [`crate::second::check`].
pub const SECOND_CHECK: usize = 69_632;

/// Of [`crate::second::length`].
pub const SECOND_LENGTH: usize = 1_024;

/// Of [`crate::second::join`].
pub const SECOND_JOIN: usize = 294_912;

/// Of [`crate::second::write`].
pub const SECOND_WRITE: usize = 1_024;

/// Of [`crate::second::open`].
pub const SECOND_OPEN: usize = 256;

/// Of [`crate::second::step_at`].
pub const SECOND_STEP_AT: usize = 1_024;

/// Of [`crate::to_second`].
pub const TO_SECOND: usize = 1_024;

/// Of [`crate::to_first`].
pub const TO_FIRST: usize = 1_024;

/// Of [`crate::in_force`].
pub const IN_FORCE: usize = 1_024;

/// Of [`crate::carry_over`].
pub const CARRY_OVER: usize = 20_480;

/// Of [`crate::shop`].
pub const SHOP: usize = 2_048;

/// Of [`crate::tasks`].
pub const TASKS: usize = 1_024;

/// Of [`crate::rescue`].
pub const RESCUE: usize = 65_536;

/// All of them, by name.
pub const ALL: &[(&str, usize)] = &[
    ("VERSION", VERSION),
    ("WISH", WISH),
    ("WISHES", WISHES),
    ("EXACT", EXACT),
    ("DOUBLED", DOUBLED),
    ("DOUBLED_EVERY_ROTATION", DOUBLED_EVERY_ROTATION),
    ("QUICK", QUICK),
    ("SECOND_EXACT", SECOND_EXACT),
    ("SECOND_DOUBLED", SECOND_DOUBLED),
    ("SECOND_DOUBLED_EVERY_ROTATION", SECOND_DOUBLED_EVERY_ROTATION),
    ("SECOND_QUICK", SECOND_QUICK),
    ("EXACT_ROOM", EXACT_ROOM),
    ("DOUBLED_ROOM", DOUBLED_ROOM),
    ("QUICK_ROOM", QUICK_ROOM),
    ("SECOND_EXACT_ROOM", SECOND_EXACT_ROOM),
    ("SECOND_DOUBLED_ROOM", SECOND_DOUBLED_ROOM),
    ("SECOND_QUICK_ROOM", SECOND_QUICK_ROOM),
    ("GRATING_DOUBLED", GRATING_DOUBLED),
    ("GRATING_QUIET", GRATING_QUIET),
    ("GRATING_LEAST", GRATING_LEAST),
    ("GRATING_REPORT", GRATING_REPORT),
    ("CHECK", CHECK),
    ("LENGTH", LENGTH),
    ("JOIN", JOIN),
    ("WRITE", WRITE),
    ("OPEN", OPEN),
    ("STEP_AT", STEP_AT),
    ("SECOND_WISHES", SECOND_WISHES),
    ("SECOND_CHECK", SECOND_CHECK),
    ("SECOND_LENGTH", SECOND_LENGTH),
    ("SECOND_JOIN", SECOND_JOIN),
    ("SECOND_WRITE", SECOND_WRITE),
    ("SECOND_OPEN", SECOND_OPEN),
    ("SECOND_STEP_AT", SECOND_STEP_AT),
    ("TO_SECOND", TO_SECOND),
    ("TO_FIRST", TO_FIRST),
    ("IN_FORCE", IN_FORCE),
    ("CARRY_OVER", CARRY_OVER),
    ("SHOP", SHOP),
    ("TASKS", TASKS),
    ("RESCUE", RESCUE),
];
