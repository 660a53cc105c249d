//! Each call of the library, on one demand.

use crate::demands::{Demand, ROOM, ROOM_SECOND};
use crate::same;
use crate::timing::Pair;
use cases::Rng;
use reference::{MOST_RECORDS, RECORD_SIZE, RECORD_SIZE_SECOND, TASK_SIZE};
use std::hint::black_box;

#[cfg(feature = "proved")]
use chordvenus as proved;
// Without the archive the proved half is built from the reference, and is never run.
#[cfg(not(feature = "proved"))]
use reference as proved;

/// The calls in the order of the header, with what one timed run does.
pub const CALLS: [(&str, &str); 21] = [
    ("wish", "one call for each pair with slots"),
    ("wishes", "a list of the pairs with slots"),
    ("exact", "one plan"),
    ("doubled", "one plan"),
    ("doubled_every_rotation", "one plan"),
    ("quick", "one plan, cells scaled so that T is at most 1,024"),
    ("grating_doubled", "one plan"),
    ("grating_quiet", "one plan within 2"),
    ("grating_least", "one demand within 2"),
    ("grating_report", "the exact plan"),
    ("check", "the exact plan against its demand"),
    ("length", "the exact plan"),
    ("join", "8,192 records: the exact plan over and over"),
    ("write", "one record"),
    ("open", "the exact plan"),
    ("step_at", "one call for each record of the exact plan"),
    ("in_force", "two plans of 8,192 records, the last slot before standby repeats"),
    ("carry_over", "the exact plan stopped half way"),
    ("shop", "one schedule, d = 5; Rust by the same method"),
    ("tasks", "that schedule"),
    ("rescue", "the exact plan, every tenth record without its hold"),
];

/// The wavelength limit of the timed quiet plans.
const QUIET: u64 = 2;

/// Ends a timed call whose answer nothing reads.
fn run<T>(answer: T) {
    black_box(answer);
}

/// The same lines once over each library.
macro_rules! both {
    ($library:ident => $call:expr) => {
        Pair {
            reference: {
                use reference as $library;
                Box::new($call)
            },
            proved: {
                use proved as $library;
                Box::new($call)
            },
        }
    };
}

macro_rules! planner {
    ($planner:ident, $n:expr, $cells:expr) => {
        both!(library => {
            let (cells, mut plan) = ($cells, vec![0; ROOM * RECORD_SIZE]);
            move || run(library::$planner($n, black_box(&cells), &mut plan))
        })
    };
}

/// Joining a plan, with room for as many records as it has.
fn join<'a>(n: u64, plan: Vec<u8>) -> Pair<'a> {
    both!(library => {
        let (plan, mut joined) = (plan.clone(), vec![0; plan.len()]);
        move || run(library::join(n, black_box(&plan), &mut joined))
    })
}

/// The record in force where both plans have been gone through: 8,192 records each.
fn in_force<'a>(n: u64, plan: Vec<u8>) -> Pair<'a> {
    let held = plan.chunks(RECORD_SIZE).map(|record| u64::from(record[0]) + 256 * u64::from(record[1]));
    let slot = 2 * held.sum::<u64>() - 1;
    both!(library => {
        let (tonight, standby) = (plan.clone(), plan.clone());
        move || run(library::in_force(n, black_box(&tonight), black_box(&standby), slot).is_ok())
    })
}

/// What a demand's plan leaves to ask when it is stopped half way.
fn carry_over<'a>(demand: &'a Demand) -> Pair<'a> {
    let first = demand.records() as u64 / 2;
    both!(library => {
        let (n, cells, plan) = (demand.n as u64, &demand.cells, &demand.plan);
        let (wished, mut lent) = (vec![1; cells.len()], vec![0; cells.len()]);
        move || run(library::carry_over(n, black_box(cells), plan, first, &wished, &mut lent))
    })
}

/// Reading the schedule of a demand.
fn tasks<'a>(demand: &'a Demand) -> Pair<'a> {
    let n = demand.n as u64;
    let mut tasks = vec![0; demand.n * demand.n * TASK_SIZE];
    let counts = reference::shop(n, &demand.cells, 5, &mut tasks).expect("a sound demand");
    tasks.truncate(counts.records as usize * TASK_SIZE);
    both!(library => {
        let tasks = tasks.clone();
        move || run(library::tasks(n, black_box(&tasks)))
    })
}

/// Rescuing a demand's plan, every tenth record of which has lost its hold, with room for all that can come of it.
fn rescue<'a>(demand: &'a Demand) -> Pair<'a> {
    let mut damaged = demand.plan.clone();
    for record in damaged.chunks_mut(RECORD_SIZE).step_by(10) {
        record[..2].fill(0);
    }
    both!(library => {
        let (n, cells, damaged) = (demand.n as u64, &demand.cells, damaged.clone());
        let mut plan = vec![0; damaged.len() + ROOM * RECORD_SIZE];
        let mut dropped = vec![0; demand.records() * reference::ENTRY_SIZE];
        move || run(library::rescue(n, black_box(cells), &damaged, &mut plan, &mut dropped))
    })
}

/// Joining 8,192 records, of which so many have a setting that none before them has.
pub fn join_settings<'a>(n: usize, settings: usize) -> Pair<'a> {
    let mut rng = Rng::new(1);
    let mut plan = cases::plan(&mut rng, n, settings);
    for k in settings..MOST_RECORDS {
        let again = rng.below(k) * RECORD_SIZE;
        plan.extend_from_within(again..again + RECORD_SIZE);
    }
    join(n as u64, plan)
}

/// A planner beside the same search in plain Rust, once both have made the same plan.
pub fn same<'a>(call: &str, words: usize, demand: &'a Demand) -> Pair<'a> {
    let (n, cells) = (demand.n, &demand.cells);
    let planner = match (call, words) {
        ("exact", 1) => same::one_word::exact,
        ("exact", _) => same::two_words::exact,
        (_, 1) => same::one_word::doubled,
        _ => same::two_words::doubled,
    };
    let made = if call == "exact" { reference::exact } else { reference::doubled };
    let (mut plan, mut wanted) = (vec![0; ROOM * RECORD_SIZE], vec![0; ROOM * RECORD_SIZE]);
    planner(n, cells, &mut plan);
    made(n as u64, cells, &mut wanted).expect("a sound demand");
    assert!(plan == wanted, "the same search makes the same plan");
    let mut pair = pair(call, demand);
    pair.reference = Box::new(move || run(planner(n, black_box(cells), &mut plan)));
    pair
}

/// The planners of the second edition.
pub const SECOND: [&str; 4] = ["exact", "doubled", "doubled_every_rotation", "quick"];

/// The second edition's planner of this name.
pub fn second<'a>(call: &str, demand: &'a Demand) -> Pair<'a> {
    type Unproved = fn(u64, &[u32], &mut [u8]) -> reference::Outcome;
    #[cfg(feature = "proved")]
    use chordvenus::second as edition;
    #[cfg(feature = "proved")]
    type Proved = fn(u64, &[u32], &mut [u8]) -> chordvenus::Answer;
    #[cfg(feature = "proved")]
    let proved: Proved = match call {
        "exact" => edition::exact,
        "doubled" => edition::doubled,
        "doubled_every_rotation" => edition::doubled_every_rotation,
        _ => edition::quick,
    };
    let unproved: Unproved = match call {
        "exact" => reference::exact_second,
        "doubled" => reference::doubled_second,
        "doubled_every_rotation" => reference::doubled_every_rotation_second,
        _ => reference::quick_second,
    };
    #[cfg(not(feature = "proved"))]
    let proved = unproved;
    let n = demand.n as u64;
    let cells = if call == "quick" { demand.quick_cells() } else { demand.cells.clone() };
    let (same, room) = (cells.clone(), vec![0; ROOM_SECOND * RECORD_SIZE_SECOND]);
    let (mut made, mut wanted) = (room.clone(), room);
    Pair {
        proved: Box::new(move || run(proved(n, black_box(&cells), &mut made))),
        reference: Box::new(move || run(unproved(n, black_box(&same), &mut wanted))),
    }
}

/// The calls that are timed in both editions.
#[cfg(feature = "proved")]
pub const EDITIONS: [&str; 5] = ["exact", "doubled", "quick", "check", "join"];

/// The second edition's call, and in the reference's place the first's, both proved.
#[cfg(feature = "proved")]
pub fn editions<'a>(call: &str, demand: &'a Demand) -> Pair<'a> {
    use chordvenus::{second, Answer};
    let (n, cells) = (demand.n as u64, &demand.cells);
    let mut moved = vec![0; demand.records() * RECORD_SIZE_SECOND];
    chordvenus::to_second(n, &demand.plan, &mut moved).done().expect("a sound plan");
    let planner = |planner: fn(u64, &[u32], &mut [u8]) -> Answer, cells: Vec<u32>| {
        let mut plan = vec![0; ROOM * RECORD_SIZE_SECOND];
        Box::new(move || run(planner(n, black_box(&cells), &mut plan)))
    };
    let join = |join: fn(u64, &[u8], &mut [u8]) -> Answer, plan: Vec<u8>| {
        let mut joined = vec![0; plan.len()];
        Box::new(move || run(join(n, black_box(&plan), &mut joined)))
    };
    match call {
        "exact" => Pair {
            reference: planner(chordvenus::exact, cells.clone()),
            proved: planner(second::exact, cells.clone()),
        },
        "doubled" => Pair {
            reference: planner(chordvenus::doubled, cells.clone()),
            proved: planner(second::doubled, cells.clone()),
        },
        "quick" => Pair {
            reference: planner(chordvenus::quick, demand.quick_cells()),
            proved: planner(second::quick, demand.quick_cells()),
        },
        "check" => Pair {
            reference: Box::new(move || run(chordvenus::check(n, black_box(cells), &demand.plan))),
            proved: Box::new(move || run(second::check(n, black_box(cells), &moved))),
        },
        _ => Pair {
            reference: join(chordvenus::join, longest(&demand.plan, RECORD_SIZE)),
            proved: join(second::join, longest(&moved, RECORD_SIZE_SECOND)),
        },
    }
}

/// A plan of 8,192 records: this one over and over.
fn longest(plan: &[u8], record: usize) -> Vec<u8> {
    plan.iter().copied().cycle().take(MOST_RECORDS * record).collect()
}

pub fn pair<'a>(call: &str, demand: &'a Demand) -> Pair<'a> {
    let (n, cells, plan) = (demand.n as u64, &demand.cells, &demand.plan);
    match call {
        "exact" => planner!(exact, n, cells.clone()),
        "doubled" => planner!(doubled, n, cells.clone()),
        "doubled_every_rotation" => planner!(doubled_every_rotation, n, cells.clone()),
        "quick" => planner!(quick, n, demand.quick_cells()),
        "grating_doubled" => planner!(grating_doubled, n, cells.clone()),
        "grating_quiet" => both!(library => {
            let mut plan = vec![0; ROOM * RECORD_SIZE];
            move || run(library::grating_quiet(n, black_box(cells), QUIET, &mut plan))
        }),
        "grating_least" => both!(library => move || run(library::grating_least(n, black_box(cells), QUIET))),
        "grating_report" => both!(library => {
            let mut report = vec![0; demand.records()];
            move || run(library::grating_report(n, black_box(plan), &mut report))
        }),
        "check" => both!(library => move || run(library::check(n, black_box(cells), plan))),
        "length" => both!(library => move || run(library::length(n, black_box(plan), 5))),
        "join" => join(n, longest(plan, RECORD_SIZE)),
        "in_force" => in_force(n, longest(plan, RECORD_SIZE)),
        "carry_over" => carry_over(demand),
        "shop" => both!(library => {
            let mut tasks = vec![0; demand.n * demand.n * TASK_SIZE];
            move || run(library::shop(n, black_box(cells), 5, &mut tasks))
        }),
        "tasks" => tasks(demand),
        "rescue" => rescue(demand),
        "open" => both!(library => move || run(library::open(n, black_box(plan)))),
        "step_at" => both!(library => move || {
            for at in 0..demand.records() as u64 {
                run(library::step_at(n, black_box(plan), at));
            }
        }),
        "write" => both!(library => {
            let mut lent = [0; RECORD_SIZE];
            let outputs = *plan[..RECORD_SIZE].last_chunk().expect("a demand with a plan");
            move || run(library::write(1, n, black_box(&outputs), &mut lent))
        }),
        "wishes" => both!(library => {
            let (list, mut lent) = (demand.wish_list(), vec![0; demand.n * demand.n]);
            move || run(library::wishes(n, black_box(&list), &mut lent))
        }),
        "wish" => both!(library => {
            let list = demand.wish_list();
            let bits = |record: &[u8]| u32::from_le_bytes(*record.last_chunk().expect("8 bytes"));
            let wishes: Vec<u32> = list.chunks(reference::WISH_SIZE).map(bits).collect();
            move || for &bits in &wishes {
                run(library::wish(black_box(bits)));
            }
        }),
        _ => unreachable!("a call of the table"),
    }
}
