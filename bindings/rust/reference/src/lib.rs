//! The switch planner of docs/SPECIFICATION.md in plain, unproved Rust.
//!
//! It is written from what is asked and from nothing else, so that the proved library can be held to
//! it: the same inputs must give the same codes, places, counts and bytes. It is also the peer that
//! the proved library's speed is measured against, so it is written to be fast. [`slow`] says the
//! same plans once more in the plainest words, to test the fast ones.

mod console;
pub mod editions;
mod exact;
mod grating;
mod join;
mod label;
mod more_plans;
mod peel;
mod plan;
mod quiet;
mod rescue;
mod room;
mod shop;
pub mod slow;
mod wishes;

pub use console::{carry_over, in_force, About, Named, Part};
pub use exact::{exact, exact_second};
pub use grating::{grating_doubled, grating_report};
pub use join::join;
pub use more_plans::{
    doubled, doubled_every_rotation, doubled_every_rotation_second, doubled_second, quick, quick_second,
};
pub use plan::{check, length, open, step_at, write, Reader, Record, Step};
pub use quiet::{grating_least, grating_quiet};
pub use rescue::{rescue, Rescued, ENTRY_SIZE};
pub use room::{doubled_room, exact_room, quick_room};
pub use shop::{shop, tasks};
pub use wishes::{wish, wishes};

/// The largest N, and that of the second edition.
pub const MOST_PORTS: usize = 64;
pub const MOST_PORTS_SECOND: usize = 128;
/// Bytes of a plan record: hold, N, a zero byte, an output for each possible input.
pub const RECORD_SIZE: usize = 4 + MOST_PORTS;
pub const RECORD_SIZE_SECOND: usize = 4 + MOST_PORTS_SECOND;
/// The byte behind N, in the records of each edition.
pub const BYTE: u8 = 0;
pub const BYTE_SECOND: u8 = 2;
/// Bytes of a wish record: input, output, two zero bytes, a binary32.
pub const WISH_SIZE: usize = 8;
/// Bytes of a task record: input, output, two zero bytes, start, end.
pub const TASK_SIZE: usize = 12;
/// The output of an idle input.
pub const IDLE: u8 = 255;
/// The largest line sum and the largest wish, so that every hold fits 16 bits.
pub const MOST_LINE: u64 = 65_535;
/// The largest T of the quick cover.
pub const MOST_QUICK: u64 = 1_024;
/// The most records of a plan that is read.
pub const MOST_RECORDS: usize = 8_192;

/// A line of a demand, by the port it belongs to.
#[derive(Clone, Copy, Debug, PartialEq, Eq)]
pub enum Side {
    Input(usize),
    Output(usize),
}

/// Why a call was refused, with its place where it has one, in the order of the codes 1 to 17.
#[derive(Clone, Copy, Debug, PartialEq, Eq)]
pub enum Refusal {
    Ports,
    Cells(usize),
    Line(Side),
    /// Code 3 of a T that is given without a demand: it has no line.
    LongestOver,
    Longest,
    Room(usize),
    NotFinite(usize),
    BelowZero(usize),
    AboveMost(usize),
    Torn(usize),
    Records,
    Malformed(usize),
    Named(usize),
    Uncovered(usize),
    NotInForce,
    FirstOver(usize),
    ListRoom(usize),
    /// Code 17: a wavelength limit of 0.
    Limit,
}

/// What a successful call counts; what does not apply is 0.
#[derive(Clone, Copy, Debug, Default, PartialEq, Eq)]
pub struct Counts {
    pub records: u64,
    pub longest: u64,
    pub total: u64,
    pub length: u64,
    pub empty: u64,
}

pub type Outcome = Result<Counts, Refusal>;

/// The numbers of §9.7's table for an outcome, and the side of code 3: 1 input, 2 output.
#[derive(Clone, Copy, Debug, Default, PartialEq, Eq)]
pub struct Numbers {
    pub code: u64,
    pub place: u64,
    pub side: u64,
    pub counts: Counts,
}

impl From<Outcome> for Numbers {
    fn from(outcome: Outcome) -> Numbers {
        let (code, place, side) = match outcome {
            Ok(counts) => return Numbers { counts, ..Numbers::default() },
            Err(Refusal::Ports) => (1, 0, 0),
            Err(Refusal::Cells(cells)) => (2, cells, 0),
            Err(Refusal::Line(Side::Input(input))) => (3, input, 1),
            Err(Refusal::Line(Side::Output(output))) => (3, output, 2),
            Err(Refusal::LongestOver) => (3, 0, 0),
            Err(Refusal::Longest) => (4, 0, 0),
            Err(Refusal::Room(records)) => (5, records, 0),
            Err(Refusal::NotFinite(record)) => (6, record, 0),
            Err(Refusal::BelowZero(record)) => (7, record, 0),
            Err(Refusal::AboveMost(record)) => (8, record, 0),
            Err(Refusal::Torn(records)) => (9, records, 0),
            Err(Refusal::Records) => (10, MOST_RECORDS, 0),
            Err(Refusal::Malformed(record)) => (11, record, 0),
            Err(Refusal::Named(record)) => (12, record, 0),
            Err(Refusal::Uncovered(cell)) => (13, cell, 0),
            Err(Refusal::NotInForce) => (14, 0, 0),
            Err(Refusal::FirstOver(records)) => (15, records, 0),
            Err(Refusal::Limit) => (17, 0, 0),
            Err(Refusal::ListRoom(entries)) => (16, entries, 0),
        };
        Numbers { code, place: place as u64, side, counts: Counts::default() }
    }
}

/// Code 1: N is 1 to 64.
fn ports(n: u64) -> Result<usize, Refusal> {
    ports_of::<MOST_PORTS>(n)
}

/// The same of an edition whose records have W outputs.
fn ports_of<const W: usize>(n: u64) -> Result<usize, Refusal> {
    if n == 0 || n > W as u64 {
        return Err(Refusal::Ports);
    }
    Ok(n as usize)
}

/// Codes 1 and 2: N is in range, and the cells lent are N².
fn square(n: u64, cells: usize) -> Result<usize, Refusal> {
    square_of::<MOST_PORTS>(n, cells)
}

fn square_of<const W: usize>(n: u64, cells: usize) -> Result<usize, Refusal> {
    let n = ports_of::<W>(n)?;
    if cells != n * n {
        return Err(Refusal::Cells(n * n));
    }
    Ok(n)
}

/// Codes 1, 2 and 3: N, and the T of a demand no line of which is over 65,535.
fn demand(n: u64, cells: &[u32]) -> Result<(usize, u64), Refusal> {
    demand_of::<MOST_PORTS>(n, cells)
}

fn demand_of<const W: usize>(n: u64, cells: &[u32]) -> Result<(usize, u64), Refusal> {
    let n = square_of::<W>(n, cells.len())?;
    let mut rows = [0u64; W];
    let mut columns = [0u64; W];
    for (sum, row) in rows.iter_mut().zip(cells.chunks_exact(n)) {
        for (column, &cell) in columns[..n].iter_mut().zip(row) {
            *sum += u64::from(cell);
            *column += u64::from(cell);
        }
    }
    let over = |lines: &[u64]| lines.iter().position(|&sum| sum > MOST_LINE);
    if let Some(input) = over(&rows) {
        return Err(Refusal::Line(Side::Input(input)));
    }
    if let Some(output) = over(&columns) {
        return Err(Refusal::Line(Side::Output(output)));
    }
    Ok((n, rows.into_iter().chain(columns).max().unwrap_or(0)))
}
