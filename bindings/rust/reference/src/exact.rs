//! The exact plan.

use crate::label::Label;
use crate::peel::Peel;
use crate::{demand_of, Counts, Outcome, Refusal, BYTE, BYTE_SECOND, IDLE, MOST_PORTS, MOST_PORTS_SECOND};

/// The exact plan of a demand: total hold T, and no covering plan has less.
pub fn exact(n: u64, cells: &[u32], plan: &mut [u8]) -> Outcome {
    exact_of::<u64, MOST_PORTS>(BYTE, n, cells, plan)
}

/// The same in the second edition.
pub fn exact_second(n: u64, cells: &[u32], plan: &mut [u8]) -> Outcome {
    exact_of::<u128, MOST_PORTS_SECOND>(BYTE_SECOND, n, cells, plan)
}

fn exact_of<L: Label, const W: usize>(byte: u8, n: u64, cells: &[u32], plan: &mut [u8]) -> Outcome {
    let (n, longest) = demand_of::<W>(n, cells)?;
    let mut written = Writer::new(byte);
    peel::<L, W>(n, cells, 1, &mut written);
    written.lend(cells, longest, plan)
}

/// Writes the exact plan of a demand, each hold multiplied by `factor`.
pub(crate) fn peel<L: Label, const W: usize>(n: usize, cells: &[u32], factor: u32, written: &mut Writer<W>) {
    let mut filled = vec![0; n * n];
    let line = fill::<W>(n, cells, &mut filled);
    Peel::<L, W>::new(n, &filled, line)
        .each(|hold, outputs| written.push((hold * factor) as u16, n, outputs));
}

/// Copies a demand and tops it up: each cell in order grows by as much as both its lines allow.
/// Answers T, to which every line then sums (§6.2).
fn fill<const W: usize>(n: usize, cells: &[u32], filled: &mut [u32]) -> u32 {
    let mut columns = [0; W];
    let mut rows = [0; W];
    for (sum, row) in rows.iter_mut().zip(cells.chunks_exact(n)) {
        for (column, &cell) in columns.iter_mut().zip(row) {
            *sum += cell;
            *column += cell;
        }
    }
    let longest = rows.into_iter().chain(columns).max().unwrap_or(0);
    filled.copy_from_slice(cells);
    for (sum, row) in rows.into_iter().zip(filled.chunks_exact_mut(n)) {
        let mut lack = longest - sum;
        for (column, cell) in columns.iter_mut().zip(row) {
            let added = lack.min(longest - *column);
            *cell += added;
            *column += added;
            lack -= added;
        }
    }
    longest
}

/// A plan kept aside until it is known to fit the lent buffer.
pub(crate) struct Writer<const W: usize> {
    byte: u8,
    plan: Vec<u8>,
    total: u64,
    /// The slots that the settings join, however many are asked.
    joined: u64,
}

impl<const W: usize> Writer<W> {
    /// An empty plan, whose records have W outputs and this byte behind N.
    pub(crate) fn new(byte: u8) -> Writer<W> {
        Writer { byte, plan: Vec::new(), total: 0, joined: 0 }
    }

    pub(crate) fn push(&mut self, hold: u16, n: usize, outputs: &[u8; W]) {
        let [low, high] = hold.to_le_bytes();
        self.plan.extend_from_slice(&[low, high, n as u8, self.byte]);
        self.plan.extend_from_slice(outputs);
        self.total += u64::from(hold);
        self.joined += u64::from(hold) * outputs.iter().filter(|&&output| output != IDLE).count() as u64;
    }

    /// Code 5, or the plan written to the lent buffer and a planner's answer. The plan covers, so the
    /// slots joined are those asked and the empty ones.
    pub(crate) fn lend(self, cells: &[u32], longest: u64, plan: &mut [u8]) -> Outcome {
        let records = self.plan.len() / (4 + W);
        if plan.len() / (4 + W) < records {
            return Err(Refusal::Room(records));
        }
        plan[..self.plan.len()].copy_from_slice(&self.plan);
        let asked: u64 = cells.iter().map(|&cell| u64::from(cell)).sum();
        Ok(Counts {
            records: records as u64,
            longest,
            total: self.total,
            length: 0,
            empty: self.joined - asked,
        })
    }
}
