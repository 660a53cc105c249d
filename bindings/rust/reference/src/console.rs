//! The console (§23): the record in force at a slot, and what a batch that was stopped leaves to ask.

use crate::plan::{each_record, opened};
use crate::{demand, ports, square, Refusal, IDLE, MOST_PORTS, RECORD_SIZE};

/// What a refusal is about, by its number.
#[derive(Clone, Copy, Debug, PartialEq, Eq)]
pub enum About {
    Nothing,
    Tonight,
    Standby,
    Plan,
    Demand,
    Wished,
    Sum,
}

/// A refusal and what it is about.
#[derive(Clone, Copy, Debug, PartialEq, Eq)]
pub struct Named(pub About, pub Refusal);

/// Where a record stands: the byte of tonight's plan, or of the standby plan, at which it begins.
#[derive(Clone, Copy, Debug, PartialEq, Eq)]
pub enum Part {
    Tonight(usize),
    Standby(usize),
}

/// The record in force at a slot.
pub fn in_force(n: u64, tonight: &[u8], standby: &[u8], slot: u64) -> Result<Part, Named> {
    ports(n).map_err(|why| Named(About::Nothing, why))?;
    let first = total(n, tonight).map_err(|why| Named(About::Tonight, why))?;
    let second = total(n, standby).map_err(|why| Named(About::Standby, why))?;
    if slot < first {
        return Ok(Part::Tonight(start(tonight, slot)));
    }
    if second == 0 {
        return Err(Named(About::Nothing, Refusal::NotInForce));
    }
    Ok(Part::Standby(start(standby, (slot - first) % second)))
}

/// The total hold of a plan whose every record is well formed.
fn total(n: u64, plan: &[u8]) -> Result<u64, Refusal> {
    let n = opened(n, plan)?;
    let mut total = 0;
    each_record(n, plan, |hold, _| total += u64::from(hold))?;
    Ok(total)
}

/// Where the record that is held at a slot of a plan begins.
fn start(plan: &[u8], slot: u64) -> usize {
    let mut over = 0;
    let at = plan.chunks_exact(RECORD_SIZE).position(|record| {
        over += u64::from(record[0]) + 256 * u64::from(record[1]);
        slot < over
    });
    at.expect("the slot is below the total") * RECORD_SIZE
}

/// The new demand after a plan's first records.
pub fn carry_over(
    n: u64,
    asked: &[u32],
    plan: &[u8],
    first: u64,
    wished: &[u32],
    cells: &mut [u32],
) -> Result<(), Named> {
    let plain = |why| Named(About::Nothing, why);
    for lent in [asked.len(), wished.len(), cells.len()] {
        square(n, lent).map_err(plain)?;
    }
    let granted = granted(n, plan, first).map_err(|why| Named(About::Plan, why))?;
    let records = plan.len() / RECORD_SIZE;
    if first > records as u64 {
        return Err(plain(Refusal::FirstOver(records)));
    }
    demand(n, asked).map_err(|why| Named(About::Demand, why))?;
    demand(n, wished).map_err(|why| Named(About::Wished, why))?;
    let left = asked.iter().zip(&granted).map(|(asked, granted)| asked.saturating_sub(*granted));
    let sum: Vec<u32> = left.zip(wished).map(|(left, wished)| left + wished).collect();
    demand(n, &sum).map_err(|why| Named(About::Sum, why))?;
    cells.copy_from_slice(&sum);
    Ok(())
}

/// What a plan's first records grant each pair; the whole plan is judged.
fn granted(n: u64, plan: &[u8], first: u64) -> Result<[u32; MOST_PORTS * MOST_PORTS], Refusal> {
    let n = opened(n, plan)?;
    let mut granted = [0; MOST_PORTS * MOST_PORTS];
    let mut number = 0;
    each_record(n, plan, |hold, outputs| {
        for (input, &output) in outputs[..n].iter().enumerate() {
            if number < first && output != IDLE {
                granted[input * n + usize::from(output)] += u32::from(hold);
            }
        }
        number += 1;
    })?;
    Ok(granted)
}
