//! Joining equal settings.

use crate::plan::{bytes, each_record, opened};
use crate::{Counts, Outcome, Refusal, MOST_LINE, MOST_PORTS, RECORD_SIZE};
use std::collections::HashMap;

/// Writes a plan anew into a second buffer: settings in order of first appearance, holds summed, in
/// records of at most 65,535, of which only the last is shorter (§12.2).
pub fn join(n: u64, plan: &[u8], joined: &mut [u8]) -> Outcome {
    let n = opened(n, plan)?;
    let mut places: HashMap<&[u8; MOST_PORTS], usize> = HashMap::new();
    let mut sums: Vec<(&[u8; MOST_PORTS], u64)> = Vec::new();
    each_record(n, plan, |hold, outputs| {
        let place = *places.entry(outputs).or_insert(sums.len());
        if place == sums.len() {
            sums.push((outputs, 0));
        }
        sums[place].1 += u64::from(hold);
    })?;
    let records: u64 = sums.iter().map(|(_, sum)| sum.div_ceil(MOST_LINE)).sum();
    if ((joined.len() / RECORD_SIZE) as u64) < records {
        return Err(Refusal::Room(records as usize));
    }
    let mut places = joined.chunks_exact_mut(RECORD_SIZE);
    for &(outputs, sum) in &sums {
        let mut left = sum;
        while left > 0 {
            let hold = left.min(MOST_LINE);
            places.next().expect("room for each record").copy_from_slice(&bytes(hold as u16, n, outputs));
            left -= hold;
        }
    }
    let total = sums.iter().map(|(_, sum)| sum).sum();
    Ok(Counts { records, total, ..Counts::default() })
}
