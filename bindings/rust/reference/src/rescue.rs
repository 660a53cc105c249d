//! Rescuing a damaged plan (§19).

use crate::{demand, exact, Counts, Refusal, IDLE, MOST_RECORDS, RECORD_SIZE};

/// Bytes of an entry of the list of dropped records.
pub const ENTRY_SIZE: usize = 4;

/// What a rescue counts: a planner's counts for the demand, and the records added and dropped.
#[derive(Clone, Copy, Debug, PartialEq, Eq)]
pub struct Rescued {
    pub counts: Counts,
    pub added: u64,
    pub dropped: u64,
}

/// Keeps the well-formed records, appends the exact plan of what they leave uncovered, and lists the rest.
pub fn rescue(
    n: u64,
    cells: &[u32],
    damaged: &[u8],
    plan: &mut [u8],
    dropped: &mut [u8],
) -> Result<Rescued, Refusal> {
    let (ports, longest) = demand(n, cells)?;
    let records = damaged.chunks_exact(RECORD_SIZE);
    let torn = !records.remainder().is_empty();
    if records.len() + usize::from(torn) > MOST_RECORDS {
        return Err(Refusal::Records);
    }
    let (mut saved, mut list) = (Vec::new(), Vec::new());
    let mut granted = vec![0u64; cells.len()];
    let mut total = 0;
    let whole = records.len();
    for (number, record) in records.enumerate() {
        if let Some(reason) = reason(ports, record) {
            list.extend(entry(number, reason));
            continue;
        }
        saved.extend_from_slice(record);
        let hold = u64::from(u16::from_le_bytes([record[0], record[1]]));
        total += hold;
        for (input, &output) in record[4..4 + ports].iter().enumerate().filter(|(_, &output)| output != IDLE)
        {
            granted[input * ports + usize::from(output)] += hold;
        }
    }
    if torn {
        list.extend(entry(whole, 7));
    }
    let left =
        cells.iter().zip(&granted).map(|(&asked, &given)| u64::from(asked).saturating_sub(given) as u32);
    let left: Vec<u32> = left.collect();
    let mut more = vec![0; (ports * ports + 2 - 2 * ports) * RECORD_SIZE];
    let appended = exact(n, &left, &mut more)?;
    let added = appended.records as usize * RECORD_SIZE;
    saved.extend_from_slice(&more[..added]);
    let needed = saved.len() / RECORD_SIZE;
    if needed > MOST_RECORDS {
        return Err(Refusal::Records);
    }
    if plan.len() / RECORD_SIZE < needed {
        return Err(Refusal::Room(needed));
    }
    if dropped.len() / ENTRY_SIZE < list.len() / ENTRY_SIZE {
        return Err(Refusal::ListRoom(list.len() / ENTRY_SIZE));
    }
    plan[..saved.len()].copy_from_slice(&saved);
    dropped[..list.len()].copy_from_slice(&list);
    let surplus: u64 =
        cells.iter().zip(&granted).map(|(&asked, &given)| given.saturating_sub(u64::from(asked))).sum();
    Ok(Rescued {
        counts: Counts {
            records: needed as u64,
            longest,
            total: total + appended.total,
            length: 0,
            empty: surplus + appended.empty,
        },
        added: appended.records,
        dropped: (list.len() / ENTRY_SIZE) as u64,
    })
}

fn entry(number: usize, reason: u8) -> [u8; ENTRY_SIZE] {
    let [low, high] = (number as u16).to_le_bytes();
    [low, high, reason, 0]
}

/// Why a record is not well formed, by the first rule that it breaks.
fn reason(n: usize, record: &[u8]) -> Option<u8> {
    let (outputs, past) = record[4..].split_at(n);
    let port = |output: u8| usize::from(output) < n;
    let twice = |input: usize| port(outputs[input]) && outputs[..input].contains(&outputs[input]);
    if record[0] == 0 && record[1] == 0 {
        Some(1)
    } else if usize::from(record[2]) != n {
        Some(2)
    } else if record[3] != 0 {
        Some(3)
    } else if outputs.iter().any(|&output| !port(output) && output != IDLE) {
        Some(4)
    } else if (0..n).any(twice) {
        Some(5)
    } else if past.iter().any(|&output| output != IDLE) {
        Some(6)
    } else {
        None
    }
}
