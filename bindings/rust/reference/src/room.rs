//! §20: the records that suffice, from N and T alone, for an edition of so many ports.

use crate::{Counts, Outcome, Refusal, MOST_LINE, MOST_QUICK};

/// Codes 1 and 3, and then so many records.
fn suffice(most_ports: usize, n: u64, longest: u64, records: impl Fn() -> u64) -> Outcome {
    if n == 0 || n > most_ports as u64 {
        return Err(Refusal::Ports);
    }
    if longest > MOST_LINE {
        return Err(Refusal::LongestOver);
    }
    Ok(Counts { records: records(), ..Counts::default() })
}

/// The exact plan's.
pub fn exact_room(most_ports: usize, n: u64, longest: u64) -> Outcome {
    suffice(most_ports, n, longest, || longest.min((n - 1) * (n - 1) + 1))
}

/// The doubled plan's, by either rule.
pub fn doubled_room(most_ports: usize, n: u64, longest: u64) -> Outcome {
    suffice(most_ports, n, longest, || 2 * n)
}

/// The quick cover's, and its code 4.
pub fn quick_room(most_ports: usize, n: u64, longest: u64) -> Outcome {
    let room = suffice(most_ports, n, longest, || (2 * longest).saturating_sub(1));
    match room {
        Ok(_) if longest > MOST_QUICK => Err(Refusal::Longest),
        room => room,
    }
}
