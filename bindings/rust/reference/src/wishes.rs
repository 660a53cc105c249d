//! From wishes to a demand.

use crate::{square, Counts, Outcome, Refusal, MOST_LINE, MOST_PORTS, WISH_SIZE};

/// Added to a wish and taken off again, this leaves the nearest whole number: no binary32 from here to twice this has a fraction.
const NO_FRACTION: f32 = 8_388_608.0;

/// One wish to slots: rounded up, and 2 in the place of 1 (§4.3). Its refusals are those of record 0.
#[inline(never)] // timed as a call of a library
pub fn wish(bits: u32) -> Outcome {
    slots(bits, 0).map(|slots| Counts { total: u64::from(slots), ..Counts::default() })
}

/// A wish list to a demand; all N² cells are written, and only if no record is faulty.
pub fn wishes(n: u64, list: &[u8], cells: &mut [u32]) -> Outcome {
    let n = square(n, cells.len())?;
    let records = list.chunks_exact(WISH_SIZE);
    if !records.remainder().is_empty() {
        return Err(Refusal::Torn(records.len()));
    }
    let count = records.len() as u64;
    let mut asked = [0u32; MOST_PORTS * MOST_PORTS];
    let mut named = [false; MOST_PORTS * MOST_PORTS];
    for (k, record) in records.enumerate() {
        let (input, output) = (usize::from(record[0]), usize::from(record[1]));
        if input >= n || output >= n || record[2] != 0 || record[3] != 0 {
            return Err(Refusal::Malformed(k));
        }
        let cell = input * n + output;
        if named[cell] {
            return Err(Refusal::Named(k));
        }
        named[cell] = true;
        let bits = u32::from_le_bytes([record[4], record[5], record[6], record[7]]);
        asked[cell] = slots(bits, k)?;
    }
    cells.copy_from_slice(&asked[..n * n]);
    Ok(Counts { records: count, ..Counts::default() })
}

/// The slots of the wish in record k, or its refusal: not finite before below zero before too large.
fn slots(bits: u32, k: usize) -> Result<u32, Refusal> {
    let wish = f32::from_bits(bits);
    if !wish.is_finite() {
        return Err(Refusal::NotFinite(k));
    }
    if wish < 0.0 {
        return Err(Refusal::BelowZero(k));
    }
    if wish > MOST_LINE as f32 {
        return Err(Refusal::AboveMost(k));
    }
    let near = (wish + NO_FRACTION) - NO_FRACTION;
    let least = near as u32 + u32::from(near < wish);
    Ok(if least == 1 { 2 } else { least })
}
