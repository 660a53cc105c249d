//! The grating fabric (§13), where the pair (i, j) has wavelength (j - i) mod N: the report of a
//! plan, and the doubled plan with anti-rotations.

use crate::exact::{peel, Writer};
use crate::plan::{each_record, opened};
use crate::{demand, Counts, Outcome, Refusal, BYTE, IDLE, MOST_PORTS};

/// For each record of a plan the most inputs that share one wavelength, one byte for each.
pub fn grating_report(n: u64, plan: &[u8], report: &mut [u8]) -> Outcome {
    let n = opened(n, plan)?;
    let mut numbers = Vec::new();
    let mut total = 0;
    let records = each_record(n, plan, |hold, outputs| {
        total += u64::from(hold);
        numbers.push(most_shared(n, outputs));
    })?;
    if report.len() < numbers.len() {
        return Err(Refusal::Room(numbers.len()));
    }
    report[..numbers.len()].copy_from_slice(&numbers);
    Ok(Counts { records, total, ..Counts::default() })
}

fn most_shared(n: usize, outputs: &[u8; MOST_PORTS]) -> u8 {
    let mut shared = [0; MOST_PORTS];
    for (input, &output) in outputs[..n].iter().enumerate() {
        if output != IDLE {
            shared[(n + usize::from(output) - input) % n] += 1;
        }
    }
    shared.into_iter().max().unwrap_or(0)
}

/// The doubled plan with anti-rotations for its second part: setting k sends input i to output
/// (k - i) mod N, for as long as its largest remainder says (§13.5).
pub fn grating_doubled(n: u64, cells: &[u32], plan: &mut [u8]) -> Outcome {
    let (n, longest) = demand(n, cells)?;
    let mut written = Writer::new(BYTE);
    if longest > 0 {
        let unit = (longest as u32).div_ceil(n as u32);
        let quotients: Vec<u32> = cells.iter().map(|cell| cell / unit).collect();
        peel::<u64, MOST_PORTS>(n, &quotients, unit, &mut written);
        for (k, &hold) in remainders(n, cells, unit)[..n].iter().enumerate() {
            if hold > 0 {
                written.push(hold, n, &anti_rotation(n, k));
            }
        }
    }
    written.lend(cells, 0, plan).map(|counts| Counts { empty: 0, ..counts })
}

/// The largest remainder of setting k at k: the pair (i, j) is joined in setting (i + j) mod N.
fn remainders(n: usize, cells: &[u32], unit: u32) -> [u16; MOST_PORTS] {
    let mut largest = [0; MOST_PORTS];
    for (pair, cell) in cells.iter().enumerate() {
        let hold = &mut largest[(pair / n + pair % n) % n];
        *hold = (*hold).max((cell % unit) as u16);
    }
    largest
}

fn anti_rotation(n: usize, k: usize) -> [u8; MOST_PORTS] {
    let mut outputs = [IDLE; MOST_PORTS];
    for (input, output) in outputs[..n].iter_mut().enumerate() {
        *output = ((n + k - input) % n) as u8;
    }
    outputs
}
