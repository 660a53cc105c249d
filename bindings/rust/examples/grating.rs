//! Plans for the grating fabric, and what each of their records does to the wavelengths.

use chordvenus::{owned, RECORD_SIZE};

const N: usize = 5;
const LIMIT: u64 = 2;
const CELLS: [u32; N * N] = [9, 1, 2, 1, 3, 2, 8, 0, 3, 1, 1, 3, 7, 2, 3, 1, 1, 4, 9, 1, 2, 3, 1, 1, 8];

/// What each record of a plan does.
fn show(plan: &[u8]) -> Result<(), chordvenus::Refused> {
    let mut report = [0; N * N];
    let answer = chordvenus::grating_report(N as u64, plan, &mut report).done()?;
    let report = &report[..answer.records as usize];
    for (at, most) in report.iter().enumerate() {
        println!("record {at}: at most {most} inputs on a wavelength");
    }
    assert_eq!(owned::grating_report(N as u64, plan)?, report);
    Ok(())
}

fn main() -> Result<(), chordvenus::Refused> {
    let mut plan = [0; chordvenus::doubled_bytes(N)];
    let answer = chordvenus::grating_doubled(N as u64, &CELLS, &mut plan).done()?;
    println!("records {} total {}", answer.records, answer.total);
    let plan = &plan[..answer.records as usize * RECORD_SIZE];
    show(plan)?;
    assert_eq!(owned::grating_doubled(N as u64, &CELLS)?.bytes, plan);

    // The same demand with at most LIMIT inputs on a wavelength, and what that costs at least.
    let least = chordvenus::grating_least(N as u64, &CELLS, LIMIT).done()?.total;
    let mut quiet = [0; N * N * RECORD_SIZE];
    let answer = chordvenus::grating_quiet(N as u64, &CELLS, LIMIT, &mut quiet).done()?;
    let (records, total) = (answer.records, answer.total);
    println!("quiet: records {records} total {total}, and no plan within {LIMIT} has less than {least}");
    let quiet = &quiet[..records as usize * RECORD_SIZE];
    show(quiet)?;
    assert_eq!(owned::grating_quiet(N as u64, &CELLS, LIMIT)?.bytes, quiet);
    Ok(())
}
