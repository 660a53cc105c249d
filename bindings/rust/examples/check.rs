//! A plan from anywhere: held against a demand, measured at a switching time, and its equal settings joined.

use chordvenus::{outputs, owned, RECORD_SIZE};

const N: u64 = 2;
const SWITCHING_TIME: u16 = 5;

fn main() -> Result<(), chordvenus::Refused> {
    // Straight for 2 slots, crossed for 3, straight for 1 more.
    let (straight, crossed) = ([Some(0), Some(1)], [Some(1), Some(0)]);
    let mut plan = [0; 3 * RECORD_SIZE];
    let records = [(2, straight), (3, crossed), (1, straight)];
    for (record, (hold, setting)) in plan.chunks_mut(RECORD_SIZE).zip(records) {
        chordvenus::write(hold, N, &outputs(&setting), record).done()?;
    }

    let answer = chordvenus::check(N, &[3, 2, 3, 1], &plan).done()?;
    println!("it covers, with {} empty slots", answer.empty);
    let answer = chordvenus::check(N, &[3, 2, 4, 1], &plan);
    println!("code {} at cell {}: {}", answer.code, answer.place, answer.code());

    let answer = chordvenus::length(N, &plan, SWITCHING_TIME).done()?;
    println!("it takes {} slots", answer.length);

    let mut joined = [0; 3 * RECORD_SIZE];
    let answer = chordvenus::join(N, &plan, &mut joined).done()?;
    let joined = &joined[..answer.records as usize * RECORD_SIZE];
    let answer = chordvenus::length(N, joined, SWITCHING_TIME).done()?;
    println!("joined, in {} records, {}", answer.records, answer.length);
    assert_eq!(owned::join(N, &plan)?.bytes, joined);
    Ok(())
}
