//! A plan file with bad records, made whole again for a demand that is still at hand.

use chordvenus::{owned, Entry, ENTRY_SIZE, RECORD_SIZE};

const N: u64 = 2;

fn main() -> Result<(), chordvenus::Refused> {
    // A good plan of two records; then the second loses its hold, and the file ends in the middle of a third.
    let cells = [2, 1, 1, 2];
    let mut damaged = owned::exact(N, &cells)?.bytes;
    damaged[RECORD_SIZE] = 0;
    damaged.extend([1, 0, 2]);

    let mut plan = [0; 4 * RECORD_SIZE];
    let mut dropped = [0; 3 * ENTRY_SIZE];
    let answer = chordvenus::rescue(N, &cells, &damaged, &mut plan, &mut dropped).done()?;
    println!("records {} total {} added {}", answer.records, answer.total, answer.added);
    let entries = &dropped[..answer.dropped as usize * ENTRY_SIZE];
    for entry in Entry::read(entries) {
        println!("dropped {}, reason {}", entry.number, entry.reason);
    }

    let rescued = &plan[..answer.records as usize * RECORD_SIZE];
    let checked = chordvenus::check(N, &cells, rescued).done()?;
    println!("checked: records {} total {} empty {}", checked.records, checked.total, checked.empty);
    assert_eq!(owned::rescue(N, &cells, &damaged)?.0.bytes, rescued);
    Ok(())
}
