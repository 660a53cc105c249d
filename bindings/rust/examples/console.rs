//! Which record is in force at a slot of the night, and what a batch that is stopped leaves to ask.

use chordvenus::owned;

const N: u64 = 2;

fn main() -> Result<(), chordvenus::Refused> {
    // Tonight: 3 slots straight, 2 crossed. On standby: 4 slots crossed, over and over.
    let asked = [3, 2, 2, 3];
    let tonight = owned::exact(N, &asked)?.bytes;
    let standby = owned::exact(N, &[0, 4, 4, 0])?.bytes;
    for slot in [0, 4, 5, u64::MAX] {
        let record = chordvenus::in_force(N, &tonight, &standby, slot)?;
        let plan = if tonight.as_ptr_range().contains(&record.as_ptr()) { "tonight" } else { "standby" };
        println!("slot {slot}: {plan}, hold {}, input 0 has output {}", record[0], record[4]);
    }

    // The night is stopped after its first record, and input 0 wishes 5 more slots of output 0.
    let wished = [5, 0, 0, 0];
    let mut cells = [0; 4];
    chordvenus::carry_over(N, &asked, &tonight, 1, &wished, &mut cells).done()?;
    println!("left to ask\n{} {}\n{} {}", cells[0], cells[1], cells[2], cells[3]);
    assert_eq!(owned::carry_over(N, &asked, &tonight, 1, &wished)?, cells);
    Ok(())
}
