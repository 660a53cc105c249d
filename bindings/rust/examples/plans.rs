//! One demand by each planner: few slots (exact), few settings (doubled, by both rules), little thought (quick).

use chordvenus::owned::{self, Planned};
use chordvenus::{Answer, Plan, Refused, RECORD_SIZE};

const N: u64 = 3;
const LONGEST: usize = 10;
const CELLS: [u32; 9] = [7, 1, 2, 0, 6, 3, 2, 2, 5];

fn show(name: &str, answer: Answer, plan: &[u8], made: Planned) -> Result<(), Refused> {
    let Answer { records, total, empty, .. } = answer.done()?;
    println!("{name}: records {records} total {total} empty {empty}");
    let plan = &plan[..records as usize * RECORD_SIZE];
    for record in Plan::open(N, plan)? {
        let record = record?;
        print!("{}", record.hold);
        for input in 0..N as usize {
            match record.output(input) {
                Some(output) => print!(" {output}"),
                None => print!(" -"),
            }
        }
        println!();
    }
    assert_eq!(made.bytes, plan);
    Ok(())
}

fn main() -> Result<(), Refused> {
    let mut plan = [0; chordvenus::exact_bytes(N as usize)];
    let answer = chordvenus::exact(N, &CELLS, &mut plan);
    show("exact", answer, &plan, owned::exact(N, &CELLS)?)?;

    let mut plan = [0; chordvenus::doubled_bytes(N as usize)];
    let answer = chordvenus::doubled(N, &CELLS, &mut plan);
    show("doubled", answer, &plan, owned::doubled(N, &CELLS)?)?;
    let answer = chordvenus::doubled_every_rotation(N, &CELLS, &mut plan);
    show("every rotation", answer, &plan, owned::doubled_every_rotation(N, &CELLS)?)?;

    let mut plan = [0; chordvenus::quick_bytes(LONGEST)];
    let answer = chordvenus::quick(N, &CELLS, &mut plan);
    show("quick", answer, &plan, owned::quick(N, &CELLS)?)
}
