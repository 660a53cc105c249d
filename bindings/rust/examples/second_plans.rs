//! The second edition's planners on a switch of 65 ports: records of 132 bytes, with the byte 2 behind N.

use chordvenus::owned::Planned;
use chordvenus::{second, Answer, Refused};

const N: usize = 65;

fn show(name: &str, answer: Answer, plan: &[u8], made: Planned) -> Result<(), Refused> {
    let Answer { records, total, empty, .. } = answer.done()?;
    println!("{name}: records {records} total {total} empty {empty}");
    for record in plan.chunks(second::RECORD_SIZE).take(records as usize) {
        let hold = u16::from_le_bytes([record[0], record[1]]);
        let (first, last) = (record[4], record[4 + 64]);
        println!("hold {hold} N {} byte {} input 0 to {first}, input 64 to {last}", record[2], record[3]);
    }
    assert_eq!(made.bytes, plan[..records as usize * second::RECORD_SIZE]);
    Ok(())
}

fn main() -> Result<(), Refused> {
    // Each input asks 3 slots of the output after its own, around, and input 64 one of output 7.
    let mut cells = [0; N * N];
    for input in 0..N {
        cells[input * N + (input + 1) % N] = 3;
    }
    cells[64 * N + 7] = 1;
    let mut plan = [0; 2 * N * second::RECORD_SIZE];
    let answer = second::exact(N as u64, &cells, &mut plan);
    show("exact", answer, &plan, second::owned::exact(N as u64, &cells)?)?;
    let answer = second::doubled(N as u64, &cells, &mut plan);
    show("doubled", answer, &plan, second::owned::doubled(N as u64, &cells)?)?;
    let answer = second::doubled_every_rotation(N as u64, &cells, &mut plan);
    show("every rotation", answer, &plan, second::owned::doubled_every_rotation(N as u64, &cells)?)?;
    let answer = second::quick(N as u64, &cells, &mut plan);
    show("quick", answer, &plan, second::owned::quick(N as u64, &cells)?)
}
