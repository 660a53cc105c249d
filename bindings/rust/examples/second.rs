//! A switch of 100 ports: wishes, a record, a plan read, checked, measured and joined; and a small plan
//! moved between the editions.

use chordvenus::{outputs, owned, second, Refused};

const N: u64 = 100;

fn main() -> Result<(), Refused> {
    // input 0, output 99, 65.0 as a binary32
    let list = [0, N as u8 - 1, 0, 0, 0x00, 0x00, 0x82, 0x42];
    let mut cells = vec![0; (N * N) as usize];
    second::wishes(N, &list, &mut cells).done()?;
    assert_eq!(second::owned::wishes(N, &list)?, cells);

    // input i has output N - 1 - i, for 40 slots, twice
    let setting: Vec<Option<u8>> = (0..N as u8).rev().map(Some).collect();
    let mut plan = vec![0; 2 * second::RECORD_SIZE];
    for record in plan.chunks_exact_mut(second::RECORD_SIZE) {
        second::write(40, N, &outputs(&setting), record).done()?;
    }

    let records = second::open(N, &plan).done()?.records;
    println!("records {records}");
    for at in 0..records {
        if let second::Step::Record(record) = second::step_at(N, &plan, at) {
            println!("input 0 has output {} for {} slots", record.outputs[0], record.hold);
        }
    }

    let answer = second::check(N, &cells, &plan).done()?;
    println!("covers, longest {}, empty {}", answer.longest, answer.empty);
    println!("length {}", second::length(N, &plan, 5).done()?.length);
    let mut joined = vec![0; plan.len()];
    let answer = second::join(N, &plan, &mut joined).done()?;
    println!("joined: records {}, total {}", answer.records, answer.total);
    assert_eq!(second::owned::join(N, &plan)?.bytes, joined[..second::RECORD_SIZE]);

    let mut first = [0; chordvenus::RECORD_SIZE];
    chordvenus::write(7, 2, &outputs(&[Some(1), None]), &mut first).done()?;
    let mut moved = [0; second::RECORD_SIZE];
    chordvenus::to_second(2, &first, &mut moved).done()?;
    let mut back = [0; chordvenus::RECORD_SIZE];
    chordvenus::to_first(2, &moved, &mut back).done()?;
    assert_eq!(owned::to_second(2, &first)?.bytes, moved);
    assert_eq!(owned::to_first(2, &moved)?.bytes, back);
    let same = if back == first { "is the same" } else { "differs" };
    println!("moved: the byte behind N is {}, and there and back {same}", moved[3]);
    let answer = chordvenus::to_first(N, &plan, &mut back);
    println!("moved to 64 ports: code {}: {}", answer.code, answer.code());
    Ok(())
}
