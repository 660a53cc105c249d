//! A record written, a plan opened, and read step by step up to its end.

use chordvenus::{outputs, Step, RECORD_SIZE};

const N: u64 = 3;

fn main() -> Result<(), chordvenus::Refused> {
    let mut plan = [0; RECORD_SIZE];
    chordvenus::write(40, N, &outputs(&[Some(2), None, Some(0)]), &mut plan).done()?;

    println!("records {}", chordvenus::open(N, &plan).done()?.records);
    for at in 0.. {
        match chordvenus::step_at(N, &plan, at) {
            Step::Record(record) => {
                for input in 0..N as usize {
                    match record.output(input) {
                        Some(output) => {
                            println!("input {input} has output {output} for {} slots", record.hold)
                        }
                        None => println!("input {input} is idle"),
                    }
                }
            }
            Step::End => {
                println!("the end");
                break;
            }
            Step::Malformed(_) => {
                println!("damaged");
                break;
            }
        }
    }

    let answer = chordvenus::write(40, N, &outputs(&[Some(2), Some(2), Some(0)]), &mut plan);
    println!("an output twice: code {}: {}", answer.code, answer.code());
    Ok(())
}
