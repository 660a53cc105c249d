//! Tasks for a switch whose ports move on their own, and what the reader says of them.

use chordvenus::{owned, Task, TASK_SIZE};

const N: u64 = 2;

fn main() -> Result<(), chordvenus::Refused> {
    let cells = [1, 2, 3, 1];
    let mut tasks = [0; 4 * TASK_SIZE];
    let answer = chordvenus::shop(N, &cells, 1, &mut tasks).done()?;
    for record in tasks.chunks_exact(TASK_SIZE) {
        let task = Task::read(record.try_into().expect("a whole record"));
        println!("input {} to output {} from {} to {}", task.input, task.output, task.start, task.end);
    }
    println!("{} tasks, the last over at {}", answer.records, answer.total);
    assert_eq!(owned::shop(N, &cells, 1)?.bytes, tasks);

    // The third task starts one slot too early: its input and its output are still at work.
    tasks[2 * TASK_SIZE + 4] = 1;
    let answer = chordvenus::tasks(N, &tasks);
    println!("code {} at task {}", answer.code, answer.place);
    Ok(())
}
