//! The open shop (§21): each pair with slots is a task, on a switch whose ports move on their own.

use crate::{demand, ports, Counts, Outcome, Refusal, MOST_PORTS, TASK_SIZE};

/// The tasks of a demand, d being the switching time, at the start of lent bytes.
pub fn shop(n: u64, cells: &[u32], d: u16, tasks: &mut [u8]) -> Outcome {
    let (n, _) = demand(n, cells)?;
    let need = cells.iter().filter(|&&cell| cell != 0).count();
    if tasks.len() / TASK_SIZE < need {
        return Err(Refusal::Room(need));
    }
    let total = lay(n, cells, u32::from(d), tasks);
    Ok(Counts { records: need as u64, total: u64::from(total), ..Counts::default() })
}

/// Lays the tasks one after the other, and gives the latest end.
fn lay(n: usize, cells: &[u32], d: u32, tasks: &mut [u8]) -> u32 {
    // For each output a label of the inputs with a task for it that is not started.
    let mut waiting = [0u64; MOST_PORTS];
    for (i, row) in cells.chunks_exact(n).enumerate() {
        for (label, &cell) in waiting.iter_mut().zip(row) {
            *label |= u64::from(cell != 0) << i;
        }
    }
    let (mut input_over, mut output_over) = ([0u32; MOST_PORTS], [0u32; MOST_PORTS]);
    let (mut records, mut latest, mut now) = (tasks.chunks_exact_mut(TASK_SIZE), 0, 0);
    loop {
        let mut idle = (0..n).fold(0, |label, i| label | u64::from(input_over[i] <= now) << i);
        for j in 0..n {
            let ready = waiting[j] & idle;
            if output_over[j] > now || ready == 0 {
                continue;
            }
            let i = ready.trailing_zeros() as usize;
            let end = now + d + cells[i * n + j];
            write(records.next().expect("room for all"), i, j, now, end);
            (waiting[j], idle) = (waiting[j] & !(1 << i), idle & !(1 << i));
            (input_over[i], output_over[j]) = (end, end);
            latest = latest.max(end);
        }
        match output_over[..n].iter().copied().filter(|&end| end > now).min() {
            Some(finish) => now = finish,
            None => return latest,
        }
    }
}

fn write(record: &mut [u8], input: usize, output: usize, start: u32, end: u32) {
    record[..4].copy_from_slice(&[input as u8, output as u8, 0, 0]);
    record[4..8].copy_from_slice(&start.to_le_bytes());
    record[8..].copy_from_slice(&end.to_le_bytes());
}

/// Reads tasks from anywhere.
pub fn tasks(n: u64, tasks: &[u8]) -> Outcome {
    let n = ports(n)?;
    let records = tasks.len() / TASK_SIZE;
    if tasks.len() % TASK_SIZE != 0 {
        return Err(Refusal::Torn(records));
    }
    let (mut input_over, mut output_over) = ([0u32; MOST_PORTS], [0u32; MOST_PORTS]);
    let (mut before, mut latest) = (None, 0);
    for (k, record) in tasks.chunks_exact(TASK_SIZE).enumerate() {
        let (i, j) = (usize::from(record[0]), usize::from(record[1]));
        let word = |at: usize| u32::from_le_bytes(record[at..at + 4].try_into().expect("four bytes"));
        let (start, end) = (word(4), word(8));
        let fair = i < n && j < n && record[2] == 0 && record[3] == 0 && start < end;
        if !fair || before >= Some((start, j)) || start < input_over[i] || start < output_over[j] {
            return Err(Refusal::Malformed(k));
        }
        (input_over[i], output_over[j], before) = (end, end, Some((start, j)));
        latest = latest.max(end);
    }
    Ok(Counts { records: records as u64, total: u64::from(latest), ..Counts::default() })
}
