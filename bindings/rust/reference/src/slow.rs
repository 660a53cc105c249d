//! The same plans in the plainest words: no labels, no kept matching, nothing but the sentences of
//! docs/SPECIFICATION.md. Slow, and meant to be seen to be right.

use crate::{Record, IDLE, MOST_PORTS};

/// A demand as rows of cells.
pub type Demand = Vec<Vec<u64>>;

/// Chooses a full setting that uses only non-zero cells, the first in dictionary order.
pub type First = fn(&Demand) -> Vec<usize>;

pub fn rows(n: usize, cells: &[u32]) -> Demand {
    cells.chunks(n).map(|row| row.iter().map(|&cell| u64::from(cell)).collect()).collect()
}

/// The largest line sum.
pub fn longest(demand: &Demand) -> u64 {
    let inputs = demand.iter().map(|row| row.iter().sum());
    let outputs = (0..demand.len()).map(|j| demand.iter().map(|row| row[j]).sum());
    inputs.chain(outputs).max().unwrap_or(0)
}

/// Tops up each cell in order by as much as its row and its column both allow (§6.2).
pub fn filled(demand: &Demand) -> Demand {
    let (n, longest) = (demand.len(), longest(demand));
    let mut filled = demand.clone();
    for i in 0..n {
        for j in 0..n {
            let row: u64 = filled[i].iter().sum();
            let column: u64 = filled.iter().map(|row| row[j]).sum();
            filled[i][j] += (longest - row).min(longest - column);
        }
    }
    filled
}

/// The exact plan, with the first setting found as `first` does.
pub fn exact(demand: &Demand, first: First) -> Vec<Record> {
    let mut rest = filled(demand);
    let mut plan = Vec::new();
    while rest.iter().flatten().any(|&cell| cell != 0) {
        let setting = first(&rest);
        let hold = setting.iter().enumerate().map(|(i, &j)| rest[i][j]).min().expect("N is at least 1");
        for (i, &j) in setting.iter().enumerate() {
            rest[i][j] -= hold;
        }
        plan.push(record(hold, &setting));
    }
    plan
}

/// The doubled plan, over the exact plan with the first setting found as `first` does: a rotation's
/// hold is its largest remainder, and one without a remainder is not there (§7.4).
pub fn doubled(demand: &Demand, first: First) -> Vec<Record> {
    let unit = unit(demand);
    let mut plan = quotients_plan(demand, unit, first);
    for rotation in all_rotations(demand.len()) {
        let remainders = rotation.iter().enumerate().map(|(i, &j)| demand[i][j] % unit.max(1));
        let hold = remainders.max().expect("N is at least 1");
        if hold != 0 {
            plan.push(record(hold, &rotation));
        }
    }
    plan
}

/// The doubled plan by the old rule: if u is at least 2, the N rotations, hold u - 1.
pub fn doubled_every_rotation(demand: &Demand, first: First) -> Vec<Record> {
    let unit = unit(demand);
    let mut plan = quotients_plan(demand, unit, first);
    if unit >= 2 {
        plan.extend(all_rotations(demand.len()).map(|rotation| record(unit - 1, &rotation)));
    }
    plan
}

/// u is T / N rounded up.
fn unit(demand: &Demand) -> u64 {
    longest(demand).div_ceil(demand.len() as u64)
}

/// The exact plan of the quotients, its holds times u (§7.2); empty if T is 0.
fn quotients_plan(demand: &Demand, unit: u64, first: First) -> Vec<Record> {
    if unit == 0 {
        return Vec::new();
    }
    let quotients = demand.iter().map(|row| row.iter().map(|cell| cell / unit).collect()).collect();
    let mut plan = exact(&quotients, first);
    for record in &mut plan {
        record.hold *= unit as u16;
    }
    plan
}

/// Rotation k: input i to output (i + k) mod N (§7.3).
fn all_rotations(n: usize) -> impl Iterator<Item = Vec<usize>> {
    (0..n).map(move |k| (0..n).map(|i| (i + k) % n).collect())
}

/// The quick cover.
pub fn quick(demand: &Demand) -> Vec<Record> {
    let n = demand.len();
    let mut left = demand.clone();
    let mut plan = Vec::new();
    while left.iter().flatten().any(|&cell| cell != 0) {
        let mut outputs = [IDLE; MOST_PORTS];
        for turn in 0..n {
            let i = (plan.len() + turn) % n;
            if let Some(j) = (0..n).find(|&j| left[i][j] != 0 && !outputs.contains(&(j as u8))) {
                left[i][j] -= 1;
                outputs[i] = j as u8;
            }
        }
        plan.push(Record { hold: 1, outputs });
    }
    plan
}

/// The quiet plan for the grating fabric within a wavelength limit of at least 1.
pub fn quiet(demand: &Demand, limit: u64) -> Vec<Record> {
    let n = demand.len();
    let mut left = demand.clone();
    let mut plan = Vec::new();
    while left.iter().flatten().any(|&cell| cell != 0) {
        let mut outputs = [IDLE; MOST_PORTS];
        for i in 0..n {
            let uses = |w: usize| (0..i).filter(|&k| usize::from(outputs[k]) == (k + w) % n).count() as u64;
            let may =
                |j: usize| left[i][j] != 0 && !outputs.contains(&(j as u8)) && uses((n + j - i) % n) < limit;
            if let Some(j) = (0..n).find(|&j| may(j)) {
                outputs[i] = j as u8;
            }
        }
        let joined: Vec<(usize, usize)> =
            (0..n).filter(|&i| outputs[i] != IDLE).map(|i| (i, usize::from(outputs[i]))).collect();
        let hold = joined.iter().map(|&(i, j)| left[i][j]).min().expect("a cell is not zero");
        for (i, j) in joined {
            left[i][j] -= hold;
        }
        plan.push(Record { hold: hold as u16, outputs });
    }
    plan
}

/// A plan with its equal settings joined (§12.2): in order of first appearance, holds summed, in
/// records of 65,535 and one for the remainder where there is one.
pub fn join(plan: &[Record]) -> Vec<Record> {
    let mut sums: Vec<(u64, [u8; MOST_PORTS])> = Vec::new();
    for record in plan {
        match sums.iter_mut().find(|(_, outputs)| *outputs == record.outputs) {
            Some((sum, _)) => *sum += u64::from(record.hold),
            None => sums.push((u64::from(record.hold), record.outputs)),
        }
    }
    let mut joined = Vec::new();
    for (mut left, outputs) in sums {
        while left > 65_535 {
            joined.push(Record { hold: 65_535, outputs });
            left -= 65_535;
        }
        joined.push(Record { hold: left as u16, outputs });
    }
    joined
}

/// The first setting by trying outputs in order and going back: for small N.
pub fn first_by_going_back(rest: &Demand) -> Vec<usize> {
    fn go_on(rest: &Demand, chosen: &mut Vec<usize>) -> bool {
        let i = chosen.len();
        if i == rest.len() {
            return true;
        }
        for j in 0..rest.len() {
            if rest[i][j] != 0 && !chosen.contains(&j) {
                chosen.push(j);
                if go_on(rest, chosen) {
                    return true;
                }
                chosen.pop();
            }
        }
        false
    }
    let mut chosen = Vec::new();
    assert!(go_on(rest, &mut chosen), "lines with equal sums have a full setting");
    chosen
}

/// The first setting by asking, for each input and each output in order, whether a full setting
/// goes on from there, each time with a matching from nothing: for larger N.
pub fn first_by_asking_anew(rest: &Demand) -> Vec<usize> {
    let mut chosen = Vec::new();
    for i in 0..rest.len() {
        let output = (0..rest.len()).find(|&j| {
            chosen.push(j);
            let goes_on = rest[i][j] != 0 && !chosen[..i].contains(&j) && can_be_full(rest, &chosen);
            chosen.pop();
            goes_on
        });
        chosen.push(output.expect("lines with equal sums have a full setting"));
    }
    chosen
}

/// Whether the inputs behind those chosen can all be joined to outputs that are not chosen.
fn can_be_full(rest: &Demand, chosen: &[usize]) -> bool {
    fn moves(rest: &Demand, i: usize, tried: &mut [bool], holder: &mut [Option<usize>]) -> bool {
        for j in 0..rest.len() {
            if rest[i][j] != 0 && !tried[j] {
                tried[j] = true;
                let free = match holder[j] {
                    None => true,
                    Some(other) => moves(rest, other, tried, holder),
                };
                if free {
                    holder[j] = Some(i);
                    return true;
                }
            }
        }
        false
    }
    let n = rest.len();
    let mut holder = vec![None; n];
    (chosen.len()..n).all(|i| {
        let mut tried: Vec<bool> = (0..n).map(|j| chosen.contains(&j)).collect();
        moves(rest, i, &mut tried, &mut holder)
    })
}

/// One wish by whole numbers alone: a finite binary32 is m × 2^e, and the slots are that, rounded
/// up, and at least 2 where it is above zero. The error is the code.
pub fn wish(bits: u32) -> Result<u64, u64> {
    let (sign, exponent, fraction) = (bits >> 31, bits >> 23 & 0xff, u64::from(bits & 0x7f_ffff));
    if exponent == 0xff {
        return Err(6);
    }
    let (m, e) = match exponent {
        0 => (fraction, -149),
        _ => (fraction | 1 << 23, exponent as i32 - 150),
    };
    if sign == 1 && m != 0 {
        return Err(7);
    }
    // Below 2^-63 a wish rounds as 2^-63 × m does; above 2^40 it is too large in any case.
    let slots = if e < 0 { m.div_ceil(1 << (-e).min(63)) } else { m << e.min(40) };
    let exceeds = if e < 0 { m > 65_535 << (-e).min(40) } else { m << e.min(40) > 65_535 };
    if exceeds {
        return Err(8);
    }
    Ok(if slots == 0 { 0 } else { slots.max(2) })
}

fn record(hold: u64, setting: &[usize]) -> Record {
    let mut outputs = [IDLE; MOST_PORTS];
    for (i, &j) in setting.iter().enumerate() {
        outputs[i] = j as u8;
    }
    Record { hold: hold as u16, outputs }
}

/// A task by its input, its output, its start and its end.
pub type Task = (usize, usize, u64, u64);

/// The open shop (§21.2), moment by moment.
pub fn shop(demand: &Demand, d: u64) -> Vec<Task> {
    let n = demand.len();
    let (mut rest, mut tasks, mut now) = (demand.clone(), Vec::<Task>::new(), 0);
    loop {
        for j in 0..n {
            if tasks.iter().any(|task| task.1 == j && task.3 > now) {
                continue;
            }
            let idle = |i: &usize| tasks.iter().all(|task| task.0 != *i || task.3 <= now);
            let ready = (0..n).filter(|&i| rest[i][j] != 0).find(idle);
            if let Some(i) = ready {
                tasks.push((i, j, now, now + d + rest[i][j]));
                rest[i][j] = 0;
            }
        }
        match tasks.iter().map(|task| task.3).filter(|&end| end > now).min() {
            Some(finish) => now = finish,
            None => return tasks,
        }
    }
}

/// The first task that the reader of §21.7 refuses, every one held against all before it.
pub fn first_bad(n: usize, tasks: &[Task]) -> Option<usize> {
    let shared = |a: &Task, b: &Task| a.0 == b.0 || a.1 == b.1;
    tasks.iter().enumerate().position(|(k, task)| {
        let fair = task.0 < n && task.1 < n && task.2 < task.3;
        let rises = k == 0 || (tasks[k - 1].2, tasks[k - 1].1) < (task.2, task.1);
        let clear =
            tasks[..k].iter().all(|other| !shared(task, other) || task.3 <= other.2 || other.3 <= task.2);
        !(fair && rises && clear)
    })
}
