//! The open shop and its reader against the reference, and the reference against the plainest words: the same
//! answer and every byte of lent memory, and what §21 says of tasks.

use cases::Rng;
use chordvenus::{Answer, Task, TASK_SIZE};
use reference::{slow, Numbers, Outcome, MOST_LINE};

/// Cases for each call.
const CASES: usize = 6_000;
/// How often each code of a call is met at least in them.
const ENOUGH: usize = 20;

fn expected(outcome: Outcome) -> Answer {
    let Numbers { code, place, side, counts } = outcome.into();
    let reference::Counts { records, longest, total, length, empty } = counts;
    Answer { code, place, side, records, longest, total, length, empty, ..Answer::default() }
}

fn met_enough(met: &[usize; 16], codes: &[usize]) {
    for (code, &times) in met.iter().enumerate() {
        let enough = if codes.contains(&code) { times >= ENOUGH } else { times == 0 };
        assert!(enough, "code {code} was met {times} times, of {codes:?}");
    }
}

/// N and cells, perhaps out of range, of the wrong number, or over a line's limit.
fn demand(rng: &mut Rng) -> (u64, Vec<u32>) {
    let n = cases::ports(rng);
    let line = rng.pick(&[3, 17, 300, MOST_LINE as usize]);
    let mut cells = cases::demand(rng, n, line);
    if rng.one_in(10) {
        cases::overload(rng, &mut cells);
    }
    if rng.one_in(12) {
        cells.resize(cases::wrong_size(rng, n), 1);
    }
    (if rng.one_in(16) { cases::wild_ports(rng, n) } else { n as u64 }, cells)
}

fn read_all(bytes: &[u8]) -> Vec<Task> {
    bytes.chunks_exact(TASK_SIZE).map(|record| Task::read(record.try_into().unwrap())).collect()
}

fn plain(task: &Task) -> slow::Task {
    (task.input.into(), task.output.into(), task.start.into(), task.end.into())
}

/// What §21.4 says: each task is over within the task times of its two ports, its own counted once.
fn within_its_ports(n: usize, cells: &[u32], d: u16, tasks: &[Task]) {
    let time = |cell: u32| if cell == 0 { 0 } else { u64::from(d) + u64::from(cell) };
    for task in tasks {
        let (i, j) = (usize::from(task.input), usize::from(task.output));
        let row: u64 = cells[i * n..(i + 1) * n].iter().map(|&cell| time(cell)).sum();
        let column: u64 = cells[j..].iter().step_by(n).map(|&cell| time(cell)).sum();
        let own = time(cells[i * n + j]);
        assert_eq!(u64::from(task.end - task.start), own);
        assert!(u64::from(task.end) <= row + column - own, "{task:?} of {cells:?}, d = {d}");
    }
}

#[test]
fn shop() {
    let (mut rng, mut met) = (Rng::new(41), [0; 16]);
    for case in 0..CASES {
        let (n, cells) = demand(&mut rng);
        let d = rng.pick(&[0, 1, 7, 1_000, 65_535]);
        let need = cells.iter().filter(|&&cell| cell != 0).count() * TASK_SIZE;
        let len = match rng.below(5) {
            0 => need.saturating_sub(1),
            1 => rng.below(need + 1),
            2 => need,
            _ => need + rng.below(3 * TASK_SIZE),
        };
        let mut lent: Vec<u8> = (0..len + 16).map(|_| rng.draw() as u8).collect();
        let mut wanted = lent.clone();
        let answer = chordvenus::shop(n, &cells, d, &mut lent[8..8 + len]);
        let outcome = reference::shop(n, &cells, d, &mut wanted[8..8 + len]);
        assert_eq!(answer, expected(outcome), "case {case}: N = {n}, d = {d}, {cells:?}");
        assert!(lent == wanted, "other bytes, case {case}: N = {n}, d = {d}, {cells:?}");
        met[answer.code as usize] += 1;
        if answer.code == 0 {
            let written = &lent[8..][..answer.records as usize * TASK_SIZE];
            assert_eq!(chordvenus::tasks(n, written), answer, "what is written is read");
            within_its_ports(n as usize, &cells, d, &read_all(written));
        }
    }
    met_enough(&met, &[0, 1, 2, 3, 5]);
}

#[test]
fn the_reference_says_what_the_plainest_words_say() {
    let mut rng = Rng::new(42);
    for _ in 0..600 {
        let n = rng.between(1, 9);
        let line = rng.pick(&[2, 9, 400]);
        let cells = cases::demand(&mut rng, n, line);
        let d = rng.pick(&[0, 1, 5, 65_535]);
        let mut bytes = vec![0; n * n * TASK_SIZE];
        let counts = reference::shop(n as u64, &cells, d, &mut bytes).unwrap();
        let tasks = read_all(&bytes[..counts.records as usize * TASK_SIZE]);
        let said: Vec<slow::Task> = tasks.iter().map(plain).collect();
        assert_eq!(said, slow::shop(&slow::rows(n, &cells), u64::from(d)), "N = {n}, d = {d}, {cells:?}");
    }
}

/// A sound schedule for N of up to so many tasks, gaps and touching tasks among them.
fn schedule(rng: &mut Rng, n: usize, most: usize) -> Vec<u8> {
    let (mut bytes, mut now) = (Vec::new(), rng.below(3) as u32);
    let (mut ins, mut outs) = (vec![0u32; n], vec![0u32; n]);
    while bytes.len() < most * TASK_SIZE {
        for j in 0..n {
            let i = rng.below(n);
            if ins[i] > now || outs[j] > now || rng.one_in(3) || bytes.len() == most * TASK_SIZE {
                continue;
            }
            let end = now + 1 + rng.below(6) as u32;
            (ins[i], outs[j]) = (end, end);
            bytes.extend([i as u8, j as u8, 0, 0]);
            bytes.extend(now.to_le_bytes());
            bytes.extend(end.to_le_bytes());
        }
        now += 1;
    }
    bytes
}

/// Changes one byte, or a whole field, of one record.
fn spoil(rng: &mut Rng, bytes: &mut [u8]) {
    if bytes.is_empty() {
        return;
    }
    let at = rng.below(bytes.len() / TASK_SIZE) * TASK_SIZE;
    match rng.below(4) {
        0 => bytes[at + rng.below(4)] = rng.draw() as u8,
        1 => bytes[at + rng.below(2)] = rng.below(8) as u8,
        2 => bytes[at + 4 + rng.below(8)] ^= 1 << rng.below(8),
        _ => bytes[at + 4 + 4 * rng.below(2)] = bytes[at + 4].wrapping_add(rng.below(5) as u8),
    }
}

#[test]
fn tasks() {
    let (mut rng, mut met) = (Rng::new(43), [0; 16]);
    for case in 0..CASES {
        let ports = cases::ports(&mut rng);
        let most = rng.below(60);
        let mut bytes = schedule(&mut rng, ports, most);
        for _ in 0..rng.below(3) {
            spoil(&mut rng, &mut bytes);
        }
        let tear = if rng.one_in(8) { rng.between(1, TASK_SIZE - 1) } else { 0 };
        bytes.extend(std::iter::repeat(0).take(tear));
        let n = if rng.one_in(16) { cases::wild_ports(&mut rng, ports) } else { ports as u64 };
        let answer = chordvenus::tasks(n, &bytes);
        assert_eq!(answer, expected(reference::tasks(n, &bytes)), "case {case}: N = {n}, {bytes:?}");
        if tear == 0
            && answer.code != 1
            && bytes.chunks(TASK_SIZE).all(|record| record[2] == 0 && record[3] == 0)
        {
            let said: Vec<slow::Task> = read_all(&bytes).iter().map(plain).collect();
            let bad = slow::first_bad(n as usize, &said).map(|k| k as u64);
            assert_eq!((answer.code == 11).then_some(answer.place), bad, "case {case}: N = {n}, {bytes:?}");
        }
        met[answer.code as usize] += 1;
    }
    met_enough(&met, &[0, 1, 9, 11]);
}

#[test]
fn any_number_of_tasks() {
    let mut rng = Rng::new(44);
    let bytes = schedule(&mut rng, 64, 20_000);
    let answer = chordvenus::tasks(64, &bytes);
    assert_eq!((answer.code, answer.records), (0, 20_000));
    assert_eq!(answer, expected(reference::tasks(64, &bytes)));
}
