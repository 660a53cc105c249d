//! Rescue of damaged plans against the reference: the same answer, and the same bytes in both lent buffers
//! and around them. Each rescued plan is also given to the checker, and rescued once more.

use cases::Rng;
use chordvenus::{Answer, Entry, ENTRY_SIZE, IDLE, MOST_RECORDS, RECORD_SIZE};
use reference::{Numbers, Rescued};

const CASES: usize = 20_000;
const ENOUGH: usize = 20;
/// Bytes around lent memory.
const EDGE: usize = 9;

fn expected(done: Result<Rescued, reference::Refusal>) -> Answer {
    let Numbers { code, place, side, counts } = done.map(|rescued| rescued.counts).into();
    let reference::Counts { records, longest, total, length, empty } = counts;
    let (added, dropped) = done.map_or((0, 0), |rescued| (rescued.added, rescued.dropped));
    Answer { code, place, side, records, longest, total, length, empty, added, dropped, ..Answer::default() }
}

/// One rescue by both, into buffers of so many bytes; answers what was answered, the plan and the list.
fn both(
    rng: &mut Rng,
    n: u64,
    cells: &[u32],
    damaged: &[u8],
    room: usize,
    list: usize,
) -> (Answer, Vec<u8>, Vec<u8>) {
    let (mut plan, mut dropped) = (rng.bytes(room + 2 * EDGE), rng.bytes(list + 2 * EDGE));
    let (mut wanted, mut wanted_list) = (plan.clone(), dropped.clone());
    let answer =
        chordvenus::rescue(n, cells, damaged, &mut plan[EDGE..EDGE + room], &mut dropped[EDGE..EDGE + list]);
    let done = reference::rescue(
        n,
        cells,
        damaged,
        &mut wanted[EDGE..EDGE + room],
        &mut wanted_list[EDGE..EDGE + list],
    );
    assert_eq!(answer, expected(done), "N = {n}, {room} and {list} bytes, {cells:?}, {damaged:?}");
    assert!(plan == wanted, "another plan, N = {n}, {cells:?}, {damaged:?}");
    assert!(dropped == wanted_list, "another list, N = {n}, {cells:?}, {damaged:?}");
    if answer.code == 0 {
        let rescued = &plan[EDGE..][..answer.records as usize * RECORD_SIZE];
        holds(n, cells, answer, rescued);
        return (answer, rescued.to_vec(), dropped[EDGE..][..answer.dropped as usize * ENTRY_SIZE].to_vec());
    }
    (answer, Vec::new(), Vec::new())
}

/// What every rescued plan is: taken by the checker with the same counts, and not changed by another rescue.
fn holds(n: u64, cells: &[u32], answer: Answer, rescued: &[u8]) {
    let counts = Answer { added: 0, dropped: 0, ..answer };
    assert_eq!(chordvenus::check(n, cells, rescued), counts, "N = {n}, {cells:?}, {rescued:?}");
    let mut again = vec![0; rescued.len()];
    assert_eq!(chordvenus::rescue(n, cells, rescued, &mut again, &mut []), counts, "N = {n}, {rescued:?}");
    assert!(again == rescued, "rescued twice, N = {n}, {rescued:?}");
}

/// A length in bytes for so many pieces: just enough, too little, or more.
fn room(rng: &mut Rng, pieces: usize, size: usize) -> usize {
    let bytes = pieces * size;
    match rng.below(5) {
        0 => bytes,
        1 => bytes + rng.below(size),
        2 => bytes.saturating_sub(1),
        3 => bytes.saturating_sub(size) + rng.below(size),
        _ => bytes + rng.below(4 * size),
    }
}

#[test]
fn any_damage() {
    let mut rng = Rng::new(90);
    let (mut codes, mut reasons, mut added) = ([0; 17], [0; 8], 0);
    for _ in 0..CASES {
        let ports = cases::ports(&mut rng);
        let line = rng.pick(&[3, 17, 300, 65_535]);
        let mut cells = cases::demand(&mut rng, ports, line);
        let mut damaged = if rng.one_in(3) {
            chordvenus::owned::exact(ports as u64, &cells).map_or(Vec::new(), |plan| plan.bytes)
        } else {
            let records = rng.between(0, 6);
            cases::plan(&mut rng, ports, records)
        };
        for _ in 0..rng.pick(&[0, 1, 1, 2, 5]) {
            cases::spoil_plan(&mut rng, ports, &mut damaged);
        }
        if rng.one_in(4) {
            cases::tear(&mut rng, RECORD_SIZE, &mut damaged);
        }
        if rng.one_in(16) {
            cases::overload(&mut rng, &mut cells);
        }
        if rng.one_in(16) {
            cells.resize(cases::wrong_size(&mut rng, ports), 1);
        }
        let n = if rng.one_in(16) { cases::wild_ports(&mut rng, ports) } else { ports as u64 };
        let (records, entries) = chordvenus::owned::rescue(n, &cells, &damaged)
            .map_or((3, 3), |(plan, list)| (plan.answer.records as usize, list.len()));
        let (plan, list) = (room(&mut rng, records, RECORD_SIZE), room(&mut rng, entries, ENTRY_SIZE));
        let (answer, _, list) = both(&mut rng, n, &cells, &damaged, plan, list);
        codes[answer.code as usize] += 1;
        added += usize::from(answer.added > 0);
        for entry in Entry::read(&list) {
            reasons[usize::from(entry.reason)] += 1;
        }
    }
    for (code, &times) in codes.iter().enumerate() {
        let enough = if [0, 1, 2, 3, 5, 16].contains(&code) { times >= ENOUGH } else { times == 0 };
        assert!(enough, "code {code} was met {times} times");
    }
    assert!(reasons[0] == 0 && reasons[1..].iter().all(|&times| times >= ENOUGH), "reasons: {reasons:?}");
    assert!(added >= ENOUGH);
}

const PORTS: u64 = 3;
const ASKED: [u32; 9] = [4, 0, 1, 0, 2, 0, 1, 3, 0];

/// A well-formed record of three ports: input 0 to output 1, input 1 idle, input 2 to output 0, or idle too.
fn record(hold: u16, last: u8) -> [u8; RECORD_SIZE] {
    let mut outputs = [IDLE; 64];
    outputs[0] = 1;
    outputs[2] = last;
    cases::record(hold, PORTS as usize, &outputs)
}

/// The list of a rescue with ample room.
fn list(damaged: &[u8]) -> (Answer, Vec<Entry>) {
    let room = damaged.len() + 5 * RECORD_SIZE;
    let entries = (damaged.len() / RECORD_SIZE + 1) * ENTRY_SIZE;
    let (answer, _, list) = both(&mut Rng::new(91), PORTS, &ASKED, damaged, room, entries);
    (answer, Entry::read(&list).collect())
}

/// Spoils a record so that the reason is this one.
fn spoil(record: &mut [u8], reason: u8) {
    match reason {
        1 => record[..2].fill(0),
        2 => record[2] = 4,
        3 => record[3] = 2,
        4 => record[5] = 3,
        5 => record[6] = 1,
        _ => record[4 + 63] = 0,
    }
}

#[test]
fn each_reason_and_each_pair() {
    for one in 1..=6 {
        for other in 1..=6 {
            let mut damaged = [record(2, 0), record(2, IDLE), record(2, 0)].concat();
            spoil(&mut damaged[RECORD_SIZE..2 * RECORD_SIZE], one);
            spoil(&mut damaged[RECORD_SIZE..2 * RECORD_SIZE], other);
            let (_, entries) = list(&damaged);
            assert_eq!(entries, [Entry { number: 1, reason: one.min(other) }], "{one} and {other}");
        }
    }
}

#[test]
fn every_byte_of_a_record() {
    for at in 0..RECORD_SIZE {
        for value in 0..=255 {
            let mut damaged = [record(2, IDLE), record(258, 0)].concat();
            damaged[RECORD_SIZE + at] = value;
            list(&damaged);
        }
    }
}

#[test]
fn tails_and_whole_files() {
    let good = record(2, 0);
    for tail in 1..RECORD_SIZE {
        let (answer, entries) = list(&good[..tail]);
        assert_eq!((entries, answer.dropped), (vec![Entry { number: 0, reason: 7 }], 1));
    }
    // All records bad, with a tail behind them: nothing is kept.
    let mut damaged = good.repeat(3);
    for k in 0..3 {
        damaged[k * RECORD_SIZE + 3] = 1;
    }
    damaged.push(0);
    let (answer, entries) = list(&damaged);
    let numbers: Vec<_> = entries.iter().map(|entry| (entry.number, entry.reason)).collect();
    assert_eq!(numbers, [(0, 3), (1, 3), (2, 3), (3, 7)]);
    assert_eq!((answer.records, answer.dropped), (answer.added, 4));
    // None bad and covering: the same file, nothing listed, nothing added. None bad and short: more behind it.
    let whole = chordvenus::owned::exact(PORTS, &ASKED).unwrap().bytes;
    let (plan, entries) = chordvenus::owned::rescue(PORTS, &ASKED, &whole).unwrap();
    assert!(plan.bytes == whole && entries.is_empty() && plan.answer.added == 0);
    let part = &whole[..RECORD_SIZE];
    let (plan, entries) = chordvenus::owned::rescue(PORTS, &ASKED, part).unwrap();
    assert!(plan.bytes.starts_with(part) && entries.is_empty() && plan.answer.added > 0);
}

/// 8,192 records in and out, and one more of either.
#[test]
fn the_most_records() {
    let mut rng = Rng::new(92);
    let most = MOST_RECORDS as usize;
    let full = record(65_535, 0).repeat(most);
    let asked = [0, 9, 0, 0, 0, 0, 9, 0, 0];
    let mut run = |cells: &[u32], damaged: &[u8], records: usize, entries: usize| {
        both(&mut rng, PORTS, cells, damaged, records * RECORD_SIZE, entries * ENTRY_SIZE).0
    };
    let refused = Answer { code: 10, place: 8_192, ..Answer::default() };
    let done = run(&asked, &full, most, 0);
    assert_eq!((done.code, done.records, done.total), (0, 8_192, 8_192 * 65_535));
    assert_eq!(run(&asked, &[&full[..], &[1]].concat(), most, 1), refused, "a tail counts as one");
    assert_eq!(run(&asked, &[&full[..], &record(1, 0)].concat(), most, 1), refused);
    // One record is dropped, and two are added: 8,193 go out. It comes before 5 and 16, which apply too.
    let mut damaged = full.clone();
    damaged[most / 2 * RECORD_SIZE + 2] = 2;
    let done = run(&asked, &damaged, most, 1);
    assert_eq!((done.code, done.records, done.added, done.dropped), (0, 8_191, 0, 1));
    assert_eq!(run(&[1, 0, 0, 1, 0, 0, 0, 0, 0], &damaged, 0, 0), refused);
    // One added fits; then 5 before 16; and 16 where the list is one entry short.
    let one = [1, 0, 0, 0, 0, 0, 0, 0, 0];
    assert_eq!(run(&one, &damaged, most, 1).records, 8_192);
    assert_eq!(run(&one, &damaged, most - 1, 0), Answer { code: 5, place: 8_192, ..Answer::default() });
    assert_eq!(run(&one, &damaged, most, 0), Answer { code: 16, place: 1, ..Answer::default() });
    // Every record dropped: the numbers take two bytes, and a list of 8,191 entries is too short.
    let bad = [0; RECORD_SIZE].repeat(most);
    assert_eq!(run(&one, &bad, 1, most - 1), Answer { code: 16, place: 8_192, ..Answer::default() });
    assert_eq!(run(&one, &bad, 1, most).dropped, 8_192);
}
