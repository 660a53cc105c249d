//! The second edition's planners against the reference: the same demands, of every N at the edges and of
//! many between, must give the same answer and leave the same bytes. Lent memory lies between random
//! bytes, and all of it is compared. Each test counts the codes that it met.

use cases::Rng;
use chordvenus::{second, Answer};
use reference::{Numbers, Outcome, MOST_LINE, MOST_QUICK, RECORD_SIZE_SECOND};

/// Cases for each call.
const CASES: usize = 4_000;
/// How often each code of a call is met at least in them.
const ENOUGH: usize = 20;
/// Bytes on either side of the lent ones.
const FENCE: usize = 16;

fn expected(outcome: Outcome) -> Answer {
    let Numbers { code, place, side, counts } = outcome.into();
    let reference::Counts { records, longest, total, length, empty } = counts;
    Answer { code, place, side, records, longest, total, length, empty, ..Answer::default() }
}

/// An N in range: mostly small, and at the edges of both editions now and then.
fn ports(rng: &mut Rng) -> usize {
    match rng.below(100) {
        0..=59 => rng.between(1, 6),
        60..=79 => rng.between(1, 24),
        80..=89 => rng.between(1, 128),
        _ => rng.pick(&[1, 63, 64, 65, 66, 127, 128]),
    }
}

/// N and cells, with a planner's faults: out of range, of the wrong number, over a line's limit.
fn demand(rng: &mut Rng, most_line: usize) -> (u64, Vec<u32>) {
    let n = ports(rng);
    let mut cells = cases::demand(rng, n, most_line);
    if rng.one_in(8) {
        cases::overload(rng, &mut cells);
    }
    if rng.one_in(12) {
        cells.resize(cases::wrong_size(rng, n), 1);
    }
    let wild = [0, 129, 130, 255, 256, 256 + n as u64, 1 << 32 | n as u64, 1 << 63 | n as u64, u64::MAX];
    let n = if rng.one_in(16) { rng.pick(&wild) } else { n as u64 };
    (n, cells)
}

/// A length in bytes for a plan of so many records: just enough, a byte or a record too little, or more.
fn room(rng: &mut Rng, records: usize) -> usize {
    let bytes = records * RECORD_SIZE_SECOND;
    match rng.below(6) {
        0 => bytes,
        1 => bytes + rng.below(RECORD_SIZE_SECOND),
        2 => bytes.saturating_sub(1),
        3 => rng.below(bytes + 1),
        4 => bytes.saturating_sub(RECORD_SIZE_SECOND) + rng.below(RECORD_SIZE_SECOND),
        _ => bytes + rng.below(4 * RECORD_SIZE_SECOND),
    }
}

type Planner = fn(u64, &[u32], &mut [u8]) -> Outcome;
type Proved = fn(u64, &[u32], &mut [u8]) -> Answer;

fn compare(seed: u64, proved: Proved, planner: Planner, most_line: usize, codes: &[u64]) {
    let mut rng = Rng::new(seed);
    let mut met = [0; 16];
    let mut ample = vec![0; 16_384 * RECORD_SIZE_SECOND];
    for case in 0..CASES {
        let over = if rng.one_in(8) { MOST_LINE as usize } else { most_line };
        let line = rng.pick(&[3, 17, 300, over]);
        let (n, cells) = demand(&mut rng, line);
        let records = planner(n, &cells, &mut ample).map_or(3, |counts| counts.records as usize);
        let len = room(&mut rng, records);
        let mut memory = rng.bytes(FENCE + len + FENCE);
        let mut wanted = memory.clone();
        let answer = proved(n, &cells, &mut memory[FENCE..FENCE + len]);
        let said = format!("case {case}: N = {n}, {len} bytes, cells {cells:?}");
        assert_eq!(answer, expected(planner(n, &cells, &mut wanted[FENCE..FENCE + len])), "{said}");
        assert!(memory == wanted, "other bytes, {said}");
        met[answer.code as usize] += 1;
    }
    for (code, &times) in met.iter().enumerate() {
        let enough = if codes.contains(&(code as u64)) { times >= ENOUGH } else { times == 0 };
        assert!(enough, "code {code} was met {times} times, of {codes:?}");
    }
}

#[test]
fn exact() {
    compare(21, second::exact, reference::exact_second, MOST_LINE as usize, &[0, 1, 2, 3, 5]);
}

#[test]
fn doubled() {
    compare(22, second::doubled, reference::doubled_second, MOST_LINE as usize, &[0, 1, 2, 3, 5]);
}

#[test]
fn doubled_every_rotation() {
    let planner = reference::doubled_every_rotation_second;
    compare(23, second::doubled_every_rotation, planner, MOST_LINE as usize, &[0, 1, 2, 3, 5]);
}

#[test]
fn quick() {
    compare(24, second::quick, reference::quick_second, MOST_QUICK as usize, &[0, 1, 2, 3, 4, 5]);
}

/// Up to 64 ports both editions make the same settings for as long, and only the records' layout differs.
#[test]
fn as_the_first_edition() {
    let mut rng = Rng::new(25);
    let planners: [(Proved, Proved, usize); 4] = [
        (chordvenus::exact, second::exact, MOST_LINE as usize),
        (chordvenus::doubled, second::doubled, MOST_LINE as usize),
        (chordvenus::doubled_every_rotation, second::doubled_every_rotation, MOST_LINE as usize),
        (chordvenus::quick, second::quick, MOST_QUICK as usize),
    ];
    let mut narrow = vec![0; 4_096 * chordvenus::RECORD_SIZE];
    let mut wide = vec![0; 4_096 * RECORD_SIZE_SECOND];
    for _ in 0..CASES {
        let (first, second, line) = rng.pick(&planners);
        let n = cases::ports(&mut rng);
        let cells = cases::demand(&mut rng, n, line);
        let answer = first(n as u64, &cells, &mut narrow);
        assert_eq!(answer, second(n as u64, &cells, &mut wide));
        let records = narrow.chunks(chordvenus::RECORD_SIZE).zip(wide.chunks(RECORD_SIZE_SECOND));
        for (narrow, wide) in records.take(answer.records as usize) {
            assert_eq!((&narrow[..3], narrow[3]), (&wide[..3], 0));
            assert_eq!((wide[3], &wide[4..68]), (2, &narrow[4..]));
            assert!(wide[68..].iter().all(|&output| output == chordvenus::IDLE));
        }
    }
}
