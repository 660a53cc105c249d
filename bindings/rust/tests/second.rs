//! The second edition's calls that are no planners, and the first edition's beside them, against the plain
//! reference over an edition; and the move between the two. Lent memory is random and all of it is compared.

use cases::Rng;
use chordvenus::{self as cv, second, Answer};
use reference::editions::{Edition, Step, FIRST, MOVABLE, SECOND};
use reference::{Counts, Numbers, IDLE};

const CASES: usize = 4_000;

fn expected(numbers: Numbers) -> Answer {
    let Numbers { code, place, side, counts } = numbers;
    let Counts { records, longest, total, length, empty } = counts;
    Answer { code, place, side, records, longest, total, length, empty, ..Answer::default() }
}

/// N at the edges of both editions, or anything.
fn ports(rng: &mut Rng) -> u64 {
    match rng.below(4) {
        0 => rng.pick(&[0, 1, 63, 64, 65, 127, 128, 129, 255, 256, u64::MAX]),
        1 => rng.pick(&[1, 2, 64, 65, 127, 128]),
        _ => rng.between(1, 130) as u64,
    }
}

/// A setting of N inputs, some idle, as an edition's record has it.
fn setting(rng: &mut Rng, n: usize, width: usize) -> Vec<u8> {
    let mut outputs: Vec<u8> = (0..n as u8).collect();
    for k in (1..n).rev() {
        outputs.swap(k, rng.below(k + 1));
    }
    if rng.one_in(2) {
        for output in &mut outputs {
            if rng.one_in(3) {
                *output = IDLE;
            }
        }
    }
    outputs.resize(width, IDLE);
    outputs
}

/// A plan of an edition for N, of few settings, and at times something wrong with it.
fn plan(rng: &mut Rng, edition: Edition, n: u64, records: usize) -> Vec<u8> {
    let n = (n as usize).clamp(1, edition.width);
    let settings: Vec<Vec<u8>> = (0..3).map(|_| setting(rng, n, edition.width)).collect();
    let mut bytes = Vec::new();
    for _ in 0..records {
        let hold = rng.pick(&[1, 2, 255, 256, 65_535]);
        bytes.extend(u16::to_le_bytes(hold));
        bytes.extend([n as u8, edition.byte]);
        bytes.extend(&settings[rng.below(3)]);
    }
    if rng.one_in(3) && !bytes.is_empty() {
        let record = rng.below(records) * edition.size();
        let (at, byte) = match rng.below(6) {
            0 => (3, rng.pick(&[0, 1, 2, 255])),
            1 => (2, rng.pick(&[0, 64, 65, 128, 255])),
            2 => (0, 0),
            3 => (4 + rng.below(n), rng.pick(&[64, 127, 128, 254, 255])),
            4 => (4 + rng.below(edition.width), rng.pick(&[0, 1, 63, 64, 127, 254])),
            _ => (1, 0),
        };
        bytes[record + at] = byte;
    }
    if rng.one_in(10) {
        let left = rng.below(edition.size());
        bytes.truncate(bytes.len().saturating_sub(left));
    }
    bytes
}

/// The calls of an edition.
struct Calls {
    edition: Edition,
    wishes: fn(u64, &[u8], &mut [u32]) -> Answer,
    check: fn(u64, &[u32], &[u8]) -> Answer,
    length: fn(u64, &[u8], u16) -> Answer,
    join: fn(u64, &[u8], &mut [u8]) -> Answer,
    write: fn(u16, u64, &[u8], &mut [u8]) -> Answer,
    open: fn(u64, &[u8]) -> Answer,
    step_at: fn(u64, &[u8], u64) -> Step,
}

fn parts<const PLACES: usize>(step: cv::reading::Step<PLACES>) -> Step {
    match step {
        cv::reading::Step::Record(record) => (0, 0, u64::from(record.hold), record.outputs.to_vec()),
        cv::reading::Step::End => (1, 0, 0, vec![IDLE; PLACES]),
        cv::reading::Step::Malformed(place) => (2, place, 0, vec![IDLE; PLACES]),
    }
}

const BOTH: [Calls; 2] = [
    Calls {
        edition: FIRST,
        wishes: cv::wishes,
        check: cv::check,
        length: cv::length,
        join: cv::join,
        write: |hold, n, outputs, plan| cv::write(hold, n, outputs.try_into().expect("64"), plan),
        open: cv::open,
        step_at: |n, plan, at| parts(cv::step_at(n, plan, at)),
    },
    Calls {
        edition: SECOND,
        wishes: second::wishes,
        check: second::check,
        length: second::length,
        join: second::join,
        write: |hold, n, outputs, plan| second::write(hold, n, outputs.try_into().expect("128"), plan),
        open: second::open,
        step_at: |n, plan, at| parts(second::step_at(n, plan, at)),
    },
];

/// A call that writes bytes: the same answer, and the same bytes, those behind it too.
fn same_bytes(
    buffer: &[u8],
    ours: impl Fn(&mut [u8]) -> Answer,
    theirs: impl Fn(&mut [u8]) -> Numbers,
) -> Answer {
    let (mut left, mut right) = (buffer.to_vec(), buffer.to_vec());
    let answer = ours(&mut left);
    assert_eq!(answer, expected(theirs(&mut right)));
    assert!(left == right, "other bytes");
    answer
}

/// Room for some records of an edition, at times a byte short of them.
fn room(rng: &mut Rng, edition: Edition, records: usize) -> Vec<u8> {
    let size = (records + rng.below(3)) * edition.size();
    let size = if rng.one_in(3) { size.saturating_sub(1) } else { size };
    rng.bytes(size)
}

#[test]
fn plans_of_both_editions() {
    let mut rng = Rng::new(8);
    let mut met = [[0; 16]; 2];
    for _ in 0..CASES {
        for (k, calls) in BOTH.iter().enumerate() {
            let (edition, n, records) = (calls.edition, ports(&mut rng), rng.below(5));
            let plan = plan(&mut rng, edition, n, records);
            assert_eq!((calls.open)(n, &plan), expected(edition.open(n, &plan)));
            let d = rng.draw() as u16;
            let answer = (calls.length)(n, &plan, d);
            met[k][answer.code as usize] += 1;
            assert_eq!(answer, expected(edition.length(n, &plan, d)));
            for at in 0..=records as u64 + 1 {
                assert_eq!((calls.step_at)(n, &plan, at), edition.step_at(n, &plan, at));
            }
            let buffer = room(&mut rng, edition, records);
            same_bytes(
                &buffer,
                |joined| (calls.join)(n, &plan, joined),
                |joined| edition.join(n, &plan, joined),
            );
            let cells: Vec<u32> = (0..n.min(130).pow(2)).map(|_| u32::from(rng.one_in(40))).collect();
            assert_eq!((calls.check)(n, &cells, &plan), expected(edition.check(n, &cells, &plan)));
        }
    }
    for codes in met {
        for code in [0, 1, 9, 11] {
            assert!(codes[code] >= 20, "code {code} was met {} times", codes[code]);
        }
    }
}

#[test]
fn one_record_of_both_editions() {
    let mut rng = Rng::new(9);
    for _ in 0..CASES {
        for calls in &BOTH {
            let (edition, n) = (calls.edition, ports(&mut rng));
            let mut outputs = setting(&mut rng, (n as usize).clamp(1, edition.width), edition.width);
            if rng.one_in(3) {
                let at = rng.below(edition.width);
                outputs[at] = rng.pick(&[0, 63, 64, 127, 128, 254, 255]);
            }
            let hold = rng.pick(&[0, 1, 65_535]);
            let buffer = room(&mut rng, edition, 1);
            same_bytes(
                &buffer,
                |plan| (calls.write)(hold, n, &outputs, plan),
                |plan| edition.write(hold, n, &outputs, plan),
            );
        }
    }
}

#[test]
fn wish_lists_of_both_editions() {
    let mut rng = Rng::new(10);
    for _ in 0..CASES {
        for calls in &BOTH {
            let (edition, n) = (calls.edition, ports(&mut rng));
            let below = (n as usize).clamp(1, 130);
            let mut list = Vec::new();
            for _ in 0..rng.below(6) {
                let bits = rng.pick(&[
                    0x3f80_0000,
                    0x477f_ff00,
                    0x477f_ff01,
                    0x8000_0001,
                    0x7fc0_0000,
                    0,
                    0x4040_0000,
                    0x4000_0000,
                ]);
                let spare = u8::from(rng.one_in(20));
                list.extend([rng.below(below) as u8, rng.below(below) as u8, spare, 0]);
                list.extend(u32::to_le_bytes(bits));
            }
            if rng.one_in(10) {
                list.push(0);
            }
            let count = if rng.one_in(10) { 3 } else { below * below };
            let cells: Vec<u32> = (0..count).map(|_| rng.draw() as u32).collect();
            let (mut left, mut right) = (cells.clone(), cells);
            assert_eq!((calls.wishes)(n, &list, &mut left), expected(edition.wishes(n, &list, &mut right)));
            assert!(left == right, "other cells");
        }
    }
}

#[test]
fn the_most_records() {
    for calls in &BOTH {
        let edition = calls.edition;
        for records in [edition.records, edition.records + 1] {
            let mut all = Vec::new();
            let one = [&[1, 0, 1, edition.byte, 0][..], &vec![IDLE; edition.width - 1]].concat();
            for _ in 0..records {
                all.extend(&one);
            }
            let over = records > edition.records;
            let (code, place) = if over { (10, edition.records as u64) } else { (0, 0) };
            for answer in [(calls.open)(1, &all), (calls.length)(1, &all, 3), (calls.check)(1, &[1], &all)] {
                assert_eq!((answer.code, answer.place), (code, place));
            }
            let buffer = vec![7; edition.size()];
            let joined = same_bytes(
                &buffer,
                |joined| (calls.join)(1, &all, joined),
                |joined| edition.join(1, &all, joined),
            );
            assert_eq!(joined.code, code);
        }
    }
}

/// A move of plans of one edition to another, and back.
fn moves(
    from: Edition,
    to: Edition,
    back: Edition,
    there: fn(u64, &[u8], &mut [u8]) -> Answer,
    again: fn(u64, &[u8], &mut [u8]) -> Answer,
) {
    let mut rng = Rng::new(12);
    let mut met = [0; 16];
    for _ in 0..CASES {
        let (n, records) = (ports(&mut rng), rng.below(5));
        let plan = plan(&mut rng, from, n, records);
        let buffer = room(&mut rng, to, records);
        let answer =
            same_bytes(&buffer, |moved| there(n, &plan, moved), |moved| from.move_to(to, n, &plan, moved));
        met[answer.code as usize] += 1;
        if answer.code == 0 {
            let mut moved = buffer;
            assert_eq!(there(n, &plan, &mut moved), answer);
            moved.truncate(records * to.size());
            let mut home = vec![0; plan.len()];
            assert_eq!(again(n, &moved, &mut home), answer);
            assert!(home == plan, "there and back, other bytes");
            assert_eq!(expected(back.move_to(from, n, &moved, &mut home)), answer);
        }
    }
    for code in [0, 1, 5, 9, 11] {
        assert!(met[code] >= 20, "code {code} was met {} times", met[code]);
    }
    let one = [&[1, 0, 1, from.byte, 0][..], &vec![IDLE; from.width - 1]].concat();
    for records in [8_192, 8_193] {
        let many: Vec<u8> = (0..records).flat_map(|_| one.clone()).collect();
        let mut moved = vec![0; records * to.size()];
        let answer = there(1, &many, &mut moved);
        assert_eq!((answer.code, answer.place), if records > 8_192 { (10, 8_192) } else { (0, 0) });
    }
}

#[test]
fn from_the_first_edition_to_the_second() {
    moves(FIRST, SECOND, MOVABLE, cv::to_second, cv::to_first);
}

#[test]
fn from_the_second_edition_to_the_first() {
    moves(MOVABLE, FIRST, FIRST, cv::to_first, cv::to_second);
}
