//! Plan records and wish lists: reading, writing, checking, and each refusal in its order.

use cases::Rng;
use reference::*;

#[test]
fn a_written_record_reads_back_and_a_read_record_writes_back() {
    let mut rng = Rng::new(201);
    for _ in 0..20_000 {
        let n = rng.between(1, 64);
        let (hold, outputs) = (cases::hold(&mut rng), cases::setting(&mut rng, n));
        let mut lent = rng.bytes(2 * RECORD_SIZE);
        let before = lent.clone();
        let counts = write(hold, n as u64, &outputs, &mut lent).unwrap();
        assert_eq!((counts.records, counts.total), (1, u64::from(hold)));
        assert_eq!(lent[RECORD_SIZE..], before[RECORD_SIZE..]);
        let step = step_at(n as u64, &lent[..RECORD_SIZE], 0);
        assert_eq!(step, Step::Record(Record { hold, outputs }));
        assert_eq!(lent[..RECORD_SIZE], cases::record(hold, n, &outputs));
    }
}

#[test]
fn damage_to_a_record_is_code_11_or_another_record() {
    let mut rng = Rng::new(202);
    let mut refused = 0;
    for _ in 0..20_000 {
        let n = rng.between(1, 64);
        let mut plan = cases::plan(&mut rng, n, 1);
        cases::spoil_plan(&mut rng, n, &mut plan);
        match step_at(n as u64, &plan, 0) {
            Step::Record(record) => {
                let mut again = vec![0; RECORD_SIZE];
                write(record.hold, n as u64, &record.outputs, &mut again).unwrap();
                assert_eq!(again, plan);
            }
            step => {
                assert_eq!(step, Step::Malformed(0));
                refused += 1;
            }
        }
    }
    assert!(refused > 10_000);
}

#[test]
fn the_end_and_code_11_stay() {
    let mut rng = Rng::new(203);
    for _ in 0..2_000 {
        let n = rng.between(1, 16);
        let records = rng.between(0, 5);
        let mut plan = cases::plan(&mut rng, n, records);
        if rng.one_in(2) {
            cases::spoil_plan(&mut rng, n, &mut plan);
        }
        let (opened, mut reader) = Reader::open(n as u64, &plan);
        assert_eq!(opened.unwrap().records, records as u64);
        let mut at = 0;
        let stop = loop {
            let step = reader.step();
            assert_eq!(step, step_at(n as u64, &plan, at));
            match step {
                Step::Record(_) => at += 1,
                stop => break stop,
            }
        };
        assert_eq!(stop, if at == records as u64 { Step::End } else { Step::Malformed(at) });
        assert!((0..3).all(|_| reader.step() == stop));
    }
    for (n, bytes) in [(0, 68), (65, 68), (2, 67), (2, 8_193 * 68)] {
        let plan = vec![0; bytes];
        let (opened, mut reader) = Reader::open(n, &plan);
        assert!(opened.is_err());
        assert_eq!((reader.step(), reader.step(), step_at(n, &plan, 0)), (Step::End, Step::End, Step::End));
    }
    assert_eq!(step_at(1, &[], u64::MAX), Step::End);
}

#[test]
fn the_checker_says_what_is_not_covered() {
    let mut rng = Rng::new(204);
    for _ in 0..5_000 {
        let n = rng.between(1, 8);
        let cells = cases::demand(&mut rng, n, 1_024);
        let mut lent = vec![0; 2_048 * RECORD_SIZE];
        let counts = exact(n as u64, &cells, &mut lent).unwrap();
        let plan = &lent[..counts.records as usize * RECORD_SIZE];
        assert_eq!(check(n as u64, &cells, plan), Ok(counts));
        let spent = counts.total + 7 * counts.records;
        assert_eq!(length(n as u64, plan, 7).unwrap().length, spent);
        // Ask for one slot more than is granted in a cell whose lines have room.
        let mut more = cells.clone();
        let cell = rng.below(n * n);
        more[cell] = counts.longest as u32 + 1;
        assert_eq!(check(n as u64, &more, plan), Err(Refusal::Uncovered(cell)));
    }
}

#[test]
fn refusals_come_in_their_order() {
    let over = [65_535, 1, 0, 0];
    let torn = [0; RECORD_SIZE + 1];
    assert_eq!(check(65, &over, &torn), Err(Refusal::Ports));
    assert_eq!(check(2, &over[1..], &torn), Err(Refusal::Cells(4)));
    assert_eq!(check(2, &over, &torn), Err(Refusal::Line(Side::Input(0))));
    assert_eq!(check(2, &[1; 4], &torn), Err(Refusal::Torn(1)));
    assert_eq!(check(2, &[1; 4], &[0; 8_193 * RECORD_SIZE]), Err(Refusal::Records));
    assert_eq!(check(2, &[1; 4], &torn[1..]), Err(Refusal::Malformed(0)));
    assert_eq!(check(2, &[1; 4], &[]), Err(Refusal::Uncovered(0)));
    assert_eq!(quick(2, &over, &mut []), Err(Refusal::Line(Side::Input(0))));
    assert_eq!(quick(2, &[65_535, 0, 0, 0], &mut []), Err(Refusal::Longest));
    assert_eq!(quick(2, &[1, 0, 0, 0], &mut []), Err(Refusal::Room(1)));
    assert_eq!(write(0, 0, &[0; MOST_PORTS], &mut []), Err(Refusal::Ports));
    assert_eq!(write(0, 1, &[0; MOST_PORTS], &mut [0; RECORD_SIZE - 1]), Err(Refusal::Room(1)));
    assert_eq!(write(0, 1, &[IDLE; MOST_PORTS], &mut [0; RECORD_SIZE]), Err(Refusal::Malformed(0)));
}

#[test]
fn the_first_faulty_wish_is_refused() {
    let good = |pair: usize| cases::wish_record(pair / 2, pair % 2, 0x3f80_0000);
    let list = |records: &[[u8; 8]]| records.concat();
    let mut cells = [7; 4];
    let mut answer = |list: &[u8]| wishes(2, list, &mut cells);
    let nan_named = cases::wish_record(0, 0, 0x7fc0_0000);
    let nan_outside = cases::wish_record(2, 0, 0x7fc0_0000);
    assert_eq!(answer(&list(&[good(0), nan_outside])), Err(Refusal::Malformed(1)));
    assert_eq!(answer(&list(&[good(0), nan_named])), Err(Refusal::Named(1)));
    assert_eq!(answer(&list(&[nan_named, good(0)])), Err(Refusal::NotFinite(0)));
    assert_eq!(answer(&list(&[good(0), cases::wish_record(0, 1, 0x8000_0001)])), Err(Refusal::BelowZero(1)));
    assert_eq!(answer(&list(&[cases::wish_record(0, 1, 0x477f_ff01)])), Err(Refusal::AboveMost(0)));
    assert_eq!(
        answer(&list(&[cases::wish_record(0, 1, 0), cases::wish_record(0, 1, 0)])),
        Err(Refusal::Named(1))
    );
    assert_eq!(answer(&[&list(&[nan_named]), &[0u8; 7][..]].concat()), Err(Refusal::Torn(1)));
    assert_eq!(answer(&list(&[[0, 0, 0, 1, 0, 0, 0, 0]])), Err(Refusal::Malformed(0)));
    assert_eq!(cells, [7; 4]);
    assert_eq!(wishes(2, &list(&[good(1), good(2)]), &mut cells).unwrap().records, 2);
    assert_eq!(cells, [0, 2, 2, 0]);
    assert_eq!(wishes(2, &[], &mut cells).unwrap().records, 0);
    assert_eq!(cells, [0; 4]);
}

#[test]
fn a_sound_wish_list_gives_its_slots() {
    let mut rng = Rng::new(205);
    for _ in 0..5_000 {
        let n = rng.between(1, 12);
        let list = cases::wish_list(&mut rng, n);
        let mut cells = vec![9; n * n];
        assert_eq!(wishes(n as u64, &list, &mut cells).unwrap().records as usize, list.len() / WISH_SIZE);
        let mut expected = vec![0; n * n];
        for record in list.chunks(WISH_SIZE) {
            let bits = u32::from_le_bytes(record[4..].try_into().unwrap());
            let pair = usize::from(record[0]) * n + usize::from(record[1]);
            expected[pair] = slow::wish(bits).unwrap() as u32;
        }
        assert_eq!(cells, expected);
    }
}

/// Holds one wish to the slow one.
fn same_wish(bits: u32) {
    let code = |outcome| Numbers::from(outcome).code;
    let answer = wish(bits);
    match slow::wish(bits) {
        Ok(slots) => assert_eq!(answer.map(|counts| counts.total), Ok(slots), "{bits:08x}"),
        Err(refused) => assert_eq!(code(answer), refused, "{bits:08x}"),
    }
}

#[test]
fn wishes_of_every_exponent() {
    for high in 0..1 << 16 {
        for low in [0, 1, 2, 0x7f, 0x80, 0xff, 0x100, 0x7fff, 0x8000, 0xff00, 0xff01, 0xfffe, 0xffff] {
            same_wish(high << 16 | low);
        }
    }
}

#[test]
#[ignore = "every one of the 2^32 patterns: a minute"]
fn wishes_of_every_pattern() {
    (0..=u32::MAX).for_each(same_wish);
}

/// The records of a plan that is sound.
fn records(n: usize, plan: &[u8]) -> Vec<Record> {
    let mut reader = Reader::open(n as u64, plan).1;
    let mut records = Vec::new();
    while let Step::Record(record) = reader.step() {
        records.push(record);
    }
    records
}

/// What each pair is granted.
fn grants(n: usize, plan: &[Record]) -> Vec<u64> {
    let mut granted = vec![0; n * n];
    for record in plan {
        for (input, &output) in record.outputs[..n].iter().enumerate() {
            if output != IDLE {
                granted[input * n + usize::from(output)] += u64::from(record.hold);
            }
        }
    }
    granted
}

#[test]
fn joining_says_what_the_plainest_words_say_and_keeps_its_promises() {
    let mut rng = Rng::new(211);
    for _ in 0..20_000 {
        let n = cases::ports(&mut rng);
        let count = rng.between(0, 40);
        let plan = cases::repeating_plan(&mut rng, n, count);
        let before = records(n, &plan);
        let wanted = slow::join(&before);
        let mut lent = rng.bytes(wanted.len() * RECORD_SIZE + 9);
        let tail = lent[wanted.len() * RECORD_SIZE..].to_vec();
        let counts = join(n as u64, &plan, &mut lent).unwrap();
        let (joined, rest) = lent.split_at(wanted.len() * RECORD_SIZE);
        assert_eq!(records(n, joined), wanted);
        assert_eq!(rest, tail);
        let total: u64 = before.iter().map(|record| u64::from(record.hold)).sum();
        assert_eq!(counts, Counts { records: wanted.len() as u64, total, ..Counts::default() });
        assert_eq!(grants(n, &wanted), grants(n, &before));
        assert_eq!(slow::join(&wanted), wanted);
        assert!(wanted.len() <= before.len());
        if !wanted.is_empty() {
            let short = &mut lent.clone()[..wanted.len() * RECORD_SIZE - 1];
            assert_eq!(join(n as u64, &plan, short), Err(Refusal::Room(wanted.len())));
        }
    }
}
