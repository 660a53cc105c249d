//! The grating calls against the words of §13, said once more in the plainest way.

use cases::Rng;
use reference::*;

fn read(n: u64, plan: &[u8]) -> Vec<Record> {
    let (_, mut reader) = Reader::open(n, plan);
    std::iter::from_fn(|| match reader.step() {
        Step::Record(record) => Some(record),
        _ => None,
    })
    .collect()
}

/// How many inputs of a setting use wavelength w.
fn sharing(n: usize, outputs: &[u8], w: usize) -> usize {
    (0..n).filter(|&i| outputs[i] != IDLE && (i + w) % n == usize::from(outputs[i])).count()
}

#[test]
fn the_report_is_what_it_says() {
    let mut rng = Rng::new(61);
    for _ in 0..2_000 {
        let n = cases::ports(&mut rng);
        let records = rng.between(0, 9);
        let plan = cases::plan(&mut rng, n, records);
        let mut report = vec![0xa5; records + 2];
        let counts = grating_report(n as u64, &plan, &mut report).expect("a sound plan with room");
        assert_eq!((counts.records as usize, counts.longest), (records, 0));
        for (record, &number) in read(n as u64, &plan).iter().zip(&report) {
            let most = (0..n).map(|w| sharing(n, &record.outputs, w)).max();
            assert_eq!(most, Some(usize::from(number)), "N = {n}, {record:?}");
        }
        assert_eq!(report[records..], [0xa5, 0xa5]);
    }
}

#[test]
fn the_plan_covers_within_its_bounds_and_spreads_the_wavelengths() {
    let mut rng = Rng::new(62);
    for case in 0..2_000 {
        let n = if case % 40 == 0 { rng.pick(&[1, 2, 63, 64]) } else { cases::ports(&mut rng) };
        let line = rng.pick(&[3, 300, MOST_LINE as usize]);
        let cells = cases::demand(&mut rng, n, line);
        let longest = slow::longest(&slow::rows(n, &cells));
        let mut plan = vec![0; 2 * n * RECORD_SIZE];
        let counts = grating_doubled(n as u64, &cells, &mut plan).expect("2N records are enough");
        plan.truncate(counts.records as usize * RECORD_SIZE);
        let checked = check(n as u64, &cells, &plan).expect("it covers");
        let asked: u64 = cells.iter().map(|&cell| u64::from(cell)).sum();
        assert_eq!(checked, Counts { longest, empty: n as u64 * counts.total - asked, ..counts });
        assert!(counts.total < 2 * longest || counts.total == 0, "total {} for T = {longest}", counts.total);
        let mut exact_part = vec![0; n * RECORD_SIZE];
        let unit = longest.div_ceil(n as u64).max(1) as u32;
        let quotients: Vec<u32> = cells.iter().map(|cell| cell / unit).collect();
        let first = exact(n as u64, &quotients, &mut exact_part).expect("at most N records").records as usize;
        let records = read(n as u64, &plan);
        for (record, alone) in records[..first].iter().zip(read(n as u64, &exact_part)) {
            assert_eq!(
                (u32::from(record.hold), record.outputs),
                (u32::from(alone.hold) * unit, alone.outputs)
            );
        }
        for record in &records[first..] {
            let k = usize::from(record.outputs[0]);
            for (i, &j) in record.outputs[..n].iter().enumerate() {
                assert_eq!((i + usize::from(j)) % n, k, "N = {n}");
            }
            let largest = (0..n).map(|i| cells[i * n + usize::from(record.outputs[i])] % unit).max();
            assert_eq!(largest, Some(u32::from(record.hold)));
            assert!((0..n).all(|w| sharing(n, &record.outputs, w) <= 2 - n % 2), "N = {n}, k = {k}");
        }
    }
}
