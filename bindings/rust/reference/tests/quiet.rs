//! The quiet plan against the words of its rule, said once more in the plainest way, and against what is
//! promised of it.

use cases::Rng;
use reference::*;

fn limit(rng: &mut Rng, n: usize) -> u64 {
    rng.pick(&[1, 1, 1, 2, 3, n as u64, n as u64 + 1, u64::MAX])
}

#[test]
fn the_plan_is_what_the_rule_says() {
    let mut rng = Rng::new(71);
    for case in 0..1_500 {
        let n = if case % 100 == 0 { rng.pick(&[1, 2, 63, 64]) } else { cases::ports(&mut rng).min(24) };
        let line = rng.pick(&[3, 17, 300, MOST_LINE as usize]);
        let cells = cases::demand(&mut rng, n, line);
        let limit = limit(&mut rng, n);
        let slow = slow::quiet(&slow::rows(n, &cells), limit);
        let mut plan = vec![0xa5; (slow.len() + 1) * RECORD_SIZE];
        let counts = grating_quiet(n as u64, &cells, limit, &mut plan).expect("there is room");
        let (_, mut reader) = Reader::open(n as u64, &plan[..slow.len() * RECORD_SIZE]);
        for wanted in &slow {
            assert_eq!(reader.step(), Step::Record(*wanted), "N = {n}, L = {limit}, {cells:?}");
        }
        assert_eq!((counts.records as usize, counts.empty), (slow.len(), 0));
        assert_eq!(plan[slow.len() * RECORD_SIZE..], [0xa5; RECORD_SIZE]);
        let short = &mut plan[..slow.len().saturating_sub(1) * RECORD_SIZE];
        if !slow.is_empty() {
            assert_eq!(grating_quiet(n as u64, &cells, limit, short), Err(Refusal::Room(slow.len())));
        }
    }
}

#[test]
fn it_keeps_the_limit_and_is_near_the_least() {
    let mut rng = Rng::new(72);
    let mut met = 0;
    for case in 0..4_000 {
        let n = if case % 40 == 0 { rng.pick(&[1, 2, 63, 64]) } else { cases::ports(&mut rng) };
        let line = rng.pick(&[1, 3, 17, 300, MOST_LINE as usize]);
        let cells = cases::demand(&mut rng, n, line);
        let limit = limit(&mut rng, n);
        let asked = cells.iter().filter(|&&cell| cell != 0).count();
        let mut plan = vec![0; asked * RECORD_SIZE];
        let counts =
            grating_quiet(n as u64, &cells, limit, &mut plan).expect("a record for each cell is enough");
        plan.truncate(counts.records as usize * RECORD_SIZE);
        let said = format!("N = {n}, L = {limit}, {cells:?}");
        assert_eq!(check(n as u64, &cells, &plan), Ok(counts), "{said}");
        let mut report = vec![0; counts.records as usize];
        grating_report(n as u64, &plan, &mut report).expect("a sound plan");
        assert!(report.iter().all(|&most| u64::from(most) <= limit), "{report:?}, {said}");
        let least = grating_least(n as u64, &cells, limit).expect("a sound demand");
        assert_eq!(least.longest, counts.longest);
        let bands = (0..n).map(|w| (0..n).map(|i| u64::from(cells[i * n + (i + w) % n])).sum::<u64>());
        let busiest = bands.max().unwrap_or(0);
        assert_eq!(least.total, least.longest.max(busiest.div_ceil(limit)), "{said}");
        assert!(least.total <= counts.total, "{said}");
        if least.longest > 0 {
            let most = 2 * least.longest - 1 + (busiest - 1) / limit;
            assert!(counts.total <= most && counts.total < 3 * least.total, "{said}");
            met += usize::from(counts.total == most);
        }
    }
    assert!(met > 0, "the bound is met");
}

#[test]
fn a_limit_of_0_is_code_17_after_the_demand_and_before_the_room() {
    for call in [
        |n, cells: &[u32]| grating_quiet(n, cells, 0, &mut []),
        |n, cells: &[u32]| grating_least(n, cells, 0),
    ] {
        assert_eq!(call(0, &[1]), Err(Refusal::Ports));
        assert_eq!(call(65, &[1]), Err(Refusal::Ports));
        assert_eq!(call(2, &[1]), Err(Refusal::Cells(4)));
        assert_eq!(call(1, &[65_536]), Err(Refusal::Line(Side::Input(0))));
        assert_eq!(call(1, &[1]), Err(Refusal::Limit));
    }
}
