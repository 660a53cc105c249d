//! The fast planners against the slow ones, and both against what §6 to §8 promise of them.

use cases::Rng;
use reference::slow::{self, Demand, First};
use reference::*;

type Planner = fn(u64, &[u32], &mut [u8]) -> Outcome;
type Slow = fn(&Demand, First) -> Vec<Record>;

/// A planner's plan, read back, with its answer; the buffer has room to spare and keeps its rest.
fn planned(planner: Planner, n: usize, cells: &[u32], room: usize) -> (Counts, Vec<Record>) {
    const MARKER: u8 = 0xa5;
    let mut lent = vec![MARKER; (room + 1) * RECORD_SIZE];
    let counts = planner(n as u64, cells, &mut lent).expect("a sound demand with room");
    let (written, rest) = lent.split_at(counts.records as usize * RECORD_SIZE);
    assert!(rest.iter().all(|&byte| byte == MARKER), "wrote past its plan");
    let (_, mut reader) = Reader::open(n as u64, written);
    let plan: Vec<Record> = std::iter::from_fn(|| match reader.step() {
        Step::Record(record) => Some(record),
        _ => None,
    })
    .collect();
    assert_eq!(plan.len() as u64, counts.records, "a written record is not well formed");
    assert_eq!(plan.iter().map(|record| u64::from(record.hold)).sum::<u64>(), counts.total);
    assert_eq!(counts.longest, slow::longest(&slow::rows(n, cells)));
    assert_eq!(check(n as u64, cells, written), Ok(counts), "the checker counts the same");
    (counts, plan)
}

/// What a plan grants each pair.
fn granted(n: usize, plan: &[Record]) -> Demand {
    let mut granted = vec![vec![0; n]; n];
    for record in plan {
        for (input, &output) in record.outputs[..n].iter().enumerate() {
            if output != IDLE {
                granted[input][usize::from(output)] += u64::from(record.hold);
            }
        }
    }
    granted
}

fn covers(granted: &Demand, asked: &Demand) -> bool {
    granted.iter().flatten().zip(asked.iter().flatten()).all(|(granted, asked)| granted >= asked)
}

/// Holds the planners to the slow ones, where a way to find the first setting is given, and
/// to their promises.
fn try_demand(n: usize, cells: &[u32], first: Option<First>) {
    let asked = slow::rows(n, cells);
    let longest = slow::longest(&asked);
    let slots: u64 = asked.iter().flatten().sum();

    let (counts, plan) = planned(exact, n, cells, n * n);
    assert_eq!(counts.total, longest, "total hold is T");
    assert_eq!(counts.empty, n as u64 * longest - slots, "N × T less the sum of all cells");
    assert!(plan.len() <= n * n + 2 - 2 * n, "{} records for N = {n}", plan.len());
    assert_eq!(granted(n, &plan), slow::filled(&asked), "granted is the filled demand");
    assert!(covers(&granted(n, &plan), &asked));
    let is_after = |pair: &[Record]| pair[0].outputs < pair[1].outputs;
    assert!(plan.windows(2).all(is_after), "the first setting only moves forward");
    if let Some(first) = first {
        assert_eq!(plan, slow::exact(&asked, first), "N = {n}, {cells:?}");
    }

    let rules: [(Planner, Slow); 2] =
        [(doubled, slow::doubled), (doubled_every_rotation, slow::doubled_every_rotation)];
    for (planner, slow) in rules {
        let (counts, plan) = planned(planner, n, cells, 2 * n);
        assert!(plan.len() <= 2 * n);
        assert!(counts.total <= (2 * longest).saturating_sub(1));
        assert_eq!(counts.empty, n as u64 * counts.total - slots, "every setting is full");
        assert!(covers(&granted(n, &plan), &asked));
        if let Some(first) = first {
            assert_eq!(plan, slow(&asked, first), "N = {n}, {cells:?}");
        }
    }

    if longest <= MOST_QUICK {
        let (counts, plan) = planned(quick, n, cells, 2 * MOST_QUICK as usize);
        assert!(longest <= counts.records && counts.records <= (2 * longest).saturating_sub(1));
        assert!(granted(n, &plan) == asked, "a slot is served only where it is asked");
        assert_eq!(counts.empty, 0, "and so none is empty");
        assert_eq!(plan, slow::quick(&asked), "N = {n}, {cells:?}");
    } else {
        assert_eq!(quick(n as u64, cells, &mut []), Err(Refusal::Longest));
    }
}

#[test]
fn small_demands_against_going_back() {
    let mut rng = Rng::new(101);
    for case in 0..20_000 {
        let n = rng.between(1, 6);
        let most_line = rng.pick(&[6, 40, 1_024, 65_535]);
        let cells = cases::demand(&mut rng, n, most_line);
        try_demand(n, &cells, Some(slow::first_by_going_back));
        if case % 10 == 0 {
            try_demand(n, &cells, Some(slow::first_by_asking_anew));
        }
    }
}

#[test]
fn middling_demands_against_asking_anew() {
    let mut rng = Rng::new(102);
    for _ in 0..600 {
        let n = rng.between(7, 14);
        let most_line = rng.pick(&[20, 200, 1_024, 65_535]);
        let cells = cases::demand(&mut rng, n, most_line);
        try_demand(n, &cells, Some(slow::first_by_asking_anew));
    }
}

#[test]
fn every_demand_of_two_and_three_ports_with_small_cells() {
    for (n, limit) in [(2, 6), (3, 3)] {
        for number in 0..(limit as usize).pow((n * n) as u32) {
            let digit = |k: usize| (number / (limit as usize).pow(k as u32) % limit as usize) as u32;
            let cells: Vec<u32> = (0..n * n).map(digit).collect();
            try_demand(n, &cells, Some(slow::first_by_going_back));
        }
    }
}

#[test]
fn large_demands() {
    let mut rng = Rng::new(103);
    for _ in 0..150 {
        let n = rng.pick(&[24, 32, 48, 63, 64]);
        let most_line = rng.pick(&[64, 1_024, 65_535]);
        let cells = cases::demand(&mut rng, n, most_line);
        try_demand(n, &cells, None);
    }
    let cells = cases::sparse(&mut rng, 64, 2, 3);
    try_demand(64, &cells, Some(slow::first_by_asking_anew));
    let cells = cases::sparse(&mut rng, 40, 3, 500);
    try_demand(40, &cells, Some(slow::first_by_asking_anew));
}

#[test]
fn room_is_found_wanting_before_anything_is_written() {
    let mut rng = Rng::new(104);
    for _ in 0..5_000 {
        let n = rng.between(1, 8);
        let cells = cases::demand(&mut rng, n, 1_024);
        for planner in [exact as Planner, doubled, doubled_every_rotation, quick] {
            let (counts, _) = planned(planner, n, &cells, 2 * MOST_QUICK as usize);
            let records = counts.records as usize;
            let bytes = records * RECORD_SIZE;
            let mut just = vec![1; bytes + rng.below(RECORD_SIZE)];
            assert_eq!(planner(n as u64, &cells, &mut just), Ok(counts));
            if records > 0 {
                let short = bytes - rng.between(1, bytes);
                let before = rng.bytes(short);
                let mut lent = before.clone();
                assert_eq!(planner(n as u64, &cells, &mut lent), Err(Refusal::Room(records)));
                assert_eq!(lent, before);
            }
        }
    }
}
