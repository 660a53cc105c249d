//! The quiet plan and the least total within a limit, against the reference: the same answer, and the
//! same bytes in and around the lent memory. Each test counts the codes it met.

use cases::Rng;
use chordvenus::Answer;
use reference::{Numbers, Outcome, MOST_LINE, MOST_PORTS, RECORD_SIZE};

const CASES: usize = 20_000;
const ENOUGH: usize = 20;

fn expected(outcome: Outcome) -> Answer {
    let Numbers { code, place, side, counts } = outcome.into();
    let reference::Counts { records, longest, total, length, empty } = counts;
    Answer { code, place, side, records, longest, total, length, empty, ..Answer::default() }
}

/// N, cells and a limit, each of them wrong now and then.
fn asked(rng: &mut Rng) -> (u64, Vec<u32>, u64) {
    let n = cases::ports(rng);
    let line = rng.pick(&[3, 17, 300, MOST_LINE as usize]);
    let mut cells = cases::demand(rng, n, line);
    match rng.below(24) {
        0 => cases::overload(rng, &mut cells),
        1 => cells.truncate(rng.below(n * n)),
        2 => cells.push(rng.draw() as u32),
        _ => (),
    }
    let ports = if rng.one_in(16) { cases::wild_ports(rng, n) } else { n as u64 };
    let any = rng.draw();
    let limit = rng.pick(&[1, 1, 2, 3, n as u64, n as u64 + 1, any, u64::MAX - 1, u64::MAX]);
    (ports, cells, if rng.one_in(16) { 0 } else { limit })
}

/// Each of these codes was met often enough, and no other.
fn met_are(met: &[usize; 18], codes: &[usize]) {
    for (code, &times) in met.iter().enumerate() {
        let enough = if codes.contains(&code) { times >= ENOUGH } else { times == 0 };
        assert!(enough, "code {code} was met {times} times, of {codes:?}");
    }
}

#[test]
fn grating_quiet() {
    let mut rng = Rng::new(73);
    let mut met = [0; 18];
    let mut ample = vec![0; MOST_PORTS * MOST_PORTS * RECORD_SIZE];
    for case in 0..CASES {
        let (n, cells, limit) = asked(&mut rng);
        let records = reference::grating_quiet(n, &cells, limit, &mut ample)
            .map_or(3, |counts| counts.records as usize);
        let pairs = cells.iter().filter(|&&cell| cell != 0).count().max(records);
        let few = rng.below(records + 1);
        let room =
            rng.pick(&[0, few, records.saturating_sub(1), records, records, records + 1, pairs, pairs + 1]);
        let len = room * RECORD_SIZE + rng.below(RECORD_SIZE);
        let (front, behind) = (rng.between(1, 16), rng.between(1, 16));
        let mut lent = rng.bytes(front + len + behind);
        let (mut wanted, before) = (lent.clone(), cells.clone());
        let answer = chordvenus::grating_quiet(n, &cells, limit, &mut lent[front..front + len]);
        let said = format!("case {case}: N = {n}, L = {limit}, {len} bytes, cells {cells:?}");
        let outcome = reference::grating_quiet(n, &cells, limit, &mut wanted[front..front + len]);
        assert_eq!(answer, expected(outcome), "{said}");
        assert!(lent == wanted, "other bytes, {said}");
        assert!(cells == before, "the demand has changed, {said}");
        met[answer.code as usize] += 1;
    }
    met_are(&met, &[0, 1, 2, 3, 5, 17]);
}

#[test]
fn grating_least() {
    let mut rng = Rng::new(74);
    let mut met = [0; 18];
    for case in 0..CASES {
        let (n, cells, limit) = asked(&mut rng);
        let answer = chordvenus::grating_least(n, &cells, limit);
        let wanted = expected(reference::grating_least(n, &cells, limit));
        assert_eq!(answer, wanted, "case {case}: N = {n}, L = {limit}, cells {cells:?}");
        met[answer.code as usize] += 1;
    }
    met_are(&met, &[0, 1, 2, 3, 17]);
}

/// What is promised, of the archive's own plans: the checker passes them, the report keeps the limit, and
/// the total is less than three times the least.
#[test]
fn quiet_and_near() {
    let mut rng = Rng::new(75);
    for case in 0..CASES / 4 {
        let n = cases::ports(&mut rng);
        let line = rng.pick(&[1, 3, 300, MOST_LINE as usize]);
        let cells = cases::demand(&mut rng, n, line);
        let limit = rng.pick(&[1, 1, 2, 3, n as u64]);
        let mut plan = vec![0; n * n * RECORD_SIZE];
        let answer = chordvenus::grating_quiet(n as u64, &cells, limit, &mut plan);
        plan.truncate(answer.records as usize * RECORD_SIZE);
        let said = format!("case {case}: N = {n}, L = {limit}, cells {cells:?}");
        assert_eq!(chordvenus::check(n as u64, &cells, &plan), answer, "{said}");
        let mut report = vec![0; answer.records as usize];
        assert_eq!(chordvenus::grating_report(n as u64, &plan, &mut report).code, 0, "{said}");
        assert!(report.iter().all(|&most| u64::from(most) <= limit), "{said}");
        let least = chordvenus::grating_least(n as u64, &cells, limit).total;
        assert!(least <= answer.total && (answer.total < 3 * least || least == 0), "{said}");
    }
}
