//! What is said of plans of any edition is, of the first, what the fast calls say.

use cases::Rng;
use reference::editions::{FIRST, MOVABLE, SECOND};
use reference::{Counts, Numbers, Outcome, Step};

fn numbers(outcome: Outcome) -> Numbers {
    outcome.into()
}

#[test]
fn of_the_first_edition() {
    let mut rng = Rng::new(21);
    for _ in 0..3_000 {
        let ports = cases::ports(&mut rng);
        let records = rng.below(6);
        let mut plan = cases::repeating_plan(&mut rng, ports, records);
        if rng.one_in(3) {
            cases::spoil_plan(&mut rng, ports, &mut plan);
        }
        if rng.one_in(8) {
            cases::tear(&mut rng, reference::RECORD_SIZE, &mut plan);
        }
        let n = if rng.one_in(16) { cases::wild_ports(&mut rng, ports) } else { ports as u64 };
        let d = rng.draw() as u16;
        assert_eq!(numbers(reference::open(n, &plan)), FIRST.open(n, &plan));
        assert_eq!(numbers(reference::length(n, &plan, d)), FIRST.length(n, &plan, d));
        let cells = cases::sparse(&mut rng, ports, 1, 3);
        assert_eq!(numbers(reference::check(n, &cells, &plan)), FIRST.check(n, &cells, &plan));
        let (mut left, mut right) = (vec![7; plan.len()], vec![7; plan.len()]);
        assert_eq!(numbers(reference::join(n, &plan, &mut left)), FIRST.join(n, &plan, &mut right));
        assert_eq!(left, right);
        for at in 0..=records as u64 {
            let step = match reference::step_at(n, &plan, at) {
                Step::Record(record) => (0, 0, u64::from(record.hold), record.outputs.to_vec()),
                Step::End => (1, 0, 0, vec![reference::IDLE; 64]),
                Step::Malformed(place) => (2, place, 0, vec![reference::IDLE; 64]),
            };
            assert_eq!(step, FIRST.step_at(n, &plan, at));
        }
        let list = cases::wish_list(&mut rng, ports);
        let (mut left, mut right) = (vec![7; ports * ports], vec![7; ports * ports]);
        assert_eq!(numbers(reference::wishes(n, &list, &mut left)), FIRST.wishes(n, &list, &mut right));
        assert_eq!(left, right);
    }
}

#[test]
fn there_and_back() {
    let mut rng = Rng::new(22);
    for _ in 0..1_000 {
        let n = cases::ports(&mut rng);
        let plan = cases::plan(&mut rng, n, 4);
        let mut moved = vec![0; 4 * SECOND.size()];
        let answer = FIRST.move_to(SECOND, n as u64, &plan, &mut moved);
        assert_eq!(answer.counts, Counts { records: 4, ..answer.counts });
        assert_eq!(SECOND.read(n as u64, &moved).map(|(n, records)| (n, records.len())), Ok((n, 4)));
        let mut home = vec![0; plan.len()];
        assert_eq!(MOVABLE.move_to(FIRST, n as u64, &moved, &mut home), answer);
        assert_eq!(home, plan);
    }
}
