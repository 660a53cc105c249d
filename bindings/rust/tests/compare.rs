//! Every call of the archive against the reference: the same inputs must give the same answer and
//! leave the same bytes. Cases are sound, damaged, and damaged in several ways at once. Lent memory
//! is filled with random bytes and lies between random bytes, and all of it is compared, so a byte
//! that should stay untouched is seen. Each test counts the codes it met, so that no refusal goes
//! untried.

use cases::Rng;
use chordvenus::{sys, Answer, Plan, Reader};
use reference::{
    slow, Numbers, Outcome, MOST_LINE, MOST_PORTS, MOST_PORTS_SECOND, MOST_QUICK, MOST_RECORDS, RECORD_SIZE,
    WISH_SIZE,
};

/// Cases for each call.
const CASES: usize = 20_000;
/// How often each code of a call is met at least in them.
const ENOUGH: usize = 20;

fn expected(outcome: Outcome) -> Answer {
    let Numbers { code, place, side, counts } = outcome.into();
    let reference::Counts { records, longest, total, length, empty } = counts;
    Answer { code, place, side, records, longest, total, length, empty, ..Answer::default() }
}

/// The codes met.
#[derive(Default)]
struct Met([usize; 16]);

impl Met {
    fn note(&mut self, answer: Answer) {
        self.0[answer.code as usize] += 1;
    }

    /// Each of these codes was met often enough, and no other.
    fn are(&self, codes: &[usize]) {
        for (code, &times) in self.0.iter().enumerate() {
            let enough = if codes.contains(&code) { times >= ENOUGH } else { times == 0 };
            assert!(enough, "code {code} was met {times} times, of {codes:?}");
        }
    }
}

/// Memory of random content, of which the middle is lent.
#[derive(Clone, PartialEq)]
struct Lent<T> {
    whole: Vec<T>,
    start: usize,
    len: usize,
}

impl<T> Lent<T> {
    fn new(rng: &mut Rng, len: usize, mut any: impl FnMut(&mut Rng) -> T) -> Lent<T> {
        let (start, behind) = (rng.between(1, 16), rng.between(1, 16));
        let whole = (0..start + len + behind).map(|_| any(rng)).collect();
        Lent { whole, start, len }
    }

    fn bytes(rng: &mut Rng, len: usize) -> Lent<u8> {
        Lent::new(rng, len, |rng| rng.draw() as u8)
    }

    fn middle(&mut self) -> &mut [T] {
        &mut self.whole[self.start..self.start + self.len]
    }
}

/// N, cells and a planner's faults: out of range, of the wrong number, over a line's limit.
fn demand(rng: &mut Rng, most_line: usize) -> (u64, Vec<u32>) {
    let n = cases::ports(rng);
    let mut cells = cases::demand(rng, n, most_line);
    if rng.one_in(8) {
        cases::overload(rng, &mut cells);
    }
    if rng.one_in(12) {
        cells.resize(cases::wrong_size(rng, n), 1);
    }
    let n = if rng.one_in(16) { cases::wild_ports(rng, n) } else { n as u64 };
    (n, cells)
}

/// A length in bytes for a plan of so many records: just enough, too little, or more.
fn room(rng: &mut Rng, records: usize) -> usize {
    let bytes = records * RECORD_SIZE;
    match rng.below(6) {
        0 => bytes,
        1 => bytes + rng.below(RECORD_SIZE),
        2 => bytes.saturating_sub(1),
        3 => rng.below(bytes + 1),
        4 => bytes.saturating_sub(RECORD_SIZE) + rng.below(RECORD_SIZE),
        _ => bytes + rng.below(4 * RECORD_SIZE),
    }
}

/// A plan for N, perhaps spoiled, torn or far too long.
fn plan(rng: &mut Rng, n: usize) -> Vec<u8> {
    let records = if rng.one_in(8) { rng.between(0, 40) } else { rng.between(0, 5) };
    let plan = if rng.one_in(150) { longest_plan(rng, n) } else { cases::plan(rng, n, records) };
    spoiled(rng, n, plan)
}

/// A plan of 8,192 records or one more.
fn longest_plan(rng: &mut Rng, n: usize) -> Vec<u8> {
    let records = MOST_RECORDS + rng.below(2);
    cases::plan(rng, n, 1).repeat(records)
}

fn spoiled(rng: &mut Rng, n: usize, mut plan: Vec<u8>) -> Vec<u8> {
    if rng.one_in(3) {
        for _ in 0..rng.between(1, 2) {
            cases::spoil_plan(rng, n, &mut plan);
        }
    }
    if rng.one_in(10) {
        cases::tear(rng, RECORD_SIZE, &mut plan);
    }
    plan
}

fn maybe_wild(rng: &mut Rng, n: usize) -> u64 {
    match rng.below(12) {
        0 => cases::wild_ports(rng, n),
        1 => rng.between(1, MOST_PORTS) as u64,
        _ => n as u64,
    }
}

type Planner = fn(u64, &[u32], &mut [u8]) -> Outcome;
type Proved = fn(u64, &[u32], &mut [u8]) -> Answer;

fn compare_planner(seed: u64, proved: Proved, planner: Planner, most_line: usize, codes: &[usize]) {
    let mut rng = Rng::new(seed);
    let mut met = Met::default();
    let mut ample = vec![0; 4_096 * RECORD_SIZE];
    for case in 0..CASES {
        let over = if rng.one_in(8) { MOST_LINE as usize } else { most_line };
        let line = rng.pick(&[3, 17, 300, over, over]);
        let (n, cells) = demand(&mut rng, line);
        let records = planner(n, &cells, &mut ample).map_or(3, |counts| counts.records as usize);
        let len = room(&mut rng, records);
        let mut lent = Lent::<u8>::bytes(&mut rng, len);
        let (mut wanted, before) = (lent.clone(), cells.clone());
        let answer = proved(n, &cells, lent.middle());
        let said = format!("case {case}: N = {n}, {len} bytes, cells {cells:?}");
        assert_eq!(answer, expected(planner(n, &cells, wanted.middle())), "{said}");
        assert!(lent == wanted, "other bytes, {said}");
        assert!(cells == before, "the demand has changed, {said}");
        met.note(answer);
    }
    met.are(codes);
}

#[test]
fn version() {
    assert_eq!(chordvenus::version(), sys::VERSION);
}

#[test]
fn exact() {
    compare_planner(1, chordvenus::exact, reference::exact, MOST_LINE as usize, &[0, 1, 2, 3, 5]);
}

/// A larger batch (§22): the same settings, each hold multiplied, and code 5 at the same place.
#[test]
fn exact_of_a_larger_batch() {
    let mut rng = Rng::new(12);
    let (mut refused, mut larger) = (0, 0);
    for case in 0..CASES {
        let line = rng.pick(&[1, 3, 17, 300, 4_000]);
        let n = cases::ports(&mut rng);
        let cells = cases::demand(&mut rng, n, line);
        let k = rng.between(1, MOST_LINE as usize / line) as u32;
        let times: Vec<u32> = cells.iter().map(|cell| cell * k).collect();
        let mut plan = vec![0; 4_096 * RECORD_SIZE];
        let records = chordvenus::exact(n as u64, &cells, &mut plan).records as usize;
        plan.truncate(room(&mut rng, records));
        let mut stretched = plan.clone();
        let once = chordvenus::exact(n as u64, &cells, &mut plan);
        let more = chordvenus::exact(n as u64, &times, &mut stretched);
        let k = u64::from(k);
        let wanted =
            Answer { longest: once.longest * k, total: once.total * k, empty: once.empty * k, ..once };
        assert_eq!(more, wanted, "case {case}: N = {n}, k = {k}, cells {cells:?}");
        for record in plan[..once.records as usize * RECORD_SIZE].chunks_mut(RECORD_SIZE) {
            let hold = u64::from(u16::from_le_bytes([record[0], record[1]])) * k;
            record[..2].copy_from_slice(&(hold as u16).to_le_bytes());
        }
        assert!(plan == stretched, "other bytes, case {case}: N = {n}, k = {k}, cells {cells:?}");
        refused += usize::from(once.code == 5);
        larger += usize::from(k > 1 && once.records > 1);
    }
    assert!(refused >= ENOUGH && larger >= ENOUGH, "{refused} refused, {larger} larger");
}

#[test]
fn doubled() {
    compare_planner(2, chordvenus::doubled, reference::doubled, MOST_LINE as usize, &[0, 1, 2, 3, 5]);
}

#[test]
fn doubled_every_rotation() {
    compare_planner(
        13,
        chordvenus::doubled_every_rotation,
        reference::doubled_every_rotation,
        MOST_LINE as usize,
        &[0, 1, 2, 3, 5],
    );
}

#[test]
fn quick() {
    compare_planner(3, chordvenus::quick, reference::quick, MOST_QUICK as usize, &[0, 1, 2, 3, 4, 5]);
}

#[test]
fn grating_doubled() {
    compare_planner(
        14,
        chordvenus::grating_doubled,
        reference::grating_doubled,
        MOST_LINE as usize,
        &[0, 1, 2, 3, 5],
    );
}

#[test]
fn grating_report() {
    let mut rng = Rng::new(15);
    let mut met = Met::default();
    let mut ample = vec![0; 2 * MOST_PORTS * RECORD_SIZE];
    for case in 0..CASES {
        let ports = cases::ports(&mut rng);
        let plan = if rng.one_in(3) {
            let cells = cases::demand(&mut rng, ports, 300);
            let counts =
                reference::grating_doubled(ports as u64, &cells, &mut ample).expect("a sound demand");
            ample[..counts.records as usize * RECORD_SIZE].to_vec()
        } else {
            plan(&mut rng, ports)
        };
        let n = maybe_wild(&mut rng, ports);
        let records = plan.len() / RECORD_SIZE;
        let len = rng.pick(&[0, records.saturating_sub(1), records, records, records + 1, records + 9]);
        let mut lent = Lent::<u8>::bytes(&mut rng, len);
        let (mut wanted, before) = (lent.clone(), plan.clone());
        let answer = chordvenus::grating_report(n, &plan, lent.middle());
        let said = format!("case {case}: N = {n}, {len} bytes, {plan:?}");
        assert_eq!(answer, expected(reference::grating_report(n, &plan, wanted.middle())), "{said}");
        assert!(lent == wanted, "other bytes, {said}");
        assert!(plan == before, "the plan has changed, {said}");
        met.note(answer);
    }
    met.are(&[0, 1, 5, 9, 10, 11]);
}

#[test]
fn check() {
    let mut rng = Rng::new(4);
    let mut met = Met::default();
    let mut ample = vec![0; 4_096 * RECORD_SIZE];
    for case in 0..CASES {
        let line = rng.pick(&[3, 17, 300, MOST_LINE as usize]);
        let (n, mut cells) = demand(&mut rng, line);
        let planner = rng.pick(&[
            reference::exact as Planner,
            reference::doubled,
            reference::doubled_every_rotation,
            reference::quick,
        ]);
        let small = n.clamp(1, MOST_PORTS as u64) as usize;
        let plan = match planner(n, &cells, &mut ample) {
            _ if rng.one_in(200) => longest_plan(&mut rng, small),
            Ok(counts) if !rng.one_in(5) => {
                let mut plan = ample[..counts.records as usize * RECORD_SIZE].to_vec();
                if rng.one_in(4) && !plan.is_empty() {
                    plan.truncate(rng.below(counts.records as usize) * RECORD_SIZE);
                }
                spoiled(&mut rng, small, plan)
            }
            _ => plan(&mut rng, small),
        };
        if rng.one_in(6) && !cells.is_empty() {
            let cell = rng.below(cells.len());
            cells[cell] = cells[cell].saturating_add(1);
        }
        let (cells_before, plan_before) = (cells.clone(), plan.clone());
        let answer = chordvenus::check(n, &cells, &plan);
        assert_eq!(
            answer,
            expected(reference::check(n, &cells, &plan)),
            "case {case}: N = {n}, {cells:?}, {plan:?}"
        );
        assert!(cells == cells_before && plan == plan_before, "case {case} was written to");
        met.note(answer);
    }
    met.are(&[0, 1, 2, 3, 9, 10, 11, 13]);
}

#[test]
fn length() {
    let mut rng = Rng::new(5);
    let mut met = Met::default();
    for case in 0..CASES {
        let ports = cases::ports(&mut rng);
        let (plan, n) = (plan(&mut rng, ports), maybe_wild(&mut rng, ports));
        let d = rng.pick(&[0, 1, 2, 255, 256, 65_535, case as u16]);
        let before = plan.clone();
        let answer = chordvenus::length(n, &plan, d);
        assert_eq!(
            answer,
            expected(reference::length(n, &plan, d)),
            "case {case}: N = {n}, d = {d}, {plan:?}"
        );
        assert!(plan == before, "case {case} was written to");
        met.note(answer);
    }
    met.are(&[0, 1, 9, 10, 11]);
}

/// A plan in which settings repeat, or one of any kind, or one of the most records there may be.
fn plan_to_join(rng: &mut Rng, n: usize) -> Vec<u8> {
    match rng.below(200) {
        0 => cases::repeating_plan(rng, n, MOST_RECORDS),
        1 => cases::plan(rng, n, MOST_RECORDS),
        2..=60 => plan(rng, n),
        _ => {
            let records = rng.between(0, 60);
            let plan = cases::repeating_plan(rng, n, records);
            if rng.one_in(4) {
                spoiled(rng, n, plan)
            } else {
                plan
            }
        }
    }
}

#[test]
fn join() {
    let mut rng = Rng::new(12);
    let mut met = Met::default();
    let mut ample = vec![0; MOST_RECORDS * RECORD_SIZE];
    for case in 0..CASES {
        let ports = cases::ports(&mut rng);
        let (plan, n) = (plan_to_join(&mut rng, ports), maybe_wild(&mut rng, ports));
        let records = reference::join(n, &plan, &mut ample).map_or(3, |counts| counts.records as usize);
        let len = room(&mut rng, records);
        let mut lent = Lent::<u8>::bytes(&mut rng, len);
        let (mut wanted, before) = (lent.clone(), plan.clone());
        let answer = chordvenus::join(n, &plan, lent.middle());
        let said = || format!("case {case}: N = {n}, {len} bytes, {plan:?}");
        assert_eq!(answer, expected(reference::join(n, &plan, wanted.middle())), "{}", said());
        assert!(lent == wanted, "other bytes, {}", said());
        assert!(plan == before, "the plan has changed, {}", said());
        if answer.code == 0 {
            let joined = lent.middle()[..answer.records as usize * RECORD_SIZE].to_vec();
            assert_eq!(chordvenus::join(n, &joined, lent.middle()), answer, "joined again, {}", said());
            assert!(lent == wanted, "other bytes once joined again, {}", said());
        }
        met.note(answer);
    }
    met.are(&[0, 1, 5, 9, 10, 11]);
}

#[test]
fn write() {
    let mut rng = Rng::new(6);
    let mut met = Met::default();
    for case in 0..2 * CASES {
        let ports = rng.between(1, MOST_PORTS);
        let hold = if rng.one_in(8) { 0 } else { cases::hold(&mut rng) };
        let mut outputs = cases::setting(&mut rng, ports);
        if rng.one_in(3) {
            cases::spoil_outputs(&mut rng, ports, &mut outputs);
        }
        let n = maybe_wild(&mut rng, ports);
        let len = rng.pick(&[0, 1, 67, 68, 68, 68, 69, 70, 136, 140]);
        let mut lent = Lent::<u8>::bytes(&mut rng, len);
        let mut wanted = lent.clone();
        let answer = chordvenus::write(hold, n, &outputs, lent.middle());
        let said = format!("case {case}: hold {hold}, N = {n}, {len} bytes, {outputs:?}");
        assert_eq!(answer, expected(reference::write(hold, n, &outputs, wanted.middle())), "{said}");
        assert!(lent == wanted, "other bytes, {said}");
        met.note(answer);
    }
    met.are(&[0, 1, 5, 11]);
}

#[test]
fn open() {
    let mut rng = Rng::new(7);
    let mut met = Met::default();
    for case in 0..CASES {
        let ports = cases::ports(&mut rng);
        let (plan, n) = (plan(&mut rng, ports), maybe_wild(&mut rng, ports));
        let answer = chordvenus::open(n, &plan);
        assert_eq!(answer, expected(reference::open(n, &plan)), "case {case}: N = {n}, {} bytes", plan.len());
        met.note(answer);
    }
    met.are(&[0, 1, 9, 10]);
}

fn named(refused: reference::Named) -> Answer {
    let reference::Named(about, why) = refused;
    Answer { about: about as u64, ..expected(Err(why)) }
}

/// A part of the reference with every field of the C struct.
fn raw_part(part: Result<reference::Part, reference::Named>) -> sys::RawPart {
    let (answer, plan, start) = match part {
        Ok(reference::Part::Tonight(start)) => (Answer::default(), 1, start as u64),
        Ok(reference::Part::Standby(start)) => (Answer::default(), 2, start as u64),
        Err(refused) => return sys::RawPart { answer: named(refused), plan: 0, start: 0, size: 0 },
    };
    sys::RawPart { answer, plan, start, size: RECORD_SIZE as u64 }
}

/// The total hold of a plan, damaged or not.
fn slots(plan: &[u8]) -> u64 {
    plan.chunks_exact(RECORD_SIZE).map(|record| u64::from(record[0]) + 256 * u64::from(record[1])).sum()
}

/// A slot where something changes in two plans, or any.
fn slot(rng: &mut Rng, tonight: &[u8], standby: &[u8]) -> u64 {
    let (first, second) = (slots(tonight), slots(standby));
    let within = rng.below(tonight.len() / RECORD_SIZE + 1) * RECORD_SIZE;
    let edge = rng.pick(&[0, slots(&tonight[..within]), first, first + second, first + 2 * second, u64::MAX]);
    match rng.below(4) {
        0 => rng.draw(),
        1 => rng.below((first + 3 * second) as usize + 1) as u64,
        _ => edge.saturating_sub(rng.below(2) as u64),
    }
}

#[test]
fn in_force() {
    let mut rng = Rng::new(31);
    let mut met = Met::default();
    let mut about = [0; 7];
    for case in 0..2 * CASES {
        let ports = cases::ports(&mut rng);
        let tonight = if rng.one_in(8) { Vec::new() } else { plan(&mut rng, ports) };
        let standby = match rng.below(6) {
            0 => Vec::new(),
            1 => tonight.clone(),
            _ => plan(&mut rng, ports),
        };
        let n = if rng.one_in(24) { cases::wild_ports(&mut rng, ports) } else { ports as u64 };
        let slot = slot(&mut rng, &tonight, &standby);
        let wanted = raw_part(reference::in_force(n, &tonight, &standby, slot));
        let (first, second) = ((tonight.as_ptr(), tonight.len()), (standby.as_ptr(), standby.len()));
        let part = unsafe { sys::cv_in_force(n, first.0, first.1, second.0, second.1, slot) };
        let said = || format!("case {case}: N = {n}, slot {slot}, {tonight:?} and {standby:?}");
        assert_eq!(part, wanted, "{}", said());
        let plan = [&[][..], &tonight, &standby][part.plan as usize];
        let bytes = &plan[part.start as usize..][..part.size as usize];
        match chordvenus::in_force(n, &tonight, &standby, slot) {
            Ok(own) => assert!(own.as_ptr() == bytes.as_ptr() && own == bytes, "another part, {}", said()),
            Err(refused) => assert_eq!((refused.0, bytes.len()), (wanted.answer, 0), "{}", said()),
        }
        about[part.answer.about as usize] += 1;
        met.note(part.answer);
    }
    met.are(&[0, 1, 9, 10, 11, 14]);
    assert!(about[1] >= ENOUGH && about[2] >= ENOUGH, "about: {about:?}");
}

/// Cells of a carry-over: fine, over a line's limit, or close to it.
fn lines(rng: &mut Rng, n: usize) -> Vec<u32> {
    let most = rng.pick(&[20, 1_000, 40_000, 65_535]);
    let mut cells = cases::demand(rng, n, most);
    if rng.one_in(10) {
        cases::overload(rng, &mut cells);
    }
    cells
}

#[test]
fn carry_over() {
    let mut rng = Rng::new(32);
    let mut met = Met::default();
    let mut about = [0; 7];
    for case in 0..2 * CASES {
        let ports = cases::ports(&mut rng);
        let (mut asked, mut wished) = (lines(&mut rng, ports), lines(&mut rng, ports));
        let mut len = ports * ports;
        if rng.one_in(12) {
            let wrong = cases::wrong_size(&mut rng, ports);
            match rng.below(3) {
                0 => asked.resize(wrong, 1),
                1 => wished.resize(wrong, 1),
                _ => len = wrong,
            }
        }
        let plan = plan(&mut rng, ports);
        let n = if rng.one_in(24) { cases::wild_ports(&mut rng, ports) } else { ports as u64 };
        let records = (plan.len() / RECORD_SIZE) as u64;
        let first = match rng.below(8) {
            0 => rng.pick(&[records + 1, u64::MAX, 1 << 32, 1 << 16]),
            1 => records,
            _ => rng.below(records as usize + 1) as u64,
        };
        let mut lent = Lent::new(&mut rng, len, |rng| rng.draw() as u32);
        let mut wanted = lent.clone();
        let answer = chordvenus::carry_over(n, &asked, &plan, first, &wished, lent.middle());
        let done = reference::carry_over(n, &asked, &plan, first, &wished, wanted.middle());
        let said = || format!("case {case}: N = {n}, first {first}, {asked:?}, {wished:?}, {plan:?}");
        assert_eq!(answer, done.map_or_else(named, |()| Answer::default()), "{}", said());
        assert!(lent == wanted, "other cells, {}", said());
        about[answer.about as usize] += 1;
        met.note(answer);
    }
    met.are(&[0, 1, 2, 3, 9, 10, 11, 15]);
    assert!(about[3..].iter().all(|&times| times >= ENOUGH), "about: {about:?}");
}

/// A step of the reference with every field of the C struct.
fn raw(step: reference::Step) -> sys::RawStep {
    let idle = sys::RawStep { kind: 1, place: 0, hold: 0, outputs: [chordvenus::IDLE; 64] };
    match step {
        reference::Step::End => idle,
        reference::Step::Malformed(place) => sys::RawStep { kind: 2, place, ..idle },
        reference::Step::Record(record) => {
            sys::RawStep { kind: 0, place: 0, hold: u64::from(record.hold), outputs: record.outputs }
        }
    }
}

#[test]
fn step_at() {
    let mut rng = Rng::new(8);
    let mut met = [0; 3];
    for case in 0..2 * CASES {
        let ports = cases::ports(&mut rng);
        let (plan, n) = (plan(&mut rng, ports), maybe_wild(&mut rng, ports));
        let records = (plan.len() / RECORD_SIZE) as u64;
        // Far places, some of which would lie in the plan if the place in bytes wrapped.
        let far = [records, records + 1, 8_192, u64::MAX, u64::MAX / 68 + 1, 1 << 62, 1 << 32, 1 << 16];
        let at = if rng.one_in(4) { rng.pick(&far) } else { rng.below(records as usize + 1) as u64 };
        let step = unsafe { sys::cv_step_at(n, plan.as_ptr(), plan.len(), at) };
        assert_eq!(step, raw(reference::step_at(n, &plan, at)), "case {case}: N = {n}, at {at}, {plan:?}");
        met[step.kind as usize] += 1;
    }
    assert!(met.iter().all(|&times| times >= CASES / 10), "kinds met: {met:?}");
}

/// A step of the crate in the reference's words.
fn step_of(step: chordvenus::Step) -> reference::Step {
    match step {
        chordvenus::Step::End => reference::Step::End,
        chordvenus::Step::Malformed(place) => reference::Step::Malformed(place),
        chordvenus::Step::Record(chordvenus::Record { hold, outputs }) => {
            reference::Step::Record(reference::Record { hold, outputs })
        }
    }
}

/// Both readers over the same plan, some steps past where they stop.
#[test]
fn reader() {
    let mut rng = Rng::new(9);
    let mut met = Met::default();
    let mut stuck = 0;
    for case in 0..CASES {
        let ports = cases::ports(&mut rng);
        let (plan, n) = (plan(&mut rng, ports), maybe_wild(&mut rng, ports));
        let (answer, mut reader) = Reader::open(n, &plan);
        let (opened, mut wanted) = reference::Reader::open(n, &plan);
        assert_eq!(answer, expected(opened), "case {case}: N = {n}, {} bytes", plan.len());
        met.note(answer);
        for step in 0..plan.len() / RECORD_SIZE + 3 {
            let given = step_of(reader.step());
            assert_eq!(given, wanted.step(), "case {case}: N = {n}, step {step}, {plan:?}");
            stuck += usize::from(matches!(given, reference::Step::Malformed(_)));
        }
    }
    met.are(&[0, 1, 9, 10]);
    assert!(stuck >= CASES / 4, "code 11 was given {stuck} times");
}

/// The iterator gives the reader's steps up to where it stops, and what stopped it once.
#[test]
fn plan_of_records() {
    let mut rng = Rng::new(16);
    for case in 0..CASES / 4 {
        let ports = cases::ports(&mut rng);
        let (plan, n) = (plan(&mut rng, ports), maybe_wild(&mut rng, ports));
        let (opened, mut reader) = reference::Reader::open(n, &plan);
        let Ok(mut records) = Plan::open(n, &plan) else {
            assert!(opened.is_err(), "case {case}");
            continue;
        };
        let stopped = loop {
            match reader.step() {
                reference::Step::Record(wanted) => {
                    let record = records.next().expect("one more").expect("well formed");
                    assert_eq!((record.hold, record.outputs), (wanted.hold, wanted.outputs), "case {case}");
                }
                stopped => break stopped,
            }
        };
        if let reference::Step::Malformed(place) = stopped {
            let refused = records.next().expect("the refusal").expect_err("not well formed");
            assert_eq!((refused.0.code, refused.0.place), (11, place), "case {case}");
        }
        assert_eq!((records.next(), records.next()), (None, None), "case {case} goes on");
    }
}

type Room = fn(usize, u64, u64) -> Outcome;
type ProvedRoom = fn(u64, u64) -> Answer;

fn compare_room(seed: u64, proved: ProvedRoom, room: Room, most_ports: usize, codes: &[usize]) {
    let edges = [0, 1, 2, 3, 63, 64, 65, 127, 128, 129, 255, 256, 1 << 32, u64::MAX];
    let lines = [0, 1, 2, 3, 1_023, 1_024, 1_025, 3_970, 16_130, 65_534, 65_535, 65_536, 1 << 32, u64::MAX];
    let mut met = Met::default();
    let mut compare = |n, longest| {
        let answer = proved(n, longest);
        assert_eq!(answer, expected(room(most_ports, n, longest)), "N = {n}, T = {longest}");
        met.note(answer);
    };
    for n in edges {
        for longest in lines {
            compare(n, longest);
        }
    }
    let mut rng = Rng::new(seed);
    for _ in 0..CASES {
        let n = if rng.one_in(8) { rng.draw() } else { rng.between(0, most_ports + 2) as u64 };
        let most = rng.pick(&[5, 1_100, 20_000, 66_000]);
        let longest = if rng.one_in(8) { rng.draw() } else { rng.between(0, most) as u64 };
        compare(n, longest);
    }
    met.are(codes);
}

#[test]
fn rooms() {
    use chordvenus as proved;
    for (most_ports, exact, doubled, quick) in [
        (
            MOST_PORTS,
            proved::exact_room as ProvedRoom,
            proved::doubled_room as ProvedRoom,
            proved::quick_room as ProvedRoom,
        ),
        (
            MOST_PORTS_SECOND,
            proved::second::exact_room,
            proved::second::doubled_room,
            proved::second::quick_room,
        ),
    ] {
        compare_room(30, exact, reference::exact_room, most_ports, &[0, 1, 3]);
        compare_room(31, doubled, reference::doubled_room, most_ports, &[0, 1, 3]);
        compare_room(32, quick, reference::quick_room, most_ports, &[0, 1, 3, 4]);
    }
}

/// With the room that is promised for a demand's T, or for a larger one, no planner wants more.
#[test]
fn rooms_suffice() {
    let calls: [(Proved, ProvedRoom, usize); 5] = [
        (chordvenus::exact, chordvenus::exact_room, MOST_LINE as usize),
        (chordvenus::doubled, chordvenus::doubled_room, MOST_LINE as usize),
        (chordvenus::doubled_every_rotation, chordvenus::doubled_room, MOST_LINE as usize),
        (chordvenus::grating_doubled, chordvenus::doubled_room, MOST_LINE as usize),
        (chordvenus::quick, chordvenus::quick_room, MOST_QUICK as usize),
    ];
    let mut rng = Rng::new(33);
    for case in 0..CASES / 4 {
        let n = cases::ports(&mut rng);
        let most = rng.pick(&[2, 5, 60, MOST_QUICK as usize]);
        let cells = cases::demand(&mut rng, n, most);
        let longest = slow::longest(&slow::rows(n, &cells));
        for (plan, room, limit) in calls {
            let more = (longest + rng.below(3) as u64).min(limit as u64);
            let room = room(n as u64, more).done().expect("N and T are in range").records as usize;
            let answer = plan(n as u64, &cells, &mut vec![0; room * RECORD_SIZE]);
            assert_eq!(answer.code, 0, "case {case}: N = {n}, T = {longest}, room {room}, {cells:?}");
        }
    }
}

#[test]
fn refusals_in_words() {
    let said = |code, place, side| {
        chordvenus::Refused(Answer { code, place, side, ..Answer::default() }).to_string()
    };
    assert_eq!(said(3, 5, 1), "refused, code 3: the line of input 5 sums over 65,535");
    assert_eq!(said(3, 63, 2), "refused, code 3: the line of output 63 sums over 65,535");
    assert_eq!(said(3, 0, 0), "refused, code 3: a line sums over 65,535");
    assert_eq!(
        said(5, 9, 0),
        "refused, code 5: the result takes 9 records, and the buffer has room for fewer"
    );
    assert_eq!(said(99, 7, 0), "refused, code 99: place 7");
}

#[test]
fn wishes() {
    let mut rng = Rng::new(10);
    let mut met = Met::default();
    for case in 0..CASES {
        let ports = cases::ports(&mut rng);
        let mut list = cases::wish_list(&mut rng, ports);
        if rng.one_in(2) {
            for _ in 0..rng.between(1, 3) {
                cases::spoil_list(&mut rng, ports, &mut list);
            }
        }
        if rng.one_in(12) {
            cases::tear(&mut rng, WISH_SIZE, &mut list);
        }
        let n = maybe_wild(&mut rng, ports);
        let len = if rng.one_in(12) { cases::wrong_size(&mut rng, ports) } else { ports * ports };
        let mut lent = Lent::new(&mut rng, len, |rng| rng.draw() as u32);
        let (mut wanted, before) = (lent.clone(), list.clone());
        let answer = chordvenus::wishes(n, &list, lent.middle());
        let said = format!("case {case}: N = {n}, {len} cells, {list:?}");
        assert_eq!(answer, expected(reference::wishes(n, &list, wanted.middle())), "{said}");
        assert!(lent == wanted, "other cells, {said}");
        assert!(list == before, "the list has changed, {said}");
        met.note(answer);
    }
    met.are(&[0, 1, 2, 6, 7, 8, 9, 11, 12]);
}

#[test]
fn wish() {
    let mut rng = Rng::new(11);
    let mut met = Met::default();
    for case in 0..10 * CASES {
        let bits = if case % 2 == 0 { cases::wish_bits(&mut rng) } else { cases::wild_bits(&mut rng) };
        let answer = chordvenus::wish(bits);
        assert_eq!(answer, expected(reference::wish(bits)), "{bits:08x}");
        met.note(answer);
    }
    met.are(&[0, 6, 7, 8]);
}

#[test]
#[ignore = "every one of the 2^32 patterns: a minute"]
fn wishes_of_every_pattern() {
    for bits in 0..=u32::MAX {
        let answer = chordvenus::wish(bits);
        let (code, total) = slow::wish(bits).map_or_else(|code| (code, 0), |slots| (0, slots));
        assert_eq!(answer, Answer { code, total, ..Answer::default() }, "{bits:08x}");
    }
}

#[test]
fn a_length_of_0_may_come_with_a_null_pointer() {
    use std::ptr::{null, null_mut};
    let mut plan = [7; RECORD_SIZE];
    let outputs = [chordvenus::IDLE; MOST_PORTS];
    let code = |code, place| Answer { code, place, ..Answer::default() };
    unsafe {
        assert_eq!(sys::cv_exact(0, null(), 0, null_mut(), 0), code(1, 0));
        assert_eq!(sys::cv_doubled(2, null(), 0, plan.as_mut_ptr(), 68), code(2, 4));
        assert_eq!(sys::cv_doubled_every_rotation(1, [5].as_ptr(), 1, plan.as_mut_ptr(), 68), code(5, 2));
        assert_eq!(sys::cv_quick(1, [1].as_ptr(), 1, null_mut(), 0), code(5, 1));
        assert_eq!(sys::cv_exact(1, [0].as_ptr(), 1, null_mut(), 0), code(0, 0));
        assert_eq!(sys::cv_grating_doubled(1, [5].as_ptr(), 1, null_mut(), 0), code(5, 1));
        assert_eq!(sys::cv_grating_report(1, null(), 0, null_mut(), 0), code(0, 0));
        assert_eq!(sys::cv_check(1, [1].as_ptr(), 1, null(), 0), code(13, 0));
        assert_eq!(sys::cv_length(1, null(), 0, 9), code(0, 0));
        assert_eq!(sys::cv_join(1, null(), 0, null_mut(), 0), code(0, 0));
        assert_eq!(sys::cv_open(1, null(), 0), code(0, 0));
        assert_eq!(sys::cv_step_at(1, null(), 0, 0), raw(reference::Step::End));
        assert_eq!(sys::cv_write(1, 1, outputs.as_ptr(), null_mut(), 0), code(5, 1));
        assert_eq!(sys::cv_wishes(1, null(), 0, null_mut(), 0), code(2, 1));
        let mut cell = 7;
        assert_eq!(sys::cv_wishes(1, null(), 0, &mut cell, 1), code(0, 0));
        assert_eq!(cell, 0);
    }
    assert_eq!(plan, [7; RECORD_SIZE]);
}
