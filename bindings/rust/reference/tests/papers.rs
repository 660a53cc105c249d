//! The specification's own figures: the small plans P1 to P12 (§15), the bit table (§4.4), the edges.

use reference::*;

/// A record written as hold:outputs, a dash for idle.
fn record(text: &str) -> Record {
    let (hold, listed) = text.split_once(':').expect("hold:outputs");
    let mut outputs = [IDLE; MOST_PORTS];
    for (input, output) in listed.split_whitespace().enumerate() {
        outputs[input] = output.parse().unwrap_or(IDLE);
    }
    Record { hold: hold.trim().parse().expect("a hold"), outputs }
}

fn records(text: &str) -> Vec<Record> {
    text.split(';').filter(|part| !part.trim().is_empty()).map(record).collect()
}

fn read(n: u64, plan: &[u8]) -> Vec<Record> {
    let (_, mut reader) = Reader::open(n, plan);
    let mut all = Vec::new();
    while let Step::Record(record) = reader.step() {
        all.push(record);
    }
    all
}

type Planner = fn(u64, &[u32], &mut [u8]) -> Outcome;

const DIAGONAL: [u32; 16] = [5, 0, 0, 0, 0, 5, 0, 0, 0, 0, 5, 0, 0, 0, 0, 5];

#[test]
fn small_plans() {
    let every = doubled_every_rotation;
    let table: [(&str, &[u32], Planner, &str); 13] = [
        ("P1", &[2, 1, 1, 2], exact, "2:0 1; 1:1 0"),
        ("P2", &[2, 1, 1, 2], doubled, "2:0 1; 1:1 0"),
        ("P2 by the old rule", &[2, 1, 1, 2], every, "2:0 1; 1:0 1; 1:1 0"),
        ("P3", &[2, 1, 1, 2], quick, "1:0 1; 1:1 0; 1:0 1"),
        ("P4", &[3, 0, 1, 0], exact, "3:0 1; 1:1 0"),
        ("P5", &[3, 0, 1, 0], quick, "1:0 -; 1:- 0; 1:0 -; 1:0 -"),
        ("P6", &[1, 0, 1, 0, 1, 1, 1, 1, 0], exact, "1:0 2 1; 1:2 1 0"),
        ("P7", &[1, 0, 1, 0, 1, 1, 1, 1, 0], quick, "1:0 1 -; 1:- 2 0; 1:2 - 1"),
        ("P8", &[5], doubled, "5:0"),
        ("P8 by the old rule", &[5], every, "5:0; 4:0"),
        ("P9", &DIAGONAL, doubled, "4:0 1 2 3; 1:0 1 2 3"),
        ("P9 by the old rule", &DIAGONAL, every, "4:0 1 2 3; 1:0 1 2 3; 1:1 2 3 0; 1:2 3 0 1; 1:3 0 1 2"),
        ("P10", &[0], exact, ""),
    ];
    for (name, cells, planner, text) in table {
        let n = cells.len().isqrt() as u64;
        let plan = records(text);
        let mut lent = vec![7; (plan.len() + 1) * RECORD_SIZE];
        let counts = planner(n, cells, &mut lent).expect(name);
        let (written, rest) = lent.split_at(plan.len() * RECORD_SIZE);
        assert_eq!(read(n, written), plan, "{name}");
        assert!(rest.iter().all(|&byte| byte == 7), "{name} wrote past its plan");
        assert_eq!(counts.records, plan.len() as u64, "{name}");
        assert_eq!(counts.total, plan.iter().map(|record| u64::from(record.hold)).sum::<u64>(), "{name}");
        assert_eq!(counts.longest, slow::longest(&slow::rows(n as usize, cells)), "{name}");
        assert_eq!(check(n, cells, written), Ok(counts), "{name}");
    }
}

#[test]
fn first_bytes_of_p1() {
    let mut lent = [0; 2 * RECORD_SIZE];
    exact(2, &[2, 1, 1, 2], &mut lent).unwrap();
    assert_eq!(lent[..6], [2, 0, 2, 0, 0, 1]);
    assert!(lent[6..RECORD_SIZE].iter().all(|&byte| byte == IDLE));
}

#[test]
fn bit_table() {
    let slots = |bits| wish(bits).map(|counts| counts.total);
    let table = [
        (0x0000_0000, Ok(0)),
        (0x8000_0000, Ok(0)),
        (0x0000_0001, Ok(2)),
        (0x3f80_0000, Ok(2)),
        (0x3fc0_0000, Ok(2)),
        (0x477f_ff00, Ok(65_535)), // P11
        (0x477f_ff01, Err(Refusal::AboveMost(0))),
        (0x8000_0001, Err(Refusal::BelowZero(0))),
        (0x7fc0_0000, Err(Refusal::NotFinite(0))), // P12
        (0x7f80_0000, Err(Refusal::NotFinite(0))),
        (0xff80_0000, Err(Refusal::NotFinite(0))),
    ];
    for (bits, answer) in table {
        assert_eq!(slots(bits), answer, "{bits:08x}");
    }
}

#[test]
fn unit_of_the_doubled_plan() {
    let plan_of = |planner: Planner, longest: u32| {
        let mut cells = [0; 16];
        cells[0] = longest;
        let mut lent = [0; 8 * RECORD_SIZE];
        let counts = planner(4, &cells, &mut lent).unwrap();
        read(4, &lent[..counts.records as usize * RECORD_SIZE])
    };
    // For N = 4: u is 1 at T = 4, where there is no rotation, and 2 at T = 5.
    assert_eq!(plan_of(doubled, 4), records("4:0 1 2 3"));
    assert_eq!(plan_of(doubled, 5), records("4:0 1 2 3; 1:0 1 2 3"));
    let every = doubled_every_rotation;
    assert_eq!(plan_of(every, 4), records("4:0 1 2 3"));
    assert_eq!(plan_of(every, 5), records("4:0 1 2 3; 1:0 1 2 3; 1:1 2 3 0; 1:2 3 0 1; 1:3 0 1 2"));
}

#[test]
fn longest_line() {
    let mut lent = [0; 8 * RECORD_SIZE];
    let line = |cells: &[u32], lent: &mut [u8]| exact(2, cells, lent);
    assert_eq!(line(&[65_535, 0, 0, 0], &mut lent).unwrap().longest, 65_535);
    assert_eq!(line(&[65_535, 1, 0, 0], &mut lent), Err(Refusal::Line(Side::Input(0))));
    assert_eq!(line(&[65_535, 0, 1, 0], &mut lent), Err(Refusal::Line(Side::Output(0))));
    assert_eq!(line(&[0, 65_535, 1, 65_535], &mut lent), Err(Refusal::Line(Side::Input(1))));
    assert_eq!(line(&[u32::MAX, u32::MAX, 0, 0], &mut lent), Err(Refusal::Line(Side::Input(0))));
    assert_eq!(quick(1, &[1_024], &mut [0; 1_024 * RECORD_SIZE]).unwrap().records, 1_024);
    assert_eq!(quick(1, &[1_025], &mut []), Err(Refusal::Longest));
}

#[test]
fn most_records() {
    let one = {
        let mut one = [0; RECORD_SIZE];
        write(65_535, 64, &[IDLE; MOST_PORTS], &mut one).unwrap();
        one
    };
    let plan = one.repeat(8_193);
    let counts = length(64, &plan[..8_192 * RECORD_SIZE], 65_535).unwrap();
    assert_eq!((counts.records, counts.total, counts.length), (8_192, 536_862_720, 536_928_255));
    assert_eq!(length(64, &plan, 0), Err(Refusal::Records));
    assert_eq!(length(64, &plan[1..], 0), Err(Refusal::Torn(8_192)));
    assert_eq!(open(64, &[&plan[..], &[0]].concat()), Err(Refusal::Torn(8_193)));
}

#[test]
fn easy_wrong_turns() {
    // Two idle inputs are not one output used twice.
    let mut outputs = [IDLE; MOST_PORTS];
    let mut lent = [9; RECORD_SIZE];
    assert_eq!(write(1, 3, &outputs, &mut lent).unwrap().records, 1);
    outputs[0] = 2;
    outputs[2] = 2;
    let before = lent;
    assert_eq!(write(1, 3, &outputs, &mut lent), Err(Refusal::Malformed(0)));
    // No room is found before anything is written.
    assert_eq!(exact(2, &[2, 1, 1, 2], &mut lent), Err(Refusal::Room(2)));
    assert_eq!(lent, before);
}
