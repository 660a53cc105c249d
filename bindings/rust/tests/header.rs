//! The crate and the C header say the same: every number that the header names, and the room of arrays.

use std::collections::BTreeMap;

use chordvenus::{self as cv, stack, sys, About, Code, Entry};

/// The header's numbers by name: its macros and its enumerators.
fn in_header() -> BTreeMap<String, u64> {
    let text = include_str!("../../../include/chordvenus.h");
    let mut numbers = BTreeMap::new();
    for line in text.lines().map(str::trim) {
        if let Some(rest) = line.strip_prefix("#define ") {
            if let [name, number] = rest.split_whitespace().collect::<Vec<_>>()[..] {
                if let Ok(number) = number.parse() {
                    numbers.insert(name.to_string(), number);
                }
            }
        }
        let listed = line.strip_prefix("enum {").unwrap_or(line);
        for part in listed.split(',') {
            if let Some((name, number)) = part.split_once(" = ") {
                let digits: String = number.chars().take_while(char::is_ascii_digit).collect();
                if name.trim().starts_with("CV") && !digits.is_empty() {
                    numbers.insert(name.trim().to_string(), digits.parse().expect("digits"));
                }
            }
        }
    }
    numbers
}

/// Of `CV_NAME` for each name.
fn named(prefix: &str, numbers: &[(&str, u64)]) -> Vec<(String, u64)> {
    numbers.iter().map(|&(name, number)| (format!("{prefix}_{name}"), number)).collect()
}

fn codes() -> Vec<(String, u64)> {
    let shout = |code: &Code| {
        let name = format!("{code:?}");
        let words = name.chars().enumerate().fold(String::new(), |said, (k, letter)| {
            said + if k > 0 && letter.is_uppercase() { "_" } else { "" } + &letter.to_uppercase().to_string()
        });
        (format!("CV_{words}"), *code as u64)
    };
    Code::ALL.iter().map(shout).collect()
}

fn in_crate() -> BTreeMap<String, u64> {
    let limits = named(
        "CV",
        &[
            ("VERSION", sys::VERSION),
            ("MOST_PORTS", cv::MOST_PORTS as u64),
            ("RECORD_SIZE", cv::RECORD_SIZE as u64),
            ("WISH_SIZE", cv::WISH_SIZE as u64),
            ("TASK_SIZE", cv::TASK_SIZE as u64),
            ("ENTRY_SIZE", cv::ENTRY_SIZE as u64),
            ("BAD_HOLD", u64::from(Entry::BAD_HOLD)),
            ("BAD_PORTS", u64::from(Entry::BAD_PORTS)),
            ("BAD_SPARE", u64::from(Entry::BAD_SPARE)),
            ("BAD_OUTPUT", u64::from(Entry::BAD_OUTPUT)),
            ("OUTPUT_TWICE", u64::from(Entry::OUTPUT_TWICE)),
            ("PAST_PORTS", u64::from(Entry::PAST_PORTS)),
            ("TORN_TAIL", u64::from(Entry::TORN_TAIL)),
            ("IDLE", u64::from(cv::IDLE)),
            ("MOST_LINE", cv::MOST_LINE),
            ("MOST_QUICK", cv::MOST_QUICK),
            ("MOST_RECORDS", cv::MOST_RECORDS as u64),
            ("NO_SIDE", 0),
            ("INPUT", 1),
            ("OUTPUT", 2),
            ("STEP_RECORD", 0),
            ("STEP_END", 1),
            ("STEP_MALFORMED", 2),
            ("TONIGHT", About::Tonight as u64),
            ("STANDBY", About::Standby as u64),
            ("PLAN", About::Plan as u64),
            ("DEMAND", About::Demand as u64),
            ("WISHED", About::Wished as u64),
            ("SUM", About::Sum as u64),
        ],
    );
    let second = named(
        "CV2",
        &[
            ("MOST_PORTS", cv::second::MOST_PORTS as u64),
            ("RECORD_SIZE", cv::second::RECORD_SIZE as u64),
            ("MOST_RECORDS", cv::second::MOST_RECORDS as u64),
        ],
    );
    let bytes = |&(name, bytes): &(&'static str, usize)| (name, bytes as u64);
    let stacks: Vec<_> = stack::ALL.iter().map(bytes).collect();
    limits
        .into_iter()
        .chain(second)
        .chain(codes())
        .chain(named("CV_STACK", &stacks))
        .map(second_edition)
        .collect()
}

/// `stack::SECOND_EXACT_ROOM` is the header's `CV2_STACK_EXACT_ROOM`.
fn second_edition((name, number): (String, u64)) -> (String, u64) {
    (name.replace("CV_STACK_SECOND_", "CV2_STACK_"), number)
}

#[test]
fn numbers() {
    assert_eq!(in_header(), in_crate());
}

#[test]
fn room_of_arrays() {
    for n in 1..=cv::MOST_PORTS {
        let room = |answer: cv::Answer| answer.done().expect("in range").records as usize * cv::RECORD_SIZE;
        assert_eq!(cv::exact_bytes(n), room(cv::exact_room(n as u64, cv::MOST_LINE)));
        assert_eq!(cv::doubled_bytes(n), room(cv::doubled_room(n as u64, cv::MOST_LINE)));
    }
    for longest in 0..=cv::MOST_QUICK {
        let records = cv::quick_room(1, longest).done().expect("in range").records;
        assert_eq!(cv::quick_bytes(longest as usize), records as usize * cv::RECORD_SIZE);
    }
}

#[test]
fn room_of_arrays_in_the_second_edition() {
    use cv::second::{self, MOST_PORTS, RECORD_SIZE};
    let room = |answer: cv::Answer| answer.done().expect("in range").records as usize * RECORD_SIZE;
    for n in 1..=MOST_PORTS {
        assert_eq!(second::exact_bytes(n), room(second::exact_room(n as u64, cv::MOST_LINE)));
        assert_eq!(second::doubled_bytes(n), room(second::doubled_room(n as u64, cv::MOST_LINE)));
    }
    for longest in 0..=cv::MOST_QUICK {
        assert_eq!(second::quick_bytes(longest as usize), room(second::quick_room(1, longest)));
    }
}

#[test]
fn calls_that_make_their_memory_refuse_as_the_others_do() {
    let refused =
        |made: Result<cv::owned::Planned, cv::Refused>| made.map_err(|refused| refused.0).unwrap_err();
    for (n, cells) in [
        (0, vec![]),
        (65, vec![0; 65 * 65]),
        (2, vec![0; 3]),
        (2, vec![65_535, 1, 0, 0]),
        (u64::MAX, vec![1]),
    ] {
        assert_eq!(refused(cv::owned::exact(n, &cells)), cv::exact(n, &cells, &mut []));
        assert_eq!(refused(cv::owned::doubled(n, &cells)), cv::doubled(n, &cells, &mut []));
        assert_eq!(refused(cv::owned::quick(n, &cells)), cv::quick(n, &cells, &mut []));
        assert_eq!(refused(cv::owned::grating_doubled(n, &cells)), cv::grating_doubled(n, &cells, &mut []));
        assert_eq!(refused(cv::owned::grating_quiet(n, &cells, 0)), cv::grating_quiet(n, &cells, 0, &mut []));
    }
    assert_eq!(refused(cv::owned::grating_quiet(2, &[1, 0, 0, 0], 0)).code(), Code::Limit);
    assert_eq!(refused(cv::owned::quick(2, &[1_025, 0, 0, 0])).code(), Code::Longest);
    assert_eq!(refused(cv::owned::join(2, &[0; 67])).code(), Code::Torn);
    assert_eq!(cv::owned::exact(2, &[0; 4]).expect("nothing is asked").bytes, []);
}

#[test]
fn what_is_left_of_a_plan() {
    let plan = cv::owned::quick(3, &[2, 0, 1, 0, 2, 0, 1, 0, 2]).expect("in range");
    let mut records = cv::Plan::open(3, &plan.bytes).expect("it was just made");
    let whole = plan.answer.records as usize;
    assert_eq!(records.size_hint(), (1, Some(whole)));
    assert_eq!(records.clone().count(), whole);
    assert!(records.next().is_some());
    assert_eq!(records.size_hint(), (1, Some(whole - 1)));
    assert!(records.by_ref().last().is_some());
    assert_eq!((records.size_hint(), records.next()), ((0, Some(0)), None));

    let mut damaged = plan.bytes;
    damaged[cv::RECORD_SIZE + 3] = 1;
    let read: Vec<_> = cv::Plan::open(3, &damaged).expect("whole records").collect();
    assert_eq!(read.len(), 2);
    assert_eq!(read[1].map_err(|refused| (refused.code(), refused.place())), Err((Code::Malformed, 1)));
}
