//! Plan records: writing one, reading a plan, checking it against a demand, its length.

use crate::{demand, ports, Counts, Outcome, Refusal, IDLE, MOST_PORTS, MOST_RECORDS, RECORD_SIZE};

/// One setting of a plan and its hold.
#[derive(Clone, Copy, Debug, PartialEq, Eq)]
pub struct Record {
    pub hold: u16,
    pub outputs: [u8; MOST_PORTS],
}

/// What one step of reading gives.
#[derive(Clone, Copy, Debug, PartialEq, Eq)]
pub enum Step {
    Record(Record),
    End,
    /// Code 11, with the record's number.
    Malformed(u64),
}

/// Keeps a plan's bytes and the place reached; a refused reader is at its end.
pub struct Reader<'a> {
    n: usize,
    plan: &'a [u8],
    at: usize,
}

impl<'a> Reader<'a> {
    /// Opens a plan for N: codes 1, 9 and 10, and a reader whose every step is the end if refused.
    pub fn open(n: u64, plan: &'a [u8]) -> (Outcome, Reader<'a>) {
        let refused = Reader { n: 0, plan: &[], at: 0 };
        match opened(n, plan) {
            Err(refusal) => (Err(refusal), refused),
            Ok(n) => {
                let records = (plan.len() / RECORD_SIZE) as u64;
                (Ok(Counts { records, ..Counts::default() }), Reader { n, plan, at: 0 })
            }
        }
    }

    /// The next record, or the end, or code 11; the last two leave the reader where it is.
    pub fn step(&mut self) -> Step {
        let step = step_from(self.n, &self.plan[self.at * RECORD_SIZE..], self.at as u64);
        if let Step::Record(_) = step {
            self.at += 1;
        }
        step
    }
}

/// Opens a plan for N and answers its number of records.
#[inline(never)] // timed as a call of a library
pub fn open(n: u64, plan: &[u8]) -> Outcome {
    Reader::open(n, plan).0
}

/// The step at record `at` of a plan opened for N.
pub fn step_at(n: u64, plan: &[u8], at: u64) -> Step {
    match opened(n, plan) {
        Ok(n) if at < (plan.len() / RECORD_SIZE) as u64 => {
            step_from(n, &plan[at as usize * RECORD_SIZE..], at)
        }
        _ => Step::End,
    }
}

/// Writes one record at the start of a lent buffer.
pub fn write(hold: u16, n: u64, outputs: &[u8; MOST_PORTS], plan: &mut [u8]) -> Outcome {
    let n = ports(n)?;
    let Some(place) = plan.first_chunk_mut::<RECORD_SIZE>() else {
        return Err(Refusal::Room(1));
    };
    if hold == 0 || !is_setting(n, outputs) {
        return Err(Refusal::Malformed(0));
    }
    *place = bytes(hold, n, outputs);
    Ok(Counts { records: 1, total: u64::from(hold), ..Counts::default() })
}

/// The length of a plan: total hold, and d slots for each record that moves the mirrors, which are
/// the first and those whose outputs differ from the record before.
pub fn length(n: u64, plan: &[u8], d: u16) -> Outcome {
    let n = opened(n, plan)?;
    let (mut total, mut moves) = (0, 0);
    let mut before = None;
    let records = each_record(n, plan, |hold, outputs| {
        total += u64::from(hold);
        moves += u64::from(before != Some(outputs));
        before = Some(outputs);
    })?;
    Ok(Counts { records, total, length: total + u64::from(d) * moves, ..Counts::default() })
}

/// Checks a plan from anywhere against a demand.
pub fn check(n: u64, cells: &[u32], plan: &[u8]) -> Outcome {
    let (_, longest) = demand(n, cells)?;
    let n = opened(n, plan)?;
    // 8,192 records of 65,535 slots fit 32 bits.
    let mut granted = [0u32; MOST_PORTS * MOST_PORTS];
    let mut total = 0;
    let records = each_record(n, plan, |hold, outputs| {
        total += u64::from(hold);
        for (input, &output) in outputs[..n].iter().enumerate() {
            if output != IDLE {
                granted[input * n + usize::from(output)] += u32::from(hold);
            }
        }
    })?;
    match cells.iter().zip(&granted).position(|(asked, granted)| granted < asked) {
        Some(cell) => Err(Refusal::Uncovered(cell)),
        None => {
            let empty = cells.iter().zip(&granted).map(|(asked, granted)| u64::from(granted - asked)).sum();
            Ok(Counts { records, longest, total, length: 0, empty })
        }
    }
}

/// The 68 bytes of a well-formed record.
pub(crate) fn bytes(hold: u16, n: usize, outputs: &[u8; MOST_PORTS]) -> [u8; RECORD_SIZE] {
    let mut record = [0; RECORD_SIZE];
    record[..2].copy_from_slice(&hold.to_le_bytes());
    record[2] = n as u8;
    record[4..].copy_from_slice(outputs);
    record
}

/// Codes 1, 9 and 10, which open a plan.
pub(crate) fn opened(n: u64, plan: &[u8]) -> Result<usize, Refusal> {
    let n = ports(n)?;
    let records = plan.len() / RECORD_SIZE;
    if plan.len() % RECORD_SIZE != 0 {
        return Err(Refusal::Torn(records));
    }
    if records > MOST_RECORDS {
        return Err(Refusal::Records);
    }
    Ok(n)
}

/// What a reader at the record `number`, from which on `rest` is left, gives.
fn step_from(n: usize, rest: &[u8], number: u64) -> Step {
    match rest.first_chunk() {
        None => Step::End,
        Some(record) if well_formed(n, record) => {
            Step::Record(Record { hold: hold(record), outputs: *outputs(record) })
        }
        Some(_) => Step::Malformed(number),
    }
}

/// Hands out each record of an opened plan and counts them; code 11 at the first that is not well formed.
pub(crate) fn each_record<'a>(
    n: usize,
    plan: &'a [u8],
    mut take: impl FnMut(u16, &'a [u8; MOST_PORTS]),
) -> Result<u64, Refusal> {
    for (k, record) in plan.chunks_exact(RECORD_SIZE).enumerate() {
        let record = record.first_chunk().expect("a chunk is a whole record");
        if !well_formed(n, record) {
            return Err(Refusal::Malformed(k));
        }
        take(hold(record), outputs(record));
    }
    Ok((plan.len() / RECORD_SIZE) as u64)
}

fn hold(record: &[u8; RECORD_SIZE]) -> u16 {
    u16::from_le_bytes([record[0], record[1]])
}

fn outputs(record: &[u8; RECORD_SIZE]) -> &[u8; MOST_PORTS] {
    record.last_chunk().expect("a record ends with its outputs")
}

fn well_formed(n: usize, record: &[u8; RECORD_SIZE]) -> bool {
    hold(record) >= 1 && usize::from(record[2]) == n && record[3] == 0 && is_setting(n, outputs(record))
}

/// The outputs of a well-formed record (§5.2): up to N below N or idle and no port twice, then idle.
fn is_setting(n: usize, outputs: &[u8; MOST_PORTS]) -> bool {
    let (first, later) = outputs.split_at(n);
    let end = n as u8;
    let inside = first.iter().fold(true, |inside, &output| inside & ((output < end) | (output == IDLE)));
    inside && all_apart(first) && later.iter().fold(true, |idle, &output| idle & (output == IDLE))
}

/// Whether no port is among these outputs twice: as many bits are set as there are outputs. An idle input sets the last bit, as port 63
/// does; so where some are idle that bit is left out, and the port is counted by itself.
fn all_apart(outputs: &[u8]) -> bool {
    let count = |of: fn(u8) -> bool| outputs.iter().fold(0u8, |count, &output| count + u8::from(of(output)));
    let seen = outputs.iter().fold(0u64, |seen, &output| seen | 1 << (output % 64));
    if seen == u64::MAX >> (MOST_PORTS - outputs.len()) {
        return true;
    }
    let last_once = outputs.len() < MOST_PORTS || count(|output| output == 63) <= 1;
    last_once && (seen % (1 << 63)).count_ones() == u32::from(count(|output| output < 63))
}
