//! Plans of either edition in the plainest words: what the fast calls of the first edition say of 64 outputs is said here of any width,
//! and a plan is moved from one edition to another.

use crate::{wish, Counts, Numbers, IDLE, MOST_LINE, WISH_SIZE};

/// What is the same for all records of an edition, and how many there may be.
#[derive(Clone, Copy, Debug, PartialEq, Eq)]
pub struct Edition {
    pub width: usize,
    pub byte: u8,
    pub ports: usize,
    pub records: usize,
}

pub const FIRST: Edition = Edition { width: 64, byte: 0, ports: 64, records: 8_192 };
pub const SECOND: Edition = Edition { width: 128, byte: 2, ports: 128, records: 32_768 };
/// What can be moved to the first edition: records of the second within the limits of the first.
pub const MOVABLE: Edition = Edition { ports: 64, records: 8_192, ..SECOND };

/// A hold, and the output of each input.
pub type Record = (u16, Vec<u8>);

/// A step's kind on paper, its place, and its record's hold and outputs.
pub type Step = (u64, u64, u64, Vec<u8>);

fn refused(code: u64, place: usize) -> Numbers {
    Numbers { code, place: place as u64, ..Numbers::default() }
}

fn done(counts: Counts) -> Numbers {
    Numbers { counts, ..Numbers::default() }
}

impl Edition {
    /// Bytes of a record.
    pub fn size(self) -> usize {
        self.width + 4
    }

    fn ports(self, n: u64) -> Result<usize, Numbers> {
        match usize::try_from(n) {
            Ok(n) if (1..=self.ports).contains(&n) => Ok(n),
            _ => Err(refused(1, 0)),
        }
    }

    fn square(self, n: u64, cells: usize) -> Result<usize, Numbers> {
        let n = self.ports(n)?;
        if cells == n * n {
            Ok(n)
        } else {
            Err(refused(2, n * n))
        }
    }

    /// Codes 1, 9 and 10: N and the number of records.
    fn opened(self, n: u64, plan: &[u8]) -> Result<(usize, usize), Numbers> {
        let n = self.ports(n)?;
        let records = plan.len() / self.size();
        if plan.len() % self.size() != 0 {
            return Err(refused(9, records));
        }
        if records > self.records {
            return Err(refused(10, self.records));
        }
        Ok((n, records))
    }

    fn fine(self, n: usize, hold: u16, outputs: &[u8]) -> bool {
        let (first, later) = outputs.split_at(n);
        let twice = |k: usize| first[k] != IDLE && first[..k].contains(&first[k]);
        hold > 0
            && first.iter().all(|&output| output == IDLE || usize::from(output) < n)
            && !(0..n).any(twice)
            && later.iter().all(|&output| output == IDLE)
    }

    /// The record in these bytes, if it is well formed for N.
    fn record(self, n: usize, bytes: &[u8]) -> Option<Record> {
        let hold = u16::from_le_bytes([bytes[0], bytes[1]]);
        let fine = usize::from(bytes[2]) == n && bytes[3] == self.byte && self.fine(n, hold, &bytes[4..]);
        fine.then(|| (hold, bytes[4..].to_vec()))
    }

    fn bytes(self, n: usize, (hold, outputs): &Record) -> Vec<u8> {
        [&hold.to_le_bytes()[..], &[n as u8, self.byte], outputs].concat()
    }

    /// N and the plan's records, or codes 1, 9, 10 and 11.
    pub fn read(self, n: u64, plan: &[u8]) -> Result<(usize, Vec<Record>), Numbers> {
        let (n, _) = self.opened(n, plan)?;
        let judged = plan.chunks_exact(self.size()).enumerate();
        let records =
            judged.map(|(k, bytes)| self.record(n, bytes).ok_or(refused(11, k))).collect::<Result<_, _>>()?;
        Ok((n, records))
    }

    /// Records laid at the start of a buffer, or code 5.
    fn lay(self, n: usize, records: &[Record], buffer: &mut [u8]) -> Numbers {
        if buffer.len() / self.size() < records.len() {
            return refused(5, records.len());
        }
        for (record, place) in records.iter().zip(buffer.chunks_exact_mut(self.size())) {
            place.copy_from_slice(&self.bytes(n, record));
        }
        done(Counts { records: records.len() as u64, total: total(records), ..Counts::default() })
    }

    pub fn wishes(self, n: u64, list: &[u8], cells: &mut [u32]) -> Numbers {
        let n = match self.square(n, cells.len()) {
            Ok(n) => n,
            Err(numbers) => return numbers,
        };
        if list.len() % WISH_SIZE != 0 {
            return refused(9, list.len() / WISH_SIZE);
        }
        let mut asked = vec![None; n * n];
        for (k, record) in list.chunks_exact(WISH_SIZE).enumerate() {
            let (input, output) = (usize::from(record[0]), usize::from(record[1]));
            if input >= n || output >= n || record[2] != 0 || record[3] != 0 {
                return refused(11, k);
            }
            if asked[input * n + output].is_some() {
                return refused(12, k);
            }
            match wish(u32::from_le_bytes([record[4], record[5], record[6], record[7]])) {
                Ok(counts) => asked[input * n + output] = Some(counts.total as u32),
                Err(refusal) => return refused(Numbers::from(Err(refusal)).code, k),
            }
        }
        for (cell, slots) in cells.iter_mut().zip(asked) {
            *cell = slots.unwrap_or(0);
        }
        done(Counts { records: (list.len() / WISH_SIZE) as u64, ..Counts::default() })
    }

    pub fn check(self, n: u64, cells: &[u32], plan: &[u8]) -> Numbers {
        self.checked(n, cells, plan).unwrap_or_else(|numbers| numbers)
    }

    fn checked(self, n: u64, cells: &[u32], plan: &[u8]) -> Result<Numbers, Numbers> {
        let n = self.square(n, cells.len())?;
        let slots = |line: usize| -> u64 {
            let cell = |k: usize| if line < n { line * n + k } else { k * n + line - n };
            (0..n).map(|k| u64::from(cells[cell(k)])).sum()
        };
        if let Some(line) = (0..2 * n).find(|&line| slots(line) > MOST_LINE) {
            let side = if line < n { 1 } else { 2 };
            return Err(Numbers { side, ..refused(3, line % n) });
        }
        let (_, records) = self.read(n as u64, plan)?;
        let mut granted = vec![0u64; n * n];
        for (hold, outputs) in &records {
            for (input, &output) in outputs[..n].iter().enumerate().filter(|(_, &output)| output != IDLE) {
                granted[input * n + usize::from(output)] += u64::from(*hold);
            }
        }
        let pairs = || cells.iter().map(|&asked| u64::from(asked)).zip(granted.iter().copied());
        if let Some(cell) = pairs().position(|(asked, granted)| granted < asked) {
            return Err(refused(13, cell));
        }
        let longest = (0..2 * n).map(slots).max().unwrap_or(0);
        let empty = pairs().map(|(asked, granted)| granted - asked).sum();
        Ok(done(Counts { records: records.len() as u64, longest, total: total(&records), length: 0, empty }))
    }

    pub fn length(self, n: u64, plan: &[u8], d: u16) -> Numbers {
        match self.read(n, plan) {
            Err(numbers) => numbers,
            Ok((_, records)) => {
                let moves = |k: &usize| *k == 0 || records[*k].1 != records[k - 1].1;
                let moved = (0..records.len()).filter(moves).count() as u64;
                let total = total(&records);
                done(Counts {
                    records: records.len() as u64,
                    total,
                    length: total + u64::from(d) * moved,
                    ..Counts::default()
                })
            }
        }
    }

    pub fn join(self, n: u64, plan: &[u8], joined: &mut [u8]) -> Numbers {
        let (n, records) = match self.read(n, plan) {
            Ok(read) => read,
            Err(numbers) => return numbers,
        };
        let mut sums: Vec<(u64, Vec<u8>)> = Vec::new();
        for (hold, outputs) in records {
            match sums.iter_mut().find(|(_, met)| *met == outputs) {
                Some((sum, _)) => *sum += u64::from(hold),
                None => sums.push((u64::from(hold), outputs)),
            }
        }
        let mut cut = Vec::new();
        for (mut sum, outputs) in sums {
            while sum > 0 {
                let hold = sum.min(MOST_LINE);
                cut.push((hold as u16, outputs.clone()));
                sum -= hold;
            }
        }
        self.lay(n, &cut, joined)
    }

    pub fn write(self, hold: u16, n: u64, outputs: &[u8], plan: &mut [u8]) -> Numbers {
        match self.ports(n) {
            Err(numbers) => numbers,
            Ok(_) if plan.len() < self.size() => refused(5, 1),
            Ok(n) if !self.fine(n, hold, outputs) => refused(11, 0),
            Ok(n) => self.lay(n, &[(hold, outputs.to_vec())], plan),
        }
    }

    pub fn open(self, n: u64, plan: &[u8]) -> Numbers {
        match self.opened(n, plan) {
            Ok((_, records)) => done(Counts { records: records as u64, ..Counts::default() }),
            Err(numbers) => numbers,
        }
    }

    pub fn step_at(self, n: u64, plan: &[u8], at: u64) -> Step {
        let idle = vec![IDLE; self.width];
        match self.opened(n, plan) {
            Ok((n, records)) if at < records as u64 => {
                match self.record(n, &plan[at as usize * self.size()..][..self.size()]) {
                    Some((hold, outputs)) => (0, 0, u64::from(hold), outputs),
                    None => (2, at, 0, idle),
                }
            }
            _ => (1, 0, 0, idle),
        }
    }

    /// A plan of this edition as one of another.
    pub fn move_to(self, other: Edition, n: u64, plan: &[u8], moved: &mut [u8]) -> Numbers {
        match self.read(n, plan) {
            Err(numbers) => numbers,
            Ok((n, records)) => {
                let widened = |(hold, mut outputs): Record| {
                    outputs.resize(other.width, IDLE);
                    (hold, outputs)
                };
                let records: Vec<Record> = records.into_iter().map(widened).collect();
                other.lay(n, &records, moved)
            }
        }
    }
}

fn total(records: &[Record]) -> u64 {
    records.iter().map(|(hold, _)| u64::from(*hold)).sum()
}
