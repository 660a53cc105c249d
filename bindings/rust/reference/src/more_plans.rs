//! The doubled plan and the quick cover.

use crate::exact::{peel, Writer};
use crate::label::Label;
use crate::{
    demand_of, Outcome, Refusal, BYTE, BYTE_SECOND, IDLE, MOST_PORTS, MOST_PORTS_SECOND, MOST_QUICK,
};

/// The doubled plan, at most 2N records and a total of at most 2T - 1: each rotation is held for the
/// largest remainder among its pairs.
pub fn doubled(n: u64, cells: &[u32], plan: &mut [u8]) -> Outcome {
    doubled_by::<u64, MOST_PORTS>(BYTE, n, cells, plan, largest_remainders)
}

/// The same by the old rule: every rotation is held for u - 1.
pub fn doubled_every_rotation(n: u64, cells: &[u32], plan: &mut [u8]) -> Outcome {
    doubled_by::<u64, MOST_PORTS>(BYTE, n, cells, plan, all_alike)
}

/// Both in the second edition.
pub fn doubled_second(n: u64, cells: &[u32], plan: &mut [u8]) -> Outcome {
    doubled_by::<u128, MOST_PORTS_SECOND>(BYTE_SECOND, n, cells, plan, largest_remainders)
}

pub fn doubled_every_rotation_second(n: u64, cells: &[u32], plan: &mut [u8]) -> Outcome {
    doubled_by::<u128, MOST_PORTS_SECOND>(BYTE_SECOND, n, cells, plan, all_alike)
}

/// The rotations' holds, from N, the cells and u.
type Holds<const W: usize> = fn(usize, &[u32], u32) -> [u16; W];

fn doubled_by<L: Label, const W: usize>(
    byte: u8,
    n: u64,
    cells: &[u32],
    plan: &mut [u8],
    holds: Holds<W>,
) -> Outcome {
    let (n, longest) = demand_of::<W>(n, cells)?;
    let mut written = Writer::new(byte);
    if longest > 0 {
        let unit = (longest as u32).div_ceil(n as u32);
        let quotients: Vec<u32> = cells.iter().map(|cell| cell / unit).collect();
        peel::<L, W>(n, &quotients, unit, &mut written);
        rotations(n, &holds(n, cells, unit), &mut written);
    }
    written.lend(cells, longest, plan)
}

fn all_alike<const W: usize>(_: usize, _: &[u32], unit: u32) -> [u16; W] {
    [(unit - 1) as u16; W]
}

/// For each rotation the largest remainder among its pairs.
fn largest_remainders<const W: usize>(n: usize, cells: &[u32], unit: u32) -> [u16; W] {
    let mut largest = [0; W];
    for (input, row) in cells.chunks_exact(n).enumerate() {
        // Rotation 0 joins this input to the output of its own number, the next to the next, around.
        let (last, first) = row.split_at(input);
        for (hold, cell) in largest.iter_mut().zip(first.iter().chain(last)) {
            *hold = (*hold).max((cell % unit) as u16);
        }
    }
    largest
}

/// N settings that together join every pair once, input i to output (i + k) mod N, each left out
/// where its hold is 0.
fn rotations<const W: usize>(n: usize, holds: &[u16; W], written: &mut Writer<W>) {
    for (k, &hold) in holds[..n].iter().enumerate().filter(|(_, &hold)| hold > 0) {
        let mut outputs = [IDLE; W];
        for (input, output) in outputs[..n].iter_mut().enumerate() {
            *output = ((input + k) % n) as u8;
        }
        written.push(hold, n, &outputs);
    }
}

/// The quick cover: one record of hold 1 for each slot, T to 2T - 1 of them.
pub fn quick(n: u64, cells: &[u32], plan: &mut [u8]) -> Outcome {
    quick_of::<u64, MOST_PORTS>(BYTE, n, cells, plan)
}

/// The same in the second edition.
pub fn quick_second(n: u64, cells: &[u32], plan: &mut [u8]) -> Outcome {
    quick_of::<u128, MOST_PORTS_SECOND>(BYTE_SECOND, n, cells, plan)
}

fn quick_of<L: Label, const W: usize>(byte: u8, n: u64, cells: &[u32], plan: &mut [u8]) -> Outcome {
    let (n, longest) = demand_of::<W>(n, cells)?;
    if longest > MOST_QUICK {
        return Err(Refusal::Longest);
    }
    let mut written = Writer::new(byte);
    let mut cover = Cover::<L, W>::new(n, cells);
    for slot in 0.. {
        if cover.asking == L::NONE {
            break;
        }
        written.push(1, n, &cover.setting(slot % n));
    }
    written.lend(cells, longest, plan)
}

/// What the quick cover has left to serve.
struct Cover<L, const W: usize> {
    n: usize,
    left: [[u16; W]; W],
    /// For each input, the outputs with slots left for that pair.
    rows: [L; W],
    /// The inputs with slots left.
    asking: L,
}

impl<L: Label, const W: usize> Cover<L, W> {
    /// T is at most 1,024, so that a cell fits 16 bits.
    fn new(n: usize, cells: &[u32]) -> Cover<L, W> {
        let mut cover = Cover { n, left: [[0; W]; W], rows: [L::NONE; W], asking: L::NONE };
        for (input, row) in cells.chunks_exact(n).enumerate() {
            for (output, &cell) in row.iter().enumerate() {
                cover.left[input][output] = cell as u16;
                cover.rows[input] |= L::from(cell != 0) << output;
            }
            cover.asking |= L::from(cover.rows[input] != L::NONE) << input;
        }
        cover
    }

    /// One slot's setting, taken off what is left: the inputs with slots left from `start` on, then
    /// those before it, each take the lowest free output with slots left.
    fn setting(&mut self, start: usize) -> [u8; W] {
        let mut outputs = [IDLE; W];
        let mut free = L::ALL >> (W - self.n);
        let from_start = self.asking & L::ALL << start;
        for mut turn in [from_start, self.asking ^ from_start] {
            while turn != L::NONE {
                let input = turn.lowest();
                turn = turn.without_lowest();
                let open = self.rows[input] & free;
                if open != L::NONE {
                    let output = open.lowest();
                    outputs[input] = output as u8;
                    free ^= L::bit(output);
                    self.serve(input, output);
                }
            }
        }
        outputs
    }

    fn serve(&mut self, input: usize, output: usize) {
        self.left[input][output] -= 1;
        self.rows[input] ^= L::from(self.left[input][output] == 0) << output;
        self.asking ^= L::from(self.rows[input] == L::NONE) << input;
    }
}
