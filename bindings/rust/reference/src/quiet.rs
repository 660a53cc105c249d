//! The quiet plan for the grating fabric, every setting within a wavelength limit, and the least total
//! that such a plan can have.

use crate::exact::Writer;
use crate::{demand, Counts, Outcome, Refusal, BYTE, IDLE, MOST_PORTS};

/// The quiet plan: no setting has more than `limit` inputs on one wavelength.
pub fn grating_quiet(n: u64, cells: &[u32], limit: u64, plan: &mut [u8]) -> Outcome {
    let (n, longest) = within(n, cells, limit)?;
    let mut written = Writer::new(BYTE);
    let mut left = Left::new(n, cells);
    while let Some((hold, outputs)) = left.setting(limit) {
        written.push(hold as u16, n, &outputs);
    }
    written.lend(cells, longest, plan)
}

/// The larger of T and, rounded up, the most slots asked on one wavelength over the limit.
pub fn grating_least(n: u64, cells: &[u32], limit: u64) -> Outcome {
    let (n, longest) = within(n, cells, limit)?;
    let mut bands = [0; MOST_PORTS];
    for (pair, &cell) in cells.iter().enumerate() {
        bands[(n + pair % n - pair / n) % n] += u64::from(cell);
    }
    let busiest = bands.into_iter().max().unwrap_or(0);
    Ok(Counts { longest, total: longest.max(busiest.div_ceil(limit)), ..Counts::default() })
}

/// Codes 1, 2, 3 and 17.
fn within(n: u64, cells: &[u32], limit: u64) -> Result<(usize, u64), Refusal> {
    let asked = demand(n, cells)?;
    if limit == 0 {
        return Err(Refusal::Limit);
    }
    Ok(asked)
}

/// What the quiet plan has left to serve.
struct Left {
    n: usize,
    cells: [u32; MOST_PORTS * MOST_PORTS],
    /// For each input, the outputs with slots left for that pair.
    rows: [u64; MOST_PORTS],
}

impl Left {
    fn new(n: usize, cells: &[u32]) -> Left {
        let mut left = Left { n, cells: [0; MOST_PORTS * MOST_PORTS], rows: [0; MOST_PORTS] };
        left.cells[..n * n].copy_from_slice(cells);
        for (row, cells) in left.rows.iter_mut().zip(cells.chunks_exact(n)) {
            for (output, &cell) in cells.iter().enumerate() {
                *row |= u64::from(cell != 0) << output;
            }
        }
        left
    }

    /// The next setting with its hold, taken off what is left; none where nothing is.
    fn setting(&mut self, limit: u64) -> Option<(u32, [u8; MOST_PORTS])> {
        let n = self.n;
        let outputs = self.chosen(limit);
        let joined = || outputs[..n].iter().enumerate().filter(|(_, &output)| output != IDLE);
        let hold = joined().map(|(input, &output)| self.cells[input * n + usize::from(output)]).min()?;
        for (input, &output) in joined() {
            let cell = &mut self.cells[input * n + usize::from(output)];
            *cell -= hold;
            self.rows[input] ^= u64::from(*cell == 0) << output;
        }
        Some((hold, outputs))
    }

    /// Each input in turn takes the lowest output that is free, asked, and not full: the outputs whose
    /// wavelength is full are one set, which turns by one place from input to input.
    fn chosen(&self, limit: u64) -> [u8; MOST_PORTS] {
        let n = self.n;
        let mut outputs = [IDLE; MOST_PORTS];
        let mut used = [0u8; MOST_PORTS];
        let (mut taken, mut full) = (0u64, 0u64);
        for (input, output) in outputs[..n].iter_mut().enumerate() {
            let open = self.rows[input] & !(taken | full);
            if open != 0 {
                let lowest = open.trailing_zeros() as usize;
                let used = &mut used[(n + lowest - input) % n];
                *used += 1;
                *output = lowest as u8;
                taken |= 1 << lowest;
                full |= u64::from(limit <= u64::from(*used)) << lowest;
            }
            let last = full >> (n - 1);
            full = (full ^ last << (n - 1)) << 1 | last;
        }
        outputs
    }
}
