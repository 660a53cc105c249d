// Once for each width of `Label`, a set of outputs.

use reference::{IDLE, MOST_PORTS, RECORD_SIZE};

/// The exact plan of a sound demand, for a buffer that holds it. Answers the records.
pub fn exact(n: usize, cells: &[u32], plan: &mut [u8]) -> usize {
    let longest = longest(n, cells);
    peel(n, cells, longest, 1, plan)
}

/// The doubled plan of a sound demand, for a buffer that holds it. Answers the records.
pub fn doubled(n: usize, cells: &[u32], plan: &mut [u8]) -> usize {
    let longest = longest(n, cells);
    if longest == 0 {
        return 0;
    }
    let unit = longest.div_ceil(n as u32);
    let mut quotients = [0; MOST_PORTS * MOST_PORTS];
    for (quotient, &cell) in quotients.iter_mut().zip(cells) {
        *quotient = cell / unit;
    }
    let quotients = &quotients[..n * n];
    let mut records = peel(n, quotients, self::longest(n, quotients), unit, plan);
    for k in 0..n {
        let hold = (0..n).map(|i| cells[i * n + (i + k) % n] % unit).max().unwrap_or(0);
        if hold > 0 {
            let mut outputs = [IDLE; MOST_PORTS];
            for (i, output) in outputs[..n].iter_mut().enumerate() {
                *output = ((i + k) % n) as u8;
            }
            put(plan, records, hold, n, &outputs);
            records += 1;
        }
    }
    records
}

fn longest(n: usize, cells: &[u32]) -> u32 {
    let row = |i: usize| cells[i * n..(i + 1) * n].iter().sum();
    let column = |j: usize| (0..n).map(|i| cells[i * n + j]).sum();
    (0..n).map(row).chain((0..n).map(column)).max().unwrap_or(0)
}

fn put(plan: &mut [u8], at: usize, hold: u32, n: usize, outputs: &[u8; MOST_PORTS]) {
    let record = &mut plan[at * RECORD_SIZE..(at + 1) * RECORD_SIZE];
    record[..2].copy_from_slice(&(hold as u16).to_le_bytes());
    record[2] = n as u8;
    record[3] = 0;
    record[4..].copy_from_slice(outputs);
}

/// Fills the cells up to T and peels them; each hold is multiplied.
fn peel(n: usize, cells: &[u32], longest: u32, unit: u32, plan: &mut [u8]) -> usize {
    let mut search = Search::new(n, cells, longest);
    let (mut records, mut left) = (0, longest);
    let (mut waiting, mut held): (Label, Label) = (!0 >> (Label::BITS as usize - n), 0);
    while left > 0 {
        search.next_setting(held, waiting);
        let hold = search.smallest();
        put(plan, records, hold * unit, n, &search.out);
        waiting = search.take_off(hold);
        held = search.release(waiting);
        left -= hold;
        records += 1;
    }
    records
}

struct Search {
    n: usize,
    cells: [u32; MOST_PORTS * MOST_PORTS],
    /// For each input the outputs with something left.
    rows: [Label; MOST_PORTS],
    /// Who holds each output, as one more than the input's number; 0 is nobody.
    by: [u8; MOST_PORTS],
    out: [u8; MOST_PORTS],
}

impl Search {
    fn new(n: usize, cells: &[u32], longest: u32) -> Search {
        let mut search = Search {
            n,
            cells: [0; MOST_PORTS * MOST_PORTS],
            rows: [0; MOST_PORTS],
            by: [0; MOST_PORTS],
            out: [IDLE; MOST_PORTS],
        };
        search.cells[..n * n].copy_from_slice(cells);
        let mut across = [longest; MOST_PORTS];
        let mut down = [longest; MOST_PORTS];
        for k in 0..n * n {
            across[k / n] -= cells[k];
            down[k % n] -= cells[k];
        }
        for k in 0..n * n {
            let more = across[k / n].min(down[k % n]);
            search.cells[k] += more;
            across[k / n] -= more;
            down[k % n] -= more;
            search.rows[k / n] |= Label::from(search.cells[k] != 0) << (k % n);
        }
        search
    }

    fn smallest(&self) -> u32 {
        (0..self.n).map(|i| self.cells[i * self.n + usize::from(self.out[i])]).min().unwrap_or(0)
    }

    /// Answers the inputs whose pairs are empty now.
    fn take_off(&mut self, hold: u32) -> Label {
        let mut emptied = 0;
        for i in 0..self.n {
            let j = usize::from(self.out[i]);
            let cell = &mut self.cells[i * self.n + j];
            *cell -= hold;
            if *cell == 0 {
                self.rows[i] &= !(1 << j);
                emptied |= 1 << i;
            }
        }
        emptied
    }

    /// Answers every output but those that are given up.
    fn release(&mut self, mut inputs: Label) -> Label {
        let mut held = !0;
        while inputs != 0 {
            let output = self.out[inputs.trailing_zeros() as usize];
            self.by[usize::from(output)] = 0;
            held &= !(1 << output);
            inputs &= inputs - 1;
        }
        held
    }

    fn next_setting(&mut self, mut held: Label, mut waiting: Label) {
        let before = self.out;
        let last = (Label::BITS - waiting.leading_zeros()) as usize;
        let mut firm = waiting.trailing_zeros() as usize;
        loop {
            let fixed = self.out[..firm].iter().fold(0, |fixed, &j| fixed | 1 << j);
            match self.complete(fixed, &mut held, &mut waiting) {
                Ok(()) => return self.settle_from(fixed, firm, &before, last),
                Err(met) => firm = self.give_way(held, fixed, firm, met),
            }
        }
    }

    /// The error is what the input may take that is stuck.
    fn complete(&mut self, fixed: Label, held: &mut Label, waiting: &mut Label) -> Result<(), Label> {
        while *waiting != 0 {
            let i = waiting.trailing_zeros() as usize;
            let (output, spent) = self.ask_inputs(*held, fixed, self.rows[i]).map_err(|_| self.rows[i])?;
            self.join(i, output);
            *held |= 1 << spent;
            *waiting &= *waiting - 1;
        }
        Ok(())
    }

    /// As many inputs in front as leave a way from these outputs to one that is free.
    fn give_way(&self, held: Label, fixed: Label, from: usize, mut met: Label) -> usize {
        let mut firm = from - 1;
        let mut seen = fixed & !(1 << self.out[firm]);
        loop {
            let wave = met & !seen;
            if wave != 0 {
                let further = self.leads_to(wave);
                if further & !held != 0 {
                    return firm;
                }
                seen |= wave;
                met |= further;
            } else if firm == 0 {
                return firm;
            } else {
                firm -= 1;
                seen &= !(1 << self.out[firm]);
            }
        }
    }

    /// Where none is left that waited and those before have the outputs of before among them, the
    /// others have theirs of before.
    fn settle_from(&mut self, fixed: Label, from: usize, before: &[u8; MOST_PORTS], last: usize) {
        let (mut fixed, mut dead, mut alone, mut was) = (fixed, fixed, true, fixed);
        for i in from..self.n {
            if last <= i && fixed == was {
                for (k, &output) in before.iter().enumerate().take(self.n).skip(i) {
                    self.join(k, usize::from(output));
                }
                return;
            }
            (fixed, dead, alone) = self.settle(fixed, dead, alone, i);
            if before[i] != IDLE {
                was |= 1 << before[i];
            }
        }
    }

    /// Input i asks for a lower output until all lower ones lead nowhere.
    fn settle(&mut self, fixed: Label, dead: Label, mut alone: bool, i: usize) -> (Label, Label, bool) {
        let mut own = usize::from(self.out[i]);
        let mut dead = if dead >> own & 1 == 1 { fixed } else { dead };
        loop {
            let lower = self.rows[i] & ((1 << own) - 1) & !dead;
            if lower == 0 {
                return (fixed | 1 << own, dead | 1 << own, alone);
            }
            self.by[own] = 0;
            let some = if alone { lower & lower.wrapping_neg() } else { lower };
            match self.ask_outputs(!(1 << own), dead, some) {
                Ok((output, _)) => {
                    own = output;
                    alone = true;
                }
                Err(seen) => {
                    dead = seen;
                    alone = false;
                }
            }
            self.join(i, own);
        }
    }

    /// The output that was made free and the one that is spent on it; the error is what was tried.
    fn ask_inputs(&mut self, held: Label, tried: Label, outputs: Label) -> Result<(usize, usize), Label> {
        let spare = outputs & !held;
        if spare != 0 {
            let spare = spare.trailing_zeros() as usize;
            return Ok((spare, spare));
        }
        match outputs & !tried {
            0 => Err(tried),
            wave => self.ask_outputs(held, tried, wave),
        }
    }

    fn ask_outputs(&mut self, held: Label, tried: Label, wave: Label) -> Result<(usize, usize), Label> {
        let further = self.leads_to(wave);
        let (wanted, spent) = self.ask_inputs(held, tried | wave, further)?;
        Ok((self.hand_on(wave, wanted), spent))
    }

    /// What the holders of these outputs may take.
    fn leads_to(&self, mut wave: Label) -> Label {
        let mut further = 0;
        while wave != 0 {
            further |= self.rows[usize::from(self.by[wave.trailing_zeros() as usize]) - 1];
            wave &= wave - 1;
        }
        further
    }

    /// The holder of one of these outputs takes the wanted one; answers the output it gives up.
    fn hand_on(&mut self, mut wave: Label, wanted: usize) -> usize {
        loop {
            let output = wave.trailing_zeros() as usize;
            let holder = usize::from(self.by[output]) - 1;
            if self.rows[holder] >> wanted & 1 == 1 {
                self.by[output] = 0;
                self.join(holder, wanted);
                return output;
            }
            wave &= wave - 1;
        }
    }

    fn join(&mut self, i: usize, j: usize) {
        self.by[j] = i as u8 + 1;
        self.out[i] = j as u8;
    }
}
