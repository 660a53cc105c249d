//! Peels a filled demand: one full setting after the other, each the first in dictionary order.
//!
//! Cells only become zero, so the first setting only moves forward: inputs before the first one
//! whose pair was emptied keep their outputs unless no full setting keeps them. Three things follow
//! from it. The matching is kept and only emptied pairs are released; the longest prefix that some
//! full setting still has stays as it is; and only the inputs behind it look for lower outputs.
//! Sets of outputs are labels, one bit for each output.

use crate::label::Label;

/// No one holds the output.
const FREE: u8 = 255;

pub(crate) struct Peel<L, const W: usize> {
    n: usize,
    /// What is left of each cell, but for the pairs of the setting, whose rest is in `left`.
    cells: [[u32; W]; W],
    /// For each input, the outputs with something left.
    rows: [L; W],
    /// The setting: the output of each input, what is left of that pair, the input of each output.
    outputs: [u8; W],
    left: [u32; W],
    holders: [u8; W],
    /// What each line has left.
    line: u32,
    /// The outputs asked at each step of a search.
    waves: [L; W],
}

impl<L: Label, const W: usize> Peel<L, W> {
    /// A demand of N² cells whose lines all sum to `line`, before its first setting.
    pub(crate) fn new(n: usize, filled: &[u32], line: u32) -> Peel<L, W> {
        let mut peel = Peel {
            n,
            cells: [[0; W]; W],
            rows: [L::NONE; W],
            outputs: [crate::IDLE; W],
            left: [0; W],
            holders: [FREE; W],
            line,
            waves: [L::NONE; W],
        };
        for (input, row) in filled.chunks_exact(n).enumerate() {
            peel.cells[input][..n].copy_from_slice(row);
            for (output, &cell) in row.iter().enumerate() {
                peel.rows[input] |= L::from(cell != 0) << output;
            }
        }
        peel
    }

    /// Hands each setting with its hold to `take`, until all is zero.
    pub(crate) fn each(mut self, mut take: impl FnMut(u32, &[u8; W])) {
        if self.line == 0 {
            return;
        }
        self.first();
        loop {
            let hold = self.left[..self.n].iter().copied().fold(u32::MAX, u32::min);
            take(hold, &self.outputs);
            self.line -= hold;
            if self.line == 0 {
                return;
            }
            self.take_off(hold);
            self.next();
        }
    }

    /// The first setting of all: any full one, then the lowest outputs from input 0 on.
    fn first(&mut self) {
        let mut free = L::ALL >> (W - self.n);
        for input in 0..self.n {
            let found = self.ask(input, self.rows[input], free, L::NONE);
            free &= !bit::<L>(found.ok().expect("lines with equal sums have a full setting"));
        }
        self.lower(0, L::ALL);
        for input in 0..self.n {
            self.left[input] = self.cells[input][usize::from(self.outputs[input])];
        }
    }

    fn take_off(&mut self, hold: u32) {
        for left in &mut self.left[..self.n] {
            *left -= hold;
        }
    }

    /// The next setting, once some pairs of the present one are empty.
    fn next(&mut self) {
        let before = self.outputs;
        let kept = self.repair();
        self.lower(kept, above(before[kept]));
        for input in kept..self.n {
            let (old, new) = (usize::from(before[input]), usize::from(self.outputs[input]));
            if old != new {
                self.cells[input][old] = self.left[input];
                self.left[input] = self.cells[input][new];
            }
        }
    }

    /// Releases the emptied pairs and completes the setting again. Answers the number of inputs in
    /// front that keep their outputs, the most that any full setting allows.
    fn repair(&mut self) -> usize {
        let mut emptied = L::NONE;
        let mut free = L::NONE;
        for input in 0..self.n {
            if self.left[input] == 0 {
                let output = self.outputs[input];
                emptied |= L::bit(input);
                free |= bit(output);
                self.rows[input] &= !bit::<L>(output);
                self.holders[usize::from(output)] = FREE;
            }
        }
        let mut kept = emptied.lowest();
        let mut fixed = self.label_of(kept);
        while emptied != L::NONE {
            let input = emptied.lowest();
            match self.ask(input, self.rows[input], free, fixed) {
                Ok(output) => {
                    free &= !bit::<L>(output);
                    emptied = emptied.without_lowest();
                }
                // The search ended at outputs of the prefix: the prefix gives up outputs from its
                // end on, down to the first that lets the search go on.
                Err(seen) => loop {
                    kept -= 1;
                    let output = self.outputs[kept];
                    fixed &= !bit::<L>(output);
                    if seen & bit(output) != L::NONE {
                        break;
                    }
                },
            }
        }
        kept
    }

    /// Gives each input from `from` on the lowest output that leaves a full setting to the inputs
    /// behind it: it asks for a lower one until none can be had. The first of them looks only at the
    /// outputs in `among`.
    fn lower(&mut self, from: usize, mut among: L) {
        let mut fixed = self.label_of(from);
        for input in from..self.n {
            loop {
                let held: L = bit(self.outputs[input]);
                let lower = self.rows[input] & among & !fixed & held.below();
                if self.ask(input, lower, held, fixed).is_err() {
                    break;
                }
            }
            among = L::ALL;
            fixed |= bit(self.outputs[input]);
        }
    }

    /// An input asks for one of these outputs. Held outputs ask their holders to move, all those that
    /// one step leads to as one wave, until a holder may take a free output. Then the holders on the
    /// way move, and the answer is the output that is free no longer; else nothing has moved, and the
    /// answer is every output that was seen.
    fn ask(&mut self, input: usize, outputs: L, free: L, fixed: L) -> Result<u8, L> {
        let mut depth = 0;
        let mut seen = outputs;
        let mut tried = fixed;
        let mut next = outputs;
        while next & free == L::NONE {
            let mut wave = next & !tried;
            if wave == L::NONE {
                return Err(seen);
            }
            self.waves[depth] = wave;
            depth += 1;
            tried |= wave;
            next = L::NONE;
            while wave != L::NONE {
                let holder = self.holders[wave.lowest()];
                next |= self.rows[usize::from(holder)];
                wave = wave.without_lowest();
            }
            seen |= next;
        }
        let found = (next & free).lowest() as u8;
        let mut wanted = found;
        for step in (0..depth).rev() {
            wanted = self.hand_on(self.waves[step], wanted);
        }
        self.hold(input, wanted);
        Ok(found)
    }

    /// The holder of one of these outputs takes the wanted one; answers the output it gives up.
    fn hand_on(&mut self, mut wave: L, wanted: u8) -> u8 {
        loop {
            let output = wave.lowest() as u8;
            let holder = usize::from(self.holders[usize::from(output)]);
            if self.rows[holder] & bit(wanted) != L::NONE {
                self.hold(holder, wanted);
                return output;
            }
            wave = wave.without_lowest();
        }
    }

    fn hold(&mut self, input: usize, output: u8) {
        self.outputs[input] = output;
        self.holders[usize::from(output)] = input as u8;
    }

    /// The outputs of the first `inputs` inputs.
    fn label_of(&self, inputs: usize) -> L {
        self.outputs[..inputs].iter().fold(L::NONE, |label, &output| label | bit(output))
    }
}

fn bit<L: Label>(output: u8) -> L {
    L::bit(usize::from(output))
}

/// The outputs above this one.
fn above<L: Label>(output: u8) -> L {
    L::ALL << usize::from(output) << 1
}
