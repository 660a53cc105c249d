//! Seeded cases for the switch planner: demands, wish lists and plans, sound and damaged. The same
//! seed gives the same case on every machine.

/// A small generator of pseudo-random numbers (splitmix64).
pub struct Rng(u64);

impl Rng {
    pub fn new(seed: u64) -> Rng {
        Rng(seed)
    }

    pub fn draw(&mut self) -> u64 {
        self.0 = self.0.wrapping_add(0x9e37_79b9_7f4a_7c15);
        let mixed = (self.0 ^ self.0 >> 30).wrapping_mul(0xbf58_476d_1ce4_e5b9);
        let mixed = (mixed ^ mixed >> 27).wrapping_mul(0x94d0_49bb_1331_11eb);
        mixed ^ mixed >> 31
    }

    /// A number from 0 to `limit` - 1.
    pub fn below(&mut self, limit: usize) -> usize {
        ((u128::from(self.draw()) * limit as u128) >> 64) as usize
    }

    /// A number from `low` to `high`, both possible.
    pub fn between(&mut self, low: usize, high: usize) -> usize {
        low + self.below(high - low + 1)
    }

    /// True once in `times`.
    pub fn one_in(&mut self, times: usize) -> bool {
        self.below(times) == 0
    }

    pub fn pick<T: Copy>(&mut self, from: &[T]) -> T {
        from[self.below(from.len())]
    }

    pub fn bytes(&mut self, count: usize) -> Vec<u8> {
        (0..count).map(|_| self.draw() as u8).collect()
    }

    fn shuffle<T>(&mut self, items: &mut [T]) {
        for k in (1..items.len()).rev() {
            items.swap(k, self.below(k + 1));
        }
    }
}

const MOST_PORTS: usize = 64;
const RECORD_SIZE: usize = 68;
const WISH_SIZE: usize = 8;
const IDLE: u8 = 255;
const MOST_LINE: usize = 65_535;

/// An N in range: mostly small, so that cases are many, and each size up to 64 now and then.
pub fn ports(rng: &mut Rng) -> usize {
    match rng.below(100) {
        0..=69 => rng.between(1, 6),
        70..=89 => rng.between(1, 16),
        90..=97 => rng.between(1, 32),
        _ => rng.pick(&[33, 48, 63, 64]),
    }
}

/// An N that is out of range, or that is in range only once bits of it are lost.
pub fn wild_ports(rng: &mut Rng, n: usize) -> u64 {
    let n = n as u64;
    rng.pick(&[
        0,
        65,
        66,
        127,
        128,
        255,
        256,
        256 + n,
        1 << 16 | n,
        1 << 32,
        1 << 32 | n,
        1 << 63 | n,
        u64::MAX,
    ])
}

/// Every cell anything below `limit`.
pub fn dense(rng: &mut Rng, n: usize, limit: usize) -> Vec<u32> {
    (0..n * n).map(|_| rng.below(limit) as u32).collect()
}

/// Each input asks `each` outputs, of which some may be the same one, for 1 to `most` slots.
pub fn sparse(rng: &mut Rng, n: usize, each: usize, most: usize) -> Vec<u32> {
    let mut cells = vec![0; n * n];
    for input in 0..n {
        for _ in 0..each {
            cells[input * n + rng.below(n)] = rng.between(1, most) as u32;
        }
    }
    cells
}

/// A demand of many kinds, no line of which sums over `most_line`.
pub fn demand(rng: &mut Rng, n: usize, most_line: usize) -> Vec<u32> {
    let each = most_line / n;
    match rng.below(9) {
        0 => vec![0; n * n],
        1 => dense(rng, n, 4.min(each) + 1),
        2 => dense(rng, n, each + 1),
        3 => thinned(rng, n, each),
        4 => settings_joined(rng, n, most_line),
        5 => one_cell(rng, n, most_line),
        6 => full_line(rng, n, most_line),
        7 => triangle(rng, n, each),
        _ => dense(rng, n, 2.min(each + 1)),
    }
}

/// Most cells zero, the rest of all sizes.
fn thinned(rng: &mut Rng, n: usize, each: usize) -> Vec<u32> {
    let (times, most) = (rng.between(2, 8), rng.between(0, each));
    (0..n * n).map(|_| if rng.one_in(times) { rng.between(0, most) as u32 } else { 0 }).collect()
}

/// A sum of full settings, so that every line has the same sum and nothing is filled.
fn settings_joined(rng: &mut Rng, n: usize, most_line: usize) -> Vec<u32> {
    let mut cells = vec![0; n * n];
    let settings = rng.between(1, n + 1);
    for _ in 0..settings {
        let hold = rng.below(most_line / settings + 1) as u32;
        for (input, output) in permutation(rng, n).into_iter().enumerate() {
            cells[input * n + output] += hold;
        }
    }
    cells
}

fn one_cell(rng: &mut Rng, n: usize, most_line: usize) -> Vec<u32> {
    let mut cells = vec![0; n * n];
    cells[rng.below(n * n)] = rng.between(1, most_line) as u32;
    cells
}

/// A line that sums to `most_line` exactly, its slots in at most four cells.
fn full_line(rng: &mut Rng, n: usize, most_line: usize) -> Vec<u32> {
    let mut cells = vec![0; n * n];
    let (line, is_input) = (rng.below(n), rng.one_in(2));
    let mut rest = most_line;
    for part in 0..4 {
        let slots = if part == 3 { rest } else { rng.below(rest + 1) };
        let port = rng.below(n);
        cells[if is_input { line * n + port } else { port * n + line }] += slots as u32;
        rest -= slots;
    }
    cells
}

/// Cells on one side of a diagonal only, which leaves few full settings before filling.
fn triangle(rng: &mut Rng, n: usize, each: usize) -> Vec<u32> {
    let (most, upper) = (rng.between(0, each), rng.one_in(2));
    let inside = |k: usize| if upper { k / n <= k % n } else { k / n + k % n < n };
    (0..n * n).map(|k| if inside(k) { rng.between(0, most) as u32 } else { 0 }).collect()
}

/// Makes one or two lines sum over 65,535, by a little or by all that 32 bits hold.
pub fn overload(rng: &mut Rng, cells: &mut [u32]) {
    for _ in 0..rng.between(1, 2) {
        let cell = rng.below(cells.len());
        cells[cell] = rng.pick(&[65_536, 65_537, 1 << 31, u32::MAX, MOST_LINE as u32]);
    }
}

/// A number of cells that is not `n` squared, but near something that could be taken for it.
pub fn wrong_size(rng: &mut Rng, n: usize) -> usize {
    let square = n * n;
    rng.pick(&[0, n - 1, square - 1, square + 1, square + n, 2 * square, (n + 1) * (n + 1), 4_097])
}

fn permutation(rng: &mut Rng, n: usize) -> Vec<usize> {
    let mut outputs: Vec<usize> = (0..n).collect();
    rng.shuffle(&mut outputs);
    outputs
}

/// A setting for N ports, full or with idle inputs.
pub fn setting(rng: &mut Rng, n: usize) -> [u8; MOST_PORTS] {
    let mut outputs = [IDLE; MOST_PORTS];
    let idle = rng.pick(&[0, 0, 1, 2, 4]);
    for (input, output) in permutation(rng, n).into_iter().enumerate() {
        if rng.below(5) >= idle {
            outputs[input] = output as u8;
        }
    }
    outputs
}

/// The bytes of a record, well formed or not.
pub fn record(hold: u16, n: usize, outputs: &[u8; MOST_PORTS]) -> [u8; RECORD_SIZE] {
    let mut record = [0; RECORD_SIZE];
    record[..2].copy_from_slice(&hold.to_le_bytes());
    record[2] = n as u8;
    record[4..].copy_from_slice(outputs);
    record
}

pub fn hold(rng: &mut Rng) -> u16 {
    match rng.below(4) {
        0 => 1,
        1 => rng.between(1, MOST_LINE) as u16,
        2 => rng.pick(&[255, 256, 257, 65_535]),
        _ => rng.between(1, 10) as u16,
    }
}

/// A plan of well-formed records.
pub fn plan(rng: &mut Rng, n: usize, records: usize) -> Vec<u8> {
    (0..records).flat_map(|_| record(hold(rng), n, &setting(rng, n))).collect()
}

/// A plan of well-formed records of at most five settings, so that settings repeat.
pub fn repeating_plan(rng: &mut Rng, n: usize, records: usize) -> Vec<u8> {
    let settings: Vec<_> = (0..rng.between(1, 5)).map(|_| setting(rng, n)).collect();
    (0..records).flat_map(|_| record(hold(rng), n, &rng.pick(&settings))).collect()
}

/// Spoils outputs so that they are no setting for N ports, or, seldom, still are one.
pub fn spoil_outputs(rng: &mut Rng, n: usize, outputs: &mut [u8]) {
    let input = rng.below(n);
    match rng.below(4) {
        0 => outputs[input] = rng.between(n, 254) as u8,
        1 => outputs[input] = outputs[rng.below(n)],
        2 => outputs[rng.below(MOST_PORTS)] = rng.draw() as u8,
        _ => outputs[rng.between(n - 1, MOST_PORTS - 1)] = rng.pick(&[0, n as u8, 254, 63]),
    }
}

/// Spoils one record of a plan, or a single bit of it.
pub fn spoil_plan(rng: &mut Rng, n: usize, plan: &mut [u8]) {
    if plan.len() < RECORD_SIZE {
        return;
    }
    let start = rng.below(plan.len() / RECORD_SIZE) * RECORD_SIZE;
    let record = &mut plan[start..start + RECORD_SIZE];
    match rng.below(6) {
        0 => record[..2].fill(0),
        1 => record[2] = rng.pick(&[0, n as u8 - 1, n as u8 + 1, 64, 65, 255]),
        2 => record[3] = rng.pick(&[1, 2, 128, 255]),
        3 => record[rng.below(RECORD_SIZE)] ^= 1 << rng.below(8),
        _ => spoil_outputs(rng, n, &mut record[4..]),
    }
}

/// Adds or takes bytes so that the length is no multiple of `size`.
pub fn tear(rng: &mut Rng, size: usize, bytes: &mut Vec<u8>) {
    if bytes.len() >= size && rng.one_in(2) {
        bytes.truncate(bytes.len() - rng.between(1, size - 1));
    } else {
        let tail = rng.between(1, size - 1);
        bytes.extend(rng.bytes(tail));
    }
}

/// The bits of a wish that is not refused.
pub fn wish_bits(rng: &mut Rng) -> u32 {
    match rng.below(6) {
        0 => rng.pick(&[0, 1 << 31, 1, 0x7f_ffff, 0x80_0000, 0x3f80_0000, 0x3fc0_0000, 0x477f_ff00]),
        1 => (rng.below(MOST_LINE + 1) as f32).to_bits(),
        2 => (rng.below(8 * MOST_LINE) as f32 / 8.0).to_bits(),
        3 => rng.below(0x0080_0000) as u32,
        _ => rng.below(0x477f_ff01) as u32,
    }
}

/// The bits of a wish of any kind, refused or not.
pub fn wild_bits(rng: &mut Rng) -> u32 {
    match rng.below(5) {
        0 => rng.pick(&[0x477f_ff01, 0x8000_0001, 0x7fc0_0000, 0x7f80_0000, 0xff80_0000, 0xffc0_0000]),
        1 => wish_bits(rng) ^ 1 << rng.below(32),
        2 => 0x7f80_0000 + rng.below(16) as u32 - 8,
        3 => 0x477f_ff00 + rng.below(16) as u32 - 8,
        _ => rng.draw() as u32,
    }
}

/// A wish list for N ports, each pair named at most once, nothing refused.
pub fn wish_list(rng: &mut Rng, n: usize) -> Vec<u8> {
    let mut pairs: Vec<usize> = (0..n * n).collect();
    rng.shuffle(&mut pairs);
    let count = if rng.one_in(4) { n * n } else { rng.between(0, n * n) };
    pairs.truncate(count);
    pairs.into_iter().flat_map(|pair| wish_record(pair / n, pair % n, wish_bits(rng))).collect()
}

/// The bytes of a wish record.
pub fn wish_record(input: usize, output: usize, bits: u32) -> [u8; WISH_SIZE] {
    let mut record = [input as u8, output as u8, 0, 0, 0, 0, 0, 0];
    record[4..].copy_from_slice(&bits.to_le_bytes());
    record
}

/// Spoils one record of a wish list, seldom without making it faulty.
pub fn spoil_list(rng: &mut Rng, n: usize, list: &mut [u8]) {
    let records = list.len() / WISH_SIZE;
    if records == 0 {
        return;
    }
    let start = rng.below(records) * WISH_SIZE;
    let other = rng.below(records) * WISH_SIZE;
    match rng.below(6) {
        0 => list[start + rng.below(2)] = rng.pick(&[n as u8, n as u8 + 1, 64, 128, 255]),
        1 => list[start + 2 + rng.below(2)] = rng.pick(&[1, 2, 128, 255]),
        2 => list.copy_within(other..other + 2, start),
        _ => list[start + 4..start + 8].copy_from_slice(&wild_bits(rng).to_le_bytes()),
    }
}
