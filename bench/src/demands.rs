//! The seeded demands that are timed.

use cases::Rng;
use reference::{MOST_PORTS, MOST_QUICK, RECORD_SIZE, RECORD_SIZE_SECOND};

const SEED: u64 = 2;
/// Records of the longest exact plan there is, and more than any other plan here has; and of the second
/// edition's.
pub const ROOM: usize = 4_096;
pub const ROOM_SECOND: usize = 16_384;

pub struct Demand {
    pub kind: &'static str,
    pub n: usize,
    pub cells: Vec<u32>,
    pub longest: u64,
    /// Its exact plan, of the second edition where N takes that.
    pub plan: Vec<u8>,
    /// Bytes of a record of it.
    pub record: usize,
}

type Planner = fn(u64, &[u32], &mut [u8]) -> reference::Outcome;

impl Demand {
    fn new(kind: &'static str, n: usize, cells: Vec<u32>) -> Demand {
        let (record, room, exact): (_, _, Planner) = if n <= MOST_PORTS {
            (RECORD_SIZE, ROOM, reference::exact)
        } else {
            (RECORD_SIZE_SECOND, ROOM_SECOND, reference::exact_second)
        };
        let mut plan = vec![0; room * record];
        let counts = exact(n as u64, &cells, &mut plan).expect("a sound demand");
        plan.truncate(counts.records as usize * record);
        Demand { kind, n, cells, longest: counts.longest, plan, record }
    }

    pub fn records(&self) -> usize {
        self.plan.len() / self.record
    }

    /// The demand, made smaller where its T is too large for the quick cover.
    pub fn quick_cells(&self) -> Vec<u32> {
        let over = self.longest.max(MOST_QUICK);
        self.cells.iter().map(|&cell| (u64::from(cell) * MOST_QUICK / over) as u32).collect()
    }

    /// A wish for each pair with slots, of half a slot less.
    pub fn wish_list(&self) -> Vec<u8> {
        let asked = self.cells.iter().enumerate().filter(|(_, &cell)| cell != 0);
        asked
            .flat_map(|(k, &cell)| cases::wish_record(k / self.n, k % self.n, (cell as f32 - 0.5).to_bits()))
            .collect()
    }
}

/// Every cell at random, T about 39,000.
pub fn dense(n: usize) -> Demand {
    Demand::new("dense", n, cases::dense(&mut Rng::new(SEED), n, 65_536 / n))
}

/// Each input asks about four outputs.
pub fn sparse(n: usize) -> Demand {
    Demand::new("sparse", n, cases::sparse(&mut Rng::new(SEED), n, 4, 4_000))
}

/// Every cell at random from 0 to 3.
pub fn small(n: usize) -> Demand {
    Demand::new("small", n, cases::dense(&mut Rng::new(SEED), n, 4))
}

/// Every cell at random below `limit`: the plan's records grow with it.
pub fn limited(n: usize, limit: usize) -> Demand {
    Demand::new("limited", n, cases::dense(&mut Rng::new(SEED), n, limit))
}
