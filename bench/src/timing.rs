//! Time per call, both libraries in turn.

use std::time::{Duration, Instant};

/// How long one sample lasts at least: long for the clock, short for other programs to fall into.
const SAMPLE: Duration = Duration::from_millis(1);
/// Samples of each library, taken in turn so that both meet the same disturbances.
pub const SAMPLES: usize = 31;

/// One call of each library on the same input.
pub struct Pair<'a> {
    pub reference: Box<dyn FnMut() + 'a>,
    pub proved: Box<dyn FnMut() + 'a>,
}

/// Nanoseconds per call: the least of the samples, which other programs disturb least.
#[derive(Clone, Copy)]
pub struct Times {
    pub reference: f64,
    pub proved: Option<f64>,
}

impl Pair<'_> {
    pub fn time(mut self) -> Times {
        let reference_runs = runs_in_a_sample(&mut self.reference);
        let proved_runs = if crate::PROVED { runs_in_a_sample(&mut self.proved) } else { 0 };
        let mut times = Times { reference: f64::INFINITY, proved: None };
        for _ in 0..SAMPLES {
            times.reference = times.reference.min(sample(&mut self.reference, reference_runs));
            if crate::PROVED {
                let took = sample(&mut self.proved, proved_runs);
                times.proved = Some(times.proved.unwrap_or(f64::INFINITY).min(took));
            }
        }
        times
    }
}

fn runs_in_a_sample(call: &mut dyn FnMut()) -> u32 {
    let mut runs = 1;
    while sample(call, runs) * f64::from(runs) < SAMPLE.as_nanos() as f64 {
        runs *= 2;
    }
    runs
}

fn sample(call: &mut dyn FnMut(), runs: u32) -> f64 {
    let began = Instant::now();
    for _ in 0..runs {
        call();
    }
    began.elapsed().as_nanos() as f64 / f64::from(runs)
}
