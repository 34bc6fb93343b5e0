//! The second part: runs of both sides in turn, timed.

use crate::sides::{Side, buffer_size, difference};
use plain::Report;
use std::hint::black_box;
use std::time::Instant;

/// The runs of both sides on an image.
pub struct Timing {
    pub steps: u64,
    pub cycles: u64,
    /// Nanoseconds a cycle.
    pub kit: Spread,
    pub plain: Spread,
    /// The kit's time divided by plain's, of the two runs of each round.
    pub paired: Spread,
}

impl Timing {
    /// The ratio of the medians.
    pub fn ratio(&self) -> f64 {
        self.kit.median / self.plain.median
    }
}

pub struct Spread {
    pub least: f64,
    pub median: f64,
    pub most: f64,
}

impl Spread {
    fn of(mut values: Vec<f64>) -> Self {
        values.sort_by(f64::total_cmp);
        let middle = values.len() / 2;
        let median = if values.len().is_multiple_of(2) {
            (values[middle - 1] + values[middle]) / 2.0
        } else {
            values[middle]
        };
        Spread {
            least: values[0],
            median,
            most: values[values.len() - 1],
        }
    }
}

/// One warm-up of each side, then so many rounds of a run of each, in the other order every other round.
pub fn time_image(image: &[u8], steps: u64, rounds: usize) -> Result<Timing, String> {
    let size = buffer_size(image).ok_or("word 1 is no size")?;
    let mut by_kit = vec![0; size];
    let mut by_plain = vec![0; size];
    let mut kit_times = Vec::with_capacity(rounds);
    let mut plain_times = Vec::with_capacity(rounds);
    let mut pairs = Vec::with_capacity(rounds);
    let mut report = None;
    for round in 0..=rounds {
        let (kit, plain);
        if round.is_multiple_of(2) {
            kit = timed_run(Side::Kit, image, &mut by_kit, steps);
            plain = timed_run(Side::Plain, image, &mut by_plain, steps);
        } else {
            plain = timed_run(Side::Plain, image, &mut by_plain, steps);
            kit = timed_run(Side::Kit, image, &mut by_kit, steps);
        }
        if let Some(difference) = difference((&kit.0, &by_kit), (&plain.0, &by_plain)) {
            return Err(format!("after {steps} steps {difference}"));
        }
        if *report.get_or_insert(kit.0) != kit.0 {
            return Err(format!("two runs of {steps} steps differ"));
        }
        if round > 0 {
            let cycles = kit.0.cycles as f64;
            kit_times.push(kit.1 / cycles);
            plain_times.push(plain.1 / cycles);
            pairs.push(kit.1 / plain.1);
        }
    }
    let report = report.ok_or("there were no runs")?;
    if report.cycles == 0 {
        return Err(format!("no cycle is run: end {}", report.end));
    }
    Ok(Timing {
        steps: report.steps,
        cycles: report.cycles,
        kit: Spread::of(kit_times),
        plain: Spread::of(plain_times),
        paired: Spread::of(pairs),
    })
}

/// A run in a buffer of zeros, and its nanoseconds.
fn timed_run(side: Side, image: &[u8], buffer: &mut [u8], steps: u64) -> (Report, f64) {
    buffer.fill(0);
    let start = Instant::now();
    let report = black_box(side.run(black_box(image), black_box(buffer), black_box(steps)));
    (report, start.elapsed().as_nanos() as f64)
}
