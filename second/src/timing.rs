//! Times of short calls: medians over many short batches. The batches of all that is compared are
//! run in turn, so that what else the machine does falls on each of them alike.

use std::time::Instant;

/// How long and how often to measure.
#[derive(Clone, Copy)]
pub struct Effort {
    /// A batch takes about so many nanoseconds, or one run if that takes longer.
    pub batch: f64,
    /// Batches of each.
    pub rounds: usize,
}

/// The median time of one run of each, in nanoseconds.
pub fn medians<const N: usize>(runs: [&mut dyn FnMut(); N], effort: Effort) -> [f64; N] {
    let mut runs = runs;
    let sizes: Vec<u32> = runs.iter_mut().map(|run| batch_size(*run, effort.batch)).collect();
    let mut times = [const { vec![] }; N];
    for _ in 0..effort.rounds {
        for ((times, run), &size) in times.iter_mut().zip(&mut runs).zip(&sizes) {
            times.push(time_of(*run, size));
        }
    }
    times.map(median)
}

/// The least time of one run in so many, in nanoseconds.
pub fn least(mut run: impl FnMut(), times: u32) -> f64 {
    (0..times).map(|_| time_of(&mut run, 1)).fold(f64::INFINITY, f64::min)
}

/// So many runs that they take the batch's time.
fn batch_size(run: &mut dyn FnMut(), batch: f64) -> u32 {
    let mut size = 1;
    // The first runs are slow: nothing of theirs is in the caches yet.
    while time_of(run, size) * f64::from(size) < batch && size < 1 << 20 {
        size *= 2;
    }
    size
}

fn time_of(run: &mut dyn FnMut(), size: u32) -> f64 {
    let begun = Instant::now();
    for _ in 0..size {
        run();
    }
    begun.elapsed().as_nanos() as f64 / f64::from(size)
}

fn median(mut times: Vec<f64>) -> f64 {
    times.sort_by(f64::total_cmp);
    times[times.len() / 2]
}

/// The processor's name, where the system tells it.
pub fn machine() -> String {
    let text = std::fs::read_to_string("/proc/cpuinfo").unwrap_or_default();
    let field = |name: &str| {
        let line = text.lines().find(|line| line.starts_with(name))?;
        Some(line.split_once(':')?.1.trim().to_string())
    };
    let name = field("model name").unwrap_or("an unknown processor".into());
    let numbers =
        ["cpu family", "model\t", "cpu MHz"].map(|name| field(name).unwrap_or("?".into()));
    let [family, model, mhz] = numbers;
    format!("{name}, family {family}, model {model}, {mhz} MHz")
}
