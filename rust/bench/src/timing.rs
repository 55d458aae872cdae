//! Samples in turn, best and median.

use std::{
    hint::black_box,
    time::{Duration, Instant},
};

/// One function of one contender on one list, prepared: it makes a number of calls and says how
/// long they took.
pub struct Task {
    pub function: &'static str,
    sample: Box<dyn FnMut(usize) -> Duration>,
}

impl Task {
    /// A call that gives something back. What the calls of one sample gave is kept until the
    /// clock has stopped, and freed then.
    pub fn new<T: 'static>(function: &'static str, mut call: impl FnMut() -> T + 'static) -> Self {
        let mut kept = Vec::new();
        let sample = move |calls| {
            kept.reserve(calls);
            let start = Instant::now();
            for _ in 0..calls {
                kept.push(black_box(call()));
            }
            let took = start.elapsed();
            kept.clear();
            took
        };
        Self {
            function,
            sample: Box::new(sample),
        }
    }
}

/// Times the tasks in turn and prints a line for each; the best sample of each.
pub fn compare<'a>(
    function: &str,
    size: usize,
    rounds: usize,
    tasks: &mut [(&'a str, &mut Task)],
) -> Vec<(&'a str, f64)> {
    let calls = (16_384 / size).max(1);
    let mut samples = vec![Vec::with_capacity(rounds); tasks.len()];
    for round in 0..rounds + rounds / 10 {
        for (at, (_, task)) in tasks.iter_mut().enumerate() {
            let took = (task.sample)(calls);
            // The first tenth only warms up.
            if round >= rounds / 10 {
                samples[at].push(took.as_nanos() as f64 / (calls * size) as f64);
            }
        }
    }
    let (mut first, mut port) = (None, None);
    let mut bests = Vec::new();
    for ((name, _), samples) in tasks.iter().zip(&mut samples) {
        samples.sort_by(f64::total_cmp);
        let (best, median) = (samples[0], samples[samples.len() / 2]);
        let against = best / *first.get_or_insert(best);
        if *name == "port" {
            port = Some(best);
        }
        let beside = port.map_or(String::new(), |port| format!("   {:5.2}", best / port));
        println!("  {function:<13} {name:<10} {best:7.2} {median:7.2}   {against:5.2}{beside}");
        bests.push((*name, best));
    }
    bests
}
