//! Times the jobs, in rounds in which the sides take turns.

use crate::job::{Job, Side, Spec};
use std::time::{Duration, Instant};

/// How long and how often is measured.
#[derive(Clone, Copy)]
pub struct Effort {
    pub rounds: usize,
    /// What one timing of a side takes at least.
    pub least: Duration,
}

/// Runs a side so many times.
fn time(job: &mut dyn Job, side: Side, times: usize) -> Duration {
    let start = Instant::now();
    for _ in 0..times {
        job.run(side);
    }
    start.elapsed()
}

/// How often a side runs so that it takes long enough.
fn times(job: &mut dyn Job, side: Side, least: Duration) -> usize {
    let mut times = 1;
    while time(job, side, times) < least {
        times *= 2;
    }
    times
}

/// A value of sorted ones, by its place between the first and the last.
fn quantile(sorted: &[f64], place: f64) -> f64 {
    let at = place * (sorted.len() - 1) as f64;
    let (low, high) = (at.floor() as usize, at.ceil() as usize);
    sorted[low] + (sorted[high] - sorted[low]) * (at - low as f64)
}

fn sorted(values: impl Iterator<Item = f64>) -> Vec<f64> {
    let mut values: Vec<f64> = values.collect();
    values.sort_by(f64::total_cmp);
    values
}

/// Measures a job and prints its lines: the units, the time of each side that can do it for a unit, and our time over each of the others'.
pub fn measure(spec: &Spec, effort: Effort) {
    let (group, name) = (spec.group, &spec.name);
    let mut job = (spec.make)();
    let job = job.as_mut();
    println!("job\t{group}\t{name}\t{}\t{}", spec.unit, job.units());
    let sides = job.sides();
    sides.iter().for_each(|&side| job.run(side));
    job.check();
    let mut many = [0; 3];
    for &side in sides {
        many[side as usize] = times(job, side, effort.least);
    }
    let mut rounds: Vec<[f64; 3]> = Vec::new();
    for round in 0..effort.rounds {
        let mut taken = [0.0; 3];
        for turn in 0..sides.len() {
            let side = sides[(round + turn) % sides.len()];
            let at = side as usize;
            let nanoseconds = time(job, side, many[at]).as_secs_f64() * 1e9;
            taken[at] = nanoseconds / many[at] as f64 / job.units() as f64;
        }
        job.check();
        rounds.push(taken);
    }
    for &side in sides {
        let taken = sorted(rounds.iter().map(|round| round[side as usize]));
        println!("time\t{group}\t{name}\t{}\t{:.4}", side.name(), quantile(&taken, 0.5));
    }
    for &side in sides.iter().filter(|&&side| side != Side::Ours) {
        let ratios = sorted(rounds.iter().map(|round| round[Side::Ours as usize] / round[side as usize]));
        let [low, middle, high] = [0.1, 0.5, 0.9].map(|place| quantile(&ratios, place));
        println!("ratio\t{group}\t{name}\t{}\t{low:.4}\t{middle:.4}\t{high:.4}", side.name());
    }
}

/// The job of one run, by a name that callgrind is told.
#[no_mangle]
#[inline(never)]
pub fn bench_measured(job: &mut dyn Job, side: Side) {
    job.run(side);
}

/// Runs a job once by one side, after two runs that pay for what is paid once: the second `get` of a header reads its names.
pub fn once(spec: &Spec, side: Side) {
    let mut job = (spec.make)();
    job.run(side);
    job.run(side);
    bench_measured(job.as_mut(), side);
    println!("{}", job.units());
}
