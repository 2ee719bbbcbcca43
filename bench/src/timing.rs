//! Both sides' times for one job, taken in turns.

use std::time::{Duration, Instant};

const BATCH_TIME: Duration = Duration::from_micros(500);

/// Prints the medians of an odd number of rounds and their ratio.
pub fn compare_times(
    name: &str,
    rounds: usize,
    mut library: impl FnMut(),
    mut reader: impl FnMut(),
) {
    let calls = calls_in_a_batch(&mut reader);
    let [library, reader] = medians(rounds, calls, [&mut library, &mut reader]);
    println!(
        "{name}: library {library:.2} µs, plain Rust {reader:.2} µs, ratio {:.2}",
        library / reader
    );
}

/// The median times of so many calls of each side; every second round goes backwards.
pub fn medians<const SIDES: usize>(
    rounds: usize,
    calls: u32,
    mut sides: [&mut dyn FnMut(); SIDES],
) -> [f64; SIDES] {
    let mut times = [(); SIDES].map(|()| Vec::new());
    for round in 0..rounds {
        for turn in 0..SIDES {
            let side = if round % 2 == 0 {
                turn
            } else {
                SIDES - 1 - turn
            };
            times[side].push(time(calls, &mut sides[side]));
        }
    }
    times.map(median)
}

fn calls_in_a_batch(call: &mut impl FnMut()) -> u32 {
    let start = Instant::now();
    let mut calls = 0;
    while start.elapsed() < BATCH_TIME {
        call();
        calls += 1;
    }
    calls
}

/// Microseconds for one call.
fn time(calls: u32, call: &mut impl FnMut()) -> f64 {
    let start = Instant::now();
    for _ in 0..calls {
        call();
    }
    start.elapsed().as_secs_f64() * 1e6 / f64::from(calls)
}

fn median(mut times: Vec<f64>) -> f64 {
    times.sort_by(f64::total_cmp);
    times[times.len() / 2]
}
