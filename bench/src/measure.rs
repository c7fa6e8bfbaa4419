//! Times, and calls for tools that count instructions.
use crate::sides::Case;
use std::hint::black_box;
use std::time::Instant;

type Call<'a> = &'a dyn Fn() -> usize;

#[inline(never)]
fn seconds(call: Call, times: u64) -> f64 {
    let start = Instant::now();
    for _ in 0..times {
        black_box(call());
    }
    start.elapsed().as_secs_f64()
}

/// Nanoseconds a call, the least and the median: batches of about two milliseconds, the calls taking turns.
pub fn nanoseconds(calls: &[Call], rounds: usize) -> Vec<(f64, f64)> {
    let enough = |call: &Call| {
        (0..)
            .map(|k| 1 << k)
            .find(|times| seconds(*call, *times) > 0.002)
            .unwrap()
    };
    let counts: Vec<u64> = calls.iter().map(enough).collect();
    let mut times = vec![vec![]; calls.len()];
    for round in 0..rounds {
        for turn in 0..calls.len() {
            let k = (turn + round) % calls.len();
            times[k].push(seconds(calls[k], counts[k]) / counts[k] as f64 * 1e9);
        }
    }
    let sorted = times.iter_mut().map(|all| {
        all.sort_by(f64::total_cmp);
        (all[0], all[all.len() / 2])
    });
    sorted.collect()
}

/// A line for each case and side: the least time and the median.
pub fn time(cases: &[Case], rounds: usize) {
    for case in cases {
        let sides = case.sides();
        let calls: Vec<Call> = sides.iter().map(|side| &**side as Call).collect();
        for (name, (least, median)) in case.names().iter().zip(nanoseconds(&calls, rounds)) {
            println!("{} {name} {least:.2} {median:.2}", case.id());
        }
    }
}

// A name that a tool finds.
#[no_mangle]
#[inline(never)]
fn counted(call: Call) {
    black_box(call());
}

/// Calls each side once in `counted`, and prints a line for each such call, in order. The first call, `-`, does nothing.
pub fn count(cases: &[Case]) {
    counted(&|| 0);
    println!("- -");
    for case in cases {
        for (name, side) in case.names().iter().zip(case.sides()) {
            side();
            counted(&*side);
            println!("{} {name}", case.id());
        }
    }
}

/// Calls the one side so many times; for the case `-` it does nothing so many times.
pub fn run(cases: &[Case], id: &str, side: &str, times: u64) {
    let Some(case) = cases.iter().find(|case| case.id() == id) else {
        assert_eq!(id, "-", "no such case");
        seconds(black_box(&|| 0), times);
        return;
    };
    let place = case
        .names()
        .iter()
        .position(|name| *name == side)
        .expect("no such side");
    seconds(&*case.sides()[place], times);
}
