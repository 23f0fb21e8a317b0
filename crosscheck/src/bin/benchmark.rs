//! Times each call of the library against the reference, on the same inputs in the same run, and measures its stack.

use crosscheck::calls::Calls;
use crosscheck::inputs::{self, Input};
use crosscheck::stack;
use crosscheck::tables::{sides, Measure};
use std::time::{Duration, Instant};

/// How long one sample lasts at least, and all samples of a row at most, if there are enough of them.
const SAMPLE: Duration = Duration::from_micros(300);
const ROW: Duration = Duration::from_millis(400);
const FEWEST: usize = 5;
const MOST: usize = 201;

fn main() {
    let sides = sides();
    if sides.len() == 1 {
        println!("built without the library: times of the reference alone\n");
    }
    Measure { unit: "ns", cost: &mut |input| times(&sides, input), shown }.print();
    stacks(&sides);
}

fn shown(nanoseconds: f64) -> String {
    let (number, unit) = match nanoseconds {
        ns if ns < 1e3 => (ns, "ns"),
        ns if ns < 1e6 => (ns / 1e3, "us"),
        ns => (ns / 1e6, "ms"),
    };
    format!("{number:.2} {unit}")
}

/// The median time of a call on each side, in nanoseconds. The sides take turns, sample by sample.
fn times(sides: &[&Calls], input: &Input) -> Vec<f64> {
    let mut out = vec![0; input.room];
    let mut sample = |side: &Calls, batch: usize| {
        let start = Instant::now();
        for _ in 0..batch {
            input.run(side, &mut out);
        }
        start.elapsed()
    };
    let batches: Vec<usize> = sides
        .iter()
        .map(|side| {
            // Once before anything is measured: the first call is the slowest.
            sample(side, 1);
            let mut batch = 1;
            while sample(side, batch) < SAMPLE {
                batch *= 2;
            }
            batch
        })
        .collect();
    let mut times = vec![Vec::new(); sides.len()];
    let start = Instant::now();
    while times[0].len() < FEWEST || times[0].len() < MOST && start.elapsed() < ROW {
        for (side, times) in times.iter_mut().enumerate() {
            let elapsed = sample(sides[side], batches[side]);
            times.push(1e9 * elapsed.as_secs_f64() / batches[side] as f64);
        }
    }
    times.into_iter().map(median).collect()
}

fn median(mut times: Vec<f64>) -> f64 {
    times.sort_by(f64::total_cmp);
    times[times.len() / 2]
}

/// Prints the stack that each call uses on each side.
fn stacks(sides: &[&Calls]) {
    println!(
        "\nstack in bytes, to the deepest byte changed\n{:<17} {:<40} {:>12} {:>12}",
        "call", "input", "plain", "library"
    );
    for input in inputs::all() {
        let mut out = vec![0; input.room];
        let used = sides.iter().map(|side| {
            let bytes = stack::used(|| {
                input.run(side, &mut out);
            });
            let small = if bytes == stack::SKIPPED { "at most " } else { "" };
            format!("{:>12}", format!("{small}{bytes}"))
        });
        println!("{:<17} {:<40} {}", input.call.function(), input.name, used.collect::<Vec<_>>().join(" "));
    }
}
