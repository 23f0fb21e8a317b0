//! Counts the instructions that each call executes, on the inputs of the benchmark. It runs under qemu-user with the
//! plugin that `plugin/counter.rs` becomes, and reads the counts from the file that the plugin writes.

use crosscheck::calls::Calls;
use crosscheck::inputs::Input;
use crosscheck::tables::{sides, Measure};
use std::process::ExitCode;
use std::{env, fs, thread};

fn main() -> ExitCode {
    let file = match env::args().nth(1) {
        Some(file) if fs::write(&file, "").is_ok() && executed(&file, || ()).is_some() => file,
        _ => {
            eprintln!("instructions are counted under an emulator: crosscheck/run instructions");
            return ExitCode::from(2);
        }
    };
    let sides = sides();
    Measure {
        unit: "instructions",
        cost: &mut |input| sides.iter().map(|side| instructions(&file, side, input)).collect(),
        shown: |number| number.to_string(),
    }
    .print();
    ExitCode::SUCCESS
}

/// The instructions of a call on one side. It is counted twice; two numbers would mean that they say nothing.
fn instructions(file: &str, side: &Calls, input: &Input) -> f64 {
    let mut out = vec![0; input.room];
    let mut count = || {
        let empty = executed(file, || ()).expect("a count");
        let call = executed(file, || {
            input.run(side, &mut out);
        });
        call.expect("a count") - empty
    };
    let (first, second) = (count(), count());
    assert_eq!(first, second, "{} of {} on {}", input.call.name(), side.name, input.name);
    first as f64
}

/// The instructions from one sign to the plugin to the next, and `run` between them; nothing where no plugin counts.
fn executed(file: &str, run: impl FnOnce()) -> Option<u64> {
    thread::yield_now();
    run();
    thread::yield_now();
    fs::read_to_string(file).ok()?.parse().ok()
}
