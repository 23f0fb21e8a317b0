//! Compares the library with the reference on a great many inputs. Exits with 1 on the first difference.

use crosscheck::compare::Checked;
use crosscheck::suite::{Effort, Suite, Tally, PARTS};
use crosscheck::{library_under_test, reference, solver};
use std::process::ExitCode;
use std::time::Instant;

const SEED: u64 = 20_250_101;

fn main() -> ExitCode {
    let (seed, effort) = match arguments() {
        Ok(arguments) => arguments,
        Err(message) => {
            eprintln!("{message}\nusage: compare [--seed N] [--short]");
            return ExitCode::from(2);
        }
    };
    println!("seed {seed}");
    let tested = library_under_test();
    if tested.is_none() {
        println!("built without the library: the reference stands on both sides");
    }
    let mut suite = Suite::new(&reference::CALLS, tested.unwrap_or(&reference::CALLS), seed);
    match run(&mut suite, effort) {
        Ok(()) => {
            counts(&suite);
            ExitCode::SUCCESS
        }
        Err(finding) => {
            print!("{finding}");
            ExitCode::FAILURE
        }
    }
}

fn arguments() -> Result<(u64, Effort), String> {
    let (mut seed, mut effort) = (SEED, Effort::FULL);
    let mut arguments = std::env::args().skip(1);
    while let Some(argument) = arguments.next() {
        match argument.as_str() {
            "--seed" => {
                let number = arguments.next().and_then(|number| number.parse().ok());
                seed = number.ok_or("--seed takes a number")?;
            }
            "--short" => effort = Effort::SHORT,
            _ => return Err(format!("{argument} is not known here")),
        }
    }
    Ok((seed, effort))
}

fn run(suite: &mut Suite, effort: Effort) -> Checked<()> {
    for (name, part) in PARTS {
        timed(suite, name, |suite| part(suite, &effort))?;
    }
    if solver::available() {
        let books = effort.solver_books;
        for (kind, pairs) in [("without", false), ("with", true)] {
            let name = format!("flat programs by clingo, {books} books {kind} pairs");
            timed(suite, &name, |suite| suite.solver(books, pairs))?;
        }
        let name = format!("flat programs by clingo, {books} packed ones by hand");
        timed(suite, &name, |suite| suite.solver_of_programs(books))?;
    } else {
        println!("flat programs by clingo: skipped, there is no clingo on the path");
    }
    Ok(())
}

fn total(suite: &Suite) -> u64 {
    suite.comparer.counts().map(|(_, count)| count).sum()
}

fn timed(suite: &mut Suite, name: &str, run: impl FnOnce(&mut Suite) -> Checked<()>) -> Checked<()> {
    let (start, before, books) = (Instant::now(), total(suite), suite.books);
    run(suite)?;
    let (calls, seconds) = (total(suite) - before, start.elapsed().as_secs_f64());
    println!("{name}: {calls} calls, {seconds:.1} s{}", shown(suite.books.since(books)));
    Ok(())
}

fn shown(books: Tally) -> String {
    match books.total() {
        0 => String::new(),
        _ => format!("; books: {} accepted, {} refused for an unused node", books.accepted, books.unused),
    }
}

fn counts(suite: &Suite) {
    let counts: Vec<String> = suite.comparer.counts().map(|(call, count)| format!("{} {count}", call.name())).collect();
    println!("calls compared without a difference: {}; in all {}", counts.join(", "), total(suite));
    let numbers: Vec<String> = suite.comparer.numbers().map(|(number, count)| format!("{number} {count}")).collect();
    println!("numbers that were given, 0 where a call was accepted: {}", numbers.join(", "));
}
