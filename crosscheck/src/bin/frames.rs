//! Prints a bound on the stack of each public call, by the frames of the compiled code in the archive that the first
//! argument names. The second is the objdump to read it with, if that has another name.

use crosscheck::calls::Call;
use crosscheck::frames::Bounds;
use std::env;
use std::process::{Command, ExitCode};

fn main() -> ExitCode {
    let arguments: Vec<String> = env::args().skip(1).collect();
    let (archive, objdump) = match &arguments[..] {
        [archive] => (archive.as_str(), "objdump"),
        [archive, objdump] => (archive.as_str(), objdump.as_str()),
        _ => {
            eprintln!("usage: frames ARCHIVE [OBJDUMP]");
            return ExitCode::from(2);
        }
    };
    match print(archive, objdump) {
        Ok(()) => ExitCode::SUCCESS,
        Err(why) => {
            eprintln!("{why}");
            ExitCode::FAILURE
        }
    }
}

fn print(archive: &str, objdump: &str) -> Result<(), String> {
    let text = printed(objdump, &["-d", "--no-show-raw-insn", archive])? + &printed(objdump, &["-r", archive])?;
    let bounds = Bounds::read(&text)?;
    if let Some(call) = Call::ALL.into_iter().find(|call| !bounds.cover(*call)) {
        return Err(format!("{archive} has no code of {}", call.function()));
    }
    println!("stack in bytes, at most, by the frames of the compiled code\n{:<17} {:>6}  path", "call", "bound");
    print!("{bounds}");
    Ok(())
}

/// What objdump prints with these arguments.
fn printed(objdump: &str, arguments: &[&str]) -> Result<String, String> {
    let run = Command::new(objdump).env("LC_ALL", "C").args(arguments).output();
    let output = run.map_err(|why| format!("{objdump}: {why}"))?;
    if !output.status.success() {
        return Err(format!("{objdump}: {}", String::from_utf8_lossy(&output.stderr).trim()));
    }
    String::from_utf8(output.stdout).map_err(|why| format!("{objdump}: {why}"))
}
