//! Flat programs as text for the solver clingo, and its output read back.

use crate::lists::{Program, Rule};
use std::io::{Error, ErrorKind, Result, Write};
use std::process::{Command, Stdio};

/// Whether clingo can be run here.
pub fn available() -> bool {
    let run = Command::new("clingo").arg("--version").stdout(Stdio::null()).stderr(Stdio::null()).status();
    run.map_or(false, |status| status.success())
}

/// All answer sets that clingo finds, each ascending.
pub fn answer_sets(program: &Program) -> Result<Vec<Vec<usize>>> {
    let mut child = Command::new("clingo")
        .args(["0", "--outf=0", "--warn=none", "-"])
        .stdin(Stdio::piped())
        .stdout(Stdio::piped())
        .stderr(Stdio::piped())
        .spawn()?;
    // Dropping the pipe after the text ends the solver's input.
    child.stdin.take().expect("a pipe").write_all(text(program).as_bytes())?;
    let output = child.wait_with_output()?;
    let printed = String::from_utf8_lossy(&output.stdout);
    parse(&printed).ok_or_else(|| {
        Error::new(
            ErrorKind::Other,
            format!("output not understood:\n{printed}\n{}", String::from_utf8_lossy(&output.stderr)),
        )
    })
}

/// The program in ASP-Core-2, atom i as `xi`.
fn text(program: &Program) -> String {
    program.rules.iter().map(rule).collect()
}

fn rule(rule: &Rule) -> String {
    let heads: Vec<String> = rule.heads.iter().map(|atom| format!("x{atom}")).collect();
    let positives = rule.positives.iter().map(|atom| format!("x{atom}"));
    let negatives = rule.negatives.iter().map(|atom| format!("not x{atom}"));
    let body: Vec<String> = positives.chain(negatives).collect();
    match (heads.is_empty(), body.is_empty()) {
        (false, true) => format!("{}.\n", heads.join(" | ")),
        _ => format!("{} :- {}.\n", heads.join(" | "), body.join(", ")),
    }
}

/// The sets in clingo's output; nothing if it did not come to a result.
fn parse(printed: &str) -> Option<Vec<Vec<usize>>> {
    let mut lines = printed.lines();
    let mut sets = Vec::new();
    while let Some(line) = lines.next() {
        match line.trim() {
            "UNSATISFIABLE" => return sets.is_empty().then_some(sets),
            "SATISFIABLE" => return (!sets.is_empty()).then_some(sets),
            line if line.starts_with("Answer:") => {
                let atoms = lines.next()?.split_whitespace().map(|atom| atom.strip_prefix('x')?.parse().ok());
                let mut set: Vec<usize> = atoms.collect::<Option<_>>()?;
                set.sort_unstable();
                sets.push(set);
            }
            _ => {}
        }
    }
    None
}

#[cfg(test)]
mod tests {
    use super::*;

    #[test]
    fn writes_rules() {
        let rules = vec![
            Rule::new(&[0, 2], &[], &[]),
            Rule::new(&[1], &[0], &[2]),
            Rule::new(&[], &[0, 1], &[]),
            Rule::new(&[], &[], &[]),
        ];
        let program = Program { atoms: 1, all: 3, rules };
        assert_eq!(text(&program), "x0 | x2.\nx1 :- x0, not x2.\n :- x0, x1.\n :- .\n");
    }

    #[test]
    fn reads_output() {
        let printed = "clingo version 5.4.1\nReading from stdin\nSolving...\nAnswer: 1\nx10 x2\nAnswer: 2\n\nSATISFIABLE\n\nModels       : 2\n";
        assert_eq!(parse(printed), Some(vec![vec![2, 10], vec![]]));
        assert_eq!(parse("Solving...\nUNSATISFIABLE\n\nModels : 0\n"), Some(vec![]));
        assert_eq!(parse("Solving...\n"), None);
        assert_eq!(parse("Answer: 1\nx0 y\nSATISFIABLE\n"), None);
    }
}
