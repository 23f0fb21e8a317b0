//! The nine public calls in plain Rust: bounds-checked, without allocation, each image walked front to back.

mod flatten;
mod form;
mod program;
mod theory;
mod value;

use crate::calls::{Answer, Calls};
use crate::node::Node;
use form::{Fixed, Form, Packed};
use program::{Program, MOST_ALL};
use theory::{Theory, MOST_ATOMS, NO_VALUES};

pub const CALLS: Calls = Calls {
    name: "reference",
    check_theory,
    evaluate_theory,
    translate,
    extend,
    test_theory,
    list_sets,
    check_program,
    evaluate_program,
    test_program,
};

const HEADER: usize = 16;
const MOST_TRUE: usize = 16;
const MOST_LISTED: usize = 12;

/// A row of the refusal table, with its place.
pub struct Refusal {
    number: u32,
    place: usize,
}

type Outcome<T> = Result<T, Refusal>;

fn refuse<T>(number: u32, place: usize) -> Outcome<T> {
    Err(Refusal { number, place })
}

fn answer(outcome: Outcome<usize>) -> Answer {
    match outcome {
        Ok(result) => Answer { number: 0, place: 0, result },
        Err(Refusal { number, place }) => Answer { number, place, result: 0 },
    }
}

/// The bytes in groups of `N`.
fn groups<const N: usize>(bytes: &[u8]) -> impl Iterator<Item = &[u8; N]> {
    bytes.chunks_exact(N).map(|group| group.try_into().expect("a whole group"))
}

/// The 2-byte number at `at`.
fn half(bytes: &[u8], at: usize) -> usize {
    usize::from(u16::from_le_bytes([bytes[at], bytes[at + 1]]))
}

/// The 4-byte number at `at`.
fn word(bytes: &[u8], at: usize) -> usize {
    u32::from_le_bytes([bytes[at], bytes[at + 1], bytes[at + 2], bytes[at + 3]]) as usize
}

pub fn check_theory(theory: &[u8]) -> Answer {
    answer(Theory::check(theory).map(|_| 1))
}

pub fn evaluate_theory(theory: &[u8], reading: &[u8]) -> Answer {
    answer(try_evaluate_theory(theory, reading))
}

pub fn translate(theory: &[u8], packed: bool, out: &mut [u8]) -> Answer {
    answer(match packed {
        true => try_translate::<Packed>(theory, out),
        false => try_translate::<Fixed>(theory, out),
    })
}

pub fn extend(theory: &[u8], reading: &[u8], out: &mut [u8]) -> Answer {
    answer(try_extend(theory, reading, out))
}

pub fn test_theory(theory: &[u8], candidate: &[u8]) -> Answer {
    answer(try_test_theory(theory, candidate))
}

pub fn list_sets(theory: &[u8], out: &mut [u8]) -> Answer {
    answer(try_list_sets(theory, out))
}

pub fn check_program(program: &[u8]) -> Answer {
    answer(Program::check(program).map(|_| 1))
}

pub fn evaluate_program(program: &[u8], reading: &[u8]) -> Answer {
    answer(try_evaluate_program(program, reading))
}

pub fn test_program(program: &[u8], candidate: &[u8]) -> Answer {
    answer(try_test_program(program, candidate))
}

fn try_evaluate_theory(theory: &[u8], reading: &[u8]) -> Outcome<usize> {
    let theory = Theory::check(theory)?;
    check_reading(reading, theory.atoms)?;
    let mut values = NO_VALUES;
    Ok(usize::from(theory.satisfied(reading, &mut values)))
}

fn try_translate<F: Form>(theory: &[u8], out: &mut [u8]) -> Outcome<usize> {
    let theory = Theory::check(theory)?;
    let mut terms = flatten::NO_TERMS;
    let size = flatten::measure(&theory, &mut terms);
    let out = check_room(out, HEADER + F::length(size.rules, size.literals))?;
    let length = out.len() as u32;
    let (header, body) = out.split_at_mut(HEADER);
    header[0..2].copy_from_slice(&(theory.atoms as u16).to_le_bytes());
    header[2..4].copy_from_slice(&(size.all as u16).to_le_bytes());
    header[4..6].copy_from_slice(&(size.rules as u16).to_le_bytes());
    header[6..8].copy_from_slice(&u16::from(F::PACKED).to_le_bytes());
    header[8..12].copy_from_slice(&(HEADER as u32).to_le_bytes());
    header[12..16].copy_from_slice(&length.to_le_bytes());
    flatten::write::<F>(&theory, &terms, body);
    Ok(size.rules)
}

fn try_extend(theory: &[u8], reading: &[u8], out: &mut [u8]) -> Outcome<usize> {
    let theory = Theory::check(theory)?;
    check_reading(reading, theory.atoms)?;
    let all = theory.all();
    let out = check_room(out, all)?;
    let mut values = NO_VALUES;
    theory.evaluate(reading, &mut values);
    let (given, labels) = out.split_at_mut(theory.atoms);
    given.copy_from_slice(reading);
    let mut labels = labels.iter_mut();
    let mut put = |value: value::Value| *labels.next().expect("the labels were counted") = value.byte();
    for (node, &value) in theory.nodes().zip(&values) {
        match node {
            Node::False | Node::True | Node::Atom(_) => {}
            Node::Not(_) | Node::And(..) | Node::Or(..) => put(value),
            Node::Implies(_, right) => {
                put(value);
                put(values[right].not());
            }
        }
    }
    Ok(all)
}

fn try_test_theory(theory: &[u8], candidate: &[u8]) -> Outcome<usize> {
    let theory = Theory::check(theory)?;
    let truths = check_candidate(candidate, theory.atoms)?;
    let mut reading = [0; MOST_ATOMS];
    let reading = &mut reading[..theory.atoms];
    let mut values = NO_VALUES;
    Ok(usize::from(is_answer_set(reading, truths.list(), |reading| theory.satisfied(reading, &mut values))))
}

fn try_list_sets(theory: &[u8], out: &mut [u8]) -> Outcome<usize> {
    let theory = Theory::check(theory)?;
    if theory.atoms > MOST_LISTED {
        return refuse(11, theory.atoms);
    }
    let mut found = [0u16; 1 << MOST_LISTED];
    let mut count = 0;
    let mut values = NO_VALUES;
    for set in 0..1u16 << theory.atoms {
        let mut truths = Truths::default();
        (0..theory.atoms).filter(|atom| set >> atom & 1 == 1).for_each(|atom| truths.push(atom));
        let mut reading = [0; MOST_LISTED];
        let reading = &mut reading[..theory.atoms];
        if is_answer_set(reading, truths.list(), |reading| theory.satisfied(reading, &mut values)) {
            found[count] = set;
            count += 1;
        }
    }
    let out = check_room(out, 2 * count)?;
    for (bytes, set) in out.chunks_exact_mut(2).zip(&found) {
        bytes.copy_from_slice(&set.to_le_bytes());
    }
    Ok(count)
}

fn try_evaluate_program(program: &[u8], reading: &[u8]) -> Outcome<usize> {
    let program = Program::check(program)?;
    check_reading(reading, program.all)?;
    Ok(usize::from(program.satisfied(reading)))
}

fn try_test_program(program: &[u8], candidate: &[u8]) -> Outcome<usize> {
    let program = Program::check(program)?;
    let truths = check_candidate(candidate, program.all)?;
    let mut reading = [0; MOST_ALL];
    let reading = &mut reading[..program.all];
    Ok(usize::from(is_answer_set(reading, truths.list(), |reading| program.satisfied(reading))))
}

/// Rows 9 and 10 for an interpretation.
fn check_reading(reading: &[u8], atoms: usize) -> Outcome<()> {
    if reading.len() != atoms {
        return refuse(9, atoms);
    }
    match reading.iter().position(|&byte| byte > 2) {
        Some(bad) => refuse(10, bad),
        None => Ok(()),
    }
}

/// Rows 9, 10 and 11 for a candidate; gives its true atoms.
fn check_candidate(candidate: &[u8], atoms: usize) -> Outcome<Truths> {
    if candidate.len() != atoms {
        return refuse(9, atoms);
    }
    if let Some(bad) = candidate.iter().position(|&byte| byte != 0 && byte != 2) {
        return refuse(10, bad);
    }
    let truths = candidate.iter().filter(|&&byte| byte == 2).count();
    if truths > MOST_TRUE {
        return refuse(11, truths);
    }
    let mut list = Truths::default();
    (0..atoms).filter(|&atom| candidate[atom] == 2).for_each(|atom| list.push(atom));
    Ok(list)
}

/// Row 8; gives the part of the buffer that will be written.
fn check_room(out: &mut [u8], needed: usize) -> Outcome<&mut [u8]> {
    match out.get_mut(..needed) {
        Some(part) => Ok(part),
        None => refuse(8, needed),
    }
}

/// The true atoms of a candidate.
#[derive(Default)]
struct Truths {
    atoms: [usize; MOST_TRUE],
    count: usize,
}

impl Truths {
    fn push(&mut self, atom: usize) {
        self.atoms[self.count] = atom;
        self.count += 1;
    }

    fn list(&self) -> &[usize] {
        &self.atoms[..self.count]
    }
}

/// Whether `truths` is an answer set of what `satisfied` judges. `reading` comes in as zeros.
fn is_answer_set(reading: &mut [u8], truths: &[usize], mut satisfied: impl FnMut(&[u8]) -> bool) -> bool {
    truths.iter().for_each(|&atom| reading[atom] = 2);
    if !satisfied(reading) {
        return false;
    }
    truths.iter().for_each(|&atom| reading[atom] = 1);
    for _proper_subset in 1..1u32 << truths.len() {
        if satisfied(reading) {
            return false;
        }
        step(reading, truths);
    }
    true
}

/// Goes on to the next subset, as if one were added to a binary number: `truths` are its places, the lowest first, 1
/// stands for its digit 0 and 2 for its digit 1.
fn step(reading: &mut [u8], truths: &[usize]) {
    for &atom in truths {
        if reading[atom] == 1 {
            reading[atom] = 2;
            return;
        }
        reading[atom] = 1;
    }
}

#[cfg(test)]
mod tests;
