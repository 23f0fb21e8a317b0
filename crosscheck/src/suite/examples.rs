//! Examples worked out beforehand, and flat programs under a solver that is none of ours.

use super::{all_readings, demand, sets, Suite};
use crate::calls::Call;
use crate::compare::{hex, Checked, Finding};
use crate::lists::{self, Book, Program, Set};
use crate::worked::{self, Equivalence, Example, Models};
use crate::{generate, solver};

impl Suite<'_> {
    /// The bench cases, the examples of the papers and small books with pairs.
    pub fn worked_examples(&mut self) -> Checked<()> {
        for example in [worked::cases(), worked::examples(), worked::pairs()].iter().flatten() {
            self.example(example)?;
        }
        for models in worked::models() {
            self.models(&models)?;
        }
        for equivalence in worked::equivalences() {
            self.equivalence(&equivalence)?;
        }
        Ok(())
    }

    fn example(&mut self, Example { source, book, sets: expected }: &Example) -> Checked<()> {
        let image = book.image();
        let (_, bytes) = self.output(Call::ListSets, &image, &[], 2 * expected.len() + 6)?;
        let found = sets(&bytes);
        demand(found == *expected, Call::ListSets, &image, || {
            format!("{source}: the sets should be {expected:?}, they are {found:?}")
        })?;
        demand(book.answer_sets() == *expected, Call::ListSets, &image, || {
            format!("{source}: brute force differs from the table")
        })?;
        let readings = if book.atoms <= 3 { all_readings(book.atoms) } else { vec![] };
        let candidates: Vec<Vec<u8>> = expected.iter().map(|&set| lists::reading(set, set, book.atoms)).collect();
        self.book(book, &readings, &candidates, true)
    }

    fn models(&mut self, Models { source, book, worlds }: &Models) -> Checked<()> {
        let image = book.image();
        let listed: Vec<Vec<u8>> =
            worlds.iter().map(|&(here, there)| lists::reading(here, there, book.atoms)).collect();
        for reading in all_readings(book.atoms) {
            let satisfied = self.accepted(Call::EvaluateTheory, &image, &reading)? == 1;
            demand(satisfied == listed.contains(&reading), Call::EvaluateTheory, &image, || {
                format!("{source}: {} is on the wrong side", hex(&reading))
            })?;
        }
        Ok(())
    }

    fn equivalence(&mut self, Equivalence { source, left, right, holds }: &Equivalence) -> Checked<()> {
        let [first, second] = [left, right].map(|book| book.image());
        let mut equal = true;
        for reading in all_readings(left.atoms) {
            let value = self.accepted(Call::EvaluateTheory, &first, &reading)?;
            equal &= value == self.accepted(Call::EvaluateTheory, &second, &reading)?;
        }
        demand(equal == *holds, Call::EvaluateTheory, &first, || format!("{source}: beside {}", hex(&second)))
    }

    /// The answer sets of the flat programs of so many books by a solver. Each book has pairs, or none has.
    pub fn solver(&mut self, books: usize, pairs: bool) -> Checked<()> {
        for _ in 0..books {
            let book = if pairs { self.small_book_with_pairs() } else { self.small_book() };
            self.solved(&book)?;
        }
        Ok(())
    }

    /// The answer sets of so many packed programs by a solver, by the test of every candidate and by brute force.
    pub fn solver_of_programs(&mut self, programs: usize) -> Checked<()> {
        for _ in 0..programs {
            let program = self.small_program();
            let sets = self.sets_of_program(&program)?;
            let members = |set: &Set| (0..program.all).filter(|atom| set >> atom & 1 == 1).collect::<Vec<usize>>();
            let mut expected: Vec<Vec<usize>> = sets.iter().map(members).collect();
            expected.sort_unstable();
            let packed = program.packed();
            let found = found_by_solver(&Program::read(&packed))?;
            demand(found == expected, Call::TestProgram, &packed, || {
                format!("the solver finds {found:?}, the test {expected:?}")
            })?;
        }
        Ok(())
    }

    /// A small program of rules of up to eight literals. In half of them what was positive is a head, so that fewer
    /// programs have no set but the empty one.
    fn small_program(&mut self) -> Program {
        let (all, rules) = (self.random.within(1, 6), self.random.within(1, 8));
        let mut program = generate::program(&mut self.random, 0, all, rules, 8);
        for rule in program.rules.iter_mut().filter(|_| self.random.chance(50)) {
            rule.heads.append(&mut rule.positives);
        }
        program
    }

    /// A small book without pairs.
    fn small_book(&mut self) -> Book {
        let (atoms, nodes, roots) = (self.random.below(7), self.random.below(22), self.random.below(5));
        generate::book(&mut self.random, atoms, nodes, roots, 0)
    }

    /// The solver finds the sets that the listing gives, with the labels that extension gives, and so does brute force.
    fn solved(&mut self, book: &Book) -> Checked<()> {
        let image = book.image();
        let listed = self.listed(book)?;
        let flat = book.flat();
        let [_, packed] = self.translations(&image, &flat)?;
        let mut expected = Vec::with_capacity(listed.len());
        for &set in &listed {
            let (_, extended) = self.output(Call::Extend, &image, &lists::reading(set, set, book.atoms), flat.all)?;
            expected.push((0..flat.all).filter(|&atom| extended[atom] == 2).collect::<Vec<usize>>());
        }
        expected.sort_unstable();
        let found = found_by_solver(&Program::read(&packed))?;
        demand(found == expected, Call::ListSets, &image, || {
            format!("the solver finds {found:?} for the program, the listing with labels gives {expected:?}")
        })?;
        let forced = book.answer_sets();
        demand(listed == forced, Call::ListSets, &image, || format!("brute force gives {forced:?}"))
    }
}

/// The answer sets that the solver finds, ascending.
fn found_by_solver(program: &Program) -> Checked<Vec<Vec<usize>>> {
    let mut found =
        solver::answer_sets(program).map_err(|error| Finding(format!("the solver could not be asked: {error}\n")))?;
    found.sort_unstable();
    Ok(found)
}

#[cfg(test)]
mod tests {
    use super::*;
    use crate::reference;

    #[test]
    fn small_programs_with_no_set_with_one_and_with_more() {
        let mut suite = Suite::new(&reference::CALLS, &reference::CALLS, 1);
        let programs: Vec<Program> = (0..400).map(|_| suite.small_program()).collect();
        assert!(programs.iter().flat_map(|program| &program.rules).all(|rule| rule.literals() <= 8));
        let sets: Vec<Vec<Set>> = programs.iter().map(Program::answer_sets).collect();
        let counts = [0, 1, 2].map(|least| sets.iter().filter(|sets| sets.len() >= least).count());
        assert!(counts[1] > 200 && counts[2] > 50 && counts[0] > counts[1] + 100, "{counts:?}");
        assert!(sets.iter().filter(|sets| sets.iter().any(|&set| set != 0)).count() > 150);
    }
}
