//! What labels promise, tried out on small books in full.
//!
//! For every reading and every value of every label: the program is satisfied exactly where the reading satisfies the
//! book and the labels have the values that extension gives. And with further formulas over the book's atoms beside it,
//! the program has the answer sets of book and formulas together, one for one, once labels are dropped.

use super::{all_readings, demand, number, power_of_three, sets, Suite};
use crate::calls::Call;
use crate::compare::{hex, Checked};
use crate::generate;
use crate::lists::{self, Book, Set};

impl Suite<'_> {
    /// Random books small enough for that.
    pub fn labels(&mut self, books: usize) -> Checked<()> {
        let mut tried = 0;
        while tried < books {
            let (atoms, nodes, roots) = (self.random.below(4), self.random.below(7), self.random.below(4));
            let pairs = self.random.below(3);
            let book = generate::book(&mut self.random, atoms, nodes, roots, pairs);
            let all = book.flat().all;
            if all > 8 || all == atoms && !self.random.chance(20) {
                continue;
            }
            tried += 1;
            self.labels_of(&book, all)?;
        }
        Ok(())
    }

    /// Every reading with every value of every label, and three times further formulas.
    fn labels_of(&mut self, book: &Book, all: usize) -> Checked<()> {
        let image = book.image();
        let programs = self.translations(&image, &book.flat())?;
        let mut satisfied = vec![false; power_of_three(all)];
        for reading in all_readings(book.atoms) {
            let in_book = self.accepted(Call::EvaluateTheory, &image, &reading)? == 1;
            let (_, own) = self.output(Call::Extend, &image, &reading, all)?;
            for labels in all_readings(all - book.atoms) {
                let extended = [&reading[..], &labels].concat();
                let in_program = self.alike(Call::EvaluateProgram, &programs, &extended)? == 1;
                demand(in_program == (in_book && extended == own), Call::EvaluateProgram, &programs[0], || {
                    format!(
                        "{} {}, and the extension is {}",
                        hex(&extended),
                        ["fails", "satisfies"][usize::from(in_program)],
                        hex(&own)
                    )
                })?;
                satisfied[number(&extended)] = in_program;
            }
        }
        for _ in 0..3 {
            let (nodes, roots, pairs) = (self.random.below(9), self.random.below(3), self.random.below(2));
            let further = generate::book(&mut self.random, book.atoms, nodes, roots, pairs);
            self.labels_beside(book, &further, all, &satisfied)?;
        }
        Ok(())
    }

    /// The answer sets of a book with `further` formulas, found by evaluation, by the listing and by the program, of
    /// which `satisfied` says what satisfies it.
    fn labels_beside(&mut self, book: &Book, further: &Book, all: usize, satisfied: &[bool]) -> Checked<()> {
        let both = book.beside(further).image();
        let answer = self.comparer.expect(Call::ListSets, &both, &[], 64, 0, None)?;
        let listed = sets(self.comparer.written());
        demand(listed.len() == answer.result, Call::ListSets, &both, || "the count is not the list's".into())?;

        let image = further.image();
        let mut allowed = vec![false; power_of_three(book.atoms)];
        let mut together = allowed.clone();
        for reading in all_readings(book.atoms) {
            allowed[number(&reading)] = self.accepted(Call::EvaluateTheory, &image, &reading)? == 1;
            together[number(&reading)] = self.accepted(Call::EvaluateTheory, &both, &reading)? == 1;
        }
        let of = |here: &[bool], there: &[bool]| -> Vec<u8> {
            here.iter().zip(there).map(|(&here, &there)| u8::from(here) + u8::from(there)).collect()
        };
        let direct = lists::answer_sets(book.atoms, |here, there| together[number(&of(here, there))]);
        demand(direct == listed, Call::ListSets, &both, || format!("evaluation gives the sets {direct:?}"))?;
        let mut dropped: Vec<Set> = lists::answer_sets(all, |here, there| {
            let reading = of(here, there);
            satisfied[number(&reading)] && allowed[number(&reading[..book.atoms])]
        })
        .into_iter()
        .map(|set| set & ((1 << book.atoms) - 1))
        .collect();
        dropped.sort_unstable();
        demand(dropped == listed, Call::Translate, &book.image(), || {
            format!("beside {} the program's sets without labels are {dropped:?}, the book's {listed:?}", hex(&image))
        })
    }
}
