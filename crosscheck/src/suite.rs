//! The inputs on which two implementations are compared, part by part.
//!
//! Beside the comparison, most parts know what the answer must be, from [`crate::lists`] or because the input was made
//! so; then both sides must also agree with that.

mod books;
mod candidates;
mod examples;
mod labels;
mod packed;
mod pairs;
mod programs;
mod refusals;
mod unused;

use crate::calls::{Answer, Call, Calls};
use crate::compare::{hex, Checked, Comparer, Finding};
use crate::lists::{get2, Book, Set};
use crate::random::Random;
use crate::{damage, generate};

/// How much of each part to run.
#[derive(Clone, Copy)]
pub struct Effort {
    /// How often each two rows are broken, for each call.
    pub damages: usize,
    pub mutations: usize,
    /// Of the small books that are listed in full, and of the false atoms beside a candidate, one in so many.
    pub stride: usize,
    pub small_books: usize,
    pub large_books: usize,
    pub small_programs: usize,
    pub large_programs: usize,
    /// Books all of whose readings and label values are tried.
    pub labelled_books: usize,
    /// Small books with pairs, all of whose readings and sets are tried.
    pub paired_books: usize,
    /// Programs for each way to split up to eight literals into heads, positives and negatives.
    pub split_programs: usize,
    /// Packed images whose rules are random bytes.
    pub random_rules: usize,
    /// Of the candidates of which many atoms are true, one in so many.
    pub many_truths: usize,
    /// Books with pairs for the solver, and as many without, and as many packed programs.
    pub solver_books: usize,
}

impl Effort {
    pub const FULL: Effort = Effort {
        damages: 100,
        mutations: 60_000,
        stride: 1,
        small_books: 15_000,
        large_books: 1_000,
        small_programs: 15_000,
        large_programs: 500,
        labelled_books: 2_000,
        paired_books: 2_000,
        split_programs: 6,
        random_rules: 60_000,
        many_truths: 11,
        solver_books: 400,
    };
    pub const SHORT: Effort = Effort {
        damages: 2,
        mutations: 300,
        stride: 40,
        small_books: 300,
        large_books: 20,
        small_programs: 300,
        large_programs: 10,
        labelled_books: 8,
        paired_books: 20,
        split_programs: 1,
        random_rules: 300,
        many_truths: 211,
        solver_books: 10,
    };
}

type Part = fn(&mut Suite, &Effort) -> Checked<()>;

/// The parts by name. The solver is not among them, since it is not everywhere.
pub const PARTS: [(&str, Part); 15] = [
    ("worked examples", |suite, _| suite.worked_examples()),
    ("broken nodes", |suite, _| suite.broken_nodes()),
    ("broken pairs", |suite, _| suite.broken_pairs()),
    ("broken packed programs", |suite, effort| suite.broken_packed(effort.random_rules)),
    ("unused nodes", |suite, _| suite.unused_nodes()),
    ("limits", |suite, _| suite.limits()),
    ("damaged images and arguments", |suite, effort| suite.damaged(effort.damages)),
    ("mutated images", |suite, effort| suite.mutated(effort.mutations)),
    ("every small book", |suite, effort| suite.every_small_book(effort.stride)),
    ("random books", |suite, effort| suite.random_books(effort.small_books, effort.large_books)),
    ("random programs", |suite, effort| suite.random_programs(effort.small_programs, effort.large_programs)),
    ("rules of up to eight literals", |suite, effort| suite.packed_programs(effort.split_programs)),
    ("labels of small books", |suite, effort| suite.labels(effort.labelled_books)),
    ("small books with pairs", |suite, effort| suite.paired_books(effort.paired_books)),
    ("candidates and their subsets", |suite, effort| suite.candidates(effort.many_truths, effort.stride)),
];

/// Two implementations and the random numbers that drive their comparison.
pub struct Suite<'c> {
    pub comparer: Comparer<'c>,
    random: Random,
    /// The books that were given to every call.
    pub books: Tally,
}

/// How many books were accepted, and how many refused for a node that nothing uses.
#[derive(Clone, Copy, Default)]
pub struct Tally {
    pub accepted: usize,
    pub unused: usize,
}

impl Tally {
    /// What has come since.
    pub fn since(self, before: Tally) -> Tally {
        Tally { accepted: self.accepted - before.accepted, unused: self.unused - before.unused }
    }

    pub fn total(self) -> usize {
        self.accepted + self.unused
    }
}

impl<'c> Suite<'c> {
    pub fn new(first: &'c Calls, second: &'c Calls, seed: u64) -> Suite<'c> {
        Suite { comparer: Comparer::new(first, second), random: Random::new(seed), books: Tally::default() }
    }

    /// Runs a call without a buffer that must be accepted.
    fn accepted(&mut self, call: Call, image: &[u8], reading: &[u8]) -> Checked<usize> {
        Ok(self.comparer.expect(call, image, reading, 0, 0, None)?.result)
    }

    /// Runs a call that must be accepted with the result yes.
    fn yes(&mut self, call: Call, image: &[u8], reading: &[u8]) -> Checked<()> {
        self.gives(call, image, reading, 1)
    }

    /// Runs a call that must be accepted with this result.
    fn gives(&mut self, call: Call, image: &[u8], reading: &[u8], expected: usize) -> Checked<()> {
        let result = self.accepted(call, image, reading)?;
        demand(result == expected, call, image, || format!("with {} the result should be {expected}", hex(reading)))
    }

    /// Runs a call on the images of one program, which must accept it and agree on the result.
    fn alike(&mut self, call: Call, images: &[Vec<u8>], reading: &[u8]) -> Checked<usize> {
        let expected = self.accepted(call, &images[0], reading)?;
        for image in &images[1..] {
            self.gives(call, image, reading, expected)?;
        }
        Ok(expected)
    }

    /// Runs a call that writes, and is accepted in `room` bytes; gives a copy of what it wrote.
    fn output(&mut self, call: Call, image: &[u8], reading: &[u8], room: usize) -> Checked<(Answer, Vec<u8>)> {
        let answer = self.comparer.expect(call, image, reading, room, 0, None)?;
        Ok((answer, self.comparer.written().to_vec()))
    }

    /// The answer sets of a book by the listing.
    fn listed(&mut self, book: &Book) -> Checked<Vec<Set>> {
        let (_, bytes) = self.output(Call::ListSets, &book.image(), &[], 2 << book.atoms)?;
        Ok(sets(&bytes))
    }

    /// A call that writes, in buffers too short, empty, exact and larger; gives what it wrote.
    fn rooms(&mut self, call: Call, image: &[u8], reading: &[u8], needed: usize) -> Checked<(Answer, Vec<u8>)> {
        if needed > 0 {
            let inside = self.random.below(needed);
            for room in [0, inside, needed - 1] {
                self.comparer.expect(call, image, reading, room, 8, Some(needed))?;
            }
        }
        let more = needed + self.random.within(1, 40);
        let larger = self.output(call, image, reading, more)?;
        let exact = self.output(call, image, reading, needed)?;
        demand(larger == exact, call, image, || "a larger buffer changes what is written".into())?;
        Ok(exact)
    }

    /// Interpretations that are too short, too long or hold a wrong byte.
    fn bad_readings(&mut self, calls: &[Call], image: &[u8], atoms: usize) -> Checked<()> {
        let call = self.random.pick(calls);
        let room = if call.writes() { self.random.pick(&[0, 4096]) } else { 0 };
        let mut reading = generate::candidate(&mut self.random, atoms, 5);
        let place = damage::reading_length(&mut self.random, &mut reading);
        self.comparer.expect(call, image, &reading, room, 9, Some(place))?;
        if atoms > 0 {
            let mut reading = generate::candidate(&mut self.random, atoms, 5);
            let place = damage::reading_byte(&mut self.random, &mut reading, call.tests());
            self.comparer.expect(call, image, &reading, room, 10, Some(place))?;
        }
        Ok(())
    }

    /// A size up to `most`, often small, often the most.
    fn size(&mut self, most: usize) -> usize {
        match self.random.below(5) {
            0 => most,
            1 => self.random.below(20),
            2 => self.random.below(most.min(200)),
            _ => self.random.within(0, most),
        }
    }
}

/// A finding unless the condition holds. It is about both sides, which agree by now.
fn demand(holds: bool, call: Call, image: &[u8], what: impl FnOnce() -> String) -> Checked<()> {
    match holds {
        true => Ok(()),
        false => Err(Finding(format!("{} on {}: {}\n", call.name(), hex(image), what()))),
    }
}

fn truths(candidate: &[u8]) -> usize {
    generate::true_atoms(candidate).count()
}

/// The sets of a listing.
fn sets(bytes: &[u8]) -> Vec<Set> {
    bytes.chunks(2).map(|pair| get2(pair, 0) as Set).collect()
}

fn power_of_three(exponent: usize) -> usize {
    3usize.pow(exponent as u32)
}

/// The number of a reading, its first byte weighing least.
fn number(reading: &[u8]) -> usize {
    reading.iter().rev().fold(0, |number, &value| 3 * number + usize::from(value))
}

/// All readings of so many atoms.
fn all_readings(atoms: usize) -> Vec<Vec<u8>> {
    let digit = |number: usize, at: usize| (number / power_of_three(at) % 3) as u8;
    (0..power_of_three(atoms)).map(|number| (0..atoms).map(|at| digit(number, at)).collect()).collect()
}

#[cfg(test)]
mod tests {
    use super::*;

    #[test]
    fn readings_and_numbers() {
        let all = all_readings(3);
        assert_eq!(all.len(), 27);
        assert!(all.iter().enumerate().all(|(at, reading)| number(reading) == at));
    }
}
