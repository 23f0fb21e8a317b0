//! Pairs: bad ones, wrong counts of them, both sides of their limit, and what they mean.

use super::{all_readings, demand, Suite};
use crate::calls::Call;
use crate::compare::{hex, Checked};
use crate::lists::{self, get2, Book, Pair, Set};
use crate::{damage, generate};

/// The bytes of the longest program of a book: 6,522 rules; packed, 52 bytes for each of 1,023 implications, 6 for each of
/// 256 roots and 8 for each of 128 pairs.
const LONGEST: usize = 16 + 10 * 6522;
const LONGEST_PACKED: usize = 16 + 52 * 1023 + 6 * 256 + 8 * 128;

impl Suite<'_> {
    /// Images with bad pairs or a wrong count of them, and as many pairs as there can be.
    pub fn broken_pairs(&mut self) -> Checked<()> {
        for (atoms, nodes, roots, pairs) in [(2, 1, 1, 1), (3, 4, 2, 3), (300, 20, 5, 127), (1024, 1024, 256, 128)] {
            let image = generate::book(&mut self.random, atoms, nodes, roots, pairs).image();
            self.yes(Call::CheckTheory, &image, &[])?;
            for own in [0, pairs / 2, pairs - 1] {
                self.broken_pair(&image, own)?;
            }
            self.damage_upon_damage(&image)?;
            self.wrong_lengths(&image)?;
        }
        // Under two atoms every pair is bad.
        for atoms in [0, 1] {
            let book = Book { atoms, pairs: vec![(0, 1); 2], ..Book::default() };
            self.refused(&book.image(), 15, 0)?;
        }
        self.pair_limits()?;
        self.one_pair_of_many()
    }

    /// A pair that is bad, in every way, alone and together with the last one.
    fn broken_pair(&mut self, good: &[u8], own: usize) -> Checked<()> {
        let last = get2(good, 6) - 1;
        for bad in damage::bad_pairs(&mut self.random, get2(good, 0)) {
            let mut image = good.to_vec();
            for broken in [own, last] {
                damage::pair(&mut image, broken, bad);
                self.refused(&image, 15, own)?;
            }
        }
        Ok(())
    }

    /// One row broken after the other: each goes before those that were broken earlier.
    pub(super) fn damage_upon_damage(&mut self, good: &[u8]) -> Checked<()> {
        let mut image = good.to_vec();
        for row in [15, 7, 6, 5, 4, 2] {
            let place = damage::theory(&mut self.random, &mut image, row);
            self.refused(&image, row, place)?;
        }
        Ok(())
    }

    /// Images that are too short or too long for their pairs, and counts of pairs that are not the image's.
    fn wrong_lengths(&mut self, good: &[u8]) -> Checked<()> {
        let (wanted, pairs) = (good.len(), get2(good, 6));
        for length in [wanted - 4, wanted - 1, wanted + 1, wanted + 4] {
            let mut image = good.to_vec();
            image.resize(length, 0);
            self.refused(&image, 5, wanted)?;
        }
        let counts = [0, 1, pairs - 1, pairs + 1, 127, 128, 129, pairs + 256, 65535];
        for count in counts.into_iter().filter(|&count| count != pairs) {
            let mut image = good.to_vec();
            damage::set2(&mut image, 6, count);
            let over = count > 128;
            let (number, place) = if over { (2, 0) } else { (5, wanted - 4 * pairs + 4 * count) };
            self.refused(&image, number, place)?;
            // An offset that differs goes after the limit and before the length.
            damage::theory(&mut self.random, &mut image, 4);
            self.refused(&image, if over { 2 } else { 4 }, 0)?;
        }
        Ok(())
    }

    /// Few pairs, as many as there can be and one more; the longest program of a book; a listing of the most atoms.
    fn pair_limits(&mut self) -> Checked<()> {
        for (atoms, nodes, roots) in [(2, 3, 2), (7, 0, 0), (1024, 1024, 256)] {
            for pairs in [0, 1, 127, 128] {
                let book = generate::book(&mut self.random, atoms, nodes, roots, pairs);
                self.with_random_arguments(&book, 3, 4, true)?;
            }
            let book = generate::book(&mut self.random, atoms, nodes, roots, 129);
            self.refused(&book.image(), 2, 0)?;
        }
        let longest = generate::longest(&mut self.random, 1024, 1024, 256, 128).image();
        self.rooms(Call::Translate, &longest, &[], LONGEST)?;
        self.rooms(Call::TranslatePacked, &longest, &[], LONGEST_PACKED)?;

        let book = generate::free(generate::book(&mut self.random, 12, 0, 0, 8));
        let (listed, kept) = (self.listed(&book)?, kept((0..1 << 12).collect(), &book.pairs));
        demand(listed == kept, Call::ListSets, &book.image(), || format!("the sets should be {kept:?}"))
    }

    /// Of the most pairs, one whose atoms have any two values, while all other atoms are 0.
    fn one_pair_of_many(&mut self) -> Checked<()> {
        let pairs: Vec<Pair> = (0..128).map(|own| (own, 1023 - own)).collect();
        let mut readings = Vec::new();
        for (first, second) in [0, 1, 64, 126, 127].map(|own: usize| pairs[own]) {
            for values in all_readings(2) {
                let mut reading = vec![0; 1024];
                (reading[first], reading[second]) = (values[0], values[1]);
                readings.push(reading);
            }
        }
        let candidates: Vec<Vec<u8>> = readings.iter().filter(|reading| !reading.contains(&1)).cloned().collect();
        self.book(&Book { atoms: 1024, pairs, ..Book::default() }, &readings, &candidates, true)
    }

    /// Small books with pairs: every call on them, and every reading and every set.
    pub fn paired_books(&mut self, books: usize) -> Checked<()> {
        for _ in 0..books {
            let book = self.small_book_with_pairs();
            self.with_random_arguments(&book, 2, 4, true)?;
            self.readings_of_pairs(&book)?;
            self.sets_of_pairs(&book)?;
        }
        Ok(())
    }

    /// A small book with at least one pair. Half of these books have every set that satisfies them as an answer set.
    pub(super) fn small_book_with_pairs(&mut self) -> Book {
        let random = &mut self.random;
        let (atoms, nodes) = (random.within(2, 5), random.below(16));
        let (roots, pairs) = (random.below(4), random.within(1, 4));
        let book = generate::book(random, atoms, nodes, roots, pairs);
        match random.chance(50) {
            true => generate::free(book),
            false => book,
        }
    }

    /// The readings that satisfy a book are those that satisfy it with its pairs as roots.
    fn readings_of_pairs(&mut self, book: &Book) -> Checked<()> {
        let [image, written_out] = [book.image(), book.written_out().image()];
        for reading in all_readings(book.atoms) {
            let satisfied = self.accepted(Call::EvaluateTheory, &image, &reading)?;
            let expected = self.accepted(Call::EvaluateTheory, &written_out, &reading)?;
            demand(satisfied == expected, Call::EvaluateTheory, &image, || {
                format!("with its pairs as roots the book has the other answer under {}", hex(&reading))
            })?;
        }
        Ok(())
    }

    /// The answer sets of a book, found in five ways.
    fn sets_of_pairs(&mut self, book: &Book) -> Checked<()> {
        let image = book.image();
        let listed = self.listed(book)?;
        let as_roots = self.listed(&book.written_out())?;
        let without = self.listed(&without_pairs(book))?;
        let mut tested = Vec::new();
        for set in 0..1 << book.atoms {
            if self.accepted(Call::TestTheory, &image, &lists::reading(set, set, book.atoms))? == 1 {
                tested.push(set);
            }
        }
        for (way, sets) in [
            ("with its pairs as roots", as_roots),
            ("without its pairs, those that hold no pair", kept(without, &book.pairs)),
            ("by the test", tested),
            ("by brute force", book.answer_sets()),
        ] {
            demand(sets == listed, Call::ListSets, &image, || format!("{way}: {sets:?}; by the listing: {listed:?}"))?;
        }
        Ok(())
    }
}

fn without_pairs(book: &Book) -> Book {
    Book { pairs: vec![], ..book.clone() }
}

/// The sets that hold no pair.
fn kept(sets: Vec<Set>, pairs: &[Pair]) -> Vec<Set> {
    sets.into_iter().filter(|set| !pairs.iter().any(|&(first, second)| set >> first & set >> second & 1 == 1)).collect()
}

#[cfg(test)]
mod tests {
    use super::*;
    use crate::reference;

    #[test]
    fn small_books_have_pairs_and_many_lose_sets_by_them() {
        let mut suite = Suite::new(&reference::CALLS, &reference::CALLS, 1);
        let books: Vec<Book> = (0..200).map(|_| suite.small_book_with_pairs()).collect();
        assert!(books.iter().all(|book| !book.pairs.is_empty()));
        let losing = books.iter().filter(|book| book.answer_sets() != without_pairs(book).answer_sets()).count();
        assert!(losing > 50, "{losing}");
    }
}
