//! Books, each under every theory call, and its translation under every program call.

use super::{all_readings, demand, sets, truths, Suite, Tally};
use crate::calls::Call;
use crate::compare::{hex, Checked, Finding};
use crate::lists::{self, Book, Pair, Program};
use crate::node::Node;
use crate::{damage, generate};

/// A book, its image and both images of its program, in which there are `all` atoms.
struct Translated<'b> {
    book: &'b Book,
    image: &'b [u8],
    programs: [Vec<u8>; 2],
    all: usize,
}

impl Suite<'_> {
    /// Every call on a book and its translation, the listing only if it is asked for or refused. If nothing uses some
    /// node, every call refuses the book.
    pub(super) fn book(
        &mut self,
        book: &Book,
        readings: &[Vec<u8>],
        candidates: &[Vec<u8>],
        listed: bool,
    ) -> Checked<()> {
        let image = &book.image();
        if let Some(own) = book.unused() {
            self.books.unused += 1;
            return self.refused(image, 13, own);
        }
        self.books.accepted += 1;
        let flat = book.flat();
        self.yes(Call::CheckTheory, image, &[])?;
        let programs = self.translations(image, &flat)?;

        let translated = Translated { book, image, programs, all: flat.all };
        for (index, reading) in readings.iter().enumerate() {
            self.reading(&translated, reading, index == 0)?;
        }
        self.bad_readings(&[Call::EvaluateTheory, Call::Extend, Call::TestTheory], image, book.atoms)?;
        for program in &translated.programs {
            self.bad_readings(&[Call::EvaluateProgram, Call::TestProgram], program, flat.all)?;
        }
        for candidate in candidates {
            self.candidate(&translated, candidate)?;
        }
        if book.atoms > 12 {
            let room = self.random.below(20);
            self.comparer.expect(Call::ListSets, image, &[], room, 11, Some(book.atoms))?;
        } else if listed {
            self.listing(book, image)?;
        }
        Ok(())
    }

    /// Translation into both forms, in all kinds of buffers. Both programs are read as these rules.
    pub(super) fn translations(&mut self, image: &[u8], flat: &Program) -> Checked<[Vec<u8>; 2]> {
        let programs = [flat.image(), flat.packed()];
        for (call, program) in [Call::Translate, Call::TranslatePacked].into_iter().zip(&programs) {
            let (answer, written) = self.rooms(call, image, &[], program.len())?;
            let same = answer.result == flat.rules.len() && written == *program;
            demand(same, call, image, || format!("the program should be {}", hex(program)))?;
            self.yes(Call::CheckProgram, program, &[])?;
            demand(Program::read(program) == *flat, call, image, || "the program reads as other rules".into())?;
        }
        Ok(programs)
    }

    /// Evaluation and extension under one reading, and evaluation of the program under what extension gives.
    fn reading(&mut self, on: &Translated, reading: &[u8], in_all_rooms: bool) -> Checked<()> {
        let satisfied = self.accepted(Call::EvaluateTheory, on.image, reading)? == 1;
        let (here, there) = lists::worlds(reading);
        demand(satisfied == on.book.satisfied(&here, &there), Call::EvaluateTheory, on.image, || {
            format!("by the two worlds the answer under {} is the other one", hex(reading))
        })?;
        let (answer, extended) = match in_all_rooms {
            true => self.rooms(Call::Extend, on.image, reading, on.all)?,
            false => self.output(Call::Extend, on.image, reading, on.all)?,
        };
        let expected = [reading, &on.book.labels(reading)].concat();
        demand(answer.result == on.all && extended == expected, Call::Extend, on.image, || {
            format!("the extension of {} should be {}", hex(reading), hex(&expected))
        })?;
        let flat_satisfied = self.alike(Call::EvaluateProgram, &on.programs, &extended)? == 1;
        demand(flat_satisfied == satisfied, Call::EvaluateProgram, &on.programs[0], || {
            format!("the book and its program disagree on {}", hex(&extended))
        })
    }

    /// The test of one candidate, and of its extension as a candidate for the program.
    fn candidate(&mut self, on: &Translated, candidate: &[u8]) -> Checked<()> {
        let true_atoms = truths(candidate);
        if true_atoms > 16 {
            self.comparer.expect(Call::TestTheory, on.image, candidate, 0, 11, Some(true_atoms))?;
            return Ok(());
        }
        let found = self.accepted(Call::TestTheory, on.image, candidate)?;
        let (_, extended) = self.output(Call::Extend, on.image, candidate, on.all)?;
        match truths(&extended) {
            flat_truths @ 17.. => {
                for program in &on.programs {
                    self.comparer.expect(Call::TestProgram, program, &extended, 0, 11, Some(flat_truths))?;
                }
            }
            // Many subsets take long, so only some of these.
            11..=16 if !self.random.chance(3) => {}
            _ => {
                let flat_found = self.alike(Call::TestProgram, &on.programs, &extended)?;
                demand(flat_found == found, Call::TestProgram, &on.programs[0], || {
                    format!("the book and its program disagree on the candidate {}", hex(&extended))
                })?;
            }
        }
        Ok(())
    }

    /// The listing of a book in all kinds of buffers; where the book is small, also against brute force.
    pub(super) fn listing(&mut self, book: &Book, image: &[u8]) -> Checked<()> {
        let answer = self.comparer.call(Call::ListSets, image, &[], 8192)?;
        let count = answer.result;
        let first = self.comparer.written().to_vec();
        let (_, bytes) = match book.atoms > 8 {
            false => self.rooms(Call::ListSets, image, &[], 2 * count)?,
            true => self.output(Call::ListSets, image, &[], 2 * count)?,
        };
        demand(bytes == first, Call::ListSets, image, || "a larger buffer changes what is written".into())?;
        if book.atoms <= 4 {
            let expected = book.answer_sets();
            demand(sets(&bytes) == expected, Call::ListSets, image, || format!("the sets should be {expected:?}"))?;
        }
        Ok(())
    }

    /// Every book of up to three nodes over up to two atoms: with no root, every root, every two roots in both orders
    /// and repeated, and with all nodes as roots; without a pair, and with the one pair of two atoms once and twice.
    pub fn every_small_book(&mut self, stride: usize) -> Checked<()> {
        for atoms in 0..=2 {
            let readings = all_readings(atoms);
            let candidates: Vec<Vec<u8>> = (0..1 << atoms).map(|set| lists::reading(set, set, atoms)).collect();
            for book in small_books(atoms).skip(stride - 1).step_by(stride) {
                self.book(&book, &readings, &candidates, true)?;
            }
        }
        Ok(())
    }

    /// Random books of all sizes up to the limits.
    pub fn random_books(&mut self, small: usize, large: usize) -> Checked<()> {
        let before = self.books;
        for turn in 0..small {
            let atoms = if turn % 500 == 0 { self.random.within(7, 9) } else { self.random.below(7) };
            let (nodes, roots, pairs) = (self.random.below(25), self.random.below(5), self.random.below(4));
            let book = self.any_book(atoms, nodes, roots, pairs);
            self.with_random_arguments(&book, 6, atoms, true)?;
        }
        for turn in 0..large {
            self.large_book(turn % 8 == 0)?;
        }
        for turn in 0..large / 10 {
            self.book_of_facts(turn < 2)?;
        }
        // Listings of the most atoms that are listed.
        for _ in 0..(large / 300).max(1) {
            let book = generate::book(&mut self.random, 12, 30, 3, 2);
            self.listing(&book, &book.image())?;
        }
        mostly_accepted(self.books.since(before))
    }

    /// A random book of these sizes. In about one of ten a node is not used, and some of these are a node smaller.
    pub(super) fn any_book(&mut self, atoms: usize, nodes: usize, roots: usize, pairs: usize) -> Book {
        let random = &mut self.random;
        match random.below(20) {
            0 => generate::careless(random, atoms, nodes, roots, pairs),
            1 if nodes > 1 => {
                let mut book = generate::book(random, atoms, nodes - 2, roots, pairs);
                damage::unused(random, &mut book);
                book
            }
            _ => generate::book(random, atoms, nodes, roots, pairs),
        }
    }

    /// A book of any size, or one with the longest program for its size.
    fn large_book(&mut self, longest: bool) -> Checked<()> {
        let atoms = self.size(1024);
        let (nodes, roots, pairs) = (self.size(1024), self.size(256), self.size(128));
        let mut book = match longest && nodes > 0 && atoms > 0 {
            true => generate::longest(&mut self.random, atoms, nodes, roots, pairs),
            false => self.any_book(atoms, nodes, roots, pairs),
        };
        let random = &mut self.random;
        let reading = generate::reading(random, atoms);
        if random.chance(50) {
            generate::satisfy(random, &mut book, &reading);
        }
        let readings = [reading, generate::reading(random, atoms)];
        let candidates = [(); 2].map(|_| generate::candidate(random, atoms, 8));
        self.book(&book, &readings, &candidates, atoms <= 6)
    }

    /// A book with a known answer set, of few atoms or of the most, so that a candidate test looks at every subset.
    fn book_of_facts(&mut self, most: bool) -> Checked<()> {
        let atoms = self.random.within(40, 1024);
        let (nodes, pairs) = (self.random.within(20, 300), self.size(128));
        let truths = if most { 16 } else { self.random.below(10) };
        let (book, set) = generate::facts(&mut self.random, atoms, nodes, truths, pairs);
        self.yes(Call::TestTheory, &book.image(), &set)?;
        let mut near = set;
        near[self.random.below(atoms)] ^= 2;
        let few = self.random.within(17, 40);
        let many = (0..atoms).map(|atom| if atom < few { 2 } else { 0 }).collect();
        self.book(&book, &[], &[near, many], false)
    }

    /// A book under `count` readings and candidates, these with at most `truths` true atoms.
    pub(super) fn with_random_arguments(
        &mut self,
        book: &Book,
        count: usize,
        truths: usize,
        listed: bool,
    ) -> Checked<()> {
        let readings: Vec<_> = (0..count).map(|_| generate::reading(&mut self.random, book.atoms)).collect();
        let candidates: Vec<_> =
            (0..count).map(|_| generate::candidate(&mut self.random, book.atoms, truths)).collect();
        self.book(book, &readings, &candidates, listed)
    }
}

/// Books that are refused show little, so at least four of five must be accepted, and some not.
fn mostly_accepted(books: Tally) -> Checked<()> {
    match books.unused > 0 && 5 * books.accepted >= 4 * books.total() {
        true => Ok(()),
        false => Err(Finding(format!("of {} random books {} have an unused node\n", books.total(), books.unused))),
    }
}

/// All the small books over so many atoms.
fn small_books(atoms: usize) -> impl Iterator<Item = Book> {
    small_node_lists(atoms).into_iter().flat_map(move |nodes| {
        let lists = small_root_and_pair_lists(nodes.len(), atoms).into_iter();
        lists.map(move |(roots, pairs)| Book { atoms, nodes: nodes.clone(), roots, pairs })
    })
}

/// Every list of up to three nodes.
fn small_node_lists(atoms: usize) -> Vec<Vec<Node>> {
    let mut lists = vec![vec![]];
    let mut longest = lists.clone();
    for own in 0..3 {
        let mut nodes = vec![Node::False, Node::True];
        nodes.extend((0..atoms).map(Node::Atom));
        nodes.extend((0..own).map(Node::Not));
        for (x, y) in (0..own).flat_map(|x| (0..own).map(move |y| (x, y))) {
            nodes.extend([Node::And(x, y), Node::Or(x, y), Node::Implies(x, y)]);
        }
        let longer = |list: &Vec<Node>| -> Vec<Vec<Node>> {
            nodes.iter().map(|&node| list.iter().copied().chain([node]).collect()).collect()
        };
        longest = longest.iter().flat_map(longer).collect();
        lists.extend(longest.iter().cloned());
    }
    lists
}

/// The choices of roots that are tried for so many nodes.
fn small_root_lists(nodes: usize) -> Vec<Vec<usize>> {
    let mut lists = vec![vec![]];
    lists.extend((0..nodes).map(|root| vec![root]));
    lists.extend((0..nodes).flat_map(|first| (0..nodes).map(move |second| vec![first, second])));
    if nodes > 2 {
        lists.push((0..nodes).collect());
    }
    lists
}

/// These choices of roots, each with every choice of pairs that is tried over so many atoms, two at most.
fn small_root_and_pair_lists(nodes: usize, atoms: usize) -> Vec<(Vec<usize>, Vec<Pair>)> {
    let most = if atoms == 2 { 2 } else { 0 };
    let with_pairs = |roots: Vec<usize>| (0..=most).map(move |pairs| (roots.clone(), vec![(0, 1); pairs]));
    small_root_lists(nodes).into_iter().flat_map(with_pairs).collect()
}

#[cfg(test)]
mod tests {
    use super::*;
    use crate::reference;

    #[test]
    fn small_books_are_all_there() {
        // Four leaves over two atoms; then one more with a negation and three kinds of two operands, and so on.
        assert_eq!(small_node_lists(2).len(), 1 + 4 + 4 * 8 + 4 * 8 * 18);
        assert_eq!(small_root_lists(3).len(), 1 + 3 + 9 + 1);
        assert_eq!(small_root_lists(0).len(), 1);
        assert_eq!([0, 1, 2].map(|atoms| small_root_and_pair_lists(3, atoms).len()), [14, 14, 42]);
    }

    #[test]
    fn small_books_of_both_sorts() {
        let books: Vec<Book> = (0..=2).flat_map(small_books).collect();
        let unused = books.iter().filter(|book| book.unused().is_some()).count();
        assert_eq!((books.len() - unused, unused), (10_994, 21_843));
    }

    #[test]
    fn any_book_has_the_sizes_asked_for_or_a_node_less() {
        let mut suite = Suite::new(&reference::CALLS, &reference::CALLS, 1);
        let books: Vec<Book> = (0..1000).map(|_| suite.any_book(4, 9, 3, 2)).collect();
        assert!(books.iter().all(|book| (8..=9).contains(&book.nodes.len()) && book.roots.len() == 3));
        let unused = books.iter().filter(|book| book.unused().is_some()).count();
        assert!((60..140).contains(&unused), "{unused}");
    }
}
