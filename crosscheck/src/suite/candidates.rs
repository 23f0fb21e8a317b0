//! Candidates that one subset of their true atoms decides, whichever it is and wherever these atoms lie.

use super::{demand, Suite};
use crate::calls::Call;
use crate::compare::Checked;
use crate::generate;
use crate::lists::{Book, Program, Rule, Set};
use crate::node::Node;

/// How many atoms there are, up to the most that a program has.
const SIZES: [usize; 8] = [16, 17, 64, 255, 1000, 1024, 2000, 3072];
/// The most that a theory has.
const MOST_IN_A_THEORY: usize = 1024;

/// A candidate and one subset of its true atoms. The atoms of the subset are facts, and the others imply each other in
/// a ring, so that either all of them hold here or none does. So of the smaller readings that of the subset alone can
/// satisfy, and false atoms decide whether it does.
#[derive(Clone, Debug)]
struct Case {
    atoms: usize,
    truths: Vec<usize>,
    /// Bit i is for the i-th true atom. Where all atoms are in it, no smaller reading satisfies.
    subset: usize,
    /// Up to two false atoms.
    outside: Vec<usize>,
    /// Whether the smaller reading fails because these are 0, and would satisfy if one were not; else it satisfies, and
    /// would not.
    held: bool,
}

impl Case {
    /// The true atoms inside the subset, and the others.
    fn parts(&self) -> (Vec<usize>, Vec<usize>) {
        let part = |bit: usize| {
            let chosen = self.truths.iter().enumerate().filter(|(own, _)| self.subset >> own & 1 == bit);
            chosen.map(|(_, &atom)| atom).collect()
        };
        (part(1), part(0))
    }

    fn program(&self) -> Program {
        let (facts, ring) = self.parts();
        let mut rules: Vec<Rule> = facts.iter().map(|&atom| Rule::new(&[atom], &[], &[])).collect();
        let next = ring.iter().cycle().skip(1);
        rules.extend(ring.iter().zip(next).map(|(&atom, &next)| Rule::new(&[next], &[atom], &[])));
        match self.held {
            true => rules.push(Rule::new(&ring[..1], &[], &self.outside)),
            false => rules.extend(self.outside.iter().map(|&atom| Rule::new(&[], &[atom], &[]))),
        }
        Program { atoms: self.atoms.min(MOST_IN_A_THEORY), all: self.atoms, rules }
    }

    /// The only answer set.
    fn answer_set(&self) -> Vec<usize> {
        match self.held {
            true => self.truths.clone(),
            false => self.parts().0,
        }
    }
}

impl Suite<'_> {
    /// Few true atoms with every subset; many with some subsets, of which cases one in `one_in` is tried; the false
    /// atoms, one in `stride` of them; listings; and one true atom too many.
    pub fn candidates(&mut self, one_in: usize, stride: usize) -> Checked<()> {
        let few = SIZES.into_iter().flat_map(few_truths);
        let many = SIZES.into_iter().flat_map(many_truths).step_by(one_in);
        let false_atoms = SIZES.into_iter().flat_map(every_false_atom).step_by(stride);
        for case in few.chain(many).chain(false_atoms) {
            let found = usize::from(case.answer_set() == case.truths);
            self.both(&case, |suite, call, image, candidate| suite.gives(call, image, candidate, found))?;
        }
        for case in (0..=12).flat_map(for_a_listing) {
            self.listed_case(&case)?;
        }
        for case in SIZES.into_iter().filter(|&atoms| atoms > 16).flat_map(|atoms| cases(atoms, 17, &[0])) {
            self.both(&case, |suite, call, image, candidate| {
                suite.comparer.expect(call, image, candidate, 0, 11, Some(17)).map(|_| ())
            })?;
        }
        Ok(())
    }

    /// The candidate of a case for its program in both forms and, where that has not too many atoms, for its book.
    fn both(&mut self, case: &Case, test: impl Fn(&mut Self, Call, &[u8], &[u8]) -> Checked<()>) -> Checked<()> {
        let candidate = generate::set_of(case.atoms, &case.truths);
        let program = case.program();
        for image in program.images() {
            test(self, Call::TestProgram, &image, &candidate)?;
        }
        match case.atoms > MOST_IN_A_THEORY {
            true => Ok(()),
            false => test(self, Call::TestTheory, &book(&program).image(), &candidate),
        }
    }

    fn listed_case(&mut self, case: &Case) -> Checked<()> {
        let book = book(&case.program());
        let listed = self.listed(&book)?;
        let expected: Set = case.answer_set().iter().map(|&atom| 1 << atom).sum();
        demand(listed == [expected], Call::ListSets, &book.image(), || format!("the only set should be {expected}"))
    }
}

/// No true atom up to four, with every subset.
fn few_truths(atoms: usize) -> Vec<Case> {
    (0..=4).flat_map(|truths| cases(atoms, truths, &(0..1 << truths).collect::<Vec<_>>())).collect()
}

/// As many true atoms as are tested, and one less.
fn many_truths(atoms: usize) -> Vec<Case> {
    [15, 16].into_iter().flat_map(|truths| cases(atoms, truths, &chosen(truths))).collect()
}

/// Three true atoms, of which the subset is the second, with all false ones, two by two.
fn every_false_atom(atoms: usize) -> Vec<Case> {
    let mut cases = Vec::new();
    for truths in places(atoms, 3) {
        let outside: Vec<usize> = (0..atoms).filter(|atom| !truths.contains(atom)).collect();
        for two in outside.chunks(2) {
            let case = Case { atoms, truths: truths.clone(), subset: 2, outside: two.to_vec(), held: false };
            cases.extend([case.clone(), Case { held: true, ..case }]);
        }
    }
    cases
}

/// All atoms true, and all but two.
fn for_a_listing(atoms: usize) -> Vec<Case> {
    let counts = [Some(atoms), atoms.checked_sub(2)];
    counts.into_iter().flatten().flat_map(|truths| cases(atoms, truths, &chosen(truths))).collect()
}

/// So many true atoms in all places, with these subsets, and with false atoms of both sorts where that can be.
fn cases(atoms: usize, truths: usize, subsets: &[usize]) -> Vec<Case> {
    let mut cases = Vec::new();
    for truths in places(atoms, truths) {
        for &subset in subsets {
            let outside = outside(atoms, &truths, subset);
            let can_be_held = !outside.is_empty() && subset + 1 < 1 << truths.len();
            let case = Case { atoms, truths: truths.clone(), subset, outside, held: false };
            cases.push(case.clone());
            cases.extend(can_be_held.then_some(Case { held: true, ..case }));
        }
    }
    cases
}

/// So many atoms: the first, the last, those in the middle, and some far apart.
fn places(atoms: usize, truths: usize) -> Vec<Vec<usize>> {
    let rest = atoms - truths;
    let from = |first: usize| (first..first + truths).collect();
    let mut places = vec![from(0), from(rest), from(rest / 2), generate::far_apart(atoms, truths)];
    places.dedup();
    places
}

/// Some subsets of so many atoms by number: the empty one and the full one; those at a carry into one of the two
/// lowest, middle or highest places, and the ones right before it; and what each of these leaves out.
fn chosen(truths: usize) -> Vec<usize> {
    let (full, middle) = ((1 << truths) - 1, truths / 2);
    let wanted = |&place: &usize| place < 2 || place + 2 >= truths || place == middle || place + 1 == middle;
    let carries = (0..truths).filter(wanted).flat_map(|place| [(1 << place) - 1, 1 << place]);
    let mut chosen: Vec<usize> = carries.chain([0]).flat_map(|subset| [subset, full - subset]).collect();
    chosen.sort_unstable();
    chosen.dedup();
    chosen
}

/// Two false atoms next to true ones or at an end, others for each `turn`; or one twice, or none.
fn outside(atoms: usize, truths: &[usize], turn: usize) -> Vec<usize> {
    let beside = truths.iter().flat_map(|&atom| [atom.wrapping_sub(1), atom + 1]);
    let ends = [0, atoms.wrapping_sub(1)];
    let is_false = |atom: &usize| *atom < atoms && !truths.contains(atom);
    let near: Vec<usize> = beside.chain(ends).filter(is_false).collect();
    near.iter().cycle().skip(turn % near.len().max(1)).take(2).copied().collect()
}

/// The book in which every rule of a program is a root. Equal parts of rules are one node.
fn book(program: &Program) -> Book {
    let mut book = Book { atoms: program.all, ..Book::default() };
    for rule in &program.rules {
        let root = root(&mut book.nodes, rule);
        book.roots.push(root);
    }
    book
}

/// Adds what a rule says: its body implies its head.
fn root(nodes: &mut Vec<Node>, rule: &Rule) -> usize {
    let mut add = |node: Node| match nodes.iter().position(|known| *known == node) {
        Some(own) => own,
        None => {
            nodes.push(node);
            nodes.len() - 1
        }
    };
    let heads: Vec<usize> = rule.heads.iter().map(|&atom| add(Node::Atom(atom))).collect();
    let mut body: Vec<usize> = rule.positives.iter().map(|&atom| add(Node::Atom(atom))).collect();
    for &atom in &rule.negatives {
        let atom = add(Node::Atom(atom));
        body.push(add(Node::Not(atom)));
    }
    let head = heads.into_iter().reduce(|left, right| add(Node::Or(left, right)));
    let body = body.into_iter().reduce(|left, right| add(Node::And(left, right)));
    match (head, body) {
        (Some(head), Some(body)) => add(Node::Implies(body, head)),
        (Some(head), None) => head,
        (None, Some(body)) => add(Node::Not(body)),
        (None, None) => add(Node::False),
    }
}

#[cfg(test)]
mod tests {
    use super::*;
    use crate::lists;

    /// All small cases that differ in kind.
    fn small_cases() -> impl Iterator<Item = Case> {
        let sizes = (0..=6).flat_map(|atoms| (0..=atoms.min(4)).map(move |truths| (atoms, truths)));
        sizes.flat_map(|(atoms, truths)| cases(atoms, truths, &(0..1 << truths).collect::<Vec<_>>()))
    }

    /// Whether a program and its book are satisfied, on which they agree.
    fn satisfied(program: &Program, reading: &[u8]) -> bool {
        let (here, there) = lists::worlds(reading);
        let satisfied = program.satisfied(&here, &there);
        assert_eq!(book(program).satisfied(&here, &there), satisfied);
        satisfied
    }

    /// The reading of a subset of the true atoms.
    fn smaller(case: &Case, subset: usize) -> Vec<u8> {
        let mut reading = generate::set_of(case.atoms, &Case { subset, ..case.clone() }.parts().0);
        case.truths.iter().for_each(|&atom| reading[atom] = reading[atom].max(1));
        reading
    }

    #[test]
    fn one_smaller_reading_decides() {
        for case in small_cases() {
            let program = case.program();
            let full = (1 << case.truths.len()) - 1;
            assert!(satisfied(&program, &smaller(&case, full)), "{case:?}");
            let satisfying: Vec<usize> =
                (0..full).filter(|&subset| satisfied(&program, &smaller(&case, subset))).collect();
            let expected = if case.held || case.subset == full { vec![] } else { vec![case.subset] };
            assert_eq!(satisfying, expected, "{case:?}");
            let set: Set = case.answer_set().iter().map(|&atom| 1 << atom).sum();
            assert_eq!(program.answer_sets(), [set], "{case:?}");
            assert_eq!((book(&program).answer_sets(), book(&program).unused()), (vec![set], None));
        }
    }

    #[test]
    fn a_false_atom_that_is_raised_decides_otherwise() {
        for case in small_cases() {
            for (&atom, value) in case.outside.iter().flat_map(|atom| [(atom, 1), (atom, 2)]) {
                let mut reading = smaller(&case, case.subset);
                assert_eq!(satisfied(&case.program(), &reading), !case.held);
                reading[atom] = value;
                assert_eq!(satisfied(&case.program(), &reading), case.held, "{case:?}");
            }
        }
    }

    #[test]
    fn places_of_true_atoms() {
        assert_eq!(places(9, 3), [[0, 1, 2], [6, 7, 8], [3, 4, 5], [0, 4, 8]]);
        assert_eq!(places(1024, 1), [[0], [1023], [511], [0]]);
        assert_eq!(places(17, 17), [(0..17).collect::<Vec<_>>()]);
        assert_eq!(places(0, 0), [[]]);
        for (atoms, truths) in SIZES.into_iter().flat_map(|atoms| [(atoms, 15), (atoms, 16)]) {
            let far = generate::far_apart(atoms, truths);
            assert_eq!((far[0], far[truths - 1]), (0, atoms - 1));
            assert!(far.windows(2).all(|two| two[1] - two[0] >= (atoms - 1) / (truths - 1)));
        }
    }

    #[test]
    fn chosen_subsets() {
        assert_eq!(chosen(0), [0]);
        assert_eq!(chosen(1), [0, 1]);
        assert_eq!(chosen(3), [0, 1, 2, 3, 4, 5, 6, 7]);
        let many = chosen(16);
        for subset in [0, 1, 2, 0xFF, 0x100, 0x7FFF, 0x8000, 0xFFFD, 0xFFFE, 0xFFFF] {
            assert!(many.contains(&subset), "{subset:x}");
            // For whoever counts from the last atom on.
            assert!(many.contains(&usize::from((subset as u16).reverse_bits())), "{subset:x}");
        }
    }
}
