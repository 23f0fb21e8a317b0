//! What the benchmark times and the instruction counter counts.

use crate::calls::{Answer, Call, Calls};
use crate::generate::growth::{Growth, Style, MOSTLY_IMPLICATIONS};
use crate::lists::{Book, Program, Rule};
use crate::node::Node;
use crate::random::Random;
use crate::{formula, generate};

/// A call with its arguments.
pub struct Input {
    /// The last word is the form, where that is the packed one.
    pub name: String,
    pub call: Call,
    image: Vec<u8>,
    reading: Vec<u8>,
    /// The size of the buffer that is lent.
    pub room: usize,
}

impl Input {
    fn new(name: &str, call: Call, image: Vec<u8>, reading: Vec<u8>, room: usize) -> Input {
        Input { name: name.to_string(), call, image, reading, room }
    }

    /// The same in the packed form, of a translation or of a call on a program. The room of the fixed form is enough.
    fn packed(&self) -> Option<Input> {
        let (call, image) = match self.call {
            Call::Translate => (Call::TranslatePacked, self.image.clone()),
            call if call.on_program() => (call, Program::read(&self.image).packed()),
            _ => return None,
        };
        Some(Input::new(&format!("{}, packed", self.name), call, image, self.reading.clone(), self.room))
    }

    pub fn run(&self, side: &Calls, out: &mut [u8]) -> Answer {
        side.run(self.call, &self.image, &self.reading, out)
    }
}

const SMALL: &str = "3 atoms, 5 nodes";
const SMALL_FLAT: &str = "7 atoms, 13 rules";
const LARGE: &str = "1,024 atoms and nodes, 256 roots";
const PAIRED: &str = "the same and 128 pairs";
const LARGE_FLAT: &str = "over 4,000 rules";

/// Each call on a small input and on a large one, in the fixed form and then in the packed one, and rules of eight
/// literals.
pub fn all() -> Vec<Input> {
    let small = formula::book("p q r", "(r -> q) -> p");
    let (large, reading) = mixed(1024, 256, 0);
    let (paired, holding) = mixed(1024, 256, 128);
    let longest = |pairs: usize| generate::longest(&mut Random::new(5), 1024, 1024, 256, pairs);
    let mut inputs = on_book(SMALL, SMALL_FLAT, &small, vec![2, 0, 0]);
    inputs.extend(on_book(LARGE, LARGE_FLAT, &large, reading));
    inputs.extend([
        Input::new(PAIRED, Call::CheckTheory, paired.image(), vec![], 0),
        Input::new(PAIRED, Call::EvaluateTheory, paired.image(), holding, 0),
        translation("implications, 6,394 rules", &longest(0)),
        translation("the longest: 6,522 rules", &longest(128)),
        Input::new(SMALL, Call::TestTheory, small.image(), vec![2, 0, 0], 0),
        candidate("1,024 nodes, 16 atoms true", 1024, 16),
        scattered("1,024 atoms and nodes, 16 true", 1024),
        scattered("1,024 atoms, 32 nodes, 16 true", 32),
        Input::new(SMALL, Call::ListSets, small.image(), vec![], 2),
        listing(),
        Input::new(SMALL_FLAT, Call::TestProgram, small.flat().image(), extended(&small, &[2, 0, 0]), 0),
        flat_candidate("1,016 rules, 16 atoms true", generate::set(&mut Random::new(17), 200, 16), 1000),
        flat_candidate("3,072 atoms, 116 rules, 16 true", scattered_set(3072), 100),
    ]);
    let packed: Vec<Input> = inputs.iter().filter_map(Input::packed).collect();
    inputs.extend(packed);
    inputs.extend(of_eight_literals());
    inputs.sort_by_key(|input| input.call as usize);
    inputs
}

/// The calls that look at a book or its program once.
fn on_book(name: &str, flat_name: &str, book: &Book, reading: Vec<u8>) -> Vec<Input> {
    let (image, program) = (book.image(), book.flat().image());
    let labelled = extended(book, &reading);
    vec![
        Input::new(name, Call::CheckTheory, image.clone(), vec![], 0),
        Input::new(name, Call::EvaluateTheory, image.clone(), reading.clone(), 0),
        translation(name, book),
        Input::new(name, Call::Extend, image, reading, labelled.len()),
        Input::new(flat_name, Call::CheckProgram, program.clone(), vec![], 0),
        Input::new(flat_name, Call::EvaluateProgram, program, labelled, 0),
    ]
}

fn extended(book: &Book, reading: &[u8]) -> Vec<u8> {
    [reading, &book.labels(reading)].concat()
}

fn translation(name: &str, book: &Book) -> Input {
    let room = 16 + 10 * book.flat().rules.len();
    Input::new(name, Call::Translate, book.image(), vec![], room)
}

/// The translation of a book of so many nodes, and a quarter as many roots, with the number of its rules.
pub fn mixed_translation(nodes: usize) -> (Input, usize) {
    let (book, _) = mixed(nodes, nodes / 4, 0);
    (translation("", &book), book.flat().rules.len())
}

/// A book of `nodes` nodes, all of them used, and about two thirds of the inner ones implications, with a reading that
/// satisfies all its roots and pairs.
fn mixed(nodes: usize, roots: usize, pairs: usize) -> (Book, Vec<u8>) {
    let mut random = Random::new(7);
    let style = Style { atoms: 1024, kinds: &MOSTLY_IMPLICATIONS, leaves: 0, near: false };
    let mut growth = Growth::default();
    for _ in 0..nodes / 8 {
        growth.push(Node::Atom(random.below(style.atoms)));
    }
    growth.grow(&mut random, &style, nodes, roots);
    let mut book = growth.book(&mut random, &style, roots);
    book.pairs = vec![(0, 1); pairs];
    let reading: Vec<u8> = (0..style.atoms).map(|_| random.below(3) as u8).collect();
    generate::satisfy(&mut random, &mut book, &reading);
    (book, reading)
}

/// A candidate that is an answer set, so that no subset of it ends the test early. Only four atoms more are not true.
pub fn candidate(name: &str, nodes: usize, truths: usize) -> Input {
    let random = &mut Random::new(11);
    let set = generate::set(random, truths + 4, truths);
    facts(name, random, set, nodes)
}

/// The same where sixteen atoms are true among the most that a theory has.
fn scattered(name: &str, nodes: usize) -> Input {
    facts(name, &mut Random::new(19), scattered_set(1024), nodes)
}

/// Sixteen true atoms all over so many.
fn scattered_set(atoms: usize) -> Vec<u8> {
    generate::set_of(atoms, &generate::far_apart(atoms, 16))
}

/// The test of a candidate whose atoms are all facts.
fn facts(name: &str, random: &mut Random, set: Vec<u8>, nodes: usize) -> Input {
    let mut book = generate::facts_of(random, &set, nodes, 0);
    book.roots.reverse();
    Input::new(name, Call::TestTheory, book.image(), set, 0)
}

/// Twelve atoms, each of them true or not, beside further nodes under a root that always holds: every set is an answer
/// set.
fn listing() -> Input {
    let (always, _) = generate::facts(&mut Random::new(13), 12, 28, 0, 0);
    let book = generate::free(always);
    Input::new("12 atoms, 64 nodes", Call::ListSets, book.image(), vec![], 8192)
}

/// The true atoms as facts after so many rules that always hold, so that every subset is tried on all of these.
fn flat_candidate(name: &str, set: Vec<u8>, always: usize) -> Input {
    let rule = Rule::new(&[0], &[outside(&set)], &[1]);
    let program = facts_after(vec![rule; always], &set);
    Input::new(name, Call::TestProgram, program.image(), set, 0)
}

/// An atom that is not true.
fn outside(set: &[u8]) -> usize {
    set.iter().position(|&value| value == 0).expect("an atom outside")
}

fn facts_after(mut rules: Vec<Rule>, set: &[u8]) -> Program {
    rules.extend(generate::true_atoms(set).map(|atom| Rule::new(&[atom], &[], &[])));
    Program { atoms: 0, all: set.len(), rules }
}

/// Packed programs of rules of eight literals. One positive is false in all of them, so that they hold.
fn of_eight_literals() -> [Input; 3] {
    let set = scattered_set(3072);
    let mut random = Random::new(23);
    let mut atoms = |count: usize| (0..count).map(|_| random.below(3072)).collect::<Vec<usize>>();
    let mut rule =
        || Rule { heads: atoms(2), positives: [vec![outside(&set)], atoms(2)].concat(), negatives: atoms(3) };
    let many: Vec<Rule> = (0..4000).map(|_| rule()).collect();
    let few = facts_after(many[..100].to_vec(), &set).packed();
    let many = Program { atoms: 0, all: 3072, rules: many }.packed();
    let name = "4,000 rules of eight literals, packed";
    [
        Input::new(name, Call::CheckProgram, many.clone(), vec![], 0),
        Input::new(name, Call::EvaluateProgram, many, set.clone(), 0),
        Input::new("116 rules, 100 of eight, 16 true, packed", Call::TestProgram, few, set, 0),
    ]
}

#[cfg(test)]
mod tests {
    use super::*;
    use crate::lists::get2;
    use crate::reference;

    #[test]
    fn inputs_are_what_their_names_say() {
        for input in all().iter().filter(|input| !input.call.tests() && input.call != Call::ListSets) {
            let answer = input.run(&reference::CALLS, &mut vec![0; input.room]);
            assert_eq!(answer.number, 0, "{}, {}", input.call.name(), input.name);
            assert!(input.name != LARGE_FLAT || input.image.len() > 16 + 10 * 4000);
            assert!(input.name != PAIRED || input.image.len() == 16 + 6 * 1024 + 2 * 256 + 4 * 128);
            assert!(answer.result > 0, "{}, {}", input.call.name(), input.name);
            for (name, rules) in [("6,394 rules", 6394), ("6,522 rules", 6522)] {
                assert!(!input.name.ends_with(name) || answer.result == rules, "{}", input.name);
            }
        }
        // Those that take long are accepted too.
        for input in all().iter().filter(|input| !input.call.on_program()) {
            assert_eq!(reference::check_theory(&input.image).number, 0, "{}", input.name);
        }
        assert_eq!(get2(&listing().image, 2), 64);
    }

    #[test]
    fn the_same_in_both_forms() {
        let inputs = all();
        let packed: Vec<&Input> = inputs.iter().filter(|input| input.name.ends_with(", packed")).collect();
        let fixed = inputs.iter().filter(|input| input.packed().is_some() && !input.name.ends_with(", packed"));
        assert_eq!((packed.len(), fixed.clone().count()), (14, 11));
        for one in fixed {
            let name = format!("{}, packed", one.name);
            let call = |other: &Input| other.call.function() == one.call.function() && other.name == name;
            let other = packed.iter().find(|other| call(other)).expect("the packed one");
            assert_eq!(other.reading, one.reading);
            if !one.call.on_program() {
                let [mut fixed, mut packed] = [vec![0; one.room], vec![0; one.room]];
                assert_eq!(other.run(&reference::CALLS, &mut packed), one.run(&reference::CALLS, &mut fixed));
                assert_eq!([get2(&fixed, 6), get2(&packed, 6)], [0, 1]);
            } else {
                assert_eq!(Program::read(&other.image), Program::read(&one.image));
            }
        }
    }

    #[test]
    fn rules_of_eight_literals() {
        let [check, evaluation, candidate] = of_eight_literals();
        assert_eq!(check.image, evaluation.image);
        let eight =
            |input: &Input| Program::read(&input.image).rules.iter().filter(|rule| rule.literals() == 8).count();
        assert_eq!([eight(&check), eight(&candidate), get2(&candidate.image, 4)], [4000, 100, 116]);
        assert_eq!(generate::true_atoms(&candidate.reading).count(), 16);
        for input in [check, evaluation, candidate] {
            assert_eq!(input.run(&reference::CALLS, &mut []).result, 1);
        }
    }

    /// Those that are not too long are run, too: their candidates are answer sets.
    #[test]
    fn sixteen_true_atoms_all_over() {
        let inputs = all();
        // What stands at bytes 2 and 4 are nodes and roots of a theory, all atoms and rules of a program.
        for (name, atoms, sizes, run) in [
            ("1,024 atoms and nodes, 16 true", 1024, [1024, 17], false),
            ("1,024 atoms, 32 nodes, 16 true", 1024, [32, 17], true),
            ("3,072 atoms, 116 rules, 16 true", 3072, [3072, 116], true),
        ] {
            let input = inputs.iter().find(|input| input.name == name).expect("an input of this name");
            assert_eq!([get2(&input.image, 2), get2(&input.image, 4)], sizes, "{name}");
            let truths: Vec<usize> = generate::true_atoms(&input.reading).collect();
            assert_eq!((input.reading.len(), truths.len(), truths[0], truths[15]), (atoms, 16, 0, atoms - 1));
            assert!(!run || input.run(&reference::CALLS, &mut []).result == 1, "{name}");
        }
    }

    #[test]
    fn small_ones_of_those_that_take_long() {
        let small = candidate("", 40, 6);
        assert_eq!(get2(&small.image, 2), 40);
        assert_eq!(small.run(&reference::CALLS, &mut []).result, 1);
    }

    #[test]
    fn mixed_books_of_all_sizes() {
        for nodes in [64, 128, 256, 512, 1024] {
            let (book, reading) = mixed(nodes, nodes / 4, 0);
            let implications = book.nodes.iter().filter(|node| matches!(node, Node::Implies(..))).count();
            assert_eq!((book.nodes.len(), book.roots.len(), book.unused()), (nodes, nodes / 4, None));
            assert!((nodes * 11 / 20..nodes * 7 / 10).contains(&implications), "{implications} of {nodes}");
            assert_eq!(reference::evaluate_theory(&book.image(), &reading).result, 1);
            let (_, rules) = mixed_translation(nodes);
            assert!((nodes * 9 / 2..nodes * 5).contains(&rules), "{rules} of {nodes}");
        }
    }
}
