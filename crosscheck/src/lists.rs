//! Books and programs as lists, and the meaning of both by the two worlds of here-and-there.
//!
//! Beside the type of a node nothing is shared with the reference: values are pairs of truths and no table of three
//! values is used, flat rules are simplified in a separate pass, and answer sets are found by trying everything. It is
//! slow on purpose.

use crate::node::Node;

/// A theory: its number of atoms, its nodes, its roots and its pairs of atoms.
#[derive(Clone, Debug, Default, PartialEq, Eq)]
pub struct Book {
    pub atoms: usize,
    pub nodes: Vec<Node>,
    pub roots: Vec<usize>,
    pub pairs: Vec<Pair>,
}

/// Two atoms that are never true together, the smaller first.
pub type Pair = (usize, usize);

/// A flat rule.
#[derive(Clone, Debug, Default, PartialEq, Eq)]
pub struct Rule {
    pub heads: Vec<usize>,
    pub positives: Vec<usize>,
    pub negatives: Vec<usize>,
}

/// A program: A, B and the rules.
#[derive(Clone, Debug, Default, PartialEq, Eq)]
pub struct Program {
    pub atoms: usize,
    pub all: usize,
    pub rules: Vec<Rule>,
}

/// A set of atoms, atom i as bit i.
pub type Set = u32;

fn put2(bytes: &mut Vec<u8>, number: usize) {
    bytes.push((number % 256) as u8);
    bytes.push((number / 256 % 256) as u8);
}

fn put4(bytes: &mut Vec<u8>, number: usize) {
    put2(bytes, number % 65536);
    put2(bytes, number / 65536);
}

/// The 2-byte number at `at`.
pub fn get2(bytes: &[u8], at: usize) -> usize {
    bytes[at] as usize + 256 * bytes[at + 1] as usize
}

/// The 4-byte number at `at`.
pub fn get4(bytes: &[u8], at: usize) -> usize {
    get2(bytes, at) + 65536 * get2(bytes, at + 2)
}

impl Book {
    /// A book without pairs.
    pub fn new(atoms: usize, nodes: Vec<Node>, roots: Vec<usize>) -> Book {
        Book { atoms, nodes, roots, pairs: vec![] }
    }

    /// The image of the book. Counts are not compared with the limits, so that images beyond them can be made.
    pub fn image(&self) -> Vec<u8> {
        let mut bytes = Vec::new();
        put2(&mut bytes, self.atoms);
        put2(&mut bytes, self.nodes.len());
        put2(&mut bytes, self.roots.len());
        put2(&mut bytes, self.pairs.len());
        put4(&mut bytes, 16);
        put4(&mut bytes, 16 + 6 * self.nodes.len());
        for &node in &self.nodes {
            let (kind, left, right) = match node {
                Node::False => (0, 0, 0),
                Node::True => (1, 0, 0),
                Node::Atom(a) => (2, a, 0),
                Node::Not(x) => (3, x, 0),
                Node::And(x, y) => (4, x, y),
                Node::Or(x, y) => (5, x, y),
                Node::Implies(x, y) => (6, x, y),
            };
            bytes.push(kind);
            bytes.push(0);
            put2(&mut bytes, left);
            put2(&mut bytes, right);
        }
        for &root in &self.roots {
            put2(&mut bytes, root);
        }
        for &(first, second) in &self.pairs {
            put2(&mut bytes, first);
            put2(&mut bytes, second);
        }
        bytes
    }

    /// Whether a later node has this one as an operand.
    pub fn is_operand(&self, own: usize) -> bool {
        self.nodes[own + 1..].iter().any(|&node| match node {
            Node::False | Node::True | Node::Atom(_) => false,
            Node::Not(x) => x == own,
            Node::And(x, y) | Node::Or(x, y) | Node::Implies(x, y) => x == own || y == own,
        })
    }

    /// The first node that nothing uses: no root, and no operand of another node, be that one used or not.
    pub fn unused(&self) -> Option<usize> {
        (0..self.nodes.len()).find(|own| !self.roots.contains(own) && !self.is_operand(*own))
    }

    /// Puts a node before the node `own`, or at the end. The nodes from there on get the next number.
    pub fn insert(&mut self, own: usize, node: Node) {
        let moved = |number: usize| number + usize::from(number >= own);
        self.nodes[own..].iter_mut().for_each(|later| *later = renumbered(*later, moved));
        self.nodes.insert(own, node);
        self.roots.iter_mut().for_each(|root| *root = moved(*root));
    }

    /// For every node, whether it holds here and whether it holds there.
    pub fn truths(&self, here: &[bool], there: &[bool]) -> Vec<(bool, bool)> {
        let mut truths: Vec<(bool, bool)> = Vec::new();
        for &node in &self.nodes {
            truths.push(match node {
                Node::False => (false, false),
                Node::True => (true, true),
                Node::Atom(a) => (here[a], there[a]),
                Node::Not(x) => (!truths[x].0 && !truths[x].1, !truths[x].1),
                Node::And(x, y) => (truths[x].0 && truths[y].0, truths[x].1 && truths[y].1),
                Node::Or(x, y) => (truths[x].0 || truths[y].0, truths[x].1 || truths[y].1),
                Node::Implies(x, y) => {
                    let here = !truths[x].0 || truths[y].0;
                    let there = !truths[x].1 || truths[y].1;
                    (here && there, there)
                }
            });
        }
        truths
    }

    /// The book with its pairs as what they mean: each becomes a root `not (first and second)`.
    pub fn written_out(&self) -> Book {
        let mut book = Book { pairs: vec![], ..self.clone() };
        for &(first, second) in &self.pairs {
            let own = book.nodes.len();
            book.nodes.extend([Node::Atom(first), Node::Atom(second), Node::And(own, own + 1), Node::Not(own + 2)]);
            book.roots.push(own + 3);
        }
        book
    }

    /// Whether every root holds here, and every pair as the formula that it means.
    pub fn satisfied(&self, here: &[bool], there: &[bool]) -> bool {
        let book = self.written_out();
        let truths = book.truths(here, there);
        book.roots.iter().all(|&root| truths[root].0)
    }

    /// The answer sets, ascending.
    pub fn answer_sets(&self) -> Vec<Set> {
        answer_sets(self.atoms, |here, there| self.satisfied(here, there))
    }

    /// The value of every label in order, under a reading.
    pub fn labels(&self, reading: &[u8]) -> Vec<u8> {
        let (here, there) = worlds(reading);
        let truths = self.truths(&here, &there);
        let value = |(here, there): (bool, bool)| u8::from(here) + u8::from(there);
        let mut labels = Vec::new();
        for (own, node) in self.nodes.iter().enumerate() {
            if matches!(node, Node::Not(_) | Node::And(..) | Node::Or(..) | Node::Implies(..)) {
                labels.push(value(truths[own]));
            }
            if let Node::Implies(_, right) = *node {
                labels.push(if truths[right].1 { 0 } else { 2 });
            }
        }
        labels
    }

    /// Both books in one, over the same atoms.
    pub fn beside(&self, other: &Book) -> Book {
        assert_eq!(self.atoms, other.atoms);
        let by = self.nodes.len();
        let moved = other.nodes.iter().map(|&node| renumbered(node, |operand| operand + by));
        Book {
            atoms: self.atoms,
            nodes: self.nodes.iter().copied().chain(moved).collect(),
            roots: self.roots.iter().copied().chain(other.roots.iter().map(|&root| root + by)).collect(),
            pairs: self.pairs.iter().chain(&other.pairs).copied().collect(),
        }
    }

    /// The flat program of the book: the rules with constants in them, and then without.
    pub fn flat(&self) -> Program {
        let mut all = self.atoms;
        let mut terms: Vec<usize> = Vec::new();
        let mut rules: Vec<Rule> = Vec::new();
        for &node in &self.nodes {
            rules.extend(node_rules(node, &terms, all));
            let (term, labels) = match node {
                Node::False => (FALSE, 0),
                Node::True => (TRUE, 0),
                Node::Atom(a) => (a, 0),
                Node::Not(_) | Node::And(..) | Node::Or(..) => (all, 1),
                Node::Implies(..) => (all, 2),
            };
            terms.push(term);
            all += labels;
        }
        rules.extend(self.roots.iter().map(|&root| Rule::new(&[terms[root]], &[], &[])));
        rules.extend(self.pairs.iter().map(|&(first, second)| Rule::new(&[], &[first, second], &[])));
        rules.retain(|rule| {
            !rule.heads.contains(&TRUE) && !rule.positives.contains(&FALSE) && !rule.negatives.contains(&TRUE)
        });
        for rule in &mut rules {
            rule.heads.retain(|&term| term != FALSE);
            rule.positives.retain(|&term| term != TRUE);
            rule.negatives.retain(|&term| term != FALSE);
        }
        Program { atoms: self.atoms, all, rules }
    }
}

/// The node with other numbers for its operands.
fn renumbered(node: Node, number: impl Fn(usize) -> usize) -> Node {
    match node {
        Node::Not(x) => Node::Not(number(x)),
        Node::And(x, y) => Node::And(number(x), number(y)),
        Node::Or(x, y) => Node::Or(number(x), number(y)),
        Node::Implies(x, y) => Node::Implies(number(x), number(y)),
        leaf => leaf,
    }
}

/// What stands for a constant where the number of an atom is expected.
const FALSE: usize = usize::MAX;
const TRUE: usize = usize::MAX - 1;

/// The rules of a node whose first label is `l`; constants are still in them.
fn node_rules(node: Node, terms: &[usize], l: usize) -> Vec<Rule> {
    let m = l + 1;
    match node {
        Node::False | Node::True | Node::Atom(_) => vec![],
        Node::Not(x) => {
            let x = terms[x];
            vec![Rule::new(&[l], &[], &[x]), Rule::new(&[], &[l, x], &[])]
        }
        Node::And(x, y) => {
            let (x, y) = (terms[x], terms[y]);
            vec![Rule::new(&[x], &[l], &[]), Rule::new(&[y], &[l], &[]), Rule::new(&[l], &[x, y], &[])]
        }
        Node::Or(x, y) => {
            let (x, y) = (terms[x], terms[y]);
            vec![Rule::new(&[l], &[x], &[]), Rule::new(&[l], &[y], &[]), Rule::new(&[x, y], &[l], &[])]
        }
        Node::Implies(x, y) => {
            let (x, y) = (terms[x], terms[y]);
            vec![
                Rule::new(&[y], &[l, x], &[]),
                Rule::new(&[l], &[], &[x]),
                Rule::new(&[l], &[y], &[]),
                Rule::new(&[x, m, l], &[], &[]),
                Rule::new(&[m], &[], &[y]),
                Rule::new(&[], &[m, y], &[]),
            ]
        }
    }
}

impl Rule {
    pub fn new(heads: &[usize], positives: &[usize], negatives: &[usize]) -> Rule {
        Rule { heads: heads.to_vec(), positives: positives.to_vec(), negatives: negatives.to_vec() }
    }

    pub fn literals(&self) -> usize {
        self.heads.len() + self.positives.len() + self.negatives.len()
    }
}

/// The rule `own` of a fixed image.
fn fixed_rule(image: &[u8], own: usize) -> Rule {
    let at = 16 + 10 * own;
    let slots: Vec<usize> = (0..3).map(|slot| get2(image, at + 4 + 2 * slot)).collect();
    let heads = image[at] as usize;
    let positives = heads + image[at + 1] as usize;
    let negatives = positives + image[at + 2] as usize;
    Rule::new(&slots[..heads], &slots[heads..positives], &slots[positives..negatives])
}

/// The rules of an image that is packed, whatever the rest of its header says; else which rule is wrong, or how many
/// there are where bytes are left after them. Row 26 is refused with that place.
pub fn packed_rules(image: &[u8]) -> Result<Vec<Rule>, usize> {
    let (all, count) = (get2(image, 2), get2(image, 4));
    let mut bytes = image[16..].iter().copied();
    let rules = (0..count).map(|own| packed_rule(&mut bytes, all).ok_or(own)).collect::<Result<_, _>>()?;
    bytes.next().map_or(Ok(rules), |_| Err(count))
}

/// Takes a rule off the front, byte by byte; nothing where a byte is wrong or missing.
fn packed_rule(bytes: &mut impl Iterator<Item = u8>, all: usize) -> Option<Rule> {
    let mut next = || bytes.next().map(usize::from);
    let (heads, positives, negatives, zero) = (next()?, next()?, next()?, next()?);
    if zero != 0 || heads + positives + negatives > 8 {
        return None;
    }
    let mut atom = || Some(next()? + 256 * next()?).filter(|&atom| atom < all);
    let mut atoms = |count: usize| (0..count).map(|_| atom()).collect::<Option<Vec<usize>>>();
    Some(Rule { heads: atoms(heads)?, positives: atoms(positives)?, negatives: atoms(negatives)? })
}

impl Program {
    /// The image of the program in the fixed form. Nothing is compared with the limits, and from its fourth literal on a
    /// rule has no slots.
    pub fn image(&self) -> Vec<u8> {
        self.written(0, |slots| slots.resize(3, 0))
    }

    /// Its image in the packed form; nothing is compared with the limits.
    pub fn packed(&self) -> Vec<u8> {
        self.written(1, |_| ())
    }

    /// Its images in the forms that have room for all its rules, the packed one last.
    pub fn images(&self) -> Vec<Vec<u8>> {
        let fixed = self.rules.iter().all(|rule| rule.literals() <= 3).then(|| self.image());
        fixed.into_iter().chain([self.packed()]).collect()
    }

    /// The image with this number for its form, in which the slots of each rule become as many as the form wants.
    fn written(&self, form: usize, adapt: impl Fn(&mut Vec<usize>)) -> Vec<u8> {
        let mut rules = Vec::new();
        for rule in &self.rules {
            let parts = [&rule.heads, &rule.positives, &rule.negatives];
            parts.iter().for_each(|part| rules.push(part.len() as u8));
            rules.push(0);
            let mut slots: Vec<usize> = parts.into_iter().flatten().copied().collect();
            adapt(&mut slots);
            slots.into_iter().for_each(|slot| put2(&mut rules, slot));
        }
        let mut bytes = Vec::new();
        put2(&mut bytes, self.atoms);
        put2(&mut bytes, self.all);
        put2(&mut bytes, self.rules.len());
        put2(&mut bytes, form);
        put4(&mut bytes, 16);
        put4(&mut bytes, 16 + rules.len());
        bytes.extend(rules);
        bytes
    }

    /// Reads an image of either form that a check has accepted.
    pub fn read(image: &[u8]) -> Program {
        let rules = match get2(image, 6) {
            0 => (0..get2(image, 4)).map(|own| fixed_rule(image, own)).collect(),
            _ => packed_rules(image).expect("an accepted image"),
        };
        Program { atoms: get2(image, 0), all: get2(image, 2), rules }
    }

    /// Whether every rule holds here, read as body implies head.
    pub fn satisfied(&self, here: &[bool], there: &[bool]) -> bool {
        self.rules.iter().all(|rule| {
            let holds = |world: &[bool]| {
                let body =
                    rule.positives.iter().all(|&a| world[a]) && rule.negatives.iter().all(|&a| !here[a] && !there[a]);
                !body || rule.heads.iter().any(|&a| world[a])
            };
            holds(here) && holds(there)
        })
    }

    /// The answer sets over all atoms, ascending.
    pub fn answer_sets(&self) -> Vec<Set> {
        answer_sets(self.all, |here, there| self.satisfied(here, there))
    }
}

/// The two worlds of a reading.
pub fn worlds(reading: &[u8]) -> (Vec<bool>, Vec<bool>) {
    (reading.iter().map(|&byte| byte == 2).collect(), reading.iter().map(|&byte| byte != 0).collect())
}

/// The members of a set as a list of truths.
fn members(set: Set, atoms: usize) -> Vec<bool> {
    (0..atoms).map(|atom| set >> atom & 1 == 1).collect()
}

/// The reading with 2 on `here`, 1 on the rest of `there`, 0 elsewhere.
pub fn reading(here: Set, there: Set, atoms: usize) -> Vec<u8> {
    (0..atoms).map(|atom| (here >> atom & 1) as u8 + (there >> atom & 1) as u8).collect()
}

/// All sets that satisfy and of which no proper subset, taken as the world here, does.
pub fn answer_sets(atoms: usize, satisfied: impl Fn(&[bool], &[bool]) -> bool) -> Vec<Set> {
    (0..1 << atoms)
        .filter(|&there| {
            let world = members(there, atoms);
            satisfied(&world, &world)
                && (0..there).filter(|here| here & there == *here).all(|here| !satisfied(&members(here, atoms), &world))
        })
        .collect()
}

#[cfg(test)]
mod tests {
    use super::*;
    use crate::random::Random;
    use crate::{formula, generate};

    /// `0 | 2 <-`, the empty rule, and a rule of eight literals.
    fn program() -> Program {
        let rules = vec![Rule::new(&[0, 2], &[], &[]), Rule::default(), Rule::new(&[1], &[0, 2, 300], &[0, 1, 2, 1])];
        Program { atoms: 2, all: 301, rules }
    }

    #[test]
    fn bytes_of_a_packed_program() {
        let header = [2, 0, 45, 1, 3, 0, 1, 0, 16, 0, 0, 0, 48, 0, 0, 0];
        let rules: [&[u8]; 3] =
            [&[2, 0, 0, 0, 0, 0, 2, 0], &[0, 0, 0, 0], &[1, 3, 4, 0, 1, 0, 0, 0, 2, 0, 44, 1, 0, 0, 1, 0, 2, 0, 1, 0]];
        let image = program().packed();
        assert_eq!((&image[..16], &image[16..]), (&header[..], &rules.concat()[..]));
        assert_eq!(Program::read(&image), program());
        // The last rule has no fixed image.
        assert_eq!(program().images(), [image]);
        let small = Program { rules: program().rules[..2].to_vec(), ..program() };
        assert_eq!(small.images(), [small.image(), small.packed()]);
    }

    #[test]
    fn written_and_read_back() {
        let random = &mut Random::new(2);
        for turn in 0..300 {
            let most = if turn % 2 == 0 { 3 } else { 8 };
            let program = generate::program(random, 2, 5, turn % 7, most);
            let images = program.images();
            assert!(images.len() == 2 || most == 8);
            for image in images {
                assert_eq!(get4(&image, 12), image.len());
                assert_eq!(Program::read(&image), program);
            }
        }
        for _ in 0..50 {
            let flat = generate::book(random, 3, 12, 3, 2).flat();
            assert_eq!(Program::read(&flat.packed()), Program::read(&flat.image()));
        }
    }

    #[test]
    fn packed_rules_that_are_wrong() {
        let good = program().packed();
        let with = |at: usize, byte: u8| {
            let mut image = good.clone();
            image[at] = byte;
            packed_rules(&image)
        };
        // The rules start at bytes 16, 24 and 28.
        assert_eq!(packed_rules(&good), Ok(program().rules));
        assert_eq!([with(4, 2), with(4, 4), with(4, 0)], [Err(2), Err(3), Err(0)]);
        assert_eq!([with(19, 1), with(27, 9), with(31, 1)], [Err(0), Err(1), Err(2)]);
        // An atom that is 301, and nine literals.
        assert_eq!([with(38, 45), with(28, 2)], [Err(2), Err(2)]);
        assert_eq!(packed_rules(&good[..47]), Err(2));
        assert_eq!(packed_rules(&good[..27]), Err(1));
        assert_eq!(packed_rules(&[&good[..], &[0]].concat()), Err(3));
    }

    #[test]
    fn nodes_that_nothing_uses() {
        let book = |nodes: &[Node], roots: &[usize]| Book::new(2, nodes.to_vec(), roots.to_vec());
        let [p, q] = [Node::Atom(0), Node::Atom(1)];
        for (nodes, roots, unused) in [
            (&[][..], &[][..], None),
            (&[p], &[], Some(0)),
            (&[p, q], &[1], Some(0)),
            (&[p, q], &[0], Some(1)),
            (&[p, q], &[1, 0], None),
            (&[p, Node::Not(0)], &[1], None),
            // The negation is unused, and what it negates is not.
            (&[p, Node::Not(0)], &[], Some(1)),
            (&[p, q, Node::And(0, 0)], &[2], Some(1)),
            (&[p, q, Node::Or(1, 1)], &[2], Some(0)),
            (&[p, q, Node::Implies(1, 0)], &[2], None),
        ] {
            assert_eq!(book(nodes, roots).unused(), unused, "{nodes:?} {roots:?}");
        }
    }

    #[test]
    fn a_node_put_in_moves_those_after_it() {
        let good = formula::book("p q", "p -> ~q; q");
        for own in 0..=good.nodes.len() {
            let mut book = good.clone();
            book.insert(own, Node::True);
            assert_eq!((book.nodes[own], book.unused()), (Node::True, Some(own)));
            assert_eq!(book.answer_sets(), good.answer_sets());
        }
    }

    #[test]
    fn books_beside_each_other_are_both_satisfied() {
        let [left, right] = ["p | q; p / q", "r -> p; q / r"].map(|text| formula::book("p q r", text));
        let both = left.beside(&right);
        assert_eq!(both.pairs, [(0, 1), (1, 2)]);
        for (there, here) in (0..8).flat_map(|there| (0..=there).map(move |here| (there, here & there))) {
            let [here, there] = [here, there].map(|set| members(set, 3));
            let each = left.satisfied(&here, &there) && right.satisfied(&here, &there);
            assert_eq!(both.satisfied(&here, &there), each);
        }
    }
}
