//! Random books, programs and interpretations.

pub mod growth;

use crate::lists::{self, Book, Pair, Program, Rule};
use crate::node::Node;
use crate::random::Random;
use growth::{Growth, Style, NO_LIMIT, ONLY_IMPLICATIONS};

/// A random book of exactly these sizes in which every node is used. So where there are nodes there is at least one
/// root; without nodes there are no roots, and under two atoms no pairs.
pub fn book(random: &mut Random, atoms: usize, nodes: usize, roots: usize, pairs: usize) -> Book {
    let style = Style::any(random, atoms);
    grown(random, &style, Growth::default(), nodes, roots, pairs)
}

/// The book that grows to these sizes from a beginning.
fn grown(random: &mut Random, style: &Style, mut from: Growth, nodes: usize, roots: usize, pairs: usize) -> Book {
    let roots = if nodes == 0 { 0 } else { roots.max(1) };
    // Where fewer nodes are loose than there are roots, some roots are operands too or stand twice.
    let most = random.within(1, roots.max(1));
    from.grow(random, style, nodes, most);
    let book = from.book(random, style, roots);
    Book { pairs: self::pairs(random, &vec![0; style.atoms], pairs), ..book }
}

/// A random book whose operands and roots are any nodes, so that most of these books have nodes that nothing uses.
/// Without nodes there are no roots, and under two atoms no pairs.
pub fn careless(random: &mut Random, atoms: usize, nodes: usize, roots: usize, pairs: usize) -> Book {
    let style = Style::any(random, atoms);
    let mut growth = Growth::default();
    growth.grow(random, &style, nodes, NO_LIMIT);
    let roots = if nodes == 0 { 0 } else { roots };
    let roots = (0..roots).map(|_| growth::root(random, &style, nodes)).collect();
    Book { pairs: self::pairs(random, &vec![0; atoms], pairs), ..Book::new(atoms, growth.nodes, roots) }
}

/// Changes a book so that its roots hold under `reading`, and makes its pairs anew, so that they hold too. A node that
/// is no operand is changed itself where it does not hold, and still uses what it used; a root that is an operand too
/// moves to a node that holds.
pub fn satisfy(random: &mut Random, book: &mut Book, reading: &[u8]) {
    let (here, there) = lists::worlds(reading);
    let truths = book.truths(&here, &there);
    for own in (0..book.nodes.len()).filter(|&own| !truths[own].0) {
        if !book.is_operand(own) {
            book.nodes[own] = mended(book.nodes[own], &truths);
        }
    }
    let truths = book.truths(&here, &there);
    let holding: Vec<usize> = (0..truths.len()).filter(|&node| truths[node].0).collect();
    for root in book.roots.iter_mut().filter(|root| !truths[**root].0) {
        *root = random.pick(&holding);
    }
    book.pairs = pairs(random, reading, book.pairs.len());
}

/// A node of the same operands that holds. Of two nodes, one always implies the other.
fn mended(node: Node, truths: &[(bool, bool)]) -> Node {
    match node {
        Node::False | Node::True | Node::Atom(_) => Node::True,
        Node::Not(x) => Node::Implies(x, x),
        Node::And(x, y) | Node::Or(x, y) | Node::Implies(x, y) if truths[x] <= truths[y] => Node::Implies(x, y),
        Node::And(x, y) | Node::Or(x, y) | Node::Implies(x, y) => Node::Implies(y, x),
    }
}

/// So many pairs that hold under `reading`: one atom of each is 0 there. Some pairs repeat. Where no atom is 0, or
/// there is no other one, there are none.
fn pairs(random: &mut Random, reading: &[u8], count: usize) -> Vec<Pair> {
    let atoms = reading.len();
    let zeros: Vec<usize> = (0..atoms).filter(|&atom| reading[atom] == 0).collect();
    let count = if zeros.is_empty() || atoms < 2 { 0 } else { count };
    let mut pairs = Vec::new();
    for own in 0..count {
        let pair = if own > 0 && random.chance(10) {
            random.pick(&pairs)
        } else {
            let zero = random.pick(&zeros);
            let other = (zero + random.within(1, atoms - 1)) % atoms;
            (zero.min(other), zero.max(other))
        };
        pairs.push(pair);
    }
    pairs
}

/// A book whose one answer set is `truths` atoms out of `atoms`, as in `facts_of`.
pub fn facts(random: &mut Random, atoms: usize, nodes: usize, truths: usize, pairs: usize) -> (Book, Vec<u8>) {
    let set = set(random, atoms, truths);
    (facts_of(random, &set, nodes, pairs), set)
}

/// A book whose one answer set is this one: each true atom is a root. Further nodes stand beside, under one more root,
/// the first, which always holds, and pairs that hold.
pub fn facts_of(random: &mut Random, set: &[u8], nodes: usize, pairs: usize) -> Book {
    let chosen: Vec<Node> = true_atoms(set).map(Node::Atom).collect();
    let truths = chosen.len();
    let mut growth = Growth { nodes: chosen, ..Growth::default() };
    let mut roots: Vec<usize> = (0..truths).collect();
    if nodes > truths {
        let style = Style::any(random, set.len());
        growth.grow(random, &style, nodes - 1, 1);
        // The last of these nodes is the only loose one.
        let always = growth.loose.last().map_or(Node::True, |&last| Node::Implies(last, last));
        growth.push(always);
        roots.insert(0, nodes - 1);
    }
    let pairs = self::pairs(random, set, pairs);
    Book { pairs, ..Book::new(set.len(), growth.nodes, roots) }
}

/// The book with the root `a or not a` for each of its atoms beside: every set that satisfied it is an answer set.
pub fn free(mut book: Book) -> Book {
    for atom in 0..book.atoms {
        let own = book.nodes.len();
        book.nodes.extend([Node::Atom(atom), Node::Not(own), Node::Or(own, own + 1)]);
        book.roots.push(own + 2);
    }
    book
}

/// The book of these sizes, with at least one node and one root, that has the longest program: 6 (N - 1) + R + P rules,
/// and packed 16 + 52 (N - 1) + 6 R + 8 P bytes.
/// Of all kinds an implication has the most, six, if no operand is a constant; the first node can only be a leaf, which
/// has none; a root or a pair has one at most. That every node must be used makes no program shorter: a chain in which
/// each implication is an operand of the next needs a single root.
pub fn longest(random: &mut Random, atoms: usize, nodes: usize, roots: usize, pairs: usize) -> Book {
    let style = Style { atoms, kinds: &ONLY_IMPLICATIONS, leaves: 0, near: false };
    let mut first = Growth::default();
    first.push(Node::Atom(0));
    grown(random, &style, first, nodes, roots, pairs)
}

/// A random program of exactly these sizes, whose rules have up to `most` literals.
pub fn program(random: &mut Random, atoms: usize, all: usize, rules: usize, most: usize) -> Program {
    let rules = (0..rules).map(|_| rule(random, all, most)).collect();
    Program { atoms, all, rules }
}

/// A random rule. The one without literals, which nothing satisfies, is rare.
fn rule(random: &mut Random, all: usize, most: usize) -> Rule {
    let mut rule = Rule::default();
    if all > 0 && !random.chance(4) {
        for _ in 0..random.within(1, most) {
            let atom = random.below(all);
            match random.below(3) {
                0 => rule.heads.push(atom),
                1 => rule.positives.push(atom),
                _ => rule.negatives.push(atom),
            }
        }
    }
    rule
}

/// A program whose one answer set is `truths` atoms: each is a fact, and every other rule asks for an atom outside.
pub fn fact_program(random: &mut Random, all: usize, rules: usize, truths: usize) -> (Program, Vec<u8>) {
    let set = set(random, all, truths);
    let mut program = program(random, 0, all, rules.max(truths), 3);
    let outside: Vec<usize> = (0..all).filter(|&atom| set[atom] == 0).collect();
    for rule in &mut program.rules {
        rule.heads.truncate(2);
        rule.positives = vec![random.pick(&outside)];
        rule.negatives.clear();
    }
    let step = program.rules.len() / truths.max(1);
    for (own, atom) in true_atoms(&set).enumerate() {
        program.rules[own * step] = Rule::new(&[atom], &[], &[]);
    }
    (program, set)
}

/// A candidate with exactly `truths` true atoms out of `atoms`.
pub fn set(random: &mut Random, atoms: usize, truths: usize) -> Vec<u8> {
    let mut set = vec![0; atoms];
    while true_atoms(&set).count() < truths {
        set[random.below(atoms)] = 2;
    }
    set
}

/// The candidate with these true atoms out of `atoms`.
pub fn set_of(atoms: usize, truths: &[usize]) -> Vec<u8> {
    let mut set = vec![0; atoms];
    truths.iter().for_each(|&atom| set[atom] = 2);
    set
}

/// The true atoms of a candidate, ascending.
pub fn true_atoms(set: &[u8]) -> impl Iterator<Item = usize> + '_ {
    (0..set.len()).filter(|&atom| set[atom] == 2)
}

/// So many atoms out of `atoms` that lie as far apart as they can: the first, the last and others between them.
pub fn far_apart(atoms: usize, truths: usize) -> Vec<usize> {
    let gaps = truths.max(2) - 1;
    (0..truths).map(|own| own * (atoms - 1) / gaps).collect()
}

/// A random interpretation of `atoms` bytes.
pub fn reading(random: &mut Random, atoms: usize) -> Vec<u8> {
    match random.below(4) {
        0 => vec![random.below(3) as u8; atoms],
        1 => (0..atoms).map(|_| random.pick(&[0, 2])).collect(),
        _ => (0..atoms).map(|_| random.below(3) as u8).collect(),
    }
}

/// A random candidate of `atoms` bytes with at most `truths` true atoms.
pub fn candidate(random: &mut Random, atoms: usize, truths: usize) -> Vec<u8> {
    let mut candidate = vec![0; atoms];
    if atoms > 0 {
        for _ in 0..random.within(0, truths) {
            candidate[random.below(atoms)] = 2;
        }
    }
    candidate
}

#[cfg(test)]
mod tests {
    use super::*;

    #[test]
    fn as_many_pairs_as_asked_for() {
        let random = &mut Random::new(3);
        for (atoms, count) in [(0, 0), (2, 0), (2, 1), (2, 129), (3, 4), (1024, 127), (1024, 128)] {
            let pairs = book(random, atoms, 4, 1, count).pairs;
            assert_eq!(pairs.len(), count);
            assert!(pairs.iter().all(|&(first, second)| first < second && second < atoms));
        }
        assert_eq!([0, 1].map(|atoms| book(random, atoms, 4, 1, 5).pairs), [[], []]);
        // Of so many atoms 128 pairs would all be different, if none were repeated.
        let mut pairs = longest(random, 1024, 2, 0, 128).pairs;
        pairs.sort_unstable();
        pairs.dedup();
        assert!((64..128).contains(&pairs.len()), "{}", pairs.len());
    }

    #[test]
    fn pairs_that_hold() {
        let random = &mut Random::new(4);
        for _ in 0..20 {
            let reading = [&[0][..], &reading(random, 6)].concat();
            let mut satisfied = book(random, 7, 9, 3, 12);
            satisfy(random, &mut satisfied, &reading);
            let (here, there) = lists::worlds(&reading);
            assert_eq!((satisfied.pairs.len(), satisfied.satisfied(&here, &there)), (12, true));
            let (book, set) = facts(random, 6, 9, 3, 12);
            let sets: Vec<Vec<u8>> = book.answer_sets().iter().map(|&set| lists::reading(set, set, 6)).collect();
            assert_eq!((book.pairs.len(), sets), (12, vec![set]));
        }
    }

    /// How many nodes, roots and pairs a book has in which every node is used.
    fn sizes(book: &Book) -> (usize, usize, usize) {
        assert_eq!(book.unused(), None, "{book:?}");
        (book.nodes.len(), book.roots.len(), book.pairs.len())
    }

    #[test]
    fn every_node_is_used_in_books_of_all_sizes() {
        let random = &mut Random::new(5);
        for (nodes, roots) in [(1, 1), (1, 4), (2, 1), (3, 3), (9, 1), (9, 20), (200, 2), (1024, 1), (1024, 256)] {
            for _ in 0..5 {
                assert_eq!(sizes(&book(random, 3, nodes, roots, 2)), (nodes, roots, 2));
                assert_eq!(sizes(&longest(random, 3, nodes, roots, 2)), (nodes, roots, 2));
                let mut satisfied = book(random, 9, nodes, roots, 0);
                let reading = reading(random, 9);
                satisfy(random, &mut satisfied, &reading);
                let (here, there) = lists::worlds(&reading);
                assert_eq!((sizes(&satisfied), satisfied.satisfied(&here, &there)), ((nodes, roots, 0), true));
            }
        }
        // Nodes want a root, and a root wants a node.
        assert_eq!(sizes(&book(random, 3, 4, 0, 0)), (4, 1, 0));
        assert_eq!(sizes(&book(random, 3, 0, 4, 0)), (0, 0, 0));
    }

    #[test]
    fn nodes_beside_facts_change_nothing() {
        let random = &mut Random::new(6);
        for (nodes, truths) in [(0, 0), (1, 0), (2, 0), (20, 0), (0, 3), (3, 3), (4, 3), (5, 3), (20, 3)] {
            let (book, set) = facts(random, 4, nodes, truths, 0);
            let always = usize::from(nodes > truths);
            assert_eq!(sizes(&book), (nodes.max(truths), truths + always, 0));
            let set = (0..4).filter(|&atom| set[atom] == 2).map(|atom| 1 << atom).sum();
            assert_eq!(book.answer_sets(), [set]);
            let free = free(book);
            sizes(&free);
            assert_eq!(free.answer_sets(), (0..16).filter(|other| other & set == set).collect::<Vec<_>>());
        }
    }

    /// What is to be met among random books, however they are grown.
    #[test]
    fn books_are_varied() {
        type Sign = fn(&Book) -> bool;
        let signs: [(&str, Sign); 10] = [
            ("a negation", |book| book.nodes.iter().any(|node| matches!(node, Node::Not(_)))),
            ("a conjunction", |book| book.nodes.iter().any(|node| matches!(node, Node::And(..)))),
            ("a disjunction", |book| book.nodes.iter().any(|node| matches!(node, Node::Or(..)))),
            ("an implication", |book| book.nodes.iter().any(|node| matches!(node, Node::Implies(..)))),
            ("a constant", |book| book.nodes.iter().any(|node| matches!(node, Node::False | Node::True))),
            ("equal operands", |book| operands(book).any(|(_, left, right)| left == right)),
            ("an operand far away", |book| operands(book).any(|(own, left, _)| own > left + 20)),
            ("one node in two others", |book| {
                operands(book)
                    .any(|(own, left, _)| operands(book).any(|(other, _, right)| own != other && left == right))
            }),
            ("a root that is an operand", |book| book.roots.iter().any(|&root| book.is_operand(root))),
            ("a root twice", |book| (1..book.roots.len()).any(|at| book.roots[..at].contains(&book.roots[at]))),
        ];
        let random = &mut Random::new(7);
        let books: Vec<Book> = (0..200).map(|_| book(random, 5, 40, 4, 0)).collect();
        for (name, sign) in signs {
            let count = books.iter().filter(|book| sign(book)).count();
            assert!(count >= 50, "{name}: {count} of 200");
        }
    }

    /// The number, left and right of each node that has both.
    fn operands(book: &Book) -> impl Iterator<Item = (usize, usize, usize)> + '_ {
        book.nodes.iter().enumerate().filter_map(|(own, &node)| match node {
            Node::And(left, right) | Node::Or(left, right) | Node::Implies(left, right) => Some((own, left, right)),
            _ => None,
        })
    }

    #[test]
    fn most_careless_books_have_an_unused_node() {
        let random = &mut Random::new(8);
        let books: Vec<Book> = (0..200).map(|_| careless(random, 5, 12, 4, 0)).collect();
        assert!(books.iter().all(|book| (book.nodes.len(), book.roots.len()) == (12, 4)));
        let unused = books.iter().filter(|book| book.unused().is_some()).count();
        assert!((150..200).contains(&unused), "{unused}");
    }

    #[test]
    fn no_program_of_a_book_is_longer() {
        let random = &mut Random::new(9);
        // The rules of a node alone, with operands that are atoms: none for the first node, six at most for others.
        let [p, q] = [Node::Atom(0), Node::Atom(1)];
        let inner = [Node::Not(0), Node::And(0, 1), Node::Or(0, 1), Node::Implies(0, 1)];
        let flat = |left: Node, right: Node, node: Node| Book::new(2, vec![left, right, node], vec![]).flat();
        assert_eq!(inner.map(|node| flat(p, q, node).rules.len()), [2, 3, 3, 6]);
        // Packed, too, an implication has the most bytes, and no constant makes it more.
        let bytes = |left: Node, right: Node, node: Node| flat(left, right, node).packed().len() - 16;
        assert_eq!(inner.map(|node| bytes(p, q, node)), [16, 26, 26, 52]);
        for (left, right) in [Node::False, Node::True].into_iter().flat_map(|c| [(c, q), (p, c), (c, c)]) {
            assert!(inner.iter().all(|&node| bytes(left, right, node) <= bytes(p, q, node)));
        }
        assert_eq!(
            [Node::False, Node::True, p].map(|leaf| Book::new(2, vec![leaf], vec![]).flat().rules.len()),
            [0; 3]
        );
        for (nodes, roots, pairs, rules) in
            [(1024, 256, 128, 6522), (1024, 256, 0, 6394), (1024, 1, 0, 6139), (1, 1, 0, 1)]
        {
            let longest = longest(random, 1024, nodes, roots, pairs);
            assert_eq!((sizes(&longest), longest.flat().rules.len()), ((nodes, roots, pairs), rules));
            assert_eq!(rules, 6 * (nodes - 1) + roots + pairs);
            assert_eq!(longest.flat().packed().len(), 16 + 52 * (nodes - 1) + 6 * roots + 8 * pairs);
            assert!(book(random, 1024, nodes, roots, pairs).flat().rules.len() <= rules);
        }
    }
}
