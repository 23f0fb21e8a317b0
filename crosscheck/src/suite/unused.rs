//! Nodes that nothing uses, and what is a use and what not.

use super::{demand, Suite};
use crate::calls::Call;
use crate::compare::Checked;
use crate::generate;
use crate::lists::Book;
use crate::node::Node;

/// Three nodes that are leaves, atoms 0 to 2.
const P: Node = Node::Atom(0);
const Q: Node = Node::Atom(1);
const R: Node = Node::Atom(2);

/// Nodes and roots, and the first of the nodes that nothing uses.
type Case = (&'static [Node], &'static [usize], Option<usize>);

/// Every node has one use: as a root, as the left or as the right of a node of each kind, or more than one.
const USED: [Case; 14] = [
    (&[], &[], None),
    (&[P], &[0], None),
    (&[P, Q], &[0, 1], None),
    (&[P, Q], &[1, 0, 0], None),
    (&[P, Node::Not(0)], &[1], None),
    (&[P, Q, Node::And(0, 1)], &[2], None),
    (&[P, Q, Node::And(1, 0)], &[2], None),
    (&[P, Q, Node::Or(0, 1)], &[2], None),
    (&[P, Q, Node::Or(1, 0)], &[2], None),
    (&[P, Q, Node::Implies(0, 1)], &[2], None),
    (&[P, Q, Node::Implies(1, 0)], &[2], None),
    (&[P, Node::Or(0, 0)], &[1, 0], None),
    (&[P, Q, Node::And(0, 0)], &[2, 1], None),
    (&[P, Q, Node::Implies(1, 1)], &[0, 2], None),
];

/// The first, one in the middle or the last is not used, or several are.
const UNUSED: [Case; 13] = [
    (&[P], &[], Some(0)),
    (&[P, Q], &[1], Some(0)),
    (&[P, Q], &[0], Some(1)),
    (&[P, Q, R], &[1, 2], Some(0)),
    (&[P, Q, R], &[2, 0], Some(1)),
    (&[P, Q, R], &[0, 1], Some(2)),
    (&[P, Q, R], &[0, 0], Some(1)),
    (&[P, Q, R], &[2], Some(0)),
    (&[P, Q, R, Node::Not(1)], &[3], Some(0)),
    (&[P, Q, R, Node::And(0, 2)], &[3], Some(1)),
    (&[P, Q, R, Node::Or(1, 0)], &[3], Some(2)),
    (&[P, Q, R, Node::Implies(2, 2)], &[3], Some(0)),
    (&[P, Q, Node::Implies(0, 1)], &[1, 0], Some(2)),
];

/// A use by a node that is not used itself is one.
const USED_BY_THE_UNUSED: [Case; 5] = [
    (&[P, Node::Not(0)], &[], Some(1)),
    (&[P, Node::Not(0), Q], &[2], Some(1)),
    (&[P, Node::Not(0), Node::Not(1)], &[], Some(2)),
    (&[P, Q, Node::Or(0, 1), R], &[3], Some(2)),
    (&[P, Q, Node::And(1, 0), Node::Implies(2, 0)], &[1], Some(3)),
];

/// What only looks like a use: the number of an atom, be it that of an earlier node, of its own or of a later one, and
/// fields that are zero.
const NO_USES: [Case; 9] = [
    (&[Q, P], &[1], Some(0)),
    (&[P, Q, Q], &[0, 2], Some(1)),
    (&[P, Q, R], &[0, 1], Some(2)),
    (&[R, P, Q], &[0, 1], Some(2)),
    (&[P, Node::False], &[1], Some(0)),
    (&[P, Node::True], &[1], Some(0)),
    (&[R, P, Node::Not(1)], &[2], Some(0)),
    (&[R, Q, Node::Not(1)], &[2], Some(0)),
    (&[Node::True, Q, R, Node::And(1, 2)], &[3], Some(0)),
];

impl Suite<'_> {
    /// Books worked out by hand, and books of all sizes with a node more than is used.
    pub fn unused_nodes(&mut self) -> Checked<()> {
        for (nodes, roots, unused) in [&USED[..], &UNUSED, &USED_BY_THE_UNUSED, &NO_USES].concat() {
            // The atoms of a pair are no nodes either.
            for pairs in [vec![], vec![(0, 1), (0, 2), (1, 2)]] {
                let book = Book { pairs, ..Book::new(3, nodes.to_vec(), roots.to_vec()) };
                self.judged(&book, unused)?;
            }
        }
        for (atoms, nodes, roots, pairs) in [(2, 1, 1, 1), (20, 9, 3, 2), (1024, 1022, 255, 128)] {
            let book = generate::book(&mut self.random, atoms, nodes, roots, pairs);
            self.judged(&book, None)?;
            for own in [0, nodes / 2, nodes] {
                self.put_in(&book, own)?;
            }
        }
        Ok(())
    }

    /// A book of which it is known whether it has an unused node, and which is the first.
    fn judged(&mut self, book: &Book, unused: Option<usize>) -> Checked<()> {
        demand(book.unused() == unused, Call::CheckTheory, &book.image(), || {
            format!("the first unused node should be {unused:?}")
        })?;
        self.with_random_arguments(book, 3, 4, true)
    }

    /// A node of each kind that is put in without a use, alone, beside other unused nodes and together with other
    /// refusals; then it is used, by a root and by a new node.
    fn put_in(&mut self, good: &Book, own: usize) -> Checked<()> {
        for node in kinds(own) {
            let mut book = good.clone();
            book.insert(own, node);
            self.judged(&book, Some(own))?;
            self.damage_upon_damage(&book.image())?;
            let [mut before, mut after] = [book.clone(), book.clone()];
            before.insert(0, Node::False);
            self.judged(&before, Some(0))?;
            after.insert(self.random.within(own + 1, book.nodes.len()), Node::True);
            self.judged(&after, Some(own))?;
            self.used_by_a_root(&book, own)?;
            self.used_by_a_node(&book, own)?;
        }
        Ok(())
    }

    /// The unused node becomes the first root or the last.
    fn used_by_a_root(&mut self, book: &Book, own: usize) -> Checked<()> {
        for at in [0, book.roots.len()] {
            let mut rooted = book.clone();
            rooted.roots.insert(at, own);
            self.judged(&rooted, None)?;
        }
        Ok(())
    }

    /// The unused node becomes the left or the right of a new one, which is then unused itself or a root.
    fn used_by_a_node(&mut self, book: &Book, own: usize) -> Checked<()> {
        let last = book.nodes.len();
        let other = self.random.below(last);
        for user in [Node::Not(own), Node::And(own, other), Node::Or(other, own), Node::Implies(other, own)] {
            let mut using = book.clone();
            using.nodes.push(user);
            self.judged(&using, Some(last))?;
            using.roots.push(last);
            self.judged(&using, None)?;
        }
        Ok(())
    }
}

/// A node of each kind that the node `own` can have, over two atoms at least.
fn kinds(own: usize) -> Vec<Node> {
    let mut kinds = vec![Node::False, Node::True, Node::Atom(own.min(1))];
    if own > 0 {
        let (first, last) = (0, own - 1);
        kinds.extend([Node::Not(last), Node::And(first, last), Node::Or(last, first), Node::Implies(last, last)]);
    }
    kinds
}
