use super::value::Value;
use super::{groups, half, refuse, word, Outcome, HEADER};
use crate::node::Node;

pub const MOST_ATOMS: usize = 1024;
pub const MOST_NODES: usize = 1024;
const MOST_ROOTS: usize = 256;
const MOST_PAIRS: usize = 128;

/// A theory image that has passed its check, split into its parts.
pub struct Theory<'a> {
    pub atoms: usize,
    nodes: &'a [u8],
    roots: &'a [u8],
    pairs: &'a [u8],
}

/// The values of the nodes. One array serves all the evaluations of a call.
pub type Values = [Value; MOST_NODES];

pub const NO_VALUES: Values = [Value::FALSE; MOST_NODES];

impl<'a> Theory<'a> {
    /// Rows 1, 2, 4 to 7, 15 and 13.
    pub fn check(image: &'a [u8]) -> Outcome<Theory<'a>> {
        if image.len() < HEADER {
            return refuse(1, 0);
        }
        let (header, body) = image.split_at(HEADER);
        let [atoms, nodes, roots, pairs] = [half(header, 0), half(header, 2), half(header, 4), half(header, 6)];
        if atoms > MOST_ATOMS || nodes > MOST_NODES || roots > MOST_ROOTS || pairs > MOST_PAIRS {
            return refuse(2, 0);
        }
        let roots_at = HEADER + 6 * nodes;
        if word(header, 8) != HEADER || word(header, 12) != roots_at {
            return refuse(4, 0);
        }
        let length = roots_at + 2 * roots + 4 * pairs;
        if image.len() != length {
            return refuse(5, length);
        }
        let count = nodes;
        let (nodes, rest) = body.split_at(6 * count);
        let (roots, pairs) = rest.split_at(2 * roots);
        if let Some((own, node)) = groups(nodes).enumerate().find(|&(own, node)| !fits(node, own, atoms)) {
            return refuse(6, 8 * own + wrong_field(node, own, atoms));
        }
        if let Some(bad) = groups::<2>(roots).position(|root| half(root, 0) >= count) {
            return refuse(7, bad);
        }
        if let Some(bad) = groups(pairs).map(pair).position(|[first, second]| first >= second || second >= atoms) {
            return refuse(15, bad);
        }
        if let Some(own) = unused(nodes, roots) {
            return refuse(13, own);
        }
        Ok(Theory { atoms, nodes, roots, pairs })
    }

    pub fn nodes(&self) -> impl Iterator<Item = Node> + 'a {
        groups(self.nodes).map(node)
    }

    /// The node numbers of the roots.
    pub fn roots(&self) -> impl Iterator<Item = usize> + 'a {
        groups::<2>(self.roots).map(|root| half(root, 0))
    }

    /// The two atoms of each pair.
    pub fn pairs(&self) -> impl Iterator<Item = [usize; 2]> + 'a {
        groups(self.pairs).map(pair)
    }

    /// The number of all atoms, labels included.
    pub fn all(&self) -> usize {
        self.atoms + self.nodes().map(labels).sum::<usize>()
    }

    /// Fills in the value of every node under `reading`.
    pub fn evaluate(&self, reading: &[u8], values: &mut Values) {
        for (own, node) in self.nodes().enumerate() {
            values[own] = match node {
                Node::False => Value::FALSE,
                Node::True => Value::TRUE,
                Node::Atom(atom) => Value::of(reading[atom]),
                Node::Not(x) => values[x].not(),
                Node::And(x, y) => values[x].and(values[y]),
                Node::Or(x, y) => values[x].or(values[y]),
                Node::Implies(x, y) => values[x].implies(values[y]),
            };
        }
    }

    #[inline(always)]
    pub fn satisfied(&self, reading: &[u8], values: &mut Values) -> bool {
        self.evaluate(reading, values);
        self.roots().all(|root| values[root] == Value::TRUE) && self.pairs_hold(reading)
    }

    /// Whether "not both" has the value 2 for every pair.
    fn pairs_hold(&self, reading: &[u8]) -> bool {
        let value = |atom: usize| Value::of(reading[atom]);
        self.pairs().all(|[first, second]| value(first).and(value(second)).not() == Value::TRUE)
    }
}

/// Whether left obeys the kind's row, in node number `own` over `atoms` atoms.
fn left_fits(node: &[u8; 6], own: usize, atoms: usize) -> bool {
    let left = half(node, 2);
    match node[0] {
        0 | 1 => left == 0,
        2 => left < atoms,
        _ => left < own,
    }
}

/// Whether all six bytes do.
fn fits(node: &[u8; 6], own: usize, atoms: usize) -> bool {
    let right = half(node, 4);
    node[1] == 0
        && left_fits(node, own, atoms)
        && match node[0] {
            0..=3 => right == 0,
            4..=6 => right < own,
            _ => false,
        }
}

/// The first wrong field of a node that breaks its row: 0 kind, 1 zero byte, 2 left, 3 right.
fn wrong_field(node: &[u8; 6], own: usize, atoms: usize) -> usize {
    if node[0] > 6 {
        0
    } else if node[1] != 0 {
        1
    } else if !left_fits(node, own, atoms) {
        2
    } else {
        3
    }
}

/// The first node that is neither an operand nor a root, where all nodes and roots fit.
fn unused(nodes: &[u8], roots: &[u8]) -> Option<usize> {
    let mut used = [false; MOST_NODES];
    for node in groups::<6>(nodes) {
        match node[0] {
            0..=2 => {}
            3 => used[half(node, 2)] = true,
            _ => {
                used[half(node, 2)] = true;
                used[half(node, 4)] = true;
            }
        }
    }
    for root in groups::<2>(roots) {
        used[half(root, 0)] = true;
    }
    used[..nodes.len() / 6].iter().position(|&used| !used)
}

/// How many labels a node takes.
pub fn labels(node: Node) -> usize {
    match node {
        Node::False | Node::True | Node::Atom(_) => 0,
        Node::Not(_) | Node::And(..) | Node::Or(..) => 1,
        Node::Implies(..) => 2,
    }
}

fn node(bytes: &[u8; 6]) -> Node {
    let (left, right) = (half(bytes, 2), half(bytes, 4));
    match bytes[0] {
        0 => Node::False,
        1 => Node::True,
        2 => Node::Atom(left),
        3 => Node::Not(left),
        4 => Node::And(left, right),
        5 => Node::Or(left, right),
        _ => Node::Implies(left, right),
    }
}

fn pair(bytes: &[u8; 4]) -> [usize; 2] {
    [half(bytes, 0), half(bytes, 2)]
}
