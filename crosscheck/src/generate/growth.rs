//! Lists of nodes that grow at random, and whose loose ends are tied up in time.

use crate::lists::Book;
use crate::node::Node;
use crate::random::Random;

/// What the nodes of a random book are like.
#[derive(Clone, Copy)]
pub struct Style {
    pub atoms: usize,
    /// Makers of inner nodes, one of which is picked for each.
    pub kinds: &'static [Kind],
    /// How many nodes in a hundred are leaves, while there is no need to save.
    pub leaves: usize,
    /// Whether most operands and roots are among the last nodes.
    pub near: bool,
}

/// Makes a node of two operands, or of the first alone.
pub type Kind = fn(usize, usize) -> Node;

const NOT: Kind = |left, _| Node::Not(left);
const AND: Kind = Node::And;
const OR: Kind = Node::Or;
const IMPLIES: Kind = Node::Implies;

/// Every kind of inner node, an implication more often than another.
const ALL: [Kind; 9] = [NOT, NOT, AND, AND, OR, OR, IMPLIES, IMPLIES, IMPLIES];

/// Two of three are implications.
pub const MOSTLY_IMPLICATIONS: [Kind; 9] = [NOT, AND, OR, IMPLIES, IMPLIES, IMPLIES, IMPLIES, IMPLIES, IMPLIES];

pub const ONLY_IMPLICATIONS: [Kind; 1] = [IMPLIES];

/// Where any number of nodes may stay without a use.
pub const NO_LIMIT: usize = 1 << 24;

impl Style {
    pub fn any(random: &mut Random, atoms: usize) -> Style {
        Style { atoms, kinds: &ALL, leaves: random.pick(&[10, 30, 60]), near: random.chance(50) }
    }
}

/// Nodes, and those of them that are loose, ascending: they are no operands so far, and nothing else uses them.
#[derive(Clone, Debug, Default)]
pub struct Growth {
    pub nodes: Vec<Node>,
    pub loose: Vec<usize>,
}

impl Growth {
    /// Adds a node, which is loose; its operands are used by now.
    pub fn push(&mut self, node: Node) {
        let mut tie = |operand: usize| {
            if let Ok(at) = self.loose.binary_search(&operand) {
                self.loose.remove(at);
            }
        };
        match node {
            Node::False | Node::True | Node::Atom(_) => {}
            Node::Not(x) => tie(x),
            Node::And(x, y) | Node::Or(x, y) | Node::Implies(x, y) => [x, y].into_iter().for_each(tie),
        }
        self.loose.push(self.nodes.len());
        self.nodes.push(node);
    }

    /// Adds nodes until there are `nodes`, of which at most `most`, and that is one at least, are loose then. A node
    /// ties up two at most and is loose itself, so each that is still to come allows for one loose node more. The
    /// closer the loose nodes get to what is allowed, the more often they are taken for operands and leaves left out.
    pub fn grow(&mut self, random: &mut Random, style: &Style, nodes: usize, most: usize) {
        while self.nodes.len() < nodes {
            let allowed = most + nodes - self.nodes.len() - 1;
            let haste = 100 * self.loose.len() / allowed;
            let due = (self.loose.len() + 1).saturating_sub(allowed);
            let a_leaf = due == 0 && random.chance(style.leaves) && !random.chance(haste);
            let node = match self.nodes.is_empty() || a_leaf {
                true => leaf(random, style.atoms),
                false => self.inner(random, style, due, haste),
            };
            self.push(node);
        }
        assert!(self.loose.len() <= most, "{} nodes cannot be tied up in time", self.loose.len());
    }

    /// An inner node that ties up `due` loose ones at least, two at most.
    fn inner(&self, random: &mut Random, style: &Style, due: usize, haste: usize) -> Node {
        let left = match due > 0 || random.chance(haste) {
            true => self.loose_operand(random, style, usize::MAX),
            false => self.operand(random, style),
        };
        let right = match due > 1 || random.chance(haste) {
            true => self.loose_operand(random, style, left),
            false if random.chance(5) => left,
            false => self.operand(random, style),
        };
        loop {
            let node = random.pick(style.kinds)(left, right);
            if due < 2 || !matches!(node, Node::Not(_)) {
                return node;
            }
        }
    }

    fn operand(&self, random: &mut Random, style: &Style) -> usize {
        position(random, style.near, self.nodes.len())
    }

    /// A loose node other than `but`, or where there is none, any node.
    fn loose_operand(&self, random: &mut Random, style: &Style, but: usize) -> usize {
        let skipped = self.loose.binary_search(&but).ok();
        let others = self.loose.len() - usize::from(skipped.is_some());
        if others == 0 {
            return self.operand(random, style);
        }
        let at = position(random, style.near, others);
        self.loose[at + usize::from(skipped.map_or(false, |skipped| at >= skipped))]
    }

    /// The book of these nodes with so many roots: the loose nodes, and while there are fewer, others and the same ones
    /// again, in any order.
    pub fn book(self, random: &mut Random, style: &Style, roots: usize) -> Book {
        let Growth { nodes, loose: mut chosen } = self;
        while chosen.len() < roots {
            chosen.push(root(random, style, nodes.len()));
        }
        random.shuffle(&mut chosen);
        Book::new(style.atoms, nodes, chosen)
    }
}

/// A position in a list of so many, which may be among the last five more often.
fn position(random: &mut Random, near: bool, count: usize) -> usize {
    match near && random.chance(70) {
        true => count - 1 - random.below(count.min(5)),
        false => random.below(count),
    }
}

/// A root that need not be one.
pub fn root(random: &mut Random, style: &Style, nodes: usize) -> usize {
    let low = if style.near { nodes.saturating_sub(4) } else { 0 };
    random.within(low, nodes - 1)
}

fn leaf(random: &mut Random, atoms: usize) -> Node {
    if atoms > 0 && !random.chance(12) {
        Node::Atom(random.below(atoms))
    } else if random.chance(50) {
        Node::False
    } else {
        Node::True
    }
}
