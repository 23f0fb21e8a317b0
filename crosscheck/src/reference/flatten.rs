use super::form::Form;
use super::theory::{labels, Theory, MOST_NODES};
use crate::node::Node;
use std::marker::PhantomData;
use std::mem;

/// What stands for a node in a flat rule.
#[derive(Clone, Copy, PartialEq, Eq)]
enum Term {
    False,
    True,
    /// The number of an atom or label.
    Atom(u16),
}

/// In a list of terms the constants are two numbers that no atom has.
const FALSE: u16 = u16::MAX;
const TRUE: u16 = u16::MAX - 1;

/// The terms of the nodes, as numbers. One array serves both passes.
pub type Terms = [u16; MOST_NODES];

pub const NO_TERMS: Terms = [0; MOST_NODES];

/// How much there is to write.
pub struct Size {
    /// The number of all atoms, labels included.
    pub all: usize,
    pub rules: usize,
    pub literals: usize,
}

/// Fills in the terms, numbering the labels, and counts the rules and their literals. It is inlined, so that for a form
/// that does not ask for the literals they are not counted.
#[inline(always)]
pub fn measure(theory: &Theory, terms: &mut Terms) -> Size {
    let mut all = theory.atoms;
    let mut counter = Counter { rules: 0, literals: 0 };
    for (own, node) in theory.nodes().enumerate() {
        terms[own] = match node {
            Node::False => FALSE,
            Node::True => TRUE,
            Node::Atom(atom) => atom as u16,
            _ => all as u16,
        };
        all += labels(node);
        node_rules(own, node, terms, &mut counter);
    }
    last_rules(theory, terms, &mut counter);
    Size { all, rules: counter.rules, literals: counter.literals }
}

/// Writes the rules, one after the other, from the start of `out` on.
pub fn write<F: Form>(theory: &Theory, terms: &Terms, out: &mut [u8]) {
    let mut writer = Writer::<F> { free: out, form: PhantomData };
    for (own, node) in theory.nodes().enumerate() {
        node_rules(own, node, terms, &mut writer);
    }
    last_rules(theory, terms, &mut writer);
}

fn term(terms: &Terms, node: usize) -> Term {
    match terms[node] {
        FALSE => Term::False,
        TRUE => Term::True,
        atom => Term::Atom(atom),
    }
}

/// Where rules go before their constants are taken out. Every rule is written with fixed numbers of terms, so that once
/// inlined no loop is left.
trait Sink {
    fn rule(&mut self, heads: &[Term], positives: &[Term], negatives: &[Term]);
}

#[inline(always)]
fn node_rules(own: usize, node: Node, terms: &Terms, sink: &mut impl Sink) {
    // A leaf has no labels, and these are not used.
    let (l, m) = (Term::Atom(terms[own]), Term::Atom(terms[own].wrapping_add(1)));
    match node {
        Node::False | Node::True | Node::Atom(_) => {}
        Node::Not(x) => {
            let x = term(terms, x);
            sink.rule(&[l], &[], &[x]);
            sink.rule(&[], &[l, x], &[]);
        }
        Node::And(x, y) => {
            let (x, y) = (term(terms, x), term(terms, y));
            sink.rule(&[x], &[l], &[]);
            sink.rule(&[y], &[l], &[]);
            sink.rule(&[l], &[x, y], &[]);
        }
        Node::Or(x, y) => {
            let (x, y) = (term(terms, x), term(terms, y));
            sink.rule(&[l], &[x], &[]);
            sink.rule(&[l], &[y], &[]);
            sink.rule(&[x, y], &[l], &[]);
        }
        Node::Implies(x, y) => {
            let (x, y) = (term(terms, x), term(terms, y));
            sink.rule(&[y], &[l, x], &[]);
            sink.rule(&[l], &[], &[x]);
            sink.rule(&[l], &[y], &[]);
            sink.rule(&[x, m, l], &[], &[]);
            sink.rule(&[m], &[], &[y]);
            sink.rule(&[], &[m, y], &[]);
        }
    }
}

/// After the rules of the nodes: a fact for each root and a constraint for each pair.
fn last_rules(theory: &Theory, terms: &Terms, sink: &mut impl Sink) {
    for root in theory.roots() {
        sink.rule(&[term(terms, root)], &[], &[]);
    }
    for pair in theory.pairs() {
        let [first, second] = pair.map(|atom| Term::Atom(atom as u16));
        sink.rule(&[], &[first, second], &[]);
    }
}

/// Whether a constant makes the rule hold whatever the atoms are, so that it is left out.
#[inline]
fn idle(heads: &[Term], positives: &[Term], negatives: &[Term]) -> bool {
    heads.contains(&Term::True) || positives.contains(&Term::False) || negatives.contains(&Term::True)
}

/// The literals that stay: those that are no constants.
#[inline]
fn literals(heads: &[Term], positives: &[Term], negatives: &[Term]) -> usize {
    let atoms = |terms: &[Term]| terms.iter().filter(|term| matches!(term, Term::Atom(_))).count();
    atoms(heads) + atoms(positives) + atoms(negatives)
}

struct Counter {
    rules: usize,
    literals: usize,
}

impl Sink for Counter {
    #[inline(always)]
    fn rule(&mut self, heads: &[Term], positives: &[Term], negatives: &[Term]) {
        if !idle(heads, positives, negatives) {
            self.rules += 1;
            self.literals += literals(heads, positives, negatives);
        }
    }
}

struct Writer<'a, F> {
    free: &'a mut [u8],
    form: PhantomData<F>,
}

impl<F: Form> Sink for Writer<'_, F> {
    #[inline(always)]
    fn rule(&mut self, heads: &[Term], positives: &[Term], negatives: &[Term]) {
        if idle(heads, positives, negatives) {
            return;
        }
        // A packed rule, too, is written over ten bytes where there are so many: those that it does not use belong to the
        // next one.
        let free = mem::take(&mut self.free);
        if F::PACKED && free.len() < 10 {
            let mut rule = [0; 10];
            let length = F::length(1, fill(&mut rule, heads, positives, negatives));
            free[..length].copy_from_slice(&rule[..length]);
            self.free = &mut free[length..];
        } else {
            let literals = fill(&mut free[..10], heads, positives, negatives);
            self.free = &mut free[F::length(1, literals)..];
        }
    }
}

/// Writes a rule over ten bytes, those that it does not use as zeros, and gives the number of its literals.
#[inline(always)]
fn fill(rule: &mut [u8], heads: &[Term], positives: &[Term], negatives: &[Term]) -> usize {
    rule.fill(0);
    let mut at = 4;
    let mut put = |part: usize, terms: &[Term]| {
        for &term in terms {
            if let Term::Atom(atom) = term {
                rule[part] += 1;
                rule[at..at + 2].copy_from_slice(&atom.to_le_bytes());
                at += 2;
            }
        }
    };
    put(0, heads);
    put(1, positives);
    put(2, negatives);
    (at - 4) / 2
}
