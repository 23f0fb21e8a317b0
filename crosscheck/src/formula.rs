//! Formulas as text, for the tables of worked examples.
//!
//! From the tightest to the loosest: `~`, `&`, `|`, and then `->`, `<-`, `<->`, which stand once in a bracket. The
//! constants are `false` and `true`; every other word is an atom. A semicolon parts the formulas of a theory, and
//! `p / q` stands for a pair.

use crate::lists::{Book, Set};
use crate::node::Node;

/// The book of a text, with the atoms numbered as they stand in `atoms`. Panics on a text that is wrong.
pub fn book(atoms: &str, text: &str) -> Book {
    let names: Vec<&str> = atoms.split_whitespace().collect();
    let mut book = Book { atoms: names.len(), ..Book::default() };
    for formula in text.split(';').map(str::trim).filter(|formula| !formula.is_empty()) {
        if let Some((first, second)) = formula.split_once('/') {
            book.pairs.push((atom(&names, first.trim()), atom(&names, second.trim())));
            continue;
        }
        let mut reader = Reader { names: &names, words: words(formula), at: 0, nodes: &mut book.nodes };
        let root = reader.rule();
        assert!(reader.at == reader.words.len(), "the end of {formula} was not understood");
        book.roots.push(root);
    }
    book
}

/// The set of the atoms named in `members`.
pub fn set(atoms: &str, members: &str) -> Set {
    let names: Vec<&str> = atoms.split_whitespace().collect();
    members.split_whitespace().map(|name| 1 << atom(&names, name)).sum()
}

/// The number of the atom of this name.
fn atom(names: &[&str], name: &str) -> usize {
    names.iter().position(|known| *known == name).unwrap_or_else(|| panic!("{name} is no atom here"))
}

fn words(text: &str) -> Vec<&str> {
    let mut words = Vec::new();
    let mut rest = text.trim_start();
    while let Some(first) = rest.chars().next() {
        let length = if first.is_alphanumeric() {
            rest.find(|c: char| !c.is_alphanumeric()).unwrap_or(rest.len())
        } else {
            ["<->", "->", "<-"].iter().find(|sign| rest.starts_with(**sign)).map_or(1, |sign| sign.len())
        };
        let (word, after) = rest.split_at(length);
        words.push(word);
        rest = after.trim_start();
    }
    words
}

struct Reader<'a> {
    names: &'a [&'a str],
    words: Vec<&'a str>,
    at: usize,
    nodes: &'a mut Vec<Node>,
}

impl Reader<'_> {
    fn node(&mut self, node: Node) -> usize {
        self.nodes.push(node);
        self.nodes.len() - 1
    }

    /// Steps over `word` if it comes next.
    fn take(&mut self, word: &str) -> bool {
        let found = self.words.get(self.at) == Some(&word);
        self.at += usize::from(found);
        found
    }

    fn rule(&mut self) -> usize {
        let left = self.or();
        if self.take("->") {
            let right = self.or();
            self.node(Node::Implies(left, right))
        } else if self.take("<-") {
            let right = self.or();
            self.node(Node::Implies(right, left))
        } else if self.take("<->") {
            let right = self.or();
            let forth = self.node(Node::Implies(left, right));
            let back = self.node(Node::Implies(right, left));
            self.node(Node::And(forth, back))
        } else {
            left
        }
    }

    fn or(&mut self) -> usize {
        let mut left = self.and();
        while self.take("|") {
            let right = self.and();
            left = self.node(Node::Or(left, right));
        }
        left
    }

    fn and(&mut self) -> usize {
        let mut left = self.not();
        while self.take("&") {
            let right = self.not();
            left = self.node(Node::And(left, right));
        }
        left
    }

    fn not(&mut self) -> usize {
        if self.take("~") {
            let inner = self.not();
            return self.node(Node::Not(inner));
        }
        if self.take("(") {
            let inner = self.rule();
            assert!(self.take(")"), "a bracket is left open");
            return inner;
        }
        if self.take("false") {
            return self.node(Node::False);
        }
        if self.take("true") {
            return self.node(Node::True);
        }
        let word = self.words.get(self.at).expect("a formula ends too soon");
        let atom = atom(self.names, word);
        self.at += 1;
        self.node(Node::Atom(atom))
    }
}

#[cfg(test)]
mod tests {
    use super::*;

    #[test]
    fn reads_by_strength() {
        let read = book("p q r", "~p & q | r -> p");
        assert_eq!(
            read.nodes,
            [
                Node::Atom(0),
                Node::Not(0),
                Node::Atom(1),
                Node::And(1, 2),
                Node::Atom(2),
                Node::Or(3, 4),
                Node::Atom(0),
                Node::Implies(5, 6),
            ]
        );
        assert_eq!(read.roots, [7]);
    }

    #[test]
    fn reads_brackets_arrows_constants_and_pairs() {
        assert_eq!(book("p", "p <- (true -> false)").nodes.last(), Some(&Node::Implies(3, 0)));
        assert_eq!(book("p q", "p; q").roots, [0, 1]);
        let read = book("p q r", "p / r; q; q / r");
        assert_eq!((read.nodes, read.roots, read.pairs), (vec![Node::Atom(1)], vec![0], vec![(0, 2), (1, 2)]));
        assert_eq!(book("p q", "p <-> q").nodes.len(), 5);
        assert_eq!(set("p q r", "r p"), 5);
    }
}
