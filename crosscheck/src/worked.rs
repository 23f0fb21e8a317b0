//! The bench cases, the propositional examples of the source papers 000 to 004, and small books with pairs, from the
//! tables in `worked/`.
//!
//! A line of a table has its fields between colons. One that starts with a blank goes on with the line before, and one
//! that starts with # is a remark. The three-valued tables of the specification decide; where a paper prints something
//! else, a remark says what. Sets that the paper prints too are marked so.

use crate::formula;
use crate::lists::{Book, Set};

/// A theory and its answer sets, ascending.
pub struct Example {
    /// The bench case, or the paper and its section or example, or what the book shows.
    pub source: String,
    pub book: Book,
    pub sets: Vec<Set>,
}

/// A theory and all the worlds (here, there) that satisfy it.
pub struct Models {
    pub source: String,
    pub book: Book,
    pub worlds: Vec<(Set, Set)>,
}

/// Two theories that are put in each other's place, in most cases by a paper, and whether the same worlds satisfy both.
pub struct Equivalence {
    pub source: String,
    pub left: Book,
    pub right: Book,
    pub holds: bool,
}

pub fn cases() -> Vec<Example> {
    examples_of(include_str!("worked/cases.txt"))
}

pub fn examples() -> Vec<Example> {
    examples_of(include_str!("worked/examples.txt"))
}

pub fn pairs() -> Vec<Example> {
    examples_of(include_str!("worked/pairs.txt"))
}

pub fn models() -> Vec<Models> {
    let models = |[source, atoms, theory, worlds]: [String; 4]| {
        let both = |worlds: &str| {
            let (here, there) = worlds.split_once(" in ").expect("one set in another");
            (set(&atoms, here), set(&atoms, there))
        };
        Models { source, book: formula::book(&atoms, &theory), worlds: worlds.split(',').map(both).collect() }
    };
    rows(include_str!("worked/models.txt")).map(models).collect()
}

pub fn equivalences() -> Vec<Equivalence> {
    let equivalence = |[source, atoms, theories]: [String; 3]| {
        let (left, right) = theories.split_once('=').expect("two theories");
        let (left, holds) = left.strip_suffix('!').map_or((left, true), |left| (left, false));
        let book = |theory| formula::book(&atoms, theory);
        Equivalence { source, left: book(left), right: book(right), holds }
    };
    rows(include_str!("worked/equivalences.txt")).map(equivalence).collect()
}

fn examples_of(table: &str) -> Vec<Example> {
    let example = |[source, atoms, theory, sets]: [String; 4]| {
        let mut sets: Vec<Set> = sets.split_terminator(',').map(|members| set(&atoms, members)).collect();
        sets.sort_unstable();
        Example { source, book: formula::book(&atoms, &theory), sets }
    };
    rows(table).map(example).collect()
}

/// The set in braces.
fn set(atoms: &str, members: &str) -> Set {
    formula::set(atoms, members.trim().strip_prefix('{').and_then(|rest| rest.strip_suffix('}')).expect("braces"))
}

/// The rows of a table, each of `N` fields. Panics on a table that is wrong.
fn rows<const N: usize>(table: &str) -> impl Iterator<Item = [String; N]> {
    let mut lines: Vec<String> = Vec::new();
    for line in table.lines().filter(|line| !line.starts_with('#')) {
        match line.starts_with(' ') {
            true => lines.last_mut().expect("a line before").push_str(line),
            false => lines.push(line.to_string()),
        }
    }
    lines.into_iter().map(|line| {
        let fields: Vec<String> = line.split(':').map(|field| field.trim().to_string()).collect();
        fields.try_into().unwrap_or_else(|_| panic!("not {N} fields: {line}"))
    })
}

#[cfg(test)]
mod tests {
    use super::*;

    #[test]
    fn tables_are_read_whole() {
        assert_eq!([cases(), examples(), pairs()].map(|table| table.len()), [9, 44, 14]);
        assert_eq!((models().len(), equivalences().len()), (7, 71));
    }

    #[test]
    fn every_node_of_a_table_is_used() {
        let examples = [cases(), examples(), pairs()].into_iter().flatten().map(|example| example.book);
        let models = models().into_iter().map(|models| models.book);
        let equivalences = equivalences().into_iter().flat_map(|both| [both.left, both.right]);
        for book in examples.chain(models).chain(equivalences) {
            assert_eq!(book.unused(), None, "{book:?}");
        }
    }

    #[test]
    fn signs_between_theories() {
        let figure: Vec<bool> = equivalences()
            .iter()
            .filter(|both| both.source.starts_with("001, figure 3, implies"))
            .map(|both| both.holds)
            .collect();
        assert_eq!(figure, [false, true, false]);
    }
}
