//! What the specification says about pairs.

use super::*;
use crate::lists::{self, Pair};

/// A book of p, q and r: p or q, with the pairs p, q and q, r.
const PAIRED: [u8; 44] = [
    0x03, 0x00, 0x03, 0x00, 0x01, 0x00, 0x02, 0x00, 0x10, 0x00, 0x00, 0x00, 0x22, 0x00, 0x00, 0x00, //
    0x02, 0x00, 0x00, 0x00, 0x00, 0x00, //
    0x02, 0x00, 0x01, 0x00, 0x00, 0x00, //
    0x05, 0x00, 0x00, 0x00, 0x01, 0x00, //
    0x02, 0x00, //
    0x00, 0x00, 0x01, 0x00, //
    0x01, 0x00, 0x02, 0x00,
];

/// Nothing but pairs.
fn pairs_alone(atoms: usize, pairs: &[Pair]) -> Book {
    Book { atoms, pairs: pairs.to_vec(), ..Book::default() }
}

#[test]
fn bytes_of_a_book_with_pairs() {
    let book = formula::book("p q r", "p | q; p / q; q / r");
    assert_eq!(book.image(), PAIRED);
    assert_eq!(check_theory(&PAIRED), accepted(1));
    assert_eq!(listed(&PAIRED), [1, 2]);
    let (rules, program) = translated(&PAIRED);
    // Three rules for the disjunction, a fact and two constraints; the one label is the disjunction's.
    assert_eq!((rules, half(&program, 0), half(&program, 2)), (6, 3, 4));
    assert_eq!(program[46..56], [1, 0, 0, 0, 3, 0, 0, 0, 0, 0]);
    assert_eq!(program[56..66], [0, 2, 0, 0, 0, 0, 1, 0, 0, 0]);
    assert_eq!(program[66..], [0, 2, 0, 0, 1, 0, 2, 0, 0, 0]);
}

#[test]
fn values_of_a_pair() {
    // Not both is 2 exactly where the smaller of the two values is 0.
    let book = pairs_alone(2, &[(0, 1)]);
    let (image, program) = (book.image(), book.flat().image());
    let satisfied = |first: u8, second: u8| {
        let reading = [first, second];
        let (here, there) = lists::worlds(&reading);
        let result = evaluate_theory(&image, &reading).result;
        assert_eq!(evaluate_program(&program, &reading), accepted(result));
        assert_eq!(usize::from(book.satisfied(&here, &there)), result);
        result
    };
    let values = [0, 1, 2];
    assert_eq!(values.map(|first| values.map(|second| satisfied(first, second))), [[1, 1, 1], [1, 0, 0], [1, 0, 0]]);
}

#[test]
fn books_with_pairs() {
    for example in worked::pairs() {
        assert_eq!(listed(&example.book.image()), example.sets, "{}", example.source);
        assert_eq!(example.book.answer_sets(), example.sets, "{}", example.source);
    }
}

#[test]
fn an_atom_and_its_negation_found_together() {
    let image = |pair: &str| formula::book("p q r", &format!("r; r -> p; r -> q{pair}")).image();
    let both = [2, 2, 2];
    assert_eq!(listed(&image("")), [7]);
    assert_eq!(test_theory(&image(""), &both), accepted(1));
    for pair in ["; p / q", "; p / r", "; q / r"] {
        assert_eq!(listed(&image(pair)), []);
        assert_eq!(test_theory(&image(pair), &both), accepted(0));
        assert_eq!(evaluate_theory(&image(pair), &both), accepted(0));
    }
}

#[test]
fn rules_of_pairs() {
    // After the root facts, in order, repeated where the pair is; a root that is true leaves no rule.
    let book = Book {
        pairs: vec![(1, 2), (0, 2), (1, 2)],
        ..Book::new(3, vec![Node::True, Node::Atom(2), Node::False], vec![1, 0, 2])
    };
    let constraint = |first: usize, second: usize| Rule::new(&[], &[first, second], &[]);
    let expected = [Rule::new(&[2], &[], &[]), Rule::default(), constraint(1, 2), constraint(0, 2), constraint(1, 2)];
    let read = Program::read(&translated(&book.image()).1);
    assert_eq!((read.atoms, read.all), (3, 3));
    assert_eq!(read.rules, expected);
    assert_eq!(book.flat(), read);
}

#[test]
fn pairs_take_no_label() {
    let book = formula::book("p q", "p | q; q -> ~p");
    let paired = Book { pairs: vec![(0, 1); 128], ..book.clone() };
    for reading in [[0, 0], [1, 2], [2, 2]] {
        let [mut without, mut with] = [[9; 7]; 2];
        assert_eq!(extend(&book.image(), &reading, &mut without), accepted(6));
        assert_eq!(extend(&paired.image(), &reading, &mut with), accepted(6));
        assert_eq!(with, without);
    }
}

#[test]
fn limits_of_pairs() {
    let book = |pairs: usize| pairs_alone(2, &vec![(0, 1); pairs]).image();
    for pairs in [0, 1, 127, 128] {
        assert_eq!(book(pairs).len(), 16 + 4 * pairs);
        assert_eq!(check_theory(&book(pairs)), accepted(1));
        assert_eq!(translated(&book(pairs)).0, pairs);
    }
    assert_eq!(refusal(&book(129)), refused(2, 0));
    // The largest image and the longest program; a program by hand may have six rules more.
    let largest = implications(Node::Atom(0), 256, 128);
    assert_eq!(largest.len(), 7184);
    assert_eq!(translated(&largest).0, 6522);
    let mut out = vec![9; 16 + 10 * 6522 - 1];
    assert_eq!(translate(&largest, false, &mut out), refused(8, 65_236));
    assert!(out.iter().all(|&byte| byte == 9));
}

#[test]
fn bad_pairs() {
    // The two pairs start at bytes 36 and 40.
    for (changes, place) in [
        (&[(36, 1)][..], 0),
        (&[(38, 0)], 0),
        (&[(36, 2)], 0),
        (&[(37, 1)], 0),
        (&[(40, 2)], 1),
        (&[(42, 3)], 1),
        (&[(42, 4)], 1),
        (&[(43, 1)], 1),
        (&[(40, 3), (42, 4)], 1),
        (&[(40, 2), (42, 1)], 1),
        (&[(36, 1), (40, 2)], 0),
        // Two atoms only: r is none.
        (&[(0, 2)], 1),
    ] {
        assert_eq!(changed(&PAIRED, changes), refused(15, place), "{changes:?}");
    }
    for atoms in [0, 1] {
        assert_eq!(refusal(&pairs_alone(atoms, &[(0, 1)]).image()), refused(15, 0));
    }
    // The last atom may be in a pair, and the atom after it not.
    assert_eq!(check_theory(&pairs_alone(1024, &[(0, 1), (1022, 1023)]).image()), accepted(1));
    assert_eq!(refusal(&pairs_alone(1024, &[(0, 1), (1023, 1024)]).image()), refused(15, 1));
}

#[test]
fn rows_before_a_bad_pair() {
    let (pair, root, node) = ((36, 1), (34, 3), (29, 1));
    assert_eq!(changed(&PAIRED, &[pair]), refused(15, 0));
    assert_eq!(changed(&PAIRED, &[pair, root]), refused(7, 0));
    assert_eq!(changed(&PAIRED, &[pair, node]), refused(6, 17));
    assert_eq!(changed(&PAIRED, &[pair, root, node]), refused(6, 17));
    let offset = (12, 0x24);
    assert_eq!(changed(&PAIRED, &[pair, root, node, offset]), refused(4, 0));
    assert_eq!(changed(&PAIRED, &[pair, root, node, offset, (6, 129)]), refused(2, 0));
}

#[test]
fn lengths_and_counts_of_pairs() {
    assert_eq!(refusal(&PAIRED[..40]), refused(5, 44));
    assert_eq!(refusal(&[&PAIRED[..], &[0, 0, 1, 0]].concat()), refused(5, 44));
    // A count that is not the image's is a wrong length, up to the limit; the second byte counts too.
    for (changes, answer) in [
        (&[(6, 0)][..], refused(5, 36)),
        (&[(6, 1)], refused(5, 40)),
        (&[(6, 3)], refused(5, 48)),
        (&[(6, 128)], refused(5, 548)),
        (&[(6, 129)], refused(2, 0)),
        (&[(7, 1)], refused(2, 0)),
        (&[(6, 3), (8, 17)], refused(4, 0)),
        (&[(6, 129), (8, 17)], refused(2, 0)),
    ] {
        assert_eq!(changed(&PAIRED, changes), answer, "{changes:?}");
    }
}
