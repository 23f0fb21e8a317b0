//! The facts that the specification lists, one by one.

use super::*;
use crate::calls::Call;
use crate::lists::{Book, Program, Rule};
use crate::{formula, worked};

mod candidates;
mod packed;
mod pairs;
mod unused;

fn accepted(result: usize) -> Answer {
    Answer { number: 0, place: 0, result }
}

fn refused(number: u32, place: usize) -> Answer {
    Answer { number, place, result: 0 }
}

fn listed(image: &[u8]) -> Vec<u32> {
    let mut out = [0; 8192];
    let answer = list_sets(image, &mut out);
    assert_eq!((answer.number, answer.place), (0, 0));
    out[..2 * answer.result].chunks(2).map(|pair| u32::from(pair[0]) + 256 * u32::from(pair[1])).collect()
}

fn translated(image: &[u8]) -> (usize, Vec<u8>) {
    let mut out = vec![0xEE; 70_000];
    let answer = translate(image, false, &mut out);
    assert_eq!((answer.number, answer.place), (0, 0));
    let length = 16 + 10 * answer.result;
    assert!(out[length..].iter().all(|&byte| byte == 0xEE));
    out.truncate(length);
    (answer.result, out)
}

/// The theory of P1 as the specification prints it.
const P1: [u8; 36] = [
    0x01, 0x00, 0x03, 0x00, 0x01, 0x00, 0x00, 0x00, 0x10, 0x00, 0x00, 0x00, 0x22, 0x00, 0x00, 0x00, //
    0x02, 0x00, 0x00, 0x00, 0x00, 0x00, //
    0x03, 0x00, 0x00, 0x00, 0x00, 0x00, //
    0x05, 0x00, 0x00, 0x00, 0x01, 0x00, //
    0x02, 0x00,
];

fn p1() -> Book {
    Book::new(1, vec![Node::Atom(0), Node::Not(0), Node::Or(0, 1)], vec![2])
}

#[test]
fn answer_sets_of_the_bench_cases() {
    for case in worked::cases() {
        assert_eq!(listed(&case.book.image()), case.sets, "{}", case.source);
        assert_eq!(case.book.answer_sets(), case.sets, "{}", case.source);
    }
}

#[test]
fn p1_bytes() {
    let image = p1().image();
    assert_eq!(image, P1);
    assert_eq!(check_theory(&image), accepted(1));
    let (_, program) = translated(&image);
    let header = [0x01, 0x00, 0x03, 0x00, 0x06, 0x00, 0x00, 0x00, 0x10, 0x00, 0x00, 0x00, 0x4C, 0x00, 0x00, 0x00];
    assert_eq!(program[..16], header);
    assert_eq!(program.len(), 0x4C);
    let mut out = [0; 4];
    assert_eq!(list_sets(&image, &mut out), accepted(2));
    assert_eq!(out, [0, 0, 1, 0]);
}

#[test]
fn p2_is_satisfied_by_one_and_by_two() {
    let image = formula::book("p", "~~p").image();
    assert_eq!([0, 1, 2].map(|value| evaluate_theory(&image, &[value]).result), [0, 1, 1]);
    assert_eq!(test_theory(&image, &[2]), accepted(0));
}

#[test]
fn p4_sizes() {
    let nodes = vec![Node::Atom(0), Node::Atom(1), Node::Atom(2), Node::Implies(2, 1), Node::Implies(3, 0)];
    let image = Book::new(3, nodes, vec![4]).image();
    let (rules, program) = translated(&image);
    assert_eq!((rules, program.len(), program[2]), (13, 146, 7));
    let mut out = [0; 7];
    assert_eq!(extend(&image, &[2, 0, 0], &mut out), accepted(7));
    // (r implies q) is 2 and q's negation 2; the outer implication is 2 and p's negation 0.
    assert_eq!(out, [2, 0, 0, 2, 2, 2, 0]);
    assert_eq!(evaluate_program(&program, &out), accepted(1));
    assert_eq!(test_program(&program, &out), accepted(1));
}

#[test]
fn p5_rules_in_order() {
    let nodes = vec![Node::Atom(0), Node::False, Node::Implies(0, 1)];
    let image = Book::new(1, nodes, vec![2]).image();
    let (_, program) = translated(&image);
    let read = Program::read(&program);
    assert_eq!((read.atoms, read.all), (1, 3));
    assert_eq!(
        read.rules,
        [
            Rule::new(&[], &[1, 0], &[]),
            Rule::new(&[1], &[], &[0]),
            Rule::new(&[0, 2, 1], &[], &[]),
            Rule::new(&[2], &[], &[]),
            Rule::new(&[1], &[], &[])
        ]
    );
}

#[test]
fn p6_bytes() {
    let image = Book::new(0, vec![Node::False], vec![0]).image();
    assert_eq!(image.len(), 24);
    let (rules, program) = translated(&image);
    assert_eq!((rules, program.len()), (1, 26));
    assert_eq!(program[16..], [0; 10]);
}

#[test]
fn constants_drop_literals_or_whole_rules() {
    // Both sides of an implication constant: every pair of them, by the rules with the constants put in.
    let program = |left: Node, right: Node| {
        let book = Book::new(0, vec![left, right, Node::Implies(0, 1)], vec![2]);
        let mut read = Program::read(&translated(&book.image()).1);
        assert_eq!(read, book.flat());
        assert_eq!(read.rules.pop(), Some(Rule::new(&[0], &[], &[])));
        read.rules.iter().map(|rule| (rule.heads.clone(), rule.positives.clone())).collect::<Vec<_>>()
    };
    let (l, m) = (0, 1);
    assert_eq!(program(Node::False, Node::False), [(vec![l], vec![]), (vec![m, l], vec![]), (vec![m], vec![])]);
    assert_eq!(
        program(Node::False, Node::True),
        [(vec![l], vec![]), (vec![l], vec![]), (vec![m, l], vec![]), (vec![], vec![m])]
    );
    assert_eq!(program(Node::True, Node::False), [(vec![], vec![l]), (vec![m], vec![])]);
    assert_eq!(program(Node::True, Node::True), [(vec![l], vec![]), (vec![], vec![m])]);
}

#[test]
fn roots_are_facts_and_may_repeat() {
    let (rules, _) = translated(&Book::new(1, vec![Node::Atom(0)], vec![0, 0, 0]).image());
    assert_eq!(rules, 3);
    let (rules, _) = translated(&Book::new(1, vec![Node::True], vec![0, 0]).image());
    assert_eq!(rules, 0);
}

#[test]
fn limits_of_a_theory() {
    let book = |atoms: usize, nodes: usize, roots: usize| {
        let negations = (1..nodes).map(|own| Node::Not(own - 1));
        let nodes: Vec<Node> = [Node::True].into_iter().take(nodes).chain(negations).collect();
        let last = nodes.len().saturating_sub(1);
        Book::new(atoms, nodes, vec![last; roots]).image()
    };
    for (image, answer) in [
        (book(1024, 1, 1), accepted(1)),
        (book(1025, 1, 1), refused(2, 0)),
        (book(1, 1024, 1), accepted(1)),
        (book(1, 1025, 1), refused(2, 0)),
        (book(1, 1, 256), accepted(1)),
        (book(1, 1, 257), refused(2, 0)),
        (book(1024, 1024, 256), accepted(1)),
        (book(0, 0, 0), accepted(1)),
        (book(0, 0, 1), refused(7, 0)),
    ] {
        assert_eq!(check_theory(&image), answer);
    }
}

#[test]
fn limits_of_a_program() {
    let program =
        |atoms: usize, all: usize, rules: usize| Program { atoms, all, rules: vec![Rule::default(); rules] }.image();
    for (image, answer) in [
        (program(1024, 1024, 1), accepted(1)),
        (program(1025, 1025, 1), refused(22, 0)),
        (program(0, 3072, 1), accepted(1)),
        (program(0, 3073, 1), refused(22, 0)),
        (program(5, 5, 1), accepted(1)),
        (program(5, 4, 1), refused(22, 0)),
        (program(0, 0, 6528), accepted(1)),
        (program(0, 0, 6529), refused(22, 0)),
    ] {
        assert_eq!(check_program(&image), answer);
    }
}

#[test]
fn limits_of_a_candidate() {
    let image = Book { atoms: 20, ..Book::default() }.image();
    let (_, program) = translated(&image);
    let candidate = |truths: usize| (0..20).map(|atom| if atom < truths { 2 } else { 0 }).collect::<Vec<u8>>();
    assert_eq!(test_theory(&image, &candidate(16)), accepted(0));
    assert_eq!(test_theory(&image, &candidate(17)), refused(11, 17));
    assert_eq!(test_program(&program, &candidate(16)), accepted(0));
    assert_eq!(test_program(&program, &candidate(17)), refused(11, 17));
}

#[test]
fn limits_of_a_listing() {
    let book = |atoms: usize| Book { atoms, ..Book::default() }.image();
    assert_eq!(listed(&book(12)), [0]);
    assert_eq!(list_sets(&book(13), &mut [0; 64]), refused(11, 13));
    let mut short = [7; 1];
    assert_eq!(list_sets(&book(12), &mut short), refused(8, 2));
    assert_eq!(short, [7]);
    // No sets need no room.
    let none = formula::book("p", "false").image();
    assert_eq!(list_sets(&none, &mut []), accepted(0));
}

#[test]
fn room_for_a_program() {
    let image = p1().image();
    let mut out = [9; 76];
    assert_eq!(translate(&image, false, &mut out[..75]), refused(8, 76));
    assert_eq!(out, [9; 76]);
    assert_eq!(translate(&image, false, &mut out), accepted(6));
    let mut out = [9; 3];
    assert_eq!(extend(&image, &[1], &mut out[..2]), refused(8, 3));
    assert_eq!(out, [9; 3]);
    assert_eq!(extend(&image, &[1], &mut out), accepted(3));
    assert_eq!(out, [1, 0, 1]);
}

/// The image of `first` and 1,023 implications, each of the node before it and of `first`, over the most atoms.
fn implications(first: Node, roots: usize, pairs: usize) -> Vec<u8> {
    let mut nodes = vec![first];
    nodes.extend((1..1024).map(|own| Node::Implies(own - 1, 0)));
    Book { atoms: 1024, nodes, roots: vec![1023; roots], pairs: vec![(0, 1023); pairs] }.image()
}

#[test]
fn the_largest_programs_of_a_book() {
    const ALL: usize = 1024 + 2 * 1023;
    // A constant takes rules away and no label.
    for (first, rules) in [(Node::Atom(0), 6 * 1023), (Node::False, 3 + 4 * 1022), (Node::True, 2 + 4 * 1022)] {
        for (roots, pairs) in [(1, 0), (256, 0), (1, 128), (256, 128)] {
            let image = implications(first, roots, pairs);
            let (count, program) = translated(&image);
            assert_eq!((count, half(&program, 2)), (rules + roots + pairs, ALL));
            assert_eq!(check_program(&program), accepted(1));
            let mut out = [9; ALL];
            assert_eq!(extend(&image, &[1; 1024], &mut out[..ALL - 1]), refused(8, ALL));
            assert_eq!(out, [9; ALL]);
            assert_eq!(extend(&image, &[1; 1024], &mut out), accepted(ALL));
            assert_eq!(evaluate_program(&program, &out), evaluate_theory(&image, &[1; 1024]));
        }
    }
}

#[test]
fn a_first_node_takes_no_label() {
    for first in [Node::Not(0), Node::And(0, 0), Node::Or(0, 0), Node::Implies(0, 0)] {
        let image = implications(first, 0, 0);
        assert_eq!(translate(&image, false, &mut [0; 70_000]), refused(6, 2));
        assert_eq!(extend(&image, &[1; 1024], &mut [0; 4096]), refused(6, 2));
    }
}

#[test]
fn rows_of_a_theory() {
    let good = p1().image();
    let with = |at: usize, byte: u8| {
        let mut image = good.clone();
        image[at] = byte;
        check_theory(&image)
    };
    assert_eq!(check_theory(&good[..15]), refused(1, 0));
    assert_eq!(check_theory(&[]), refused(1, 0));
    assert_eq!(with(7, 1), refused(2, 0));
    assert_eq!(with(8, 17), refused(4, 0));
    assert_eq!(with(15, 1), refused(4, 0));
    assert_eq!(check_theory(&good[..35]), refused(5, 36));
    assert_eq!(with(16, 7), refused(6, 0));
    assert_eq!(with(17, 1), refused(6, 1));
    assert_eq!(with(18, 1), refused(6, 2));
    assert_eq!(with(26, 1), refused(6, 11));
    assert_eq!(with(30, 2), refused(6, 18));
    assert_eq!(with(34, 3), refused(7, 0));
}

/// The answer to an image that is refused, the same from every call that takes a theory, whatever else they are given.
fn refusal(image: &[u8]) -> Answer {
    let answer = check_theory(image);
    for call in Call::ALL.into_iter().filter(|call| !call.on_program()) {
        let mut out = [9; 76];
        assert_eq!(CALLS.run(call, image, &[2], &mut out), answer, "{}", call.name());
        assert_eq!(out, [9; 76], "{}", call.name());
    }
    answer
}

/// The refusal of an image with these bytes changed.
fn changed(image: &[u8], changes: &[(usize, u8)]) -> Answer {
    let mut image = image.to_vec();
    changes.iter().for_each(|&(at, byte)| image[at] = byte);
    refusal(&image)
}

/// That of P1.
fn with_bytes(changes: &[(usize, u8)]) -> Answer {
    changed(&P1, changes)
}

#[test]
fn one_wrong_field() {
    // The nodes start at bytes 16, 22 and 28: p, not p, and p or not p.
    for (at, byte, place) in [
        (16, 7, 0),
        (17, 1, 1),
        (18, 1, 2),
        (19, 1, 2),
        (20, 1, 3),
        (21, 1, 3),
        (22, 9, 8),
        (23, 1, 9),
        (24, 1, 10),
        (25, 1, 10),
        (26, 1, 11),
        (27, 1, 11),
        (28, 255, 16),
        (29, 255, 17),
        (30, 2, 18),
        (31, 1, 18),
        (32, 2, 19),
        (33, 1, 19),
    ] {
        assert_eq!(with_bytes(&[(at, byte)]), refused(6, place), "byte {at}");
    }
}

#[test]
fn two_wrong_fields() {
    let [kind, zero, left, right] = [(22, 9), (23, 1), (24, 1), (26, 1)];
    for (fields, place) in [
        ([kind, zero], 8),
        ([kind, left], 8),
        ([kind, right], 8),
        ([zero, left], 9),
        ([zero, right], 9),
        ([left, right], 10),
    ] {
        assert_eq!(with_bytes(&fields), refused(6, place));
    }
    // The right of node 1 comes before the kind of node 2, and after the right of node 0.
    assert_eq!(with_bytes(&[right, (28, 7)]), refused(6, 11));
    assert_eq!(with_bytes(&[right, (20, 1)]), refused(6, 3));
    // All nodes come before any root.
    assert_eq!(with_bytes(&[right, (34, 3)]), refused(6, 11));
}

#[test]
fn fields_by_kind() {
    // Node 2 has left 0 and right 1. Up to kind 3 that right is wrong, from kind 4 to 6 nothing, from 7 on the kind.
    for kind in 0..=3 {
        assert_eq!(with_bytes(&[(28, kind)]), refused(6, 19));
    }
    for kind in 4..=6 {
        let mut image = P1;
        image[28] = kind;
        assert_eq!(check_theory(&image), accepted(1));
    }
    for kind in 7..=255 {
        assert_eq!(with_bytes(&[(28, kind)]), refused(6, 16));
    }
    // Node 0 with left 0: there is no earlier node, and without atoms no atom.
    for kind in 3..=6 {
        assert_eq!(with_bytes(&[(16, kind)]), refused(6, 2));
    }
    let mut image = P1;
    image[0] = 0;
    assert_eq!(check_theory(&image), refused(6, 2));
}

#[test]
fn fields_of_the_last_node() {
    let good = implications(Node::Atom(0), 256, 128);
    assert_eq!(check_theory(&good), accepted(1));
    // 16 + 6 * 1023 is 6154 and 8 * 1023 is 8184. The number 1023, hex 03 FF, is not earlier.
    for (at, bytes, place) in
        [(6154, [7, 0], 8184), (6154, [6, 1], 8185), (6156, [255, 3], 8186), (6158, [255, 3], 8187)]
    {
        let mut image = good.clone();
        image[at..at + 2].copy_from_slice(&bytes);
        assert_eq!(check_theory(&image), refused(6, place));
    }
}

#[test]
fn rows_of_a_program() {
    let (_, good) = translated(&p1().image());
    let with = |changes: &[(usize, u8)]| {
        let mut image = good.clone();
        changes.iter().for_each(|&(at, byte)| image[at] = byte);
        check_program(&image)
    };
    assert_eq!(check_program(&good), accepted(1));
    assert_eq!(check_program(&good[..15]), refused(21, 0));
    assert_eq!(with(&[(2, 0)]), refused(22, 0));
    assert_eq!(with(&[(6, 2)]), refused(23, 0));
    assert_eq!(with(&[(7, 1)]), refused(23, 0));
    assert_eq!(with(&[(8, 15)]), refused(24, 0));
    assert_eq!(with(&[(12, 0x4D)]), refused(24, 0));
    assert_eq!(check_program(&good[..75]), refused(25, 76));
    assert_eq!(with(&[(19, 1)]), refused(26, 0));
    assert_eq!(with(&[(30, 3)]), refused(26, 1));
    for [heads, positives, negatives] in [[255, 1, 0], [128, 128, 0], [0, 254, 2], [2, 1, 1]] {
        assert_eq!(with(&[(26, heads), (27, positives), (28, negatives)]), refused(26, 1));
    }
    // The last rule is a fact: its second and third slots are not used.
    assert_eq!(with(&[(72, 1)]), refused(26, 5));
    assert_eq!(with(&[(74, 1)]), refused(26, 5));
}

#[test]
fn rows_of_an_interpretation() {
    let image = p1().image();
    assert_eq!(evaluate_theory(&image, &[]), refused(9, 1));
    assert_eq!(evaluate_theory(&image, &[3]), refused(10, 0));
    assert_eq!(evaluate_theory(&image, &[1]), accepted(0));
    assert_eq!(test_theory(&image, &[1]), refused(10, 0));
    assert_eq!(test_theory(&image, &[0, 0]), refused(9, 1));
}

#[test]
fn values_by_the_tables() {
    use super::value::Value;
    let values = [0, 1, 2].map(Value::of);
    assert_eq!(values.map(|x| x.not().byte()), [2, 0, 0]);
    assert_eq!(values.map(|x| values.map(|y| x.and(y).byte())), [[0, 0, 0], [0, 1, 1], [0, 1, 2]]);
    assert_eq!(values.map(|x| values.map(|y| x.or(y).byte())), [[0, 1, 2], [1, 1, 2], [2, 2, 2]]);
    assert_eq!(values.map(|x| values.map(|y| x.implies(y).byte())), [[2, 2, 2], [0, 2, 2], [0, 1, 2]]);
}
