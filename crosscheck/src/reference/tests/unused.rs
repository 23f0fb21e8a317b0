//! What the specification says about nodes that nothing uses.

use super::*;

const P: Node = Node::Atom(0);
const Q: Node = Node::Atom(1);
const R: Node = Node::Atom(2);

/// The answer to a book over three atoms.
fn checked(nodes: &[Node], roots: &[usize]) -> Answer {
    check_theory(&Book::new(3, nodes.to_vec(), roots.to_vec()).image())
}

/// That to one which is refused, by every call.
fn refused_by_all(nodes: &[Node], roots: &[usize]) -> Answer {
    refusal(&Book::new(3, nodes.to_vec(), roots.to_vec()).image())
}

#[test]
fn first_middle_and_last() {
    for (roots, own) in [(&[1, 2][..], 0), (&[0, 2], 1), (&[0, 1], 2), (&[2], 0), (&[0], 1), (&[], 0)] {
        assert_eq!(refused_by_all(&[P, Q, R], roots), refused(13, own), "{roots:?}");
    }
    assert_eq!(checked(&[P, Q, R], &[2, 0, 1]), accepted(1));
    assert_eq!(refused_by_all(&[P], &[]), refused(13, 0));
    assert_eq!(checked(&[], &[]), accepted(1));
}

#[test]
fn one_use_is_enough() {
    // A root, which may stand before and after others and several times.
    for roots in [&[0, 1][..], &[1, 0], &[1, 1, 0], &[0, 1, 1]] {
        assert_eq!(checked(&[P, Q], roots), accepted(1));
    }
    // Only a left, only a right, both.
    assert_eq!(checked(&[P, Node::Not(0)], &[1]), accepted(1));
    for kind in [Node::And, Node::Or, Node::Implies] {
        assert_eq!(checked(&[P, Q, kind(0, 1)], &[2]), accepted(1));
        assert_eq!(checked(&[P, Q, kind(1, 0)], &[2]), accepted(1));
        assert_eq!(checked(&[P, kind(0, 0)], &[1]), accepted(1));
        assert_eq!(refused_by_all(&[P, Q, kind(0, 0)], &[2]), refused(13, 1));
        assert_eq!(refused_by_all(&[P, Q, kind(1, 1)], &[2]), refused(13, 0));
    }
}

#[test]
fn a_use_by_an_unused_node() {
    assert_eq!(refused_by_all(&[P, Node::Not(0), Q], &[2]), refused(13, 1));
    assert_eq!(refused_by_all(&[P, Node::Not(0), Node::Not(1)], &[]), refused(13, 2));
    assert_eq!(refused_by_all(&[P, Q, Node::Or(0, 1), R], &[3]), refused(13, 2));
}

#[test]
fn fields_that_are_no_operands() {
    // Left of an atom, though a node has that number: an earlier one, the atom's own, a later one.
    assert_eq!(refused_by_all(&[R, P], &[1]), refused(13, 0));
    assert_eq!(refused_by_all(&[P, Q], &[0]), refused(13, 1));
    assert_eq!(refused_by_all(&[Q, P], &[0]), refused(13, 1));
    // The zeros of a negation and of constants.
    assert_eq!(refused_by_all(&[P, Q, Node::Not(1)], &[2]), refused(13, 0));
    assert_eq!(refused_by_all(&[P, Node::True], &[1]), refused(13, 0));
    assert_eq!(refused_by_all(&[P, Node::False], &[1]), refused(13, 0));
    // The atoms of a pair.
    let book = Book { pairs: vec![(0, 1)], ..Book::new(3, vec![P, Q, R], vec![2]) };
    assert_eq!(refusal(&book.image()), refused(13, 0));
}

/// Two atoms of which the first is unused, and a pair.
const LOOSE: [u8; 34] = [
    0x02, 0x00, 0x02, 0x00, 0x01, 0x00, 0x01, 0x00, 0x10, 0x00, 0x00, 0x00, 0x1C, 0x00, 0x00, 0x00, //
    0x02, 0x00, 0x01, 0x00, 0x00, 0x00, //
    0x02, 0x00, 0x00, 0x00, 0x00, 0x00, //
    0x01, 0x00, //
    0x00, 0x00, 0x01, 0x00,
];

#[test]
fn rows_before_an_unused_node() {
    assert_eq!(refusal(&LOOSE), refused(13, 0));
    let (pair, root, node) = ((30, 1), (28, 2), (23, 1));
    assert_eq!(changed(&LOOSE, &[pair]), refused(15, 0));
    assert_eq!(changed(&LOOSE, &[root]), refused(7, 0));
    assert_eq!(changed(&LOOSE, &[node]), refused(6, 9));
    assert_eq!(changed(&LOOSE, &[pair, root]), refused(7, 0));
    assert_eq!(changed(&LOOSE, &[pair, root, node]), refused(6, 9));
    assert_eq!(changed(&LOOSE, &[(6, 2)]), refused(5, 38));
    assert_eq!(changed(&LOOSE, &[(12, 0x1D)]), refused(4, 0));
    assert_eq!(changed(&LOOSE, &[(6, 129)]), refused(2, 0));
    assert_eq!(refusal(&LOOSE[..15]), refused(1, 0));
    // Node 0 as the root: now node 1 is unused.
    assert_eq!(changed(&LOOSE, &[(28, 0)]), refused(13, 1));
}

#[test]
fn rows_after_an_unused_node() {
    // 9 and 10, with and without room.
    for reading in [&[][..], &[0], &[0, 3], &[3, 0], &[0, 1], &[0, 0, 0]] {
        assert_eq!(evaluate_theory(&LOOSE, reading), refused(13, 0));
        assert_eq!(test_theory(&LOOSE, reading), refused(13, 0));
        for room in [0, 64] {
            assert_eq!(extend(&LOOSE, reading, &mut vec![0; room]), refused(13, 0));
        }
    }
    // 8: the program would take 26 bytes, the labelled reading 2, and the one set 2.
    for room in [0, 1, 25] {
        assert_eq!(translate(&LOOSE, false, &mut vec![0; room]), refused(13, 0));
    }
    assert_eq!(extend(&LOOSE, &[0, 0], &mut [0; 1]), refused(13, 0));
    assert_eq!(list_sets(&LOOSE, &mut [0; 1]), refused(13, 0));
    // 11: 17 true atoms, and more atoms than are listed.
    let many = Book::new(17, vec![P, Q], vec![0]).image();
    assert_eq!(test_theory(&many, &[2; 17]), refused(13, 1));
    assert_eq!(list_sets(&many, &mut [0; 64]), refused(13, 1));
}

#[test]
fn as_many_nodes_as_there_can_be() {
    let good = implications(Node::Atom(0), 1, 0);
    assert_eq!(check_theory(&good), accepted(1));
    // The one root, from byte 6160 on, was the last node, hex 03 FF.
    for (root, own) in [(1022u16, 1023), (0, 1023), (1023, 1022)] {
        let mut image = good.clone();
        if own == 1022 {
            // The last node uses the one before the last no more.
            image[6156..6158].fill(0);
        }
        image[6160..].copy_from_slice(&root.to_le_bytes());
        assert_eq!(check_theory(&image), refused(13, own));
    }
    // 256 nodes can be used by roots alone, 257 not.
    let leaves = |count: usize, roots: Vec<usize>| Book::new(3, vec![P; count], roots).image();
    assert_eq!(check_theory(&leaves(256, (0..256).rev().collect())), accepted(1));
    assert_eq!(refusal(&leaves(257, (0..256).collect())), refused(13, 256));
    assert_eq!(refusal(&leaves(257, (1..257).collect())), refused(13, 0));
}
