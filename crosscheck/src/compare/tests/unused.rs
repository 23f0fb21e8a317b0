//! Broken versions of the test for nodes that nothing uses.

use super::*;
use crate::lists::Book;

const ACCEPTED: Answer = Answer { number: 0, place: 0, result: 1 };

/// What an image says of a node.
#[derive(Clone, Copy)]
struct Fields {
    own: usize,
    kind: u8,
    left: usize,
    right: usize,
}

type Uses = fn(Fields) -> Vec<usize>;

fn nodes(theory: &[u8]) -> Vec<Fields> {
    let nodes = theory[16..].chunks(6).take(get2(theory, 2)).enumerate();
    nodes.map(|(own, node)| Fields { own, kind: node[0], left: get2(node, 2), right: get2(node, 4) }).collect()
}

fn operands(Fields { kind, left, right, .. }: Fields) -> Vec<usize> {
    match kind {
        0..=2 => vec![],
        3 => vec![left],
        _ => vec![left, right],
    }
}

fn roots(theory: &[u8]) -> Vec<usize> {
    theory[16 + 6 * get2(theory, 2)..].chunks(2).take(get2(theory, 4)).map(|root| get2(root, 0)).collect()
}

/// The nodes that are none of these.
fn others(theory: &[u8], used: &[usize]) -> Vec<usize> {
    (0..get2(theory, 2)).filter(|own| !used.contains(own)).collect()
}

/// The nodes that `uses` names, and the roots.
fn used(theory: &[u8], uses: Uses) -> Vec<usize> {
    nodes(theory).into_iter().flat_map(uses).chain(roots(theory)).collect()
}

/// The check in which `unused` names the node that is not used.
fn judged(theory: &[u8], unused: impl Fn() -> Option<usize>) -> Answer {
    match reference::check_theory(theory) {
        Answer { number: 0 | 13, .. } => unused().map_or(ACCEPTED, refused),
        answer => answer,
    }
}

fn refused(place: usize) -> Answer {
    Answer { number: 13, place, result: 0 }
}

/// The check in which all others but these nodes are not used.
fn with_used(theory: &[u8], used: impl Fn() -> Vec<usize>) -> Answer {
    judged(theory, || others(theory, &used()).first().copied())
}

/// The check in which roots are used and what each node uses.
fn with_uses(theory: &[u8], uses: Uses) -> Answer {
    with_used(theory, || used(theory, uses))
}

/// The operands, and another number if the condition holds.
fn operands_and(node: Fields, condition: bool, other: usize) -> Vec<usize> {
    operands(node).into_iter().chain(condition.then_some(other)).collect()
}

/// The suite finds each of these calls, and where both sides have it alike, its part on unused nodes does.
fn found_in_each(calls: &[(&str, Calls)]) {
    for &(call, one) in calls {
        found(call, one);
        assert!(Suite::new(&one, &one, 1).unused_nodes().is_err(), "{call}");
    }
}

fn found_in_check(checks: &[fn(&[u8]) -> Answer]) {
    for &check_theory in checks {
        found_in_each(&[("check_theory", Calls { check_theory, ..reference::CALLS })]);
    }
}

#[test]
fn what_these_are_made_of_is_right() {
    assert_eq!(run(Calls { check_theory: |theory| with_uses(theory, operands), ..reference::CALLS }), Ok(()));
}

#[test]
fn uses_left_out() {
    found_in_check(&[
        |theory| with_used(theory, || nodes(theory).into_iter().flat_map(operands).collect()),
        |theory| with_used(theory, || roots(theory)),
        // Right alone, and left alone.
        |theory| with_uses(theory, |node| operands(node).into_iter().skip(usize::from(node.kind > 3)).collect()),
        |theory| with_uses(theory, |node| operands(node).into_iter().take(1).collect()),
        // No use by one kind.
        |theory| with_uses(theory, |node| if node.kind == 3 { vec![] } else { operands(node) }),
        |theory| with_uses(theory, |node| if node.kind == 4 { vec![] } else { operands(node) }),
        |theory| with_uses(theory, |node| if node.kind == 5 { vec![] } else { operands(node) }),
        |theory| with_uses(theory, |node| if node.kind == 6 { vec![] } else { operands(node) }),
    ]);
}

#[test]
fn uses_that_are_none() {
    found_in_check(&[
        // Right of a negation, left of an atom, left of a constant.
        |theory| with_uses(theory, |node| operands_and(node, node.kind == 3, node.right)),
        |theory| with_uses(theory, |node| operands_and(node, node.kind == 2, node.left)),
        |theory| with_uses(theory, |node| operands_and(node, node.kind < 2, node.left)),
        // By the node itself: by each, by an inner one, and by an atom of its number.
        |theory| with_uses(theory, |node| operands_and(node, true, node.own)),
        |theory| with_uses(theory, |node| operands_and(node, node.kind > 2, node.own)),
        |theory| with_uses(theory, |node| operands_and(node, node.kind == 2 && node.left == node.own, node.own)),
        // The atoms of pairs.
        |theory| {
            let atoms = || pairs::pairs(theory).into_iter().flat_map(|(first, second)| [first, second]);
            with_used(theory, || used(theory, operands).into_iter().chain(atoms()).collect())
        },
    ]);
}

#[test]
fn uses_by_unused_nodes_left_out() {
    /// The nodes that a root leads to.
    fn reached(theory: &[u8]) -> Vec<usize> {
        let mut reached = roots(theory);
        for node in nodes(theory).into_iter().rev() {
            if reached.contains(&node.own) {
                reached.extend(operands(node));
            }
        }
        reached
    }
    found_in_check(&[|theory| with_used(theory, || reached(theory))]);
}

#[test]
fn not_every_node_or_not_the_first() {
    fn unused(theory: &[u8]) -> Vec<usize> {
        others(theory, &used(theory, operands))
    }
    found_in_check(&[
        |theory| judged(theory, || unused(theory).into_iter().find(|own| own + 1 < get2(theory, 2))),
        |theory| judged(theory, || unused(theory).into_iter().find(|&own| own > 0)),
        |theory| judged(theory, || unused(theory).last().copied()),
    ]);
}

#[test]
fn unused_nodes_before_other_rows() {
    fn before<const ROW: u32>(theory: &[u8]) -> Answer {
        let answer = reference::check_theory(theory);
        match answer.number == ROW {
            true => others(theory, &used(theory, operands)).first().map_or(answer, |&own| refused(own)),
            false => answer,
        }
    }
    found_in_check(&[before::<15>, before::<7>, before::<6>]);
}

#[test]
fn unused_nodes_accepted() {
    struct Accept;
    impl Break for Accept {
        fn answer(right: Answer) -> Answer {
            if right.number == 13 {
                ACCEPTED
            } else {
                right
            }
        }
    }
    found_in_each(&one_by_one(&broken_answers::<Accept>()));
}

#[test]
fn unused_nodes_after_other_rows() {
    /// In the place of 13 the row that the call gives where a book of as many atoms has no node at all, if any.
    fn later(answer: Answer, theory: &[u8], call: impl Fn(&[u8]) -> Answer) -> Answer {
        if answer.number != 13 {
            return answer;
        }
        match call(&Book { atoms: get2(theory, 0), ..Book::default() }.image()) {
            Answer { number: 0, .. } => answer,
            refused => refused,
        }
    }
    let broken = Calls {
        evaluate_theory: |theory, reading| {
            let answer = reference::evaluate_theory(theory, reading);
            later(answer, theory, |bare| reference::evaluate_theory(bare, reading))
        },
        translate: |theory, packed, out| {
            let answer = reference::translate(theory, packed, out);
            later(answer, theory, |bare| reference::translate(bare, packed, &mut out.to_vec()))
        },
        extend: |theory, reading, out| {
            let answer = reference::extend(theory, reading, out);
            later(answer, theory, |bare| reference::extend(bare, reading, &mut out.to_vec()))
        },
        test_theory: |theory, candidate| {
            let answer = reference::test_theory(theory, candidate);
            later(answer, theory, |bare| reference::test_theory(bare, candidate))
        },
        list_sets: |theory, out| {
            let answer = reference::list_sets(theory, out);
            later(answer, theory, |bare| reference::list_sets(bare, &mut out.to_vec()))
        },
        ..reference::CALLS
    };
    // The first call, the check, has no other arguments.
    found_in_each(&one_by_one(&broken)[1..]);
}
