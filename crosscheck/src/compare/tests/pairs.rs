//! Broken versions of what the calls do with pairs.

use super::*;
use crate::lists::Pair;

/// The pairs of an image whose length is right.
pub(super) fn pairs(theory: &[u8]) -> Vec<Pair> {
    let start = theory.len() - 4 * get2(theory, 6);
    theory[start..].chunks(4).map(|pair| (get2(pair, 0), get2(pair, 2))).collect()
}

/// Ways to take other pairs than there are: none of them, not the last, each once, and from the end on.
const CHANGES: [fn(&mut Vec<Pair>); 4] = [
    |pairs| pairs.clear(),
    |pairs| pairs.truncate(pairs.len().saturating_sub(1)),
    |pairs| {
        pairs.sort_unstable();
        pairs.dedup();
    },
    |pairs| pairs.reverse(),
];
const NONE: usize = 0;
const NOT_THE_LAST: usize = 1;
const ONCE: usize = 2;
const REVERSED: usize = 3;

/// A theory with its pairs changed in one of these ways.
fn changed<const WAY: usize>(theory: &[u8]) -> Vec<u8> {
    let mut image = theory.to_vec();
    if reference::check_theory(theory).number == 0 {
        let mut pairs = pairs(theory);
        image.truncate(theory.len() - 4 * pairs.len());
        CHANGES[WAY](&mut pairs);
        image[6..8].copy_from_slice(&(pairs.len() as u16).to_le_bytes());
        let halves = pairs.iter().flat_map(|&(first, second)| [first as u16, second as u16]);
        image.extend(halves.flat_map(u16::to_le_bytes));
    }
    image
}

/// The calls that look at pairs, each on the changed theory.
fn broken<const WAY: usize>() -> Calls {
    Calls {
        evaluate_theory: |theory, reading| reference::evaluate_theory(&changed::<WAY>(theory), reading),
        translate: |theory, packed, out| reference::translate(&changed::<WAY>(theory), packed, out),
        test_theory: |theory, candidate| reference::test_theory(&changed::<WAY>(theory), candidate),
        list_sets: |theory, out| reference::list_sets(&changed::<WAY>(theory), out),
        ..reference::CALLS
    }
}

/// The other calls that take a theory.
const UNTOUCHED: [&str; 2] = ["check_theory", "extend"];

/// The suite finds each of these calls, and where both sides have it alike, its small books with pairs do.
fn found_in_each(broken: Calls) {
    for (call, one) in one_by_one(&broken).into_iter().filter(|(call, _)| !UNTOUCHED.contains(call)) {
        found(call, one);
        assert!(Suite::new(&one, &one, 1).paired_books(40).is_err(), "{call}");
    }
    assert!(Suite::new(&broken, &broken, 1).paired_books(40).is_err());
}

#[test]
fn pairs_left_out() {
    found_in_each(broken::<NONE>());
    found_in_each(broken::<NOT_THE_LAST>());
}

#[test]
fn rules_of_pairs_once_or_in_another_order() {
    found("translate", Calls { translate: broken::<ONCE>().translate, ..reference::CALLS });
    found("translate", Calls { translate: broken::<REVERSED>().translate, ..reference::CALLS });
}

#[test]
fn rules_of_pairs_before_the_facts() {
    fn translate(theory: &[u8], packed: bool, out: &mut [u8]) -> Answer {
        let answer = reference::translate(theory, packed, out);
        if !packed && answer.number == 0 && get2(theory, 4) > 0 && answer.result > get2(theory, 6) {
            // The rule that stands before them goes to the end.
            let from = answer.result - get2(theory, 6) - 1;
            out[16 + 10 * from..16 + 10 * answer.result].rotate_left(10);
        }
        answer
    }
    found("translate", Calls { translate, ..reference::CALLS });
}

#[test]
fn pairs_that_only_the_world_here_breaks() {
    fn evaluate_theory(theory: &[u8], reading: &[u8]) -> Answer {
        let answer = reference::evaluate_theory(&changed::<NONE>(theory), reading);
        let both = |&(first, second): &Pair| reading[first] == 2 && reading[second] == 2;
        match answer.result == 1 && pairs(theory).iter().any(both) {
            true => Answer { result: 0, ..answer },
            false => answer,
        }
    }
    found("evaluate_theory", Calls { evaluate_theory, ..reference::CALLS });
}

/// The check of a theory in which a pair is good if `good` says so of its atoms and of A.
fn judged(theory: &[u8], good: fn(usize, usize, usize) -> bool) -> Answer {
    let answer = reference::check_theory(theory);
    if answer.number != 15 {
        return answer;
    }
    match pairs(theory).into_iter().position(|(first, second)| !good(first, second, get2(theory, 0))) {
        Some(place) => Answer { place, ..answer },
        None => Answer { number: 0, place: 0, result: 1 },
    }
}

#[test]
fn bad_pairs_that_pass() {
    let checks: [fn(&[u8]) -> Answer; 5] = [
        |theory| judged(theory, |first, second, atoms| first <= second && second < atoms),
        |theory| judged(theory, |first, second, atoms| first != second && first.max(second) < atoms),
        |theory| judged(theory, |first, second, atoms| first < second && second <= atoms),
        |theory| judged(theory, |first, second, atoms| first < second && first < atoms),
        |theory| judged(theory, |first, second, _| first < second),
    ];
    for check_theory in checks {
        found("check_theory", Calls { check_theory, ..reference::CALLS });
    }
}

#[test]
fn the_place_of_the_last_bad_pair() {
    fn check_theory(theory: &[u8]) -> Answer {
        let answer = reference::check_theory(theory);
        if answer.number != 15 {
            return answer;
        }
        let bad = |&(first, second): &Pair| first >= second || second >= get2(theory, 0);
        Answer { place: pairs(theory).iter().rposition(bad).expect("a bad pair"), ..answer }
    }
    found("check_theory", Calls { check_theory, ..reference::CALLS });
}

#[test]
fn pairs_before_nodes_or_roots() {
    /// Gives row 15 where row `ROW` is broken too: where it comes next, once all nodes and roots are 0.
    fn check_theory<const ROW: u32>(theory: &[u8]) -> Answer {
        let answer = reference::check_theory(theory);
        if answer.number != ROW {
            return answer;
        }
        let mut mended = theory.to_vec();
        mended[16..theory.len() - 4 * get2(theory, 6)].fill(0);
        let next = reference::check_theory(&mended);
        if next.number == 15 {
            next
        } else {
            answer
        }
    }
    found("check_theory", Calls { check_theory: check_theory::<6>, ..reference::CALLS });
    found("check_theory", Calls { check_theory: check_theory::<7>, ..reference::CALLS });
}

#[test]
fn the_old_row_and_other_limits() {
    fn refused(number: u32) -> Answer {
        Answer { number, place: 0, result: 0 }
    }
    /// Bytes 6 and 7 must be zero.
    fn zero(theory: &[u8]) -> Answer {
        match reference::check_theory(theory) {
            Answer { number: 0 | 4.., .. } if get2(theory, 6) != 0 => refused(3),
            answer => answer,
        }
    }
    fn one_pair_less(theory: &[u8]) -> Answer {
        match reference::check_theory(theory) {
            Answer { number: 0, .. } if get2(theory, 6) == 128 => refused(2),
            answer => answer,
        }
    }
    fn one_rule_less(program: &[u8]) -> Answer {
        match reference::check_program(program) {
            Answer { number: 0, .. } if get2(program, 4) == 6528 => refused(22),
            answer => answer,
        }
    }
    found("check_theory", Calls { check_theory: zero, ..reference::CALLS });
    found("check_theory", Calls { check_theory: one_pair_less, ..reference::CALLS });
    found("check_program", Calls { check_program: one_rule_less, ..reference::CALLS });
}
