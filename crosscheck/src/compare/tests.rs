//! The comparison itself under test: it accepts the reference and finds each of these broken versions of it.

use super::Comparer;
use crate::calls::{Answer, Call, Calls};
use crate::lists::get2;
use crate::reference;
use crate::suite::{Effort, Suite, PARTS};

mod candidates;
mod packed;
mod pairs;
mod unused;

fn run(broken: Calls) -> Result<(), String> {
    let mut suite = Suite::new(&reference::CALLS, &broken, 1);
    PARTS.into_iter().try_for_each(|(_, part)| part(&mut suite, &Effort::SHORT)).map_err(|finding| finding.0)
}

/// The suite finds a difference in the call of this name.
fn found(call: &str, broken: Calls) {
    let finding = run(Calls { name: "broken", ..broken }).expect_err("a difference");
    assert!(finding.starts_with(&format!("difference in {call}: ")), "{finding}");
    assert!(finding.contains("  reference: ") && finding.contains("  broken: "), "{finding}");
}

/// For each call that takes a theory, its name and the reference with nothing but that call broken.
fn one_by_one(broken: &Calls) -> [(&'static str, Calls); 6] {
    let good = reference::CALLS;
    [
        ("check_theory", Calls { check_theory: broken.check_theory, ..good }),
        ("evaluate_theory", Calls { evaluate_theory: broken.evaluate_theory, ..good }),
        ("translate", Calls { translate: broken.translate, ..good }),
        ("extend", Calls { extend: broken.extend, ..good }),
        ("test_theory", Calls { test_theory: broken.test_theory, ..good }),
        ("list_sets", Calls { list_sets: broken.list_sets, ..good }),
    ]
}

/// A way to break the answers of calls.
trait Break {
    fn answer(right: Answer) -> Answer;
}

/// The calls that take a theory, with their answers broken.
fn broken_answers<B: Break>() -> Calls {
    Calls {
        check_theory: |theory| B::answer(reference::check_theory(theory)),
        evaluate_theory: |theory, reading| B::answer(reference::evaluate_theory(theory, reading)),
        translate: |theory, packed, out| B::answer(reference::translate(theory, packed, out)),
        extend: |theory, reading, out| B::answer(reference::extend(theory, reading, out)),
        test_theory: |theory, candidate| B::answer(reference::test_theory(theory, candidate)),
        list_sets: |theory, out| B::answer(reference::list_sets(theory, out)),
        ..reference::CALLS
    }
}

#[test]
fn nothing_against_itself() {
    assert_eq!(run(reference::CALLS), Ok(()));
}

#[test]
fn refuses_everything() {
    let refuse = |_: &[u8]| Answer { number: 1, place: 0, result: 0 };
    found("check_theory", Calls { check_theory: refuse, ..reference::CALLS });
    found("check_program", Calls { check_program: refuse, ..reference::CALLS });
}

#[test]
fn header_before_room_is_known() {
    fn translate(theory: &[u8], packed: bool, out: &mut [u8]) -> Answer {
        let answer = reference::translate(theory, packed, out);
        if answer.number == 8 {
            out.iter_mut().take(16).for_each(|byte| *byte = 0);
        }
        answer
    }
    found("translate", Calls { translate, ..reference::CALLS });
}

#[test]
fn writes_before_the_buffer_ends_but_past_its_part() {
    fn extend(theory: &[u8], reading: &[u8], out: &mut [u8]) -> Answer {
        let answer = reference::extend(theory, reading, out);
        if answer.number == 0 && out.len() > answer.result {
            out[answer.result] ^= 1;
        }
        answer
    }
    found("extend", Calls { extend, ..reference::CALLS });
}

#[test]
fn buffer_left_alone() {
    fn translate(theory: &[u8], packed: bool, out: &mut [u8]) -> Answer {
        reference::translate(theory, packed, &mut out.to_vec())
    }
    found("translate", Calls { translate, ..reference::CALLS });
}

#[test]
fn a_limit_below_the_largest_b() {
    const REFUSED: Answer = Answer { number: 2, place: 0, result: 0 };
    fn translate(theory: &[u8], packed: bool, out: &mut [u8]) -> Answer {
        let mut program = out.to_vec();
        let answer = reference::translate(theory, packed, &mut program);
        if answer.number == 0 && get2(&program, 2) == 3070 {
            return REFUSED;
        }
        out.copy_from_slice(&program);
        answer
    }
    fn extend(theory: &[u8], reading: &[u8], out: &mut [u8]) -> Answer {
        match reference::extend(theory, reading, &mut out.to_vec()).result {
            3070 => REFUSED,
            _ => reference::extend(theory, reading, out),
        }
    }
    found("translate", Calls { translate, ..reference::CALLS });
    found("extend", Calls { extend, ..reference::CALLS });
}

#[test]
fn an_invented_count() {
    fn list_sets(theory: &[u8], out: &mut [u8]) -> Answer {
        let answer = reference::list_sets(theory, out);
        Answer { result: answer.result.max(1), ..answer }
    }
    found("list_sets", Calls { list_sets, ..reference::CALLS });
}

/// The place of row 6 is the node alone.
#[test]
fn a_node_without_its_field() {
    struct Alone;
    impl Break for Alone {
        fn answer(right: Answer) -> Answer {
            let place = if right.number == 6 { right.place / 8 } else { right.place };
            Answer { place, ..right }
        }
    }
    let broken = broken_answers::<Alone>();
    for (call, one) in one_by_one(&broken) {
        found(call, one);
    }
    // Both sides alike.
    assert!(Suite::new(&broken, &broken, 1).broken_nodes().is_err());
}

#[test]
fn fields_in_the_wrong_order() {
    /// Gives the field after `FIELD` where both are wrong: where it is the first once `FIELD` is made 0.
    fn check_theory<const FIELD: usize>(theory: &[u8]) -> Answer {
        let answer = reference::check_theory(theory);
        if answer.number != 6 || answer.place % 8 != FIELD {
            return answer;
        }
        let mut mended = theory.to_vec();
        let node = &mut mended[16 + 6 * (answer.place / 8)..];
        node[FIELD..[1, 2, 4][FIELD]].fill(0);
        let next = reference::check_theory(&mended);
        if next.number == 6 && next.place == answer.place + 1 {
            next
        } else {
            answer
        }
    }
    found("check_theory", Calls { check_theory: check_theory::<0>, ..reference::CALLS });
    found("check_theory", Calls { check_theory: check_theory::<1>, ..reference::CALLS });
    found("check_theory", Calls { check_theory: check_theory::<2>, ..reference::CALLS });
}

#[test]
fn the_first_field_of_all_nodes() {
    /// Looks at the kinds of all nodes before any other field.
    fn check_theory(theory: &[u8]) -> Answer {
        let answer = reference::check_theory(theory);
        if answer.number != 6 {
            return answer;
        }
        let kind = theory[16..].chunks(6).take(get2(theory, 2)).position(|node| node[0] > 6);
        Answer { place: kind.map_or(answer.place, |own| 8 * own), ..answer }
    }
    found("check_theory", Calls { check_theory, ..reference::CALLS });
}

#[test]
fn rows_in_the_wrong_order() {
    fn evaluate_theory(theory: &[u8], reading: &[u8]) -> Answer {
        match reading.iter().position(|&byte| byte > 2) {
            Some(place) if reference::check_theory(theory).number == 0 => Answer { number: 10, place, result: 0 },
            _ => reference::evaluate_theory(theory, reading),
        }
    }
    found("evaluate_theory", Calls { evaluate_theory, ..reference::CALLS });
}

#[test]
fn minimality_among_two_valued_models_only() {
    fn test_theory(theory: &[u8], candidate: &[u8]) -> Answer {
        let answer = reference::test_theory(theory, candidate);
        if answer.number != 0 {
            return answer;
        }
        let satisfied = |reading: &[u8]| reference::evaluate_theory(theory, reading).result == 1;
        let truths: Vec<usize> = (0..candidate.len()).filter(|&atom| candidate[atom] == 2).collect();
        let smaller = (0..(1usize << truths.len()) - 1).any(|subset| {
            let mut reading = vec![0; candidate.len()];
            (0..truths.len()).filter(|bit| subset >> bit & 1 == 1).for_each(|bit| reading[truths[bit]] = 2);
            satisfied(&reading)
        });
        Answer { result: usize::from(satisfied(candidate) && !smaller), ..answer }
    }
    found("test_theory", Calls { test_theory, ..reference::CALLS });
}

#[test]
fn a_sum_that_wraps_in_a_byte() {
    fn check_program(program: &[u8]) -> Answer {
        let mut image = program.to_vec();
        for rule in image.get_mut(16..).unwrap_or_default().chunks_exact_mut(10) {
            if rule[0].wrapping_add(rule[1]).wrapping_add(rule[2]) == 0 {
                rule[..3].fill(0);
            }
        }
        reference::check_program(&image)
    }
    found("check_program", Calls { check_program, ..reference::CALLS });
}

#[test]
fn negative_literals_read_as_positive() {
    fn evaluate_program(program: &[u8], reading: &[u8]) -> Answer {
        let mut image = program.to_vec();
        if reference::check_program(program).number == 0 {
            for rule in image[16..].chunks_exact_mut(10) {
                rule[1] += rule[2];
                rule[2] = 0;
            }
        }
        reference::evaluate_program(&image, reading)
    }
    found("evaluate_program", Calls { evaluate_program, ..reference::CALLS });
}

#[test]
fn a_candidate_that_satisfies_is_not_yet_an_answer_set() {
    fn test_program(program: &[u8], candidate: &[u8]) -> Answer {
        let answer = reference::test_program(program, candidate);
        match answer.number {
            0 => reference::evaluate_program(program, candidate),
            _ => answer,
        }
    }
    found("test_program", Calls { test_program, ..reference::CALLS });
}

/// Where both sides share a fault, comparison alone sees nothing; the parts that know the answer still do.
#[test]
fn a_fault_on_both_sides() {
    fn evaluate_program(program: &[u8], reading: &[u8]) -> Answer {
        let answer = reference::evaluate_program(program, reading);
        Answer { result: usize::from(answer.number == 0), ..answer }
    }
    let broken = Calls { evaluate_program, ..reference::CALLS };
    let mut suite = Suite::new(&broken, &broken, 1);
    assert!(suite.labels(8).is_err());
}

/// Of all the numbers on which both sides may agree, only the rows of the call pass.
#[test]
fn a_number_that_is_no_row_of_the_call() {
    /// Gives the number that is the image's first byte.
    fn first(theory: &[u8]) -> Answer {
        Answer { number: theory[0].into(), place: 0, result: 0 }
    }
    let broken =
        Calls { translate: |theory, _, _| first(theory), extend: |theory, _, _| first(theory), ..reference::CALLS };
    let mut comparer = Comparer::new(&broken, &broken);
    let mut passed = |call: Call| -> Vec<u8> {
        (0..=255).filter(|&number| comparer.call(call, &[number], &[], 0).is_ok()).collect()
    };
    assert_eq!(passed(Call::Translate), [0, 1, 2, 4, 5, 6, 7, 8, 13, 15]);
    assert_eq!(passed(Call::Extend), [0, 1, 2, 4, 5, 6, 7, 8, 9, 10, 13, 15]);
}
