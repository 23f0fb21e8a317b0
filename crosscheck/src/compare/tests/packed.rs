//! Broken versions of readers and writers of packed programs.

use super::*;
use crate::lists::{get4, Program, Rule};

fn accepted(result: usize) -> Answer {
    Answer { number: 0, place: 0, result }
}

fn refused(number: u32, place: usize) -> Answer {
    Answer { number, place, result: 0 }
}

/// Whether an image is packed, by a header that is right up to row 25.
fn is_packed(program: &[u8]) -> bool {
    matches!(reference::check_program(program).number, 0 | 26) && get2(program, 6) == 1
}

/// What a walk through packed rules tests, and what it gives.
#[derive(Clone, Copy)]
struct Walk {
    most: usize,
    sum: fn([u8; 3]) -> usize,
    /// Whether the zero byte is good.
    zero: fn(u8) -> bool,
    /// Whether an atom is good, of which so many more come in its rule, where B is the last number.
    atom: fn(usize, usize, usize) -> bool,
    /// Whether a rule that would end at the first number fits in so many bytes.
    fits: fn(usize, usize) -> bool,
    /// The place of a rule that does not, where there are so many rules.
    past: fn(usize, usize) -> usize,
    /// The place of bytes left after so many rules, if they are wrong.
    left: fn(usize) -> Option<usize>,
}

const RIGHT: Walk = Walk {
    most: 8,
    sum: |counts| counts.iter().map(|&count| usize::from(count)).sum(),
    zero: |byte| byte == 0,
    atom: |atom, _, all| atom < all,
    fits: |end, length| end <= length,
    past: |own, _| own,
    left: Some,
};

impl Walk {
    /// The place that row 26 has, if it applies.
    fn place(&self, program: &[u8]) -> Option<usize> {
        let (all, rules) = (get2(program, 2), get2(program, 4));
        let mut at = 16;
        for own in 0..rules {
            let counts = match program.get(at..at + 4) {
                Some(counts) => counts,
                None => return Some((self.past)(own, rules)),
            };
            let used = (self.sum)([counts[0], counts[1], counts[2]]);
            if used > self.most || !(self.zero)(counts[3]) {
                return Some(own);
            }
            let end = at + 4 + 2 * used;
            if !(self.fits)(end, program.len()) {
                return Some((self.past)(own, rules));
            }
            let slots = &program[at + 4..end.min(program.len())];
            let count = slots.len() / 2;
            if !slots.chunks_exact(2).enumerate().all(|(slot, atom)| (self.atom)(get2(atom, 0), count - slot - 1, all))
            {
                return Some(own);
            }
            at = end;
        }
        if at < program.len() {
            (self.left)(rules)
        } else {
            None
        }
    }

    /// The answer of a call on a program that walks so, where `right` is the right one.
    fn answer(&self, program: &[u8], right: Answer) -> Answer {
        if !is_packed(program) {
            return right;
        }
        match self.place(program) {
            Some(place) => refused(26, place),
            None if right.number == 26 => accepted(1),
            None => right,
        }
    }
}

const WALKS: [Walk; 15] = [
    RIGHT,
    Walk { most: 9, ..RIGHT },
    Walk { most: 7, ..RIGHT },
    Walk { most: 3, ..RIGHT },
    Walk { sum: |counts| counts.iter().fold(0u8, |sum, &count| sum.wrapping_add(count)).into(), ..RIGHT },
    Walk { zero: |_| true, ..RIGHT },
    Walk { zero: |byte| byte < 128, ..RIGHT },
    Walk { atom: |atom, _, all| atom <= all, ..RIGHT },
    Walk { atom: |atom, more, all| more == 0 || atom < all, ..RIGHT },
    Walk { atom: |atom, _, all| atom % 256 < all, ..RIGHT },
    // A rule that ends at the end is refused; one that lacks a byte or a slot is not.
    Walk { fits: |end, length| end < length, ..RIGHT },
    Walk { fits: |end, length| end <= length + 1, ..RIGHT },
    Walk { past: |_, rules| rules, ..RIGHT },
    Walk { left: |_| None, ..RIGHT },
    Walk { left: |rules| Some(rules.saturating_sub(1)), ..RIGHT },
];

/// The calls on programs, with one of these walks.
fn walking<const WAY: usize>() -> Calls {
    Calls {
        check_program: |program| WALKS[WAY].answer(program, reference::check_program(program)),
        evaluate_program: |program, reading| WALKS[WAY].answer(program, reference::evaluate_program(program, reading)),
        test_program: |program, candidate| WALKS[WAY].answer(program, reference::test_program(program, candidate)),
        ..reference::CALLS
    }
}

/// For each call that takes a program, its name and the reference with nothing but that call broken.
fn each_on_a_program(broken: &Calls) -> [(&'static str, Calls); 3] {
    let good = reference::CALLS;
    [
        ("check_program", Calls { check_program: broken.check_program, ..good }),
        ("evaluate_program", Calls { evaluate_program: broken.evaluate_program, ..good }),
        ("test_program", Calls { test_program: broken.test_program, ..good }),
    ]
}

/// The suite finds each of these calls, and where both sides have it alike, its part on broken images does.
fn found_in_each(broken: Calls) {
    for (call, one) in each_on_a_program(&broken) {
        found(call, one);
        assert!(Suite::new(&one, &one, 1).broken_packed(100).is_err(), "{call}");
    }
}

/// The same for the check alone.
fn found_in_check(check_program: fn(&[u8]) -> Answer) {
    found("check_program", Calls { check_program, ..reference::CALLS });
}

#[test]
fn what_these_are_made_of_is_right() {
    assert_eq!(run(walking::<0>()), Ok(()));
}

#[test]
fn other_limits_of_literals() {
    found_in_each(walking::<1>());
    found_in_each(walking::<2>());
    found_in_each(walking::<3>());
}

#[test]
fn a_sum_in_a_byte() {
    found_in_each(walking::<4>());
}

#[test]
fn bytes_and_atoms_that_pass() {
    found_in_each(walking::<5>());
    found_in_each(walking::<6>());
    found_in_each(walking::<7>());
    found_in_each(walking::<8>());
    found_in_each(walking::<9>());
}

#[test]
fn where_a_rule_ends() {
    found_in_each(walking::<10>());
    found_in_each(walking::<11>());
    found_in_each(walking::<12>());
}

#[test]
fn bytes_left_over() {
    found_in_each(walking::<13>());
    found_in_each(walking::<14>());
}

#[test]
fn eight_in_a_fixed_image() {
    /// Takes rules of four to eight literals for empty ones.
    fn check_program(program: &[u8]) -> Answer {
        let mut image = program.to_vec();
        if image.len() > 16 && get2(program, 6) == 0 {
            for rule in image[16..].chunks_exact_mut(10) {
                let sum: usize = rule[..3].iter().map(|&count| usize::from(count)).sum();
                if (4..=8).contains(&sum) {
                    rule.fill(0);
                }
            }
        }
        reference::check_program(&image)
    }
    found_in_check(check_program);
}

/// An answer of the check for an image that has this number for its form.
fn with_form(program: &[u8], form: usize) -> Answer {
    let mut image = program.to_vec();
    image[6..8].copy_from_slice(&(form as u16).to_le_bytes());
    reference::check_program(&image)
}

#[test]
fn other_numbers_of_forms() {
    // Of the two bytes only the first; all that is not 0 is packed; all that is not 1 is fixed; nothing is packed.
    let checks: [fn(&[u8]) -> Answer; 4] = [
        |program| if program.len() < 16 { refused(21, 0) } else { with_form(program, get2(program, 6) % 256) },
        |program| if program.len() < 16 { refused(21, 0) } else { with_form(program, get2(program, 6).min(1)) },
        |program| match reference::check_program(program) {
            Answer { number: 23, .. } => with_form(program, 0),
            answer => answer,
        },
        |program| match reference::check_program(program) {
            Answer { number: 0 | 24.., .. } if get2(program, 6) == 1 => refused(23, 0),
            answer => answer,
        },
    ];
    checks.into_iter().for_each(found_in_check);
}

/// The check where `other` says what the answer to a packed image is that passes 23.
fn after_form(program: &[u8], other: fn(&[u8], Answer) -> Answer) -> Answer {
    match reference::check_program(program) {
        answer @ Answer { number: 0 | 24.., .. } if get2(program, 6) == 1 => other(program, answer),
        answer => answer,
    }
}

#[test]
fn totals_and_offsets() {
    let checks: [fn(&[u8]) -> Answer; 6] = [
        // The total must be that of the fixed form.
        |program| {
            after_form(program, |program, answer| match get4(program, 12) == 16 + 10 * get2(program, 4) {
                true => answer,
                false => refused(24, 0),
            })
        },
        // Any total passes 24; 16 does not; one over all that rules can take does not.
        |program| {
            after_form(program, |program, answer| match get4(program, 12) {
                total @ 0..=15 if get4(program, 8) == 16 => refused(25, total),
                _ => answer,
            })
        },
        |program| {
            after_form(program, |program, answer| match get4(program, 12) {
                16 => refused(24, 0),
                _ => answer,
            })
        },
        |program| {
            after_form(program, |program, answer| match get4(program, 12) {
                130_577.. => refused(24, 0),
                _ => answer,
            })
        },
        // Any offset does.
        |program| {
            after_form(program, |program, _| {
                let mut image = program.to_vec();
                image[8..12].copy_from_slice(&[16, 0, 0, 0]);
                reference::check_program(&image)
            })
        },
        // The length goes before the offset.
        |program| {
            after_form(program, |program, answer| match get4(program, 12) {
                total if answer.number == 24 && total >= 16 && total != program.len() => refused(25, total),
                _ => answer,
            })
        },
    ];
    checks.into_iter().for_each(found_in_check);
}

/// A program that is evaluated and tested as another one: `other` gives that for each packed one.
trait Other {
    fn other(program: &[u8]) -> Program;
}

fn instead<O: Other>(program: &[u8]) -> Vec<u8> {
    match reference::check_program(program).number == 0 && get2(program, 6) == 1 {
        true => O::other(program).packed(),
        false => program.to_vec(),
    }
}

fn reading_otherwise<O: Other>() -> Calls {
    Calls {
        evaluate_program: |program, reading| reference::evaluate_program(&instead::<O>(program), reading),
        test_program: |program, candidate| reference::test_program(&instead::<O>(program), candidate),
        ..reference::CALLS
    }
}

/// The suite finds each of these calls, and where both sides have it alike, its programs of up to eight literals do.
fn found_in_meaning<O: Other>() {
    let broken = reading_otherwise::<O>();
    for (call, one) in &each_on_a_program(&broken)[1..] {
        found(call, *one);
        assert!(Suite::new(one, one, 1).packed_programs(1).is_err(), "{call}");
    }
}

#[test]
fn slots_at_the_fixed_place() {
    struct EveryTenBytes;
    impl Other for EveryTenBytes {
        /// Where bytes are missing there are zeros, and an atom that is none is atom 0.
        fn other(program: &[u8]) -> Program {
            let mut fixed = program.to_vec();
            fixed.resize(16 + 10 * get2(program, 4), 0);
            fixed[6] = 0;
            for rule in fixed[16..].chunks_exact_mut(10) {
                (0..3).for_each(|part| rule[part] %= 2);
                for slot in rule[4..].chunks_exact_mut(2) {
                    if get2(slot, 0) >= get2(program, 2) {
                        slot.fill(0);
                    }
                }
            }
            Program::read(&fixed)
        }
    }
    found_in_meaning::<EveryTenBytes>();
}

/// A program in which every rule is changed.
fn changed(program: &[u8], change: fn(&mut Rule)) -> Program {
    let mut program = Program::read(program);
    program.rules.iter_mut().for_each(change);
    program
}

#[test]
fn slots_that_are_not_read() {
    struct ThreeSlots;
    impl Other for ThreeSlots {
        fn other(program: &[u8]) -> Program {
            changed(program, |rule| {
                rule.heads.truncate(3);
                rule.positives.truncate(3 - rule.heads.len());
                rule.negatives.truncate(3 - rule.heads.len() - rule.positives.len());
            })
        }
    }
    struct SevenSlots;
    impl Other for SevenSlots {
        fn other(program: &[u8]) -> Program {
            changed(program, |rule| {
                if rule.literals() == 8 {
                    let _ = rule.negatives.pop().or_else(|| rule.positives.pop()).or_else(|| rule.heads.pop());
                }
            })
        }
    }
    struct NotTheLastRule;
    impl Other for NotTheLastRule {
        fn other(program: &[u8]) -> Program {
            let mut program = Program::read(program);
            program.rules.pop();
            program
        }
    }
    found_in_meaning::<ThreeSlots>();
    found_in_meaning::<SevenSlots>();
    found_in_meaning::<NotTheLastRule>();
}

/// A translation in which `other` changes what is written in the packed form. The buffer of the right one is as large as
/// it must be, and so is that of the other one.
fn otherwise(theory: &[u8], packed: bool, out: &mut [u8], other: fn(Vec<u8>) -> Vec<u8>) -> Answer {
    let mut written = vec![0; 70_000];
    let answer = reference::translate(theory, packed, &mut written);
    if !packed || answer.number != 0 {
        return reference::translate(theory, packed, out);
    }
    written.truncate(get4(&written, 12));
    let program = other(written);
    match out.get_mut(..program.len()) {
        Some(part) => {
            part.copy_from_slice(&program);
            answer
        }
        None => refused(8, program.len()),
    }
}

type Translate = fn(&[u8], bool, &mut [u8]) -> Answer;

#[test]
fn other_programs_written() {
    let translations: [Translate; 5] = [
        // The form is left out of the header; the total is that of the fixed form.
        |theory, packed, out| {
            otherwise(theory, packed, out, |mut program| {
                program[6] = 0;
                program
            })
        },
        |theory, packed, out| {
            otherwise(theory, packed, out, |mut program| {
                let total = 16 + 10 * get2(&program, 4) as u32;
                program[12..16].copy_from_slice(&total.to_le_bytes());
                program
            })
        },
        // The rules are those of the fixed form, with its number or with that of the packed one.
        |theory, packed, out| otherwise(theory, packed, out, |program| Program::read(&program).image()),
        |theory, packed, out| {
            otherwise(theory, packed, out, |program| {
                let mut fixed = Program::read(&program).image();
                fixed[6] = 1;
                fixed
            })
        },
        // Rules without literals are left out.
        |theory, packed, out| {
            otherwise(theory, packed, out, |program| {
                let mut program = Program::read(&program);
                program.rules.retain(|rule| rule.literals() > 0);
                program.packed()
            })
        },
    ];
    for translate in translations {
        found("translate packed", Calls { translate, ..reference::CALLS });
    }
}

#[test]
fn the_other_form_is_written() {
    found(
        "translate",
        Calls { translate: |theory, packed, out| reference::translate(theory, !packed, out), ..reference::CALLS },
    );
}

#[test]
fn room_of_the_fixed_form() {
    /// Wants the room of the fixed form, and gives its place too if `PLACE` is set.
    fn translate<const PLACE: bool>(theory: &[u8], packed: bool, out: &mut [u8]) -> Answer {
        let fixed = reference::translate(theory, false, &mut vec![0; out.len()]);
        let right = reference::translate(theory, packed, &mut out.to_vec());
        match packed && fixed.number == 8 && (!PLACE || right.number == 8) {
            true => fixed,
            false => reference::translate(theory, packed, out),
        }
    }
    found("translate packed", Calls { translate: translate::<false>, ..reference::CALLS });
    found("translate packed", Calls { translate: translate::<true>, ..reference::CALLS });
}

#[test]
fn zeros_after_the_packed_rules() {
    fn translate(theory: &[u8], packed: bool, out: &mut [u8]) -> Answer {
        let answer = reference::translate(theory, packed, out);
        if packed && answer.number == 0 {
            let (from, to) = (get4(out, 12), out.len().min(16 + 10 * answer.result));
            out.get_mut(from..to).unwrap_or_default().fill(0);
        }
        answer
    }
    found("translate packed", Calls { translate, ..reference::CALLS });
}
