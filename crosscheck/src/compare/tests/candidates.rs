//! Broken versions of the way from one subset of a candidate's true atoms to the next.

use super::*;
use crate::generate::true_atoms;
use crate::lists;

/// A step of the search. There are more steps than proper subsets, so that a search may be too long. The reading comes
/// in as the candidate.
struct Step<'a> {
    number: usize,
    truths: &'a [usize],
    reading: &'a mut [u8],
}

impl Step<'_> {
    fn proper_subsets(&self) -> usize {
        (1 << self.truths.len()) - 1
    }

    /// Makes the reading that of a subset, which is looked at.
    fn put(&mut self, subset: usize) -> bool {
        for (own, &atom) in self.truths.iter().enumerate() {
            self.reading[atom] = 1 + (subset >> own & 1) as u8;
        }
        true
    }

    /// The right reading, if the search is not over.
    fn right(&mut self) -> bool {
        self.number < self.proper_subsets() && self.put(self.number)
    }

    /// The same with these for the true atoms.
    fn with(&mut self, truths: &[usize]) -> bool {
        Step { number: self.number, truths, reading: self.reading }.right()
    }

    /// The same where only so many places are counted.
    fn counted(&mut self, places: u32) -> bool {
        self.number < self.proper_subsets() && self.put(self.number % 2usize.pow(places))
    }

    /// Gives a false atom this value, if there is one.
    fn raise(&mut self, atom: Option<usize>, value: u8) -> bool {
        if let Some(atom) = atom {
            self.reading[atom] = value;
        }
        true
    }

    fn first_false(&self) -> Option<usize> {
        self.reading.iter().position(|&byte| byte == 0)
    }

    fn last_false(&self) -> Option<usize> {
        self.reading.iter().rposition(|&byte| byte == 0)
    }
}

/// A way to make the reading of a step; it says whether the reading is looked at.
trait Way {
    const MAKE: fn(&mut Step) -> bool;
}

macro_rules! ways {
    ($($name:ident: $make:expr;)*) => {
        $(struct $name;
        impl Way for $name {
            const MAKE: fn(&mut Step) -> bool = $make;
        })*
    };
}

ways! {
    Right: |step| step.right();
    NoCarry: |step| step.counted(1);
    CarryOverOnePlace: |step| step.counted(2);
    EightPlaces: |step| step.counted(8);
    FifteenPlaces: |step| step.counted(15);
    LowerPlacesStay: |step| step.number < step.truths.len() && step.put((1 << step.number) - 1);
    NotTheOneBeforeTheFull: |step| step.number + 1 != step.proper_subsets() && step.right();
    FromTheSecondOn: |step| step.number > 0 && step.right();
    TheFullOneToo: |step| step.number == step.proper_subsets() || step.right();
    FirstFalseAtomRaised: |step| step.right() && step.raise(step.first_false(), 1);
    LastFalseAtomRaised: |step| step.right() && step.raise(step.last_false(), 2);
    OnePlaceMore: |step| match step.number.checked_sub(step.proper_subsets()) {
        Some(subset) => step.put(subset) && step.raise(step.first_false(), 1),
        None => step.right(),
    };
    PlacesInAByte: |step| step.with(&step.truths.iter().map(|atom| atom % 256).collect::<Vec<_>>());
}

/// What a test of a candidate gives that looks at smaller readings in one of these ways.
fn tested<W: Way>(right: Answer, candidate: &[u8], evaluate: impl Fn(&[u8]) -> Answer) -> Answer {
    if right.number != 0 {
        return right;
    }
    let satisfied = |reading: &[u8]| evaluate(reading).result == 1;
    let truths: Vec<usize> = true_atoms(candidate).collect();
    let smaller = |number: usize| {
        let mut reading = candidate.to_vec();
        W::MAKE(&mut Step { number, truths: &truths, reading: &mut reading }) && satisfied(&reading)
    };
    let holds = satisfied(candidate) && !(0..2 << truths.len()).any(smaller);
    Answer { result: usize::from(holds), ..right }
}

fn test_theory<W: Way>(theory: &[u8], candidate: &[u8]) -> Answer {
    let right = reference::test_theory(theory, candidate);
    tested::<W>(right, candidate, |reading| reference::evaluate_theory(theory, reading))
}

fn test_program<W: Way>(program: &[u8], candidate: &[u8]) -> Answer {
    let right = reference::test_program(program, candidate);
    tested::<W>(right, candidate, |reading| reference::evaluate_program(program, reading))
}

fn list_sets<W: Way>(theory: &[u8], out: &mut [u8]) -> Answer {
    let right = reference::list_sets(theory, &mut out.to_vec());
    if right.number != 0 && right.number != 8 {
        return right;
    }
    let atoms = get2(theory, 0);
    let candidate = |set: u16| lists::reading(set.into(), set.into(), atoms);
    let sets = (0..1 << atoms).filter(|&set| test_theory::<W>(theory, &candidate(set)).result == 1);
    let bytes: Vec<u8> = sets.flat_map(u16::to_le_bytes).collect();
    match out.get_mut(..bytes.len()) {
        Some(part) => {
            part.copy_from_slice(&bytes);
            Answer { number: 0, place: 0, result: bytes.len() / 2 }
        }
        None => Answer { number: 8, place: bytes.len(), result: 0 },
    }
}

/// The reference with one of these calls instead of its own.
fn one_by_one<W: Way>() -> [(&'static str, Calls); 3] {
    let good = Calls { name: "broken", ..reference::CALLS };
    [
        ("test_theory", Calls { test_theory: test_theory::<W>, ..good }),
        ("test_program", Calls { test_program: test_program::<W>, ..good }),
        ("list_sets", Calls { list_sets: list_sets::<W>, ..good }),
    ]
}

/// The suite's part on candidates, with these calls on one side or on both.
fn candidates(first: &Calls, second: &Calls) -> Result<(), String> {
    let Effort { many_truths, stride, .. } = Effort::SHORT;
    Suite::new(first, second, 1).candidates(many_truths, stride).map_err(|finding| finding.0)
}

/// That part finds each of these calls, also where both sides have it alike.
fn found_in(calls: &[(&str, Calls)]) {
    for (call, one) in calls {
        let finding = candidates(&reference::CALLS, one).expect_err("a difference");
        assert!(finding.starts_with(&format!("difference in {call}: ")), "{finding}");
        assert!(candidates(one, one).is_err(), "{call}");
    }
}

#[test]
fn what_these_are_made_of_is_right() {
    let [(_, theories), (_, programs), (_, listings)] = one_by_one::<Right>();
    for one in [theories, programs] {
        assert!(Suite::new(&reference::CALLS, &one, 1).candidates(3_000, 1_000).is_ok());
    }
    assert!(Suite::new(&reference::CALLS, &listings, 1).every_small_book(40).is_ok());
}

#[test]
fn carries_left_out() {
    found_in(&one_by_one::<NoCarry>());
    found_in(&one_by_one::<CarryOverOnePlace>());
    found_in(&one_by_one::<EightPlaces>());
    found_in(&one_by_one::<LowerPlacesStay>());
    // In a listing there are never sixteen places.
    found_in(&one_by_one::<FifteenPlaces>()[..2]);
}

#[test]
fn places_of_other_atoms() {
    // Nor are there so many atoms.
    found_in(&one_by_one::<PlacesInAByte>()[..2]);
}

#[test]
fn subsets_left_out_or_too_many() {
    found_in(&one_by_one::<NotTheOneBeforeTheFull>());
    found_in(&one_by_one::<FromTheSecondOn>());
    found_in(&one_by_one::<TheFullOneToo>());
}

#[test]
fn false_atoms_raised() {
    found_in(&one_by_one::<FirstFalseAtomRaised>());
    found_in(&one_by_one::<LastFalseAtomRaised>());
    found_in(&one_by_one::<OnePlaceMore>());
}
