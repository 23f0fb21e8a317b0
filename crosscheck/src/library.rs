//! The nine public calls of the library under test, linked from its static archive.

#![allow(unsafe_code)]

use crate::calls::{Answer, Calls};

pub const CALLS: Calls = Calls {
    name: "library",
    check_theory,
    evaluate_theory,
    translate,
    extend,
    test_theory,
    list_sets,
    check_program,
    evaluate_program,
    test_program,
};

// A slice passes as a pointer, which is never null, and a length.
extern "C" {
    fn rulebook_check_theory(theory: *const u8, theory_length: usize) -> Answer;
    fn rulebook_evaluate_theory(
        theory: *const u8,
        theory_length: usize,
        reading: *const u8,
        reading_length: usize,
    ) -> Answer;
    fn rulebook_translate(
        theory: *const u8,
        theory_length: usize,
        packed: bool,
        out: *mut u8,
        out_length: usize,
    ) -> Answer;
    fn rulebook_extend(
        theory: *const u8,
        theory_length: usize,
        reading: *const u8,
        reading_length: usize,
        out: *mut u8,
        out_length: usize,
    ) -> Answer;
    fn rulebook_test_theory(
        theory: *const u8,
        theory_length: usize,
        candidate: *const u8,
        candidate_length: usize,
    ) -> Answer;
    fn rulebook_list_sets(theory: *const u8, theory_length: usize, out: *mut u8, out_length: usize) -> Answer;
    fn rulebook_check_program(program: *const u8, program_length: usize) -> Answer;
    fn rulebook_evaluate_program(
        program: *const u8,
        program_length: usize,
        reading: *const u8,
        reading_length: usize,
    ) -> Answer;
    fn rulebook_test_program(
        program: *const u8,
        program_length: usize,
        candidate: *const u8,
        candidate_length: usize,
    ) -> Answer;
}

// SAFETY, for every call below: each pointer comes from a slice and goes with that slice's length, a buffer that is
// written is lent mutably and overlaps nothing, and the library keeps no pointer after it returns. The pointer of an
// empty slice is dangling but not null.

pub fn check_theory(theory: &[u8]) -> Answer {
    unsafe { rulebook_check_theory(theory.as_ptr(), theory.len()) }
}

pub fn evaluate_theory(theory: &[u8], reading: &[u8]) -> Answer {
    unsafe { rulebook_evaluate_theory(theory.as_ptr(), theory.len(), reading.as_ptr(), reading.len()) }
}

pub fn translate(theory: &[u8], packed: bool, out: &mut [u8]) -> Answer {
    unsafe { rulebook_translate(theory.as_ptr(), theory.len(), packed, out.as_mut_ptr(), out.len()) }
}

pub fn extend(theory: &[u8], reading: &[u8], out: &mut [u8]) -> Answer {
    let (theory, theory_length) = (theory.as_ptr(), theory.len());
    unsafe { rulebook_extend(theory, theory_length, reading.as_ptr(), reading.len(), out.as_mut_ptr(), out.len()) }
}

pub fn test_theory(theory: &[u8], candidate: &[u8]) -> Answer {
    unsafe { rulebook_test_theory(theory.as_ptr(), theory.len(), candidate.as_ptr(), candidate.len()) }
}

pub fn list_sets(theory: &[u8], out: &mut [u8]) -> Answer {
    unsafe { rulebook_list_sets(theory.as_ptr(), theory.len(), out.as_mut_ptr(), out.len()) }
}

pub fn check_program(program: &[u8]) -> Answer {
    unsafe { rulebook_check_program(program.as_ptr(), program.len()) }
}

pub fn evaluate_program(program: &[u8], reading: &[u8]) -> Answer {
    unsafe { rulebook_evaluate_program(program.as_ptr(), program.len(), reading.as_ptr(), reading.len()) }
}

pub fn test_program(program: &[u8], candidate: &[u8]) -> Answer {
    unsafe { rulebook_test_program(program.as_ptr(), program.len(), candidate.as_ptr(), candidate.len()) }
}
