//! A second implementation of the rule book translator, written from its specification alone, and the means to hold
//! another implementation against it.
//!
//! * [`reference`]: the nine public calls, over byte slices.
//! * [`library`]: the same nine calls of the library under test (feature `library`).
//! * [`compare`]: runs one call on both sides and looks at every byte.
//! * [`suite`]: the inputs on which the two sides are compared.
//! * [`lists`]: books and programs as lists, with slow definitions that share no code with the reference.
//! * [`inputs`], [`tables`]: what the benchmark and the instruction counter measure, and what they print.
//! * [`frames`]: how deep the library's compiled code can go into the stack.

#![deny(unsafe_code)]

pub mod calls;
pub mod compare;
pub mod damage;
pub mod formula;
pub mod frames;
pub mod generate;
pub mod inputs;
#[cfg(feature = "library")]
pub mod library;
pub mod lists;
pub mod node;
pub mod random;
pub mod reference;
pub mod solver;
pub mod stack;
pub mod suite;
pub mod tables;
pub mod worked;

/// The library under test, where this build links it.
pub fn library_under_test() -> Option<&'static calls::Calls> {
    #[cfg(feature = "library")]
    return Some(&library::CALLS);
    #[cfg(not(feature = "library"))]
    return None;
}
