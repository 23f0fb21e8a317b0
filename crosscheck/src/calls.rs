//! The nine public calls as a table of functions, so that a comparison need not know whose they are.

use crate::lists::get4;
use std::fmt;

/// What every public call gives back. The layout is the one that C sees.
#[repr(C)]
#[derive(Clone, Copy, Debug, Default, PartialEq, Eq)]
pub struct Answer {
    /// 0 when accepted, else the row of the refusal table.
    pub number: u32,
    /// Where the input was wrong, or how much was wanted; 0 when accepted.
    pub place: usize,
    /// The call's own result; 0 when refused.
    pub result: usize,
}

impl fmt::Display for Answer {
    fn fmt(&self, to: &mut fmt::Formatter<'_>) -> fmt::Result {
        write!(to, "number {}, place {}, result {}", self.number, self.place, self.result)
    }
}

/// A public call. Translation is here twice, once for each form of its program.
#[derive(Clone, Copy, Debug, PartialEq, Eq)]
pub enum Call {
    CheckTheory,
    EvaluateTheory,
    Translate,
    TranslatePacked,
    Extend,
    TestTheory,
    ListSets,
    CheckProgram,
    EvaluateProgram,
    TestProgram,
}

impl Call {
    pub const ALL: [Call; 10] = [
        Call::CheckTheory,
        Call::EvaluateTheory,
        Call::Translate,
        Call::TranslatePacked,
        Call::Extend,
        Call::TestTheory,
        Call::ListSets,
        Call::CheckProgram,
        Call::EvaluateProgram,
        Call::TestProgram,
    ];

    pub fn name(self) -> &'static str {
        match self {
            Call::CheckTheory => "check_theory",
            Call::EvaluateTheory => "evaluate_theory",
            Call::Translate => "translate",
            Call::TranslatePacked => "translate packed",
            Call::Extend => "extend",
            Call::TestTheory => "test_theory",
            Call::ListSets => "list_sets",
            Call::CheckProgram => "check_program",
            Call::EvaluateProgram => "evaluate_program",
            Call::TestProgram => "test_program",
        }
    }

    /// The name of its function, without what all of these begin with.
    pub fn function(self) -> &'static str {
        match self {
            Call::TranslatePacked => Call::Translate.name(),
            _ => self.name(),
        }
    }

    /// The rows that the call has, in the order in which they are tested.
    pub fn rows(self) -> &'static [u32] {
        match self {
            Call::CheckTheory => &[1, 2, 4, 5, 6, 7, 15, 13],
            Call::EvaluateTheory => &[1, 2, 4, 5, 6, 7, 15, 13, 9, 10],
            Call::Translate | Call::TranslatePacked => &[1, 2, 4, 5, 6, 7, 15, 13, 8],
            Call::Extend => &[1, 2, 4, 5, 6, 7, 15, 13, 9, 10, 8],
            Call::TestTheory => &[1, 2, 4, 5, 6, 7, 15, 13, 9, 10, 11],
            Call::ListSets => &[1, 2, 4, 5, 6, 7, 15, 13, 11, 8],
            Call::CheckProgram => &[21, 22, 23, 24, 25, 26],
            Call::EvaluateProgram => &[21, 22, 23, 24, 25, 26, 9, 10],
            Call::TestProgram => &[21, 22, 23, 24, 25, 26, 9, 10, 11],
        }
    }

    /// Whether the call takes a program image and not a theory image.
    pub fn on_program(self) -> bool {
        matches!(self, Call::CheckProgram | Call::EvaluateProgram | Call::TestProgram)
    }

    /// Whether the call takes an interpretation beside the image.
    pub fn reads(self) -> bool {
        matches!(
            self,
            Call::EvaluateTheory | Call::Extend | Call::TestTheory | Call::EvaluateProgram | Call::TestProgram
        )
    }

    /// Whether that interpretation is a candidate.
    pub fn tests(self) -> bool {
        matches!(self, Call::TestTheory | Call::TestProgram)
    }

    /// Whether the call is lent a buffer.
    pub fn writes(self) -> bool {
        matches!(self, Call::Translate | Call::TranslatePacked | Call::Extend | Call::ListSets)
    }

    /// How many bytes an accepted call with this result has written to the start of `out`. A packed program has that
    /// number in its header.
    pub fn written(self, result: usize, out: &[u8]) -> usize {
        match self {
            Call::Translate => 16 + 10 * result,
            Call::TranslatePacked => out.get(..16).map_or(0, |header| get4(header, 12)),
            Call::Extend => result,
            Call::ListSets => 2 * result,
            _ => 0,
        }
    }
}

/// One implementation of the nine public calls.
#[derive(Clone, Copy)]
pub struct Calls {
    pub name: &'static str,
    pub check_theory: fn(&[u8]) -> Answer,
    pub evaluate_theory: fn(&[u8], &[u8]) -> Answer,
    pub translate: fn(&[u8], bool, &mut [u8]) -> Answer,
    pub extend: fn(&[u8], &[u8], &mut [u8]) -> Answer,
    pub test_theory: fn(&[u8], &[u8]) -> Answer,
    pub list_sets: fn(&[u8], &mut [u8]) -> Answer,
    pub check_program: fn(&[u8]) -> Answer,
    pub evaluate_program: fn(&[u8], &[u8]) -> Answer,
    pub test_program: fn(&[u8], &[u8]) -> Answer,
}

impl Calls {
    /// Runs `call`; arguments that it does not take are left alone.
    pub fn run(&self, call: Call, image: &[u8], reading: &[u8], out: &mut [u8]) -> Answer {
        match call {
            Call::CheckTheory => (self.check_theory)(image),
            Call::EvaluateTheory => (self.evaluate_theory)(image, reading),
            Call::Translate => (self.translate)(image, false, out),
            Call::TranslatePacked => (self.translate)(image, true, out),
            Call::Extend => (self.extend)(image, reading, out),
            Call::TestTheory => (self.test_theory)(image, reading),
            Call::ListSets => (self.list_sets)(image, out),
            Call::CheckProgram => (self.check_program)(image),
            Call::EvaluateProgram => (self.evaluate_program)(image, reading),
            Call::TestProgram => (self.test_program)(image, reading),
        }
    }
}
