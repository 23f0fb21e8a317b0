//! Programs that no book was translated into, under every program call.

use super::{all_readings, demand, Suite};
use crate::calls::Call;
use crate::compare::{hex, Checked};
use crate::generate;
use crate::lists::{self, Program, Set};

impl Suite<'_> {
    /// Random programs of all sizes up to the limits, of rules that either form or only the packed one has room for.
    pub fn random_programs(&mut self, small: usize, large: usize) -> Checked<()> {
        for _ in 0..small {
            let all = self.random.below(6);
            let program = self.any_rules(all, 9);
            self.program(&program, 4)?;
            self.sets_of_program(&program)?;
        }
        for turn in 0..large {
            let all = self.size(3072);
            let rules = self.size(6528);
            let program = self.any_rules(all, rules);
            self.program(&program, 2)?;
            let all = self.random.within(30, 3072);
            let rules = self.random.within(20, 300);
            let truths = if turn < 2 { 16 } else { self.random.below(10) };
            let (program, set) = generate::fact_program(&mut self.random, all, rules, truths);
            for image in program.images() {
                self.yes(Call::TestProgram, &image, &set)?;
            }
        }
        Ok(())
    }

    /// A random program over so many atoms of up to so many rules.
    pub(super) fn any_rules(&mut self, all: usize, most: usize) -> Program {
        let random = &mut self.random;
        let (atoms, rules) = (random.below(all.min(1024) + 1), random.within(0, most));
        let literals = random.pick(&[3, 8]);
        generate::program(random, atoms, all, rules, literals)
    }

    /// Every program call on a program, in each form that has room for its rules.
    pub(super) fn program(&mut self, program: &Program, count: usize) -> Checked<()> {
        let images = program.images();
        for image in &images {
            self.yes(Call::CheckProgram, image, &[])?;
            demand(Program::read(image) == *program, Call::CheckProgram, image, || {
                "it reads as another program".into()
            })?;
            self.bad_readings(&[Call::EvaluateProgram, Call::TestProgram], image, program.all)?;
        }
        for _ in 0..count {
            let reading = generate::reading(&mut self.random, program.all);
            self.reading_of_program(program, &images, &reading)?;
            let candidate = generate::candidate(&mut self.random, program.all, 10);
            self.alike(Call::TestProgram, &images, &candidate)?;
        }
        Ok(())
    }

    fn reading_of_program(&mut self, program: &Program, images: &[Vec<u8>], reading: &[u8]) -> Checked<()> {
        let satisfied = self.alike(Call::EvaluateProgram, images, reading)? == 1;
        let (here, there) = lists::worlds(reading);
        demand(satisfied == program.satisfied(&here, &there), Call::EvaluateProgram, &images[0], || {
            format!("by the two worlds the answer under {} is the other one", hex(reading))
        })
    }

    /// Every reading of a program of few atoms.
    pub(super) fn readings_of_program(&mut self, program: &Program) -> Checked<()> {
        let images = program.images();
        all_readings(program.all).iter().try_for_each(|reading| self.reading_of_program(program, &images, reading))
    }

    /// Every candidate of a program of few atoms; gives its answer sets.
    pub(super) fn sets_of_program(&mut self, program: &Program) -> Checked<Vec<Set>> {
        let (images, all) = (program.images(), program.all);
        let expected = program.answer_sets();
        for set in 0..1 << all {
            let found = self.alike(Call::TestProgram, &images, &lists::reading(set, set, all))?;
            demand((found == 1) == expected.contains(&set), Call::TestProgram, &images[0], || {
                format!("the sets should be {expected:?}")
            })?;
        }
        Ok(expected)
    }
}
