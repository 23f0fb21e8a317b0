//! Packed programs: rules of up to eight literals in every split, and images that are refused.

use super::{demand, Suite};
use crate::calls::Call;
use crate::compare::Checked;
use crate::damage::{self, set2, set4, OVER_EIGHT};
use crate::lists::{self, get2, Program, Rule};
use crate::random::Random;

/// The most literals that a rule has, packed and fixed.
const MOST: usize = 8;
const MOST_FIXED: usize = 3;
/// Of the atoms that are tried in full.
const MOST_ATOMS: usize = 6;

impl Suite<'_> {
    /// For every split of up to eight literals into heads, positives and negatives, so many programs with such a rule:
    /// every reading and every candidate of each.
    pub fn packed_programs(&mut self, times: usize) -> Checked<()> {
        for counts in (0..=MOST).flat_map(splits) {
            for _ in 0..times {
                let all = self.random.within(1, MOST_ATOMS);
                let mut program = Program { atoms: all / 2, all, rules: vec![split(&mut self.random, all, counts)] };
                self.tried_out(&program)?;
                let beside = self.any_rules(all, 4).rules;
                let at = self.random.within(0, beside.len());
                program.rules.splice(0..0, beside[..at].iter().cloned());
                program.rules.extend(beside[at..].iter().cloned());
                self.tried_out(&program)?;
            }
        }
        Ok(())
    }

    fn tried_out(&mut self, program: &Program) -> Checked<()> {
        self.program(program, 1)?;
        self.readings_of_program(program)?;
        self.sets_of_program(program).map(|_| ())
    }

    /// Packed images that are wrong in a known way, and `random_rules` whose rules are random bytes.
    pub fn broken_packed(&mut self, random_rules: usize) -> Checked<()> {
        self.too_many_literals()?;
        for program in small_programs() {
            self.broken_headers(&program)?;
            self.broken_rules(&program)?;
            self.other_numbers_of_rules(&program)?;
            self.truncated(&program)?;
            self.row_before_row(&program)?;
            self.as_the_other_form(&program)?;
        }
        (0..random_rules).try_for_each(|_| self.random_rules())
    }

    /// Nine literals in every split, and counts of which a byte cannot hold the sum, in the first rule, the middle one
    /// or the last; in the fixed form four to eight.
    fn too_many_literals(&mut self) -> Checked<()> {
        let program = |own: usize, counts: [usize; 3]| {
            let mut rules = vec![Rule::new(&[1], &[0], &[]); 3];
            rules[own] = split(&mut Random::new(own as u64), 2, counts);
            Program { atoms: 1, all: 2, rules }
        };
        for own in 0..3 {
            for counts in splits(MOST + 1) {
                self.refused(&program(own, counts).packed(), 26, own)?;
            }
            for counts in splits(MOST) {
                self.yes(Call::CheckProgram, &program(own, counts).packed(), &[])?;
            }
            for counts in (MOST_FIXED + 1..=MOST).flat_map(splits) {
                self.refused(&program(own, counts).image(), 26, own)?;
            }
            for counts in OVER_EIGHT {
                let sum: usize = counts.iter().map(|&count| usize::from(count)).sum();
                // Slots for all literals, and for so many as the sum in a byte would be.
                for slots in [sum, sum % 256] {
                    let mut image = program(own, [slots, 0, 0]).packed();
                    let at = 16 + 8 * own;
                    image[at..at + 3].copy_from_slice(&counts);
                    self.refused(&image, 26, own)?;
                }
            }
        }
        Ok(())
    }

    /// Other forms, offsets and totals.
    fn broken_headers(&mut self, program: &Program) -> Checked<()> {
        for good in program.images() {
            for form in [2, 3, 255, 256, 257, 258, 65535] {
                let mut image = good.clone();
                set2(&mut image, 6, form);
                self.refused(&image, 23, 0)?;
            }
            for offset in [0, 15, 17, good.len(), 16 + 256, 16 + 65536, 0xFFFF_FFFF] {
                let mut image = good.clone();
                set4(&mut image, 8, offset);
                if offset != 16 {
                    self.refused(&image, 24, 0)?;
                }
            }
        }
        let good = program.packed();
        let length = good.len();
        let totals = [0, 1, 15, 16, 17, length - 1, length + 1, length + 65536, 0x8000_0000, 0xFFFF_FFFF];
        for total in totals.into_iter().filter(|&total| total != length) {
            let mut image = good.clone();
            set4(&mut image, 12, total);
            let (number, place) = if total < 16 { (24, 0) } else { (25, total) };
            self.refused(&image, number, place)?;
        }
        Ok(())
    }

    /// Each rule with a zero byte that is not zero, and with an atom that is B in each of its slots.
    fn broken_rules(&mut self, program: &Program) -> Checked<()> {
        let good = program.packed();
        for (own, &at) in damage::starts(&good).iter().enumerate() {
            for byte in [1, 2, 128, 255] {
                let mut image = good.clone();
                image[at + 3] = byte;
                self.refused(&image, 26, own)?;
            }
            for slot in 0..program.rules[own].literals() {
                for atom in [program.all, program.all + 256, 65535] {
                    let mut image = good.clone();
                    set2(&mut image, at + 4 + 2 * slot, atom);
                    self.refused(&image, 26, own)?;
                }
            }
        }
        Ok(())
    }

    /// More and fewer rules by the header than there are, and bytes after the last one. The total is that of all bytes.
    fn other_numbers_of_rules(&mut self, program: &Program) -> Checked<()> {
        let (good, count) = (program.packed(), program.rules.len());
        for rules in (0..count + 3).filter(|&rules| rules != count) {
            let mut image = good.clone();
            set2(&mut image, 4, rules);
            self.refused(&image, 26, rules.min(count))?;
        }
        for more in [&[0][..], &[1], &[0, 0], &[0; 3], &[0; 4], &[1, 0, 0, 0, 0, 0], &[255; 20]] {
            let mut image = [&good[..], more].concat();
            self.refused(&image, 25, good.len())?;
            with_total(&mut image);
            self.refused(&image, 26, count)?;
        }
        Ok(())
    }

    /// The image cut at every length, with the total that it had and with that of what is left.
    fn truncated(&mut self, program: &Program) -> Checked<()> {
        let good = program.packed();
        for length in 0..good.len() {
            let mut image = good[..length].to_vec();
            if length < 16 {
                self.refused(&image, 21, 0)?;
                continue;
            }
            self.refused(&image, 25, good.len())?;
            with_total(&mut image);
            // A rule is left whole if the one after it could start.
            let whole = damage::starts(&good).iter().skip(1).filter(|&&next| next <= length).count();
            self.refused(&image, 26, whole)?;
            demand(lists::packed_rules(&image) == Err(whole), Call::CheckProgram, &image, || {
                format!("by the lists the place is not {whole}")
            })?;
        }
        Ok(())
    }

    /// One row broken after the other: each goes before those that were broken earlier.
    fn row_before_row(&mut self, program: &Program) -> Checked<()> {
        if program.rules.is_empty() {
            return Ok(());
        }
        for good in program.images() {
            let starts = damage::starts(&good);
            for _ in 0..20 {
                let mut image = good.clone();
                for row in [26, 25, 24, 23, 22, 21] {
                    let place = damage::program(&mut self.random, &mut image, &starts, row);
                    self.refused(&image, row, place)?;
                }
            }
        }
        Ok(())
    }

    /// The image of each form with the number of the other.
    fn as_the_other_form(&mut self, program: &Program) -> Checked<()> {
        let mut image = program.packed();
        set2(&mut image, 6, 0);
        if image.len() != 16 + 10 * program.rules.len() {
            self.refused(&image, 24, 0)?;
        } else if program.rules.iter().all(|rule| rule.literals() == MOST_FIXED) {
            self.yes(Call::CheckProgram, &image, &[])?;
        } else {
            // As long as a fixed image by chance: in the only one of these the first rule has too many literals.
            self.refused(&image, 26, 0)?;
        }
        let mut image = program.image();
        set2(&mut image, 6, 1);
        self.judged_by_the_lists(&image)
    }

    /// A packed image whose header is right and whose rules are random bytes, or nearly rules.
    fn random_rules(&mut self) -> Checked<()> {
        let random = &mut self.random;
        let (all, rules) = (random.within(1, 300), random.below(5));
        let mut image = Program { atoms: 1, all, rules: vec![] }.packed();
        if random.chance(20) {
            let (length, bound) = (random.below(60), random.pick(&[2, 3, 9, 256]));
            image.extend((0..length).map(|_| random.below(bound) as u8));
        } else {
            (0..rules).for_each(|_| nearly_a_rule(random, all, &mut image));
        }
        set2(&mut image, 4, if random.chance(5) { random.below(7) } else { rules });
        with_total(&mut image);
        self.judged_by_the_lists(&image)
    }

    /// A packed image whose header is right: the lists say what is wrong with its rules, if anything is.
    fn judged_by_the_lists(&mut self, image: &[u8]) -> Checked<()> {
        match lists::packed_rules(image) {
            Err(place) => self.refused(image, 26, place),
            Ok(rules) => {
                let program = Program { atoms: get2(image, 0), all: get2(image, 2), rules };
                demand(program.packed() == image, Call::CheckProgram, image, || "it is written otherwise".into())?;
                self.program(&program, 2)
            }
        }
    }
}

/// All splits of so many literals into heads, positives and negatives.
fn splits(literals: usize) -> impl Iterator<Item = [usize; 3]> {
    (0..=literals).flat_map(move |heads| {
        let body = literals - heads;
        (0..=body).map(move |positives| [heads, positives, body - positives])
    })
}

/// A rule of such a split with random atoms out of `all`.
fn split(random: &mut Random, all: usize, counts: [usize; 3]) -> Rule {
    let [heads, positives, negatives] = counts.map(|count| (0..count).map(|_| random.below(all)).collect());
    Rule { heads, positives, negatives }
}

/// Adds a rule that may have an atom too large, a byte too many or too few, a zero byte that is not zero, or up to twelve
/// literals.
fn nearly_a_rule(random: &mut Random, all: usize, image: &mut Vec<u8>) {
    let bound = random.pick(&[2, 3, 5]);
    let counts = [(); 3].map(|_| random.below(bound));
    let mut bytes = Program { atoms: 0, all, rules: vec![split(random, all, counts)] }.packed().split_off(16);
    match random.below(40) {
        0 => bytes[3] = random.within(1, 255) as u8,
        1 => bytes.push(random.below(3) as u8),
        2 => bytes.truncate(bytes.len() - 1),
        3 if bytes.len() > 4 => {
            let last = bytes.len() - 2;
            set2(&mut bytes, last, random.pick(&[all, all + 1, 65535]));
        }
        _ => {}
    }
    image.extend(bytes);
}

/// Sets the total to the length of the image.
fn with_total(image: &mut [u8]) {
    set4(image, 12, image.len());
}

/// Programs in which rules of few literals and of many stand first and last. One has only rules of three literals, so
/// that it is as long in both forms.
fn small_programs() -> Vec<Program> {
    let fact = Rule::new(&[1], &[], &[]);
    let three = Rule::new(&[0], &[1], &[2]);
    let five = Rule::new(&[2, 1], &[0, 0], &[1]);
    let eight = Rule::new(&[0, 1], &[2, 0, 1], &[0, 2, 1]);
    let lists = [
        vec![],
        vec![Rule::default()],
        vec![Rule::default(); 3],
        vec![three.clone(); 4],
        vec![Rule::new(&[], &[], &[2, 0]), fact.clone()],
        vec![five.clone(), fact.clone()],
        vec![eight.clone(), Rule::default(), five, three],
        vec![fact, Rule::new(&[], &[0; 8], &[]), Rule::default(), eight],
    ];
    lists.into_iter().map(|rules| Program { atoms: 1, all: 3, rules }).collect()
}

#[cfg(test)]
mod tests {
    use super::*;
    use crate::reference;

    #[test]
    fn every_split() {
        assert_eq!(splits(0).collect::<Vec<_>>(), [[0; 3]]);
        assert_eq!(splits(1).collect::<Vec<_>>(), [[0, 0, 1], [0, 1, 0], [1, 0, 0]]);
        assert_eq!((0..=MOST).flat_map(splits).count(), 165);
        assert!(splits(MOST).all(|counts| counts.iter().sum::<usize>() == MOST));
        let rule = split(&mut Random::new(1), 3, [2, 5, 1]);
        assert_eq!((rule.heads.len(), rule.positives.len(), rule.negatives.len(), rule.literals()), (2, 5, 1, 8));
    }

    #[test]
    fn random_rules_of_both_sorts() {
        let mut suite = Suite::new(&reference::CALLS, &reference::CALLS, 1);
        assert!((0..1000).all(|_| suite.random_rules().is_ok()));
        // Nine calls refuse an image that is refused.
        let refused = suite.comparer.numbers().find(|&(number, _)| number == 26).map_or(0, |(_, calls)| calls / 9);
        assert!((200..800).contains(&refused), "{refused} of 1000");
    }
}
