use super::form::{Fixed, Form, Packed};
use super::value::Value;
use super::{groups, half, refuse, word, Outcome, HEADER};
use std::marker::PhantomData;

pub const MOST_ALL: usize = 3072;
const MOST_RULES: usize = 6528;

/// A program image that has passed its check.
pub struct Program<'a> {
    /// The number of all atoms, labels included.
    pub all: usize,
    packed: bool,
    rules: &'a [u8],
}

impl<'a> Program<'a> {
    /// Rows 21 to 26.
    pub fn check(image: &'a [u8]) -> Outcome<Program<'a>> {
        if image.len() < HEADER {
            return refuse(21, 0);
        }
        let (header, body) = image.split_at(HEADER);
        let [atoms, all, rules] = [half(header, 0), half(header, 2), half(header, 4)];
        if atoms > super::theory::MOST_ATOMS || all < atoms || all > MOST_ALL || rules > MOST_RULES {
            return refuse(22, 0);
        }
        let form = half(header, 6);
        if form > 1 {
            return refuse(23, 0);
        }
        let (packed, total) = (form == 1, word(header, 12));
        let total_fits = if packed { total >= HEADER } else { total == HEADER + 10 * rules };
        if word(header, 8) != HEADER || !total_fits {
            return refuse(24, 0);
        }
        if image.len() != total {
            return refuse(25, total);
        }
        let bad = if packed { first_bad::<Packed>(body, rules, all) } else { first_bad::<Fixed>(body, rules, all) };
        match bad {
            Some(bad) => refuse(26, bad),
            None => Ok(Program { all, packed, rules: body }),
        }
    }

    pub fn satisfied(&self, reading: &[u8]) -> bool {
        match self.packed {
            true => Rules::<Packed>::of(self.rules).all(|rule| holds(rule, reading)),
            false => Rules::<Fixed>::of(self.rules).all(|rule| holds(rule, reading)),
        }
    }
}

/// Rules from the start of a slice on, each with its own bytes, up to one that runs past the end.
struct Rules<'a, F> {
    rest: &'a [u8],
    form: PhantomData<F>,
}

impl<'a, F: Form> Rules<'a, F> {
    fn of(rest: &'a [u8]) -> Rules<'a, F> {
        Rules { rest, form: PhantomData }
    }
}

impl<'a, F: Form> Iterator for Rules<'a, F> {
    type Item = &'a [u8];

    #[inline(always)]
    fn next(&mut self) -> Option<&'a [u8]> {
        let length = F::length(1, literals(self.rest.get(..4)?));
        let rule = self.rest.get(..length)?;
        self.rest = &self.rest[length..];
        Some(rule)
    }
}

/// The first of so many rules that is malformed or runs past the end; their number where bytes are left after them.
fn first_bad<F: Form>(section: &[u8], count: usize, all: usize) -> Option<usize> {
    let mut rules = Rules::<F>::of(section);
    let bad = (0..count).find(|_| !rules.next().map_or(false, |rule| fits::<F>(rule, all)));
    bad.or_else(|| (!rules.rest.is_empty()).then_some(count))
}

/// The sum of a rule's three counts.
fn literals(rule: &[u8]) -> usize {
    rule[..3].iter().map(|&count| usize::from(count)).sum()
}

#[inline(always)]
fn fits<F: Form>(rule: &[u8], all: usize) -> bool {
    let used = literals(rule);
    if used > F::MOST || rule[3] != 0 {
        return false;
    }
    let (slots, unused) = rule[4..].split_at(2 * used);
    groups(slots).all(|&slot: &[u8; 2]| half(&slot, 0) < all) && unused.iter().all(|&byte| byte == 0)
}

/// Whether the smallest value of the body is at most the largest of the head.
#[inline(always)]
fn holds(rule: &[u8], reading: &[u8]) -> bool {
    let heads = usize::from(rule[0]);
    let positives = heads + usize::from(rule[1]);
    let negatives = positives + usize::from(rule[2]);
    let value = |slot: usize| Value::of(reading[half(rule, 4 + 2 * slot)]);
    let head = (0..heads).fold(Value::FALSE, |head, slot| head.or(value(slot)));
    let body = (heads..positives).fold(Value::TRUE, |body, slot| body.and(value(slot)));
    let body = (positives..negatives).fold(body, |body, slot| body.and(value(slot).not()));
    body <= head
}
