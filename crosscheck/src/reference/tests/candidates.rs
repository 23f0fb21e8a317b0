//! Which readings a candidate test looks at.

use super::*;

/// The test of a candidate over five atoms that looks at so many readings, where the first and the last of these
/// satisfy: what it gives, and the readings.
fn looked_at(truths: &[usize], count: usize) -> (bool, Vec<[u8; 5]>) {
    let mut readings: Vec<[u8; 5]> = Vec::new();
    let found = is_answer_set(&mut [0; 5], truths, |reading| {
        readings.push(reading.try_into().expect("five atoms"));
        readings.len() == 1 || readings.len() == count
    });
    (found, readings)
}

/// The candidate, and then all that is smaller, in the order of the numbers whose lowest digit is the first true atom.
const READINGS: [[u8; 5]; 8] = [
    [0, 2, 2, 0, 2],
    [0, 1, 1, 0, 1],
    [0, 2, 1, 0, 1],
    [0, 1, 2, 0, 1],
    [0, 2, 2, 0, 1],
    [0, 1, 1, 0, 2],
    [0, 2, 1, 0, 2],
    [0, 1, 2, 0, 2],
];

#[test]
fn every_proper_subset_once() {
    assert_eq!(looked_at(&[1, 2, 4], 9), (true, READINGS.to_vec()));
}

#[test]
fn no_further_than_the_first_that_satisfies() {
    for count in 2..=8 {
        assert_eq!(looked_at(&[1, 2, 4], count), (false, READINGS[..count].to_vec()));
    }
}

#[test]
fn few_true_atoms() {
    assert_eq!(looked_at(&[], 2), (true, vec![[0; 5]]));
    let [whole, empty] = [[0, 0, 0, 2, 0], [0, 0, 0, 1, 0]];
    assert_eq!(looked_at(&[3], 2), (false, vec![whole, empty]));
    assert_eq!(looked_at(&[3], 3), (true, vec![whole, empty]));
}

#[test]
fn a_candidate_that_does_not_satisfy() {
    let mut count = 0;
    assert!(!is_answer_set(&mut [0; 3], &[0, 2], |_| {
        count += 1;
        false
    }));
    assert_eq!(count, 1);
}

#[test]
fn as_many_true_atoms_as_are_tested() {
    let truths: Vec<usize> = (0..16).collect();
    let mut count = 0;
    assert!(is_answer_set(&mut [0; 16], &truths, |_| {
        count += 1;
        count == 1
    }));
    assert_eq!(count, 65_536);
}
