//! What the specification says about packed programs.

use super::*;
use crate::lists;

/// The program of P1 with 1 for `not p` and 2 for the root: `1 <- not 0`, `<- 1, 0`, `2 <- 0`, `2 <- 1`, `0 | 1 <- 2`
/// and `2 <-`. Its rules start at bytes 16, 24, 32, 40, 48 and 58.
const PACKED_P1: [u8; 64] = [
    0x01, 0x00, 0x03, 0x00, 0x06, 0x00, 0x01, 0x00, 0x10, 0x00, 0x00, 0x00, 0x40, 0x00, 0x00, 0x00, //
    0x01, 0x00, 0x01, 0x00, 0x01, 0x00, 0x00, 0x00, //
    0x00, 0x02, 0x00, 0x00, 0x01, 0x00, 0x00, 0x00, //
    0x01, 0x01, 0x00, 0x00, 0x02, 0x00, 0x00, 0x00, //
    0x01, 0x01, 0x00, 0x00, 0x02, 0x00, 0x01, 0x00, //
    0x02, 0x01, 0x00, 0x00, 0x00, 0x00, 0x01, 0x00, 0x02, 0x00, //
    0x01, 0x00, 0x00, 0x00, 0x02, 0x00,
];

/// A packed translation, with the bytes after it untouched.
fn packed(image: &[u8]) -> (usize, Vec<u8>) {
    let mut out = vec![0xEE; 70_000];
    let answer = translate(image, true, &mut out);
    assert_eq!((answer.number, answer.place), (0, 0));
    let length = word(&out, 12);
    assert!(out[length..].iter().all(|&byte| byte == 0xEE));
    out.truncate(length);
    (answer.result, out)
}

/// The answer to a program that is refused, the same from every call, whatever the interpretation is.
fn refusal(image: &[u8]) -> Answer {
    let answer = check_program(image);
    for reading in [&[][..], &[0, 2, 0], &[3, 3, 3], &[2; 20]] {
        assert_eq!(evaluate_program(image, reading), answer);
        assert_eq!(test_program(image, reading), answer);
    }
    answer
}

/// That to P1's with these bytes changed.
fn with(changes: &[(usize, u8)]) -> Answer {
    let mut image = PACKED_P1;
    changes.iter().for_each(|&(at, byte)| image[at] = byte);
    refusal(&image)
}

/// A packed program over three atoms with these bytes for so many rules. The total is right.
fn section(rules: usize, bytes: &[u8]) -> Vec<u8> {
    let mut image = Program { atoms: 1, all: 3, rules: vec![] }.packed();
    image[4] = rules as u8;
    image[12] += bytes.len() as u8;
    image.extend(bytes);
    image
}

#[test]
fn p1_bytes_packed() {
    assert_eq!(packed(&P1), (6, PACKED_P1.to_vec()));
    assert_eq!(p1().flat().packed(), PACKED_P1);
    assert_eq!(check_program(&PACKED_P1), accepted(1));
    // {} and {p}, each with its labels.
    for (candidate, found) in [([0, 2, 2], 1), ([2, 0, 2], 1), ([2, 2, 2], 0), ([0, 0, 0], 0)] {
        assert_eq!(test_program(&PACKED_P1, &candidate), accepted(found));
    }
    assert_eq!(evaluate_program(&PACKED_P1, &[1, 0, 1]), accepted(0));
    assert_eq!(evaluate_program(&PACKED_P1, &[2, 0, 2]), accepted(1));
}

#[test]
fn p4_bytes_packed() {
    // Labels 3 and 4 are for r implies q, 5 and 6 for the outer implication.
    let rules: [&[u8]; 13] = [
        &[1, 2, 0, 0, 1, 0, 3, 0, 2, 0],
        &[1, 0, 1, 0, 3, 0, 2, 0],
        &[1, 1, 0, 0, 3, 0, 1, 0],
        &[3, 0, 0, 0, 2, 0, 4, 0, 3, 0],
        &[1, 0, 1, 0, 4, 0, 1, 0],
        &[0, 2, 0, 0, 4, 0, 1, 0],
        &[1, 2, 0, 0, 0, 0, 5, 0, 3, 0],
        &[1, 0, 1, 0, 5, 0, 3, 0],
        &[1, 1, 0, 0, 5, 0, 0, 0],
        &[3, 0, 0, 0, 3, 0, 6, 0, 5, 0],
        &[1, 0, 1, 0, 6, 0, 0, 0],
        &[0, 2, 0, 0, 6, 0, 0, 0],
        &[1, 0, 0, 0, 5, 0],
    ];
    let p4 = Book::new(
        3,
        vec![Node::Atom(0), Node::Atom(1), Node::Atom(2), Node::Implies(2, 1), Node::Implies(3, 0)],
        vec![4],
    );
    let header = [3, 0, 7, 0, 13, 0, 1, 0, 16, 0, 0, 0, 126, 0, 0, 0];
    let (count, program) = packed(&p4.image());
    assert_eq!((count, &program[..16]), (13, &header[..]));
    assert_eq!(program[16..], rules.concat());
    assert_eq!(program.len(), 126);
    assert_eq!(test_program(&program, &[2, 0, 0, 2, 2, 2, 0]), accepted(1));
    // With its nodes in another order the labels are the same.
    assert_eq!(packed(&formula::book("p q r", "(r -> q) -> p").image()), (13, program));
}

#[test]
fn small_programs_packed() {
    // P5: two literals, two, three, one, one.
    let p5 = Book::new(1, vec![Node::Atom(0), Node::False, Node::Implies(0, 1)], vec![2]);
    assert_eq!(packed(&p5.image()).1.len(), 16 + 8 + 8 + 10 + 6 + 6);
    // P6: the empty rule has four bytes.
    let (rules, p6) = packed(&Book::new(0, vec![Node::False], vec![0]).image());
    assert_eq!((rules, &p6[..]), (1, &[0, 0, 0, 0, 1, 0, 1, 0, 16, 0, 0, 0, 20, 0, 0, 0, 0, 0, 0, 0][..]));
    assert_eq!(test_program(&p6, &[]), accepted(0));
    // P7: no rules.
    let (rules, p7) = packed(&Book { atoms: 1, ..Book::default() }.image());
    assert_eq!((rules, &p7[..]), (0, &[1, 0, 1, 0, 0, 0, 1, 0, 16, 0, 0, 0, 16, 0, 0, 0][..]));
    assert_eq!(test_program(&p7, &[0]), accepted(1));
}

#[test]
fn the_same_rules_in_both_forms() {
    for example in [worked::cases(), worked::examples(), worked::pairs()].iter().flatten() {
        let image = example.book.image();
        let [fixed, packed] = [translated(&image), packed(&image)];
        assert_eq!(packed.0, fixed.0);
        assert_eq!(Program::read(&packed.1), Program::read(&fixed.1));
        let literals: usize = Program::read(&packed.1).rules.iter().map(Rule::literals).sum();
        assert_eq!(packed.1.len(), 16 + 4 * packed.0 + 2 * literals);
        assert_eq!([half(&fixed.1, 6), half(&packed.1, 6)], [0, 1]);
    }
}

#[test]
fn room_for_a_packed_program() {
    let mut out = [9; 76];
    assert_eq!(translate(&P1, true, &mut out[..63]), refused(8, 64));
    assert_eq!(translate(&P1, true, &mut out[..0]), refused(8, 64));
    assert_eq!(translate(&P1, false, &mut out[..75]), refused(8, 76));
    assert_eq!(out, [9; 76]);
    assert_eq!(translate(&P1, true, &mut out), accepted(6));
    assert_eq!((&out[..64], &out[64..]), (&PACKED_P1[..], &[9; 12][..]));
    assert_eq!(translate(&P1, true, &mut out[..64]), accepted(6));
}

#[test]
fn the_largest_packed_program_of_a_book() {
    // 52 bytes for each of 1,023 implications, 6 for each of 256 roots, 8 for each of 128 pairs.
    let largest = implications(Node::Atom(0), 256, 128);
    let (rules, program) = packed(&largest);
    assert_eq!((rules, program.len()), (6522, 55_772));
    assert_eq!(check_program(&program), accepted(1));
    let mut out = vec![9; 55_771];
    assert_eq!(translate(&largest, true, &mut out), refused(8, 55_772));
    assert!(out.iter().all(|&byte| byte == 9));
}

#[test]
fn the_largest_packed_program() {
    let rules = vec![Rule::new(&[3071; 8], &[], &[]); 6528];
    let mut program = Program { atoms: 1024, all: 3072, rules };
    assert_eq!(program.packed().len(), 16 + 20 * 6528);
    assert_eq!(check_program(&program.packed()), accepted(1));
    program.rules.push(Rule::default());
    assert_eq!(check_program(&program.packed()), refused(22, 0));
}

#[test]
fn header_of_a_packed_program() {
    assert_eq!(refusal(&PACKED_P1[..15]), refused(21, 0));
    assert_eq!(with(&[(2, 0)]), refused(22, 0));
    assert_eq!(with(&[(5, 0x20)]), refused(22, 0));
    // 2, 256, 257 and 65,535.
    for form in [[2, 0], [0, 1], [1, 1], [255, 255]] {
        assert_eq!(with(&[(6, form[0]), (7, form[1])]), refused(23, 0));
    }
    // 76 bytes are wanted of the fixed form.
    assert_eq!(with(&[(6, 0)]), refused(24, 0));
    assert_eq!(with(&[(8, 15)]), refused(24, 0));
    assert_eq!(with(&[(11, 1)]), refused(24, 0));
    assert_eq!(with(&[(12, 0)]), refused(24, 0));
    assert_eq!(with(&[(12, 15)]), refused(24, 0));
    assert_eq!(with(&[(12, 16)]), refused(25, 16));
    assert_eq!(with(&[(12, 63)]), refused(25, 63));
    assert_eq!(with(&[(13, 1)]), refused(25, 320));
    assert_eq!(with(&[(12, 255), (13, 255), (14, 255), (15, 255)]), refused(25, 4_294_967_295));
    assert_eq!(refusal(&PACKED_P1[..63]), refused(25, 64));
    assert_eq!(refusal(&[&PACKED_P1[..], &[0]].concat()), refused(25, 64));
}

#[test]
fn rows_of_a_packed_program_in_order() {
    let (rule, total, below, offset, form, limit) = ((19, 1), (12, 65), (12, 15), (8, 17), (6, 2), (2, 0));
    assert_eq!(with(&[rule]), refused(26, 0));
    assert_eq!(with(&[rule, total]), refused(25, 65));
    assert_eq!(with(&[rule, total, offset]), refused(24, 0));
    assert_eq!(with(&[rule, below]), refused(24, 0));
    assert_eq!(with(&[rule, below, form]), refused(23, 0));
    assert_eq!(with(&[rule, total, form]), refused(23, 0));
    assert_eq!(with(&[rule, below, form, limit]), refused(22, 0));
}

#[test]
fn malformed_packed_rules() {
    // The zero byte of the first and the last rule.
    assert_eq!(with(&[(19, 1)]), refused(26, 0));
    assert_eq!(with(&[(61, 255)]), refused(26, 5));
    // Atom 3 in the first slot, the last slot of a rule, and the last of all; 256 + 1.
    assert_eq!(with(&[(20, 3)]), refused(26, 0));
    assert_eq!(with(&[(56, 3)]), refused(26, 4));
    assert_eq!(with(&[(62, 3)]), refused(26, 5));
    assert_eq!(with(&[(29, 1)]), refused(26, 1));
    // The first of two.
    assert_eq!(with(&[(62, 3), (29, 1)]), refused(26, 1));
    // Counts of which a byte cannot hold the sum, which would be 0, 44, 253 and 2.
    for [heads, positives, negatives] in [[255, 1, 0], [200, 100, 0], [255, 255, 255], [86, 86, 86]] {
        assert_eq!(with(&[(24, heads), (25, positives), (26, negatives)]), refused(26, 1));
    }
}

#[test]
fn eight_literals_and_nine() {
    for counts in [[8, 0, 0], [0, 8, 0], [0, 0, 8], [3, 3, 2], [1, 6, 1]] {
        let rule =
            |more: u8| [&[counts[0], counts[1], counts[2] + more, 0][..], &[0; 18][..16 + 2 * more as usize]].concat();
        assert_eq!(check_program(&section(1, &rule(0))), accepted(1));
        assert_eq!(refusal(&section(1, &rule(1))), refused(26, 0));
        // Eight by their counts, with the bytes of nine or of less.
        assert_eq!(refusal(&section(1, &[&rule(0)[..], &[0, 0]].concat())), refused(26, 1));
        assert_eq!(refusal(&section(1, &rule(0)[..19])), refused(26, 0));
    }
    // The fixed form has three slots still.
    for literals in 4..=8 {
        let rules = vec![Rule::default(), Rule::new(&[], &vec![0; literals], &[])];
        assert_eq!(refusal(&Program { atoms: 1, all: 1, rules }.image()), refused(26, 1));
    }
}

#[test]
fn where_packed_rules_end() {
    let two = [1, 1, 0, 0, 2, 0, 1, 0, 1, 0, 0, 0, 0, 0];
    assert_eq!(check_program(&section(2, &two)), accepted(1));
    // A rule that ends with the image does not run past its end; cut anywhere it does.
    for length in 8..14 {
        assert_eq!(refusal(&section(2, &two[..length])), refused(26, 1), "{length}");
    }
    for length in 0..8 {
        assert_eq!(refusal(&section(2, &two[..length])), refused(26, 0), "{length}");
    }
    // A rule more than there are, and rules or bytes left over.
    assert_eq!(refusal(&section(3, &two)), refused(26, 2));
    assert_eq!(refusal(&section(1, &two)), refused(26, 1));
    assert_eq!(refusal(&section(0, &two)), refused(26, 0));
    assert_eq!(refusal(&section(0, &[0])), refused(26, 0));
    assert_eq!(refusal(&section(2, &[&two[..], &[0]].concat())), refused(26, 2));
    assert_eq!(refusal(&section(2, &[&two[..], &[0; 4]].concat())), refused(26, 2));
    // A rule that is wrong goes before bytes that are left.
    assert_eq!(refusal(&section(2, &[&two[..12], &[3, 0, 0]].concat())), refused(26, 1));
    assert_eq!(check_program(&section(0, &[])), accepted(1));
    assert_eq!(refusal(&section(1, &[])), refused(26, 0));
}

#[test]
fn values_of_a_rule_of_eight() {
    // Two heads, three positives and three negatives over eight atoms, and other splits.
    for [heads, positives, negatives] in [[2, 3, 3], [8, 0, 0], [0, 8, 0], [0, 0, 8], [1, 7, 0], [3, 0, 5], [7, 1, 0]] {
        let atoms = |from: usize, count: usize| (from..from + count).collect::<Vec<usize>>();
        let rule = Rule {
            heads: atoms(0, heads),
            positives: atoms(heads, positives),
            negatives: atoms(heads + positives, negatives),
        };
        let program = Program { atoms: 0, all: 8, rules: vec![rule] };
        let image = program.packed();
        for number in 0..3usize.pow(8) {
            let reading: Vec<u8> = (0..8).map(|at| (number / 3usize.pow(at) % 3) as u8).collect();
            let head = reading[..heads].iter().copied().max().unwrap_or(0);
            let positive = reading[heads..heads + positives].iter().copied().min().unwrap_or(2);
            let negated = reading[heads + positives..].iter().all(|&byte| byte == 0);
            let body = if negated { positive } else { 0 };
            assert_eq!(evaluate_program(&image, &reading), accepted(usize::from(body <= head)));
            let (here, there) = lists::worlds(&reading);
            assert_eq!(program.satisfied(&here, &there), body <= head);
        }
    }
}

#[test]
fn answer_sets_of_rules_of_eight() {
    // One of eight, and not the first one.
    let program = Program {
        atoms: 0,
        all: 8,
        rules: vec![Rule::new(&[0, 1, 2, 3, 4, 5, 6, 7], &[], &[]), Rule::new(&[], &[0], &[1, 2, 3, 4, 5, 6, 7])],
    };
    let image = program.packed();
    for set in 0..256u32 {
        let found = usize::from(set.count_ones() == 1 && set != 1);
        assert_eq!(test_program(&image, &lists::reading(set, set, 8)), accepted(found), "{set}");
    }
}
