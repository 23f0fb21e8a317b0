//! Damage done on purpose: each function breaks one row of the refusal table and gives the place that the row then has.
//!
//! Where several rows are to be broken in one image, the rows that change its length come last, and row 1 or 21 after
//! all others.

use crate::generate::growth::{Growth, Style, NO_LIMIT};
use crate::lists::{get2, get4, Book, Pair};
use crate::node::Node;
use crate::random::Random;

/// Writes a 2-byte number at `at`.
pub fn set2(image: &mut [u8], at: usize, number: usize) {
    image[at..at + 2].copy_from_slice(&(number as u16).to_le_bytes());
}

/// Writes a 4-byte number at `at`.
pub fn set4(image: &mut [u8], at: usize, number: usize) {
    image[at..at + 4].copy_from_slice(&(number as u32).to_le_bytes());
}

/// A 2-byte number that is at least `low`, often only just.
fn at_least(random: &mut Random, low: usize) -> usize {
    match random.below(4) {
        0 | 1 => low,
        2 => random.within(low, (low + 3).min(65535)),
        _ => random.within(low, 65535),
    }
}

/// A byte that is at least `low`, often just that.
fn byte(random: &mut Random, low: usize) -> u8 {
    let high = random.pick(&[low, 255]);
    random.within(low, high) as u8
}

/// A 4-byte header field set to something else, rows 4 and 24.
fn field(random: &mut Random, image: &mut [u8], at: usize) {
    let old = get4(image, at) as u32;
    let new = match random.below(4) {
        0 => old.wrapping_add(1),
        1 => old.wrapping_sub(1),
        2 => old ^ 1 << random.below(32),
        _ => old.wrapping_add(random.within(1, 1 << 20) as u32),
    };
    set4(image, at, new as usize);
}

/// An image too long or too short, though not shorter than its header, rows 5 and 25.
fn length(random: &mut Random, image: &mut Vec<u8>) -> usize {
    let wanted = image.len();
    if wanted > 16 && random.chance(50) {
        let cut = random.within(1, (wanted - 16).min(12));
        image.truncate(wanted - cut);
    } else {
        let more = random.within(1, 12);
        image.resize(wanted + more, random.below(256) as u8);
    }
    wanted
}

/// An image shorter than its header, rows 1 and 21.
fn stump(random: &mut Random, image: &mut Vec<u8>) {
    let left = random.pick(&[0, 1, 7, 14, 15, 15]);
    image.truncate(left);
}

/// The rows of a theory image in the order in which damage must be done.
pub const THEORY_ORDER: [u32; 7] = [15, 7, 6, 4, 2, 5, 1];

/// Row 13, which is broken before there is an image: puts a node that nothing uses anywhere into a book in which every
/// node is used. In some books that node is the only one that uses another, which is put in too.
pub fn unused(random: &mut Random, book: &mut Book) -> usize {
    let own = random.within(0, book.nodes.len());
    let style = Style::any(random, book.atoms);
    let mut before = Growth { nodes: book.nodes[..own].to_vec(), ..Growth::default() };
    before.grow(random, &style, own + 1, NO_LIMIT);
    book.insert(own, before.nodes[own]);
    if random.chance(70) {
        return own;
    }
    let user = random.within(own + 1, book.nodes.len());
    let other = random.below(user);
    let kinds = [Node::Not(own), Node::And(own, other), Node::Or(other, own), Node::Implies(own, own)];
    book.insert(user, random.pick(&kinds));
    user
}

/// Breaks one of these rows. The image is valid up to other damage, with at least one node and one root, and for row 15
/// one pair.
pub fn theory(random: &mut Random, image: &mut Vec<u8>, row: u32) -> usize {
    let (nodes, roots) = (get2(image, 2), get2(image, 4));
    match row {
        1 => stump(random, image),
        2 => {
            let (at, low) = random.pick(&[(0, 1025), (2, 1025), (4, 257), (6, 129)]);
            set2(image, at, at_least(random, low));
        }
        4 => {
            let at = random.pick(&[8, 12]);
            field(random, image, at);
        }
        5 => return length(random, image),
        6 => {
            let (own, kind) = (random.below(nodes), random.below(7));
            let wrong = 1 << random.below(4) | 1 << random.below(4);
            return node(random, image, own, kind, wrong);
        }
        7 => {
            let own = random.below(roots);
            set2(image, 16 + 6 * nodes + 2 * own, at_least(random, nodes));
            return own;
        }
        15 => {
            let own = random.below(get2(image, 6));
            let bad = bad_pairs(random, get2(image, 0));
            pair(image, own, random.pick(&bad));
            return own;
        }
        _ => panic!("no row {row} of a theory"),
    }
    0
}

/// How many numbers, from 0 up, the left and the right of a node can be.
fn operands(kind: usize, own: usize, atoms: usize) -> [usize; 2] {
    match kind {
        0 | 1 => [1, 1],
        2 => [atoms, 1],
        3 => [own, 1],
        _ => [own, own],
    }
}

/// Makes the node `own` one of kind `kind` with wrong fields, whatever it was before. Bit 0 of `wrong` stands for the
/// kind, bit 1 for the zero byte, bit 2 for left and bit 3 for right; a field that cannot be right is wrong anyway.
pub fn node(random: &mut Random, image: &mut [u8], own: usize, kind: usize, mut wrong: usize) -> usize {
    let at = 16 + 6 * own;
    image[at] = if wrong & 1 != 0 { byte(random, 7) } else { kind as u8 };
    image[at + 1] = if wrong & 2 != 0 { byte(random, 1) } else { 0 };
    for (side, count) in operands(kind, own, get2(image, 0)).into_iter().enumerate() {
        let bit = 4 << side;
        if count == 0 {
            wrong |= bit;
        }
        let number = if wrong & bit != 0 { at_least(random, count) } else { random.below(count) };
        set2(image, at + 2 + 2 * side, number);
    }
    8 * own + wrong.trailing_zeros() as usize
}

/// A pair for each way of being bad where there are so many atoms, two at least: one atom twice, the larger first, the
/// second not below A, neither of them, the first not.
pub fn bad_pairs(random: &mut Random, atoms: usize) -> [Pair; 8] {
    let low = random.below(atoms - 1);
    let high = random.within(low + 1, atoms - 1);
    let over = at_least(random, atoms + 1);
    [(low, low), (high, high), (high, low), (low, atoms), (high, over), (atoms, over), (atoms, low), (over, high)]
}

/// Puts these two atoms into the pair `own`.
pub fn pair(image: &mut [u8], own: usize, (first, second): Pair) {
    let at = 16 + 6 * get2(image, 2) + 2 * get2(image, 4) + 4 * own;
    set2(image, at, first);
    set2(image, at + 2, second);
}

/// The rows of a program image in the order in which damage must be done.
pub const PROGRAM_ORDER: [u32; 6] = [26, 24, 23, 22, 25, 21];

/// Whether an image is in the packed form.
fn packed(image: &[u8]) -> bool {
    get2(image, 6) == 1
}

/// Where each rule of a valid program image starts.
pub fn starts(image: &[u8]) -> Vec<usize> {
    let next = |&at: &usize| Some(at + if packed(image) { 4 + 2 * literals(image, at) } else { 10 });
    std::iter::successors(Some(16), next).take(get2(image, 4)).collect()
}

/// The sum of the three counts of a rule.
fn literals(image: &[u8], at: usize) -> usize {
    image[at..at + 3].iter().map(|&count| usize::from(count)).sum()
}

/// Breaks one of rows 21 to 26. The image is valid up to other damage, with at least one rule, and its rules started at
/// `starts` before there was any.
pub fn program(random: &mut Random, image: &mut Vec<u8>, starts: &[usize], row: u32) -> usize {
    let atoms = get2(image, 0);
    match row {
        21 => stump(random, image),
        22 => match random.below(4) {
            0 => set2(image, 0, at_least(random, 1025)),
            1 => set2(image, 2, at_least(random, 3073)),
            2 if atoms > 0 => set2(image, 2, random.below(atoms)),
            _ => set2(image, 4, at_least(random, 6529)),
        },
        23 => {
            let form = random.pick(&[2, 3, 128, 255, 256, 257, 258, 32768, 65535]);
            set2(image, 6, form);
        }
        24 => match (packed(image), random.below(2)) {
            (false, 1) => field(random, image, 12),
            (true, 1) => set4(image, 12, random.below(16)),
            _ => field(random, image, 8),
        },
        // The total of a packed image can be anything that is not too small.
        25 if packed(image) && get4(image, 12) == image.len() && random.chance(50) => {
            let length = image.len();
            let total =
                random.pick(&[16, length - 1, length + 1, length + 2, length + 10, length + 65536, 0xFFFF_FFFF]);
            set4(image, 12, total);
            return total;
        }
        25 => return length(random, image),
        26 => {
            let own = random.below(starts.len());
            rule(random, image, starts[own]);
            return own;
        }
        _ => panic!("no row {row} of a program"),
    }
    0
}

/// Counts whose sum is over 3, and among them sums that a byte cannot hold.
const OVER_THREE: [[u8; 3]; 11] = [
    [4, 0, 0],
    [0, 4, 0],
    [0, 0, 4],
    [2, 1, 1],
    [1, 2, 1],
    [1, 1, 2],
    [255, 1, 0],
    [128, 128, 0],
    [0, 254, 2],
    [255, 255, 255],
    [85, 86, 85],
];

/// The same for 8.
pub const OVER_EIGHT: [[u8; 3]; 15] = [
    [9, 0, 0],
    [0, 9, 0],
    [0, 0, 9],
    [3, 3, 3],
    [8, 1, 0],
    [0, 8, 1],
    [1, 0, 8],
    [255, 1, 0],
    [128, 128, 0],
    [0, 254, 2],
    [200, 100, 0],
    [255, 255, 255],
    [85, 86, 85],
    [86, 86, 86],
    [1, 255, 3],
];

/// Breaks the rule that starts at `at` in one of the ways in which a rule can be wrong.
fn rule(random: &mut Random, image: &mut [u8], at: usize) {
    let (all, packed, used) = (get2(image, 2), packed(image), literals(image, at));
    // Not if it was broken before so that it has other slots.
    let (used_up, whole) = match packed {
        true => (at + 4 + 2 * used == image.len(), used <= 8 && at + 4 + 2 * used <= image.len()),
        false => (false, used <= 3),
    };
    match random.below(4) {
        0 => {
            let counts = if packed { random.pick(&OVER_EIGHT) } else { random.pick(&OVER_THREE) };
            image[at..at + 3].copy_from_slice(&counts);
            if !packed && random.chance(50) {
                image[at + 4..at + 10].fill(0);
            }
        }
        1 if whole && used > 0 => {
            let slot = random.below(used);
            set2(image, at + 4 + 2 * slot, at_least(random, all));
        }
        2 if !packed && used < 3 => {
            let slot = random.within(used, 2);
            set2(image, at + 4 + 2 * slot, random.within(1, 65535));
        }
        // The last rule has a literal more than there are bytes for.
        2 if used_up && used < 8 => image[at + random.below(3)] += 1,
        _ => image[at + 3] = random.within(1, 255) as u8,
    }
}

/// Row 9: `good` cut or stretched.
pub fn reading_length(random: &mut Random, good: &mut Vec<u8>) -> usize {
    let wanted = good.len();
    if wanted > 0 && random.chance(50) {
        let left = random.pick(&[0, wanted / 2, wanted - 1]);
        good.truncate(left);
    } else {
        let more = random.within(1, 3);
        good.resize(wanted + more, 0);
    }
    wanted
}

/// Row 10: one byte that an interpretation, or a candidate, may not have. There is at least one byte.
pub fn reading_byte(random: &mut Random, good: &mut [u8], candidate: bool) -> usize {
    let at = random.below(good.len());
    good[at] = match random.below(3) {
        0 if candidate => 1,
        1 => random.within(3, 255) as u8,
        _ => 3,
    };
    at
}

#[cfg(test)]
mod tests {
    use super::*;
    use crate::generate;

    #[test]
    fn the_node_that_is_not_used() {
        let random = &mut Random::new(1);
        let mut users = 0;
        for nodes in (0..12).cycle().take(300) {
            let mut book = generate::book(random, 2, nodes, 3, 1);
            assert_eq!(book.unused(), None);
            let own = unused(random, &mut book);
            assert_eq!(book.unused(), Some(own));
            // Once it is used, every node is.
            book.roots.push(own);
            assert_eq!(book.unused(), None);
            users += book.nodes.len() - nodes - 1;
        }
        assert!((50..150).contains(&users), "{users}");
    }
}
