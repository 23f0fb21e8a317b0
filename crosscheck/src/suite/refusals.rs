//! Both sides of every limit, and images and arguments that are refused.

use super::{demand, Suite};
use crate::calls::Call;
use crate::compare::Checked;
use crate::lists::{get2, Book, Program, Rule};
use crate::node::Node;
use crate::random::Random;
use crate::{damage, generate};

impl Suite<'_> {
    /// Both sides of every limit, and the corners of the tables.
    pub fn limits(&mut self) -> Checked<()> {
        self.theory_limits()?;
        self.candidate_limits()?;
        self.listing_limits()?;
        self.label_limits()?;
        self.program_limits()?;
        // Counts whose sum is over 3 and would not be in a byte.
        for counts in [[255, 1, 0], [128, 128, 0], [0, 254, 2], [85, 86, 85], [1, 255, 3]] {
            let mut image = Program { atoms: 1, all: 1, rules: vec![Rule::default(); 2] }.image();
            image[26..29].copy_from_slice(&counts);
            self.comparer.expect(Call::CheckProgram, &image, &[], 0, 26, Some(1))?;
        }
        for truths in [15, 16, 17] {
            let (program, set) = generate::fact_program(&mut self.random, 3072, 300, truths);
            let (number, place) = if truths > 16 { (11, truths) } else { (0, 0) };
            for image in program.images() {
                self.comparer.expect(Call::TestProgram, &image, &set, 0, number, Some(place))?;
            }
        }
        Ok(())
    }

    fn theory_limits(&mut self) -> Checked<()> {
        let leaves = |count: usize| vec![Node::Atom(0); count];
        // An atom, its negation, the negation of that and so on.
        let negations = |count: usize| {
            let nodes = (0..count).map(|own| own.checked_sub(1).map_or(Node::Atom(0), Node::Not));
            nodes.collect::<Vec<Node>>()
        };
        let theories = [
            (1024, leaves(1), vec![0], 0, 0),
            (1025, leaves(1), vec![0], 2, 0),
            (1, negations(1024), vec![1023], 0, 0),
            (1, negations(1025), vec![1024], 2, 0),
            (1, leaves(1), vec![0; 256], 0, 0),
            (1, leaves(1), vec![0; 257], 2, 0),
            (1, leaves(256), (0..256).collect(), 0, 0),
            (1, leaves(257), (0..256).collect(), 13, 256),
            (1, leaves(257), (1..257).collect(), 13, 0),
            (1024, negations(1024), vec![1023; 256], 0, 0),
            (1024, leaves(1024), vec![1023; 256], 13, 0),
            (0, vec![], vec![0], 7, 0),
            (0, leaves(1), vec![], 6, 2),
            (1, vec![Node::Atom(0), Node::Not(1)], vec![], 6, 10),
            (1, vec![Node::Not(0)], vec![], 6, 2),
            (1, leaves(2), vec![1, 1, 2, 0], 7, 2),
        ];
        for (atoms, nodes, roots, number, place) in theories {
            let book = Book::new(atoms, nodes, roots);
            self.comparer.expect(Call::CheckTheory, &book.image(), &[], 0, number, Some(place))?;
            if number == 0 {
                self.with_random_arguments(&book, 3, 4, true)?;
            }
        }
        Ok(())
    }

    fn candidate_limits(&mut self) -> Checked<()> {
        for truths in [0, 1, 15, 16, 17, 18, 1024] {
            let book = Book::new(1024, vec![Node::Atom(0)], vec![0]);
            let candidate: Vec<u8> = (0..1024).map(|atom| if atom < truths { 2 } else { 0 }).collect();
            self.book(&book, &[], &[candidate], true)?;
        }
        Ok(())
    }

    fn listing_limits(&mut self) -> Checked<()> {
        for atoms in [11, 12, 13] {
            self.with_random_arguments(&Book { atoms, ..Book::default() }, 1, 2, true)?;
        }
        let book = generate::free(Book { atoms: 12, ..Book::default() });
        self.listing(&book, &book.image())
    }

    /// The most labels: none for the first node, which can only be a leaf, and two for each other one.
    fn label_limits(&mut self) -> Checked<()> {
        for first in [Node::False, Node::True, Node::Atom(0), Node::Atom(1023)] {
            for (roots, pairs) in [(1, 0), (256, 0), (256, 128)] {
                let mut book = generate::longest(&mut self.random, 1024, 1024, roots, pairs);
                book.nodes[0] = first;
                self.with_random_arguments(&book, 3, 4, true)?;
                let all = 1024 + 2 * 1023;
                self.comparer.expect(Call::Extend, &book.image(), &[1; 1024], all - 1, 8, Some(all))?;
            }
        }
        for first in [Node::Not(0), Node::And(0, 0), Node::Or(0, 0), Node::Implies(0, 0)] {
            let mut book = generate::longest(&mut self.random, 1024, 1024, 256, 128);
            book.nodes[0] = first;
            for call in [Call::CheckTheory, Call::Translate, Call::TranslatePacked, Call::Extend] {
                self.comparer.expect(call, &book.image(), &[1; 1024], 0, 6, Some(2))?;
            }
        }
        Ok(())
    }

    fn program_limits(&mut self) -> Checked<()> {
        let fact = |atom: usize| Rule::new(&[atom], &[], &[]);
        let empty = Rule::default();
        let programs = [
            (1024, 1024, vec![fact(1023)], 0, 0),
            (1025, 1025, vec![fact(1023)], 22, 0),
            (1024, 3072, vec![fact(3071)], 0, 0),
            (1024, 3073, vec![fact(3071)], 22, 0),
            (1024, 1023, vec![], 22, 0),
            (0, 1, vec![fact(0); 6528], 0, 0),
            (0, 1, vec![fact(0); 6529], 22, 0),
            (1024, 3072, vec![fact(3071); 6528], 0, 0),
            (0, 0, vec![], 0, 0),
            (0, 0, vec![empty.clone(); 3], 0, 0),
            (0, 0, vec![empty, fact(0)], 26, 1),
            (1, 2, vec![fact(1), fact(0), fact(2), fact(3)], 26, 2),
        ];
        for (atoms, all, rules, number, place) in programs {
            let program = Program { atoms, all, rules };
            for image in program.images() {
                self.comparer.expect(Call::CheckProgram, &image, &[], 0, number, Some(place))?;
            }
            if number == 0 {
                self.program(&program, 3)?;
            }
        }
        Ok(())
    }

    /// Every choice of wrong fields in a node of each kind: the first node, one in the middle and the last.
    pub fn broken_nodes(&mut self) -> Checked<()> {
        for (atoms, nodes) in [(0, 3), (1024, 1024)] {
            let image = generate::book(&mut self.random, atoms, nodes, 2, 2).image();
            self.yes(Call::CheckTheory, &image, &[])?;
            for own in [0, nodes / 2, nodes - 1] {
                self.broken_node(&image, own)?;
            }
        }
        Ok(())
    }

    fn broken_node(&mut self, good: &[u8], own: usize) -> Checked<()> {
        let last = get2(good, 2) - 1;
        for kind in 0..=6 {
            for wrong in 1..16 {
                let mut image = good.to_vec();
                let place = damage::node(&mut self.random, &mut image, own, kind, wrong);
                self.refused(&image, 6, place)?;
                // A later node changes nothing, though its first field is wrong.
                if own < last {
                    damage::node(&mut self.random, &mut image, last, kind, 1);
                    self.refused(&image, 6, place)?;
                }
            }
        }
        Ok(())
    }

    /// Every call that takes this image, a program if the row is one of a program, refuses it by this row with this
    /// place, whatever else it is given: a good interpretation, one too long, one of wrong bytes, a candidate of all
    /// atoms, no room and much room.
    pub(super) fn refused(&mut self, image: &[u8], number: u32, place: usize) -> Checked<()> {
        let on_program = number > 20;
        let atoms = atoms_of(image, on_program);
        let readings = [vec![0; atoms], vec![0; atoms + 1], vec![3; atoms], vec![2; atoms]];
        for call in Call::ALL.into_iter().filter(|call| call.on_program() == on_program) {
            let readings = if call.reads() { &readings[..] } else { &readings[..1] };
            let rooms = if call.writes() { &[0, 4096][..] } else { &[0] };
            for (reading, &room) in readings.iter().flat_map(|reading| rooms.iter().map(move |room| (reading, room))) {
                self.comparer.expect(call, image, reading, room, number, Some(place))?;
            }
        }
        Ok(())
    }

    /// For each call, every row that it has and every two of its rows broken at once: the earlier row must win.
    pub fn damaged(&mut self, times: usize) -> Checked<()> {
        for call in Call::ALL {
            let rows = call.rows();
            for (index, &row) in rows.iter().enumerate() {
                for &later in &rows[index..] {
                    for _ in 0..times {
                        self.damaged_once(call, row, later)?;
                    }
                }
            }
        }
        Ok(())
    }

    fn damaged_once(&mut self, call: Call, row: u32, later: u32) -> Checked<()> {
        let random = &mut self.random;
        let twice = row == later && random.chance(30);
        let mut broken = Broken { row, later, twice, large: random.chance(3), place: None };
        let (image, atoms, needed) = match call.on_program() {
            true => broken.program(random),
            false => broken.theory(random, call),
        };
        let reading = broken.reading(random, call, atoms);
        let mut room = needed + random.below(20);
        if broken.has(8) {
            room = random.pick(&[0, needed - 1]);
            broken.note(8, needed);
        }
        self.comparer.expect(call, &image, &reading, room, row, broken.place)?;
        Ok(())
    }

    /// Valid images with a few bytes changed at random, so that nobody knows beforehand what is wrong with them.
    pub fn mutated(&mut self, times: usize) -> Checked<()> {
        for _ in 0..times {
            let random = &mut self.random;
            let on_program = random.chance(40);
            let mut image = if on_program {
                let (all, rules) = (random.below(9), random.below(7));
                any_program(random, all / 2, all, rules)
            } else {
                let (atoms, nodes, roots, pairs) = (random.below(6), random.below(9), random.below(4), random.below(4));
                self.any_book(atoms, nodes, roots, pairs).image()
            };
            let random = &mut self.random;
            for _ in 0..random.within(1, 3) {
                mutate(random, &mut image);
            }
            let atoms = atoms_of(&image, on_program);
            for call in Call::ALL.into_iter().filter(|call| call.on_program() == on_program) {
                let random = &mut self.random;
                let reading = match call.tests() || random.chance(20) {
                    true => generate::candidate(random, atoms.min(3100), 5),
                    false => generate::reading(random, atoms.min(3100)),
                };
                let room = random.below(300);
                let answer = self.comparer.call(call, &image, &reading, room)?;
                if call == Call::CheckProgram && answer.number == 0 {
                    demand(rewritten(&image) == image, call, &image, || "read and written it differs".into())?;
                }
            }
        }
        Ok(())
    }
}

/// Arguments in which two rows are to be broken, which may be the same one.
struct Broken {
    row: u32,
    later: u32,
    /// Whether one row is broken in two places, of which the first counts.
    twice: bool,
    large: bool,
    /// The place that the earlier row has by now.
    place: Option<usize>,
}

impl Broken {
    fn has(&self, row: u32) -> bool {
        row == self.row || row == self.later
    }

    fn note(&mut self, row: u32, at: usize) {
        if row == self.row {
            // A node that was broken before is broken anew, in other fields.
            let before = self.place.filter(|before| row != 6 || before / 8 != at / 8);
            self.place = Some(before.map_or(at, |before| before.min(at)));
        }
    }

    /// Breaks a row as often as it is to be.
    fn damage(&mut self, row: u32, mut damage: impl FnMut() -> usize) {
        let several_places = matches!(row, 6 | 7 | 10 | 15 | 26);
        for _ in 0..1 + usize::from(self.twice && several_places) {
            self.note(row, damage());
        }
    }

    /// A program image, with its number of atoms and the room that is needed, which is none.
    fn program(&mut self, random: &mut Random) -> (Vec<u8>, usize, usize) {
        let low = if self.has(11) { 20 } else { 1 };
        let all = random.within(low, if self.large { 3072 } else { low + 20 });
        let given = random.below(all.min(1024) + 1);
        let rules = random.within(1, if self.large { 6528 } else { 8 });
        let mut image = any_program(random, given, all, rules);
        let starts = damage::starts(&image);
        for row in damage::PROGRAM_ORDER {
            if self.has(row) {
                self.damage(row, || damage::program(random, &mut image, &starts, row));
            }
        }
        (image, all, 0)
    }

    /// A book in which no row is broken but 13, if that one is to be.
    fn book(&mut self, random: &mut Random, call: Call) -> Book {
        // Row 15 needs a pair, and that two atoms.
        let fewest = usize::from(self.has(15));
        let atoms = match call {
            Call::ListSets if self.has(11) => random.within(13, 40),
            Call::ListSets => random.within(1 + fewest, 4),
            _ if self.has(11) => random.within(20, 60),
            _ => random.within(1 + fewest, if self.large { 1024 } else { 20 }),
        };
        // Row 13 adds two nodes at most.
        let most = if self.has(13) { 1022 } else { 1024 };
        let (nodes, roots, pairs) = match self.large {
            true => (random.within(1, most), random.within(1, 256), random.within(fewest, 128)),
            false => (random.within(1, 12), random.within(1, 5), random.within(fewest, 4)),
        };
        let mut book = match call {
            Call::ListSets => one_set(random, atoms, nodes, roots, pairs),
            _ => generate::book(random, atoms, nodes, roots, pairs),
        };
        if self.has(13) {
            self.note(13, damage::unused(random, &mut book));
        }
        book
    }

    /// A theory image, with its number of atoms and the room that the call needs.
    fn theory(&mut self, random: &mut Random, call: Call) -> (Vec<u8>, usize, usize) {
        let book = self.book(random, call);
        let needed = match call {
            Call::Translate => book.flat().image().len(),
            Call::TranslatePacked => book.flat().packed().len(),
            Call::Extend => book.flat().all,
            _ => 2,
        };
        let mut image = book.image();
        for row in damage::THEORY_ORDER {
            if self.has(row) {
                self.damage(row, || damage::theory(random, &mut image, row));
            }
        }
        if call == Call::ListSets {
            self.note(11, book.atoms);
        }
        (image, book.atoms, needed)
    }

    /// An interpretation, or where the call tests one, a candidate.
    fn reading(&mut self, random: &mut Random, call: Call, atoms: usize) -> Vec<u8> {
        let mut reading = match call.tests() {
            true => generate::candidate(random, atoms, 6),
            false => generate::reading(random, atoms),
        };
        if call.tests() && self.has(11) {
            let truths = random.within(17, atoms);
            reading = (0..atoms).map(|atom| if atom < truths { 2 } else { 0 }).collect();
            self.note(11, truths);
        }
        if self.has(9) {
            self.note(9, damage::reading_length(random, &mut reading));
        }
        if self.has(10) {
            // A wrong byte needs room: where all was cut off, the length is wrong the other way.
            if reading.is_empty() {
                reading.resize(atoms + 1, 0);
            }
            self.damage(10, || damage::reading_byte(random, &mut reading, call.tests()));
        }
        reading
    }
}

/// How many atoms an image has by its header, where it has that much of one.
fn atoms_of(image: &[u8], on_program: bool) -> usize {
    let at = if on_program { 2 } else { 0 };
    image.get(at..at + 2).map_or(0, |bytes| get2(bytes, 0))
}

/// What is written in the form of an image for the rules that it is read as.
fn rewritten(image: &[u8]) -> Vec<u8> {
    let program = Program::read(image);
    match get2(image, 6) {
        0 => program.image(),
        _ => program.packed(),
    }
}

/// The image of a random program of these sizes, in either form.
fn any_program(random: &mut Random, atoms: usize, all: usize, rules: usize) -> Vec<u8> {
    match random.chance(50) {
        true => generate::program(random, atoms, all, rules, 8).packed(),
        false => generate::program(random, atoms, all, rules, 3).image(),
    }
}

/// A book whose one answer set is empty. All its roots are the same one.
fn one_set(random: &mut Random, atoms: usize, nodes: usize, roots: usize, pairs: usize) -> Book {
    let (book, _) = generate::facts(random, atoms, nodes, 0, pairs);
    Book { roots: vec![book.roots[0]; roots], ..book }
}

/// One small change to an image.
fn mutate(random: &mut Random, image: &mut Vec<u8>) {
    let length = image.len();
    match random.below(12) {
        0 => image.truncate(random.below(length + 1)),
        1 => image.push(random.below(256) as u8),
        _ if length == 0 => {}
        kind => {
            let at = random.below(if kind < 5 { length.min(16) } else { length });
            image[at] = match random.below(4) {
                0 => image[at].wrapping_add(1),
                1 => image[at].wrapping_sub(1),
                2 => image[at] ^ 1 << random.below(8),
                _ => random.below(8) as u8,
            };
        }
    }
}
