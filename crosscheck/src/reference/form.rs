/// What the two forms of a program image differ in. Code that is made for one of them has its numbers as constants.
pub trait Form {
    const PACKED: bool;
    /// The most literals that a rule has.
    const MOST: usize;

    /// The bytes of so many rules that have so many literals in all.
    fn length(rules: usize, literals: usize) -> usize;
}

/// Every rule has three slots.
pub struct Fixed;

/// A rule has the slots that it uses.
pub struct Packed;

impl Form for Fixed {
    const PACKED: bool = false;
    const MOST: usize = 3;

    fn length(rules: usize, _: usize) -> usize {
        10 * rules
    }
}

impl Form for Packed {
    const PACKED: bool = true;
    const MOST: usize = 8;

    fn length(rules: usize, literals: usize) -> usize {
        4 * rules + 2 * literals
    }
}
