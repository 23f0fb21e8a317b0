/// A node of a book; operands are numbers of earlier nodes. The reference and the lists share this type, which computes
/// nothing, and no other code.
#[derive(Clone, Copy, Debug, PartialEq, Eq)]
pub enum Node {
    False,
    True,
    Atom(usize),
    Not(usize),
    And(usize, usize),
    Or(usize, usize),
    Implies(usize, usize),
}
