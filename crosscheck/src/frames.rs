//! A bound on the stack of each public call, read off the compiled code, so that it hangs on no run and no input.
//!
//! It counts from `%rsp` right before the call: the return address of the call itself, and along the deepest path every
//! frame, the return addresses between them and what a function uses below `%rsp`. Of a function that is not in the
//! archive only the return address is counted.
//!
//! Painting, in [`crate::stack`], counts from a byte in a frame of the measuring program to the deepest byte that a run
//! changed. So its figure has the frames between that byte and the call in it too: built by Rust 1.63 these are 127
//! bytes, and 143 for `extend`, which takes an argument on the stack. Without them it is at most the bound, unless a
//! function outside of the archive goes deeper.

mod flow;
mod listing;

use crate::calls::Call;
use listing::Listing;
use std::collections::BTreeSet;
use std::fmt;

/// What the name of each public call begins with.
const PUBLIC: &str = "rulebook_";
/// The bytes of an address, and so of a register that is pushed.
const ADDRESS: i64 = 8;

/// Functions, each called by the one before, with the bytes that each adds: its return address, and its frame as large
/// as it is where the next one is called, or at its largest.
type Path<'t> = Vec<(&'t str, i64)>;

/// The deepest path of each public call, and the functions outside of the archive that some path comes to.
pub struct Bounds<'t> {
    paths: Vec<Path<'t>>,
    outside: BTreeSet<&'t str>,
}

impl<'t> Bounds<'t> {
    /// The bounds of an archive of which `objdump -d --no-show-raw-insn` and `objdump -r` print this. Code that cannot
    /// be followed is an error.
    pub fn read(text: &'t str) -> Result<Self, String> {
        let listing = Listing::read(text)?;
        let mut calls: Vec<&str> = listing.functions.keys().copied().filter(|name| name.starts_with(PUBLIC)).collect();
        calls.sort_by_key(|name| Call::ALL.iter().position(|call| call.function() == &name[PUBLIC.len()..]));
        if calls.is_empty() {
            return Err(format!("no function of the archive has a name that begins with {PUBLIC}"));
        }
        let mut search = Search { listing, above: Vec::new(), outside: BTreeSet::new() };
        let paths = calls.into_iter().map(|call| search.deepest(call, ADDRESS)).collect::<Result<_, _>>()?;
        Ok(Bounds { paths, outside: search.outside })
    }

    /// Whether a call is among them.
    pub fn cover(&self, call: Call) -> bool {
        self.paths.iter().any(|path| path[0].0.strip_prefix(PUBLIC) == Some(call.function()))
    }
}

struct Search<'t> {
    listing: Listing<'t>,
    /// The functions on the way to the one that is looked at.
    above: Vec<&'t str>,
    outside: BTreeSet<&'t str>,
}

impl<'t> Search<'t> {
    /// The deepest path from a function that is entered with so many bytes pushed.
    fn deepest(&mut self, name: &'t str, pushed: i64) -> Result<Path<'t>, String> {
        if !self.listing.functions.contains_key(name) {
            self.outside.insert(name);
            return Ok(vec![(name, pushed)]);
        }
        if self.above.contains(&name) {
            return Err(format!("recursion: {}, {name}", self.above.join(", ")));
        }
        let own = flow::own(&self.listing, name)?;
        let mut deepest = vec![(name, pushed + own.deepest)];
        self.above.push(name);
        for call in own.calls {
            let mut path = vec![(name, pushed + call.depth)];
            path.extend(self.deepest(call.callee, call.pushed)?);
            if bytes(&path) > bytes(&deepest) {
                deepest = path;
            }
        }
        self.above.pop();
        Ok(deepest)
    }
}

fn bytes(path: &Path) -> i64 {
    path.iter().map(|(_, bytes)| bytes).sum()
}

impl fmt::Display for Bounds<'_> {
    fn fmt(&self, to: &mut fmt::Formatter<'_>) -> fmt::Result {
        for path in &self.paths {
            let steps: Vec<String> = path.iter().map(|(name, bytes)| format!("{name} {bytes}")).collect();
            writeln!(to, "{:<17} {:>6}  {}", &path[0].0[PUBLIC.len()..], bytes(path), steps.join(", "))?;
        }
        let outside: Vec<&str> = self.outside.iter().copied().collect();
        writeln!(to, "outside the archive: {}", if outside.is_empty() { "nothing".into() } else { outside.join(", ") })
    }
}

#[cfg(test)]
mod tests;
