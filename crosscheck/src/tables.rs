//! The tables of the benchmark and of the instruction counts: the same inputs, measured in two ways.

use crate::calls::Calls;
use crate::inputs::{self, Input};
use crate::{library_under_test, reference};

/// The implementations that are measured: the reference, and the library where this build links it.
pub fn sides() -> Vec<&'static Calls> {
    [Some(&reference::CALLS), library_under_test()].into_iter().flatten().collect()
}

/// A way to measure a call.
pub struct Measure<'m> {
    pub unit: &'static str,
    /// What the call costs each side, in that unit.
    pub cost: &'m mut dyn FnMut(&Input) -> Vec<f64>,
    pub shown: fn(f64) -> String,
}

impl Measure<'_> {
    pub fn print(&mut self) {
        self.calls();
        self.translations();
        self.candidates();
    }

    fn calls(&mut self) {
        println!("{:<17} {:<40} {}", "call", "input", columns());
        for input in inputs::all() {
            let costs = (self.cost)(&input);
            println!("{:<17} {:<40} {}", input.call.function(), input.name, self.cells(&costs));
        }
    }

    fn translations(&mut self) {
        println!("\ntranslation as the number of nodes grows");
        println!("{:>6} {:>8} {}  {} a node", "nodes", "rules", columns(), self.unit);
        for nodes in [64, 128, 256, 512, 1024] {
            let (input, rules) = inputs::mixed_translation(nodes);
            let costs = (self.cost)(&input);
            println!("{nodes:>6} {rules:>8} {}  {}", self.cells(&costs), each(&costs, nodes));
        }
    }

    /// A candidate is tested under itself and its proper subsets, all in all a power of two.
    fn candidates(&mut self) {
        println!("\ncandidate test over 256 nodes as the number of true atoms grows");
        println!("{:>6} {:>8} {}  {} a subset", "true", "subsets", columns(), self.unit);
        for truths in [4, 6, 8, 10, 12, 14, 16] {
            let costs = (self.cost)(&inputs::candidate("", 256, truths));
            println!("{truths:>6} {:>8} {}  {}", 1 << truths, self.cells(&costs), each(&costs, 1 << truths));
        }
    }

    fn cells(&self, costs: &[f64]) -> String {
        match costs {
            [plain, library] => {
                format!("{:>12} {:>12} {:>7.2}", (self.shown)(*plain), (self.shown)(*library), library / plain)
            }
            _ => format!("{:>12} {:>12} {:>7}", (self.shown)(costs[0]), "-", "-"),
        }
    }
}

fn columns() -> String {
    format!("{:>12} {:>12} {:>7}", "plain", "library", "ratio")
}

/// Each side's cost divided by `parts`.
fn each(costs: &[f64], parts: usize) -> String {
    costs.iter().map(|cost| format!("{:>8.1}", cost / parts as f64)).collect::<Vec<_>>().join(" ")
}
