//! How deep one function moves `%rsp`, followed along its flow of control.

use super::listing::{number, Function, Instruction, Listing, Target};
use super::ADDRESS;
use std::collections::BTreeMap;

/// How far below `%rsp` a function may use the stack without moving it.
const RED_ZONE: i64 = 128;
/// The register whose depth is followed, with the names of its lower parts.
const STACK: [&str; 4] = ["%rsp", "%esp", "%sp", "%spl"];
/// Instructions of two operands that only read the first.
const READING: [&str; 4] = ["add", "cmp", "mov", "sub"];
/// How the words begin that move `%rsp` without naming it, go elsewhere or stand for no instruction. Those of them that
/// are followed are told apart before.
const UNKNOWN: [&str; 15] =
    ["(", ".", "call", "enter", "int", "iret", "lcall", "leave", "ljmp", "lret", "pop", "push", "ret", "sys", "xbegin"];

/// What a function does with the stack. Depths are in bytes, from `%rsp` at its first instruction.
pub struct Own<'t> {
    pub deepest: i64,
    pub calls: Vec<Entry<'t>>,
}

/// A function that is called or jumped to, from so deep, and the bytes that this pushes.
pub struct Entry<'t> {
    pub depth: i64,
    pub pushed: i64,
    pub callee: &'t str,
}

struct Walk<'w, 't> {
    listing: &'w Listing<'t>,
    function: &'w Function<'t>,
    /// The depth with which each instruction is reached.
    seen: BTreeMap<i64, i64>,
    /// The instructions that are still to be followed.
    open: Vec<(i64, i64)>,
    own: Own<'t>,
}

/// Follows a function from its first instruction. Each instruction has to be reached, and with one depth of `%rsp`.
pub fn own<'t>(listing: &Listing<'t>, name: &str) -> Result<Own<'t>, String> {
    let function = &listing.functions[name];
    let open = vec![(function.start(), 0)];
    let own = Own { deepest: 0, calls: Vec::new() };
    let mut walk = Walk { listing, function, seen: BTreeMap::new(), open, own };
    while let Some((at, depth)) = walk.open.pop() {
        walk.reach(at, depth).map_err(|why| format!("{name}, {at:x}: {why}"))?;
    }
    let left_out = |(at, instruction): &(&i64, &Instruction)| !walk.seen.contains_key(at) && !instruction.fills();
    if let Some((at, _)) = function.code.iter().find(left_out) {
        return Err(format!("{name}, {at:x}: no path that is followed comes here"));
    }
    let below = if function.roams() { RED_ZONE } else { 0 };
    let deepest = walk.seen.values().map(|depth| depth + below).max();
    Ok(Own { deepest: deepest.unwrap_or(0).max(walk.own.deepest), ..walk.own })
}

impl<'t> Walk<'_, 't> {
    /// Comes to an instruction, and follows it unless that has been done.
    fn reach(&mut self, at: i64, depth: i64) -> Result<(), String> {
        match self.seen.insert(at, depth) {
            None => self.follow(at, depth),
            Some(before) if before == depth => Ok(()),
            Some(_) => Err("reached with two depths of %rsp".into()),
        }
    }

    fn follow(&mut self, at: i64, depth: i64) -> Result<(), String> {
        let Instruction { word, operands } = self.function.code.get(&at).ok_or("there is no instruction")?;
        match (*word, &operands[..]) {
            ("ret", []) if depth == 0 => Ok(()),
            ("ret", []) => Err(format!("returns with {depth} bytes on the stack")),
            ("ud2", []) => Ok(()),
            ("call", [to]) => {
                let target = self.target(at, to)?;
                self.enter(depth, ADDRESS, target)?;
                self.go_on(at, depth)
            }
            ("jmp", [register]) if register.starts_with("*%") => self.jump_by_table(depth),
            ("jmp", [to]) => self.jump(at, to, depth),
            (word, [to]) if word.starts_with('j') || word.starts_with("loop") => {
                self.jump(at, to, depth)?;
                self.go_on(at, depth)
            }
            (word, operands) => {
                let unknown = || format!("not known: {word} {}", operands.join(","));
                for operand in operands {
                    self.own.deepest = self.own.deepest.max(depth + below(operand).ok_or_else(unknown)?);
                }
                let after = after(depth, word, operands).filter(|depth| *depth >= 0);
                self.go_on(at, after.ok_or_else(unknown)?)
            }
        }
    }

    fn go_on(&mut self, at: i64, depth: i64) -> Result<(), String> {
        let (next, _) = self.function.code.range(at + 1..).next().ok_or("goes on past its end")?;
        self.open.push((*next, depth));
        Ok(())
    }

    /// Where a jump or a call leads that names its target.
    fn target(&self, at: i64, shown: &str) -> Result<Target<'t>, String> {
        if shown.starts_with('*') {
            return Err(format!("an indirect jump or call: {shown}"));
        }
        let target = self.listing.target((self.function.section, at), shown);
        target.ok_or_else(|| format!("a jump or call to a place that is not known: {shown}"))
    }

    /// A jump within the function, or to another one that returns in its stead.
    fn jump(&mut self, at: i64, shown: &str, depth: i64) -> Result<(), String> {
        let Function { section, code } = self.function;
        match self.target(at, shown)? {
            Target::Inside((other, to)) if other == *section && code.contains_key(&to) => self.open.push((to, depth)),
            target => self.enter(depth, 0, target)?,
        }
        Ok(())
    }

    /// A jump to an address in a register: to one of the places that the function's tables hold.
    fn jump_by_table(&mut self, depth: i64) -> Result<(), String> {
        let targets = self.listing.tables(self.function);
        if targets.is_empty() {
            return Err("an indirect jump without a table".into());
        }
        self.open.extend(targets.into_iter().map(|to| (to, depth)));
        Ok(())
    }

    /// Notes that another function is entered.
    fn enter(&mut self, depth: i64, pushed: i64, target: Target<'t>) -> Result<(), String> {
        let callee = match target {
            Target::Outside(name) => name,
            Target::Inside(place) => self.listing.starting(place).ok_or("leads to where no function begins")?,
        };
        self.own.calls.push(Entry { depth, pushed, callee });
        Ok(())
    }
}

/// The depth after an instruction that goes on to the next one; nothing where that is not known.
fn after(depth: i64, word: &str, operands: &[&str]) -> Option<i64> {
    match (word, operands) {
        ("push", [pushed]) if !pushed.starts_with('%') || whole(pushed) => Some(depth + ADDRESS),
        ("pop", [register]) if whole(register) && *register != "%rsp" => Some(depth - ADDRESS),
        ("sub", [amount, "%rsp"]) => Some(depth + number(amount.strip_prefix('$')?)?),
        ("add", [amount, "%rsp"]) => Some(depth - number(amount.strip_prefix('$')?)?),
        _ => (!moves(word, operands)).then_some(depth),
    }
}

/// Whether an instruction may move `%rsp` in another way.
fn moves(word: &str, operands: &[&str]) -> bool {
    let read = if READING.contains(&word) && operands.len() == 2 { 1 } else { 0 };
    operands[read..].iter().any(|operand| STACK.contains(operand))
        || word != "popcnt" && UNKNOWN.iter().any(|beginning| word.starts_with(beginning))
}

/// Whether an operand is a register of eight bytes.
fn whole(operand: &str) -> bool {
    operand.starts_with("%r") && !operand.ends_with(['b', 'd', 'w'])
}

/// How far below `%rsp` an operand begins. With an index that may be anywhere in the red zone.
fn below(operand: &str) -> Option<i64> {
    match operand.split_once("(%rsp") {
        None => Some(0),
        Some((offset, ")")) => Some(-number(offset)?),
        Some((offset, _)) => Some(if number(offset)? < 0 { RED_ZONE } else { 0 }),
    }
}

impl Function<'_> {
    /// Whether the function calls nothing, so that its variables may lie below `%rsp`, and finds them by an index or by
    /// a copy of `%rsp`, so that it does not show how far below.
    fn roams(&self) -> bool {
        let finds = |Instruction { operands, .. }: &Instruction| {
            operands.iter().any(|operand| operand.contains("(%rsp,")) || matches!(operands[..], ["%rsp", _])
        };
        self.code.values().all(|instruction| instruction.word != "call") && self.code.values().any(finds)
    }
}
