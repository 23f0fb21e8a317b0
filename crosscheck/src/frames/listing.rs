//! What objdump prints of object code that is not linked yet.

use std::collections::{BTreeMap, BTreeSet};

/// A section and an offset in it.
pub type Place<'t> = (&'t str, i64);

/// Words that may stand before an instruction's own one.
const PREFIXES: [&str; 7] = ["cs", "data16", "lock", "notrack", "rep", "repnz", "repz"];
/// A relocation of these kinds has the linker put in a distance: from the place to a symbol with a number added. No
/// other kind has a part in a jump or a call that is followed here.
const DISTANCES: [&str; 2] = ["R_X86_64_PC32", "R_X86_64_PLT32"];
/// The bytes of a distance. At the end of an instruction it counts from there, so the number added is less by these.
const DISTANCE: i64 = 4;

pub struct Instruction<'t> {
    pub word: &'t str,
    pub operands: Vec<&'t str>,
}

/// A function: the section that it is in, and its instructions by their offsets.
pub struct Function<'t> {
    pub section: &'t str,
    pub code: BTreeMap<i64, Instruction<'t>>,
}

/// Where a jump or a call leads.
pub enum Target<'t> {
    Inside(Place<'t>),
    Outside(&'t str),
}

#[derive(Default)]
pub struct Listing<'t> {
    pub functions: BTreeMap<&'t str, Function<'t>>,
    /// The distances that are left to the linker: a symbol, and the number added to it.
    relocations: BTreeMap<Place<'t>, (&'t str, i64)>,
}

/// What a line says.
enum Line<'t> {
    Object(&'t str),
    Section(&'t str),
    Function(&'t str),
    Instruction(i64, Instruction<'t>),
    Relocation(i64, &'t str, i64),
    Nothing,
}

impl<'t> Listing<'t> {
    pub fn read(text: &'t str) -> Result<Self, String> {
        let mut listing = Listing::default();
        let (mut object, mut section, mut function) = (None, "", "");
        for line in text.lines() {
            let clear = match Line::read(line).ok_or_else(|| format!("not understood: {line}"))? {
                Line::Object(name) => *object.get_or_insert(name) == name,
                Line::Section(name) => {
                    section = name;
                    true
                }
                Line::Function(name) => {
                    function = name;
                    listing.functions.insert(name, Function { section, code: BTreeMap::new() }).is_none()
                }
                Line::Instruction(at, read) => {
                    let known = listing.functions.get_mut(function);
                    known.map_or(false, |function| function.code.insert(at, read).is_none())
                }
                Line::Relocation(at, symbol, added) => {
                    listing.relocations.insert((section, at), (symbol, added)).is_none()
                }
                Line::Nothing => true,
            };
            if !clear {
                return Err(format!("of more than one object, or out of place: {line}"));
            }
        }
        Ok(listing)
    }

    /// Where the jump or call at a place leads, which objdump gives as `shown`. The distance follows one or two bytes.
    pub fn target(&self, (section, at): Place<'t>, shown: &str) -> Option<Target<'t>> {
        let (symbol, offset) = match self.relocations.range((section, at + 1)..=(section, at + 2)).next() {
            None => return Some(Target::Inside((section, hexadecimal(shown)?))),
            Some((_, (symbol, added))) => (*symbol, added + DISTANCE),
        };
        match self.functions.get(symbol) {
            Some(function) => Some(Target::Inside((function.section, function.start() + offset))),
            None if symbol.starts_with('.') => Some(Target::Inside((symbol, offset))),
            None => (offset == 0).then_some(Target::Outside(symbol)),
        }
    }

    /// The function that begins at a place.
    pub fn starting(&self, (section, at): Place) -> Option<&'t str> {
        let begins = |function: &Function| (function.section, function.start()) == (section, at);
        self.functions.iter().find(|(_, function)| begins(function)).map(|(name, _)| *name)
    }

    /// Where the jump tables of a function lead. A table lies outside of the code and begins where the code refers to;
    /// each entry is the distance from its beginning to a place of the function.
    pub fn tables(&self, function: &Function) -> Vec<i64> {
        let code = |section: &str| self.functions.values().any(|function| function.section == section);
        let starts: BTreeSet<Place> =
            self.relocations.values().map(|(name, added)| (*name, added + DISTANCE)).collect();
        let targets = self.relocations.iter().filter_map(|(&(table, at), &(name, added))| {
            let (_, start) = starts.range((table, 0)..=(table, at)).next_back()?;
            (name == function.section && !code(table)).then(|| added - (at - start))
        });
        targets.filter(|to| (function.start()..=function.last()).contains(to)).collect()
    }
}

impl Function<'_> {
    /// The offset of its first instruction.
    pub fn start(&self) -> i64 {
        self.code.keys().next().copied().unwrap_or(0)
    }

    /// The offset of its last instruction.
    fn last(&self) -> i64 {
        self.code.keys().next_back().copied().unwrap_or(0)
    }
}

impl<'t> Line<'t> {
    fn read(line: &'t str) -> Option<Self> {
        let section = |before, after| line.strip_prefix(before)?.strip_suffix(after);
        if let Some(name) = section("Disassembly of section ", ":").or(section("RELOCATION RECORDS FOR [", "]:")) {
            return Some(Line::Section(name));
        }
        if let Some((at, text)) = line.split_once(":\t") {
            return Some(Line::Instruction(hexadecimal(at.trim())?, Instruction::read(text)?));
        }
        if let Some((object, _)) = line.split_once(":     file format ") {
            return Some(Line::Object(object));
        }
        match line.split_whitespace().collect::<Vec<_>>()[..] {
            [] | ["OFFSET", "TYPE", "VALUE"] | ["In", "archive", ..] => Some(Line::Nothing),
            [_, name] => Some(Line::Function(name.strip_prefix('<')?.strip_suffix(">:")?)),
            [at, kind, value] if kind.starts_with("R_") => {
                let sign = value.rfind(['+', '-']).filter(|sign| value[sign + 1..].starts_with("0x"));
                let (symbol, added) = value.split_at(sign.unwrap_or(value.len()));
                let relocation = Line::Relocation(hexadecimal(at)?, symbol, number(added)?);
                Some(if DISTANCES.contains(&kind) { relocation } else { Line::Nothing })
            }
            _ => None,
        }
    }
}

impl<'t> Instruction<'t> {
    /// Reads an instruction; what objdump explains of it, after `#` or in `<>`, is left out.
    fn read(text: &'t str) -> Option<Self> {
        let text = text.split(['#', '<']).next()?;
        let mut words = text.split_whitespace().skip_while(|word| PREFIXES.contains(word));
        let word = words.next().filter(|word| !word.contains(','))?;
        let mut inside = false;
        let operands = words.next().map_or(Vec::new(), |text| {
            let between = |c| {
                inside = c == '(' || inside && c != ')';
                c == ',' && !inside
            };
            text.split(between).collect()
        });
        words.next().is_none().then_some(Instruction { word, operands })
    }

    /// Whether it only fills up the space before the next function or loop.
    pub fn fills(&self) -> bool {
        matches!((self.word, &self.operands[..]), ("nop" | "nopw" | "nopl" | "int3", _) | ("xchg", ["%ax", "%ax"]))
    }
}

/// A number that objdump prints with a sign or `0x`, or leaves out where it is 0.
pub fn number(text: &str) -> Option<i64> {
    let size = text.trim_start_matches(['+', '-']);
    let size = if size.is_empty() { 0 } else { hexadecimal(size.strip_prefix("0x")?)? };
    Some(if text.starts_with('-') { size.wrapping_neg() } else { size })
}

/// A number in hexadecimal; from 2 to the 63 on it is a negative one.
fn hexadecimal(digits: &str) -> Option<i64> {
    u64::from_str_radix(digits, 16).ok().map(|number| number as i64)
}
