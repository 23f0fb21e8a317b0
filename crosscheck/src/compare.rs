//! One call on two implementations, and everything that must agree.

use crate::calls::{Answer, Call, Calls};
use crate::random::Random;
use std::fmt::{self, Write};

/// What went wrong, in full: the call, its inputs and both outcomes, or a promise that was not kept.
#[derive(Debug)]
pub struct Finding(pub String);

impl fmt::Display for Finding {
    fn fmt(&self, to: &mut fmt::Formatter<'_>) -> fmt::Result {
        to.write_str(&self.0)
    }
}

pub type Checked<T> = Result<T, Finding>;

/// Bytes on both sides of a lent buffer that no call may touch.
const GUARD: usize = 64;
/// The largest buffer that is ever lent.
const MOST_ROOM: usize = 70_000;
const SHIFTS: usize = 251;
/// All rows of all calls are below.
const NUMBERS: usize = 27;
/// Buffers up to this size are printed whole.
const SHOWN: usize = 256;

/// Runs calls on two implementations. Before each call both buffers get the same pattern, which is another one each
/// time; afterwards the answers, the buffers and the guards around them are compared byte by byte.
pub struct Comparer<'c> {
    sides: [&'c Calls; 2],
    counts: [u64; Call::ALL.len()],
    numbers: [u64; NUMBERS],
    pattern: Vec<u8>,
    shift: usize,
    buffers: [Vec<u8>; 2],
    written: usize,
}

impl<'c> Comparer<'c> {
    pub fn new(first: &'c Calls, second: &'c Calls) -> Comparer<'c> {
        let whole = GUARD + MOST_ROOM + GUARD;
        let mut random = Random::new(0);
        let pattern = (0..whole + SHIFTS).map(|_| random.bits() as u8).collect();
        Comparer {
            sides: [first, second],
            counts: [0; Call::ALL.len()],
            numbers: [0; NUMBERS],
            pattern,
            shift: 0,
            buffers: [vec![0; whole], vec![0; whole]],
            written: 0,
        }
    }

    /// How often each call was compared.
    pub fn counts(&self) -> impl Iterator<Item = (Call, u64)> + '_ {
        Call::ALL.into_iter().zip(self.counts)
    }

    /// How often each number was given that was given at all.
    pub fn numbers(&self) -> impl Iterator<Item = (usize, u64)> + '_ {
        self.numbers.into_iter().enumerate().filter(|&(_, count)| count > 0)
    }

    /// What the last call wrote.
    pub fn written(&self) -> &[u8] {
        &self.buffers[0][GUARD..GUARD + self.written]
    }

    /// Runs `call` on both sides with a buffer of `room` bytes, and gives the answer on which they agree.
    pub fn call(&mut self, call: Call, image: &[u8], reading: &[u8], room: usize) -> Checked<Answer> {
        self.counts[call as usize] += 1;
        self.shift = (self.shift + 1) % SHIFTS;
        let room = if call.writes() { room } else { 0 };
        let whole = GUARD + room + GUARD;
        let pattern = &self.pattern[self.shift..self.shift + whole];
        let mut answers = [Answer::default(); 2];
        for (side, answer) in answers.iter_mut().enumerate() {
            let buffer = &mut self.buffers[side][..whole];
            buffer.copy_from_slice(pattern);
            *answer = self.sides[side].run(call, image, reading, &mut buffer[GUARD..GUARD + room]);
        }
        let [first, second] = answers;
        let report = |what: String| Report { comparer: self, call, image, reading, room, answers }.finding(what);
        if first != second {
            return Err(report("the answers differ".to_string()));
        }
        let [ours, theirs] = [&self.buffers[0][..whole], &self.buffers[1][..whole]];
        if ours != theirs {
            return Err(report(difference(ours, theirs, pattern)));
        }
        if let Some(fault) = fault(call, first) {
            return Err(report(fault.to_string()));
        }
        let (refused, written) = (first.number != 0, call.written(first.result, &ours[GUARD..GUARD + room]));
        let kept = if refused || written > room { GUARD } else { GUARD + written };
        if ours[..GUARD] != pattern[..GUARD] || ours[kept..] != pattern[kept..] {
            return Err(report("bytes that must stay were changed".to_string()));
        }
        self.written = if refused { 0 } else { written.min(room) };
        self.numbers[first.number as usize] += 1;
        Ok(first)
    }

    /// As `call`, where the answer is known beforehand.
    pub fn expect(
        &mut self,
        call: Call,
        image: &[u8],
        reading: &[u8],
        room: usize,
        number: u32,
        place: Option<usize>,
    ) -> Checked<Answer> {
        let answer = self.call(call, image, reading, room)?;
        if answer.number != number || place.map_or(false, |place| answer.place != place) {
            let answers = [answer; 2];
            let place = place.map_or(String::new(), |place| format!(", place {place}"));
            return Err(Report { comparer: self, call, image, reading, room, answers }
                .finding(format!("both sides differ from what was expected: number {number}{place}")));
        }
        Ok(answer)
    }
}

/// The first byte in which two buffers differ that were the same before.
fn difference(ours: &[u8], theirs: &[u8], before: &[u8]) -> String {
    let at = ours.iter().zip(theirs).position(|(our, their)| our != their).expect("a byte that differs");
    format!(
        "byte {} of the buffer differs: {:02x} and {:02x}, before the call {:02x}",
        at as i64 - GUARD as i64,
        ours[at],
        theirs[at],
        before[at]
    )
}

/// What is wrong with an answer of `call`, whatever its arguments were.
fn fault(call: Call, answer: Answer) -> Option<&'static str> {
    let refused = answer.number != 0;
    if refused && !call.rows().contains(&answer.number) {
        Some("no row of this call has this number")
    } else if refused && answer.result != 0 || !refused && answer.place != 0 {
        Some("a refusal has no result and an acceptance no place")
    } else {
        None
    }
}

/// A call and its outcomes, on the way to becoming text.
struct Report<'a, 'c> {
    comparer: &'a Comparer<'c>,
    call: Call,
    image: &'a [u8],
    reading: &'a [u8],
    room: usize,
    answers: [Answer; 2],
}

impl Report<'_, '_> {
    fn finding(&self, what: String) -> Finding {
        let Report { comparer, call, image, reading, room, answers } = self;
        let mut text = format!("difference in {}: {what}\n", call.name());
        let kind = if call.on_program() { "program" } else { "theory" };
        let _ = writeln!(text, "  {kind} ({} bytes): {}", image.len(), hex(image));
        if call.reads() {
            let kind = if call.tests() { "candidate" } else { "reading" };
            let _ = writeln!(text, "  {kind} ({} bytes): {}", reading.len(), hex(reading));
        }
        if call.writes() {
            let _ = writeln!(text, "  buffer: {room} bytes");
        }
        for (side, answer) in answers.iter().enumerate() {
            let _ = writeln!(text, "  {}: {answer}", comparer.sides[side].name);
            if call.writes() && *room <= SHOWN {
                let _ = writeln!(text, "    buffer after: {}", hex(&comparer.buffers[side][GUARD..GUARD + room]));
            }
        }
        Finding(text)
    }
}

/// Bytes as hexadecimal digits, two for each.
pub fn hex(bytes: &[u8]) -> String {
    bytes.iter().fold(String::with_capacity(2 * bytes.len()), |mut text, byte| {
        let _ = write!(text, "{byte:02x}");
        text
    })
}

#[cfg(test)]
mod tests;
