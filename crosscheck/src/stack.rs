//! How deep a call reaches into the stack, measured on a painted one.

#![allow(unsafe_code)]

use std::thread;

/// How far below the caller the stack is painted.
const PAINTED: usize = 1 << 20;
/// The part right below the caller that is left alone, because painting itself runs there.
pub const SKIPPED: usize = 512;

/// The bytes of stack that `run` uses: the distance from its caller's frame to the deepest byte that it changed. What
/// stays within `SKIPPED` bytes counts as that many. `run` is called twice, on two paints, so that a byte is not
/// missed for having the paint's colour.
pub fn used(mut run: impl FnMut() + Send) -> usize {
    let mut measure = |paint: u8| {
        thread::scope(|scope| {
            let builder = thread::Builder::new().stack_size(4 * PAINTED);
            let thread = builder.spawn_scoped(scope, || below(paint, &mut run)).expect("a thread");
            thread.join().expect("the call returns")
        })
    };
    measure(0xA5).max(measure(0x5A))
}

/// Paints the stack below this frame, runs the call there and looks for the deepest byte that has changed.
#[inline(never)]
fn below(paint: u8, run: &mut impl FnMut()) -> usize {
    let marker = 0u8;
    let top = &marker as *const u8 as usize;
    let (low, high) = (top - PAINTED, top - SKIPPED);
    fill(low, high, paint);
    run();
    top - first_changed(low, high, paint)
}

/// Sets the bytes from `low` up to `high` to `paint`.
#[inline(never)]
fn fill(low: usize, high: usize, paint: u8) {
    let mut address = low;
    while address < high {
        // SAFETY: the address lies in this thread's own stack, which is four times as large as what is painted, and
        // below every frame that is in use, this one's included.
        unsafe { (address as *mut u8).write_volatile(paint) };
        address += 1;
    }
}

/// The lowest address from `low` up to `high` that is not `paint` any more; `high` if there is none.
#[inline(never)]
fn first_changed(low: usize, high: usize, paint: u8) -> usize {
    let mut address = low;
    // SAFETY: as in `fill`, which has written all these bytes.
    while address < high && unsafe { (address as *const u8).read_volatile() } == paint {
        address += 1;
    }
    address
}

#[cfg(test)]
mod tests {
    use super::*;

    #[inline(never)]
    fn fill_array<const N: usize>() {
        let mut array = [0u8; N];
        for byte in &mut array {
            // SAFETY: the pointer is that of a reference.
            unsafe { (byte as *mut u8).write_volatile(1) };
        }
    }

    #[test]
    fn sees_an_array_on_the_stack() {
        for (used, least) in [(used(fill_array::<5_000>), 5_000), (used(fill_array::<100_000>), 100_000)] {
            assert!(used >= least && used < least + 2_000, "{used} for an array of {least} bytes");
        }
    }

    #[test]
    fn sees_little_where_little_is_used() {
        assert!(used(|| ()) <= SKIPPED + 200);
    }
}
