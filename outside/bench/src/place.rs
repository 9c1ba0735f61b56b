//! Where the code lies. Its speed depends on where in a line of 64 bytes a function starts, which is chance to a linker:
//! TASHMIROK_PLACE, 0 to 3, moves all functions on by so many times 16 bytes.

use std::arch::global_asm;
use std::hint::black_box;

const PLACE: usize = match option_env!("TASHMIROK_PLACE") {
    Some(place) => (place.as_bytes()[0] - b'0') as usize,
    None => 0,
};

// Functions have sections of their own, and the plain one is linked before them.
global_asm!(".text", ".globl bench_place", "bench_place:", ".space {}", const 16 * PLACE);

extern "C" {
    fn bench_place();
}

/// Refers to the gap, as a linker drops what nothing refers to.
pub fn keep() {
    black_box(bench_place as *const ());
}
