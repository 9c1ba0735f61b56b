//! An independent implementation of following and cutting, as fast as plain Rust gets: every check in its order,
//! words loaded and stored whole, and a loop of its own for each data type and number of channels.

mod cut;
mod follow;
mod lay;
mod name;
mod out;

pub use cut::cut;
pub use follow::{follow, open, Take, Tally};

/// A number of which the low bits can be dropped to have the nearest, the even one at a tie. Past the last that is not rounded past the
/// top nothing is added: the whole part is odd there, and so -1 and 1 are.
#[inline(always)]
fn near(number: i32, bits: u32) -> i32 {
    let half = 1_i32 << (bits - 1);
    let step = if number > i32::MAX - half { -1 } else { half - 1 };
    number.wrapping_add(step + (number >> bits & 1))
}
