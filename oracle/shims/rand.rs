//! Stands in for `rand`: randomness is the draw rule of document 01.

use std::cell::Cell;

thread_local! {
    static DRAW: Cell<u64> = const { Cell::new(0) };
}

/// Sets the draw, 0 to 2^53 - 1.
pub fn set_draw(draw: u64) {
    DRAW.set(draw);
}

/// True exactly when draw < p * 2^53.
pub fn random_bool(p: f64) -> bool {
    (DRAW.get() as f64) < p * (1u64 << 53) as f64
}
