//! The proved side: the two functions that `crates/measured` exports.

use crate::operations::Game;
use crate::rows::{CallRow, Calls, PartsRow, ToldRow};

extern "C" {
    fn measure_chess(
        chief: u32,
        parts: *const PartsRow,
        parts_count: usize,
        calls: *const CallRow,
        calls_count: usize,
        told: *mut ToldRow,
        told_count: usize,
        pages: *mut i64,
        pages_count: usize,
    ) -> bool;

    fn measure_bridge(
        chief: u32,
        parts: *const PartsRow,
        parts_count: usize,
        calls: *const CallRow,
        calls_count: usize,
        told: *mut ToldRow,
        told_count: usize,
        pages: *mut i64,
        pages_count: usize,
    ) -> bool;
}

/// Makes the calls at a congress not yet opened, and writes what each told and at the end the pages.
pub fn measure(
    game: Game,
    chief: u32,
    calls: &Calls,
    told: &mut [ToldRow],
    pages: &mut [i64],
) -> bool {
    let export = match game {
        Game::Chess => measure_chess,
        Game::Bridge => measure_bridge,
    };
    // The rows are laid out alike on both sides, and no slice overlaps another.
    unsafe {
        export(
            chief,
            calls.parts.as_ptr(),
            calls.parts.len(),
            calls.rows.as_ptr(),
            calls.rows.len(),
            told.as_mut_ptr(),
            told.len(),
            pages.as_mut_ptr(),
            pages.len(),
        )
    }
}
