//! How end lines are read, as a call names it.

use c13::EndLines;
use std::ffi::OsStr;

/// A reading of end lines, and its name: the word behind `--end-lines`, by which the answer tells it, too.
#[derive(Clone, Copy)]
pub struct Reading {
    pub name: &'static str,
    pub end_lines: EndLines,
}

const CRATE: Reading = Reading { name: "crate", end_lines: EndLines::Crate };
const LOW_BITS: Reading = Reading { name: "low-bits", end_lines: EndLines::LowBits };
const DELTA: Reading = Reading { name: "delta", end_lines: EndLines::Delta };

impl Reading {
    /// The reading that a word names. One that names none is refused: nothing says which is meant.
    pub fn of(word: &OsStr) -> Result<Reading, String> {
        let known = [CRATE, LOW_BITS, DELTA].into_iter().find(|reading| word == reading.name);
        known.ok_or_else(|| format!("--end-lines {} is not crate, low-bits or delta", word.to_string_lossy()))
    }
}

/// That of a call which names none.
impl Default for Reading {
    fn default() -> Self {
        CRATE
    }
}
