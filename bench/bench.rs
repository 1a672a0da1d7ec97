//! The library and the crate pdb 0.8.0 in one program, for bench/run.
//!
//!   bench ours|crate CASE INPUT REPETITIONS   does CASE over INPUT once and writes what its count is divided by, how many answers there were and a
//!                                             checksum over all of them; then does it REPETITIONS times more, with each answer only handed over
//!   bench time INPUT                          the CPU time of each case over INPUT, beside the crate's: a line with the case, what the times are
//!                                             divided by, and the two times in nanoseconds
//!   bench hostile BYTES                       the CPU time of one call over the worst areas, of half so many bytes and of so many: see hostile.rs
//!
//! Both sides do the same: a checksum that differs is a fault. The status is 3 where INPUT is an area that is refused.
//! INPUT: a file (an area, or a string table X.names), or one that is made: sorted:N, reversed:N or random:N, an area of N line subsections in that
//! order of their offsets; exports:N, imports:N, an area of one table of N exports or import words; names:N, a string table of N names.

mod answers;
mod count;
mod hostile;
mod input;
mod keys;
mod sides;
mod time;
mod write;

use input::Input;

/// The input, unless it is refused.
fn input(name: &str) -> Input {
    Input::new(name).unwrap_or_else(|| {
        eprintln!("bench: {name}: refused, and so not measured");
        std::process::exit(3)
    })
}

fn main() {
    let words: Vec<String> = std::env::args().skip(1).collect();
    let words: Vec<&str> = words.iter().map(String::as_str).collect();
    let number = |n: &str| n.parse().expect("a number");
    match words[..] {
        ["ours", case, name, n] => count::ours(case, number(n), &input(name)),
        ["crate", case, name, n] => count::theirs(case, number(n), &input(name)),
        ["time", name] => time::time(&input(name)),
        ["hostile", bytes] => hostile::hostile(number(bytes) as usize),
        _ => panic!("usage: bench ours|crate CASE INPUT REPETITIONS, bench time INPUT, bench hostile BYTES"),
    }
}
