//! A case of one side, once with a checksum and then as often as asked: what bench/run counts the instructions of.

use crate::answers::{Handed, Summed, Taker};
use crate::input::{middle, Input};
use crate::sides::{calls_side, crate_side, rust_side};
use c13::calls::RECORD;
use pdb::{oracle_strings, OracleProbe, C13};

/// Does a case once with a checksum and writes that, with what the count is divided by: the calls if there are any, else the answers. Then does it
/// again as often as asked.
fn repeat(repetitions: u64, calls: usize, mut case: impl FnMut(Option<&mut Summed>)) {
    let mut summed = Summed::default();
    case(Some(&mut summed));
    let per = if calls == 0 { summed.answers } else { calls as u64 };
    println!("{per} {} {:016x}", summed.answers, summed.sum);
    (0..repetitions).for_each(|_| case(None));
}

macro_rules! repeat {
    ($n:expr, $calls:expr, $t:ident => $case:expr) => {
        repeat($n, $calls, |summed| match summed {
            Some($t) => $case,
            None => {
                let $t = &mut Handed;
                $case
            }
        })
    };
}

/// This library's side: its calls, and where the case is one of prepared answers or of the iterator, its Rust crate.
pub fn ours(case: &str, n: u64, i: &Input) {
    let mut lists = i.lists.clone();
    let room = &mut vec![0; i.records.max(1) * RECORD][..];
    match case {
        "list" => repeat(n, 0, |summed| {
            calls_side::list(i, &mut lists.slots);
            summed.map_or((), |t| lists.slots.iter().for_each(|s| t.take(&[*s][..])))
        }),
        "lists" => repeat(n, 0, |summed| {
            calls_side::lists(i, &mut lists);
            summed.map_or((), |t| lists.slots.iter().for_each(|s| t.take(&[*s][..])))
        }),
        "walk" => repeat!(n, 0, t => calls_side::walk(i, &lists, room, t)),
        "stepped" => repeat!(n, 0, t => calls_side::stepped(i, &lists, t)),
        "lines" => repeat!(n, 0, t => {
            calls_side::lists(i, &mut lists);
            calls_side::walk(i, &lists, room, t)
        }),
        "one_symbol" => repeat!(n, 1, t => {
            calls_side::lists(i, &mut lists);
            calls_side::symbol(i, &lists, middle(&i.symbols), room, t)
        }),
        "files" => repeat!(n, 0, t => calls_side::files(i, t)),
        "one_file_at" => repeat!(n, 1, t => calls_side::file_at(i, middle(&i.indices), t)),
        "inlinees" => repeat!(n, 0, t => calls_side::inlinees(i, t)),
        "one_import" => repeat!(n, 1, t => calls_side::import(i, middle(&i.references), t)),
        "exports" => repeat!(n, 0, t => calls_side::exports(i, t)),
        "one_export" => repeat!(n, 1, t => calls_side::export(i, middle(&i.locals), t)),
        "name" => repeat!(n, 0, t => calls_side::names(i, t)),
        _ => ours_prepared(case, n, i),
    }
}

fn ours_prepared(case: &str, n: u64, i: &Input) {
    match case {
        "iterator" => {
            let program = rust_side::program(i);
            repeat!(n, 0, t => rust_side::walk(&program, t))
        }
        "symbol" => {
            let program = rust_side::program(i);
            repeat!(n, i.symbols.len(), t => rust_side::symbol(&i.symbols, &program, t))
        }
        "file_at" => {
            let program = rust_side::program(i);
            repeat!(n, 0, t => rust_side::file_at(&i.indices, &program, t))
        }
        "import" => {
            let table = rust_side::import_table(i);
            repeat!(n, 0, t => rust_side::import(&i.references, &table, t))
        }
        "export" => {
            let table = rust_side::export_table(i);
            repeat!(n, 0, t => rust_side::export(&i.locals, &table, t))
        }
        _ => panic!("case {case}"),
    }
}

/// The crate's side.
pub fn theirs(case: &str, n: u64, i: &Input) {
    match case {
        "list" | "lists" => repeat(n, 0, |summed| match summed {
            // The program does not tell its list, so the oracle's probe does.
            Some(t) => C13::order(&i.bytes).expect("order").iter().for_each(|s| t.take(&[*s as u64][..])),
            None => drop(std::hint::black_box(crate_side::program(i))),
        }),
        "lines" => repeat!(n, 0, t => crate_side::walk(&crate_side::program(i), t)),
        "one_symbol" => repeat!(n, 1, t => crate_side::symbol(middle(&i.symbols), &crate_side::program(i), t)),
        "files" => repeat!(n, 0, t => crate_side::files(&crate_side::program(i), t)),
        "one_file_at" => repeat!(n, 1, t => crate_side::file_at(middle(&i.indices), &crate_side::program(i), t)),
        "inlinees" => repeat!(n, 0, t => crate_side::inlinees(i, t)),
        "one_import" => repeat!(n, 1, t => crate_side::import(middle(&i.references), &crate_side::import_table(i), t)),
        "exports" => repeat!(n, 0, t => crate_side::exports(&crate_side::export_table(i), t)),
        "one_export" => repeat!(n, 1, t => crate_side::export(middle(&i.locals), &crate_side::export_table(i), t)),
        "name" => {
            let table = oracle_strings(&i.bytes).expect("table");
            repeat!(n, 0, t => crate_side::names(i, &table, t))
        }
        _ => theirs_prepared(case, n, i),
    }
}

fn theirs_prepared(case: &str, n: u64, i: &Input) {
    match case {
        "walk" | "stepped" | "iterator" => {
            let program = crate_side::program(i);
            repeat!(n, 0, t => crate_side::walk(&program, t))
        }
        "symbol" => {
            let program = crate_side::program(i);
            repeat!(n, i.symbols.len(), t => crate_side::symbol(&i.symbols, &program, t))
        }
        "file_at" => {
            let program = crate_side::program(i);
            repeat!(n, 0, t => crate_side::file_at(&i.indices, &program, t))
        }
        "import" => {
            let table = crate_side::import_table(i);
            repeat!(n, 0, t => crate_side::import(&i.references, &table, t))
        }
        "export" => {
            let table = crate_side::export_table(i);
            repeat!(n, 0, t => crate_side::export(&i.locals, &table, t))
        }
        _ => panic!("case {case}"),
    }
}
