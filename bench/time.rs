//! CPU time beside the crate pdb: both sides in turn in one process, and the middle one of the times of each.

use crate::answers::{Handed, Summed};
use crate::input::Input;
use crate::sides::{calls_side, crate_side, rust_side};
use crate::write::{write_all, Step};
use c13::calls::RECORD;
use std::hint::black_box;

/// How long a case is repeated, and a sample of it at least, in nanoseconds of CPU time.
const WHOLE: u64 = 400_000_000;
const SAMPLE: u64 = 2_000_000;
/// How many samples are taken of each side, at least and at most.
const LEAST: usize = 9;
const MOST: usize = 101;

/// The CPU time that the process has used, in nanoseconds.
pub fn cpu_time() -> u64 {
    const CLOCK_PROCESS_CPUTIME_ID: i32 = 2;
    extern "C" {
        fn clock_gettime(clock: i32, time: *mut [i64; 2]) -> i32;
    }
    let mut time = [0i64; 2];
    let status = unsafe { clock_gettime(CLOCK_PROCESS_CPUTIME_ID, &mut time) };
    assert!(status == 0, "no clock of CPU time");
    time[0] as u64 * 1_000_000_000 + time[1] as u64
}

/// The time of some repetitions.
fn timed(repetitions: u64, case: &mut impl FnMut()) -> u64 {
    let before = cpu_time();
    (0..repetitions).for_each(|_| case());
    cpu_time() - before
}

fn median(times: &mut [u64]) -> u64 {
    times.sort_unstable();
    times[times.len() / 2]
}

/// Times both sides in turn and writes the row: the case, what the times are divided by, and the two times in nanoseconds.
fn beside(case: &str, per: u64, mut ours: impl FnMut(), mut theirs: impl FnMut()) {
    let once = timed(1, &mut ours).max(timed(1, &mut theirs)).max(1);
    let repetitions = (SAMPLE / once).max(1);
    let (mut a, mut b, start) = (vec![], vec![], cpu_time());
    while a.len() < LEAST || (cpu_time() - start < WHOLE && a.len() < MOST) {
        a.push(timed(repetitions, &mut ours));
        b.push(timed(repetitions, &mut theirs));
    }
    let each = |times: &mut [u64]| median(times) as f64 / repetitions as f64 / per as f64;
    println!("{case} {per} {:.3} {:.3}", each(&mut a), each(&mut b));
}

/// Tests that both sides answer the same, and times them; nothing where there is no answer. What is divided by are the calls, or without any the answers.
macro_rules! beside {
    ($case:expr, $calls:expr, $t:ident => $ours:expr, $theirs:expr) => {{
        let (mut a, mut b) = (Summed::default(), Summed::default());
        {
            let $t = &mut a;
            $ours
        }
        {
            let $t = &mut b;
            $theirs
        }
        assert_eq!(a, b, "{}: the answers differ", $case);
        let per = if $calls == 0 { a.answers } else { $calls as u64 };
        if a.answers > 0 {
            beside(
                $case,
                per,
                || {
                    let $t = &mut Handed;
                    $ours
                },
                || {
                    let $t = &mut Handed;
                    $theirs
                },
            );
        }
    }};
}

/// Lists and walks.
fn lines(i: &Input) {
    let mut lists = i.lists.clone();
    let program = crate_side::program(i);
    let subsections = lists.slots.len() as u64;
    if subsections == 0 {
        return;
    }
    beside("list", subsections, || calls_side::list(i, &mut lists.slots), || drop(black_box(crate_side::program(i))));
    beside("lists", subsections, || calls_side::lists(i, &mut lists), || drop(black_box(crate_side::program(i))));
    for room in [256, 4096, 65536, i.records.max(1)] {
        let name = if room == i.records.max(1) { "walk,all".to_string() } else { format!("walk,{room}") };
        let room = &mut vec![0; room * RECORD][..];
        beside!(&name, 0, t => calls_side::walk(i, &lists, room, t), crate_side::walk(&program, t));
    }
    let room = &mut vec![0; i.records.clamp(1, 65536) * RECORD][..];
    beside!("lists+walk", 0, t => {
        calls_side::lists(i, &mut lists);
        calls_side::walk(i, &lists, room, t)
    }, crate_side::walk(&crate_side::program(i), t));
}

/// The Rust crate of this library: the iterator, with its lists and with lists made before, and lookups in what was prepared.
fn rust(i: &Input) {
    let (ours, theirs) = (rust_side::program(i), crate_side::program(i));
    beside!("iterator", 0, t => rust_side::walk(&ours, t), crate_side::walk(&theirs, t));
    beside!("program+iterator", 0, t => rust_side::walk(&rust_side::program(i), t), crate_side::walk(&crate_side::program(i), t));
    beside!("symbol", i.symbols.len(), t => rust_side::symbol(&i.symbols, &ours, t), crate_side::symbol(&i.symbols, &theirs, t));
    beside!("file_at", 0, t => rust_side::file_at(&i.indices, &ours, t), crate_side::file_at(&i.indices, &theirs, t));
    if !i.references.is_empty() {
        let (ours, theirs) = (rust_side::import_table(i), crate_side::import_table(i));
        beside!("import", 0, t => rust_side::import(&i.references, &ours, t), crate_side::import(&i.references, &theirs, t));
    }
    if !i.locals.is_empty() {
        let (ours, theirs) = (rust_side::export_table(i), crate_side::export_table(i));
        beside!("export", 0, t => rust_side::export(&i.locals, &ours, t), crate_side::export(&i.locals, &theirs, t));
    }
}

/// The area written again by the Rust crate's Writer, call by call. The crate pdb writes nothing.
fn writer(i: &Input) {
    let Some(steps) = Step::all(&i.bytes) else { return };
    let mut buf = vec![0; i.bytes.len()];
    let written = write_all(&steps, &mut buf);
    assert!(written == Some(i.bytes.len()) && buf == i.bytes, "the area is not what was written");
    let mut times: Vec<u64> = (0..LEAST).map(|_| timed(1, &mut || assert!(black_box(write_all(&steps, &mut buf)).is_some()))).collect();
    println!("writer {} {:.3} -", steps.len(), median(&mut times) as f64 / steps.len() as f64);
}

/// All cases over an area.
pub fn time(i: &Input) {
    lines(i);
    rust(i);
    writer(i);
}
