//! One call over the worst areas that are known here: each call on each area, with each list of slots; of each call the area that took it longest.
//!
//! A line has the call, the area, and the seconds of CPU time for half the bytes and for all of them, with tabs between.

use crate::input::{bytes_of, subsection, Lists};
use crate::keys::ORDERS;
use crate::time::cpu_time;
use c13::calls::{self, END_LINES_CRATE, FILE_RECORD, GIVEN, LAST, LINE_STATE, NONE, RECORD, TABLE_STATE};
use std::collections::BTreeMap;
use std::hint::black_box;

/// A call and an area, and how long the one took over the other.
type Times = BTreeMap<(&'static str, String), f64>;

/// The time of one call: the middle one of three where it is short. What it needs is made anew each time, and not timed.
fn timed<T>(make: impl Fn() -> T, call: impl Fn(&mut T) -> u32) -> f64 {
    let mut times = vec![];
    while times.is_empty() || (times.len() < 3 && times[0] < 0.2) {
        let mut made = make();
        let before = cpu_time();
        black_box(call(black_box(&mut made)));
        times.push((cpu_time() - before) as f64 / 1e9);
    }
    times.sort_by(f64::total_cmp);
    times[times.len() / 2]
}

/// The same words again, as often as they fit.
fn again(bytes: usize, words: &[u32]) -> Vec<u8> {
    bytes_of((0..bytes / (4 * words.len())).flat_map(|_| words.iter().copied()))
}

/// One subsection: first words, and then entries as often as they fit, each made of its number.
fn one<const N: usize>(bytes: usize, kind: u32, first: &[u32], entry: fn(u32) -> [u32; N]) -> Vec<u8> {
    let n = (bytes - 8 - 4 * first.len()) / (4 * N);
    subsection(kind, &bytes_of(first.iter().copied().chain((0..n as u32).flat_map(entry))))
}

/// One line subsection of one block of lines, each with these flags.
fn block(bytes: usize, flags: u32) -> Vec<u8> {
    let lines = (bytes as u32 - 32) / 8;
    subsection(0xf2, &bytes_of([0, 1, lines, 0, lines, 12 + 8 * lines].into_iter().chain((0..lines).flat_map(|i| [i, flags]))))
}

/// A string table whose names are of this byte, and the last one of that.
fn names(bytes: usize, byte: u8, last: u8) -> Vec<u8> {
    let n = bytes - 24;
    [bytes_of([0xeffe_effe, 1, n as u32]), vec![byte; n - 1], vec![last], vec![0; 12]].concat()
}

/// Empty subsections, and behind them a small one of each kind that a call looks for.
fn tables_last(bytes: usize) -> Vec<u8> {
    let tables = [
        subsection(0xf2, &bytes_of([0, 1, 1, 0, 1, 20, 0, 10])),
        subsection(0xf4, &bytes_of([1, 0])),
        subsection(0xf6, &bytes_of([0, 0x1000, 0, 7])),
        subsection(0xf7, &bytes_of([5, 1, 0x1003])),
        subsection(0xf8, &bytes_of([7, 0x1007])),
    ]
    .concat();
    [again(bytes - tables.len(), &[0xf1, 0]), tables].concat()
}

/// An area: its name, and how it is made of so many bytes.
type Hostile = (&'static str, fn(usize) -> Vec<u8>);

const AREAS: [Hostile; 18] = [
    ("empty subsections", |n| again(n, &[0xf1, 0])),
    ("ignored subsections", |n| again(n, &[0x8000_0000, 0])),
    ("empty subsections, the tables last", tables_last),
    ("one opaque body", |n| subsection(0xf1, &vec![0; n - 8])),
    ("blocks of no lines", |n| one(n, 0xf2, &[0, 1, 0], |_| [0, 0, 12])),
    ("lines of one block", |n| block(n, 10)),
    ("markers of one block", |n| block(n, 0xfe_efee)),
    ("checksums of no bytes", |n| one(n, 0xf4, &[], |i| [i, 0])),
    ("empty checksum subsections", |n| again(n, &[0xf4, 0])),
    ("inlinees", |n| one(n, 0xf6, &[0], |i| [i, 0, 7])),
    ("inlinees, no extra files", |n| one(n, 0xf6, &[1], |i| [i, 0, 7, 0])),
    ("import modules of no words", |n| one(n, 0xf7, &[], |i| [i, 0])),
    ("one import module", |n| one(n, 0xf7, &[5, (n as u32 - 16) / 4], |i| [i])),
    ("exports", |n| one(n, 0xf8, &[], |i| [i, i])),
    ("exports, the last one not in order", |n| subsection(0xf8, &bytes_of((0..(n as u32 - 16) / 8).flat_map(|i| [i + 1, i]).chain([0, 0])))),
    ("one name without an end", |n| names(n, b'a', b'a')),
    ("one name", |n| names(n, b'a', 0)),
    ("empty names", |n| names(n, 0, 0)),
];

/// Line subsections without a block, in each order of keys, and with one line, in no order: a record, a marker, and behind records a block that is refused.
fn line_areas(bytes: usize) -> Vec<(String, Vec<u8>)> {
    let empty = |key: u32| subsection(0xf2, &bytes_of([key, 1, 1]));
    let mut areas: Vec<(String, Vec<u8>)> = ORDERS
        .iter()
        .map(|(name, keys)| (format!("empty line subsections {name}"), keys((bytes / 20) as u32).into_iter().flat_map(empty).collect()))
        .collect();
    areas.push(("lines in no order".into(), lines_in_no_order(bytes, 10)));
    areas.push(("markers in no order".into(), lines_in_no_order(bytes, 0xfe_efee)));
    let refused = subsection(0xf2, &bytes_of([u32::MAX, 1, 0, 0, 0, 8]));
    areas.push(("lines in no order, a wrong block behind".into(), [refused, lines_in_no_order(bytes - 32, 10)].concat()));
    areas
}

/// Line subsections of one line each, with these flags.
fn lines_in_no_order(bytes: usize, flags: u32) -> Vec<u8> {
    let line = |key: u32| subsection(0xf2, &bytes_of([key, 1, 1, 0, 1, 20, 0, flags]));
    ORDERS[2].1((bytes / 40) as u32).into_iter().flat_map(line).collect()
}

/// A call that reads an area or a stream, with what is lent to it.
type Reading = (&'static str, fn(&[u8], &mut Room) -> u32);

/// What is lent: slots, records and words.
struct Room {
    slots: Vec<u32>,
    records: Vec<u32>,
    out: [u64; LINE_STATE + RECORD],
}

impl Room {
    /// Room for all that a call can give of an area of so many bytes. Each page is touched.
    fn of(call: &str, bytes: usize) -> Room {
        let slots = match call {
            "c13_order_list" | "c13_body_list" => bytes / 20,
            "c13_import_list" => bytes / 8,
            _ => 0,
        };
        let files = if call == "c13_files" { bytes / 8 } else { 0 };
        Room { slots: vec![1; slots], records: vec![1; files * FILE_RECORD], out: [0; LINE_STATE + RECORD] }
    }
}

/// Of an area the bytes before its end that are a body of exports by their number.
fn pairs(area: &[u8]) -> &[u8] {
    &area[area.len() % 8..]
}

const READINGS: [Reading; 26] = [
    ("c13_next_sub", |a, r| calls::c13_next_sub(a, &mut r.out)),
    ("c13_order_list", |a, r| calls::c13_order_list(a, &mut r.slots, &mut r.out)),
    ("c13_body_list", |a, r| calls::c13_body_list(a, &mut r.slots, &mut r.out)),
    ("c13_next_file", |a, r| calls::c13_next_file(a, &mut r.out)),
    ("c13_files", |a, r| calls::c13_files(a, &mut r.records, &mut r.out)),
    ("c13_file_at", |a, r| calls::c13_file_at(a, 0, &mut r.out)),
    ("c13_checksums", |a, r| calls::c13_checksums(a, &mut r.out)),
    ("c13_file_in", |a, r| calls::c13_file_in(a, 8, &mut r.out)),
    ("c13_next_inlinee", |a, r| calls::c13_next_inlinee(a, &mut r.out)),
    ("c13_next_import", |a, r| calls::c13_next_import(a, &mut r.out)),
    ("c13_word", |a, r| calls::c13_word(a, 8, a.len() / 4 - 2, a.len() / 4 - 3, &mut r.out)),
    ("c13_resolve_import", |a, r| calls::c13_resolve_import(a, u32::MAX, &mut r.out)),
    ("c13_import_list", |a, r| calls::c13_import_list(a, &mut r.slots, &mut r.out)),
    ("c13_resolve_listed", |a, r| calls::c13_resolve_listed(a, &[8], 0x8000_0000, &mut r.out)),
    ("c13_next_export", |a, r| calls::c13_next_export(a, &mut r.out)),
    ("c13_export_count", |a, r| calls::c13_export_count(a, &mut r.out)),
    ("c13_resolve_export", |a, r| calls::c13_resolve_export(a, u32::MAX, &mut r.out)),
    ("c13_export_body", |a, r| calls::c13_export_body(a, &mut r.out)),
    ("c13_export_at", |a, r| calls::c13_export_at(pairs(a), a.len() / 16, &mut r.out)),
    ("c13_export_in", |a, r| calls::c13_export_in(pairs(a), u32::MAX, &mut r.out)),
    ("c13_string_table", |a, r| calls::c13_string_table(a, &mut r.out)),
    ("c13_name", |a, r| calls::c13_name(a, 0, &mut r.out)),
    ("c13_module_symbols", |a, r| calls::c13_module_symbols(a, 4, 0, 4, &mut r.out)),
    ("c13_lines_part", |a, r| calls::c13_lines_part(a, 4, 0, 4, &mut r.out)),
    ("c13_tables_part", |a, r| calls::c13_tables_part(a, 4, 0, 4, &mut r.out)),
    ("c13_plain", |a, r| calls::c13_plain(a, &mut r.out)),
];

/// Each reading call over an area.
fn reading(name: &str, area: &[u8], times: &mut Times) {
    for (call, read) in READINGS {
        let seconds = timed(|| Room::of(call, area.len()), |room| read(area, room));
        times.insert((call, name.into()), seconds);
    }
}

/// A list of slots: its name, and the list of n slots out of the area's lists.
type SlotList = (&'static str, fn(&Lists, usize) -> Vec<u32>);

const SLOT_LISTS: [SlotList; 5] = [
    ("the order list", |l, _| l.slots.clone()),
    ("slots from both ends in turn", |l, n| (0..n).map(|i| l.bodies[if i % 2 == 0 { i / 2 % n } else { n - 1 - i / 2 }]).collect()),
    ("backward slots", |l, _| l.bodies.iter().rev().copied().collect()),
    ("the first slot again and again", |l, n| vec![l.bodies[0]; n]),
    ("the last slot again and again", |l, n| vec![l.bodies[n - 1]; n]),
];

/// Each call on lines, with the area's body list and each list of slots.
fn lines(name: &str, area: &[u8], times: &mut Times) {
    let Some(lists) = Lists::of(area).filter(|lists| !lists.slots.is_empty()) else { return };
    for (slots_name, slots_of) in SLOT_LISTS {
        let slots = slots_of(&lists, lists.slots.len());
        let name = format!("{name}; {slots_name}");
        let out = || [0; LINE_STATE + RECORD];
        let seconds = timed(out, |out| calls::c13_next_line(area, &slots, &lists.bodies, out));
        times.insert(("c13_next_line", name.clone()), seconds);
        let room = || (vec![1; area.len() / 8 * RECORD], out());
        let seconds = timed(room, |(records, out)| calls::c13_lines(area, &slots, &lists.bodies, records, out));
        times.insert(("c13_lines", name.clone()), seconds);
        let seconds = timed(out, |out| calls::c13_lines_for_symbol(area, &slots, &lists.bodies, 1, u32::MAX, END_LINES_CRATE, out));
        times.insert(("c13_lines_for_symbol", name), seconds);
    }
}

/// A walk from a state that no call gave.
fn forged(name: String, area: &[u8], slots: &[u32], words: &[(usize, usize)], times: &mut Times) {
    let bodies = Lists::of(area).map_or(vec![], |lists| lists.bodies);
    let out = || {
        let mut out = [0; LINE_STATE + RECORD];
        words.iter().for_each(|(i, word)| out[*i] = *word as u64);
        out
    };
    let seconds = timed(out, |out| calls::c13_next_line(area, slots, &bodies, out));
    times.insert(("c13_next_line", name.clone()), seconds);
    let room = || (vec![1; area.len() / 8 * RECORD], out());
    let seconds = timed(room, |(records, out)| calls::c13_lines(area, slots, &bodies, records, out));
    times.insert(("c13_lines", name), seconds);
}

/// Forged walks: one that stands in a body as long as the area, whose lines have no end; and where there are many bodies, one that has as many slots as the
/// area has words, which all name the last body. That is a short one: see `one_body_again`.
fn forgeries(name: &str, area: &[u8], times: &mut Times) {
    let inside = [(0, 2), (23, area.len()), (26, usize::MAX)];
    forged(format!("{name}; a forged state inside a body"), area, &[], &inside, times);
    let lists = Lists::of(area).unwrap_or_default();
    if lists.bodies.len() > area.len() / 64 {
        let slots = vec![lists.bodies[lists.bodies.len() - 1]; area.len() / 4];
        forged(format!("{name}; a forged state, the last slot again and again"), area, &slots, &[(0, 1), (2, slots.len())], times);
    }
}

/// A call of the writer at a place of a buffer.
type Writing = (&'static str, fn(&mut [u8], usize, &mut [u64]) -> u32);

const WRITINGS: [Writing; 11] = [
    ("c13_open_lines", |b, p, out| calls::c13_open_lines(b, p, 0, 1, 0, 1, out)),
    ("c13_add_block", |b, p, out| calls::c13_add_block(b, p, 0, &[0, 10], &[], out)),
    ("c13_open_checksums", |b, p, out| calls::c13_open_checksums(b, p, out)),
    ("c13_add_entry", |b, p, out| calls::c13_add_entry(b, p, 1, 0, &[], out)),
    ("c13_open_inlinees", |b, p, out| calls::c13_open_inlinees(b, p, 0, out)),
    ("c13_add_inlinee", |b, p, out| calls::c13_add_inlinee(b, p, 1, 0, 7, &[], out)),
    ("c13_open_imports", |b, p, out| calls::c13_open_imports(b, p, out)),
    ("c13_add_module", |b, p, out| calls::c13_add_module(b, p, 5, &[], out)),
    ("c13_open_exports", |b, p, out| calls::c13_open_exports(b, p, out)),
    ("c13_add_pair", |b, p, out| calls::c13_add_pair(b, p, u32::MAX, 1, out)),
    ("c13_add_opaque", |b, p, out| calls::c13_add_opaque(b, p, 0xf1, &[], out)),
];

/// Each call of the writer behind a plain area, in a buffer with a little room behind it.
fn writing(name: &str, area: &[u8], times: &mut Times) {
    if calls::c13_plain(area, &mut [0; 3]) != GIVEN {
        return;
    }
    let buffer = [area, &[0; 64]].concat();
    for (call, write) in WRITINGS {
        let seconds = timed(|| (buffer.clone(), [0; 2]), |(buf, out)| write(buf, area.len(), out));
        times.insert((call, format!("behind {name}")), seconds);
    }
}

/// Every call, over areas of so many bytes.
fn every(bytes: usize) -> Times {
    let mut times = Times::new();
    let areas = AREAS.iter().map(|(name, make)| (name.to_string(), make(bytes - 64)));
    for (name, area) in areas.chain(line_areas(bytes - 64)) {
        assert!(area.len() <= bytes && area.len() + 256 > bytes, "{name}: {} bytes", area.len());
        reading(&name, &area, &mut times);
        lines(&name, &area, &mut times);
        forgeries(&name, &area, &mut times);
        writing(&name, &area, &mut times);
    }
    times
}

/// The whole walk over lines in no order, with room for so many records in each call.
fn whole_walk(bytes: usize, room: usize) -> f64 {
    let area = lines_in_no_order(bytes, 10);
    let lists = Lists::of(&area).expect("lists");
    let make = || (vec![1; room * RECORD], [0; LINE_STATE + 2]);
    timed(make, |(records, out)| loop {
        match calls::c13_lines(&area, &lists.slots, &lists.bodies, records, out) {
            GIVEN => {}
            status => {
                assert!(status == LAST || status == NONE, "status {status}");
                return status;
            }
        }
    })
}

/// One call over backward slots with no body list: each slot is searched from the area's start.
fn without_bodies(bytes: usize) -> f64 {
    let area = again(bytes, &[0xf2, 12, 0, 1, 1]);
    let lists = Lists::of(&area).expect("lists");
    let slots: Vec<u32> = lists.bodies.iter().rev().copied().collect();
    timed(|| [0; LINE_STATE + RECORD], |out| calls::c13_next_line(&area, &slots, &[], out))
}

/// One call over slots that all name one long body without a record: it is read as often as it is named.
fn one_body_again(bytes: usize) -> f64 {
    let area = [one(bytes / 2, 0xf2, &[0, 1, 0], |_| [0, 0, 12]), again(bytes / 2, &[0xf2, 12, 0, 1, 1])].concat();
    let lists = Lists::of(&area).expect("lists");
    let slots = vec![lists.bodies[0]; lists.bodies.len()];
    timed(|| [0; LINE_STATE + RECORD], |out| calls::c13_next_line(&area, &slots, &lists.bodies, out))
}

/// The rows, over areas of half so many bytes and of so many.
pub fn hostile(bytes: usize) {
    assert!(TABLE_STATE < LINE_STATE && bytes >= 1 << 16, "65,536 bytes at least");
    let (half, whole) = (every(bytes / 2), every(bytes));
    let mut worst: BTreeMap<&str, (&String, f64)> = BTreeMap::new();
    for ((call, area), seconds) in &whole {
        let so_far = worst.entry(call).or_insert((area, *seconds));
        if *seconds > so_far.1 {
            *so_far = (area, *seconds);
        }
    }
    let calls = READINGS.map(|c| c.0).into_iter().chain(["c13_next_line", "c13_lines", "c13_lines_for_symbol"]).chain(WRITINGS.map(|c| c.0));
    for call in calls {
        let (area, seconds) = worst[call];
        let halved = half.get(&(call, area.clone())).copied().unwrap_or(0.0);
        println!("{call}\t{area}\t{halved:.4}\t{seconds:.4}");
    }
    println!("c13_lines to the end\tlines in no order, room for 256\t{:.4}\t{:.4}", whole_walk(bytes / 2, 256), whole_walk(bytes, 256));
    let few = bytes / 32;
    println!("few c13_next_line\tbackward slots, no body list\t{:.4}\t{:.4}", without_bodies(few / 2), without_bodies(few));
    println!("few c13_next_line\tone long body in each slot\t{:.4}\t{:.4}", one_body_again(few / 2), one_body_again(few));
}
