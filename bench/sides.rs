//! The cases, on each side.

use crate::answers::{FileWords, Taker, SHARED};
use crate::input::{Input, Lists};
use c13::calls::{self, RecordWord, END_LINES_CRATE, FILE_RECORD, GIVEN, LAST, LINE_STATE, NONE, RECORD, TABLE_STATE};
use pdb::{FallibleIterator, FileIndex, LineIterator, Local, PdbInternalSectionOffset, StringRef, TypeIndex};
use std::hint::black_box;

/// How many files one call of `c13_files` has room for.
const FILES: usize = 16;

/// The cases through the library's calls. What is lent for records is lent again and again.
pub mod calls_side {
    use super::*;

    fn given(status: u32) {
        assert!(status == GIVEN, "status {status}");
    }

    /// One record a call.
    fn steps(out: &mut [u64], step: impl Fn(&mut [u64]) -> u32, mut take: impl FnMut(&[u64])) {
        loop {
            match step(out) {
                GIVEN => take(out),
                NONE => return,
                other => panic!("status {other}"),
            }
        }
    }

    /// Many records a call, of N words each, behind a state.
    fn fills<const N: usize>(
        (out, state): (&mut [u64], usize),
        records: &mut [RecordWord],
        call: impl Fn(&mut [RecordWord], &mut [u64]) -> u32,
        mut take: impl FnMut(&[RecordWord]),
    ) {
        loop {
            let status = call(records, out);
            if status == NONE {
                return;
            }
            assert!(status == GIVEN || status == LAST, "status {status}");
            records.chunks_exact(N).take(out[state] as usize).for_each(&mut take);
            if status == LAST {
                return;
            }
        }
    }

    pub fn list(i: &Input, slots: &mut [u32]) {
        let mut out = [0; 2];
        given(calls::c13_order_list(black_box(&i.bytes), slots, &mut out));
        black_box(&out);
    }
    /// Where the slots ascend they are the body list: `bodies` holds the same numbers from before.
    pub fn lists(i: &Input, lists: &mut Lists) {
        let mut out = [0; 2];
        list(i, &mut lists.slots);
        if !lists.slots.windows(2).all(|pair| pair[0] < pair[1]) {
            given(calls::c13_body_list(black_box(&i.bytes), &mut lists.bodies, &mut out));
            black_box(&out);
        }
    }
    fn records(area: &[u8], lists: &Lists, out: &mut [u64], room: &mut [RecordWord], t: &mut impl Taker) {
        let call = |records: &mut [RecordWord], out: &mut [u64]| calls::c13_lines(area, &lists.slots, &lists.bodies, records, out);
        fills::<RECORD>((out, LINE_STATE), room, call, |r| t.take(&r[..SHARED]));
    }
    pub fn walk(i: &Input, lists: &Lists, room: &mut [RecordWord], t: &mut impl Taker) {
        records(black_box(i.bytes.as_slice()), lists, &mut [0; LINE_STATE + 2], room, t);
    }
    pub fn stepped(i: &Input, lists: &Lists, t: &mut impl Taker) {
        let area = black_box(i.bytes.as_slice());
        let step = |out: &mut [u64]| calls::c13_next_line(area, &lists.slots, &lists.bodies, out);
        steps(&mut [0; LINE_STATE + RECORD], step, |out| t.take(&out[LINE_STATE..LINE_STATE + SHARED]));
    }
    pub fn symbol(i: &Input, lists: &Lists, symbols: &[(u16, u32)], room: &mut [RecordWord], t: &mut impl Taker) {
        let area = black_box(i.bytes.as_slice());
        for (section, offset) in symbols {
            let mut out = [0; LINE_STATE + 2];
            given(calls::c13_lines_for_symbol(area, &lists.slots, &lists.bodies, *section, *offset, END_LINES_CRATE, &mut out));
            records(area, lists, &mut out, room, t);
        }
    }
    fn file<W: Copy + Into<u64>>(area: &[u8], words: &[W], t: &mut impl Taker) {
        let [start, length] = [words[2], words[3]].map(|w| w.into() as usize);
        t.take(&FileWords(words, &area[start..start + length]));
    }
    pub fn files(i: &Input, t: &mut impl Taker) {
        let area = black_box(i.bytes.as_slice());
        let call = |records: &mut [RecordWord], out: &mut [u64]| calls::c13_files(area, records, out);
        fills::<FILE_RECORD>((&mut [0; TABLE_STATE + 2], TABLE_STATE), &mut [0; FILES * FILE_RECORD], call, |r| file(area, &r[1..], t));
    }
    pub fn file_at(i: &Input, indices: &[u32], t: &mut impl Taker) {
        let area = black_box(i.bytes.as_slice());
        for index in indices {
            let mut out = [0; 4];
            given(calls::c13_file_at(area, *index, &mut out));
            file(area, &out, t);
        }
    }
    pub fn inlinees(i: &Input, t: &mut impl Taker) {
        let area = black_box(i.bytes.as_slice());
        steps(&mut [0; 9], |out| calls::c13_next_inlinee(area, out), |out| t.take(&out[TABLE_STATE..TABLE_STATE + 1]));
    }
    pub fn import(i: &Input, references: &[u32], t: &mut impl Taker) {
        let area = black_box(i.bytes.as_slice());
        for index in references {
            let mut out = [0; 2];
            given(calls::c13_resolve_import(area, *index, &mut out));
            t.take(&out[..]);
        }
    }
    pub fn exports(i: &Input, t: &mut impl Taker) {
        let area = black_box(i.bytes.as_slice());
        steps(&mut [0; 7], |out| calls::c13_next_export(area, out), |out| t.take(&out[TABLE_STATE..]));
    }
    pub fn export(i: &Input, locals: &[u32], t: &mut impl Taker) {
        let area = black_box(i.bytes.as_slice());
        for local in locals {
            let mut out = [0; 2];
            given(calls::c13_resolve_export(area, *local, &mut out));
            t.take(&out[..1]);
        }
    }
    pub fn names(i: &Input, t: &mut impl Taker) {
        let stream = black_box(i.bytes.as_slice());
        for offset in &i.offsets {
            let mut out = [0; 2];
            given(calls::c13_name(stream, *offset, &mut out));
            t.take(&stream[out[0] as usize..(out[0] + out[1]) as usize]);
        }
    }
}

/// The cases through the Rust crate of this library, which prepares what it is asked.
pub mod rust_side {
    use super::*;

    pub fn program(i: &Input) -> c13::LineProgram<'_> {
        c13::Area::new(black_box(i.bytes.as_slice())).line_program().expect("program")
    }
    pub fn walk(program: &c13::LineProgram<'_>, t: &mut impl Taker) {
        black_box(program).lines().for_each(|line| t.take(&line.expect("line")));
    }
    pub fn symbol(symbols: &[(u16, u32)], program: &c13::LineProgram<'_>, t: &mut impl Taker) {
        for (section, offset) in symbols {
            let place = c13::PdbInternalSectionOffset { section: *section, offset: *offset };
            black_box(program).lines_for_symbol(place).for_each(|line| t.take(&line.expect("line")));
        }
    }
    pub fn file_at(indices: &[u32], program: &c13::LineProgram<'_>, t: &mut impl Taker) {
        for index in indices {
            t.take(&black_box(program).get_file_info(c13::FileIndex(*index)).expect("file"));
        }
    }
    pub fn import_table(i: &Input) -> c13::CrossModuleImports<'_> {
        c13::Area::new(black_box(i.bytes.as_slice())).imports()
    }
    pub fn import(references: &[u32], table: &c13::CrossModuleImports<'_>, t: &mut impl Taker) {
        for index in references {
            let found = black_box(table).resolve_import(*index).expect("reference");
            t.take(&[(found.0).0 .0, found.1][..]);
        }
    }
    pub fn export_table(i: &Input) -> c13::CrossModuleExports<'_> {
        c13::Area::new(black_box(i.bytes.as_slice())).exports().expect("exports")
    }
    pub fn export(locals: &[u32], table: &c13::CrossModuleExports<'_>, t: &mut impl Taker) {
        for local in locals {
            t.take(&[black_box(table).resolve_import(*local).expect("exports").expect("there")][..]);
        }
    }
}

/// The cases through the crate pdb. What it makes of an area before it can answer (`line_program` and so on) is measured where the case says so.
pub mod crate_side {
    use super::*;

    pub fn program(i: &Input) -> pdb::LineProgram<'_> {
        black_box(i).module().line_program().expect("program")
    }
    fn lines(mut lines: LineIterator<'_>, t: &mut impl Taker) {
        while let Some(line) = lines.next().expect("line") {
            t.take(&line);
        }
    }
    pub fn walk(program: &pdb::LineProgram<'_>, t: &mut impl Taker) {
        lines(black_box(program).lines(), t);
    }
    pub fn symbol(symbols: &[(u16, u32)], program: &pdb::LineProgram<'_>, t: &mut impl Taker) {
        for (section, offset) in symbols {
            lines(black_box(program).lines_for_symbol(PdbInternalSectionOffset { section: *section, offset: *offset }), t);
        }
    }
    pub fn files(program: &pdb::LineProgram<'_>, t: &mut impl Taker) {
        let mut files = program.files();
        while let Some(file) = files.next().expect("file") {
            t.take(&file);
        }
    }
    pub fn file_at(indices: &[u32], program: &pdb::LineProgram<'_>, t: &mut impl Taker) {
        for index in indices {
            t.take(&black_box(program).get_file_info(FileIndex(*index)).expect("file"));
        }
    }
    pub fn inlinees(i: &Input, t: &mut impl Taker) {
        let mut inlinees = black_box(i).module().inlinees().expect("inlinees");
        while let Some(inlinee) = inlinees.next().expect("inlinee") {
            t.take(&[u64::from(inlinee.index().0)][..]);
        }
    }
    pub fn import_table(i: &Input) -> pdb::CrossModuleImports<'_> {
        black_box(i).module().imports().expect("imports")
    }
    pub fn import(references: &[u32], table: &pdb::CrossModuleImports<'_>, t: &mut impl Taker) {
        for index in references {
            let found = black_box(table).resolve_import(TypeIndex(*index)).expect("reference");
            t.take(&[(found.0).0 .0, (found.1).0 .0][..]);
        }
    }
    pub fn export_table(i: &Input) -> pdb::CrossModuleExports {
        black_box(i).module().exports().expect("exports")
    }
    pub fn exports(table: &pdb::CrossModuleExports, t: &mut impl Taker) {
        let mut all = table.exports();
        while let Some(export) = all.next().expect("export") {
            t.take(&export);
        }
    }
    pub fn export(locals: &[u32], table: &pdb::CrossModuleExports, t: &mut impl Taker) {
        for local in locals {
            let global = black_box(table).resolve_import(Local(TypeIndex(*local))).expect("export").expect("there");
            t.take(&[global.0][..]);
        }
    }
    pub fn names(i: &Input, table: &pdb::StringTable<'_>, t: &mut impl Taker) {
        for offset in &i.offsets {
            t.take(table.get(StringRef(*offset)).expect("name").as_bytes());
        }
    }
}
