//! The wrapper: what it says of the example, of the sheet's area, and that no bytes make it panic.

use c13::*;

const AREA: &[u8] = include_bytes!("../../examples/table.c13");
const NAMES: &[u8] = include_bytes!("../../examples/table.names");

fn place(section: u16, offset: u32) -> PdbInternalSectionOffset {
    PdbInternalSectionOffset { section, offset }
}

fn bytes_of(words: &[u32]) -> Vec<u8> {
    words.iter().flat_map(|w| w.to_le_bytes()).collect()
}

/// A subsection of words.
fn subsection(kind: u32, body: &[u32]) -> Vec<u8> {
    [bytes_of(&[kind, 4 * body.len() as u32]), bytes_of(body)].concat()
}

#[test]
fn the_example_is_read() {
    let area = Area::new(AREA);
    let kinds: Vec<_> = area.subsections().map(|s| s.map(|s| (s.kind, s.data.len()))).collect::<Result<_, _>>().expect("subsections");
    let lines = SubsectionKind::Lines;
    assert_eq!(kinds, [(lines, 72), (lines, 80), (lines, 32), (SubsectionKind::FileChecksums, 24)]);
    let program = area.line_program().expect("program");
    let lines: Vec<LineInfo> = program.lines().collect::<Result<_, _>>().expect("lines");
    assert_eq!(lines.len(), 14);
    let at: Vec<(u32, Option<u32>, u32)> = lines.iter().map(|l| (l.offset.offset, l.length, l.line_start)).collect();
    assert_eq!(at[..3], [(0, Some(12), 11), (12, Some(14), 12), (26, Some(12), 13)]);
    assert_eq!(at[13], (0xd0, Some(25), 17));
    assert!(lines.iter().all(|l| l.kind == LineInfoKind::Expression && l.column_start.is_none() && l.line_end == l.line_start));
}

#[test]
fn the_auditor_is_answered() {
    let program = Area::new(AREA).line_program().expect("program");
    let line = program.line_at(place(1, 0x88)).expect("a line").expect("there");
    assert_eq!((line.offset.offset, line.line_start), (0x86, 6));
    let file = program.get_file_info(line.file_index).expect("file");
    assert_eq!((file.checksum.kind(), file.checksum.to_string()), ("md5", "8c7b2c834e5c3fd1a77c7e8b461d6a14".into()));
    assert_eq!(StringTable::parse(NAMES).expect("table").get(file.name).expect("name"), b"c:\\probe\\table.c");
    // a gap, another section, behind the end
    for nowhere in [place(1, 0x62), place(2, 0x88), place(1, 0xe9)] {
        assert_eq!(program.line_at(nowhere), Ok(None));
    }
}

#[test]
fn a_symbol_has_the_lines_of_its_subsection() {
    let program = Area::new(AREA).line_program().expect("program");
    let starts = |p| program.lines_for_symbol(p).map(|l| l.map(|l| l.line_start)).collect::<Result<Vec<_>, _>>().expect("lines");
    assert_eq!(starts(place(1, 0)), [11, 12, 13, 14, 15, 16]);
    assert_eq!(starts(place(1, 0x71)), [4, 5, 6, 7, 8, 9, 10]);
    assert!(starts(place(0, 0)).is_empty());
}

/// Where the bodies of the subsections start that the lines of a walk are from.
fn bodies(lines: LineIterator<'_>) -> Vec<u32> {
    lines.map(|line| line.map(|line| line.body)).collect::<Result<_, _>>().expect("lines")
}

#[test]
fn a_line_tells_its_subsection() {
    let program = Area::new(AREA).line_program().expect("program");
    assert_eq!(bodies(program.lines()), [vec![8; 6], vec![88; 7], vec![176]].concat());
    assert_eq!(bodies(program.lines_for_symbol(place(1, 0x71))), [88; 7]);
    // two that are the same but for where they stand, and two over these
    let sub = |offset, start| subsection(0xf2, &[offset, 1, 0x20, 0, 1, 20, 0, start]);
    let area = [subsection(0xf4, &[]), sub(0x1010, 30), sub(0x1000, 10), sub(0x1000, 10), sub(0x1008, 20)].concat();
    let program = Area::new(&area).line_program().expect("program");
    assert_eq!(bodies(program.lines()), [56, 96, 136, 16]);
    for (at, body) in [(0x1000, 56), (0x1007, 96), (0x1008, 136), (0x1018, 16)] {
        assert_eq!(bodies(program.lines_for_symbol(place(1, at))), [body]);
    }
}

/// Tests that before a line's position stands the header of a line subsection that ends in the area, that this is of the line's section, and that its code
/// begins no later than the line.
fn has_its_subsection(area: &[u8], line: &LineInfo) {
    let body = line.body as usize;
    let word = |at: usize| u32::from_le_bytes(area[at..at + 4].try_into().expect("four"));
    assert!(word(body - 8) == 0xf2 && word(body - 4) as usize <= area.len() - body, "{line:?}");
    assert!(word(body + 4) as u16 == line.offset.section && word(body) <= line.offset.offset, "{line:?}");
}

/// The readings of end lines.
const READINGS: [EndLines; 3] = [EndLines::Crate, EndLines::LowBits, EndLines::Delta];

/// Flags words with their start lines, and the end lines that low bits and delta give them. By low bits: in the same 128 lines, past their end, and
/// behind the last start line. By delta: within few lines, and the largest there is. Of the first three words the end lines differ by all readings.
const ENDS: [(u32, u32, u32, u32); 5] = [
    (0x8c00_000a, 10, 12, 22),
    (0x0200_007f, 127, 130, 129),
    (0x8200_000a, 10, 130, 12),
    (0x00ff_ffff, 0xff_ffff, 0x100_0000, 0xff_ffff),
    (0x7fff_ffff, 0xff_ffff, 0xff_ffff, 0x100_007e),
];

/// An area of two line subsections, the second one in front, each with the lines of `ENDS` in two blocks.
fn ends() -> Vec<u8> {
    let [a, b, c, d, e] = ENDS.map(|(flags, ..)| flags);
    let sub = |offset| subsection(0xf2, &[offset, 1, 20, 0, 3, 36, 0, a, 4, b, 8, c, 0, 2, 28, 12, d, 16, e]);
    [sub(0x2000), sub(0x1000)].concat()
}

/// Where the lines of a walk start and end.
fn starts_and_ends(lines: LineIterator<'_>) -> Vec<(u32, u32)> {
    lines.map(|line| line.map(|line| (line.line_start, line.line_end))).collect::<Result<_, _>>().expect("lines")
}

#[test]
fn end_lines_are_read_as_chosen() {
    let area = ends();
    let by_crate = ENDS.map(|(_, start, ..)| (start, start));
    let by_low_bits = ENDS.map(|(_, start, end, _)| (start, end));
    let by_delta = ENDS.map(|(_, start, _, end)| (start, end));
    let program = Area::new(&area).line_program().expect("program");
    assert_eq!(EndLines::default(), EndLines::Crate);
    let mut chosen = vec![(program.clone(), by_crate), (program.clone().with_end_lines(EndLines::default()), by_crate)];
    for (last, wanted) in READINGS.into_iter().zip([by_crate, by_low_bits, by_delta]) {
        chosen.push((program.clone().with_end_lines(last), wanted));
        // the last choice holds, and a copy has it, too
        for before in READINGS {
            chosen.push((program.clone().with_end_lines(before).with_end_lines(last), wanted));
            chosen.push((program.clone().with_end_lines(before).clone().with_end_lines(last).clone(), wanted));
        }
    }
    for (program, wanted) in chosen {
        assert_eq!(starts_and_ends(program.lines()), [wanted, wanted].concat());
        // a symbol's own subsection, and one before it
        for at in [0x1000, 0x2000, 0x2001] {
            assert_eq!(starts_and_ends(program.lines_for_symbol(place(1, at))), wanted);
        }
        for (i, (start, end)) in wanted.into_iter().enumerate() {
            let line = program.line_at(place(1, 0x2000 + 4 * i as u32)).expect("a line").expect("there");
            assert_eq!((line.line_start, line.line_end), (start, end));
        }
    }
}

/// The start line of a flags word, and its end line by a reading, written another way. They are all in the 128 lines from the start line on: by the crate's the
/// first of them, by low bits the one whose low seven bits are the field, by delta the one that has as many before it as the field says.
fn start_and_end(flags: u32, reading: EndLines) -> (u32, u32) {
    let (start, field) = (flags & 0xff_ffff, flags >> 24 & 0x7f);
    let mut lines = start..start + 128;
    let end = match reading {
        EndLines::Crate => lines.next(),
        EndLines::LowBits => lines.find(|line| line & 0x7f == field),
        EndLines::Delta => lines.nth(field as usize),
    };
    (start, end.expect("one of 128"))
}

#[test]
fn every_field_has_its_end_line() {
    for start in [0, 1, 10, 126, 127, 128, 129, 255, 256, 0x1234, 0xf0_0eff, 0xfe_efef, 0xff_ff7f, 0xff_ff80, 0xff_ffff] {
        let flags: Vec<u32> = (0..=0xff).map(|high| high << 24 | start).collect();
        let block = flags.iter().flat_map(|flags| [0, *flags]);
        let area = subsection(0xf2, &[0, 1, 4, 0, 256, 12 + 8 * 256].into_iter().chain(block).collect::<Vec<_>>());
        let program = Area::new(&area).line_program().expect("program");
        for reading in READINGS {
            let wanted: Vec<_> = flags.iter().map(|flags| start_and_end(*flags, reading)).collect();
            assert_eq!(starts_and_ends(program.clone().with_end_lines(reading).lines()), wanted, "{reading:?}");
        }
    }
}

#[test]
fn files_are_listed_and_found() {
    let program = Area::new(AREA).line_program().expect("program");
    let files: Vec<_> = program.files().collect::<Result<Vec<_>, _>>().expect("files");
    assert_eq!(files.len(), 1);
    assert_eq!(program.get_file_info(files[0].0).expect("file"), files[0].1);
    assert_eq!(program.get_file_info(FileIndex(24)).map(|_| ()), Err(Refusal::NoFile(24)));
    assert_eq!(program.get_file_info(FileIndex(25)).map(|_| ()), Err(Refusal::Cut));
}

#[test]
fn files_are_found_in_the_last_checksum_data() {
    let area = [subsection(0xf4, &[5, 0]), subsection(0xf4, &[6, 0, 7, 0])].concat();
    let (program, without) = (Area::new(&area).line_program().expect("program"), Area::new(&[]).line_program().expect("program"));
    // asked again, and asked of a copy, it is where it was found
    for (program, without) in [(&program, &without), (&program, &without), (&program.clone(), &without.clone())] {
        assert_eq!([0, 8].map(|i| program.get_file_info(FileIndex(i)).expect("file").name), [StringRef(6), StringRef(7)]);
        assert_eq!(program.get_file_info(FileIndex(16)).map(|_| ()), Err(Refusal::NoFile(16)));
        assert_eq!(without.get_file_info(FileIndex(0)).map(|_| ()), Err(Refusal::NoFile(0)));
        assert_eq!(without.get_file_info(FileIndex(1)).map(|_| ()), Err(Refusal::Cut));
    }
}

#[test]
fn many_files_are_all_given() {
    // More than one call gives, each of 8 bytes without a checksum; the last is cut.
    for whole in [0, 1, 15, 16, 17, 32, 40] {
        let entries: Vec<u32> = (0..whole).flat_map(|i| [100 + i, 0]).collect();
        for cut in [false, true] {
            let area = subsection(0xf4, &[entries.clone(), if cut { vec![1] } else { vec![] }].concat());
            let program = Area::new(&area).line_program().expect("program");
            let (files, refused) = all(program.files(), area.len());
            assert_eq!(refused, cut.then_some(Refusal::Cut));
            assert_eq!(
                files.iter().map(|(index, file)| (index.0, file.name.0)).collect::<Vec<_>>(),
                (0..whole).map(|i| (8 * i, 100 + i)).collect::<Vec<_>>()
            );
        }
    }
}

/// A flags word for each start line: the field changes from line to line, and takes all its numbers in turn.
fn flags_of(start: u32) -> u32 {
    (5 * start % 128) << 24 | start
}

/// An area of line subsections of `lines` lines each, whose code is in the reverse order. Where `cut`, the block of the last in order ends past it.
fn backward(subs: u32, lines: u32, cut: bool) -> Vec<u8> {
    let sub = |i: u32| {
        let size = 12 + 8 * lines + if cut && i == subs - 1 { 4 } else { 0 };
        let block = (0..lines).flat_map(|l| [l, flags_of(1 + lines * i + l)]);
        subsection(0xf2, &[0x1000 * i, 1, lines, 24, lines, size].into_iter().chain(block).collect::<Vec<_>>())
    };
    (0..subs).rev().flat_map(sub).collect()
}

#[test]
fn many_lines_are_all_given() {
    // one call gives them all, or several do; the last are also the end, or a refusal comes behind them
    for (subs, lines) in [(1, 0), (1, 1), (1, 31), (1, 32), (1, 33), (31, 1), (32, 1), (33, 1), (40, 4), (5, 32), (3, 500), (500, 3), (3000, 33)] {
        let area = backward(subs, lines, false);
        let program = Area::new(&area).line_program().expect("program");
        let (given, refused) = all(program.lines(), area.len());
        assert_eq!((refused, given.iter().map(|l| l.line_start).collect::<Vec<_>>()), (None, (1..=subs * lines).collect()));
        let body_of = |start: u32| 8 + (32 + 8 * lines) * (subs - 1 - (start - 1) / lines);
        assert!(given.iter().all(|l| l.body == body_of(l.line_start)), "{subs} subsections of {lines} lines");
        for i in [0, subs / 2, subs - 1] {
            let (given, refused) = all(program.lines_for_symbol(place(1, 0x1000 * i)), area.len());
            assert_eq!((refused, given.iter().map(|l| l.line_start).collect::<Vec<_>>()), (None, (lines * i + 1..=lines * i + lines).collect()));
        }
        // the reading is kept from call to call
        for reading in READINGS {
            let (given, refused) = all(program.clone().with_end_lines(reading).lines(), area.len());
            assert_eq!((refused, given.len() as u32), (None, subs * lines));
            assert!(given.iter().zip(1..).all(|(l, start)| (l.line_start, l.line_end) == start_and_end(flags_of(start), reading)), "{reading:?}");
        }
        let area = backward(subs, lines, true);
        let program = Area::new(&area).line_program().expect("program");
        let (given, refused) = all(program.lines(), area.len());
        // the end of the record before the refusal is not known, so that it is not given
        assert_eq!((given.len() as u32, refused), (((subs - 1) * lines).saturating_sub(1), Some(Refusal::Cut)));
    }
}

#[test]
fn no_checksum_is_no_md5() {
    let area = subsection(0xf4, &[5, 16, 1, 2, 3, 4, 0]);
    let program = Area::new(&area).line_program().expect("program");
    let (_, file) = program.files().next().expect("one").expect("file");
    assert_eq!((file.name, file.checksum.kind()), (StringRef(5), "none"));
    assert_ne!(file.checksum, file.checksum);
}

#[test]
fn a_checksum_matches_its_own_digest_alone() {
    let digest: Vec<u8> = (0..32).collect();
    for (length, sum) in [(16, FileChecksum::Md5(&digest[..16])), (20, FileChecksum::Sha1(&digest[..20])), (32, FileChecksum::Sha256(&digest))] {
        assert!(sum.is_whole() && sum.matches(&digest[..length]));
        for other in [&digest[1..], &digest[..length - 1], &[0; 32][..length], &[]] {
            assert!(!sum.matches(other));
        }
        assert!(sum.to_string().starts_with("000102030405060708090a0b0c0d0e0f") && sum.to_string().len() == 2 * length);
    }
    // a blank is no answer: of no kind, without bytes, cut, too long
    for sum in [
        FileChecksum::None,
        FileChecksum::Md5(&[]),
        FileChecksum::Sha1(&digest[..16]),
        FileChecksum::Sha256(&digest[..31]),
        FileChecksum::Md5(&digest),
    ] {
        assert!(!sum.is_whole() && !sum.matches(sum.bytes()) && !sum.matches(&[]), "{sum:?}");
    }
    assert_eq!(
        (FileChecksum::None.to_string(), FileChecksum::Sha1(&[]).to_string(), FileChecksum::Md5(&[7]).to_string()),
        ("-".into(), "-".into(), "07".into())
    );
}

#[test]
fn kinds_have_names_and_numbers() {
    for number in (0..0x200).chain([0x8000_0000, u32::MAX]) {
        let kind = SubsectionKind::from(number);
        let named = (0xf1..=0xfd).contains(&number) || number == 0x8000_0000;
        assert_eq!((kind.number(), kind.name().is_some(), kind == SubsectionKind::Other(number)), (number, named, !named));
        assert_eq!(kind.to_string(), kind.name().map_or(format!("{number:#x}"), String::from));
        // what is read is what was named
        let area = subsection(number, &[0; 5]);
        let read = match kind {
            SubsectionKind::Ignore => None,
            SubsectionKind::Other(number) => Some(Err(Refusal::UnknownKind(number))),
            kind => Some(Ok(Subsection { kind, data: &[0; 20] })),
        };
        assert_eq!(Area::new(&area).subsections().next(), read);
    }
    assert_eq!((SubsectionKind::Symbols.number(), SubsectionKind::CoffSymbolRva.number()), (0xf1, 0xfd));
    assert_eq!((SubsectionKind::from(0xf7), SubsectionKind::from(0xf8)), (SubsectionKind::CrossScopeImports, SubsectionKind::CrossScopeExports));
    assert_eq!(SubsectionKind::from(0xf6).to_string(), "InlineeLines");
}

#[test]
fn tables_are_read() {
    let imports = subsection(0xf7, &[5, 2, 0x1003, 0x1004, 9, 1, 0x1007]);
    let imports = Area::new(&imports).imports();
    let modules: Vec<(u32, Vec<u32>)> =
        imports.modules().map(|m| m.map(|m| (m.name.0 .0, m.imports.collect()))).collect::<Result<_, _>>().expect("modules");
    assert_eq!(modules, [(5, vec![0x1003, 0x1004]), (9, vec![0x1007])]);
    assert_eq!(imports.resolve_import(0x8000_0001), Ok(CrossModuleRef(ModuleRef(StringRef(5)), 0x1004)));
    assert_eq!(imports.resolve_import(0x8020_0000), Err(Refusal::CrossModuleRefNotFound(0x8020_0000)));
    assert_eq!(imports.resolve_import(1), Err(Refusal::NotACrossModuleRef(1)));
    // the table is read once, and each lookup tells its refusal
    let cut = subsection(0xf7, &[5, 2, 0x1003]);
    let imports = Area::new(&cut).imports();
    assert_eq!((imports.resolve_import(0x8000_0000), imports.clone().resolve_import(1)), (Err(Refusal::Cut), Err(Refusal::Cut)));
    assert_eq!(Area::new(&[]).imports().resolve_import(0x8000_0000), Err(Refusal::CrossModuleRefNotFound(0x8000_0000)));

    let exports = subsection(0xf8, &[1, 0x1001, 2, 0x1002, 0x8000_0003, 0x1003]);
    let exports = Area::new(&exports).exports().expect("exports");
    assert_eq!(exports.len(), 3);
    assert_eq!(exports.exports().last(), Some(Ok(CrossModuleExport::Id(0x8000_0003, 0x1003))));
    assert_eq!((exports.resolve_import(2), exports.resolve_import(3)), (Ok(Some(0x1002)), Ok(None)));
    // any order is listed, and not searched
    let turned = subsection(0xf8, &[2, 0x1002, 1, 0x1001]);
    let exports = Area::new(&turned).exports().expect("exports");
    assert_eq!((exports.len(), exports.exports().count()), (2, 2));
    assert_eq!(exports.resolve_import(1), Err(Refusal::UnsortedExports));
    let exports = Area::new(&[]).exports().expect("exports");
    assert_eq!((exports.len(), exports.is_empty(), exports.resolve_import(1)), (0, true, Ok(None)));
    assert_eq!(Area::new(&subsection(0xf8, &[1, 2, 3])).exports().map(|e| e.len()), Err(Refusal::ExportLength));

    let inlinees = subsection(0xf6, &[1, 0x1000, 24, 7, 2, 48, 72]);
    let inlinee = Area::new(&inlinees).inlinees().next().expect("one").expect("inlinee");
    assert_eq!((inlinee.index, inlinee.file_index, inlinee.line), (0x1000, FileIndex(24), 7));
    assert_eq!((inlinee.extra_files.len(), inlinee.extra_files.collect::<Vec<_>>()), (2, vec![48, 72]));
}

#[test]
fn refusals_have_number_and_text() {
    let refused = Area::new(&[1, 2, 3]).line_program().expect_err("cut");
    assert_eq!((refused, refused.number(), refused.carries()), (Refusal::Cut, 1, None));
    let unknown = Area::new(&bytes_of(&[0xf0, 0])).subsections().next().expect("one").expect_err("unknown kind");
    assert_eq!(unknown.to_string(), "refused 2: unknown subsection kind (0xf0)");
    assert_eq!(StringTable::parse(&[0; 64]).map(|_| ()), Err(Refusal::NoStringTable));
    let long = vec![0; 16_777_217];
    assert_eq!(Area::new(&long).line_program().map(|_| ()), Err(Refusal::TooLong));
    assert_eq!(Area::new(&long).is_plain(), Err(Refusal::TooLong));
}

#[test]
fn a_module_is_its_parts() {
    let stream = [bytes_of(&[4]), AREA.to_vec()].concat();
    let module = ModuleInfo { stream: &stream, symbols_size: 4, lines_size: 0, c13_lines_size: AREA.len() as u32 };
    assert_eq!(module.symbols(), Ok(()));
    let lines = |program: LineProgram<'_>| program.lines().collect::<Result<Vec<LineInfo>, _>>().expect("lines");
    // the same, also in the positions, which count from the area's start
    let (of_module, of_area) = (lines(module.line_program().expect("program")), lines(Area::new(AREA).line_program().expect("program")));
    assert_eq!((of_module.len(), of_module), (14, of_area));
    assert_eq!(module.exports().expect("exports").len(), 0);
    let old = ModuleInfo { lines_size: 1, ..module };
    assert_eq!(old.line_program().map(|_| ()), Err(Refusal::OldFormat));
    assert_eq!(old.inlinees().expect("none").count(), 0);
    let long = ModuleInfo { c13_lines_size: AREA.len() as u32 + 1, ..module };
    assert_eq!(long.lines_area().map(|_| ()), Err(Refusal::ModuleSizes));
}

#[test]
fn what_was_written_is_read() {
    let mut buf = [0xaa; 300];
    let mut writer = Writer::new(&mut buf);
    let sum: Vec<u8> = (0..16).collect();
    writer.open_checksums().expect("room");
    writer.add_entry(StringRef(1), FileChecksum::Md5(&sum)).expect("room");
    writer.open_lines(place(1, 0x1000), 1, 0x20).expect("room");
    writer.add_block(FileIndex(0), &[0, 0x8000_000a], &[0x0002_0001]).expect("room");
    let entry = LineEntry { offset: 8, line_start: 12, end_field: 0, kind: LineInfoKind::Statement, columns: Some((3, 4)) };
    writer.add_lines(FileIndex(0), &[entry]).expect("room");
    writer.open_inlinees(1).expect("room");
    writer.add_inlinee(0x1000, FileIndex(0), 7, &[24]).expect("room");
    writer.open_imports().expect("room");
    writer.add_module(ModuleRef(StringRef(5)), &[0x1003, 0x1004]).expect("room");
    writer.open_exports().expect("room");
    writer.add_pair(7, 0x1007).expect("room");
    writer.add_opaque(SubsectionKind::FrameData, &[1, 2, 3, 4]).expect("room");
    // refused: the rule, the place, the room; and nothing changes
    let before = writer.written().to_vec();
    assert_eq!(writer.add_opaque(SubsectionKind::FrameData, &[1]), Err(Refusal::NotPlain));
    assert_eq!(writer.add_pair(8, 0x1008), Err(Refusal::WrongPlace));
    assert_eq!(writer.add_opaque(SubsectionKind::FrameData, &[0; 200]), Err(Refusal::NoRoom));
    assert_eq!(writer.written(), before);

    let area = Area::new(writer.written());
    assert_eq!(area.is_plain(), Ok(true));
    let program = area.line_program().expect("program");
    let lines: Vec<LineInfo> = program.lines().collect::<Result<_, _>>().expect("lines");
    assert_eq!(
        lines.iter().map(|l| (l.offset.offset, l.line_start, l.column_end, l.body)).collect::<Vec<_>>(),
        [(0x1000, 10, Some(2), 40), (0x1008, 12, Some(4), 40)]
    );
    assert_eq!(program.get_file_info(FileIndex(0)).expect("file").checksum, FileChecksum::Md5(&sum));
    assert_eq!(area.inlinees().next().expect("one").expect("inlinee").extra_files.collect::<Vec<_>>(), [24]);
    assert_eq!(area.imports().resolve_import(0x8000_0001), Ok(CrossModuleRef(ModuleRef(StringRef(5)), 0x1004)));
    assert_eq!(area.exports().expect("exports").resolve_import(7), Ok(Some(0x1007)));
    let end = before.len();
    assert!(buf[end..].iter().all(|b| *b == 0xaa), "bytes behind what is written");
}

#[test]
fn the_limit_is_that_of_the_whole() {
    const LONGEST: usize = 16_777_216;
    let mut buf = vec![0xaa; LONGEST + 100];
    let mut writer = Writer::new(&mut buf);
    writer.add_opaque(SubsectionKind::FrameData, &vec![0; LONGEST - 2 * 8 - 12 - 20]).expect("room");
    writer.open_lines(place(1, 0), 0, 4).expect("room");
    assert_eq!(writer.add_block(FileIndex(0), &[0; 4], &[]), Err(Refusal::NoRoom));
    writer.add_block(FileIndex(0), &[0; 2], &[]).expect("room");
    assert_eq!(writer.written().len(), LONGEST);
    assert_eq!(Area::new(writer.written()).is_plain(), Ok(true));
    // Number 16 comes before 17, and 17 before 10, where the whole is full as well.
    assert_eq!(writer.add_block(FileIndex(0), &[], &[]), Err(Refusal::NoRoom));
    assert_eq!(writer.add_block(FileIndex(0), &[0], &[]), Err(Refusal::NotPlain));
    assert_eq!(writer.add_pair(0, 0), Err(Refusal::WrongPlace));
    assert_eq!(writer.open_checksums(), Err(Refusal::NoRoom));
    assert_eq!(writer.open_inlinees(2), Err(Refusal::NotPlain));
    assert_eq!(writer.add_entry(StringRef(1), FileChecksum::None), Err(Refusal::WrongPlace));
    assert_eq!(writer.written().len(), LONGEST);
    assert!(buf[LONGEST..].iter().all(|b| *b == 0xaa), "bytes behind what is written");
}

/// The words of the block that an area of one line subsection has.
fn block_words(area: &[u8]) -> Vec<u32> {
    area[32..].chunks_exact(4).map(|w| u32::from_le_bytes(w.try_into().expect("four"))).collect()
}

#[test]
fn typed_lines_are_their_words() {
    let entry = LineEntry { offset: 0, line_start: 10, end_field: 0, kind: LineInfoKind::Expression, columns: None };
    let cases = [
        (entry, 0x0000_000a),
        (LineEntry { kind: LineInfoKind::Statement, ..entry }, 0x8000_000a),
        (LineEntry { end_field: 0x7f, ..entry }, 0x7f00_000a),
        (LineEntry { offset: u32::MAX, line_start: 0xff_ffff, end_field: 0x7f, kind: LineInfoKind::Statement, ..entry }, u32::MAX),
        (LineEntry { line_start: 0, ..entry }, 0),
    ];
    for (entry, flags) in cases {
        let mut buf = [0; 100];
        let mut writer = Writer::new(&mut buf);
        writer.open_lines(place(1, 0), 0, 4).expect("room");
        writer.add_lines(FileIndex(24), &[entry, entry]).expect("room");
        assert_eq!(block_words(writer.written()), [entry.offset, flags, entry.offset, flags]);
    }
    let mut buf = [0; 100];
    let mut writer = Writer::new(&mut buf);
    writer.open_lines(place(1, 0), 1, 4).expect("room");
    writer.add_lines(FileIndex(0), &[LineEntry { columns: Some((u16::MAX, 1)), ..entry }]).expect("room");
    assert_eq!(block_words(writer.written()), [0, 10, 0x0001_ffff]);
    let read: Vec<LineInfo> = Area::new(writer.written()).line_program().expect("program").lines().collect::<Result<_, _>>().expect("lines");
    assert_eq!((read[0].line_start, read[0].line_end, read[0].column_start, read[0].column_end), (10, 10, Some(0xffff), Some(1)));
}

#[test]
fn what_does_not_fit_a_field_is_told() {
    let entry = LineEntry { offset: 0, line_start: 10, end_field: 0, kind: LineInfoKind::Statement, columns: None };
    let mut buf = [0; 40];
    let mut writer = Writer::new(&mut buf);
    writer.open_lines(place(1, 0), 0, 4).expect("room");
    let before = writer.written().to_vec();
    for (unfit, why) in [
        (LineEntry { line_start: 0x100_0000, ..entry }, FieldError::StartLine(0x100_0000)),
        (LineEntry { line_start: u32::MAX, ..entry }, FieldError::StartLine(u32::MAX)),
        (LineEntry { line_start: 0xfe_efee, ..entry }, FieldError::Marker(0xfe_efee)),
        (LineEntry { line_start: 0xf0_0f00, ..entry }, FieldError::Marker(0xf0_0f00)),
        (LineEntry { end_field: 0x80, ..entry }, FieldError::EndField(0x80)),
        (LineEntry { columns: Some((1, 2)), ..entry }, FieldError::Columns),
    ] {
        assert_eq!(writer.add_lines(FileIndex(0), &[entry, unfit]), Err(WriteError::Field { entry: 1, why }));
        assert!(!why.to_string().is_empty());
    }
    // columns in a subsection without them, and no room: the library's refusals
    let columned = LineEntry { columns: Some((1, 2)), ..entry };
    assert_eq!(writer.add_lines(FileIndex(0), &[columned]), Err(WriteError::Refused(Refusal::NotPlain)));
    assert_eq!(writer.add_lines(FileIndex(0), &[entry; 9]), Err(WriteError::Refused(Refusal::NoRoom)));
    assert_eq!(writer.written(), before);
    let said = writer.add_lines(FileIndex(0), &[LineEntry { line_start: 1 << 24, ..entry }]).expect_err("too large").to_string();
    assert_eq!(said, "line entry 0: start line 16777216 is above 16777215");
}

/// Numbers by chance, the same each time.
struct Chance(u64);

impl Chance {
    fn next(&mut self) -> u64 {
        self.0 = self.0.wrapping_mul(6_364_136_223_846_793_005).wrapping_add(1_442_695_040_888_963_407);
        self.0 >> 33
    }
    fn below(&mut self, n: u64) -> u64 {
        self.next() % n
    }
    /// A word that a rule is likely to look at.
    fn word(&mut self) -> u32 {
        match self.below(6) {
            0 => self.below(4) as u32,
            1 => 4 * self.below(16) as u32,
            2 => 0xf1 + self.below(14) as u32,
            3 => u32::MAX - self.below(3) as u32,
            4 => 0x8000_0000 | self.below(32) as u32,
            _ => self.next() as u32,
        }
    }
    /// A few subsections, most of them whole, of words by chance.
    fn area(&mut self) -> Vec<u8> {
        let mut area = vec![];
        for _ in 0..self.below(6) {
            let kind = [0xf2, 0xf2, 0xf4, 0xf6, 0xf7, 0xf8, 0x8000_0000, 0xf0 + self.below(16) as u32][self.below(8) as usize];
            let mut body: Vec<u32> = (0..self.below(12)).map(|_| self.word()).collect();
            if kind == 0xf2 && body.len() > 6 && self.below(4) != 0 {
                // a block that may fit
                let (words, lines) = (body.len() as u32 - 3, (body.len() as u32 - 6) / 3);
                body.splice(3..6, [0, lines, 4 * words]);
            }
            area.extend(subsection(kind, &body));
        }
        let spoilt = self.below(3) == 0 && !area.is_empty();
        if spoilt {
            let at = self.below(area.len() as u64) as usize;
            area[at] = self.next() as u8;
            area.truncate(area.len() - self.below(2) as usize);
        }
        area
    }
}

/// Takes everything that an iterator gives; it must end, and stay ended, and say rightly before each step how many are left.
fn all<T>(mut from: impl Iterator<Item = Result<T, Refusal>>, limit: usize) -> (Vec<T>, Option<Refusal>) {
    let mut taken = vec![];
    let mut hints = vec![];
    let refused = loop {
        hints.push(from.size_hint());
        match from.next() {
            Some(Ok(x)) => taken.push(x),
            Some(Err(why)) => break Some(why),
            None => break None,
        }
        assert!(taken.len() <= limit, "more records than bytes");
    };
    assert!(from.next().is_none(), "it goes on behind its end");
    hints.push(from.size_hint());
    let total = taken.len() + usize::from(refused.is_some());
    for (before, (least, most)) in hints.into_iter().enumerate() {
        let left = total.saturating_sub(before);
        assert!(least <= left && most.map_or(false, |most| left <= most), "{before} of {total} taken, hint {least} to {most:?}");
    }
    (taken, refused)
}

/// Tests that the lines of a program, which were read by the crate's reading of end lines, are the same by each reading but for the end lines, and that low
/// bits and delta tell the same seven bits.
fn same_by_each_reading(program: &LineProgram<'_>, lines: &[LineInfo], refused: Option<Refusal>) {
    let [by_crate, by_low_bits, by_delta] = READINGS.map(|reading| {
        let (others, also) = all(program.clone().with_end_lines(reading).lines(), usize::MAX);
        assert_eq!((others.len(), also), (lines.len(), refused));
        let ends: Vec<u32> = others.iter().map(|other| other.line_end).collect();
        for (other, line) in others.into_iter().zip(lines) {
            assert!((other.line_start..other.line_start + 128).contains(&other.line_end), "{reading:?}: {other:?}");
            assert_eq!(LineInfo { line_end: line.line_end, ..other }, *line);
        }
        ends
    });
    for (i, line) in lines.iter().enumerate() {
        assert!(line.line_end == line.line_start && by_crate[i] == line.line_start, "{line:?}");
        assert_eq!(by_low_bits[i] & 0x7f, by_delta[i] - line.line_start, "{line:?}");
    }
}

/// Asks everything of an area.
fn ask(bytes: &[u8], chance: &mut Chance) -> usize {
    let (area, limit) = (Area::new(bytes), bytes.len());
    let mut answers = all(area.subsections(), limit).0.len();
    match area.line_program() {
        Ok(program) => {
            let (lines, refused) = all(program.lines(), limit);
            answers += lines.len();
            assert!(refused != Some(Refusal::WrongSlot), "a list as it was made has no wrong slot");
            same_by_each_reading(&program, &lines, refused);
            for line in &lines {
                has_its_subsection(bytes, line);
                let _ = program.get_file_info(line.file_index);
                answers += all(program.lines_for_symbol(line.offset), limit).0.len();
                let _ = program.line_at(line.offset);
            }
            assert_eq!(area.files().count(), program.files().count());
            for (index, file) in all(program.files(), limit).0 {
                let again = program.get_file_info(index).expect("a file of the walk");
                assert_eq!((again.name, again.checksum.kind(), again.checksum.bytes()), (file.name, file.checksum.kind(), file.checksum.bytes()));
                answers += 1;
            }
            let _ =
                (program.get_file_info(FileIndex(chance.word())), all(program.lines_for_symbol(place(chance.word() as u16, chance.word())), limit));
        }
        Err(why) => assert!((1..=19).contains(&why.number()), "{why}"),
    }
    for inlinee in all(area.inlinees(), limit).0 {
        let number = inlinee.extra_files.len();
        assert_eq!(inlinee.extra_files.size_hint(), (number, Some(number)));
        assert_eq!(inlinee.extra_files.count(), number);
        answers += 1;
    }
    let imports = area.imports();
    let (modules, refused) = all(imports.modules(), limit);
    for (m, module) in modules.iter().enumerate().take(2048) {
        for (i, word) in module.imports.clone().enumerate().take(0x10_0000) {
            let index = 0x8000_0000 | (m as u32) << 20 | i as u32;
            assert_eq!(imports.resolve_import(index), refused.map_or(Ok(CrossModuleRef(module.name, word)), Err));
            answers += 1;
        }
    }
    let _ = imports.resolve_import(chance.word());
    if let Ok(exports) = area.exports() {
        let (all, refused) = all(exports.exports(), limit);
        assert_eq!((all.len(), refused), (exports.len(), None));
        answers += all.len();
        for CrossModuleExport::Type(local, global) | CrossModuleExport::Id(local, global) in all {
            let found = exports.resolve_import(local);
            assert!(found == Ok(Some(global)) || found == Err(Refusal::UnsortedExports), "{found:?}");
        }
        let _ = exports.resolve_import(chance.word());
    }
    answers
}

/// A call of the writer by chance.
fn write(writer: &mut Writer<'_>, chance: &mut Chance) -> Result<(), Refusal> {
    let words: Vec<u32> = (0..chance.below(5)).map(|_| chance.word()).collect();
    let bytes: Vec<u8> = (0..[0, 4, 16, 20, 32, 5][chance.below(6) as usize]).map(|_| chance.next() as u8).collect();
    let columns: Vec<u32> = words.iter().step_by(2).copied().collect();
    match chance.below(11) {
        0 => writer.open_lines(place(1, chance.word()), chance.below(2) as u16, chance.word()),
        1 => writer.add_block(FileIndex(chance.word()), &words, if chance.below(2) == 0 { &columns } else { &[] }),
        2 => writer.open_checksums(),
        3 => writer.add_entry(
            StringRef(chance.word()),
            [FileChecksum::None, FileChecksum::Md5(&bytes), FileChecksum::Sha1(&bytes), FileChecksum::Sha256(&bytes)][chance.below(4) as usize],
        ),
        4 => writer.open_inlinees(chance.below(3) as u32),
        5 => writer.add_inlinee(chance.word(), FileIndex(chance.word()), chance.word(), &words),
        6 => writer.open_imports(),
        7 => writer.add_module(ModuleRef(StringRef(chance.word())), &words),
        8 => writer.open_exports(),
        9 => writer.add_pair(chance.word(), chance.word()),
        _ => writer.add_opaque((0xf0 + chance.below(16) as u32).into(), &bytes),
    }
}

#[test]
fn no_calls_make_the_writer_panic() {
    let mut chance = Chance(2);
    let (mut accepted, mut refused) = (0, 0);
    for _ in 0..2_000 {
        let mut buf = vec![0x55; chance.below(400) as usize];
        let mut writer = Writer::new(&mut buf);
        for _ in 0..chance.below(20) {
            let before = writer.written().to_vec();
            match write(&mut writer, &mut chance) {
                Ok(()) => {
                    assert!(writer.written().len() > before.len() && Area::new(writer.written()).is_plain() == Ok(true));
                    accepted += 1;
                }
                Err(why) => {
                    assert!(matches!(why, Refusal::WrongPlace | Refusal::NotPlain | Refusal::NoRoom), "{why}");
                    assert_eq!(writer.written(), before);
                    refused += 1;
                }
            }
        }
        let end = writer.written().len();
        let (area, rest) = buf.split_at(end);
        assert!(rest.iter().all(|b| *b == 0x55), "bytes behind what is written");
        ask(area, &mut chance);
    }
    assert!(accepted > 5_000 && refused > 5_000, "{accepted} accepted, {refused} refused");
}

#[test]
fn no_bytes_make_it_panic() {
    let mut chance = Chance(1);
    let mut answers = 0;
    for _ in 0..20_000 {
        let area = chance.area();
        answers += ask(&area, &mut chance);
        let raw: Vec<u8> = (0..chance.below(40)).map(|_| chance.next() as u8).collect();
        answers += ask(&raw, &mut chance);
        let module = ModuleInfo { stream: &area, symbols_size: chance.word(), lines_size: chance.below(2) as u32, c13_lines_size: chance.word() };
        let _ = (module.symbols(), module.line_program(), module.inlinees(), module.imports(), module.exports());
        let mut names = bytes_of(&[0xeffe_effe, chance.below(4) as u32, chance.below(40) as u32]);
        names.extend((0..chance.below(60)).map(|_| chance.below(3) as u8));
        if let Ok(table) = StringTable::parse(&names) {
            answers += (0..50).filter(|i| table.get(StringRef(*i)).is_ok()).count();
            let _ = table.get(StringRef(chance.word()));
        }
    }
    assert!(answers > 100_000, "{answers} answers: the inputs say too little");
}
