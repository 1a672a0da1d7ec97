//! An area taken apart into the calls of the Rust crate's Writer that write it again.

use crate::input::word;
use c13::{Area, FileChecksum, FileIndex, PdbInternalSectionOffset, StringRef, Subsection, SubsectionKind, Writer};

/// A call of the Writer.
pub enum Step<'a> {
    OpenLines(PdbInternalSectionOffset, u16, u32),
    Block(FileIndex, Vec<u32>, Vec<u32>),
    OpenChecksums,
    Entry(StringRef, FileChecksum<'a>),
    Opaque(SubsectionKind, &'a [u8]),
}

fn words(bytes: &[u8]) -> Vec<u32> {
    bytes.chunks_exact(4).map(|w| word(w, 0)).collect()
}

impl<'a> Step<'a> {
    /// The calls that write a plain area; none where it is not plain, or has inlinees, imports or exports.
    pub fn all(area: &'a [u8]) -> Option<Vec<Step<'a>>> {
        if Area::new(area).is_plain() != Ok(true) {
            return None;
        }
        let mut steps = vec![];
        for subsection in Area::new(area).subsections() {
            let Subsection { kind, data } = subsection.ok()?;
            match kind {
                SubsectionKind::Lines => Step::lines(data, &mut steps),
                SubsectionKind::FileChecksums => Step::checksums(data, &mut steps),
                SubsectionKind::InlineeLines | SubsectionKind::CrossScopeImports | SubsectionKind::CrossScopeExports => return None,
                other => steps.push(Step::Opaque(other, data)),
            }
        }
        Some(steps)
    }

    fn lines(data: &'a [u8], steps: &mut Vec<Step<'a>>) {
        let (section, flags) = (word(data, 4) as u16, (word(data, 4) >> 16) as u16);
        steps.push(Step::OpenLines(PdbInternalSectionOffset { section, offset: word(data, 0) }, flags, word(data, 8)));
        let mut at = 12;
        while at < data.len() {
            let (file, lines, size) = (word(data, at), word(data, at + 4) as usize, word(data, at + 8) as usize);
            let columns = at + 12 + 8 * lines;
            steps.push(Step::Block(FileIndex(file), words(&data[at + 12..columns]), words(&data[columns..at + size])));
            at += size;
        }
    }

    fn checksums(data: &'a [u8], steps: &mut Vec<Step<'a>>) {
        steps.push(Step::OpenChecksums);
        let mut at = 0;
        while at < data.len() {
            let (length, kind) = (usize::from(data[at + 4]), data[at + 5]);
            let bytes = &data[at + 6..at + 6 + length];
            let sum = match kind {
                1 => FileChecksum::Md5(bytes),
                2 => FileChecksum::Sha1(bytes),
                3 => FileChecksum::Sha256(bytes),
                _ => FileChecksum::None,
            };
            steps.push(Step::Entry(StringRef(word(data, at)), sum));
            at += (6 + length + 3) / 4 * 4;
        }
    }
}

/// Writes them; how many bytes they are, unless one is refused.
pub fn write_all(steps: &[Step<'_>], buf: &mut [u8]) -> Option<usize> {
    let mut writer = Writer::new(buf);
    for step in steps {
        match step {
            Step::OpenLines(place, flags, code) => writer.open_lines(*place, *flags, *code),
            Step::Block(file, lines, columns) => writer.add_block(*file, lines, columns),
            Step::OpenChecksums => writer.open_checksums(),
            Step::Entry(name, sum) => writer.add_entry(*name, *sum),
            Step::Opaque(kind, body) => writer.add_opaque(*kind, body),
        }
        .ok()?;
    }
    Some(writer.written().len())
}
