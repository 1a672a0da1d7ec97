//! The writer of areas.

use crate::calls;
use crate::words::{one, size};
use crate::{FileChecksum, FileIndex, LineInfoKind, ModuleRef, PdbInternalSectionOffset, Refusal, StringRef, SubsectionKind};
use std::fmt;

/// A line entry for [`Writer::add_lines`]: from where on code is of which source line.
#[derive(Clone, Copy, Debug, Eq, PartialEq)]
pub struct LineEntry {
    /// Where its code starts, counted from the offset of the line subsection.
    pub offset: u32,
    /// The line where its source starts, at most [`LineEntry::LARGEST_LINE`]. The numbers of the two markers, 0xfeefee and 0xf00f00, are no source lines.
    pub line_start: u32,
    /// The end-line field, bits 24 to 30 of the flags, at most [`LineEntry::LARGEST_END`]. How it is read the
    /// reader says, [`EndLines`](crate::EndLines): by default as the crate pdb does, whose end line is the start line whatever this is. LLVM reads it as a
    /// count of further lines, which is [`EndLines::Delta`](crate::EndLines::Delta).
    pub end_field: u32,
    /// What it is of.
    pub kind: LineInfoKind,
    /// The columns where its source starts and ends. All entries of a block have them, or none: as bit 0 of the flags of its subsection says.
    pub columns: Option<(u16, u16)>,
}

impl LineEntry {
    /// The largest start line: its field has 24 bits.
    pub const LARGEST_LINE: u32 = 0xff_ffff;
    /// The largest number of the end-line field, which has 7 bits.
    pub const LARGEST_END: u32 = 0x7f;

    /// The flags, in which each number must fit its field.
    fn flags(&self) -> Result<u32, FieldError> {
        match self.line_start {
            marker @ (0xfe_efee | 0xf0_0f00) => return Err(FieldError::Marker(marker)),
            line if line > Self::LARGEST_LINE => return Err(FieldError::StartLine(line)),
            _ => {}
        }
        if self.end_field > Self::LARGEST_END {
            return Err(FieldError::EndField(self.end_field));
        }
        let kind = match self.kind {
            LineInfoKind::Expression => 0,
            LineInfoKind::Statement => 1,
        };
        Ok(self.line_start | self.end_field << 24 | kind << 31)
    }
}

/// Why a line entry cannot be written: a number that does not fit its field. It is never cut off.
#[derive(Clone, Copy, Debug, Eq, PartialEq)]
#[non_exhaustive]
pub enum FieldError {
    /// A start line above [`LineEntry::LARGEST_LINE`].
    StartLine(u32),
    /// A start line that readers take for a marker, which gives no record. A marker is written by [`Writer::add_block`].
    Marker(u32),
    /// An end-line field above [`LineEntry::LARGEST_END`].
    EndField(u32),
    /// Columns where the first entry of the block has none, or none where it has them.
    Columns,
}

impl fmt::Display for FieldError {
    fn fmt(&self, f: &mut fmt::Formatter<'_>) -> fmt::Result {
        match self {
            FieldError::StartLine(line) => write!(f, "start line {line} is above {}", LineEntry::LARGEST_LINE),
            FieldError::Marker(line) => write!(f, "start line {line} is the number of a marker"),
            FieldError::EndField(field) => write!(f, "end-line field {field} is above {}", LineEntry::LARGEST_END),
            FieldError::Columns => f.write_str("some entries of a block have columns and some have none"),
        }
    }
}

impl std::error::Error for FieldError {}

/// Why [`Writer::add_lines`] wrote nothing.
#[derive(Clone, Copy, Debug, Eq, PartialEq)]
pub enum WriteError {
    /// An entry has a number that does not fit its field.
    Field {
        /// Which entry, counted from 0.
        entry: usize,
        /// What does not fit.
        why: FieldError,
    },
    /// The call was refused.
    Refused(Refusal),
}

impl fmt::Display for WriteError {
    fn fmt(&self, f: &mut fmt::Formatter<'_>) -> fmt::Result {
        match self {
            WriteError::Field { entry, why } => write!(f, "line entry {entry}: {why}"),
            WriteError::Refused(why) => why.fmt(f),
        }
    }
}

impl std::error::Error for WriteError {}

impl From<Refusal> for WriteError {
    fn from(why: Refusal) -> Self {
        WriteError::Refused(why)
    }
}

/// Writes an area into a lent buffer: each call adds a subsection, or an entry to the last one. What was written is what is read; a call that is
/// refused changes nothing.
///
/// Each call is refused with [`Refusal::WrongPlace`] where the last subsection is not of its entry's kind, with [`Refusal::NotPlain`] where the entry
/// would break a rule of plain areas, and with [`Refusal::NoRoom`] where it does not fit in the buffer or in 16,777,216 bytes: in this order.
///
/// The time that a call takes grows with the subsection that it adds to, and not with what was written before that.
#[derive(Debug)]
pub struct Writer<'a> {
    buf: &'a mut [u8],
    /// Where the last subsection begins. It is written as an area of its own, so that a call tests no more than that. Areas written apart and laid end to
    /// end are the area that all the calls write, and each call is answered as if it were lent the whole (`same_apart` of crates/round_trip).
    last: usize,
    place: usize,
}

/// An area of more bytes is refused.
const LONGEST: usize = 16_777_216;

impl<'a> Writer<'a> {
    /// A writer of an empty area at the start of a buffer. Bytes of the buffer behind what is written stay as they are.
    pub fn new(buf: &'a mut [u8]) -> Self {
        Writer { buf, last: 0, place: 0 }
    }

    /// The area as it is written so far. It is whole after each call: all lengths are right.
    pub fn written(&self) -> &[u8] {
        self.buf.get(..self.place).unwrap_or(&[])
    }

    /// A call that opens a subsection: in the free rest of the buffer.
    fn open(&mut self, call: impl FnOnce(&mut [u8], usize, &mut [u64]) -> u32) -> Result<(), Refusal> {
        self.step(self.place, call)
    }

    /// A call that adds an entry to the last subsection.
    fn add(&mut self, call: impl FnOnce(&mut [u8], usize, &mut [u64]) -> u32) -> Result<(), Refusal> {
        self.step(self.last, call)
    }

    /// A call on the area that begins at a place. It is lent the buffer from there on, as far as the whole may reach, so that it is refused where the
    /// whole would be.
    fn step(&mut self, begin: usize, call: impl FnOnce(&mut [u8], usize, &mut [u64]) -> u32) -> Result<(), Refusal> {
        let end = self.buf.len().min(LONGEST);
        let area = self.buf.get_mut(begin..end).unwrap_or(&mut []);
        let written = self.place.saturating_sub(begin);
        let out: [u64; 2] = one(|out| call(area, written, out))?;
        self.last = begin;
        self.place = begin.saturating_add(size(&out, 0));
        Ok(())
    }

    /// Opens a line subsection of the code at a place, of so many bytes. Bit 0 of the flags says that its lines have columns.
    ///
    /// # Errors
    ///
    /// [`Refusal::NoRoom`].
    pub fn open_lines(&mut self, offset: PdbInternalSectionOffset, flags: u16, code_size: u32) -> Result<(), Refusal> {
        self.open(|buf, at, out| calls::c13_open_lines(buf, at, offset.offset, offset.section, flags, code_size, out))
    }

    /// Adds a block of lines of one file to the line subsection.
    ///
    /// # Errors
    ///
    /// [`WriteError::Field`] where a number does not fit its field; else [`WriteError::Refused`] as [`add_block`](Writer::add_block) is.
    pub fn add_lines(&mut self, file: FileIndex, lines: &[LineEntry]) -> Result<(), WriteError> {
        let with_columns = lines.first().map_or(false, |first| first.columns.is_some());
        let (mut words, mut columns) = (vec![], vec![]);
        for (entry, line) in lines.iter().enumerate() {
            let flags = line.flags().map_err(|why| WriteError::Field { entry, why })?;
            if line.columns.is_some() != with_columns {
                return Err(WriteError::Field { entry, why: FieldError::Columns });
            }
            words.extend([line.offset, flags]);
            columns.extend(line.columns.map(|(start, end)| u32::from(start) | u32::from(end) << 16));
        }
        Ok(self.add_block(file, &words, &columns)?)
    }

    /// Adds a block of lines as words, markers among them: two words a line (offset, flags), and with columns one word a line (start in the low half, end in
    /// the high one). [`add_lines`](Writer::add_lines) makes these words.
    ///
    /// # Errors
    ///
    /// [`Refusal::WrongPlace`] where no line subsection is open; [`Refusal::NotPlain`] where a line lacks its second word, or there are more or fewer
    /// columns than the flags of the subsection say; [`Refusal::NoRoom`].
    pub fn add_block(&mut self, file: FileIndex, lines: &[u32], columns: &[u32]) -> Result<(), Refusal> {
        self.add(|buf, at, out| calls::c13_add_block(buf, at, file.0, lines, columns, out))
    }

    /// Opens a checksum subsection.
    ///
    /// # Errors
    ///
    /// [`Refusal::NoRoom`].
    pub fn open_checksums(&mut self) -> Result<(), Refusal> {
        self.open(calls::c13_open_checksums)
    }

    /// Adds a file, by its name in the string table, with its checksum.
    ///
    /// # Errors
    ///
    /// [`Refusal::WrongPlace`] where no checksum subsection is open; [`Refusal::NotPlain`] where the checksum is not whole;
    /// [`Refusal::NoRoom`].
    pub fn add_entry(&mut self, name: StringRef, checksum: FileChecksum<'_>) -> Result<(), Refusal> {
        self.add(|buf, at, out| calls::c13_add_entry(buf, at, name.0, checksum.number(), checksum.bytes(), out))
    }

    /// Opens a subsection of inlinees, of signature 0 or, for inlinees with extra files, 1.
    ///
    /// # Errors
    ///
    /// [`Refusal::NotPlain`] where the signature is another; [`Refusal::NoRoom`].
    pub fn open_inlinees(&mut self, signature: u32) -> Result<(), Refusal> {
        self.open(|buf, at, out| calls::c13_open_inlinees(buf, at, signature, out))
    }

    /// Adds a function that was inlined: its index in the IPI stream, the file and line of its source, and further files.
    ///
    /// # Errors
    ///
    /// [`Refusal::WrongPlace`] where no subsection of inlinees is open; [`Refusal::NotPlain`] for extra files under signature 0;
    /// [`Refusal::NoRoom`].
    pub fn add_inlinee(&mut self, index: u32, file: FileIndex, line: u32, extra_files: &[u32]) -> Result<(), Refusal> {
        self.add(|buf, at, out| calls::c13_add_inlinee(buf, at, index, file.0, line, extra_files, out))
    }

    /// Opens a subsection of imports.
    ///
    /// # Errors
    ///
    /// [`Refusal::NoRoom`].
    pub fn open_imports(&mut self) -> Result<(), Refusal> {
        self.open(calls::c13_open_imports)
    }

    /// Adds a module that is imported from, and the local indices that are.
    ///
    /// # Errors
    ///
    /// [`Refusal::WrongPlace`] where no subsection of imports is open; [`Refusal::NoRoom`].
    pub fn add_module(&mut self, name: ModuleRef, imports: &[u32]) -> Result<(), Refusal> {
        self.add(|buf, at, out| calls::c13_add_module(buf, at, name.0 .0, imports, out))
    }

    /// Opens a subsection of exports.
    ///
    /// # Errors
    ///
    /// [`Refusal::NoRoom`].
    pub fn open_exports(&mut self) -> Result<(), Refusal> {
        self.open(calls::c13_open_exports)
    }

    /// Adds an export: a local index, and its global one.
    ///
    /// # Errors
    ///
    /// [`Refusal::WrongPlace`] where no subsection of exports is open; [`Refusal::NotPlain`] where the local index is not above the last one;
    /// [`Refusal::NoRoom`].
    pub fn add_pair(&mut self, local: u32, global: u32) -> Result<(), Refusal> {
        self.add(|buf, at, out| calls::c13_add_pair(buf, at, local, global, out))
    }

    /// Adds a whole subsection of a kind that has no calls of its own, with its body.
    ///
    /// # Errors
    ///
    /// [`Refusal::NotPlain`] where the kind has calls of its own or is [`Other`](SubsectionKind::Other), or the body's length is not divisible by 4;
    /// [`Refusal::NoRoom`].
    pub fn add_opaque(&mut self, kind: SubsectionKind, body: &[u8]) -> Result<(), Refusal> {
        self.open(|buf, at, out| calls::c13_add_opaque(buf, at, kind.number(), body, out))
    }
}
