//! Lines and files.

use crate::calls::{self, RecordWord, FILE_RECORD, LINE_STATE, RECORD, STATE_END_LINES, TABLE_STATE};
use crate::words::{one, optional, part, size, within, word, word32, Many, Walk};
use crate::{Refusal, StringRef};
use std::fmt;
use std::iter::FusedIterator;
use std::sync::atomic::{AtomicU64, Ordering};

/// A place in code: a section of the executable, and an offset in it. Shown as in the sheet, the offset in hex: `1:88`.
#[derive(Clone, Copy, Debug, Default, Eq, Hash, Ord, PartialEq, PartialOrd)]
pub struct PdbInternalSectionOffset {
    /// The section's number. The first section is 1.
    pub section: u16,
    /// How many bytes behind the section's start.
    pub offset: u32,
}

impl fmt::Display for PdbInternalSectionOffset {
    fn fmt(&self, f: &mut fmt::Formatter<'_>) -> fmt::Result {
        write!(f, "{}:{:x}", self.section, self.offset)
    }
}

/// The index of a file, as line records and inlinees name it: the offset of its entry in the checksum data. It is no number that counts files.
#[derive(Clone, Copy, Debug, Default, Eq, Hash, Ord, PartialEq, PartialOrd)]
pub struct FileIndex(pub u32);

/// What a line record is of, by the highest bit of its flags.
#[derive(Clone, Copy, Debug, Eq, PartialEq)]
pub enum LineInfoKind {
    /// An expression: the bit is clear, as compilers leave it.
    Expression,
    /// A statement: the bit is set, as assemblers do.
    Statement,
}

/// How end lines are read. A line has seven bits for its end line, bits 24 to 30 of its flags, and nothing in an area says how they are meant. Who reads it
/// does: [`LineProgram::with_end_lines`]. [`LineInfo::line_end`] alone depends on it.
///
/// Which to take depends on the compiler: [`Delta`](EndLines::Delta) for files of one that follows Microsoft's cvinfo.h, [`LowBits`](EndLines::LowBits) for
/// those of one that is known to mean low bits. A compiler that means nothing by the seven bits often has 0 there, which by `Delta` is the start line, and by
/// `LowBits` the first line from there on that 128 divides.
#[derive(Clone, Copy, Debug, Default, Eq, Hash, PartialEq)]
pub enum EndLines {
    /// As the crate pdb 0.8.0 reads them: the end line is always the start line.
    #[default]
    Crate,
    /// The seven bits are the lowest of the end line, and its other bits are those of the start line; plus 128 where that is below the start line. The flags
    /// 0x8c00000a are line 10 to 12; start line 127 with 2 in the seven bits is 127 to 130.
    LowBits,
    /// The seven bits are how many lines the end line is behind the start line: cvinfo.h has them as deltaLineEnd, and LLVM reads them so. The flags 0x8200000a
    /// are line 10 to 12; start line 0xffffff with 127 in the seven bits ends at 0x100007e, the largest end line.
    Delta,
}

impl EndLines {
    /// The number that names it to the calls.
    fn number(self) -> u32 {
        match self {
            EndLines::Crate => calls::END_LINES_CRATE,
            EndLines::LowBits => calls::END_LINES_LOW_BITS,
            EndLines::Delta => calls::END_LINES_DELTA,
        }
    }
}

/// A line record: which source a piece of code is from. Markers, which say that code has no source line, give no record.
#[derive(Clone, Debug, Eq, PartialEq)]
pub struct LineInfo {
    /// Where the code starts.
    pub offset: PdbInternalSectionOffset,
    /// How many bytes it has: up to the next record, or to the end of the code that its subsection is of. None where neither is known.
    pub length: Option<u32>,
    /// The source file, for [`LineProgram::get_file_info`].
    pub file_index: FileIndex,
    /// The line where the source starts, the first line being 1.
    pub line_start: u32,
    /// The line where the source ends, by the reading that [`LineProgram::with_end_lines`] chose. Without a choice it is as the crate pdb 0.8.0 reads it,
    /// always the start line. It is never below the start line. LLVM's reading is [`EndLines::Delta`].
    pub line_end: u32,
    /// The column where the source starts. None where the subsection has no columns.
    pub column_start: Option<u32>,
    /// The column where the source ends. None where the subsection has no columns.
    pub column_end: Option<u32>,
    /// What it is of.
    pub kind: LineInfoKind,
    /// The subsection that it was read from: where the body of it starts in the area, behind the 8 bytes of its header. It counts from the area's first byte,
    /// also where [`ModuleInfo`](crate::ModuleInfo) cut the area out of a module's stream. The records of one subsection have the same number, those of two
    /// never, also where these overlap or start at the same place of the code. [`u32::MAX`], a position that no area has, stands for "of no line subsection".
    pub body: u32,
}

impl LineInfo {
    #[inline]
    fn of(w: &[RecordWord; RECORD]) -> LineInfo {
        let [section, offset, has_length, length, file, start, end, has_start, column_start, has_end, column_end, statement, body] = *w;
        LineInfo {
            offset: PdbInternalSectionOffset { section: section as u16, offset },
            length: optional(has_length, length),
            file_index: FileIndex(file),
            line_start: start,
            line_end: end,
            column_start: optional(has_start, column_start),
            column_end: optional(has_end, column_end),
            kind: if statement == 0 { LineInfoKind::Expression } else { LineInfoKind::Statement },
            body,
        }
    }

    /// Whether its code covers a place. Without a length it covers its start alone; of length 0 it covers nothing.
    pub fn covers(&self, place: PdbInternalSectionOffset) -> bool {
        let behind = place.offset.checked_sub(self.offset.offset);
        place.section == self.offset.section && behind.map_or(false, |n| n < self.length.unwrap_or(1))
    }
}

/// The checksum of a file's contents, as the compiler saw them. The bytes are what stands in the area, which may be of any number:
/// [`is_whole`](FileChecksum::is_whole) tells whether they are as many as the kind has.
///
/// Shown, it is its bytes in hex, or `-` where there are none, as in the sheet. Two of no kind are not equal: nothing is known of either.
#[derive(Clone, Copy, Debug)]
pub enum FileChecksum<'a> {
    /// None: the compiler kept no checksum.
    None,
    /// MD5, 16 bytes.
    Md5(&'a [u8]),
    /// SHA-1, 20 bytes.
    Sha1(&'a [u8]),
    /// SHA-256, 32 bytes.
    Sha256(&'a [u8]),
}

impl<'a> FileChecksum<'a> {
    fn of(kind: u64, bytes: &'a [u8]) -> FileChecksum<'a> {
        match kind {
            1 => FileChecksum::Md5(bytes),
            2 => FileChecksum::Sha1(bytes),
            3 => FileChecksum::Sha256(bytes),
            _ => FileChecksum::None,
        }
    }

    /// The number of its kind.
    pub(crate) fn number(&self) -> u8 {
        match self {
            FileChecksum::None => 0,
            FileChecksum::Md5(_) => 1,
            FileChecksum::Sha1(_) => 2,
            FileChecksum::Sha256(_) => 3,
        }
    }

    /// The name of its kind: `none`, `md5`, `sha1` or `sha256`.
    pub fn kind(&self) -> &'static str {
        match self {
            FileChecksum::None => "none",
            FileChecksum::Md5(_) => "md5",
            FileChecksum::Sha1(_) => "sha1",
            FileChecksum::Sha256(_) => "sha256",
        }
    }

    /// Its bytes as they stand in the area; none of no kind.
    pub fn bytes(&self) -> &'a [u8] {
        match self {
            FileChecksum::None => &[],
            FileChecksum::Md5(b) | FileChecksum::Sha1(b) | FileChecksum::Sha256(b) => b,
        }
    }

    /// Whether it has just as many bytes as a checksum of its kind: 16, 20 or 32. One of no kind is not whole.
    pub fn is_whole(&self) -> bool {
        match self {
            FileChecksum::None => false,
            FileChecksum::Md5(b) => b.len() == 16,
            FileChecksum::Sha1(b) => b.len() == 20,
            FileChecksum::Sha256(b) => b.len() == 32,
        }
    }

    /// Whether a digest is this checksum: the digest, by the function that [`kind`](FileChecksum::kind) names, of the contents that are asked about. This crate
    /// computes none.
    ///
    /// One of no kind matches nothing, and neither does one that is not whole: a blank is no answer.
    pub fn matches(&self, digest: &[u8]) -> bool {
        self.is_whole() && self.bytes() == digest
    }
}

impl fmt::Display for FileChecksum<'_> {
    fn fmt(&self, f: &mut fmt::Formatter<'_>) -> fmt::Result {
        if self.bytes().is_empty() {
            return f.write_str("-");
        }
        self.bytes().iter().try_for_each(|byte| write!(f, "{byte:02x}"))
    }
}

impl PartialEq for FileChecksum<'_> {
    fn eq(&self, other: &Self) -> bool {
        match (self, other) {
            (FileChecksum::None, _) | (_, FileChecksum::None) => false,
            _ => self.kind() == other.kind() && self.bytes() == other.bytes(),
        }
    }
}

/// A source file.
#[derive(Clone, Copy, Debug, PartialEq)]
pub struct FileInfo<'a> {
    /// Its name, for [`StringTable::get`](crate::StringTable::get).
    pub name: StringRef,
    /// The checksum of its contents.
    pub checksum: FileChecksum<'a>,
}

impl<'a> FileInfo<'a> {
    /// The words: name, kind, and start and length of a part of the bytes.
    fn of<W: Copy + Into<u64>>(bytes: &'a [u8], w: &[W], i: usize) -> FileInfo<'a> {
        FileInfo { name: StringRef(word32(w, i)), checksum: FileChecksum::of(word(w, i + 1), part(bytes, w, i + 2)) }
    }
}

/// Where the checksum data stands in an area: its start in the high half, its length in the low one. Before it is first asked for, no part of any area.
/// Whoever looks for it finds the same, so that no order of memory has to be asked for.
#[derive(Debug)]
struct ChecksumPart(AtomicU64);

impl ChecksumPart {
    fn unknown() -> Self {
        ChecksumPart(AtomicU64::new(u64::MAX))
    }

    /// The checksum data of the area, which is always the same one.
    #[inline]
    fn of<'a>(&self, area: &'a [u8]) -> Result<&'a [u8], Refusal> {
        let found = self.0.load(Ordering::Relaxed);
        match within(area, (found >> 32) as usize, found as u32 as usize) {
            Some(data) => Ok(data),
            None => self.find(area),
        }
    }

    #[cold]
    fn find<'a>(&self, area: &'a [u8]) -> Result<&'a [u8], Refusal> {
        let out: [u64; 2] = one(|out| calls::c13_checksums(area, out))?;
        self.0.store(word(&out, 0) << 32 | word(&out, 1), Ordering::Relaxed);
        Ok(part(area, &out, 0))
    }
}

impl Clone for ChecksumPart {
    fn clone(&self) -> Self {
        ChecksumPart(AtomicU64::new(self.0.load(Ordering::Relaxed)))
    }
}

/// The lines and files of an area: its bytes, and two lists of its line subsections, in the order of their code and in that of the area. No answer depends
/// on the second list; with it a call over the first takes at most some n log n steps for n bytes.
#[derive(Clone, Debug)]
pub struct LineProgram<'a> {
    area: &'a [u8],
    slots: Vec<u32>,
    /// The second list; empty where the first ascends, which then is the second as well.
    bodies: Vec<u32>,
    checksums: ChecksumPart,
    end_lines: EndLines,
}

impl<'a> LineProgram<'a> {
    /// Tests the whole area, subsection by subsection, and puts those of lines in order. What stands in their bodies is tested when it is read. End lines are
    /// read as the crate pdb reads them, [`EndLines::Crate`].
    ///
    /// # Errors
    ///
    /// [`Refusal::TooLong`] above 16,777,216 bytes; [`Refusal::Cut`] where a header, a body or the head of a line subsection ends past its data;
    /// [`Refusal::UnknownKind`].
    pub fn new(area: &'a [u8]) -> Result<Self, Refusal> {
        // A line subsection has at least 20 bytes, and an area that is read at most 16,777,216, so these slots suffice.
        let mut slots = vec![0; area.len().min(0x100_0000) / 20];
        let out: [u64; 2] = one(|out| calls::c13_order_list(area, &mut slots, out))?;
        slots.truncate(size(&out, 0));
        slots.shrink_to_fit();
        let mut bodies = vec![];
        if !slots.windows(2).all(|pair| pair[0] < pair[1]) {
            bodies.resize(slots.len(), 0);
            let _: [u64; 2] = one(|out| calls::c13_body_list(area, &mut bodies, out))?;
        }
        Ok(LineProgram { area, slots, bodies, checksums: ChecksumPart::unknown(), end_lines: EndLines::default() })
    }

    /// The same with another reading of end lines: by it [`lines`](LineProgram::lines), [`lines_for_symbol`](LineProgram::lines_for_symbol) and
    /// [`line_at`](LineProgram::line_at) read from then on. Nothing else of what they answer changes.
    #[must_use]
    pub fn with_end_lines(self, end_lines: EndLines) -> Self {
        LineProgram { end_lines, ..self }
    }

    /// The list of the line subsections in the order of the area.
    fn bodies(&self) -> &[u32] {
        if self.bodies.is_empty() {
            &self.slots
        } else {
            &self.bodies
        }
    }

    /// All line records, by ascending section and offset of their subsections.
    pub fn lines(&self) -> LineIterator<'_> {
        let mut state = [0; LINE_STATE + 2];
        state[STATE_END_LINES] = self.end_lines.number().into();
        // As many records at first as there are subsections: that takes no longer than the lists did.
        LineIterator { program: self, records: Ok(Many::of(Walk::from(state), self.slots.len())) }
    }

    /// The line records of the symbol at a place: those of the line subsection that starts there, or else of the last one of the section that starts
    /// before it, whether or not that reaches so far.
    pub fn lines_for_symbol(&self, place: PdbInternalSectionOffset) -> LineIterator<'_> {
        let end_lines = self.end_lines.number();
        let walk = one(|out| calls::c13_lines_for_symbol(self.area, &self.slots, self.bodies(), place.section, place.offset, end_lines, out));
        LineIterator { program: self, records: walk.map(|out| Many::of(Walk::from(out), 0)).map_err(Some) }
    }

    /// The line record whose code covers a place, of the subsection that [`lines_for_symbol`](LineProgram::lines_for_symbol) takes. None where no record
    /// does: the code there is not of this module, or has no lines.
    ///
    /// # Errors
    ///
    /// A refusal that the walk to it comes upon: [`Refusal::Cut`], [`Refusal::BlockSize`], [`Refusal::OffsetTooLarge`].
    pub fn line_at(&self, place: PdbInternalSectionOffset) -> Result<Option<LineInfo>, Refusal> {
        for line in self.lines_for_symbol(place) {
            let line = line?;
            if line.covers(place) {
                return Ok(Some(line));
            }
        }
        Ok(None)
    }

    /// All files, each with its index: the entries of the area's last checksum subsection.
    pub fn files(&self) -> FileIterator<'a> {
        FileIterator::new(self.area)
    }

    /// The file at an index, as a line record names it.
    ///
    /// # Errors
    ///
    /// [`Refusal::NoFile`] at the end of the checksum data; [`Refusal::Cut`] behind it, and where the entry there is cut;
    /// [`Refusal::UnknownChecksumKind`].
    #[inline]
    pub fn get_file_info(&self, index: FileIndex) -> Result<FileInfo<'a>, Refusal> {
        let data = self.checksums.of(self.area)?;
        let out: [u64; 4] = one(|out| calls::c13_file_in(data, index.0, out))?;
        Ok(FileInfo::of(data, &out, 0))
    }
}

/// Line records, in the order of their code. Made by [`LineProgram::lines`] and [`LineProgram::lines_for_symbol`].
#[derive(Clone, Debug)]
pub struct LineIterator<'a> {
    program: &'a LineProgram<'a>,
    /// The records, or why there are none, which is told once.
    records: Result<Many<{ LINE_STATE + 2 }, RECORD>, Option<Refusal>>,
}

impl Iterator for LineIterator<'_> {
    type Item = Result<LineInfo, Refusal>;

    #[inline]
    fn next(&mut self) -> Option<Self::Item> {
        let program = self.program;
        match &mut self.records {
            Ok(records) => {
                let call =
                    |records: &mut [RecordWord], out: &mut [u64]| calls::c13_lines(program.area, &program.slots, program.bodies(), records, out);
                Some(records.next(LINE_STATE, call)?.map(LineInfo::of))
            }
            Err(why) => why.take().map(Err),
        }
    }

    fn size_hint(&self) -> (usize, Option<usize>) {
        match &self.records {
            Ok(records) => records.size_hint::<8>(self.program.area),
            Err(why) => (usize::from(why.is_some()), Some(usize::from(why.is_some()))),
        }
    }
}

impl FusedIterator for LineIterator<'_> {}

/// Source files, each with its index. Made by [`Area::files`](crate::Area::files) and [`LineProgram::files`].
#[derive(Clone, Debug)]
pub struct FileIterator<'a> {
    area: &'a [u8],
    records: Many<{ TABLE_STATE + 2 }, FILE_RECORD>,
}

impl<'a> FileIterator<'a> {
    pub(crate) fn new(area: &'a [u8]) -> Self {
        FileIterator { area, records: Many::of(Walk::new(), 0) }
    }
}

impl<'a> Iterator for FileIterator<'a> {
    type Item = Result<(FileIndex, FileInfo<'a>), Refusal>;

    fn next(&mut self) -> Option<Self::Item> {
        let area = self.area;
        let step = self.records.next(TABLE_STATE, |records, out| calls::c13_files(area, records, out))?;
        Some(step.map(|w| (FileIndex(word32(w, 0)), FileInfo::of(area, w, 1))))
    }

    fn size_hint(&self) -> (usize, Option<usize>) {
        self.records.size_hint::<8>(self.area)
    }
}

impl FusedIterator for FileIterator<'_> {}
