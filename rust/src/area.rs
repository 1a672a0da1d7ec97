//! An area and its subsections.

use crate::calls::{self, SUB_STATE};
use crate::words::{answer, part, word32, Walk};
use crate::{CrossModuleExports, CrossModuleImports, FileIterator, InlineeIterator, LineProgram, Refusal, SubsectionKind};
use std::iter::FusedIterator;

/// A C13 area: the debug subsections of a module, one behind the other.
///
/// It is lent bytes and nothing else. Each of its calls reads them anew; a [`LineProgram`], [`CrossModuleImports`] or [`CrossModuleExports`] keeps what it
/// found.
#[derive(Clone, Copy, Debug)]
pub struct Area<'a> {
    bytes: &'a [u8],
}

/// A subsection: its kind and its body, whatever stands in it.
#[derive(Clone, Copy, Debug, Eq, PartialEq)]
pub struct Subsection<'a> {
    /// What it holds.
    pub kind: SubsectionKind,
    /// The body, without the 8 bytes of kind and length before it.
    pub data: &'a [u8],
}

/// The subsections of an area, in its order. Made by [`Area::subsections`].
#[derive(Clone, Debug)]
pub struct Subsections<'a> {
    area: &'a [u8],
    walk: Walk<4>,
}

impl<'a> Area<'a> {
    /// The area that these bytes are. Nothing is read yet, so that any bytes will do.
    pub fn new(bytes: &'a [u8]) -> Self {
        Area { bytes }
    }

    /// The bytes that were lent to [`Area::new`].
    pub fn bytes(&self) -> &'a [u8] {
        self.bytes
    }

    /// Its subsections, in the order in which they stand. Those of kind [`SubsectionKind::Ignore`] are left out. The walk is refused
    /// where a header or a body is cut, and at a kind that document 01 does not know.
    pub fn subsections(&self) -> Subsections<'a> {
        Subsections { area: self.bytes, walk: Walk::new() }
    }

    /// Whether it is plain: a full reading of it refuses nothing, and from what is read a [`Writer`](crate::Writer) makes the same bytes again.
    ///
    /// # Errors
    ///
    /// [`Refusal::TooLong`] above 16,777,216 bytes. An area that is damaged is not refused: it is not plain.
    pub fn is_plain(&self) -> Result<bool, Refusal> {
        let mut out = [0; 3];
        let status = calls::c13_plain(self.bytes, &mut out);
        Ok(answer(status, &out, 0)?.is_some())
    }

    /// Its lines and files, ready to be asked: see [`LineProgram::new`].
    ///
    /// # Errors
    ///
    /// Those of [`LineProgram::new`].
    pub fn line_program(&self) -> Result<LineProgram<'a>, Refusal> {
        LineProgram::new(self.bytes)
    }

    /// Its source files, each with its index: the entries of its last checksum subsection, after the tests of [`LineProgram::new`] over the whole area.
    pub fn files(&self) -> FileIterator<'a> {
        FileIterator::new(self.bytes)
    }

    /// The functions that were inlined, from its first subsection of inlinees; without one there are none. Where their code stands is not told: that is
    /// among the symbols.
    pub fn inlinees(&self) -> InlineeIterator<'a> {
        InlineeIterator::new(self.bytes)
    }

    /// What it takes from other modules, from its first subsection of imports; without one there is nothing. A table that is refused is told by each lookup.
    pub fn imports(&self) -> CrossModuleImports<'a> {
        CrossModuleImports::new(self.bytes)
    }

    /// What it gives to other modules, from its first subsection of exports; without one there is nothing.
    ///
    /// # Errors
    ///
    /// [`Refusal::ExportLength`] where that subsection is no list of pairs; [`Refusal::Cut`], [`Refusal::UnknownKind`] where a subsection before it does not
    /// pass; [`Refusal::TooLong`].
    pub fn exports(&self) -> Result<CrossModuleExports<'a>, Refusal> {
        CrossModuleExports::new(self.bytes)
    }
}

impl<'a> Iterator for Subsections<'a> {
    type Item = Result<Subsection<'a>, Refusal>;

    fn next(&mut self) -> Option<Self::Item> {
        let area = self.area;
        let step = self.walk.next(SUB_STATE, |out| calls::c13_next_sub(area, out))?;
        Some(step.map(|w| Subsection { kind: word32(w, 0).into(), data: part(area, w, 1) }))
    }

    fn size_hint(&self) -> (usize, Option<usize>) {
        (0, Some(self.walk.at_most::<8>(self.area)))
    }
}

impl FusedIterator for Subsections<'_> {}
