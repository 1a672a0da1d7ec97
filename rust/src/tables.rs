//! Inlinees, imports and exports.

use crate::calls::{self, TABLE_STATE};
use crate::words::{found, one, part, size, word, word32, Walk};
use crate::{FileIndex, Refusal, StringRef};
use std::iter::FusedIterator;

/// Numbers of a record: the extra files of an inlinee, or the local indices of an imported module. They are read out of the area as they are asked for.
#[derive(Clone, Debug)]
pub struct Words<'a> {
    area: &'a [u8],
    place: usize,
    count: usize,
    next: usize,
}

impl<'a> Words<'a> {
    fn of(area: &'a [u8], w: &[u64], i: usize) -> Words<'a> {
        Words { area, place: size(w, i), count: size(w, i + 1), next: 0 }
    }

    /// Number i, counted from 0, whether or not the iterator has come so far. None behind the last.
    pub fn get(&self, i: usize) -> Option<u32> {
        let mut out = [0; 2];
        let status = calls::c13_word(self.area, self.place, self.count, i, &mut out);
        found(status, &out, |w| word32(w, 0)).ok().flatten()
    }

    /// How many there are in all, those that the iterator gave among them.
    pub fn len(&self) -> usize {
        self.count
    }

    /// Whether there are none at all.
    pub fn is_empty(&self) -> bool {
        self.count == 0
    }
}

impl Iterator for Words<'_> {
    type Item = u32;

    fn next(&mut self) -> Option<u32> {
        let word = self.get(self.next)?;
        self.next += 1;
        Some(word)
    }

    fn size_hint(&self) -> (usize, Option<usize>) {
        let left = self.count.saturating_sub(self.next);
        (left, Some(left))
    }
}

impl FusedIterator for Words<'_> {}

/// A function that was inlined, and where its source is.
#[derive(Clone, Debug)]
pub struct Inlinee<'a> {
    /// Its index in the IPI stream, which has its name.
    pub index: u32,
    /// The file of its source, for [`LineProgram::get_file_info`](crate::LineProgram::get_file_info).
    pub file_index: FileIndex,
    /// The line where its source starts.
    pub line: u32,
    /// The indices of further files of its source. Only a subsection of signature 1 has them.
    pub extra_files: Words<'a>,
}

/// The functions that were inlined, in the order of the area. Made by [`Area::inlinees`](crate::Area::inlinees).
#[derive(Clone, Debug)]
pub struct InlineeIterator<'a> {
    area: &'a [u8],
    walk: Walk<9>,
}

impl<'a> InlineeIterator<'a> {
    pub(crate) fn new(area: &'a [u8]) -> Self {
        InlineeIterator { area, walk: Walk::new() }
    }
}

impl<'a> Iterator for InlineeIterator<'a> {
    type Item = Result<Inlinee<'a>, Refusal>;

    fn next(&mut self) -> Option<Self::Item> {
        let area = self.area;
        let step = self.walk.next(TABLE_STATE, |out| calls::c13_next_inlinee(area, out))?;
        Some(step.map(|w| Inlinee {
            index: word32(w, 0),
            file_index: FileIndex(word32(w, 1)),
            line: word32(w, 2),
            extra_files: Words::of(area, w, 3),
        }))
    }

    fn size_hint(&self) -> (usize, Option<usize>) {
        (0, Some(self.walk.at_most::<12>(self.area)))
    }
}

impl FusedIterator for InlineeIterator<'_> {}

/// A module that is imported from, by its name in the string table.
#[derive(Clone, Copy, Debug, Eq, Hash, PartialEq)]
pub struct ModuleRef(pub StringRef);

/// A type or id of another module: the module, and its local index there.
#[derive(Clone, Copy, Debug, Eq, Hash, PartialEq)]
pub struct CrossModuleRef(pub ModuleRef, pub u32);

/// The types and ids that an area takes from other modules. Made by [`Area::imports`](crate::Area::imports), which reads the table once; a lookup then takes
/// the same time whatever the area's size.
#[derive(Clone, Debug)]
pub struct CrossModuleImports<'a> {
    area: &'a [u8],
    /// Where each module stands in the area; or why the table is refused, which each lookup tells.
    places: Result<Vec<u32>, Refusal>,
}

impl<'a> CrossModuleImports<'a> {
    pub(crate) fn new(area: &'a [u8]) -> Self {
        // A module has at least 8 bytes, and an area that is read at most 16,777,216, so these places suffice.
        let mut places = vec![0; area.len().min(0x100_0000) / 8];
        let used: Result<[u64; 2], Refusal> = one(|out| calls::c13_import_list(area, &mut places, out));
        let places = used.map(|out| {
            places.truncate(size(&out, 0));
            places.shrink_to_fit();
            places
        });
        CrossModuleImports { area, places }
    }

    /// The modules that are imported from, each with what is taken from it.
    pub fn modules(&self) -> ImportModules<'a> {
        ImportModules { area: self.area, walk: Walk::new() }
    }

    /// What a cross-module reference names: an index whose bit 31 is set, whose bits 20 to 30 pick the module and whose bits 0 to 19 one of the local indices
    /// that are imported from it.
    ///
    /// # Errors
    ///
    /// [`Refusal::NotACrossModuleRef`] where bit 31 is clear; [`Refusal::CrossModuleRefNotFound`] where there is no such module or index. The whole table
    /// was read first, and its refusals come before these.
    #[inline]
    pub fn resolve_import(&self, index: u32) -> Result<CrossModuleRef, Refusal> {
        let places = self.places.as_ref().map_err(|why| *why)?;
        let out: [u64; 2] = one(|out| calls::c13_resolve_listed(self.area, places, index, out))?;
        Ok(CrossModuleRef(ModuleRef(StringRef(word32(&out, 0))), word32(&out, 1)))
    }
}

/// A module that is imported from.
#[derive(Clone, Debug)]
pub struct ImportModule<'a> {
    /// Which module it is.
    pub name: ModuleRef,
    /// The local indices, in that module, of the types and ids that are imported.
    pub imports: Words<'a>,
}

/// The modules that are imported from, in the order of the area. Made by [`CrossModuleImports::modules`].
#[derive(Clone, Debug)]
pub struct ImportModules<'a> {
    area: &'a [u8],
    walk: Walk<7>,
}

impl<'a> Iterator for ImportModules<'a> {
    type Item = Result<ImportModule<'a>, Refusal>;

    fn next(&mut self) -> Option<Self::Item> {
        let area = self.area;
        let step = self.walk.next(TABLE_STATE, |out| calls::c13_next_import(area, out))?;
        Some(step.map(|w| ImportModule { name: ModuleRef(StringRef(word32(w, 0))), imports: Words::of(area, w, 1) }))
    }

    fn size_hint(&self) -> (usize, Option<usize>) {
        (0, Some(self.walk.at_most::<8>(self.area)))
    }
}

impl FusedIterator for ImportModules<'_> {}

/// An export: the local index of a type or id in its module, and the global one in the PDB.
#[derive(Clone, Copy, Debug, Eq, PartialEq)]
pub enum CrossModuleExport {
    /// A type: its local and its global index.
    Type(u32, u32),
    /// An id: its local index, whose bit 31 is set, and its global one.
    Id(u32, u32),
}

/// The types and ids that an area gives to other modules. Made by [`Area::exports`](crate::Area::exports), which finds and tests them once; a lookup then
/// halves them.
#[derive(Clone, Copy, Debug)]
pub struct CrossModuleExports<'a> {
    area: &'a [u8],
    len: usize,
    /// The pairs as they stand in the area; or why they cannot be searched, which each lookup tells.
    body: Result<&'a [u8], Refusal>,
}

impl<'a> CrossModuleExports<'a> {
    pub(crate) fn new(area: &'a [u8]) -> Result<Self, Refusal> {
        let found: Result<[u64; 2], Refusal> = one(|out| calls::c13_export_body(area, out));
        match found {
            // eight bytes a pair
            Ok(out) => Ok(CrossModuleExports { area, len: size(&out, 1) / 8, body: Ok(part(area, &out, 0)) }),
            // A listing takes any order.
            Err(Refusal::UnsortedExports) => {
                let out: [u64; 2] = one(|out| calls::c13_export_count(area, out))?;
                Ok(CrossModuleExports { area, len: size(&out, 0), body: Err(Refusal::UnsortedExports) })
            }
            Err(why) => Err(why),
        }
    }

    /// How many exports there are.
    pub fn len(&self) -> usize {
        self.len
    }

    /// Whether there is no export.
    pub fn is_empty(&self) -> bool {
        self.len == 0
    }

    /// All exports, in the order of the area.
    pub fn exports(&self) -> CrossModuleExportIter<'a> {
        CrossModuleExportIter { area: self.area, walk: Walk::new(), left: self.len }
    }

    /// The global index of a local one; none where it is not exported.
    ///
    /// # Errors
    ///
    /// [`Refusal::UnsortedExports`] where the local indices do not strictly ascend: a search in them would answer by chance.
    #[inline]
    pub fn resolve_import(&self, local: u32) -> Result<Option<u32>, Refusal> {
        let mut out = [0; 2];
        let status = calls::c13_export_in(self.body?, local, &mut out);
        found(status, &out, |w| word32(w, 0))
    }
}

/// Exports, in the order of the area. Made by [`CrossModuleExports::exports`].
#[derive(Clone, Debug)]
pub struct CrossModuleExportIter<'a> {
    area: &'a [u8],
    walk: Walk<7>,
    /// How many were not given yet.
    left: usize,
}

impl Iterator for CrossModuleExportIter<'_> {
    type Item = Result<CrossModuleExport, Refusal>;

    fn next(&mut self) -> Option<Self::Item> {
        let area = self.area;
        self.left = self.left.saturating_sub(1);
        let step = self.walk.next(TABLE_STATE, |out| calls::c13_next_export(area, out))?;
        Some(step.map(|w| match word(w, 0) {
            0 => CrossModuleExport::Type(word32(w, 1), word32(w, 2)),
            _ => CrossModuleExport::Id(word32(w, 1), word32(w, 2)),
        }))
    }

    fn size_hint(&self) -> (usize, Option<usize>) {
        (self.left, Some(self.left))
    }
}

impl FusedIterator for CrossModuleExportIter<'_> {}
