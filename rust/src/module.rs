//! A module's stream.

use crate::calls;
use crate::words::{one, part};
use crate::{Area, CrossModuleExports, CrossModuleImports, InlineeIterator, LineProgram, Refusal};

/// A module, an object file of the link: its stream in the PDB, and the three sizes that the DBI stream has of it. The stream is first its symbols,
/// then its lines in the old form (C11) or in the new one (C13).
#[derive(Clone, Copy, Debug)]
pub struct ModuleInfo<'a> {
    /// The whole stream.
    pub stream: &'a [u8],
    /// How many bytes its symbols take, with the 4 bytes of their signature.
    pub symbols_size: u32,
    /// How many bytes its C11 lines take. Modules of today have none.
    pub lines_size: u32,
    /// How many bytes its C13 lines take: the area.
    pub c13_lines_size: u32,
}

impl<'a> ModuleInfo<'a> {
    fn area(&self, call: fn(&[u8], u32, u32, u32, &mut [u64]) -> u32) -> Result<Area<'a>, Refusal> {
        let out: [u64; 2] = one(|out| call(self.stream, self.symbols_size, self.lines_size, self.c13_lines_size, out))?;
        Ok(Area::new(part(self.stream, &out, 0)))
    }

    /// Tests that its symbols can be read. What they are is not read here.
    ///
    /// # Errors
    ///
    /// [`Refusal::Cut`] where they end past the stream or are shorter than their signature; [`Refusal::OldFormat`] where that is not 4;
    /// [`Refusal::TooLong`].
    pub fn symbols(&self) -> Result<(), Refusal> {
        let _: [u64; 2] = one(|out| calls::c13_module_symbols(self.stream, self.symbols_size, self.lines_size, self.c13_lines_size, out))?;
        Ok(())
    }

    /// The area of its lines and files: the C13 part of the stream.
    ///
    /// # Errors
    ///
    /// [`Refusal::OldFormat`] where it has C11 lines; [`Refusal::ModuleSizes`] where the sizes exceed the stream; [`Refusal::TooLong`].
    pub fn lines_area(&self) -> Result<Area<'a>, Refusal> {
        self.area(calls::c13_lines_part)
    }

    /// The area of its inlinees, imports and exports: the C13 part of the stream, or an empty area where it has C11 lines.
    ///
    /// # Errors
    ///
    /// [`Refusal::ModuleSizes`] where the sizes exceed the stream; [`Refusal::TooLong`].
    pub fn tables_area(&self) -> Result<Area<'a>, Refusal> {
        self.area(calls::c13_tables_part)
    }

    /// Its lines and files.
    ///
    /// # Errors
    ///
    /// Those of [`lines_area`](ModuleInfo::lines_area) and of [`LineProgram::new`].
    pub fn line_program(&self) -> Result<LineProgram<'a>, Refusal> {
        self.lines_area()?.line_program()
    }

    /// The functions that were inlined into it.
    ///
    /// # Errors
    ///
    /// Those of [`tables_area`](ModuleInfo::tables_area).
    pub fn inlinees(&self) -> Result<InlineeIterator<'a>, Refusal> {
        Ok(self.tables_area()?.inlinees())
    }

    /// What it takes from other modules.
    ///
    /// # Errors
    ///
    /// Those of [`tables_area`](ModuleInfo::tables_area).
    pub fn imports(&self) -> Result<CrossModuleImports<'a>, Refusal> {
        Ok(self.tables_area()?.imports())
    }

    /// What it gives to other modules.
    ///
    /// # Errors
    ///
    /// Those of [`tables_area`](ModuleInfo::tables_area) and of [`Area::exports`].
    pub fn exports(&self) -> Result<CrossModuleExports<'a>, Refusal> {
        self.tables_area()?.exports()
    }
}
