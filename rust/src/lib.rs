//! CodeView C13 areas, the part of a Windows PDB that says which source file and line each piece of code is from, with each file's checksum.
//!
//! This crate is a safe face of the static library whose every function is proved in Rattle: it lends slices to the library's calls and hands out
//! what they answer. It reads nothing of the bytes itself. Types have the names of the crate pdb 0.8.0 where they say the same.
//!
//! An [`Area`] is the C13 part of one module; [`ModuleInfo`] cuts it out of the module's stream. Its [`LineProgram`] has the lines and the files;
//! a file's name stands in the [`StringTable`] that all modules share. A [`Writer`] makes areas.
//!
//! No call panics, whatever the bytes: each ends with an answer or a [`Refusal`]. An iterator gives the records before a refusal, then the refusal,
//! and ends there. An area or a stream has at most 16,777,216 bytes; a longer one is refused.
//!
//! Which source line is the code at 1:0x88 from, and has the file of the archive the checksum that the compiler saw?
//!
//! ```no_run
//! # fn digest(_: &[u8]) -> [u8; 16] { [0; 16] }
//! # fn main() -> Result<(), Box<dyn std::error::Error>> {
//! let (area, names) = (std::fs::read("table.c13")?, std::fs::read("table.names")?);
//! let program = c13::Area::new(&area).line_program()?;
//! if let Some(line) = program.line_at(c13::PdbInternalSectionOffset { section: 1, offset: 0x88 })? {
//!     let file = program.get_file_info(line.file_index)?;
//!     let name = c13::StringTable::parse(&names)?.get(file.name)?;
//!     println!("{} line {} {} {}", String::from_utf8_lossy(name), line.line_start, file.checksum.kind(), file.checksum);
//!     let archived = digest(&std::fs::read("archive/table.c")?); // by a library of your choice, of the kind that the checksum has
//!     println!("{}", if file.checksum.matches(&archived) { "yes" } else { "no" });
//! }
//! # Ok(())
//! # }
//! ```
//!
//! The program `c13` of this package answers that from a shell.
//!
//! To link, the static library must be there: `scripts/x86-64 library` of the repository makes it, `scripts/windows library` the one for Windows, and
//! where it lies elsewhere the environment variable `C13_LIBRARY` names its folder when this crate is built.
#![deny(unsafe_code)]
#![warn(missing_docs, clippy::missing_errors_doc)]

mod area;
// The raw calls are no part of the interface. With the feature `calls` the programs of bench/, compare/ and tests/, which count and compare them, reach them.
#[cfg(feature = "calls")]
#[doc(hidden)]
#[allow(unsafe_code, missing_docs)]
pub mod calls;
#[cfg(not(feature = "calls"))]
#[allow(unsafe_code, dead_code)]
mod calls;
mod kind;
mod lines;
mod module;
mod refusal;
mod strings;
mod tables;
mod words;
mod writer;

pub use area::{Area, Subsection, Subsections};
pub use kind::SubsectionKind;
pub use lines::{
    EndLines, FileChecksum, FileIndex, FileInfo, FileIterator, LineInfo, LineInfoKind, LineIterator, LineProgram, PdbInternalSectionOffset,
};
pub use module::ModuleInfo;
pub use refusal::Refusal;
pub use strings::{StringRef, StringTable};
pub use tables::{
    CrossModuleExport, CrossModuleExportIter, CrossModuleExports, CrossModuleImports, CrossModuleRef, ImportModule, ImportModules, Inlinee,
    InlineeIterator, ModuleRef, Words,
};
pub use writer::{FieldError, LineEntry, WriteError, Writer};
