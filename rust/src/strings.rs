//! The string table.

use crate::calls;
use crate::words::{one, part};
use crate::Refusal;

/// A name, by its offset in the names of the string table.
#[derive(Clone, Copy, Debug, Eq, Hash, PartialEq)]
pub struct StringRef(pub u32);

/// The string table of a PDB, which all its modules share: its stream `/names`, lent whole.
#[derive(Clone, Copy, Debug)]
pub struct StringTable<'a> {
    stream: &'a [u8],
}

impl<'a> StringTable<'a> {
    /// The table that a stream is. Its header is tested, and no name yet.
    ///
    /// # Errors
    ///
    /// [`Refusal::NoStringTable`] where the signature is another; [`Refusal::HashVersion`]; [`Refusal::Cut`] where header or names end past the stream;
    /// [`Refusal::TooLong`].
    pub fn parse(stream: &'a [u8]) -> Result<Self, Refusal> {
        let _: [u64; 2] = one(|out| calls::c13_string_table(stream, out))?;
        Ok(StringTable { stream })
    }

    /// The bytes of a name, without the zero that ends it. They need not be UTF-8.
    ///
    /// # Errors
    ///
    /// [`Refusal::Cut`] where the offset is behind the names, or no zero follows in them.
    pub fn get(&self, name: StringRef) -> Result<&'a [u8], Refusal> {
        let out: [u64; 2] = one(|out| calls::c13_name(self.stream, name.0, out))?;
        Ok(part(self.stream, &out, 0))
    }
}
