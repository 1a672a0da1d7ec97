//! Why a call refuses.

use std::fmt;

/// Why a call refuses: document 01's table of refusal numbers, a case each, with what it carries. Shown, it is the number, the text and what it carries:
/// `refused 2: unknown subsection kind (0xf0)`.
#[derive(Clone, Copy, Debug, Eq, Hash, PartialEq)]
pub enum Refusal {
    /// 1: a field, counted body, padding or name ends past its data.
    Cut,
    /// 2: a subsection's kind is unknown.
    UnknownKind(u32),
    /// 3: a checksum's kind is above 3.
    UnknownChecksumKind(u8),
    /// 4: an export body is no multiple of 8 bytes.
    ExportLength,
    /// 5: bit 31 of a reference is clear.
    NotACrossModuleRef(u32),
    /// 6: a reference names no module or no word of it.
    CrossModuleRefNotFound(u32),
    /// 7: a block's size is below 12, or its lines and columns exceed it.
    BlockSize,
    /// 8: a section offset plus a line offset or a code size is above 4,294,967,295.
    OffsetTooLarge,
    /// 9: a lookup in exports whose local indices do not strictly ascend.
    UnsortedExports,
    /// 10: the lent room is too small.
    NoRoom,
    /// 11: an area or a stream is above 16,777,216 bytes.
    TooLong,
    /// 12: C11 lines, or a symbol signature that is not 4.
    OldFormat,
    /// 13: a string table's signature is not 0xEFFEEFFE.
    NoStringTable,
    /// 14: a string table's hash version is not 1 or 2.
    HashVersion,
    /// 15: a module's symbols and C13 sizes together exceed its stream.
    ModuleSizes,
    /// 16: the writer's place: an entry not of the last subsection's kind, a place past the buffer, or no plain area before it.
    WrongPlace,
    /// 17: the writer's rule: an entry that would break a plain area.
    NotPlain,
    /// 18: a file index equals the length of the checksum data.
    NoFile(u32),
    /// 19: a slot of an order list is missing, or names no line subsection.
    WrongSlot,
    /// A number that this crate does not know, as a newer library may give, and what it carries.
    Unknown(u64, u64),
}

impl Refusal {
    /// The refusal of a number and what it carries.
    pub(crate) fn of(number: u64, carries: u64) -> Refusal {
        let carried = carries as u32;
        match number {
            1 => Refusal::Cut,
            2 => Refusal::UnknownKind(carried),
            3 => Refusal::UnknownChecksumKind(carries as u8),
            4 => Refusal::ExportLength,
            5 => Refusal::NotACrossModuleRef(carried),
            6 => Refusal::CrossModuleRefNotFound(carried),
            7 => Refusal::BlockSize,
            8 => Refusal::OffsetTooLarge,
            9 => Refusal::UnsortedExports,
            10 => Refusal::NoRoom,
            11 => Refusal::TooLong,
            12 => Refusal::OldFormat,
            13 => Refusal::NoStringTable,
            14 => Refusal::HashVersion,
            15 => Refusal::ModuleSizes,
            16 => Refusal::WrongPlace,
            17 => Refusal::NotPlain,
            18 => Refusal::NoFile(carried),
            19 => Refusal::WrongSlot,
            _ => Refusal::Unknown(number, carries),
        }
    }

    /// Its number and text.
    fn told(&self) -> (u64, &'static str) {
        match self {
            Refusal::Cut => (1, "a field, body, padding or name ends past its data"),
            Refusal::UnknownKind(_) => (2, "unknown subsection kind"),
            Refusal::UnknownChecksumKind(_) => (3, "unknown checksum kind"),
            Refusal::ExportLength => (4, "the export body is no multiple of 8 bytes"),
            Refusal::NotACrossModuleRef(_) => (5, "not a cross-module reference"),
            Refusal::CrossModuleRefNotFound(_) => (6, "cross-module reference not found"),
            Refusal::BlockSize => (7, "a block's size is below 12, or its lines and columns exceed it"),
            Refusal::OffsetTooLarge => (8, "an offset is above 4,294,967,295"),
            Refusal::UnsortedExports => (9, "the local indices of the exports do not ascend"),
            Refusal::NoRoom => (10, "the lent room is too small"),
            Refusal::TooLong => (11, "above 16,777,216 bytes"),
            Refusal::OldFormat => (12, "C11 lines, or a symbol signature that is not 4"),
            Refusal::NoStringTable => (13, "not a string table"),
            Refusal::HashVersion => (14, "unknown hash version of a string table"),
            Refusal::ModuleSizes => (15, "a module's sizes exceed its stream"),
            Refusal::WrongPlace => (16, "an entry at a wrong place"),
            Refusal::NotPlain => (17, "an entry that would break a plain area"),
            Refusal::NoFile(_) => (18, "no file at the end of the checksum data"),
            Refusal::WrongSlot => (19, "a slot names no line subsection"),
            Refusal::Unknown(number, _) => (*number, "unknown refusal"),
        }
    }

    /// Its number in document 01, "Refusal numbers", which the sheet prints and the C header names.
    pub fn number(&self) -> u64 {
        self.told().0
    }

    /// What it carries: the kind or the index that was refused. None where document 01 gives it nothing to carry.
    pub fn carries(&self) -> Option<u64> {
        match *self {
            Refusal::UnknownChecksumKind(kind) => Some(u64::from(kind)),
            Refusal::UnknownKind(x) | Refusal::NotACrossModuleRef(x) | Refusal::CrossModuleRefNotFound(x) | Refusal::NoFile(x) => Some(u64::from(x)),
            Refusal::Unknown(_, carries) => Some(carries),
            _ => None,
        }
    }

    /// What it means, in a few words, without what it carries.
    pub fn text(&self) -> &'static str {
        self.told().1
    }
}

impl fmt::Display for Refusal {
    fn fmt(&self, f: &mut fmt::Formatter<'_>) -> fmt::Result {
        write!(f, "refused {}: {}", self.number(), self.text())?;
        self.carries().map_or(Ok(()), |x| write!(f, " ({x:#x})"))
    }
}

impl std::error::Error for Refusal {}
