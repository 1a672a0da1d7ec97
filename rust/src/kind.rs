//! The kinds of subsections.

use std::fmt;

/// What a subsection holds. The names are those of Microsoft's cvinfo.h, `DEBUG_S_LINES` being `Lines`.
#[derive(Clone, Copy, Debug, Eq, Hash, PartialEq)]
#[non_exhaustive]
pub enum SubsectionKind {
    /// 0xf1: symbols.
    Symbols,
    /// 0xf2: the lines of a piece of code, which [`LineProgram::lines`](crate::LineProgram::lines) reads.
    Lines,
    /// 0xf3: names. A PDB has them in its stream `/names` instead, which [`StringTable`](crate::StringTable) reads.
    StringTable,
    /// 0xf4: source files and their checksums, which [`LineProgram::files`](crate::LineProgram::files) reads.
    FileChecksums,
    /// 0xf5: stack frames.
    FrameData,
    /// 0xf6: functions that were inlined, which [`Area::inlinees`](crate::Area::inlinees) reads.
    InlineeLines,
    /// 0xf7: types and ids of other modules, which [`Area::imports`](crate::Area::imports) reads.
    CrossScopeImports,
    /// 0xf8: types and ids for other modules, which [`Area::exports`](crate::Area::exports) reads.
    CrossScopeExports,
    /// 0xf9: lines of intermediate language.
    IlLines,
    /// 0xfa: metadata tokens of functions.
    FuncMdTokenMap,
    /// 0xfb: metadata tokens of types.
    TypeMdTokenMap,
    /// 0xfc: assemblies that were merged.
    MergedAssemblyInput,
    /// 0xfd: relative addresses of symbols.
    CoffSymbolRva,
    /// 0x80000000: to be ignored. No reading gives one, as it is passed over with its body.
    Ignore,
    /// None of these: its number. No reading gives one, as a kind that document 01 does not know is refused.
    Other(u32),
}

/// Each kind that has a name, with its number.
const NAMED: [(u32, SubsectionKind, &str); 14] = [
    (0xf1, SubsectionKind::Symbols, "Symbols"),
    (0xf2, SubsectionKind::Lines, "Lines"),
    (0xf3, SubsectionKind::StringTable, "StringTable"),
    (0xf4, SubsectionKind::FileChecksums, "FileChecksums"),
    (0xf5, SubsectionKind::FrameData, "FrameData"),
    (0xf6, SubsectionKind::InlineeLines, "InlineeLines"),
    (0xf7, SubsectionKind::CrossScopeImports, "CrossScopeImports"),
    (0xf8, SubsectionKind::CrossScopeExports, "CrossScopeExports"),
    (0xf9, SubsectionKind::IlLines, "IlLines"),
    (0xfa, SubsectionKind::FuncMdTokenMap, "FuncMdTokenMap"),
    (0xfb, SubsectionKind::TypeMdTokenMap, "TypeMdTokenMap"),
    (0xfc, SubsectionKind::MergedAssemblyInput, "MergedAssemblyInput"),
    (0xfd, SubsectionKind::CoffSymbolRva, "CoffSymbolRva"),
    (0x8000_0000, SubsectionKind::Ignore, "Ignore"),
];

impl SubsectionKind {
    /// Its number, as it stands in the area.
    pub fn number(self) -> u32 {
        match self {
            SubsectionKind::Other(number) => number,
            named => NAMED.iter().find(|(_, kind, _)| *kind == named).map_or(0, |(number, _, _)| *number),
        }
    }

    /// Its name, the variant's, where it has one.
    pub fn name(self) -> Option<&'static str> {
        NAMED.iter().find(|(_, kind, _)| *kind == self).map(|(_, _, name)| *name)
    }
}

/// The kind of a number. One that has a name is never `Other`.
impl From<u32> for SubsectionKind {
    fn from(number: u32) -> Self {
        NAMED.iter().find(|(known, _, _)| *known == number).map_or(SubsectionKind::Other(number), |(_, kind, _)| *kind)
    }
}

/// The name, or the number in hex.
impl fmt::Display for SubsectionKind {
    fn fmt(&self, f: &mut fmt::Formatter<'_>) -> fmt::Result {
        match self.name() {
            Some(name) => f.write_str(name),
            None => write!(f, "{:#x}", self.number()),
        }
    }
}
