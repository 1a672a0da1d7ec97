//! Names of source files: how they are found, shown, and mapped to a folder here.

use crate::desk::Fault;
use crate::input::Input;
use c13::{Refusal, StringRef, StringTable};
use std::ffi::OsStr;
use std::os::unix::ffi::OsStrExt;

/// The string table of an input.
pub struct Names<'a> {
    pub input: &'a str,
    table: StringTable<'a>,
}

impl<'a> Names<'a> {
    pub fn of(input: &'a Input) -> Result<Names<'a>, Fault> {
        let table = StringTable::parse(&input.bytes).map_err(|why| Fault::refused(format!("{}: {why}", input.name)))?;
        Ok(Names { input: &input.name, table })
    }

    pub fn of_if(input: &'a Option<Input>) -> Result<Option<Names<'a>>, Fault> {
        input.as_ref().map(Names::of).transpose()
    }

    pub fn get(&self, name: StringRef) -> Result<&'a [u8], Refusal> {
        self.table.get(name)
    }
}

/// A name as it is shown on a line: a byte that would break the line or the terminal is `\x` and two hex digits, every other byte is itself.
pub fn shown(name: &[u8]) -> Vec<u8> {
    let mut text = vec![];
    for byte in name {
        if byte.is_ascii_control() {
            text.extend(format!("\\x{byte:02x}").bytes());
        } else {
            text.push(*byte);
        }
    }
    text
}

/// The parts of a name between its slashes of either kind, an empty one for a slash at its start. `.` is left out, and `..` takes the part before it away,
/// unless there is none to take.
fn parts(name: &[u8]) -> Vec<&[u8]> {
    let slash = |byte: &u8| matches!(byte, b'/' | b'\\');
    let mut parts: Vec<&[u8]> = vec![];
    if name.first().map_or(false, slash) {
        parts.push(b"");
    }
    for part in name.split(slash).filter(|part| !matches!(*part, b"" | b".")) {
        let before = parts.last().map_or(&b""[..], |last| *last);
        if part == b".." && !matches!(before, b"" | b"..") && !before.ends_with(b":") {
            parts.pop();
        } else {
            parts.push(part);
        }
    }
    parts
}

/// A folder of the names in a PDB, and the folder here that stands for it.
pub struct Map {
    from: Vec<u8>,
    to: Vec<u8>,
}

impl Map {
    /// `FROM=TO`; FROM ends at the first `=`.
    pub fn of(word: &OsStr) -> Result<Map, String> {
        let bytes = word.as_bytes();
        match bytes.iter().position(|byte| *byte == b'=') {
            Some(at) => Ok(Map { from: bytes.iter().take(at).copied().collect(), to: bytes.iter().skip(at + 1).copied().collect() }),
            None => Err(format!("--map {} is not FROM=TO", word.to_string_lossy())),
        }
    }

    /// The name here, where the file lies in the folder. A name that climbs out of it does not.
    fn apply(&self, name: &[u8]) -> Option<Vec<u8>> {
        let (name, from) = (parts(name), parts(&self.from));
        let inside = from.len() < name.len() && from.iter().zip(&name).all(|(from, part)| from.eq_ignore_ascii_case(part));
        let rest: Vec<&[u8]> = name.into_iter().skip(from.len()).collect();
        if !inside || rest.contains(&&b".."[..]) {
            return None;
        }
        let to = if self.to.is_empty() { &b"."[..] } else { &self.to };
        Some([&[to], &rest[..]].concat().join(&b'/'))
    }
}

/// The name here: by the first map that takes it, or else as it is.
pub fn mapped(maps: &[Map], name: &[u8]) -> Vec<u8> {
    maps.iter().find_map(|map| map.apply(name)).unwrap_or_else(|| name.to_vec())
}
