//! The files of an area, for the eye and for the tools that test checksums.

use crate::desk::{Desk, Fault};
use crate::input::Input;
use crate::names::{mapped, shown, Map, Names};
use c13::{Area, FileChecksum, FileIndex, FileInfo};
use std::ffi::OsStr;
use std::io::{self, Write};

/// The kinds of checksums, each with its mark in the tools' lines.
const KINDS: [(&str, &str); 3] = [("md5", "MD5"), ("sha1", "SHA1"), ("sha256", "SHA256")];

/// What lines for the tools are asked for: of one kind alone or of all, and the folders that names are mapped to.
#[derive(Default)]
pub struct Check {
    kind: Option<&'static str>,
    maps: Vec<Map>,
}

impl Check {
    pub fn only(&mut self, kind: &OsStr) -> Result<(), String> {
        let known = KINDS.iter().find(|(name, _)| kind == *name);
        let (name, _) = known.ok_or_else(|| format!("--kind {} is not md5, sha1 or sha256", kind.to_string_lossy()))?;
        self.kind = Some(name);
        Ok(())
    }

    pub fn map(&mut self, word: &OsStr) -> Result<(), String> {
        self.maps.push(Map::of(word)?);
        Ok(())
    }
}

/// Prints the files up to the end or a refusal. A file that cannot be printed is told, and those behind it are printed.
pub fn print(desk: &mut Desk, area: &Input, names: &Names, check: Option<&Check>) -> Result<(), Fault> {
    for file in Area::new(&area.bytes).files() {
        match file {
            Ok((index, file)) => match names.get(file.name) {
                Ok(name) => print_file(desk, area, (index, file, name), check)?,
                Err(why) => desk.no(format_args!("{}: the name of file {}: {why}", names.input, index.0)),
            },
            Err(why) => desk.no(format_args!("{}: {why}", area.name)),
        }
    }
    Ok(())
}

fn print_file(desk: &mut Desk, area: &Input, (index, file, name): (FileIndex, FileInfo, &[u8]), check: Option<&Check>) -> io::Result<()> {
    let sum = file.checksum;
    let kind = KINDS.iter().find(|(kind, _)| *kind == sum.kind());
    let told = |what: &str| format!("{}: file {} {}: {what}", area.name, index.0, String::from_utf8_lossy(&shown(name)));
    match (check, kind) {
        (None, _) => {
            write!(desk, "file {} name {} {} {sum} ", index.0, file.name.0, sum.kind())?;
            desk.write_all(&shown(name))?;
            writeln!(desk)?;
        }
        (Some(_), None) => desk.no(told("it has no checksum")),
        (Some(_), Some(_)) if !sum.is_whole() => desk.no(told(&format!("its {} has {} bytes, which no tool takes", sum.kind(), sum.bytes().len()))),
        (Some(check), Some((kind, mark))) => {
            if check.kind.map_or(true, |only| only == *kind) {
                print_check(desk, mark, &mapped(&check.maps, name), sum)?;
            }
        }
    }
    Ok(())
}

/// The tools' line that says its kind, as `md5sum --tag` prints it: a name with a backslash or a newline is escaped, which a backslash in front says.
fn print_check(desk: &mut Desk, mark: &str, name: &[u8], sum: FileChecksum) -> io::Result<()> {
    let mut text = vec![];
    for byte in name {
        match byte {
            b'\\' => text.extend(b"\\\\"),
            b'\n' => text.extend(b"\\n"),
            _ => text.push(*byte),
        }
    }
    let escaped = if text == name { "" } else { "\\" };
    write!(desk, "{escaped}{mark} (")?;
    desk.write_all(&text)?;
    writeln!(desk, ") = {sum}")
}
