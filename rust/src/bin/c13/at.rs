//! Which source file and line the code at a place is from.

use crate::desk::{Desk, Fault};
use crate::input::Input;
use crate::names::{shown, Names};
use crate::reading::Reading;
use c13::{Area, PdbInternalSectionOffset, Refusal};
use std::ffi::{OsStr, OsString};
use std::io::Write;
use std::path::Path;

/// `SECTION:OFFSET`, section decimal, offset hex. Digits that are another number in decimal are refused: nothing says which is meant.
pub fn place(word: &OsStr) -> Result<PdbInternalSectionOffset, String> {
    let text = word.to_string_lossy();
    let (section, offset) = text.split_once(':').ok_or("a place is SECTION:OFFSET, as 1:0x88")?;
    let digits = |text: &str, base| !text.is_empty() && text.chars().all(|c| c.is_digit(base));
    if !digits(section, 10) {
        return Err("the section is a decimal number, as in 1:0x88".into());
    }
    let section = section.parse().map_err(|_| "the section is above 65535")?;
    let hex = offset.strip_prefix("0x").or_else(|| offset.strip_prefix("0X"));
    let value = hex.unwrap_or(offset);
    if !digits(value, 16) {
        return Err("the offset is a hex number, as in 1:0x88".into());
    }
    let number = u32::from_str_radix(value, 16).map_err(|_| "the offset is above 0xffffffff")?;
    match value.parse::<u64>() {
        Ok(decimal) if hex.is_none() && decimal != u64::from(number) => Err(format!(
            "the offset is read in hex, and this might be meant in decimal: write {section}:0x{value}, or {section}:{decimal:#x} for decimal {value}"
        )),
        _ => Ok(PdbInternalSectionOffset { section, offset: number }),
    }
}

/// Asks each area in turn. Those that cover the place answer a line each, with the end line and its reading where the call names one, and last the position of
/// the subsection that the line was read from.
pub fn print(desk: &mut Desk, areas: &[OsString], names: &Names, place: PdbInternalSectionOffset, reading: Option<Reading>) -> Result<(), Fault> {
    let asked = format!("{}:{:#x}", place.section, place.offset);
    let mut covered = false;
    for path in areas {
        let area = Input::read(path)?;
        match source(&area, names, place, reading) {
            Ok(Some(text)) => {
                if areas.len() > 1 {
                    write!(desk, "{}: ", area.name)?;
                }
                write!(desk, "{asked} ")?;
                desk.write_all(&text)?;
                writeln!(desk)?;
                covered = true;
            }
            Ok(None) => {}
            Err((of, why)) => {
                desk.no(format_args!("{of}: {why}"));
            }
        }
    }
    match areas {
        _ if covered || desk.said_no() => {}
        [area] => desk.no(format_args!("{}: no line covers {asked}", Path::new(area).display())),
        _ => desk.no(format_args!("no line of these {} areas covers {asked}", areas.len())),
    }
    Ok(())
}

/// File, line, checksum and subsection of the code at a place, if a line of the area covers it; or what is refused, and why.
fn source<'a>(
    area: &'a Input,
    names: &Names<'a>,
    place: PdbInternalSectionOffset,
    reading: Option<Reading>,
) -> Result<Option<Vec<u8>>, (&'a str, Refusal)> {
    let of_area = |why| (area.name.as_str(), why);
    let program = Area::new(&area.bytes).line_program().map_err(of_area)?.with_end_lines(reading.unwrap_or_default().end_lines);
    let line = match program.line_at(place).map_err(of_area)? {
        Some(line) => line,
        None => return Ok(None),
    };
    let file = program.get_file_info(line.file_index).map_err(of_area)?;
    let name = names.get(file.name).map_err(|why| (names.input, why))?;
    let end = reading.map_or(String::new(), |reading| format!("-{} {}", line.line_end, reading.name));
    let rest = format!(" line {}{end} {} {} @{}", line.line_start, file.checksum.kind(), file.checksum, line.body);
    Ok(Some([shown(name), rest.into()].concat()))
}
