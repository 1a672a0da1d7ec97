//! The sheet: document 01's text of an area, with the reading of end lines in its first line.

use crate::desk::{Desk, Fault};
use crate::input::{Input, LONGEST};
use crate::names::{shown, Names};
use crate::reading::Reading;
use c13::{Area, FileIndex, FileInfo, LineInfo, LineInfoKind, LineProgram, Refusal};
use std::collections::HashMap;
use std::io::{self, Write};

/// Why the sheet ends before its end.
enum Stop {
    Refused(Refusal),
    Unwritten(io::Error),
}

impl From<Refusal> for Stop {
    fn from(why: Refusal) -> Self {
        Stop::Refused(why)
    }
}

impl From<io::Error> for Stop {
    fn from(why: io::Error) -> Self {
        Stop::Unwritten(why)
    }
}

/// Prints the sheet: it ends with `end`, or with the refusal in place of the rest. Its first line says how end lines are read.
pub fn print(desk: &mut Desk, area: &Input, names: Option<&Names>, reading: Reading) -> Result<(), Fault> {
    let mut shown = names.map(|names| ShownNames { area, names, texts: HashMap::new() });
    match lines(desk, area, &mut shown, reading) {
        Ok(()) => writeln!(desk, "end")?,
        Err(Stop::Refused(why)) => {
            writeln!(desk, "refused {}", why.number())?;
            desk.no(format_args!("{}: {why}", area.name));
        }
        Err(Stop::Unwritten(why)) => return Err(why.into()),
    }
    Ok(())
}

fn lines(desk: &mut Desk, input: &Input, names: &mut Option<ShownNames>, reading: Reading) -> Result<(), Stop> {
    if input.bytes.len() > LONGEST {
        return Err(Refusal::TooLong.into());
    }
    writeln!(desk, "c13 {} bytes end-lines {}", input.bytes.len(), reading.name)?;
    let area = Area::new(&input.bytes);
    for sub in area.subsections() {
        let sub = sub?;
        writeln!(desk, "sub {:x} {}", sub.kind.number(), sub.data.len())?;
    }
    for file in area.files() {
        let (index, file) = file?;
        write!(desk, "file {} name {} {} {}", index.0, file.name.0, file.checksum.kind(), file.checksum)?;
        if let Some(names) = names {
            names.print(desk, index, Ok(file))?;
        }
        writeln!(desk)?;
    }
    let program = area.line_program()?.with_end_lines(reading.end_lines);
    for line in program.lines() {
        let line = line?;
        print_line(desk, &line)?;
        if let Some(names) = names {
            names.print_of(desk, &program, line.file_index)?;
        }
        writeln!(desk)?;
    }
    Ok(())
}

/// A number, or as the text has it where there is none.
fn or(number: Option<u32>, none: &str) -> String {
    number.map_or(none.into(), |n| n.to_string())
}

fn print_line(desk: &mut Desk, line: &LineInfo) -> io::Result<()> {
    let kind = match line.kind {
        LineInfoKind::Statement => "st",
        LineInfoKind::Expression => "ex",
    };
    write!(desk, "line {} len {} file {} ", line.offset, or(line.length, "-"), line.file_index.0)?;
    write!(desk, "{}-{} {}-{} {kind} @{}", line.line_start, line.line_end, or(line.column_start, ""), or(line.column_end, ""), line.body)
}

/// The names of files as the sheet shows them, each found once.
struct ShownNames<'a> {
    area: &'a Input,
    names: &'a Names<'a>,
    texts: HashMap<FileIndex, Vec<u8>>,
}

impl ShownNames<'_> {
    /// Prints the name of the file at an index, or in brackets that it is refused, which is then told, too.
    fn print(&mut self, desk: &mut Desk, index: FileIndex, file: Result<FileInfo, Refusal>) -> io::Result<()> {
        let text = match file.map(|file| self.names.get(file.name)) {
            Ok(Ok(name)) => shown(name),
            Ok(Err(why)) => {
                desk.no(format_args!("{}: the name of file {}: {why}", self.names.input, index.0));
                format!("(refused {})", why.number()).into()
            }
            Err(why) => {
                desk.no(format_args!("{}: file {}: {why}", self.area.name, index.0));
                format!("(refused {})", why.number()).into()
            }
        };
        desk.write_all(b" ")?;
        desk.write_all(&text)?;
        self.texts.insert(index, text);
        Ok(())
    }

    /// Prints the name of the file that a line record names.
    fn print_of(&mut self, desk: &mut Desk, program: &LineProgram, index: FileIndex) -> io::Result<()> {
        match self.texts.get(&index) {
            Some(text) => {
                desk.write_all(b" ")?;
                desk.write_all(text)
            }
            None => self.print(desk, index, program.get_file_info(index)),
        }
    }
}
