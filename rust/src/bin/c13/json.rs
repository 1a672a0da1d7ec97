//! Everything that an area says, as JSON: one object, a record a line.
//!
//! Each table is `{"records": [..], "refused": R}`: the records before the end or the refusal, and R null or `{"number", "text", "carries"}`.
//! Offsets, indices and kinds are numbers. A name is `{"offset"}` alone without a string table; with one also `"text"`, or `"bytes"` in hex where the name is
//! not UTF-8, or `"refused"`.

use crate::desk::{Desk, Fault};
use crate::input::{Input, LONGEST};
use crate::names::Names;
use crate::reading::Reading;
use c13::{Area, CrossModuleExport, FileInfo, Inlinee, LineInfo, LineInfoKind, Refusal, StringRef};
use std::io::{self, Write};

/// A text in quotes.
fn quoted(text: &str) -> String {
    let mut out = String::from("\"");
    for c in text.chars() {
        match c {
            '"' | '\\' => out.extend(['\\', c]),
            _ if c.is_control() => out.extend(format!("\\u{:04x}", u32::from(c)).chars()),
            _ => out.push(c),
        }
    }
    out.push('"');
    out
}

fn or_null(number: Option<impl ToString>) -> String {
    number.map_or("null".into(), |n| n.to_string())
}

fn listed(numbers: impl Iterator<Item = u32>) -> String {
    format!("[{}]", numbers.map(|n| n.to_string()).collect::<Vec<_>>().join(","))
}

fn refusal(why: Refusal) -> String {
    format!(r#"{{"number":{},"text":{},"carries":{}}}"#, why.number(), quoted(why.text()), or_null(why.carries()))
}

/// Prints a table by the text of each record.
fn table<T>(
    desk: &mut Desk,
    name: &str,
    of: &Input,
    records: impl Iterator<Item = Result<T, Refusal>>,
    text: impl Fn(&mut Desk, T) -> String,
) -> io::Result<()> {
    write!(desk, ",\n\"{name}\":{{\"records\":[")?;
    let mut between = "\n";
    let mut refused = None;
    for record in records {
        match record {
            Ok(record) => {
                let text = text(desk, record);
                write!(desk, "{between}{text}")?;
                between = ",\n";
            }
            Err(why) => {
                desk.no(format_args!("{}: {name}: {why}", of.name));
                refused = Some(refusal(why));
            }
        }
    }
    write!(desk, "],\n\"refused\":{}}}", or_null(refused))
}

pub fn print(desk: &mut Desk, input: &Input, names: Option<&Names>, reading: Reading) -> Result<(), Fault> {
    let area = Area::new(&input.bytes);
    let name = |desk: &mut Desk, at: StringRef| name_text(desk, names, at);
    let size = Some(input.bytes.len()).filter(|size| *size <= LONGEST);
    write!(desk, "{{\"area\":{},\n\"bytes\":{},\n\"plain\":{}", quoted(&input.name), or_null(size), or_null(area.is_plain().ok()))?;
    write!(desk, ",\n\"end_lines\":{}", quoted(reading.name))?;
    table(desk, "subsections", input, area.subsections(), |_, sub| {
        let kind = quoted(&sub.kind.to_string());
        format!(r#"{{"kind":{},"name":{kind},"length":{}}}"#, sub.kind.number(), sub.data.len())
    })?;
    table(desk, "files", input, area.files(), |desk, (index, file)| file_text(index.0, &file, &name(desk, file.name)))?;
    match area.line_program() {
        Ok(program) => table(desk, "lines", input, program.with_end_lines(reading.end_lines).lines(), |_, line| line_text(&line))?,
        Err(why) => table(desk, "lines", input, [Err(why)].into_iter(), |_, line| line_text(&line))?,
    }
    table(desk, "inlinees", input, area.inlinees(), |_, inlinee| inlinee_text(inlinee))?;
    table(desk, "imports", input, area.imports().modules(), |desk, module| {
        format!(r#"{{"module":{},"indices":{}}}"#, name(desk, module.name.0), listed(module.imports))
    })?;
    match area.exports() {
        Ok(exports) => table(desk, "exports", input, exports.exports(), |_, export| export_text(export))?,
        Err(why) => table(desk, "exports", input, [Err(why)].into_iter(), |_, export| export_text(export))?,
    }
    writeln!(desk, "}}")?;
    Ok(())
}

/// A name that is refused is told, too.
fn name_text(desk: &mut Desk, names: Option<&Names>, at: StringRef) -> String {
    let found = match names.map(|names| (names.input, names.get(at))) {
        None => String::new(),
        Some((of, Err(why))) => {
            desk.no(format_args!("{of}: the name at {}: {why}", at.0));
            format!(r#","refused":{}"#, refusal(why))
        }
        Some((_, Ok(name))) => match std::str::from_utf8(name) {
            Ok(text) => format!(r#","text":{}"#, quoted(text)),
            Err(_) => format!(r#","bytes":"{}""#, name.iter().map(|byte| format!("{byte:02x}")).collect::<String>()),
        },
    };
    format!(r#"{{"offset":{}{found}}}"#, at.0)
}

fn file_text(index: u32, file: &FileInfo, name: &str) -> String {
    let bytes = or_null(Some(file.checksum).filter(|sum| !sum.bytes().is_empty()).map(|sum| format!("\"{sum}\"")));
    format!(r#"{{"file":{index},"name":{name},"checksum":"{}","bytes":{bytes}}}"#, file.checksum.kind())
}

fn line_text(line: &LineInfo) -> String {
    let kind = match line.kind {
        LineInfoKind::Statement => "statement",
        LineInfoKind::Expression => "expression",
    };
    let place = format!(r#""section":{},"offset":{},"length":{}"#, line.offset.section, line.offset.offset, or_null(line.length));
    let source = format!(r#""file":{},"line_start":{},"line_end":{}"#, line.file_index.0, line.line_start, line.line_end);
    let columns = format!(r#""column_start":{},"column_end":{}"#, or_null(line.column_start), or_null(line.column_end));
    format!(r#"{{{place},{source},{columns},"kind":"{kind}","body":{}}}"#, line.body)
}

fn inlinee_text(inlinee: Inlinee) -> String {
    let source = format!(r#""file":{},"line":{}"#, inlinee.file_index.0, inlinee.line);
    format!(r#"{{"inlinee":{},{source},"extra_files":{}}}"#, inlinee.index, listed(inlinee.extra_files))
}

fn export_text(export: CrossModuleExport) -> String {
    let (kind, local, global) = match export {
        CrossModuleExport::Type(local, global) => ("type", local, global),
        CrossModuleExport::Id(local, global) => ("id", local, global),
    };
    format!(r#"{{"kind":"{kind}","local":{local},"global":{global}}}"#)
}
