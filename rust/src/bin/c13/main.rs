//! c13: what a C13 area says, from a shell. `c13 --help` says how it is called, and what its status means.

#![deny(unsafe_code)]

mod at;
mod call;
mod desk;
mod files;
mod input;
mod json;
mod names;
mod reading;
mod sheet;
mod standard;

use call::Call;
use desk::{Desk, Fault};
use input::Input;
use names::Names;
use std::ffi::OsString;
use std::io::Write;
use std::process::ExitCode;

const USAGE: &str = r"c13 sheet AREA [--names NAMES] [--end-lines READING]
    The sheet of an area: its subsections, files and lines, up to 'end' or 'refused N'. Behind @ stands the subsection that a
    line is from: where its body starts in the area. With names, the name of the file stands at the end of each line that
    starts with 'file' or 'line'.
c13 at AREA.. NAMES SECTION:OFFSET [--end-lines READING]
    Which file and line the code at a place is from, and the checksum of that file. SECTION is decimal and OFFSET hex, with or
    without 0x: 1:0x88. One like 1:88, which might be meant in decimal, is not taken: write 1:0x88. Of several areas, those
    that cover the place answer, each with its name in front. With --end-lines the end line stands behind the line, too. At
    the end stands, behind @, the subsection that the line is from, as in a sheet.
c13 files AREA NAMES [--check [--kind KIND] [--map FROM=TO]..]
    The files of an area with names and checksums. With --check, lines that md5sum --check, sha1sum --check or sha256sum
    --check takes, by the kind of each; with --kind, those of one kind (md5, sha1, sha256) alone. Each --map says that the
    folder FROM of the names in the PDB is the folder TO here, as in --map 'c:\probe=archive': \ becomes /, and upper and
    lower case are the same in FROM. A file without a checksum is told on standard error.
c13 json AREA [NAMES] [--end-lines READING]
    Everything as JSON: subsections, files, lines, inlinees, imports and exports, and where each was refused.
c13 --help, c13 --version

READING says how end lines are read: crate, as the crate pdb does, which is always the start line; low-bits, by which the seven
bits above the start line are the low bits of the end line; delta, by which they are how many lines it is behind the start line,
as Microsoft's cvinfo.h names them and LLVM reads them. Without it, it is crate. Which it is stands in the answer: in the first
line of a sheet, in JSON, and in each line of 'at' where --end-lines is given.
AREA is a file with a module's C13 area, of at most 16,777,216 bytes, and NAMES one with the string table (scripts/areas-of takes
both out of a PDB); - is standard input. The status is 0 where the whole answer was written; 1 where the answer is a refusal
or 'no'; 2 where input could not be read, output not written, or the call is wrong. Standard error says why it is not 0.
";

fn main() -> ExitCode {
    let words: Vec<_> = std::env::args_os().skip(1).collect();
    match answer(&words) {
        Ok(desk) if desk.said_no() => ExitCode::from(1),
        Ok(_) => ExitCode::SUCCESS,
        Err(fault) => {
            desk::tell(&fault.why);
            ExitCode::from(fault.status)
        }
    }
}

/// Does what the words of the call ask for. All of the answer has been written when it returns.
fn answer(words: &[OsString]) -> Result<Desk, Fault> {
    let call = Call::of(words)?;
    let mut desk = Desk::new()?;
    match call {
        Call::Help => desk.write_all(USAGE.as_bytes())?,
        Call::Version => writeln!(desk, "c13 {}", env!("CARGO_PKG_VERSION"))?,
        Call::Sheet { area, names, reading } => {
            let (area, names) = (Input::read(&area)?, Input::read_if(&names)?);
            sheet::print(&mut desk, &area, Names::of_if(&names)?.as_ref(), reading)?;
        }
        Call::At { areas, names, place, reading } => {
            let names = Input::read(&names)?;
            at::print(&mut desk, &areas, &Names::of(&names)?, place, reading)?;
        }
        Call::Files { area, names, check } => {
            let (area, names) = (Input::read(&area)?, Input::read(&names)?);
            files::print(&mut desk, &area, &Names::of(&names)?, check.as_ref())?;
        }
        Call::Json { area, names, reading } => {
            let (area, names) = (Input::read(&area)?, Input::read_if(&names)?);
            json::print(&mut desk, &area, Names::of_if(&names)?.as_ref(), reading)?;
        }
    }
    desk.flush()?;
    Ok(desk)
}
