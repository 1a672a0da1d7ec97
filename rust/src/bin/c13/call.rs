//! The words of a call.

use crate::at;
use crate::desk::Fault;
use crate::files::Check;
use crate::reading::Reading;
use c13::PdbInternalSectionOffset;
use std::ffi::{OsStr, OsString};

pub enum Call {
    Help,
    Version,
    Sheet { area: OsString, names: Option<OsString>, reading: Reading },
    At { areas: Vec<OsString>, names: OsString, place: PdbInternalSectionOffset, reading: Option<Reading> },
    Files { area: OsString, names: OsString, check: Option<Check> },
    Json { area: OsString, names: Option<OsString>, reading: Reading },
}

fn wrong(why: impl std::fmt::Display) -> Fault {
    Fault::new(format!("{why}; c13 --help says how it is called"))
}

/// The option of each command that reads lines.
const END_LINES: &str = "--end-lines";

/// The words behind a command: files and places in order, and options.
struct Words {
    command: &'static str,
    plain: Vec<OsString>,
    options: Vec<(&'static str, OsString)>,
}

impl Words {
    /// Tells options from the rest. Those of `with_value` take the word behind them.
    fn of(command: &'static str, words: &[OsString], alone: &[&'static str], with_value: &[&'static str]) -> Result<Words, Fault> {
        let mut told = Words { command, plain: vec![], options: vec![] };
        let mut words = words.iter();
        while let Some(word) = words.next() {
            let named = |options: &[&'static str]| options.iter().copied().find(|name| word == name);
            if let Some(name) = named(alone) {
                told.options.push((name, OsString::new()));
            } else if let Some(name) = named(with_value) {
                let value = words.next().ok_or_else(|| wrong(format_args!("{name} lacks what it takes")))?;
                told.options.push((name, value.clone()));
            } else if word != "-" && word.to_string_lossy().starts_with('-') {
                return Err(wrong(format_args!("c13 {command} has no option {}", word.to_string_lossy())));
            } else {
                told.plain.push(word.clone());
            }
        }
        Ok(told)
    }

    /// The value of an option that may be given once.
    fn option(&self, name: &str) -> Result<Option<&OsStr>, Fault> {
        let mut values = self.options.iter().filter(|(known, _)| *known == name).map(|(_, value)| value.as_os_str());
        let first = values.next();
        match values.next() {
            None => Ok(first),
            Some(_) => Err(wrong(format_args!("{name} is given twice"))),
        }
    }

    /// How end lines are read, where the call says it.
    fn reading(&self) -> Result<Option<Reading>, Fault> {
        self.option(END_LINES)?.map(|word| Reading::of(word).map_err(wrong)).transpose()
    }

    /// The next file or place.
    fn take(&mut self, what: &str) -> Result<OsString, Fault> {
        if self.plain.is_empty() {
            return Err(wrong(format_args!("c13 {} lacks {what}", self.command)));
        }
        Ok(self.plain.remove(0))
    }

    /// Tests that nothing is left.
    fn end(&self) -> Result<(), Fault> {
        match self.plain.first() {
            None => Ok(()),
            Some(word) => Err(wrong(format_args!("c13 {} does not take {}", self.command, word.to_string_lossy()))),
        }
    }
}

/// Tests that standard input, which can be read once, is asked for once.
fn read_once<'a>(files: impl IntoIterator<Item = &'a OsString>) -> Result<(), Fault> {
    match files.into_iter().filter(|file| *file == "-").count() {
        0 | 1 => Ok(()),
        _ => Err(wrong("standard input (-) is asked for twice")),
    }
}

impl Call {
    pub fn of(words: &[OsString]) -> Result<Call, Fault> {
        let (command, rest) = words.split_first().ok_or_else(|| wrong("a command is missing"))?;
        if let Some(call) = words.iter().find_map(Call::about) {
            return Ok(call);
        }
        match command.to_str() {
            Some("sheet") => Call::sheet(rest),
            Some("at") => Call::at(rest),
            Some("files") => Call::files(rest),
            Some("json") => Call::json(rest),
            _ => Err(wrong(format_args!("there is no command {}", command.to_string_lossy()))),
        }
    }

    fn about(word: &OsString) -> Option<Call> {
        match word.to_str()? {
            "--help" => Some(Call::Help),
            "--version" => Some(Call::Version),
            _ => None,
        }
    }

    fn sheet(words: &[OsString]) -> Result<Call, Fault> {
        let mut words = Words::of("sheet", words, &[], &["--names", END_LINES])?;
        let (area, names) = (words.take("AREA")?, words.option("--names")?.map(OsStr::to_owned));
        words.end()?;
        read_once([&area].into_iter().chain(&names))?;
        Ok(Call::Sheet { area, names, reading: words.reading()?.unwrap_or_default() })
    }

    fn at(words: &[OsString]) -> Result<Call, Fault> {
        let mut words = Words::of("at", words, &[], &[END_LINES])?;
        let mut areas = vec![words.take("AREA")?];
        let mut names = words.take("NAMES")?;
        let mut place = words.take("SECTION:OFFSET")?;
        // one word more says that the last but two was an area, too
        for word in words.plain.drain(..) {
            areas.push(std::mem::replace(&mut names, std::mem::replace(&mut place, word)));
        }
        read_once(areas.iter().chain([&names]))?;
        let place = at::place(&place).map_err(|why| Fault::new(format!("{}: {why}", place.to_string_lossy())))?;
        Ok(Call::At { areas, names, place, reading: words.reading()? })
    }

    fn files(words: &[OsString]) -> Result<Call, Fault> {
        let mut words = Words::of("files", words, &["--check"], &["--kind", "--map"])?;
        let (area, names) = (words.take("AREA")?, words.take("NAMES")?);
        words.end()?;
        read_once([&area, &names])?;
        let mut check = Check::default();
        if let Some(kind) = words.option("--kind")? {
            check.only(kind).map_err(wrong)?;
        }
        for (_, map) in words.options.iter().filter(|(name, _)| *name == "--map") {
            check.map(map).map_err(wrong)?;
        }
        match words.option("--check")? {
            Some(_) => Ok(Call::Files { area, names, check: Some(check) }),
            None if words.options.is_empty() => Ok(Call::Files { area, names, check: None }),
            None => Err(wrong("--kind and --map go with --check")),
        }
    }

    fn json(words: &[OsString]) -> Result<Call, Fault> {
        let mut words = Words::of("json", words, &[], &[END_LINES])?;
        let area = words.take("AREA")?;
        let names = words.take("NAMES").ok();
        words.end()?;
        read_once([&area].into_iter().chain(&names))?;
        Ok(Call::Json { area, names, reading: words.reading()?.unwrap_or_default() })
    }
}
