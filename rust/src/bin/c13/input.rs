//! Files that are read whole.

use crate::desk::Fault;
use crate::standard;
use std::ffi::{OsStr, OsString};
use std::fs::File;
use std::io::Read;
use std::path::Path;

/// The longest area or stream that the library reads, in bytes.
pub const LONGEST: usize = 16_777_216;

/// A file's name, as it is told, and its bytes. Of a longer file than is read one byte more is there, so that it shows.
pub struct Input {
    pub name: String,
    pub bytes: Vec<u8>,
}

impl Input {
    pub fn read(path: &OsStr) -> Result<Input, Fault> {
        let (name, file) =
            if path == "-" { (String::from("standard input"), standard::input()) } else { (Path::new(path).display().to_string(), File::open(path)) };
        let mut bytes = vec![];
        let read = file.and_then(|file| file.take(LONGEST as u64 + 1).read_to_end(&mut bytes));
        match read {
            Ok(_) => Ok(Input { name, bytes }),
            Err(why) => Err(Fault::new(format!("{name}: {why}"))),
        }
    }

    pub fn read_if(path: &Option<OsString>) -> Result<Option<Input>, Fault> {
        path.as_ref().map(|path| Input::read(path)).transpose()
    }
}
