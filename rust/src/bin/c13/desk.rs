//! Where answers go: the page, which is standard output in blocks, and what is told beside it on standard error.

use crate::standard;
use std::fmt;
use std::fs::File;
use std::io::{self, BufWriter, Write};

/// Why there is no answer: a line for standard error, and the status.
pub struct Fault {
    pub status: u8,
    pub why: String,
}

impl Fault {
    /// Something that could not be read or written, or a wrong call.
    pub fn new(why: String) -> Fault {
        Fault { status: 2, why }
    }

    /// A refusal of all that was asked for.
    pub fn refused(why: String) -> Fault {
        Fault { status: 1, why }
    }
}

/// What is written here goes to the page, so that an error of a write says that the answer was not written.
impl From<io::Error> for Fault {
    fn from(why: io::Error) -> Self {
        Fault::new(format!("standard output: {why}"))
    }
}

/// A line on standard error. Where that cannot be written there is nothing left to tell it to.
pub fn tell(what: impl fmt::Display) {
    let _ = writeln!(io::stderr(), "c13: {what}");
}

pub struct Desk {
    page: BufWriter<File>,
    no: bool,
}

impl Desk {
    pub fn new() -> Result<Desk, Fault> {
        Ok(Desk { page: BufWriter::with_capacity(1 << 16, standard::output()?), no: false })
    }

    /// Tells that the answer, or a part of it, is a refusal or "no". The status is 1.
    pub fn no(&mut self, what: impl fmt::Display) {
        self.no = true;
        tell(what);
    }

    pub fn said_no(&self) -> bool {
        self.no
    }
}

impl Write for Desk {
    fn write(&mut self, bytes: &[u8]) -> io::Result<usize> {
        self.page.write(bytes)
    }

    fn flush(&mut self) -> io::Result<()> {
        self.page.flush()
    }
}
