//! Standard input and output as the caller gave them.
//!
//! Rust's runtime opens /dev/null in place of one that is closed, and takes a refused read for the end and a refused write for a written one. An
//! answer must not come of that: so it is looked at before the runtime starts, and what is read and written are the files themselves.

use std::fs::File;
use std::io;
use std::os::unix::io::AsFd;
use std::sync::atomic::{AtomicBool, Ordering};

static INPUT_CLOSED: AtomicBool = AtomicBool::new(false);
static OUTPUT_CLOSED: AtomicBool = AtomicBool::new(false);

/// Called by the loader before the runtime starts. Sound: `fcntl` is told to read the flags of a number, which no number makes undefined.
#[allow(unsafe_code)]
mod start {
    use super::{AtomicBool, Ordering, INPUT_CLOSED, OUTPUT_CLOSED};

    extern "C" {
        fn fcntl(file: i32, command: i32, ...) -> i32;
    }
    const READ_FLAGS: i32 = 1; // F_GETFD

    extern "C" fn look() {
        let look = |file, closed: &AtomicBool| closed.store(unsafe { fcntl(file, READ_FLAGS) } < 0, Ordering::Relaxed);
        look(0, &INPUT_CLOSED);
        look(1, &OUTPUT_CLOSED);
    }

    #[used]
    #[cfg_attr(target_os = "linux", link_section = ".init_array")]
    static AT_START: extern "C" fn() = look;
}

fn given(closed: &AtomicBool, from: &impl AsFd) -> io::Result<File> {
    if closed.load(Ordering::Relaxed) {
        return Err(io::Error::new(io::ErrorKind::NotFound, "it is closed"));
    }
    from.as_fd().try_clone_to_owned().map(File::from)
}

pub fn input() -> io::Result<File> {
    given(&INPUT_CLOSED, &io::stdin())
}

pub fn output() -> io::Result<File> {
    given(&OUTPUT_CLOSED, &io::stdout())
}
