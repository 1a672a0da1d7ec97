//! Links the static library: from the folder that C13_LIBRARY names, or from target/staticlib of the repository, where `scripts/x86-64 library` makes it; for
//! Windows from target/windows, where `scripts/windows library` does.

use std::path::PathBuf;

fn main() {
    let home = PathBuf::from(std::env::var("CARGO_MANIFEST_DIR").expect("cargo says where the crate is"));
    let named = std::env::var("C13_LIBRARY").map(PathBuf::from);
    let windows = std::env::var("CARGO_CFG_TARGET_OS").map_or(false, |system| system == "windows");
    let (made, script) = if windows { ("target/windows", "scripts/windows") } else { ("target/staticlib", "scripts/x86-64") };
    let folder = named.clone().unwrap_or(home.join("..").join(made));
    let archive = folder.join("libc13.a");
    println!("cargo:rerun-if-env-changed=C13_LIBRARY");
    println!("cargo:rerun-if-changed={}", archive.display());
    if !archive.is_file() {
        eprintln!("c13: the static library is not there: {}", archive.display());
        if named.is_ok() {
            eprintln!("c13: C13_LIBRARY names that folder");
        }
        eprintln!("c13: this makes it, in {made} of the repository, where it is looked for without C13_LIBRARY: {script} library");
        eprintln!("c13: it needs the Rattle kit, proves the library first, which takes minutes, and says which crate it is at");
        std::process::exit(1);
    }
    println!("cargo:rustc-link-search=native={}", folder.display());
    println!("cargo:rustc-link-lib=static=c13");
}
