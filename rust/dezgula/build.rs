//! Finds libdezgula: where DEZGULA_LIBRARY says, in the project that this crate lies in, which is built for it, or where pkg-config says that it is installed.
//! DEZGULA_LIBRARY is an archive (libdezgula.a), a shared library (libdezgula.so), or the folder of one.

use std::path::{Path, PathBuf};
use std::process::Command;

fn main() {
    println!("cargo:rerun-if-changed=build.rs");
    println!("cargo:rerun-if-env-changed=DEZGULA_LIBRARY");
    let target = std::env::var("TARGET").unwrap_or_default();
    if !(target.starts_with("x86_64") && target.contains("linux")) {
        missing(&format!("the library is for Linux on x86-64 only, and this is for {target}"));
    }
    link(&found());
}

/// Says what is missing, and what to do.
fn missing(what: &str) -> ! {
    eprintln!("dezgula: {what}.");
    eprintln!("dezgula: build it with library/build in the project, or install it with ./install there, and set DEZGULA_LIBRARY to libdezgula.a");
    eprintln!("dezgula: or libdezgula.so, or to the folder of one, where it is neither in the project around this crate nor known to pkg-config.");
    std::process::exit(1);
}

fn found() -> PathBuf {
    if let Some(given) = std::env::var_os("DEZGULA_LIBRARY").filter(|given| !given.is_empty()) {
        let given = PathBuf::from(given);
        return within(&given).unwrap_or_else(|| missing(&format!("DEZGULA_LIBRARY is {}, where there is no libdezgula.a or libdezgula.so", given.display())));
    }
    let project = Path::new(env!("CARGO_MANIFEST_DIR")).join("../..");
    if project.join("library/build").is_file() {
        return built(&project);
    }
    installed().unwrap_or_else(|| missing("there is no library"))
}

/// The library that a path means: itself, or in the folder the archive before the shared library.
fn within(path: &Path) -> Option<PathBuf> {
    if path.is_file() {
        return Some(path.to_path_buf());
    }
    ["libdezgula.a", "libdezgula.so"].iter().map(|name| path.join(name)).find(|file| file.is_file())
}

/// The library of the project around the crate. Nothing is done there where it is newer than what it is made of.
fn built(project: &Path) -> PathBuf {
    for part in ["library", "include", "crates", "target/library/libdezgula.a"] {
        println!("cargo:rerun-if-changed={}", project.join(part).display());
    }
    let said = Command::new(project.join("library/build")).output();
    let why = match said {
        Ok(said) if said.status.success() => String::new(),
        Ok(said) => String::from_utf8_lossy(&said.stderr).into_owned(),
        Err(error) => error.to_string(),
    };
    if !why.is_empty() {
        eprint!("{why}");
        missing("library/build did not build the library");
    }
    within(&project.join("target/library")).unwrap_or_else(|| missing("library/build left no library in target/library"))
}

/// The folder that pkg-config tells; it writes a backslash before a space.
fn installed() -> Option<PathBuf> {
    println!("cargo:rerun-if-env-changed=PKG_CONFIG_PATH");
    let said = Command::new("pkg-config").args(["--variable=libdir", "dezgula"]).output().ok()?;
    let said = String::from_utf8(said.stdout).ok()?;
    within(Path::new(said.trim())).or_else(|| within(Path::new(&said.trim().replace('\\', ""))))
}

fn link(library: &Path) {
    let library = library.canonicalize().unwrap_or_else(|error| missing(&format!("{}: {error}", library.display())));
    let bytes = std::fs::read(&library).unwrap_or_else(|error| missing(&format!("{}: {error}", library.display())));
    if !has(&bytes, b"dezgula_version") || !has(&bytes, b"dezgula_engine_reason") {
        missing(&format!("{} is not the library, or one before its version 2", library.display()));
    }
    let folder = library.parent().expect("a file has a folder");
    let kind = if library.extension().is_some_and(|end| end == "a") { "static" } else { "dylib" };
    println!("cargo:rerun-if-changed={}", library.display());
    println!("cargo:rustc-link-search=native={}", folder.display());
    println!("cargo:rustc-link-lib={kind}=dezgula");
}

fn has(bytes: &[u8], name: &[u8]) -> bool {
    bytes.windows(name.len()).any(|part| part == name)
}
