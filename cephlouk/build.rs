//! Has the static library written from the crates of this repository, and says
//! where it is. `libraries` does the work and says what is missing.

use std::env;
use std::fs;
use std::path::{Path, PathBuf};
use std::process::Command;

/// A folder that has the library already.
const GIVEN: &str = "CEPHLOUK_LIBRARIES";
/// How `libraries` ends where the toolchain is missing.
const NO_TOOLCHAIN: i32 = 3;
/// A file that is never there, so that cargo asks again at every build.
const NO_FILE: &str = "no-library";

fn main() {
    println!("cargo:rerun-if-env-changed={GIVEN}");
    for path in ["libraries", "../crates.txt", "../include/cephlouk.h"] {
        println!("cargo:rerun-if-changed={path}");
    }
    for path in sources(Path::new("../crates")) {
        println!("cargo:rerun-if-changed={}", path.display());
    }
    println!("cargo:rustc-link-lib=static=cephlouk");
    let target = env::var("TARGET").expect("cargo names the target");
    if !target.starts_with("x86_64-") || !target.contains("-linux") {
        lack(&format!(
            "there is a library for Linux on x86-64 alone, and none for {target}"
        ));
        return;
    }
    let here = env::var("CARGO_MANIFEST_DIR").expect("cargo names the folder of the crate");
    if let Some(folder) = library_folder(Path::new(&here)) {
        println!("cargo:rustc-link-search=native={}", folder.display());
        let library = folder.join("libcephlouk.a");
        println!("cargo:rerun-if-changed={}", library.display());
    }
}

/// What the crates are written in: beside it stands what the toolchain keeps, which
/// changes with every check.
fn sources(crates: &Path) -> Vec<PathBuf> {
    let folders = fs::read_dir(crates).into_iter().flatten().flatten();
    folders
        .flat_map(|one| ["src", "specs", "proofs"].map(|part| one.path().join(part)))
        .filter(|path| path.is_dir())
        .collect()
}

/// Where the library is, unless the toolchain that writes it is missing.
fn library_folder(here: &Path) -> Option<PathBuf> {
    let script = here.join("libraries");
    let ended = match Command::new("sh").arg(&script).output() {
        Ok(ended) => ended,
        Err(error) => fail(&format!(
            "'sh' is needed to run {}: {error}",
            script.display()
        )),
    };
    let said = String::from_utf8_lossy(&ended.stderr);
    if ended.status.code() == Some(NO_TOOLCHAIN) {
        lack(said.trim().trim_start_matches("cephlouk: "));
        return None;
    }
    if !ended.status.success() {
        eprint!("{}{said}", String::from_utf8_lossy(&ended.stdout));
        fail("its static library could not be had; the reason stands above");
    }
    Some(match env::var(GIVEN) {
        Ok(given) if !given.is_empty() => PathBuf::from(given),
        _ => here.join("../target/staticlib"),
    })
}

/// The library is lacking. `cargo doc` and `cargo check` need none; whatever links
/// is told that there is no such library, and this says why.
fn lack(why: &str) {
    println!("cargo:warning={why}");
    println!("cargo:rerun-if-changed={NO_FILE}");
}

fn fail(what: &str) -> ! {
    eprintln!("cephlouk: {what}");
    std::process::exit(1)
}
