//! Links libkeyset.a: that of the folder `KEYSET_LIB`; else the one that lies in this crate, as a
//! release has it for each architecture; else what `make lib` has made; else the one that
//! pkg-config finds. Its header has to be of the interface that this crate is written for.

use std::path::{Path, PathBuf};
use std::process::{self, Command};
use std::{env, fs};

#[path = "src/interface.rs"]
mod interface;
use interface::INTERFACE;

/// Where the header lies, seen from the folder of the archive: of a build or an install, of this
/// crate, and of an install below the folder of an architecture.
const HEADERS: [&str; 2] = ["../include/keyset.h", "../../include/keyset.h"];
const ARCHIVE: &str = "libkeyset.a";
const MAKE_IT: &str =
    "run `make lib` at the top of Vaqsider's repository, install the library, or \
                       set KEYSET_LIB to the folder that has libkeyset.a";
const DEFINES: &str = "#define KEYSET_VERSION ";

fn main() {
    println!("cargo:rerun-if-env-changed=KEYSET_LIB");
    let folder = folder();
    let archive = folder.join(ARCHIVE);
    println!("cargo:rerun-if-changed={}", archive.display());
    if !archive.is_file() {
        fail(&format!("{} isn't there: {MAKE_IT}", archive.display()));
    }
    compare(&folder);
    println!("cargo:rustc-link-search=native={}", folder.display());
    println!("cargo:rustc-link-lib=static=keyset");
}

/// The folder of the archive.
fn folder() -> PathBuf {
    if let Some(named) = env::var_os("KEYSET_LIB") {
        return absolute(PathBuf::from(named));
    }
    let here = Path::new(env!("CARGO_MANIFEST_DIR"));
    let target = env::var("TARGET").unwrap_or_default();
    let made = here.join("../out/lib");
    [here.join("lib").join(target), made.clone()]
        .into_iter()
        .chain(installed())
        .find(|folder| folder.join(ARCHIVE).is_file())
        .unwrap_or(made)
}

fn absolute(named: PathBuf) -> PathBuf {
    if named.is_relative() {
        fail(&format!(
            "KEYSET_LIB has to be an absolute path, since cargo builds this crate in a folder of \
             its own: KEYSET_LIB=\"$PWD/{}\"",
            named.display()
        ));
    }
    named
}

/// What pkg-config says of an installed library. It speaks of this machine alone.
fn installed() -> Option<PathBuf> {
    if env::var("TARGET") != env::var("HOST") {
        return None;
    }
    let asked = Command::new("pkg-config")
        .args(["--variable=libdir", "keyset"])
        .output()
        .ok()?;
    let folder = String::from_utf8(asked.stdout).ok()?;
    Some(PathBuf::from(folder.trim())).filter(|it| asked.status.success() && it.is_absolute())
}

/// Fails if the header beside the archive is of another version.
fn compare(folder: &Path) {
    for header in HEADERS.map(|it| folder.join(it)) {
        println!("cargo:rerun-if-changed={}", header.display());
        let text = fs::read_to_string(&header).unwrap_or_default();
        match text.lines().find_map(|line| line.strip_prefix(DEFINES)) {
            Some(version) if version.trim() != INTERFACE.to_string() => fail(&format!(
                "{} is of version {version} of the interface, and this crate wants {INTERFACE}: \
                 take the crate of the same release as the library",
                header.display()
            )),
            Some(_) => return,
            None => (),
        }
    }
}

fn fail(why: &str) -> ! {
    eprintln!("keyset: {why}");
    process::exit(1)
}
