"""Tests the crate for Rust: in its folder, as a package, from a project, and its build's faults."""

import os
import subprocess
from pathlib import Path

from tests.gate.tools import TOP, Fault, run

CRATE = TOP / "library" / "rust"
PROJECT = """\
[package]
name = "project"
version = "0.0.0"
edition = "2021"

[dependencies]
keyset = {{ path = "{}" }}
"""
PROJECT_MAIN = """\
fn main() -> Result<(), keyset::Error> {
    print!("{}", keyset::KeySet::new("example.com")?.script());
    Ok(())
}
"""
QUIET = ["--quiet", "--offline"]


def environment(folder, room):
    return {
        **os.environ,
        "KEYSET_LIB": str(folder / "lib"),
        "CARGO_TARGET_DIR": str(room / "rust"),
    }


def test_stored(folder, room):
    """The test that no package has, since it reads stored scripts."""
    words = "test", "--test", "stored"
    run("cargo", *words, *QUIET, "--locked", cwd=CRATE, env=environment(folder, room))
    return "the crate passes its test with stored scripts"


def build_examples(folder, room):
    words = "build", "--examples"
    run("cargo", *words, *QUIET, "--locked", cwd=CRATE, env=environment(folder, room))


def test_project(folder, room):
    """A cargo project names the crate by its path."""
    project = room / "project"
    (project / "src").mkdir(parents=True)
    (project / "Cargo.toml").write_text(PROJECT.format(CRATE))
    (project / "src" / "main.rs").write_text(PROJECT_MAIN)
    output = run("cargo", "run", *QUIET, cwd=project, env=environment(folder, room))
    if output != "zone example.com\n":
        raise Fault(f"a cargo project says: {output}")
    return "a cargo project uses the crate by its path"


def test_package(folder, room):
    """All other tests, in a package of the crate."""
    variables = environment(folder, room)
    run("cargo", "package", *QUIET, "--allow-dirty", "--no-verify", cwd=CRATE, env=variables)
    (package,) = (room / "rust" / "package").glob("keyset-*.crate")
    run("tar", "-xzf", package, "-C", room)
    run("cargo", "test", *QUIET, cwd=room / package.stem, env=variables)
    return "the package of the crate passes its tests"


def of_other_version(room):
    """A folder with an archive, beside which lies the header of another version."""
    folder = room / "other"
    for part in ("lib", "include"):
        (folder / part).mkdir(parents=True)
    (folder / "lib" / "libkeyset.a").touch()
    (folder / "include" / "keyset.h").write_text("#define KEYSET_VERSION 9\n")
    return folder / "lib"


def test_build(folder, room):
    """If the library isn't found, or is of another version, the build says what to do."""
    faults = {
        room / "nowhere": "libkeyset.a isn't there: run `make lib`",
        Path("library/out/lib"): "KEYSET_LIB has to be an absolute path",
        of_other_version(room): "is of version 9 of the interface, and this crate wants 3",
    }
    for library, fault in faults.items():
        variables = {**environment(folder, room), "KEYSET_LIB": str(library)}
        how = {"cwd": CRATE, "env": variables, "capture_output": True, "text": True}
        ran = subprocess.run(["cargo", "check", *QUIET], **how)
        if not ran.returncode or fault not in ran.stderr:
            raise Fault(f"a build with KEYSET_LIB={library}: {ran.stderr}")
    return f"a build of the crate says each of {len(faults)} faults of KEYSET_LIB"
