"""The crate for Rust and the module for Go: each with the library of all architectures inside."""

import shutil
import tempfile
from pathlib import Path

from artefact import pack, run, version
from layout import TOP

CRATE, MODULE = TOP / "library" / "rust", TOP / "library" / "go"


def put_inside(room, builds):
    """Puts the header and each library where the build of a crate or a module looks."""
    (room / "include").mkdir()
    shutil.copyfile(builds[0].library / "include" / "keyset.h", room / "include" / "keyset.h")
    for built in builds:
        place = room / "lib" / built.architecture.rust / "libkeyset.a"
        place.parent.mkdir(parents=True)
        shutil.copyfile(built.library / "lib" / "libkeyset.a", place)


def build_crate(folder, builds):
    """Packs the crate as cargo does. Gives its path."""
    with tempfile.TemporaryDirectory() as room:
        inside = Path(room) / "keyset"
        ignored = shutil.ignore_patterns("target")
        shutil.copytree(CRATE, inside, ignore=ignored)
        put_inside(inside, builds)
        run("cargo", "package", "--quiet", "--offline", "--allow-dirty", "--no-verify",
            "--target-dir", Path(room) / "target", cwd=inside)
        (made,) = (Path(room) / "target" / "package").glob("*.crate")
        return repack(made, folder)


def repack(archive, folder):
    """Packs an archive once more, with the times and owners of a release."""
    with tempfile.TemporaryDirectory() as room:
        run("tar", "-xzf", archive, "-C", room)
        for path in Path(room).rglob("*"):
            path.chmod(0o755 if path.is_dir() else 0o644)
        pack(Path(room), folder / archive.name, "")
    return folder / archive.name


def stage_module(inside, builds):
    """Makes the folder of the module, with its libraries."""
    shutil.copytree(MODULE, inside, copy_function=shutil.copyfile)
    shutil.copyfile(TOP / "LICENSE", inside / "LICENSE")
    put_inside(inside, builds)


def build_module(folder, builds):
    """Packs the module. Gives its path."""
    name = f"keyset-go-{version()}"
    with tempfile.TemporaryDirectory() as room:
        inside = Path(room) / name
        stage_module(inside, builds)
        for path in inside.rglob("*"):
            path.chmod(0o755 if path.is_dir() else 0o644)
        pack(inside, folder / f"{name}.tar.gz", f"{name}/")
    return folder / f"{name}.tar.gz"
