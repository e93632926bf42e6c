"""The tarballs of a release: the sources, and for each architecture what is installed."""

import hashlib
import shutil
import tempfile
from pathlib import Path

from artefact import Built, entries, pack, sources, version
from layout import TOP, Layout
from trees import install


def pack_sources(folder):
    """The files of the repository. Gives the tarball."""
    name = f"vaqsider-{version()}"
    archive = folder / f"{name}-source.tar.gz"
    with tempfile.TemporaryDirectory() as room:
        for source in sources():
            copy = Path(room) / source
            copy.parent.mkdir(parents=True, exist_ok=True)
            shutil.copy2(TOP / source, copy)
            copy.chmod(0o755 if copy.stat().st_mode & 0o100 else 0o644)
        for path in filter(Path.is_dir, Path(room).rglob("*")):
            path.chmod(0o755)
        pack(Path(room), archive, f"{name}/")
    return archive


def write_sums(room):
    """Writes the sums of all files, as sha256sum does. `install.sh` compares them."""
    digests = ((hashlib.sha256(path.read_bytes()).hexdigest(), path.relative_to(room))
               for path in entries(room) if path.is_file())
    text = "".join(f"{digest}  {name}\n" for digest, name in digests)
    (room / "SHA256SUMS").write_text(text, encoding="utf-8")
    (room / "SHA256SUMS").chmod(0o644)


def pack_built(folder, built: Built):
    """What is installed, with `install.sh PREFIX`. Gives the tarball."""
    name = f"vaqsider-{version()}-{built.architecture.machine}-linux"
    archive = folder / f"{name}.tar.gz"
    with tempfile.TemporaryDirectory() as room:
        root = Path(room) / "root"
        install(root, Layout(built=built.library, programs=built.programs))
        root.chmod(0o755)
        shutil.copy2(TOP / "packaging" / "install.sh", room)
        for page in ("README.md", "CHANGELOG.md", "LICENSE"):
            shutil.copyfile(TOP / page, Path(room) / page)
            (Path(room) / page).chmod(0o644)
        write_sums(Path(room))
        pack(Path(room), archive, f"{name}/")
    return archive
