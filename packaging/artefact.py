"""What all artefacts of a release have in common: its number, its date, its architectures, and
archives that have the same bytes wherever they are made."""

import gzip
import io
import os
import re
import subprocess
import tarfile
from dataclasses import dataclass
from datetime import datetime
from pathlib import Path

from layout import TOP


class Fault(Exception):
    """Why an artefact can't be made."""


@dataclass(frozen=True)
class Architecture:
    """An architecture, as the kernel, Rust, Debian, Go and Debian's folders name it."""

    machine: str
    rust: str
    debian: str
    go: str
    folder: str

    @property
    def wheel(self):
        """The tag of a wheel: the library wants the C library of 2014, and no later one."""
        return f"manylinux2014_{self.machine}"


X86_64 = Architecture("x86_64", "x86_64-unknown-linux-gnu", "amd64", "amd64", "x86_64-linux-gnu")
AARCH64 = Architecture(
    "aarch64", "aarch64-unknown-linux-gnu", "arm64", "arm64", "aarch64-linux-gnu"
)


@dataclass(frozen=True)
class Built:
    """What was built for an architecture: the folder that `pack.sh` has left, and one with the
    programs, each as NAME/out/NAME."""

    architecture: Architecture
    library: Path
    programs: Path


def run(*words, **more):
    """Runs a program, and gives what it prints. `Fault` if it fails."""
    words = [str(word) for word in words]
    made = subprocess.run(words, capture_output=True, text=True, check=False, **more)
    if made.returncode:
        raise Fault(f"{' '.join(words)} ended with {made.returncode}:\n{made.stdout}{made.stderr}")
    return made.stdout


def version():
    return (TOP / "VERSION").read_text(encoding="utf-8").strip()


def seconds():
    """When the last change was made: the time of all files of a release. Without git's history it
    is the date of the newest release."""
    if given := os.environ.get("SOURCE_DATE_EPOCH"):
        return int(given)
    if (TOP / ".git").exists():
        return int(run("git", "-C", TOP, "log", "-1", "--format=%ct"))
    return int(releases()[0][1].timestamp())


def releases():
    """All releases, the newest first, with their dates."""
    found = re.findall(r"^## (\d\S*) - (\S+)$", (TOP / "CHANGELOG.md").read_text(), re.M)
    return [(number, datetime.fromisoformat(f"{date}T00:00:00+00:00")) for number, date in found]


def sources():
    """The files of the repository, as git has them."""
    return run("git", "-C", TOP, "ls-files").splitlines()


def is_clean():
    return not run("git", "-C", TOP, "status", "--porcelain").strip()


def entries(folder):
    """What is below a folder, folders first, in the order of names."""
    return sorted(folder.rglob("*"), key=lambda path: path.relative_to(folder).parts)


def pack(folder, archive, begin):
    """Packs what is below a folder. The names in the archive have this beginning."""
    unpacked = io.BytesIO()
    with tarfile.open(fileobj=unpacked, mode="w", format=tarfile.GNU_FORMAT) as made:
        for path in entries(folder):
            member = made.gettarinfo(path, f"{begin}{path.relative_to(folder)}")
            member.uid = member.gid = 0
            member.uname = member.gname = "root"
            member.mtime = seconds()
            if member.isfile():
                member.type, member.linkname = tarfile.REGTYPE, ""
                member.size = path.stat().st_size
                with open(path, "rb") as content:
                    made.addfile(member, content)
            else:
                made.addfile(member)
    with open(archive, "wb") as raw, gzip.GzipFile("", "wb", fileobj=raw, mtime=0) as packed:
        packed.write(unpacked.getvalue())
