"""What an install has: the program, the library and the command, each file with its place."""

import os
import re
from dataclasses import dataclass
from pathlib import Path

TOP = Path(__file__).resolve().parent.parent
BUILT = TOP / "library" / "out"
PROGRAMS = ("keyset",)
# Names by which the program does what one of its words says.
LINKS = ("keyset_status", "keyset_notes")
PARTS = ("programs", "library", "command")

SHARE = Path("share/vaqsider")
# What was installed.
LIST = SHARE / "installed"
DOCUMENTS = Path("share/doc/vaqsider")
PAGES_BESIDE = ("LICENSE", "README.md", "CHANGELOG.md", "SECURITY.md", "command/README.md",
                "command/zsk-roll.svg", "crates/keyset/README.md")
# The manual pages of a part.
PAGES = {"programs": (*PROGRAMS, *LINKS), "command": ("vaqsider",)}
# The folders of Python that the command consists of.
PACKAGES = (TOP / "library" / "python" / "keyset", TOP / "command" / "vaqsider")

# What systemd reads: units in one folder, users in another.
SYSTEMD = TOP / "packaging" / "systemd"
UNITS, USERS = Path("lib/systemd/system"), Path("lib/sysusers.d")

LAUNCHER = '''\
#!/usr/bin/env python3
"""The command vaqsider, as it is installed."""

import sys
from pathlib import Path

sys.path.insert(0, str(Path(__file__).resolve().parents[1] / "share" / "vaqsider"))

from vaqsider.cli import main

sys.exit(main())
'''
# A shared object is named by its interface.
SHARED = re.compile(r"libkeyset\.so\.\d+")
VERSIONED = re.compile(r"#define KEYSET_VERSION (\d+)")
FUNCTION = re.compile(r"^\S.* \*?(keyset_\w+)\(", re.MULTILINE)


@dataclass(frozen=True)
class File:
    """A file of an install: its place below PREFIX, and where its bytes are. A link has no mode,
    and leads to the file of the source's name beside it."""

    place: Path
    source: Path
    mode: "int | None" = 0o644


@dataclass(frozen=True)
class Layout:
    """Which parts are installed, from which builds, and in which folder below PREFIX libraries
    lie: `lib`, or that of an architecture, as `lib/x86_64-linux-gnu`."""

    parts: "tuple[str, ...]" = PARTS
    libraries: Path = Path("lib")
    built: Path = BUILT
    programs: Path = TOP / "crates"

    def files(self, pages):
        """All files. `pages` is a folder with the pages, the launcher and what pkg-config reads."""
        if "programs" in self.parts:
            yield from self._programs(pages)
        if "library" in self.parts:
            yield from self._library(pages)
        if "command" in self.parts:
            yield from self._command(pages)
            yield from self._units()
        for place in documents():
            source = pages / "documents" if place.endswith(".md") else TOP
            yield File(DOCUMENTS / place, source / place)

    def _programs(self, pages):
        for name in PROGRAMS:
            yield File(Path("bin") / name, self.programs / name / "out" / name, 0o755)
        for link in LINKS:
            yield File(Path("bin") / link, self.programs / "keyset" / "out" / "keyset", None)
        yield from self._pages(pages, "programs")

    def _library(self, pages):
        yield File(Path("include/keyset.h"), self.built / "include" / "keyset.h")
        yield File(self.libraries / "pkgconfig" / "keyset.pc", pages / "keyset.pc")
        yield File(self.libraries / "libkeyset.a", self.built / "lib" / "libkeyset.a")
        for source in sorted((self.built / "lib").glob("libkeyset.so.*")):
            yield File(self.libraries / source.name, source)
            yield File(self.libraries / "libkeyset.so", source, None)
        manual = Path("share/man/man3")
        yield File(manual / "keyset.3", pages / "keyset.3")
        for name in functions():
            yield File(manual / f"{name}.3", pages / "keyset.3", None)

    def _command(self, pages):
        yield File(Path("bin/vaqsider"), pages / "vaqsider", 0o755)
        for package in PACKAGES:
            for source in filter(Path.is_file, sorted(package.rglob("*"))):
                if "__pycache__" not in source.parts:
                    yield File(SHARE / package.name / source.relative_to(package), source)
        yield from self._pages(pages, "command")

    def _units(self):
        for unit in sorted(SYSTEMD.glob("vaqsider@.*")):
            yield File(UNITS / unit.name, unit)
        yield File(USERS / "vaqsider.conf", SYSTEMD / "vaqsider.conf")

    def _pages(self, pages, part):
        for name in PAGES[part]:
            yield File(Path("share/man/man1") / f"{name}.1", pages / f"{name}.1")


def documents():
    """The pages that the header and the manual name, and those beside them, with the examples."""
    pages = list(PAGES_BESIDE)
    for folder in ("docs", "examples", "library/c"):
        files = filter(Path.is_file, sorted((TOP / folder).rglob("*")))
        pages += [str(path.relative_to(TOP)) for path in files]
    return pages


def header():
    return (TOP / "library" / "keyset.h").read_text(encoding="utf-8")


def interface():
    """The version of the library's interface, which the header has."""
    return VERSIONED.search(header())[1]


def functions():
    """The functions that the header declares, and the library exports."""
    return FUNCTION.findall(header())


def shared():
    """The name of the shared object."""
    return f"libkeyset.so.{interface()}"


def description(libraries, version):
    """What pkg-config reads. No file of an install says where it is, so PREFIX may be moved."""
    up = os.path.relpath(".", libraries / "pkgconfig")
    text = (TOP / "library" / "keyset.pc.in").read_text(encoding="utf-8")
    text = text.replace("@UP@", up).replace("@LIBRARIES@", str(libraries))
    return text.replace("@VERSION@", version)
