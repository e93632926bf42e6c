"""The packages for Debian: `vaqsider` with program and command, the shared object by the version
of its interface, as `libkeyset3`, and `libkeyset-dev`."""

import gzip
import hashlib
import os
import re
import shutil
import tempfile
from dataclasses import dataclass
from email.utils import format_datetime
from pathlib import Path

from artefact import Built, entries, releases, run, seconds, version
from layout import LIST, TOP, Layout, functions, interface, shared
from trees import install

# A change of these packages alone raises it.
REVISION = 1
MAINTAINER = "Vaqsider maintainers <maintainers@users.noreply.vaqsider.example>"
LIBRARY = f"libkeyset{interface()}"
COPYRIGHT = """\
Format: https://www.debian.org/doc/packaging-manuals/copyright-format/1.0/
Upstream-Name: vaqsider

Files: *
Copyright: {holder}
License: BSD-3-clause

License: BSD-3-clause
{text}
"""
CHANGES = """\
vaqsider ({release}-{revision}) unstable; urgency=medium

  * Release {release}; changelog.gz has its changes.

 -- {maintainer}  {date}
"""


# The user that ticks run as, by cron too where systemd isn't there; and Python's compiled files of
# a package that is no module of Debian's Python. Zones are their operator's: the user stays, and
# so does each folder, also at a purge.
POSTINST = """\
#!/bin/sh
set -e
if [ "$1" = configure ]; then
	if command -v systemd-sysusers >/dev/null; then
		systemd-sysusers vaqsider.conf
	elif ! getent passwd vaqsider >/dev/null; then
		useradd --system --user-group --home-dir /var/lib/vaqsider --no-create-home \\
			--shell /usr/sbin/nologin vaqsider
	fi
fi
if command -v py3compile >/dev/null; then
	py3compile -p vaqsider /usr/share/vaqsider
fi
if [ -d /run/systemd/system ]; then
	systemctl --system daemon-reload >/dev/null || true
fi
"""
PRERM = """\
#!/bin/sh
set -e
if [ "$1" = remove ] && [ -d /run/systemd/system ]; then
	deb-systemd-invoke stop 'vaqsider@*.timer' 'vaqsider@*.service' >/dev/null || true
fi
if command -v py3clean >/dev/null; then
	py3clean -p vaqsider /usr/share/vaqsider
fi
"""
POSTRM = """\
#!/bin/sh
set -e
if [ -d /run/systemd/system ]; then
	systemctl --system daemon-reload >/dev/null || true
fi
"""
# What lintian needn't say, with the reason.
OVERRIDES = """\
# README names it.
{name}: extra-license-file *LICENSE*
"""


@dataclass(frozen=True)
class Package:
    """A package: which parts of an install it has, which of their files, and what it says."""

    name: str
    section: str
    parts: "tuple[str, ...]"
    # Which files, by their places below /usr.
    files: "re.Pattern[str]"
    relations: "dict[str, str]"
    short: str
    long: str
    # What dpkg runs, by its names, and what lintian needn't say.
    scripts: "tuple[tuple[str, str], ...]" = ()
    overrides: str = ""


PACKAGES = (
    Package(
        "vaqsider", "net", ("programs", "command"),
        re.compile(r"bin/|lib/(systemd|sysusers\.d)/|share/(vaqsider|man|doc)/"),
        {
            "Depends": f"python3 (>= 3.9), {LIBRARY} (= {{version}}), libc6 (>= 2.34)",
            "Recommends": "python3-dnspython (>= 2.3), python3-cryptography, "
                          "bind9-utils | ldnsutils",
        },
        "keys and rolls of DNSSEC zones, by a proved key set",
        "It keeps the keys that sign a zone, and says which action is due and when a\n"
        "step of a roll may be made. No list of calls that keeps its rules leaves\n"
        "resolvers without a chain of trust: that is proved.",
        (("postinst", POSTINST), ("prerm", PRERM), ("postrm", POSTRM)),
        OVERRIDES,
    ),
    Package(
        LIBRARY, "libs", ("library",), re.compile(rf".*/{re.escape(shared())}$"),
        {"Depends": "libc6 (>= 2.14)", "Multi-Arch": "same"},
        "proved DNSSEC key set (shared library)",
        "Scripts of calls and their answers, sessions of zones and their status, for C\n"
        "and for languages that call C.",
    ),
    Package(
        "libkeyset-dev", "libdevel", ("library",),
        re.compile(rf"(?!.*/{re.escape(shared())}$)(include|lib|share/man|share/doc)/"),
        {"Depends": f"{LIBRARY} (= {{version}})", "Multi-Arch": "same"},
        "proved DNSSEC key set (development files)",
        "Scripts of calls and their answers, sessions of zones and their status, for C\n"
        "and for languages that call C.\n"
        ".\n"
        "This package has the header, the static library, the pages of the library,\n"
        "and examples of scripts and of callers.",
        overrides=OVERRIDES,
    ),
)


def full_version():
    return f"{version()}-{REVISION}"


def strip(path, built: Built):
    """Takes names that the linker alone needs out of a program or a shared object."""
    prefix = "" if built.architecture.machine == os.uname().machine else (
        f"{built.architecture.folder}-")
    run(f"{prefix}strip", "--strip-unneeded", "--remove-section=.comment", path)


def compress(path, text):
    """Writes a text as gzip does, without its time."""
    path.parent.mkdir(parents=True, exist_ok=True)
    with open(path, "wb") as raw, gzip.GzipFile("", "wb", 9, raw, mtime=0) as packed:
        packed.write(text)


def documents(folder, package):
    """What Debian's rules want of each package: its licence and its changes."""
    place = folder / "usr/share/doc" / package.name
    place.mkdir(parents=True, exist_ok=True)
    licence = (TOP / "LICENSE").read_text(encoding="utf-8").strip()
    holder = re.search(r"Copyright (?:\(c\) )?(.*)", licence)[1].rstrip(".")
    text = "\n".join(f" {line}" if line.strip() else " ." for line in licence.splitlines())
    (place / "copyright").write_text(COPYRIGHT.format(holder=holder, text=text))
    compress(place / "changelog.gz", (TOP / "CHANGELOG.md").read_bytes())
    said = "\n".join(
        CHANGES.format(release=release, revision=REVISION, maintainer=MAINTAINER,
                       date=format_datetime(date))
        for release, date in releases()
    )
    compress(place / "changelog.Debian.gz", said.encode())
    if package.overrides:
        overrides = folder / "usr/share/lintian/overrides" / package.name
        overrides.parent.mkdir(parents=True)
        overrides.write_text(package.overrides.format(name=package.name))


def take(whole, folder, package, built: Built):
    """Puts the files of a package into its folder, as Debian has them."""
    for source in entries(whole):
        place = source.relative_to(whole)
        if source.is_dir() or place == LIST or not package.files.match(str(place)):
            continue
        target = folder / "usr" / rename(place, package.name)
        target.parent.mkdir(parents=True, exist_ok=True)
        packed = ".gz" if "share/man" in str(place) else ""
        target = target.with_name(f"{target.name}{packed}")
        if source.is_symlink():
            target.symlink_to(f"{os.readlink(source)}{packed}")
        elif packed:
            compress(target, source.read_bytes())
        else:
            shutil.copy2(source, target)
            if source.name.startswith(shared()) or place.parts[0] == "bin" and is_elf(source):
                strip(target, built)


def rename(place, name):
    """The place of a page of documents: below the folder of its package."""
    parts = place.parts
    return Path("share/doc", name, *parts[3:]) if parts[:2] == ("share", "doc") else place


def is_elf(path):
    return path.read_bytes()[:4] == b"\x7fELF"


def control(folder, package, built: Built):
    """Writes what dpkg reads of a package."""
    kilobytes = sum(-(-path.stat().st_size // 1024) for path in entries(folder) if path.is_file())
    fields = {
        "Package": package.name,
        "Source": "vaqsider" if package.name != "vaqsider" else None,
        "Version": full_version(),
        "Architecture": built.architecture.debian,
        "Maintainer": MAINTAINER,
        "Installed-Size": kilobytes,
        "Section": package.section,
        "Priority": "optional",
        **{key: text.format(version=full_version()) for key, text in package.relations.items()},
        "Description": "\n ".join([package.short, *package.long.splitlines()]),
    }
    about = folder / "DEBIAN"
    about.mkdir()
    lines = [f"{key}: {text}\n" for key, text in fields.items() if text is not None]
    (about / "control").write_text("".join(lines))
    if package.name == LIBRARY:
        exports(about)
    for name, script in package.scripts:
        (about / name).write_text(script)
        (about / name).chmod(0o755)
    (about / "md5sums").write_text("".join(sums(folder)))


def exports(about):
    """Writes which version of the library a program needs that calls its functions."""
    (about / "shlibs").write_text(f"libkeyset {interface()} {LIBRARY} (>= {version()})\n")
    symbols = "".join(f" {name}@Base {version()}\n" for name in sorted(functions()))
    head = f"{shared()} {LIBRARY} #MINVER#\n* Build-Depends-Package: libkeyset-dev\n"
    (about / "symbols").write_text(head + symbols)
    (about / "triggers").write_text("activate-noawait ldconfig\n")


def sums(folder):
    """A line for each file that dpkg installs, with its digest."""
    for path in entries(folder):
        place = path.relative_to(folder)
        if path.is_file() and not path.is_symlink() and place.parts[0] != "DEBIAN":
            yield f"{hashlib.md5(path.read_bytes()).hexdigest()}  {place}\n"


def set_times(folder):
    """All files are as new as the last change, and theirs are the usual modes."""
    for path in [folder, *entries(folder)]:
        if not path.is_symlink():
            path.chmod(0o755 if path.is_dir() or path.stat().st_mode & 0o100 else 0o644)
        os.utime(path, (seconds(), seconds()), follow_symlinks=False)


def build_deb(folder, package, built: Built):
    """Builds one package, and gives its path."""
    name = f"{package.name}_{full_version()}_{built.architecture.debian}.deb"
    with tempfile.TemporaryDirectory() as room:
        whole, made = Path(room) / "whole", Path(room) / "made"
        libraries = Path("lib") / built.architecture.folder
        install(whole, Layout(package.parts, libraries, built.library, built.programs))
        take(whole, made, package, built)
        documents(made, package)
        control(made, package, built)
        set_times(made)
        environment = {**os.environ, "SOURCE_DATE_EPOCH": str(seconds())}
        words = ["dpkg-deb", "--root-owner-group", "-Zxz", "--build", made, folder / name]
        run(*words, env=environment)
    return folder / name


def build_debs(folder, built: Built):
    return [build_deb(folder, package, built) for package in PACKAGES]
