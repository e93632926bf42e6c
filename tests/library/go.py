"""Tests the module for Go, as a release has it.

    python3 -m tests.library.go FOLDER              takes the library that `make lib` has left there
    python3 -m tests.library.go FOLDER elsewhere    takes that for ARM: by the compiler CC, and run
                                                    under RUNNER

`go vet` finds nothing, its tests pass, here also under the detector of races, its example plays
scripts as the program does, and a project uses the module by the folder's name.
"""

import os
import sys
import tempfile
from pathlib import Path

from artefact import AARCH64, X86_64, Built, version
from modules import stage_module
from tests.gate.tools import RUNNER, TOP, Fault, run, status_of

SCRIPTS = [TOP / "examples" / f"{name}.script" for name in ("algorithm-roll", "ksk-roll")]
PROJECT = """\
package main

import (
	"fmt"

	"keyset"
)

func main() {
	fmt.Println(keyset.Release())
}
"""


def environment(architecture, room):
    """The environment of `go`: nothing is fetched, and nothing is left behind."""
    folders = {name: str(room / name) for name in ("GOPATH", "GOCACHE")}
    return {**os.environ, **folders, "CGO_ENABLED": "1", "GOARCH": architecture.go,
            "GOFLAGS": "-mod=mod", "GOPROXY": "off"}


def test_project(module, room, under, env):
    """A project names the folder of the module, and links the library of this release."""
    project = room / "project"
    project.mkdir()
    (project / "main.go").write_text(PROJECT)
    run("go", "mod", "init", "project", cwd=project, env=env)
    run("go", "mod", "edit", f"-require=keyset@v{version()}", f"-replace=keyset={module}",
        cwd=project, env=env)
    output = run("go", "run", *under, ".", cwd=project, env=env)
    if output != f"{version()}\n":
        raise Fault(f"a project in Go is linked to the library of release {output}")


def test(folder, is_elsewhere, room):
    """Tests the module with this library. Gives a line."""
    architecture = AARCH64 if is_elsewhere else X86_64
    module, env = room / "keyset", environment(architecture, room)
    stage_module(module, [Built(architecture, folder, folder)])
    under = ["-exec", " ".join(RUNNER)] if is_elsewhere else []
    run("go", "vet", "./...", cwd=module, env=env)
    # (A runner knows nothing of the detector's memory.)
    for races in ([], ["-race"])[: 1 if is_elsewhere else 2]:
        run("go", "test", *races, *under, "./...", cwd=module, env=env)
    for script in SCRIPTS:
        output = run("go", "run", *under, "./examples/roll", input=script.read_bytes(), cwd=module,
                     env=env)
        if output != script.with_suffix(".answers").read_text():
            raise Fault(f"the example in Go doesn't answer {script.name} as the program")
    test_project(module, room, under, env)
    return f"the module for Go passes its tests, and answers {len(SCRIPTS)} scripts"


def main():
    folder, is_elsewhere = Path(sys.argv[1]).resolve(), sys.argv[2:] == ["elsewhere"]
    with tempfile.TemporaryDirectory() as room:
        return status_of("go", lambda: test(folder, is_elsewhere, Path(room)))


if __name__ == "__main__":
    sys.exit(main())
