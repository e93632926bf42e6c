# `make help` lists what can be made here.

SCRIPT ?= examples/algorithm-roll.script
PREFIX ?= /usr/local
DESTDIR ?=
# Where libraries go below PREFIX, and the parts to leave out: programs, library, command.
LIBDIR ?= lib
WITHOUT ?=
RUNS ?= 1000000
ROLLS ?= 10000
# Where make try-dist keeps its bare Debians.
ROOM ?=

# What the tests import. Their Python is the first that has it: one that isn't Debian's, as one of
# pyenv, doesn't see what apt-get installs.
MODULES = dns, cryptography, jsonschema, pytest
PYTHON ?= $(shell for python in python3 /usr/bin/python3; do \
	if $$python -c 'import $(MODULES)' 2>/dev/null; then echo $$python; exit; fi; \
	done; echo python3)
# Debian's packages that the gate needs, beside compilers.
PACKAGES = python3-dnspython python3-cryptography python3-jsonschema python3-pytest mypy flake8 \
	python3-pep8-naming

PROGRAM = crates/keyset/out/keyset
# The program's crates: keyset and those that stand before it.
PARTS = $(shell sed -n 's/^\([a-z_]*\):.*/\1/p; /^keyset$$/q' crates.txt)
SOURCES = crates.txt \
	$(wildcard $(foreach part,$(PARTS),$(addprefix crates/$(part)/,src specs proofs)))

# What the library is called by in the tests.
CALLERS = has-cc has-pkg-config has-cargo has-rustc

# Proves a crate and those below it by a command of rt, and prints what that says if it fails.
prove = mkdir -p crates/$(1)/out && cd crates/$(1) && \
	{ rt $(2) >out/build.log 2>&1 || { cat out/build.log >&2; exit 1; }; }

.PHONY: run build lib install uninstall made noted arm armed dist try-dist check fmt clean test \
	wrong game live scenes by-itself first-hour machines docs memory test-lib test-arm test-go \
	valgrind asan fuzz types mutants signers help python modules packages logs

# The proved program answers if it is newer than its sources, else one that is built at once.
run: ## answers SCRIPT: make run SCRIPT=FILE
	@if [ -x $(PROGRAM) ] && [ -z "$$(find $(SOURCES) -newer $(PROGRAM))" ]; \
	then $(PROGRAM); \
	else \
		echo 'built without a proof; make build makes the proved program' >&2; \
		cd crates/keyset && rt try; \
	fi <"$(SCRIPT)"

build: ## proves and builds the program keyset, as crates/keyset/out/keyset
	@$(call prove,keyset,run <stdin)

lib: ## proves and builds the library for C, Rust and Python: library/out
	@$(call prove,keyset_c,lib)
	@library/pack.sh crates/keyset_c/out/libkeyset_c.a library/out

install: python made ## installs program, library, command and manual: PREFIX=/usr/local DESTDIR=
	@packaging/install.py install "$(PREFIX)" --destdir "$(DESTDIR)" --libdir "$(LIBDIR)" \
		$(addprefix --without ,$(WITHOUT))

uninstall: python ## removes what make install has installed
	@packaging/install.py uninstall "$(PREFIX)" --destdir "$(DESTDIR)"

# By what is in the sources, not by their times. One after the other: these share proofs.
made: python
	@packaging/built.py || $(MAKE) -j1 build lib noted
noted:
	@packaging/built.py --keep

# The toolchain makes no programs for ARM: the one in C over the library has the same name.
arm: made has-aarch64-linux-gnu-gcc ## builds the library and program for ARM: library/out-aarch64
	@packaging/built.py library/out-aarch64 || $(MAKE) -j1 armed
armed:
	@$(PYTHON) -m tests.library.archive library/out-aarch64 aarch64
	@mkdir -p library/out-aarch64/programs/keyset/out
	@aarch64-linux-gnu-gcc -std=c99 -O2 -Wall -Wextra -Wl,-z,now -Ilibrary/out-aarch64/include \
		-o library/out-aarch64/programs/keyset/out/keyset library/programs/*.c \
		library/out-aarch64/lib/libkeyset.a
	@packaging/built.py --keep library/out-aarch64

# CONTRIBUTING says how a release is made, and what it wants. PROOFS names what the gate printed.
dist: logs made arm has-dpkg-deb has-cargo ## makes a release in dist by the logs PROOFS='FILE ..'
	@packaging/dist.py dist $(DIST) --proofs $(PROOFS)

try-dist: logs python has-debootstrap ## makes it twice, installs and uses each in a bare Debian
	@packaging/twice.py $(DIST) --proofs $(PROOFS)
	@packaging/try_dist.py dist $(addprefix --room ,$(ROOM))

logs:
	@[ -n "$(PROOFS)" ] || { echo "PROOFS='FILE ..' has to name what make test printed" >&2; exit 1; }

check: ## proves every crate, and tries no edits and runs no tests
	@rt all check

fmt: ## lays out the .rt files of every crate
	@for crate in crates/*/; do (cd $$crate && rt fmt) || exit 1; done

clean: ## removes what was built
	@rm -rf crates/*/out library/out library/out-aarch64 library/rust/target dist
	@find . -name __pycache__ -prune -exec rm -rf {} +

# Every proof, wrong body, test and program. It prints when each step was done.
test: modules has-mypy has-flake8 $(CALLERS) ## the gate: it ends with 'N passed, 0 failed'
	@$(PYTHON) -m tests.gate.gate

# Before a release: CONTRIBUTING says what it takes.
wrong: python ## tries the wrong bodies that the gate leaves out: make wrong CRATES='NAME ..'
	@$(PYTHON) -m tests.gate.wrong $(CRATES)

# The table of changes is tests/gate/mutants.txt.
mutants: modules build ## changes a line of the command at a time: a test has to see it
	@$(PYTHON) -m tests.gate.mutants

signers: modules build ## signs by real tools, of files and of PowerDNS, Knot and named
	@$(PYTHON) -m tests.command.signers
	@$(PYTHON) -m tests.command.running

# Each minute it says how far it has come.
game: python build ## plays ROLLS rolls by what policies say, many zones at once
	@$(PYTHON) -m tests.scripts.test_automatic $(ROLLS) 1000 $$(nproc)

# It needs Debian's postgresql and python3-psycopg.
machines: modules build ## lets machines share zones over PostgreSQL, and kills them
	@$(PYTHON) -m tests.command.machines

# It needs the packages that live/README.md names. Its parts run side by side, each to its end, and
# it fails if one of them does.
BESIDE = by-itself first-hour machines
live: ## rolls keys on real name servers, within half an hour; LIVE=--short within ten minutes
	@echo 'first the program is proved: half an hour, or seconds if its proof is kept'
	@$(MAKE) --no-print-directory -k -j4 scenes $(if $(LIVE),,$(BESIDE))
	@echo 'live: no failure. Left out: $(if $(LIVE),$(BESIDE),nothing)'
scenes: build
	@live/run.py $(LIVE)

# Servers fail in it, so it has servers of its own.
by-itself: build ## lets zones roll by themselves for 20 minutes, on real name servers
	@live/run.py --port 15354 by-itself by-itself-other-rolls by-itself-csk by-itself-algorithms

# It needs Debian's nsd, bind9-utils and bind9-dnsutils, and the port that the page names.
first-hour: python build ## does what docs/first-hour.md says, on real servers, in two minutes
	@$(PYTHON) -m tests.command.first_hour

docs: modules ## compares what the documents print with the examples and the callers
	@$(PYTHON) -m pytest -q tests/gate/test_docs.py

memory: modules has-cc build ## lets each request for memory fail in turn
	@$(call prove,callers,run </dev/null)
	@$(PYTHON) -m pytest -q tests/scripts/test_memory.py

test-lib: modules $(CALLERS) made ## tests the library, its callers and the install
	@$(PYTHON) -m pytest -q tests/library/test_library.py
asan: python has-cc made ## tests the library in C under the address sanitizer
	@$(PYTHON) -m tests.library.library library/out $@
valgrind: python has-cc has-valgrind made ## tests the library in C under valgrind
	@$(PYTHON) -m tests.library.library library/out $@

test-arm: arm has-qemu-aarch64 has-go ## tests the library for ARM in C, Go and Python, under qemu
	@$(PYTHON) -m tests.library.arm library/out-aarch64

test-go: python has-go has-cc made ## tests the module for Go
	@$(PYTHON) -m tests.library.go library/out

# The library and a second reader have to agree on each text, and the tables on some.
fuzz: python has-clang made ## lets libFuzzer make RUNS texts: it needs clang with its runtime
	@$(PYTHON) -m tests.library.fuzz library/out $(RUNS)

# What these have to find stands in the test, what they check in .flake8 and pyproject.toml.
types: modules has-mypy has-flake8 ## checks all Python by flake8, and types by mypy
	@$(PYTHON) -m pytest -q tests/gate/test_mistakes.py

help: ## prints these lines
	@sed -n 's/^\([a-z-]*\):.* ## /\1\t/p' Makefile | \
		while IFS="$$(printf '\t')" read -r name text; do printf '%-10s %s\n' "$$name" "$$text"; done

# Each says what is missing, before a proof is begun.
python:
	@python3 -c 'import sys; sys.exit(sys.version_info < (3, 9))' || \
		{ echo 'python3 is missing here: 3.9 or later is needed' >&2; exit 1; }
modules: python
	@$(PYTHON) -c 'import $(MODULES)' 2>/dev/null || \
		{ echo 'missing here, and needed: apt-get install $(PACKAGES)' >&2; exit 1; }
packages:
	@echo $(PACKAGES)
has-%:
	@command -v $* >/dev/null || { echo '$* is missing here, and is needed' >&2; exit 1; }
