# `make` alone says what can be made. Times are on four cores of 2.5 GHz.

.PHONY: help build run test test-all changed quick new-crate end-to-end recorder install uninstall dist deb bench

PREFIX = /usr/local
DESTDIR =
SHB = bin/shb

# What the program is made of.
SOURCES = crates.txt HANDLES $(shell find crates -path '*/out' -prune -o -path '*/must-fail' -prune \
	-o -path crates/README.md -prune -o -path crates/new.sh -prune -o -path crates/shb_orders -prune -o -path crates/shb_clocks -prune -o -path crates/shb_report -prune \
	-o -type f -print)

define HELP
make build              proves and builds bin/shb                              half an hour; needs the Rattle kit
make run                the same, and runs it on an example
make recorder           builds what records C and C++ programs, links commands  seconds
make install            builds bin/shb if it isn't built, and installs it:     seconds, after the build
     PREFIX=/usr/local  commands, manual pages, completions, recorder
make uninstall PREFIX=/usr/local
make dist               makes the package of the commit, with its checksum     seconds, after the build
make deb                makes the same as a package of Debian                  seconds, after the build
make quick BASE=main    checks a part of what a change can have broken         minutes
make changed BASE=main  checks all that a change can have broken               minutes to an hour
make test               what a merge must pass                                 docs/GATE.md
make test-all           the same with every must-fail edit                     docs/GATE.md
make new-crate         makes the crate NAME=shb_x, which may use USES="shb_io"
make end-to-end         tests the built program                                minutes
make bench              measures the built program                             minutes

SHB=PATH names a program that is built already: then install, dist and deb need no kit.
endef

help:
	$(info $(HELP))
	@:

# Proves and builds the program where a source is newer than it.
build: bin/shb

bin/shb: build.sh $(SOURCES)
	./build.sh

run: build
	bin/shb races examples/two-lines.std

test:
	.ci/run

# The gate with every must-fail edit, for releases; it writes the record of what they were tried on.
test-all:
	.ci/run --all --record

# Checks what a change since BASE can have broken, and says what it leaves out; `quick` is the part that takes minutes.
BASE = main
changed:
	python3 tests/gate/changed.py $(BASE)

quick:
	python3 tests/gate/changed.py --quick $(BASE)

# Makes a crate that may use those of USES.
new-crate:
	@crates/new.sh "$(NAME)" $(USES)

# Runs the built program as a user would: the second half of `make test`.
end-to-end: build
	python3 tests/run.py bin/shb

# Builds what makes traces of C and C++ programs (recorder/README.md), and links all commands beside the program.
recorder:
	$(MAKE) -C recorder
	mkdir -p bin
	for command in python/shb-* recorder/shb-std; do [ ! -f "$$command" ] || ln -sf "../$$command" bin/; done

# A program that SHB names isn't built here; its path may have blanks.
ifeq ($(SHB),bin/shb)
install dist deb: bin/shb
endif

# Puts the commands, manual pages, completions and examples below PREFIX, and takes them away again.
install:
	packaging/install --shb "$(SHB)" --prefix "$(PREFIX)" --destdir "$(DESTDIR)" install

uninstall:
	packaging/install --prefix "$(PREFIX)" --destdir "$(DESTDIR)" uninstall

# Make shb-VERSION-x86_64-linux.tar.xz and shb_VERSION_amd64.deb, each with its checksum, for machines without the kit.
dist deb:
	packaging/install --shb "$(SHB)" $@

# Run by hand: it times the built program and prints ratios.
bench: build
	python3 bench/measure.py
