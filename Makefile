# make demo:    the whole job on an example: proves and builds the library and the wheel, and runs the command on a mailbox
# make test:    the gate, as it runs on every change (proofs, must-fail edits, programs, all other tests)
# make lib:     the library for this machine, below build/; with MACHINES="x86_64 aarch64" also for the other one
# make probe:   the library of what the tests ask besides, likewise
# make wheel:   the Python package, build/wheel/vienghulac-*.whl
# make bench:   the library beside C, GMime and Python's email, in one table (see bench/README.md)
# make fuzz:    the library beside the C program of bench/, on inputs that a fuzzer makes, for SECONDS (600)
# make install: the C library, its header and its pkg-config file, below PREFIX
.PHONY: demo test lib probe wheel bench fuzz install clean

PREFIX ?= /usr/local
SECONDS ?= 600
VERSION := $(shell sed -n 's/^version = "\(.*\)"/\1/p' python/pyproject.toml)
INTO := $(DESTDIR)$(PREFIX)

demo: wheel
	@tools/demo

test:
	@.ci/run

lib:
	@tools/install build
	@tools/build-lib cexports vienghulac $(MACHINES)

probe:
	@tools/install build
	@tools/build-lib probe vienghulac_probe $(MACHINES)

bench: lib
	@tools/install bench
	@python3 bench/run.py

fuzz: lib
	@tools/install test
	@tests/fuzz/run $(SECONDS)

wheel: lib
	@tools/build-wheel

build/libvienghulac.so:
	@$(MAKE) --no-print-directory lib

install: build/libvienghulac.so
	install -d "$(INTO)/include" "$(INTO)/lib/pkgconfig"
	install -m 644 include/vienghulac.h "$(INTO)/include/"
	install -m 644 build/libvienghulac.a "$(INTO)/lib/"
	install -m 755 build/libvienghulac.so "$(INTO)/lib/"
	sed 's|@PREFIX@|$(PREFIX)|; s|@VERSION@|$(VERSION)|' include/vienghulac.pc.in >"$(INTO)/lib/pkgconfig/vienghulac.pc"

clean:
	rm -rf build crates/*/out
