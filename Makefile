# What can be made here: `make demo` (prove what it needs, build, replay an example), `make test` (everything), `make lib`, `make bench`,
# `make install` and `make uninstall` (PREFIX=.., DESTDIR=..), `make clean`. To prove and build, the Rattle toolchain's command `rt`
# must be on the path; what is built already is installed without it.
PREFIX ?= /usr/local
DESTDIR ?=
# through the environment, where no shell takes a path with a blank apart
export PREFIX DESTDIR

proved := build/lib/libtup.a build/bin/tup-replay build/bin/tup-messages
headers := $(patsubst %,build/%,$(wildcard include/*.h))
# Directories too: a file that is gone has no time to compare, but its directory has. A crate's own directory changes whenever rt builds.
sources := crates.txt $(shell find crates -mindepth 2 \( -name must-fail -o -name out \) -prune -o -print)

.PHONY: all need lib demo test bench install uninstall clean
all: lib

need:
	tools/need $(purpose)

# The archive, its headers and the programs in one place. The archive and the programs are of one run (&:), the headers alone are
# copied without it.
lib: $(proved) $(headers)

$(proved) &: $(sources)
	tools/build

build/include/%.h: include/%.h
	install -D -m 644 $< $@

demo: lib
	tools/demo

test: need
	tools/test

bench: purpose = bench
bench: need lib
	bench/run

install: lib
	tools/install

uninstall:
	tools/install --remove

clean:
	rm -rf build crates/*/out
