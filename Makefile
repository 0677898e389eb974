# make demo        both jobs on examples, run and not proved                          a minute
# make desk        target/desk, the command, over the proved library                  some minutes
# make lib         target/staticlib/libdesk.a, for C programs with include/desk.h     some minutes
# make test        the gate: every proof, must-fail edit, program and comparison      the longest of these
# make install     command, library, header, man page: PREFIX=/usr/local DESTDIR=     some minutes
# make uninstall   removes what install put there, with the same PREFIX and DESTDIR   at once
# make dist        target/desk-VERSION-x86_64-linux.tar.gz, to use without the kit    some minutes
# make bench       the library beside a checker and a writer by hand in C             some minutes
# make soak        the library beside the second program, fresh seeds: SECONDS=600    10 minutes more
# make clean       removes target/ and what rt keeps beside the crates                at once
#
# The times are about those of a first run (docs/TIMES.md). What is proved and has not changed is
# not proved again: rt keeps it on this machine, for make test too.
.PHONY: help kit demo desk lib test install uninstall dist bench soak clean
.SILENT:
PREFIX = /usr/local

help:
	sed -n '/^#/!q; s/^# \{0,1\}//p' $(firstword $(MAKEFILE_LIST))

# there is an rt
kit:
	./tools/prove

demo: kit
	./tools/demo

desk: lib
	./tools/link target/desk host/*.c
	echo "made target/desk"
	echo "go on with target/desk --help, or target/desk check --explain examples/printed.xml"

lib: kit
	./tools/lib

test: kit
	./tools/test

install:
	PREFIX='$(PREFIX)' DESTDIR='$(DESTDIR)' ./tools/install

uninstall:
	PREFIX='$(PREFIX)' DESTDIR='$(DESTDIR)' ./tools/install --remove

dist: kit
	./tools/dist

bench:
	./tools/bench

soak:
	./tools/soak $(or $(SECONDS),600)

clean:
	rm -rf target crates/*/out
