# make test    proves every crate, tries the must-fail edits, runs the programs and all other tests. The last line is rt ci's.
# make demo    proves and builds the program and the archive, runs the program on a sample, and says what its numbers mean.
# make check   proves what changed since the last time, and runs the programs.
# make build   makes the archive for C, target/staticlib/libbeckethand.a, and the program, target/bin/namecheck.
# make install PREFIX=/usr/local DESTDIR=     installs the header, the archive and beckethand.pc, which pkg-config reads.
# make uninstall PREFIX=/usr/local DESTDIR=   removes these three files, and leaves the folders.
# make soak    compares with the second program on fresh cases, until stopped.
# make bench   measures verdicts, paging, writing and comparing labels against the second program; fails over twice its time for a verdict.
# make times   measures the check of each crate, from nothing, as a table: seconds, memory and must-fail edits.

.PHONY: help test demo check build install uninstall soak bench times
# What writes target/ goes through tests/alone, which refuses it beside another make in this checkout; so targets go one after the other.
.NOTPARALLEL:

help:
	@sed -n 's/^# make/make/p' Makefile

test:
	@tests/alone tests/run

demo:
	@tests/alone tests/demo

check:
	@tests/alone tests/check

build:
	@tests/alone tests/archive
	@tests/alone program/build

# PREFIX and DESTDIR reach the script in its environment.
install:
	@tests/alone packaging/install

uninstall:
	@packaging/install --remove

soak:
	@tests/alone tests/second/run soak

bench:
	@tests/alone bench/run

times:
	@tests/alone tests/times
