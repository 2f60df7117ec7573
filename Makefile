.POSIX:
.PHONY: help check tests compared placed answers lib wasm man bench install uninstall prefix kit tools
.NOTPARALLEL:

PREFIX = /usr/local

# What PREFIX and DESTDIR hold goes to the scripts as it is, through their environment, and is no
# text of make or of a shell.
unexport PREFIX DESTDIR
export QV_PREFIX := $(value PREFIX)
export QV_DESTDIR := $(value DESTDIR)

help:
	@sed -n 's/^## //p' Makefile
	@command -v rt >/dev/null || build/kit || :

## make check      proves everything, tries the refused edits and runs all tests; the last line is 'N passed, 0 failed'
check: kit tools
	tests/gate prove
	@$(MAKE) --no-print-directory compared placed
	tests/anywhere
	tests/gate verdict

## make tests      runs the tests alone, over what they build
tests: kit tools compared placed

compared:
	tests/compare
	tests/header
	tests/prototypes
	tests/edits
	tests/counts
	tests/second
	tests/expressions
	tests/c/run
	tests/web/run
	tests/program
	tests/marks
	tests/pieces
	tests/memory
	tests/building

# The tests that depend on the folder's path, the environment or how make is called.
placed:
	tests/script
	tests/prefix
	tests/install
	tests/sessions

## make answers    prints the worked calls with their answers
answers: kit
	@build/run days_cases </dev/null
	@build/run church_cases <crates/church_cases/stdin

## make lib        builds the archive for C programs, target/staticlib/libqashmelvit.a
lib: kit
	build/crate qashmelvit

## make wasm       fills target/wasm with the build for browsers
wasm: kit
	web/build

## make man        writes the manual pages, for man -M target/man qv_line
man:
	packaging/manual

## make bench      measures the calls, the program and plain Rust beside them
bench: kit
	bench/run

## make install    installs header, archive, programs and manual pages below DESTDIR and PREFIX, by default /usr/local
install: prefix lib
	build/crate datelines
	build/crate datemarks
	packaging/install "$$QV_DESTDIR" "$$QV_PREFIX"

## make uninstall  removes what make install put there
uninstall:
	packaging/uninstall "$$QV_DESTDIR" "$$QV_PREFIX"

# A bad PREFIX is refused before anything is proved.
prefix:
	@packaging/prefix "$$QV_PREFIX"

kit:
	@build/kit

tools:
	@build/tools
