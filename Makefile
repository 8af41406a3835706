.DEFAULT_GOAL := all
.DELETE_ON_ERROR:
.PHONY: all dist tool demo test bench planted install uninstall tools clean help

PREFIX ?= /usr/local
LIBDIR ?= $(PREFIX)/lib
DESTDIR ?=
export PREFIX LIBDIR DESTDIR
DIST := dist
TOOL := rust/target/release/calmbaize

archive := target/staticlib/libcalmbaize.a
wide := target/x86-64-v3/libcalmbaize.a
# All that the proofs read; a folder is newer where a file came or went.
sources := crates.txt $(shell find $(wildcard crates/*/src crates/*/specs crates/*/proofs))
# One line where the prover is missing, else nothing.
no_prover = $(shell . tools/lib.sh; need rt '' 2>&1)

# make help prints what stands behind ## beside each target.

all: dist $(if $(shell command -v cargo 2> /dev/null),tool) ## the default: dist, and tool where cargo is there

dist: $(archive) $(wide) ## proves, and leaves both archives, the header and pkg-config files in dist/
	@tools/make-dist.sh $(archive) $(wide)
	@echo "dist: the archive, the header and a pkg-config file are in dist/, the archive for x86-64-v3 in dist/x86-64-v3/"

# One call of the compiler makes both.
$(archive) $(wide) &: $(sources) tools/archives.sh tools/kit.sh tools/compile.sh
	$(if $(no_prover),$(error $(no_prover)))
	@tools/archives.sh $(archive) $(wide)

tool: dist ## builds the command line tool
	@. tools/lib.sh; need cargo cargo
	@cd rust && cargo build --offline --release --quiet --package calmbaize-cli
	@echo "tool: $(TOOL)"

demo: tool ## builds what is missing and shows the main job
	@tools/demo.sh $(TOOL)

test: ## the gate: layout, the round as printed, proofs, must-fail edits, and the checks of the machine code
	@.ci/run

planted: tools ## the outside checks, seen to fail on faulty libraries, headers and programs
	@tools/planted.sh

bench: dist ## measures, writes docs/BENCHMARKS.md and the table and picture beside it, and says what got worse
	@. tools/lib.sh; need cargo cargo && need pkg:libsodium-dev libsodium-dev
	@cd rust && cargo run --offline --release --quiet --package bench -- --docs ../docs $(if $(wildcard target/gate.times),--gate ../target/gate.times)

install: ## copies what make built below PREFIX (/usr/local) and LIBDIR (PREFIX/lib), DESTDIR put before both
	@tools/install.sh install "$(DIST)" "$(TOOL)"

uninstall: ## takes away what make install put there
	@tools/install.sh uninstall "$(DIST)" "$(TOOL)"

tools: ## sees that what the checks need beside the toolchain is there, or installs it
	@. tools/lib.sh; need cargo cargo && need c++ g++ && need valgrind valgrind && need pkg-config pkg-config

clean: ## removes all that was built
	rm -rf target dist rust/target crates/*/out

help: ## this list
	@sed -nE 's/^([a-z]+):[^#]*## (.*)/\1\t\2/p' $(MAKEFILE_LIST) | awk -F '\t' '{ printf "make %-10s %s\n", $$1, $$2 }'
