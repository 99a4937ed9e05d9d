# `make` proves and builds the program build/fcanon; `make help` lists the other targets.
.POSIX:
.PHONY: all demo library page book paper deals settled unsolvable test bench chaos edits minimal mutants install uninstall \
	install-program install-library dist clean help needs-rt needs-python3 needs-cc needs-fc-solve \
	needs-pdflatex

PROGRAM = build/fcanon
PREFIX = /usr/local
BIN = $(PREFIX)/bin
LIBEXEC = $(PREFIX)/libexec/fcanon
LIB = $(PREFIX)/lib
INCLUDE = $(PREFIX)/include
MAN = $(PREFIX)/share/man
DOC = $(PREFIX)/share/doc/fcanon
BINDINGS = $(PREFIX)/share/fcanon
BASH_COMPLETIONS = $(PREFIX)/share/bash-completion/completions
ZSH_COMPLETIONS = $(PREFIX)/share/zsh/site-functions
FISH_COMPLETIONS = $(PREFIX)/share/fish/vendor_completions.d
# Without quotes, so that the shell knows PREFIX=~/.local
PLACES = PROGRAM=$(PROGRAM) DESTDIR=$(DESTDIR) PREFIX=$(PREFIX) BIN=$(BIN) \
	LIBEXEC=$(LIBEXEC) LIB=$(LIB) INCLUDE=$(INCLUDE) MAN=$(MAN) DOC=$(DOC) \
	BINDINGS=$(BINDINGS) BASH_COMPLETIONS=$(BASH_COMPLETIONS) \
	ZSH_COMPLETIONS=$(ZSH_COMPLETIONS) FISH_COMPLETIONS=$(FISH_COMPLETIONS)
CRATE =
MADE =
MINUTES = 60
GAME = freecell
FIRST = 1
LAST = 32000

all: needs-rt ## proves and builds the program build/fcanon
	@echo "Proving and building build/fcanon: from nothing in 10 to 30 minutes, after a change in less."
	@tools/prove

demo: all ## shows Microsoft's deal 1
	@echo "Microsoft's deal 1, by build/fcanon deal 1 | build/fcanon show:"
	@build/fcanon deal 1 | build/fcanon show

library: all ## builds the library for C: build/libfcanon.a, build/libfcanon.so, build/fcanon.h
	@tools/library

page: library needs-python3 ## builds the page build/fcanon.html, and its modules build/*.wasm
	@page/build-module build/fcanon.wasm
	@page/build-runs build/fcanon_runs.wasm
	@page/assemble build/fcanon.wasm build/fcanon_runs.wasm build/fcanon.html
	@echo "build/fcanon.html is built: open it in a browser."

book: needs-python3 ## makes linked pages on what is proved, and how, in build/book
	@tools/book/make build/book
	@echo "build/book/index.html is made: open it in a browser."

paper: needs-python3 needs-pdflatex ## makes a paper of eight pages on it, build/fcanon-paper.pdf
	@tools/paper build/fcanon-paper.pdf
	@echo "build/fcanon-paper.pdf is made."

deals: all needs-python3 needs-fc-solve ## makes a store of Microsoft's deals, solved, in build/deals: LAST=32000
	@tools/deals build/fcanon build/deals 1 $(LAST)

settled: all library needs-python3 needs-cc ## settles deals by proof, in build/settled: GAME=freecell FIRST=1 LAST=32000
	@tools/settled build/settled $(GAME) $(FIRST) $(LAST)

unsolvable: all library needs-python3 needs-cc ## makes closed lists of the eight unsolvable deals, in build/deals
	@tools/unsolvable build/deals

test: needs-rt needs-python3 needs-cc ## proves all from nothing, tries mutants, runs all tests
	@tests/all

bench: library needs-python3 needs-cc ## measures records a second, memory and calls
	@tests/program/bench build/fcanon
	@tests/program/groups/sizes build/fcanon
	@tests/library/calls/run
	@tests/program/yardstick/run build/fcanon
	@tests/library/c/bench build
	@tests/library/c/searches build
	@tests/program/store/bench build/fcanon

chaos: library needs-python3 needs-cc ## tries input made by chance, for so many minutes: MINUTES=60
	@tests/library/c/chaos build
	@tests/program/chaos build/fcanon $(MINUTES)

edits: needs-rt needs-python3 ## has the prover refuse all mutants, or CRATE=fc_text, or MADE=60 that a machine makes
	@made="$(MADE)"; tests/gate/edits $${made:+--made $$made} $(CRATE)

minimal: needs-rt needs-python3 ## lists written answers that the prover finds by itself: CRATE=fc_deal
	@tools/minimal $(CRATE)

mutants: needs-rt needs-python3 needs-cc ## says which mutants the test cases kill, or of CRATE=.., MADE=60
	@made="$(MADE)"; tests/gate/mutants $${made:+--made $$made} $(CRATE)

# Nothing is proved here, so that root needs no toolchain.
install: ## copies what is built below PREFIX=/usr/local
	@$(PLACES) tools/install install

install-program:
	@$(PLACES) tools/install install-program

install-library:
	@$(PLACES) tools/install install-library

uninstall: ## removes it from there
	@$(PLACES) tools/install uninstall

dist: library ## packs what is handed out into build/dist: archives, Debian packages, bindings
	@tools/package build/fcanon build/dist

clean: ## removes what was built and proved
	rm -rf build crates/*/out

help: ## prints this
	@awk -F ' *## ' '/^[a-z]+:.*##/ { sub(/:.*/, "", $$1); printf "make %-10s %s\n", $$1, $$2 }' \
		Makefile

needs-rt:
	@command -v rt >/dev/null || { \
		printf '%s\n' "fcanon is written in Rattle: put the command rt of its toolchain on the PATH." \
			"That toolchain, which proves and compiles, is not public yet. Without it you can use what" \
			"'make dist' packed elsewhere: program, library, bindings and page; 'make book' shows what" \
			"is proved, and needs Python 3 alone." >&2; exit 1; }

needs-python3:
	@command -v python3 >/dev/null || { \
		echo "This needs Python 3: put the command python3 on the PATH." >&2; exit 1; }

needs-cc:
	@command -v cc >/dev/null || { \
		echo "This needs a C compiler: put the command cc on the PATH." >&2; exit 1; }

needs-fc-solve:
	@command -v fc-solve >/dev/null || { \
		echo "This needs Freecell Solver: put the command fc-solve on the PATH (in Debian" \
			"the package freecell-solver-bin)." >&2; exit 1; }

needs-pdflatex:
	@command -v pdflatex >/dev/null || { \
		echo "This needs LaTeX: put the command pdflatex on the PATH (in Debian the packages" \
			"texlive-latex-recommended, texlive-fonts-recommended, texlive-pictures and lmodern)." >&2; exit 1; }
