# cborn: a proved deterministic normaliser for CBOR.
PREFIX ?= /usr/local
PROGRAM := crates/cborn/out/cborn

# The stack, in KB, within which each command has to answer at 1,024 levels.
STACK ?= 48

# The size in MB of the inputs whose cost in memory is tested.
COST ?= 8

.PHONY: help try build test check-quick layout tables vectors explanations growths failures cost instructions left-out believed stack big library-growths built-tests bench install clean

help:
	@echo 'make try        build the program from its source, before any proof and not optimised, and run it: ARGS="check FILE", or seven bytes'
	@echo 'make build      prove every crate and build the program, $(PROGRAM)'
	@echo 'make test       the merge gate from nothing, then side by side make $(AFTER), and which of it was left out'
	@echo 'make check-quick   while you change something: proves what changed, then make layout, tables and believed'
	@echo 'make layout     whether each file of the crates is in the layout of rt fmt, cites what it may, makes up no out of memory, has no'
	@echo '                new function of many arguments and keeps to the glossary, docs/PROMISES.md and the table of worked inputs are'
	@echo '                what the sources say, each public function of a library has its must-fail edit, and the documents are short'
	@echo '                and their links lead somewhere'
	@echo 'make tables     the built program on the tables of tests/ and at a terminal, the examples of the documents, completion-tests and release-tests'
	@echo 'make vectors    the built program on each front of each worked input'
	@echo 'make explanations   the built program on random and mutated inputs with --explain: the paths that it tells are followed'
	@echo 'make growths    the built program on those tables, each growth refused in turn'
	@echo 'make failures   the built program on those tables, with trouble at each opening, read and write, and at each call that puts a file in place, in turn'
	@echo 'make cost       the bounds of make bench-cost on memory, on inputs of COST MB (COST is $(COST)), without the times'
	@echo 'make instructions   how many instructions the built program takes on small inputs of each kind: no more than tests/instructions.txt'
	@echo '                allows; it needs valgrind'
	@echo 'make left-out   what make test leaves out here, for want of its tools'
	@echo 'make believed   the lines of definitions that a reader has to believe, and that the documents say so'
	@echo 'make stack      the least stack that each command needs at 1,024 levels: no more than STACK KB (STACK is $(STACK))'
	@echo 'make big        the largest inputs there are, 2^30 bytes, with time and memory: some minutes, 8 GB of memory, 3 GB of disk'
	@echo 'make library-growths   the tests of the libraries, proved and built first, with each growth refused in turn'
	@echo 'make bench      time the commands on a corpus of 130 MB, made under bench/corpus'
	@echo 'make bench-peers    the program beside its peers, whose drivers it builds (Debian packages; it says which): some ten minutes'
	@echo 'make bench-growth   time and memory from 1 MB to 1 GB, beside two peers: some 20 minutes, 5 GB of disk'
	@echo 'make pictures   draw the tables of docs/PERFORMANCE.md under docs/pictures (Debian: python3-matplotlib, graphviz)'
	@echo 'make bench-cost     what hostile bytes and texts cost: memory beside input and output, and time at two sizes'
	@echo 'make install    prove and build program and library, and put them under PREFIX (PREFIX is $(PREFIX)): bin/cborn,'
	@echo '                its man page, its completions for bash, zsh and fish, include/cborn.h, libcborn.a, libcborn.so and'
	@echo '                cborn.pc; make build proves no library'
	@echo 'make library    the library for C, build/libcborn.a and build/libcborn.so, and cborn.pc'
	@echo 'make python     the Python package, an extension in C over that library, in build/python (wants Python.h)'
	@echo 'make library-tests   the command lines of tests/ through the library, from C, Python and Rust, and the examples of docs/LIBRARY.md'
	@echo 'make library-bench   what a call costs, from C, Rust, Go and Python, beside serde_cbor and cbor2'
	@echo 'make dist       one archive of program, library, wheel and crate for whoever has no kit'
	@echo 'make dist-tests the archive, unpacked and called with no kit on the path, from each language whose tools are there'
	@echo 'make release    the archive of the version, made from a clean clone of HEAD and put into release/: once a version'
	@echo 'make release-same    that archive made anew from its commit, and compared byte for byte'
	@echo 'make release-tests   that archive: its checksum, its version and its first run; nothing where there is none'
	@echo 'make completions     what completes commands and options in bash, zsh and fish, under build/completions'
	@echo 'make completion-tests   whether each shell that is there offers what the help has'
	@echo 'make clean      drop what was built'

# ARGS are the words after cborn: make try ARGS='check FILE'
try:
	@python3 tests/try.py $(ARGS)

# what needs the kit says so if it is missing
.PHONY: kit
kit:
	@command -v rt > /dev/null || { echo "The command rt of the Rattle kit isn't on the path, and nothing is proved or built without it. README.md, 'Get it', names it, and says how to do without." >&2; exit 1; }

build: kit
	@test -e $(PROGRAM) || echo 'Each crate is proved, lowest first, and then $(PROGRAM) is built: a quarter of an hour on four idle processors, more than an hour where others use them too. A quiet minute is no hang.'
	cd crates/cborn && rt run -- --version

# What follows the gate: side by side, over the program and the tests that were built once before, while the library is proved
# and built. First what keeps one processor busy for long, then what takes them all, the longest first.
AFTER := library-tests dist-tests failures growths library-growths instructions vectors cost tables believed layout stack explanations

test:
	rt ci
	python3 tests/built.py
	$(MAKE) build completions
	$(MAKE) --old-file=build --old-file=built-tests --jobs=$(shell nproc) --output-sync=target --keep-going $(AFTER)
	$(MAKE) --no-print-directory left-out

# over what out/ keeps; it tries no must-fail edit, and runs no tests
check-quick:
	rt all check
	$(MAKE) layout tables believed

layout:
	@find crates -name out -prune -o \( -name '*.rt' -o -name '*.antt' \) -print0 | xargs -0 '$(dir $(shell rt doc))bin/rattle' fmt --check
	python3 tests/sources.py
	python3 tests/vectors.py --check
	python3 tests/promises.py --check
	python3 tests/edits.py
	python3 tests/made_up.py
	python3 tests/words.py

tables: build
	python3 tests/run.py $(PROGRAM)
	python3 tests/terminals.py $(PROGRAM)
	python3 tests/documents.py $(PROGRAM)
	python3 bench/pictures.py --check
	$(MAKE) --old-file=build completion-tests release-tests

growths: build
	python3 tests/growths.py $(PROGRAM)

failures: build
	python3 tests/failures.py $(PROGRAM)

cost: build
	python3 bench/cost.py $(PROGRAM) --mb $(COST) --memory

instructions: build
	python3 tests/instructions.py $(PROGRAM)

# no part of make test: where make instructions finds a rise, this says which function it is
left-out:
	@python3 tests/tools.py

vectors: build
	python3 tests/vectors.py $(PROGRAM)

explanations: build
	python3 tests/explain.py $(PROGRAM)

believed:
	python3 tests/believed.py

stack: build
	python3 tests/stack.py $(PROGRAM) $(STACK)

# BIG may hold an option: BIG='--into docs/PERFORMANCE.md' to put the table there.
big: build
	python3 tests/big.py $(PROGRAM) $(BIG)

library-growths: built-tests
	python3 tests/growths.py --tests crates/cborn_tests/out/cborn_tests_tests

# rt ci builds them as well, and make test runs those
built-tests: kit
	cd crates/cborn_tests && rt test

.PHONY: bench-peers bench-growth bench-cost

# the last file that corpus.py writes
CORPUS := bench/corpus/small-10000.cbor

$(CORPUS): bench/corpus.py
	python3 bench/corpus.py bench/corpus

# BENCH may hold options: BENCH=--cpu on a machine that is shared, BENCH='--into docs/PERFORMANCE.md' to put the tables there.
bench: build $(CORPUS)
	python3 bench/tables.py $(PROGRAM) bench/corpus --alone $(BENCH)

bench-peers: build $(CORPUS)
	python3 bench/tables.py $(PROGRAM) bench/corpus $(BENCH)
	python3 bench/pictures.py

bench-growth: build $(CORPUS)
	python3 bench/tables.py $(PROGRAM) bench/corpus --only growth --best 1 $(BENCH)
	python3 bench/pictures.py

# the tables as docs/PERFORMANCE.md has them
.PHONY: pictures
pictures:
	python3 bench/pictures.py

bench-cost: build
	python3 bench/cost.py $(PROGRAM) $(BENCH)

install: build
	@echo 'Program, man page, completions, and the library with its header and cborn.pc go below $(DESTDIR)$(PREFIX); the library is proved first.'
	install -D $(PROGRAM) $(DESTDIR)$(PREFIX)/bin/cborn
	install -D -m 644 man/cborn.1 $(DESTDIR)$(PREFIX)/share/man/man1/cborn.1
	$(MAKE) put-completions

.PHONY: completions put-completions completion-tests

# bash, zsh and fish find them where they are put
completions:
	@test -x $(PROGRAM) || { echo '$(PROGRAM) has to be there first: make build' >&2; exit 1; }
	python3 completions/make.py $(PROGRAM) build/completions

put-completions: completions
	install -D -m 644 build/completions/cborn.bash $(DESTDIR)$(PREFIX)/share/bash-completion/completions/cborn
	install -D -m 644 build/completions/_cborn $(DESTDIR)$(PREFIX)/share/zsh/site-functions/_cborn
	install -D -m 644 build/completions/cborn.fish $(DESTDIR)$(PREFIX)/share/fish/vendor_completions.d/cborn.fish

completion-tests: build completions
	python3 tests/completions.py $(PROGRAM) build/completions

clean:
	rm -rf crates/*/out bench/corpus bench/build build

include bindings/library.mk
include bindings/release.mk
