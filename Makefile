# Proves, builds and tests the tools. Needs the Rattle toolchain's command `rt` and Python 3.

.PHONY: all try programs pegi abnfi abnfx abnfd abnfg lib wheel example examples install put put-lib dist deb test check edits edits-all clean

all: programs example

# Runs an example of each program before anything is proved, in about two minutes; or a program on files of your own:
# make try TOOL=pegi GRAMMAR=f INPUT=g, and OPTIONS='-m check' if it is to have some; make try TOOL=abnfx TEXTS=f;
# make try TOOL=abnfd TEXTS='f g'; make try TOOL=abnfg TEXTS=f.
# With CASES=folder in place of INPUT or TEXTS it builds the program once and runs it on each file of the folder.
try:
	@python3 -B scripts/build/try_tools.py

# Proves the crates that the programs stand on, as many side by side as processors and memory allow (JOBS=n says how
# many), builds the programs, and puts each into bin/ as soon as it is built.
programs:
	@python3 -B scripts/build/prove.py pegi abnfi abnfx abnfd abnfg

# One program alone: what the others stand on is not proved.
pegi abnfi abnfx abnfd abnfg:
	@python3 -B scripts/build/prove.py $@

# The library for C: proves what it stands on, and puts it into bin/, static and shared. It needs a C compiler.
lib:
	@python3 -B scripts/build/prove.py fanquber_c
	@python3 -B scripts/build/library.py

# The package for Python with the shared object, abnfd and abnfg inside, in bin/: a file that pip installs. It needs
# setuptools and wheel.
wheel: lib
	@python3 -B scripts/build/prove.py abnfd abnfg
	@python3 -B scripts/build/wheel.py

# A run of each program: the one rule of the peg(1) manual that replaces `username`, and a line of letters.
example: programs
	@echo
	@echo '$$ cat examples/username/username.peg'
	@cat examples/username/username.peg
	@echo
	@echo '$$ bin/pegi examples/username/username.peg < examples/username/letter.txt'
	@bin/pegi examples/username/username.peg < examples/username/letter.txt
	@echo
	@echo '$$ cat crates/abnfi/data/word.abnf'
	@cat crates/abnfi/data/word.abnf
	@echo
	@echo '$$ echo word | bin/abnfi crates/abnfi/data/word.abnf'
	@echo word | bin/abnfi crates/abnfi/data/word.abnf

# Each folder of examples/, compared with what it must print, and the examples of the manual pages, as they stand there.
# The gate runs them too.
examples: programs
	@sh scripts/docs/run_examples.sh
	@python3 -B scripts/docs/man_examples.py

# The programs, their manual pages, completions for shells, README, LICENSE and examples, below PREFIX; and the library for C with
# its header, its manual page and what pkg-config reads, if `make lib` made it. `put` and `put-lib` take all from bin/ as it
# is.
PREFIX ?= /usr/local
SHARE = $(DESTDIR)$(PREFIX)/share
install: programs put
	@if [ -f bin/libfanquber.so.2 ]; then $(MAKE) --no-print-directory put-lib; fi

put:
	install -d $(DESTDIR)$(PREFIX)/bin $(SHARE)/man/man1 $(SHARE)/doc/fanquber
	install -d $(SHARE)/bash-completion/completions $(SHARE)/zsh/site-functions $(SHARE)/fish/vendor_completions.d
	install -m 755 bin/pegi bin/abnfi bin/abnfx bin/abnfd bin/abnfg $(DESTDIR)$(PREFIX)/bin
	install -m 644 man/pegi.1 man/abnfi.1 man/abnfx.1 man/abnfd.1 man/abnfg.1 $(SHARE)/man/man1
	install -m 644 completions/bash/* $(SHARE)/bash-completion/completions
	install -m 644 completions/zsh/* $(SHARE)/zsh/site-functions
	install -m 644 completions/fish/* $(SHARE)/fish/vendor_completions.d
	install -m 644 README.md LICENSE $(SHARE)/doc/fanquber
	cp -R examples $(SHARE)/doc/fanquber

put-lib:
	install -d $(DESTDIR)$(PREFIX)/include $(DESTDIR)$(PREFIX)/lib/pkgconfig $(SHARE)/man/man3
	install -m 644 c/fanquber.h $(DESTDIR)$(PREFIX)/include
	install -m 644 bin/libfanquber.a $(DESTDIR)$(PREFIX)/lib
	install -m 755 bin/libfanquber.so.2 $(DESTDIR)$(PREFIX)/lib
	ln -sf libfanquber.so.2 $(DESTDIR)$(PREFIX)/lib/libfanquber.so
	sed 's|^prefix=.*|prefix=$(PREFIX)|' bin/fanquber.pc > $(DESTDIR)$(PREFIX)/lib/pkgconfig/fanquber.pc
	install -m 644 man/fanquber.3 $(SHARE)/man/man3

# What a machine without the toolchain needs, in bin/: an archive for any Linux on x86-64, and a package for Debian.
dist: programs
	@python3 -B scripts/build/package.py dist

deb: programs
	@python3 -B scripts/build/package.py deb

# The gate: every proof from nothing, the edits that the prover must reject, tests and programs; then the programs are
# put into bin/, and run on random cases and with failing allocations, writes, reads and stack.
test:
	@python3 -B scripts/gate/gate.py

# The edits that the prover must reject, crate by crate; `-` marks those that the gate does not try.
edits:
	@python3 -B scripts/gate/edit_index.py

# Tries every edit, those of the gate and those in must-fail/, before a release; or those of some crates:
# make edits-all CRATES='feed toolrun'.
edits-all:
	@python3 -B scripts/gate/edits_all.py $(CRATES)

# Every proof, over what earlier checks kept.
check:
	rt all check

clean:
	rm -rf bin crates/*/out
