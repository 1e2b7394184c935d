# midiseq: see README.md. What builds or proves needs the Rattle kit's command `rt` on the PATH.

SHELL := /bin/bash
PROGRAM := bin/midiseq
PREFIX ?= /usr/local
INSTALL ?= install

BINDIR = $(DESTDIR)$(PREFIX)/bin
MANDIR = $(DESTDIR)$(PREFIX)/share/man
DOCDIR = $(DESTDIR)$(PREFIX)/share/doc/midiseq
COMPLETIONS = $(DESTDIR)$(PREFIX)/share/bash-completion/completions

.PHONY: build demo test gate-times check check-docs install uninstall clean

# Proves every crate that the program stands on, those that do not stand on one another side by side, and leaves the program as bin/midiseq.
build: $(PROGRAM)

$(PROGRAM): $(shell find crates -name '*.rt' -o -name '*.antt' | grep -v /out/) crates.txt
	test/prove
	cd crates/midiseq && rt run < stdin > /dev/null
	mkdir -p bin
	cp crates/midiseq/out/midiseq $(PROGRAM)

# Builds, and runs a studio without and with a stranger in it.
demo: build
	@examples/studio/demo $(PROGRAM)

# The gate: every proof from nothing, the edits that must fail, the tests, and the stored run; and when each crate was done.
# Then, with the program that the gate has built, every command that the pages show, and runs whose calls are refused or that are hostile.
test:
	@test/whole

# The gate from nothing, and what it took, into docs/GATE.md: over an hour, on a machine that has nothing else to do.
gate-times:
	@test/gate-times --page docs/GATE.md

# For daily work: every crate as it stands and its tests, then the tests of the built program; no edits.
check: build
	rt all test
	test/docs $(PROGRAM)
	test/refused-calls $(PROGRAM)
	test/refused-memory
	test/progress $(PROGRAM)
	test/bridge $(PROGRAM)
	test/texts --real /usr/share $(PROGRAM)
	test/hostile --program $(PROGRAM)
	test/random-nets $(PROGRAM)
	test/random-circles --count 1000 $(PROGRAM)

# Builds, and compares every command that the pages show with what it prints.
check-docs: build
	test/docs $(PROGRAM)

# The program, its man pages, the completions for bash, and the pages with the examples that they run.
install: build
	$(INSTALL) -d $(BINDIR) $(MANDIR)/man1 $(MANDIR)/man5 $(COMPLETIONS) $(DOCDIR)/docs
	$(INSTALL) -m 755 $(PROGRAM) $(BINDIR)/midiseq
	$(INSTALL) -m 644 docs/midiseq.1 $(MANDIR)/man1/midiseq.1
	$(INSTALL) -m 644 docs/midiseq-script.5 docs/midiseq-faults.5 $(MANDIR)/man5
	$(INSTALL) -m 644 completions/midiseq.bash $(COMPLETIONS)/midiseq
	$(INSTALL) -m 644 README.md CHANGELOG.md CONTRIBUTING.md $(DOCDIR)
	$(INSTALL) -m 644 docs/*.md $(DOCDIR)/docs
	cp -R examples $(DOCDIR)

uninstall:
	rm -f $(BINDIR)/midiseq $(MANDIR)/man1/midiseq.1 $(MANDIR)/man5/midiseq-script.5 $(MANDIR)/man5/midiseq-faults.5 $(COMPLETIONS)/midiseq
	rm -rf $(DOCDIR)

clean:
	rm -rf bin crates/*/out
