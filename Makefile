# make try           runs upsd without any proof, which takes a minute
# make tried         builds every program without proof into bin/tried/, and make test runs the tests on these
# make               proves and builds every program into bin/; make upsd only upsd and what it stands on
# make check         runs all tests; its last line is 'N passed, M failed'; with ANEW=--anew it uses nothing of earlier runs
# make check-edits   tries each wrong body one by one, which takes hours; CRATES='a b' tries those of some crates
# make check-times   keeps the processor times of the last make check, with which the next one compares its own
# make check-peers   joins the programs in bin/ with NUT's own, and replaces its packages on a Debian that it makes
# make bench         measures the programs in bin/ on this machine
# make install       builds, and installs programs, pages, units and examples under PREFIX; install-built doesn't build
# make deb           makes Debian packages out of the programs in bin/, in dist/; make tar makes an archive
# make configure     puts a first configuration into CONFDIR; a file that is there stays as it is
# make uninstall     takes away what install put there
# make clean         removes what was built

PROGRAMS := upsd dummy_ups upsmon upsc upsrw upscmd nutsim

# where things are installed, a folder that stands for the root (for packages), the folder of the configuration files, and
# that of the built programs
PREFIX ?= /usr/local
DESTDIR ?=
CONFDIR ?= /etc/nut
BIN ?= bin

# where packages go
TO ?= dist

INSTALLER = PREFIX='$(PREFIX)' DESTDIR='$(DESTDIR)' CONFDIR='$(CONFDIR)' BIN='$(BIN)' sh packaging/install.sh

.PHONY: all try tried test proved notices check check-edits check-times check-peers bench install install-built configure uninstall deb tar clean toolchain $(PROGRAMS)

all: $(PROGRAMS) notices

# rt try compiles the sources with checks and runs the result. What it says of the run, besides the program's output, is shown
# only if that fails.
try: toolchain
	@mkdir -p bin
	@echo "Nothing is proved here: upsd is compiled with checks at run time and asked LIST UPS, which takes about a minute."
	@cd crates/upsd && printf 'LIST UPS\nLOGOUT\n' | rt try -- --stdio --ups 'su700=Server room' 2> ../../bin/try.log || { cat ../../bin/try.log; exit 1; }
	@rm -f bin/try.log

tried: toolchain
	@tools/tried bin/tried

test: tried
	@python3 -m tests.check --tried bin/tried

# the first proof of what is wanted, several crates at a time
proved: toolchain
	@tools/prove $(or $(filter $(PROGRAMS),$(MAKECMDGOALS)),$(PROGRAMS))

# rt builds a program only once it and every crate below it are proved, which it looks at again here. It keeps its work in
# out/, so that a second build takes seconds. A crate's name has no dash, but the program's name has.
$(PROGRAMS): proved
	@mkdir -p bin
	@cd crates/$@ && rt run -- --version > ../../bin/$@.log 2>&1 < /dev/null || { cat ../../bin/$@.log; exit 1; }
	@rm -f bin/$@.log
	@cp crates/$@/out/$@ bin/$(subst _,-,$@)
	@echo "bin/$(subst _,-,$@) is proved and built"

# what the licences of the linked libraries ask of whoever passes the programs on
notices: toolchain
	@mkdir -p bin
	@tools/notices > bin/third-party-notices

# (copies that an interrupted proof left would be crates of the gate's, too)
check: toolchain
	@rm -rf bin/proving
	@python3 -m tests.check $(ANEW)

check-edits: toolchain
	@python3 -m tests.gate.wrong_bodies --one-by-one $(CRATES)

check-times:
	@python3 -m tests.gate.times --keep

check-peers: all
	@python3 -m tests.peers.server bin/upsd bin/dummy-ups
	@python3 -m tests.peers.clients bin/upsd bin/dummy-ups
	@python3 -m tests.peers.tools bin/upsc bin/upsrw bin/upscmd
	@python3 -m tests.peers.monitor bin/upsmon
	@python3 -m tests.peers.packages $(foreach it,$(subst _,-,$(PROGRAMS)),bin/$(it))

bench: all
	@python3 bench/stdio.py bin/upsd
	@python3 bench/sockets.py bin/upsd bin/dummy-ups
	@python3 bench/instructions.py bin/upsd bin/upsmon
	@python3 bench/sizes.py bin/upsd

install: all
	@$(MAKE) --no-print-directory install-built

# without the toolchain, which root may not have on its PATH
install-built:
	@$(INSTALLER) install $(subst _,-,$(PROGRAMS))

configure:
	@$(INSTALLER) configure

uninstall:
	@$(INSTALLER) uninstall $(subst _,-,$(PROGRAMS))

# without the toolchain, as install-built
deb tar:
	@BIN='$(BIN)' TO='$(TO)' sh packaging/packages.sh $@

clean:
	rm -rf bin dist crates/*/out

toolchain:
	@command -v rt > /dev/null || { echo "rt, the command of the Rattle toolchain, is missing: it is looked for on the PATH, which is $$PATH"; exit 1; }
	@command -v python3 > /dev/null || { echo "python3 is missing: it is looked for on the PATH, which is $$PATH; rt needs Python 3.8 or later, and the tests 3.10"; exit 1; }
