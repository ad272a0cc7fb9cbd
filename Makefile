# Each target below is one command. CRATE names the crate for those that work on one, as in `make
# plant CRATE=parfield`.
SHELL = bash
PREFIX ?= /usr/local
MANDIR ?= $(PREFIX)/share/man
BASHDIR ?= $(PREFIX)/share/bash-completion/completions
ZSHDIR ?= $(PREFIX)/share/zsh/site-functions
FISHDIR ?= $(PREFIX)/share/fish/vendor_completions.d
DOCDIR ?= $(PREFIX)/share/doc/parv
LIBDIR ?= $(PREFIX)/lib/parv
EXAMPLES = $(notdir $(wildcard examples/*))
COMMANDS = $(patsubst commands/parv_commands/%/command.py,parv-%,$(wildcard commands/parv_commands/*/command.py))
MODULES = $(patsubst commands/%,%,$(wildcard commands/parv_commands/*.py commands/parv_commands/*/*.py))
CRATE ?= parv
SIZE ?= small
PARV = crates/parv/out/parv

.PHONY: demo build test mutants checks faults bench dist deb check costs try plant format install uninstall

# Builds the proved program and runs it on a damaged set. The log is out/demo.log.
demo:
	@echo "Builds the proved program, then shows it at work on the damaged set in demo/ (a second)."
	@$(MAKE) --no-print-directory build
	@tools/demo.sh

# Proves the program and the libraries below it, and builds it as crates/parv/out/parv. The log is
# out/build.log.
build:
	@mkdir -p out && : > out/build.log
	@echo "Proves the program and all below it and builds $(PARV): 11 minutes on four"
	@echo "processors the first time, then what changed. The log is out/build.log."
	@cd crates/parv && ../../tools/proving.py ../../out/build.log rt run -- packets data/v.par2

# Runs the gate: every proof, the mutants of must-fail/, every test, and then the checks of the
# program that this leaves. ANEW=1 takes nothing from earlier runs. The log is out/gate.log.
test:
	@ANEW=$(ANEW) tools/gate.sh

# Tries the mutants of all crates, or of CRATE, those of mutants/ too. The logs are in out/mutants.
# It isn't part of the gate: run it for the crates changed after a change of a clause, a definition
# or a signature.
mutants:
	@PYTHONDONTWRITEBYTECODE=1 tools/mutants.py $(if $(filter file,$(origin CRATE)),,$(CRATE))

# Runs only the checks, which compare the built program with what it must print. The log is
# out/checks.log.
checks: build
	@echo "Checks the built program, a few minutes. The log is out/checks.log."
	@set -o pipefail; tools/checks.sh | tee out/checks.log

# Injects each bug of tools/faults into a copy of its own, and runs the check or test that must
# notice it. Two run at a time, a few minutes each. FAULTS names some of them. It isn't part of the
# gate.
faults:
	@PYTHONDONTWRITEBYTECODE=1 tools/faults/run.py $(FAULTS)

# Compares the time and memory of the program with those of par2, case by case: on small sets or,
# with SIZE=large, on the sets whose ratios count. It needs Debian's par2, keeps its sets in
# $PARV_BENCH (/tmp/parv-bench), and isn't part of the gate. PARV=/path measures another program,
# and builds none. BEFORE=/path measures one more program in turn with these, and wants the same
# answers from both.
bench: $(if $(filter file,$(origin PARV)),build)
	@PYTHONDONTWRITEBYTECODE=1 PARV="$(PARV)" BEFORE="$(BEFORE)" tools/bench/bench.py $(SIZE)

# Checks the proofs of all crates.
check:
	rt all check

# Prints what a check of CRATE costs: seconds of a processor and memory, from nothing, with its tests
# and after an edit, and its slowest functions. CRATE may name several.
costs:
	@tools/check_costs.py $(CRATE)

# Runs the tests of CRATE without a proof.
try:
	cd crates/$(CRATE) && rt try --test

# Tries wrong bodies in a copy of CRATE, and lists those that its contracts let through.
plant:
	cd crates/$(CRATE) && rt plant

# Lays out the sources of all crates, and writes missing imports.
format:
	for crate in crates/*/; do (cd $$crate && rt fmt && rt check --fix-imports) || exit 1; done

# Installs the built program and what belongs to it. It builds nothing, so root needs no toolchain.
# DESTDIR is put before each path.
install:
	@test -x $(PARV) || { echo "There is no program at $(PARV): 'make build' builds it." >&2; exit 1; }
	install -D -m 755 $(PARV) "$(DESTDIR)$(PREFIX)/bin/parv"
	for name in $(COMMANDS); do \
		install -m 755 commands/parv_commands/launcher "$(DESTDIR)$(PREFIX)/bin/$$name" || exit 1; \
	done
	for module in $(MODULES); do \
		install -D -m 644 "commands/$$module" "$(DESTDIR)$(LIBDIR)/$$module" || exit 1; \
	done
	for name in parv $(COMMANDS); do \
		install -D -m 644 docs/$$name.1 "$(DESTDIR)$(MANDIR)/man1/$$name.1" \
			&& install -D -m 644 completions/parv.bash "$(DESTDIR)$(BASHDIR)/$$name" \
			&& install -D -m 644 completions/parv.fish "$(DESTDIR)$(FISHDIR)/$$name.fish" || exit 1; \
	done
	install -D -m 644 completions/_parv "$(DESTDIR)$(ZSHDIR)/_parv"
	install -d "$(DESTDIR)$(DOCDIR)"
	install -m 644 docs/FORMATS.md docs/GLOSSARY.md "$(DESTDIR)$(DOCDIR)"
	install -d "$(DESTDIR)$(DOCDIR)/examples"
	install -m 755 $(EXAMPLES:%=examples/%) "$(DESTDIR)$(DOCDIR)/examples"

# Removes the installed files, and the folders of the commands' own modules if nothing else is in
# them.
uninstall:
	for name in parv $(COMMANDS); do \
		rm -f "$(DESTDIR)$(PREFIX)/bin/$$name" "$(DESTDIR)$(MANDIR)/man1/$$name.1" \
			"$(DESTDIR)$(BASHDIR)/$$name" "$(DESTDIR)$(FISHDIR)/$$name.fish"; \
	done
	rm -f "$(DESTDIR)$(ZSHDIR)/_parv"
	rm -f $(MODULES:%="$(DESTDIR)$(LIBDIR)/%")
	for folder in $(filter-out /parv_commands/,$(addprefix /,$(sort $(dir $(MODULES))))) /parv_commands ""; do \
		folder="$(DESTDIR)$(LIBDIR)$$folder"; \
		[ ! -d "$$folder" ] || rmdir --ignore-fail-on-non-empty "$$folder"; \
	done
	rm -f "$(DESTDIR)$(DOCDIR)/FORMATS.md" "$(DESTDIR)$(DOCDIR)/GLOSSARY.md" $(EXAMPLES:%="$(DESTDIR)$(DOCDIR)/examples/%")

# Makes the archive that installs without the toolchain, out/dist/parv-VERSION-x86_64-linux.tar.gz.
dist: $(if $(filter file,$(origin PARV)),build)
	@PARV="$(PARV)" tools/dist.sh

# Makes a Debian package with the same files in Debian's places, out/dist/parv_VERSION-1_amd64.deb.
deb: $(if $(filter file,$(origin PARV)),build)
	@PARV="$(PARV)" tools/deb.sh
