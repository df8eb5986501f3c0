# The commands that matter are `make try`, `make example` and `make test`; README.md says what they do.

PROGRAM := out/cmbsim
PREFIX := /usr/local
BIN := $(DESTDIR)$(PREFIX)/bin
SHARE := $(DESTDIR)$(PREFIX)/share
MANUAL := $(SHARE)/man/man1
BASH_WORDS := $(SHARE)/bash-completion/completions
ZSH_WORDS := $(SHARE)/zsh/site-functions
FISH_WORDS := $(SHARE)/fish/vendor_completions.d

.PHONY: help try example build check test tools docs audit install uninstall clean

# This list.
help:
	@awk '/^# / {text = substr($$0, 3); next} /^[a-z]+:/ && text {printf "make %-10s %s\n", substr($$1, 1, index($$1, ":") - 1), text} {text = ""}' Makefile

# A first look: the inverter's waveforms by the program as it stands, with nothing proved.
try:
	@scripts/try_example.sh inverter

# The main job: the inverter's waveforms as VCD on standard output, by the proved program.
example: build
	@CMBSIM=$(PROGRAM) tools/simulate.sh examples/inverter

# Proves whatever isn't proved yet, and builds the program, for the processor that CPU names if it is set.
build:
	@scripts/build.py cmbsim

# Proves one crate and what it stands on, as in make check CRATE=cmb_wave.
check:
	@test -d "crates/$(CRATE)/src" || { echo "give a crate, as in make check CRATE=cmb_wave" >&2; exit 2; }
	@cd "crates/$(CRATE)" && rt check

# The gate: every proof, test and must-fail edit from nothing, and then the program on whole files.
test:
	@scripts/gate.py

# The tools for netlists, stimuli and dumps, on small texts that were written by hand.
tools:
	@tools/test_tools.py
	@tools/test_netlists.py
	@tools/test_vectors.py
	@tools/test_processor.py

# Makes what scripts make in the documents, with what the built program prints, and sees that the documents hold.
docs:
	@scripts/crate_table.py
	@scripts/believed.py
	@scripts/wrong_bodies.py
	@test -x $(PROGRAM) || echo "$(PROGRAM) isn't built, so what it prints is left as it is" >&2
	@test ! -x $(PROGRAM) || { scripts/fault_tables.py $(PROGRAM) && scripts/command_texts.py $(PROGRAM); }
	@scripts/documents.py

# Tries every edit that the prover must refuse, those that the gate leaves out too, and says what refused it.
audit:
	@scripts/audit.py

# Installs the program that make build left, its manual page and the completions for bash, zsh and fish, below PREFIX.
install:
	@test -x $(PROGRAM) || { echo "$(PROGRAM) isn't built yet: run make build" >&2; exit 1; }
	install -d "$(BIN)" "$(MANUAL)" "$(BASH_WORDS)" "$(ZSH_WORDS)" "$(FISH_WORDS)"
	install -m 755 $(PROGRAM) "$(BIN)/cmbsim"
	install -m 644 docs/cmbsim.1 "$(MANUAL)/cmbsim.1"
	install -m 644 completions/cmbsim.bash "$(BASH_WORDS)/cmbsim"
	install -m 644 completions/cmbsim.zsh "$(ZSH_WORDS)/_cmbsim"
	install -m 644 completions/cmbsim.fish "$(FISH_WORDS)/cmbsim.fish"

# Removes what make install put below PREFIX.
uninstall:
	rm -f "$(BIN)/cmbsim" "$(MANUAL)/cmbsim.1" "$(BASH_WORDS)/cmbsim" "$(ZSH_WORDS)/_cmbsim" "$(FISH_WORDS)/cmbsim.fish"

# Removes all that was proved and built here.
clean:
	rm -rf out crates/*/out
