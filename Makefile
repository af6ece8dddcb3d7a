# Tibzharuk: build, run, test, prove, install and pack. `make` alone prints what there is. All but
# the help needs the Rattle kit, whose command `rt` must be on the path.
# `make static` and `make dist` also need a C compiler as linker and the C library's static form
# (Debian: gcc, libc6-dev).
PREFIX ?= /usr/local
PROGRAM = crates/fq_prog/out/fq_prog
ROWS = crates/fq_test_rows/out/fq_test_rows
LANE_TESTS = crates/fq_lane/out/fq_lane_tests crates/fq_test_lane/out/fq_test_lane_tests
SOURCES := HANDLES crates.txt $(shell find crates -name out -prune -o '(' -name '*.rt' -o -name '*.antt' ')' -print)
VERSION := $(shell sed -n 's/^pub const VERSION: &str = "\([0-9.]*\)";/\1/p' crates/fq_app_words/src/words.rt)
SHOW = bash packaging/progress.sh
NEEDS_KIT = @bash packaging/needs.sh
.DEFAULT_GOAL := help

.PHONY: help run setup test build try check gate deep static dist image install uninstall clean \
  bench bench-reading bench-lane bench-waiting

# Lists the targets, each with the comment above it.
help:
	@awk '/^# / { said = said " " substr($$0, 3); next } \
	  /^[a-z-]+:/ { sub(":.*", ""); line = sprintf("make %-14s", $$0); count = split(said, words, " "); \
	    for (i = 1; i <= count; i++) { \
	      if (length(line words[i]) > 79) { print line; line = sprintf("%19s", "") } \
	      line = line " " words[i] } \
	    print line } \
	  { said = "" }' Makefile

# Trims the reads in examples/ to compressed files, a report and its page, within two minutes of a
# clone: with the proved program if it is built, else with a build that isn't proved.
run:
	@bash packaging/run_examples.sh

# Installs the Debian packages that the tests need (tests/packages), by sudo if you aren't root.
setup:
	@bash packaging/setup.sh

# Builds the program and runs all tests except the proofs of tests: unit tests of every crate,
# unproved, and the scripts in tests/, several side by side.
test:
	$(NEEDS_KIT)
	@bash tests/all.sh

# Proves the program and all crates below it, prints a line for each crate, leaves the program at
# crates/fq_prog/out/fq_prog, and prints its SHA-256. Does nothing if the program is newer than all
# sources.
build: $(PROGRAM)

$(PROGRAM): $(SOURCES)
	$(NEEDS_KIT) 6 5
	@bash packaging/build.sh
	@touch $@

# (The proved test programs that scripts of tests/ run. A gate leaves them.)
$(ROWS): $(SOURCES)
	$(NEEDS_KIT)
	@cd crates/fq_test_rows && bash ../../packaging/progress.sh rt run -- judge
	@touch $@

$(LANE_TESTS): $(SOURCES)
	$(NEEDS_KIT)
	@cd $(dir $(@D)) && rt test
	@touch $@

# Runs the unit tests without proofs: of one crate with CRATE=fq_trim, else of every crate.
try:
	$(NEEDS_KIT)
	@bash packaging/try.sh $(CRATE)

# Proves what changed since the last check, and the crates above it. With CRATE=fq_trim: that crate,
# and those below it.
check:
	$(NEEDS_KIT)
ifdef CRATE
	@cd crates/$(CRATE) && bash ../../packaging/progress.sh rt check
else
	@$(SHOW) rt all check
endif

# What CI runs: every proof, the wrong bodies in must-fail/, the proved tests, and then `make test`.
# What passed on this machine before, and did not change, is not proved again.
gate:
	$(NEEDS_KIT)
	@bash .ci/run

# Tries the wrong bodies in wrong-bodies.edits too, and those that `rt plant` makes, of every crate, and
# the recipes of CONTRIBUTING.md; with CRATE=fq_trim the wrong bodies of that crate alone.
deep:
	$(NEEDS_KIT)
	@bash packaging/deep.sh $(CRATE)

# Links the program into dist/fq_prog, which needs no library.
static: build
	@bash packaging/objects.sh dist/objects
	@bash packaging/link_static.sh dist/objects dist/fq_prog
	@ls -l dist/fq_prog

# Packs the static program with its documents in dist/: a tarball, a Debian package, and the sums of
# both.
dist: static
	@bash packaging/pack.sh $(VERSION) dist

# Makes a container image of the package: an OCI archive in dist/. Needs root, the network, and
# Debian's buildah and mmdebstrap.
image: dist
	@bash packaging/image.sh $(VERSION) dist

# Installs fq_prog and the command tibzharuk below PREFIX (default: /usr/local), with their manual
# pages, and their completion for bash, zsh and fish.
install: build
	@bash packaging/install.sh $(PROGRAM) "$(DESTDIR)$(PREFIX)"

# Removes what `make install` with the same PREFIX installed.
uninstall:
	@bash packaging/install.sh --remove "$(DESTDIR)$(PREFIX)"

# Removes what `make run`, `make static` and `make dist` made. What was proved stays, in the crates'
# out/.
clean:
	rm -rf dist examples/out

# Measures the program beside other trimmers. BENCH has arguments of the script, such as
# BENCH='--pairs 50000'. Prints figures only.
bench: build
	@bash bench/trimming/run.sh $(BENCH)

# Measures reading alone. Prints figures only.
bench-reading:
	@bash bench/reading/run.sh

# Measures a lane between two threads. Prints figures only.
bench-lane:
	@bash bench/lane/run.sh

# Measures how much of the processor the program uses while it waits. Prints figures only.
bench-waiting: build
	@bash bench/waiting/run.sh
