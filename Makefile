# make build      proves and builds the program, crates/rtcm2rinex/out/rtcm2rinex
# make run        builds it, prints the options that fit a recording, converts all its systems with them, prints the
#                 start of the file and the report, and checks the file
# make try        converts the recording with the stored options before any proof, by the toolchain's way to run
#                 unproved code, and prints the start of the file: a first look within a minute. It proves nothing
# make dist       packs the proved program with its documents, out/rtcm2rinex-VERSION-linux-x86_64.tar.gz
# make deb        the same as a Debian package, out/rtcm2rinex_VERSION_amd64.deb; needs dpkg-deb
#                 (HOMEPAGE=https://.. gives its field Homepage, which it lacks by default)
# make install    builds it if it is missing, and installs program, manual page, completion for bash and examples to
#                 PREFIX (/usr/local)
# make read-back  builds it, has RTKLIB read back the converted recordings, and compares RTKLIB's own conversions
# make test       runs the gate: all proofs, must-fail mutants, tests, stored cases, documents, and what else
#                 docs/GATE.md lists
# make bench      compares the instructions of the programs that make test left with stored ones; needs valgrind
# make mutants    tries the mutants of crates/*/must-fail and crates/*/mutants over kept work, and their controls
PROGRAM := crates/rtcm2rinex/out/rtcm2rinex
SAMPLE := samples/zed-f9t-2019-10-17
MADE := out/zed-f9t-2019-10-17
DAY := 2019-10-17
DATE := "20240204 000001 UTC"

PREFIX ?= /usr/local
EXAMPLES = $(PREFIX)/share/doc/rtcm2rinex/examples
# the scripts that a unit runs and what they read, also on a machine without documents
RUN = $(PREFIX)/share/rtcm2rinex

# The prover's allocator returns memory to the kernel that it soon needs again; keeping it makes checks faster.
export MIMALLOC_PURGE_DELAY ?= -1

.PHONY: build run try dist deb install read-back test bench mutants

build:
	@tools/build

run: build
	@mkdir -p out
	$(PROGRAM) options --near $(DAY) < $(SAMPLE).rtcm3 > $(MADE).plan
	@cat $(MADE).plan
	$(PROGRAM) convert --date $(DATE) --gather time $$(cat $(MADE).plan) < $(SAMPLE).rtcm3 > $(MADE).obs \
	    2> $(MADE).report
	@head -n 30 $(MADE).obs
	@echo ".. $$(wc -l < $(MADE).obs) lines in $(MADE).obs, and the report:"
	@cat $(MADE).report
	@for part in plan obs report; do cmp $(MADE).$$part $(SAMPLE).$$part || exit 1; done; echo "all as stored in samples/"
	@echo "read back: $$($(PROGRAM) check < $(MADE).obs)"

try:
	@mkdir -p out
	@echo "nothing is proved here: the program is built without its proofs (make run proves it)"
	@cd crates/rtcm2rinex && rt try -- convert --date $(DATE) --gather time $$(cat ../../$(SAMPLE).plan) \
	    < ../../$(SAMPLE).rtcm3 > ../../out/try.obs 2> ../../out/try.report || { cat ../../out/try.report; exit 1; }
	@head -n 30 out/try.obs
	@echo ".. $$(wc -l < out/try.obs) lines in out/try.obs, and the report:"
	@grep '^bytes ' out/try.report
	@cmp out/try.obs $(SAMPLE).obs && echo "the file is as stored in samples/; nothing was proved"

dist: build
	@tools/dist $(PROGRAM)

deb: build
	@HOMEPAGE="$(HOMEPAGE)" tools/dist --deb $(PROGRAM)

# An existing program is installed as it is, so that `sudo make install` proves nothing.
install:
	@test -x $(PROGRAM) || $(MAKE) build
	install -d $(DESTDIR)$(PREFIX)/bin $(DESTDIR)$(PREFIX)/share/man/man1
	install -d $(DESTDIR)$(PREFIX)/share/bash-completion/completions
	install -m 755 $(PROGRAM) $(DESTDIR)$(PREFIX)/bin/rtcm2rinex
	install -m 644 docs/rtcm2rinex.1 $(DESTDIR)$(PREFIX)/share/man/man1/rtcm2rinex.1
	install -m 644 docs/rtcm2rinex.bash $(DESTDIR)$(PREFIX)/share/bash-completion/completions/rtcm2rinex
	install -d $(DESTDIR)$(RUN) $(DESTDIR)$(EXAMPLES)/systemd
	install -m 644 examples/day.sh examples/day-lacks.awk examples/days.sh $(DESTDIR)$(RUN)
	install -m 644 examples/*.sh examples/*.awk $(DESTDIR)$(EXAMPLES)
	install -m 644 examples/systemd/* $(DESTDIR)$(EXAMPLES)/systemd

read-back: build
	@tools/read_back $(PROGRAM)

test:
	@tools/gate

bench:
	@bench/instructions

# The crates are checked first, so that each edit is tried over what they kept.
mutants:
	tools/mutants --check
