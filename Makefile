# The programs, by the kit's command `rt`. `make` proves `onbar` and builds bin/onbar, `make xbsash` the other one.

PREFIX ?= /usr/local
DESTDIR ?=
RT ?= rt
# How many crates are proved side by side; each takes 1 to 4 GB of memory.
JOBS ?= $(shell nproc)

.PHONY: all xbsash demo test bench check install clean

# A program: the crate of its call, its own crate, its exit status over empty standard input, its name. The crates below are proved
# side by side, lowest first, and then the program. `rt run` builds and then runs: that makes the files of a site, empty.
define program
	cd crates/$(1) && $(RT) all check --jobs $(JOBS)
	cd crates/$(2) && { $(RT) run </dev/null >/dev/null || test $$? -eq $(3); }
	cd crates/$(2) && rm -f cat spare boot log vol[01][0-9] chunk[01][0-9]
	mkdir -p bin
	cp crates/$(2)/out/$(2) bin/$(4)
endef

all:
	$(call program,onbar_command,onbar_main,5,onbar)

# The program that runs scripts of XBSA calls.
xbsash:
	$(call program,xbsa_shell,xbsash_main,7,xbsash)

# A sample site, with a run that is killed.
demo: all
	demo/killed_run.sh bin/onbar

# The program over files: statuses, texts, devices that fail, kills, system calls.
test: all
	tests/run.sh bin/onbar

# Throughput, memory and calls. Not part of the checks.
bench: all
	bench/log_script.sh bin/onbar
	bench/lane.sh bin/onbar
	bench/log_calls.sh bin/onbar

# Proofs, must-fail edits, tests and stored runs, and then the program over files.
check:
	.ci/run

install: all
	install -d $(DESTDIR)$(PREFIX)/bin
	install -m 755 bin/onbar $(DESTDIR)$(PREFIX)/bin/onbar

clean:
	rm -rf bin
