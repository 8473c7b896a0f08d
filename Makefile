# The commands of the README. `rt` is the toolchain's command and has to be on PATH.
PREFIX ?= /usr/local
# What bin/darbexum is built for: x86-64-v2, or with CPU=v3 x86-64-v3.
CPU ?= v2
# With ANEW=--anew the gate takes nothing from what earlier runs on this machine passed (kit 13f).
ANEW ?=
sources := $(shell find crates -path '*/out' -prune -o -type f -print) crates.txt

# The crates of `make mutants CRATE ..`, which are no targets.
ifeq (mutants,$(firstword $(MAKECMDGOALS)))
names := $(wordlist 2,$(words $(MAKECMDGOALS)),$(MAKECMDGOALS))
.PHONY: $(names)
$(names): ;@:
endif

.PHONY: help demo build lib run try test test-memory check mutants fmt install deb clean

help:
	@echo "make demo     a live run with a page in a browser, of senders with faults; not proved if it is not built"
	@echo "make run      the program on its stored example; not proved if it is not built"
	@echo "make try      the worked traces and the tests of reception; nothing is proved"
	@echo "make build    prove and build bin/darbexum, with bin/darbexum-live, -sdp, -gains and -join; with CPU=v3, for x86-64-v3"
	@echo "make lib      prove and build libdarbexum for C, in bin/library: archive, shared library, header, pkg-config's file"
	@echo "make test     the gate: pages, every proof from nothing, the gate's wrong bodies, tests, stored runs"
	@echo "make check    every crate's proofs, over what earlier checks kept"
	@echo "make mutants [CRATE ..]  all wrong bodies of these crates, or of all, and their record mutants/refused.txt"
	@echo "make test-memory  what the gate has built, with each allocation refused in turn"
	@echo "make fmt      lay out every file"
	@echo "make install  programs, library, man pages, completions, service and alerts below PREFIX (/usr/local), and DESTDIR before it"
	@echo "make deb      the same as Debian packages, in bin/: darbexum, libdarbexum0 and libdarbexum-dev"
	@echo "make clean    what was built and kept"

# DEMO has options of demo/run, as DEMO="--page 8081".
demo:
	@demo/run $(DEMO)

build: bin/darbexum bin/darbexum-live bin/darbexum-sdp bin/darbexum-gains bin/darbexum-join

# Proves what no earlier run on this machine proved, builds the program, and runs it on its stored input.
bin/darbexum: $(sources) bin/.x86-64-$(CPU)
	gate/build $(CPU) $@

# The processor of the last build: for another one everything is built again.
bin/.x86-64-%:
	mkdir -p bin
	rm -f bin/.x86-64-*
	touch $@

lib: bin/library/lib/libdarbexum.a

# Proves what no earlier run on this machine proved, and builds the library. With PROVED=--proved over what the gate has proved.
bin/library/lib/libdarbexum.a: $(sources) bindings/c/darbexum.h bindings/cpp/darbexum.hpp packaging/library packaging/darbexum.pc.in
	gate/build --library bin/library $(PROVED)

bin/darbexum-live: bin/%: %
	install -D $* $@

# Links, since the scripts find their packages from where they are themselves.
bin/darbexum-sdp bin/darbexum-gains bin/darbexum-join: bin/darbexum-%:
	mkdir -p bin
	ln -sf ../$*/darbexum-$* $@

# With nothing built, or with sources that are newer, by a run that proves nothing.
run:
	@examples/run

# The scripts drive the program that the gate has built, four side by side.
program := crates/studio_main/out/studio_main
scripts := memory/check tests/captures tests/sdp tests/package tests/library diff/run $(addprefix examples/,check faults statuses levels blocks wav chart)
# Live runs wait for most of their time, so three of them leave a processor free. The longest begin first. What a busy machine would
# disturb all the same, because other programs send or listen, runs alone behind them.
live := loopback page numbers states desk library control files sockets sap service twins faders gains kept ends demo

try:
	@gate/try

test:
	@mkdir -p bin && date +%s > bin/gate-begun && rm -f bin/not-judged
	docs/check
	gate/progress rt ci $(ANEW)
	$(MAKE) -j4 --no-print-directory PROVED=--proved $(addsuffix .ran,$(scripts))
	$(MAKE) -j3 -O --no-print-directory $(addsuffix .live,$(live))
	gate/tries --timed tests/latencies $(program)
	gate/tries tests/networks $(program)
	gate/tries --timed tests/senders $(program)
	gate/tries tests/interfaces $(program)
	gate/tries --timed tests/holdups $(program)
	@cat bin/gate-time
	@if [ -e bin/not-judged ]; then cat bin/not-judged; fi
	@echo "gate: pages, proofs, edits, tests, examples, faults, statuses, blocks, WAV files, charts, captures, SDP files, package, library, engine, memory, live runs, their files, pages, numbers, states of paths, latencies, announcements, a service, twins, faders, gains, kept gains, control, a desk, the demo, networks, senders, interfaces and hold-ups passed in $$(( ($$(date +%s) - $$(cat bin/gate-begun)) / 60 )) minutes"

%.ran:
	$* $(program)

%.live:
	gate/tries tests/$* $(program)

library.live:
	gate/tries tests/library $(program) live

# The commands that pages show are run with the others.
scripts += docs/commands

diff/run.ran:
	DARBEXUM=$(program) diff/run engine 500

# The Debian packages have the library too.
tests/package.ran: lib

# What the gate has proved makes the library in a minute.
tests/library.ran: lib
	tests/library $(program) still

memory/check.ran:
	memory/check

test-memory:
	memory/check

check:
	rt all check

mutants:
	@mutants/run $(names)

fmt:
	for crate in crates/*/; do (cd "$$crate" && rt fmt) || exit 1; done

install: build lib
	DESTDIR=$(DESTDIR) PREFIX=$(PREFIX) packaging/install bin/darbexum
	DESTDIR=$(DESTDIR) PREFIX=$(PREFIX) packaging/install --library bin/library

deb: build lib
	packaging/deb bin/darbexum bin/library bin

clean:
	rm -rf bin crates/*/out
