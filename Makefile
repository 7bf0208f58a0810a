# make            the proved library, the firmware demo, the replay and the salvage of traces and the import of captures
# make run        play a shelf; ARGS="ports=8 slots=640" changes it, ARGS=help explains; ARGS="queues=960" plays the compact shelf
#                 ARGS="trace=FILE" keeps its slots in a trace, and build/replay FILE prints their tables
#                 build/import PORTS MODE I J CAPTURE TRACE makes a trace of a packet capture
#                 build/salvage FILE NEW keeps what is sound of a damaged trace
# make test       the gate: all proofs, then the Rust and C tests
# make bench      measure the slot call against a plain Rust slot, and what it joins against maximum matching;
#                 BEFORE=elsewhere/libbellacush.a against that archive too
# make install    library, header and pkg-config file, under DESTDIR and PREFIX
# make clean      remove everything that was built

VERSION = 0.1.0
PREFIX ?= /usr/local
DESTDIR ?=
ARGS ?=
CC ?= cc
CXX ?= c++
CFLAGS ?= -O2
CXXFLAGS ?= -O2
WARNINGS = -Wall -Wextra -Wpedantic -Werror

# Another archive can stand in, as in: make test-c LIBRARY=elsewhere/libbellacush.a
PROVED = build/libbellacush.a
LIBRARY ?= $(PROVED)
FIRMWARE = build/proved/libbellacush_c.a
FRAMES = build/proved/libframe_calls_c.a
COLLECTORS = build/proved/libcollector_calls_c.a
QUEUES = build/proved/libqueue_calls_c.a
IMPORTS = build/proved/libimport_calls_c.a
SALVAGES = build/proved/libsalvage_calls_c.a
MEASURED = build/libmeasured.a
HEADER = include/bellacush.h
SOURCES = crates.txt $(shell find crates -name out -prune -o \( -name '*.rt' -o -name '*.antt' \) -print)
CARGO = BELLACUSH_ARCHIVE='$(abspath $(LIBRARY))' cargo

.PHONY: all run test test-rust test-c bench before install clean

all: $(LIBRARY) build/shelf build/compact build/replay build/import build/salvage

# The slot call, the frame calls, the collectors' calls, the queues, the import, the salvage, and what the tests and the benchmark link besides.
$(FIRMWARE) $(FRAMES) $(COLLECTORS) $(QUEUES) $(IMPORTS) $(SALVAGES) build/proved/libmeasured_c.a: build/proved/lib%.a: $(SOURCES)
	@mkdir -p $(@D)
	cd crates/$* && rt lib
	cp crates/$*/out/$(@F) $@

$(MEASURED): build/proved/libmeasured_c.a
	cp $< $@

# An object of its own keeps the slot call fast and its stack low: nothing else in it calls what the slot is made of.
$(PROVED): $(FIRMWARE) $(FRAMES) $(COLLECTORS) $(QUEUES) $(IMPORTS) $(SALVAGES)
	@mkdir -p build
	printf 'create %s\naddlib %s\naddlib %s\naddlib %s\naddlib %s\naddlib %s\naddlib %s\nsave\nend\n' $@ $^ | ar -M

build/shelf build/compact: build/%: firmware/%.c $(HEADER) $(LIBRARY)
	@mkdir -p build
	$(CC) -std=c99 $(WARNINGS) $(CFLAGS) -Iinclude -o $@ $< $(LIBRARY)

# The programs are proved as the library is, and the gate leaves them where they are proved. Only a run makes one
# elsewhere: with no arguments and no input it does nothing, and what it says of that is shown only if no program came of it.
PROGRAMS = crates/replay/out/replay crates/import/out/import crates/salvage/out/salvage

$(PROGRAMS): $(SOURCES)
	@mkdir -p $(@D)
	rm -f $@
	cd crates/$(@F) && { rt run </dev/null >out/run.log 2>&1; test -x out/$(@F) || { cat out/run.log; false; }; }

build/replay: crates/replay/out/replay
build/import: crates/import/out/import
build/salvage: crates/salvage/out/salvage
build/replay build/import build/salvage:
	@mkdir -p build
	cp $< $@

# With queues=CELLS it is the compact shelf that plays.
PLAYED = build/$(if $(findstring queues=,$(ARGS)),compact,shelf)

run: $(PLAYED)
	@./$(PLAYED) $(ARGS)

test:
	.ci/run

test-rust: $(LIBRARY) $(MEASURED)
	cargo fmt --all --check
	$(CARGO) test --offline --quiet --workspace --no-fail-fast

# One source, held to the header in both languages.
build/calls-c: tests/c/calls.c $(HEADER) $(LIBRARY)
	@mkdir -p build
	$(CC) -std=c99 $(WARNINGS) $(CFLAGS) -Iinclude -o $@ $< $(LIBRARY)

build/calls-cpp: tests/c/calls.c $(HEADER) $(LIBRARY)
	@mkdir -p build
	$(CXX) -std=c++11 $(WARNINGS) $(CXXFLAGS) -Iinclude -o $@ -x c++ $< -x none $(LIBRARY)

# Makes captures of traces, for the test of the import.
build/capture: tests/c/capture.c
	@mkdir -p build
	$(CC) -std=c99 $(WARNINGS) $(CFLAGS) -o $@ $<

test-c: build/calls-c build/calls-cpp build/shelf build/compact build/replay build/import build/capture build/salvage
	./build/calls-c
	./build/calls-cpp
	tests/c/shelf ./build/shelf
	tests/c/compact ./build/compact
	tests/c/replay ./build/shelf ./build/replay
	tests/c/import ./build/shelf ./build/capture ./build/import
	tests/c/salvage ./build/shelf ./build/replay ./build/salvage

# An archive to compare with: only its slot call is seen, under another name, so that both fit into one program.
BEFORE ?=
RENAMED = build/before/libbefore.a

before:
	@mkdir -p $(dir $(RENAMED))
	objcopy --redefine-sym bellacush_slot=before_slot --keep-global-symbol=before_slot $(BEFORE) $(RENAMED)

# The same sources with the plain rule at every port count: what the columns are measured against.
PLAIN_RULE = build/plain_rule/libplain_rule.a
PLAIN_PARTS = $(FIRMWARE:build/proved/%=build/plain_rule/%) $(COLLECTORS:build/proved/%=build/plain_rule/%)

# The copy stands elsewhere, since the gate refuses sources that no crate of the repository holds.
$(PLAIN_RULE): $(FIRMWARE) $(COLLECTORS)
	rm -rf $(@D)
	mkdir -p $(@D)
	grep -q '^const COLUMNS_FROM: usize = [0-9]*;' crates/lcf/src/slot.rt
	set -e; copy=$$(mktemp -d); trap 'rm -rf "$$copy"' EXIT; \
	tar -c --exclude='crates/*/out' crates crates.txt | tar -x -C "$$copy"; \
	sed -i 's/^const COLUMNS_FROM: usize = .*/const COLUMNS_FROM: usize = State::MOST + 1;/' "$$copy/crates/lcf/src/slot.rt"; \
	for part in $(PLAIN_PARTS); do \
	    name=$$(basename "$$part" .a); name=$${name#lib}; \
	    (cd "$$copy/crates/$$name" && rt lib); \
	    cp "$$copy/crates/$$name/out/lib$$name.a" "$$part"; \
	done
	printf 'create %s\naddlib %s\naddlib %s\nsave\nend\n' $@ $(PLAIN_PARTS) | ar -M
	objcopy --redefine-sym bellacush_slot=plain_rule_slot --redefine-sym bellacush_replay=plain_rule_replay \
	    --keep-global-symbol=plain_rule_slot --keep-global-symbol=plain_rule_replay $@

bench: $(LIBRARY) $(MEASURED) $(PLAIN_RULE) $(if $(BEFORE),before)
	$(if $(BEFORE),BELLACUSH_BEFORE='$(abspath $(RENAMED))') BELLACUSH_PLAIN_RULE='$(abspath $(PLAIN_RULE))' \
	    $(CARGO) run --offline --quiet --release --package bellacush-bench

install: $(LIBRARY)
	install -d '$(DESTDIR)$(PREFIX)/include' '$(DESTDIR)$(PREFIX)/lib/pkgconfig'
	install -m 644 $(HEADER) '$(DESTDIR)$(PREFIX)/include/'
	install -m 644 $(LIBRARY) '$(DESTDIR)$(PREFIX)/lib/libbellacush.a'
	sed -e 's|@PREFIX@|$(PREFIX)|' -e 's|@VERSION@|$(VERSION)|' bellacush.pc.in \
	  > '$(DESTDIR)$(PREFIX)/lib/pkgconfig/bellacush.pc'

clean:
	rm -rf build crates/*/out
