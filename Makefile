# Cuqamish. `make` lists the targets.

SHELL = /bin/bash
# One order of sorting on every machine.
export LC_ALL := C
CASES ?= 200000
DEFINED ?= 2000
SEED ?= 2009
SCRIPT ?= examples/scripts/first.script
FILE ?= examples/points/first.points
PREFIX ?= /usr/local
PROGRAMS ?= ../shared/programs
PAPERS ?= ../shared/docs
# The toolchain with which all was proved, as `rt version` prints it.
KIT = rattle-kit-13f logic dac8208d650f15bf
ORACLE = build/oracle/release
RUST_SRC = $(or $(MMIX_RUST_SRC),../shared/docs/src)
LIB_DIR = $(or $(MMIX_LIB_DIR),build)
export MMIX_RUST_SRC := $(abspath $(RUST_SRC))
export MMIX_LIB_DIR := $(abspath $(LIB_DIR))

RATTLE = crates.txt $(shell find crates -path '*/out' -prune -o \( -name '*.rt' -o -name '*.antt' \) -print)
WARNINGS = -Wall -Wextra -Wpedantic -Werror
# Of what rt prints: which crate it has come to, and what became of it.
TOLD = grep -a --line-buffered '^rt: [^n]\|^crate \|^library \|^logic='
SHOWN = grep --line-buffered -v '^library '
HEADERS = build/mmix.h build/mmix_text.h build/mmix_disassemble.h build/mmix_points.h
VERSION = $(shell sed -n 's/^\#define MMIX_VERSION_[MI].* //p' include/mmix.h | paste -s -d .)

.PHONY: help test quotes prove bench scripts-test points points-test lib shared install host host-test replay pop-watch counts programs oracle oracle-test differential guards mutants speed replay-list definitions constants clean checked programs-taken need-rt need-gcc need-script need-points constants-keys

help:
	@echo 'make bench SCRIPT=path       the bench program on a script (examples/scripts/first.script)'
	@echo 'make points FILE=path        the points of a file, a line each, written anew (examples/points/first.points)'
	@echo 'make test                    the gate: all proofs and must-fail edits, the hosts, compiled programs, the scripts, the points, the comparison with the Rust'
	@echo 'make lib                     build/libmmix.a with its headers, proved'
	@echo 'make build/store_lines       the program that moves points from one store to another as lines'
	@echo 'make shared                  build/libmmix.so, the same code as a shared library, for Python and others'
	@echo 'make host                    build and run examples/relay_host.c and grading.c, a program that grades relays'
	@echo 'make replay                  replay a fixed list of the Rust'\''s answers on the library'
	@echo 'make pop-watch               watch in which order the POP of the library writes registers'
	@echo 'make counts                  count what the functions cost in processor instructions, and compare it with the list'
	@echo 'make programs                run compiled programs (PROGRAMS=folder) by grants, and compare answers and counts'
	@echo 'make install PREFIX=dir      libmmix.a, its headers and mmix.pc under dir (/usr/local)'
	@echo 'make prove                   prove every crate, from what is proved already'
	@echo 'make differential CASES=n    run n cases on the Rust and beside it; SEED=s for others'
	@echo 'make guards                  the same with every buffer between guards, and under valgrind'
	@echo 'make mutants                 put single faults into a copy of the Rust: each must be found'
	@echo 'make replay-list             write the list of answers that `make replay` replays anew, by running the Rust'
	@echo 'make definitions DEFINED=n   have the prover compute the definitions on n answers of the Rust'
	@echo 'make constants               change each constant of the definitions in turn: something must refuse it'
	@echo 'make speed                   time the library and the Rust side by side'
	@echo 'make clean                   remove all that was built'

need-rt:
	@command -v rt >/dev/null 2>&1 || { \
	  echo 'rt is not on the PATH: install the Rattle toolchain and put its bin folder on the PATH' >&2; exit 1; }
	@[ "$$(rt version 2>/dev/null)" = '$(KIT)' ] || echo "warning: proved with '$(KIT)'; this is '$$(rt version 2>/dev/null)'" >&2

need-gcc:
	@command -v gcc >/dev/null 2>&1 || { echo 'gcc is not on the PATH: install the package gcc' >&2; exit 1; }

# The gate: `rt ci`, then the target `checked`. What it proved is kept, so that proofs and edits that nothing has changed for are not repeated.
test:
	@.ci/run

# All that is no proof: the pages, then what runs on what was built.
checked: need-rt need-gcc
	@docs/check_traceability
	@$(MAKE) --no-print-directory constants-keys
	@docs/check_theorems
	@$(MAKE) --no-print-directory quotes
	@docs/check_contracts
	@docs/check_progress
	@docs/check_stack
	@$(MAKE) --no-print-directory host-test replay pop-watch counts programs scripts-test points-test oracle-test differential

# Only the papers are quoted. Without them, or python3, it says so, and fails only where CI is true.
quotes:
	@if ! command -v python3 >/dev/null 2>&1; then echo 'no check of the quotations: python3 is not on the PATH; install the package python3'; [ "$${CI:-}" != true ]; \
	  elif ! [ -f '$(PAPERS)/01-scope.md' ]; then echo 'no check of the quotations: set PAPERS to the folder that has the papers'; [ "$${CI:-}" != true ]; \
	  else docs/check_quotes '$(PAPERS)'; fi

prove: need-rt
	@rt all check

# ---- the two programs: each as it is proved, run by a few lines of shell that ask for the stack first

CRATE_bench = bench
CRATE_points = point_lines_program
build/bench build/points: build/%: $(RATTLE) examples/scripts/bench
	@mkdir -p build
	@set -o pipefail; (cd crates/$(CRATE_$*) && rt run < /dev/null) 2>&1 | tee build/$*.log | $(TOLD) | docs/progress $(CRATE_$*) | $(SHOWN) || { cat build/$*.log; exit 1; }
	@cp crates/$(CRATE_$*)/out/$(CRATE_$*) $@-proved
	@cp examples/scripts/bench $@

# As `rt ci` has just built them.
programs-taken:
	@cp crates/$(CRATE_bench)/out/$(CRATE_bench) build/bench-proved && cp examples/scripts/bench build/bench
	@cp crates/$(CRATE_points)/out/$(CRATE_points) build/points-proved && cp examples/scripts/bench build/points

bench: need-rt need-script build/bench
	@build/bench < '$(SCRIPT)'

need-script:
	@[ -r '$(SCRIPT)' ] || { echo "no script at '$(SCRIPT)': make bench SCRIPT=path" >&2; exit 1; }

# Each script prints what stands beside it, and a failure is told. `make bench` fails where it should.
scripts-test: need-rt build/bench
	@examples/scripts/test build/bench
	@if $(MAKE) --no-print-directory bench SCRIPT=no.script > build/told 2>&1; [ $$? = 0 ] || ! grep -q "no script at 'no.script'" build/told; then \
	  echo 'make bench: a path that is not there is not told'; exit 1; fi
	@if $(MAKE) --no-print-directory bench > /dev/full 2> build/told; then echo 'make bench: a write that fails passes'; exit 1; fi

points: need-rt need-points build/points
	@build/points < '$(FILE)'

need-points:
	@[ -r '$(FILE)' ] || { echo "no points at '$(FILE)': make points FILE=path" >&2; exit 1; }

# Points come out as they went in, bad lines are told, however the input is split; and a failure is told. The functions of mmix_points.h do the same.
points-test: need-rt need-gcc build/points build/store_lines build/take_points
	@examples/points/test build/points
	@examples/points/test_store build/points build/store_lines build/take_points
	@if $(MAKE) --no-print-directory points FILE=no.points > build/told 2>&1; [ $$? = 0 ] || ! grep -q "no points at 'no.points'" build/told; then \
	  echo 'make points: a path that is not there is not told'; exit 1; fi
	@if $(MAKE) --no-print-directory points > /dev/full 2> build/told; then echo 'make points: a write that fails passes'; exit 1; fi

# ---- the C library and a host

lib: build/libmmix.a $(HEADERS)

# The log is shown as it goes, crate by crate, each named before it begins, and whole where something is not proved. Only this rule needs rt: what is built can be
# installed without it.
build/libmmix.a: $(RATTLE)
	@$(MAKE) --no-print-directory need-rt
	@mkdir -p build
	@set -o pipefail; (cd crates/mmix_c && rt lib) 2>&1 | tee build/lib.log | $(TOLD) | docs/progress mmix_c | $(SHOWN) || { cat build/lib.log; exit 1; }
	@cp crates/mmix_c/out/libmmix_c.a $@

# The whole archive: no other object asks for its functions.
shared: need-gcc build/libmmix.so

build/libmmix.so: build/libmmix.a
	@gcc -shared -o $@ -Wl,--whole-archive $< -Wl,--no-whole-archive -Wl,-z,defs

build/%.h: include/%.h
	@mkdir -p build
	@cp $< $@

HOSTS = $(addprefix build/,relay_host grading run_program store_lines take_points header_test facts_test replay pop_watch counts)
LISTING = examples/grading/grading.mms

$(HOSTS): build/%: examples/%.c build/libmmix.a $(HEADERS)
	@gcc -O2 -std=c99 $(WARNINGS) -Ibuild -o $@ $(filter %.c,$^) build/libmmix.a

build/header_test: $(addprefix examples/header_,inline.c start.c text.c disassemble.c assemble.c points.c numbers.h test.h assemble.h) build/header_opcodes.h

build/header_opcodes.h: examples/header_opcodes crates/model/specs/Opcodes.antt crates/decode/src/opcode.rt include/mmix.h include/mmix_disassemble.h
	@mkdir -p build
	@$< > $@.new && mv $@.new $@

host: need-gcc build/relay_host build/grading
	@build/relay_host
	@build/grading $(LISTING)

# What the hosts print is the stored text; what README tells a host is so; the headers' names and inline functions are as they should be, and each header
# serves C99 and C++17 by itself; the shared library has the archive's functions, and Python prints on it what README's C program prints. Without python3 it
# says so, and fails only where CI is true.
host-test: need-gcc build/relay_host build/grading build/header_test build/facts_test build/libmmix.so
	@build/relay_host | diff examples/relay_host.out - && echo 'relay_host: prints what it should'
	@build/grading $(LISTING) | diff examples/grading.out - && echo 'grading: prints what it should'
	@examples/readme_first
	@examples/header_names $(HEADERS)
	@build/header_test $(LISTING)
	@build/facts_test README.md
	@for h in $(HEADERS); do gcc -std=c99 $(WARNINGS) -Ibuild -fsyntax-only -x c - < $$h || exit 1; done; echo 'the headers are C99'
	@if ! command -v g++ >/dev/null 2>&1; then echo 'no test of the headers as C++: g++ is not on the PATH; install the package g++'; \
	  else for h in $(HEADERS); do g++ -std=c++17 $(WARNINGS) -Ibuild -fsyntax-only -x c++ - < $$h || exit 1; done; echo 'the headers are C++17'; fi

	@diff <(nm -g --defined-only build/libmmix.a | awk '$$2 == "T" { print $$3 }' | sort) <(nm -D --defined-only build/libmmix.so | awk '$$2 == "T" { print $$3 }' | sort) \
	  && echo 'libmmix.so: it has the functions of libmmix.a'
	@if ! command -v python3 >/dev/null 2>&1; then echo 'no test of Python: python3 is not on the PATH; install the package python3'; [ "$${CI:-}" != true ]; \
	  else python3 examples/first.py build/libmmix.so > build/told && build/first | diff - build/told && echo 'first.py: prints what first.c prints'; fi

# A fixed list of the Rust's answers, with no Rust at hand.
replay: need-gcc build/replay
	@build/replay examples/replay/answers

# POP's order of work, write by write; first the watcher itself.
pop-watch: need-gcc build/pop_watch
	@build/pop_watch --self
	@build/pop_watch

# Processor instructions for each MMIX instruction: at most 5 % more than examples/counts.txt has.
counts: need-gcc build/counts
	@examples/counts build/counts

# Programs that a compiler made, each to its end. Without their images it says so, and fails only where CI is true.
programs: need-gcc build/run_program
	@if [ -f '$(PROGRAMS)/manifest.json' ]; then build/run_program '$(PROGRAMS)'; \
	  else echo 'no compiled programs: set PROGRAMS to the folder that has manifest.json and the images'; [ "$${CI:-}" != true ]; fi

install: lib
	@install -D -m 644 build/libmmix.a '$(DESTDIR)$(PREFIX)/lib/libmmix.a'
	@install -m 644 -D -t '$(DESTDIR)$(PREFIX)/include' $(HEADERS)
	@install -m 644 -D -t '$(DESTDIR)$(PREFIX)/share/doc/mmix' LICENSE NOTICE
	@mkdir -p '$(DESTDIR)$(PREFIX)/lib/pkgconfig'
	@sed 's|@PREFIX@|$(abspath $(PREFIX))|; s|@VERSION@|$(VERSION)|' include/mmix.pc.in > '$(DESTDIR)$(PREFIX)/lib/pkgconfig/mmix.pc'
	@echo 'libmmix.a, $(notdir $(HEADERS)), mmix.pc and the licence are under $(DESTDIR)$(PREFIX)'

# ---- the Rust beside it

# The harness needs cargo and the Rust that is ported; without them it says so, and fails only where CI is true. With
# libmmix.a at hand (make lib) it compares the library, else only its own model.
HARNESS = @if ! command -v cargo >/dev/null 2>&1; then echo 'no comparison with the Rust: cargo is not on the PATH; install the package cargo'; \
	elif ! [ -f '$(MMIX_RUST_SRC)/src/mmix.rs' ]; then echo 'no comparison with the Rust: set MMIX_RUST_SRC to a checkout of checksmix fd6a7bd314, the folder that has src/mmix.rs'; \
	else features=; if [ -f '$(MMIX_LIB_DIR)/libmmix.a' ]; then features='--features library,speed/library'; fi; \
	  cargo $(1) --quiet --release --offline $$features --manifest-path oracle/Cargo.toml; exit $$?; fi; \
	[ "$${CI:-}" != true ]

# What the harness built is run only where it could be built now.
RUN = @if command -v cargo >/dev/null 2>&1 && [ -f '$(MMIX_RUST_SRC)/src/mmix.rs' ]; then $(1); fi

oracle: need-rt lib
	$(call HARNESS,build)

# Bench points, figures of Knuth's texts, tests of the guards, POP's order of work.
oracle-test: oracle
	$(call HARNESS,test --test all)

differential: oracle
	$(call RUN,$(ORACLE)/differential --cases $(CASES) --seed $(SEED))

# No byte outside the buffers is touched: pages that can't be, then valgrind.
guards: oracle
	$(call RUN,$(ORACLE)/differential --cases $(CASES) --seed $(SEED) --guards pages)
	@if ! command -v valgrind >/dev/null 2>&1; then echo 'no run under valgrind: it is not on the PATH; install the package valgrind'; [ "$${CI:-}" != true ]; fi
	$(call RUN,if command -v valgrind >/dev/null 2>&1; then \
	  valgrind --error-exitcode=1 $(ORACLE)/differential --cases 20000 --seed $(SEED) --threads 1 --guards heap; fi)

# The list that is replayed: 3,000 answers of the Rust.
replay-list: oracle
	$(call RUN,$(ORACLE)/replay_list examples/replay/answers)

# The definitions of crate model, computed by the prover on answers of the Rust: replies, whole states, whole windows, needs. With
# WRONG=17 the reply of case 17 is written down wrong, and the check must end with an error at `case_17_agrees`.
definitions: need-rt
	$(call HARNESS,build)
	$(call RUN,log=$$PWD/build/definitions.log; at=$$(mktemp -d) && trap 'rm -rf "$$at"' EXIT && mkdir $$at/crates && cp -R crates/model $$at/crates/ && rm -rf $$at/crates/model/out \
	  && $(ORACLE)/definitions $$at $(DEFINED) $(SEED) $(if $(WRONG),--wrong $(WRONG)) && cd $$at/crates/definitions \
	  && rt check > $$log 2>&1 && grep '^logic=' $$log || { grep 'error\|^rt:\|^logic=' $$log; exit 1; })

# Each number, comparison and the like in the definitions, changed in turn (oracle/definitions/constants.txt has what refuses it).
constants: need-rt
	@oracle/definitions/constants

# Each of them has its row in that list. Without python3 it says so, and fails only where CI is true.
constants-keys:
	@if ! command -v python3 >/dev/null 2>&1; then echo 'no check of the list of constants: python3 is not on the PATH; install the package python3'; [ "$${CI:-}" != true ]; \
	  else oracle/definitions/constants --keys; fi

mutants: oracle
	$(call RUN,$(ORACLE)/mutants)

speed: oracle
	$(call RUN,$(ORACLE)/speed && $(ORACLE)/stack_use)

clean:
	@rm -rf build
