# make           proves and builds the library, and builds the tool over it
# make demo      replays examples/demo.map and draws build/demo.svg
# make test      the header, the tool and its examples; then all of tests/run
# make capacity  prints the tables of docs/CAPACITY.md
# make valgrind  the tool over all examples, under valgrind
# make examples  writes what the examples are expected to give anew: read the difference
# make bench     times every call on the maps of bench/maps, beside a twin in C and the naive way
# make bench-windows  times windows beside the scan alone and walks of the tree
# make bench-instructions  counts instructions with callgrind, where the machine is noisy
# make bench-arm  counts the twin's products on 32-bit Arm, its turns in 32 and in 64 bits, where gcc-arm-linux-gnueabi is installed
# make bench-others  sets the library beside GEOS and Boost, where libgeos-dev and libboost-dev are installed
# make performance  writes docs/PERFORMANCE.md and its picture anew from both
# make bench-maps   writes the made maps of bench/maps anew
# make stack     how much stack each call needs
# make install   header, library, pkg-config file, tool and man page; DESTDIR=.. PREFIX=..
# make clean     removes build/ (the library stays in target/, what is proved in crates/*/out)
#
# LIB=FILE links another library with the same calls, as for trials.

PREFIX = /usr/local
LIB = target/staticlib/libhost.a

# The library is for x86-64: on another processor programs are compiled for that too, and run under an emulator.
ifneq ($(shell uname -m),x86_64)
CC := $(if $(filter default,$(origin CC)),$(CURDIR)/tests/x86-64/cc,$(CC))
CXX := $(if $(filter default,$(origin CXX)),$(CURDIR)/tests/x86-64/c++,$(CXX))
endif

CFLAGS = -O2 -g
WARNINGS = -Wall -Wextra -Wpedantic -Wshadow -Wconversion
BUILD_C = $(CC) -std=c99 $(WARNINGS) $(CFLAGS) -Iinclude

VERSION = $(shell sed -n 's/^.define BOUNDARY_MAP_VERSION "\(.*\)"/\1/p' include/boundary_map.h)
TOOL = tools/boundary-map.c tools/picture.c tools/replay.c tools/script.c tools/tables.c
HEADERS = include/boundary_map.h tools/picture.h tools/replay.h tools/script.h tools/tables.h
EXAMPLES = $(wildcard examples/*.map)

all: build/boundary-map

# The library is made by the prover, of the exports in crates/host_c; whatever it is proved from makes it anew. What the prover keeps
# in its folders out/ has copies of sources, which are no sources. The code is for every x86-64 processor.
target/staticlib/libhost.a: crates.txt $(shell find crates -name out -prune -o \( -name '*.rt' -o -name '*.antt' \) -print)
	cd crates/host_c && rt lib --cpu=x86-64
	@mkdir -p $(@D)
	cp crates/host_c/out/libhost_c.a $@

build/boundary-map: $(TOOL) $(HEADERS) $(LIB)
	@mkdir -p build
	$(BUILD_C) $(TOOL) $(LIB) $(LDFLAGS) -lm -o $@

build/capacity: tools/capacity.c tools/tables.c $(HEADERS) $(LIB)
	@mkdir -p build
	$(BUILD_C) tools/capacity.c tools/tables.c $(LIB) $(LDFLAGS) -o $@

demo: build/boundary-map
	@build/boundary-map --svg build/demo.svg examples/demo.map > build/demo.out
	@tail -n 4 build/demo.out
	@echo
	@echo 'each answer: build/demo.out; the map drawn: build/demo.svg'

capacity: build/capacity
	@build/capacity

check: build/boundary-map
	@CC='$(CC)' CXX='$(CXX)' LIB='$(abspath $(LIB))' tests/tool/run

test: check
	@CC='$(CC)' LIB='$(abspath $(LIB))' tests/run

valgrind: build/boundary-map
	@CC='$(CC)' CXX='$(CXX)' LIB='$(abspath $(LIB))' tests/tool/run valgrind

# Measuring: never part of a test.
BENCH_MAPS = $(patsubst %,bench/maps/%.txt,fields10 fields100 fields300 fields1000 slivers furrows fences fans \
  ditches hub250 hub500 hub1000)
BENCH_HEADERS = bench/calls.h bench/mapfile.h bench/plane.h bench/points.h bench/timing.h bench/tree.h bench/ways.h bench/window.h \
  include/boundary_map.h

build/bench/bench: $(patsubst %,bench/%.c,bench mapfile twin naive points window) $(BENCH_HEADERS) $(LIB)
	@mkdir -p build/bench
	$(BUILD_C) $(filter %.c,$^) $(LIB) $(LDFLAGS) -o $@

build/bench/count: $(patsubst %,bench/%.c,count mapfile twin points window) $(BENCH_HEADERS) $(LIB)
	@mkdir -p build/bench
	$(BUILD_C) $(filter %.c,$^) $(LIB) $(LDFLAGS) -o $@

build/bench/windows: bench/windows.c bench/mapfile.c bench/twin.c bench/window.c $(BENCH_HEADERS) $(LIB)
	@mkdir -p build/bench
	$(BUILD_C) $(filter %.c,$^) $(LIB) $(LDFLAGS) -o $@

build/bench/make-maps: bench/make-maps.c bench/mapfile.c $(BENCH_HEADERS) $(LIB)
	@mkdir -p build/bench
	$(BUILD_C) $(filter %.c,$^) $(LIB) $(LDFLAGS) -o $@

build/bench/stack: bench/stack.c tests/deepest_fan.h include/boundary_map.h $(LIB)
	@mkdir -p build/bench
	$(CC) -std=c11 $(CFLAGS) -Iinclude bench/stack.c $(LIB) $(LDFLAGS) -pthread -o $@

bench: build/bench/bench
	@build/bench/bench $(BENCH_MAPS)

bench-windows: build/bench/windows
	@build/bench/windows $(BENCH_MAPS)

bench-instructions: build/bench/count
	@bench/instructions.sh

bench-arm:
	@bench/arm.sh

# GEOS and Boost are looked for when they are asked for, and only then.
OTHERS = $(patsubst %,bench/%.cpp,others others-boost others-geos others-polygons)
lacks = $(shell $(CXX) -E -x c++ -include $(1) /dev/null > /dev/null 2>&1 || echo $(2))
ifneq ($(filter bench-others,$(MAKECMDGOALS)),)
OTHERS_LACK := $(strip $(call lacks,geos_c.h,libgeos-dev) $(call lacks,boost/geometry/index/rtree.hpp,libboost-dev))
endif

build/bench/mapfile.o: bench/mapfile.c bench/mapfile.h include/boundary_map.h
	@mkdir -p build/bench
	$(BUILD_C) -c bench/mapfile.c -o $@

build/bench/others: $(OTHERS) bench/others.h bench/others-geos.h build/bench/mapfile.o $(BENCH_HEADERS) $(LIB)
	@mkdir -p build/bench
	$(CXX) -std=c++17 -Wall -Wextra $(CFLAGS) -Iinclude $(OTHERS) build/bench/mapfile.o $(LIB) $(LDFLAGS) -lgeos_c -o $@

ifeq ($(OTHERS_LACK),)
bench-others: build/bench/others
	@build/bench/others $(BENCH_MAPS)
else
bench-others:
	@echo 'bench-others: install first: $(OTHERS_LACK)'
endif

bench-maps: build/bench/make-maps
	@build/bench/make-maps bench/maps

performance: build/bench/bench build/bench/count
	@python3 bench/performance.py

stack: build/bench/stack
	@build/bench/stack

examples: build/boundary-map
	@for e in $(EXAMPLES:.map=); do build/boundary-map --svg $$e.svg $$e.map > $$e.out || exit 1; done

install: build/boundary-map
	install -d '$(DESTDIR)$(PREFIX)/include' '$(DESTDIR)$(PREFIX)/lib/pkgconfig' \
	  '$(DESTDIR)$(PREFIX)/bin' '$(DESTDIR)$(PREFIX)/share/man/man1'
	install -m 644 include/boundary_map.h '$(DESTDIR)$(PREFIX)/include'
	install -m 644 $(LIB) '$(DESTDIR)$(PREFIX)/lib/libboundary_map.a'
	sed -e 's|@PREFIX@|$(PREFIX)|; s|@VERSION@|$(VERSION)|' include/boundary_map.pc.in > build/boundary_map.pc
	install -m 644 build/boundary_map.pc '$(DESTDIR)$(PREFIX)/lib/pkgconfig'
	install -m 755 build/boundary-map '$(DESTDIR)$(PREFIX)/bin'
	install -m 644 docs/man/boundary-map.1 '$(DESTDIR)$(PREFIX)/share/man/man1'

clean:
	rm -rf build

.PHONY: all demo capacity check test valgrind bench bench-windows bench-instructions bench-arm bench-others bench-maps performance stack examples install clean
