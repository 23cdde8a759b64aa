# README.md says what each of these is for.
PREFIX ?= /usr/local
override PREFIX := $(value PREFIX)
override DESTDIR := $(value DESTDIR)
export PREFIX DESTDIR
PROGRAMS := list within outline eccentricity
LIBRARY := target/staticlib/libfinder.a

.PHONY: demo test quick bench dispatch commands library programs install destination clean FORCE
.NOTPARALLEL:

# The main job on a shipped example: the yards of net N, a chain of five junctions, for crews at junctions 0 and 2.
demo:
	@tools/demo

# The gate.
test:
	@tests/gate

# For daily work: what has changed is proved, edits of the crates that differ from BASE (origin/main) are tried, and all
# other tests are made.
quick:
	@tests/gate quick

library: $(LIBRARY)

programs: $(PROGRAMS:%=target/bin/%)

# rt decides what has changed, and a file that is the same is left as it is.
$(PROGRAMS:%=target/bin/%) target/bin/examples: target/bin/%: FORCE
	@tools/prove $*

$(LIBRARY): FORCE
	@tools/prove finder_c
	@mkdir -p $(@D)
	@cmp -s crates/finder_c/out/libfinder_c.a $@ || cp crates/finder_c/out/libfinder_c.a $@

# What is made, into DESTDIR (for packages) and there into PREFIX, both as they were typed; tools/install says which it
# takes, before anything is proved.
install: destination library programs commands
	@tools/install $(PROGRAMS)

destination:
	@tools/install

# A person's own district, answered by the proved calls: compare/target/release/dispatch (docs/DISTRICT.md).
dispatch: library
	cd compare && cargo build --release --offline --quiet --package proved

# dispatch, and the plain finder's command, reference.
commands: dispatch
	cd compare && cargo build --release --offline --quiet --package compare

clean:
	rm -rf target compare/target crates/*/out

# The proved programs and calls beside the plain ones, on the same books; beside LEMON's Dijkstra in C++ too, where
# liblemon-dev is installed.
LEMON := $(shell echo '\#include <lemon/dijkstra.h>' | g++ -E -x c++ - > /dev/null 2>&1 && echo compare/target/peer)
bench: target/bin/eccentricity library $(LEMON)
	cd compare && cargo build --release --offline --quiet --workspace
	compare/target/release/bench target/bin/eccentricity $(LEMON)
	compare/target/release/calls $(LEMON)

compare/target/peer: compare/lemon/peer.cc
	mkdir -p compare/target
	g++ -std=c++17 -O3 -DNDEBUG -o $@ $<
