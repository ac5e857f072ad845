# make try        builds the program without proving it, runs the specification's session, compares and shows it
# make demo       proves the program and runs the specification's session, input and output side by side
# make test       the gate, .ci/run: every proof, every must-fail edit, the program, the C tests
# make fmt        lays the sources out
# make lib        build/liblayout.a with build/layout.h and build/layout.pc; make install PREFIX=/usr/local DESTDIR= puts them in place
# make examples   builds the example editor in C, runs it and compares what it prints
# make check-c    the C tests alone: examples, worked squares, CASES calls and SCRIPTS sessions against a naive implementation
# make fuzz N=1000000 SEED=1    more calls and sessions; the seed of a difference is printed
# make valgrind   some hundred calls and some sessions under valgrind
# make bench ROUNDS=5    times the library, and Magic and KLayout where they are installed, on the same layouts, best of so many rounds; COUNT=1 counts instructions too
#
# The archive and the program are built of proved crates alone: rt lib and rt run prove what they build, over the work that earlier checks kept.

.PHONY: try demo test fmt lib install examples check-c check-header check-session fuzz valgrind bench

PREFIX = /usr/local
VERSION = 1.0
CASES = 30000
SCRIPTS = 100
N = 1000000
SEED = 1
ROUNDS = 5
PROGRAM = crates/session/out/session
SESSION = $(PROGRAM)
STRICT = -std=c99 -Wall -Wextra -Wpedantic -Werror
CFLAGS = -O2 -g

NAIVE = build/naive_plane.o build/naive_rules.o build/naive_layout.o
LIBRARY = plane vet ask slots brush strips shared stitches tables paint rules macros edges waits piece sheet drawing remark sweep checker layout
sources = $(shell find $(1) -name out -prune -o \( -name '*.rt' -o -name '*.antt' \) -print)

SIDE_BY_SIDE = paste crates/session/stdin - | awk -F '\t' '{ printf "%-24s %s\n", $$1, $$2 }'

try:
	@mkdir -p build
	@cd crates/session && rt try < stdin > ../../build/try.out 2> ../../build/try.log || { cat ../../build/try.log; exit 1; }
	@cmp build/try.out crates/session/stdout
	@cat build/try.out | $(SIDE_BY_SIDE)

demo: $(PROGRAM)
	@bin/session < crates/session/stdin | $(SIDE_BY_SIDE)

test:
	@.ci/run

# rt ci leaves the program there too, as LLVM built it.
$(PROGRAM): $(call sources,crates) crates.txt
	@mkdir -p build
	@cd crates/session && rt run < /dev/null > ../../build/run.log 2>&1 || { cat ../../build/run.log; exit 1; }
	@touch $@

fmt:
	@for crate in crates/*/; do (cd "$$crate" && rt fmt) || exit 1; done

lib: build/liblayout.a build/layout.h build/layout.pc

build/liblayout.a: $(call sources,$(addprefix crates/,$(LIBRARY))) crates.txt
	@mkdir -p build
	@cd crates/layout && rt lib > ../../build/lib.log 2>&1 || { cat ../../build/lib.log; exit 1; }
	@cp crates/layout/out/liblayout.a $@

build/layout.h: include/layout.h
	@mkdir -p build
	@cp include/layout.h $@

build/layout.pc: layout.pc.in Makefile
	@mkdir -p build
	@sed 's,@PREFIX@,$(PREFIX),; s,@VERSION@,$(VERSION),' layout.pc.in > $@

install: lib
	@install -d $(DESTDIR)$(PREFIX)/lib/pkgconfig $(DESTDIR)$(PREFIX)/include
	@install -m 644 build/liblayout.a $(DESTDIR)$(PREFIX)/lib/liblayout.a
	@install -m 644 include/layout.h $(DESTDIR)$(PREFIX)/include/layout.h
	@sed 's,@PREFIX@,$(PREFIX),; s,@VERSION@,$(VERSION),' layout.pc.in > $(DESTDIR)$(PREFIX)/lib/pkgconfig/layout.pc
	@chmod 644 $(DESTDIR)$(PREFIX)/lib/pkgconfig/layout.pc

build/%.o: tests/%.c tests/naive.h tests/random.h tests/lent.h tests/cases.h include/layout.h
	@mkdir -p build
	@$(CC) $(STRICT) $(CFLAGS) -Iinclude -c $< -o $@

build/editor: examples/editor.c include/layout.h build/liblayout.a
	@$(CC) $(STRICT) $(CFLAGS) -Iinclude $< build/liblayout.a -o $@

build/worked: build/worked.o build/liblayout.a
	@$(CC) $< build/liblayout.a -o $@

COMPARE = build/compare.o build/cases.o build/damage.o build/lent.o $(NAIVE)

build/compare: $(COMPARE) build/liblayout.a
	@$(CC) $(COMPARE) build/liblayout.a -o $@

build/naive_session: build/naive_session.o $(NAIVE)
	@$(CC) $^ -o $@

build/scripts: build/scripts.o
	@$(CC) $^ -o $@

examples: build/editor
	@build/editor > build/editor.out
	@diff examples/editor.expected build/editor.out
	@echo "editor: printed what is expected"

check-header:
	@printf '#include "layout.h"\nint main(void) { return 0; }\n' > build/header.c
	@$(CC) $(STRICT) -Iinclude build/header.c -o build/header
	@if command -v $(CXX) > /dev/null; then $(CXX) -x c++ -std=c++98 -Wall -Wextra -Wpedantic -Werror -Iinclude build/header.c -o build/header; \
	else echo "header: no C++ compiler, not tried in C++"; fi
	@echo "header: C99 and C++ without warnings"

check-session: $(SESSION) build/naive_session build/scripts
	@tests/session.sh $(SESSION) build $(SCRIPTS) $(SEED)

check-c: lib examples build/worked build/compare check-session
	@$(MAKE) --no-print-directory -s check-header
	@build/worked
	@build/compare $(SEED) $(CASES)

fuzz: lib build/compare $(SESSION) build/naive_session build/scripts
	build/compare $(SEED) $(N)
	@tests/session.sh $(SESSION) build $$(($(N) / 200)) $(SEED)

valgrind: build/compare $(SESSION) build/scripts
	@if ! command -v valgrind > /dev/null; then echo "valgrind: not installed (Debian package valgrind), skipped"; else \
	valgrind -q --error-exitcode=1 build/compare $(SEED) 600 small > build/valgrind.out || { cat build/valgrind.out; exit 1; }; \
	for i in 1 2 3 4 5; do build/scripts $$i | valgrind -q --error-exitcode=1 $(SESSION) > /dev/null || exit 1; done; \
	echo "valgrind: 600 calls and 5 sessions, nothing found"; fi

bench: lib
	@bench/run build/liblayout.a $(ROUNDS)
