# The program, the library as C and Rust programs link it, and its tests. Everything that is built goes to build/.
#
#   make show                   proves and builds the program, and shows the sample recording by it
#   make program                proves and builds the program: build/ulmarzhe
#   make lib                    proves the library and writes build/libulm.a and build/ulm.h
#   make install PREFIX=DIR     puts program, manual, archive, header and a pkg-config file under DIR
#   make check                  the tests in C and Rust, against ARCHIVE, and those of the program
#   make fuzz SECONDS=60 SEED=7 the differential test for as long as asked
#   make memcheck               the differential test under valgrind
#   make bench                  libulm beside plain C and the listing beside cat, as the tables of docs/SPEED.md
#   make bench BEFORE=FILE      the same with an older libulm.a beside them
#   make day                    the tasks of the benchmark's day on the whole of it, and build/record, which writes it
#   make cases CASES=FILE       a file of cases against both sides
#   make test                   the whole gate

CC = gcc
ARCHIVE = build/libulm.a
PROGRAM = build/ulmarzhe
PREFIX = /usr/local
VERSION = 0.1.0
SECONDS = 60
SEED = $(shell date +%s)
ROUNDS = 400

FLAGS = -std=c11 -Wall -Wextra -Werror -pedantic -Iinclude -Itests
# No other library than C's own is linked.
LINK = -nodefaultlibs -lc

.PHONY: show program test lib install check fuzz memcheck bench day cases clean

show: program
	$(PROGRAM) radials examples/sample.rec
	$(PROGRAM) picture examples/sample.rec REF > build/sample.pgm
	@echo 'build/sample.pgm is the picture of REF'

# `rt run` proves and builds the program and then runs it: here it is asked for its help.
program:
	mkdir -p build/obj
	cd crates/ulmarzhe && rt run -- help >/dev/null 2>../../build/obj/said || { cat ../../build/obj/said; exit 1; }
	install -m 755 crates/ulmarzhe/out/ulmarzhe $(PROGRAM)

test:
	bash .ci/run

lib:
	cd crates/ulm_c && rt lib
	mkdir -p build
	cp crates/ulm_c/out/libulm_c.a build/libulm.a
	cp include/ulm.h build/ulm.h

install: $(ARCHIVE) $(PROGRAM)
	install -d '$(DESTDIR)$(PREFIX)/lib/pkgconfig' '$(DESTDIR)$(PREFIX)/include' '$(DESTDIR)$(PREFIX)/bin' \
	    '$(DESTDIR)$(PREFIX)/share/man/man1'
	install -m 755 $(PROGRAM) '$(DESTDIR)$(PREFIX)/bin/ulmarzhe'
	install -m 644 program/ulmarzhe.1 '$(DESTDIR)$(PREFIX)/share/man/man1/ulmarzhe.1'
	install -m 644 $(ARCHIVE) '$(DESTDIR)$(PREFIX)/lib/libulm.a'
	install -m 644 include/ulm.h '$(DESTDIR)$(PREFIX)/include/ulm.h'
	sed -e 's|@PREFIX@|$(PREFIX)|' -e 's|@VERSION@|$(VERSION)|' include/ulm.pc.in \
	    > '$(DESTDIR)$(PREFIX)/lib/pkgconfig/ulm.pc'

check: $(PROGRAM)
	ARCHIVE=$(ARCHIVE) tests/run
	tests/program $(PROGRAM)

fuzz: build/differential
	build/differential seconds $(SECONDS) seed $(SEED) answers

# Each slice is a heap block of its own, so valgrind sees a touch of the first byte beside it.
memcheck: build/differential
	valgrind -q --error-exitcode=1 --leak-check=full build/differential inputs 50000 heap
	valgrind -q --error-exitcode=1 --leak-check=full build/differential inputs 50000

bench: build/bench $(PROGRAM)
	ROUNDS=$(ROUNDS) bench/run
	bench/listing $(PROGRAM)

day: build/bench build/record
	build/bench day

cases: build/cases-plain build/cases-ulm
	build/cases-plain '$(CASES)' same
	build/cases-ulm '$(CASES)' same

clean:
	rm -rf build

$(ARCHIVE):
	@echo 'make: $@ is not there: run make lib first' >&2; exit 1

$(PROGRAM):
	@echo 'make: $@ is not there: run make program first' >&2; exit 1

# ---- What is built

HEADERS = $(wildcard include/*.h tests/*.h bench/*.h)
LINKED = $(filter %.c %.o %.a, $^)

# Which archives were linked: what is linked is linked anew where ARCHIVE or BEFORE names another one.
build/obj/archive: FORCE
	@mkdir -p $(@D)
	@echo '$(abspath $(ARCHIVE) $(BEFORE))' | cmp -s - $@ || echo '$(abspath $(ARCHIVE) $(BEFORE))' > $@
FORCE:

build/obj/%.o: tests/%.c $(HEADERS)
	@mkdir -p $(@D)
	$(CC) $(FLAGS) -O2 -c $< -o $@

# The yardstick: as fast as the compiler makes it, each float operation rounded by itself.
build/obj/plain.o: tests/plain.c $(HEADERS)
	@mkdir -p $(@D)
	$(CC) $(FLAGS) -O3 -ffp-contract=off -c $< -o $@

build/layout: build/obj/layout.o build/obj/make.o $(ARCHIVE) build/obj/archive
	$(CC) $(LINKED) $(LINK) -o $@

build/relay: build/obj/relay.o build/obj/make.o $(ARCHIVE) build/obj/archive
	$(CC) $(LINKED) $(LINK) -o $@

build/differential: $(addprefix build/obj/, differential.o compare.o bytewise.o kilometres.o lend.o make.o plain.o) \
                    $(ARCHIVE) build/obj/archive
	$(CC) $(LINKED) $(LINK) -o $@

build/loader: examples/loader.c include/ulm.h $(ARCHIVE) build/obj/archive
	$(CC) $(FLAGS) -O2 $(LINKED) $(LINK) -o $@

build/cases-%: tests/cases.c build/obj/plain.o $(ARCHIVE) build/obj/archive $(HEADERS)
	$(CC) $(FLAGS) -O2 -DSIDE=$* $(LINKED) $(LINK) -o $@

build/obj/batch-%.o: bench/batch.c $(HEADERS)
	@mkdir -p $(@D)
	$(CC) $(FLAGS) -Ibench -O3 -DSIDE=$* -c $< -o $@

# An older archive (BEFORE) and the tasks done by it, with `before_` for `ulm_` in every name.
build/obj/renamed: build/obj/batch-ulm.o $(BEFORE) build/obj/archive
	nm build/obj/batch-ulm.o $(BEFORE) | awk '$$NF ~ /^ulm_/ { print $$NF, "before" substr($$NF, 4) }' | sort -u > $@

build/obj/batch-before.o: build/obj/batch-ulm.o build/obj/renamed
	objcopy --redefine-syms=build/obj/renamed $< $@

build/obj/before.a: $(BEFORE) build/obj/renamed
	objcopy --redefine-syms=build/obj/renamed $< $@

OLDER = $(if $(BEFORE), $(addprefix build/obj/, batch-before.o before.a))
build/bench: bench/bench.c bench/sweep.c bench/day.c $(addprefix build/obj/, batch-plain.o batch-ulm.o make.o plain.o) \
             $(OLDER) $(ARCHIVE) build/obj/archive $(HEADERS)
	$(CC) $(FLAGS) $(if $(BEFORE), -DBEFORE) -Ibench -O3 $(LINKED) $(LINK) -o $@

build/record: bench/record.c bench/day.c build/obj/make.o $(HEADERS)
	$(CC) $(FLAGS) -Ibench -O2 $(LINKED) $(LINK) -o $@
