# Harpjuniper: the library's archive, the host programs, and the gate.
#
#   make test      everything; its last line is that of `rt ci`
#   make archive   build/TARGET/libharpjuniper.a, made anew of crates/; archives: all three
#   make release   dist/, the archives and the header that the tree holds, made anew
#   make replay    build/replay, which answers a trace by the library
#   make plain     build/plain, which answers it by the independent C program
#   make compare   the two of them on a generated trace; compare-all: for every target
#   make rehearsal scenarios/biocide.txt, flown on relays that are linked in memory
#   make silent-leg build/silent-leg, which finds the leg at which silence begins
#   make bench     instructions per call and stack, of the two of them
#   make install   the library, its manual and replay; PREFIX says where (/usr/local),
#                  DESTDIR what stands before it
#   make uninstall removes what install put there
#   make soak      5,000,000 random calls, each looked at from outside
#   make flood     datagrams flooded on large random nets of relays
#   make coverage-plain   what of host/plain the generated trace reaches
#   make costs     puts what the last `make test` cost into docs/COSTS.md
#   make clean     removes build/
#
# TARGET=x86-64, aarch64 or riscv64 says whose code an archive is and a program that
# links it, and such a program stands in build/TARGET. Where it is not said, `make
# archive` makes that for x86-64, the toolchain's own target; a program is for this
# machine, and stands in build/. A program NAME for a machine that this is not is
# linked as NAME.TARGET, and NAME is scripts/emulated, which runs it.
#
# Programs are linked with the release in dist/, which needs no rt. With FROM=build
# they are linked with what `make archive` makes of crates/, as the tests are.

STRICT := -Wall -Wextra -Wpedantic -Werror
CFLAGS := -std=c99 -O2 $(STRICT)
VERSION := $(shell cat VERSION)

TARGETS := x86-64 aarch64 riscv64
ifneq ($(TARGET),$(filter $(TARGETS),$(firstword $(TARGET))))
$(error there is no target "$(TARGET)": TARGET is x86-64, aarch64 or riscv64)
endif

# This machine's own target. A machine that is none of them runs x86-64 code, emulated.
THIS := $(subst x86_64,x86-64,$(shell uname -m))
OWN := $(or $(filter $(TARGETS),$(THIS)),x86-64)
# That of the programs, and where they stand.
FOR := $(or $(TARGET),$(OWN))
OUT := build$(TARGET:%=/%)

archive_of = build/$(1)/libharpjuniper.a
ARCHIVES := $(foreach target,$(TARGETS),$(call archive_of,$(target)))

FROM := dist
ifeq ($(FROM),dist)
LIBRARY := dist/$(FOR)/libharpjuniper.a
INCLUDE := dist/include
else ifeq ($(FROM),build)
LIBRARY := $(call archive_of,$(FOR))
INCLUDE := include
else
$(error FROM is dist or build, and not "$(FROM)")
endif

# Each program has a folder below host/, and takes from host/shared what is named here.
program = $(wildcard host/$(1)/*.c) $(patsubst %,host/shared/%.c,options $(2))
REPLAY := $(call program,replay,calls library text trace)
GENERATE := $(call program,generate,calls datagram echoes floods form message settings text world)
COVERAGE := $(call program,coverage,answered arriving calls form items settings trace)
LEDGER := $(call program,ledger,answered arriving calls items trace)
BENCH := $(call program,bench,arriving calls library plainly trace)
SCENARIO := $(wildcard host/scenario/*.c)
REHEARSAL := $(call program,rehearsal) $(SCENARIO)
SILENT_LEG := $(call program,silent-leg) $(SCENARIO)
FLOOD := $(call program,flood,settings)
SOAK := $(call program,soak,calls datagram echoes floods form library message plainly settings world)
PLAIN := $(wildcard host/plain/plain_*.c)
HEADERS := $(wildcard $(INCLUDE)/*.h host/*/*.h host/*/*.def tests/*.h)

# `make test` goes through its parts in this order, whatever -j says.
.NOTPARALLEL:
.DELETE_ON_ERROR:
.PHONY: test archive archives release replay plain rehearsal silent-leg compare compare-all bench \
	soak flood coverage-plain costs clean prepare tools exports released header readme \
	call-tests host-tests promises install uninstall always

# What can be said without a proof comes first. The gate then proves everything, makes
# the archive of what was proved and runs the tests below on it (scripts/gate).
test: prepare header promises
	@scripts/gate

archive: $(call archive_of,$(or $(TARGET),x86-64))
archives: $(ARCHIVES)
replay: $(OUT)/replay
plain: build/plain
silent-leg: $(OUT)/silent-leg

rehearsal: $(OUT)/rehearsal
	@$(OUT)/rehearsal scenarios/biocide.txt

# What `make test` needs, and what the host programs need, which is no rt.
prepare:
	@scripts/prepare

tools:
	@scripts/prepare hosts $(FOR)

# ---- The archive

# The crate that exports to C. Its static library is one object, that shows no other name.
ARCHIVED := harpjuniper_c
KITS_AR = "$(dir $(shell rt doc))toolchain/bin/llvm-ar"

# The archive has no dates and no owners, so that it is the same to the octet wherever
# it is made; by the kit's ar, which knows the objects of every target.
define put_together
	rm -f $(call archive_of,$(1))
	$(KITS_AR) rcsD $(call archive_of,$(1)) build/$(1)/objects/$(ARCHIVED).o
endef

# rt compiles for x86-64 alone. Here that is done with a toolchain of our own, whose clang
# does the same and keeps the module (scripts/toolchain), for the other targets.
# The folders are named too, since a file that is gone changes its folder only.
# PROVED=proved says that `rt ci` has just passed, so that no library is proved twice.
PROVED :=
$(call archive_of,x86-64) build/modules/kept &: crates.txt \
		$(shell find crates -name out -prune -o -print 2>/dev/null) \
		scripts/libraries scripts/compile scripts/kit.py scripts/toolchain scripts/keeping-clang | prepare
	rm -rf build/x86-64/objects build/modules
	mkdir -p build/x86-64/objects build/modules
	scripts/libraries $(PROVED) $(ARCHIVED)
	scripts/in-memory scripts/compile $(ARCHIVED) build/x86-64/objects/$(ARCHIVED).a build/modules/$(ARCHIVED)
	cd build/x86-64/objects && ar x $(ARCHIVED).a && rm $(ARCHIVED).a
	$(call put_together,x86-64)
	cp build/x86-64/libharpjuniper.a build
	touch build/modules/kept

# The same module, compiled for another target.
$(call archive_of,aarch64) $(call archive_of,riscv64): build/%/libharpjuniper.a: \
		build/modules/kept scripts/lower scripts/bitcode.py include/harpjuniper.h
	@mkdir -p $(@D)/objects
	scripts/lower $* build/modules/$(ARCHIVED) $(@D)/objects/$(ARCHIVED).o
	$(call put_together,$*)

release: $(ARCHIVES)
	scripts/release renew

# ---- Programs that link the archive

ifeq ($(FOR),$(THIS))
compiler := gcc
code :=
emulate =
else
compiler := $(subst x86-64,x86_64,$(FOR))-linux-gnu-gcc
code := .$(FOR)
emulate = @cp scripts/emulated $@
endif

$(OUT)/replay: $(REPLAY)
$(OUT)/rehearsal: $(REHEARSAL)
$(OUT)/silent-leg: $(SILENT_LEG)
$(OUT)/calls: tests/calls.c
$(OUT)/relay_calls: tests/relay_calls.c
$(OUT)/leg_calls: tests/leg_calls.c
$(OUT)/flood_calls: tests/flood_calls.c
$(OUT)/echo_calls: tests/echo_calls.c
$(OUT)/batch_calls: tests/batch_calls.c
$(OUT)/passing_calls: tests/passing_calls.c
$(OUT)/bench: $(BENCH) $(PLAIN)
$(OUT)/flight_loop: examples/flight_loop.c
$(OUT)/flight_batch: examples/flight_batch.c
$(OUT)/settings_batch: examples/settings_batch.c
$(OUT)/soak: $(SOAK) $(PLAIN)
$(OUT)/flood: $(FLOOD)
$(OUT)/readme: build/readme.c

# The rehearsal, the flood and silent-leg on wrong relays, which they have to find out;
# WRONG_RELAY says which. The soak and replay with faults put between them and the library,
# which they have to find.
$(OUT)/rehearsal_wrong: $(REHEARSAL) tests/wrong_relay.c
$(OUT)/flood_wrong: $(FLOOD) tests/wrong_relay.c
$(OUT)/silent-leg_wrong: $(SILENT_LEG) tests/wrong_relay.c
$(OUT)/soak_faulty: $(SOAK) $(PLAIN) tests/soak_faults.c
$(OUT)/replay_faulty: $(REPLAY) tests/soak_faults.c
$(OUT)/rehearsal_wrong $(OUT)/flood_wrong $(OUT)/silent-leg_wrong: wrapped := take receive_at \
	sweep counter echo set_echo_drop
$(OUT)/soak_faulty $(OUT)/replay_faulty: wrapped := class take counter waiting search set_port receive_at \
	receive_many sweep set_lifetime get_lifetime last_second pair_word echo read_echo_words \
	build_request build_reply set_echo_drop get_echo_drop

LINKED := $(addprefix $(OUT)/,replay rehearsal silent-leg rehearsal_wrong silent-leg_wrong \
	calls relay_calls leg_calls flood_calls echo_calls batch_calls passing_calls bench flight_loop flight_batch \
	settings_batch soak soak_faulty replay_faulty flood flood_wrong readme)
$(LINKED): $(LIBRARY) $(HEADERS) scripts/emulated $(OUT)/from | tools
	$(compiler) $(CFLAGS) -I$(INCLUDE) -Ihost -static -o $@$(code) $(wrapped:%=-Wl,--wrap=hj_%) \
	    $(filter %.c,$^) $(LIBRARY)
	$(emulate)

# What the programs were linked with: they are linked anew where it is another.
$(OUT)/from: always
	@mkdir -p $(@D)
	@echo $(FROM) | cmp -s - $@ || echo $(FROM) > $@

build/readme.c: README.md scripts/readme-program | tools
	@mkdir -p build
	scripts/readme-program $@ build/readme.expected

# ---- Programs for this machine

plain_version := -DPLAIN_VERSION='"$(VERSION)"'

# The plain implementation, compiled once for build/plain and its tests.
PLAIN_OBJECTS := $(PLAIN:host/plain/%.c=build/plain-objects/%.o)
$(PLAIN_OBJECTS): build/plain-objects/%.o: host/plain/%.c $(HEADERS) | tools
	@mkdir -p $(@D)
	gcc $(CFLAGS) -c -o $@ $<

build/plain: host/plain/plain.c $(PLAIN_OBJECTS) $(HEADERS) VERSION | tools
	gcc $(CFLAGS) $(plain_version) -o $@ host/plain/plain.c $(PLAIN_OBJECTS)

build/test_%: host/plain/test_%.c $(PLAIN_OBJECTS) $(HEADERS) | tools
	gcc $(CFLAGS) -o $@ $< $(PLAIN_OBJECTS)

build/generate: $(GENERATE)
build/coverage: $(COVERAGE)
build/ledger: $(LEDGER)
build/generate build/coverage build/ledger: $(HEADERS) | tools
	@mkdir -p build
	gcc $(CFLAGS) -I$(INCLUDE) -Ihost -o $@ $(filter %.c,$^)

build/coverage-plain/plain: host/plain/plain.c $(PLAIN) $(HEADERS) VERSION | tools
	@mkdir -p $(@D)
	rm -f $(@D)/*
	gcc -std=c99 -O0 --coverage $(STRICT) $(plain_version) -o $@ host/plain/plain.c $(PLAIN)

# ---- Tests

exports: $(LIBRARY) | tools
	scripts/check-exports $(LIBRARY) $(FOR)

# Whether dist/ is what was built.
released: $(ARCHIVES)
	scripts/release check

header: | tools
	gcc -std=c99 $(STRICT) -Iinclude -fsyntax-only tests/header_clean.c
	g++ -std=c++11 $(STRICT) -Iinclude -fsyntax-only -x c++ tests/header_clean.c
	scripts/check-header

readme: $(OUT)/readme
	$(OUT)/readme > $(OUT)/readme.output
	cmp $(OUT)/readme.output build/readme.expected

# Each tries what no trace can say.
CALL_TESTS := $(addprefix $(OUT)/,calls relay_calls leg_calls flood_calls echo_calls batch_calls passing_calls)
EXAMPLES := flight_loop flight_batch settings_batch
PLAIN_TESTS := $(addprefix build/,test_plain test_relay test_missions test_legs test_floods test_echo test_batch)

# What tries the library itself, and costs little: the gate does it for every target.
call-tests: $(CALL_TESTS) $(EXAMPLES:%=$(OUT)/%) $(OUT)/replay build/plain $(OUT)/soak
	for test in $(CALL_TESTS); do $$test || exit 1; done
	for example in $(EXAMPLES); do $(OUT)/$$example > $(OUT)/$$example.output && \
	    diff examples/$$example.expected $(OUT)/$$example.output || exit 1; done
	scripts/check-traces $(OUT)/replay build/plain
	$(OUT)/soak calls=60000

host-tests: call-tests $(PLAIN_TESTS) build/ledger build/generate build/coverage \
	build/coverage-plain/plain $(addprefix $(OUT)/,bench rehearsal rehearsal_wrong silent-leg \
	silent-leg_wrong soak_faulty replay_faulty flood flood_wrong)
	for test in $(PLAIN_TESTS); do $$test || exit 1; done
	$(OUT)/flood seed=1
	for test in $(sort $(wildcard tests/test_*.py)); do echo $$test; python3 $$test || exit 1; done

compare: build/generate build/plain $(OUT)/replay build/coverage build/ledger
	scripts/compare $(OUT)/replay

compare-all: build/generate build/plain build/coverage build/ledger
	for target in $(TARGETS); do $(MAKE) FROM=$(FROM) TARGET=$$target replay || exit 1; done
	scripts/compare $(TARGETS:%=build/%/replay)

bench: $(OUT)/bench
	@scripts/bench

# SOAK_ARGUMENTS: seed=N, calls=N
soak: $(OUT)/soak
	$(OUT)/soak $(SOAK_ARGUMENTS)

# FLOOD_ARGUMENTS: seed=N, nodes=N, links=N, orders=N, nets=N
flood: $(OUT)/flood
	$(OUT)/flood $(FLOOD_ARGUMENTS)

coverage-plain: build/generate build/coverage-plain/plain
	scripts/coverage-plain

promises: | tools
	scripts/check-thin
	scripts/check-promises
	scripts/check-documents

costs:
	scripts/costs-page

# ---- Installing

# For TARGET, or this machine; replay is the program itself, not one that stands in for it.
DESTDIR ?=
PREFIX ?= /usr/local
into = $(DESTDIR)$(PREFIX)
INSTALLED := bin/replay include/harpjuniper.h lib/libharpjuniper.a \
	lib/pkgconfig/harpjuniper.pc share/man/man1/replay.1 share/man/man3/harpjuniper.3

install: $(OUT)/replay
	install -d $(addprefix "$(into)"/,$(sort $(dir $(INSTALLED))))
	install -m 755 $(OUT)/replay$(code) "$(into)"/bin/replay
	install -m 644 $(INCLUDE)/harpjuniper.h "$(into)"/include
	install -m 644 $(LIBRARY) "$(into)"/lib
	sed 's|@PREFIX@|$(PREFIX)|; s|@VERSION@|$(VERSION)|; s|@TARGET@|$(FOR)|' harpjuniper.pc.in \
	    > "$(into)"/lib/pkgconfig/harpjuniper.pc
	chmod 644 "$(into)"/lib/pkgconfig/harpjuniper.pc
	install -m 644 man/replay.1 "$(into)"/share/man/man1
	install -m 644 man/harpjuniper.3 "$(into)"/share/man/man3

uninstall:
	rm -f $(addprefix "$(into)"/,$(INSTALLED))

clean:
	rm -rf build
