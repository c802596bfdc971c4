# Builds elfkit with the Rattle toolchain's command rt, which proves what it builds.
#
#   make                       the program build/elfkit, a line for each crate that is proved;
#                              LANES=N proves N at a time, else one for each processor;
#                              CPU=x86-64-v3 compiles for newer processors, CPU=x86-64 for all again
#   make try ARGS="ARGUMENTS"  the program without any proof, for a first look
#   make test                  the gate: all proofs, tests and edits that must fail
#   make edits                 the edits of crates/*/edits/, which the gate does not try
#   make docs                  the pages and pictures that scripts write: the map of the crates and others
#   make test-docs             what is stale in the pages: examples, links, names, sizes
#   make bench                 the times of bench/ beside other programs, in one table
#   make install PREFIX=..     the program, its manual pages and its completion
#   make lib                   the library for C, build/libelf.so.1 and build/libelfkit.a
#   make test-c                the tests of the library for C, with sanitizers
#   make check-c               gcc's and clang's analyzers over its layer of C
#   make coverage-c            how many lines of the layer of C its tests run
#   make fuzz-c RUNS=N         libFuzzer over sequences of calls on changed images
#   make test-programs         elfutils' programs on it, compared with the system's libelf
#   make test-elfutils         elfutils' own test suite on it, compared with elfutils' library
#   make rust-lib              what the crate for Rust links, build/libelfkit.a and build/liblibc_c.a
#   make test-rust             the tests of the crate for Rust, rust/elfkit
#   make install-lib PREFIX=.. the library for C, its headers and its pkg-config files
#   make dist GATE=LOG         a tar file of the program and the library, in build/dist; GATE names the
#                              log of a gate and is optional
#   make deb GATE=LOG          Debian packages of both, in build/deb
PREFIX ?= /usr/local
ARGS ?= readelf -h -l /bin/true
sources := $(shell find crates -mindepth 2 -path '*/out' -prune -o -type f -print)

needs := $(addprefix needs-,make try test edits lib test-elfutils test-rust dist deb)

.PHONY: all try test edits docs test-docs bench install lib test-c check-c coverage-c fuzz-c test-programs test-elfutils \
    install-lib rust-lib test-rust dist deb clean $(needs)
# tools/build uses all processors by itself; tools/needs checks what a step needs before it begins.
.NOTPARALLEL:

all: build/elfkit

build/elfkit: crates.txt $(sources)
	@tools/needs make
	@tools/build elfkit
	@rt version > build/kit

# What was compiled for other processors is compiled again.
ifdef CPU
export CPU
build/elfkit build/libelfkit.a: build/cpu
endif

build/cpu: FORCE
	@mkdir -p build
	@echo '$(CPU)' | cmp -s - $@ || echo '$(CPU)' > $@

FORCE:

# One line names what this machine lacks, with the package that has it.
$(needs): needs-%:
	@CC='$(CC)' tools/needs $*

try: needs-try
	@tools/try $(ARGS)

test: needs-test
	@tools/test

edits: needs-edits
	@tools/try-edits

docs:
	@tools/layers
	@tools/proved
	@tools/draw

test-docs:
	@tools/test-docs

bench: build/elfkit
	@tools/bench

install: build/elfkit
	install -d $(DESTDIR)$(PREFIX)/bin
	install -d $(DESTDIR)$(PREFIX)/share/man/man1 $(DESTDIR)$(PREFIX)/share/man/man5
	install -d $(DESTDIR)$(PREFIX)/share/bash-completion/completions
	install -m 755 build/elfkit $(DESTDIR)$(PREFIX)/bin/elfkit
	install -m 644 man/elfkit.1 $(DESTDIR)$(PREFIX)/share/man/man1
	install -m 644 man/elfkit-calls.5 $(DESTDIR)$(PREFIX)/share/man/man5
	install -m 644 completions/elfkit.bash \
	    $(DESTDIR)$(PREFIX)/share/bash-completion/completions/elfkit

# ---- The library for C: the proved core, and a layer of C with libelf's names over it

CFLAGS ?= -O2 -g
# libdw does not know gcc's mark of a variable's part that is not set.
no_mark := -fno-var-tracking-uninit
capi_debug := $(shell $(CC) $(no_mark) -Werror -E -x c /dev/null > /dev/null 2>&1 && echo $(no_mark))
kit = $(dir $(shell rt doc))
capi_sources := $(sort $(wildcard capi/*.c))
capi_headers := $(wildcard capi/*.h capi/include/*.h)
capi_flags := -std=gnu11 -Wall -Wextra -Werror -fPIC -fvisibility=hidden -Icapi/include -Icapi \
    -ffile-prefix-map=$(CURDIR)=.
capi_link := -shared -Wl,-soname,libelf.so.1 -Wl,--version-script=capi/libelf.map -Wl,-z,defs
LIBDIR ?= $(PREFIX)/lib/elfkit
PKGCONFIGDIR ?= $(PREFIX)/lib/pkgconfig

lib: needs-lib build/libelf.so.1 build/liblibc_c.a

build/libelfkit.a: crates.txt $(sources)
	@tools/needs make
	@tools/build elfkit_c
	@rt version > build/kit

build/libelf.so.1: build/libelfkit.a $(capi_sources) $(capi_headers) capi/libelf.map
	$(CC) $(CFLAGS) $(capi_debug) $(capi_flags) $(capi_link) -o $@ $(capi_sources) build/libelfkit.a \
	    $(kit)c/liblibc_c.a -lz
	cp $@ build/libelf.so

test-c: needs-lib build/libelfkit.a
	@capi/run-tests $(kit)c/liblibc_c.a

check-c:
	@capi/check-findings

coverage-c: needs-lib build/libelfkit.a
	@capi/coverage $(kit)c/liblibc_c.a

RUNS ?= 1000000

fuzz-c: needs-lib build/libelfkit.a
	@capi/fuzz/run $(kit)c/liblibc_c.a $(RUNS)

test-programs: needs-lib build/libelf.so.1
	@capi/compare-programs build
	@capi/compare-writers build

test-elfutils: needs-test-elfutils build/libelf.so.1
	@capi/compare-elfutils build

# libelf.pc is found where PKG_CONFIG_PATH names its folder, libelfkit.pc by its name.
install-lib: build/libelf.so.1 build/liblibc_c.a
	install -d $(DESTDIR)$(LIBDIR)/pkgconfig $(DESTDIR)$(PKGCONFIGDIR)
	install -d $(DESTDIR)$(PREFIX)/include/elfkit
	install -m 644 build/libelf.so.1 build/libelfkit.a build/liblibc_c.a $(DESTDIR)$(LIBDIR)
	ln -sf libelf.so.1 $(DESTDIR)$(LIBDIR)/libelf.so
	install -m 644 capi/include/libelf.h capi/include/gelf.h capi/include/nlist.h \
	    $(DESTDIR)$(PREFIX)/include/elfkit
	$(fill_pc) capi/libelf.pc.in > $(DESTDIR)$(LIBDIR)/pkgconfig/libelf.pc
	$(fill_pc) capi/libelfkit.pc.in > $(DESTDIR)$(PKGCONFIGDIR)/libelfkit.pc

fill_pc = sed -e 's|@LIBDIR@|$(LIBDIR)|' -e 's|@INCLUDEDIR@|$(PREFIX)/include/elfkit|' \
    -e "s|@VERSION@|$$(tools/version)|"

# ---- The crate for Rust: safe types over the same core

rust-lib: build/libelfkit.a build/liblibc_c.a

build/liblibc_c.a:
	install -D -m 644 $(kit)c/liblibc_c.a $@

test-rust: needs-test-rust rust-lib
	@rust/run-tests

# ---- What is handed out

dist: needs-dist all lib
	@tools/dist $(GATE)

deb: needs-deb all lib
	@tools/deb $(GATE)

clean:
	rm -rf build crates/*/out rust/*/target
