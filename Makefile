# Builds, runs, tests and installs `mquerier`. `rt` is the command of the Rattle toolchain. A release has the file RELEASE and all that is
# built: `make install` needs no toolchain there.

PREFIX ?= /usr/local
LIBDIR ?= $(PREFIX)/lib
SYSCONFDIR ?= /etc
UNITDIR ?= $(PREFIX)/lib/systemd/system
RELEASED := $(wildcard RELEASE)
SOURCES := $(if $(RELEASED),,crates.txt $(shell find crates/*/src crates/*/specs crates/*/proofs -type f))
TOOLCHAIN := $(if $(RELEASED),,rt bash python3)
FIRST_PATH := message igmp 1600f8faef010203
VERSION := $(shell tools/version)

# The processor that `make lib` is for, and where its archive and its shared library stand. The shared library for aarch64 needs a
# cross compiler of C.
TARGET := x86_64-unknown-linux-gnu
CROSS_COMPILE ?= aarch64-linux-gnu-
AARCH64 := lib/aarch64-unknown-linux-gnu
archive_for_x86_64-unknown-linux-gnu := lib/libmquerier.a
archive_for_aarch64-unknown-linux-gnu := $(AARCH64)/libmquerier.a
ARCHIVE := $(archive_for_$(TARGET))
ABI := $(shell sed -n 's/^\#define MQ_VERSION \(.*\)$$/\1/p' include/mquerier.h)
SONAME := libmquerier.so.$(ABI)
SHARED := $(dir $(ARCHIVE))$(SONAME)
# The interpreter that makes and tests the package for Python.
PYTHON ?= /usr/bin/python3
ifeq ($(ARCHIVE),)
$(error TARGET=$(TARGET): the library is made for x86_64-unknown-linux-gnu and for aarch64-unknown-linux-gnu)
endif
ifneq ($(ARCHIVE),lib/libmquerier.a)
ifneq ($(or $(filter-out lib,$(MAKECMDGOALS)),$(if $(MAKECMDGOALS),,all)),)
$(error TARGET=$(TARGET): only `make lib` takes another processor than that of this machine)
endif
endif

.PHONY: all run try lib wheel quick test kept live live-checked live-test live-soak vlan-test vlan-conform vlan-soak conform-test page page-test bindings-test arm-test
.PHONY: mutants bench install install-strip uninstall dist clean

# Both archives are of what is built in one folder, so one is made after the other. tools/build works side by side by itself.
.NOTPARALLEL:

all: bin/mquerier

# Each names the commands that it lacks, before anything is built.
.PHONY: needs-build needs-library needs-cross needs-gate needs-test needs-live needs-conform needs-page needs-arm needs-wheel needs-bindings
needs-build:
	@tools/needs $(TOOLCHAIN)
needs-library:
	@tools/needs $(TOOLCHAIN) $(if $(RELEASED),,$(CC))
needs-cross:
	@tools/needs rt bash python3 $(CROSS_COMPILE)gcc
needs-gate:
	@tools/needs rt bash git python3
needs-test:
	@tools/needs rt bash git python3 python3-jsonschema cc c++ clang-format-14 nm valgrind
needs-live:
	@tools/needs rt bash python3 $(CC) ip bridge tc nft setpriv
needs-conform:
	@tools/needs rt bash python3 $(CC) ip bridge chrt
needs-page:
	@tools/needs rt bash python3 node chromium
needs-arm:
	@tools/needs rt bash python3 nm $(CC) $(CROSS_COMPILE)gcc qemu-aarch64

needs-wheel:
	@PYTHON=$(PYTHON) tools/needs git python3-pip python3-setuptools python3-wheel
needs-bindings:
	@PYTHON=$(PYTHON) tools/needs python3-pip python3-pytest python3-scapy cargo rustc cargo-clippy pkg-config valgrind

# Proves the crates that the program stands on, builds it, and runs it once. tools/linked makes it start on every Linux.
bin/mquerier: $(SOURCES) | needs-build
	@tools/build $(FIRST_PATH)
	@tools/linked

# What a querier makes of a capture of hosts: by the proved program where it is built, else by one that is compiled and not proved.
run:
	@tools/try replay igmp --own 10.9.0.1 --qri 2000 --lmqi 500 < samples/igmp.pcap

# The same of any words: `make try ARGS="show FILE"`.
try:
	@tools/try $(ARGS)

# The links as a library for C, whose header is include/mquerier.h: the archive lib/libmquerier.a, and beside it the shared library
# lib/libmquerier.so.3 for languages that load one. `make lib TARGET=aarch64-unknown-linux-gnu` makes them for that processor, of the
# same proofs, in lib/aarch64-unknown-linux-gnu.
lib: $(ARCHIVE) $(SHARED)

# The archive of the crate mq_c, as it is: it needs nothing of the toolchain.
lib/libmquerier.a: $(SOURCES) | needs-library
	@tools/build --library
	@cp crates/mq_c/out/libmq_c.a $@
	@echo "$@ is built"

$(AARCH64)/libmquerier.a: $(SOURCES) | needs-build
	@tools/build --library aarch64-unknown-linux-gnu
	@mkdir -p $(@D)
	@cp crates/mq_c/out/libmq_c.a $@
	@echo "$@ is built"

# The calls of the map and no other symbol; the link without a number is what a linker looks for.
SHARING = -shared -nostdlib -Wl,-soname,$(@F) -Wl,--version-script=$(filter %.map,$^) -Wl,-z,defs -Wl,-z,noexecstack \
    -Wl,--whole-archive $(filter %.a,$^) -Wl,--no-whole-archive -lc -lgcc -o $@
lib/$(SONAME): lib/libmquerier.a include/libmquerier.map | needs-library
	@$(CC) $(SHARING)
	@ln -sf $(SONAME) $(@D)/libmquerier.so
	@echo "$@ is built"

$(AARCH64)/$(SONAME): $(AARCH64)/libmquerier.a include/libmquerier.map | needs-cross
	@$(CROSS_COMPILE)gcc $(SHARING)
	@ln -sf $(SONAME) $(@D)/libmquerier.so
	@echo "$@ is built"

# The package for Python, with the shared library and the program inside.
WHEEL := dist/mquerier-$(shell tools/version python)-py3-none-manylinux2014_x86_64.whl
wheel: $(WHEEL)

$(WHEEL): lib/$(SONAME) bin/mquerier $(wildcard bindings/python/*.* bindings/python/mquerier/*.*) tools/wheel | needs-wheel
	@PYTHON=$(PYTHON) tools/wheel $(filter lib/% bin/%,$^)
	@echo "$@ is built"

# Shows that it holds here: proofs, tests, and runs of the program with refused calls. The last line counts what passed.
test: needs-test
	@tools/gate test

# The same of what changed since a commit, and which wrong bodies of that are refused: `make quick SINCE=COMMIT`. If none is named,
# it is the last one of origin/main below HEAD.
quick: needs-test
	@tools/gate quick

# Has `rt ci` prove the crates that changed in the background, for the gate; called again, it says how far that is.
kept: needs-gate
	@tools/kept $(CRATES)

# Shows that the contracts are strong: each wrong body of crates/*/wrong-bodies is refused. After a stop it goes on with the others.
mutants: needs-gate
	@tools/gate mutants

# A querier on Linux for an interface or for whole bridges, over the library, in C and outside of the proofs. `live-checked` is the
# same with the compiler's checks of memory and of undefined behaviour, for tests.
LIVE := $(wildcard daemon/*.c daemon/*.h) examples/frames.c examples/frames.h include/mquerier.h include/mquerier-link.h
LIVE_FLAGS := -std=c99 -O2 -Wall -Wextra -Iinclude -Iexamples -DMQUERIER_VERSION='"$(VERSION)"'
# It reads frames of anybody with privileges, so it is built with the compiler's defences. The flags of the user come last.
HARDENED := -U_FORTIFY_SOURCE -D_FORTIFY_SOURCE=2 -fstack-protector-strong -fstack-clash-protection -fPIE
HARDENED_LINKS := -pie -Wl,-z,relro,-z,now,-z,noexecstack
ifneq ($(filter x86_64%,$(shell $(CC) -dumpmachine)),)
HARDENED += -fcf-protection
HARDENED_LINKS += -Wl,-z,shstk
endif
LIVE_CHECKS := -g -fno-omit-frame-pointer -fsanitize=address,undefined -fno-sanitize-recover
live: bin/mquerier-live
live-checked: bin/mquerier-live-checked

bin/mquerier-live: $(LIVE) lib/libmquerier.a bin/version
	@tools/needs $(CC)
	$(CC) $(LIVE_FLAGS) $(HARDENED) $(CPPFLAGS) $(CFLAGS) $(filter %.c,$^) lib/libmquerier.a $(HARDENED_LINKS) $(LDFLAGS) -o $@

bin/mquerier-live-checked: $(LIVE) lib/libmquerier.a bin/version
	@tools/needs $(CC)
	$(CC) $(LIVE_FLAGS) $(LIVE_CHECKS) $(CPPFLAGS) $(CFLAGS) $(filter %.c,$^) lib/libmquerier.a $(LDFLAGS) -o $@

# The version that the last build put into a program.
bin/version: FORCE
	@mkdir -p bin
	@echo $(VERSION) | cmp -s - $@ || echo $(VERSION) > $@
.PHONY: FORCE

# The examples in C do what docs/EMBEDDING.md says; the querier on an interface serves hosts of the Linux kernel, and does what the
# vectors say that are played to it, those that end within SECONDS. The last two want to be root, and the last one the program.
SECONDS := 600
live-test: needs-live live bin/mquerier
	@examples/check
	@examples/routed
	@daemon/test
	@daemon/switches
	@daemon/routes
	@conform/vectors --seconds $(SECONDS)

# So many seconds of random joins and leaves at the ports of two bridges. It wants to be root, and the program.
SOAK := 3600
live-soak: needs-live live-checked bin/mquerier
	@LIVE=bin/mquerier-live-checked daemon/soak $(SOAK)

# The querier at bridges with VLANs, in a virtual machine with a kernel of Debian. It installs what it needs, wants to be root, and
# takes at most ten minutes. VLANS=quick is what the gate runs.
VLANS :=
MACHINE := qemu-system-x86_64 busybox cpio depmod xz ip bridge nft chrt python3
vlan-test: live
	@tools/needs --install $(MACHINE)
	@daemon/machine daemon/vlans $(VLANS)

# All cases of conform there, at an access port and in a VLAN of a trunk. It takes 20 minutes.
vlan-conform: live bin/mquerier
	@tools/needs --install $(MACHINE)
	@MACHINE_SECONDS=6000 daemon/machine daemon/vlans whole

# So many seconds of random joins and leaves there, with changes of VLANs and killed queriers. Each datagram is judged by the program.
VLAN_SOAK := 600
vlan-soak: live bin/mquerier
	@tools/needs --install $(MACHINE)
	@MACHINE_SECONDS=1800 daemon/machine daemon/vlan-soak planted
	@MACHINE_SECONDS=$$(($(VLAN_SOAK) * 5 + 600)) daemon/machine daemon/vlan-soak $(VLAN_SOAK)

# conform, which holds any router to the standards (docs/CONFORM.md), held to routers here: faulty ones of its own, each of which
# has to be found by the cases that name its fault, and bin/mquerier-live, a bridge of the kernel and routers of Debian, which are
# installed where they are missing. It wants to be root, and takes an hour.
conform-test: needs-conform live bin/mquerier
	@conform/test agree
	@conform/test lines
	@conform/test faults
	@conform/test orders
	@conform/test peers

# The page: static files in page/dist, with the proved code as WebAssembly inside (docs/PAGE.md).
PAGE := page/make $(wildcard page/src/*) $(wildcard samples/*.pcap samples/*.pcapng)
page: page/dist/index.html

.SECONDARY: crates/mq_page/out/mq_page.wasm
page/dist/index.html: crates/mq_page/out/mq_page.wasm $(PAGE)
	@page/make

crates/mq_page/out/mq_page.wasm: $(SOURCES) | needs-build
	@tools/build --crates mq_page

# The page's module, called by node, and the page in headless Chromium: texts are those of the program, bars and marks what they say.
page-test: needs-page page bin/mquerier
	@page/module-test
	@page/test

# The packages for Python and Rust, built from a clean folder: their tests, which compare texts with those of the program, and links
# of both beside the model.
bindings-test: needs-bindings $(WHEEL) lib/libmquerier.a bin/mquerier
	@PYTHON=$(PYTHON) bindings/test $(WHEEL)

# Programs of C over the library for aarch64, run by qemu, print what they print here.
arm-test: needs-arm lib/libmquerier.a $(AARCH64)/libmquerier.a $(AARCH64)/$(SONAME)
	@CROSS_COMPILE=$(CROSS_COMPILE) tools/aarch64

# How fast captures are listed and replayed, what hostile hosts cost, and how near datagrams come to the sum bound
# (bench/README.md). It proves nothing. `make bench WRITE=--write` puts the tables into that page.
bench: bin/mquerier
	@bench/show $(WRITE)
	@bench/convert $(WRITE)
	@bench/replay $(WRITE)
	@bench/hostile --instructions $(WRITE)
	@bench/spent $(WRITE)
	@bench/links $(WRITE)

# The program, the library for C in both forms with its headers and its entry for pkg-config, the querier of bridges
# with its service and its file of options, which isn't replaced, and the manual pages. `install-strip` leaves symbols out. DESTDIR stands before each folder. `uninstall` removes these files, and the options if nobody changed them.
LIVE_OPTIONS := $(SYSCONFDIR)/mquerier-live/options
ROUTE_OPTIONS := $(SYSCONFDIR)/mquerier-live/route
MAN := $(PREFIX)/share/man
INSTALLED := $(addprefix $(PREFIX)/,bin/mquerier sbin/mquerier-live include/mquerier.h include/mquerier-link.h) \
    $(addprefix $(LIBDIR)/,libmquerier.a libmquerier.so $(SONAME) pkgconfig/libmquerier.pc) \
    $(UNITDIR)/mquerier-live@.service $(UNITDIR)/mquerier-route.service $(MAN)/man1/mquerier.1 $(MAN)/man3/libmquerier.3 $(MAN)/man8/mquerier-live.8
install: bin/mquerier lib/libmquerier.a lib/$(SONAME) bin/mquerier-live
	install -d $(sort $(dir $(addprefix $(DESTDIR),$(INSTALLED) $(LIVE_OPTIONS))))
	install -m 755 $(STRIP) bin/mquerier $(DESTDIR)$(PREFIX)/bin
	install -m 755 $(STRIP) bin/mquerier-live $(DESTDIR)$(PREFIX)/sbin
	install -m 644 $(STRIP) lib/$(SONAME) $(DESTDIR)$(LIBDIR)
	install -m 644 lib/libmquerier.a $(DESTDIR)$(LIBDIR)
	ln -sf $(SONAME) $(DESTDIR)$(LIBDIR)/libmquerier.so
	install -m 644 include/mquerier.h include/mquerier-link.h $(DESTDIR)$(PREFIX)/include
	sed 's|@PREFIX@|$(PREFIX)|; s|@LIBDIR@|$(LIBDIR)|; s|@VERSION@|$(VERSION)|' include/libmquerier.pc.in \
	    > $(DESTDIR)$(LIBDIR)/pkgconfig/libmquerier.pc
	install -m 644 man/mquerier.1 $(DESTDIR)$(MAN)/man1
	install -m 644 man/libmquerier.3 $(DESTDIR)$(MAN)/man3
	install -m 644 man/mquerier-live.8 $(DESTDIR)$(MAN)/man8
	sed 's|@PREFIX@|$(PREFIX)|; s|@SYSCONFDIR@|$(SYSCONFDIR)|' daemon/mquerier-live@.service.in > $(DESTDIR)$(UNITDIR)/mquerier-live@.service
	sed 's|@PREFIX@|$(PREFIX)|; s|@SYSCONFDIR@|$(SYSCONFDIR)|' daemon/mquerier-route.service.in > $(DESTDIR)$(UNITDIR)/mquerier-route.service
	test -e $(DESTDIR)$(LIVE_OPTIONS) || install -m 644 daemon/options.example $(DESTDIR)$(LIVE_OPTIONS)
	test -e $(DESTDIR)$(ROUTE_OPTIONS) || install -m 644 daemon/route.example $(DESTDIR)$(ROUTE_OPTIONS)

install-strip:
	@$(MAKE) --no-print-directory STRIP=-s install

uninstall:
	rm -f $(addprefix $(DESTDIR),$(INSTALLED))
	cmp -s daemon/options.example $(DESTDIR)$(LIVE_OPTIONS) && rm $(DESTDIR)$(LIVE_OPTIONS) || true
	cmp -s daemon/route.example $(DESTDIR)$(ROUTE_OPTIONS) && rm $(DESTDIR)$(ROUTE_OPTIONS) || true
	rmdir $(DESTDIR)$(dir $(LIVE_OPTIONS)) 2> /dev/null || true

# The release of this commit: an archive and the wheel, with their sums in dist/SHA256SUMS. Its program is bin/mquerier-dated.
dist: bin/mquerier-live lib/libmquerier.a lib/$(SONAME) page | needs-wheel
	@tools/linked --dated
	@PYTHON=$(PYTHON) tools/wheel lib/$(SONAME) bin/mquerier-dated
	@PYTHON=$(PYTHON) tools/dist

clean:
	rm -rf bin lib dist page/dist crates/*/out
