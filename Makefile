# make            proves and builds the programs grainlantern and mrtgrep, and the archive for C and Rust
# make check      the gate: every proof and every test
# make install    installs them, with their manual pages, the header and a pkg-config file; PREFIX and DESTDIR say where
#
# The first build takes minutes and needs the Rattle toolchain (rt) and cargo; `make install` needs neither once all is built.

PREFIX = /usr/local
# goes before all paths that are written to, and stands in none
DESTDIR =
BINDIR = $(PREFIX)/bin
LIBDIR = $(PREFIX)/lib
INCLUDEDIR = $(PREFIX)/include
MANDIR = $(PREFIX)/share/man

PROGRAM = crates/grainlantern/out/grainlantern
ARCHIVE = crates/grainlantern_c/out/libgrainlantern_c.a
MRTGREP = rust/target/release/mrtgrep

PROVED := crates.txt $(shell find crates -name out -prune -o -type f -print)
RUST := rust/Cargo.toml rust/mrtgrep/Cargo.toml $(shell find rust/grainlantern rust/mrtgrep/src -type f)
VERSION := $(shell sed -n 's/^version = "\(.*\)"/\1/p' rust/Cargo.toml)

all: $(PROGRAM) $(ARCHIVE) $(MRTGREP)

# touched, since a file that would be the same isn't written again

$(PROGRAM): $(PROVED)
	cd crates/grainlantern && rt run </dev/null >/dev/null
	touch $@

$(ARCHIVE): $(PROVED)
	cd crates/grainlantern_c && rt lib
	touch $@

$(MRTGREP): $(RUST) $(PROVED)
	cargo build --offline --release --manifest-path rust/Cargo.toml --target-dir rust/target -p mrtgrep
	touch $@

check:
	.ci/run

install: all
	install -d $(DESTDIR)$(BINDIR) $(DESTDIR)$(LIBDIR)/pkgconfig $(DESTDIR)$(INCLUDEDIR) $(DESTDIR)$(MANDIR)/man1
	install -m 755 $(PROGRAM) $(MRTGREP) $(DESTDIR)$(BINDIR)
	install -m 644 $(ARCHIVE) $(DESTDIR)$(LIBDIR)
	install -m 644 include/grainlantern.h $(DESTDIR)$(INCLUDEDIR)
	install -m 644 man/grainlantern.1 man/mrtgrep.1 $(DESTDIR)$(MANDIR)/man1
	sed -e 's|@prefix@|$(PREFIX)|' -e 's|@libdir@|$(LIBDIR)|' -e 's|@includedir@|$(INCLUDEDIR)|' -e 's|@version@|$(VERSION)|' \
		include/grainlantern.pc.in >$(DESTDIR)$(LIBDIR)/pkgconfig/grainlantern.pc
	chmod 644 $(DESTDIR)$(LIBDIR)/pkgconfig/grainlantern.pc

.PHONY: all check install
# rt runs once at a time
.NOTPARALLEL:
