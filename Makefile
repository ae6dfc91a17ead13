# What is done beside `rt`. `make test` is the gate.
.PHONY: demo listing test edits hosts compare faults fuzz peers bench docs lib shared loops install uninstall clean help

ARCHIVE = target/staticlib
VERSION = $(shell hosts/version)
MAJOR = $(firstword $(subst ., ,$(VERSION)))
SONAME = libuppinalo.so.$(MAJOR)

# Where `make install` puts what is built. A package sets DESTDIR, which comes before all of it.
PREFIX = /usr/local
LIBDIR = $(PREFIX)/lib
TO = $(DESTDIR)$(PREFIX)
LIB = $(DESTDIR)$(LIBDIR)

demo: listing    # prove and build the program `listing`, and run it on an example
	@echo '$$ cat crates/listing/stdin' && cat crates/listing/stdin
	@echo '$$ target/bin/listing < crates/listing/stdin' && target/bin/listing < crates/listing/stdin

listing:  # the program `listing` alone
	@mkdir -p target/bin
	@echo 'proving listing and what it is made of (some minutes the first time) ...'
	@(cd crates/listing && rt run <stdin) >target/listing.out 2>target/listing.log || { cat target/listing.log && exit 1; }
	@grep '^logic=' target/listing.log || echo 'nothing has changed since it was proved'
	@install crates/listing/out/listing target/bin/listing

test:     # the gate: every proof, must-fail edits, the programs and the tests from other languages
	bash .ci/run

edits:    # the must-fail edits alone, over what is proved
	@mkdir -p target
	@rt all check
	@rt must-fail >target/edits.log 2>&1; status=$$?; cat target/edits.log; exit $$status
	@docs/edits.py target/edits.log

lib: loops    # the archive and the shared object of include/uppinalo.h
	@mkdir -p $(ARCHIVE)
	cd crates/uppinalo && rt lib
	install -m 644 crates/uppinalo/out/libuppinalo.a $(ARCHIVE)/libuppinalo.a
	@$(MAKE) --no-print-directory shared

shared:   # the shared object alone, of an archive that is there
	gcc -shared -o $(ARCHIVE)/libuppinalo.so -Wl,-soname,$(SONAME) -Wl,-z,relro,-z,now,-z,noexecstack,-z,text,-z,defs \
		-Wl,--whole-archive $(ARCHIVE)/libuppinalo.a -Wl,--no-whole-archive
	cp $(ARCHIVE)/libuppinalo.so $(ARCHIVE)/$(SONAME)    # no link: rt ci takes none in a checkout

install:  # what C and Fortran need, and the program `listing`, under PREFIX, which is /usr/local; builds and proves nothing
	@[ -e $(ARCHIVE)/libuppinalo.a ] && [ -e $(ARCHIVE)/libuppinalo.so ] || \
		{ echo 'install: there is no library yet, and none is built here: run `make lib` first' >&2 && exit 1; }
	@[ -e target/bin/listing ] || \
		{ echo 'install: there is no program listing yet, and none is built here: run `make listing` first' >&2 && exit 1; }
	install -D -m 644 include/uppinalo.h '$(TO)/include/uppinalo.h'
	install -D -m 644 $(ARCHIVE)/libuppinalo.a '$(LIB)/libuppinalo.a'
	install -D -m 755 $(ARCHIVE)/libuppinalo.so '$(LIB)/libuppinalo.so.$(VERSION)'
	ln -sf libuppinalo.so.$(VERSION) '$(LIB)/$(SONAME)'
	ln -sf $(SONAME) '$(LIB)/libuppinalo.so'
	install -D -m 644 hosts/c/uppinalo.pc.in '$(LIB)/pkgconfig/uppinalo.pc'
	sed -i 's|@PREFIX@|$(PREFIX)|; s|@LIBDIR@|$(LIBDIR:$(PREFIX)/%=$${prefix}/%)|; s|@VERSION@|$(VERSION)|' '$(LIB)/pkgconfig/uppinalo.pc'
	install -D -m 755 target/bin/listing '$(TO)/bin/uppinalo-listing'
	install -D -m 644 docs/uppinalo-listing.1 '$(TO)/share/man/man1/uppinalo-listing.1'
	install -D -m 644 hosts/fortran/uppinalo.f90 '$(TO)/share/uppinalo/uppinalo.f90'
	install -D -m 644 data/leap_seconds_2017.bin '$(TO)/share/uppinalo/leap_seconds_2017.bin'

uninstall: # takes away what `make install` has put under PREFIX
	rm -f '$(TO)/include/uppinalo.h' '$(LIB)/libuppinalo.a' '$(LIB)/libuppinalo.so' '$(LIB)/$(SONAME)' '$(LIB)/libuppinalo.so.$(VERSION)'
	rm -f '$(LIB)/pkgconfig/uppinalo.pc' '$(TO)/bin/uppinalo-listing' '$(TO)/share/man/man1/uppinalo-listing.1'
	rm -f '$(TO)/share/uppinalo/uppinalo.f90' '$(TO)/share/uppinalo/leap_seconds_2017.bin'
	[ ! -d '$(TO)/share/uppinalo' ] || rmdir '$(TO)/share/uppinalo'

loops:    # the loops of the Python package over whole arrays
	@mkdir -p target/python
	gcc -std=gnu11 -O3 -Wall -Wextra -Werror -fPIC -shared -Iinclude -o target/python/libuppinalo_loops.so hosts/python/loops.c

hosts:    # the tests from other languages, with the short comparison
	hosts/run

compare:  # the same with the long comparison
	hosts/run --long

faults:   # that the comparison finds faults
	hosts/compare/faults

fuzz:     # the C boundary used at random, a million times
	hosts/fuzz/run 1000000 2

peers:    # the same axes through cftime, xarray, NumPy, UDUNITS and ERFA; installs Debian packages
	peers/run

bench:    # speed beside plain Rust
	bench/run

docs:     # the tables of docs/TRUST.md and docs/ARCHITECTURE.md, from the crates, and the refusals of C, Fortran and Python, from README.md
	docs/tables.py
	docs/refusals.py

clean:
	rm -rf target
