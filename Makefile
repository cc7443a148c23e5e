# The static library for C, the command `lozhymet` and the program `listing`. `make` proves and builds the library and the program (rt) and compiles the
# command (gcc); the first run takes as long as the proofs. `make install PREFIX=/usr/local` puts them in place, `make check` runs the tests.
PREFIX ?= /usr/local
VERSION = 0.1.0
CC = gcc
CFLAGS ?= -O2 -g
WARNINGS = -std=c11 -pedantic -Wall -Wextra -Wconversion -Werror

PROVED = target/staticlib/liblibrary.a
# the program of that name
LISTING = target/bin/listing
# another archive with the same two functions, for tests
LOZHYMET_LIB ?= $(PROVED)
BUILD ?= target/c
SOURCES = $(wildcard command/*.c)
HEADERS = $(wildcard command/*.h) include/lozhymet.h

all: $(BUILD)/lozhymet $(BUILD)/lozhymet.pc $(LISTING)

$(PROVED): FORCE
	tests/archive

$(LISTING): FORCE
	cd crates/listing && rt run </dev/null >/dev/null
	mkdir -p $(dir $(LISTING))
	cp crates/listing/out/listing $(LISTING)

$(BUILD)/lozhymet: $(SOURCES) $(HEADERS) $(LOZHYMET_LIB)
	mkdir -p $(BUILD)
	$(CC) $(WARNINGS) $(CFLAGS) -Iinclude -o $@ $(SOURCES) $(LOZHYMET_LIB) $(LDFLAGS)

$(BUILD)/lozhymet.pc: packaging/lozhymet.pc.in FORCE
	mkdir -p $(BUILD)
	sed -e 's|@PREFIX@|$(PREFIX)|' -e 's|@VERSION@|$(VERSION)|' $< >$@

install: all
	install -d $(DESTDIR)$(PREFIX)/bin $(DESTDIR)$(PREFIX)/include $(DESTDIR)$(PREFIX)/lib/pkgconfig
	install -d $(DESTDIR)$(PREFIX)/share/man/man1 $(DESTDIR)$(PREFIX)/share/man/man3
	install -m 755 $(BUILD)/lozhymet $(DESTDIR)$(PREFIX)/bin/lozhymet
	install -m 644 $(LOZHYMET_LIB) $(DESTDIR)$(PREFIX)/lib/liblozhymet.a
	install -m 644 include/lozhymet.h $(DESTDIR)$(PREFIX)/include/lozhymet.h
	install -m 644 $(BUILD)/lozhymet.pc $(DESTDIR)$(PREFIX)/lib/pkgconfig/lozhymet.pc
	install -m 644 man/lozhymet.1 man/listing.1 $(DESTDIR)$(PREFIX)/share/man/man1
	install -m 644 man/lozhymet.3 man/host_make_extract.3 man/host_select.3 $(DESTDIR)$(PREFIX)/share/man/man3
	install -m 755 $(LISTING) $(DESTDIR)$(PREFIX)/bin/listing

# the main job on the example tray
example: all
	$(BUILD)/lozhymet extract examples/tray/schema.dtd examples/tray/paths.txt examples/tray/journal.xml -o $(BUILD)/tray.extract
	$(BUILD)/lozhymet select examples/tray/schema.dtd examples/tray/paths.txt $(BUILD)/tray.extract

check:
	tests/run

clean:
	rm -rf $(BUILD)

.PHONY: all install example check clean FORCE
