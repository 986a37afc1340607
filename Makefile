# make            proves and builds the library of the C calls, static and shared, and the hall program
# make help       says what can be made, and what can be set
# make install    puts them under PREFIX, with header, pkg-config file, manual pages, examples and documents; it proves
#                 nothing
# make uninstall  removes what make install put under PREFIX
# make deb        a Debian package of the same, for people who have no kit: target/deb/wimtaze_VERSION_amd64.deb
# make demo       sixteen laptops write one sheet over a bad network, all on this machine, for half a minute; with MINUTES
#                 sheet after sheet for so long, with kills and lost files at any time
# make notepad    builds target/notepad/notepad, a shared notepad in the terminal; it needs ncurses with wide characters
# make try        opens three of them side by side in tmux, all on this machine
# make run        the hall program on document 01's example
# make native     the programs in C and Rust over the library
# make soak       the library against the plain Rust of tests/native, for SECONDS (60) from SEED (the time of day) on
# make bench      times receiving and the C calls against Rust, counts what a call copies and, where there is valgrind, its
#                 instructions, prints a table, and draws docs/receive.svg
# make test       the gate: it proves every crate, but for those that passed on this machine as they are, and runs what
#                 there is to run
# make clean      removes all that was built here, the proofs too
#
# To be set: PREFIX (/usr/local), LIBDIR (PREFIX/lib), DESTDIR (nothing; it goes before both), CC, CFLAGS, SECONDS,
# SEED, MAINTAINER (of the Debian package).
.DEFAULT_GOAL := all
.DELETE_ON_ERROR:
.NOTPARALLEL:

PREFIX ?= /usr/local
LIBDIR ?= $(PREFIX)/lib
SECONDS ?= 60
MINUTES ?= 0
SEED ?= $(shell date +%s)
CFLAGS ?= -O2
MAINTAINER ?= Wimtaze maintainers <maintainers@users.noreply.wimtaze.example>
LIBRARY = target/staticlib/libwimtaze.a
SHARED = target/shared/libwimtaze.so
HALL = target/bin/hall

VERSION := $(shell sed -n 's/^.define WIMTAZE_VERSION "\(.*\)"/\1/p' include/wimtaze.h)
MAJOR := $(shell sed -n 's/^.define WIMTAZE_VERSION_MAJOR \(.*\)/\1/p' include/wimtaze.h)
CALLS := $(shell sed -n 's/^uint64_t \(wimtaze_[a-z_]*\).*/\1/p' include/wimtaze.h)

# What is proved and built, the folders among it for the files that come and go. In a crate's out/ rt keeps its work.
SOURCES := crates.txt $(shell find crates -mindepth 2 \( -name must-fail -o -name out \) -prune -o -print)

# Says where rt is missing: nothing can be proved or built without it.
define need_rt
@command -v rt >/dev/null || { echo "make: there is no rt on the path. It is the prover and compiler of the Rattle" \
	"kit, without which nothing can be built here: see README.md." >&2; exit 1; }
endef

# Has a crate proved and built, and says which crate of how many is proved, and after how many seconds.
define prove
$(need_rt)
@TARGET=$(1) .ci/progress .ci/build $(1)
endef

.PHONY: all help library shared hall install uninstall deb native run demo soak bench test clean

all: library shared hall

help:
	@sed -n '/^#/!q; s/^# \{0,1\}//p' Makefile

library: target/staticlib/libwimtaze.a

shared: $(SHARED)

hall: target/bin/hall

target/staticlib/libwimtaze.a: $(SOURCES)
	$(call prove,wimtaze)

target/bin/hall: $(SOURCES)
	$(call prove,hall)

target/staticlib/libworkload.a: $(SOURCES)
	$(call prove,workload)

# The linker makes it of the static library. It stops where code does not run at any address (-z text) or something is
# missing (-z defs). The map leaves only the calls to be seen from outside.
$(SHARED): $(LIBRARY) packaging/exports.map include/wimtaze.h
	mkdir -p $(dir $@)
	$(CC) -shared -Wl,--whole-archive $(LIBRARY) -Wl,--no-whole-archive -Wl,-soname,libwimtaze.so.$(MAJOR) \
		-Wl,--version-script=packaging/exports.map -Wl,-z,text,-z,defs,-z,relro,-z,now -o $@

# A program that is linked with the shared library looks for it in LIBDIR too. A folder that the system searches by
# itself needs no such flag.
RUNPATH ?= -Wl,-rpath,$${libdir}

EXAMPLES = laptop.h notepad.c pairing.c playing_hall.c archive.c first_form.c joining.c catching_up.c
DOCUMENTS = README.md CHANGELOG.md docs/BENCHMARKS.md docs/DECISIONS.md docs/SPECIFICATION.md docs/receive.svg
PAGES = man1/hall.1 man1/wimtaze-notepad.1 man3/wimtaze.3 $(CALLS:%=man3/%.3)

install uninstall: to = $(DESTDIR)$(PREFIX)
install uninstall: lib = $(DESTDIR)$(LIBDIR)
install uninstall: doc = $(DESTDIR)$(PREFIX)/share/doc/wimtaze

# Asks make whether there is anything left to build, and builds nothing: an old hall never comes beside a new library,
# and the prover is never started by who installs.
install:
	@$(MAKE) -q $(LIBRARY) $(SHARED) $(HALL) >/dev/null 2>&1 || { echo "make install: $(LIBRARY), $(SHARED) or $(HALL)" \
		"is not there, or is older than the sources. Run make first, which proves and builds them." >&2; exit 1; }
	install -d "$(to)/include" "$(lib)/pkgconfig" "$(to)/bin" "$(to)/share/man/man1" "$(to)/share/man/man3" \
		"$(doc)/examples" "$(doc)/docs"
	install -m 644 include/wimtaze.h include/wimtaze_rows.h "$(to)/include"
	install -m 644 $(LIBRARY) "$(lib)/libwimtaze.a"
	install -m 644 $(SHARED) "$(lib)/libwimtaze.so.$(VERSION)"
	ln -sf libwimtaze.so.$(VERSION) "$(lib)/libwimtaze.so.$(MAJOR)"
	ln -sf libwimtaze.so.$(MAJOR) "$(lib)/libwimtaze.so"
	sed -e 's|@PREFIX@|$(PREFIX)|' -e 's|@LIBDIR@|$(LIBDIR)|' -e 's|@VERSION@|$(VERSION)|' \
		-e 's|@RUNPATH@|$(RUNPATH)|' wimtaze.pc.in >"$(lib)/pkgconfig/wimtaze.pc"
	install -m 755 $(HALL) "$(to)/bin/hall"
	install -m 644 man/hall.1 "$(to)/share/man/man1"
	install -m 644 man/wimtaze.3 "$(to)/share/man/man3"
	for call in $(CALLS); do echo ".so man3/wimtaze.3" >"$(to)/share/man/man3/$$call.3" || exit 1; done
	install -m 644 $(EXAMPLES:%=examples/%) "$(doc)/examples"
	for file in $(DOCUMENTS); do install -m 644 $$file "$(doc)/$$file" || exit 1; done

# Removes files by their names, and then the folders that were made for Wimtaze alone, if nothing else is in them.
uninstall:
	cd "$(to)" && rm -f include/wimtaze.h include/wimtaze_rows.h bin/hall bin/wimtaze-notepad $(PAGES:%=share/man/%)
	cd "$(lib)" && rm -f libwimtaze.a libwimtaze.so libwimtaze.so.$(MAJOR) libwimtaze.so.$(VERSION) pkgconfig/wimtaze.pc
	cd "$(to)" && rm -f $(EXAMPLES:%=share/doc/wimtaze/examples/%) $(DOCUMENTS:%=share/doc/wimtaze/%)
	for folder in "$(doc)/examples" "$(doc)/docs" "$(doc)"; do \
		if [ -d "$$folder" ]; then rmdir --ignore-fail-on-non-empty "$$folder"; fi; done

deb: all
	LIBRARY=$(LIBRARY) SHARED=$(SHARED) HALL=$(HALL) MAINTAINER='$(MAINTAINER)' packaging/deb

native:
	tests/native/run

run: target/bin/hall
	target/bin/hall < examples/hall.txt

demo: $(LIBRARY)
	mkdir -p target/demo
	$(CC) $(CFLAGS) -Iinclude examples/playing_hall.c $(LIBRARY) -o target/demo/playing_hall
	target/demo/playing_hall 20 1 $(MINUTES)

soak: $(LIBRARY)
	mkdir -p target/soak
	cp $(LIBRARY) target/soak/libwimtaze.a
	rustc --edition 2021 -O -D warnings tests/native/differential.rs -L native=target/soak -l static=wimtaze \
		-o target/soak/differential
	target/soak/differential $(SECONDS) $(SEED)

bench: library target/staticlib/libworkload.a
	mkdir -p target/bench
	rustc --edition 2021 -O -D warnings bench/receive.rs -L target/staticlib -l static=workload -o target/bench/receive
	rustc --edition 2021 -O -D warnings bench/calls.rs -L target/staticlib -l static=wimtaze -o target/bench/calls
	rustc --edition 2021 -O -D warnings bench/edits.rs -L target/staticlib -l static=wimtaze -o target/bench/edits
	$(CC) $(CFLAGS) bench/copies.c target/staticlib/libworkload.a -Wl,--wrap=memcpy -o target/bench/copies
	target/bench/receive docs/receive.svg
	target/bench/copies
	@if command -v valgrind >/dev/null; then for side in table library; do \
		echo "instructions of the same work, $$side: $$(valgrind --tool=callgrind --callgrind-out-file=/dev/null \
		target/bench/receive only $$side 2>&1 | sed -n 's/.*Collected : //p')"; done; fi
	target/bench/calls
	target/bench/edits
	@if command -v valgrind >/dev/null; then \
		echo "instructions of wimtaze_receive, in the middle, 1,023 rows: $$(valgrind --tool=callgrind \
		--callgrind-out-file=/dev/null --toggle-collect=wimtaze_receive target/bench/edits once 2>&1 | \
		sed -n 's/.*Collected : //p') (bar 900,000)"; fi

test:
	$(need_rt)
	.ci/progress .ci/run

clean:
	rm -rf target crates/*/out

# ---- the notepad

# Where there is ncurses, make builds the notepad too, and make install installs it as wimtaze-notepad. Its source is
# installed among the examples in any case.
NOTEPAD = target/notepad/notepad

# What to compile with for ncurses: what pkg-config says, or else the usual names; nothing where that builds no program.
NCURSES = $(shell mkdir -p target/notepad; for flags in "$$(pkg-config --cflags --libs ncursesw 2>/dev/null)" \
	"-lncursesw -ltinfo" "-lncursesw"; do \
	echo 'int main(void) { cchar_t c; return raw() + setcchar(&c, L"x", 0, 0, 0); }' | \
		$(CC) -D_XOPEN_SOURCE_EXTENDED -include curses.h -xc - $$flags -o target/notepad/probe 2>/dev/null && \
		echo "$$flags" && break; done)

.PHONY: notepad try ncurses-flags needs-ncurses needs-tmux notepad-where-it-can install-notepad

notepad: needs-ncurses $(NOTEPAD)

# The tools are looked for first: the library may take minutes to prove.
try: needs-tmux notepad
	@examples/try_notepad

needs-tmux:
	@examples/try_notepad tools

ncurses-flags:
	@echo "$(NCURSES)"

needs-ncurses:
	@[ -n "$(NCURSES)" ] || { echo "make: there is no ncurses with wide characters here, or no C compiler, and the" \
		"notepad needs both. Install them (Debian and Ubuntu: apt-get install gcc libncurses-dev; Fedora: dnf install" \
		"gcc ncurses-devel)." >&2; exit 1; }

$(NOTEPAD): examples/notepad.c examples/laptop.h include/wimtaze.h include/wimtaze_rows.h $(LIBRARY)
	@mkdir -p target/notepad
	$(CC) -std=c99 $(CFLAGS) -Iinclude examples/notepad.c $(LIBRARY) $(NCURSES) -o $@

all: notepad-where-it-can

notepad-where-it-can: $(LIBRARY)
	@[ -z "$(NCURSES)" ] || $(MAKE) -s $(NOTEPAD)

# It comes before the rest of what make install does, so it installs nothing where that would be refused. The question is
# asked by another name, since make -n would carry out a line that names MAKE.
UP_TO_DATE = $(MAKE) -q

install: install-notepad

install-notepad: to = $(DESTDIR)$(PREFIX)
install-notepad:
	@if $(UP_TO_DATE) $(LIBRARY) $(SHARED) $(HALL) >/dev/null 2>&1; then \
		install -d "$(to)/share/doc/wimtaze/examples" "$(to)/bin" "$(to)/share/man/man1" && \
		install -m 644 examples/notepad.c "$(to)/share/doc/wimtaze/examples" && \
		if $(UP_TO_DATE) $(NOTEPAD) >/dev/null 2>&1; then \
			install -m 755 $(NOTEPAD) "$(to)/bin/wimtaze-notepad" && \
			install -m 644 man/wimtaze-notepad.1 "$(to)/share/man/man1"; \
		fi; \
	fi
