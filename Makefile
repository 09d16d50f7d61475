# The program leasecheck, and the library for C: libsmblease.a and libsmblease.so.
#
#   make                        has both at hand: from dist/ where that fits these sources and this machine, else proved and built here
#   make install PREFIX=DIR     installs them, with headers, smblease.pc, what CMake finds, man pages, completion for bash and pages of docs/
#                               (DESTDIR is put before DIR)
#   make install-python         installs the package for Python and its commands too, by pip and without a network; needs hatchling
#   make uninstall              removes all that; give it the same PREFIX
#   make check                  runs the tests that need no kit, in some six minutes; tools/setup installs what they need
#   make check-long             runs those of these tests that take longer
#   make lint                   has mypy and pylint look at all Python
#   make man                    writes the man pages and completions anew, from --help, docs/C.md and the headers; needs pandoc
#   make rust                   writes rust/ anew from the crates; needs rustfmt
#   make check-rust             looks whether rust/ is that, and runs its tests and clippy, and over what cargo builds of it the tests of make check that
#                               ask the program and the library; SMBLEASE_BUILD=plain make check runs all of them over that
#   make check-aarch64          proves and builds the library for C for aarch64 over what the gate proved, and runs tests in C over it under qemu
#   make prove                  proves and builds both, whatever is in dist/; needs the Rattle kit
#   make dist                   does that, and puts them into dist/
#   make clean                  removes what was built here; what is proved stays
#
# Nothing is compiled or linked here: the kit's compiler has done that.

PREFIX ?= /usr/local
BINDIR ?= $(PREFIX)/bin
LIBDIR ?= $(PREFIX)/lib
LIBEXECDIR ?= $(PREFIX)/libexec/smblease
INCLUDEDIR ?= $(PREFIX)/include
DATADIR ?= $(PREFIX)/share
MANDIR ?= $(DATADIR)/man
DOCDIR ?= $(DATADIR)/doc/smblease
COMPLETIONDIR ?= $(DATADIR)/bash-completion/completions

# The version stands in the header alone; smblease.pc and the installed command leasecheck have the commit too. The soname changes where a program
# that was linked before could no longer run.
number = $(shell sed -n 's/^\#define SMBLEASE_VERSION_$(1) //p' include/smblease.h)
VERSION := $(call number,MAJOR).$(call number,MINOR).$(call number,PATCH)
SONAME := libsmblease.so.$(call number,MAJOR)
SHARED := libsmblease.so.$(VERSION)

PYTHON ?= /usr/bin/python3
JOBS ?= auto

OUT := out/c
DIST := dist/x86_64-linux
HEADERS := $(notdir $(wildcard include/*.h))
# What is installed of the pages and examples: what a user reads, and COPYING.md on the licence.
PAGES := CHANGELOG.md COPYING.md SECURITY.md $(patsubst %,docs/%.md,BUILDING C CAPTURES CLIENT_AUTHORS CLIENT_TESTS FORMATS FOUND_ON_SMBD MODEL PROFILE PROOF PROOF_OF_TEXTS PYTHON \
         REAL_SERVERS RUST SERVER_AUTHORS SERVE SERVE_TRIED SESSIONS)
MANUAL := man1/leasecheck.1 $(patsubst man/%,%,$(wildcard man/man3/*.3))
CMAKE := smblease-config.cmake smblease-config-version.cmake
EXAMPLES := $(patsubst examples/%,%,$(wildcard examples/*.txt examples/c/*.c examples/c/CMakeLists.txt examples/c/file_server/*.txt examples/python/*.py))

# What was made from these sources stands in one folder, which tools/current prints, and is copied only where it changed. Each file is made beside
# its place and then moved there, since programs that are started at once may each have it made.
all: FORCE
	@mkdir -p $(OUT)
	@found=$$(tools/current) && for made in leasecheck libsmblease.a $(SHARED); do \
	    file=$$found/$$(echo $$made | sed 's/\.so\..*/.so/'); \
	    cmp -s "$$file" $(OUT)/$$made || { cp "$$file" $(OUT)/$$made.$$$$ && mv $(OUT)/$$made.$$$$ $(OUT)/$$made; } || exit 1; done
	@ln -s $(SHARED) $(OUT)/$(SONAME).$$$$ && mv -T $(OUT)/$(SONAME).$$$$ $(OUT)/$(SONAME)
	@ln -s $(SONAME) $(OUT)/libsmblease.so.$$$$ && mv -T $(OUT)/libsmblease.so.$$$$ $(OUT)/libsmblease.so

install: all
	mkdir -p "$(DESTDIR)$(BINDIR)" "$(DESTDIR)$(LIBDIR)/pkgconfig" "$(DESTDIR)$(LIBDIR)/cmake/smblease" "$(DESTDIR)$(INCLUDEDIR)"
	install -D -m 755 $(OUT)/leasecheck "$(DESTDIR)$(LIBEXECDIR)/leasecheck"
	sed -e "s|@PROGRAM@|$$(realpath -m --relative-to="$(BINDIR)" "$(LIBEXECDIR)")/leasecheck|" -e "s|@COMMIT@|$$(tools/commit)|" tools/installed_program.in \
	    > "$(DESTDIR)$(BINDIR)/leasecheck"
	chmod 755 "$(DESTDIR)$(BINDIR)/leasecheck"
	install -m 644 $(OUT)/libsmblease.a "$(DESTDIR)$(LIBDIR)/libsmblease.a"
	install -m 755 $(OUT)/$(SHARED) "$(DESTDIR)$(LIBDIR)/$(SHARED)"
	ln -sf $(SHARED) "$(DESTDIR)$(LIBDIR)/$(SONAME)"
	ln -sf $(SONAME) "$(DESTDIR)$(LIBDIR)/libsmblease.so"
	for header in $(HEADERS); do install -m 644 include/$$header "$(DESTDIR)$(INCLUDEDIR)/$$header" || exit 1; done
	sed -e 's|@PREFIX@|$(PREFIX)|' -e 's|@LIBDIR@|$(subst $(PREFIX)/,$${prefix}/,$(LIBDIR))|' \
	    -e 's|@INCLUDEDIR@|$(subst $(PREFIX)/,$${prefix}/,$(INCLUDEDIR))|' -e 's|@VERSION@|$(VERSION)|' -e "s|@COMMIT@|$$(tools/commit)|" include/smblease.pc.in \
	    > "$(DESTDIR)$(LIBDIR)/pkgconfig/smblease.pc"
	for file in $(CMAKE); do sed -e 's|@VERSION@|$(VERSION)|' -e 's|@MAJOR@|$(call number,MAJOR)|' -e 's|@SHARED@|$(SHARED)|' -e 's|@SONAME@|$(SONAME)|' \
	    -e "s|@HEADERS@|$$(realpath -m --relative-to="$(LIBDIR)" "$(INCLUDEDIR)")|" include/$$file.in \
	    > "$(DESTDIR)$(LIBDIR)/cmake/smblease/$$file" || exit 1; done
	for page in $(MANUAL); do install -D -m 644 man/$$page "$(DESTDIR)$(MANDIR)/$$page" || exit 1; done
	install -D -m 644 completion/leasecheck "$(DESTDIR)$(COMPLETIONDIR)/leasecheck"
	for page in $(PAGES); do install -D -m 644 $$page "$(DESTDIR)$(DOCDIR)/$${page##*/}" || exit 1; done
	for name in $(EXAMPLES); do install -D -m 644 examples/$$name "$(DESTDIR)$(DOCDIR)/examples/$$name" || exit 1; done

install-python: install
	$(PYTHON) tools/install_python "$(PREFIX)" "$(DESTDIR)"

uninstall:
	! command -v "$(PYTHON)" >/dev/null || $(PYTHON) tools/install_python --remove "$(PREFIX)" "$(DESTDIR)"
	rm -f "$(DESTDIR)$(BINDIR)/leasecheck" "$(DESTDIR)$(LIBEXECDIR)/leasecheck" "$(DESTDIR)$(LIBDIR)/pkgconfig/smblease.pc" \
	    "$(DESTDIR)$(COMPLETIONDIR)/leasecheck"
	rmdir "$(DESTDIR)$(LIBEXECDIR)" 2>/dev/null || :
	for page in $(MANUAL); do rm -f "$(DESTDIR)$(MANDIR)/$$page"; done
	for file in $(CMAKE); do rm -f "$(DESTDIR)$(LIBDIR)/cmake/smblease/$$file"; done
	rmdir "$(DESTDIR)$(LIBDIR)/cmake/smblease" 2>/dev/null || :
	for name in libsmblease.a libsmblease.so $(SONAME) $(SHARED); do rm -f "$(DESTDIR)$(LIBDIR)/$$name"; done
	for header in $(HEADERS); do rm -f "$(DESTDIR)$(INCLUDEDIR)/$$header"; done
	for page in $(PAGES); do rm -f "$(DESTDIR)$(DOCDIR)/$${page##*/}"; done
	for name in $(EXAMPLES); do rm -f "$(DESTDIR)$(DOCDIR)/examples/$$name"; done
	for folder in /examples/c/file_server /examples/c /examples/python /examples ''; do rmdir "$(DESTDIR)$(DOCDIR)$$folder" 2>/dev/null || :; done

check: all
	$(PYTHON) -m pytest -n $(JOBS) --dist loadgroup -q -m "not long" $(TESTS)

check-long: all
	$(PYTHON) -m pytest -n $(JOBS) --dist loadgroup -q -m long $(TESTS)

lint:
	tools/lint

man:
	rm -f man/man1/* man/man3/*
	tools/manual man
	tools/completion completion

rust:
	tools/plain_rust

# (the pages' own programs, which `make check` looks at, stay those of dist/)
check-rust:
	tools/plain_rust --check
	tools/cargo clippy --quiet --workspace --all-targets -- -D warnings
	tools/cargo --workspace-of smblease_c clippy --quiet -- -D warnings
	tools/cargo test --quiet --workspace
	RUSTDOCFLAGS='-D warnings' tools/cargo doc --quiet --no-deps --workspace
	SMBLEASE_BUILD=plain $(MAKE) check TESTS="$(or $(TESTS),tests/program tests/c tests/python)"
	SMBLEASE_BUILD=plain $(MAKE) check-long TESTS=tests/refused_growths/test_program.py

check-aarch64: all
	tools/prove --over-gate aarch64
	SMBLEASE_PROCESSOR=aarch64 $(MAKE) check TESTS="tests/c/test_library.py tests/c/test_machines.py tests/c/test_file_server.py tests/c/test_damaged_texts.py"

prove:
	tools/prove

dist: prove
	mkdir -p $(DIST)
	rm -f $(DIST)/*
	cp out/proved/leasecheck out/proved/libsmblease.a out/proved/libsmblease.so out/proved/SOURCES $(DIST)/
	cd $(DIST) && sha256sum leasecheck libsmblease.a libsmblease.so > SHA256SUMS

clean:
	rm -rf $(OUT)

FORCE:

.PHONY: all install install-python uninstall check check-aarch64 check-long check-rust lint man prove dist rust clean FORCE
