# make -s run < examples/first.hex   decode standard input (proves and builds the program first)
# make test                          the gate
# make library program               prove and build what is installed
# make install PREFIX=/usr/local     install it; make uninstall takes it away
# make report                        the figures as pictures, target/report.html
.PHONY: run test check mutants compare bench simulate library program shared install uninstall report

# What is built and what is installed are goals of their own, so make library program install has to go in this order.
.NOTPARALLEL:

run: program
	@target/bin/decode

test:
	bash .ci/run

# Proves what changed.
check:
	rt all check

# The must-fail edits that stand outside the gate: every one must be refused.
mutants:
	bash scripts/mutants

library:
	cd crates/petsivola_c && rt lib < /dev/null
	@install -C -D -m 644 crates/petsivola_c/out/libpetsivola_c.a $(archive)

# rt run builds the program and runs it, here on no input; what rt says comes on standard error, since run is a filter.
program:
	@cd crates/decode && rt run < /dev/null > /dev/null
	@install -C -D -m 755 crates/decode/out/decode $(decode)

# The static library and the program beside the independent decoder: ROUNDS rounds, each as long as in the gate.
compare: library program
	cargo run --manifest-path reference/Cargo.toml --release --offline -p compare -- $(or $(ROUNDS),10)

# Rewrites docs/bench and docs/simulation.
bench: library
	cargo run --manifest-path reference/Cargo.toml --release --offline -p bench

simulate: library
	cargo run --manifest-path reference/Cargo.toml --release --offline -p simulate

# Installing proves nothing and needs no toolchain: it copies what is built, and links the shared library out of the archive.
CC = gcc
INSTALL ?= install
PREFIX ?= /usr/local
bindir ?= $(PREFIX)/bin
libdir ?= $(PREFIX)/lib
includedir ?= $(PREFIX)/include
pkgconfigdir ?= $(libdir)/pkgconfig

header := include/petsivola.h
archive := target/staticlib/libpetsivola.a
decode := target/bin/decode
# The header has the version, and nothing else says it. The dot is a number sign, which some makes take as a comment here.
version := $(shell sed -n 's/^.define PETSIVOLA_VERSION "\(.*\)"$$/\1/p' $(header))
soname := libpetsivola.so.$(firstword $(subst ., ,$(version)))
shared := target/shared/libpetsivola.so.$(version)

# These stand for files that are not there; one that is there is up to date.
built = $(archive) $(decode)
$(built):
	@echo "missing: $(filter-out $(wildcard $(built)),$(built)). 'make library program' proves and builds what is installed." >&2; exit 1

shared: $(shared)

# The figures of docs/bench and docs/simulation as pictures, and one frame iteration by iteration.
report: $(archive)
	scripts/report

# The linker refuses an archive that is not position independent (-z text) or that needs more than the C library (-z defs).
$(shared): $(archive) packaging/exports.map Makefile
	@mkdir -p $(@D)
	$(CC) -shared $(LDFLAGS) -Wl,-soname,$(soname) -Wl,--version-script,packaging/exports.map -Wl,-z,text,-z,defs,--fatal-warnings \
	    -Wl,--whole-archive $(archive) -Wl,--no-whole-archive -o $@

# Each installed file or link. The program is petsivola-decode there, since decode alone may be anybody's on a system's path.
to_header = $(DESTDIR)$(includedir)/petsivola.h
to_archive = $(DESTDIR)$(libdir)/libpetsivola.a
to_shared = $(DESTDIR)$(libdir)/$(notdir $(shared))
to_soname = $(DESTDIR)$(libdir)/$(soname)
to_linked = $(DESTDIR)$(libdir)/libpetsivola.so
to_pc = $(DESTDIR)$(pkgconfigdir)/petsivola.pc
to_program = $(DESTDIR)$(bindir)/petsivola-decode

# What petsivola.pc cannot name: a relative path, or one with spaces.
unnamable = $(filter-out /%,$(PREFIX) $(bindir) $(libdir) $(includedir) $(pkgconfigdir))
below_prefix = $(subst $(PREFIX)/,$${prefix}/,$1)

install: $(built) $(shared)
	$(if $(unnamable),$(error not an absolute path without spaces: $(unnamable)))
	$(INSTALL) -d "$(DESTDIR)$(bindir)" "$(DESTDIR)$(libdir)" "$(DESTDIR)$(includedir)" "$(DESTDIR)$(pkgconfigdir)"
	$(INSTALL) -m 644 $(header) "$(to_header)"
	$(INSTALL) -m 644 $(archive) "$(to_archive)"
	$(INSTALL) -m 755 $(shared) "$(to_shared)"
	ln -sf $(notdir $(shared)) "$(to_soname)"
	ln -sf $(soname) "$(to_linked)"
	$(INSTALL) -m 755 $(decode) "$(to_program)"
	sed -e 's|@prefix@|$(PREFIX)|' -e 's|@libdir@|$(call below_prefix,$(libdir))|' -e 's|@version@|$(version)|' \
	    -e 's|@includedir@|$(call below_prefix,$(includedir))|' packaging/petsivola.pc.in > "$(to_pc)"
	chmod 644 "$(to_pc)"

# The directories stay: others use them.
uninstall:
	rm -f "$(to_header)" "$(to_archive)" "$(to_shared)" "$(to_soname)" "$(to_linked)" "$(to_pc)" "$(to_program)"
