# The MCP2515 stand-in. `make help` says what there is.

# The crate whose archive C programs link.
LIBRARY = stand_in
ARCHIVE = crates/$(LIBRARY)/out/lib$(LIBRARY).a
REPLAY = crates/replay/out/replay

CC = gcc
CFLAGS = -std=c11 -O2 -Wall -Wextra -Werror
TOOL = build/mcp2515
TOOL_FILES = $(wildcard tools/*.c)
EXAMPLES = build/whole_log build/compare_logs build/live build/timing build/load

# Where `make install` puts things; DESTDIR goes in front of all of it.
PREFIX = /usr/local
DESTDIR =
VERSION = $(shell sed -n 's/^.define MCP2515_VERSION "\(.*\)".*/\1/p' include/mcp2515.h)

.PHONY: all sample prove lib tool examples tool-check install install-check uninstall check help clean
.NOTPARALLEL:

all: prove lib tool sample

# What the proofs say goes to a file; a line for each crate is shown as it is proved.
prove:
	@echo "== proving the crates and building the replay program: some minutes the first time (build/prove.log has the prover's notes)"
	@.ci/progress build/prove.log sh -c 'cd crates/replay && rt run <stdin >/dev/null'

lib:
	@echo "== building $(ARCHIVE)"
	@.ci/progress build/lib.log sh -c 'cd crates/$(LIBRARY) && rt lib'

tool: $(TOOL)

$(TOOL): $(TOOL_FILES) tools/tool.h include/mcp2515.h $(ARCHIVE)
	@echo "== building $(TOOL)"
	@mkdir -p build
	@$(CC) $(CFLAGS) -Iinclude $(TOOL_FILES) $(ARCHIVE) -o $@

build/%: examples/%.c include/mcp2515.h $(ARCHIVE)
	@mkdir -p build
	@$(CC) $(CFLAGS) -Iinclude $< $(ARCHIVE) -o $@

examples: $(EXAMPLES)
	@for program in $(EXAMPLES); do echo "== $$program"; $$program || exit 1; done

tool-check: $(TOOL)
	@echo "== the tool against the replay program, and how it takes files that misbehave"
	@$(MAKE) -s -C bench logs
	@tools/check.sh $(TOOL) $(REPLAY)

$(ARCHIVE):
	@echo "no archive at $(ARCHIVE): make lib, or set ARCHIVE" >&2; exit 1

sample:
	@echo "== $(REPLAY) samples/switchover.log: number, refusal and answer of each of its 59 records"
	@$(REPLAY) samples/switchover.log | tail -n 5

install: $(TOOL)
	install -d $(DESTDIR)$(PREFIX)/bin $(DESTDIR)$(PREFIX)/include $(DESTDIR)$(PREFIX)/lib/pkgconfig
	install -m 755 $(TOOL) $(DESTDIR)$(PREFIX)/bin/mcp2515
	install -m 644 include/mcp2515.h $(DESTDIR)$(PREFIX)/include/mcp2515.h
	install -m 644 $(ARCHIVE) $(DESTDIR)$(PREFIX)/lib/lib$(LIBRARY).a
	printf 'prefix=%s\nincludedir=$${prefix}/include\nlibdir=$${prefix}/lib\n\nName: mcp2515\nDescription: proved software stand-in for the MCP2515 CAN controller\nVersion: %s\nCflags: -I$${includedir}\nLibs: -L$${libdir} -l%s\n' \
	    '$(PREFIX)' '$(VERSION)' '$(LIBRARY)' >$(DESTDIR)$(PREFIX)/lib/pkgconfig/mcp2515.pc

# What is installed serves a C program by its pkg-config file.
INSTALLED = $(CURDIR)/build/installed
install-check:
	@echo "== a C program from what make install puts in place"
	@rm -rf $(INSTALLED)
	@$(MAKE) -s install PREFIX=$(INSTALLED) DESTDIR= >build/install.log
	@if command -v pkg-config >/dev/null; then \
	    flags=$$(PKG_CONFIG_PATH=$(INSTALLED)/lib/pkgconfig pkg-config --cflags --libs mcp2515); \
	else \
	    echo "== no pkg-config here: its file is not tried"; flags="-I$(INSTALLED)/include -L$(INSTALLED)/lib -l$(LIBRARY)"; \
	fi; $(CC) $(CFLAGS) examples/whole_log.c $$flags -o build/installed_example
	@build/installed_example >/dev/null
	@$(INSTALLED)/bin/mcp2515 --version
	@$(MAKE) -s uninstall PREFIX=$(INSTALLED) DESTDIR=
	@test -z "$$(find $(INSTALLED) -type f)" || { echo "make uninstall leaves files" >&2; exit 1; }

uninstall:
	rm -f $(DESTDIR)$(PREFIX)/bin/mcp2515 $(DESTDIR)$(PREFIX)/include/mcp2515.h
	rm -f $(DESTDIR)$(PREFIX)/lib/lib$(LIBRARY).a $(DESTDIR)$(PREFIX)/lib/pkgconfig/mcp2515.pc

check:
	@echo "== the whole gate, .ci/run: 4 minutes where all was proved here before, else some 25 (build/check.log has all that it says)"
	@.ci/progress build/check.log .ci/run

clean:
	rm -rf build crates/*/out
	$(MAKE) -C bench clean

help:
	@echo "make            prove the code, build replay, archive and tool, replay a sample (some minutes the first time)"
	@echo "make lib        the archive for C programs: $(ARCHIVE)"
	@echo "make tool       the command-line tool, from the archive: $(TOOL)"
	@echo "make examples   build and run examples/*.c"
	@echo "make tool-check the tool against the replay program"
	@echo "make install PREFIX=$(PREFIX) DESTDIR=    tool, header, archive, pkg-config file; make uninstall"
	@echo "make check      the whole gate: tests, proofs, must-fail edits (4 to some 25 minutes)"
	@echo "make clean      remove what was built"
	@echo "ARCHIVE=.. takes another archive, REPLAY=.. another replay program"
	@echo "make -C bench check | compare | live | pairs | timing | loader | same | header | speed | stack | mutate    the C side alone; see bench/Makefile"
