# Building, checking and installing the proved program.
#
#   make                          proves and builds it where it isn't built
#   make check                    the gate: all proofs, must-fail edits and tests
#   make install PREFIX=/usr      the program, its manual page, and its completion in bash
#   make install PROGRAM=PATH     with a program that was built elsewhere
PREFIX ?= /usr/local
DESTDIR ?=
PROGRAM = $$(bin/pyvrp --print-program)
PLACE = $(DESTDIR)$(PREFIX)

.PHONY: all check install uninstall
all:
	bin/pyvrp --print-program

check:
	.ci/run

install:
	program="$(PROGRAM)" && install -D -m 755 "$$program" "$(PLACE)/bin/pyvrp"
	install -D -m 644 docs/pyvrp.1 "$(PLACE)/share/man/man1/pyvrp.1"
	install -D -m 644 tools/completion.bash "$(PLACE)/share/bash-completion/completions/pyvrp"

uninstall:
	rm -f "$(PLACE)/bin/pyvrp" "$(PLACE)/share/man/man1/pyvrp.1" "$(PLACE)/share/bash-completion/completions/pyvrp"
