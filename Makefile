# Builds the planning desk: `make` makes all of it, below target/. ./lampreysong runs it, and makes it first where it is not made.
#   make            the proved library for C, the programs shift and lampreysong, and the small desk of examples/
#   make install    lampreysong and its man page, below PREFIX
#   make check      the gate: every proof and every test; docs/DECISIONS.md, 106, says how long it takes
#   make clean      takes away what the C compiler made; what is proved stays
PREFIX = /usr/local
CFLAGS = -O2 -Wall -Wextra -Wpedantic -Werror

# The library is for x86-64: on another machine it takes a cross compiler.
CC := $(shell . tests/machine && echo $$cc)
SHELL = /bin/bash
BUILT = target/desk
ENGINE = target/staticlib/libdesk.a
PROVED := $(shell find crates -name out -prune -o \( -name '*.rt' -o -name '*.antt' \) -print) crates.txt
COMPILE = $(CC) -std=c99 $(CFLAGS) -pthread -Iinclude

all: $(BUILT)/lampreysong $(BUILT)/small-desk

$(BUILT)/lampreysong: $(wildcard desk/*.c desk/*.h) include/lampreysong.h $(BUILT)/engine
	@echo 'The desk is compiled.' >&2
	@$(COMPILE) -DTOOLCHAIN="\"$$(rt version)\"" desk/*.c $(ENGINE) -o $@

$(BUILT)/small-desk: examples/desk.c include/lampreysong.h $(BUILT)/engine
	@$(COMPILE) examples/desk.c $(ENGINE) -o $@

# The library is there, and is of what stands in crates/ now.
$(BUILT)/engine: $(PROVED)
	@mkdir -p $(BUILT)
	@bash desk/engine
	@touch $@

install: $(BUILT)/lampreysong
	install -D -m 755 $(BUILT)/lampreysong $(DESTDIR)$(PREFIX)/bin/lampreysong
	install -D -m 644 desk/lampreysong.1 $(DESTDIR)$(PREFIX)/share/man/man1/lampreysong.1

check:
	.ci/run

clean:
	rm -rf $(BUILT)

.PHONY: all install check clean
.DELETE_ON_ERROR:
