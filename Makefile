# The library for C: `make`, then `make install PREFIX=..`. rt proves and compiles it; README.md says what rt is.
PREFIX ?= /usr/local
VERSION = 0.1.0

# where the installed files will be found; DESTDIR is only where they are put
prefix = $(abspath $(PREFIX))
root = $(DESTDIR)$(prefix)
archive = target/staticlib/libconsole.a
sources = crates.txt $(shell find crates -name out -prune -o \( -name '*.rt' -o -name '*.antt' \) -print)

all: $(archive)

$(archive): $(sources)
	tools/build console

install: all
	install -d $(root)/include $(root)/lib/pkgconfig
	install -m 644 include/setupbook.h $(root)/include
	install -m 644 $(archive) $(root)/lib/libsetupbook.a
	sed -e 's|@PREFIX@|$(prefix)|' -e 's|@VERSION@|$(VERSION)|' include/setupbook.pc.in > $(root)/lib/pkgconfig/setupbook.pc
	chmod 644 $(root)/lib/pkgconfig/setupbook.pc

check:
	.ci/run

bench:
	bench/run

.PHONY: all install check bench
