# make              builds target/staticlib/libhowhakiru.a
# make check        runs the gate
# make bench        times the library beside the Rust
# make install      puts header, library and howhakiru.pc below PREFIX (/usr/local), staged below DESTDIR if that is set
# make uninstall    removes these three files
# make clean        removes target/ and what rt keeps in crates/*/out/
# make help         writes these lines

PREFIX ?= /usr/local
DESTDIR ?=

# howhakiru.pc names PREFIX, so it has to be an absolute path, and one that needs no quotes there.
ifneq ($(PREFIX),$(firstword $(filter /%,$(PREFIX))))
$(error PREFIX is to be an absolute path without spaces, and is '$(PREFIX)')
endif

root = $(DESTDIR)$(PREFIX)
header = $(root)/include/howhakiru.h
library = $(root)/lib/libhowhakiru.a
package = $(root)/lib/pkgconfig/howhakiru.pc

.PHONY: all check bench install uninstall clean help

# The script decides whether the library is older than a source.
all:
	tests/library.sh

check:
	.ci/run

bench:
	bench/run.sh

install: all
	install -d '$(root)/include' '$(root)/lib/pkgconfig'
	install -m 644 include/howhakiru.h '$(header)'
	install -m 644 target/staticlib/libhowhakiru.a '$(library)'
	sed 's|@PREFIX@|$(PREFIX)|' howhakiru.pc.in >target/howhakiru.pc
	install -m 644 target/howhakiru.pc '$(package)'

uninstall:
	rm -f '$(header)' '$(library)' '$(package)'

clean:
	rm -rf target crates/*/out

help:
	@sed -n 's/^# make/make/p' Makefile
