# Needs the Rattle kit (rt) on the PATH.
.POSIX:
.PHONY: help test bench library listing replay run install uninstall fmt clean

PREFIX = /usr/local
DESTDIR =
VERSION = 0.1
ROOT = $(DESTDIR)$(PREFIX)
LISTING = target/bin/listing
REPLAY = rust/target/release/thayarqo-replay

help:
	@echo 'make test    prove every crate and run every test'
	@echo 'make bench   measure the library against plain C'
	@echo 'make library build target/libthayarqo.a, for C or Rust to link'
	@echo 'make replay  build the tool that runs scripts of calls'
	@echo 'make run     replay a sample script and list a sample capture'
	@echo 'make install PREFIX=DIR    put the header, the library and the programs in place; uninstall takes them away'
	@echo 'make fmt     format the sources of the crates'
	@echo 'make clean   remove what was built'

test:
	@tests/run

bench: library
	bench/run

library:
	@tools/library

listing:
	@tools/program listing

# Without cargo there is no replay, and all else is as it is.
replay: library
	@if command -v cargo >/dev/null; then \
	    cargo build --manifest-path rust/Cargo.toml --offline --release --package thayarqo-replay; \
	else \
	    echo 'the replay tool is left out: no cargo'; \
	fi

run: replay listing
	@if [ -x $(REPLAY) ]; then $(REPLAY) examples/stream.replay; fi
	$(LISTING) <examples/pen.capture

install: replay listing
	mkdir -p $(ROOT)/include $(ROOT)/lib/pkgconfig $(ROOT)/bin
	cp include/*.h $(ROOT)/include
	cp target/libthayarqo.a $(ROOT)/lib
	sed -e 's|@PREFIX@|$(PREFIX)|' -e 's|@VERSION@|$(VERSION)|' thayarqo.pc.in >$(ROOT)/lib/pkgconfig/thayarqo.pc
	cp $(LISTING) $(ROOT)/bin/thayarqo-listing
	@if [ -x $(REPLAY) ]; then cp $(REPLAY) $(ROOT)/bin; fi

uninstall:
	for header in include/*.h; do rm -f $(ROOT)/$$header; done
	rm -f $(ROOT)/lib/libthayarqo.a $(ROOT)/lib/pkgconfig/thayarqo.pc $(ROOT)/bin/thayarqo-listing $(ROOT)/bin/thayarqo-replay

fmt:
	for crate in crates/*/; do (cd $$crate && rt fmt) || exit; done

clean:
	rm -rf target rust/target crates/*/out
