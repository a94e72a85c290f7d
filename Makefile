# exi: an EXI codec, proved. `rt` is the kit's command.
PREFIX ?= /usr/local

.PHONY: all check demo test bench install uninstall clean

all: exi

# Proves every crate that the program stands on, builds it and leaves ./exi.
exi: $(shell find crates/*/src crates/*/specs crates/*/proofs) crates.txt HANDLES
	@echo 'proving and building; the log is in exi.log'
	@cd crates/exi_cli && rt run -- read ../../examples/one-element.exi > ../../exi.log 2>&1 \
		|| { tail -n 40 ../../exi.log; exit 1; }
	@cp crates/exi_cli/out/exi_cli exi

# Compiles the program without proving it, and reads and writes a message of examples/.
demo:
	@tools/demo

# The quick loop: compiles the program without proving it, and runs it on the cases of tests/cases.
check:
	@tests/check

# What the gate runs: each proof and test, wrong bodies that have to be refused, and the program end to end.
test:
	@tests/progress

# Measures the program beside gzip, zstd, expat and Fast Infoset, and writes bench/RESULTS.md and the README's part of it.
bench: exi
	@EXI=./exi bench/run

install: exi
	install -d '$(DESTDIR)$(PREFIX)/bin' '$(DESTDIR)$(PREFIX)/share/man/man1'
	install -m 755 exi tools/exi-xml '$(DESTDIR)$(PREFIX)/bin'
	install -m 644 docs/exi.1 '$(DESTDIR)$(PREFIX)/share/man/man1'
	ln -sf exi.1 '$(DESTDIR)$(PREFIX)/share/man/man1/exi-xml.1'

uninstall:
	rm -f '$(DESTDIR)$(PREFIX)/bin/exi' '$(DESTDIR)$(PREFIX)/bin/exi-xml'
	rm -f '$(DESTDIR)$(PREFIX)/share/man/man1/exi.1' '$(DESTDIR)$(PREFIX)/share/man/man1/exi-xml.1'

clean:
	rm -rf exi exi.log test.log crates/*/out
