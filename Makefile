# make: proves and builds hintcheck, where that isn't done. make check: runs all checks, `rt ci` among them, whose last line is the last one here too.
# make try: runs the program without a proof on fonts of examples/, or on WORDS. make quick CRATE=NAME: proves one crate and those below it, and runs
# its tests. make pages: lists all definitions with their sentences, in the file `out/definitions.md`, and all contracts with the edits that break
# them, in `out/contracts.md`. make clean: removes all that was built, and what the prover keeps of it in this checkout.
# make install: puts the program, its manual page and completions under PREFIX.
# make install-library: proves and builds the library for C and C++, and puts it, its header and a pkg-config file there.
# make dist, make deb: packs what `rt ci` has passed as an archive, or a Debian package, in the folder `out`.
PREFIX = /usr/local
DESTDIR =
bindir = $(DESTDIR)$(PREFIX)/bin
datadir = $(DESTDIR)$(PREFIX)/share
includedir = $(DESTDIR)$(PREFIX)/include
libdir = $(DESTDIR)$(PREFIX)/lib
library = crates/hintcheck_c/out/libhintcheck_c.a
archive = crates/hintcheck_c/out/libhintcheck.a

# What `make try` runs the program on.
WORDS = scan examples/certificates/call-pops.ttf examples/certificates/call-underflows.ttf

.PHONY: all check try quick pages clean library install install-library uninstall dist deb

all:
	./hintcheck --build

check:
	@bench/check.py

try:
	./hintcheck --try $(WORDS)

quick:
	@test -n "$(CRATE)" || { echo "make quick CRATE=NAME: a crate of crates.txt" >&2; exit 2; }
	bench/build.py --tests $(CRATE)

pages:
	@bench/definitions.py
	@bench/contracts.py

clean:
	rm -rf crates/*/out out

library:
	bench/build.py hintcheck_c

# The archive gets the toolchain's part of the C library too, so that one library is enough to link. It is made here and then installed, since `ar -M`
# takes no spaces in names.
install-library: library
	printf 'create %s\naddlib %s\naddlib %s\nsave\nend\n' $(archive) $(library) $(dir $(shell rt doc))c/liblibc_c.a | ar -M
	install -d "$(includedir)" "$(libdir)/pkgconfig"
	install -m 644 $(archive) "$(libdir)/libhintcheck.a"
	install -m 644 include/hintcheck.h "$(includedir)/hintcheck.h"
	sed 's|@PREFIX@|$(PREFIX)|' include/hintcheck.pc.in >"$(libdir)/pkgconfig/hintcheck.pc"
	chmod 644 "$(libdir)/pkgconfig/hintcheck.pc"

dist:
	@bench/pack.py dist

deb:
	@bench/pack.py deb

install: all
	install -d "$(bindir)" "$(datadir)/man/man1" "$(datadir)/bash-completion/completions" \
		"$(datadir)/zsh/site-functions" "$(datadir)/fish/vendor_completions.d"
	install -m 755 crates/hintcheck_cli/out/hintcheck_cli "$(bindir)/hintcheck"
	install -m 644 docs/hintcheck.1 "$(datadir)/man/man1/hintcheck.1"
	install -m 644 completions/hintcheck.bash "$(datadir)/bash-completion/completions/hintcheck"
	install -m 644 completions/_hintcheck "$(datadir)/zsh/site-functions/_hintcheck"
	install -m 644 completions/hintcheck.fish "$(datadir)/fish/vendor_completions.d/hintcheck.fish"

uninstall:
	rm -f "$(bindir)/hintcheck" "$(datadir)/man/man1/hintcheck.1" "$(datadir)/bash-completion/completions/hintcheck" \
		"$(datadir)/zsh/site-functions/_hintcheck" "$(datadir)/fish/vendor_completions.d/hintcheck.fish" \
		"$(includedir)/hintcheck.h" "$(libdir)/libhintcheck.a" "$(libdir)/pkgconfig/hintcheck.pc"
