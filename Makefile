# For C users and packagers: the archive, its installation, the example. 'make' alone says what there is.
PREFIX = /usr/local
bindir = $(PREFIX)/bin
libdir = $(PREFIX)/lib
libexecdir = $(PREFIX)/libexec
includedir = $(PREFIX)/include
mandir = $(PREFIX)/share/man
pkgconfigdir = $(libdir)/pkgconfig
DESTDIR =
# recipes read these from their environment, where no character needs quoting
export PREFIX bindir libdir libexecdir includedir mandir pkgconfigdir DESTDIR

archive := target/made/libwickthrush.a
programs := target/made/gateway target/made/service target/made/wall
header := include/wickthrush.h
version = $(shell tools/version)
# the names that the page of section 3 is found under stand in its first section
calls = $(shell sed -n '/^\.SH NAME/{n;s/ .-.*//;s/,//gp;}' man/wickthrush.3)
# a folder as the pkg-config file names it: by its prefix where it lies there
in_prefix = $(patsubst $(PREFIX)/%,$${prefix}/%,$(1))

# The archive is x86-64: elsewhere the example needs a cross compiler, and an emulator to run.
ifeq ($(shell uname -m),x86_64)
link = $(CC)
run =
else
link = x86_64-linux-gnu-gcc -static
run = qemu-x86_64
endif

.PHONY: help lib names install uninstall example check test clean FORCE

help:
	@echo 'make lib        the archive $(archive), from the proved source; needs rt'
	@echo 'make install    header, archive, pkg-config file, the command wickthrush and its programs, manual pages;'
	@echo '                what is not built yet is built first, which takes rt'
	@echo 'make uninstall  takes these files away again'
	@echo '                both take PREFIX=$(PREFIX), bindir, libdir, libexecdir, includedir, mandir, pkgconfigdir'
	@echo '                and DESTDIR, which stands before each and is written into no file'
	@echo 'make example    builds and runs examples/gateway.c'
	@echo 'make check      every proof and test, as bash .ci/run; needs rt; a quarter of an hour and more'
	@echo 'make clean      takes away all that was built here, the proofs too'

lib: $(archive)
	@echo $(archive)

# tools/build knows what each is made of, and leaves it alone where it is up to date
$(archive): FORCE
	@tools/build wickthrush

$(programs): FORCE
	@tools/build $(notdir $@)

# Folders are written into files that shells and pkg-config read, so what would need quoting there is refused.
names:
	@LC_ALL=C; for name in "$$PREFIX" "$$bindir" "$$libdir" "$$libexecdir" "$$includedir" "$$mandir" "$$pkgconfigdir"; do \
	    case $$name in \
	    [!/]* | '' | *[!A-Za-z0-9/._+@,-]*) \
	        echo "make: '$$name' is no folder to install to: it begins with / and has letters, digits and . _ + @ , - only" >&2; \
	        exit 1 ;; \
	    esac; \
	done

install: names $(archive) $(programs)
	install -d "$$DESTDIR$$includedir" "$$DESTDIR$$libdir" "$$DESTDIR$$pkgconfigdir" "$$DESTDIR$$bindir" \
	    "$$DESTDIR$$libexecdir/wickthrush" "$$DESTDIR$$mandir/man1" "$$DESTDIR$$mandir/man3"
	install -m 644 $(header) "$$DESTDIR$$includedir/wickthrush.h"
	install -m 644 $(archive) "$$DESTDIR$$libdir/libwickthrush.a"
	sed -e 's|@PREFIX@|$(PREFIX)|' -e 's|@LIBDIR@|$(call in_prefix,$(libdir))|' -e 's|@VERSION@|$(version)|' \
	    -e 's|@INCLUDEDIR@|$(call in_prefix,$(includedir))|' wickthrush.pc.in >"$$DESTDIR$$pkgconfigdir/wickthrush.pc"
	chmod 644 "$$DESTDIR$$pkgconfigdir/wickthrush.pc"
	install -m 755 $(programs) "$$DESTDIR$$libexecdir/wickthrush"
	install -m 644 man/help.txt "$$DESTDIR$$libexecdir/wickthrush/help.txt"
	echo $(version) >"$$DESTDIR$$libexecdir/wickthrush/version"
	chmod 644 "$$DESTDIR$$libexecdir/wickthrush/version"
	sed 's|^installed=$$|installed=$(libexecdir)/wickthrush|' wickthrush >"$$DESTDIR$$bindir/wickthrush"
	chmod 755 "$$DESTDIR$$bindir/wickthrush"
	install -m 644 man/wickthrush.1 "$$DESTDIR$$mandir/man1/wickthrush.1"
	install -m 644 man/wickthrush.3 "$$DESTDIR$$mandir/man3/wickthrush.3"
	for name in $(calls); do \
	    echo '.so man3/wickthrush.3' >"$$DESTDIR$$mandir/man3/$$name.3" && chmod 644 "$$DESTDIR$$mandir/man3/$$name.3" || exit 1; \
	done

uninstall: names
	rm -f "$$DESTDIR$$includedir/wickthrush.h" "$$DESTDIR$$libdir/libwickthrush.a" "$$DESTDIR$$pkgconfigdir/wickthrush.pc"
	rm -f "$$DESTDIR$$bindir/wickthrush"
	for name in $(notdir $(programs)) help.txt version; do rm -f "$$DESTDIR$$libexecdir/wickthrush/$$name"; done
	rmdir "$$DESTDIR$$libexecdir/wickthrush" 2>/dev/null || true
	for name in wickthrush $(calls); do rm -f "$$DESTDIR$$mandir/man3/$$name.3"; done
	rm -f "$$DESTDIR$$mandir/man1/wickthrush.1"

example: target/made/example
	$(run) target/made/example

target/made/example: examples/gateway.c $(header) $(archive)
	$(link) -std=c11 -O2 -Wall -Wextra -Iinclude examples/gateway.c $(archive) -o $@

check test:
	bash .ci/run

# not under a build
clean:
	@flock -n crates.txt true || echo 'make: a build is under way here; waiting for it' >&2
	flock crates.txt rm -rf target crates/*/out
