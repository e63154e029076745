# The library for C: static, shared, header and pkg-config file. It is proved first, with everything that it rests on,
# which takes some minutes once; this needs the Rattle kit (rt).
#   make                        target/c/libaltazhbey.a, libaltazhbey.so.MAJOR.MINOR and altazhbey.pc
#   make install PREFIX=/usr    installs them there (default: /usr/local); DESTDIR=/stage puts the files below /stage
#   make uninstall              removes what install put, with the same PREFIX and DESTDIR
#   make clean                  removes what make built; what is proved stays proved
PREFIX ?= /usr/local
LIBDIR ?= $(PREFIX)/lib
INCLUDEDIR ?= $(PREFIX)/include
INSTALL ?= install

HEADER := include/altazhbey.h
VERSION := $(shell sed -n 's/^.define ALTAZHBEY_VERSION "\(.*\)"$$/\1/p' $(HEADER))
ifeq ($(VERSION),)
$(error no version in $(HEADER))
endif
# a minor version may change answers, so that it is part of the name a host is bound to
SHARED := libaltazhbey.so.$(basename $(VERSION))
OUT := target/c

all: $(OUT)/altazhbey.pc $(OUT)/libaltazhbey.a $(OUT)/$(SHARED)

# what is proved; a change of any crate asks the prover again, which proves only what changed. The lock is that of
# programs.sh, as both let rt prove
$(OUT)/libaltazhbey.a: crates.txt $(shell find crates -regex 'crates/[^/]*/\(must-fail\|out\)' -prune -o -type f -print)
	@mkdir -p $(OUT) target/programs
	@echo 'proving the library for C and what it rests on, which takes some minutes the first time' >&2
	@exec 9>target/programs/lock; \
	! command -v flock >/dev/null || flock -n 9 || { echo 'waiting for a program that is being proved' >&2; flock 9; } || exit; \
	(cd crates/c_api_c && rt lib) >$(OUT)/log 2>&1 || { tail -n 20 $(OUT)/log >&2; exit 1; }; \
	cp crates/c_api_c/out/libc_api_c.a $@

$(OUT)/$(SHARED): $(OUT)/libaltazhbey.a
	$(CC) -shared -Wl,-soname,$(SHARED) -Wl,-z,defs,-z,relro,-z,now $(LDFLAGS) -Wl,--whole-archive $< -Wl,--no-whole-archive -o $@

# made anew each time, since PREFIX is none of its prerequisites
$(OUT)/altazhbey.pc: altazhbey.pc.in $(HEADER) FORCE
	@mkdir -p $(OUT)
	@for path in '$(PREFIX)' '$(LIBDIR)' '$(INCLUDEDIR)'; do case $$path in '' | [!/]* | *[\"\#\$$\&\\\|]*) \
	    printf 'PREFIX, LIBDIR and INCLUDEDIR must begin with / and have none of " # $$ & \\ |: %s\n' "$$path" >&2; exit 1 ;; esac; done
	@sed -e 's|@PREFIX@|$(PREFIX)|' -e 's|@LIBDIR@|$(LIBDIR)|' -e 's|@INCLUDEDIR@|$(INCLUDEDIR)|' -e 's|@VERSION@|$(VERSION)|' $< >$@

install: all
	$(INSTALL) -d '$(DESTDIR)$(INCLUDEDIR)' '$(DESTDIR)$(LIBDIR)/pkgconfig'
	$(INSTALL) -m 644 $(HEADER) '$(DESTDIR)$(INCLUDEDIR)'
	$(INSTALL) -m 644 $(OUT)/libaltazhbey.a '$(DESTDIR)$(LIBDIR)'
	$(INSTALL) -m 755 $(OUT)/$(SHARED) '$(DESTDIR)$(LIBDIR)'
	ln -sf $(SHARED) '$(DESTDIR)$(LIBDIR)/libaltazhbey.so'
	$(INSTALL) -m 644 $(OUT)/altazhbey.pc '$(DESTDIR)$(LIBDIR)/pkgconfig'

uninstall:
	rm -f '$(DESTDIR)$(INCLUDEDIR)/altazhbey.h' '$(DESTDIR)$(LIBDIR)/libaltazhbey.a' '$(DESTDIR)$(LIBDIR)/$(SHARED)' \
	    '$(DESTDIR)$(LIBDIR)/libaltazhbey.so' '$(DESTDIR)$(LIBDIR)/pkgconfig/altazhbey.pc'

clean:
	rm -rf $(OUT) target/example

FORCE:
.PHONY: all install uninstall clean FORCE
.DELETE_ON_ERROR:
