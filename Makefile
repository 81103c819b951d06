# The library for hosts: libforgelilac.a, its header and its pkg-config file. And every test, by one command.
#
#   make                     proves the library and builds the archive, by `rt lib` in crates/host, which takes minutes
#   make ARCHIVE=FILE        takes a ready one
#   make install PREFIX=DIR  puts archive, header and forgelilac.pc under DIR, /usr/local if not given; with SHARED=1
#                            the shared library too, which the linker then takes before the archive
#   make uninstall PREFIX=DIR  takes away what install put there
#   make shared              libforgelilac.so of the archive, by the linker alone
#   make dist                archive, header, forgelilac.pc and what to know, with checksums, in DIST: the same bytes
#                            wherever it is made of the same archive, by the same tar and gzip
#   make check               all tests, the gate first; takes two hours where nothing has been proved before
#   make check-fast          tests in small numbers, without the gate, in some five minutes
#   make clean               removes what make made, and nothing of rt's
#
# DESTDIR goes before every path that install writes to; forgelilac.pc does not name it.

PREFIX ?= /usr/local
LIBDIR ?= $(PREFIX)/lib
INCLUDEDIR ?= $(PREFIX)/include
PKGCONFIGDIR ?= $(LIBDIR)/pkgconfig
DESTDIR ?=
BUILD ?= target/lib
RT ?= rt
INSTALL ?= install
SHARED ?=

MADE = crates/host/out/libhost.a
ARCHIVE ?= $(MADE)
SOURCES = crates.txt $(shell find crates -path '*/src/*.rt')
VERSION = $(shell sed -n 's/^.define FORGELILAC_VERSION "\(.*\)"$$/\1/p' include/forgelilac.h)
MAJOR = $(firstword $(subst ., ,$(VERSION)))
NAME = forgelilac-$(VERSION)
DIST ?= target/$(NAME).tar.gz
SO = libforgelilac.so.$(VERSION)

.PHONY: all install uninstall shared dist check check-fast clean again

all: $(BUILD)/libforgelilac.a

$(MADE): $(SOURCES)
	@echo "proving and building $(MADE) by '$(RT) lib' in crates/host, which takes minutes; make ARCHIVE=FILE takes a ready one"
	cd crates/host && $(RT) lib
	@touch $@

# Copied each time: another archive may be older than the last one.
$(BUILD)/libforgelilac.a: $(ARCHIVE) again
	@mkdir -p $(BUILD)
	@cp $(ARCHIVE) $@
	@echo "made $@ of $(ARCHIVE), Forgelilac $(VERSION)"

# The archive's code is position-independent. memcpy and memset are the host's, as of the archive.
shared: $(BUILD)/$(SO)
$(BUILD)/$(SO): $(BUILD)/libforgelilac.a
	@$(LD) -shared -z noexecstack -soname libforgelilac.so.$(MAJOR) --whole-archive $< -o $@
	@echo "made $@"

$(BUILD)/forgelilac.pc: forgelilac.pc.in again
	@mkdir -p $(BUILD)
	@sed -e 's|@PREFIX@|$(PREFIX)|' -e 's|@LIBDIR@|$(LIBDIR)|' -e 's|@INCLUDEDIR@|$(INCLUDEDIR)|' \
	    -e 's|@VERSION@|$(VERSION)|' forgelilac.pc.in > $@

install: all $(BUILD)/forgelilac.pc $(if $(SHARED),shared)
	@$(INSTALL) -d $(DESTDIR)$(INCLUDEDIR) $(DESTDIR)$(LIBDIR) $(DESTDIR)$(PKGCONFIGDIR)
	@$(INSTALL) -m 644 include/forgelilac.h $(DESTDIR)$(INCLUDEDIR)/forgelilac.h
	@$(INSTALL) -m 644 $(BUILD)/libforgelilac.a $(DESTDIR)$(LIBDIR)/libforgelilac.a
	@$(INSTALL) -m 644 $(BUILD)/forgelilac.pc $(DESTDIR)$(PKGCONFIGDIR)/forgelilac.pc
	@echo "installed $(DESTDIR)$(INCLUDEDIR)/forgelilac.h"
	@echo "installed $(DESTDIR)$(LIBDIR)/libforgelilac.a"
	@echo "installed $(DESTDIR)$(PKGCONFIGDIR)/forgelilac.pc"
	@if [ -n "$(SHARED)" ]; then \
	    $(INSTALL) -m 755 $(BUILD)/$(SO) $(DESTDIR)$(LIBDIR)/$(SO) && \
	    ln -sf $(SO) $(DESTDIR)$(LIBDIR)/libforgelilac.so.$(MAJOR) && \
	    ln -sf $(SO) $(DESTDIR)$(LIBDIR)/libforgelilac.so && \
	    echo "installed $(DESTDIR)$(LIBDIR)/libforgelilac.so"; \
	fi

uninstall:
	@rm -f $(DESTDIR)$(INCLUDEDIR)/forgelilac.h $(DESTDIR)$(LIBDIR)/libforgelilac.a \
	    $(DESTDIR)$(PKGCONFIGDIR)/forgelilac.pc $(DESTDIR)$(LIBDIR)/libforgelilac.so*
	@echo "removed what install put under $(DESTDIR)$(PREFIX)"

# forgelilac.pc goes by its own place, so the folder may be anywhere. Names sorted, one time, no owner.
dist: all
	@rm -rf $(BUILD)/$(NAME)
	@$(INSTALL) -d -m 755 $(BUILD)/$(NAME)/include $(BUILD)/$(NAME)/lib/pkgconfig
	@$(INSTALL) -m 644 $(BUILD)/libforgelilac.a $(BUILD)/$(NAME)/lib/libforgelilac.a
	@$(INSTALL) -m 644 include/forgelilac.h $(BUILD)/$(NAME)/include/forgelilac.h
	@sed -e 's|@PREFIX@|$${pcfiledir}/../..|' -e 's|@LIBDIR@|$${prefix}/lib|' -e 's|@INCLUDEDIR@|$${prefix}/include|' \
	    -e 's|@VERSION@|$(VERSION)|' forgelilac.pc.in > $(BUILD)/$(NAME)/lib/pkgconfig/forgelilac.pc
	@$(INSTALL) -m 644 NOTICE SECURITY.md $(BUILD)/$(NAME)/
	@cd $(BUILD)/$(NAME) && find . -type f | sed 's|^\./||' | LC_ALL=C sort | xargs sha256sum > ../SHA256SUMS && mv ../SHA256SUMS .
	@chmod 644 $(BUILD)/$(NAME)/SHA256SUMS $(BUILD)/$(NAME)/lib/pkgconfig/forgelilac.pc
	@mkdir -p $(dir $(DIST))
	@cd $(BUILD) && LC_ALL=C tar --format=ustar --sort=name --mtime='2000-01-01 00:00:00Z' --owner=0 --group=0 --numeric-owner \
	    -cf $(NAME).tar $(NAME) && gzip -n -9 -f $(NAME).tar
	@mv $(BUILD)/$(NAME).tar.gz $(DIST)
	@sha256sum $(DIST)

check:
	@sh scripts/check.sh

check-fast:
	@sh scripts/check.sh fast

clean:
	@rm -rf $(BUILD)
	@echo "removed $(BUILD)"
