# Installs what ./build has made in target/, and builds nothing: make install PREFIX=/usr DESTDIR=/a/root
PREFIX ?= /usr/local
BINDIR ?= $(PREFIX)/bin
LIBDIR ?= $(PREFIX)/lib
INCLUDEDIR ?= $(PREFIX)/include
DATADIR ?= $(PREFIX)/share
INSTALL ?= install
VERSION := $(shell sed -n 's/^ *\.version("\([0-9.]*\)").*/\1/p' crates/opalport/src/command_line.rt)
MADE = $$(cat target/made)
BASH = $(DATADIR)/bash-completion/completions
ZSH = $(DATADIR)/zsh/site-functions
FISH = $(DATADIR)/fish/vendor_completions.d
# $(call put,MODE,FILE,PLACE): a file that was left out by ./build is left out here
put = if [ -e $(2) ]; then $(INSTALL) -D -m $(1) $(2) '$(DESTDIR)$(3)'; else echo 'install: no $(2)'; fi

install:
	@[ -e target/made ] || { echo 'make install: run ./build first, or ./build --unproved' >&2; exit 1; }
	$(call put,755,target/opalport,$(BINDIR)/opalport)
	$(call put,644,include/opalport.h,$(INCLUDEDIR)/opalport.h)
	$(call put,644,target/libopalport.a,$(LIBDIR)/libopalport.a)
	$(call put,755,target/libopalport.so.0,$(LIBDIR)/libopalport.so.$(VERSION))
	[ ! -e target/libopalport.so.0 ] || ln -sf libopalport.so.$(VERSION) '$(DESTDIR)$(LIBDIR)/libopalport.so.0'
	[ ! -e target/libopalport.so.0 ] || ln -sf libopalport.so.0 '$(DESTDIR)$(LIBDIR)/libopalport.so'
	$(INSTALL) -d '$(DESTDIR)$(LIBDIR)/pkgconfig'
	sed -e 's|@PREFIX@|$(PREFIX)|; s|@LIBDIR@|$(LIBDIR)|; s|@INCLUDEDIR@|$(INCLUDEDIR)|; s|@VERSION@|$(VERSION)|' \
	    -e "s|@MADE@|$(MADE)|" packaging/opalport.pc.in >'$(DESTDIR)$(LIBDIR)/pkgconfig/opalport.pc'
	$(call put,644,target/opalport.1,$(DATADIR)/man/man1/opalport.1)
	$(call put,644,target/opalport.3,$(DATADIR)/man/man3/opalport.3)
	$(call put,644,target/opalport.bash,$(BASH)/opalport)
	$(call put,644,target/_opalport,$(ZSH)/_opalport)
	$(call put,644,target/opalport.fish,$(FISH)/opalport.fish)

uninstall:
	cd '$(DESTDIR)/' && rm -f '.$(BINDIR)/opalport' '.$(INCLUDEDIR)/opalport.h' '.$(LIBDIR)'/libopalport.* \
	    '.$(LIBDIR)/pkgconfig/opalport.pc' '.$(DATADIR)/man/man1/opalport.1' '.$(DATADIR)/man/man3/opalport.3' \
	    '.$(BASH)/opalport' '.$(ZSH)/_opalport' '.$(FISH)/opalport.fish'

.PHONY: install uninstall
