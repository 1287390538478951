# The desk for a host: a static and a shared library over the proved archive, with desk_explain and desk_version beside it.
#   make            builds them in target/host-kit; the archive is proved and made where it is missing or older than the sources
#   make install    the header, the libraries and desk.pc, to PREFIX below DESTDIR
#   make check      the C example against an installed tree
#   make clean
PREFIX = /usr/local
INCLUDEDIR = $(PREFIX)/include
LIBDIR = $(PREFIX)/lib
DESTDIR =
CFLAGS = -O2

kit := target/host-kit
archive := crates/desk_host_c/out/libdesk_host_c.a
header := include/desk.h
version := $(shell sed -n 's/^\#define DESK_VERSION "\(.*\)"$$/\1/p' $(header))
major := $(shell sed -n 's/^\#define DESK_VERSION_MAJOR //p' $(header))
# What rt proves: where one of them is newer than the archive, rt is asked, and it decides what is to be proved again.
sources := crates.txt $(shell find crates -name out -prune -o \( -name '*.rt' -o -name '*.antt' \) -print)
compile = $(CC) -std=c11 -fPIC -Wall -Wextra -Werror $(CFLAGS) -Iinclude
library := libdesk.so.$(version)
soname := libdesk.so.$(major)

all: $(kit)/libdesk.a $(kit)/libdesk.so

$(archive): $(sources)
	host/archive desk_host_c

# The Rattle compiler's object, out of its archive.
$(kit)/desk_host_c.o: $(archive)
	@mkdir -p $(kit)
	cd $(kit) && ar x '$(CURDIR)/$(archive)' desk_host_c.o

$(kit)/explain.c: host/make-explain host/refusals.tsv
	@mkdir -p $(kit)
	host/make-explain >$@.new && mv $@.new $@

# Written anew only where the tree's identity is another one than before.
$(kit)/version.c: always
	@mkdir -p $(kit)
	@host/identity | host/make-version >$@.new
	@if cmp -s $@.new $@; then rm $@.new; else mv $@.new $@; fi

$(kit)/explain.o $(kit)/version.o: $(kit)/%.o: $(kit)/%.c $(header)
	$(compile) -c -o $@ $<

objects := $(addprefix $(kit)/,desk_host_c.o explain.o version.o)

$(kit)/libdesk.a: $(objects)
	rm -f $@
	ar rcsD $@ $(objects)

# Only the functions of desk.h are visible, and nothing but the C library is needed.
$(kit)/$(library): $(objects) host/exports
	$(CC) -shared -Wl,-soname,$(soname) -Wl,--version-script,host/exports -Wl,-z,defs -Wl,-z,noexecstack -o $@ $(objects)

$(kit)/libdesk.so: $(kit)/$(library)
	ln -sf $(library) $(kit)/$(soname)
	ln -sf $(soname) $@

install: all
	sed -e 's|@PREFIX@|$(PREFIX)|' -e 's|@INCLUDEDIR@|$(patsubst $(PREFIX)/%,$${prefix}/%,$(INCLUDEDIR))|' \
	    -e 's|@LIBDIR@|$(patsubst $(PREFIX)/%,$${prefix}/%,$(LIBDIR))|' -e 's|@VERSION@|$(version)|' host/desk.pc.in >$(kit)/desk.pc
	install -d '$(DESTDIR)$(INCLUDEDIR)' '$(DESTDIR)$(LIBDIR)/pkgconfig'
	install -m 644 $(header) '$(DESTDIR)$(INCLUDEDIR)'
	install -m 644 $(kit)/libdesk.a $(kit)/$(library) '$(DESTDIR)$(LIBDIR)'
	ln -sf $(library) '$(DESTDIR)$(LIBDIR)/$(soname)'
	ln -sf $(soname) '$(DESTDIR)$(LIBDIR)/libdesk.so'
	install -m 644 $(kit)/desk.pc '$(DESTDIR)$(LIBDIR)/pkgconfig'

check:
	tests/host

clean:
	rm -rf $(kit)

.PHONY: all install check clean always
.DELETE_ON_ERROR:
