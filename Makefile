# The command `tuulveski`, over the library, for Linux on x86-64.
#
#   make              the library, if it is missing or older than its sources (it is proved: see below), and the command
#   make check        the command's tests
#   make install      into PREFIX, below DESTDIR if that is given; builds the command if it must, but no library that is there
#   make uninstall    removes what install put there
#   make clean        removes the command, and neither library nor proofs
#
# LIBRARY=/path/libtuulveski.a takes that archive and never asks for `rt`; it is given to `make install` too. On Arm:
# make CC="x86_64-linux-gnu-gcc -static".
PREFIX ?= /usr/local
DESTDIR ?=
CFLAGS ?= -O2 -Wall -Wextra -Wpedantic
PROVED := target/staticlib/libtuulveski.a
LIBRARY ?= $(PROVED)

HEADERS := tuulveski.h tuulveski_words.h tuulveski_chart.h
BUILT := target/command
COMMAND := $(BUILT)/tuulveski
OBJECTS := $(patsubst command/%.c,$(BUILT)/%.o,$(sort $(wildcard command/*.c)))
COMPILE = $(CC) -std=c99 -pthread -Iinclude $(CPPFLAGS) $(CFLAGS)
LINK = $(CC) -pthread $(CFLAGS) $(LDFLAGS)
VERSION := $(shell sed -n 's/^.define TUULVESKI_VERSION "\(.*\)"/\1/p' include/tuulveski.h)

SOURCES := crates.txt $(shell find crates -name out -prune -o '(' -name '*.rt' -o -name '*.antt' ')' -print)
# What `make install` installs is what was built: a library that is there is not proved again for it.
ifeq ($(MAKECMDGOALS),install)
ifneq ($(wildcard $(PROVED)),)
SOURCES :=
endif
endif

all: $(COMMAND)

$(PROVED): $(SOURCES)
	@echo 'The library is proved before it is written: from nothing that takes long.'
	tools/library
	@touch $@

$(COMMAND): $(OBJECTS) $(LIBRARY)
	$(LINK) -o $@ $(OBJECTS) $(LIBRARY) $(LDLIBS)

$(BUILT)/%.o: command/%.c $(BUILT)/compiled-by
	$(COMPILE) -MMD -MP -c -o $@ $<

# Another compiler, other flags or another library than last time: everything is compiled again.
BY = $(subst ','\'',$(COMPILE) / $(LINK) / $(LIBRARY))
$(BUILT)/compiled-by: always
	@mkdir -p $(BUILT)
	@echo '$(BY)' | cmp -s - $@ || echo '$(BY)' >$@

check:
	tests/command/run

# In the recipes below the folders may have blanks in their names.
TO = $(DESTDIR)$(PREFIX)

install: all
	$(if $(filter /%,$(PREFIX)),,$(error PREFIX is to be a path from the root))
	install -d '$(TO)/bin' '$(TO)/include' '$(TO)/lib/pkgconfig' '$(TO)/share/man/man1'
	install -m 755 $(COMMAND) '$(TO)/bin/tuulveski'
	install -m 644 $(addprefix include/,$(HEADERS)) '$(TO)/include'
	install -m 644 $(LIBRARY) '$(TO)/lib/libtuulveski.a'
	sed -e '/^#/d' -e 's|@prefix@|$(PREFIX)|' -e 's|@version@|$(VERSION)|' tuulveski.pc.in >$(BUILT)/tuulveski.pc
	install -m 644 $(BUILT)/tuulveski.pc '$(TO)/lib/pkgconfig/tuulveski.pc'
	install -m 644 command/tuulveski.1 '$(TO)/share/man/man1/tuulveski.1'

uninstall:
	rm -f '$(TO)/bin/tuulveski' '$(TO)/lib/libtuulveski.a' '$(TO)/lib/pkgconfig/tuulveski.pc' '$(TO)/share/man/man1/tuulveski.1'
	for header in $(HEADERS); do rm -f '$(TO)'/include/$$header || exit 1; done

clean:
	rm -rf $(BUILT)

-include $(OBJECTS:.o=.d)

.PHONY: all always check install uninstall clean
