# make           builds the archive, the shared library, the example and planshow under target/
# make shared    links the archive as target/shared/libnimovalsa.so, for tools/factors; it is not installed
# make install   puts the archive, the headers, planshow and nimovalsa.pc under PREFIX, which is /usr/local;
#                DESTDIR, if given, stands before it, and nimovalsa.pc does not name it
# make plan      prints the plan of the sheet that the text file SHEET describes, and nothing else
# make test      runs the gate, .ci/run
# make clean     removes target/, and what rt keeps in each crate's folder out/
#
# rt makes the archive and planshow in their crates' folders out/, and decides what is out of date, so its rules always run; what it
# prints goes to standard error. rt run builds planshow and also runs it, here on no sheet.

PREFIX ?= /usr/local
DESTDIR ?=
SHEET ?= examples/pumping-station.txt
CFLAGS ?= -O2

version = 1.6.0
archive = target/staticlib/libnimovalsa.a
shared = target/shared/libnimovalsa.so
planshow = target/bin/planshow
headers = include/nimovalsa.h include/nimovalsa_sheet.h
place = $(DESTDIR)$(PREFIX)

.PHONY: all archive shared example planshow install prefix-ok plan sheet-ok test clean

# Calls of rt side by side would write the same files.
.NOTPARALLEL:

all: archive shared example planshow

archive:
	@cd crates/nimovalsa && rt lib >&2
	@mkdir -p $(dir $(archive))
	@cp -f crates/nimovalsa/out/libnimovalsa.a $(archive)

# Moved to its name when it is whole: loading a library that was cut off ends the process without a word.
shared: archive
	@mkdir -p $(dir $(shared))
	$(CC) -shared -o $(shared).new -Wl,--whole-archive $(archive) -Wl,--no-whole-archive
	@mv $(shared).new $(shared)

planshow:
	@cd crates/planshow && rt run </dev/null >/dev/null
	@mkdir -p $(dir $(planshow))
	@cp -f crates/planshow/out/planshow $(planshow)

example: archive
	@mkdir -p target/examples
	$(CC) -std=c99 -Wall -Wextra -Wpedantic $(CFLAGS) -Iinclude examples/register.c $(archive) -o target/examples/register

install: prefix-ok archive planshow
	install -d '$(place)/bin' '$(place)/include' '$(place)/lib/pkgconfig'
	install -m 755 $(planshow) '$(place)/bin'
	install -m 644 $(headers) '$(place)/include'
	install -m 644 $(archive) '$(place)/lib'
	sed 's|@PREFIX@|$(PREFIX)|; s|@VERSION@|$(version)|' nimovalsa.pc.in >'$(place)/lib/pkgconfig/nimovalsa.pc'
	chmod 644 '$(place)/lib/pkgconfig/nimovalsa.pc'

prefix-ok:
	@:$(if $(and $(filter /%,$(PREFIX)),$(filter 1,$(words $(PREFIX)))),,$(error PREFIX is to be a path from /, without blanks, got '$(PREFIX)'))

plan: sheet-ok planshow
	@tools/sheet make '$(SHEET)' target/plan.sheet >&2
	@$(planshow) <target/plan.sheet

sheet-ok:
	@:$(if $(shell test -f '$(SHEET)' && echo yes),,$(error SHEET is to be a text file, and there is no '$(SHEET)'))

test:
	.ci/run

clean:
	rm -rf target crates/*/out
