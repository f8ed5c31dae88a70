# Builds the library for C hosts and the programs beside it, and installs them.
#
#     make                             target/staticlib/libkildegrom.a, proved by rt
#     make shared                      target/shared/libkildegrom.so.0, for hosts that load the library at run time
#     make install PREFIX=/usr/local   library, programs, man pages and Python module; DESTDIR is put before PREFIX
#     make install-library             of these the library alone: header, static and shared library, pkg-config file
#     make uninstall PREFIX=/usr/local removes what make install has put there, and its own folders where nothing else is in them
#     make example                     target/host/example, from which a host can start
#     make show                        target/host/show, the picture of a room
#     make compare                     target/host/compare, in what two rooms differ
#     make write                       target/host/write, one block
#     make list                        target/host/list, the long listing of a room
#     make scene                       target/host/scene, a room in a window
#     make programs                    example, show, compare, write and list
#     make picture                     docs/harbour.png, docs/winter.png, docs/compared.png, docs/cast.png and docs/scene.png, the README's
#     make test                        ./test
#     make check                       ./test, too
#     make clean                       removes target/ and crates/*/out: what was built, and what rt has proved
#     make help                        these lines

PREFIX = /usr/local
VERSION := $(shell sed -n 's/^.define KG_VERSION_TEXT "\(.*\)"/\1/p' include/kildegrom.h)
RT ?= rt
CFLAGS ?= -O2
INSTALL = install

LIBRARY = target/staticlib/libkildegrom.a
SHARED = target/shared/libkildegrom.so.$(VERSION)
SONAME = libkildegrom.so.$(firstword $(subst ., ,$(VERSION)))
OUT = target/host
PROGRAMS = example show compare write list
COMPILE = $(CC) -std=c99 -Wall -Wextra -pedantic $(CFLAGS) -Iinclude
PNG = $(shell pkg-config --libs libpng 2> /dev/null || echo -lpng)
SDL = $(shell pkg-config --cflags --libs sdl2 2> /dev/null || echo -lSDL2)

.PHONY: all shared install install-library uninstall picture programs test check clean help $(PROGRAMS) scene beside
.DELETE_ON_ERROR:

all: $(LIBRARY)

# Where the files go, a relative PREFIX seen from here. The recipes have it from the environment, so that any character may stand in it.
TREE = $(DESTDIR)$(if $(filter-out /%,$(firstword $(PREFIX))),$(CURDIR)/)$(PREFIX)
install install-library uninstall: export TREE := $(TREE)

# rt itself knows which crates are proved already; it is asked only where a source is newer than the library, which it builds in the crate's out/.
CRATES := crates.txt $(shell find crates -name out -prune -o -name '*.rt' -print -o -name '*.antt' -print)
$(LIBRARY): $(CRATES)
	cd crates/kildegrom && $(RT) lib
	@mkdir -p $(@D)
	cp crates/kildegrom/out/libkildegrom.a $@

# The archive's own objects: nothing is compiled again. What the calls are made of stays inside, so that no name of it can meet a host's.
shared: $(SHARED)

$(SHARED): $(LIBRARY) include/kildegrom.h
	@mkdir -p $(@D)
	printf '{ global: kg_*; local: *; };\n' > $(@D)/exports
	$(CC) -shared -Wl,-soname,$(SONAME) -Wl,--version-script,$(@D)/exports -Wl,-z,defs,-z,noexecstack,-z,relro,-z,now \
	    -Wl,--whole-archive $(LIBRARY) -Wl,--no-whole-archive $(LDFLAGS) -o $@
	ln -sf $(@F) $(@D)/$(SONAME)
	ln -sf $(SONAME) $(@D)/libkildegrom.so

programs: $(PROGRAMS)

$(PROGRAMS) scene beside: %: $(OUT)/%

$(OUT)/example: host/example/example.c
$(OUT)/write: host/write/write.c
$(OUT)/list: host/list/list.c
$(OUT)/example $(OUT)/write $(OUT)/list: $(OUT)/%: include/kildegrom.h $(LIBRARY)
	@mkdir -p $(OUT)
	$(COMPILE) host/$*/$*.c $(LIBRARY) $(LDFLAGS) -o $@

# What the programs of pictures share: an archive, of which each takes what it uses. Each is built anew where any of the headers changes.
SHARED_HEADERS = include/kildegrom.h $(wildcard host/programs/*.h)
$(OUT)/programs/%.o: host/programs/%.c $(SHARED_HEADERS)
	@mkdir -p $(@D)
	@$(if $(filter output,$*),tools/need libpng-dev)
	$(COMPILE) -Ihost/programs -c $< -o $@

$(OUT)/programs.a: $(patsubst host/programs/%.c,$(OUT)/programs/%.o,$(wildcard host/programs/*.c))
	@rm -f $@
	$(AR) rcs $@ $^

$(OUT)/show: host/show/show.c
$(OUT)/compare: host/compare/compare.c
$(OUT)/beside: host/beside/beside.c
$(OUT)/show $(OUT)/compare $(OUT)/beside: $(OUT)/%: $(SHARED_HEADERS) $(OUT)/programs.a $(LIBRARY)
	$(COMPILE) -Ihost/programs host/$*/$*.c $(OUT)/programs.a $(LIBRARY) $(LDFLAGS) $(PNG) -o $@

$(OUT)/scene: $(wildcard host/scene/*.[ch]) $(SHARED_HEADERS) $(OUT)/programs.a $(LIBRARY)
	@tools/need libsdl2-dev
	$(COMPILE) -D_POSIX_C_SOURCE=200809L -Ihost/programs $(filter %.c,$^) $(OUT)/programs.a $(LIBRARY) $(LDFLAGS) $(SDL) $(PNG) -o $@

install-library: $(LIBRARY) $(SHARED)
	$(INSTALL) -d "$$TREE/include" "$$TREE/lib/pkgconfig"
	$(INSTALL) -m 644 include/kildegrom.h "$$TREE/include/kildegrom.h"
	$(INSTALL) -m 644 $(LIBRARY) "$$TREE/lib/libkildegrom.a"
	$(INSTALL) -m 755 $(SHARED) "$$TREE/lib/$(notdir $(SHARED))"
	ln -sf $(notdir $(SHARED)) "$$TREE/lib/$(SONAME)"
	sed -e 's|@VERSION@|$(VERSION)|' host/kildegrom.pc.in > "$$TREE/lib/pkgconfig/kildegrom.pc"
	chmod 644 "$$TREE/lib/pkgconfig/kildegrom.pc"

# What the installed programs are: scripts of this folder, the parts that they read, and what they start. In a tree they stand in lib/kildegrom
# as they stand here, and in bin/ are links to the scripts.
COMMANDS = list play show compare check
PARTS = tools/common.sh tools/calls tools/refusal include/kildegrom.h rooms/cellar.room rooms/cellar.calls
RATTLE_PROGRAMS = crates/list_room/out/list_room crates/player/out/player
STARTED = $(RATTLE_PROGRAMS) $(OUT)/list $(OUT)/show $(OUT)/compare target/cargo/release/kildegrom-check
FOLDERS = tools include rooms bin

# There is no command that only builds a program: where it is built, rt runs it, here on nothing.
$(RATTLE_PROGRAMS): $(CRATES)
	cd crates/$(@F) && $(RT) run < /dev/null > /dev/null
	@touch -c $@

CHECKER = $(foreach crate,checker reference common,host/$(crate)/Cargo.toml host/$(crate)/*.rs host/$(crate)/src/*.rs)
target/cargo/release/kildegrom-check: $(LIBRARY) host/Cargo.toml host/Cargo.lock $(wildcard $(CHECKER))
	CARGO_TARGET_DIR=target/cargo cargo build --quiet --offline --release --manifest-path host/Cargo.toml -p kildegrom-checker
	@touch -c $@

# kildegrom-scene needs SDL2. Where that is missing and can't be installed, the rest is installed without it. `make -n` installs no SDL2 either.
ifneq ($(filter install,$(MAKECMDGOALS)),)
SCENE := $(if $(findstring n,$(firstword -$(MAKEFLAGS))),scene,$(shell CC='$(CC)' tools/need libsdl2-dev > /dev/null 2>&1 && echo scene))
endif

install: install-library $(STARTED) $(SCENE:%=$(OUT)/%)
	@$(if $(SCENE),,echo "kildegrom-scene is left out: there is no SDL2 here (apt-get install libsdl2-dev)" >&2)
	$(INSTALL) -d "$$TREE/bin" "$$TREE/share/man/man1" "$$TREE/share/man/man3" "$$TREE/share/kildegrom/python"
	for folder in $(FOLDERS); do $(INSTALL) -d "$$TREE/lib/kildegrom/$$folder" || exit 1; done
	for file in $(PARTS); do $(INSTALL) -m $$([ -x $$file ] && echo 755 || echo 644) $$file "$$TREE/lib/kildegrom/$$file" || exit 1; done
	for file in $(STARTED) $(SCENE:%=$(OUT)/%); do $(INSTALL) -m 755 $$file "$$TREE/lib/kildegrom/bin/$${file##*/}" || exit 1; done
	for name in $(COMMANDS) $(SCENE); do \
	    tools/man --script $$name > "$$TREE/lib/kildegrom/$$name" && chmod 755 "$$TREE/lib/kildegrom/$$name" && \
	    ln -sf ../lib/kildegrom/$$name "$$TREE/bin/kildegrom-$$name" && \
	    tools/man $$name > "$$TREE/share/man/man1/kildegrom-$$name.1" && chmod 644 "$$TREE/share/man/man1/kildegrom-$$name.1" || exit 1; \
	done
	tools/man --library > "$$TREE/share/man/man3/kildegrom.3"
	chmod 644 "$$TREE/share/man/man3/kildegrom.3"
	$(INSTALL) -m 644 python/kildegrom.py "$$TREE/share/kildegrom/python/kildegrom.py"

# Python keeps a compiled module beside the module.
uninstall:
	rm -f "$$TREE/include/kildegrom.h" "$$TREE/lib/libkildegrom.a" "$$TREE/lib/pkgconfig/kildegrom.pc" "$$TREE/share/man/man3/kildegrom.3"
	rm -f "$$TREE/lib/$(notdir $(SHARED))" "$$TREE/lib/$(SONAME)"
	rm -f "$$TREE/share/kildegrom/python/kildegrom.py" "$$TREE"/share/kildegrom/python/__pycache__/kildegrom.*.pyc
	for name in $(COMMANDS) scene; do \
	    rm -f "$$TREE/bin/kildegrom-$$name" "$$TREE/lib/kildegrom/$$name" "$$TREE/share/man/man1/kildegrom-$$name.1" || exit 1; \
	done
	for file in $(PARTS) $(patsubst %,bin/%,$(notdir $(STARTED)) scene); do rm -f "$$TREE/lib/kildegrom/$$file" || exit 1; done
	for folder in $(FOLDERS:%=lib/kildegrom/%) lib/kildegrom share/kildegrom/python/__pycache__ share/kildegrom/python share/kildegrom; do \
	    rmdir "$$TREE/$$folder" 2> /dev/null || true; \
	done

DOCS = docs
picture: $(DOCS)/harbour.png $(DOCS)/winter.png $(DOCS)/compared.png $(DOCS)/cast.png $(DOCS)/scene.png

SHOWN = ./show rooms/$*.room rooms/$*.calls
$(DOCS)/harbour.png $(DOCS)/winter.png: $(DOCS)/%.png: rooms/%.room rooms/%.calls $(OUT)/show $(OUT)/beside
	$(SHOWN) -o $(OUT)/$*.ppm
	$(SHOWN) --plane 1 --boxes -o $(OUT)/$*-plane.ppm
	$(OUT)/beside 2 $@ $(OUT)/$*.ppm $(OUT)/$*-plane.ppm

# Status 1 says that the rooms differ, as these do.
$(DOCS)/compared.png: rooms/harbour.room rooms/harbour-b.room $(OUT)/compare
	./compare rooms/harbour.room rooms/harbour-b.room --picture $@ || [ $$? -eq 1 ]

# The cast as the library paints it, and its actors in the order of their list, by a list in which all have the same y.
CAST = ./show rooms/harbour.room rooms/harbour.calls --cast
$(DOCS)/cast.png: rooms/harbour.room rooms/harbour.calls rooms/harbour.cast rooms/harbour.pictures $(OUT)/show $(OUT)/beside
	cp rooms/harbour.pictures $(OUT)
	awk '$$1 == "actor" { $$2 = NR; $$3 = 0 } { print }' rooms/harbour.cast > $(OUT)/harbour.cast
	$(CAST) rooms/harbour.cast -o $(OUT)/cast.ppm
	$(CAST) $(OUT)/harbour.cast -o $(OUT)/listed.ppm
	$(OUT)/beside 2 $@ $(OUT)/cast.ppm $(OUT)/listed.ppm

# The window's own picture, which needs no display.
$(DOCS)/scene.png: rooms/harbour.room host/scene/harbour.script $(OUT)/scene
	sed 's|docs/scene.png|$@|' host/scene/harbour.script > $(OUT)/harbour.script
	SDL_VIDEODRIVER=dummy ./scene rooms/harbour.room --scale 3 --save $(OUT)/harbour.calls --script $(OUT)/harbour.script

test check:
	./test

clean:
	rm -rf target crates/*/out

help:
	@sed -n 's/^#     //p' Makefile
