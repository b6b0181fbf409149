# Rigzumal as a whole. docs/BUILDING.md lists the needs of each part.
#
#     make                          the programs, the library for C and Python, libargon2 and the PAM module, from
#                                   c/proved, which rt compiled from the same sources: seconds, by a C compiler alone.
#                                   If the sources have changed, `make proved` comes first
#     make check                    the quick tests of every folder
#     make prove                    by rt: every proof from nothing, the named wrong bodies, and c/proved compiled again
#                                   and compared byte for byte
#     make proved                   c/proved again, by rt, after a change of a proved crate
#     make test                     the gate with the tests of every folder, and the long ones that the gate omits
#     make lint                     the layout, names and types of what people write
#     make wrong-bodies             the gate with every wrong body, as before a release
#     make deb                      Debian's packages: in c/out, python/out and c/pam/out
#     make wheel                    the package for Python with the library in it, in python/out
#     make dist                     out/rigzumal-VERSION.tar.xz, of the committed files
#     make html                     the pages as a site to search, in out/html, with the references of Python and C
#     make bench                    the library beside libargon2, libsodium and OpenSSL
#     make install PREFIX=/usr/local [DESTDIR=..]
#     make uninstall PREFIX=/usr/local [DESTDIR=..]
#
# `make programs library ARCH=arm64` builds the programs and the library for ARM64.

PREFIX ?= /usr/local
DESTDIR ?=
BASH_DIR ?= $(PREFIX)/share/bash-completion/completions
ZSH_DIR ?= $(PREFIX)/share/zsh/site-functions
FISH_DIR ?= $(PREFIX)/share/fish/vendor_completions.d
UNIT_DIR ?= $(PREFIX)/lib/systemd/system
# The folder in which PAM looks for modules by their names, if the prefix is the system's.
PAMDIR ?= $(if $(filter /usr /usr/%,$(PREFIX)),/usr/lib/x86_64-linux-gnu/security,$(PREFIX)/lib/security)
RT ?= rt
PYTHON ?= /usr/bin/python3

PROGRAMS := credbook credkeep
COMPLETED := $(PROGRAMS) credkeep-ask credkeep-server
# The programs themselves. An installed bin has copies of bin/launcher.in, which run them with huge pages.
LIBEXEC := $(PREFIX)/libexec/rigzumal
# The modules of credkeep-server and, below them, of credkeep-ask.
DAEMON := $(PREFIX)/share/rigzumal/daemon
SOURCES := python/rigzumal/server/daemon
MODULES := $(notdir $(wildcard $(SOURCES)/*.py))
MODULES_OF_ASK := $(notdir $(wildcard $(SOURCES)/ask/*.py))
MAN := $(PREFIX)/share/man
PAGES := man1/credbook.1 man1/credkeep.1 man1/credkeep-ask.1 man5/rigzumal-script.5 man8/credkeep-server.8
UNITS := $(notdir $(wildcard units/*))
# The folder of the programs, and the processor for which it has them.
ARCH ?= $(if $(filter aarch64,$(shell uname -m)),arm64,x86_64)
OUT := $(if $(filter x86_64-arm64,$(shell uname -m)-$(ARCH)),out/arm64,out)
BUILT := $(PROGRAMS:%=$(OUT)/%)
HAS_PAM := $(wildcard /usr/include/security/pam_modules.h)
PAM_WORDS = DESTDIR='$(DESTDIR)' PAMDIR='$(PAMDIR)' MANDIR='$(MAN)'

.PHONY: build programs library present proved prove check lint test wrong-bodies deb wheel dist html bench install \
	install-programs uninstall
.DELETE_ON_ERROR:
# Two of these targets must not work on the same folders at the same time.
.NOTPARALLEL:

# The library comes first: make builds it in seconds, even if a program can't be built.
build: present library programs
	$(if $(HAS_PAM),$(MAKE) -C c/pam,@echo 'pam_rigzumal.so is left out: libpam0g-dev is not there')

# If the sources have changed, rt compiles c/proved again. Without rt, for a damaged object, and before what root may
# type, make stops.
WITHOUT_PROOF := $(filter install dist deb,$(MAKECMDGOALS))
present:
	@for part in library programs; do \
		tools/check_proved $$part $(ARCH) && continue; \
		[ $$? = 1 ] && [ -z '$(WITHOUT_PROOF)' ] && command -v '$(RT)' > /dev/null && exec $(MAKE) proved; \
		exit 1; \
	done

programs: $(BUILT)

# A program for every x86-64 processor has its lanes for three levels.
LINK := -O2 -std=c11 -Wall -Wextra -Wpedantic -Werror -pie -pthread -Wl,-z,relro,-z,now -Wl,-z,noexecstack
LINKED := c/programs/calls.c $(if $(filter x86_64,$(ARCH)),c/programs/lanes.c c/src/x86_64_level.c)
LANES := $(if $(filter x86_64,$(ARCH)),$(patsubst %,c/proved/x86_64/lanes_%.o,v1 v3 v4))
COMPILER = $(if $(filter out/arm64,$(OUT)),aarch64-linux-gnu-gcc,$(CC))
# This file changes only with its contents: of a newer tarball, unpacked over an older one, the files are older
# than what make linked before.
$(OUT)/linked: present
	@mkdir -p $(OUT)
	@(echo '$(COMPILER) $(LINK)'; sha256sum $(LINKED); cat c/proved/objects.sum) > $@.new
	@if cmp -s $@.new $@; then rm $@.new; else mv -f $@.new $@; fi

$(BUILT): $(OUT)/%: c/proved/$(ARCH)/%.o $(LANES) $(LINKED) c/src/x86_64_level.h $(OUT)/linked
	$(COMPILER) $(LINK) $(filter %.o %.c,$^) -o $@

library:
	$(MAKE) -C c

check: build
	$(PYTHON) tools/run_tests.py --quick

prove:
	$(PYTHON) tools/compile_proved.py --check $(PYTHON) tools/wrong_bodies.py -- $(RT) ci --anew
	@echo 'Every crate is proved from nothing, the named wrong bodies are refused, and c/proved is what rt compiles.'

proved:
	@$(PYTHON) tools/compile_proved.py $(RT) ci

test: export RIGZUMAL_WHOLE = 1
test:
	.ci/run
	$(PYTHON) tools/run_tests.py --long

lint:
	tools/lint

wrong-bodies:
	$(PYTHON) tools/wrong_bodies.py --all -- $(RT) ci

deb: library programs
	for folder in c python c/pam; do $(MAKE) -C $$folder deb PYTHON='$(PYTHON)' || exit 1; done

wheel: library
	$(MAKE) -C python wheel PYTHON='$(PYTHON)'

dist: present
	$(PYTHON) tools/dist.py

# The reference of Python comes from docstrings of the package, which needs the library.
html: library
	$(PYTHON) docs/site/build.py

# The figures of the library in bench/RESULTS.md, on a machine without other work.
bench: library
	for pages in own none all; do $(PYTHON) bench/c/run.py --times 16 --pages $$pages || exit 1; done
	$(PYTHON) bench/c/run.py --times 8 --callers 1 2 4
	$(CC) -O3 -march=native -o c/out/floor bench/c/floor.c
	for costs in '65536 3' '19456 2'; do c/out/floor $$costs 31 && c/out/floor $$costs 31 none || exit 1; done

install: build install-programs
	$(MAKE) -C python install PREFIX='$(PREFIX)' DESTDIR='$(DESTDIR)' PYTHON='$(PYTHON)'
	$(if $(HAS_PAM),$(MAKE) -C c/pam install $(PAM_WORDS))
	$(MAKE) -C c install PREFIX='$(PREFIX)' DESTDIR='$(DESTDIR)'

# The target folders, for a shell: paths may have spaces.
TO_PREFIX = '$(DESTDIR)$(PREFIX)'
TO_LIBEXEC = '$(DESTDIR)$(LIBEXEC)'
TO_DAEMON = '$(DESTDIR)$(DAEMON)'
TO_MAN = '$(DESTDIR)$(MAN)'
TO_UNITS = '$(DESTDIR)$(UNIT_DIR)'
# The folders that install made. With DESTDIR, as for a package, there is no such list.
NOTED = $(if $(DESTDIR),'','$(PREFIX)/share/rigzumal/folders')
TO_BASH = '$(DESTDIR)$(BASH_DIR)'
TO_ZSH = '$(DESTDIR)$(ZSH_DIR)'
TO_FISH = '$(DESTDIR)$(FISH_DIR)'

# The built programs, the server with its units, their pages and completions.
install-programs:
	packaging/folders make $(NOTED) programs $(TO_LIBEXEC) $(TO_PREFIX)/bin $(TO_PREFIX)/sbin $(TO_DAEMON) $(TO_DAEMON)/ask \
		$(TO_MAN)/man1 $(TO_MAN)/man5 $(TO_MAN)/man8 $(TO_UNITS) $(TO_BASH) $(TO_ZSH) $(TO_FISH)
	for name in $(PROGRAMS); do \
		install -m 755 $(OUT)/$$name $(TO_LIBEXEC) && \
		sed "s|@PROGRAM@|$(LIBEXEC)/$$name|" bin/launcher.in > $(TO_PREFIX)/bin/$$name && \
		chmod 755 $(TO_PREFIX)/bin/$$name || exit 1; \
	done
	install -m 755 bin/credkeep-ask $(TO_PREFIX)/bin
	install -m 755 bin/credkeep-server $(TO_PREFIX)/sbin
	install -m 644 $(MODULES:%=$(SOURCES)/%) $(TO_DAEMON)
	install -m 644 $(MODULES_OF_ASK:%=$(SOURCES)/ask/%) $(TO_DAEMON)/ask
	for page in $(PAGES); do install -m 644 man/$${page#*/} $(TO_MAN)/$$page || exit 1; done
	for unit in $(UNITS); do \
		sed 's|/usr/sbin/|$(PREFIX)/sbin/|' units/$$unit > $(TO_UNITS)/$$unit && \
		chmod 644 $(TO_UNITS)/$$unit || exit 1; \
	done
	for name in $(COMPLETED); do \
		install -m 644 completions/bash $(TO_BASH)/$$name && \
		sed 's|@BASH@|$(BASH_DIR)/credkeep|' completions/zsh > $(TO_ZSH)/_$$name && \
		sed 's|@BASH@|$(BASH_DIR)/credkeep|' completions/fish > $(TO_FISH)/$$name.fish && \
		chmod 644 $(TO_ZSH)/_$$name $(TO_FISH)/$$name.fish || exit 1; \
	done

uninstall:
	$(MAKE) -C c uninstall PREFIX='$(PREFIX)' DESTDIR='$(DESTDIR)'
	$(MAKE) -C python uninstall PREFIX='$(PREFIX)' DESTDIR='$(DESTDIR)' PYTHON='$(PYTHON)'
	$(MAKE) -C c/pam uninstall $(PAM_WORDS)
	rm -f $(PROGRAMS:%=$(TO_PREFIX)/bin/%) $(PROGRAMS:%=$(TO_LIBEXEC)/%)
	rm -f $(TO_PREFIX)/bin/credkeep-ask $(TO_PREFIX)/sbin/credkeep-server
	rm -f $(MODULES:%=$(TO_DAEMON)/%) $(MODULES_OF_ASK:%=$(TO_DAEMON)/ask/%)
	rm -rf $(TO_DAEMON)/__pycache__ $(TO_DAEMON)/ask/__pycache__
	rm -f $(PAGES:%=$(TO_MAN)/%) $(UNITS:%=$(TO_UNITS)/%)
	rm -f $(COMPLETED:%=$(TO_BASH)/%) $(COMPLETED:%=$(TO_ZSH)/_%) $(COMPLETED:%=$(TO_FISH)/%.fish)
	packaging/folders remove $(NOTED) programs
