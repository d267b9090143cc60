# What is built from what, and the verbs: make help lists them.
SHELL := /bin/bash
.DELETE_ON_ERROR:
.DEFAULT_GOAL := all

PREFIX := /usr/local
VERSION = $(shell sed -En 's/^[^ ]+ \[?([0-9]+\.[0-9.]+).*/\1/p' CHANGELOG.md | head -n 1)
# What is proved: the program and the archive for C, in a folder that is named by the digest of their sources.
DIGEST := $(shell tools/digest)
PROVED := target/proved/$(DIGEST)
ARCHIVE := $(PROVED)/liblongdust_c.a
# Of the two small programs that the kit builds.
SOURCES = crates.txt $(shell find crates -name out -prune -o -type f -print)

# The driver, with the proved program beside it. Under the sanitizers a batch is small, so that small files have many.
DRIVERS := target/driver/cisternpea target/address/cisternpea
SANITIZED = -O1 -g -Werror -fsanitize=address,undefined,leak -fno-sanitize-recover
target/driver/cisternpea: FLAGS = -O2 -DBATCH=1048576
target/mask target/small target/api: FLAGS = -O2
target/address/cisternpea: FLAGS = $(SANITIZED) -DBATCH=4096
target/address/mask target/address/small: FLAGS = $(SANITIZED)

COMPILE = $(CC) $(1) -Wall -Wextra $(FLAGS) $(CFLAGS) $(filter %.c,$^) $(2) $(LDFLAGS)
DRIVER = $(call COMPILE,-std=c11 -D_GNU_SOURCE -Wconversion -Wshadow $(WERROR)) -lz -o $@
EXAMPLE = $(call COMPILE,-std=c99 -Werror -Iinclude,$(ARCHIVE)) -o $@
EXAMPLES := target/mask target/small target/api target/address/mask target/address/small
TESTED := $(DRIVERS) $(EXAMPLES) target/faulty/cisternpea target/faulty/cisternpea-proved
INSTALLED := bin/cisternpea bin/cisternpea-proved include/longdust.h lib/liblongdust_c.a lib/pkgconfig/cisternpea.pc \
  share/man/man1/cisternpea.1 share/bash-completion/completions/cisternpea
TO = '$(DESTDIR)$(PREFIX)'

# A line that names the packages, where the compiler or zlib is not there.
NEEDS = echo '\#include <zlib.h>' | $(CC) -E - > /dev/null 2>&1 || \
  { echo 'cisternpea: a C compiler and zlib are needed (Debian: apt-get install gcc zlib1g-dev)' >&2; exit 2; }

.PHONY: all check prove compare bench dist install uninstall tarball clean help

all: target/driver/cisternpea ## builds the program, target/driver/cisternpea; ./cisternpea does so too and runs it

$(PROVED)/%: $(wildcard dist/*/*)
	@tools/made $(DIGEST) $*

$(DRIVERS): Makefile $(wildcard program/*.[ch]) $(PROVED)/cisternpea-proved
	@mkdir -p $(@D); $(NEEDS)
	@install -m 755 $(PROVED)/cisternpea-proved $(@D)
	$(DRIVER)

# The driver with a worker that fails as it is told.
target/faulty/cisternpea: target/address/cisternpea
	@mkdir -p $(@D)
	@cp $< $@
target/faulty/cisternpea-proved: FLAGS = -O1 -DPROVED='"$(abspath target/address/cisternpea-proved)"'
target/faulty/cisternpea-proved: FLAGS += -Werror -D_GNU_SOURCE -std=c11
target/faulty/cisternpea-proved: tests/faulty.c
target/faulty/cisternpea-proved: Makefile
	@mkdir -p $(@D)
	$(COMPILE) -o $@

target/mask target/address/mask: examples/mask.c
target/small target/address/small: examples/small.c
target/api: tests/api.c
$(EXAMPLES): Makefile include/longdust.h $(ARCHIVE)
	@mkdir -p $(@D); $(NEEDS)
	$(EXAMPLE)

target/bin/track target/bin/contigs: $(SOURCES)
	@tools/program $(@F)

check: ## tests the program, the C examples and the documents
	+@$(MAKE) -j2 WERROR=-Werror $(TESTED)
	tests/check

prove: ## the whole gate: the check, every proof and wrong edit, dist/ made again, the comparison (Rattle kit)
	.ci/run

compare: $(DRIVERS) $(ARCHIVE) target/bin/contigs target/bin/track ## runs the masker and the original Rust side by side (cargo, the original's source, the kit)
	LONGDUST_ARCHIVE=$(abspath $(dir $(ARCHIVE))) compare/run $(WHAT)

bench: target/driver/cisternpea ## measures the speed, on made letters or on a FASTA file: FILE=genome.fa
	tools/bench $(FILE)

dist: ## proves calls and program and makes dist/ anew, after a change of crates/ (Rattle kit)
	tools/dist

install: all $(ARCHIVE) ## installs the two programs, header, archive, cisternpea.pc, man page, completion: PREFIX=/usr/local DESTDIR=
	install -d $(addprefix $(TO)/,$(dir $(INSTALLED)))
	install -m 755 target/driver/cisternpea target/driver/cisternpea-proved $(TO)/bin
	install -m 644 include/longdust.h $(TO)/include
	install -m 644 $(ARCHIVE) $(TO)/lib
	sed 's/@VERSION@/$(VERSION)/' share/cisternpea.pc > $(TO)/lib/pkgconfig/cisternpea.pc
	install -m 644 share/cisternpea.1 $(TO)/share/man/man1
	install -m 644 share/cisternpea.bash $(TO)/share/bash-completion/completions/cisternpea

uninstall: ## takes away what install put there
	rm -f $(addprefix $(TO)/,$(INSTALLED))

tarball: ## packs the committed sources with dist/: target/cisternpea-VERSION.tar.gz
	@mkdir -p target
	git archive --prefix=cisternpea-$(VERSION)/ -o target/cisternpea-$(VERSION).tar.gz HEAD

clean: ## takes target/ away
	rm -rf target

help: ## lists these verbs
	@sed -En 's/^([a-z]+):[^#]*## (.*)/make \1\t\2/p' $(MAKEFILE_LIST) | expand -t 16
	@( $(NEEDS) ) || true
