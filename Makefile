# make try      builds once without proofs, and runs the examples; SCRIPT=FILE runs that script too
# make test     builds without proofs, and runs all tests and examples
# make          proves what the program needs, and builds it
# make demo     the same, and then tries the examples
# make install  copies the built programs to PREFIX/bin
# make check    the gate: proves every crate, tries wrong bodies, runs all tests, programs and checks
# make clean    removes what was proved and built
# make no-memory  refuses each growth of memory in turn, in sessions of the built program; needs a C compiler
# make edge     runs the built program over real descriptors and folders: closed, full, forbidden, taken
# make deb      a package of the program and the programs around it
# make service-test  tries the programs around it beside the kernel, as root
PREFIX ?= /usr/local
JOBS ?= $(shell nproc)
WUMPUS := crates/wumpus/out/wumpus
PLANNER := crates/wumpus_plan/out/wumpus_plan
# What make edge and make service-test run; edge proves and builds it where none is named.
PROGRAM ?=
CRATES := $(shell sed -n -e '/_tests:/d' -e '/_rows:/d' -e 's/^\([a-z_0-9]*\):.*/\1/p' crates.txt)

# The longest chain of proofs, which is begun first.
CHAIN := wu_outside wu_job wu_parts wu_query wu_engine wumpus_run

.PHONY: all try test demo edge install check no-memory clean

all:
	@mkdir -p out && touch out/started
	@$(MAKE) --no-print-directory --jobs=$(JOBS) $(CHAIN:%=out/%.proved) $(WUMPUS) $(PLANNER)

try:
	@tools/test --examples $(if $(SCRIPT),--script '$(SCRIPT)')
	@echo 'This build is not proved: make demo proves it.'

test:
	@tools/test
	@echo 'Nothing was proved: make check proves it.'

demo: all
	@tools/test --program $(WUMPUS)

edge: $(if $(PROGRAM),,all)
	@tools/edge $(or $(PROGRAM),$(WUMPUS))

install: all
	install -d $(DESTDIR)$(PREFIX)/bin
	install -m 755 $(WUMPUS) $(DESTDIR)$(PREFIX)/bin/wumpus
	install -m 755 $(PLANNER) $(DESTDIR)$(PREFIX)/bin/wumpus-plan
	@$(MAKE) --no-print-directory install-service

check:
	@.ci/run

no-memory: all
	@tools/no-memory $(WUMPUS)

clean:
	rm -rf out crates/*/out

# Each crate is proved after those that crates.txt lists behind it, some side by side, and again where
# its code, its definitions or its proofs have changed.
depends_on = $(filter $(CRATES),$(shell sed -n 's/^$(1):\(.*\)/\1/p' crates.txt))
define crate_rule
out/$(1).proved: crates.txt $$(foreach name,$$(call depends_on,$(1)),out/$$(name).proved) \
		$$(shell find $$(wildcard $$(addprefix crates/$(1)/,src specs proofs)) -type f)
	@tools/prove $(1) $$@
endef
$(foreach name,$(CRATES),$(eval $(call crate_rule,$(name))))

$(WUMPUS): out/wumpus.proved ;
$(PLANNER): out/wumpus_plan.proved ;

# ---- documents

.PHONY: help docs rows trusted install-manual

# make help     prints this
help:
	@sed -n 's/^# \(make .*\)/\1/p' Makefile

# make docs     checks the documents: links, clauses, examples, lengths, the manual page
docs:
	@tools/docs

# make rows     counts the rows of the tables
rows:
	@tools/docs --rows

# make trusted  prints the files that an auditor reads, in order; CLAIM=WORD, what one guarantee needs
trusted:
	@tools/trusted $(CLAIM)

install: install-manual

install-manual:
	install -d $(DESTDIR)$(PREFIX)/share/man/man1
	install -m 644 docs/wumpus.1 $(DESTDIR)$(PREFIX)/share/man/man1/wumpus.1

include service/service.mk
