# The programs around wumpus: make install-service, make service-test, make deb. None is proved.
# WUMPUS and PLANNER are the built programs, and PREFIX and DESTDIR are those of the file that includes this one.
SERVICE_SBIN := wumpus-extract wumpus-mirror wumpus-watch wumpusd wumpus-status wumpus-why
SERVICE_BIN := wumpus-ask wumpus-web wumpus-lint
SERVICE_PACKAGES := $(notdir $(patsubst %/,%,$(dir $(wildcard service/wumpus/*/__init__.py))))
SERVICE_SCRIPTS := $(shell grep -slI '^\#!.*python3' \
	$(wildcard tools/* bench/* service/tests/*) 2>/dev/null | grep -v '\.py$$')
# Those that take longest come first, so that none is left over at the end.
SERVICE_TESTS := \
	race \
	stand_in \
	bombs \
	plan \
	documents \
	whole \
	fair \
	kernel \
	requests \
	server \
	at_once \
	kills \
	silent \
	mounts \
	judged \
	client \
	web \
	service \
	ask \
	walls \
	running \
	status \
	mirror \
	allow \
	narrow \
	looks \
	live \
	dirty \
	chosen \
	meeting \
	bounds \
	unseen \
	neighbours \
	limits \
	extract \
	planner \
	state \
	look \
	language \
	why \
	shares \
	calls
# Goes by the clock: other work beside it would be in what it measures.
SERVICE_TESTS_ALONE := attack
SERVICE_TEST_PROGRAM ?= $(abspath $(PROGRAM))
UNITDIR ?= $(PREFIX)/lib/systemd/system
SYSCONFDIR ?= /etc

VERSION = $(shell sed -n 's/^VERSION = "\(.*\)"/\1/p' service/wumpus/__init__.py)
DEB_ARCH = $(shell dpkg --print-architecture)
DEB = out/wumpus_$(VERSION)_$(DEB_ARCH).deb

.PHONY: install-service service-test service-check deb package

# Python files are copied without what an interpreter left beside them.
install-service:
	install -d $(addprefix $(DESTDIR)$(PREFIX)/,bin sbin share/wumpus/wumpus share/man/man1 \
		share/man/man8 share/bash-completion/completions share/zsh/site-functions \
		lib/sysusers.d) $(DESTDIR)$(UNITDIR) $(DESTDIR)$(SYSCONFDIR)/default
	install -m 755 $(addprefix service/,$(SERVICE_BIN)) $(DESTDIR)$(PREFIX)/bin
	install -m 755 $(addprefix service/,$(SERVICE_SBIN)) $(DESTDIR)$(PREFIX)/sbin
	for name in . $(SERVICE_PACKAGES); do \
		install -d $(DESTDIR)$(PREFIX)/share/wumpus/wumpus/$$name || exit; \
		install -m 644 service/wumpus/$$name/*.py \
			$(DESTDIR)$(PREFIX)/share/wumpus/wumpus/$$name || exit; \
	done
	install -d $(DESTDIR)$(PREFIX)/share/wumpus/wumpus/web/page
	install -m 644 service/wumpus/web/page/* $(DESTDIR)$(PREFIX)/share/wumpus/wumpus/web/page
	install -m 644 service/man/*.1 $(DESTDIR)$(PREFIX)/share/man/man1
	install -m 644 service/man/*.8 $(DESTDIR)$(PREFIX)/share/man/man8
	for name in wumpus $(SERVICE_BIN) $(SERVICE_SBIN); do \
		install -m 644 service/completions/wumpus.bash \
			$(DESTDIR)$(PREFIX)/share/bash-completion/completions/$$name || exit; \
	done
	install -m 644 service/completions/_wumpus $(DESTDIR)$(PREFIX)/share/zsh/site-functions
	install -m 644 service/systemd/wumpus.sysusers $(DESTDIR)$(PREFIX)/lib/sysusers.d/wumpus.conf
	for unit in service/systemd/*.service service/systemd/*.socket; do \
		sed -e 's,/usr/\(s*bin\|share\)/wumpus,$(PREFIX)/\1/wumpus,g' $$unit \
			>$(DESTDIR)$(UNITDIR)/$${unit##*/} || exit; \
	done
	test -e $(DESTDIR)$(SYSCONFDIR)/default/wumpus || \
		install -m 644 service/systemd/default $(DESTDIR)$(SYSCONFDIR)/default/wumpus
	test -e $(DESTDIR)$(SYSCONFDIR)/wumpus/excludes || \
		install -D -m 644 service/systemd/excludes $(DESTDIR)$(SYSCONFDIR)/wumpus/excludes
	test -e $(DESTDIR)$(SYSCONFDIR)/wumpus/documents || \
		install -D -m 644 service/systemd/documents $(DESTDIR)$(SYSCONFDIR)/wumpus/documents

# As root; without it, the tests that take on the ids of users say that they are skipped. Where no
# program is built, and SERVICE_TEST_PROGRAM names none, the stand-in answers, and says so; batches
# are ordered by the wumpus-plan that was built with the program, or by its stand-in. They run by the
# interpreter of the programs: another one may lie where a service without rights can't read.
service-test:
	@/usr/bin/python3 service/tests/run_tests.py \
		$(addprefix --program ,$(SERVICE_TEST_PROGRAM)) \
		$(SERVICE_TESTS) --alone $(SERVICE_TESTS_ALONE)

# A tool that isn't there is told, and what it checks is left out.
service-check:
	@failed=0; \
	check() { \
		if command -v $$1 >/dev/null; then echo "$$@" && "$$@" || failed=1; \
		else echo "service-check: $$1 is missing: $$2 .. isn't run"; fi; \
	}; \
	check mypy service/wumpus service/tests bench/*.py tools/*.py; \
	for script in $(SERVICE_SCRIPTS); do check mypy --scripts-are-modules $$script; done; \
	check ruff check service bench tools; \
	check mandoc -Tlint -W warning docs/wumpus.1 service/man/*; \
	check bash -n service/completions/wumpus.bash; \
	check zsh -n service/completions/_wumpus; \
	exit $$failed

# The package has the proved programs. No network is used.
deb: all
	@$(MAKE) --no-print-directory package

package:
	rm -rf out/deb
	install -D -m 755 $(WUMPUS) out/deb/usr/bin/wumpus
	install -D -m 755 $(PLANNER) out/deb/usr/bin/wumpus-plan
	$(MAKE) --no-print-directory install-service DESTDIR=out/deb PREFIX=/usr \
		UNITDIR=/lib/systemd/system
	gzip -9n out/deb/usr/share/man/man*/*
	install -d out/deb/DEBIAN out/deb/usr/share/doc/wumpus
	cp README.md docs/*.md out/deb/usr/share/doc/wumpus
	sed -e 's/@VERSION@/$(VERSION)/' -e 's/@ARCH@/$(DEB_ARCH)/' service/debian/control \
		>out/deb/DEBIAN/control
	printf '%s\n' /etc/default/wumpus /etc/wumpus/excludes /etc/wumpus/documents \
		>out/deb/DEBIAN/conffiles
	install -m 755 service/debian/postinst service/debian/prerm service/debian/postrm \
		out/deb/DEBIAN
	chmod -R u=rwX,go=rX out/deb
	dpkg-deb --root-owner-group --build out/deb $(DEB)
