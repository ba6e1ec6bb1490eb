# Installs the proved program with its unit, man page, completions and pages, or makes a Debian
# package of them.
#
#     make install [DESTDIR=..] [PREFIX=/usr/local]
#     make install-pages [DESTDIR=..] [PREFIX=/usr/local]     the pages alone
#     make uninstall [DESTDIR=..] [PREFIX=/usr/local]
#     make deb
#     make install-gateway [DESTDIR=..] [PREFIX=/usr/local]
#     make uninstall-gateway [DESTDIR=..] [PREFIX=/usr/local]
#     make gateway-deb
#     make packages
#
# The last makes the packages of the program, the gateway and the clients, with their checksums
# (deploy/packages). It and the three before it build pathd-gateway where it is not there
# (gateway/build). `make deb` needs dpkg-deb, git and readelf, and writes out/pathd_VERSION_ARCH.deb.
# Settings that are there are kept by both.
PREFIX = /usr/local
PROGRAM = crates/pathd/out/pathd
GATEWAY = gateway/out/pathd-gateway
BIN = $(DESTDIR)$(PREFIX)/bin
LIB = $(DESTDIR)$(PREFIX)/lib/pathd
MAN = $(DESTDIR)$(PREFIX)/share/man/man1
DOC = $(DESTDIR)$(PREFIX)/share/doc/pathd
UNITS = $(DESTDIR)$(PREFIX)/lib/systemd/system
BASH_COMPLETIONS = $(DESTDIR)$(PREFIX)/share/bash-completion/completions
ZSH_COMPLETIONS = $(DESTDIR)$(PREFIX)/share/zsh/site-functions
SETTINGS = $(DESTDIR)/etc/default/pathd
GATEWAY_DOC = $(DESTDIR)$(PREFIX)/share/doc/pathd-gateway
GATEWAY_SETTINGS = $(DESTDIR)/etc/default/pathd-gateway

PAGES = deploy/debian/README.md CHANGELOG.md docs/CLI.md docs/PROTOCOL.md docs/STORE.md docs/POWER-CUT.md \
  docs/WATCHING.md docs/NETWORK.md docs/CAPACITY.md docs/LIMITS.md docs/GATEWAY.md docs/codes.csv docs/segments.proto \
  docs/frame.svg docs/syncs.svg docs/states.svg docs/memory.svg
TASKS = $(wildcard docs/operating/*.md)
PICTURES = docs/plots.png docs/plots-dark.png
EXAMPLES = deploy/pathd.nft deploy/pathd.rules.yml deploy/grafana-dashboard.json \
  deploy/pathd.service.d/status.conf
UNIT_FILES = pathd.service pathd-standby.service pathd-failed@.service
# The units and the man page name the paths of the default prefix.
PLACED = sed 's|/usr/local/|$(PREFIX)/|g'
# Of the pages that are installed, deploy/ and docs/ are other folders. What a link leads to that is
# not installed is left out, and its text stays; a link's text may have two lines.
nothing =
NAMES = $(subst $(nothing) ,|,$(strip $(notdir $(PAGES) $(TASKS) $(PICTURES) $(EXAMPLES))))
LINKED = sed -zE 's!\]\((\.\./)*docs/!](!g; s!\]\(\.\./(\.\./)?(README|CHANGELOG)\.md!](\1\2.md!g; \
  s!\]\((\.\./)?((\.\./)?)deploy/([^)]*/)?!](\2examples/!g; \
  s!\]\(((\.\./|operating/|examples/|\.\./examples/)?($(NAMES))(\#[^)]*)?|\#[^)]*|https?:[^)]*)\)!]\x01\1\x02!g; \
  s!\[([^][]*)\]\([^)]*\)!\1!g; s/\x01/(/g; s/\x02/)/g; \
  s!(^|[ \n`])deploy/([a-z.]*/)?(pathd\.nft|pathd\.rules\.yml|grafana-dashboard\.json|status\.conf|try)!\1$(PREFIX)/share/doc/pathd/examples/\3!g; \
  s!/usr/local/(bin|lib)/!$(PREFIX)/\1/!g'

help:
	@sed -n '/^#/!q; s/^# \{0,1\}//p' Makefile

$(PROGRAM):
	@echo 'There is no $(PROGRAM). `rt run -- --help` in crates/pathd proves and builds it.' >&2
	@echo 'PROGRAM=.. names a program that is somewhere else.' >&2
	@exit 1

install: $(PROGRAM) install-pages
	install -d $(BIN) $(LIB) $(MAN) $(UNITS) $(BASH_COMPLETIONS) $(ZSH_COMPLETIONS) $(dir $(SETTINGS))
	install -m 755 $(PROGRAM) $(BIN)/pathd
	install -m 755 deploy/pathd-probe $(LIB)
	for unit in $(UNIT_FILES); do \
	  $(PLACED) "deploy/$$unit" >"$(UNITS)/$$unit" && chmod 644 "$(UNITS)/$$unit" || exit; done
	$(PLACED) deploy/pathd.1 >$(MAN)/pathd.1
	chmod 644 $(MAN)/pathd.1
	install -m 644 deploy/pathd.bash $(BASH_COMPLETIONS)/pathd
	install -m 644 deploy/pathd.zsh $(ZSH_COMPLETIONS)/_pathd
	test -e $(SETTINGS) || install -m 644 deploy/pathd.default $(SETTINGS)

install-pages:
	install -d $(DOC)/examples $(DOC)/operating
	for page in $(PAGES); do $(LINKED) $$page >$(DOC)/$${page##*/} || exit; done
	for page in $(TASKS); do $(LINKED) $$page >$(DOC)/operating/$${page##*/} || exit; done
	chmod 644 $(patsubst %,$(DOC)/%,$(notdir $(PAGES))) $(DOC)/operating/*.md
	install -m 644 $(PICTURES) $(DOC)
	install -m 644 $(EXAMPLES) $(DOC)/examples
	install -m 755 deploy/try $(DOC)/examples

# The settings and the store stay.
uninstall:
	rm -f $(BIN)/pathd $(MAN)/pathd.1 $(patsubst %,'$(UNITS)/%',$(UNIT_FILES)) \
	  $(BASH_COMPLETIONS)/pathd $(ZSH_COMPLETIONS)/_pathd
	rm -rf $(LIB) $(DOC)

deb: $(PROGRAM)
	deploy/debian/make-deb pathd $(PROGRAM)

$(GATEWAY):
	mkdir -p $(dir $(GATEWAY))
	gateway/build $(GATEWAY)

install-gateway: $(GATEWAY)
	install -d $(BIN) $(MAN) $(GATEWAY_DOC)/examples $(UNITS) $(BASH_COMPLETIONS) $(ZSH_COMPLETIONS) $(dir $(GATEWAY_SETTINGS))
	install -m 755 $(GATEWAY) $(BIN)/pathd-gateway
	$(PLACED) deploy/pathd-gateway.service >$(UNITS)/pathd-gateway.service
	$(PLACED) deploy/pathd-gateway.1 >$(MAN)/pathd-gateway.1
	chmod 644 $(UNITS)/pathd-gateway.service $(MAN)/pathd-gateway.1
	install -m 644 deploy/pathd-gateway.bash $(BASH_COMPLETIONS)/pathd-gateway
	install -m 644 deploy/pathd-gateway.zsh $(ZSH_COMPLETIONS)/_pathd-gateway
	$(LINKED) docs/GATEWAY.md >$(GATEWAY_DOC)/GATEWAY.md
	chmod 644 $(GATEWAY_DOC)/GATEWAY.md
	install -m 644 docs/segments.proto gateway/control_plane.proto gateway/trust_material.proto gateway/removal.proto $(GATEWAY_DOC)
	install -m 644 deploy/pathd-gateway.rules.yml deploy/pathd-gateway-dashboard.json $(GATEWAY_DOC)/examples
	test -e $(GATEWAY_SETTINGS) || install -m 644 deploy/pathd-gateway.default $(GATEWAY_SETTINGS)

# The settings, certificates and trust stay.
uninstall-gateway:
	rm -f $(BIN)/pathd-gateway $(MAN)/pathd-gateway.1 $(UNITS)/pathd-gateway.service \
	  $(BASH_COMPLETIONS)/pathd-gateway $(ZSH_COMPLETIONS)/_pathd-gateway
	rm -rf $(GATEWAY_DOC)

gateway-deb: $(GATEWAY)
	deploy/debian/make-deb pathd-gateway $(GATEWAY)

packages: $(PROGRAM) $(GATEWAY)
	deploy/packages $(PROGRAM) $(GATEWAY)

.PHONY: help install install-pages uninstall deb install-gateway uninstall-gateway gateway-deb packages
