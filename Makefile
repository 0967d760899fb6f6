#     make try           builds two programs without proof, in three minutes, and stores and gets a file with them
#     make unproved      builds all programs without proof, into out-unproved/
#     make install [PREFIX=/usr/local] [DESTDIR=]       installs programs, manual pages and completions
#     make uninstall [PREFIX=/usr/local] [DESTDIR=]
#     make dist          makes dist/milgroez-VERSION.tar.gz of the proved programs, from which `make install` works too
#
# `./test` proves, builds and tests everything. A program that lies elsewhere is named by SPECIAL, ANNEX_REMOTE_DIR,
# ANNEX_REMOTE_PLAIN or ANNEX_REMOTE_MIRROR.

PREFIX ?= /usr/local
prefix ?= $(PREFIX)
bindir ?= $(prefix)/bin
datadir ?= $(prefix)/share
mandir ?= $(datadir)/man
bashdir ?= $(datadir)/bash-completion/completions
zshdir ?= $(datadir)/zsh/site-functions
fishdir ?= $(datadir)/fish/vendor_completions.d

INSTALL ?= install
INSTALL_PROGRAM ?= $(INSTALL) -m 755
INSTALL_DATA ?= $(INSTALL) -m 644

# A program of a tarball, or else a proved one, or else one without proof.
SPECIAL ?= $(firstword $(wildcard bin/special crates/special_bin/out/special_bin out-unproved/special))
ANNEX_REMOTE_DIR ?= $(firstword $(wildcard bin/annex-remote-dir crates/remote_dir_bin/out/remote_dir_bin out-unproved/annex-remote-dir))
ANNEX_REMOTE_PLAIN ?= $(firstword $(wildcard bin/annex-remote-plain crates/remote_plain_bin/out/remote_plain_bin out-unproved/annex-remote-plain))
ANNEX_REMOTE_MIRROR ?= $(firstword $(wildcard bin/annex-remote-mirror crates/remote_mirror_bin/out/remote_mirror_bin out-unproved/annex-remote-mirror))

PROGRAMS = "special=$(SPECIAL)" "annex-remote-dir=$(ANNEX_REMOTE_DIR)" \
  "annex-remote-plain=$(ANNEX_REMOTE_PLAIN)" "annex-remote-mirror=$(ANNEX_REMOTE_MIRROR)"
NAMES = special annex-remote-dir annex-remote-plain annex-remote-mirror git-annex-remote-milgroez git-annex-remote-mirror

# Scripts, and the folders of modules that they use, lie together in share/milgroez, with a link to each script in bin.
MODULES = $(sort $(dir $(wildcard contrib/*/*.py)))
SCRIPTS = $(sort $(shell find contrib -maxdepth 1 -type f -perm -100))
scriptdir = $(datadir)/milgroez
ifeq ($(bindir) $(datadir),$(prefix)/bin $(prefix)/share)
linkdir = ../share/milgroez
else
linkdir = $(scriptdir)
endif

PAGES = $(wildcard man/*.1)
BASH = $(wildcard completions/*.bash)
ZSH = $(wildcard completions/_*)
FISH = $(wildcard completions/*.fish)
FOLDERS = $(bindir) $(mandir)/man1 $(bashdir) $(zshdir) $(fishdir) $(scriptdir)

.PHONY: all try unproved dist install uninstall

all:
	@sed -n '/^$$/q; s/^# \{0,1\}//p' Makefile

try:
	@tools/try

unproved:
	@python3 tools/unproved

dist:
	@python3 tools/dist $(PROGRAMS)

install:
	@for pair in $(PROGRAMS); do \
	  name=$${pair%%=*} file=$${pair#*=}; \
	  if test -n "$$file" && test -x "$$file"; then continue; fi; \
	  echo "make: there is no $$name$${file:+ at $$file}" >&2; \
	  echo "make: 'make unproved' builds it without proof, in about five minutes; './test' proves it, in one to two hours" >&2; \
	  case $$name in special | annex-remote-dir) exit 1 ;; esac; \
	done
	@rm -rf "$(DESTDIR)$(scriptdir)"
	@for folder in $(FOLDERS); do $(INSTALL) -d "$(DESTDIR)$$folder" || exit 1; done
	@for pair in $(PROGRAMS); do \
	  name=$${pair%%=*} file=$${pair#*=}; \
	  if test -z "$$file" || ! test -x "$$file"; then continue; fi; \
	  $(INSTALL_PROGRAM) "$$file" "$(DESTDIR)$(bindir)/$$name" || exit 1; \
	  case $$file in \
	    out-unproved/* | */out-unproved/*) echo "$(bindir)/$$name: NOT PROVED, compiled by 'make unproved'" ;; \
	    *) echo "$(bindir)/$$name" ;; \
	  esac; \
	  case $$name in \
	    annex-remote-dir) ln -sf $$name "$(DESTDIR)$(bindir)/git-annex-remote-milgroez" ;; \
	    annex-remote-mirror) ln -sf $$name "$(DESTDIR)$(bindir)/git-annex-remote-mirror" ;; \
	  esac || exit 1; \
	done
	@for script in $(SCRIPTS); do \
	  name=$${script##*/}; \
	  $(INSTALL_PROGRAM) "$$script" "$(DESTDIR)$(scriptdir)" && \
	  ln -sf "$(linkdir)/$$name" "$(DESTDIR)$(bindir)/$$name" && echo "$(bindir)/$$name" || exit 1; \
	done
	@for folder in $(MODULES); do \
	  name=$$(basename $$folder); \
	  $(INSTALL) -d "$(DESTDIR)$(scriptdir)/$$name" || exit 1; \
	  for file in $$folder*; do \
	    ! test -f "$$file" || $(INSTALL_DATA) "$$file" "$(DESTDIR)$(scriptdir)/$$name" || exit 1; \
	  done; \
	done
	@for page in $(PAGES); do $(INSTALL_DATA) "$$page" "$(DESTDIR)$(mandir)/man1" || exit 1; done
	@for file in $(BASH); do name=$${file##*/}; $(INSTALL_DATA) "$$file" "$(DESTDIR)$(bashdir)/$${name%.bash}" || exit 1; done
	@for file in $(ZSH); do $(INSTALL_DATA) "$$file" "$(DESTDIR)$(zshdir)" || exit 1; done
	@for file in $(FISH); do $(INSTALL_DATA) "$$file" "$(DESTDIR)$(fishdir)" || exit 1; done

# Folders that others may use stay.
uninstall:
	@for name in $(NAMES) $(notdir $(SCRIPTS)); do rm -f "$(DESTDIR)$(bindir)/$$name" || exit 1; done
	@for page in $(notdir $(PAGES)); do rm -f "$(DESTDIR)$(mandir)/man1/$$page" || exit 1; done
	@for name in $(notdir $(basename $(BASH))); do rm -f "$(DESTDIR)$(bashdir)/$$name" || exit 1; done
	@for name in $(notdir $(ZSH)); do rm -f "$(DESTDIR)$(zshdir)/$$name" || exit 1; done
	@for name in $(notdir $(FISH)); do rm -f "$(DESTDIR)$(fishdir)/$$name" || exit 1; done
	@rm -rf "$(DESTDIR)$(scriptdir)"
