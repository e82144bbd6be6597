# What there is to do with this folder; each is a line of what stands already. make alone proves and builds the program.
#
# make install takes PREFIX (/usr/local) and DESTDIR, whatever is in their names: tools/install says where it puts what, and what it leaves alone.

PREFIX ?= /usr/local
DESTDIR ?=
DWG = ./dwg
PROGRAM = crates/dwg_cli/out/dwg_cli

# A name as a word of the shell, whatever is in it but a line end, at which make would part the command.
quoted = '$(subst ','\'',$(1))'

define line_end


endef

# (a dollar sign in a name is one, and begins no variable of make)
ifneq ($(findstring $(line_end),$(value DESTDIR)$(value PREFIX)),)
$(error DESTDIR and PREFIX may not have line ends)
endif

.PHONY: build check test try-cases check-tools bench library install uninstall

build:
	DWG_BUILD=1 $(DWG) drill 1 >/dev/null

# What the merge gate runs: test, try-cases, and what of check-tools needs no program that is built.
check:
	@tools/check-all

test:
	rt ci

try-cases:
	tools/try-cases

check-tools:
	tools/test

bench:
	bench/run

library:
	$(MAKE) -C library

# The tool that installs: its goal, and where; it makes no folder of compiled modules here.
installs = python3 -B -E -X utf8 tools/install $(1) $(call quoted,$(value PREFIX)) $(call quoted,$(value DESTDIR))

install: build
	@$(call installs,install) $(call quoted,$(value PROGRAM))

uninstall:
	@$(call installs,uninstall)
