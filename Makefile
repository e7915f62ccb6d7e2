# Builds and installs the programs: `make` proves and builds each, `make install PREFIX=/usr/local` copies them, with a manual
# page and bash's completions of each, made of its `--help`. `make c` and `make install-c` do the same for the library for C.
# `make dist` packs both for machines without the toolchain. `make quick` builds the programs in minutes and proves nothing:
# quick/NAME-unproved for each NAME. Each says first which tools it lacks.
# `rt run` writes a proved program to crates/NAME/out/NAME; what it writes on its own input is not looked at here.
PREFIX ?= /usr/local
# Installed, a program's name begins so: `look`, `filter` and `viewer` are names of other programs too.
PROGRAM_PREFIX ?= jiter-
PROGRAMS = look csv_of filter format importer viewer
BUILT = $(foreach name,$(PROGRAMS),crates/$(name)/out/$(name))
LIBRARIES = $(wildcard crates/jiter*/src/*.rt crates/jiter*/src/*/*.rt crates/json_lines/src/*.rt crates/json_screen/src/*.rt)
BIN = $(DESTDIR)$(PREFIX)/bin
MANUALS = $(DESTDIR)$(PREFIX)/share/man/man1
COMPLETIONS = $(DESTDIR)$(PREFIX)/share/bash-completion/completions

# TOOL..: says in a line each which tools are missing, and ends if one is.
needs = @missing=; for tool in $(1); do command -v "$$tool" >/dev/null || { echo "there is no $$tool: install it" >&2; missing=1; }; done; \
  test -z "$$missing"

all: $(BUILT)

.SECONDEXPANSION:
$(BUILT): $$(wildcard $$(dir $$(patsubst %/,%,$$(dir $$@)))src/*.rt) $(LIBRARIES)
	$(call needs,rt)
	rm -f $@
	cd $(dir $(patsubst %/,%,$(dir $@))) && rt run </dev/null >/dev/null; test -x out/$(notdir $@)

# PROGRAM,NAME: what prints the help of a program that is installed under this name. `look` takes no `--help`.
help = $(if $(filter look,$(notdir $(1))),cat crates/look/help,$(BIN)/$(2) --help)

# PROGRAM,NAME: installs a program under this name.
define install_program
	install $(1) $(BIN)/$(2)
	$(call help,$(1),$(2)) | awk -v name=$(2) -f manual.awk >$(MANUALS)/$(2).1
	$(call help,$(1),$(2)) | awk -v name=$(2) -v form=completion -f manual.awk >$(COMPLETIONS)/$(2)

endef

install: all
	$(call needs,awk)
	install -d $(BIN) $(MANUALS) $(COMPLETIONS)
	$(foreach program,$(BUILT),$(call install_program,$(program),$(PROGRAM_PREFIX)$(notdir $(program))))

c:
	$(MAKE) -C ffi

install-c:
	$(MAKE) -C ffi install PREFIX=$(PREFIX)

# The programs without a proof, as `rt try` builds them: their names and their folder say so. Nothing installs them.
quick:
	$(call needs,rt python3)
	checks/tests --keep quick $(PROGRAMS)

# One archive of the programs and the library for C. It proves what isn't proved yet.
dist: all
	$(call needs,rt python3 ar gcc git tar gzip sha256sum awk)
	rm -rf ffi/build/programs
	$(MAKE) install DESTDIR= PREFIX=$(CURDIR)/ffi/build/programs
	$(MAKE) -C ffi dist WITH=build/programs

uninstall:
	rm -f $(foreach name,$(addprefix $(PROGRAM_PREFIX),$(PROGRAMS)),$(BIN)/$(name) $(MANUALS)/$(name).1 $(COMPLETIONS)/$(name))

.PHONY: all install c install-c quick dist uninstall
