# library.mk: what cli, tests and bench have in common: the library, the listing and the compilers. All of it is for x86-64, as the
# Rattle toolchain is.
#
#   CC, CFLAGS, LDFLAGS     for what is linked with the library
#   HOST_CC, HOST_CXX       for what isn't
#   PROGRAM                 the command-line program that CC makes

ROOT := $(dir $(lastword $(MAKEFILE_LIST)))
include $(ROOT)names.mk

LIBRARY = $(ROOT)target/staticlib/libfiddlemarsh.a
LISTING = $(ROOT)crates/listing/out/listing
HEADER = $(ROOT)include/fiddlemarsh.h
PROGRAM = $(ROOT)cli/$(BUILD)/fiddlemarsh
PROGRAM_SOURCES = $(patsubst %,$(ROOT)cli/%.c,fiddlemarsh check press same samples period input output names say)
BUILD = build
CFLAGS = -O2 -g
WARNINGS = -std=c11 -Wall -Wextra
HOST_CC = cc
HOST_CXX = c++

# Objects of another compiler or other flags are never taken over.
SETTINGS := $(CC) $(CFLAGS) $(LDFLAGS)
$(shell mkdir -p $(BUILD) && { [ "$$(cat $(BUILD)/settings 2>/dev/null)" = '$(SETTINGS)' ] || printf '%s\n' '$(SETTINGS)' >$(BUILD)/settings; })

# What was proved of the crates that have not changed is not proved again. One rt at a time. What rt makes lies in each crate's out/.
CRATES := $(shell find $(ROOT)crates -name out -prune -o \( -name '*.rt' -o -name '*.antt' \) -print) $(ROOT)crates.txt

# Without --cpu rt compiles for x86-64-v2, which not every x86-64 is.
$(LIBRARY): $(CRATES)
	cd $(ROOT)crates/fiddlemarsh && rt lib --cpu=x86-64
	install -D -m 644 $(ROOT)crates/fiddlemarsh/out/libfiddlemarsh.a $@

# `rt ci` leaves it there too. `rt run` also runs it, here on no input.
$(LISTING): $(CRATES) | $(LIBRARY)
	cd $(ROOT)crates/listing && rt run </dev/null
	touch $@

$(BUILD)/%.o: $(ROOT)tests/%.c $(wildcard $(ROOT)tests/*.h) $(HEADER) $(BUILD)/settings
	$(CC) $(WARNINGS) $(CFLAGS) -c $< -o $@
